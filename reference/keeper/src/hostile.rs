//! Hostile lines: one trick for each way of going wrong that the paper names,
//! each with the answer it aims at, so that a session can tell whether every way
//! was really gone.
//!
//! The protocol's paper, section 6; some are shortcuts that
//! look right.

use crate::random::Random;
use reference::frames::{line_of, KINDS, LONGEST_FRAME, MOST_SIBLINGS};
use reference::strings::{Digest, ZERO};
use std::collections::VecDeque;
use std::ops::Range;

/// The four sorts of memorandum.
#[derive(Clone, Copy, Debug, PartialEq, Eq)]
pub enum Sort {
    U1,
    V1,
    U2,
    Ei,
}

/// A way of going wrong, or of going right where one might expect a refusal. A
/// `u8` is the kind of request; a `usize` tells which of its numbers or memoranda.
#[derive(Clone, Copy, Debug, PartialEq, Eq, Hash)]
pub enum Trick {
    // Damaged lines: refusal 1.
    EmptyLine,
    OddLength,
    OneDigitShortOfLongest,
    BadDigit,
    UpperCase,
    CarriageReturn,
    Nul,
    OneDigitTooLong,
    TwoDigitsTooLong,
    FarTooLong,
    PathOf65Whole,
    // Kinds not in the table: refusal 2.
    UnknownKind,
    ReplyKind,
    LongestUnknownKind,
    // Wrong lengths: refusal 3.
    OneByteShort(u8),
    OneByteLong(u8),
    KindAlone(u8),
    LongestShortKind,
    PathOf65InLongest,
    PathOfManyLevels,
    SideBitAtN,
    SideBitAboveN,
    SiblingMissing,
    SiblingTooMany,
    // Opening: refusals 13, 12, 14.
    BeforeOpening(u8),
    ZeroSecret,
    OpenAgain,
    OpenAgainWithZero,
    // Numbers and records: refusals 4, 5, 16, 6, 11.
    ZeroNumber(u8, usize),
    SillyItemZero,
    MalformedRecord(u8),
    SillyMalformed,
    SillyMass(usize),
    SillySet(usize),
    PlaceOutsideGap,
    InsertOutsideGap,
    AskOutsideGap,
    ClearOfEmpty,
    ClearOfListedEmpty,
    // Memoranda: refusals 8 and 9.
    FlippedMemorandum(u8, usize),
    ZeroMemorandum(u8, usize),
    ForeignMemorandum(u8, usize),
    OtherMemorandum(u8, usize),
    ExchangedFields(u8),
    OldCounterSet,
    EarlySet,
    NewHalvesApart,
    OldHalvesApart,
    // Stale roots: refusal 10.
    StaleAdopt,
    StaleAsk,
    StaleClear,
    StaleSet,
    AskNoneOfSome,
    MadeUpAdopt,
    MadeUpAsk,
    // Odd, but accepted.
    PathUnchanged,
    PathOfNoLevels,
    PathOf63,
    PathOf64,
    PathOfZeroSiblings,
    PathFromZero,
    PairOtherWayRound,
    AdoptSameRoot,
}

impl Trick {
    /// Every trick.
    pub fn all() -> Vec<Trick> {
        use Trick::*;
        let mut all = vec![
            EmptyLine,
            OddLength,
            OneDigitShortOfLongest,
            BadDigit,
            UpperCase,
            CarriageReturn,
            Nul,
            OneDigitTooLong,
            TwoDigitsTooLong,
            FarTooLong,
            PathOf65Whole,
            UnknownKind,
            ReplyKind,
            LongestUnknownKind,
            LongestShortKind,
            PathOf65InLongest,
            PathOfManyLevels,
            SideBitAtN,
            SideBitAboveN,
            SiblingMissing,
            SiblingTooMany,
            ZeroSecret,
            OpenAgain,
            OpenAgainWithZero,
            SillyItemZero,
            SillyMalformed,
            PlaceOutsideGap,
            InsertOutsideGap,
            AskOutsideGap,
            ClearOfEmpty,
            ClearOfListedEmpty,
            OldCounterSet,
            EarlySet,
            NewHalvesApart,
            OldHalvesApart,
            StaleAdopt,
            StaleAsk,
            StaleClear,
            StaleSet,
            AskNoneOfSome,
            MadeUpAdopt,
            MadeUpAsk,
            PathUnchanged,
            PathOfNoLevels,
            PathOf63,
            PathOf64,
            PathOfZeroSiblings,
            PathFromZero,
            PairOtherWayRound,
            AdoptSameRoot,
        ];
        all.extend(KINDS.flat_map(|kind| [OneByteShort(kind), OneByteLong(kind), KindAlone(kind)]));
        all.extend(KINDS.filter(|kind| *kind != 0x10).map(BeforeOpening));
        all.extend((0..SILLY_KG.len()).flat_map(|which| [SillyMass(which), SillySet(which)]));
        for kind in KINDS {
            all.extend((0..numbers_in(kind)).map(|which| ZeroNumber(kind, which)));
            let memoranda = memoranda_in(kind);
            for which in 0..memoranda.len() {
                all.push(FlippedMemorandum(kind, which));
                all.push(ZeroMemorandum(kind, which));
                all.push(ForeignMemorandum(kind, which));
                all.push(OtherMemorandum(kind, which));
            }
            all.extend(exchangeable(kind).map(|_| ExchangedFields(kind)));
            all.extend(record_offset(kind).map(|_| MalformedRecord(kind)));
        }
        all
    }

    /// The refusal aimed at; none if the line is to be accepted.
    pub fn aim(self) -> Option<u8> {
        use Trick::*;
        match self {
            EmptyLine
            | OddLength
            | OneDigitShortOfLongest
            | BadDigit
            | UpperCase
            | CarriageReturn
            | Nul
            | OneDigitTooLong
            | TwoDigitsTooLong
            | FarTooLong
            | PathOf65Whole => Some(1),
            UnknownKind | ReplyKind | LongestUnknownKind => Some(2),
            OneByteShort(_) | OneByteLong(_) | KindAlone(_) | LongestShortKind
            | PathOf65InLongest | PathOfManyLevels | SideBitAtN | SideBitAboveN
            | SiblingMissing | SiblingTooMany => Some(3),
            BeforeOpening(_) => Some(13),
            ZeroSecret => Some(12),
            OpenAgain | OpenAgainWithZero => Some(14),
            ZeroNumber(..) | SillyItemZero => Some(4),
            MalformedRecord(_) | SillyMalformed => Some(5),
            SillyMass(_) | SillySet(_) => Some(16),
            PlaceOutsideGap | InsertOutsideGap | AskOutsideGap => Some(6),
            ClearOfEmpty | ClearOfListedEmpty => Some(11),
            FlippedMemorandum(_, which)
            | ZeroMemorandum(_, which)
            | ForeignMemorandum(_, which)
            | OtherMemorandum(_, which) => Some(8 + which as u8),
            ExchangedFields(_) | OldCounterSet | EarlySet => Some(8),
            NewHalvesApart | OldHalvesApart => Some(9),
            StaleAdopt | StaleAsk | StaleClear | StaleSet | AskNoneOfSome | MadeUpAdopt
            | MadeUpAsk => Some(10),
            PathUnchanged | PathOfNoLevels | PathOf63 | PathOf64 | PathOfZeroSiblings
            | PathFromZero | PairOtherWayRound | AdoptSameRoot => None,
        }
    }

    /// The kind of request this trick damages, if it starts from a good one.
    pub fn base_kind(self) -> Option<u8> {
        use Trick::*;
        match self {
            ZeroNumber(kind, _)
            | MalformedRecord(kind)
            | FlippedMemorandum(kind, _)
            | ZeroMemorandum(kind, _)
            | ForeignMemorandum(kind, _)
            | OtherMemorandum(kind, _)
            | ExchangedFields(kind) => Some(kind),
            PairOtherWayRound => Some(0x04),
            PlaceOutsideGap => Some(0x08),
            OldCounterSet | SillyItemZero | SillyMalformed | SillyMass(_) => Some(0x0c),
            ClearOfEmpty => Some(0x0d),
            AskOutsideGap => Some(0x0e),
            StaleAdopt => Some(0x0b),
            StaleClear => Some(0x0d),
            StaleAsk => Some(0x0e),
            _ => None,
        }
    }
}

/// Masses in kilograms that no set may give (§3.4.4): the edges, 61,400 kg typed in grams, and
/// some that are small again in their last bytes.
pub const SILLY_KG: [u64; 7] =
    [0, 2_000_001, 61_400_000, (1 << 32) + 500, 1 << 63, (1 << 56) + 61_400, u64::MAX];

/// Where the mass that a set gives stands.
const SET_MASS: Range<usize> = 49..57;

/// How many item numbers a kind carries: q, A, A' and B', at the frame's start.
fn numbers_in(kind: u8) -> usize {
    match kind {
        0x07 | 0x0f => 1,
        0x0c | 0x0d => 2,
        0x08 | 0x0e => 3,
        _ => 0,
    }
}

/// Where the memoranda of a kind stand, and their sorts.
fn memoranda_in(kind: u8) -> Vec<(usize, Sort)> {
    use Sort::*;
    match kind {
        0x02 => vec![(65, U1)],
        0x03 => vec![(129, U1), (225, U1)],
        0x04 => vec![(129, U1), (289, U1)],
        0x05 => vec![(193, U2), (289, U1)],
        0x06 => vec![(129, U2)],
        0x08 => vec![(121, U2)],
        0x09 => vec![(65, Ei)],
        0x0a => vec![(65, Ei), (129, Ei)],
        0x0b => vec![(65, Ei)],
        0x0c => vec![(137, U1)],
        0x0d => vec![(113, U1)],
        0x0e => vec![(89, V1)],
        _ => vec![],
    }
}

/// The sort of memorandum a kind's reply lists.
fn sort_issued_by(kind: u8) -> Option<Sort> {
    match kind {
        0x01 | 0x03 => Some(Sort::U1),
        0x02 => Some(Sort::V1),
        0x04 | 0x05 => Some(Sort::U2),
        0x06..=0x0a => Some(Sort::Ei),
        _ => None,
    }
}

/// Two digests of a kind which, if they differ, may not be exchanged.
fn exchangeable(kind: u8) -> Option<(usize, usize)> {
    match kind {
        0x02..=0x06 | 0x09..=0x0b => Some((1, 33)),
        0x08 => Some((57, 89)),
        0x0c => Some((73, 105)),
        0x0d => Some((49, 81)),
        0x0e => Some((57, 89)),
        _ => None,
    }
}

/// Where the record of a kind stands.
fn record_offset(kind: u8) -> Option<usize> {
    match kind {
        0x0c | 0x0d => Some(17),
        0x0e => Some(25),
        _ => None,
    }
}

/// Where the y that must be the root stands.
fn root_offset(kind: u8) -> Option<usize> {
    match kind {
        0x0b => Some(1),
        0x0c => Some(73),
        0x0d => Some(49),
        0x0e => Some(57),
        _ => None,
    }
}

/// Bytes of a frame of each kind, but for path, which is given its levels.
fn frame_length(kind: u8, levels: usize) -> usize {
    match kind {
        0x01 => 74 + 32 * levels,
        0x02 | 0x09 | 0x0b => 97,
        0x03 => 257,
        0x04 | 0x05 => 321,
        0x06 | 0x0a => 161,
        0x08 => 153,
        0x0c => 169,
        0x0d => 145,
        0x0e => 121,
        0x10 => 33,
        _ => 9,
    }
}

/// What a session has seen so far that a hostile line can be made of.
#[derive(Clone, Debug, Default)]
pub struct Seen {
    accepted: Vec<VecDeque<Vec<u8>>>,
    issued: Vec<(Sort, Digest)>,
}

/// Accepted frames remembered of each kind, and memoranda in all.
const FRAMES_REMEMBERED: usize = 40;
const MEMORANDA_REMEMBERED: usize = 200;

impl Seen {
    pub fn new() -> Seen {
        Seen { accepted: vec![VecDeque::new(); usize::from(*KINDS.end()) + 1], issued: Vec::new() }
    }

    /// Remembers an accepted frame and the memorandum it had issued.
    pub fn remember(&mut self, frame: &[u8], issued: Option<Digest>) {
        let frames = &mut self.accepted[usize::from(frame[0])];
        frames.push_back(frame.to_vec());
        if frames.len() > FRAMES_REMEMBERED {
            frames.pop_front();
        }
        if let (Some(sort), Some(memorandum)) = (sort_issued_by(frame[0]), issued) {
            self.issued.push((sort, memorandum));
            if self.issued.len() > MEMORANDA_REMEMBERED {
                self.issued.remove(0);
            }
        }
    }

    fn frame(&self, kind: u8, random: &mut Random) -> Option<Vec<u8>> {
        let frames: Vec<&Vec<u8>> = self.accepted[usize::from(kind)].iter().collect();
        random.pick(&frames).cloned()
    }

    /// An accepted frame whose y is not the root any more.
    fn stale_frame(&self, kind: u8, root: &Digest, random: &mut Random) -> Option<Vec<u8>> {
        let offset = root_offset(kind)?;
        let stale = |frame: &&Vec<u8>| frame[offset..offset + 32] != root[..];
        let frames: Vec<&Vec<u8>> = self.accepted[usize::from(kind)].iter().filter(stale).collect();
        random.pick(&frames).cloned()
    }

    fn memorandum(
        &self,
        random: &mut Random,
        wanted: impl Fn(Sort, &Digest) -> bool,
    ) -> Option<Digest> {
        let fits = |entry: &&(Sort, Digest)| wanted(entry.0, &entry.1);
        let found: Vec<Digest> = self.issued.iter().filter(fits).map(|entry| entry.1).collect();
        random.pick(&found)
    }
}

/// What a trick may look at.
pub struct Scene<'a> {
    pub seen: &'a Seen,
    pub root: Digest,
    pub opened: bool,
    /// A good frame about to be sent, to be damaged if the trick is on its kind.
    pub fresh: Option<&'a [u8]>,
}

/// The line of a trick, without 0A, or none if the scene does not allow it now.
/// Tricks that need replies of their own are made elsewhere and give none here.
pub fn line(trick: Trick, scene: &Scene, random: &mut Random) -> Option<Vec<u8>> {
    use Trick::*;
    let before_opening = matches!(trick, BeforeOpening(_) | ZeroSecret);
    let at_any_time = trick.aim().map_or(false, |number| number <= 3);
    if !at_any_time && scene.opened == before_opening {
        return None;
    }
    damaged_line(trick, random)
        .or_else(|| Some(digits(&damaged_frame(trick, random)?)))
        .or_else(|| Some(digits(&path_frame(trick, random)?)))
        .or_else(|| Some(digits(&false_request(trick, scene, random)?)))
        .or_else(|| Some(digits(&false_memorandum(trick, scene, random)?)))
}

/// A frame as a line without 0A.
pub fn digits(frame: &[u8]) -> Vec<u8> {
    let mut line = line_of(frame);
    line.pop();
    line
}

/// A frame of the right length for its kind, with random fields.
pub fn random_frame(kind: u8, random: &mut Random) -> Vec<u8> {
    let levels = random.below(MOST_SIBLINGS);
    if kind == 0x01 {
        return path(levels, levels, random.number() & below_bit(levels), random);
    }
    let mut frame = random.bytes(frame_length(kind, 0));
    frame[0] = kind;
    frame
}

/// All bits below `levels`, which is at most 64.
pub(crate) fn below_bit(levels: usize) -> u64 {
    if levels == 64 {
        u64::MAX
    } else {
        (1 << levels) - 1
    }
}

/// A path frame with its n, its siblings and its sides given apart.
pub(crate) fn path(n: usize, siblings: usize, sides: u64, random: &mut Random) -> Vec<u8> {
    let mut frame = vec![0x01];
    frame.extend(random.digest());
    frame.extend(random.digest());
    frame.push(n as u8);
    frame.extend(sides.to_be_bytes());
    for _ in 0..siblings {
        frame.extend(random.digest());
    }
    frame
}

/// Lines that are no frames.
fn damaged_line(trick: Trick, random: &mut Random) -> Option<Vec<u8>> {
    use Trick::*;
    let kind = 1 + random.below(16) as u8;
    let good = digits(&random_frame(kind, random));
    let longest = 2 * LONGEST_FRAME;
    Some(match trick {
        EmptyLine => Vec::new(),
        OddLength => good[..good.len() - 1].to_vec(),
        OneDigitShortOfLongest => digits_of_length(longest - 1, random),
        OneDigitTooLong => digits_of_length(longest + 1, random),
        TwoDigitsTooLong => digits_of_length(longest + 2, random),
        FarTooLong => digits_of_length(100_000, random),
        BadDigit => {
            let wrong = random.pick(b"gG/:@`~ \t\r\x0b\x7f\x80\xff\xc3")?;
            with_byte(good, random, wrong)
        }
        UpperCase => {
            let wrong = random.pick(b"ABCDEF")?;
            with_byte(good, random, wrong)
        }
        Nul => with_byte(good, random, 0),
        CarriageReturn => [&good[..], b"\r"].concat(),
        _ => return None,
    })
}

pub(crate) fn digits_of_length(length: usize, random: &mut Random) -> Vec<u8> {
    let mut line = digits(&random.bytes(length / 2 + 1));
    line.truncate(length);
    line
}

pub(crate) fn with_byte(mut line: Vec<u8>, random: &mut Random, byte: u8) -> Vec<u8> {
    let at = random.below(line.len());
    line[at] = byte;
    line
}

/// Frames of unknown kinds and wrong lengths.
fn damaged_frame(trick: Trick, random: &mut Random) -> Option<Vec<u8>> {
    use Trick::*;
    let unknown = random.pick(&[0x00, 0x11, 0x12, 0x20, 0x70, 0x7f, 0x80, 0x91, 0xfe, 0xff])?;
    Some(match trick {
        UnknownKind => {
            let length = 1 + random.below(200);
            with_kind(random.bytes(length), unknown)
        }
        LongestUnknownKind => with_kind(random.bytes(LONGEST_FRAME), unknown),
        ReplyKind => {
            let kind = 1 + random.below(16) as u8;
            with_kind(random_frame(kind, random), kind + 0x80)
        }
        OneByteShort(kind) => {
            let mut frame = random_frame(kind, random);
            frame.pop();
            frame
        }
        OneByteLong(kind) => {
            let mut frame = random_frame(kind, random);
            frame.push(random.number() as u8);
            frame
        }
        KindAlone(kind) => vec![kind],
        LongestShortKind => {
            let kind = 2 + random.below(15) as u8;
            with_kind(random.bytes(LONGEST_FRAME), kind)
        }
        BeforeOpening(kind) => random_frame(kind, random),
        ZeroSecret | OpenAgainWithZero => with_kind(vec![0; 33], 0x10),
        OpenAgain => random_frame(0x10, random),
        _ => return None,
    })
}

pub(crate) fn with_kind(mut frame: Vec<u8>, kind: u8) -> Vec<u8> {
    frame[0] = kind;
    frame
}

/// Paths, bad and odd.
fn path_frame(trick: Trick, random: &mut Random) -> Option<Vec<u8>> {
    use Trick::*;
    let some = random.below(64);
    let sides = random.number();
    Some(match trick {
        PathOf65Whole => path(65, 65, sides, random),
        PathOf65InLongest => path(65, 64, sides, random),
        PathOfManyLevels => path(66 + random.below(190), some, sides, random),
        SideBitAtN => path(some, some, sides & below_bit(some) | 1 << some, random),
        SideBitAboveN => path(some, some, sides & below_bit(some) | 1 << 63, random),
        SiblingMissing => path(some + 1, some, sides & below_bit(some), random),
        SiblingTooMany => path(some, some + 1, sides & below_bit(some), random),
        PathUnchanged => with_same_ends(path(some, some, sides & below_bit(some), random)),
        PathOfNoLevels => path(0, 0, 0, random),
        PathOf63 => path(63, 63, sides & below_bit(63), random),
        PathOf64 => path(64, 64, sides, random),
        PathOfZeroSiblings => zeroed(path(some, some, sides & below_bit(some), random), 74, some),
        PathFromZero => zeroed(path(some, some, sides & below_bit(some), random), 1, 1),
        _ => return None,
    })
}

/// A path whose x' is its x.
fn with_same_ends(mut frame: Vec<u8>) -> Vec<u8> {
    frame.copy_within(1..33, 33);
    frame
}

/// The frame with that many digests from `offset` made zero.
fn zeroed(mut frame: Vec<u8>, offset: usize, digests: usize) -> Vec<u8> {
    frame[offset..offset + 32 * digests].fill(0);
    frame
}

/// A good frame of the trick's kind: the one about to be sent, or an earlier one.
fn base(trick: Trick, scene: &Scene, random: &mut Random) -> Option<Vec<u8>> {
    let kind = trick.base_kind()?;
    match scene.fresh {
        Some(fresh) if fresh[0] == kind => Some(fresh.to_vec()),
        _ => scene.seen.frame(kind, random),
    }
}

/// Good frames with a false number, record, gap, counter or root.
fn false_request(trick: Trick, scene: &Scene, random: &mut Random) -> Option<Vec<u8>> {
    use Trick::*;
    match trick {
        ZeroNumber(_, which) => {
            let mut frame = base(trick, scene, random)?;
            frame[number_at(which)].fill(0);
            Some(frame)
        }
        MalformedRecord(kind) => {
            let record = record_offset(kind)?;
            let mut frame = base(trick, scene, random)?;
            frame[record..record + 8].fill(0);
            frame[record + 15] |= 1;
            Some(frame)
        }
        SillyItemZero | SillyMalformed => {
            let damage = if trick == SillyItemZero {
                ZeroNumber(0x0c, random.below(2))
            } else {
                MalformedRecord(0x0c)
            };
            let mut frame = false_request(damage, scene, random)?;
            frame[SET_MASS].fill(0);
            Some(frame)
        }
        SillyMass(which) => {
            let mut frame = base(trick, scene, random)?;
            frame[SET_MASS].copy_from_slice(&SILLY_KG[which].to_be_bytes());
            Some(frame)
        }
        PlaceOutsideGap => {
            let mut frame = base(trick, scene, random)?;
            let end = random.pick(&[0, 2])?;
            frame.copy_within(number_at(end), number_at(1).start);
            Some(frame)
        }
        AskOutsideGap => {
            let mut frame = base(trick, scene, random)?;
            frame.copy_within(number_at(2), number_at(0).start);
            let q_is_item = frame[number_at(0)] == frame[number_at(1)];
            Some(frame).filter(|_| !q_is_item)
        }
        ClearOfEmpty => {
            let mut frame = base(trick, scene, random)?;
            frame[17..49].fill(0);
            Some(frame)
        }
        OldCounterSet => scene.seen.frame(0x0c, random),
        StaleAdopt | StaleAsk | StaleClear => {
            scene.seen.stale_frame(trick.base_kind()?, &scene.root, random)
        }
        AskNoneOfSome if scene.root != ZERO => {
            let frame = [&[0x0f][..], &random.item().to_be_bytes()].concat();
            Some(frame)
        }
        PairOtherWayRound => {
            let frame = base(trick, scene, random)?;
            Some([&frame[..1], &frame[161..], &frame[1..161]].concat())
        }
        _ => None,
    }
}

/// The bytes of the number at that position of a frame.
fn number_at(which: usize) -> Range<usize> {
    1 + 8 * which..9 + 8 * which
}

/// Good frames with a false memorandum, or with fields exchanged under a true one.
fn false_memorandum(trick: Trick, scene: &Scene, random: &mut Random) -> Option<Vec<u8>> {
    use Trick::*;
    match trick {
        ExchangedFields(kind) => {
            let (first, second) = exchangeable(kind)?;
            let mut frame = base(trick, scene, random)?;
            let (early, late) = frame.split_at_mut(second);
            let (one, other) = (&mut early[first..first + 32], &mut late[..32]);
            let differ = one != other;
            one.swap_with_slice(other);
            Some(frame).filter(|_| differ)
        }
        FlippedMemorandum(kind, which)
        | ZeroMemorandum(kind, which)
        | ForeignMemorandum(kind, which)
        | OtherMemorandum(kind, which) => {
            let (at, sort) = *memoranda_in(kind).get(which)?;
            let mut frame = base(trick, scene, random)?;
            let mut memorandum: Digest = frame[at..at + 32].try_into().ok()?;
            memorandum = match trick {
                FlippedMemorandum(..) => {
                    memorandum[random.below(32)] ^= 1 << random.below(8);
                    memorandum
                }
                ZeroMemorandum(..) => ZERO,
                ForeignMemorandum(..) => scene.seen.memorandum(random, |other, _| other != sort)?,
                _ => scene.seen.memorandum(random, |other, m| other == sort && *m != memorandum)?,
            };
            frame[at..at + 32].copy_from_slice(&memorandum);
            Some(frame)
        }
        _ => None,
    }
}
