//! Times the proved digest beside a plain Rust one on the same messages, in the same run.
//!
//! `scripts/bench-digest` builds and runs it. Both sides are built for release; messages are made once, and
//! two of their bytes change before each digest so that none can be hoisted out of the loop. The two sides take
//! turns, pass by pass, and the best pass of each counts. What it prints says how many there were, and what each
//! side clears.

use std::sync::atomic::{AtomicU8, Ordering};
use std::time::Instant;

#[rustfmt::skip]
const K: [u32; 64] = [
    0x428a2f98, 0x71374491, 0xb5c0fbcf, 0xe9b5dba5, 0x3956c25b, 0x59f111f1, 0x923f82a4, 0xab1c5ed5,
    0xd807aa98, 0x12835b01, 0x243185be, 0x550c7dc3, 0x72be5d74, 0x80deb1fe, 0x9bdc06a7, 0xc19bf174,
    0xe49b69c1, 0xefbe4786, 0x0fc19dc6, 0x240ca1cc, 0x2de92c6f, 0x4a7484aa, 0x5cb0a9dc, 0x76f988da,
    0x983e5152, 0xa831c66d, 0xb00327c8, 0xbf597fc7, 0xc6e00bf3, 0xd5a79147, 0x06ca6351, 0x14292967,
    0x27b70a85, 0x2e1b2138, 0x4d2c6dfc, 0x53380d13, 0x650a7354, 0x766a0abb, 0x81c2c92e, 0x92722c85,
    0xa2bfe8a1, 0xa81a664b, 0xc24b8b70, 0xc76c51a3, 0xd192e819, 0xd6990624, 0xf40e3585, 0x106aa070,
    0x19a4c116, 0x1e376c08, 0x2748774c, 0x34b0bcb5, 0x391c0cb3, 0x4ed8aa4a, 0x5b9cca4f, 0x682e6ff3,
    0x748f82ee, 0x78a5636f, 0x84c87814, 0x8cc70208, 0x90befffa, 0xa4506ceb, 0xbef9a3f7, 0xc67178f2,
];

fn compress(hash: &mut [u32; 8], block: &[u8]) {
    let mut w = [0u32; 64];
    for (word, bytes) in w.iter_mut().zip(block.chunks_exact(4)) {
        *word = u32::from_be_bytes([bytes[0], bytes[1], bytes[2], bytes[3]]);
    }
    for t in 16..64 {
        let small0 = w[t - 15].rotate_right(7) ^ w[t - 15].rotate_right(18) ^ (w[t - 15] >> 3);
        let small1 = w[t - 2].rotate_right(17) ^ w[t - 2].rotate_right(19) ^ (w[t - 2] >> 10);
        w[t] = w[t - 16].wrapping_add(small0).wrapping_add(w[t - 7]).wrapping_add(small1);
    }
    let [mut a, mut b, mut c, mut d, mut e, mut f, mut g, mut h] = *hash;
    for t in 0..64 {
        let big1 = e.rotate_right(6) ^ e.rotate_right(11) ^ e.rotate_right(25);
        let t1 = h.wrapping_add(big1).wrapping_add((e & f) ^ (!e & g)).wrapping_add(K[t]).wrapping_add(w[t]);
        let big0 = a.rotate_right(2) ^ a.rotate_right(13) ^ a.rotate_right(22);
        let t2 = big0.wrapping_add((a & b) ^ (a & c) ^ (b & c));
        h = g;
        g = f;
        f = e;
        e = d.wrapping_add(t1);
        d = c;
        c = b;
        b = a;
        a = t1.wrapping_add(t2);
    }
    for (word, worked) in hash.iter_mut().zip([a, b, c, d, e, f, g, h]) {
        *word = word.wrapping_add(worked);
    }
}

#[inline(never)]
fn plain(message: &[u8]) -> [u8; 32] {
    let mut hash = [
        0x6a09e667, 0xbb67ae85, 0x3c6ef372, 0xa54ff53a, 0x510e527f, 0x9b05688c, 0x1f83d9ab, 0x5be0cd19,
    ];
    let mut whole = message.chunks_exact(64);
    for block in &mut whole {
        compress(&mut hash, block);
    }
    let rest = whole.remainder();
    let mut last = [0u8; 128];
    last[..rest.len()].copy_from_slice(rest);
    last[rest.len()] = 0x80;
    let end = if rest.len() < 56 { 64 } else { 128 };
    last[end - 8..end].copy_from_slice(&(message.len() as u64 * 8).to_be_bytes());
    for block in last[..end].chunks_exact(64) {
        compress(&mut hash, block);
    }
    let mut digest = [0u8; 32];
    for (bytes, word) in digest.chunks_exact_mut(4).zip(hash) {
        bytes.copy_from_slice(&word.to_be_bytes());
    }
    digest
}

extern "C" {
    fn sha_export_digest(message: *const u8, length: usize, digest: *mut [u8; 32]);
}

#[inline(never)]
fn proved(message: &[u8]) -> [u8; 32] {
    let mut digest = [0u8; 32];
    // SAFETY: the pointer and length are a slice's, and the digest is 32 bytes that nothing else uses.
    unsafe { sha_export_digest(message.as_ptr(), message.len(), &mut digest) };
    digest
}

/// What the digests came to, kept so that no compiler can leave them out.
static SEEN: AtomicU8 = AtomicU8::new(0);

const PASSES: usize = 5;

/// The digests of a pass: about as many bytes for every length.
fn count(length: usize) -> usize {
    65_000_000 / length.max(65)
}

/// Nanoseconds a digest, in one pass.
fn pass(digest: fn(&[u8]) -> [u8; 32], message: &mut [u8]) -> f64 {
    let count = count(message.len());
    let mut seen = 0u8;
    let start = Instant::now();
    for i in 0..count {
        message[0] = i as u8;
        message[1] = (i >> 8) as u8;
        seen ^= digest(message)[0];
    }
    let taken = start.elapsed().as_secs_f64();
    SEEN.fetch_xor(seen, Ordering::Relaxed);
    taken / count as f64 * 1e9
}

fn main() {
    for length in 0..600 {
        let message: Vec<u8> = (0..length).map(|i| (i * 7 % 256) as u8).collect();
        assert_eq!(plain(&message), proved(&message), "the digests of {length} bytes differ");
    }
    for length in [33, 65, 161, 225, 4096] {
        let mut message: Vec<u8> = (0..length).map(|i| (i % 251) as u8).collect();
        let (mut ours, mut theirs) = (f64::MAX, f64::MAX);
        for _ in 0..PASSES {
            ours = ours.min(pass(proved, &mut message));
            theirs = theirs.min(pass(plain, &mut message));
        }
        println!(
            "{length} bytes: proved {ours:.0} ns, plain Rust {theirs:.0} ns, ratio {:.2} (best of {PASSES} passes of {} digests)",
            ours / theirs,
            count(length)
        );
    }
    println!("cleared for every block: proved, its 16 words of schedule; plain Rust, its 64. Nothing is kept from call to call.");
}
