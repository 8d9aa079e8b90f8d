//! SHA-256 from FIPS 180-4, over byte strings.
//!
//! The standard's constants are not copied from any table. They are worked out from
//! what section 4.2.2 and section 5.3.3 say they are: the first 32 bits of the
//! fractional parts of the cube roots of the first 64 primes, and of the square
//! roots of the first 8.

/// A SHA-256 digest.
pub type Digest = [u8; 32];

/// Bytes in one block.
const BLOCK: usize = 64;

const ROUND_CONSTANTS: [u32; 64] = cube_root_fractions();
const INITIAL_STATE: [u32; 8] = square_root_fractions();

/// The number of blocks SHA-256 works on a string of `length` bytes, padding and all
/// (the protocol's paper, §3.7.2).
pub fn blocks(length: usize) -> u64 {
    (length as u64 + 8) / 64 + 1
}

/// The digest of a byte string (FIPS 180-4, section 6.2).
pub fn digest(message: &[u8]) -> Digest {
    let mut state = INITIAL_STATE;
    let whole = message.len() / BLOCK * BLOCK;
    for block in message[..whole].chunks_exact(BLOCK) {
        compress(&mut state, block);
    }
    for block in padded_tail(&message[whole..], message.len()).chunks_exact(BLOCK) {
        compress(&mut state, block);
    }
    let mut out = [0; 32];
    for (bytes, word) in out.chunks_exact_mut(4).zip(state) {
        bytes.copy_from_slice(&word.to_be_bytes());
    }
    out
}

/// The last bytes of a message with the padding of section 5.1.1: a one bit, zero
/// bits, and the length in bits as 8 bytes.
fn padded_tail(rest: &[u8], length: usize) -> Vec<u8> {
    let mut tail = rest.to_vec();
    tail.push(0x80);
    while tail.len() % BLOCK != BLOCK - 8 {
        tail.push(0);
    }
    tail.extend_from_slice(&(length as u64 * 8).to_be_bytes());
    tail
}

/// One step of section 6.2.2: works one block into the state.
fn compress(state: &mut [u32; 8], block: &[u8]) {
    let schedule = message_schedule(block);
    let [mut a, mut b, mut c, mut d, mut e, mut f, mut g, mut h] = *state;
    for t in 0..64 {
        let choose = (e & f) ^ (!e & g);
        let majority = (a & b) ^ (a & c) ^ (b & c);
        let sum_e = e.rotate_right(6) ^ e.rotate_right(11) ^ e.rotate_right(25);
        let sum_a = a.rotate_right(2) ^ a.rotate_right(13) ^ a.rotate_right(22);
        let first = h
            .wrapping_add(sum_e)
            .wrapping_add(choose)
            .wrapping_add(ROUND_CONSTANTS[t])
            .wrapping_add(schedule[t]);
        let second = sum_a.wrapping_add(majority);
        h = g;
        g = f;
        f = e;
        e = d.wrapping_add(first);
        d = c;
        c = b;
        b = a;
        a = first.wrapping_add(second);
    }
    for (word, worked) in state.iter_mut().zip([a, b, c, d, e, f, g, h]) {
        *word = word.wrapping_add(worked);
    }
}

/// The 64 words a block is spread over (section 6.2.2, step 1).
fn message_schedule(block: &[u8]) -> [u32; 64] {
    let mut words = [0u32; 64];
    for (word, bytes) in words.iter_mut().zip(block.chunks_exact(4)) {
        *word = u32::from_be_bytes([bytes[0], bytes[1], bytes[2], bytes[3]]);
    }
    for t in 16..64 {
        let early = words[t - 15];
        let late = words[t - 2];
        let small_early = early.rotate_right(7) ^ early.rotate_right(18) ^ (early >> 3);
        let small_late = late.rotate_right(17) ^ late.rotate_right(19) ^ (late >> 10);
        words[t] = words[t - 16]
            .wrapping_add(small_early)
            .wrapping_add(words[t - 7])
            .wrapping_add(small_late);
    }
    words
}

/// The first 32 bits of the fractional part of a prime's cube root are the low 32
/// bits of the whole cube root of the prime times 2^96.
const fn cube_root_fractions() -> [u32; 64] {
    let mut words = [0; 64];
    let mut prime = 2;
    let mut i = 0;
    while i < 64 {
        words[i] = whole_root((prime as u128) << 96, 3) as u32;
        prime = prime_after(prime);
        i += 1;
    }
    words
}

/// The same for square roots, where the factor is 2^64.
const fn square_root_fractions() -> [u32; 8] {
    let mut words = [0; 8];
    let mut prime = 2;
    let mut i = 0;
    while i < 8 {
        words[i] = whole_root((prime as u128) << 64, 2) as u32;
        prime = prime_after(prime);
        i += 1;
    }
    words
}

/// The largest number whose power is not above `value`, found bit by bit. The
/// 64th prime is 311, so cubes stay below 2^105 and squares below 2^69; either
/// root is then below 2^37, and no power of a candidate overflows.
const fn whole_root(value: u128, power: u32) -> u128 {
    let mut root: u128 = 0;
    let mut bit: u128 = 1 << 37;
    while bit > 0 {
        if (root + bit).pow(power) <= value {
            root += bit;
        }
        bit >>= 1;
    }
    root
}

const fn prime_after(start: u32) -> u32 {
    let mut candidate = start + 1;
    while !is_prime(candidate) {
        candidate += 1;
    }
    candidate
}

const fn is_prime(number: u32) -> bool {
    let mut divisor = 2;
    while divisor * divisor <= number {
        if number % divisor == 0 {
            return false;
        }
        divisor += 1;
    }
    true
}

#[cfg(test)]
mod tests {
    use super::*;

    #[test]
    fn block_counts_of_the_paper() {
        let listed = [(55, 1), (56, 2), (65, 2), (161, 3), (225, 4)];
        for (length, count) in listed {
            assert_eq!(blocks(length), count);
        }
    }

    #[test]
    fn the_block_count_is_the_number_of_blocks_padded() {
        for length in 0..300 {
            let rest = length % BLOCK;
            let tail = padded_tail(&vec![0; rest], length).len();
            assert_eq!(blocks(length), ((length - rest + tail) / BLOCK) as u64);
        }
    }
}
