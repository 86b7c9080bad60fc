//! Noekeon in direct-key mode. The state is one number of 128 bits: word 0 in its highest 32 bits, word 3 in its lowest.

const ROUNDS: usize = 16;

fn word(state: u128, i: usize) -> u32 {
    (state >> (96 - 32 * i)) as u32
}

fn state(words: [u32; 4]) -> u128 {
    words.iter().fold(0, |s, &w| s << 32 | u128::from(w))
}

/// A word's bits, each with the ones eight places away on both sides added in.
fn mixed(w: u32) -> u32 {
    w ^ w.rotate_left(8) ^ w.rotate_left(24)
}

fn theta(key: u128, mut a: u128) -> u128 {
    let even = mixed(word(a, 0) ^ word(a, 2));
    a ^= state([0, even, 0, even]) ^ key;
    let odd = mixed(word(a, 1) ^ word(a, 3));
    a ^ state([odd, 0, odd, 0])
}

fn rotated(a: u128, by: [u32; 4]) -> u128 {
    let mut words = [0; 4];
    for i in 0..4 {
        words[i] = word(a, i).rotate_left(by[i]);
    }
    state(words)
}

/// Gamma as a table: the four bits in one place of the words, word 3's highest, are looked up and put back.
const SUBSTITUTION: [u8; 16] = [0x7, 0xa, 0x2, 0xc, 0x4, 0x8, 0xf, 0x0, 0x5, 0x9, 0x1, 0xe, 0x3, 0xd, 0xb, 0x6];

fn gamma(a: u128) -> u128 {
    let mut words = [0; 4];
    for place in 0..32 {
        let bits = (0..4).fold(0, |n, i| n | (word(a, i) >> place & 1) << i);
        let answer = u32::from(SUBSTITUTION[bits as usize]);
        for (i, w) in words.iter_mut().enumerate() {
            *w |= (answer >> i & 1) << place;
        }
    }
    state(words)
}

/// The round constants: 0x80, and then each the one before times x modulo x^8 + x^4 + x^3 + x + 1.
fn next_constant(c: u8) -> u8 {
    (c << 1) ^ (if c & 0x80 == 0 { 0 } else { 0x1b })
}

pub fn encipher(key: [u8; 16], block: [u8; 16]) -> [u8; 16] {
    let key = u128::from_be_bytes(key);
    let mut a = u128::from_be_bytes(block);
    let mut constant = 0x80;
    for _ in 0..ROUNDS {
        a = theta(key, a ^ state([u32::from(constant), 0, 0, 0]));
        a = rotated(gamma(rotated(a, [0, 1, 5, 2])), [0, 31, 27, 30]);
        constant = next_constant(constant);
    }
    theta(key, a ^ state([u32::from(constant), 0, 0, 0])).to_be_bytes()
}
