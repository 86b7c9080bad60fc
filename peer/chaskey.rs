//! The Chaskey cipher: the key, twelve rounds of the Chaskey permutation, and the key again.

type Words = [u32; 4];

const ROUNDS: usize = 12;

/// Each step of a round: v[x] += v[y], v[y] rotated left and mixed with v[x], then v[x] rotated left.
const STEPS: [(usize, usize, u32, u32); 4] = [(0, 1, 5, 16), (2, 3, 8, 0), (0, 3, 13, 0), (2, 1, 7, 16)];

fn round(v: &mut Words) {
    for (x, y, turn_y, turn_x) in STEPS {
        v[x] = v[x].wrapping_add(v[y]);
        v[y] = v[y].rotate_left(turn_y) ^ v[x];
        v[x] = v[x].rotate_left(turn_x);
    }
}

fn words(bytes: [u8; 16]) -> Words {
    let mut words = [0; 4];
    for (i, &byte) in bytes.iter().enumerate() {
        words[i / 4] |= u32::from(byte) << (8 * (i % 4));
    }
    words
}

pub fn encipher(key: [u8; 16], block: [u8; 16]) -> [u8; 16] {
    let key = words(key);
    let mut v = words(block);
    let add_key = |v: &mut Words| v.iter_mut().zip(key).for_each(|(w, k)| *w ^= k);
    add_key(&mut v);
    for _ in 0..ROUNDS {
        round(&mut v);
    }
    add_key(&mut v);
    let mut bytes = [0; 16];
    for (place, w) in bytes.chunks_mut(4).zip(v) {
        place.copy_from_slice(&w.to_le_bytes());
    }
    bytes
}
