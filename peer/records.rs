//! Records to try: from a readable file, and by chance.

use crate::chance::Chance;

/// Hexadecimal digits stand for bytes, `00*7168` for a byte repeated, and `#` begins a comment.
pub fn assemble(text: &str) -> Vec<u8> {
    let mut bytes = Vec::new();
    for line in text.lines() {
        for word in line.split('#').next().unwrap_or("").split_whitespace() {
            let (digits, times) = match word.split_once('*') {
                Some((digits, times)) => (digits, times.parse().expect("a count behind the *")),
                None => (word, 1),
            };
            for _ in 0..times {
                for i in (0..digits.len()).step_by(2) {
                    bytes.push(u8::from_str_radix(&digits[i..i + 2], 16).expect("two hexadecimal digits"));
                }
            }
        }
    }
    bytes
}

fn subkey(chance: &mut Chance) -> u64 {
    let order = (1 << 61) - 1;
    match chance.below(40) {
        0 => chance.one_of(&[0, 1, order - 1, (1 << 63) - 1]),
        1 => chance.one_of(&[order, order + 1, 1 << 63, u64::MAX]),
        _ => chance.next() >> 3,
    }
}

fn record(chance: &mut Chance) -> Vec<u8> {
    let length = match chance.below(12) {
        0 => chance.one_of(&[7_167, 7_168, 7_169, 14_336, 14_337, 28_672]),
        1 => chance.below(20_000),
        _ => chance.below(40),
    } as usize;
    let needed = length.div_ceil(7_168) as u64;
    let count = match chance.below(20) {
        0 => chance.below(12),
        1 => needed.saturating_sub(1),
        _ => needed + chance.below(2),
    };
    let kind: u16 = if chance.below(30) == 0 { chance.next() as u16 } else { 2 };
    let field: u8 = if chance.below(30) == 0 { chance.next() as u8 } else { chance.below(2) as u8 };
    let mut body = kind.to_le_bytes().to_vec();
    body.extend([field, count as u8]);
    for _ in 0..count {
        body.extend(subkey(chance).to_le_bytes());
    }
    let heavy = chance.below(4) == 0;
    body.extend((0..length).map(|_| if heavy { 0xff } else { chance.next() as u8 }));
    let mut bytes = (body.len() as u32).to_le_bytes().to_vec();
    bytes.extend(body);
    bytes
}

/// Several records, sometimes with a length that is off or the end cut away; sometimes one text that is too long.
pub fn by_chance(seed: u64) -> Vec<u8> {
    let mut chance = Chance(seed);
    let mut bytes = Vec::new();
    if chance.below(20) == 0 {
        let length = chance.one_of(&[57_343, 57_344, 57_345]);
        bytes.extend(((4 + 64 + length) as u32).to_le_bytes());
        bytes.extend([2, 0, chance.below(2) as u8, 8]);
        bytes.extend((0..8).flat_map(|_| (chance.next() >> 3).to_le_bytes()));
        bytes.extend((0..length).map(|_| chance.next() as u8));
    }
    for _ in 0..1 + chance.below(12) {
        let mut next = record(&mut chance);
        if chance.below(25) == 0 {
            let place = chance.below(next.len().min(16) as u64) as usize;
            next[place] ^= 1 << chance.below(8);
        }
        bytes.extend(next);
    }
    if chance.below(4) == 0 {
        bytes.truncate(bytes.len() - chance.below(bytes.len().min(30) as u64) as usize);
    }
    bytes
}
