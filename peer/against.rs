//! Holds the library's compiled calls, and the Rust wrapper around them, to the peer: both are asked the same, and the
//! first difference ends the run. What every list and number holds afterwards is compared too, and a place on either side.

mod chance;
mod chaskey;
mod declarations;
mod guarded;
mod hash;
mod noekeon;
mod seals;
mod sheets;
mod tally;
mod try_hashes;
mod try_seals;
mod try_sheets;

use chance::Chance;
use hemmuzhan::Field;
use tally::Tally;

/// What stands in and around the lists before a call.
const FILLED: u64 = 0xa5a5_5a5a_c3c3_3c3c;
const FILLED_BYTE: u8 = 0xa5;

const LONGEST: usize = 57_344;
const CHUNK: usize = 7_168;

/// Lengths at which something changes.
const LENGTHS: [usize; 13] =
    [0, 1, 6, 7, 8, CHUNK - 1, CHUNK, CHUNK + 1, 2 * CHUNK, 7 * CHUNK + 1, LONGEST - 1, LONGEST, LONGEST + 1];

/// The field of that number as the wrapper names it, if there is one.
fn wrapper_field(number: u8) -> Option<Field> {
    match number {
        0 => Some(Field::M61),
        1 => Some(Field::B63),
        _ => None,
    }
}

fn number(chance: &mut Chance) -> u64 {
    match chance.below(8) {
        0 => chance.one_of(&[0, 1, 1 << 63, u64::MAX]),
        1 => chance.below(1_000_000),
        _ => chance.next(),
    }
}

fn length(chance: &mut Chance) -> usize {
    let length = match chance.below(40) {
        0 => chance.below(LONGEST as u64 + 2),
        1..4 => chance.below(3 * CHUNK as u64),
        _ => chance.below(64),
    };
    length as usize
}

fn text(chance: &mut Chance, length: usize) -> Vec<u8> {
    match chance.below(6) {
        0 => vec![0; length],
        1 => vec![0xff; length],
        _ => (0..length).map(|_| chance.next() as u8).collect(),
    }
}

/// Places for the chunks of so many bytes: mostly enough, at times one too few.
fn places(chance: &mut Chance, length: usize) -> usize {
    let enough = length.div_ceil(CHUNK) + chance.one_of(&[0, 0, 1, 7]);
    enough.saturating_sub(usize::from(chance.below(10) == 0))
}

fn main() {
    declarations::compare();
    let mut tally = Tally::default();
    try_hashes::all(&mut Chance(1), &mut tally);
    try_seals::all(&mut Chance(2), &mut tally);
    try_sheets::all(&mut Chance(3), &mut tally);
    tally.print();
}
