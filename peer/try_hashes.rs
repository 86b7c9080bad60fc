//! Hashes: both fields and undefined ones, rings of subkeys below N, of N, and above.

use hemmuzhan::{sys, Refusal};

use crate::chance::Chance;
use crate::guarded::Guarded;
use crate::tally::{Call, Tally};
use crate::{hash, length, places, text, wrapper_field, CHUNK, FILLED, FILLED_BYTE, LENGTHS};

/// Field, ring, and the text's length.
type Asked<'a> = (u8, &'a [u64], usize);

fn compare(tally: &mut Tally, field: u8, ring: &[u64], text: &[u8]) {
    let expected = hash::Field::numbered(field).ok_or(15).and_then(|field| hash::hash(field, ring, text));
    let (lent_ring, lent_text) = (Guarded::new(FILLED, ring), Guarded::new(FILLED_BYTE, text));
    let mut written = Guarded::filled(FILLED, 1);
    let answer = sys::hash(field, lent_ring.list(), lent_text.list(), &mut written.list_mut()[0]);
    let asked: Asked = (field, ring, text.len());
    let call = Call { name: "hash", asked: &asked };
    call.same("its answer", answer, expected.err().unwrap_or(0));
    call.agree("the hash", written.holds(&[expected.unwrap_or(FILLED)]));
    call.agree("the ring afterwards", lent_ring.holds(ring));
    call.agree("the text afterwards", lent_text.holds(text));
    tally.count(call.name, answer);
    if let Some(field) = wrapper_field(field) {
        let call = Call { name: "the wrapper's hash", asked: &asked };
        call.same("its answer", hemmuzhan::hash(field, ring, text).map_err(Refusal::number), expected);
        tally.count(call.name, expected.err().unwrap_or(0));
    }
}

/// Subkeys of which most are below N, in either field, and all are where `good`.
fn ring(chance: &mut Chance, places: usize, good: bool) -> Vec<u64> {
    let order = (1 << 61) - 1;
    let subkey = |chance: &mut Chance| match chance.below(12) {
        0 => chance.one_of(&[0, 1, order - 1]),
        1 if !good => chance.one_of(&[order, order + 1, (1 << 63) - 1, 1 << 63, u64::MAX]),
        2 if !good => chance.next() >> 1,
        _ => chance.below(order),
    };
    (0..places).map(|_| subkey(chance)).collect()
}

pub fn all(chance: &mut Chance, tally: &mut Tally) {
    for length in LENGTHS {
        let chunks = length.div_ceil(CHUNK);
        for places in [chunks, chunks + 1, chunks + 20, chunks.saturating_sub(1), 0] {
            for field in [0, 1, 2, 255] {
                for good in [true, false] {
                    let ring = ring(chance, places, good);
                    compare(tally, field, &ring, &text(chance, length));
                }
            }
        }
    }
    // each subkey on the border in turn, used or not
    for place in 0..3 {
        for subkey in [(1 << 61) - 2, (1 << 61) - 1, 1 << 61, (1 << 63) - 1, 1 << 63, u64::MAX] {
            for field in [0, 1] {
                let mut ring = ring(chance, 3, true);
                ring[place] = subkey;
                compare(tally, field, &ring, &text(chance, CHUNK + 9));
            }
        }
    }
    for _ in 0..3_000 {
        let length = length(chance);
        let (places, good) = (places(chance, length), chance.below(4) > 0);
        let field = if chance.below(50) == 0 { chance.next() as u8 } else { chance.below(2) as u8 };
        let ring = ring(chance, places, good);
        compare(tally, field, &ring, &text(chance, length));
    }
}
