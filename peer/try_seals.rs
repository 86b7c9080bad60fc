//! Seals and checks: every field and cipher and undefined ones, texts of all lengths, rings of enough places and of fewer.

use hemmuzhan::{sys, Cipher, Field, Key, Refusal};

use crate::chance::Chance;
use crate::guarded::Guarded;
use crate::seals::Question;
use crate::tally::{Call, Tally};
use crate::{length, number, places, text, wrapper_field, CHUNK, FILLED, FILLED_BYTE, LENGTHS};

/// Field, cipher, key, draw, the text's length, and the places of the ring list.
type Asked = (u8, u8, [u64; 2], u64, usize, usize);

fn asked(q: &Question) -> Asked {
    (q.field, q.cipher, q.key, q.draw, q.text.len(), q.ring)
}

/// Field and cipher as the wrapper names them, if they are defined.
fn suite(q: &Question) -> Option<(Field, Cipher)> {
    let cipher = match q.cipher {
        0 => Cipher::Noekeon,
        1 => Cipher::Chaskey,
        _ => return None,
    };
    Some((wrapper_field(q.field)?, cipher))
}

fn key(q: &Question) -> Key {
    Key::from_bytes((u128::from(q.key[0]) << 64 | u128::from(q.key[1])).to_be_bytes())
}

/// The seal, where `places` places are lent for it.
fn seal(tally: &mut Tally, q: &Question, places: usize) {
    let expected = q.seal(places);
    let text = Guarded::new(FILLED_BYTE, &q.text);
    let (mut ring, mut seal) = (Guarded::filled(FILLED, q.ring), Guarded::filled(FILLED, places));
    let answer = sys::seal(q.field, q.cipher, q.key, q.draw, text.list(), ring.list_mut(), seal.list_mut());
    let call = Call { name: "seal", asked: &(asked(q), places) };
    call.same("its answer", answer, expected.err().unwrap_or(0));
    let mut written = vec![FILLED; places];
    if let Ok(right) = expected {
        written[0] = right;
    }
    call.agree("the seal", seal.holds(&written));
    call.agree("the ring afterwards", ring.holds(&vec![0; q.ring]));
    call.agree("the text afterwards", text.holds(&q.text));
    tally.count(call.name, answer);
    if let Some((field, cipher)) = suite(q) {
        let expected = q.seal(1);
        let call = Call { name: "the wrapper's seal", asked: &asked(q) };
        let mut ring = Guarded::filled(FILLED, q.ring);
        let lent = hemmuzhan::seal_in(field, cipher, key(q), q.draw, &q.text, ring.list_mut());
        call.same("its answer with a lent ring", lent.map_err(Refusal::number), expected);
        call.agree("the ring afterwards", ring.holds(&vec![0; q.ring]));
        let own = hemmuzhan::seal(field, cipher, key(q), q.draw, &q.text);
        let roomy = Question { text: q.text.clone(), ring: 8, ..*q };
        call.same("its answer", own.map_err(Refusal::number), roomy.seal(1));
        tally.count(call.name, expected.err().unwrap_or(0));
    }
}

fn check(tally: &mut Tally, q: &Question, seal: u64) {
    let expected = q.check(seal);
    let text = Guarded::new(FILLED_BYTE, &q.text);
    let mut ring = Guarded::filled(FILLED, q.ring);
    let answer = sys::check(q.field, q.cipher, q.key, q.draw, text.list(), seal, ring.list_mut());
    let asked = (asked(q), seal);
    let call = Call { name: "check", asked: &asked };
    call.same("its answer", answer, expected);
    call.agree("the ring afterwards", ring.holds(&vec![0; q.ring]));
    call.agree("the text afterwards", text.holds(&q.text));
    tally.count(call.name, answer);
    if let Some((field, cipher)) = suite(q) {
        let call = Call { name: "the wrapper's check", asked: &asked };
        let number = |verdict: Result<(), Refusal>| verdict.err().map_or(0, Refusal::number);
        let mut ring = Guarded::filled(FILLED, q.ring);
        let lent = hemmuzhan::check_in(field, cipher, key(q), q.draw, &q.text, seal, ring.list_mut());
        call.same("its answer with a lent ring", number(lent), expected);
        call.agree("the ring afterwards", ring.holds(&vec![0; q.ring]));
        let own = hemmuzhan::check(field, cipher, key(q), q.draw, &q.text, seal);
        let roomy = Question { text: q.text.clone(), ring: 8, ..*q };
        call.same("its answer", number(own), roomy.check(seal));
        tally.count(call.name, expected);
    }
}

/// The seal, and checks of the right seal, of one with a bit turned over, and of any number.
fn compare(tally: &mut Tally, q: &Question, chance: &mut Chance) {
    for places in [0, chance.one_of(&[1, 1, 1, 2, 3])] {
        seal(tally, q, places);
    }
    let right = q.seal(1).unwrap_or(0);
    for number in [right, right ^ 1 << chance.below(64), chance.next()] {
        check(tally, q, number);
    }
}

fn question(chance: &mut Chance, field: u8, cipher: u8, length: usize, ring: usize) -> Question {
    let text = text(chance, length);
    Question { field, cipher, key: [number(chance), number(chance)], draw: number(chance), text, ring }
}

pub fn all(chance: &mut Chance, tally: &mut Tally) {
    for length in LENGTHS {
        let chunks = length.div_ceil(CHUNK);
        for ring in [chunks, chunks + 1, chunks + 20, chunks.saturating_sub(1), 0] {
            for (field, cipher) in [(0, 0), (0, 1), (1, 0), (1, 1), (0, 2), (2, 1), (255, 255)] {
                let q = question(chance, field, cipher, length, ring);
                compare(tally, &q, chance);
            }
        }
    }
    for _ in 0..3_000 {
        let length = length(chance);
        let ring = places(chance, length);
        let (field, cipher) = match chance.below(50) {
            0 => (chance.next() as u8, chance.next() as u8),
            _ => (chance.below(2) as u8, chance.below(2) as u8),
        };
        let q = question(chance, field, cipher, length, ring);
        compare(tally, &q, chance);
    }
}
