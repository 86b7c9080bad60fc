//! Sheets: records read whole, cut at every length, damaged and of other kinds; buffers of all lengths around a record's.

use hemmuzhan::sys::{self, Numbers};
use hemmuzhan::Refusal;

use crate::chance::Chance;
use crate::guarded::Guarded;
use crate::sheets::{self, TEXT};
use crate::tally::{Call, Tally};
use crate::{length, number, text, FILLED, FILLED_BYTE, LENGTHS, LONGEST};

fn read(tally: &mut Tally, input: &[u8]) {
    let expected = sheets::read(input);
    let lent = Guarded::new(FILLED_BYTE, input);
    let untouched = Numbers { grave: FILLED, draw: FILLED, seal: FILLED, text_length: FILLED };
    let mut numbers = Guarded::filled(untouched, 1);
    let answer = sys::read_sheet(lent.list(), &mut numbers.list_mut()[0]);
    let asked = (input.len(), &input[..input.len().min(40)]);
    let call = Call { name: "read_sheet", asked: &asked };
    call.same("its answer", answer, *expected.as_ref().err().unwrap_or(&0));
    let told = expected.as_ref().map_or(untouched, |sheet| Numbers {
        grave: sheet.grave,
        draw: sheet.draw,
        seal: sheet.seal,
        text_length: sheet.text.len() as u64,
    });
    call.same("the numbers", numbers.list()[0], told);
    call.agree("what stands around the numbers", numbers.holds(&[told]));
    call.agree("the input afterwards", lent.holds(input));
    if let Ok(sheet) = &expected {
        call.agree("the text's place", input[TEXT..TEXT + sheet.text.len()] == sheet.text);
    }
    tally.count(call.name, answer);
    let call = Call { name: "the wrapper's read", asked: &asked };
    match (hemmuzhan::Sheet::read(input), &expected) {
        (Ok((sheet, rest)), Ok(right)) => {
            call.same(
                "the sheet",
                (u64::from(sheet.grave), sheet.draw, sheet.seal),
                (right.grave, right.draw, right.seal),
            );
            call.agree("the text", sheet.text == right.text);
            call.agree("the rest", *rest == input[TEXT + right.text.len()..]);
        }
        (answer, right) => {
            let (answer, right) = (answer.err().map(Refusal::number), right.as_ref().err().copied());
            call.same("its answer", answer, right);
        }
    }
    tally.count(call.name, answer);
}

fn write(tally: &mut Tally, grave: u16, draw: u64, seal: u64, text: &[u8], old: &[u8]) {
    let expected = sheets::written(grave, draw, seal, text, old.len());
    let after = expected.as_ref().map_or(old.to_vec(), |record| [record, &old[record.len()..]].concat());
    let lent = Guarded::new(FILLED_BYTE, text);
    let mut buffer = Guarded::new(FILLED_BYTE, old);
    let answer = sys::write_sheet(grave, draw, seal, lent.list(), buffer.list_mut());
    let asked = (grave, draw, seal, text.len(), old.len());
    let call = Call { name: "write_sheet", asked: &asked };
    call.same("its answer", answer, *expected.as_ref().err().unwrap_or(&0));
    call.agree("the buffer", buffer.holds(&after));
    call.agree("the text afterwards", lent.holds(text));
    tally.count(call.name, answer);
    if answer == 0 {
        read(tally, buffer.list());
    }
    if let Ok(grave) = u8::try_from(grave) {
        let call = Call { name: "the wrapper's write", asked: &asked };
        let mut buffer = Guarded::new(FILLED_BYTE, old);
        let written = hemmuzhan::Sheet { grave, draw, seal, text }.write(buffer.list_mut());
        call.same("its answer", written.map_err(Refusal::number), expected.map(|record| record.len()));
        call.agree("the buffer", buffer.holds(&after));
        tally.count(call.name, answer);
    }
}

fn grave(chance: &mut Chance) -> u16 {
    match chance.below(8) {
        0 => chance.one_of(&[254, 255, 256, 257, 512, u16::MAX]),
        1 => chance.next() as u16,
        _ => chance.below(256) as u16,
    }
}

/// A record, at times of another kind, with some bytes behind it.
fn input(chance: &mut Chance, length: usize) -> Vec<u8> {
    let kind = if chance.below(12) == 0 { chance.one_of(&[0, 2, 256, 257, u16::MAX]) } else { 1 };
    let (grave, draw, seal) = (grave(chance), number(chance), number(chance));
    let mut input = sheets::record(kind, grave, draw, seal, &text(chance, length));
    let behind = chance.below(3) * chance.below(40);
    input.extend((0..behind).map(|_| chance.next() as u8));
    input
}

fn try_reading(chance: &mut Chance, tally: &mut Tally) {
    for length in LENGTHS {
        for _ in 0..8 {
            let input = input(chance, length);
            read(tally, &input);
        }
    }
    // cut at every length, and with every length told, of a record that is whole but for that
    for kind in [1, 2] {
        let whole = sheets::record(kind, 7, number(chance), number(chance), &text(chance, 40));
        for cut in 0..=whole.len() {
            read(tally, &whole[..cut]);
            let mut told = whole.clone();
            told[0] = cut as u8;
            read(tally, &told);
        }
    }
    // every bit of the parts before the text turned over
    let whole = sheets::record(1, 7, number(chance), number(chance), &text(chance, 9));
    for bit in 0..8 * TEXT {
        let mut damaged = whole.clone();
        damaged[bit / 8] ^= 1 << (bit % 8);
        read(tally, &damaged);
    }
    for told in [0x8000_0000, 0xffff_fff0, u32::MAX] {
        let mut damaged = whole.clone();
        damaged[..4].copy_from_slice(&u32::to_le_bytes(told));
        read(tally, &damaged);
    }
    for _ in 0..3_000 {
        let length = length(chance);
        let mut input = input(chance, length);
        for _ in 0..chance.below(3) {
            let place = chance.below(input.len().min(TEXT) as u64) as usize;
            input[place] ^= 1 << chance.below(8);
        }
        if chance.below(4) == 0 {
            input.truncate(input.len() - chance.below(input.len().min(60) as u64 + 1) as usize);
        }
        read(tally, &input);
    }
}

fn try_writing(chance: &mut Chance, tally: &mut Tally) {
    let mut one = |chance: &mut Chance, grave: u16, length: usize, room: usize| {
        let old: Vec<u8> = (0..room).map(|_| chance.next() as u8).collect();
        let (draw, seal, text) = (number(chance), number(chance), text(chance, length));
        write(tally, grave, draw, seal, &text, &old);
    };
    for room in 0..80 {
        for length in [0, 1, 30] {
            for grave in [7, 255, 256] {
                one(chance, grave, length, room);
            }
        }
    }
    for length in LENGTHS {
        for room in [0, 23, 24 + length - length.min(1), 24 + length, 25 + length, 40 + length] {
            for grave in [0, 255, 256, u16::MAX] {
                one(chance, grave, length, room);
            }
        }
    }
    for _ in 0..2_000 {
        let (grave, length) = (grave(chance), length(chance));
        let room = (24 + length + chance.below(60) as usize).saturating_sub(chance.one_of(&[0, 0, 30, LONGEST]));
        one(chance, grave, length, room);
    }
}

pub fn all(chance: &mut Chance, tally: &mut Tally) {
    try_reading(chance, tally);
    try_writing(chance, tally);
}
