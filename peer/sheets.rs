//! The sealed sheet on a chip, read and written as its table of parts says.

use std::ops::Range;

const KIND: Range<usize> = 4..6;
const GRAVE: Range<usize> = 6..8;
const DRAW: Range<usize> = 8..16;
const SEAL: Range<usize> = 16..24;
pub const TEXT: usize = 24;

#[derive(Clone, Debug, PartialEq)]
pub struct Sheet {
    pub grave: u64,
    pub draw: u64,
    pub seal: u64,
    pub text: Vec<u8>,
}

/// The number in a part of the record, its lowest byte first, if the part is there.
fn part(record: &[u8], place: Range<usize>) -> Option<u64> {
    let bytes = record.get(place)?;
    Some((0..bytes.len()).map(|i| u64::from(bytes[i]) << (8 * i)).sum())
}

/// The sheet at the front of the input, or the refusal's number.
pub fn read(input: &[u8]) -> Result<Sheet, u8> {
    let length = part(input, 0..4).ok_or(14)?;
    let record = input.get(..4 + length as usize).ok_or(14)?;
    if part(record, KIND).ok_or(14)? != 1 {
        return Err(15);
    }
    let (Some(grave), Some(draw), Some(seal)) = (part(record, GRAVE), part(record, DRAW), part(record, SEAL)) else {
        return Err(14);
    };
    if grave > 255 {
        return Err(1);
    }
    let text = record[TEXT..].to_vec();
    if text.len() > 57_344 {
        return Err(9);
    }
    Ok(Sheet { grave, draw, seal, text })
}

/// The record's bytes, whatever they say.
pub fn record(kind: u16, grave: u16, draw: u64, seal: u64, text: &[u8]) -> Vec<u8> {
    let mut record = vec![0; TEXT];
    let mut put = |place: Range<usize>, number: u64| {
        for i in place.clone() {
            record[i] = (number >> (8 * (i - place.start))) as u8;
        }
    };
    put(0..4, (TEXT - 4 + text.len()) as u64);
    put(KIND, kind.into());
    put(GRAVE, grave.into());
    put(DRAW, draw);
    put(SEAL, seal);
    record.extend(text);
    record
}

/// The bytes that a writer puts in front of a buffer with so much room, or the refusal's number.
pub fn written(grave: u16, draw: u64, seal: u64, text: &[u8], room: usize) -> Result<Vec<u8>, u8> {
    if grave > 255 {
        return Err(1);
    }
    if text.len() > 57_344 {
        return Err(9);
    }
    let record = record(1, grave, draw, seal, text);
    if room < record.len() {
        Err(16)
    } else {
        Ok(record)
    }
}
