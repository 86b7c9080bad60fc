//! The rules of the listing, straight from their description.

use crate::hash::{hash, Field};

/// Takes `n` bytes off the front.
fn take<'a>(bytes: &mut &'a [u8], n: usize) -> Result<&'a [u8], u8> {
    if bytes.len() < n {
        return Err(14);
    }
    let (front, rest) = bytes.split_at(n);
    *bytes = rest;
    Ok(front)
}

fn number(bytes: &[u8]) -> u64 {
    bytes.iter().rev().fold(0, |n, &b| n << 8 | u64::from(b))
}

/// The answer to the record at the front, which is taken off.
fn answer(input: &mut &[u8]) -> Result<u64, u8> {
    let length = number(take(input, 4)?) as usize;
    let mut record = take(input, length)?;
    if number(take(&mut record, 2)?) != 2 {
        return Err(15);
    }
    let (field, count) = (take(&mut record, 1)?[0], take(&mut record, 1)?[0]);
    let field = Field::numbered(field).ok_or(15)?;
    if count > 8 {
        return Err(15);
    }
    let ring: Vec<u64> = take(&mut record, 8 * usize::from(count))?.chunks(8).map(number).collect();
    hash(field, &ring, record)
}

pub fn listing(mut input: &[u8]) -> String {
    let mut text = String::new();
    while !input.is_empty() {
        match answer(&mut input) {
            Ok(hash) => text += &format!("{hash:016x}\n"),
            Err(number) => {
                text += &format!("refused {number:02}\n");
                if number == 14 {
                    break;
                }
            }
        }
    }
    text
}
