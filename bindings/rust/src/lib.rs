//! The hash, the seal and the sealed sheet of Hemmuzhan, for Rust programs.
//!
//! Behind each function here is one call into libhemmuzhan.a, whose code is proved; this crate only lends it memory and
//! names its answers. The ring list that a seal or a check needs is wiped by the call itself, on every way out.
//!
//! Set `HEMMUZHAN_LIB` to the folder of libhemmuzhan.a to build it.
//!
//! ```
//! use hemmuzhan::{check, seal, Cipher, Field, Key, Refusal, Sheet};
//!
//! # fn main() -> Result<(), Refusal> {
//! let key = Key::from_bytes([7; 16]);
//! let text = b"Plot 7, row A";
//! let seal = seal(Field::B63, Cipher::Chaskey, key, 0, text)?;
//! let sheet = Sheet { grave: 7, draw: 0, seal, text };
//! let mut record = vec![0; sheet.record_length()];
//! sheet.write(&mut record)?;
//!
//! let (sheet, _rest) = Sheet::read(&record)?;
//! check(Field::B63, Cipher::Chaskey, key, sheet.draw, sheet.text, sheet.seal)?;
//! # Ok(())
//! # }
//! ```

#![deny(unsafe_code)]

#[allow(unsafe_code)]
pub mod sys;

mod refusal;
mod sheet;

pub use refusal::Refusal;
pub use sheet::Sheet;

/// The most bytes that a text can have.
pub const LONGEST_TEXT: usize = 57_344;

/// How many places of a ring are enough for every text.
pub const MOST_CHUNKS: usize = 8;

/// The bytes of a sheet's record before its text.
pub const SHEET_BYTES: usize = 24;

#[derive(Clone, Copy, Debug, PartialEq, Eq)]
pub enum Field {
    M61,
    B63,
}

impl Field {
    pub fn number(self) -> u8 {
        match self {
            Field::M61 => 0,
            Field::B63 => 1,
        }
    }
}

#[derive(Clone, Copy, Debug, PartialEq, Eq)]
pub enum Cipher {
    Noekeon,
    Chaskey,
}

impl Cipher {
    pub fn number(self) -> u8 {
        match self {
            Cipher::Noekeon => 0,
            Cipher::Chaskey => 1,
        }
    }
}

/// A grave's key. It is not printed by accident: there is no `Debug`.
#[derive(Clone, Copy, PartialEq, Eq)]
pub struct Key {
    pub first: u64,
    pub second: u64,
}

impl Key {
    /// The first number and then the second, each with its highest byte first.
    pub fn from_bytes(bytes: [u8; 16]) -> Key {
        let both = u128::from_be_bytes(bytes);
        Key { first: (both >> 64) as u64, second: both as u64 }
    }

    fn numbers(self) -> [u64; 2] {
        [self.first, self.second]
    }
}

/// The hash of the text under a ring of the caller's own. Refuses 9, 10, 13.
pub fn hash(field: Field, ring: &[u64], text: &[u8]) -> Result<u64, Refusal> {
    let mut hash = 0;
    refusal::answered(sys::hash(field.number(), ring, text, &mut hash))?;
    Ok(hash)
}

/// The seal of the text under the key and the draw. Refuses 9.
pub fn seal(field: Field, cipher: Cipher, key: Key, draw: u64, text: &[u8]) -> Result<u64, Refusal> {
    seal_in(field, cipher, key, draw, text, &mut [0; MOST_CHUNKS])
}

/// The same with a ring list of the caller's, which ends as zeros. Refuses 9, 10.
pub fn seal_in(
    field: Field,
    cipher: Cipher,
    key: Key,
    draw: u64,
    text: &[u8],
    ring: &mut [u64],
) -> Result<u64, Refusal> {
    let mut seal = [0];
    refusal::answered(sys::seal(field.number(), cipher.number(), key.numbers(), draw, text, ring, &mut seal))?;
    Ok(seal[0])
}

/// Whether the seal is that of the text under the key and the draw. Refuses 9, and 12 where it is another.
pub fn check(field: Field, cipher: Cipher, key: Key, draw: u64, text: &[u8], seal: u64) -> Result<(), Refusal> {
    check_in(field, cipher, key, draw, text, seal, &mut [0; MOST_CHUNKS])
}

/// The same with a ring list of the caller's, which ends as zeros. Refuses 9, 10, 12.
pub fn check_in(
    field: Field,
    cipher: Cipher,
    key: Key,
    draw: u64,
    text: &[u8],
    seal: u64,
    ring: &mut [u64],
) -> Result<(), Refusal> {
    refusal::answered(sys::check(field.number(), cipher.number(), key.numbers(), draw, text, seal, ring))
}

#[cfg(test)]
mod tests;
