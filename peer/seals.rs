//! The seal of a text, and its check, as the library's calls answer: everything is chosen by number.

use crate::hash::{hash, Field};
use crate::{chaskey, noekeon};

pub struct Question {
    pub field: u8,
    pub cipher: u8,
    pub key: [u64; 2],
    pub draw: u64,
    pub text: Vec<u8>,
    /// How many places the ring list has that is lent.
    pub ring: usize,
}

type Cipher = fn([u8; 16], [u8; 16]) -> [u8; 16];

fn cipher_numbered(number: u8) -> Option<Cipher> {
    match number {
        0 => Some(noekeon::encipher),
        1 => Some(chaskey::encipher),
        _ => None,
    }
}

/// Two numbers as bytes, the highest first.
fn bytes(pair: [u64; 2]) -> [u8; 16] {
    (u128::from(pair[0]) << 64 | u128::from(pair[1])).to_be_bytes()
}

impl Question {
    /// The seal, where `places` places are lent for it, or the refusal's number.
    pub fn seal(&self, places: usize) -> Result<u64, u8> {
        let field = Field::numbered(self.field).ok_or(15)?;
        let cipher = cipher_numbered(self.cipher).ok_or(15)?;
        if places == 0 {
            return Err(16);
        }
        let first = |block| (u128::from_be_bytes(cipher(bytes(self.key), bytes(block))) >> 64) as u64;
        let most = self.ring.min(8) as u64;
        let ring: Vec<u64> = (0..most).map(|c| field.element(first([0, c]))).collect();
        let hash = hash(field, &ring, &self.text)?;
        Ok(first([1 << 63 | hash, self.draw]))
    }

    /// 0 where the seal is the text's, and else the refusal's number.
    pub fn check(&self, seal: u64) -> u8 {
        match self.seal(1) {
            Ok(right) if right == seal => 0,
            Ok(_) => 12,
            Err(number) => number,
        }
    }
}
