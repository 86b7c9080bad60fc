//! The sealed sheet on a chip.

use crate::refusal::{answered, Refusal};
use crate::sys;
use crate::SHEET_BYTES;

/// A sheet, as its record says it. Whether the seal is the text's is what `check` says.
#[derive(Clone, Copy, Debug, PartialEq, Eq)]
pub struct Sheet<'a> {
    pub grave: u8,
    pub draw: u64,
    pub seal: u64,
    pub text: &'a [u8],
}

impl<'a> Sheet<'a> {
    /// The sheet at the front of the input, and what follows its record. Refuses 14, 15, 1, 9.
    pub fn read(input: &'a [u8]) -> Result<(Sheet<'a>, &'a [u8]), Refusal> {
        let mut numbers = sys::Numbers { grave: 0, draw: 0, seal: 0, text_length: 0 };
        answered(sys::read_sheet(input, &mut numbers))?;
        let (text, rest) = input[SHEET_BYTES..].split_at(numbers.text_length as usize);
        let sheet = Sheet { grave: numbers.grave as u8, draw: numbers.draw, seal: numbers.seal, text };
        Ok((sheet, rest))
    }

    /// How many bytes the sheet's record has.
    pub fn record_length(&self) -> usize {
        SHEET_BYTES + self.text.len()
    }

    /// Writes the record to the front of the buffer, and gives its length. Refuses 9, 16, and then leaves the buffer.
    pub fn write(&self, buffer: &mut [u8]) -> Result<usize, Refusal> {
        answered(sys::write_sheet(u16::from(self.grave), self.draw, self.seal, self.text, buffer))?;
        Ok(self.record_length())
    }
}
