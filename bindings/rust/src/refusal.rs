//! Why a call refuses.

use std::{error, fmt};

/// The refusals that the calls can answer. A case's number never changes.
#[derive(Clone, Copy, Debug, PartialEq, Eq, Hash)]
pub enum Refusal {
    GraveOutOfRange,
    TextTooLong,
    RingTooShort,
    SealWrong,
    SubkeyTooLarge,
    RecordCutShort,
    Undefined,
    BufferTooShort,
}

impl Refusal {
    pub const ALL: [Refusal; 8] = [
        Refusal::GraveOutOfRange,
        Refusal::TextTooLong,
        Refusal::RingTooShort,
        Refusal::SealWrong,
        Refusal::SubkeyTooLarge,
        Refusal::RecordCutShort,
        Refusal::Undefined,
        Refusal::BufferTooShort,
    ];

    pub fn number(self) -> u8 {
        match self {
            Refusal::GraveOutOfRange => 1,
            Refusal::TextTooLong => 9,
            Refusal::RingTooShort => 10,
            Refusal::SealWrong => 12,
            Refusal::SubkeyTooLarge => 13,
            Refusal::RecordCutShort => 14,
            Refusal::Undefined => 15,
            Refusal::BufferTooShort => 16,
        }
    }

    pub fn meaning(self) -> &'static str {
        match self {
            Refusal::GraveOutOfRange => "the grave's number is above 255",
            Refusal::TextTooLong => "the text has more than 57,344 bytes",
            Refusal::RingTooShort => "the ring has fewer places than the text has chunks",
            Refusal::SealWrong => "the seal is not the text's",
            Refusal::SubkeyTooLarge => "a subkey is no element's own number",
            Refusal::RecordCutShort => "a part of the record is missing",
            Refusal::Undefined => "the field, the cipher or the record's kind is none that is defined",
            Refusal::BufferTooShort => "the buffer is too short for the record",
        }
    }
}

impl fmt::Display for Refusal {
    fn fmt(&self, f: &mut fmt::Formatter) -> fmt::Result {
        write!(f, "refused {:02}: {}", self.number(), self.meaning())
    }
}

impl error::Error for Refusal {}

/// What a call's answer says. A number that no call of this version answers panics: another library was linked.
pub(crate) fn answered(number: u8) -> Result<(), Refusal> {
    if number == 0 {
        return Ok(());
    }
    match Refusal::ALL.into_iter().find(|refusal| refusal.number() == number) {
        Some(refusal) => Err(refusal),
        None => panic!("libhemmuzhan.a answered {number}, which no call of this version does"),
    }
}
