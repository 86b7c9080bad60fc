use crate::*;

const TEXT: &[u8] = b"Plot 7, row A: one stone, two urns";
const SEAL: u64 = 0xe25e_040b_84c5_0d00;

fn key() -> Key {
    Key::from_bytes(std::array::from_fn(|i| i as u8))
}

#[test]
fn keys_have_their_highest_byte_first() {
    assert_eq!(key().numbers(), [0x0001_0203_0405_0607, 0x0809_0a0b_0c0d_0e0f]);
}

#[test]
fn hashes() {
    assert_eq!(hash(Field::M61, &[], b""), Ok(0));
    assert_eq!(hash(Field::M61, &[2], &[1]), Ok(3));
    assert_eq!(hash(Field::M61, &[3], &[1, 0, 0, 0, 0, 0, 0, 2]), Ok(23));
    assert_eq!(hash(Field::B63, &[3], &[1, 0, 0, 0, 0, 0, 0, 2]), Ok(11));
}

#[test]
fn hashes_refused() {
    assert_eq!(hash(Field::M61, &[0; 9], &[0; LONGEST_TEXT + 1]), Err(Refusal::TextTooLong));
    assert_eq!(hash(Field::M61, &[5], &[0; 7_169]), Err(Refusal::RingTooShort));
    assert_eq!(hash(Field::M61, &[2, (1 << 61) - 1], &[1]), Err(Refusal::SubkeyTooLarge));
    assert_eq!(hash(Field::B63, &[2, (1 << 61) - 1], &[1]), Ok(3));
    assert_eq!(hash(Field::B63, &[1 << 63], &[1]), Err(Refusal::SubkeyTooLarge));
}

#[test]
fn a_seal_and_its_check() {
    let (field, cipher) = (Field::M61, Cipher::Noekeon);
    assert_eq!(seal(field, cipher, key(), 0, TEXT), Ok(SEAL));
    assert_eq!(check(field, cipher, key(), 0, TEXT, SEAL), Ok(()));
    assert_eq!(check(field, cipher, key(), 0, TEXT, SEAL ^ 1), Err(Refusal::SealWrong));
    assert_eq!(check(field, cipher, key(), 1, TEXT, SEAL), Err(Refusal::SealWrong));
    assert_eq!(check(field, Cipher::Chaskey, key(), 0, TEXT, SEAL), Err(Refusal::SealWrong));
    assert_eq!(check(Field::B63, cipher, key(), 0, TEXT, SEAL), Err(Refusal::SealWrong));
}

#[test]
fn the_longest_text_is_sealed_and_a_longer_one_refused() {
    let text = [7; LONGEST_TEXT + 1];
    for field in [Field::M61, Field::B63] {
        for cipher in [Cipher::Noekeon, Cipher::Chaskey] {
            let number = seal(field, cipher, key(), 3, &text[1..]).unwrap();
            assert_eq!(check(field, cipher, key(), 3, &text[1..], number), Ok(()));
            assert_eq!(seal(field, cipher, key(), 3, &text), Err(Refusal::TextTooLong));
            assert_eq!(check(field, cipher, key(), 3, &text, number), Err(Refusal::TextTooLong));
        }
    }
}

#[test]
fn a_lent_ring_ends_as_zeros() {
    let mut ring = [9; 3];
    assert_eq!(seal_in(Field::M61, Cipher::Noekeon, key(), 0, TEXT, &mut ring), Ok(SEAL));
    assert_eq!(ring, [0; 3]);
    let mut ring = [9; 3];
    assert_eq!(check_in(Field::M61, Cipher::Noekeon, key(), 0, TEXT, 1, &mut ring), Err(Refusal::SealWrong));
    assert_eq!(ring, [0; 3]);
    let mut ring = [9; 3];
    let long = [0; 4 * 7_168];
    assert_eq!(seal_in(Field::B63, Cipher::Chaskey, key(), 0, &long, &mut ring), Err(Refusal::RingTooShort));
    assert_eq!(ring, [0; 3]);
}

#[test]
fn no_place_for_the_seal_is_refused_behind_the_suite_and_before_the_text() {
    let answer = |field, text: &[u8]| {
        let mut ring = [9; 2];
        let answer = sys::seal(field, 0, key().numbers(), 0, text, &mut ring, &mut []);
        assert_eq!(ring, [0; 2]);
        answer
    };
    assert_eq!(answer(2, TEXT), 15);
    assert_eq!(answer(0, &[0; LONGEST_TEXT + 1]), 16);
    assert_eq!(answer(0, TEXT), 16);
}

#[test]
fn only_the_first_place_for_the_seal_is_written() {
    let (mut ring, mut seal) = ([9; 1], [5; 3]);
    assert_eq!(sys::seal(0, 0, key().numbers(), 0, TEXT, &mut ring, &mut seal), 0);
    assert_eq!(seal, [SEAL, 5, 5]);
}

#[test]
fn a_sheet_is_written_and_read() {
    let sheet = Sheet { grave: 7, draw: 258, seal: 3, text: b"AB" };
    let mut buffer = [9; 28];
    assert_eq!(sheet.write(&mut buffer), Ok(26));
    assert_eq!(&buffer[..8], [22, 0, 0, 0, 1, 0, 7, 0]);
    assert_eq!(&buffer[8..16], 258u64.to_le_bytes());
    assert_eq!(&buffer[16..24], 3u64.to_le_bytes());
    assert_eq!(&buffer[24..], [65, 66, 9, 9]);
    assert_eq!(Sheet::read(&buffer), Ok((sheet, &[9, 9][..])));
}

#[test]
fn sheets_refused() {
    let sheet = Sheet { grave: 255, draw: 0, seal: 0, text: b"" };
    let mut buffer = [9; 23];
    assert_eq!(sheet.write(&mut buffer), Err(Refusal::BufferTooShort));
    assert_eq!(buffer, [9; 23]);
    let mut record = [0; 24];
    assert_eq!(sheet.write(&mut record), Ok(24));
    assert_eq!(Sheet::read(&record[..23]), Err(Refusal::RecordCutShort));
    record[7] = 1;
    assert_eq!(Sheet::read(&record), Err(Refusal::GraveOutOfRange));
    record[4] = 2;
    assert_eq!(Sheet::read(&record), Err(Refusal::Undefined));
    assert_eq!(Sheet::read(&[]), Err(Refusal::RecordCutShort));
}

#[test]
fn refusals_have_different_numbers() {
    let mut numbers = Refusal::ALL.map(Refusal::number).to_vec();
    numbers.dedup();
    assert_eq!(numbers, [1, 9, 10, 12, 13, 14, 15, 16]);
}
