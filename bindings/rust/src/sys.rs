//! The library's calls as they are, by numbers and slices: the answer is 0 or a refusal's number. All that is `unsafe` in
//! the crate stands here.
//!
//! Nothing but this file and include/hemmuzhan.h ties the declarations to the proved exports of crates/hemmuzhan_c, so
//! keep the three side by side.

mod raw {
    unsafe extern "C" {
        pub fn hemmuzhan_hash(
            field: u8,
            ring: *const u64,
            ring_places: usize,
            text: *const u8,
            text_length: usize,
            hash: *mut u64,
        ) -> u8;

        pub fn hemmuzhan_seal(
            field: u8,
            cipher: u8,
            key_first: u64,
            key_second: u64,
            draw: u64,
            text: *const u8,
            text_length: usize,
            ring: *mut u64,
            ring_places: usize,
            seal: *mut u64,
            seal_places: usize,
        ) -> u8;

        pub fn hemmuzhan_check(
            field: u8,
            cipher: u8,
            key_first: u64,
            key_second: u64,
            draw: u64,
            text: *const u8,
            text_length: usize,
            seal: u64,
            ring: *mut u64,
            ring_places: usize,
        ) -> u8;

        pub fn hemmuzhan_read_sheet(
            input: *const u8,
            input_length: usize,
            grave: *mut u64,
            draw: *mut u64,
            seal: *mut u64,
            text_length: *mut u64,
        ) -> u8;

        pub fn hemmuzhan_write_sheet(
            grave: u16,
            draw: u64,
            seal: u64,
            text: *const u8,
            text_length: usize,
            buffer: *mut u8,
            buffer_length: usize,
        ) -> u8;
    }
}

/// Writes the text's hash under the ring to `hash`. Refuses 15, 9, 10, 13, and then leaves `hash`.
pub fn hash(field: u8, ring: &[u64], text: &[u8], hash: &mut u64) -> u8 {
    // SAFETY: each address is that of a slice, with its length behind it, or of a number, and so is never null and is
    // aligned. `hash` is the one thing that is written, and a `&mut` overlaps nothing.
    unsafe { raw::hemmuzhan_hash(field, ring.as_ptr(), ring.len(), text.as_ptr(), text.len(), hash) }
}

/// Writes the text's seal to the first place of `seal`. Refuses 15, 16 (there is no place), 9, 10, and then leaves
/// `seal`. The ring ends as zeros either way.
pub fn seal(field: u8, cipher: u8, key: [u64; 2], draw: u64, text: &[u8], ring: &mut [u64], seal: &mut [u64]) -> u8 {
    let [first, second] = key;
    // SAFETY: each address is that of a slice, with its length behind it, and so is never null and is aligned. `ring` and
    // `seal` are written, and a `&mut` overlaps nothing.
    unsafe {
        raw::hemmuzhan_seal(
            field,
            cipher,
            first,
            second,
            draw,
            text.as_ptr(),
            text.len(),
            ring.as_mut_ptr(),
            ring.len(),
            seal.as_mut_ptr(),
            seal.len(),
        )
    }
}

/// Answers 0 if the seal is the text's. Refuses 15, 9, 10, 12. The ring ends as zeros either way.
pub fn check(field: u8, cipher: u8, key: [u64; 2], draw: u64, text: &[u8], seal: u64, ring: &mut [u64]) -> u8 {
    let [first, second] = key;
    // SAFETY: each address is that of a slice, with its length behind it, and so is never null and is aligned. `ring` is
    // written, and a `&mut` overlaps nothing.
    unsafe {
        raw::hemmuzhan_check(
            field,
            cipher,
            first,
            second,
            draw,
            text.as_ptr(),
            text.len(),
            seal,
            ring.as_mut_ptr(),
            ring.len(),
        )
    }
}

/// What the library reads of a sheet's record, beside the text itself.
#[derive(Clone, Copy, Debug, PartialEq, Eq)]
pub struct Numbers {
    pub grave: u64,
    pub draw: u64,
    pub seal: u64,
    pub text_length: u64,
}

/// Reads the sheet at the front of the input: its text begins at byte 24. Refuses 14, 15, 14, 1, 9, and then leaves the
/// numbers.
pub fn read_sheet(input: &[u8], numbers: &mut Numbers) -> u8 {
    let Numbers { grave, draw, seal, text_length } = numbers;
    // SAFETY: the first address is that of a slice, with its length behind it, and the others are those of four numbers;
    // none is null, and all are aligned. The four are written, and are four parts of what a `&mut` lends.
    unsafe { raw::hemmuzhan_read_sheet(input.as_ptr(), input.len(), grave, draw, seal, text_length) }
}

/// Writes the sheet's record, 24 + `text.len()` bytes, to the front of the buffer. Refuses 1, 9, 16, and then leaves the
/// buffer.
pub fn write_sheet(grave: u16, draw: u64, seal: u64, text: &[u8], buffer: &mut [u8]) -> u8 {
    // SAFETY: each address is that of a slice, with its length behind it, and so is never null. `buffer` is written, and
    // a `&mut` overlaps nothing.
    unsafe {
        raw::hemmuzhan_write_sheet(grave, draw, seal, text.as_ptr(), text.len(), buffer.as_mut_ptr(), buffer.len())
    }
}
