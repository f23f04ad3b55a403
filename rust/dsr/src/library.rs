//! The functions of c/dsr.h, and for each a safe one that calls it. Nothing else in this crate is unsafe.
//!
//! What the functions ask of every call is said in dsr.h: no pointer is null, a length is that of the memory behind its pointer, and memory
//! that is written overlaps no other. A slice's or array's pointer is never null, even of an empty one; a `&mut` is never shared. They take
//! any numbers and octets, keep nothing and unwind nowhere.

mod declared {
    extern "C" {
        pub fn dsr_header_encode(message: u16) -> u32;
        pub fn dsr_header_read(word: u32, message: *mut u16, flips: *mut u32) -> u32;
        pub fn dsr_pack(indices: *const u8, indices_len: usize, stream: *mut u8, stream_len: usize) -> u32;
        pub fn dsr_unpack(
            stream: *const u8,
            stream_len: usize,
            indices: *mut u8,
            indices_len: usize,
            notes: *mut u8,
            notes_len: usize,
        ) -> u32;
        pub fn dsr_write(
            rate: u64,
            kind: u64,
            indices: *const u8,
            indices_len: usize,
            out: *mut u8,
            out_len: usize,
            place: *mut u64,
        ) -> u32;
        pub fn dsr_read(
            octets: *const u8,
            octets_len: usize,
            choices: u64,
            codebook: *const i32,
            codebook_len: usize,
            thresholds: *const i32,
            thresholds_len: usize,
            index: *mut u8,
            index_len: usize,
            report: *mut u8,
            report_len: usize,
            answer: *mut u64,
            answer_len: usize,
            place: *mut u64,
        ) -> u32;
        pub fn dsr_settle(
            octets: *const u8,
            octets_len: usize,
            choices: u64,
            answer: *mut u64,
            answer_len: usize,
            place: *mut u64,
        ) -> u32;
        pub fn dsr_hunt(
            octets: *const u8,
            octets_len: usize,
            from: u64,
            least: u64,
            found: *mut u64,
            tested: *mut u64,
            place: *mut u64,
        ) -> u32;
        pub fn dsr_read_bits(
            octets: *const u8,
            octets_len: usize,
            from: u64,
            least: u64,
            choices: u64,
            codebook: *const i32,
            codebook_len: usize,
            thresholds: *const i32,
            thresholds_len: usize,
            index: *mut u8,
            index_len: usize,
            report: *mut u8,
            report_len: usize,
            answer: *mut u64,
            answer_len: usize,
            place: *mut u64,
        ) -> u32;
    }
}

/// A library's number for done, or for the refusal.
pub type Status = u32;

/// The number of success.
pub const DONE: Status = 0;

/// What a reader is lent: tables, and buffers for frames and notes.
pub struct Lent<'a> {
    pub codebook: &'a [i32; 1280],
    pub thresholds: &'a [i32; 14],
    pub index: &'a mut [u8],
    pub report: &'a mut [u8],
}

pub fn header_encode(message: u16) -> u32 {
    // Sound: a function of a number alone.
    unsafe { declared::dsr_header_encode(message) }
}

pub fn header_read(word: u32, message: &mut u16, flips: &mut u32) -> Status {
    // Sound: two numbers lent by `&mut`, so apart.
    unsafe { declared::dsr_header_read(word, message, flips) }
}

pub fn pack(indices: &[u8], stream: &mut [u8]) -> Status {
    // Sound: each pointer goes with its slice's own length, and `stream` is lent by `&mut`.
    unsafe { declared::dsr_pack(indices.as_ptr(), indices.len(), stream.as_mut_ptr(), stream.len()) }
}

pub fn unpack(stream: &[u8], indices: &mut [u8], notes: &mut [u8]) -> Status {
    // Sound: each pointer goes with its slice's own length, and what is written is lent by `&mut`.
    unsafe {
        declared::dsr_unpack(stream.as_ptr(), stream.len(), indices.as_mut_ptr(), indices.len(), notes.as_mut_ptr(), notes.len())
    }
}

pub fn write(rate: u64, kind: u64, indices: &[u8], out: &mut [u8], place: &mut u64) -> Status {
    // Sound: each pointer goes with its slice's own length, and what is written is lent by `&mut`.
    unsafe { declared::dsr_write(rate, kind, indices.as_ptr(), indices.len(), out.as_mut_ptr(), out.len(), place) }
}

pub fn read(octets: &[u8], choices: u64, lent: Lent<'_>, answer: &mut [u64; 6], place: &mut u64) -> Status {
    // Sound: each pointer goes with its slice's or array's own length, and what is written is lent by `&mut`.
    unsafe {
        declared::dsr_read(
            octets.as_ptr(),
            octets.len(),
            choices,
            lent.codebook.as_ptr(),
            lent.codebook.len(),
            lent.thresholds.as_ptr(),
            lent.thresholds.len(),
            lent.index.as_mut_ptr(),
            lent.index.len(),
            lent.report.as_mut_ptr(),
            lent.report.len(),
            answer.as_mut_ptr(),
            answer.len(),
            place,
        )
    }
}

pub fn settle(octets: &[u8], choices: u64, answer: &mut [u64; 3], place: &mut u64) -> Status {
    // Sound: each pointer goes with its slice's or array's own length, and what is written is lent by `&mut`.
    unsafe { declared::dsr_settle(octets.as_ptr(), octets.len(), choices, answer.as_mut_ptr(), answer.len(), place) }
}

pub fn hunt(octets: &[u8], from: u64, least: u64, found: &mut u64, tested: &mut u64, place: &mut u64) -> Status {
    // Sound: the pointer goes with its slice's own length, and three numbers are lent by `&mut`, so apart.
    unsafe { declared::dsr_hunt(octets.as_ptr(), octets.len(), from, least, found, tested, place) }
}

pub fn read_bits(
    octets: &[u8],
    from: u64,
    least: u64,
    choices: u64,
    lent: Lent<'_>,
    answer: &mut [u64; 8],
    place: &mut u64,
) -> Status {
    // Sound: each pointer goes with its slice's or array's own length, and what is written is lent by `&mut`.
    unsafe {
        declared::dsr_read_bits(
            octets.as_ptr(),
            octets.len(),
            from,
            least,
            choices,
            lent.codebook.as_ptr(),
            lent.codebook.len(),
            lent.thresholds.as_ptr(),
            lent.thresholds.len(),
            lent.index.as_mut_ptr(),
            lent.index.len(),
            lent.report.as_mut_ptr(),
            lent.report.len(),
            answer.as_mut_ptr(),
            answer.len(),
            place,
        )
    }
}
