//! The header code.
use crate::library::{self, DONE};

/// A header as it is read.
#[derive(Debug, Clone, Copy, PartialEq, Eq, Hash)]
pub enum Header {
    /// A codeword differs from the word in at most two bits.
    #[non_exhaustive]
    Read {
        /// The codeword's message: rate in bits 0 and 1, type in bit 2, counter in bits 3 to 6, EXP1 to EXP9 in bits 7 to 15.
        message: u16,
        /// The number of bits that differ, 0 to 2.
        flips: u32,
    },
    /// No codeword differs in at most two bits.
    Lost,
}

/// `header_encode` gives a message's codeword: the message in bits 0 to 15 and P1 to P16 in bits 16 to 31, the first sent bit least
/// significant. So its octets in sending order are those of `to_le_bytes`.
///
/// ```
/// // 8 kHz, type 0, count 1
/// assert_eq!(dsr::header_encode(0x0008).to_le_bytes(), [0x08, 0x00, 0x0E, 0xEE]);
/// ```
pub fn header_encode(message: u16) -> u32 {
    library::header_encode(message)
}

/// `header_read` reads a received header: up to two flipped bits are mended, three never.
///
/// ```
/// use dsr::{header_encode, header_read, Header};
/// let sent = header_encode(0x0008);
/// assert!(matches!(header_read(sent ^ 0b11), Header::Read { message: 8, flips: 2, .. }));
/// assert_eq!(header_read(sent ^ 0b111), Header::Lost);
/// ```
pub fn header_read(word: u32) -> Header {
    let (mut message, mut flips) = (0, 0);
    match library::header_read(word, &mut message, &mut flips) {
        DONE => Header::Read { message, flips },
        _ => Header::Lost,
    }
}
