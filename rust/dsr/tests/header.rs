use dsr::{header_encode, header_read, Header};

fn word(octets: [u8; 4]) -> u32 {
    u32::from_le_bytes(octets)
}

#[test]
fn headers_of_01() {
    assert_eq!(header_encode(0x0008), word([0x08, 0x00, 0x0E, 0xEE]));
    assert_eq!(header_encode(0x0010), word([0x10, 0x00, 0x1D, 0x0D]));
    assert_eq!(header_encode(0x0018), word([0x18, 0x00, 0x13, 0xE3]));
    assert_eq!(header_encode(0x0001), word([0x01, 0x00, 0x01, 0xD1]));
    assert_eq!(header_encode(0x8000), word([0x00, 0x80, 0x80, 0xE8]));
    assert_eq!(header_read(word([0x01, 0x00, 0x01, 0x01])), Header::Lost);
}

#[test]
fn two_flips_are_mended_and_three_are_lost() {
    let read = |word: u32| match header_read(word) {
        Header::Read { message, flips, .. } => Some((message, flips)),
        Header::Lost => None,
    };
    for message in [0, 8, 0x8000, 0xFFFF] {
        let sent = header_encode(message);
        assert_eq!(read(sent), Some((message, 0)));
        assert_eq!(read(sent ^ 1 << 31), Some((message, 1)));
        assert_eq!(read(sent ^ 1 ^ 1 << 31), Some((message, 2)));
        assert_eq!(read(sent ^ 0b111), None);
    }
}
