//! The feature stream of one multiframe.
use crate::library::{self, DONE};
use crate::{Error, PairNote, FRAME_INDICES, MULTIFRAME_INDICES, MULTIFRAME_PAIRS, STREAM_OCTETS};

/// `pack` packs the 24 frames of a multiframe into its feature stream, with the CRCs. It refuses with [`Error::WriteIndexValue`] (4) if one
/// of the first six indices of a frame is above 63; the place is the first such frame, from 1.
///
/// ```
/// let mut indices = [0; 168];
/// indices[0] = 1;
/// let stream = dsr::pack(&indices)?;
/// assert_eq!((stream[0], stream[11]), (0x01, 0x04)); // stream bit 0, and the CRC's term X: stream bit 90
/// # Ok::<(), dsr::Error>(())
/// ```
pub fn pack(indices: &[u8; MULTIFRAME_INDICES]) -> Result<[u8; STREAM_OCTETS], Error> {
    let mut stream = [0; STREAM_OCTETS];
    match library::pack(indices, &mut stream) {
        DONE => Ok(stream),
        _ => Err(Error::WriteIndexValue { place: first_wide(indices) }),
    }
}

/// The first frame, from 1, with one of its first six indices above 63. The library gives no place here.
fn first_wide(indices: &[u8; MULTIFRAME_INDICES]) -> u64 {
    let is_wide = |frame: &[u8]| frame[..FRAME_INDICES - 1].iter().any(|index| *index > 63);
    let before = indices.chunks_exact(FRAME_INDICES).take_while(|frame| !is_wide(frame)).count();
    before as u64 + 1
}

/// `unpack` takes a feature stream apart into the index octets of its 24 frames and a note for each pair: good, or CRC failed. No frame is
/// replaced.
///
/// ```
/// use dsr::PairNote;
/// let mut stream = dsr::pack(&[9; 168])?;
/// stream[0] ^= 1;
/// let (indices, notes) = dsr::unpack(&stream);
/// assert_eq!((indices[0], indices[1], notes[0], notes[1]), (8, 9, PairNote::CrcFailed, PairNote::Good));
/// # Ok::<(), dsr::Error>(())
/// ```
pub fn unpack(stream: &[u8; STREAM_OCTETS]) -> ([u8; MULTIFRAME_INDICES], [PairNote; MULTIFRAME_PAIRS]) {
    let (mut indices, mut notes) = ([0; MULTIFRAME_INDICES], [0; MULTIFRAME_PAIRS]);
    let status = library::unpack(stream, &mut indices, &mut notes);
    assert_eq!(status, DONE, "these lengths are right");
    (indices, notes.map(|octet| PairNote::from_octet(octet).expect("unpacking notes 0 or 1")))
}
