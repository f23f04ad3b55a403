//! The sizes of frame, multiframe and utterance, as dsr.h has them.

/// A frame, 10 ms of speech: six indices below 64, then one of any value.
pub type Frame = [u8; FRAME_INDICES];

/// The number of index octets of a frame.
pub const FRAME_INDICES: usize = 7;
/// The number of frames of a multiframe.
pub const MULTIFRAME_FRAMES: usize = 24;
/// The number of pairs of frames of a multiframe.
pub const MULTIFRAME_PAIRS: usize = 12;
/// The size of a multiframe: sync 2, header 4, feature stream 138.
pub const MULTIFRAME_OCTETS: usize = 144;
/// The size of a multiframe's feature stream: twelve pair packets of 92 bits.
pub const STREAM_OCTETS: usize = 138;
/// The number of index octets of a multiframe's 24 frames.
pub const MULTIFRAME_INDICES: usize = 168;
/// The number of report octets of a multiframe: a header note, then twelve pair notes.
pub const MULTIFRAME_REPORT: usize = 13;
/// The largest number of multiframes of an utterance.
pub const MOST_MULTIFRAMES: usize = 255;
/// The largest number of frames that can be written.
pub const MOST_FRAMES: usize = 6119;
/// The length of a codebook.
pub const CODEBOOK_NUMBERS: usize = 1280;
/// The length of the thresholds.
pub const THRESHOLD_NUMBERS: usize = 14;

/// `image_octets` gives the size of the image of that many frames, or nothing if there are more than [`MOST_FRAMES`].
///
/// ```
/// assert_eq!(dsr::image_octets(23), Some(144));
/// assert_eq!(dsr::image_octets(24), Some(288));
/// assert_eq!(dsr::image_octets(6120), None);
/// ```
pub const fn image_octets(frames: usize) -> Option<usize> {
    if frames > MOST_FRAMES {
        return None;
    }
    Some(MULTIFRAME_OCTETS * (frames / MULTIFRAME_FRAMES + 1))
}

/// `most_multiframes` gives the largest number of multiframes that so many received octets can hold, for a reader's buffers:
/// [`MULTIFRAME_INDICES`] and [`MULTIFRAME_REPORT`] octets for each.
///
/// ```
/// assert_eq!(dsr::most_multiframes(143), 0);
/// assert_eq!(dsr::most_multiframes(290), 2);
/// assert_eq!(dsr::most_multiframes(1_000_000), 255);
/// ```
pub const fn most_multiframes(octets: usize) -> usize {
    let whole = octets / MULTIFRAME_OCTETS;
    if whole < MOST_MULTIFRAMES {
        whole
    } else {
        MOST_MULTIFRAMES
    }
}
