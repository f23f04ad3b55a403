//! The writer.
use crate::{library, Error, Settings};

/// `write_into` writes an utterance, seven index octets a frame, into a lent buffer and gives the number of octets written; octets beyond
/// them stay. [`image_octets`](crate::image_octets) says how many are needed. Frames in an array are index octets by `as_flattened`.
///
/// Refusals: 2 to 6, the first that applies, and no octet of `out` is touched. (1 is given by [`Settings::from_codes`].)
///
/// ```
/// use dsr::{write_into, FrontEnd, Rate, Settings};
/// let frames = [[5, 12, 63, 0, 7, 9, 255], [6, 11, 60, 1, 7, 9, 250]];
/// let mut out = [0; 200];
/// let settings = Settings::new(Rate::Khz8, FrontEnd::Standard);
/// assert_eq!(write_into(settings, frames.as_flattened(), &mut out), Ok(144));
/// ```
pub fn write_into(settings: Settings, indices: &[u8], out: &mut [u8]) -> Result<usize, Error> {
    let mut place = 0;
    let (rate, kind) = (settings.rate.code(), settings.front_end.code());
    let status = library::write(rate.into(), kind.into(), indices, out, &mut place);
    Error::check(status, place)?;
    Ok(place as usize)
}

/// `write` writes an utterance as [`write_into`] does and gives its image. Refusals: 2 to 5; there is always room.
///
/// ```
/// use dsr::{write, FrontEnd, Rate, Settings};
/// let image = write(Settings::new(Rate::Khz8, FrontEnd::Standard), &[1, 0, 0, 0, 0, 0, 0])?;
/// assert_eq!(image.len(), 144);
/// assert_eq!(image[..7], [0x87, 0xB2, 0x08, 0x00, 0x0E, 0xEE, 0x01]);
/// # Ok::<(), dsr::Error>(())
/// ```
#[cfg(feature = "alloc")]
pub fn write(settings: Settings, indices: &[u8]) -> Result<alloc::vec::Vec<u8>, Error> {
    // More frames than can be written get no room: they are refused with 3, which comes before 6.
    let octets = crate::image_octets(indices.len() / crate::FRAME_INDICES).unwrap_or(0);
    let mut image = alloc::vec![0; octets];
    let written = write_into(settings, indices, &mut image)?;
    image.truncate(written);
    Ok(image)
}
