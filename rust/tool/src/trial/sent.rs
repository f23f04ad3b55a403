//! Utterances made by chance, and what their images hold.
use dsr::{Error, Frame, FrontEnd, Rate, Settings, FRAME_INDICES, MULTIFRAME_INDICES, MULTIFRAME_OCTETS};

use crate::random::Random;

/// The first six indices of a frame are below this, the last is any octet.
const NARROW: u64 = 64;
const WIDE: u64 = 256;

/// All settings that there are.
pub const SETTINGS: [Settings; 6] = [
    Settings::new(Rate::Khz8, FrontEnd::Standard),
    Settings::new(Rate::Khz11, FrontEnd::Standard),
    Settings::new(Rate::Khz16, FrontEnd::Standard),
    Settings::new(Rate::Khz8, FrontEnd::NoiseRobust),
    Settings::new(Rate::Khz11, FrontEnd::NoiseRobust),
    Settings::new(Rate::Khz16, FrontEnd::NoiseRobust),
];

/// An utterance as it was sent: the truth that a reading is held against.
pub struct Sent {
    pub settings: Settings,
    /// The number of frames of speech.
    pub speech: usize,
    /// The index octets of all frames of the multiframes, zeros where they are padding.
    pub indices: Vec<u8>,
    pub image: Vec<u8>,
}

impl Sent {
    /// An utterance of so many frames, with settings and frames drawn, written by the library.
    pub fn draw(speech: usize, random: &mut Random) -> Result<Sent, Error> {
        let settings = SETTINGS[random.below(SETTINGS.len() as u64) as usize];
        Sent::of(settings, frames(speech, random))
    }

    /// An utterance of those frames, written by the library.
    pub fn of(settings: Settings, mut indices: Vec<u8>) -> Result<Sent, Error> {
        let speech = indices.len() / FRAME_INDICES;
        let image = dsr::write(settings, &indices)?;
        indices.resize(image.len() / MULTIFRAME_OCTETS * MULTIFRAME_INDICES, 0);
        Ok(Sent { settings, speech, indices, image })
    }

    /// The number of multiframes of the image.
    pub fn multiframes(&self) -> usize {
        self.image.len() / MULTIFRAME_OCTETS
    }

    /// All frames in order, padding too.
    pub fn frames(&self) -> impl Iterator<Item = &Frame> {
        self.indices.chunks_exact(FRAME_INDICES).map(|frame| frame.try_into().expect("a frame has seven index octets"))
    }
}

/// The index octets of so many drawn frames.
pub fn frames(many: usize, random: &mut Random) -> Vec<u8> {
    (0..many).flat_map(|_| frame(random)).collect()
}

/// A frame that is not all zero: those could be taken for padding, and the writer refuses some of them.
fn frame(random: &mut Random) -> Frame {
    loop {
        let mut drawn: Frame = [0; FRAME_INDICES];
        for (place, index) in drawn.iter_mut().enumerate() {
            *index = random.below(if place + 1 < FRAME_INDICES { NARROW } else { WIDE }) as u8;
        }
        if drawn != [0; FRAME_INDICES] {
            return drawn;
        }
    }
}

#[cfg(test)]
mod tests {
    use super::Sent;
    use crate::random::Random;

    #[test]
    fn the_writer_takes_what_is_drawn_and_the_reader_gives_it_back() {
        for speech in [1, 23, 24, 300, 6119] {
            let sent = Sent::draw(speech, &mut Random::new(speech as u64)).expect("the writer takes it");
            let heard =
                dsr::read(&sent.image, &dsr::Tables::ZEROS, dsr::Choices::ONE_HEADER_SETTLES).expect("nothing was damaged");
            assert_eq!((heard.reading.settings, heard.reading.speech), (sent.settings, speech));
            assert_eq!((heard.indices(), sent.frames().count()), (&sent.indices[..], heard.frames().count()));
        }
    }
}
