//! What came of many readings, counted. What is bad, mended or refused is what the library answered; only what is wrong is found here, by
//! comparing with what was sent.
use std::collections::BTreeMap;

use dsr::{Error, Frame, HeaderNote, Pair, Utterance};

use super::sent::Sent;
use crate::summary;

/// The counts of a row. All but the first three are of the readings that were not refused.
#[derive(Debug, Clone, Default, PartialEq, Eq)]
pub struct Tally {
    /// How many utterances were refused with each number.
    pub refused: BTreeMap<u32, u64>,
    /// Read, but with a note or without the end.
    pub warned: u64,
    /// Read with no note and with the end.
    pub clean: u64,
    /// Headers with one or two flips mended.
    pub mended: u64,
    /// Headers with no codeword within two bits.
    pub lost: u64,
    /// Multiframes sent less those read, where fewer were read.
    pub missing: u64,
    pub pairs: u64,
    /// Pairs that were bad, and so replaced.
    pub replaced: u64,
    /// Frames that are not those sent at their place, though their pair's note is 0.
    pub wrong: u64,
    /// Those of them in multiframes whose header note has neither + 4 nor + 8.
    pub unnamed: u64,
    /// Readings with other settings than those sent.
    pub settings: u64,
    /// Clean readings that are not as sent.
    pub untrue: u64,
}

impl Tally {
    /// Counts a reading.
    pub fn add<B: AsRef<[u8]>>(&mut self, sent: &Sent, heard: Result<Utterance<B>, Error>) {
        match heard {
            Err(refusal) => *self.refused.entry(refusal.number()).or_default() += 1,
            Ok(heard) => self.add_heard(sent, &heard),
        }
    }

    fn add_heard<B: AsRef<[u8]>>(&mut self, sent: &Sent, heard: &Utterance<B>) {
        let reading = heard.reading;
        let is_clean = summary::is_clean(heard);
        let is_as_sent = reading.settings == sent.settings && reading.speech == sent.speech && heard.indices() == sent.indices;
        self.clean += u64::from(is_clean);
        self.warned += u64::from(!is_clean);
        self.untrue += u64::from(is_clean && !is_as_sent);
        self.settings += u64::from(reading.settings != sent.settings);
        self.missing += sent.multiframes().saturating_sub(reading.multiframes) as u64;
        self.pairs += heard.pairs().len() as u64;
        self.replaced += reading.bad as u64;
        let mut places = sent.frames();
        for multiframe in heard.multiframes() {
            let wrong: u64 = multiframe.pairs().map(|pair| wrong_in(&pair, &mut places)).sum();
            self.add_header(multiframe.header(), wrong);
        }
    }

    /// Counts a header, and the wrong frames behind it.
    fn add_header(&mut self, note: HeaderNote, wrong: u64) {
        self.wrong += wrong;
        match note {
            HeaderNote::Lost => {
                self.lost += 1;
                self.unnamed += wrong;
            }
            HeaderNote::Readable { flips, out_of_step, differs, .. } => {
                self.mended += u64::from(flips > 0);
                self.unnamed += if out_of_step || differs { 0 } else { wrong };
            }
        }
    }

    /// Both counts together.
    pub fn plus(mut self, other: &Tally) -> Tally {
        for (number, many) in &other.refused {
            *self.refused.entry(*number).or_default() += many;
        }
        self.warned += other.warned;
        self.clean += other.clean;
        self.mended += other.mended;
        self.lost += other.lost;
        self.missing += other.missing;
        self.pairs += other.pairs;
        self.replaced += other.replaced;
        self.wrong += other.wrong;
        self.unnamed += other.unnamed;
        self.settings += other.settings;
        self.untrue += other.untrue;
        self
    }

    /// The number of utterances that were refused.
    pub fn refusals(&self) -> u64 {
        self.refused.values().sum()
    }

    /// The share of utterances that were refused.
    pub fn refused_share(&self) -> Option<f64> {
        share(self.refusals(), self.refusals() + self.warned + self.clean)
    }

    /// The share of frames that were replaced.
    pub fn replaced_share(&self) -> Option<f64> {
        share(self.replaced, self.pairs)
    }

    /// The share of frames that are wrong without being named.
    pub fn unnamed_share(&self) -> Option<f64> {
        share(self.unnamed, 2 * self.pairs)
    }
}

/// A share, if there is anything that it is a share of.
fn share(many: u64, all: u64) -> Option<f64> {
    (all > 0).then(|| many as f64 / all as f64)
}

/// How many of a pair's frames are not those sent at their places, if its note is 0. Behind the last place nothing was sent.
fn wrong_in<'a>(pair: &Pair<'_>, places: &mut impl Iterator<Item = &'a Frame>) -> u64 {
    let wrong = pair.frames.iter().filter(|frame| places.next() != Some(**frame)).count();
    if pair.note.is_bad() {
        return 0;
    }
    wrong as u64
}

#[cfg(test)]
mod tests {
    use super::super::sent::SETTINGS;
    use super::{Sent, Tally};
    use crate::random::Random;
    use dsr::{Choices, Tables};

    fn sent() -> Sent {
        Sent::draw(60, &mut Random::new(2)).expect("the writer takes it")
    }

    fn counted(sent: &Sent, image: &[u8]) -> Tally {
        let mut tally = Tally::default();
        tally.add(sent, dsr::read(image, &Tables::ZEROS, Choices::DEFAULT));
        tally
    }

    #[test]
    fn what_came_as_sent_is_clean_and_true() {
        let sent = sent();
        assert_eq!(counted(&sent, &sent.image), Tally { clean: 1, pairs: 36, ..Tally::default() });
    }

    /// The same frames under another rate, or another front end: nothing but the settings tells.
    #[test]
    fn other_settings_are_untrue() {
        let sent = sent();
        let frames = &sent.indices[..7 * sent.speech];
        for other in SETTINGS.into_iter().filter(|other| *other != sent.settings) {
            let image = dsr::write(other, frames).expect("the writer takes it");
            assert_eq!(counted(&sent, &image), Tally { clean: 1, pairs: 36, settings: 1, untrue: 1, ..Tally::default() });
        }
    }

    /// One frame more or less is untrue, though each frame is as it was sent or zero.
    #[test]
    fn another_number_of_frames_is_untrue() {
        let sent = sent();
        let image = dsr::write(sent.settings, &sent.indices[..7 * (sent.speech - 1)]).expect("the writer takes it");
        let expected = Tally { clean: 1, pairs: 36, wrong: 1, unnamed: 1, untrue: 1, ..Tally::default() };
        assert_eq!(counted(&sent, &image), expected);
    }

    /// Without its end a recording is not clean, and counts add up.
    #[test]
    fn what_was_cut_off_is_warned_of() {
        let sent = sent();
        let cut = counted(&sent, &sent.image[..288]);
        assert_eq!(cut, Tally { warned: 1, missing: 1, pairs: 24, ..Tally::default() });
        let other = dsr::write(
            SETTINGS[(SETTINGS.iter().position(|one| *one == sent.settings).unwrap() + 1) % 6],
            &sent.indices[..7 * 60],
        );
        let both = counted(&sent, &other.expect("the writer takes it")).plus(&cut).plus(&cut);
        assert_eq!((both.warned, both.clean, both.missing, both.settings, both.untrue, both.pairs), (2, 1, 2, 1, 1, 84));
    }

    /// A header of other settings names what is wrong behind it.
    #[test]
    fn frames_behind_other_settings_are_named() {
        let sent = sent();
        let mut image = sent.image.clone();
        let other = SETTINGS.into_iter().find(|other| *other != sent.settings).expect("there are six");
        let foreign = dsr::write(other, &sent.indices[..7 * 60]).expect("the writer takes it");
        image[290..294].copy_from_slice(&foreign[290..294]);
        image[294] ^= 1;
        image[295] ^= 0x80;
        assert_eq!(counted(&sent, &image), Tally { warned: 1, pairs: 36, wrong: 1, ..Tally::default() });
    }

    /// Two flips 15 apart pass the CRC: one wrong frame in a list without a warning.
    #[test]
    fn what_the_library_cannot_see_is_found() {
        let sent = sent();
        let mut image = sent.image.clone();
        image[6] ^= 1;
        image[7] ^= 0x80;
        assert_eq!(counted(&sent, &image), Tally { clean: 1, pairs: 36, wrong: 1, unnamed: 1, untrue: 1, ..Tally::default() });
    }

    #[test]
    fn what_the_library_names_is_not_counted_as_wrong() {
        let sent = sent();
        let mut image = sent.image.clone();
        image[6] ^= 1; // a pair
        image[146] ^= 3; // two flips in the second header
        image[290] ^= 7; // three in the third
        let expected = Tally { warned: 1, pairs: 36, replaced: 1, mended: 1, lost: 1, ..Tally::default() };
        assert_eq!(counted(&sent, &image), expected);
    }

    /// The frames of a multiframe behind a gap stand at the wrong places; + 4 names them.
    #[test]
    fn frames_out_of_step_are_wrong_and_named() {
        let sent = sent();
        let tally = counted(&sent, &[&sent.image[..144], &sent.image[288..]].concat());
        assert_eq!((tally.warned, tally.missing, tally.wrong, tally.unnamed), (1, 1, 24, 0));
    }

    #[test]
    fn refusals_are_counted_by_their_numbers() {
        let sent = sent();
        let tally = counted(&sent, &sent.image[..300]).plus(&counted(&sent, &sent.image[1..])).plus(&counted(&sent, &[]));
        assert_eq!(tally.refused.into_iter().collect::<Vec<_>>(), [(12, 1), (13, 1), (14, 1)]);
    }
}
