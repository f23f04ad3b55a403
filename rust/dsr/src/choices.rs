//! What a caller chooses of a reading.

/// What a caller chooses of a reading or of [`settle`](crate::settle): the rule for an only multiframe; in a hunting reading, for one that
/// alone was found. For two multiframes or more the choice changes nothing.
///
/// Settings are settled by two headers that agree. An only multiframe has one header, and a codeword can be the wrong codeword: so by
/// default it is refused with [`Error::ReadUnsettled`](crate::Error::ReadUnsettled) (16), however clean it is.
///
/// ```
/// use dsr::{read_into, write_into, Choices, Error, FrontEnd, Rate, Settings, Tables};
/// let (mut image, mut index, mut report) = ([0; 144], [0; 168], [0; 13]);
/// write_into(Settings::new(Rate::Khz8, FrontEnd::Standard), &[5, 12, 63, 0, 7, 9, 255], &mut image)?;
/// let mut read = |choices| read_into(&image, &Tables::ZEROS, choices, &mut index, &mut report).map(|heard| heard.reading.speech);
/// assert_eq!(read(Choices::DEFAULT), Err(Error::ReadUnsettled { place: 0 }));
/// assert_eq!(read(Choices::ONE_HEADER_SETTLES), Ok(1));
/// # Ok::<(), dsr::Error>(())
/// ```
#[derive(Debug, Clone, Copy, PartialEq, Eq, Hash, Default)]
pub struct Choices {
    one_header_settles: bool,
}

impl Choices {
    /// An only multiframe is refused with 16.
    pub const DEFAULT: Choices = Choices { one_header_settles: false };

    /// An only multiframe whose header is itself a codeword settles the settings; with mended flips, or lost, it is refused with 16 all the
    /// same. For whoever has to read one and knows the line, as at a bench.
    pub const ONE_HEADER_SETTLES: Choices = Choices { one_header_settles: true };

    /// dsr.h's number of the choices.
    pub(crate) fn number(self) -> u64 {
        u64::from(self.one_header_settles)
    }
}
