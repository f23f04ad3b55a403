//! The proved voice-link codec for Rust: ETSI ES 201 108 multiframes as document 01 condenses them.
//!
//! A terminal turns speech into frames of seven indices. [`write`](crate::write_into) packs the frames of an utterance into protected
//! multiframes; [`read`](crate::read_into) takes received octets apart again, mends headers with up to two flipped bits, and finds, names
//! and replaces damaged pairs of frames. [`read_bits`](crate::read_bits_into) does so for bits with no octet boundary. [`settle`] gives the
//! rate and front end alone, while the recording is still being written. Each reading, and `settle`, says by [`Choices`] what is to become
//! of an only multiframe.
//!
#![cfg_attr(feature = "alloc", doc = "```")]
#![cfg_attr(not(feature = "alloc"), doc = "```ignore")]
//! use dsr::{read, write, Choices, FrontEnd, PairNote, Rate, Settings, Tables};
//!
//! // 24 frames: two multiframes, whose headers agree
//! let said = [[5, 12, 63, 0, 7, 9, 255], [6, 11, 60, 1, 7, 9, 250], [8, 10, 58, 1, 8, 9, 249]].repeat(8);
//! let mut image = write(Settings::new(Rate::Khz8, FrontEnd::Standard), said.as_flattened())?;
//! image[6] ^= 1; // the link flips a bit of the first pair
//! let heard = read(&image, &Tables::ZEROS, Choices::DEFAULT)?;
//! assert_eq!((heard.reading.settings.rate, heard.reading.speech, heard.reading.bad), (Rate::Khz8, 24, 1));
//! assert_eq!(heard.pairs().next().map(|pair| pair.note), Some(PairNote::CrcFailed));
//! assert_eq!(heard.frames().next(), Some(&said[2])); // replaced by the good frame after it
//! # Ok::<(), dsr::Error>(())
//! ```
//!
//! Every function takes any input. A refusal comes back as an [`Error`] with its number, place and words (from a hunt in a [`HuntRefused`],
//! with the places tested), and changes no octet of a lent buffer. Nothing is kept between calls.
//!
//! Functions whose name ends in `_into` fill lent buffers. Those that give vectors need the feature `alloc`, which is on by default. The
//! crate never needs std, and no crate from outside.
//!
//! The functions behind it are proved; what this crate adds to them (types, iterators, vectors) is tested. The archive with the proved
//! functions is made by `make lib`, for x86-64 or aarch64.
#![no_std]
#![deny(missing_docs)]
#![deny(unsafe_code)]

#[cfg(feature = "alloc")]
extern crate alloc;

mod choices;
mod error;
mod header;
mod hunting;
mod layout;
#[allow(unsafe_code)]
mod library;
mod notes;
mod reading;
mod settings;
mod settling;
mod stream;
mod tables;
mod utterance;
mod writing;

pub use choices::Choices;
pub use error::{Error, HuntRefused};
pub use header::{header_encode, header_read, Header};
#[cfg(feature = "alloc")]
pub use hunting::read_bits;
pub use hunting::{hunt, read_bits_into, BitsReading, Hunted};
pub use layout::*;
pub use notes::{HeaderNote, PairNote};
#[cfg(feature = "alloc")]
pub use reading::read;
pub use reading::read_into;
pub use settings::{FrontEnd, Rate, Settings};
pub use settling::{settle, Settled};
pub use stream::{pack, unpack};
pub use tables::Tables;
pub use utterance::{Multiframe, Pair, Reading, Utterance};
#[cfg(feature = "alloc")]
pub use writing::write;
pub use writing::write_into;
