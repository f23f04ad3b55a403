//! Document 01, and C-11, C-12, C-13 and C-20 of 02, written a second time, from their text alone, and the means to compare them with
//! the library through a driver.
pub mod chance;
pub mod driver;
pub mod header;
pub mod hunting;
pub mod reading;
pub mod rounds;
pub mod settling;
pub mod steps;
pub mod stream;
pub mod utterance;
pub mod writing;
