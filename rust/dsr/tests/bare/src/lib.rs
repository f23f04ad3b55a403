//! What a terminal without an operating system would call: every function that needs no allocator.
#![no_std]

use core::panic::PanicInfo;
use dsr::{Choices, Error, FrontEnd, Header, Rate, Settings, Tables};

/// A frame is an only multiframe, on a line that is no radio link.
const ONE_SETTLES: Choices = Choices::ONE_HEADER_SETTLES;

/// Writes a frame, reads it back both ways, and gives the number of bits outside: 0, or the number of a refusal negated.
#[no_mangle]
pub extern "C" fn bare_round_trip(frame: &[u8; 7]) -> i64 {
    match round_trip(frame) {
        Ok(outside) => outside as i64,
        Err(refusal) => -i64::from(refusal.number()),
    }
}

fn round_trip(frame: &[u8; 7]) -> Result<u64, Error> {
    let (mut image, mut index, mut report) = ([0; 144], [0; 168], [0; 13]);
    dsr::write_into(Settings::new(Rate::Khz8, FrontEnd::Standard), frame, &mut image)?;
    let unsettled = dsr::read_into(&image, &Tables::ZEROS, Choices::DEFAULT, &mut index, &mut report).map(|heard| heard.reading);
    assert!(unsettled == Err(Error::ReadUnsettled { place: 0 }));
    let heard = dsr::read_into(&image, &Tables::ZEROS, ONE_SETTLES, &mut index, &mut report)?;
    assert!(heard.frames().next() == Some(frame) && heard.pairs().all(|pair| !pair.note.is_bad()));
    assert!(dsr::settle(&image, Choices::DEFAULT) == Err(Error::ReadUnsettled { place: 0 }));
    assert!(dsr::settle(&image, ONE_SETTLES)?.multiframes == 1);
    assert!(dsr::hunt(&image, 0, 14)?.place == 0);
    assert!(matches!(dsr::header_read(dsr::header_encode(8)), Header::Read { message: 8, flips: 0, .. }));
    let (frames, _) = dsr::unpack(&dsr::pack(&[9; 168])?);
    assert!(frames == [9; 168]);
    Ok(dsr::read_bits_into(&image, 0, 14, &Tables::ZEROS, ONE_SETTLES, &mut index, &mut report)?.outside)
}

#[panic_handler]
fn stop(_: &PanicInfo) -> ! {
    loop {}
}
