mod shared;
use dsr::{read_into, Choices, Error, Tables};
use shared::{all_bad, flip, listing, multiframe, SETTINGS};

/// The listing of 01 and most refusals here are of an only multiframe.
const ONE_SETTLES: Choices = Choices::ONE_HEADER_SETTLES;

#[test]
fn the_listing_of_01() {
    let (mut index, mut report) = ([0xEE; 169], [0xEE; 14]);
    let heard = read_into(&listing(), &Tables::ZEROS, ONE_SETTLES, &mut index, &mut report).unwrap();
    let reading = heard.reading;
    assert_eq!((reading.settings, reading.multiframes, reading.speech), (SETTINGS, 1, 1));
    assert_eq!((reading.bad, reading.end, heard.has_notes()), (0, true, false));
    assert_eq!((heard.indices().len(), heard.report().len(), heard.spoken()), (168, 13, &[1, 0, 0, 0, 0, 0, 0][..]));
    assert_eq!((index[0], &index[1..168], index[168]), (1, &[0; 167][..], 0xEE));
    assert_eq!((&report[..13], report[13]), (&[0; 13][..], 0xEE));
}

/// Message bit 1 alone: rate 2.
const RATE_2: u16 = 2;
/// EXP9 alone.
const EXPANSION: u16 = 0x8000;

#[test]
fn refusals_say_number_and_place_and_touch_nothing() {
    let (mut index, mut report) = ([0xEE; 168], [0xEE; 13]);
    let mut refused = |octets: &[u8], rooms: (usize, usize)| {
        read_into(octets, &Tables::ZEROS, ONE_SETTLES, &mut index[..rooms.0], &mut report[..rooms.1]).unwrap_err()
    };
    let (whole, mut one_flip) = (listing(), listing());
    flip(&mut one_flip, 47);
    assert_eq!(refused(&[0x78, 0x4D, 0x00], (168, 13)), Error::ReadUnknown { place: 2 });
    assert_eq!(refused(&whole[..143], (168, 13)), Error::ReadCut { place: 0 });
    assert_eq!(refused(&[0x78, 0x4D, 0x87], (0, 0)), Error::ReadCut { place: 2 });
    assert_eq!(refused(&[], (168, 13)), Error::ReadNoMultiframe { place: 0 });
    assert_eq!(refused(&[0x78, 0x4D], (168, 13)), Error::ReadNoMultiframe { place: 2 });
    assert_eq!(refused(&whole.repeat(256), (168, 13)), Error::ReadTooMany { place: 36720 });
    assert_eq!(refused(&one_flip, (168, 13)), Error::ReadUnsettled { place: 0 });
    assert_eq!(refused(&multiframe(RATE_2), (168, 13)), Error::ReadSettings { place: 0 });
    assert_eq!(refused(&multiframe(EXPANSION), (168, 13)), Error::ReadSettings { place: 0 });
    assert_eq!(refused(&whole, (167, 12)), Error::ReadIndexShort { place: 168 });
    assert_eq!(refused(&whole, (168, 12)), Error::ReadReportShort { place: 13 });
    assert_eq!(refused(&whole.repeat(2), (0, 0)), Error::ReadIndexShort { place: 336 });
    assert_eq!(refused(&all_bad(), (168, 13)), Error::ReadAllBad { place: 0 });
    assert_eq!(refused(&[], (168, 13)).to_string(), "refused 14 0: no multiframe (place: octet count)");
    assert_eq!((index, report), ([0xEE; 168], [0xEE; 13]));
}

#[cfg(feature = "alloc")]
#[test]
fn vectors_are_what_buffers_are() {
    for multiframes in [1, 2, 17, 255] {
        let octets = [&[0x78, 0x4D].repeat(80)[..], &listing().repeat(multiframes)].concat();
        let (mut index, mut report) = (vec![0; 168 * 255], vec![0; 13 * 255]);
        let lent = read_into(&octets, &Tables::ZEROS, ONE_SETTLES, &mut index, &mut report).unwrap();
        let own = dsr::read(&octets, &Tables::ZEROS, ONE_SETTLES).unwrap();
        assert_eq!((own.reading, own.indices(), own.report()), (lent.reading, lent.indices(), lent.report()));
        assert_eq!((own.indices().len(), own.report().len()), (168 * multiframes, 13 * multiframes));
    }
    let refused = |octets: &[u8]| dsr::read(octets, &Tables::ZEROS, ONE_SETTLES).unwrap_err();
    assert_eq!(refused(&[0x00]), Error::ReadUnknown { place: 0 });
    assert_eq!(refused(&[]), Error::ReadNoMultiframe { place: 0 });
    assert_eq!(refused(&listing()[..143]), Error::ReadCut { place: 0 });
    assert_eq!(refused(&listing().repeat(256)), Error::ReadTooMany { place: 36720 });
    assert_eq!(refused(&multiframe(RATE_2)), Error::ReadSettings { place: 0 });
    assert_eq!(refused(&all_bad()), Error::ReadAllBad { place: 0 });
}
