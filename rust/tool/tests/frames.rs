//! dsr write and dsr read as a user calls them.
mod shared;

use shared::{golden, sample, Chance, Room};

fn csv(frames: &[u8]) -> String {
    let line = |frame: &[u8]| frame.iter().map(u8::to_string).collect::<Vec<_>>().join(",") + "\n";
    frames.chunks(7).map(line).collect()
}

#[test]
fn what_is_written_reads_back() {
    let room = Room::new("back");
    for (at, (rate, front_end)) in [("8", "standard"), ("11", "noise-robust"), ("16", "standard")].into_iter().enumerate() {
        for count in [24, 25, 47, 300, 6119] {
            let frames = Chance(count as u64 + 1).frames(count);
            room.put("frames.csv", csv(&frames));
            room.put("frames.raw", &frames);
            let write = format!("write --rate {rate} --front-end {front_end}");
            assert_eq!(room.dsr(&format!("{write} frames.csv -o a.dsr")).status, 0);
            assert_eq!(room.dsr(&format!("{write} --raw frames.raw -o b.dsr")).status, 0);
            let settings = dsr::Settings::from_codes([0, 1, 3][at], u64::from(front_end == "noise-robust")).unwrap();
            assert_eq!(room.get("a.dsr"), dsr::write(settings, &frames).unwrap());
            assert_eq!(room.get("a.dsr"), room.get("b.dsr"));
            let read = room.dsr("read a.dsr");
            assert_eq!((read.status, read.trouble.as_str()), (0, ""));
            assert_eq!(read.text().split_once('\n').unwrap().1, csv(&frames));
            assert_eq!(room.dsr("read --raw a.dsr").out, frames);
            // what read prints, write takes
            let again = room.dsr_with(&format!("{write} -"), read.text().as_bytes());
            assert_eq!((again.status, again.out), (0, room.get("a.dsr")));
        }
    }
}

/// Whatever octets stand at the end of raw frames, a line's end too.
#[test]
fn raw_frames_are_taken_as_they_stand() {
    let room = Room::new("raw-ends");
    for last in [0, 9, 10, 13, 32, 255] {
        let mut frames = Chance(3).frames(30);
        *frames.last_mut().unwrap() = last;
        assert_eq!(room.dsr_with("write --raw --rate 8 --front-end standard - -o a.dsr", &frames).status, 0);
        assert_eq!(room.dsr("read --raw a.dsr").out, frames, "{last}");
    }
}

#[test]
fn a_missing_end_is_told() {
    let room = Room::new("no-end");
    let image = dsr::write(dsr::Settings::from_codes(0, 0).unwrap(), &Chance(3).frames(100)).unwrap();
    room.put("a.dsr", &image[..432]);
    let said = room.dsr("read a.dsr --raw");
    let line = "dsr: a.dsr: 8 kHz, standard front end, 0.72 s of speech in 3 multiframes, no pair replaced, END MISSING; dsr list says more\n";
    assert_eq!((said.status, said.trouble.as_str(), said.out.len()), (1, line, 504));
}

#[test]
fn lines_may_have_blanks_and_remarks() {
    let room = Room::new("remarks");
    room.put(
        "frames.csv",
        "# a word\n 1, 2,3,4,5,6 ,7\r\n\n  8,9,10,11,12,13,14 # the second\n".to_string() + &"1,1,1,1,1,1,1\n".repeat(22),
    );
    assert_eq!(room.dsr("write --rate=8 --front-end=standard frames.csv --output=a.dsr").status, 0);
    assert!(room.dsr("read a.dsr").text().starts_with("# 8 kHz, standard front end\n1,2,3,4,5,6,7\n8,9,10,11,12,13,14\n1,1,"));
}

#[test]
fn what_was_replaced_is_told() {
    let room = Room::new("replaced");
    room.put("sample.dsr", sample());
    golden("read.txt", &room.dsr("read sample.dsr").whole());
    golden("read-notes.txt", &room.dsr("read --notes sample.dsr").whole());
    assert_eq!(room.dsr("read --raw --notes sample.dsr").status, 3);
    let bits = room.dsr("read --bits --match 16 sample.dsr");
    assert_eq!((bits.text(), bits.status), (room.dsr("read sample.dsr").text(), 1));
    golden("read-bits.txt", &bits.trouble);
}
