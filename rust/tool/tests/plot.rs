//! dsr plot as a user calls it: the SVG and the terminal's picture, held to stored texts. The stored pictures were rendered and looked at.
mod shared;

use dsr::{FrontEnd, Rate, Settings};
use shared::{golden, sample, Room};

fn pair_octet(pair: usize) -> usize {
    pair / 12 * 144 + 6 + pair % 12 * 92 / 8 + 1
}

/// 30 multiframes at 11 kHz with every kind of note: mended headers, a lost one, counters out of step, other settings; failed CRCs alone
/// and in a row; and a pair that jumps beside one of them.
fn every_kind() -> Vec<u8> {
    let mut frames = vec![[20, 21, 22, 23, 24, 25, 26]; 710];
    frames[2 * 40 + 1] = [50, 55, 22, 23, 24, 25, 26];
    let settings = Settings::new(Rate::Khz11, FrontEnd::NoiseRobust);
    let mut image = dsr::write(settings, frames.as_flattened()).unwrap();
    let header = |multiframe: usize| 144 * multiframe + 2;
    image[header(2)] ^= 1;
    image[header(5)] ^= 3;
    image[header(8)] ^= 7;
    image.copy_within(header(1)..header(1) + 4, header(11));
    let other = dsr::write(Settings::new(Rate::Khz8, FrontEnd::Standard), frames.as_flattened()).unwrap();
    image[header(14)..header(14) + 4].copy_from_slice(&other[header(14)..header(14) + 4]);
    image[header(17)..header(17) + 4].copy_from_slice(&other[header(3)..header(3) + 4]);
    image[header(17)] ^= 2;
    for pair in [41, 100, 130, 131, 132, 133, 134, 135, 136, 137, 138, 139, 140, 250, 300, 356] {
        image[pair_octet(pair)] ^= 1;
    }
    image
}

fn room(name: &str) -> Room {
    let room = Room::new(name);
    room.put("sample.dsr", sample());
    room.put("every.dsr", every_kind());
    // the same without its seventh multiframe
    room.put("missing.dsr", [&every_kind()[..144 * 6], &every_kind()[144 * 7..]].concat());
    room.put("cut.dsr", &sample()[..300]);
    let codebook: Vec<String> = (0..640).map(|entry| format!("{} {}", 10 * entry, -10 * entry)).collect();
    room.put("codebook.txt", codebook.join("\n"));
    room.put("thresholds.txt", "100 100\n".repeat(7));
    room
}

const TABLES: &str = "--codebook codebook.txt --thresholds thresholds.txt";

#[test]
fn an_svg_of_each_kind() {
    let room = room("svg");
    for (name, words) in [
        ("plot-sample.svg", "sample.dsr".to_string()),
        ("plot-every.svg", format!("every.dsr {TABLES}")),
        ("plot-compare.svg", format!("every.dsr --compare missing.dsr {TABLES}")),
    ] {
        let said = room.dsr(&format!("plot {words} -o out.svg"));
        assert_eq!((said.status, said.text(), said.trouble.as_str()), (0, "", ""));
        golden(name, std::str::from_utf8(&room.get("out.svg")).unwrap());
    }
}

#[test]
fn a_picture_in_the_terminal() {
    let room = room("terminal-picture");
    golden("plot-sample.txt", &room.dsr("plot sample.dsr").whole());
    golden("plot-every.txt", &room.dsr(&format!("plot every.dsr {TABLES}")).whole());
    golden("plot-compare.txt", &room.dsr(&format!("plot every.dsr --compare missing.dsr {TABLES}")).whole());
    golden("plot-bits.txt", &room.dsr("plot --bits --from 3 every.dsr").whole());
    let narrow = room.command().args(["plot", "every.dsr"]).env("COLUMNS", "40").output().unwrap();
    golden("plot-narrow.txt", &String::from_utf8(narrow.stdout).unwrap());
}

/// Each column of the terminal's picture says what the listing's line says.
#[test]
fn the_picture_says_what_the_listing_says() {
    let room = room("same");
    let numbers = room.dsr(&format!("list --numbers every.dsr {TABLES}"));
    let output = room.command().args(["plot", "every.dsr"]).args(TABLES.split(' ')).env("COLUMNS", "200").output().unwrap();
    let picture = String::from_utf8(output.stdout).unwrap();
    let row = |name: &str| {
        picture.lines().find_map(|line| line.trim_start().strip_prefix(name)).unwrap().trim_start().chars().collect::<Vec<_>>()
    };
    let header = row("header");
    let pairs: Vec<Vec<char>> = (1..=12).map(|pair| row(&format!("pair {pair} "))).collect();
    let lines: Vec<&str> = numbers.text().lines().filter(|line| !line.starts_with("rate")).collect();
    assert_eq!((header.len(), lines.len()), (30, 30));
    for (at, line) in lines.iter().enumerate() {
        let (note, notes) = line.split_once(' ').unwrap();
        let sign = [('0', '.'), ('1', '1'), ('2', '2'), ('3', 'L'), ('4', 'S'), ('8', 'D')];
        let wanted = sign.iter().find(|(number, _)| note == number.to_string()).map(|(_, sign)| *sign);
        assert_eq!(header[at], wanted.unwrap_or(if note == "13" { 'Y' } else { '?' }), "header of multiframe {}", at + 1);
        for (pair, note) in notes.chars().enumerate() {
            let said = pairs[pair][at];
            let right = if note == '0' { matches!(said, '.' | '-') } else { said == if note == '1' { '#' } else { '%' } };
            assert!(right, "multiframe {} pair {}: {said} for {note}", at + 1, pair + 1);
        }
    }
}

#[test]
fn a_pair_of_which_one_frame_is_speech_is_no_padding() {
    let room = Room::new("one-frame");
    room.put("a.dsr", dsr::write(Settings::new(Rate::Khz8, FrontEnd::Standard), &shared::Chance(1).frames(27)).unwrap());
    let picture = room.dsr("plot a.dsr");
    for line in [" pair 1 ..", " pair 2 ..", " pair 3 .-", "pair 12 .-"] {
        assert!(picture.text().lines().any(|row| row == line), "{}", picture.text());
    }
}

#[test]
fn what_is_refused_is_not_drawn() {
    let room = room("refused-picture");
    let line = "cut.dsr: refused 13 290: what begins at octet 290 is not whole: the octets end inside a multiframe or a sync";
    room.dsr("plot cut.dsr").fails(2, line);
    room.dsr("plot cut.dsr -o out.svg").fails(2, line);
    room.dsr("plot sample.dsr --compare cut.dsr -o out.svg").fails(2, line);
    assert!(!room.names().contains(&"out.svg".to_string()));
    assert_eq!(room.dsr("plot - --compare -").status, 3);
    assert_eq!(
        room.dsr_with("plot -", &sample()).text().replace("standard input", "sample.dsr"),
        room.dsr("plot sample.dsr").text()
    );
}

#[test]
fn a_name_cannot_leave_its_place() {
    let room = room("odd-name");
    room.put("<b>&\"\u{1b}.dsr", sample());
    let output = room.command().args(["plot", "<b>&\"\u{1b}.dsr", "-o", "out.svg"]).output().unwrap();
    assert_eq!(output.status.code(), Some(0));
    let picture = String::from_utf8(room.get("out.svg")).unwrap();
    assert!(picture.contains("&lt;b&gt;&amp;") && !picture.contains("<b>") && !picture.contains('\u{1b}'));
}
