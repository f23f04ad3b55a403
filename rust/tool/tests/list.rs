//! dsr list as a user calls it, held to stored texts.
mod shared;

use std::process::Stdio;

use dsr::{FrontEnd, Rate, Settings};
use shared::{golden, sample, Chance, Room};

/// A recording of four multiframes at 16 kHz, noise robust: its second header is lost, its third in the third multiframe's place is that
/// of the first, and the pairs 14, 15 and 40 are damaged.
fn hurt() -> Vec<u8> {
    let mut image = dsr::write(Settings::new(Rate::Khz16, FrontEnd::NoiseRobust), &Chance(7).frames(80)).unwrap();
    image[144 + 2] ^= 0b111;
    image.copy_within(2..6, 2 * 144 + 2);
    let packet = |pair: usize| pair / 12 * 144 + 6 + pair % 12 * 92 / 8 + 1;
    for pair in [13, 14, 39] {
        image[packet(pair)] ^= 1;
    }
    image
}

/// The bits with so many zeros before them.
fn behind_zeros(image: &[u8], zeros: usize) -> Vec<u8> {
    let mut bits = vec![0; image.len() + zeros.div_ceil(8)];
    for t in 0..8 * image.len() {
        bits[(t + zeros) / 8] |= (image[t / 8] >> (t % 8) & 1) << ((t + zeros) % 8);
    }
    bits
}

/// A folder with a recording of each kind.
fn recordings(name: &str) -> Room {
    let room = Room::new(name);
    let settings = Settings::new(Rate::Khz11, FrontEnd::Standard);
    let clean = dsr::write(settings, &Chance(1).frames(300)).unwrap();
    room.put("sample.dsr", sample());
    room.put("hurt.dsr", hurt());
    room.put("clean.dsr", &clean);
    room.put("no-end.dsr", &clean[..1728]);
    room.put("cut.dsr", &clean[..1000]);
    room.put("word.dsr", dsr::write(settings, &Chance(1).frames(20)).unwrap());
    room.put("modem.bits", behind_zeros(&hurt(), 11));
    room.put("other.txt", "this is no recording\n");
    room
}

const ALL: &str = "sample.dsr hurt.dsr clean.dsr no-end.dsr cut.dsr word.dsr nowhere.dsr other.txt";

#[test]
fn each_kind_in_words_as_json_and_as_numbers() {
    let room = recordings("kinds");
    golden("list.txt", &room.dsr(&format!("list {ALL}")).whole());
    golden("list.json", &room.dsr(&format!("list --json {ALL}")).whole());
    golden("list.numbers", &room.dsr(&format!("list --numbers {ALL}")).whole());
    golden("list-two.numbers", &room.dsr("list --numbers hurt.dsr clean.dsr").whole());
    golden("list-one.numbers", &room.dsr("list --numbers hurt.dsr").whole());
    golden("list-one-header.txt", &room.dsr("list --one-header-settles word.dsr clean.dsr").whole());
}

#[test]
fn bits_with_no_octet_boundary() {
    let room = recordings("bits");
    golden("list-bits.txt", &room.dsr("list --bits modem.bits clean.dsr").whole());
    golden("list-bits.json", &room.dsr("list --json --bits modem.bits").whole());
    golden("list-bits.numbers", &room.dsr("list --numbers --bits modem.bits").whole());
    golden("list-bits-from.txt", &room.dsr("list --bits --from 12 --match 16 modem.bits").whole());
}

/// Sixteen multiframes in a row are missing: no counter shows it, and no note. The bits outside do, to whoever knows how many to expect.
#[test]
fn a_gap_that_leaves_no_note() {
    let room = Room::new("gap");
    let mut image = dsr::write(Settings::new(Rate::Khz8, FrontEnd::Standard), &Chance(2).frames(720)).unwrap();
    image[144 * 7..144 * 23].fill(0);
    room.put("a.bits", &image);
    golden("list-gap.txt", &room.dsr("list --bits a.bits").whole());
    golden("list-gap-expected.txt", &room.dsr("list --bits --outside 0 a.bits").whole());
    golden("list-gap.json", &room.dsr("list --bits --outside 0 --json a.bits").whole());
    assert_eq!(room.dsr("list --bits --outside 18432 a.bits").status, 0);
    golden("read-gap.txt", &room.dsr("read --bits --outside 0 --raw -o out a.bits").whole());
    assert_eq!(room.dsr("list --outside 0 a.bits").status, 3);
}

/// Frames 41 and 42 are zero, the last multiframe did not come, and the three pairs behind them are bad: the zero frames fill their places,
/// and so an end is seen that never came. In other recordings most headers name other settings, or are out of step.
#[test]
fn what_is_not_to_be_trusted_stands_in_the_first_line() {
    let room = Room::new("first-line");
    let mut frames = Chance(4).frames(60);
    frames[7 * 40..7 * 42].fill(0);
    let mut image = dsr::write(Settings::new(Rate::Khz8, FrontEnd::Standard), &frames).unwrap();
    image.truncate(288);
    for pair in [21, 22, 23] {
        image[pair / 12 * 144 + 6 + pair % 12 * 92 / 8 + 1] ^= 1;
    }
    room.put("made-end.dsr", image);
    let of = |rate| dsr::write(Settings::new(rate, FrontEnd::Standard), &Chance(4).frames(480)).unwrap();
    let (eleven, eight) = (of(Rate::Khz11), of(Rate::Khz8));
    room.put("minor.dsr", [&eleven[..288], &eight[288..]].concat());
    room.put("missing.dsr", [&eight[..432], &eight[576..]].concat());
    golden("list-warned.txt", &room.dsr("list made-end.dsr minor.dsr missing.dsr").whole());
    golden("list-warned.json", &room.dsr("list --json made-end.dsr minor.dsr missing.dsr").whole());
}

/// Beside the pair of a failed CRC, a pair that jumps is bad otherwise.
#[test]
fn a_codebook_finds_what_jumps() {
    let room = Room::new("codebook");
    let mut frames = [[9, 9, 9, 9, 9, 9, 9]; 48];
    frames[5] = [60, 60, 9, 9, 9, 9, 9];
    let mut image = dsr::write(Settings::new(Rate::Khz8, FrontEnd::Standard), frames.as_flattened()).unwrap();
    // the fourth pair's CRC fails; the third jumps
    image[6 + 3 * 92 / 8 + 1] ^= 1;
    room.put("a.dsr", image);
    let codebook: Vec<String> = (0..640).map(|entry| format!("{} {} # entry {entry}", 10 * entry, -10 * entry)).collect();
    room.put("codebook.txt", codebook.join("\n"));
    room.put("thresholds.txt", "# two for each codebook\n100, 100\n".repeat(7));
    golden("list-codebook.txt", &room.dsr("list a.dsr --codebook codebook.txt --thresholds thresholds.txt").whole());
    golden("list-no-codebook.txt", &room.dsr("list a.dsr").whole());
}

#[test]
fn the_status_is_the_worst() {
    let room = recordings("status");
    let status = |words: &str| room.dsr(&format!("list {words}")).status;
    assert_eq!(status("clean.dsr"), 0);
    assert_eq!(status("clean.dsr sample.dsr clean.dsr"), 1);
    assert_eq!(status("no-end.dsr"), 1);
    assert_eq!(status("clean.dsr cut.dsr sample.dsr"), 2);
    assert_eq!(status("cut.dsr nowhere.dsr clean.dsr"), 3);
}

#[test]
fn standard_input_and_odd_names() {
    let room = recordings("names");
    let said = room.dsr_with("list clean.dsr -", &sample());
    golden("list-standard.txt", &said.whole());
    room.put("-x", sample());
    room.put("line\nbreak\u{1b}[31m", sample());
    assert_eq!(room.dsr("list -- -x").status, 1);
    assert_eq!(room.dsr("list ./-x").status, 1);
    let output = room.command().args(["list", "line\nbreak\u{1b}[31m"]).output().unwrap();
    assert!(String::from_utf8(output.stdout).unwrap().starts_with("line?break?[31m: 8 kHz"));
    let output = room.command().args(["list", "--json", "line\nbreak\u{1b}[31m"]).output().unwrap();
    assert!(String::from_utf8(output.stdout).unwrap().contains(r#""file":"line\u000abreak\u001b[31m""#));
}

/// The same text whatever the number of files that are read at a time.
#[test]
fn many_files_in_order() {
    let room = recordings("many");
    let mut chance = Chance(3);
    let kinds: Vec<&str> = ALL.split(' ').collect();
    let names: Vec<&str> = (0..3000).map(|_| kinds[chance.below(kinds.len() as u64) as usize]).collect();
    let list = |jobs: &str| {
        let output = room.command().args(["list", "--json", "--jobs", jobs]).args(&names).stderr(Stdio::null()).output().unwrap();
        String::from_utf8(output.stdout).unwrap()
    };
    let one = list("1");
    let said: Vec<&str> = one.lines().map(|line| line.split('"').nth(5).unwrap()).collect();
    assert_eq!(said, names);
    for jobs in ["2", "3", "16", "1000"] {
        assert!(list(jobs) == one, "{jobs} at a time");
    }
}
