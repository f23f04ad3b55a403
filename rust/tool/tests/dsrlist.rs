//! dsr list says of a file exactly what dsrlist prints: its lines, its words and its JSON, each turned back into dsrlist's lines. dsrlist
//! asks that one header settles, and so does dsr here.
mod shared;

use std::fs::File;
use std::path::{Path, PathBuf};
use std::process::Command;

use dsr::Settings;
use shared::{sample, Chance, Room};

/// So many files.
const FILES: usize = 1500;
const INVERSE_SYNC: [u8; 2] = [0x78, 0x4D];

fn dsrlist() -> PathBuf {
    let built = Path::new(env!("CARGO_MANIFEST_DIR")).join("../../target/bin").join(std::env::consts::ARCH).join("dsrlist");
    let path = std::env::var_os("DSRLIST").map_or(built, PathBuf::from);
    assert!(path.exists(), "there is no {}: run make dsrlist", path.display());
    path
}

/// A recording with damage of one kind or another, or with none.
fn recording(chance: &mut Chance) -> Vec<u8> {
    let rates = [0, 1, 3];
    let settings = Settings::from_codes(rates[chance.below(3) as usize], chance.below(2)).unwrap();
    let most = if chance.below(20) == 0 { 6119 } else { 200 };
    let count = chance.below(most + 1) as usize;
    let mut image = dsr::write(settings, &chance.frames(count)).unwrap();
    for _ in 0..chance.below(4) {
        damage(chance, &mut image);
    }
    image
}

fn damage(chance: &mut Chance, image: &mut Vec<u8>) {
    let multiframes = (image.len() as u64 / 144).max(1);
    let start = 144 * chance.below(multiframes) as usize;
    let other = 144 * chance.below(multiframes) as usize;
    match chance.below(12) {
        // another multiframe's header: out of step
        8 if image.len() >= 144 * multiframes as usize => image.copy_within(other + 2..other + 6, start + 2),
        // a header of other settings, in step or not
        9 => put_header(image, start, chance.below(0x80) as u16),
        // all headers with an EXP bit, or with rate 2
        10 if chance.below(4) == 0 => {
            let bits = if chance.below(2) == 0 { 0x80 } else { 2 };
            (0..multiframes).for_each(|k| put_header(image, 144 * k as usize, bits | ((k as u16 + 1) % 16) << 3));
        }
        // more multiframes than an utterance has
        11 if chance.below(8) == 0 => *image = image.repeat(256usize.div_ceil(multiframes as usize)),
        0 => (0..1 + chance.below(4)).for_each(|_| flip(image, 8 * start + 16 + chance.below(32) as usize)),
        1..=3 => (0..chance.below(60)).for_each(|_| {
            flip(image, chance.below(8 * multiframes * 144) as usize / 1152 * 1152 + 48 + chance.below(1104) as usize)
        }),
        4 => (0..30).for_each(|k| flip(image, 8 * start + 48 + 31 * k)),
        5 => drop(image.splice(start.min(image.len())..start.min(image.len()), INVERSE_SYNC.repeat(chance.below(4) as usize))),
        6 => image.truncate(chance.below(image.len() as u64 + 1) as usize),
        _ => image.truncate(start.max(144).min(image.len())),
    }
}

/// The longest recording, with every header note many times: behind the first two headers, which settle, a counter that is right or not,
/// settings that are the settled ones or not, and none to three flips.
fn every_note(chance: &mut Chance) -> Vec<u8> {
    let mut image = dsr::write(Settings::from_codes(0, 0).unwrap(), &chance.frames(6119)).unwrap();
    // and failed CRCs to its end
    for _ in 0..700 {
        let pair = chance.below(12 * 255) as usize;
        flip(&mut image, 8 * (pair / 12 * 144 + 6) + pair % 12 * 92 + 20);
    }
    for k in 2..255 {
        let (kind, start) = (chance.below(16), 144 * k);
        let counter = (k as u64 + 1 + kind / 4 % 2 * 5) % 16;
        put_header(&mut image, start, ((counter << 3) | (kind / 8 * 4)) as u16);
        (0..kind % 4).for_each(|place| flip(&mut image, 8 * start + 16 + 9 * place as usize));
    }
    image
}

/// The codeword of that message in the header of the multiframe that begins there.
fn put_header(image: &mut [u8], start: usize, message: u16) {
    if let Some(header) = image.get_mut(start + 2..start + 6) {
        header.copy_from_slice(&dsr::header_encode(message).to_le_bytes());
    }
}

fn flip(image: &mut [u8], bit: usize) {
    if let Some(octet) = image.get_mut(bit / 8) {
        *octet ^= 1 << (bit % 8);
    }
}

/// What dsrlist prints of a file.
fn listed(dsrlist: &Path, file: &Path) -> String {
    let output = Command::new(dsrlist).stdin(File::open(file).unwrap()).output().unwrap();
    String::from_utf8(output.stdout).unwrap()
}

/// The exit status that dsrlist's lines stand for.
fn status_of(lines: &str) -> i32 {
    let notes = lines
        .lines()
        .filter(|line| !line.starts_with("rate"))
        .any(|line| line.contains(['1', '2', '3', '4', '5', '6', '8', '9']));
    match lines.starts_with("refused") {
        true => 2,
        false => i32::from(notes || !lines.ends_with("end 1\n")),
    }
}

/// dsrlist's lines, put together from the numbers of a total and runs of notes.
struct Lines {
    total: [u64; 6],
    headers: Vec<u64>,
    pairs: Vec<u64>,
}

impl Lines {
    fn new(total: [u64; 6]) -> Lines {
        let multiframes = total[2] as usize;
        Lines { total, headers: vec![0; multiframes], pairs: vec![0; 12 * multiframes] }
    }

    fn text(&self) -> String {
        let notes = self.headers.iter().zip(self.pairs.chunks(12));
        let line =
            |(header, pairs): (&u64, &[u64])| format!("{header} {}\n", pairs.iter().map(u64::to_string).collect::<String>());
        let [rate, kind, multiframes, speech, bad, end] = self.total;
        notes.map(line).collect::<String>()
            + &format!("rate {rate} type {kind} multiframes {multiframes} speech {speech} bad {bad} end {end}\n")
    }
}

/// The whole number that stands between two texts, without its decimal point: of a time, hundredths.
fn between(text: &str, before: &str, after: &str) -> u64 {
    let begin = text.find(before).unwrap_or_else(|| panic!("no '{before}' in: {text}")) + before.len();
    let end = begin + text[begin..].find(after).unwrap_or_else(|| panic!("no '{after}' in: {text}"));
    text[begin..end].replace('.', "").parse().unwrap_or_else(|_| panic!("no number before '{after}' in: {text}"))
}

/// Words, of one file, as dsrlist's lines.
fn from_words(words: &str) -> String {
    let (first, rest) = words.split_once('\n').unwrap();
    let first = first.split_once(": ").unwrap().1;
    if let Some(refusal) = first.strip_prefix("refused ") {
        return format!("refused {}\n", refusal.split(':').next().unwrap());
    }
    let rate = match between(first, "", " kHz") {
        8 => 0,
        11 => 1,
        _ => 3,
    };
    let kind = u64::from(first.contains("noise robust"));
    let bad = if first.contains(", no pair replaced, ") {
        0
    } else {
        between(&first[first.find("multiframe").unwrap()..], ", ", " of ")
    };
    let total = [
        rate,
        kind,
        between(first, " in ", " multiframe"),
        between(first, "front end, ", " s of"),
        bad,
        u64::from(first.contains(", end seen")),
    ];
    let mut lines = Lines::new(total);
    assert!(bad == 0 || first.contains(&format!(" of {} pairs replaced", lines.pairs.len())), "{first}");
    for line in rest.lines() {
        let (from, to) = (between(line, "  ", " to "), between(line, " to ", " s:"));
        let (one, several) = (format!(": header {}: ", to / 24), format!(": headers {} to {}: ", from / 24 + 1, to / 24));
        assert!(!line.contains("header") || line.contains(if to - from == 24 { &one } else { &several }), "{line}");
        match line.contains("header") {
            true => lines.headers[from as usize / 24..to as usize / 24].fill(header_note(line)),
            false => {
                lines.pairs[from as usize / 2..to as usize / 2].fill(if line.ends_with("replaced: CRC failed") { 1 } else { 2 })
            }
        }
    }
    lines.text()
}

/// A note that is not 0, at places of which nothing was said before.
fn said_once(places: &mut [u64], note: u64) {
    assert!(note != 0 && places.iter().all(|place| *place == 0), "said twice, or of nothing");
    places.fill(note);
}

fn header_note(line: &str) -> u64 {
    let mended = if line.contains("1 flipped bit mended") { 1 } else { 2 * u64::from(line.contains("2 flipped bits mended")) };
    let lost = 3 * u64::from(line.ends_with(": lost"));
    mended + lost + 4 * u64::from(line.contains("counter out of step")) + 8 * u64::from(line.contains("other settings named"))
}

/// A line of JSON as dsrlist's lines.
fn from_json(line: &str) -> String {
    let field = |text: &str, name: &str| {
        let (_, rest) = text.split_once(&format!("\"{name}\":")).unwrap_or_else(|| panic!("no {name} in: {text}"));
        rest[..rest.find([',', '}']).unwrap()].to_string()
    };
    let number = |text: &str, name: &str| field(text, name).parse::<u64>().unwrap();
    if line.contains("\"outcome\":\"refused\"") {
        return format!("refused {} {}\n", number(line, "refusal"), number(line, "place"));
    }
    let rate = [8, 11, 0, 16].iter().position(|khz| *khz == number(line, "rate_khz")).unwrap() as u64;
    let kind = u64::from(field(line, "front_end") == "\"noise-robust\"");
    let end = u64::from(field(line, "end_seen") == "true");
    let mut lines =
        Lines::new([rate, kind, number(line, "multiframes"), number(line, "speech_frames"), number(line, "bad_pairs"), end]);
    let array = |name: &str| line.split_once(&format!("\"{name}\":[")).unwrap().1.split(']').next().unwrap().to_string();
    for run in array("headers").split('}').filter(|run| run.contains('{')) {
        let (first, last) = (number(run, "first_multiframe") as usize, number(run, "last_multiframe") as usize);
        said_once(&mut lines.headers[first - 1..last], number(&format!("{run},"), "note"));
    }
    for run in array("replaced").split('}').filter(|run| run.contains('{')) {
        let (first, last) = (number(run, "first_pair") as usize, number(run, "last_pair") as usize);
        said_once(&mut lines.pairs[first - 1..last], number(&format!("{run},"), "note"));
    }
    lines.text()
}

/// The listing of many files in words, cut where a file begins.
fn each(text: &str) -> Vec<String> {
    let mut each: Vec<String> = Vec::new();
    for line in text.lines() {
        if !line.starts_with("  ") {
            each.push(String::new());
        }
        each.last_mut().unwrap().push_str(&format!("{line}\n"));
    }
    each
}

#[test]
fn dsr_list_says_what_dsrlist_prints() {
    let (room, dsrlist, mut chance) = (Room::new("dsrlist"), dsrlist(), Chance(11));
    let octets = |at: usize, chance: &mut Chance| match at {
        0 => Vec::new(),
        1 => sample(),
        2..=20 => sample()[..23 * (at - 2)].to_vec(),
        21 => INVERSE_SYNC.repeat(32_768),
        22 => vec![0x87; 65_536],
        23..=26 => every_note(chance),
        _ => recording(chance),
    };
    let names: Vec<String> = (0..FILES).map(|at| format!("{at:04}.dsr")).collect();
    let wanted: Vec<String> =
        names.iter().enumerate().map(|(at, name)| listed(&dsrlist, &room.put(name, octets(at, &mut chance)))).collect();
    let all = |form: &str| room.dsr(&format!("list --one-header-settles {form} {}", names.join(" ")));
    let (words, json) = (all("--jobs 2"), all("--json"));
    let (words, json) = (each(words.text()), json.text().lines().map(String::from).collect::<Vec<_>>());
    assert_eq!((words.len(), json.len()), (FILES, FILES));
    for at in 0..FILES {
        assert_eq!(from_words(&words[at]), wanted[at], "{}", words[at]);
        assert_eq!(from_json(&json[at]), wanted[at], "{}", json[at]);
        assert!(words[at].starts_with(&format!("{}: ", names[at])), "{}", words[at]);
        let begins = format!(r#"{{"schema":1,"file":"{}","outcome":"#, names[at]);
        let status = format!(r#","status":{},"#, status_of(&wanted[at]));
        assert!(json[at].starts_with(&begins) && json[at].contains(&status), "{}", json[at]);
        let said = room.dsr(&format!("list --one-header-settles --numbers {}", names[at]));
        assert_eq!((said.text(), said.status), (wanted[at].as_str(), status_of(&wanted[at])), "{}", names[at]);
    }
    are_of_every_kind(&wanted);
}

/// Every header note, every refusal of a reading of octets with zero tables but 10, 11, 18 and 19, and both pair notes.
fn are_of_every_kind(wanted: &[String]) {
    let lines: Vec<&str> = wanted.iter().flat_map(|text| text.lines()).collect();
    let first_words: Vec<&str> = lines.iter().map(|line| line.split(' ').next().unwrap()).collect();
    for note in ["0", "1", "2", "3", "4", "5", "6", "8", "9", "10", "12", "13", "14"] {
        assert!(first_words.contains(&note), "no header has the note {note}");
    }
    for number in [12, 13, 14, 15, 16, 17, 20] {
        assert!(lines.iter().any(|line| line.starts_with(&format!("refused {number} "))), "nothing is refused with {number}");
    }
    for end in ["end 0", "end 1", "type 0 ", "type 1 ", "rate 0 ", "rate 1 ", "rate 3 "] {
        assert!(lines.iter().any(|line| line.starts_with("rate") && format!("{line} ").contains(end)), "no total has {end}");
    }
}
