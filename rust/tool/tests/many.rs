//! A folder of 10,000 recordings of three seconds in one run: each listed in its place, and memory that does not grow with their number.
mod shared;

use std::fs;
use std::io::{BufRead, BufReader};
use std::process::Stdio;

use dsr::{FrontEnd, Rate, Settings};
use shared::{Chance, Room};

const FILES: usize = 10_000;
/// Files are listed by so many together, and the last ones wait for standard input.
const BATCH: usize = 32;
/// What the names of so many more files may take.
const NAMES_KIB: u64 = 2048;

/// Lists so many of the files and standard input behind them, which stays open: so the program is still there when it is asked how much
/// memory it had at most. Gives its lines and that number of KiB.
fn listed(room: &Room, names: &[String]) -> (Vec<String>, u64) {
    let mut command = room.command();
    command.args(["list", "--json"]).args(names).arg("-").stdin(Stdio::piped()).stdout(Stdio::piped());
    let mut child = command.spawn().unwrap();
    let stdin = child.stdin.take();
    let mut lines = BufReader::new(child.stdout.take().unwrap()).lines().map(Result::unwrap);
    let mut said: Vec<String> = lines.by_ref().take(names.len() - BATCH).collect();
    let status = fs::read_to_string(format!("/proc/{}/status", child.id())).unwrap();
    let most =
        status.lines().find_map(|line| line.strip_prefix("VmHWM:")).unwrap().trim().trim_end_matches(" kB").parse().unwrap();
    drop(stdin);
    said.extend(lines);
    child.wait().unwrap();
    (said, most)
}

#[test]
fn ten_thousand_recordings() {
    let room = Room::new("ten-thousand");
    let mut chance = Chance(5);
    let names: Vec<String> = (0..FILES).map(|n| format!("{n:05}.dsr")).collect();
    let hurt = |n: usize| n % 7 == 3;
    for (n, name) in names.iter().enumerate() {
        let mut image = dsr::write(Settings::new(Rate::Khz8, FrontEnd::Standard), &chance.frames(300)).unwrap();
        if hurt(n) {
            // another pair in each recording
            let pair = n % 150;
            image[pair / 12 * 144 + 6 + pair % 12 * 92 / 8 + 1] ^= 1;
        }
        room.put(name, image);
    }
    let (_, few) = listed(&room, &names[..100]);
    let (lines, many) = listed(&room, &names);
    assert_eq!(lines.len(), FILES + 1);
    for (n, line) in lines[..FILES].iter().enumerate() {
        let begins = format!(r#"{{"schema":1,"file":"{n:05}.dsr","outcome":"read","status":{}"#, u8::from(hurt(n)));
        let pair = n % 150 + 1;
        let replaced = if hurt(n) {
            format!(r#""replaced":[{{"first_pair":{pair},"last_pair":{pair},"#)
        } else {
            r#""replaced":[]}"#.to_string()
        };
        assert!(line.starts_with(&begins) && line.contains(&replaced), "{line}");
    }
    println!("at most {few} KiB for 100 files, {many} KiB for {FILES}");
    assert!(many < few + NAMES_KIB, "{few} KiB for 100 files, {many} KiB for {FILES}");
}
