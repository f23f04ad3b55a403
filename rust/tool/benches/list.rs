//! 10,000 recordings of three seconds: the time of `dsr list` against that of the library's readings plus reading the files, in one run
//! and by turns. What is asked for is 0.8 of it.
use std::fs::{self, File};
use std::io::Read;
use std::path::{Path, PathBuf};
use std::process::{Command, Stdio};
use std::time::Instant;

use dsr::{Choices, FrontEnd, Rate, Settings, Tables, MOST_MULTIFRAMES, MULTIFRAME_INDICES, MULTIFRAME_REPORT};

const FILES: usize = 10_000;
const FRAMES: usize = 300;
const ROUNDS: usize = 7;
const TARGET: f64 = 0.8;

fn main() {
    let folder = std::env::temp_dir().join(format!("dsr-bench-{}", std::process::id()));
    fs::create_dir_all(&folder).unwrap();
    let files = make(&folder);
    let mut best = [f64::MAX; 4];
    for _ in 0..ROUNDS {
        let times = [reading_files(&files), reading(&files), listing(&files, &["--jobs", "1"]), listing(&files, &[])];
        for (best, time) in best.iter_mut().zip(times) {
            *best = best.min(time);
        }
    }
    fs::remove_dir_all(&folder).unwrap();
    std::process::exit(tell(best));
}

/// Every tenth recording has a flipped bit in a header and one in a pair.
fn make(folder: &Path) -> Vec<PathBuf> {
    let settings = Settings::new(Rate::Khz8, FrontEnd::Standard);
    let one = |n: usize| {
        let frames: Vec<u8> = (0..7 * FRAMES).map(|i| 1 + ((i * i + 31 * n) % 60) as u8).collect();
        let mut image = dsr::write(settings, &frames).unwrap();
        if n % 10 == 0 {
            image[144 * 5 + 3] ^= 4;
            image[144 * 7 + 60] ^= 8;
        }
        let path = folder.join(format!("{n:05}.dsr"));
        fs::write(&path, image).unwrap();
        path
    };
    (0..FILES).map(one).collect()
}

fn seconds(work: impl FnOnce()) -> f64 {
    let began = Instant::now();
    work();
    began.elapsed().as_secs_f64()
}

/// Opening and reading each file, into one buffer.
fn reading_files(files: &[PathBuf]) -> f64 {
    let mut buffer = Vec::new();
    let mut octets = 0;
    let time = seconds(|| {
        for file in files {
            buffer.clear();
            octets += File::open(file).unwrap().read_to_end(&mut buffer).unwrap();
        }
    });
    assert_eq!(octets, FILES * 144 * (FRAMES / 24 + 1));
    time
}

/// The library's readings of the same octets, which are in memory already.
fn reading(files: &[PathBuf]) -> f64 {
    let images: Vec<Vec<u8>> = files.iter().map(|file| fs::read(file).unwrap()).collect();
    let (mut index, mut report) = (vec![0; MOST_MULTIFRAMES * MULTIFRAME_INDICES], vec![0; MOST_MULTIFRAMES * MULTIFRAME_REPORT]);
    let mut bad = 0;
    let time = seconds(|| {
        for image in &images {
            bad += dsr::read_into(image, &Tables::ZEROS, Choices::DEFAULT, &mut index, &mut report).unwrap().reading.bad;
        }
    });
    assert_eq!(bad, FILES / 10);
    time
}

fn listing(files: &[PathBuf], words: &[&str]) -> f64 {
    let mut command = Command::new(env!("CARGO_BIN_EXE_dsr"));
    command.arg("list").args(words).args(files).stdout(Stdio::null());
    seconds(|| assert_eq!(command.status().unwrap().code(), Some(1)))
}

/// Prints the times and the ratios; a missed target is told by the exit status.
fn tell([files, library, one, all]: [f64; 4]) -> i32 {
    let processors = std::thread::available_parallelism().map_or(1, usize::from);
    let milliseconds = |time: f64| format!("{:.1} ms", 1000.0 * time);
    println!("{FILES} recordings of {FRAMES} frames, best of {ROUNDS} rounds");
    println!("reading the files {}, the library's readings {}", milliseconds(files), milliseconds(library));
    let ratio = |time: f64| (files + library) / time;
    println!("dsr list, one at a time: {}, {:.2} of these two together", milliseconds(one), ratio(one));
    let verdict = if ratio(all) >= TARGET { "met" } else { "MISSED" };
    println!("dsr list, {processors} at a time: {}, {:.2} for {TARGET}: {verdict}", milliseconds(all), ratio(all));
    i32::from(ratio(all) < TARGET)
}
