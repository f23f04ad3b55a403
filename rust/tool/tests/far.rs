//! What goes wrong only far from the start: long recordings, long inputs, many files, and every option, each held to the library called
//! here with the same octets.
mod shared;

use std::fmt::Write;

use dsr::{Choices, Error, FrontEnd, Rate, Settings, Tables, Utterance};
use shared::{Chance, Room};

/// dsrlist's lines of what the library answers.
fn lines<B: AsRef<[u8]>>(heard: &Result<Utterance<B>, Error>) -> String {
    let utterance = match heard {
        Ok(utterance) => utterance,
        Err(refusal) => return format!("refused {} {}\n", refusal.number(), refusal.place()),
    };
    let mut text = String::new();
    for notes in utterance.report().chunks(13) {
        let pairs: String = notes[1..].iter().map(u8::to_string).collect();
        let _ = writeln!(text, "{} {pairs}", notes[0]);
    }
    let reading = utterance.reading;
    let (rate, kind) = (reading.settings.rate.code(), reading.settings.front_end.code());
    let _ = writeln!(
        text,
        "rate {rate} type {kind} multiframes {} speech {} bad {} end {}",
        reading.multiframes,
        reading.speech,
        reading.bad,
        u8::from(reading.end)
    );
    text
}

/// The longest utterance with notes of every kind all over it; in a row of pairs from `run` on every CRC fails.
fn long(seed: u64, frames: usize, run: usize) -> Vec<u8> {
    let mut chance = Chance(seed);
    let mut image = dsr::write(Settings::new(Rate::Khz11, FrontEnd::NoiseRobust), &chance.frames(frames)).unwrap();
    let multiframes = image.len() as u64 / 144;
    for _ in 0..multiframes / 3 {
        let header = 144 * chance.below(multiframes) as usize + 2;
        for _ in 0..chance.below(4) {
            image[header + chance.below(4) as usize] ^= 1 << chance.below(8);
        }
    }
    for _ in 0..multiframes * 2 {
        hit(&mut image, chance.below(12 * multiframes) as usize);
    }
    (run..run + 30).filter(|pair| *pair < 12 * multiframes as usize).for_each(|pair| hit(&mut image, pair));
    image
}

/// A bit of the pair is flipped: its CRC fails, unless the same bit was flipped before.
fn hit(image: &mut [u8], pair: usize) {
    let bit = 8 * (pair / 12 * 144 + 6) + pair % 12 * 92 + 20;
    image[bit / 8] ^= 1 << (bit % 8);
}

#[test]
fn long_recordings_in_every_form() {
    let room = Room::new("long");
    for (seed, frames) in [(1, 6119), (2, 6119), (3, 6118), (4, 5001), (5, 4801)] {
        let image = long(seed, frames, 985);
        room.put("a.dsr", &image);
        let heard = dsr::read(&image, &Tables::ZEROS, Choices::DEFAULT);
        let utterance = heard.as_ref().unwrap();
        assert_eq!(room.dsr("list --numbers a.dsr").text(), lines(&heard));
        let json = room.dsr("list --json a.dsr");
        assert_eq!(json.text(), json_line(utterance));
        // frames with the note of their pair, wherever they stand
        let read = room.dsr("read --notes a.dsr");
        let wanted: String = utterance
            .pairs()
            .flat_map(|pair| pair.frames.map(|frame| (frame, pair.note)))
            .take(utterance.reading.speech)
            .map(|(frame, note)| frame.map(|index| index.to_string()).join(",") + &format!(",{note}\n"))
            .collect();
        assert!(read.text().split_once('\n').unwrap().1 == wanted);
        assert!(room.dsr("read --raw a.dsr").out == utterance.spoken());
    }
}

/// The line of JSON, put together here from the report's octets.
fn json_line(utterance: &Utterance<Vec<u8>>) -> String {
    let reading = utterance.reading;
    let seconds = |hundredths: usize| format!("{:.2}", hundredths as f64 / 100.0);
    let header = |first: usize, last: usize, note: u8| {
        let (lost, flips) = (note == 3, if note == 3 { 0 } else { note % 4 });
        format!(
            r#"{{"first_multiframe":{first},"last_multiframe":{last},"from_seconds":{},"to_seconds":{},"note":{note},"mended":{flips},"lost":{lost},"out_of_step":{},"other_settings":{}}}"#,
            seconds(24 * (first - 1)),
            seconds(24 * last),
            note & 4 != 0,
            note & 8 != 0
        )
    };
    let pair = |first: usize, last: usize, note: u8| {
        format!(
            r#"{{"first_pair":{first},"last_pair":{last},"from_seconds":{},"to_seconds":{},"note":{note}}}"#,
            seconds(2 * (first - 1)),
            seconds(2 * last)
        )
    };
    let headers: Vec<u8> = utterance.report().chunks(13).map(|notes| notes[0]).collect();
    let pairs: Vec<u8> = utterance.report().chunks(13).flat_map(|notes| notes[1..].to_vec()).collect();
    format!(
        "{{\"schema\":1,\"file\":\"a.dsr\",\"outcome\":\"read\",\"status\":1,\"rate_khz\":11,\"front_end\":\"noise-robust\",\"multiframes\":{},\"speech_frames\":{},\"speech_seconds\":{},\"bad_pairs\":{},\"end_seen\":{},\"end_replaced\":{},\"headers\":[{}],\"replaced\":[{}]}}\n",
        reading.multiframes, reading.speech, seconds(reading.speech), reading.bad, reading.end, pairs.last() != Some(&0),
        runs(&headers, header), runs(&pairs, pair)
    )
}

/// Neighbours with the same note that is not 0, from 1, each shown.
fn runs(notes: &[u8], show: impl Fn(usize, usize, u8) -> String) -> String {
    let begins = |at: usize| notes[at] != 0 && (at == 0 || notes[at - 1] != notes[at]);
    let end = |at: usize| (at..notes.len()).take_while(|next| notes[*next] == notes[at]).count();
    (0..notes.len()).filter(|at| begins(*at)).map(|at| show(at + 1, at + end(at), notes[at])).collect::<Vec<_>>().join(",")
}

/// Long inputs are read to their end, or refused as their whole is: the beginning alone would give another answer.
#[test]
fn long_inputs_are_read_as_a_whole() {
    let room = Room::new("long-inputs");
    let image = |frames| dsr::write(Settings::new(Rate::Khz8, FrontEnd::Standard), &Chance(3).frames(frames)).unwrap();
    let inverse = |octets: usize| [0x78, 0x4D].repeat(octets / 2);
    let (three, one) = (image(60), image(20));
    for octets in [70_000, 262_144, (1 << 20) - 100, 1 << 20, (1 << 20) + 2, 1 << 21, 3_000_000] {
        for input in [
            [&inverse(octets)[..], &three].concat(),                              // 14 of the beginning
            [&one[..], &inverse(octets), &three].concat(),                        // 16
            [&three[..], &inverse(octets), &three].concat(),                      // read without a note
            [&inverse(octets - 50)[..], &three, &inverse(octets), &one].concat(), // 13 where the beginning ends
            [&three[..], &inverse(octets), b"junk"].concat(),
            [&three[..], &inverse(octets), &one[..77]].concat(),
            [b"junk".to_vec(), inverse(octets)].concat(),
            [&inverse(octets)[..], b"junk", &three].concat(),
            three.repeat(octets / 432 + 1),
        ] {
            room.put("a", &input);
            for (asked, choices) in [("", Choices::DEFAULT), ("--one-header-settles", Choices::ONE_HEADER_SETTLES)] {
                let wanted = lines(&dsr::read(&input, &Tables::ZEROS, choices));
                assert!(room.dsr(&format!("list --numbers a {asked}")).text() == wanted, "{octets} {asked} {wanted}");
                assert!(
                    room.dsr_with(&format!("list --numbers - {asked}"), &input).text() == wanted,
                    "{octets} {asked} {wanted}"
                );
            }
        }
        // of bits nothing is settled by their beginning
        let input = [vec![0xAA; octets], three.clone()].concat();
        room.put("a", &input);
        let bits = dsr::read_bits(&input, 0, 16, &Tables::ZEROS, Choices::DEFAULT).unwrap();
        let wanted = lines(&Ok::<_, Error>(bits.utterance)) + &format!("outside {} tested {}\n", bits.outside, bits.tested);
        assert_eq!(room.dsr("list --numbers --bits --match 16 a").text(), wanted);
    }
}

/// Tables, first bit, T and choice all reach the library, each as it was given.
#[test]
fn every_option_reaches_the_library() {
    let (room, mut chance) = (Room::new("options"), Chance(8));
    let mut kinds = [0; 4];
    for round in 0..120 {
        let codebook: Vec<i32> = (0..1280).map(|_| chance.below(2000) as i32 - 1000).collect();
        let thresholds: Vec<i32> = (0..14).map(|_| chance.below(2000) as i32).collect();
        let text = |numbers: &[i32], between: &str| numbers.iter().map(i32::to_string).collect::<Vec<_>>().join(between);
        room.put("codebook", text(&codebook, if round % 2 == 0 { "\n" } else { "\t" }));
        room.put("thresholds", text(&thresholds, ", "));
        let frames = if round % 5 == 0 { 20 } else { 24 + chance.below(100) as usize };
        let mut image = dsr::write(Settings::new(Rate::Khz16, FrontEnd::Standard), &chance.frames(frames)).unwrap();
        let pairs = image.len() as u64 / 12;
        (0..chance.below(12)).for_each(|_| hit(&mut image, chance.below(pairs) as usize));
        let tables = Tables::new(&codebook, &thresholds).unwrap();
        let named = round % 3 == 0;
        let (asked, choices) = if named { ("--one-header-settles", Choices::ONE_HEADER_SETTLES) } else { ("", Choices::DEFAULT) };
        room.put("a", &image);
        let heard = dsr::read(&image, &tables, choices);
        kinds[0] += usize::from(heard.as_ref().is_ok_and(|heard| heard.report().contains(&2)));
        let words = format!("--codebook codebook --thresholds thresholds {asked}");
        assert_eq!(room.dsr(&format!("list --numbers a {words}")).text(), lines(&heard), "round {round}");
        let (from, least) = (chance.below(3000), 12 + chance.below(5));
        let shifted = room.dsr(&format!("damage --shift {} --seed {round} a", chance.below(2000))).out;
        let mut bits = shifted.clone();
        (0..chance.below(6)).for_each(|_| {
            let at = chance.below(bits.len() as u64) as usize;
            bits[at] ^= 1 << chance.below(8);
        });
        room.put("b", &bits);
        let found = dsr::read_bits(&bits, from, least, &tables, choices);
        let more = found.as_ref().map_or(String::new(), |found| format!("outside {} tested {}\n", found.outside, found.tested));
        let wanted = lines(&found.map(|found| found.utterance)) + &more;
        kinds[1] += usize::from(wanted.contains('2') && wanted.contains("outside"));
        kinds[2] += usize::from(wanted.starts_with("refused 16"));
        kinds[3] += usize::from(wanted.starts_with("refused 22"));
        assert_eq!(
            room.dsr(&format!("list --numbers --bits --from {from} --match {least} b {words}")).text(),
            wanted,
            "round {round}"
        );
    }
    assert!(kinds.iter().all(|many| *many >= 3), "{kinds:?}");
}

/// A bad file far behind in a long call is told, and its status counts.
#[test]
fn what_is_wrong_with_a_late_file_is_told() {
    let room = Room::new("late");
    room.put("a", dsr::write(Settings::new(Rate::Khz8, FrontEnd::Standard), &Chance(3).frames(30)).unwrap());
    room.put("cut", &room.get("a")[..200]);
    let list = |late: &str| {
        let mut names = vec!["a"; 4000];
        names[3500] = late;
        let output = room.command().arg("list").args(names).output().unwrap();
        (output.status.code(), String::from_utf8(output.stderr).unwrap(), String::from_utf8(output.stdout).unwrap())
    };
    assert_eq!(list("a").0, Some(0));
    let (status, trouble, text) = list("cut");
    assert_eq!((status, trouble.as_str()), (Some(2), ""));
    assert_eq!(text.lines().position(|line| line.starts_with("cut: refused 13 144")), Some(3500));
    let (status, trouble, text) = list("nowhere");
    assert_eq!((status, trouble.as_str(), text.lines().count()), (Some(3), "dsr: nowhere: there is no such file\n", 3999));
}

/// Every cell of a long picture, in the terminal and in SVG, and what two of them have in common.
#[test]
fn long_pictures_say_what_the_library_noted() {
    let room = Room::new("long-pictures");
    let (one, other) = (long(6, 6001, 2990), long(7, 5555, 300));
    room.put("a.dsr", &one);
    room.put("b.dsr", &other);
    let heard = dsr::read(&one, &Tables::ZEROS, Choices::DEFAULT).unwrap();
    let text = room.dsr("plot a.dsr");
    let rows = |name: &str| -> String {
        text.text().lines().filter_map(|line| line.trim_start().strip_prefix(name)).map(str::trim_start).collect()
    };
    let (headers, report) = (rows("header "), heard.report());
    let letters = ['.', '1', '2', 'L', 'S', 'T', 'U', '?', 'D', 'E', 'F', '?', 'X', 'Y', 'Z'];
    assert_eq!(headers, report.chunks(13).map(|notes| letters[usize::from(notes[0])]).collect::<String>());
    for pair in 1..=12 {
        let sign = |(at, notes): (usize, &[u8])| match notes[pair] {
            1 => '#',
            2 => '%',
            _ if 2 * (12 * at + pair - 1) >= heard.reading.speech => '-',
            _ => '.',
        };
        let row = rows(&format!("pair {pair} "));
        assert_eq!(row, report.chunks(13).enumerate().map(sign).collect::<String>(), "pair {pair}");
    }
    let numbered: String = text
        .text()
        .lines()
        .filter(|line| line.trim_start().starts_with("multiframe"))
        .map(str::trim_start)
        .collect::<Vec<_>>()
        .join("; ");
    assert_eq!(numbered, "multiframes 1 to 50; multiframes 51 to 100; multiframes 101 to 150; multiframes 151 to 200; multiframes 201 to 250; multiframe 251");
    let drawn = room.dsr("plot a.dsr --compare b.dsr -o out.svg");
    assert_eq!(drawn.status, 0);
    let svg = String::from_utf8(room.get("out.svg")).unwrap();
    for (at, notes) in report.chunks(13).enumerate() {
        let x = 128 + 6 * at;
        for (pair, note) in notes.iter().enumerate().skip(1) {
            let (from, to) = (24 * at + 2 * (pair - 1), 24 * at + 2 * pair);
            let words = format!(
                "multiframe {}, pair {pair}, {:.2} s to {:.2} s: CRC failed, replaced",
                at + 1,
                from as f64 / 100.0,
                to as f64 / 100.0
            );
            let cell = format!("<rect x=\"{x}\" y=\"{}\" width=\"5\" height=\"15\"><title>{words}", 24 + 110 + 16 * (pair - 1));
            assert_eq!(svg.contains(&cell), *note == 1, "{cell}");
        }
        let header = format!("<title>multiframe {}, header, {:.2} s: ", at + 1, 24.0 * at as f64 / 100.0);
        assert!(svg.contains(&format!("<rect x=\"{x}\" y=\"88\" width=\"5\"")) || notes[0] & 3 == 0, "{header}");
        assert!(svg.contains(&header) || notes[0] == 0, "{header}");
    }
    let bad = |image: &[u8]| {
        dsr::read(image, &Tables::ZEROS, Choices::DEFAULT).unwrap().pairs().map(|pair| pair.note.is_bad()).collect::<Vec<_>>()
    };
    let both: Vec<(bool, bool)> = bad(&one).into_iter().zip(bad(&other)).collect();
    let count = |wanted: (bool, bool)| both.iter().filter(|pair| **pair == wanted).count();
    let line = format!(
        "Of the {} pairs that both have, bad in the first only: {}; in the second only: {}; in both: {}.",
        both.len(),
        count((true, false)),
        count((false, true)),
        count((true, true))
    );
    assert!(svg.contains(&line), "{line}");
}
