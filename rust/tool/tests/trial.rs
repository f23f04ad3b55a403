//! dsr trial as a user calls it: table, chart, and the numbers of docs/TRUST.md.
mod shared;

use std::path::Path;

use shared::{golden, Room};

#[test]
fn a_table_and_a_chart() {
    let room = Room::new("trial");
    let said = room.dsr("trial -o trial.svg");
    golden("trial.txt", &said.whole());
    golden("trial.svg", std::str::from_utf8(&room.get("trial.svg")).unwrap());
    golden(
        "trial-burst.txt",
        &room
            .dsr("trial --ber 1e-4,1e-3,1e-2 --burst 16 --match 12 --utterances 300 --frames 100 --spare-syncs --seed 5")
            .whole(),
    );
    golden("trial-bounded.txt", &room.dsr("trial --bounded 0,0.01,0.1,0.5,1 -o bounded.svg").whole());
    golden("trial-bounded.svg", std::str::from_utf8(&room.get("bounded.svg")).unwrap());
    golden("trial-shift.txt", &room.dsr("trial --ber 1e-3,3e-2 --shift 11 --utterances 50").whole());
    golden("trial-short.txt", &room.dsr("trial --frames 23 --ber 0,1e-3 --utterances 50").whole());
}

/// Within demand 3's bounds nothing is refused, and no frame is wrong: a theorem of the octet reader, of 1,000 utterances in each row.
#[test]
fn bounded_damage_leaves_no_frame_wrong() {
    let room = Room::new("trial-bounded");
    let said = room.dsr("trial --bounded 0,0.001,0.01,0.1,0.3,0.5,0.7,0.9,1 --utterances 1000 --frames 100 --seed 9");
    let rows: Vec<Vec<&str>> = said
        .text()
        .lines()
        .map(|line| line.split_whitespace().collect())
        .filter(|row: &Vec<&str>| row.get(1) == Some(&"octets"))
        .collect();
    assert_eq!(rows.len(), 9);
    for row in rows {
        // refused, missing, and behind replaced: wrong, unnamed, settings, untrue
        assert_eq!((row[2], row[7], &row[9..13]), ("0.00%", "0", &["0", "0", "0", "0"][..]), "{row:?}");
    }
}

/// Garbage of many bits does pass for speech: a trial that never found a wrong frame would look at nothing.
#[test]
fn wide_damage_leaves_wrong_frames() {
    let room = Room::new("trial-wide");
    let said = room.dsr("trial --ber 1e-2 --burst 100 --spare-syncs --utterances 300");
    let row: Vec<&str> = said.text().lines().find(|line| line.contains(" octets ")).unwrap().split_whitespace().collect();
    assert!(row[9].parse::<u64>().unwrap() > 50 && row[10].parse::<u64>().unwrap() > 50, "{row:?}");
}

#[test]
fn the_numbers_of_trust_are_counted() {
    let room = Room::new("trust");
    let said = room.dsr("trial --trust");
    golden("trial-trust.txt", &said.whole());
    // what it says that the documents say, they say
    let page = |name: &str| std::fs::read_to_string(Path::new(env!("CARGO_MANIFEST_DIR")).join("../..").join(name)).unwrap();
    let (trust, readme) = (page("docs/TRUST.md"), page("README.md"));
    let numbers = [
        "237 of 4,186",
        "15, 30, ..",
        "1 of 16",
        "465 of 35,960",
        "31 of 906,192",
        "25 or 26",
        "fewer than 24 frames",
        "16, 32, ..",
    ];
    assert!(numbers.iter().all(|number| trust.contains(number)), "docs/TRUST.md has other numbers");
    for row in said.text().lines().filter(|line| line.starts_with("a place of random bits passes, T ")) {
        let (level, one_in) = (&row[33..35], row.split("1 in ").nth(2).unwrap().split_whitespace().next().unwrap());
        let forgiven = 16 - level.parse::<u32>().unwrap();
        assert!(readme.contains(&format!("| {level} | {forgiven} | 1 in {one_in} |")), "{row}");
    }
}

#[test]
fn what_cannot_be_asked_for() {
    let room = Room::new("trial-wrong");
    let mut text = String::new();
    for words in [
        "--match 11",
        "--utterances 0",
        "--frames 0",
        "--frames 6120",
        "--ber 1e-3,x",
        "--ber 0.6",
        "--ber ,",
        "--bounded 2",
        "--bounded 0.1 --ber 0.1",
        "--bounded 0.1 --burst 3",
        "--bounded 0.1 --spare-syncs",
        "--trust --frames 3",
        "--trust -o out.svg",
        "--trust --shift 3",
        "--shift 1000001",
        "-o -",
        "file",
    ] {
        text += &format!("{words}\n{}", room.dsr(&format!("trial {words}")).whole());
    }
    golden("trial-wrong.txt", &text);
    assert_eq!(room.names(), [""; 0]);
}
