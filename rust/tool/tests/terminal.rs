//! On a terminal: a bar while many files are listed, colours in a picture, and no octets that are no text. `script` gives the terminal.
mod shared;

use std::fs::OpenOptions;
use std::io::Write;
use std::process::{Command, Stdio};
use std::thread::sleep;
use std::time::Duration;

use shared::{sample, Room, DSR};

/// What a call prints on a terminal, its two streams together, and its exit status.
fn on_terminal(room: &Room, words: &str, meanwhile: impl FnOnce()) -> (String, Option<i32>) {
    let mut command: Command = room.command_of("script");
    command.args(["-qec", &format!("'{DSR}' {words}"), "/dev/null"]).env("TERM", "xterm").stdin(Stdio::null());
    let child = command.stdout(Stdio::piped()).spawn().unwrap();
    meanwhile();
    let output = child.wait_with_output().unwrap();
    (String::from_utf8(output.stdout).unwrap(), output.status.code())
}

#[test]
fn a_bar_while_many_files_are_listed() {
    let room = Room::new("bar");
    room.put("a", sample());
    assert!(room.command_of("mkfifo").arg("slow").status().unwrap().success());
    let pipe = room.path().join("slow");
    let (said, status) = on_terminal(&room, &format!("list --jobs 2 slow {}", ["a"; 400].join(" ")), || {
        sleep(Duration::from_millis(500));
        OpenOptions::new().write(true).open(pipe).unwrap().write_all(&sample()).unwrap();
    });
    assert_eq!(status, Some(1));
    assert!(said.contains("] 32 of 401"), "{said}");
    // it goes before a line is printed, and is not there at the end
    assert!(said.contains("\r\x1b[K"), "{said}");
    assert!(said.trim_end().ends_with("replaced: CRC failed"), "{said}");
    assert_eq!(said.matches("slow: 8 kHz").count() + said.matches("a: 8 kHz").count(), 401);
}

#[test]
fn no_bar_for_one_file_or_where_nobody_looks() {
    let room = Room::new("no-bar");
    room.put("a", sample());
    let (said, _) = on_terminal(&room, "list a", || ());
    assert!(!said.contains('\x1b') && !said.contains('['), "{said}");
    assert_eq!(room.dsr("list a a a").trouble, "");
}

#[test]
fn octets_are_not_put_on_a_terminal() {
    let room = Room::new("octets");
    room.put("a", sample());
    room.put("frames", "1,2,3,4,5,6,7\n");
    for call in ["read --raw a", "read --raw a -o -", "damage --shift 3 a", "write --rate 8 --front-end standard frames"] {
        let (said, status) = on_terminal(&room, call, || ());
        assert_eq!(said.trim_end(), "dsr: standard output is a terminal, and this is no text: name a file by -o", "{call}");
        assert_eq!(status, Some(3), "{call}");
    }
}
