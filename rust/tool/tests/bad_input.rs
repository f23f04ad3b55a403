//! Bad input of each kind: one clear line, its exit status, and nothing written half.
mod shared;

use std::fs::{self, File, OpenOptions};
use std::io::Write;
use std::os::unix::fs::PermissionsExt;
use std::os::unix::process::CommandExt;
use std::process::Stdio;

use shared::{sample, Room, Said, DSR};

#[test]
fn a_missing_file() {
    let room = Room::new("missing");
    room.dsr("list nowhere.dsr").fails(3, "nowhere.dsr: there is no such file");
    room.command()
        .args(["list", ""])
        .output()
        .map(|output| assert_eq!(output.stderr, b"dsr: '': there is no such file\n"))
        .unwrap();
    room.dsr("plot nowhere.dsr -o out.svg").fails(3, "nowhere.dsr: there is no such file");
    room.dsr("read nowhere.dsr -o out.csv").fails(3, "nowhere.dsr: there is no such file");
    room.dsr("write --rate 8 --front-end standard nowhere.csv -o out.dsr").fails(3, "nowhere.csv: there is no such file");
    room.dsr("damage --shift 3 nowhere.dsr -o out.dsr").fails(3, "nowhere.dsr: there is no such file");
    assert_eq!(room.names(), [""; 0]);
}

#[test]
fn a_directory() {
    let room = Room::new("directory");
    room.dsr("list .").fails(3, ".: this is a directory: name the files in it");
    room.put("a", sample());
    fs::create_dir(room.path().join("folder")).unwrap();
    room.dsr("read a -o folder").fails(3, "folder: this is a directory: name the files in it");
    room.dsr("read a -o folder/none/b").fails(3, "folder/none/b: there is no such file");
    assert_eq!(room.names(), ["a", "folder"]);
}

#[test]
fn a_file_that_may_not_be_read() {
    let room = Room::new("forbidden");
    let file = room.put("secret.dsr", sample());
    fs::set_permissions(&file, fs::Permissions::from_mode(0o000)).unwrap();
    fs::set_permissions(room.path(), fs::Permissions::from_mode(0o755)).unwrap();
    fs::copy(DSR, room.path().join("dsr")).unwrap();
    // nothing is forbidden to root
    let mut command = std::process::Command::new(room.path().join("dsr"));
    command.current_dir(room.path()).args(["list", "secret.dsr"]);
    if File::open(&file).is_ok() {
        command.uid(65534);
    }
    let output = loop {
        match command.output() {
            // another test that begins a program at this moment may still hold the copy
            Err(error) if error.kind() == std::io::ErrorKind::ExecutableFileBusy => continue,
            output => break output.unwrap(),
        }
    };
    assert_eq!(String::from_utf8_lossy(&output.stderr), "dsr: secret.dsr: no permission\n");
    assert_eq!((output.status.code(), output.stdout.len()), (Some(3), 0));
}

#[test]
fn a_file_whose_reading_fails() {
    let room = Room::new("failing");
    // it can be opened, but there is nothing at its beginning
    room.dsr("list /proc/self/mem").fails(3, "/proc/self/mem: Input/output error");
}

#[test]
fn an_empty_file() {
    let room = Room::new("empty");
    room.put("empty", "");
    let said = room.dsr("list empty");
    assert_eq!((said.status, said.text()), (2, "empty: refused 14 0: there is no multiframe in these 0 octets\n"));
    room.dsr("read empty").fails(2, "empty: refused 14 0: there is no multiframe in these 0 octets");
    room.dsr("plot empty -o out.svg").fails(2, "empty: refused 14 0: there is no multiframe in these 0 octets");
    room.dsr("read --bits empty").fails(2, "empty: refused 22 0: no place from bit 0 on looks like a multiframe");
    assert_eq!(room.names(), ["empty"]);
}

#[test]
fn a_gigabyte() {
    let room = Room::new("gigabyte");
    File::create(room.path().join("zeros")).unwrap().set_len(1 << 30).unwrap();
    let said = room.dsr("list zeros");
    assert_eq!(
        (said.status, said.text()),
        (2, "zeros: refused 12 0: what stands at octet 0 begins neither a multiframe nor an inverse sync\n")
    );
    // an input that never ends
    let endless = File::open("/dev/zero").unwrap();
    let output = room.command().args(["list", "-"]).stdin(endless).output().unwrap();
    assert_eq!(String::from_utf8_lossy(&output.stdout), said.text().replace("zeros:", "standard input:"));
    // nor is a long file read to its end behind a recording that nothing known follows
    let behind = room.put("behind", sample());
    OpenOptions::new().write(true).open(behind).unwrap().set_len(1 << 28).unwrap();
    let said = room.dsr("list behind");
    assert_eq!(
        (said.status, said.text()),
        (2, "behind: refused 12 434: what stands at octet 434 begins neither a multiframe nor an inverse sync\n")
    );
}

/// What does not fit into memory is told, not the end of the program.
#[test]
fn more_than_fits_into_memory() {
    let room = Room::new("memory");
    let limited = |words: &str| {
        let output = room.command_of("sh").args(["-c", &format!("ulimit -v 300000; exec '{DSR}' {words}")]).output().unwrap();
        (output.status.code(), String::from_utf8(output.stderr).unwrap())
    };
    assert_eq!(limited("list --bits /dev/zero"), (Some(3), "dsr: /dev/zero: does not fit into memory\n".to_string()));
    room.put("a", sample());
    room.put("limits", "5 ".repeat(14));
    File::create(room.path().join("big")).unwrap().write_all(&b"1 2 3 4 5 6 7\n".repeat(5_000_000)).unwrap();
    let line = "dsr: big: more than 1280 numbers, and a codebook has 1280\n".to_string();
    assert_eq!(limited("list a --codebook big --thresholds limits"), (Some(3), line));
}

#[test]
fn tables_that_are_none() {
    let room = Room::new("tables");
    room.put("a", sample());
    room.put("zeros", "0 ".repeat(1280));
    room.put("limits", "5,5\n".repeat(7));
    assert_eq!(room.dsr("list a --codebook zeros --thresholds limits").status, 1);
    let with = |codebook: &str, thresholds: &str| room.dsr(&format!("list a --codebook {codebook} --thresholds {thresholds}"));
    room.put("short", "0 ".repeat(1279));
    with("short", "limits").fails(3, "short: 1279 numbers, and a codebook has 1280");
    room.put("long", "0 ".repeat(15));
    with("zeros", "long").fails(3, "long: more than 14 numbers, and a file of thresholds has 14");
    room.put("words", "# right so far\n0 0\n0 zero 0\n");
    with("words", "limits").fails(3, "words: line 3: 'zero' is not a whole number of 32 bits");
    room.put("odd", format!("0 0 {}", "x".repeat(40)));
    with("odd", "limits").fails(3, "odd: line 1: 'xxxxxxxxxxxxxxxxxxxx..' is not a whole number of 32 bits");
    room.put("wide", "2147483648 ".repeat(1280));
    with("wide", "limits").fails(3, "wide: line 1: '2147483648' is not a whole number of 32 bits");
    room.put("binary", [0xff, 0xfe, 0, 0]);
    with("binary", "limits").fails(3, "binary: this is no text");
    with("zeros", "nowhere").fails(3, "nowhere: there is no such file");
    // an editor's mark before the text, tabs and commas are no part of a number
    room.put("marked", "\u{feff}5,\t5\r\n".to_string() + &"5\t5\n".repeat(6));
    assert_eq!(with("zeros", "marked").status, 1);
    for words in ["- --codebook - --thresholds limits", "- --codebook zeros --thresholds -", "a --codebook - --thresholds -"] {
        room.dsr(&format!("list {words}")).fails(3, "list: standard input can be read only once (dsr list --help says more)");
    }
    room.put("negative", "5 5 5 -1 5 5 5 5 5 5 5 5 5 -2");
    with("zeros", "negative").fails(2, "negative: refused 10 3: threshold 3, counted from 0, is negative");
    room.dsr("list a --codebook zeros").fails(3, "list: --codebook needs --thresholds (dsr list --help says more)");
    room.dsr("list a --thresholds limits").fails(3, "list: --thresholds needs --codebook (dsr list --help says more)");
}

#[test]
fn numbers_out_of_range() {
    let room = Room::new("range");
    room.put("a", sample());
    let usage = |words: &str, line: &str| {
        let command = words.split(' ').next().unwrap();
        room.dsr(words).fails(3, &format!("{command}: {line} (dsr {command} --help says more)"));
    };
    room.dsr("list a --bits --match 11").fails(2, "--match: refused 21 11: T is 11, and it has to be 12 to 16");
    room.dsr("list a --bits --match 17").fails(2, "--match: refused 21 17: T is 17, and it has to be 12 to 16");
    usage("list a --bits --match x", "--match x: this is no such number");
    usage("list a --bits --from -1", "--from -1: this is no such number");
    usage("list a --bits --from 18446744073709551616", "--from 18446744073709551616: this is no such number");
    usage("list a --from 3", "--from needs --bits");
    usage("list a --jobs 0", "--jobs 0: 1 to 1000 files are read at a time");
    usage("list a --jobs 1001", "--jobs 1001: 1 to 1000 files are read at a time");
    usage("write --rate 12 --front-end standard a", "--rate 12: it is one of 8, 11, 16");
    usage("write --front-end standard a", "--rate has to be said: 8, 11 or 16 (kHz)");
    usage("write --rate 8 a", "--front-end has to be said: standard or noise-robust");
    let json = room.dsr(&format!("list --json a --bits --from {}", u64::MAX));
    assert!(json.text().contains(r#""refusal":22,"place":18446744073709551615,"#), "{}", json.text());
    let said = room.dsr(&format!("list a --bits --from {}", u64::MAX));
    assert_eq!(
        (said.status, said.text()),
        (2, "a: refused 22 18446744073709551615: no place from bit 18446744073709551615 on looks like a multiframe\n")
    );
}

#[test]
fn frames_that_cannot_be_written() {
    let room = Room::new("frames");
    let write = |text: &str| {
        room.put("frames", text);
        room.dsr("write --rate 8 --front-end standard frames -o out.dsr")
    };
    write("1,2,3,4,5,6\n").fails(3, "frames: line 1: 6 numbers, and a frame has 7");
    write("1,2,3,4,5,6,7\n\n1,2,3,4,5,6,7,8\n").fails(3, "frames: line 3: 8 numbers, and a frame has 7");
    write("1,2,3,4,5,6,256\n").fails(3, "frames: line 1: '256' is not an index: a whole number from 0 to 255");
    write("1,2,3,4,5,6,-7\n").fails(3, "frames: line 1: '-7' is not an index: a whole number from 0 to 255");
    write("1,2,3,4,5,,7\n").fails(3, "frames: line 1: '' is not an index: a whole number from 0 to 255");
    write("1,2,3,4,5,6,7\n1,64,3,4,5,6,7\n")
        .fails(2, "frames: refused 4 2: frame 2, counted from 1, has an index above 63 among its first six");
    write(&"1,2,3,4,5,6,7\n".repeat(6120))
        .fails(2, "frames: refused 3 6120: 6120 frames are more than an utterance can have, 6,119");
    let zero = "frame 1, counted from 1, is all zero and would be taken for the end: it is the last one, or its number is a multiple of 24";
    write("0,0,0,0,0,0,0\n").fails(2, &format!("frames: refused 5 1: {zero}"));
    room.put("raw", [1; 7003]);
    room.dsr("write --raw --rate 8 --front-end standard raw -o out.dsr")
        .fails(2, "raw: refused 2 7003: 7003 index octets are no whole number of frames: a frame has seven");
    room.put("raw", [1; 8]);
    room.dsr("write --raw --rate 8 --front-end standard raw -o out.dsr")
        .fails(2, "raw: refused 2 8: 8 index octets are no whole number of frames: a frame has seven");
    assert_eq!(room.names(), ["frames", "raw"]);
}

#[test]
fn usage_that_is_none() {
    let room = Room::new("usage");
    room.dsr("").fails(3, "which command? dsr --help lists them");
    room.dsr("lst")
        .fails(3, "lst: there is no such command; there are list, plot, write, read, damage, trial, explain, completion, man");
    room.dsr("list").fails(3, "list: it takes FILE.. (dsr list --help says more)");
    room.dsr("list --jsn a").fails(3, "list: there is no option --jsn (dsr list --help says more)");
    room.dsr("list --json=1 a").fails(3, "list: --json takes no value (dsr list --help says more)");
    room.dsr("list --json --json a").fails(3, "list: --json stands twice (dsr list --help says more)");
    room.dsr("list --json --numbers a").fails(3, "list: --json and --numbers exclude each other (dsr list --help says more)");
    room.dsr("list a --match").fails(3, "list: --match needs a value (dsr list --help says more)");
    room.dsr("list - -").fails(3, "list: standard input can be read only once (dsr list --help says more)");
    room.dsr("read a b").fails(3, "read: it takes FILE (dsr read --help says more)");
    room.dsr("man a").fails(3, "man: it takes no operand (dsr man --help says more)");
    room.dsr("completion tcsh").fails(3, "completion: SHELL is bash, zsh or fish (dsr completion --help says more)");
}

/// A line is one line, whatever stands in it.
#[test]
fn a_message_cannot_disturb_a_terminal() {
    let room = Room::new("escapes");
    for words in [["list", "--\u{1b}[31m\n"], ["list", "a\u{1b}[2J\nb"], ["\u{1b}c\n", "x"], ["explain", "\u{1b}\n7"]] {
        let output = room.command().args(words).output().unwrap();
        let said = String::from_utf8(output.stderr).unwrap();
        assert_eq!((output.status.code(), said.lines().count(), said.contains('\u{1b}')), (Some(3), 1, false), "{said}");
    }
}

/// A standard error that is full or closed changes nothing of the status.
#[test]
fn a_standard_error_that_nobody_reads() {
    let room = Room::new("stderr");
    room.put("a", sample());
    for (call, status) in
        [("list nowhere", 3), ("read a -o out", 1), ("damage --shift 1 a -o out", 0), ("lst", 3), ("read nowhere", 3)]
    {
        for to in ["2>/dev/full", "2>&-"] {
            let output = room.command_of("sh").args(["-c", &format!("'{DSR}' {call} {to}")]).output().unwrap();
            assert_eq!((output.status.code(), output.stdout.len()), (Some(status), 0), "{call} {to}");
        }
    }
}

/// The calls whose output goes to standard output.
const CALLS: [&str; 9] =
    ["list a", "list --json a a a", "read a", "read --raw b", "damage --shift 5 a", "plot a", "explain 13", "man", "--help"];

#[test]
fn a_full_output() {
    let room = Room::new("full");
    room.put("a", sample());
    // no octet of its frames ends a line, so that nothing gets out before the end
    room.put("b", dsr::write(dsr::Settings::from_codes(0, 0).unwrap(), &[5; 7 * 30]).unwrap());
    for call in CALLS {
        let full = OpenOptions::new().write(true).open("/dev/full").unwrap();
        let output = room.command().args(call.split(' ')).stdout(full).output().unwrap();
        assert_eq!(String::from_utf8_lossy(&output.stderr), "dsr: standard output: no room left\n", "{call}");
        assert_eq!(output.status.code(), Some(3), "{call}");
    }
}

#[test]
fn a_closed_output() {
    let room = Room::new("closed");
    room.put("a", sample());
    room.put("b", dsr::write(dsr::Settings::from_codes(0, 0).unwrap(), &[5; 7 * 30]).unwrap());
    for call in CALLS {
        let script = format!("'{DSR}' {call} >&-");
        let output = room.command_of("sh").args(["-c", &script]).output().unwrap();
        assert_eq!(String::from_utf8_lossy(&output.stderr), "dsr: standard output: closed\n", "{call}");
        assert_eq!(output.status.code(), Some(3), "{call}");
    }
    let output = room.command_of("sh").args(["-c", &format!("'{DSR}' list - <&-")]).output().unwrap();
    assert_eq!(String::from_utf8_lossy(&output.stderr), "dsr: standard input: closed\n");
    assert_eq!(output.status.code(), Some(3));
}

#[test]
fn a_pipe_that_nobody_reads() {
    let room = Room::new("pipe");
    room.put("a", sample());
    let names = vec!["a"; 20_000];
    let mut child = room.command().arg("list").args(names).stdout(Stdio::piped()).stderr(Stdio::piped()).spawn().unwrap();
    drop(child.stdout.take());
    let output = child.wait_with_output().unwrap();
    assert_eq!(String::from_utf8_lossy(&output.stderr), "dsr: standard output: closed by whoever was reading it\n");
    assert_eq!(output.status.code(), Some(3));
}

#[test]
fn an_output_file_appears_whole_or_not_at_all() {
    let room = Room::new("whole");
    room.put("a", sample());
    let old = room.put("out.csv", "what was there before");
    // more than a new file would get
    fs::set_permissions(&old, fs::Permissions::from_mode(0o646)).unwrap();
    // another name of the old file keeps what was there: the new file is another one, put in its place
    fs::hard_link(&old, room.path().join("kept")).unwrap();
    // what fails leaves the old file
    room.put("cut", &sample()[..300]);
    assert_eq!(room.dsr("read cut -o out.csv").status, 2);
    assert_eq!(room.get("out.csv"), b"what was there before");
    // a name that the system takes is taken, and no longer one
    room.dsr(&format!("read a -o {}", "x".repeat(256))).fails(3, &format!("{}: File name too long", "x".repeat(256)));
    let long = "x".repeat(255);
    assert_eq!(room.dsr(&format!("read a -o {long}")).status, 1);
    fs::remove_file(room.path().join(long)).unwrap();
    // what breaks off in the middle leaves nothing: files of more than one block are forbidden
    let script = format!("trap '' XFSZ; ulimit -f 1; exec '{DSR}' read a -o half.csv");
    room.put("a", dsr::write(dsr::Settings::from_codes(0, 0).unwrap(), &shared::Chance(1).frames(600)).unwrap());
    let broken = room.command_of("sh").args(["-c", &script]).output().unwrap();
    assert_eq!(
        (broken.status.code(), String::from_utf8_lossy(&broken.stderr).as_ref()),
        (Some(3), "dsr: half.csv: File too large\n")
    );
    room.put("a", sample());
    // a link leads to the file that it names, and the file keeps its permissions
    std::os::unix::fs::symlink("out.csv", room.path().join("link")).unwrap();
    assert_eq!(room.dsr("read a -o link").status, 1);
    assert_eq!(room.get("out.csv"), room.dsr("read a").out);
    assert_eq!(room.get("kept"), b"what was there before");
    assert_eq!(fs::metadata(&old).unwrap().permissions().mode() & 0o777, 0o646);
    assert!(fs::symlink_metadata(room.path().join("link")).unwrap().is_symlink());
    // a file in memory is a file
    for old in ["", "x"].into_iter().filter(|_| std::path::Path::new("/dev/shm").is_dir()) {
        let shm = std::path::Path::new("/dev/shm").join(format!("dsr-tool-{}", std::process::id()));
        fs::write(&shm, old.repeat(100_000)).unwrap();
        assert_eq!(room.dsr(&format!("read a -o {}", shm.display())).status, 1);
        assert_eq!(fs::read(&shm).unwrap(), room.get("out.csv"));
        fs::remove_file(&shm).unwrap();
        assert_eq!(room.dsr(&format!("read a -o {}", shm.display())).status, 1);
        fs::remove_file(&shm).unwrap();
    }
    // a device stays one
    assert_eq!(room.dsr("read a -o /dev/null").status, 1);
    let full: Said = room.dsr("read a -o /dev/full");
    assert_eq!((full.status, full.trouble.as_str()), (3, "dsr: /dev/full: no room left\n"));
    // so does a link to a file that is not there yet, and one that leads to itself is told
    std::os::unix::fs::symlink("new.csv", room.path().join("early")).unwrap();
    std::os::unix::fs::symlink("round", room.path().join("round")).unwrap();
    assert_eq!(room.dsr("read a -o early").status, 1);
    assert_eq!(room.get("new.csv"), room.get("out.csv"));
    assert!(fs::symlink_metadata(room.path().join("early")).unwrap().is_symlink());
    let round = room.dsr("read a -o round");
    assert_eq!((round.status, round.text(), round.trouble.as_str()), (3, "", "dsr: round: a link that leads to itself\n"));
    // - is standard output, and so is /dev/stdout, where something stands already
    assert_eq!(room.dsr("read a -o -").out, room.get("out.csv"));
    let script = format!("{{ echo head; '{DSR}' read a -o /dev/stdout; echo tail; }} >log 2>/dev/null");
    assert!(room.command_of("sh").args(["-c", &script]).status().unwrap().success());
    assert_eq!(room.get("log"), [b"head\n", &room.get("out.csv")[..], b"tail\n"].concat());
    fs::remove_file(room.path().join("log")).unwrap();
    assert_eq!(room.names(), ["a", "cut", "early", "kept", "link", "new.csv", "out.csv", "round"]);
}
