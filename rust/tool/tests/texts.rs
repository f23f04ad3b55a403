//! Explanations, help, manual page and completion, held to stored texts.
mod shared;

use std::path::Path;

use shared::{golden, Room};

#[test]
fn every_refusal_and_every_note_is_explained() {
    let room = Room::new("explain");
    let refusals = [1, 2, 3, 4, 5, 6, 10, 11, 12, 13, 14, 15, 16, 17, 18, 19, 20, 21, 22, 96, 99];
    let text: String = refusals
        .iter()
        .flat_map(|n| [room.dsr(&format!("explain {n}")), room.dsr(&format!("explain {n} 290"))])
        .map(|said| said.whole())
        .collect();
    golden("explain.txt", &text);
    let notes: String = (0..=16).map(|n| room.dsr(&format!("explain note {n}")).whole()).collect();
    golden("explain-notes.txt", &notes);
    golden("explain-end.txt", &room.dsr("explain end").whole());
    let wrong: String = ["7", "x", "13 x", "note", "note x", "note 256", "13 290 5", ""]
        .map(|words| room.dsr(&format!("explain {words}")).whole())
        .concat();
    golden("explain-wrong.txt", &wrong);
}

/// The crate's refusals are all there: a new one of 02 would be a refusal that dsr does not know.
#[test]
fn no_refusal_of_the_crate_is_missing() {
    let room = Room::new("known");
    for number in (0..200).filter(|number| dsr::Error::new(*number, 0).is_some()) {
        assert_eq!(room.dsr(&format!("explain {number} 0")).status, 0, "{number}");
    }
}

#[test]
fn help_says_what_each_command_takes() {
    let room = Room::new("help");
    let commands = ["list", "plot", "write", "read", "damage", "trial", "explain", "completion", "man"];
    let text: String = commands.iter().map(|name| room.dsr(&format!("{name} --help")).whole()).collect();
    golden("help.txt", &(room.dsr("--help").whole() + &text));
    assert_eq!(room.dsr("help list").whole(), room.dsr("list -h").whole());
    assert_eq!(room.dsr("help nothing").status, 3);
    assert_eq!(room.dsr("--version").text(), format!("dsr {}\n", env!("CARGO_PKG_VERSION")));
}

/// man/dsr.1 is what the program prints.
#[test]
fn the_manual_page_is_the_programs_own() {
    let page = Room::new("man").dsr("man");
    let stored = Path::new(env!("CARGO_MANIFEST_DIR")).join("../../man/dsr.1");
    if std::env::var_os("GOLDEN").is_some_and(|word| word == "write") {
        std::fs::write(&stored, page.text()).unwrap();
    }
    assert!(std::fs::read_to_string(&stored).unwrap_or_default() == page.text(), "man/dsr.1 is not what dsr man prints");
}

#[test]
fn completion_for_three_shells() {
    let room = Room::new("completion");
    for shell in ["bash", "zsh", "fish"] {
        golden(&format!("completion.{shell}"), room.dsr(&format!("completion {shell}")).text());
    }
}

/// bash offers what the tables say.
#[test]
fn bash_completes() {
    let room = Room::new("bash");
    room.put("completion", room.dsr("completion bash").text());
    let offers = |words: &str| {
        let script = format!(
            "compopt() {{ echo \"($*)\"; }}; . ./completion; COMP_WORDS=({words}); COMP_CWORD=$((${{#COMP_WORDS[@]}} - 1)); _dsr; echo \"${{COMPREPLY[*]}}\""
        );
        let output = room.command_of("bash").args(["-c", &script]).output().unwrap();
        String::from_utf8(output.stdout).unwrap().trim().to_string()
    };
    assert_eq!(offers("dsr l"), "list");
    assert_eq!(offers("dsr ''"), "list plot write read damage trial explain completion man --help --version");
    assert_eq!(offers("dsr list --j"), "--json --jobs");
    assert_eq!(offers("dsr list yar"), "(-o default)");
    assert_eq!(offers("dsr list --codebook c"), "(-o default)");
    assert_eq!(offers("dsr list --match 1"), "");
    assert_eq!(offers("dsr write --rate 1"), "11 16");
    assert_eq!(offers("dsr completion ''"), "-h --help bash zsh fish");
    assert_eq!(offers("dsr explain n"), "note");
    assert_eq!(offers("dsr explain e"), "end");
}
