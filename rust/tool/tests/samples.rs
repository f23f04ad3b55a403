//! The shipped recording of a bad link is what samples/make makes, and README's picture is what dsr draws of it.
mod shared;

use std::fs;
use std::path::PathBuf;

use shared::{golden, Room, DSR};

fn repository() -> PathBuf {
    PathBuf::from(env!("CARGO_MANIFEST_DIR")).join("../..")
}

#[test]
fn the_recording_is_made_anew() {
    let room = Room::new("samples");
    let made = room.command_of("bash").arg(repository().join("samples/make")).args([".", DSR]).output().unwrap();
    assert!(made.status.success(), "{}", String::from_utf8_lossy(&made.stderr));
    for name in ["bad-link.dsr", "codebook.txt", "thresholds.txt"] {
        assert!(room.get(name) == fs::read(repository().join("samples").join(name)).unwrap(), "samples/{name} is another");
    }
    assert_eq!(room.names(), ["bad-link.dsr", "codebook.txt", "thresholds.txt"]);
    golden("bad-link.txt", &room.dsr("list bad-link.dsr --codebook codebook.txt --thresholds thresholds.txt").whole());
    golden("bad-link-plot.txt", &room.dsr("plot bad-link.dsr --codebook codebook.txt --thresholds thresholds.txt").whole());
}

/// By the very words of README.
#[test]
fn the_picture_is_drawn_anew() {
    let room = Room::new("drawn");
    let picture = room.path().join("bad-link.svg");
    let mut command = room.command();
    let drawn = command.current_dir(repository()).args(["plot", "samples/bad-link.dsr", "-o"]).arg(&picture).status().unwrap();
    assert!(drawn.success());
    let stored = repository().join("docs/bad-link.svg");
    if std::env::var_os("GOLDEN").is_some_and(|word| word == "write") {
        fs::copy(&picture, &stored).unwrap();
    }
    assert!(fs::read(&picture).unwrap() == fs::read(&stored).unwrap_or_default(), "docs/bad-link.svg is another");
}
