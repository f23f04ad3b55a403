//! What the build script says of an archive that cannot be linked: as sentences, and as cargo prints them.
#[allow(dead_code)]
#[path = "../build.rs"]
mod build;

use std::fs;
use std::path::{Path, PathBuf};
use std::process::Command;

const X86_64: u16 = 62;
const AARCH64: u16 = 183;

/// A member of an archive, at an even place.
fn member(name: &str, octets: &[u8]) -> Vec<u8> {
    let size = octets.len();
    let mut out = format!("{name:<16}{:<12}{:<6}{:<6}{:<8}{size:<10}`\n", 0, 0, 0, 644).into_bytes();
    out.extend(octets);
    out.extend(&b"\n"[..size % 2]);
    out
}

/// The first octets of an object for that machine.
fn object(machine: [u8; 2], order: u8) -> Vec<u8> {
    let mut octets = vec![0x7F, b'E', b'L', b'F', 2, order, 1];
    octets.resize(18, 0);
    octets.extend(machine);
    octets
}

/// An archive with a table of symbols of odd length, one of long names, and an object.
fn archive(machine: u16) -> Vec<u8> {
    let object = object(machine.to_le_bytes(), 1);
    [b"!<arch>\n".to_vec(), member("/", &[0; 5]), member("//", b"long/\n"), member("dsr.o/", &object)].concat()
}

/// A folder of this run's own, with that archive in it if there is one.
fn folder(name: &str, archive: Option<&[u8]>) -> PathBuf {
    let folder = Path::new(env!("CARGO_TARGET_TMPDIR")).join(name);
    let _ = fs::remove_dir_all(&folder);
    fs::create_dir_all(&folder).unwrap();
    if let Some(octets) = archive {
        fs::write(folder.join("libdsr.a"), octets).unwrap();
    }
    folder
}

#[test]
fn the_first_object_tells_the_machine() {
    assert_eq!(build::machine_of(&archive(X86_64)), Some(X86_64));
    assert_eq!(build::machine_of(&archive(AARCH64)), Some(AARCH64));
    let big = [b"!<arch>\n".to_vec(), member("a.o/", &object(22u16.to_be_bytes(), 2))].concat();
    assert_eq!(build::machine_of(&big), Some(22));
}

/// Whatever the octets, the script says something of them and does not fail itself.
#[test]
fn a_cut_or_strange_archive_has_no_machine() {
    let whole = archive(X86_64);
    for end in 0..whole.len() {
        assert_eq!(build::machine_of(&whole[..end]), None);
    }
    let sized = [b"!<arch>\n".to_vec(), member("/", &[]), b"x".repeat(60)].concat();
    assert_eq!(build::machine_of(&sized), None);
}

#[test]
fn the_sentences() {
    let says = |name: &str, archive: Option<&[u8]>, arch: &str| build::trouble(&folder(name, archive).join("libdsr.a"), arch);
    let missing = says("missing", None, "x86_64").unwrap();
    assert!(missing.starts_with("there is no archive ") && missing.contains(": run make lib ARCH=x86_64 "), "{missing}");
    let strange = says("strange", Some(b"!<thin>\n"), "x86_64").unwrap();
    assert!(strange.contains(" is no archive of ELF objects: run make lib "), "{strange}");
    let other = says("other", Some(&archive(X86_64)), "aarch64").unwrap();
    assert!(other.starts_with("this archive is for x86-64 and the target is aarch64: "), "{other}");
    assert!(other.contains("; run make lib ARCH=aarch64 in the repository"), "{other}");
    let other = says("other-way", Some(&archive(AARCH64)), "x86_64").unwrap();
    assert!(other.starts_with("this archive is for aarch64 and the target is x86-64: "), "{other}");
    let other = says("third", Some(&archive(X86_64)), "riscv64").unwrap();
    assert!(other.starts_with("this archive is for x86-64 and the target is riscv64: "), "{other}");
    assert!(other.ends_with("; make lib makes archives for x86-64 and aarch64 only"), "{other}");
    let other = says("fourth", Some(&archive(243)), "aarch64").unwrap();
    assert!(other.starts_with("this archive is for ELF machine 243 and the target is aarch64: "), "{other}");
    assert_eq!(says("right", Some(&archive(AARCH64)), "aarch64"), None);
    assert_eq!(says("right-too", Some(&archive(X86_64)), "x86_64"), None);
}

/// What cargo prints when it checks this package over the archive in that folder; it has to fail.
fn cargo_says(folder: &Path) -> String {
    let cargo = Command::new(env!("CARGO"))
        .args(["check", "--quiet", "--offline", "--manifest-path", concat!(env!("CARGO_MANIFEST_DIR"), "/Cargo.toml")])
        .arg("--target-dir")
        .arg(Path::new(env!("CARGO_TARGET_TMPDIR")).join("check"))
        .env("DSR_LIB_DIR", folder)
        .env_remove("DSR_LIB_NAME")
        .output()
        .unwrap();
    assert!(!cargo.status.success());
    String::from_utf8(cargo.stderr).unwrap()
}

#[test]
fn cargo_prints_them() {
    let missing = cargo_says(&folder("cargo-missing", None));
    assert!(missing.contains("there is no archive ") && missing.contains("run make lib "), "{missing}");
    let (other, sentence) = match std::env::consts::ARCH {
        "x86_64" => (AARCH64, "this archive is for aarch64 and the target is x86-64: "),
        "aarch64" => (X86_64, "this archive is for x86-64 and the target is aarch64: "),
        _ => return,
    };
    let other = cargo_says(&folder("cargo-other", Some(&archive(other))));
    assert!(other.contains(sentence), "{other}");
}
