//! Links target/lib/ARCH/libdsr.a, which `make lib` makes. DSR_LIB_DIR and DSR_LIB_NAME name another archive with the same functions.
//! An archive that is missing, or for another machine, is told here in a sentence: what a linker says of it is hard to read.
use std::env::var;
use std::fs;
use std::path::Path;

fn main() {
    let arch = var("CARGO_CFG_TARGET_ARCH").expect("cargo names the target");
    let here = var("CARGO_MANIFEST_DIR").expect("cargo names the package's folder");
    let dir = var("DSR_LIB_DIR").unwrap_or(format!("{here}/../../target/lib/{arch}"));
    let name = var("DSR_LIB_NAME").unwrap_or("dsr".to_string());
    println!("cargo::rerun-if-env-changed=DSR_LIB_DIR");
    println!("cargo::rerun-if-env-changed=DSR_LIB_NAME");
    println!("cargo::rerun-if-changed={dir}/lib{name}.a");
    println!("cargo::rustc-link-search=native={dir}");
    println!("cargo::rustc-link-lib=static={name}");
    if let Some(trouble) = trouble(Path::new(&format!("{dir}/lib{name}.a")), &arch) {
        println!("cargo::error={trouble}");
    }
}

/// What keeps the archive from being linked for that architecture, if anything does.
pub fn trouble(archive: &Path, arch: &str) -> Option<String> {
    let shown = archive.display();
    let make = how_to_make(arch);
    let Ok(octets) = fs::read(archive) else {
        return Some(format!("there is no archive {shown}: {make}"));
    };
    let Some(machine) = machine_of(&octets) else {
        return Some(format!("{shown} is no archive of ELF objects: {make}"));
    };
    let (made_for, target) = (name_of(machine), spelt(arch));
    (made_for != target).then(|| format!("this archive is for {made_for} and the target is {target}: {shown}; {make}"))
}

/// What to do for an archive of that architecture.
fn how_to_make(arch: &str) -> String {
    match arch {
        "x86_64" | "aarch64" => format!("run make lib ARCH={arch} in the repository, or name an archive's folder by DSR_LIB_DIR"),
        _ => "make lib makes archives for x86-64 and aarch64 only".to_string(),
    }
}

/// The ELF machine of the first object of an archive. Other members (the table of symbols, long names) are passed over.
pub fn machine_of(archive: &[u8]) -> Option<u16> {
    let mut rest = archive.strip_prefix(b"!<arch>\n")?;
    loop {
        let (header, members) = rest.split_at_checked(60)?;
        let size: usize = std::str::from_utf8(&header[48..58]).ok()?.trim_end().parse().ok()?;
        let member = members.get(..size)?;
        if member.starts_with(b"\x7fELF") {
            return machine_of_object(member);
        }
        // a member begins at an even place
        rest = members.get(size + size % 2..)?;
    }
}

/// The number e_machine: two octets from 18 on, in the object's own order, which octet 5 tells.
fn machine_of_object(object: &[u8]) -> Option<u16> {
    let machine = [*object.get(18)?, *object.get(19)?];
    Some(if object[5] == 2 { u16::from_be_bytes(machine) } else { u16::from_le_bytes(machine) })
}

fn name_of(machine: u16) -> String {
    match machine {
        62 => "x86-64".to_string(),
        183 => "aarch64".to_string(),
        other => format!("ELF machine {other}"),
    }
}

/// Rust's name of an architecture as it is written here.
fn spelt(arch: &str) -> String {
    arch.replace("x86_64", "x86-64")
}
