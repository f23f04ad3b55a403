//! dsr as a user calls it: a folder of its own for each test, calls with their three results, and stored texts.
#![allow(dead_code)]
use std::fs;
use std::io::Write;
use std::path::{Path, PathBuf};
use std::process::{Command, Output, Stdio};

/// The program that was built.
pub const DSR: &str = env!("CARGO_BIN_EXE_dsr");

/// A folder that goes with the test.
pub struct Room {
    path: PathBuf,
}

impl Room {
    pub fn new(name: &str) -> Room {
        let path = std::env::temp_dir().join(format!("dsr-tool-{}-{name}", std::process::id()));
        let _ = fs::remove_dir_all(&path);
        fs::create_dir_all(&path).unwrap();
        Room { path }
    }

    pub fn path(&self) -> &Path {
        &self.path
    }

    /// Puts a file there.
    pub fn put(&self, name: &str, octets: impl AsRef<[u8]>) -> PathBuf {
        let path = self.path.join(name);
        fs::write(&path, octets).unwrap();
        path
    }

    pub fn get(&self, name: &str) -> Vec<u8> {
        fs::read(self.path.join(name)).unwrap()
    }

    /// The names of all files there.
    pub fn names(&self) -> Vec<String> {
        let mut names: Vec<String> =
            fs::read_dir(&self.path).unwrap().map(|entry| entry.unwrap().file_name().into_string().unwrap()).collect();
        names.sort();
        names
    }

    /// Calls dsr in the folder with words that have blanks between them.
    pub fn dsr(&self, words: &str) -> Said {
        self.dsr_with(words, b"")
    }

    /// The same, with that standard input.
    pub fn dsr_with(&self, words: &str, input: &[u8]) -> Said {
        let mut command = self.command();
        command.args(words.split_whitespace()).stdin(Stdio::piped()).stdout(Stdio::piped()).stderr(Stdio::piped());
        let mut child = command.spawn().unwrap();
        // a program that reads nothing closes the pipe
        let _ = child.stdin.take().unwrap().write_all(input);
        Said::of(child.wait_with_output().unwrap())
    }

    /// dsr in the folder, with nothing of the caller's surroundings that changes what is printed.
    pub fn command(&self) -> Command {
        self.command_of(DSR)
    }

    /// Another program in the folder.
    pub fn command_of(&self, program: &str) -> Command {
        let mut command = Command::new(program);
        command.current_dir(&self.path).env_remove("COLUMNS").env_remove("NO_COLOR");
        command
    }
}

impl Drop for Room {
    fn drop(&mut self) {
        let _ = fs::remove_dir_all(&self.path);
    }
}

/// What a call gave.
#[derive(Debug, Clone, PartialEq, Eq)]
pub struct Said {
    pub status: i32,
    pub out: Vec<u8>,
    pub trouble: String,
}

impl Said {
    fn of(output: Output) -> Said {
        let status = output.status.code().expect("it ends by itself");
        Said { status, out: output.stdout, trouble: String::from_utf8(output.stderr).unwrap() }
    }

    pub fn text(&self) -> &str {
        std::str::from_utf8(&self.out).unwrap()
    }

    /// Standard output, standard error and status as one text, as a stored one has it.
    pub fn whole(&self) -> String {
        format!("{}{}exit status {}\n", self.text(), self.trouble, self.status)
    }

    /// One line on standard error that says it, nothing on standard output, and that status.
    #[track_caller]
    pub fn fails(&self, status: i32, line: &str) {
        assert_eq!((self.status, self.text(), self.trouble.as_str()), (status, "", format!("dsr: {line}\n").as_str()));
    }
}

/// Holds a text to the stored one; `GOLDEN=write` stores it instead.
#[track_caller]
pub fn golden(name: &str, text: &str) {
    let path = Path::new(env!("CARGO_MANIFEST_DIR")).join("tests/golden").join(name);
    if std::env::var_os("GOLDEN").is_some_and(|word| word == "write") {
        fs::write(&path, text).unwrap();
    }
    let stored = fs::read_to_string(&path).unwrap_or_default();
    assert!(stored == text, "{} has another text; this came:\n{text}", path.display());
}

/// The shipped sample: three multiframes, a mended header and a failed CRC.
pub fn sample() -> Vec<u8> {
    fs::read(Path::new(env!("CARGO_MANIFEST_DIR")).join("../../crates/dsrlist/stdin")).unwrap()
}

/// Chance that is the same each time (xorshift64).
pub struct Chance(pub u64);

impl Chance {
    pub fn below(&mut self, end: u64) -> u64 {
        self.0 ^= self.0 << 13;
        self.0 ^= self.0 >> 7;
        self.0 ^= self.0 << 17;
        self.0 % end
    }

    /// Frames that can be written: none is zero.
    pub fn frames(&mut self, count: usize) -> Vec<u8> {
        (0..count).flat_map(|_| [1 + self.below(63) as u8, self.below(64) as u8, 3, 4, 5, 6, self.below(256) as u8]).collect()
    }
}
