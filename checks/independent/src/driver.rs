//! Talks to a driver (drive/*.c), which makes each call of the library and sends back what it left in the lent memory.
use crate::reading::{Rule, REPORT};
use std::collections::BTreeMap;
use std::io::{BufReader, BufWriter, Read, Write};
use std::process::{Child, ChildStdin, ChildStdout, Command, Stdio};

/// What dsr.h's functions answer beside 01's and 02's numbers.
pub const DONE: u32 = 0;
pub const NO_SUCH_CHOICE: u32 = 96;
pub const HEADER_UNREADABLE: u32 = 97;
pub const WRONG_LENGTH: u32 = 98;
pub const ANSWER_SHORT: u32 = 99;

/// The numbers for `choices` that dsr.h names: the default, and the old rule for an only multiframe.
pub const DEFAULT: u64 = 0;
pub const ONE_HEADER_SETTLES: u64 = 1;
pub const KNOWN_CHOICES: [u64; 2] = [DEFAULT, ONE_HEADER_SETTLES];

/// Numbers for `choices` that dsr.h does not name: each bit beside the lowest alone, so that the number is 0 or 1 to whoever does not look
/// at that bit; many bits at once; and every small one.
pub fn unknown_choices() -> Vec<u64> {
    let one_bit = (1..64).flat_map(|bit| [1 << bit, 1 << bit | 1]);
    one_bit.chain(2..=300).chain([u64::MAX - 1, u64::MAX]).collect()
}

/// The rule that a number asks for, if there is one.
pub fn rule_of(choices: u64) -> Option<Rule> {
    match choices {
        DEFAULT => Some(Rule::TwoHeaders),
        ONE_HEADER_SETTLES => Some(Rule::OneHeaderSettles),
        _ => None,
    }
}

pub struct Driver {
    child: Child,
    /// None once the calls have ended.
    to: Option<BufWriter<ChildStdin>>,
    from: BufReader<ChildStdout>,
    calls: usize,
    counts: BTreeMap<String, usize>,
}

impl Driver {
    /// Starts the command that this program's arguments are.
    pub fn start() -> Driver {
        let words: Vec<String> = std::env::args().skip(1).collect();
        let (program, rest) = words.split_first().expect("give the command that runs the driver");
        let mut child = Command::new(program).args(rest).stdin(Stdio::piped()).stdout(Stdio::piped()).spawn().expect("the driver starts");
        let to = child.stdin.take().map(BufWriter::new);
        let from = BufReader::new(child.stdout.take().unwrap());
        Driver { child, to, from, calls: 0, counts: BTreeMap::new() }
    }

    /// Calls are counted anew in each round, so that `mode` does not depend on those before.
    pub fn begin_round(&mut self) {
        self.calls = 0;
    }

    /// Whether the next call lends its slices against the page before them (1) or after them (0): by turns.
    pub fn mode(&self) -> u8 {
        (self.calls % 2) as u8
    }

    pub fn call(&mut self, call: Call, answer: usize) -> Answer {
        self.calls += 1;
        let to = self.to.as_mut().expect("the driver has not been ended");
        let sent = to.write_all(&call.0).and_then(|()| to.flush());
        let mut octets = vec![0; answer];
        if sent.is_err() || self.from.read_exact(&mut octets).is_err() {
            let status = self.child.wait().expect("the driver ends");
            panic!("the driver ended in call {} of the round ({status}): it touched memory that was not lent, or failed", self.calls);
        }
        Answer { octets, at: 0 }
    }

    pub fn count(&mut self, name: &str, inputs: usize) {
        *self.counts.entry(name.to_string()).or_default() += inputs;
    }

    /// How often each kind of note was seen, so that a reader of the counts can tell what was tried.
    pub fn count_notes(&mut self, report: &[u8]) {
        let pairs = |note: u8| report.chunks(REPORT).flat_map(|part| &part[1..]).filter(|&&n| n == note).count();
        for note in [1, 2] {
            self.count(&format!("of these, pairs with note {note}"), pairs(note));
            self.count(&format!("of these, readings with pairs of note {note}"), (pairs(note) > 0) as usize);
        }
        for note in report.iter().step_by(REPORT).filter(|&&note| note != 0) {
            self.count(&format!("of these, headers with note {note:2}"), 1);
        }
    }

    /// Ends the driver and prints the counts.
    pub fn end(&mut self, at_least: usize) {
        self.to = None;
        let status = self.child.wait().expect("the driver ends");
        assert!(status.success(), "the driver failed as it ended ({status})");
        for (name, count) in &self.counts {
            println!("  {name:<58} {count:>8}");
        }
        let all: usize = self.counts.iter().filter(|(name, _)| !name.starts_with("of these")).map(|(_, n)| n).sum();
        println!("  {:<58} {all:>8}", "inputs in all, library and independent version agree");
        assert!(all >= at_least, "fewer inputs than the {at_least} that were promised");
    }
}

#[derive(Default)]
pub struct Call(Vec<u8>);

impl Call {
    pub fn kind(kind: u8) -> Call {
        Call(vec![kind])
    }

    pub fn octet(mut self, x: u8) -> Call {
        self.0.push(x);
        self
    }

    pub fn word(mut self, x: u32) -> Call {
        self.0.extend(x.to_le_bytes());
        self
    }

    pub fn long(mut self, x: u64) -> Call {
        self.0.extend(x.to_le_bytes());
        self
    }

    pub fn octets(mut self, slice: &[u8]) -> Call {
        self.0.extend((slice.len() as u32).to_le_bytes());
        self.0.extend(slice);
        self
    }

    pub fn words(mut self, slice: &[u32]) -> Call {
        self.0.extend((slice.len() as u32).to_le_bytes());
        self.0.extend(slice.iter().flat_map(|x| x.to_le_bytes()));
        self
    }

    pub fn longs(mut self, slice: &[u64]) -> Call {
        self.0.extend((slice.len() as u32).to_le_bytes());
        self.0.extend(slice.iter().flat_map(|x| x.to_le_bytes()));
        self
    }

    pub fn signed(mut self, slice: &[i32]) -> Call {
        self.0.extend((slice.len() as u32).to_le_bytes());
        self.0.extend(slice.iter().flat_map(|x| x.to_le_bytes()));
        self
    }
}

pub struct Answer {
    octets: Vec<u8>,
    at: usize,
}

impl Answer {
    pub fn take(&mut self, n: usize) -> &[u8] {
        self.at += n;
        &self.octets[self.at - n..self.at]
    }

    pub fn word(&mut self) -> u32 {
        u32::from_le_bytes(self.take(4).try_into().unwrap())
    }

    pub fn long(&mut self) -> u64 {
        u64::from_le_bytes(self.take(8).try_into().unwrap())
    }
}

/// What was lent with `new` laid over its start.
pub fn over<T: Clone>(lent: &[T], new: &[T]) -> Vec<T> {
    [new, &lent[new.len()..]].concat()
}
