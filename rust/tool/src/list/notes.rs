//! A reading's notes as runs: neighbours with the same note are said together.
use dsr::{HeaderNote, PairNote, Utterance};

/// Neighbours with the same note: the first and the last of them, counted from 0.
#[derive(Debug, Clone, Copy, PartialEq, Eq)]
pub struct Run<N> {
    pub first: usize,
    pub last: usize,
    pub note: N,
}

/// The multiframes whose header is not clean.
pub fn headers<B: AsRef<[u8]>>(utterance: &Utterance<B>) -> Vec<Run<HeaderNote>> {
    let mut runs = runs(utterance.multiframes().map(|multiframe| multiframe.header()));
    runs.retain(|run| !run.note.is_clean());
    runs
}

/// The pairs that were replaced.
pub fn replaced<B: AsRef<[u8]>>(utterance: &Utterance<B>) -> Vec<Run<PairNote>> {
    let mut runs = runs(utterance.pairs().map(|pair| pair.note));
    runs.retain(|run| run.note.is_bad());
    runs
}

fn runs<N: PartialEq>(notes: impl Iterator<Item = N>) -> Vec<Run<N>> {
    let mut runs: Vec<Run<N>> = Vec::new();
    for (at, note) in notes.enumerate() {
        match runs.last_mut() {
            Some(run) if run.note == note => run.last = at,
            _ => runs.push(Run { first: at, last: at, note }),
        }
    }
    runs
}

/// How long they last, in hundredths of a second.
pub const PAIR_HUNDREDTHS: usize = 2;
pub const MULTIFRAME_HUNDREDTHS: usize = 24;

#[cfg(test)]
mod tests {
    use super::{runs, Run};

    #[test]
    fn neighbours_are_said_together() {
        let run = |first, last, note| Run { first, last, note };
        assert_eq!(runs([0, 0, 1, 2, 2, 0].into_iter()), [run(0, 1, 0), run(2, 2, 1), run(3, 4, 2), run(5, 5, 0)]);
        assert_eq!(runs::<u8>([].into_iter()), []);
    }
}
