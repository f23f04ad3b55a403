//! A bar on a terminal's standard error that says how far a run over many files is.
use std::io::{self, IsTerminal, Write};
use std::time::{Duration, Instant};

const WIDTH: usize = 40;
/// The bar is drawn ten times a second at most.
const PAUSE: Duration = Duration::from_millis(100);

pub struct Progress {
    total: usize,
    done: usize,
    /// When it was drawn last; nothing if it is not to be drawn at all.
    drawn: Option<Instant>,
    /// Whether it stands on the terminal now.
    stands: bool,
}

impl Progress {
    /// A bar for so many files: none for a single one, and none if standard error is no terminal.
    pub fn new(total: usize) -> Progress {
        let drawn = (total > 1 && io::stderr().is_terminal()).then(Instant::now);
        Progress { total, done: 0, drawn, stands: false }
    }

    pub fn one_more(&mut self) {
        self.done += 1;
    }

    /// Draws the bar, unless that was just done or all is done.
    pub fn show(&mut self) {
        let due = self.drawn.is_some_and(|drawn| drawn.elapsed() >= PAUSE);
        if due && self.done < self.total {
            self.drawn = Some(Instant::now());
            self.stands = true;
            let _ = write!(io::stderr(), "\r{}", bar(self.done, self.total));
        }
    }

    /// Takes the bar away, so that a line can be printed where it stood.
    pub fn make_way(&mut self) {
        if self.stands {
            self.stands = false;
            let _ = write!(io::stderr(), "\r\x1b[K");
        }
    }
}

fn bar(done: usize, total: usize) -> String {
    let filled = done * WIDTH / total;
    format!("[{}{}] {done} of {total}", "#".repeat(filled), " ".repeat(WIDTH - filled))
}

#[cfg(test)]
mod tests {
    use super::bar;

    #[test]
    fn a_bar_is_filled_as_far_as_it_is_done() {
        assert_eq!(bar(0, 4), format!("[{}] 0 of 4", " ".repeat(40)));
        assert_eq!(bar(1, 4), format!("[{}{}] 1 of 4", "#".repeat(10), " ".repeat(30)));
    }
}
