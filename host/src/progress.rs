//! How far it is: a line on standard error, where that is a terminal and the work takes longer than a second.

use std::io::{IsTerminal, Write, stderr, stdout};
use std::time::{Duration, Instant};

/// The first line comes after this long, a new one not sooner than this.
const FIRST: Duration = Duration::from_secs(1);
const AGAIN: Duration = Duration::from_millis(200);

pub struct Progress {
    /// When the next line is due; None where none is wanted.
    due: Option<Instant>,
    shown: bool,
}

impl Progress {
    /// For a command that prints a text as long as its work: on the terminal that is its own progress.
    pub fn beside_text() -> Progress {
        Progress::where_wanted(!stdout().is_terminal())
    }

    /// For a command that prints a line at most, when the progress is wiped out again.
    pub fn always() -> Progress {
        Progress::where_wanted(true)
    }

    fn where_wanted(wanted: bool) -> Progress {
        Progress { due: (wanted && stderr().is_terminal()).then(|| Instant::now() + FIRST), shown: false }
    }

    /// So much is read, listed or written, of so much, where that is known.
    pub fn show(&mut self, what: &str, done: u64, total: Option<u64>) {
        let now = Instant::now();
        if self.due.is_none_or(|due| now < due) {
            return;
        }
        self.due = Some(now + AGAIN);
        self.shown = true;
        tell(&match total {
            Some(total) if total > 0 => format!("pivotspark: {what}: {} %", done.min(total) * 100 / total),
            _ => format!("pivotspark: {what}: {done} bytes"),
        });
    }
}

/// Nothing is left of it on the terminal, whatever comes behind it.
impl Drop for Progress {
    fn drop(&mut self) {
        if self.shown {
            tell("");
        }
    }
}

/// The line on the terminal is now this one. It is no fault if it can't be.
fn tell(line: &str) {
    let _ = write!(stderr(), "\r\x1b[K{line}");
}
