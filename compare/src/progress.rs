//! How far a part of the comparison is, on standard error: a line that is written over where that is a terminal, and
//! with `--progress` a line now and then anywhere else.

use std::io::{IsTerminal, Write};
use std::sync::Mutex;
use std::sync::atomic::{AtomicBool, AtomicU64, Ordering};
use std::time::{Duration, Instant};

/// Whether lines are written where standard error is no terminal.
static ASKED: AtomicBool = AtomicBool::new(false);

pub fn ask() {
    ASKED.store(true, Ordering::Relaxed);
}

pub struct Progress {
    name: &'static str,
    of: u64,
    done: AtomicU64,
    terminal: bool,
    /// Nothing where no line is written.
    next: Option<Mutex<Instant>>,
}

impl Progress {
    pub fn new(name: &'static str, of: u64) -> Progress {
        let terminal = std::io::stderr().is_terminal();
        let shown = terminal || ASKED.load(Ordering::Relaxed);
        Progress {
            name,
            of,
            done: AtomicU64::new(0),
            terminal,
            next: shown.then(|| Mutex::new(Instant::now())),
        }
    }

    /// So many more are done.
    pub fn add(&self, more: u64) {
        let done = self.done.fetch_add(more, Ordering::Relaxed) + more;
        let Some(next) = &self.next else { return };
        // Another thread writes it.
        let Ok(mut next) = next.try_lock() else {
            return;
        };
        if Instant::now() < *next {
            return;
        }
        *next = Instant::now() + Duration::from_millis(if self.terminal { 200 } else { 10_000 });
        let (before, after) = if self.terminal {
            ("\r", "\x1b[K")
        } else {
            ("", "\n")
        };
        let percent = 100 * done / self.of.max(1);
        let line = format!(
            "{before}{}: {done} of {}, {percent}%{after}",
            self.name, self.of
        );
        let _ = std::io::stderr().write_all(line.as_bytes());
    }
}

/// The line is gone where it was written over.
impl Drop for Progress {
    fn drop(&mut self) {
        if self.terminal && self.next.is_some() {
            let _ = std::io::stderr().write_all(b"\r\x1b[K");
        }
    }
}
