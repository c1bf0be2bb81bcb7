//! How far a run is.

use std::io::{IsTerminal, Write, stderr};
use std::time::{Duration, Instant};

/// A line on standard error from the start on: on a terminal written anew every half second, else a
/// further line every five seconds.
pub struct Progress {
    total: u64,
    what: &'static str,
    started: Instant,
    shown: Instant,
    terminal: bool,
}

impl Progress {
    /// Of so many calls, scripts or whatever is counted.
    pub fn new(total: u64, what: &'static str) -> Self {
        let now = Instant::now();
        let progress = Self { total, what, started: now, shown: now, terminal: stderr().is_terminal() };
        progress.write(0);
        progress
    }

    pub fn show(&mut self, count: u64) {
        let pause = Duration::from_millis(if self.terminal { 500 } else { 5_000 });
        if self.shown.elapsed() >= pause {
            self.shown = Instant::now();
            self.write(count);
        }
    }

    fn write(&self, count: u64) {
        let Self { total, what, .. } = self;
        let seconds = self.started.elapsed().as_secs();
        let end = if self.terminal { "\r" } else { "\n" };
        let mut out = stderr();
        let _ = write!(out, "{count} of {total} {what}, 0 differences, {seconds} s   {end}");
        let _ = out.flush();
    }

    pub fn seconds(&self) -> f64 {
        self.started.elapsed().as_secs_f64()
    }

    pub fn clear(&self) {
        if self.terminal {
            eprint!("\r{:70}\r", "");
        }
    }
}
