//! The progress line of long work.

use std::io::{self, IsTerminal, Write};
use std::time::{Duration, Instant};

/// Work shorter than this shows nothing.
const PATIENCE: Duration = Duration::from_secs(1);
/// The line is rewritten no more often than this.
const REFRESH: Duration = Duration::from_millis(200);

/// A line on standard error, rewritten in place: percent done and an estimate of the time left. It
/// shows only where standard error is a terminal, and is wiped when the work ends.
pub struct Progress {
    label: &'static str,
    total: usize,
    done: usize,
    start: Instant,
    shown: Option<Instant>,
    terminal: bool,
}

impl Progress {
    /// Work of `total` equal parts.
    pub fn new(label: &'static str, total: usize) -> Self {
        Progress { label, total, done: 0, start: Instant::now(), shown: None, terminal: io::stderr().is_terminal() }
    }

    /// Some more parts are done.
    pub fn advance(&mut self, parts: usize) {
        self.done += parts;
        let due = self.shown.map_or(self.start + PATIENCE, |last| last + REFRESH);
        let now = Instant::now();
        if self.terminal && now >= due && self.done < self.total {
            let line = line(self.label, self.done, self.total, now - self.start);
            let _ = write!(io::stderr(), "\r\x1b[K{line}");
            let _ = io::stderr().flush();
            self.shown = Some(now);
        }
    }
}

impl Drop for Progress {
    fn drop(&mut self) {
        if self.shown.is_some() {
            let _ = write!(io::stderr(), "\r\x1b[K");
        }
    }
}

/// The text of the line: the time left is the time spent so far, in proportion.
fn line(label: &str, done: usize, total: usize, spent: Duration) -> String {
    let left = if done == 0 { "?".into() } else { clock(spent.as_secs_f64() * (total - done) as f64 / done as f64) };
    format!("{label}: {:.0} %, {left} left", (100.0 * done as f64 / total as f64).floor())
}

/// Seconds as hours, minutes and seconds, without the leading parts that are 0.
fn clock(seconds: f64) -> String {
    let seconds = seconds.ceil() as u64;
    match (seconds / 3600, seconds / 60 % 60, seconds % 60) {
        (0, 0, s) => format!("{s} s"),
        (0, m, s) => format!("{m} min {s:02} s"),
        (h, m, _) => format!("{h} h {m:02} min"),
    }
}

#[cfg(test)]
mod tests {
    use super::*;

    #[test]
    fn the_line_tells_percent_and_time_left() {
        assert_eq!(line("rows", 25, 100, Duration::from_secs(10)), "rows: 25 %, 30 s left");
        assert_eq!(line("rows", 0, 100, Duration::from_secs(10)), "rows: 0 %, ? left");
        assert_eq!(line("rows", 199, 200, Duration::from_secs(199)), "rows: 99 %, 1 s left");
    }

    #[test]
    fn times_are_told_in_two_parts() {
        assert_eq!(clock(59.2), "1 min 00 s");
        assert_eq!(clock(3725.0), "1 h 02 min");
    }
}
