//! The log: lines with the time, to a file that never holds the daemon up. What cannot be written at once is
//! kept up to a limit; lines beyond it are counted and left out.
use crate::files;
use crate::os;
use std::fmt::{Arguments, Write as _};
use std::fs::File;
use std::io::{Result, Write};
use std::os::fd::AsRawFd;
use std::path::Path;
use std::time::{Duration, SystemTime, UNIX_EPOCH};

/// How much is said.
#[derive(Clone, Copy, Debug, PartialEq, Eq, PartialOrd, Ord)]
pub enum Level {
    /// Only what goes wrong, start and end.
    Faults,
    /// Also associations, and what becomes of ASPs, ASes and links.
    Changes,
    /// Also every event and every order.
    All,
}

/// A pipe that can be written takes this much without waiting (PIPE_BUF).
const PIECE: usize = 4096;
/// The most that is kept.
const MOST: usize = 1 << 20;

pub struct Log<W> {
    level: Level,
    out: W,
    text: String,
    /// The time of this turn, and as it is written once a line needs it.
    now: SystemTime,
    stamp: String,
    left_out: u64,
}

impl<W: Write + AsRawFd> Log<W> {
    pub fn new(level: Level, out: W) -> Log<W> {
        Log {
            level,
            out,
            text: String::new(),
            now: UNIX_EPOCH,
            stamp: String::new(),
            left_out: 0,
        }
    }

    /// What is not yet written goes elsewhere from here on.
    pub fn set_out(&mut self, out: W) {
        self.out = out;
    }

    pub fn says(&self, level: Level) -> bool {
        level <= self.level
    }

    /// The time of the lines that follow.
    pub fn set_time(&mut self, now: SystemTime) {
        self.now = now;
        self.stamp.clear();
    }

    fn stamp(&mut self) {
        if self.stamp.is_empty() {
            let _ = write!(self.stamp, "{}", Stamp(self.now));
        }
    }

    pub fn line(&mut self, level: Level, words: Arguments<'_>) {
        if !self.says(level) {
            return;
        }
        if self.text.len() > MOST {
            self.left_out += 1;
            return;
        }
        self.stamp();
        let _ = writeln!(self.text, "{} {words}", self.stamp);
    }

    /// Writes what there is, as far as that takes no waiting. A file that cannot be written is nothing to
    /// fail for: there is nowhere to say it.
    pub fn flush(&mut self) {
        let mut written = 0;
        while written < self.text.len()
            && os::wait_for(&self.out, true, Duration::ZERO).unwrap_or(false)
        {
            let end = (written + PIECE).min(self.text.len());
            match self.out.write(&self.text.as_bytes()[written..end]) {
                Ok(0) | Err(_) => break,
                Ok(count) => written += count,
            }
        }
        // a piece may end inside a letter of more than one byte
        while !self.text.is_char_boundary(written) {
            written -= 1;
        }
        self.text.drain(..written);
        if self.left_out > 0 && self.text.len() < MOST / 2 {
            self.stamp();
            let _ = writeln!(
                self.text,
                "{} log: {} lines left out, the log could not be written fast enough",
                self.stamp, self.left_out
            );
            self.left_out = 0;
        }
    }
}

impl Log<File> {
    /// Where the file of the log was moved away, goes on in a new one. Whether it was.
    pub fn reopen(&mut self, path: &Path) -> Result<bool> {
        if !files::is_moved(&self.out, path)? {
            return Ok(false);
        }
        let next = files::append(path)?;
        self.flush();
        self.set_out(next);
        Ok(true)
    }
}

/// A time as 2026-11-17T12:00:00.000Z.
pub struct Stamp(pub SystemTime);

impl std::fmt::Display for Stamp {
    fn fmt(&self, f: &mut std::fmt::Formatter<'_>) -> std::fmt::Result {
        let since = self.0.duration_since(UNIX_EPOCH).unwrap_or_default();
        let (days, second) = (since.as_secs() / 86400, since.as_secs() % 86400);
        let (year, month, day) = date(days);
        let (hour, minute) = (second / 3600, second / 60 % 60);
        write!(
            f,
            "{year}-{month:02}-{day:02}T{hour:02}:{minute:02}:{:02}.{:03}Z",
            second % 60,
            since.subsec_millis()
        )
    }
}

/// The date of a day, counted from 1970-01-01: years of 365 or 366 days, then months.
fn date(mut day: u64) -> (u64, u64, u64) {
    let leap = |year: u64| {
        (year.is_multiple_of(4) && !year.is_multiple_of(100)) || year.is_multiple_of(400)
    };
    let mut year = 1970;
    while day >= 365 + u64::from(leap(year)) {
        day -= 365 + u64::from(leap(year));
        year += 1;
    }
    let february = 28 + u64::from(leap(year));
    let mut month = 1;
    for length in [31, february, 31, 30, 31, 30, 31, 31, 30, 31, 30, 31] {
        if day < length {
            break;
        }
        day -= length;
        month += 1;
    }
    (year, month, day + 1)
}

#[cfg(test)]
mod tests {
    use super::*;
    use std::io::Read;

    #[test]
    fn dates() {
        for (day, is) in [
            (0, (1970, 1, 1)),
            (58, (1970, 2, 28)),
            (59, (1970, 3, 1)),
            (789, (1972, 2, 29)),
            (11016, (2000, 2, 29)),
            (20774, (2026, 11, 17)),
        ] {
            assert_eq!(date(day), is);
        }
        assert_eq!(
            Stamp(UNIX_EPOCH + Duration::from_millis(1_794_916_800_123)).to_string(),
            "2026-11-17T12:00:00.123Z"
        );
    }

    #[test]
    fn a_pipe_that_nobody_reads_holds_nothing_up() {
        let (mut reader, writer) = std::io::pipe().unwrap();
        let mut log = Log::new(Level::All, writer);
        for k in 0..100_000 {
            log.line(Level::All, format_args!("line {k:060}"));
            log.flush();
        }
        assert!(log.left_out > 0 && log.text.len() <= MOST + 200);
        let whole = std::thread::spawn(move || {
            let mut text = String::new();
            reader.read_to_string(&mut text).unwrap();
            text
        });
        while !log.text.is_empty() {
            log.flush();
        }
        drop(log);
        let text = whole.join().unwrap();
        let lines: Vec<&str> = text.lines().collect();
        assert!(lines
            .last()
            .unwrap()
            .ends_with("lines left out, the log could not be written fast enough"));
        for (k, line) in lines[..lines.len() - 1].iter().enumerate() {
            assert!(line.ends_with(&format!(" line {k:060}")), "{line}");
        }
    }
}
