//! What the daemon writes down beside its log: the journal, in which each event is a line of a script
//! (docs/SCRIPT.md), and the capture.
use crate::files;
use crate::log::Stamp;
use m2ua::Event;
use m2ua_trace::capture::{self, Associations, End};
use m2ua_trace::script::{Hex, Line};
use std::fmt::Arguments;
use std::fs::File;
use std::io::{BufReader, BufWriter, Error, Read, Result, Seek, SeekFrom, Write};
use std::path::{Path, PathBuf};
use std::time::{SystemTime, UNIX_EPOCH};

/// Each event in its sequence, behind the plan: `replay` gives the same orders. Lines between them say where
/// associations begin and end, and where a run of the daemon does. What is there is
/// kept: each run is written behind the one before, and its plan gives `replay` a fresh state.
pub struct Journal {
    out: BufWriter<File>,
    path: PathBuf,
}

/// How the run before ended, by what its journal has last.
#[derive(Clone, Copy, Debug, PartialEq, Eq)]
pub enum Before {
    /// There was none.
    Nothing,
    InOrder,
    /// It was killed, or the machine stopped.
    Killed,
}

/// All lines about the daemon itself begin so.
const OWN: &str = "# m2ua-gateway ";
const ENDS: &str = "ends";
/// More than a line has at most.
const TAIL: u64 = 16384;

impl Journal {
    /// Opens a journal and begins a run in it.
    pub fn open(path: &Path, plan: &[u8], now: SystemTime) -> Result<(Journal, Before)> {
        let (mut journal, before) = Journal::at_end(path)?;
        let version = env!("CARGO_PKG_VERSION");
        writeln!(journal.out, "{OWN}{version} begins {}", Stamp(now))?;
        writeln!(journal.out, "plan {}", Hex(plan))?;
        journal.out.flush()?;
        Ok((journal, before))
    }

    /// A journal to be written on. Half a line, of an event that was not yet carried out, is taken away.
    fn at_end(path: &Path) -> Result<(Journal, Before)> {
        let mut file = files::append(path)?;
        let size = file.metadata()?.len();
        let mut first = [0; OWN.len()];
        if size > 0 {
            let known = file.read_exact(&mut first).is_ok()
                && (first == *OWN.as_bytes() || first.starts_with(b"plan "));
            if !known {
                return Err(Error::other("it is there, and is no journal"));
            }
        }
        let mut tail = Vec::new();
        file.seek(SeekFrom::Start(size.saturating_sub(TAIL)))?;
        file.read_to_end(&mut tail)?;
        let whole = tail.iter().rposition(|b| *b == b'\n').map_or(0, |k| k + 1);
        if whole < tail.len() {
            file.set_len(size - (tail.len() - whole) as u64)?;
        }
        let before = match size {
            0 => Before::Nothing,
            _ if tail.ends_with(format!("{OWN}{ENDS}\n").as_bytes()) => Before::InOrder,
            _ => Before::Killed,
        };
        let journal = Journal {
            out: BufWriter::with_capacity(1 << 16, file),
            path: path.into(),
        };
        Ok((journal, before))
    }

    pub fn event(&mut self, event: &Event<'_>) -> Result<()> {
        writeln!(self.out, "{}", Line(event))
    }

    /// A line that `replay` passes over: which association begins or ends here.
    pub fn note(&mut self, words: Arguments<'_>) -> Result<()> {
        writeln!(self.out, "# {words}")
    }

    /// Where the file was moved away, goes on in a new one: the old one and it, one behind the other, are the
    /// script. Whether it was.
    pub fn reopen(&mut self) -> Result<bool> {
        if !files::is_moved(self.out.get_ref(), &self.path)? {
            return Ok(false);
        }
        let (mut next, _) = Journal::at_end(&self.path)?;
        writeln!(self.out, "{OWN}goes on in the next file")?;
        self.out.flush()?;
        writeln!(next.out, "{OWN}goes on from the file before")?;
        next.out.flush()?;
        *self = next;
        Ok(true)
    }

    /// The run ends in order.
    pub fn end(&mut self) -> Result<()> {
        writeln!(self.out, "{OWN}{ENDS}")?;
        self.out.flush()
    }

    pub fn flush(&mut self) -> Result<()> {
        self.out.flush()
    }
}

/// A capture file for Wireshark, up to a size. What is there is kept: packets are put behind it.
pub struct Capture {
    out: BufWriter<File>,
    path: PathBuf,
    associations: Associations,
    room: u64,
    time: (u32, u32),
}

/// 100 MB: some days of a quiet gateway, and no full disk.
const MOST: u64 = 100_000_000;
/// What a packet may take.
const PACKET: u64 = 4096;

impl Capture {
    pub fn open(path: &Path, now: SystemTime) -> Result<Capture> {
        let file = files::append(path)?;
        let size = whole_packets(&file)?;
        file.set_len(size)?;
        if size + PACKET > MOST {
            return Err(Error::other("it is full: move it away"));
        }
        let mut out = BufWriter::with_capacity(1 << 16, file);
        if size == 0 {
            out.write_all(&capture::header())?;
        }
        let mut made = Capture {
            out,
            path: path.into(),
            associations: Associations::new(),
            room: MOST - size,
            time: (0, 0),
        };
        made.set_time(now);
        Ok(made)
    }

    /// Where the file was moved away, goes on in a new one. Whether it was.
    pub fn reopen(&mut self, now: SystemTime) -> Result<bool> {
        if !files::is_moved(self.out.get_ref(), &self.path)? {
            return Ok(false);
        }
        let next = Capture::open(&self.path, now)?;
        self.out.flush()?;
        *self = next;
        Ok(true)
    }

    pub fn set_time(&mut self, now: SystemTime) {
        let since = now.duration_since(UNIX_EPOCH).unwrap_or_default();
        self.time = (since.as_secs() as u32, since.subsec_micros());
    }

    /// Whether there is no room for a further message.
    pub fn is_full(&self) -> bool {
        self.room < PACKET
    }

    /// A message to the gateway, or from it.
    pub fn message(&mut self, end: End, from_gateway: bool, message: &[u8]) -> Result<()> {
        let record = self
            .associations
            .message(end, from_gateway, message, self.time);
        self.put(&record)
    }

    /// The end of an association.
    pub fn lost(&mut self, end: End) -> Result<()> {
        let record = capture::lost(end, self.time);
        self.put(&record)
    }

    fn put(&mut self, record: &[u8]) -> Result<()> {
        self.room = self.room.saturating_sub(record.len() as u64);
        self.out.write_all(record)
    }

    pub fn flush(&mut self) -> Result<()> {
        self.out.flush()
    }
}

/// How much of a capture file is whole: its header, and packets up to one that was cut off.
fn whole_packets(file: &File) -> Result<u64> {
    let size = file.metadata()?.len();
    if size == 0 {
        return Ok(0);
    }
    let mut from = BufReader::with_capacity(1 << 16, file);
    let mut header = [0; 24];
    if size < 24 || from.read_exact(&mut header).is_err() || header[..] != capture::header()[..] {
        return Err(Error::other("it is there, and is no capture of ours"));
    }
    let mut at = 24;
    loop {
        let mut record = [0; 16];
        if at + 16 > size {
            return Ok(at);
        }
        from.read_exact(&mut record)?;
        let length = u32::from_le_bytes([record[8], record[9], record[10], record[11]]);
        let next = at + 16 + u64::from(length);
        if next > size {
            return Ok(at);
        }
        from.seek_relative(length.into())?;
        at = next;
    }
}

#[cfg(test)]
mod tests {
    use super::*;

    fn path(name: &str) -> PathBuf {
        let path = std::env::temp_dir().join(format!("m2ua-records-{}-{name}", std::process::id()));
        let _ = std::fs::remove_file(&path);
        path
    }

    #[test]
    fn a_journal_keeps_what_it_has() {
        let at = path("journal");
        let text = || std::fs::read_to_string(&at).unwrap();
        let open = || Journal::open(&at, &[1, 2], UNIX_EPOCH);
        let (mut journal, before) = open().unwrap();
        assert_eq!(before, Before::Nothing);
        assert!(open().is_err(), "another process writes it");
        journal.event(&Event::Lost { asp: 3 }).unwrap();
        journal.end().unwrap();
        drop(journal);
        let first = text();
        let (journal, before) = open().unwrap();
        assert_eq!(before, Before::InOrder);
        drop(journal);
        let second = text();
        assert!(second.starts_with(&first) && second.matches("plan 0102\n").count() == 2);
        // killed: half a line is left
        std::fs::write(&at, format!("{second}msg 0 1544 0100")).unwrap();
        let (mut journal, before) = open().unwrap();
        assert_eq!(before, Before::Killed);
        assert!(text().starts_with(&second) && !text().contains("msg"));
        // rotation: nothing to do, then a new file without a plan
        assert!(!journal.reopen().unwrap());
        let moved = path("moved");
        std::fs::rename(&at, &moved).unwrap();
        assert!(journal.reopen().unwrap());
        journal.event(&Event::Lost { asp: 4 }).unwrap();
        journal.end().unwrap();
        assert_eq!(
            text(),
            "# m2ua-gateway goes on from the file before\nlost 4 1544\n# m2ua-gateway ends\n"
        );
        drop(journal);
        std::fs::write(&at, "root:x:0:0\n").unwrap();
        assert!(open().is_err(), "it is no journal");
        assert_eq!(text(), "root:x:0:0\n");
        std::fs::remove_file(&at).unwrap();
        std::fs::remove_file(&moved).unwrap();
    }

    #[test]
    fn a_capture_keeps_whole_packets() {
        let at = path("capture");
        let mut capture = Capture::open(&at, UNIX_EPOCH).unwrap();
        capture.message(End::Asp(0), true, &[1; 20]).unwrap();
        capture.flush().unwrap();
        drop(capture);
        let one = std::fs::read(&at).unwrap();
        // the second is cut off
        std::fs::write(&at, [&one[..], &one[24..40], &[0; 7]].concat()).unwrap();
        let mut capture = Capture::open(&at, UNIX_EPOCH).unwrap();
        capture.message(End::Asp(0), true, &[1; 20]).unwrap();
        capture.flush().unwrap();
        drop(capture);
        let both = std::fs::read(&at).unwrap();
        assert_eq!(both, [&one[..], &one[24..]].concat());
        std::fs::write(&at, "something else").unwrap();
        assert!(Capture::open(&at, UNIX_EPOCH).is_err());
        std::fs::remove_file(&at).unwrap();
    }
}
