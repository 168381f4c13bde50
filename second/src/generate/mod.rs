//! Generated scripts. The same seed, count and kind always give the same
//! lines.

mod hex;
mod histories;
mod malformed;
mod message;
mod orders;
mod partly;
mod plans;
mod range_plans;
mod ranges;
mod reading;
pub mod retrievals;
mod rng;
mod scenes;
mod writing;

use histories::History;
pub use rng::Rng;
use std::io;

#[derive(Clone, Copy, PartialEq, Eq, Debug)]
pub enum Kind {
    /// `read` and `show`.
    Read,
    /// `write`, with some reading.
    Write,
    /// `plan` and `state`.
    Plan,
    /// The six events, `reach` and `state`.
    Event,
    /// The same with many lines of `bytes`.
    Bytes,
    /// Histories heavy in Active and Inactive with ranges, on plans made for
    /// them.
    Ranges,
    /// The same with lists that are good in part, and with many lines of
    /// `bytes`.
    Partly,
    /// Malformed lines of every sort, also with bytes that are no text.
    Bad,
}

impl Kind {
    pub const NAMES: [&'static str; 8] = [
        "read", "write", "plan", "event", "bytes", "ranges", "partly", "bad",
    ];

    pub fn named(name: &str) -> Option<Kind> {
        match name {
            "read" => Some(Kind::Read),
            "write" => Some(Kind::Write),
            "plan" => Some(Kind::Plan),
            "event" => Some(Kind::Event),
            "bytes" => Some(Kind::Bytes),
            "ranges" => Some(Kind::Ranges),
            "partly" => Some(Kind::Partly),
            "bad" => Some(Kind::Bad),
            _ => None,
        }
    }
}

/// Gives `lines` lines, without newlines, to `take`.
pub fn generate(
    seed: u64,
    lines: u64,
    kind: Kind,
    take: &mut dyn FnMut(&[u8]) -> io::Result<()>,
) -> io::Result<()> {
    let mut rng = Rng::new(seed);
    let mut history = History::new(kind);
    let mut line = Vec::new();
    for _ in 0..lines {
        line.clear();
        match kind {
            Kind::Read => reading::line(&mut rng, &mut line),
            Kind::Write => writing::line(&mut rng, &mut line),
            Kind::Plan => plans::line(&mut rng, &mut line),
            Kind::Event | Kind::Bytes | Kind::Ranges | Kind::Partly => {
                history.line(&mut rng, &mut line)
            }
            Kind::Bad => malformed::any_line(&mut rng, &mut line),
        }
        take(&line)?;
    }
    Ok(())
}
