//! Generated lines, run one by one: for tests that count what they hold.

use second::generate::{generate, Kind};
use second::script::Session;
use second::Gateway;

/// Lines of each kind that are counted.
pub const LINES: u64 = 100_000;

/// A line that is a command, its result, and the states before and after it.
pub struct Ran<'a> {
    pub line: &'a str,
    pub result: &'a str,
    pub before: &'a Gateway,
    pub after: &'a Gateway,
}

/// Runs generated lines of a kind. Comments and what is no command are passed
/// over.
pub fn each_line(kind: Kind, mut take: impl FnMut(Ran)) {
    let mut session = Session::new();
    generate(11, LINES, kind, &mut |line| {
        let before = *session.gateway();
        let mut out = Vec::new();
        session.line(line, &mut out);
        let line = String::from_utf8_lossy(line);
        let result = String::from_utf8_lossy(&out);
        let result = result.trim_end();
        if !result.is_empty() && result != "?" {
            take(Ran {
                line: &line,
                result,
                before: &before,
                after: session.gateway(),
            });
        }
        Ok(())
    })
    .unwrap();
}

/// The bytes of a word of a line; none of `-`.
pub fn unhex(hex: &str) -> Option<Vec<u8>> {
    let hex = hex.trim_matches('-');
    let pairs = 0..hex.len() / 2;
    pairs
        .map(|i| u8::from_str_radix(&hex[2 * i..2 * i + 2], 16).ok())
        .collect()
}
