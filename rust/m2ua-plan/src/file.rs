//! Why a plan file is refused: the row, and what is wrong with it. The library says only 201 or 202; that
//! both agree is tested.
use m2ua::sys;
use std::fmt;

/// What is wrong with a file: the library's number for it (201 layout, 202 a row), and words.
#[derive(Clone, Debug, PartialEq, Eq)]
pub struct Fault {
    pub code: u32,
    pub what: String,
}

impl fmt::Display for Fault {
    fn fmt(&self, f: &mut fmt::Formatter<'_>) -> fmt::Result {
        write!(f, "{} ({})", self.what, self.code)
    }
}

/// A body of rows: name, words in a row, fewest and most rows.
struct Body(&'static str, usize, usize, usize);

const BODIES: [Body; 3] = [
    Body("ASP", 2, 1, sys::MAX_ASPS),
    Body("AS", 1, 1, sys::MAX_ASES),
    Body("link", 2, 0, sys::MAX_LINKS),
];
const CONTENTS: usize = 8 * BODIES.len();

/// All faults of a file; `None` where this program finds none. Rows are looked at only where the layout is
/// right.
pub fn diagnose(file: &[u8]) -> Option<Vec<Fault>> {
    let layout = layout_faults(file);
    let faults = if layout.is_empty() {
        row_faults(file)
    } else {
        layout
    };
    (!faults.is_empty()).then_some(faults)
}

fn word(file: &[u8], at: usize) -> u32 {
    u32::from_be_bytes([file[at], file[at + 1], file[at + 2], file[at + 3]])
}

fn layout_faults(file: &[u8]) -> Vec<Fault> {
    let fault = |what| Fault {
        code: sys::REFUSED_LAYOUT,
        what,
    };
    if file.len() < CONTENTS {
        return vec![fault(format!(
            "file: {} bytes; the contents alone have {CONTENTS}",
            file.len()
        ))];
    }
    let mut at = CONTENTS as u64;
    for (i, Body(name, words, least, most)) in BODIES.iter().enumerate() {
        let (offset, count) = (word(file, 8 * i), word(file, 8 * i + 4));
        if !(*least..=*most).contains(&(count as usize)) {
            return vec![fault(format!(
                "contents: {count} {name} rows; a plan has {least} to {most}"
            ))];
        }
        if u64::from(offset) != at {
            return vec![fault(format!(
                "contents: the {name} rows are said to start at byte {offset}; they start at {at}"
            ))];
        }
        at += u64::from(count) * 4 * *words as u64;
    }
    if file.len() as u64 != at {
        return vec![fault(format!(
            "file: {} bytes; its rows end at byte {at}",
            file.len()
        ))];
    }
    Vec::new()
}

fn row_faults(file: &[u8]) -> Vec<Fault> {
    let rows = |i: usize| {
        let (offset, count) = (word(file, 8 * i) as usize, word(file, 8 * i + 4) as usize);
        let size = 4 * BODIES[i].1;
        (0..count)
            .map(move |row| (row, offset + size * row))
            .collect::<Vec<_>>()
    };
    let (asps, ases, links) = (rows(0), rows(1), rows(2));
    let mut faults = Vec::new();
    let mut fault = |name: &str, row: usize, at: usize, what: String| {
        faults.push(Fault {
            code: sys::REFUSED_ROW,
            what: format!("{name} row {row} (byte {at}): {what}"),
        })
    };
    for &(row, at) in &asps {
        let (id, mask, spare) = (
            word(file, at),
            word(file, at + 4) >> 16,
            word(file, at + 4) & 0xffff,
        );
        if let Some((other, _)) = asps[..row]
            .iter()
            .find(|(_, before)| word(file, *before) == id)
        {
            fault(
                "ASP",
                row,
                at,
                format!("identifier {id} is that of ASP row {other}"),
            );
        }
        if mask >> ases.len() != 0 {
            fault(
                "ASP",
                row,
                at,
                format!(
                    "mask 0x{mask:04x} has a bit for AS {}, and the plan has {}",
                    31 - mask.leading_zeros(),
                    ases.len()
                ),
            );
        }
        if spare > 1 {
            fault(
                "ASP",
                row,
                at,
                format!(
                    "spare {spare} is neither 0, part of a list may succeed, nor 1, whole lists"
                ),
            );
        }
    }
    for &(row, at) in &ases {
        let mode = word(file, at);
        if !(1..=3).contains(&mode) {
            fault(
                "AS",
                row,
                at,
                format!("traffic mode {mode} is not 1, 2 or 3"),
            );
        }
    }
    for &(row, at) in &links {
        let (id, kind, owner) = (
            word(file, at),
            word(file, at + 4) >> 16,
            word(file, at + 4) & 0xffff,
        );
        if row > 0 && id <= word(file, at - 8) {
            fault(
                "link",
                row,
                at,
                format!(
                    "identifier {id} does not grow from the row before, {}",
                    word(file, at - 8)
                ),
            );
        }
        if owner as usize >= ases.len() {
            fault(
                "link",
                row,
                at,
                format!("owner AS {owner}, and the plan has {}", ases.len()),
            );
        }
        if kind > 1 {
            fault(
                "link",
                row,
                at,
                format!("kind {kind} is neither 0, plain, nor 1, high-speed"),
            );
        }
    }
    faults
}
