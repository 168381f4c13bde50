//! Messages of class 4 that name identifiers.

/// Single identifiers (0x1), or ranges (0x8) of which both ends are meant.
#[derive(Clone, Debug)]
pub enum Param {
    Ids(Vec<u32>),
    Ranges(Vec<(u32, u32)>),
}
use Param::{Ids, Ranges};

fn put(tag: u16, words: &[u32], out: &mut Vec<u8>) {
    out.extend(tag.to_be_bytes());
    out.extend((4 + 4 * words.len() as u16).to_be_bytes());
    out.extend(words.iter().flat_map(|word| word.to_be_bytes()));
}

/// Active (1), Inactive (2) or one of their Acks (3, 4), with a traffic mode
/// unless it is 0.
pub fn message(kind: u8, mode: u32, params: &[Param]) -> Vec<u8> {
    let mut out = vec![1, 0, 4, kind, 0, 0, 0, 0];
    if mode != 0 {
        put(0xb, &[mode], &mut out);
    }
    for param in params {
        match param {
            Ids(ids) => put(1, ids, &mut out),
            Ranges(ranges) => {
                let ends: Vec<u32> = ranges.iter().flat_map(|(a, b)| [*a, *b]).collect();
                put(8, &ends, &mut out);
            }
        }
    }
    let len = out.len() as u32;
    out[4..8].copy_from_slice(&len.to_be_bytes());
    out
}
