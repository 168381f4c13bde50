//! The plan file.

use crate::gateway::{Gateway, HIGH_SPEED, MAX_ASES, MAX_ASPS, MAX_LINKS};
use crate::wire::be32;

/// A count, an offset or the length of the file is wrong.
pub const BAD_PLAN: u32 = 201;
/// A row is wrong.
pub const BAD_ROW: u32 = 202;

/// Contents of the file: an offset and a count for each of three tables.
const CONTENTS: usize = 24;
const ASP_ROW: usize = 8;
const AS_ROW: usize = 4;
const LINK_ROW: usize = 8;

#[repr(C)]
#[derive(Clone, Copy, PartialEq, Eq, Debug)]
pub struct Loaded {
    /// 0, or the refusal.
    pub code: u32,
    /// The fresh state; of a refused plan the state of zeros.
    pub gateway: Gateway,
}

/// Loads a plan file.
pub fn load(file: &[u8]) -> Loaded {
    // Filled where it will be handed back: the state is too large to be moved
    // about.
    let mut loaded = Loaded {
        code: 0,
        gateway: Gateway::ZERO,
    };
    if let Err(code) = fill(file, &mut loaded.gateway) {
        return Loaded {
            code,
            gateway: Gateway::ZERO,
        };
    }
    loaded
}

/// Makes a state of zeros the fresh state of a plan.
#[inline(always)]
fn fill(file: &[u8], gateway: &mut Gateway) -> Result<(), u32> {
    let Some((contents, bodies)) = file.split_first_chunk::<CONTENTS>() else {
        return Err(BAD_PLAN);
    };
    let word = |i: usize| be32(&contents[4 * i..]) as usize;
    let (asps, ases, links) = (word(1), word(3), word(5));
    if asps.wrapping_sub(1) >= MAX_ASPS || ases.wrapping_sub(1) >= MAX_ASES || links > MAX_LINKS {
        return Err(BAD_PLAN);
    }
    // No gaps: the counts fix the offsets and the length.
    let as_offset = CONTENTS + ASP_ROW * asps;
    let link_offset = as_offset + AS_ROW * ases;
    let len = link_offset + LINK_ROW * links;
    let offsets = word(0) == CONTENTS && word(2) == as_offset && word(4) == link_offset;
    if !offsets || file.len() != len {
        return Err(BAD_PLAN);
    }
    let (asp_rows, rest) = bodies.split_at(ASP_ROW * asps);
    let (as_rows, link_rows) = rest.split_at(AS_ROW * ases);

    gateway.asps = asps as u8;
    gateway.ases = ases as u8;
    gateway.links = links as u8;
    // Everything is looked at; one bit tells in the end.
    let mut wrong = false;

    let mut masks = [0u16; MAX_ASPS];
    let mut all_masks = 0;
    for (p, row) in asp_rows.as_chunks::<ASP_ROW>().0.iter().enumerate() {
        let row = u64::from_be_bytes(*row);
        let id = (row >> 32) as u32;
        for other in &gateway.asp_id[..p] {
            wrong |= *other == id;
        }
        gateway.asp_id[p] = id;
        masks[p] = (row >> 16) as u16;
        all_masks |= masks[p];
        wrong |= row as u16 > 1;
        gateway.wholelists[p] = row as u8;
    }
    wrong |= all_masks as u32 >> ases != 0;
    for (a, members) in gateway.member.as_chunks_mut::<16>().0[..ases]
        .iter_mut()
        .enumerate()
    {
        for (member, mask) in members.iter_mut().zip(&masks) {
            *member = (mask >> a) as u8 & 1;
        }
    }

    for (a, row) in as_rows.as_chunks::<AS_ROW>().0.iter().enumerate() {
        let mode = u32::from_be_bytes(*row);
        wrong |= mode.wrapping_sub(1) > 2;
        gateway.mode[a] = mode as u8;
    }

    // Below every identifier.
    let mut last = -1;
    for (i, row) in link_rows.as_chunks::<LINK_ROW>().0.iter().enumerate() {
        let row = u64::from_be_bytes(*row);
        let (id, kind, owner) = ((row >> 32) as u32, (row >> 16) as u16, row as u16);
        wrong |= id as i64 <= last;
        wrong |= owner >= ases as u16;
        wrong |= kind > HIGH_SPEED as u16;
        last = id as i64;
        gateway.link_id[i] = id;
        gateway.owner[i] = owner as u8;
        gateway.highspeed[i] = kind as u8;
    }

    if wrong {
        return Err(BAD_ROW);
    }
    Ok(())
}
