//! Plans that ranges are tried on: identifiers in runs without a gap, with one
//! missing between two runs or more, at both ends of the 32 bits; owners in
//! blocks, in turn and at random.

use super::plans::{Link, Plan};
use super::rng::Rng;

pub fn plan(rng: &mut Rng) -> Plan {
    let (asps, ases, links) = match rng.below(8) {
        0 | 1 => (16, 16, rng.pick(&[128, 128, 127, 100])),
        2 => (rng.range(1, 6), rng.range(2, 16), 128),
        3 => (rng.range(1, 16), rng.range(1, 16), rng.range(1, 128)),
        4 | 5 => (rng.range(2, 5), rng.range(2, 5), rng.range(1, 8)),
        _ => (rng.range(2, 5), rng.range(2, 8), rng.range(8, 40)),
    };
    let owners = owners(rng, ases, links);
    let links = identifiers(rng, links)
        .into_iter()
        .zip(owners)
        .map(|(id, owner)| Link {
            id,
            kind: rng.below(2) as u16,
            owner,
        })
        .collect();
    let same = rng.one_in(2).then(|| rng.range(1, 3) as u32);
    let modes = (0..ases).map(|_| same.unwrap_or(rng.range(1, 3) as u32));
    Plan {
        modes: modes.collect(),
        asps: (0..asps)
            .map(|p| (p as u32, mask(rng, ases), rng.one_in(8) as u16))
            .collect(),
        links,
    }
}

/// Mostly all ASes, or all but one.
fn mask(rng: &mut Rng, ases: u64) -> u16 {
    let all = ((1u32 << ases) - 1) as u16;
    match rng.below(8) {
        0..=3 => all,
        4 | 5 => all & !(1 << rng.below(ases)),
        6 => all & rng.next64() as u16,
        _ => 1 << rng.below(ases),
    }
}

fn owners(rng: &mut Rng, ases: u64, links: u64) -> Vec<u16> {
    let last = rng.below(links);
    let run = rng.range(1, 9);
    let how = rng.below(5);
    let owner = |link: u64| match how {
        // In turn, in blocks, at random, in short runs.
        0 => link % ases,
        1 => link * ases / links,
        2 => rng.below(ases),
        3 => link / run % ases,
        // One AS has one link alone, often the last or the first one.
        _ if link == [last, 0, links - 1, links - 1][last as usize % 4] => ases - 1,
        _ => link % (ases - 1).max(1),
    };
    (0..links).map(owner).map(|owner| owner as u16).collect()
}

/// Ascending, in runs.
fn identifiers(rng: &mut Rng, count: u64) -> Vec<u32> {
    let longest = rng.pick(&[1, 3, 10, 40, 128, 128]);
    let mut ids: Vec<u32> = Vec::new();
    let (mut id, mut left) = (0, rng.range(1, longest));
    // The place where the last run begins.
    let mut from = 0;
    if longest == 128 {
        left = 128;
    }
    for place in 0..count {
        if left == 0 {
            left = rng.range(1, longest);
            from = place as usize;
            id += match rng.below(8) {
                0 => rng.range(2, 9) as u32,
                1 => rng.range(2, 2000) as u32,
                // One is missing.
                _ => 1,
            };
        }
        ids.push(id);
        id += 1;
        left -= 1;
    }
    let span = id - 1;
    let base = match rng.below(6) {
        0 | 1 => 0,
        2 => u32::MAX - span,
        3 => 0x8000_0000 - span / 2,
        _ => rng.range(1, 300) as u32,
    };
    ids.iter_mut().for_each(|id| *id += base);
    // The last run, or a part of the only one, at the end of all numbers.
    if rng.one_in(4) {
        if from == 0 {
            from = rng.below(count) as usize;
        }
        for (id, up) in ids[from..].iter_mut().rev().zip(0..) {
            *id = u32::MAX - up;
        }
    }
    ids
}
