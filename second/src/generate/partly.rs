//! Active and Inactive that name what the ASP can have among what it cannot:
//! links of other ASes, identifiers that no link has, ranges with holes and
//! ranges as wide as can be. And plans that they are tried on.

use super::histories::{serves, Made};
use super::message::{self, Message, Piece};
use super::plans::Plan;
use super::range_plans;
use super::ranges::{self, Draft};
use super::rng::Rng;
use crate::gateway::Gateway;
use crate::wire::*;

/// A plan for ranges, where most ASPs are in some ASes only; some have lists that
/// are taken whole. Seldom one has a spare that there is not.
pub fn plan(rng: &mut Rng) -> Plan {
    let mut plan = range_plans::plan(rng);
    let ases = plan.modes.len() as u64;
    let all = ((1u32 << ases) - 1) as u16;
    // Often the ASes of one half have one mode, and those of the other another.
    let half = rng.range(1, ases);
    let modes = (rng.range(1, 3) as u32, rng.range(1, 3) as u32);
    let split = rng.one_in(2);
    for (a, mode) in plan.modes.iter_mut().enumerate().filter(|_| split) {
        *mode = if (a as u64) < half { modes.0 } else { modes.1 };
    }
    let low = ((1u32 << half) - 1) as u16;
    for asp in &mut plan.asps {
        asp.1 = match rng.below(8) {
            0..=2 => low,
            3 => all & !low,
            4 => all,
            5 => all & !(1 << rng.below(ases)),
            6 => 1 << rng.below(ases),
            _ => all & rng.next64() as u16,
        };
        asp.2 = rng.one_in(4) as u16;
    }
    if rng.one_in(60) {
        let p = rng.below(plan.asps.len() as u64) as usize;
        plan.asps[p].2 = rng.pick(&[2, 3, 255, 256, 257, 0x8001, 0xffff]);
    }
    plan
}

/// Start and stop; a single identifier is both.
type Entry = (u32, u32);

/// An Active or Inactive that is good in part, mostly; or the Up that it wants.
/// Nothing where the plan has no links.
pub fn event(rng: &mut Rng, gateway: &Gateway) -> Option<Made> {
    if gateway.links == 0 {
        return None;
    }
    let p = ranges::sender(rng, gateway);
    let q = p as usize % 16;
    if gateway.up[q] == 0 && !rng.one_in(5) {
        return Some(Made::Message(p, Message::new(3, 1, vec![]).encode()));
    }
    let (good, bad) = (good_entries(rng, gateway, p), bad_entries(rng, gateway, p));
    let entries = in_order(rng, good, bad);
    let pieces = parameters(rng, &entries);
    let kind = ranges::kind(rng, gateway, q, &pieces);
    let mut message = Message::new(4, kind, pieces);
    if kind == 1 && rng.one_in(2) {
        let at = rng.below(message.pieces.len() as u64 + 1) as usize;
        let mode = mode(rng, gateway, p, &entries);
        message.pieces.insert(at, Piece::word(TRAFFIC_MODE, mode));
    }
    if rng.one_in(20) {
        let at = rng.below(message.pieces.len() as u64 + 1) as usize;
        let text = Piece::new(INFO_STRING, rng.bytes(5));
        message.pieces.insert(at, text);
    }
    if rng.one_in(100) {
        message::damage_pieces(rng, &mut message);
    }
    Some(Made::Message(p, message.encode()))
}

/// Mostly few, now and then as many as go into a message, seldom none.
fn count(rng: &mut Rng, most: u64) -> u64 {
    match rng.below(24) {
        0..=2 => 0,
        3 => most,
        4 | 5 => rng.range(10, most),
        _ => rng.range(1, 5),
    }
}

/// Links that p serves, alone or in runs.
fn good_entries(rng: &mut Rng, gateway: &Gateway, p: u32) -> Vec<Entry> {
    let ids = gateway.link_ids();
    let runs = ranges::runs(gateway, |link| serves(gateway, p, link));
    if runs.is_empty() {
        return Vec::new();
    }
    let alone = rng.one_in(2);
    // All of them, or any.
    if rng.one_in(12) {
        let whole = runs.iter().map(|(first, last)| (ids[*first], ids[*last]));
        return whole.collect();
    }
    let count = count(rng, if alone { 500 } else { 240 });
    let any = |rng: &mut Rng| {
        let run = rng.pick(&runs);
        let (first, last) = ranges::part(rng, run);
        (ids[first], ids[if alone { first } else { last }])
    };
    (0..count).map(|_| any(rng)).collect()
}

/// What is bad as a whole or in part; none now and then.
fn bad_entries(rng: &mut Rng, gateway: &Gateway, p: u32) -> Vec<Entry> {
    let count = match rng.below(24) {
        0 | 1 => 0,
        2 => rng.range(6, 120),
        3..=8 => rng.range(2, 5),
        _ => 1,
    };
    (0..count).map(|_| bad_entry(rng, gateway, p)).collect()
}

fn bad_entry(rng: &mut Rng, gateway: &Gateway, p: u32) -> Entry {
    let ids = gateway.link_ids();
    let any = rng.pick(ids);
    match rng.below(12) {
        // Beside a link, known or not, or anything.
        0 | 1 => {
            let id = rng.pick(&[any.wrapping_sub(1), any.wrapping_add(1)]);
            (id, id)
        }
        2 => {
            let id = rng.word();
            (id, id)
        }
        3..=5 => match ranges::foreign(rng, gateway, p) {
            // The first of it alone, or all.
            Some((start, _)) if rng.one_in(3) => (start, start),
            Some(range) => range,
            None => (any, any),
        },
        6 => rng.pick(&[(0, u32::MAX), (any, u32::MAX), (0, any)]),
        _ => ranges::refused(rng, gateway, p),
    }
}

/// Good and bad ones one behind the other, some of them more than once.
fn in_order(rng: &mut Rng, good: Vec<Entry>, bad: Vec<Entry>) -> Vec<Entry> {
    let mut all = match rng.below(4) {
        0 => [bad, good].concat(),
        1 => [good, bad].concat(),
        _ => {
            let mut all = [good, bad].concat();
            rng.shuffle(&mut all);
            all
        }
    };
    if all.is_empty() {
        all.push((7, 7));
    }
    if rng.one_in(3) {
        for _ in 0..rng.range(1, 4) {
            let again = rng.pick(&all);
            let at = rng.below(all.len() as u64 + 1) as usize;
            all.insert(at, again);
        }
    }
    all
}

/// A single identifier is said as one, or as a range.
fn parameters(rng: &mut Rng, entries: &[Entry]) -> Vec<Piece> {
    let mut draft = Draft::new(rng);
    let (as_range, apart) = (rng.pick(&[2, 4, 1000]), rng.pick(&[1000, 1000, 5, 1]));
    for (start, stop) in entries {
        let apart = rng.one_in(apart);
        if start == stop && !rng.one_in(as_range) {
            draft.put(INTERFACE_ID, &start.to_be_bytes(), apart);
        } else {
            draft.range((*start, *stop), apart);
        }
    }
    draft.pieces
}

/// The mode of an AS of which a good one is named, or of one that a bad one is
/// of; or any.
fn mode(rng: &mut Rng, gateway: &Gateway, p: u32, entries: &[Entry]) -> u32 {
    let named = |link: &usize| {
        let id = gateway.link_id[*link];
        entries
            .iter()
            .any(|(start, stop)| *start <= id && id <= *stop)
    };
    let good = rng.below(3) != 0;
    let links = (0..gateway.links as usize).filter(|link| serves(gateway, p, *link) == good);
    let links: Vec<usize> = links.filter(named).collect();
    match links[..] {
        [] => rng.range(1, 3) as u32,
        _ if rng.one_in(6) => rng.range(1, 3) as u32,
        _ => gateway.mode[gateway.owner_of(rng.pick(&links))] as u32,
    }
}
