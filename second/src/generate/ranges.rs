//! Active and Inactive with many ranges, of every shape, mixed with lists of
//! single identifiers. Most are made of links that the ASP serves; in others
//! one range or identifier is wrong, at any place of the message.

use super::histories::{index, serves, Made};
use super::message::{self, Message, Piece};
use super::rng::Rng;
use crate::events::bits;
use crate::gateway::{Each, Gateway};
use crate::wire::*;

/// First and last place of links whose identifiers have no gap.
pub type Run = (usize, usize);

/// An ASP, mostly one that is up.
pub fn sender(rng: &mut Rng, gateway: &Gateway) -> u32 {
    let up: Vec<usize> = Each(gateway.up_set()).collect();
    match up[..] {
        [] => index(rng, gateway.asps),
        _ if rng.one_in(12) => index(rng, gateway.asps),
        _ => rng.pick(&up) as u32,
    }
}

/// An Active or Inactive of identifiers, now and then the Up that it wants;
/// nothing where the plan has no links.
pub fn event(rng: &mut Rng, gateway: &Gateway) -> Option<Made> {
    if gateway.links == 0 {
        return None;
    }
    let p = sender(rng, gateway);
    let q = p as usize % 16;
    if gateway.up[q] == 0 && !rng.one_in(4) {
        return Some(Made::Message(p, Message::new(3, 1, vec![]).encode()));
    }
    let pieces = named(rng, gateway, p);
    let mut message = Message::new(4, kind(rng, gateway, q, &pieces), pieces);
    let mut others = Vec::new();
    if message.kind == 1 && rng.one_in(4) {
        others.push(Piece::word(TRAFFIC_MODE, mode(rng, gateway, q, &message)));
    }
    if rng.one_in(12) {
        others.push(Piece::new(INFO_STRING, rng.bytes(5)));
    }
    for piece in others {
        let at = rng.below(message.pieces.len() as u64 + 1) as usize;
        message.pieces.insert(at, piece);
    }
    if rng.one_in(80) {
        message::damage_pieces(rng, &mut message);
    }
    Some(Made::Message(p, message.encode()))
}

/// Active or Inactive: mostly what changes something.
pub fn kind(rng: &mut Rng, gateway: &Gateway, p: usize, pieces: &[Piece]) -> u8 {
    let message = Message::new(4, 1, pieces.to_vec()).encode();
    let owners = gateway.named_ases(p, &message).ases;
    let (mut active, mut not) = (false, false);
    for a in bits(owners) {
        active |= gateway.is_active(a, p);
        not |= !gateway.is_active(a, p);
    }
    match (active, not) {
        _ if rng.one_in(8) => rng.pick(&[1, 2]),
        (true, false) => 2,
        (false, true) => 1,
        _ => rng.pick(&[1, 2]),
    }
}

/// Mostly the mode of the first link named.
fn mode(rng: &mut Rng, gateway: &Gateway, p: usize, message: &Message) -> u32 {
    let first = message.pieces.first().map(|piece| be32(&piece.value));
    let link = first.and_then(|id| gateway.find_link(id));
    match link {
        Some(link) if !rng.one_in(5) => gateway.mode[gateway.owner_of(link)] as u32,
        _ => gateway.mode[p] as u32 % 3 + 1,
    }
}

/// All runs of links that pass a test, as long as they can be.
pub fn runs(gateway: &Gateway, test: impl Fn(usize) -> bool) -> Vec<Run> {
    let ids = gateway.link_ids();
    let mut runs: Vec<Run> = Vec::new();
    for place in (0..ids.len()).filter(|place| test(*place)) {
        match runs.last_mut() {
            Some((_, last)) if *last + 1 == place && ids[*last] + 1 == ids[place] => *last = place,
            _ => runs.push((place, place)),
        }
    }
    runs
}

/// A part of a run.
pub fn part(rng: &mut Rng, (first, last): Run) -> Run {
    let a = rng.range(first as u64, last as u64) as usize;
    let b = rng.range(first as u64, last as u64) as usize;
    (a.min(b), a.max(b))
}

/// How the ranges of a message lie to each other.
#[derive(Clone, Copy)]
enum Shape {
    Whole,
    Nested,
    Overlapping,
    Adjacent,
    Ones,
    Repeated,
    ToTheEnd,
    FromTheStart,
    Any,
}

const SHAPES: [Shape; 10] = [
    Shape::Whole,
    Shape::Nested,
    Shape::Overlapping,
    Shape::Adjacent,
    Shape::Ones,
    Shape::Repeated,
    Shape::ToTheEnd,
    Shape::FromTheStart,
    Shape::Any,
    Shape::Any,
];

/// So many parts of these runs.
fn shaped(rng: &mut Rng, runs: &[Run], count: usize) -> Vec<Run> {
    let shape = rng.pick(&SHAPES);
    let mut run = rng.pick(runs);
    let same = part(rng, run);
    let width = rng.range(1, 9) as usize;
    let mut ranges = Vec::new();
    for i in 0..count {
        if !matches!(shape, Shape::Repeated) && rng.one_in(10) {
            run = rng.pick(runs);
        }
        let (first, last) = run;
        let size = last - first + 1;
        // Where a window of this width is after i steps.
        let window = |step: usize| {
            let at = first + i * step % size;
            (at, (at + width - 1).min(last))
        };
        ranges.push(match shape {
            Shape::Whole => run,
            Shape::Nested => {
                let inset = i % size.div_ceil(2);
                (first + inset, last - inset)
            }
            Shape::Overlapping => window(width.div_ceil(2)),
            Shape::Adjacent => window(width),
            Shape::Ones => {
                let at = rng.range(first as u64, last as u64) as usize;
                (at, at)
            }
            Shape::Repeated => same,
            Shape::ToTheEnd => (last - i % size, last),
            Shape::FromTheStart => (first, first + i % size),
            Shape::Any => part(rng, run),
        });
    }
    ranges
}

/// A range that is refused, mostly: with an identifier that is missing, or of an
/// AS without p.
pub fn refused(rng: &mut Rng, gateway: &Gateway, p: u32) -> (u32, u32) {
    let ids = gateway.link_ids();
    let all = runs(gateway, |_| true);
    let at = rng.below(all.len() as u64) as usize;
    let (first, last) = all[at];
    let (a, b) = part(rng, all[at]);
    let any = rng.pick(ids);
    match rng.below(12) {
        0 => (0, u32::MAX),
        1 => (0, any),
        2 => (any, u32::MAX),
        // The first or the last one is missing; or one in the middle.
        3 => (ids[first].saturating_sub(1), ids[b]),
        4 => (ids[a], ids[last].saturating_add(1)),
        5 | 6 if at + 1 < all.len() => {
            let next = part(rng, all[at + 1]);
            (ids[a], ids[next.0])
        }
        7 => {
            let (a, b) = (rng.word(), rng.word());
            (a.min(b), a.max(b))
        }
        // Mostly none of it is known.
        8 => {
            let id = ids[last].saturating_add(1);
            (id, id)
        }
        _ => foreign(rng, gateway, p).unwrap_or((ids[a], ids[b])),
    }
}

/// A known range with a link of an AS without p: at its start, its end, or
/// inside.
pub fn foreign(rng: &mut Rng, gateway: &Gateway, p: u32) -> Option<(u32, u32)> {
    let ids = gateway.link_ids();
    let others = (0..ids.len()).filter(|link| !serves(gateway, p, *link));
    let others: Vec<usize> = others.collect();
    if others.is_empty() {
        return None;
    }
    let link = rng.pick(&others);
    let all = runs(gateway, |_| true);
    let (first, last) = *all.iter().find(|(_, last)| *last >= link)?;
    let (before, behind) = (
        rng.range(first as u64, link as u64) as usize,
        rng.range(link as u64, last as u64) as usize,
    );
    Some(match rng.below(4) {
        0 => (ids[link], ids[behind]),
        1 => (ids[before], ids[link]),
        2 => (ids[link], ids[link]),
        _ => (ids[before], ids[behind]),
    })
}

/// Mostly few, now and then all that a message can have, or more.
fn many(rng: &mut Rng, most: u64) -> usize {
    let count = match rng.below(40) {
        0 => most,
        1 | 2 => rng.range(20, most),
        3..=9 => rng.range(5, 19),
        _ => rng.range(1, 4),
    };
    count as usize
}

/// Parameters being filled, within the longest message; what does not go in is
/// left out.
pub struct Draft {
    pub pieces: Vec<Piece>,
    room: usize,
}

impl Draft {
    pub fn new(rng: &mut Rng) -> Self {
        Draft {
            pieces: Vec::new(),
            room: if rng.one_in(2) { 2040 } else { 2020 },
        }
    }

    /// An item under a tag: behind the last one, or in a parameter of its own.
    pub fn put(&mut self, tag: u16, item: &[u8], apart: bool) {
        let fits = |piece: &&mut Piece| piece.tag == tag && !apart;
        let last = self.pieces.last_mut().filter(fits);
        let bytes = item.len() + if last.is_some() { 0 } else { 4 };
        if bytes > self.room {
            return;
        }
        self.room -= bytes;
        match last {
            Some(piece) => piece.value.extend_from_slice(item),
            None => self.pieces.push(Piece::new(tag, item.to_vec())),
        }
    }

    pub fn range(&mut self, (start, stop): (u32, u32), apart: bool) {
        let item = [start.to_be_bytes(), stop.to_be_bytes()].concat();
        self.put(INTERFACE_RANGE, &item, apart);
    }
}

/// What a message names: ranges, single identifiers, or both.
fn named(rng: &mut Rng, gateway: &Gateway, p: u32) -> Vec<Piece> {
    let mut draft = Draft::new(rng);
    // Mostly in one parameter, else in some, or each in its own.
    let apart = rng.pick(&[0, 0, 0, 4, 1]);
    let split = |rng: &mut Rng| apart != 0 && rng.one_in(apart);
    let good = runs(gateway, |link| serves(gateway, p, link));
    let parts = match rng.below(8) {
        // Single identifiers, ranges, or both in turn.
        0 => vec![INTERFACE_ID],
        1 | 2 => (0..rng.range(2, 6))
            .map(|_| rng.pick(&[INTERFACE_ID, INTERFACE_RANGE]))
            .collect(),
        _ => vec![INTERFACE_RANGE],
    };
    let wrong = rng
        .one_in(3)
        .then(|| rng.below(parts.len() as u64) as usize);
    for (i, tag) in parts.iter().enumerate() {
        let mut ranges = wanted(rng, gateway, &good, *tag);
        if wrong == Some(i) || ranges.is_empty() {
            let at = rng.below(ranges.len() as u64 + 1) as usize;
            ranges.insert(at, refused(rng, gateway, p));
        }
        for (start, stop) in ranges {
            let apart = split(rng);
            if *tag == INTERFACE_ID {
                draft.put(INTERFACE_ID, &start.to_be_bytes(), apart);
            } else {
                draft.range((start, stop), apart);
            }
        }
    }
    draft.pieces
}

/// Ranges of these runs, or single identifiers, in order or not.
fn wanted(rng: &mut Rng, gateway: &Gateway, good: &[Run], tag: u16) -> Vec<(u32, u32)> {
    if good.is_empty() {
        return Vec::new();
    }
    let ids = gateway.link_ids();
    let named = |(first, last): Run| (ids[first], ids[last]);
    if tag == INTERFACE_RANGE {
        let count = many(rng, 254);
        return shaped(rng, good, count).into_iter().map(named).collect();
    }
    let count = many(rng, 509);
    let all: Vec<usize> = good.iter().flat_map(|(a, b)| *a..=*b).collect();
    let (from, in_order) = (rng.below(all.len() as u64) as usize, rng.one_in(2));
    let place = |i: usize| match in_order {
        true => all[(from + i) % all.len()],
        false => rng.pick(&all),
    };
    (0..count)
        .map(place)
        .map(|place| named((place, place)))
        .collect()
}
