//! Retrieval, 6.10 of an ASP and 6.11 of the link side: with sequence numbers
//! about the limits of both kinds of link, on links of both.

use super::histories::{index, Made};
use super::message::{Message, Piece};
use super::rng::Rng;
use crate::gateway::{Each, Gateway, HIGH_SPEED, PLAIN};
use crate::wire::*;

/// Sequence numbers on both sides of each limit; the first ten read.
pub const BORDERS: [u32; 14] = [
    0,
    1,
    126,
    127,
    128,
    129,
    255,
    256,
    4094,
    4095,
    4096,
    65_535,
    1 << 31,
    u32::MAX,
];
const READABLE: usize = 10;

/// A sequence number that reads, about as often below as above the limit of a
/// plain link.
pub fn good_number(rng: &mut Rng) -> u32 {
    match rng.below(6) {
        0 => rng.range(0, MAX_PLAIN_SEQUENCE as u64) as u32,
        1 => rng.range(MAX_PLAIN_SEQUENCE as u64 + 1, MAX_SEQUENCE as u64) as u32,
        _ => rng.pick(&BORDERS[..READABLE]),
    }
}

/// Any sequence number, mostly one that reads.
fn number(rng: &mut Rng) -> u32 {
    match rng.below(6) {
        0 => rng.pick(&BORDERS[READABLE..]),
        _ => good_number(rng),
    }
}

/// 6.10 and 6.11 with every combination of action, result and sequence
/// number, at and beyond their limits.
pub fn any(rng: &mut Rng) -> Message {
    let kind = rng.pick(&[10, 11]);
    let mut pieces = vec![Piece::word(ACTION, rng.pick(&[1, 2, 1, 2, 1, 2, 0, 3]))];
    if kind == 11 || rng.one_in(20) {
        pieces.push(Piece::word(RESULT, rng.pick(&[0, 1, 0, 1, 0, 1, 2])));
    }
    if rng.one_in(2) {
        pieces.push(Piece::word(SEQUENCE, number(rng)));
    }
    if rng.one_in(12) {
        let at = rng.below(pieces.len() as u64) as usize;
        pieces.remove(at);
    }
    rng.shuffle(&mut pieces);
    if !rng.one_in(20) {
        pieces.insert(0, Piece::word(INTERFACE_ID, rng.word()));
    }
    Message::new(6, kind, pieces)
}

/// 6.10 or 6.11 about a link, mostly with a sequence number, which alone may be
/// wrong.
fn about(rng: &mut Rng, kind: u8, id: u32) -> Message {
    let (with, without) = if kind == 10 { (2, 1) } else { (1, 2) };
    let mut pieces = if rng.one_in(10) {
        vec![Piece::word(ACTION, without)]
    } else {
        vec![
            Piece::word(ACTION, with),
            Piece::word(SEQUENCE, number(rng)),
        ]
    };
    if kind == 11 {
        pieces.push(Piece::word(RESULT, 0));
    }
    rng.shuffle(&mut pieces);
    pieces.insert(0, Piece::word(INTERFACE_ID, id));
    Message::new(6, kind, pieces)
}

/// The same about any link.
pub fn fitting(rng: &mut Rng) -> Message {
    let (kind, id) = (rng.pick(&[10, 11]), rng.word());
    about(rng, kind, id)
}

/// A link, mostly one that is served, and as often a plain one as a high-speed
/// one where the plan has both.
fn any_link(rng: &mut Rng, gateway: &Gateway) -> Option<usize> {
    let kind = rng.pick(&[PLAIN, HIGH_SPEED]);
    let all = 0..gateway.links as usize;
    let of_kind = |link: &usize| gateway.highspeed[*link] == kind;
    let served = |link: &usize| gateway.actives(gateway.owner[*link] as usize) != 0;
    let mut links: Vec<usize> = all.clone().filter(of_kind).collect();
    if links.is_empty() {
        links = all.collect();
    }
    if links.iter().any(served) && !rng.one_in(5) {
        links.retain(served);
    }
    (!links.is_empty()).then(|| rng.pick(&links))
}

/// Mostly an ASP that is active for the link; else one that is up, down, or no
/// member of its AS.
fn any_sender(rng: &mut Rng, gateway: &Gateway, link: usize) -> u32 {
    let a = gateway.owner[link] as usize;
    let (member, active, up) = (gateway.members(a), gateway.actives(a), gateway.up_set());
    let wanted = match rng.below(10) {
        0 => member & up & !active,
        1 => member & !up,
        2 => up & !member,
        3 => return index(rng, gateway.asps),
        _ => active,
    };
    let asps: Vec<usize> = Each(wanted).collect();
    match asps[..] {
        [] => index(rng, gateway.asps),
        _ => rng.pick(&asps) as u32,
    }
}

/// 6.10 of an ASP, or 6.11 of the link side; nothing where there is no link.
pub fn event(rng: &mut Rng, gateway: &Gateway) -> Option<Made> {
    let link = any_link(rng, gateway)?;
    let id = gateway.link_id[link];
    Some(if rng.one_in(3) {
        Made::LinkMessage(about(rng, 11, id).encode())
    } else {
        let p = any_sender(rng, gateway, link);
        // Now and then a Confirm, which no ASP sends.
        let kind = if rng.one_in(12) { 11 } else { 10 };
        Made::Message(p, about(rng, kind, id).encode())
    })
}
