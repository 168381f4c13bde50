//! Lines that belong together: what brings a plan to life, an AS to pending and
//! units into the hold.

use super::histories::Made;
use super::message::{Message, Piece};
use super::plans::Plan;
use super::rng::Rng;
use crate::events::LIST_WORDS;
use crate::gateway::{Each, Gateway, HOLD_BYTES, IDLE, MAX_HELD};
use crate::wire::*;

type Lines = Vec<Vec<u8>>;

pub const RIGHT_HOLD: &[u8] = b"hold 34944";

/// The line of an event, lent the list that it wants.
fn line_of(made: Made) -> Vec<u8> {
    let mut line = Vec::new();
    made.put(LIST_WORDS as u32, &mut line);
    line
}

/// A message of ASP p without parameters.
fn bare(p: u32, class: u8, kind: u8) -> Vec<u8> {
    line_of(Made::Message(p, Message::new(class, kind, vec![]).encode()))
}

/// A message of ASP p about one identifier.
fn about(p: u32, class: u8, kind: u8, id: u32) -> Vec<u8> {
    let message = Message::new(class, kind, vec![Piece::word(INTERFACE_ID, id)]);
    line_of(Made::Message(p, message.encode()))
}

/// Most ASPs come up, and most of these active; if asked for, before each an
/// order of it as bytes.
pub fn opening(rng: &mut Rng, asps: usize, bytes: bool) -> Lines {
    let mut lines = Vec::new();
    let mut all: Vec<u32> = (0..asps as u32).collect();
    rng.shuffle(&mut all);
    for (class, kind) in [(3, 1), (4, 1)] {
        all.retain(|_| !rng.one_in(8));
        for p in &all {
            let event = bare(*p, class, kind);
            if bytes {
                let place = rng.range(0, 3) as u32;
                lines.push(some_bytes(rng, place, &event));
            }
            lines.push(event);
        }
    }
    lines
}

/// One active ASP of a link's owner.
fn active_of(rng: &mut Rng, gateway: &Gateway, link: usize) -> Option<u32> {
    let actives: Vec<usize> = Each(gateway.actives(gateway.owner[link] as usize)).collect();
    (!actives.is_empty()).then(|| rng.pick(&actives) as u32)
}

/// The link is asked for, and mostly comes up.
fn establish(rng: &mut Rng, gateway: &Gateway, link: usize) -> Lines {
    let Some(p) = active_of(rng, gateway, link) else {
        return vec![];
    };
    let mut lines = vec![about(p, 6, 2, gateway.link_id[link])];
    if !rng.one_in(10) {
        lines.push(line_of(Made::LinkUp(link as u32)));
    }
    lines
}

/// Most links come into service.
pub fn services(rng: &mut Rng, gateway: &Gateway) -> Lines {
    let mut links: Vec<usize> = (0..gateway.links as usize).collect();
    rng.shuffle(&mut links);
    links.retain(|_| !rng.one_in(8));
    let lines = links.iter().map(|link| establish(rng, gateway, *link));
    lines.flatten().collect()
}

/// Whether more than a quarter of the links are idle.
pub fn many_idle(gateway: &Gateway) -> bool {
    let states = &gateway.state[..gateway.links as usize];
    let idle = states.iter().filter(|state| **state == IDLE).count();
    4 * idle > states.len()
}

/// One idle link comes into service, if somebody can ask for it.
pub fn service(rng: &mut Rng, gateway: &Gateway) -> Lines {
    let fits = |link: &usize| {
        gateway.state[*link] == IDLE && gateway.actives(gateway.owner[*link] as usize) != 0
    };
    let links: Vec<usize> = (0..gateway.links as usize).filter(fits).collect();
    if links.is_empty() {
        return vec![];
    }
    let link = rng.pick(&links);
    establish(rng, gateway, link)
}

/// The identifier of a link whose AS waits.
pub fn waiting_link(rng: &mut Rng, gateway: &Gateway) -> Option<u32> {
    let waits = |link: &usize| gateway.waiting[gateway.owner[*link] as usize] != 0;
    let links: Vec<usize> = (0..gateway.links as usize).filter(waits).collect();
    (!links.is_empty()).then(|| gateway.link_id[rng.pick(&links)])
}

/// Data of a link, of 1 to 273 bytes, with or without a correlation id, before
/// or behind the unit.
pub fn data(rng: &mut Rng, id: u32) -> Vec<u8> {
    let size = match rng.below(16) {
        0 => 1,
        1 => 273,
        2 => rng.range(269, 272),
        3 | 4 => rng.range(1, 273),
        _ => rng.range(1, 24),
    };
    sized_data(rng, id, size as usize)
}

fn sized_data(rng: &mut Rng, id: u32, size: usize) -> Vec<u8> {
    let tag = rng.pick(&[DATA1, DATA2]);
    let mut pieces = vec![Piece::new(tag, rng.bytes(size))];
    match rng.below(6) {
        0 => pieces.push(Piece::word(CORRELATION_ID, 0)),
        1 | 2 => pieces.push(Piece::word(CORRELATION_ID, rng.word())),
        _ => {}
    }
    rng.shuffle(&mut pieces);
    pieces.insert(0, Piece::word(INTERFACE_ID, id));
    let mut message = Message::new(6, 1, pieces);
    if rng.one_in(3) {
        message.spare = rng.byte();
        message.padding = rng.byte();
    }
    message.encode()
}

/// ASP q, active in AS a, is so no more.
fn leave(rng: &mut Rng, gateway: &Gateway, a: usize, q: u32) -> Vec<u8> {
    match rng.below(8) {
        0 => line_of(Made::Lost(q)),
        1 => bare(q, 3, 2),
        2 => bare(q, 3, 1),
        3 => bare(q, 4, 2),
        _ => {
            let own = |link: &usize| gateway.owner[*link] as usize == a;
            let link = (0..gateway.links as usize).find(own);
            about(q, 4, 2, link.map_or(0, |link| gateway.link_id[link]))
        }
    }
}

/// An AS that has links loses all that are active, if it does not wait already,
/// and gets data: often all it can hold, or one or two more.
pub fn pending(rng: &mut Rng, gateway: &Gateway) -> Lines {
    let fits = |link: &usize| {
        let a = gateway.owner[*link] as usize;
        gateway.waiting[a] != 0 || gateway.actives(a) != 0
    };
    let links: Vec<usize> = (0..gateway.links as usize).filter(fits).collect();
    if links.is_empty() {
        return vec![];
    }
    let a = gateway.owner[rng.pick(&links)] as usize;
    let own: Vec<usize> = links
        .into_iter()
        .filter(|link| gateway.owner[*link] as usize == a)
        .collect();
    let mut lines: Lines = Each(gateway.actives(a))
        .map(|q| leave(rng, gateway, a, q as u32))
        .collect();
    for _ in 0..rng.pick(&[1, 2, 3, 5, 8, 8, 9, 10]) {
        let id = gateway.link_id[rng.pick(&own)];
        let message = line_of(Made::LinkMessage(data(rng, id)));
        between(rng, a, id, &mut lines);
        if rng.one_in(25) {
            lines.push(other_hold(rng));
            lines.push(message.clone());
            lines.push(RIGHT_HOLD.to_vec());
        }
        lines.push(message);
    }
    lines.push(b"state".to_vec());
    lines.push(place_line(a, rng.below(MAX_HELD as u64)));
    lines
}

/// Now and then something between two units.
fn between(rng: &mut Rng, a: usize, id: u32, lines: &mut Lines) {
    match rng.below(24) {
        0 => lines.push(b"state".to_vec()),
        1 => lines.push(place_line(a, rng.below(MAX_HELD as u64))),
        2 => {
            // Data that is not held, for it is no Data message.
            let kind = rng.pick(&[12, 13]);
            let unit = Piece::new(rng.pick(&[DATA1, DATA2]), rng.bytes(5));
            let pieces = vec![Piece::word(INTERFACE_ID, id), unit];
            let message = Message::new(6, kind, pieces).encode();
            lines.push(line_of(Made::LinkMessage(message)));
        }
        3 if rng.one_in(3) => lines.push(paint(rng)),
        _ => {}
    }
}

fn place_line(a: usize, k: u64) -> Vec<u8> {
    format!("held {a} {k}").into_bytes()
}

/// A look at a place of the hold, mostly of an AS that holds units.
pub fn look(rng: &mut Rng, gateway: &Gateway) -> Vec<u8> {
    let holding: Vec<usize> = (0..16).filter(|a| gateway.held[*a] > 0).collect();
    let a = match holding[..] {
        [] => rng.below(16) as usize,
        _ if rng.one_in(4) => rng.below(16) as usize,
        _ => rng.pick(&holding),
    };
    place_line(a, rng.below(MAX_HELD as u64))
}

pub fn paint(rng: &mut Rng) -> Vec<u8> {
    let byte = match rng.below(3) {
        0 => rng.pick(&[0, 1, 85, 255]),
        _ => rng.byte(),
    };
    format!("paint {byte}").into_bytes()
}

/// A hold of another length, mostly close to the right one.
pub fn other_hold(rng: &mut Rng) -> Vec<u8> {
    let right = HOLD_BYTES as u32;
    let bytes = match rng.below(4) {
        0 => rng.pick(&[0, 1, 273, 2184, right / 2, 65_535, 65_536, 65_537, u32::MAX]),
        1 => rng.range(0, 70_000) as u32,
        _ => rng.pick(&[right - 1, right + 1, right - 273, right + 273]),
    };
    format!("hold {bytes}").into_bytes()
}

/// All of a plan of 16 ASPs in 16 ASes up and one of them active everywhere;
/// then it is so no more. If the hold is to be full, every AS gets 8 units, some
/// get more, and the units go out.
pub fn storm(rng: &mut Rng, plan: &Plan, full: bool, bytes: bool) -> Lines {
    let who = rng.below(16) as u32;
    let mut lines: Lines = (0..16).map(|p| bare(p, 3, 1)).collect();
    lines.push(bare(who, 4, 1));
    let down = !full && rng.one_in(4);
    let (class, kind) = if down {
        (3, 2)
    } else {
        rng.pick(&[(3, 1), (3, 1), (4, 2)])
    };
    let end = bare(who, class, kind);
    lines.extend(with_bytes(rng, end, bytes));
    if full {
        lines.extend(fill_up(rng, plan));
        lines.push(b"state".to_vec());
    }
    let back = comeback(rng, plan, full);
    lines.extend(with_bytes(rng, back, bytes));
    lines.push(b"state".to_vec());
    lines
}

/// An Active of some ASP: without identifiers; or with a link of each AS, and
/// one that there is not, by one whose lists may succeed in part.
fn comeback(rng: &mut Rng, plan: &Plan, full: bool) -> Vec<u8> {
    let asps = plan.asps.iter().zip(0..).filter(|(asp, _)| asp.2 == 0);
    let asps: Vec<u32> = asps.map(|(_, p)| p).collect();
    if !full || asps.is_empty() || rng.one_in(3) {
        return bare(rng.below(16) as u32, 4, 1);
    }
    let mut ids: Vec<u32> = plan.links[..16].iter().map(|link| link.id).collect();
    ids.push(plan.links[15].id.wrapping_sub(1_000_000));
    rng.shuffle(&mut ids);
    let ids = ids.iter().flat_map(|id| id.to_be_bytes()).collect();
    let message = Message::new(4, 1, vec![Piece::new(INTERFACE_ID, ids)]);
    line_of(Made::Message(rng.pick(&asps), message.encode()))
}

/// Eight units for each of 16 ASes, and some too many.
fn fill_up(rng: &mut Rng, plan: &Plan) -> Lines {
    let mut ids = Vec::new();
    for a in 0..16 {
        let own = plan.links.iter().filter(|link| link.owner == a);
        let own: Vec<u32> = own.map(|link| link.id).collect();
        let extra = rng.one_in(4) as usize;
        ids.extend((0..MAX_HELD + extra).map(|_| rng.pick(&own)));
    }
    rng.shuffle(&mut ids);
    let lines = ids.into_iter().map(|id| {
        let size = match rng.below(20) {
            0 => 273,
            _ => rng.range(1, 9) as usize,
        };
        line_of(Made::LinkMessage(sized_data(rng, id, size)))
    });
    lines.collect()
}

/// An event of many orders, before it some of them as bytes.
fn with_bytes(rng: &mut Rng, event: Vec<u8>, bytes: bool) -> Lines {
    let mut lines = Vec::new();
    if bytes {
        for place in [
            0, 1, 2, 8, 9, 24, 25, 128, 256, 257, 258, 383, 384, 385, 386,
        ] {
            lines.push(some_bytes(rng, place, &event));
        }
    }
    lines.push(event);
    lines
}

/// An order as bytes; the buffer is around what a Notify has of 0, 1 and 8
/// links.
fn some_bytes(rng: &mut Rng, place: u32, event: &[u8]) -> Vec<u8> {
    let room = rng.pick(&[0, 7, 8, 15, 16, 23, 24, 51, 52, 2048, 2048]);
    let mut line = format!("bytes {place} {room} ").into_bytes();
    line.extend_from_slice(event);
    line
}
