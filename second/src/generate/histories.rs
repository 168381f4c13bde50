//! Lines of the kinds `event`, `bytes`, `ranges` and `partly`: long histories,
//! each over one plan.

use super::hex::put_bytes;
use super::message::{self, Message, Piece, MESSAGES};
use super::plans::{self, Plan};
use super::rng::Rng;
use super::{malformed, orders, partly, range_plans, ranges, reading, retrievals, scenes, Kind};
use crate::events::{bits, Event};
use crate::gateway::{Each, Gateway, HOLD_BYTES, IDLE, IN_SERVICE, STARTING, STOPPING};
use crate::script::{put_number, Session};
use crate::wire::*;
use std::collections::VecDeque;

/// Lines that are no good events.
const MALFORMED: [&str; 62] = [
    "msg",
    "msg 0",
    "msg 0 1544",
    "msg 0 1544 ",
    "msg 0 1544 0100030100000008 ",
    "msg 0 1544 0100030100000008 0",
    "msg 0 1544 010003010000000",
    "msg 0 1544 010003010000000G",
    "msg 4294967296 1544 0100030100000008",
    "msg 0 4294967296 0100030100000008",
    "msg -1 1544 0100030100000008",
    "msg 0  1544 0100030100000008",
    "msg 0 x 0100030100000008",
    "lost",
    "lost 0",
    "lost 0 ",
    "lost 0 1544 0",
    "lost 0 1544 ",
    "lost  0 1544",
    "recovery 0",
    "recovery 0 1544 -",
    "recovery 99999999999 1544",
    "up 0",
    "up 0 1544 1",
    "up - 1544",
    "down 0",
    "down 0 1544 -",
    "down 0 -",
    "linkmsg 1544",
    "linkmsg 0 1544 -",
    "linkmsg - -",
    "bytes 0 99",
    "bytes 0 99 state",
    "bytes 0 lost 0 1544",
    "bytes 0 99 lost 0",
    "bytes 0 99 reach lost 0 1544",
    "reach",
    "reach lost 0",
    "reach bytes 0 99 lost 0 1544",
    "reach reach lost 0 1544",
    "hold",
    "hold ",
    "hold -",
    "hold x",
    "hold 0 0",
    "hold  34944",
    "hold 34944 ",
    "hold 4294967296",
    "holds 0",
    "paint",
    "paint ",
    "paint -",
    "paint 256",
    "paint 4294967296",
    "paint 0 0",
    "held",
    "held 0",
    "held 0 ",
    "held 0 8",
    "held 16 0",
    "held 0 0 0",
    "held - 0",
];

pub struct History {
    /// What the script has done so far, so that events can be aimed.
    session: Session,
    /// Lines that come next.
    queue: VecDeque<Vec<u8>>,
    /// Lines left with this plan, but for those that are queued.
    left: u64,
    /// Whether there was no plan yet.
    first: bool,
    /// Whether the links of this plan are still to be brought into service.
    opening: bool,
    kind: Kind,
    results: Vec<u8>,
}

impl History {
    pub fn new(kind: Kind) -> Self {
        History {
            session: Session::new(),
            queue: VecDeque::new(),
            // A few events on the state of zeros come first.
            left: if kind == Kind::Bytes { 15 } else { 3 },
            first: true,
            opening: false,
            kind,
            results: Vec::new(),
        }
    }

    /// Whether most events are an Active or Inactive of identifiers.
    fn lists(&self) -> bool {
        matches!(self.kind, Kind::Ranges | Kind::Partly)
    }

    /// Whether all goes by orders as bytes.
    fn bytes(&self) -> bool {
        self.kind == Kind::Bytes
    }

    pub fn line(&mut self, rng: &mut Rng, line: &mut Vec<u8>) {
        if self.queue.is_empty() && self.opening {
            self.opening = false;
            let lines = scenes::services(rng, self.session.gateway());
            self.queue.extend(lines);
        }
        if let Some(queued) = self.queue.pop_front() {
            line.extend_from_slice(&queued);
        } else if self.left == 0 {
            self.start(rng, line);
        } else {
            self.left -= 1;
            self.any(rng, line);
        }
        self.results.clear();
        self.session.line(line, &mut self.results);
    }

    /// A new plan.
    fn start(&mut self, rng: &mut Rng, line: &mut Vec<u8>) {
        if self.session.hold().len() != HOLD_BYTES {
            self.queue.push_back(scenes::RIGHT_HOLD.to_vec());
        }
        if rng.one_in(20) {
            // Mostly refused, and then every event is.
            self.left = rng.range(1, 4);
            return plans::put(&plans::any(rng), line);
        }
        // The first plan has the most orders there can be.
        let plan = if self.lists() {
            self.list_plan(rng)
        } else if self.first || rng.one_in(8) {
            self.storm(rng)
        } else {
            let plan = any_plan(rng);
            let lines = scenes::opening(rng, plan.asps.len(), self.bytes());
            self.queue.extend(lines);
            plan
        };
        self.first = false;
        self.opening = !self.lists();
        self.left = self.length(rng, plan.links.is_empty());
        plans::put(&plan.encode(), line);
    }

    /// How long a plan stays. Of `bytes` an event has several lines, of `ranges`
    /// and `partly` one plan says little, and plans should vary; but now and then
    /// one stays for long.
    fn length(&self, rng: &mut Rng, no_links: bool) -> u64 {
        let most = match self.kind {
            Kind::Ranges | Kind::Partly => 100,
            Kind::Bytes => 250,
            _ => 400,
        };
        match rng.below(8) {
            _ if no_links => rng.range(most / 10, most / 4),
            0 => rng.range(2 * most, 6 * most),
            _ => rng.range(most / 5, most),
        }
    }

    /// A plan made for lists; most ASPs come up, and some of them active.
    fn list_plan(&mut self, rng: &mut Rng) -> Plan {
        let plan = match self.kind {
            Kind::Partly => partly::plan(rng),
            _ => range_plans::plan(rng),
        };
        let mut lines = scenes::opening(rng, plan.asps.len(), false);
        let active = rng.below(plan.asps.len() as u64 + 1) as usize;
        lines.truncate(plan.asps.len() + active);
        self.queue.extend(lines);
        plan
    }

    /// All up, one active everywhere, and then its Up again, or all that can be
    /// held and an Active.
    fn storm(&mut self, rng: &mut Rng) -> Plan {
        let links = if self.first {
            128
        } else {
            rng.pick(&[0, 16, 128, 128])
        };
        let mut plan = plans::valid(rng, 16, 16, links);
        for asp in &mut plan.asps {
            asp.1 = 0xffff;
        }
        let full = links > 0 && (self.first || rng.one_in(2));
        if full {
            for (i, link) in plan.links.iter_mut().enumerate() {
                link.owner = i as u16 % 16;
            }
        }
        let lines = scenes::storm(rng, &plan, full, self.bytes());
        self.queue.extend(lines);
        plan
    }

    /// Now and then a line that is no event; whether there is one.
    fn aside(&self, rng: &mut Rng, gateway: &Gateway, line: &mut Vec<u8>) -> bool {
        match rng.below(500) {
            0 => malformed::line(rng, line),
            1..=4 => line.extend_from_slice(rng.pick(&MALFORMED).as_bytes()),
            5 => reading::line(rng, line),
            6..=30 => line.extend_from_slice(b"state"),
            31..=35 if self.bytes() => {
                line.extend_from_slice(rng.pick(&orders::MALFORMED).as_bytes())
            }
            36..=43 => line.extend(scenes::look(rng, gateway)),
            44 | 45 => line.extend(scenes::paint(rng)),
            46..=48 => line.extend(scenes::other_hold(rng)),
            _ => return false,
        }
        true
    }

    fn any(&mut self, rng: &mut Rng, line: &mut Vec<u8>) {
        let gateway = *self.session.gateway();
        if self.aside(rng, &gateway, line) {
            return;
        }
        if self.session.hold().len() == HOLD_BYTES {
            self.scene(rng, &gateway);
        } else if rng.one_in(5) {
            return line.extend_from_slice(scenes::RIGHT_HOLD);
        }
        if let Some(first) = self.queue.pop_front() {
            return line.extend_from_slice(&first);
        }
        let event = match self.kind {
            Kind::Ranges | Kind::Partly => Made::for_lists(rng, &gateway, self.kind),
            Kind::Bytes => Made::for_bytes(rng, &gateway),
            _ => Made::any(rng, &gateway),
        };
        let list = match rng.below(60) {
            0 => 1543,
            1 => rng.pick(&[0, 4, 1032, 1540, 1542]),
            2 | 3 => rng.pick(&[1545, 2048, 2049, u32::MAX]),
            _ => 1544,
        };
        match rng.below(10) {
            0 => line.extend_from_slice(b"reach "),
            1 if self.lists() => line.extend_from_slice(b"reach "),
            1..=6 if self.bytes() => return self.all_bytes(rng, &gateway, &event, list, line),
            2 | 3 if self.kind == Kind::Partly => {
                return self.all_bytes(rng, &gateway, &event, list, line)
            }
            _ => {}
        }
        event.put(list, line);
        if rng.one_in(400) {
            malformed::damage(rng, line);
        }
    }

    /// Now and then several lines that belong together.
    fn scene(&mut self, rng: &mut Rng, gateway: &Gateway) {
        match rng.below(100) {
            1..=3 if self.kind == Kind::Ranges => {}
            2 | 3 if self.kind == Kind::Partly => {}
            0..=3 => self.queue.extend(scenes::pending(rng, gateway)),
            4..=30 if !self.lists() && scenes::many_idle(gateway) => {
                self.queue.extend(scenes::service(rng, gateway))
            }
            _ => {}
        }
    }

    /// The orders of an event as bytes, and mostly the event after them.
    fn all_bytes(
        &mut self,
        rng: &mut Rng,
        gateway: &Gateway,
        event: &Made,
        list: u32,
        line: &mut Vec<u8>,
    ) {
        let hold = self.session.hold();
        let found = orders::all(gateway, event.event(), hold.len());
        for place in orders::places(rng, &found) {
            let mut next = Vec::new();
            orders::put_command(rng, (gateway, hold), event.event(), place, &mut next);
            event.put(list, &mut next);
            if rng.one_in(400) {
                malformed::damage(rng, &mut next);
            }
            self.queue.push_back(next);
        }
        if !rng.one_in(5) {
            let mut next = Vec::new();
            event.put(list, &mut next);
            self.queue.push_back(next);
        }
        line.extend(self.queue.pop_front().into_iter().flatten());
    }
}

fn any_plan(rng: &mut Rng) -> Plan {
    let (asps, ases, links) = match rng.below(12) {
        0 => (16, 16, 128),
        1 => (1, 1, rng.below(3)),
        2 => (rng.range(1, 16), rng.range(1, 16), rng.below(129)),
        3 => (3, 3, 0),
        _ => (rng.range(2, 5), rng.range(1, 5), rng.range(2, 24)),
    };
    let mut plan = plans::valid(rng, asps as usize, ases as usize, links as usize);
    // Often all of one mode, so that each is seen at length.
    if rng.one_in(3) {
        let mode = rng.range(1, 3) as u32;
        plan.modes.fill(mode);
    }
    plan
}

/// An event that owns its message.
pub enum Made {
    Message(u32, Vec<u8>),
    Lost(u32),
    Recovery(u32),
    LinkUp(u32),
    LinkDown(u32),
    LinkMessage(Vec<u8>),
}

impl Made {
    fn any(rng: &mut Rng, gateway: &Gateway) -> Made {
        if rng.one_in(12) {
            if let Some(made) = comeback(rng, gateway) {
                return made;
            }
        }
        if rng.one_in(6) {
            if let Some(made) = retrievals::event(rng, gateway) {
                return made;
            }
        }
        match rng.below(100) {
            0 | 1 => Made::Lost(index(rng, gateway.asps)),
            2..=7 => Made::Recovery(waiting_server(rng, gateway)),
            8..=15 => Made::LinkUp(link_in(rng, gateway, STARTING)),
            16..=19 => {
                let state = rng.below(4) as u8;
                Made::LinkDown(link_in(rng, gateway, state))
            }
            20..=29 => Made::LinkMessage(link_message(rng, gateway)),
            _ => {
                let p = sender(rng, gateway);
                Made::Message(p, asp_message(rng, gateway, p))
            }
        }
    }

    /// The same with more of what is repeated or passed on, of damaged messages
    /// and of places beyond the plan, and with spare bytes and padding.
    fn for_bytes(rng: &mut Rng, gateway: &Gateway) -> Made {
        let p = sender(rng, gateway);
        let mut made = match rng.below(160) {
            0..=15 => Made::LinkMessage(link_message(rng, gateway)),
            16..=23 => Made::Message(p, aimed(rng, gateway, p, 3, 3).encode()),
            24..=29 => Made::Message(p, aimed(rng, gateway, p, 4, 2).encode()),
            30..=45 => Made::Message(p, message::any(rng)),
            46 => Made::Message(p, huge(rng, gateway)),
            47 => Made::Lost(gateway.asps as u32),
            48 => Made::Recovery(gateway.ases as u32),
            49 => Made::LinkUp(gateway.links as u32),
            50 => Made::LinkDown(gateway.links as u32),
            51 => Made::Message(gateway.asps as u32, message::any(rng)),
            52 => {
                let name = Piece::new(TEXT_INTERFACE_ID, rng.bytes(6));
                Made::Message(p, Message::new(4, 1, vec![name]).encode())
            }
            53..=56 => Made::Message(p, aimed(rng, gateway, p, 6, 4).encode()),
            57..=60 => Made::LinkDown(link_in(rng, gateway, STOPPING)),
            _ => Made::any(rng, gateway),
        };
        if let Made::Message(_, message) | Made::LinkMessage(message) = &mut made {
            if rng.one_in(3) {
                orders::litter(rng, message);
            }
        }
        made
    }

    /// Mostly an Active or Inactive of identifiers.
    fn for_lists(rng: &mut Rng, gateway: &Gateway, kind: Kind) -> Made {
        let made = match kind {
            _ if rng.one_in(6) => None,
            Kind::Partly => partly::event(rng, gateway),
            _ => ranges::event(rng, gateway),
        };
        made.unwrap_or_else(|| Made::any(rng, gateway))
    }

    fn event(&self) -> Event<'_> {
        match self {
            Made::Message(asp, message) => Event::Message { asp: *asp, message },
            Made::Lost(asp) => Event::Lost { asp: *asp },
            Made::Recovery(server) => Event::Recovery { server: *server },
            Made::LinkUp(link) => Event::LinkUp { link: *link },
            Made::LinkDown(link) => Event::LinkDown { link: *link },
            Made::LinkMessage(message) => Event::LinkMessage { message },
        }
    }

    /// The line of the event.
    pub fn put(&self, list: u32, line: &mut Vec<u8>) {
        let (name, index, message): (&[u8], _, _) = match self {
            Made::Message(asp, message) => (b"msg ", Some(asp), Some(message)),
            Made::Lost(asp) => (b"lost ", Some(asp), None),
            Made::Recovery(server) => (b"recovery ", Some(server), None),
            Made::LinkUp(link) => (b"up ", Some(link), None),
            Made::LinkDown(link) => (b"down ", Some(link), None),
            Made::LinkMessage(message) => (b"linkmsg ", None, Some(message)),
        };
        line.extend_from_slice(name);
        if let Some(index) = index {
            put_number(*index, line);
            line.push(b' ');
        }
        put_number(list, line);
        if let Some(message) = message {
            line.push(b' ');
            put_bytes(message, line);
        }
    }
}

/// An index below the count, seldom one beyond.
pub fn index(rng: &mut Rng, count: u8) -> u32 {
    if count == 0 || rng.one_in(80) {
        return rng.pick(&[count as u32, count as u32 + 1, 16, 128, 255, 256, u32::MAX]);
    }
    rng.below(count as u64) as u32
}

/// Mostly an ASP that serves a link: others have little to say.
fn sender(rng: &mut Rng, gateway: &Gateway) -> u32 {
    for _ in 0..3 {
        let p = index(rng, gateway.asps);
        let mut links = 0..gateway.links as usize;
        if links.any(|link| serves(gateway, p, link)) {
            return p;
        }
    }
    index(rng, gateway.asps)
}

/// What ends holding, or comes before it: a member of an AS that holds units
/// comes up, or active, or the recovery time is over.
fn comeback(rng: &mut Rng, gateway: &Gateway) -> Option<Made> {
    let holding: Vec<usize> = (0..16).filter(|a| gateway.held[*a] > 0).collect();
    if holding.is_empty() {
        return None;
    }
    let a = rng.pick(&holding);
    let members: Vec<usize> = Each(gateway.members(a)).collect();
    if members.is_empty() || rng.one_in(3) {
        return Some(Made::Recovery(a as u32));
    }
    let p = rng.pick(&members);
    let mut pieces = Vec::new();
    if rng.one_in(2) {
        let units = 0..gateway.held_of(a);
        let ids = units.flat_map(|k| gateway.unit(a, k).id.to_be_bytes());
        pieces.push(Piece::new(INTERFACE_ID, ids.collect()));
    }
    let message = match gateway.up[p] {
        0 => Message::new(3, 1, vec![]),
        _ => Message::new(4, 1, pieces),
    };
    Some(Made::Message(p as u32, message.encode()))
}

/// Mostly an AS that waits, if there is one.
fn waiting_server(rng: &mut Rng, gateway: &Gateway) -> u32 {
    let waiting = gateway.waiting.iter().enumerate();
    let waiting: Vec<u32> = waiting
        .filter(|(_, mark)| **mark != 0)
        .map(|(a, _)| a as u32)
        .collect();
    if waiting.is_empty() || rng.one_in(3) {
        return index(rng, gateway.ases);
    }
    rng.pick(&waiting)
}

/// Mostly a link in this state, if there is one.
fn link_in(rng: &mut Rng, gateway: &Gateway, state: u8) -> u32 {
    let states = gateway.state[..gateway.links as usize].iter().enumerate();
    let links: Vec<u32> = states
        .filter(|(_, other)| **other == state)
        .map(|(i, _)| i as u32)
        .collect();
    if links.is_empty() || rng.one_in(4) {
        return index(rng, gateway.links);
    }
    rng.pick(&links)
}

/// An identifier: of a link that passes the first test that any link passes,
/// of any link, or unknown.
fn identifier(rng: &mut Rng, gateway: &Gateway, tests: &[&dyn Fn(usize) -> bool]) -> u32 {
    let ids = gateway.link_ids();
    match rng.below(90) {
        0 => return rng.word(),
        1 if !ids.is_empty() => return rng.pick(ids).wrapping_add(1),
        2 if !ids.is_empty() => return rng.pick(ids).wrapping_sub(1),
        3 | 4 if !ids.is_empty() => return rng.pick(ids),
        _ => {}
    }
    for test in tests {
        let fit = (0..ids.len()).filter(|i| test(*i)).map(|i| ids[i]);
        let fit: Vec<u32> = fit.collect();
        if !fit.is_empty() {
            return rng.pick(&fit);
        }
    }
    match ids {
        [] => rng.below(5) as u32,
        ids => rng.pick(ids),
    }
}

/// Whether ASP p is in the AS that owns a link.
pub fn serves(gateway: &Gateway, p: u32, link: usize) -> bool {
    p < 16 && gateway.is_member(gateway.owner[link] as usize, p as usize)
}

/// A range of identifiers, mostly a run of links that p serves, with its ends
/// now and then one off.
fn range(rng: &mut Rng, gateway: &Gateway, p: u32) -> (u32, u32) {
    let ids = gateway.link_ids();
    if ids.is_empty() || rng.one_in(20) {
        let (a, b) = (rng.word(), rng.word());
        return (a.min(b), a.max(b));
    }
    if rng.one_in(40) {
        return rng.pick(&[
            (0, u32::MAX),
            (0, 0),
            (u32::MAX, u32::MAX),
            (ids[0], u32::MAX),
        ]);
    }
    let start = identifier(rng, gateway, &[&|link| serves(gateway, p, link)]);
    let mut stop = start;
    // How far the run goes.
    let mut place = gateway.first_link_from(start);
    while ids.get(place) == Some(&stop) && serves(gateway, p, place) {
        place += 1;
        if stop == u32::MAX || ids.get(place) != Some(&(stop + 1)) {
            break;
        }
        if !serves(gateway, p, place) && !rng.one_in(8) {
            break;
        }
        stop += 1;
        if rng.one_in(12) {
            break;
        }
    }
    match rng.below(12) {
        0 => (start, stop.saturating_add(1)),
        1 => (start.saturating_sub(1), stop),
        2 => (start, start),
        _ => (start, stop),
    }
}

/// Parameters of identifiers, lists and ranges mixed.
fn ids(rng: &mut Rng, gateway: &Gateway, p: u32) -> Vec<Piece> {
    let mut pieces = Vec::new();
    for _ in 0..rng.pick(&[1, 1, 1, 2, 3]) {
        let count = rng.pick(&[1, 1, 1, 2, 2, 5]);
        let mut value = Vec::new();
        let tag = rng.pick(&[INTERFACE_ID, INTERFACE_RANGE]);
        for _ in 0..count {
            if tag == INTERFACE_ID {
                let id = identifier(rng, gateway, &[&|link| serves(gateway, p, link)]);
                value.extend_from_slice(&id.to_be_bytes());
            } else {
                let (start, stop) = range(rng, gateway, p);
                value.extend_from_slice(&start.to_be_bytes());
                value.extend_from_slice(&stop.to_be_bytes());
            }
        }
        pieces.push(Piece::new(tag, value));
    }
    pieces
}

/// What an ASP sends: aimed at what it can do, often enough at what it can't.
fn asp_message(rng: &mut Rng, gateway: &Gateway, p: u32) -> Vec<u8> {
    match rng.below(100) {
        // Damaged or strange messages.
        0..=2 => return message::any(rng),
        3 => {
            return rng
                .pick::<&[u8]>(&[&[], &[1], &[1, 0], &[1, 0, 0], &[1, 0, 3, 1]])
                .to_vec()
        }
        // Errors, readable or not, of any length.
        4 => {
            let size = rng.pick(&[4, 5, 8, 16, 17]);
            let mut bytes = rng.bytes(size);
            if rng.one_in(2) {
                bytes = message::valid(rng, 0, 0).encode();
            }
            bytes[2] = 0;
            bytes[3] = rng.pick(&[0, 0, 0, 1]);
            return bytes;
        }
        5 if rng.one_in(20) => return huge(rng, gateway),
        // Any type, on any identifier.
        6..=8 => {
            let (class, kind) = rng.pick(&MESSAGES);
            return aimed(rng, gateway, p, class, kind).encode();
        }
        _ => {}
    }
    let (class, kind) = likely(rng, gateway, p);
    let mut message = aimed(rng, gateway, p, class, kind);
    if rng.one_in(25) {
        message::damage_pieces(rng, &mut message);
    }
    let mut bytes = message.encode();
    if rng.one_in(40) {
        message::damage_bytes(rng, &mut bytes);
    }
    bytes
}

/// A type that makes sense for the state of p, mostly.
fn likely(rng: &mut Rng, gateway: &Gateway, p: u32) -> (u8, u8) {
    let q = p as usize % 16;
    let mut links = 0..gateway.links as usize;
    // Whether there is a link that p can do something with.
    let busy = links.any(|link| gateway.is_active(gateway.owner[link] as usize, q));
    let roll = rng.below(100);
    if gateway.up[q] == 0 && roll < 75 {
        return (3, 1);
    }
    if !busy && gateway.ases_of(q) != 0 && roll < 85 {
        let active = (0..gateway.ases as usize).any(|a| gateway.is_active(a, q));
        return if active { (4, 2) } else { (4, 1) };
    }
    match roll {
        0..=1 => (3, 1),
        2..=3 => (3, 2),
        4..=8 => (3, 3),
        9 => (3, 6),
        10..=24 => (4, 1),
        25..=33 => (4, 2),
        34..=52 => (6, 2),
        53..=60 => (6, 4),
        61..=80 => (6, 1),
        81..=87 => (6, 7),
        88..=94 => (6, 10),
        _ => (6, 15),
    }
}

/// A good message of this type, about identifiers of the plan.
fn aimed(rng: &mut Rng, gateway: &Gateway, p: u32, class: u8, kind: u8) -> Message {
    let mut message = message::valid(rng, class, kind);
    let q = p as usize % 16;
    match (class, kind) {
        (3, 1) => {
            let right = gateway.asp_id[q];
            for piece in &mut message.pieces {
                if piece.tag == ASP_ID && !rng.one_in(8) {
                    piece.value = right.to_be_bytes().to_vec();
                }
            }
        }
        (4, _) => {
            let mut links = 0..gateway.links as usize;
            let serves_any = links.any(|link| serves(gateway, p, link));
            let none = rng.one_in(3) || (!serves_any && !rng.one_in(8));
            let is_id = |tag: u16| tag == INTERFACE_ID || tag == INTERFACE_RANGE;
            message.pieces.retain(|piece| !is_id(piece.tag));
            if !none {
                message.pieces.extend(ids(rng, gateway, p));
            }
            fit_mode(rng, gateway, q, none, &mut message);
            rng.shuffle(&mut message.pieces);
        }
        (6, _) => {
            // Data goes to links in service, mostly where p is active.
            let active = |link: usize| gateway.is_active(gateway.owner[link] as usize, q);
            let fits = |link: usize| match kind {
                1 => gateway.state[link] == IN_SERVICE && active(link),
                2 => gateway.state[link] == IDLE && active(link),
                _ => active(link),
            };
            let member = |link: usize| serves(gateway, p, link);
            let id = identifier(rng, gateway, &[&fits, &active, &member]);
            message.pieces[0].value = id.to_be_bytes().to_vec();
        }
        _ => {}
    }
    // Long texts would only make long lines here.
    for piece in &mut message.pieces {
        if matches!(
            piece.tag,
            INFO_STRING | DIAGNOSTIC | HEARTBEAT_DATA | DATA1 | DATA2
        ) {
            piece.value.truncate(24);
        }
    }
    message
}

/// Makes the mode, if one is given, mostly that of the ASes named.
fn fit_mode(rng: &mut Rng, gateway: &Gateway, q: usize, none: bool, message: &mut Message) {
    let mut mode = None;
    for piece in &message.pieces {
        if let (INTERFACE_ID | INTERFACE_RANGE, Some(link)) =
            (piece.tag, gateway.find_link(be32(&piece.value)))
        {
            mode = Some(gateway.mode[gateway.owner[link] as usize]);
        }
    }
    if none {
        mode = bits(gateway.ases_of(q)).next().map(|a| gateway.mode[a]);
    }
    let Some(mode) = mode else {
        return;
    };
    for piece in &mut message.pieces {
        if piece.tag == TRAFFIC_MODE && !rng.one_in(6) {
            piece.value = (mode as u32).to_be_bytes().to_vec();
        }
    }
}

/// Long messages: a full list of identifiers, a Beat of 2,048 bytes, one of
/// more.
fn huge(rng: &mut Rng, gateway: &Gateway) -> Vec<u8> {
    let ids = gateway.link_ids();
    match rng.below(3) {
        0 if !ids.is_empty() => {
            let value = (0..500)
                .flat_map(|i| ids[i % ids.len()].to_be_bytes())
                .collect();
            Message::new(4, 1, vec![Piece::new(INTERFACE_ID, value)]).encode()
        }
        1 => {
            let size = rng.range(2033, 2040) as usize;
            let data = Piece::new(HEARTBEAT_DATA, rng.bytes(size));
            Message::new(3, 3, vec![data]).encode()
        }
        _ => {
            let mut bytes = vec![0; rng.range(2047, 2060) as usize];
            bytes[2] = rng.pick(&[0, 0, 3]);
            bytes
        }
    }
}

/// What the link side sends.
fn link_message(rng: &mut Rng, gateway: &Gateway) -> Vec<u8> {
    if rng.one_in(25) {
        return message::any(rng);
    }
    if rng.one_in(3) {
        if let Some(id) = scenes::waiting_link(rng, gateway) {
            return scenes::data(rng, id);
        }
    }
    let kind = if rng.one_in(12) {
        rng.range(1, 15) as u8
    } else {
        rng.pick(&[1, 1, 8, 9, 11, 12, 13, 14])
    };
    let mut message = message::valid(rng, 6, kind);
    let has_actives = |link: usize| gateway.recipients(link) != 0;
    let id = identifier(rng, gateway, &[&has_actives]);
    message.pieces[0].value = id.to_be_bytes().to_vec();
    for piece in &mut message.pieces {
        if matches!(piece.tag, DATA1 | DATA2) && !rng.one_in(50) {
            piece.value.truncate(24);
        }
    }
    // What must not go on: spare and padding.
    if rng.one_in(3) {
        message.spare = rng.byte();
        message.padding = rng.byte();
    }
    if rng.one_in(25) {
        message::damage_pieces(rng, &mut message);
    }
    message.encode()
}
