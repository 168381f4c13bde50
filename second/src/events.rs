//! The six kinds of event, on the state where it lies: each changes it, and
//! puts its orders into a lent list. Each is lent the hold too, which only a
//! message of the link side writes.

use crate::gateway::*;
use crate::naming::{Named, Record};
use crate::read::{data_of, read, Reading};
use crate::wire::*;

/// The lent list is too short.
pub const SHORT_LIST: u32 = 101;
/// An index beyond the plan, or a link-side message that is none or that its
/// link cannot have.
pub const BAD_EVENT: u32 = 102;
/// The state is not sound.
pub const NOT_SOUND: u32 = 105;
/// The lent hold has another length than the hold.
pub const WRONG_HOLD: u32 = 106;

/// Words of the list that an event wants: four for each of 386 orders.
pub const LIST_WORDS: usize = 1544;

/// Addressee of orders to the link side.
pub const LINK_SIDE: u32 = 255;

// Error codes of the events themselves.
pub const INVALID_ID: u32 = 2;
pub const UNEXPECTED_MESSAGE: u32 = 6;
pub const INVALID_ASP_ID: u32 = 15;

/// Class times 256 plus type.
const fn code(class: u32, kind: u32) -> u32 {
    class << 8 | kind
}

pub const ERROR: u32 = code(MGMT, 0);
pub const NOTIFY: u32 = code(MGMT, 1);
pub const UP: u32 = code(ASPSM, 1);
pub const DOWN: u32 = code(ASPSM, 2);
pub const BEAT: u32 = code(ASPSM, 3);
pub const UP_ACK: u32 = code(ASPSM, 4);
pub const DOWN_ACK: u32 = code(ASPSM, 5);
pub const BEAT_ACK: u32 = code(ASPSM, 6);
pub const ACTIVE: u32 = code(ASPTM, 1);
pub const INACTIVE: u32 = code(ASPTM, 2);
pub const ACTIVE_ACK: u32 = code(ASPTM, 3);
pub const INACTIVE_ACK: u32 = code(ASPTM, 4);
pub const DATA: u32 = code(MAUP, 1);
pub const ESTABLISH_REQUEST: u32 = code(MAUP, 2);
pub const ESTABLISH_CONFIRM: u32 = code(MAUP, 3);
pub const RELEASE_REQUEST: u32 = code(MAUP, 4);
pub const RELEASE_CONFIRM: u32 = code(MAUP, 5);
pub const RELEASE_INDICATION: u32 = code(MAUP, 6);
pub const STATE_REQUEST: u32 = code(MAUP, 7);
pub const RETRIEVAL_REQUEST: u32 = code(MAUP, 10);
pub const DATA_ACK: u32 = code(MAUP, 15);

/// Types of class 6 that the link side sends: 1, 8, 9, 11 to 14.
const LINK_SIDE_TYPES: u32 = 1 << 1 | 1 << 8 | 1 << 9 | 0xf << 11;

/// Notify: the state of the AS changed; another ASP took over.
const STATE_CHANGE: u32 = 1 << 16;
const ALTERNATE_ACTIVE: u32 = 2 << 16 | 2;

#[derive(Clone, Copy, PartialEq, Eq, Debug)]
pub enum Event<'a> {
    /// Message of an ASP.
    Message {
        asp: u32,
        message: &'a [u8],
    },
    /// The association of an ASP is lost.
    Lost {
        asp: u32,
    },
    /// The recovery time of an AS is over.
    Recovery {
        server: u32,
    },
    LinkUp {
        link: u32,
    },
    LinkDown {
        link: u32,
    },
    /// Message of the link side.
    LinkMessage {
        message: &'a [u8],
    },
}

/// What an event hands back beside the state.
#[derive(Clone, Copy, PartialEq, Eq, Debug)]
pub struct Done {
    /// 0, or the refusal.
    pub code: u32,
    /// The number of orders.
    pub count: u32,
}

/// What an event by value hands back.
#[repr(C)]
#[derive(Clone, Copy, PartialEq, Eq, Debug)]
pub struct Next {
    /// 0, or the refusal.
    pub code: u32,
    /// The number of orders.
    pub count: u32,
    pub gateway: Gateway,
}

/// What an event did so far: the units of the ASes in `sent` are ordered to
/// go out, and still in the state. Who writes them as bytes does it now.
#[derive(Clone, Copy)]
pub(crate) struct Ran {
    pub code: u32,
    pub count: u32,
    pub sent: u16,
}

/// The hold as an event gets it: whole, or only how long it is, for an event
/// that is not kept.
pub(crate) enum Lent<'a> {
    Whole(&'a mut [u8]),
    Length(usize),
}

impl Lent<'_> {
    #[inline(always)]
    fn len(&self) -> usize {
        match self {
            Lent::Whole(hold) => hold.len(),
            Lent::Length(length) => *length,
        }
    }
}

/// The list being filled.
struct Orders<'a> {
    list: &'a mut [[u32; 4]],
    count: usize,
    /// The ASes whose units are among the orders.
    sent: u16,
}

impl Orders<'_> {
    #[inline(always)]
    fn push(&mut self, addressee: u32, code: u32, subject: u32, value: u32) {
        self.list[self.count] = [addressee, code, subject, value];
        self.count += 1;
    }

    #[inline(always)]
    fn error(&mut self, p: usize, code: u32) {
        self.push(p as u32, ERROR, 0, code);
    }

    /// The same order to several.
    #[inline(always)]
    fn push_each(&mut self, addressees: Asps, code: u32, subject: u32, value: u32) {
        for p in Each(addressees) {
            self.push(p as u32, code, subject, value);
        }
    }
}

impl Gateway {
    /// The event, whichever it is: the state becomes the next one, or stays
    /// where it is refused.
    #[inline]
    pub fn run(&mut self, event: Event, hold: &mut [u8], list: &mut [u32]) -> Done {
        let ran = self.begin(event, Lent::Whole(hold), list, &mut ());
        self.finish(ran);
        Done {
            code: ran.code,
            count: ran.count,
        }
    }

    /// The same by value.
    pub fn event(mut self, event: Event, hold: &mut [u8], list: &mut [u32]) -> Next {
        let Done { code, count } = self.run(event, hold, list);
        Next {
            code,
            count,
            gateway: self,
        }
    }

    /// Message of ASP `asp`.
    pub fn message(self, asp: u32, message: &[u8], hold: &mut [u8], list: &mut [u32]) -> Next {
        self.event(Event::Message { asp, message }, hold, list)
    }

    /// The association of ASP `asp` is lost.
    pub fn lost(self, asp: u32, hold: &mut [u8], list: &mut [u32]) -> Next {
        self.event(Event::Lost { asp }, hold, list)
    }

    /// The recovery time of AS `server` is over.
    pub fn recovery(self, server: u32, hold: &mut [u8], list: &mut [u32]) -> Next {
        self.event(Event::Recovery { server }, hold, list)
    }

    /// The link at place `link` has come up.
    pub fn link_up(self, link: u32, hold: &mut [u8], list: &mut [u32]) -> Next {
        self.event(Event::LinkUp { link }, hold, list)
    }

    /// The link at place `link` has gone down.
    pub fn link_down(self, link: u32, hold: &mut [u8], list: &mut [u32]) -> Next {
        self.event(Event::LinkDown { link }, hold, list)
    }

    /// Message of the link side.
    pub fn link_message(self, message: &[u8], hold: &mut [u8], list: &mut [u32]) -> Next {
        self.event(Event::LinkMessage { message }, hold, list)
    }

    /// All of an event but for the units that it sends, which `finish` drops;
    /// and the links that it names.
    #[inline(always)]
    pub(crate) fn begin(
        &mut self,
        event: Event,
        hold: Lent,
        list: &mut [u32],
        record: &mut impl Record,
    ) -> Ran {
        let bytes = hold.len();
        match event {
            Event::Message { asp, message } => {
                let code = self.refusal(asp, self.asps);
                perform(code, bytes, list, |orders| {
                    self.on_message(asp as usize, message, orders, record)
                })
            }
            Event::Lost { asp } => {
                let code = self.refusal(asp, self.asps);
                perform(code, bytes, list, |orders| {
                    self.take_down(asp as usize, orders)
                })
            }
            Event::Recovery { server } => {
                let code = self.refusal(server, self.ases);
                perform(code, bytes, list, |orders| {
                    self.end_waiting(server as usize, orders)
                })
            }
            Event::LinkUp { link } => {
                let code = self.refusal(link, self.links);
                perform(code, bytes, list, |orders| {
                    self.on_link_up(link as usize, orders)
                })
            }
            Event::LinkDown { link } => {
                let code = self.refusal(link, self.links);
                perform(code, bytes, list, |orders| {
                    self.on_link_down(link as usize, orders)
                })
            }
            Event::LinkMessage { message } => {
                let (code, link, reading) = self.link_message_asked(message);
                perform(code, bytes, list, |orders| {
                    self.on_link_message(link, &reading, message, hold, orders)
                })
            }
        }
    }

    /// The units that were ordered to go out are held no longer.
    #[inline(always)]
    pub(crate) fn finish(&mut self, ran: Ran) {
        bits(ran.sent).for_each(|a| self.drop_units(a));
    }

    #[inline(always)]
    fn on_link_message(
        &mut self,
        link: usize,
        reading: &Reading,
        message: &[u8],
        hold: Lent,
        orders: &mut Orders,
    ) {
        let a = self.owner_of(link);
        // An AS that waits is pending: nobody is active there.
        if reading.kind == DATA & 0xff && self.waiting[a] != 0 {
            if let Lent::Whole(hold) = hold {
                self.take_in(a, reading, message, hold);
            }
        } else {
            self.pass_on(link, reading, orders);
        }
    }

    /// Whether an event is refused for the state or for its index, which must
    /// be below the count.
    #[inline(always)]
    fn refusal(&self, index: u32, count: u8) -> u32 {
        if !self.is_sound() {
            NOT_SOUND
        } else if index >= count as u32 {
            BAD_EVENT
        } else {
            0
        }
    }

    /// The place of the link that a link-side message is about; none for one
    /// that the link side does not send, or that link cannot have.
    #[inline]
    pub(crate) fn link_message_place(&self, message: &[u8]) -> Option<(usize, Reading)> {
        let reading = read(message);
        let fits = reading.code == 0
            && reading.class == MAUP
            && LINK_SIDE_TYPES >> (reading.kind & 15) & 1 != 0;
        if !fits {
            return None;
        }
        let link = self.find_link(reading.id)?;
        self.can_have(link, reading.sequence)
            .then_some((link, reading))
    }

    /// Whether a link-side message is refused, else its link and what it says.
    #[inline(always)]
    fn link_message_asked(&self, message: &[u8]) -> (u32, usize, Reading) {
        if !self.is_sound() {
            return (NOT_SOUND, 0, Reading::default());
        }
        match self.link_message_place(message) {
            Some((link, reading)) => (0, link, reading),
            None => (BAD_EVENT, 0, Reading::default()),
        }
    }

    /// What the link side sent, to the recipients.
    #[inline(always)]
    fn pass_on(&self, link: usize, reading: &Reading, orders: &mut Orders) {
        let kind = code(MAUP, reading.kind);
        orders.push_each(self.recipients(link), kind, reading.id, 0);
    }

    /// Data for an AS that is pending: held, if there is a place left. Behind
    /// the unit the hold keeps what it had.
    #[inline(always)]
    fn take_in(&mut self, a: usize, reading: &Reading, message: &[u8], hold: &mut [u8]) {
        let k = self.held_of(a);
        let Some(data) = data_of(message).filter(|_| k < MAX_HELD) else {
            return;
        };
        hold[place_in_hold(a, k)][..data.value.len()].copy_from_slice(data.value);
        let unit = Unit {
            tag: data.tag,
            len: data.len,
            id: reading.id,
            correlation: (reading.has_correlation != 0).then_some(reading.correlation),
        };
        self.add_unit(a, unit);
    }

    fn on_message(
        &mut self,
        p: usize,
        message: &[u8],
        orders: &mut Orders,
        record: &mut impl Record,
    ) {
        if is_error(message) {
            return;
        }
        let reading = read(message);
        if reading.code != 0 {
            return orders.error(p, reading.code);
        }
        match code(reading.class, reading.kind) {
            UP => self.on_up(p, &reading, orders),
            DOWN => {
                orders.push(p as u32, DOWN_ACK, 0, 0);
                self.take_down(p, orders);
            }
            BEAT => orders.push(p as u32, BEAT_ACK, 0, 0),
            BEAT_ACK => {}
            ACTIVE | INACTIVE => {
                // What is asked for is not asked of one that is down.
                let named = match self.up[p] {
                    0 => Named::default(),
                    _ if reading.ids != 0 => self.named(p, message, record),
                    _ => self.all_ases(p),
                };
                self.on_traffic(p, named, &reading, orders)
            }
            DATA | ESTABLISH_REQUEST | RELEASE_REQUEST | STATE_REQUEST | RETRIEVAL_REQUEST
            | DATA_ACK => self.on_link_request(p, &reading, orders),
            _ => orders.error(p, UNEXPECTED_MESSAGE),
        }
    }

    fn on_up(&mut self, p: usize, reading: &Reading, orders: &mut Orders) {
        if reading.has_asp_id != 0 && reading.asp_id != self.asp_id[p] {
            return orders.error(p, INVALID_ASP_ID);
        }
        orders.push(p as u32, UP_ACK, 0, 0);
        let ases = self.ases as usize;
        if (0..ases).any(|a| self.is_active(a, p)) {
            orders.error(p, UNEXPECTED_MESSAGE);
        }
        self.settle_all(p, 1, orders);
    }

    /// Down, or the association lost.
    fn take_down(&mut self, p: usize, orders: &mut Orders) {
        self.settle_all(p, 0, orders);
    }

    /// p becomes up or down, inactive everywhere, and its ASes change.
    #[inline]
    fn settle_all(&mut self, p: usize, up: u8, orders: &mut Orders) {
        let up_before = self.up_set();
        self.up[p] = up;
        let up_after = self.up_set();
        for a in 0..self.ases as usize {
            let members = self.members(a);
            if members & one(p) == 0 {
                continue;
            }
            let actives = self.actives(a);
            if actives & one(p) != 0 {
                self.set_actives(a, actives & !one(p));
                // Losing the last one: waiting, which is pending.
                if actives == one(p) {
                    self.waiting[a] = 1;
                    self.notify_state(a, members & up_after, AsState::Pending, orders);
                }
            } else if actives == 0 && self.waiting[a] == 0 && members & up_before == 0 {
                // It was down; with p up it is inactive.
                self.notify_state(a, members & up_after, AsState::Inactive, orders);
            }
        }
    }

    #[inline(always)]
    fn notify_state(&self, a: usize, to: Asps, state: AsState, orders: &mut Orders) {
        orders.push_each(to, NOTIFY, a as u32, STATE_CHANGE | state as u32);
    }

    /// Active and Inactive; one that asks for nothing is not expected.
    fn on_traffic(&mut self, p: usize, named: Named, reading: &Reading, orders: &mut Orders) {
        let Named { ases, bad } = named;
        let refuse = |orders: &mut Orders, id| orders.push(p as u32, ERROR, id, INVALID_ID);
        match bad {
            Some(id) if ases == 0 || self.wholelists[p] != 0 => return refuse(orders, id),
            None if ases == 0 => return orders.error(p, UNEXPECTED_MESSAGE),
            _ => {}
        }
        let active = reading.kind == ACTIVE & 0xff;
        if active && reading.mode != 0 {
            let differs = |a: usize| self.mode[a] as u32 != reading.mode;
            if bits(ases).any(differs) {
                return orders.error(p, BAD_MODE);
            }
        }
        let ack = if active { ACTIVE_ACK } else { INACTIVE_ACK };
        orders.push(p as u32, ack, 0, 0);
        if let Some(id) = bad {
            refuse(orders, id);
        }
        for a in bits(ases) {
            if active {
                self.activate(a, p, orders);
            } else {
                self.deactivate(a, p, orders);
            }
        }
    }

    fn activate(&mut self, a: usize, p: usize, orders: &mut Orders) {
        let actives = self.actives(a);
        if actives & one(p) != 0 {
            return;
        }
        if actives == 0 {
            self.waiting[a] = 0;
            self.set_actives(a, one(p));
            self.send_units(a, p, orders);
            let to = self.members(a) & self.up_set();
            self.notify_state(a, to, AsState::Active, orders);
        } else if self.mode[a] == OVERRIDE {
            self.set_actives(a, one(p));
            orders.push_each(actives, NOTIFY, a as u32, ALTERNATE_ACTIVE);
        } else {
            self.set_actives(a, actives | one(p));
        }
    }

    /// What AS a holds goes to p, the oldest first: nobody else is active.
    #[inline(always)]
    fn send_units(&mut self, a: usize, p: usize, orders: &mut Orders) {
        let held = self.held_of(a);
        if held == 0 {
            return;
        }
        for k in 0..held {
            orders.push(p as u32, DATA, self.held_id[MAX_HELD * a + k], 0);
        }
        orders.sent |= 1 << a;
    }

    fn deactivate(&mut self, a: usize, p: usize, orders: &mut Orders) {
        let actives = self.actives(a);
        if actives & one(p) == 0 {
            return;
        }
        self.set_actives(a, actives & !one(p));
        if actives == one(p) {
            self.waiting[a] = 1;
            let to = self.members(a) & self.up_set();
            self.notify_state(a, to, AsState::Pending, orders);
        }
    }

    /// The ASes of p, as bits.
    #[inline]
    pub(crate) fn ases_of(&self, p: usize) -> u16 {
        let mut ases = 0;
        for (a, members) in self.member.as_chunks::<16>().0.iter().enumerate() {
            ases |= (members[p] as u16) << a;
        }
        ases
    }

    /// Messages of class 6 that an ASP sends.
    fn on_link_request(&mut self, p: usize, reading: &Reading, orders: &mut Orders) {
        let id = reading.id;
        if self.up[p] == 0 {
            return orders.error(p, UNEXPECTED_MESSAGE);
        }
        let known = self.find_link(id);
        let Some(link) = known.filter(|link| self.is_member(self.owner_of(*link), p)) else {
            return orders.push(p as u32, ERROR, id, INVALID_ID);
        };
        if !self.is_active(self.owner_of(link), p) {
            return orders.error(p, UNEXPECTED_MESSAGE);
        }
        let received = code(MAUP, reading.kind);
        let state = self.state[link];
        match received {
            ESTABLISH_REQUEST => match state {
                IN_SERVICE => orders.push(p as u32, ESTABLISH_CONFIRM, id, 0),
                IDLE | STOPPING => {
                    self.state[link] = STARTING;
                    orders.push(LINK_SIDE, received, id, 0);
                }
                _ => {}
            },
            RELEASE_REQUEST => match state {
                IDLE => orders.push(p as u32, RELEASE_CONFIRM, id, 0),
                STARTING | IN_SERVICE => {
                    self.state[link] = STOPPING;
                    orders.push(LINK_SIDE, received, id, 0);
                }
                _ => {}
            },
            DATA => {
                if state != IN_SERVICE {
                    return orders.error(p, UNEXPECTED_MESSAGE);
                }
                orders.push(LINK_SIDE, received, id, 0);
                if reading.has_correlation != 0 {
                    orders.push(p as u32, DATA_ACK, id, reading.correlation);
                }
            }
            STATE_REQUEST => orders.push(LINK_SIDE, received, id, reading.state),
            RETRIEVAL_REQUEST => {
                if !self.can_have(link, reading.sequence) {
                    return orders.error(p, BAD_VALUE);
                }
                orders.push(LINK_SIDE, received, id, reading.action);
            }
            // Data Ack: nothing.
            _ => {}
        }
    }

    #[inline(always)]
    pub(crate) fn owner_of(&self, link: usize) -> usize {
        self.owner[link] as usize % MAX_ASES
    }

    /// The AS that owns a link, as a bit.
    #[inline(always)]
    pub(crate) fn owner_bit(&self, link: usize) -> u16 {
        1 << self.owner_of(link)
    }

    fn end_waiting(&mut self, a: usize, orders: &mut Orders) {
        if self.waiting[a] == 0 {
            return;
        }
        self.waiting[a] = 0;
        // Nobody came for them.
        self.drop_units(a);
        // Nobody up: down, of which nobody is told.
        let to = self.members(a) & self.up_set();
        self.notify_state(a, to, AsState::Inactive, orders);
    }

    fn on_link_up(&mut self, link: usize, orders: &mut Orders) {
        if self.state[link] != STARTING {
            return;
        }
        self.state[link] = IN_SERVICE;
        let to = self.recipients(link);
        orders.push_each(to, ESTABLISH_CONFIRM, self.link_id[link], 0);
    }

    fn on_link_down(&mut self, link: usize, orders: &mut Orders) {
        let kind = match self.state[link] {
            IDLE => return,
            STOPPING => RELEASE_CONFIRM,
            _ => RELEASE_INDICATION,
        };
        self.state[link] = IDLE;
        let to = self.recipients(link);
        orders.push_each(to, kind, self.link_id[link], 0);
    }
}

/// Runs an event that is not refused so far, if the hold has its length and
/// the list has room.
#[inline(always)]
fn perform(code: u32, hold: usize, list: &mut [u32], run: impl FnOnce(&mut Orders)) -> Ran {
    let refused = |code| Ran {
        code,
        count: 0,
        sent: 0,
    };
    if code != 0 {
        return refused(code);
    }
    if hold != HOLD_BYTES {
        return refused(WRONG_HOLD);
    }
    let Some(room) = list.first_chunk_mut::<LIST_WORDS>() else {
        return refused(SHORT_LIST);
    };
    let mut orders = Orders {
        list: room.as_chunks_mut::<4>().0,
        count: 0,
        sent: 0,
    };
    run(&mut orders);
    Ran {
        code: 0,
        count: orders.count as u32,
        sent: orders.sent,
    }
}

/// An Error is never answered, readable or not.
#[inline(always)]
pub(crate) fn is_error(message: &[u8]) -> bool {
    message.len() >= 4 && message[2] == 0 && message[3] == 0
}

/// The bits of a set of ASes, ascending.
#[inline(always)]
pub fn bits(mut set: u16) -> impl Iterator<Item = usize> {
    std::iter::from_fn(move || {
        if set == 0 {
            return None;
        }
        let a = set.trailing_zeros() as usize;
        set &= set - 1;
        Some(a)
    })
}
