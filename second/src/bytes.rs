//! Orders as bytes.

use crate::events::*;
use crate::gateway::{place_in_hold, Gateway};
use crate::naming::{Links, Marks};
use crate::wire::*;
use crate::write::{put_header, put_param, Written, SHORT_BUFFER};

/// Most orders of an event.
pub const MAX_ORDERS: usize = LIST_WORDS / 4;
/// Bytes that the messages of every event go into.
pub const ROOM_BYTES: usize = MAX_ORDERS * MAX_MESSAGE;
/// Either there are not so many orders, or the order goes to the link side.
pub const NO_SUCH_ORDER: u32 = 104;

/// Takes the parameters of a message one after the other: first to count
/// their bytes, then to write them.
trait Sink {
    fn param(&mut self, tag: u16, value: &[u8]);
    /// One parameter of identifiers; none if there are none.
    fn identifiers(&mut self, ids: impl Iterator<Item = u32>);
}

struct Count(usize);

impl Sink for Count {
    fn param(&mut self, _: u16, value: &[u8]) {
        self.0 += 4 + padded(value.len());
    }

    fn identifiers(&mut self, ids: impl Iterator<Item = u32>) {
        match ids.count() {
            0 => {}
            count => self.0 += 4 + 4 * count,
        }
    }
}

struct Fill<'a> {
    out: &'a mut [u8],
    at: usize,
}

impl Sink for Fill<'_> {
    fn param(&mut self, tag: u16, value: &[u8]) {
        self.at += put_param(&mut self.out[self.at..], tag, value);
    }

    fn identifiers(&mut self, ids: impl Iterator<Item = u32>) {
        let start = self.at;
        let mut at = start + 4;
        for id in ids {
            self.out[at..at + 4].copy_from_slice(&id.to_be_bytes());
            at += 4;
        }
        if at > start + 4 {
            let head = (INTERFACE_ID as u32) << 16 | (at - start) as u32;
            self.out[start..start + 4].copy_from_slice(&head.to_be_bytes());
            self.at = at;
        }
    }
}

/// The identifiers of some links, ascending.
struct Identifiers<'a> {
    gateway: &'a Gateway,
    links: Links,
}

impl Iterator for Identifiers<'_> {
    type Item = u32;

    #[inline(always)]
    fn next(&mut self) -> Option<u32> {
        if self.links == 0 {
            return None;
        }
        let id = self.gateway.link_id[self.links.trailing_zeros() as usize];
        self.links &= self.links - 1;
        Some(id)
    }

    #[inline(always)]
    fn count(self) -> usize {
        self.links.count_ones() as usize
    }
}

/// Writes the message that ends here once more, if the buffer has room.
fn copy_message(out: &mut [u8], at: usize, length: usize) -> Option<usize> {
    let (before, after) = out.split_at_mut(at);
    let to = after.get_mut(..length)?;
    to.copy_from_slice(&before[at - length..]);
    Some(length)
}

fn links_of(gateway: &Gateway, server: u32) -> impl Iterator<Item = u32> + '_ {
    let owned = gateway.link_ids().iter().zip(&gateway.owner);
    owned
        .filter(move |(_, owner)| **owner as u32 == server)
        .map(|(id, _)| *id)
}

/// What writing several orders gives: 0, the number of orders and of bytes, or
/// the refusal and zeros.
#[repr(C)]
#[derive(Clone, Copy, PartialEq, Eq, Debug)]
pub struct Batch {
    pub code: u32,
    pub count: u32,
    pub length: u32,
}

impl Batch {
    fn refused(code: u32) -> Self {
        Batch {
            code,
            count: 0,
            length: 0,
        }
    }
}

/// An event, the hold that it is lent, its orders, and the links that it names.
struct Ordered<'a> {
    event: Event<'a>,
    hold: &'a [u8],
    orders: &'a [[u32; 4]],
    marks: &'a Marks,
}

impl Ordered<'_> {
    /// Whether an order sends a unit from the hold: an ASP's own message gives
    /// no other Data to an ASP.
    #[inline(always)]
    fn is_unit(&self, order: &[u32; 4]) -> bool {
        order[1] == DATA && order[0] != LINK_SIDE && matches!(self.event, Event::Message { .. })
    }

    /// Whose message an Ack of class 4 answers in part: an Error comes right
    /// behind it.
    #[inline(always)]
    fn answered_in_part(&self, order: &[u32; 4]) -> Option<usize> {
        let traffic = matches!(order[1], ACTIVE_ACK | INACTIVE_ACK);
        match self.orders.get(1) {
            Some([p, ERROR, ..]) if traffic => Some(*p as usize),
            _ => None,
        }
    }
}

/// What an event with all its messages hands back beside the state: 0, the
/// number of orders and of bytes, or the refusal and zeros.
#[derive(Clone, Copy, PartialEq, Eq, Debug)]
pub struct Handled {
    pub code: u32,
    pub count: u32,
    pub length: u32,
}

impl Gateway {
    /// An event on the state where it lies, with the messages of all its
    /// orders, one behind the other, and the length of each. A buffer that
    /// might be short for some event is refused.
    #[inline]
    pub fn handle(
        &mut self,
        event: Event,
        hold: &mut [u8],
        list: &mut [u32; LIST_WORDS],
        lens: &mut [u32; MAX_ORDERS],
        out: &mut [u8],
    ) -> Handled {
        let mut marks = Marks::new();
        let room = if out.len() < ROOM_BYTES {
            0
        } else {
            LIST_WORDS
        };
        let ran = self.begin(event, Lent::Whole(hold), &mut list[..room], &mut marks);
        let handled = |code, count, length| Handled {
            code,
            count,
            length,
        };
        match ran.code {
            0 if ran.count > 0 => {}
            SHORT_LIST => return handled(SHORT_BUFFER, 0, 0),
            code => return handled(code, 0, 0),
        }
        let ordered = Ordered {
            event,
            hold,
            orders: &list.as_chunks::<4>().0[..ran.count as usize],
            marks: &marks,
        };
        // The units that go out are in the state until they are written.
        let batch = self.put_messages(&ordered, 0, lens, out);
        self.finish(ran);
        handled(0, batch.count, batch.length)
    }

    /// The orders of an event that is not kept, in the list, and the links
    /// that it names.
    pub(crate) fn dry_run(
        &self,
        event: Event,
        hold: usize,
        list: &mut [u32],
        marks: &mut Marks,
    ) -> Ran {
        let mut after = *self;
        after.begin(event, Lent::Length(hold), list, marks)
    }

    /// Writes the order at a place, from 0, of an event on this state, lent
    /// this hold.
    pub fn order_bytes(&self, event: Event, hold: &[u8], place: u32, out: &mut [u8]) -> Written {
        let mut list = [0; LIST_WORDS];
        let mut marks = Marks::new();
        let Ran { code, count, .. } = self.dry_run(event, hold.len(), &mut list, &mut marks);
        if code != 0 {
            return Written::refused(code);
        }
        let ordered = Ordered {
            event,
            hold,
            orders: &list.as_chunks::<4>().0[..count as usize],
            marks: &marks,
        };
        let place = place as usize;
        match ordered.orders.get(place) {
            Some(order) if order[0] != LINK_SIDE => {}
            _ => return Written::refused(NO_SUCH_ORDER),
        }
        match self.put_message(&ordered, place, out) {
            Some(length) => Written {
                code: 0,
                length: length as u32,
            },
            None => Written::refused(SHORT_BUFFER),
        }
    }

    /// Writes the orders of an event from a place on, one behind the other, as
    /// many as the buffer and the list of lengths have room for. An order to
    /// the link side has length 0.
    pub fn orders_bytes(
        &self,
        event: Event,
        hold: &[u8],
        place: u32,
        lens: &mut [u32],
        out: &mut [u8],
    ) -> Batch {
        let mut list = [0; LIST_WORDS];
        let mut marks = Marks::new();
        let Ran { code, count, .. } = self.dry_run(event, hold.len(), &mut list, &mut marks);
        if code != 0 {
            return Batch::refused(code);
        }
        if place >= count {
            return Batch::refused(NO_SUCH_ORDER);
        }
        let ordered = Ordered {
            event,
            hold,
            orders: &list.as_chunks::<4>().0[..count as usize],
            marks: &marks,
        };
        self.put_messages(&ordered, place as usize, lens, out)
    }

    fn put_messages(
        &self,
        ordered: &Ordered,
        first: usize,
        lens: &mut [u32],
        out: &mut [u8],
    ) -> Batch {
        let (mut count, mut at) = (0, 0);
        // The last message and what it says: to several it is written once.
        let mut last = (0, &[][..]);
        for (place, len) in (first..ordered.orders.len()).zip(lens) {
            let order = &ordered.orders[place];
            let (to, says) = (order[0], &order[1..]);
            let length = if to == LINK_SIDE {
                Some(0)
            } else if says == last.1 {
                copy_message(out, at, last.0)
            } else {
                self.put_message(ordered, place, &mut out[at..])
            };
            let Some(length) = length else {
                break;
            };
            // Two units of one link say the same and differ in their bytes.
            let alone = to == LINK_SIDE || ordered.is_unit(order);
            last = if alone { (0, &[]) } else { (length, says) };
            *len = length as u32;
            at += length;
            count += 1;
        }
        if count == 0 {
            return Batch::refused(SHORT_BUFFER);
        }
        Batch {
            code: 0,
            count,
            length: at as u32,
        }
    }

    /// Writes the message of an order at the start of the buffer; gives its
    /// length, or nothing if the buffer is short.
    fn put_message(&self, ordered: &Ordered, place: usize, out: &mut [u8]) -> Option<usize> {
        let order = &ordered.orders[place];
        if ordered.is_unit(order) {
            return self.put_unit(ordered, place, out);
        }
        let event = ordered.event;
        let good = ordered.answered_in_part(order);
        let good = good.map(|p| self.good_links(p, ordered.marks));
        let mut count = Count(HEADER_LEN);
        self.put_order(event, order, good, &mut count);
        let total = count.0;
        let out = out.get_mut(..total)?;
        put_header(out, order[1] >> 8, order[1] & 0xff, total);
        let mut fill = Fill {
            out,
            at: HEADER_LEN,
        };
        self.put_order(event, order, good, &mut fill);
        Some(total)
    }

    /// The same of an order that sends a unit from the hold.
    fn put_unit(&self, ordered: &Ordered, place: usize, out: &mut [u8]) -> Option<usize> {
        let id = ordered.orders[place][2];
        let a = self.owner_of(self.find_link(id)?);
        // The units of an AS come one behind the other, and its Notifies after
        // them: what stands right before this one are the older ones.
        let before = ordered.orders[..place].iter().rev();
        let k = before.take_while(|order| order[1] == DATA).count();
        let unit = self.unit(a, k);
        let bytes = ordered.hold[place_in_hold(a, k)].get(..unit.len as usize - 4)?;
        let correlation = unit.correlation.map(u32::to_be_bytes);
        let total = HEADER_LEN + 8 + padded(unit.len as usize) + 8 * correlation.is_some() as usize;
        let out = out.get_mut(..total)?;
        put_header(out, MAUP, DATA & 0xff, total);
        let mut at = HEADER_LEN;
        at += put_param(&mut out[at..], INTERFACE_ID, &id.to_be_bytes());
        at += put_param(&mut out[at..], unit.tag, bytes);
        if let Some(correlation) = correlation {
            put_param(&mut out[at..], CORRELATION_ID, &correlation);
        }
        Some(total)
    }

    /// The parameters of an order; of an Ack to a part of a message, with the
    /// links that it names.
    fn put_order(&self, event: Event, order: &[u32; 4], good: Option<Links>, sink: &mut impl Sink) {
        let [_, code, subject, value] = *order;
        let received = match event {
            Event::Message { message, .. } => Params::new(message),
            // What the link side sent goes on as it came.
            Event::LinkMessage { message } => {
                return Params::new(message).for_each(|param| sink.param(param.tag, param.value))
            }
            _ => Params::new(&[]),
        };
        match code {
            ERROR => {
                sink.param(ERROR_CODE, &value.to_be_bytes());
                if value == INVALID_ID {
                    sink.param(INTERFACE_ID, &subject.to_be_bytes());
                }
            }
            NOTIFY => {
                sink.param(STATUS, &value.to_be_bytes());
                sink.identifiers(links_of(self, subject));
            }
            BEAT_ACK => {
                for param in received.filter(|param| param.tag == HEARTBEAT_DATA) {
                    sink.param(param.tag, param.value);
                }
            }
            ACTIVE_ACK | INACTIVE_ACK => self.put_ack(received, good, sink),
            ESTABLISH_CONFIRM | RELEASE_CONFIRM | RELEASE_INDICATION => {
                sink.param(INTERFACE_ID, &subject.to_be_bytes());
            }
            DATA_ACK => {
                sink.param(INTERFACE_ID, &subject.to_be_bytes());
                sink.param(CORRELATION_ID, &value.to_be_bytes());
            }
            // Up Ack and Down Ack have no parameters.
            _ => {}
        }
    }

    /// The parameters of an Ack of class 4: the mode, then what was named, or
    /// the good ones of it (Rule 8.11).
    fn put_ack(&self, received: Params, good: Option<Links>, sink: &mut impl Sink) {
        for param in received.filter(|param| param.tag == TRAFFIC_MODE) {
            sink.param(param.tag, param.value);
        }
        if let Some(links) = good {
            let gateway = self;
            return sink.identifiers(Identifiers { gateway, links });
        }
        let is_ids = |tag: u16| tag == INTERFACE_ID || tag == INTERFACE_RANGE;
        for param in received.filter(|param| is_ids(param.tag)) {
            sink.param(param.tag, param.value);
        }
    }
}
