//! The identifiers that an Active or Inactive names: the links that have them,
//! the owners of these, and the first one that is bad.
//!
//! A range costs a search for its first place, whatever its width, and one for
//! its end where not all of it is known. Identifiers ascend, so from one place to
//! another they rise at least as much as the place does: all of a range are known
//! exactly when its stop is found as many places behind its first place as it
//! lies above its start. The owners are looked up last, once for each link that a
//! range names.

use crate::gateway::{Gateway, MAX_ASES, MAX_LINKS};
use crate::wire::*;

/// Links as bits, bit i for the one at place i.
pub(crate) type Links = u128;

/// The links before each place.
static BEFORE: [Links; MAX_LINKS + 1] = {
    let mut before = [0; MAX_LINKS + 1];
    let mut place = 0;
    while place < MAX_LINKS {
        before[place + 1] = before[place] << 1 | 1;
        place += 1;
    }
    before
};

/// The links from one place up to another.
#[inline(always)]
fn between(first: usize, end: usize) -> Links {
    BEFORE[end] & !BEFORE[first]
}

/// What an ASP asks for by an Active or Inactive.
#[derive(Clone, Copy, PartialEq, Eq, Debug, Default)]
pub(crate) struct Named {
    /// The owners of the good identifiers, as bits.
    pub ases: u16,
    /// The first bad one: no link has it, or the ASP has no part in its AS.
    pub bad: Option<u32>,
}

/// What is done with each that a message names, a range or a single identifier.
/// Its links are those from the first place to before the end. Tells whether to go
/// on.
trait Visit {
    /// All of it is known.
    fn known(&mut self, first: usize, end: usize) -> bool;
    /// Not all of it is.
    fn holed(&mut self, start: u32, first: usize, end: usize) -> bool;
}

/// The first one of which it is seen at once that it is bad, and the links of
/// ranges before it.
#[derive(Default)]
struct First {
    bad: Option<u32>,
    before: Links,
}

impl First {
    #[inline(never)]
    fn note(&mut self, id: u32, before: Links) {
        (self.bad, self.before) = (Some(id), before);
    }
}

/// Takes down the links that a message names, for what wants them: an event wants
/// their owners only, its Ack as bytes the links.
pub(crate) trait Record {
    /// What is named alone.
    fn one(&mut self, place: usize);
    /// What ranges name.
    fn ranges(&mut self, links: Links);
}

impl Record for () {
    #[inline(always)]
    fn one(&mut self, _: usize) {}

    #[inline(always)]
    fn ranges(&mut self, _: Links) {}
}

/// The links named: a byte for each that is named alone, which costs a store each
/// time; and those of ranges.
pub(crate) struct Marks {
    ones: [u8; MAX_LINKS],
    links: Links,
}

impl Marks {
    pub(crate) fn new() -> Self {
        Marks {
            ones: [0; MAX_LINKS],
            links: 0,
        }
    }
}

impl Record for Marks {
    #[inline(always)]
    fn one(&mut self, place: usize) {
        self.ones[place] = 1;
    }

    #[inline(always)]
    fn ranges(&mut self, links: Links) {
        self.links = links;
    }
}

/// The owners of what is named alone, as bits, and the links of ranges. What is
/// bad is noted elsewhere: these two should stay in registers.
struct Owners<'a, R> {
    gateway: &'a Gateway,
    mine: u16,
    owners: u16,
    links: Links,
    first: &'a mut First,
    record: &'a mut R,
}

impl<R: Record> Visit for Owners<'_, R> {
    #[inline(always)]
    fn known(&mut self, first: usize, end: usize) -> bool {
        if end != first + 1 {
            self.links |= between(first, end);
            return true;
        }
        self.record.one(first);
        let owner = self.gateway.owner_bit(first);
        self.owners |= owner;
        if owner & self.mine == 0 && self.first.bad.is_none() {
            let id = self.gateway.link_id[first];
            self.first.note(id, self.links);
        }
        true
    }

    #[inline(always)]
    fn holed(&mut self, start: u32, first: usize, end: usize) -> bool {
        if self.first.bad.is_none() {
            let known = self.gateway.known_from(first, start);
            let before = self.links | between(first, first + known);
            self.first.note(start + known as u32, before);
        }
        self.links |= between(first, end);
        true
    }
}

/// The links of the first that has any among these.
struct FirstAmong {
    among: Links,
    found: Links,
}

impl Visit for FirstAmong {
    #[inline(always)]
    fn known(&mut self, first: usize, end: usize) -> bool {
        self.found = between(first, end) & self.among;
        self.found == 0
    }

    #[inline(always)]
    fn holed(&mut self, _: u32, first: usize, end: usize) -> bool {
        self.known(first, end)
    }
}

impl Gateway {
    /// All ASes of p: what it asks for where it names none.
    #[inline(always)]
    pub(crate) fn all_ases(&self, p: usize) -> Named {
        Named {
            ases: self.ases_of(p),
            bad: None,
        }
    }

    /// What p asks for by a message that names identifiers (Rule 7.8).
    pub(crate) fn named_ases(&self, p: usize, message: &[u8]) -> Named {
        self.named(p, message, &mut ())
    }

    /// The same, with the links taken down. A function of its own, so that the walk
    /// has all registers.
    #[inline(never)]
    pub(crate) fn named(&self, p: usize, message: &[u8], record: &mut impl Record) -> Named {
        let mine = self.ases_of(p);
        let mut first = First::default();
        let mut seen = Owners {
            gateway: self,
            mine,
            owners: 0,
            links: 0,
            first: &mut first,
            record,
        };
        self.walk(message, &mut seen);
        let (owners, links) = (seen.owners, seen.links);
        seen.record.ranges(links);
        let owners = owners | self.owners_of(links);
        let mut bad = first.bad;
        if owners & !mine != 0 {
            // Perhaps by a range, before the one that was seen.
            let before = bad.map_or(links, |_| first.before);
            bad = self.first_foreign(message, before, mine).or(bad);
        }
        Named {
            ases: owners & mine,
            bad,
        }
    }

    /// The first identifier named whose link is among these and is owned by an AS
    /// that is not.
    #[cold]
    fn first_foreign(&self, message: &[u8], links: Links, mine: u16) -> Option<u32> {
        let among = links & self.links_of(!mine);
        if among == 0 {
            return None;
        }
        let mut first = FirstAmong { among, found: 0 };
        self.walk(message, &mut first);
        Some(self.link_id[first.found.trailing_zeros() as usize % MAX_LINKS])
    }

    /// The links that p has named and has a part in.
    pub(crate) fn good_links(&self, p: usize, marks: &Marks) -> Links {
        let mine = self.ases_of(p) as u64;
        let (mut served, mut ones) = ([0; 2], [0; 2]);
        for (place, owner) in self.owner.iter().enumerate() {
            let serves = mine >> (*owner as usize % MAX_ASES) & 1;
            served[place / 64] |= serves << (place % 64);
            ones[place / 64] |= (serves & marks.ones[place] as u64) << (place % 64);
        }
        let whole = |[low, high]: [u64; 2]| (high as Links) << 64 | low as Links;
        whole(ones) | marks.links & whole(served)
    }

    /// Goes through what a message names, in received order.
    #[inline(always)]
    fn walk(&self, message: &[u8], visit: &mut impl Visit) {
        // Identifiers often come in order: the next place is looked at first.
        let mut next = 0;
        for param in Params::new(message) {
            let on = match param.tag {
                INTERFACE_ID => self.walk_ids(param.value, &mut next, visit),
                INTERFACE_RANGE => self.walk_ranges(param.value, &mut next, visit),
                _ => true,
            };
            if !on {
                return;
            }
        }
    }

    #[inline(always)]
    fn walk_ids(&self, value: &[u8], next: &mut usize, visit: &mut impl Visit) -> bool {
        let ids = self.link_ids();
        value.as_chunks::<4>().0.iter().all(|id| {
            let id = u32::from_be_bytes(*id);
            if ids.get(*next) != Some(&id) {
                let place = self.first_link_from(id);
                if ids.get(place) != Some(&id) {
                    return visit.holed(id, place, place);
                }
                *next = place;
            }
            *next += 1;
            visit.known(*next - 1, *next)
        })
    }

    #[inline(always)]
    fn walk_ranges(&self, value: &[u8], next: &mut usize, visit: &mut impl Visit) -> bool {
        let ids = self.link_ids();
        value.as_chunks::<8>().0.iter().all(|pair| {
            let pair = u64::from_be_bytes(*pair);
            let (start, stop) = ((pair >> 32) as u32, pair as u32);
            if ids.get(*next) != Some(&start) {
                *next = self.first_link_from(start);
            }
            let first = *next;
            let last = first + (stop - start) as usize;
            if ids.get(last) == Some(&stop) {
                *next = last + 1;
                visit.known(first, *next)
            } else {
                *next = self.end_place(first, start, stop);
                visit.holed(start, first, *next)
            }
        })
    }

    /// The place behind the last link of a range whose first place this is, and
    /// of which not all is known.
    #[inline(always)]
    fn end_place(&self, first: usize, start: u32, stop: u32) -> usize {
        let above = &self.link_ids()[first..];
        if above.last().is_none_or(|last| *last <= stop) {
            return first + above.len();
        }
        // Fewer links than the range has identifiers.
        let most = above.len().min((stop - start) as usize);
        first + above[..most].partition_point(|id| *id <= stop)
    }

    /// How many identifiers from `start` on are known without a gap, where the
    /// first link of them has this place.
    #[cold]
    fn known_from(&self, first: usize, start: u32) -> usize {
        let above = self.link_ids()[first..].iter().zip(0..);
        above.take_while(|(id, up)| **id - start == *up).count()
    }

    /// The owners of links, as bits.
    #[inline(always)]
    fn owners_of(&self, links: Links) -> u16 {
        let (mut owners, mut left) = (0, links);
        while left != 0 {
            let first = left.trailing_zeros() as usize;
            let end = first + (left >> first).trailing_ones() as usize;
            for owner in &self.owner[first..end] {
                owners |= 1 << (*owner as usize % MAX_ASES);
            }
            left &= !BEFORE[end];
        }
        owners
    }

    /// The links that one of these ASes owns.
    fn links_of(&self, ases: u16) -> Links {
        let mut halves = [0; 2];
        for (half, owners) in halves.iter_mut().zip(self.owner.as_chunks::<64>().0) {
            for (i, owner) in owners.iter().enumerate() {
                *half |= (ases as u64 >> (*owner as usize % MAX_ASES) & 1) << i;
            }
        }
        let [low, high] = halves.map(Links::from);
        (high << 64 | low) & BEFORE[self.link_ids().len()]
    }
}
