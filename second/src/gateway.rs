//! The state: what the gateway knows of ASPs, ASes, links and the units that
//! wait with an AS.

use crate::wire::{DATA2, MAX_PLAIN_SEQUENCE};

/// Most ASPs and most ASes.
pub const MAX_ASPS: usize = 16;
pub const MAX_ASES: usize = 16;
pub const MAX_LINKS: usize = 128;

/// Units that one AS holds at most.
pub const MAX_HELD: usize = 8;
/// Bytes of the longest unit, which are those of a place in the hold.
pub const PLACE_BYTES: usize = 273;
/// Bytes of the hold: for each AS its places, one behind the other.
pub const HOLD_BYTES: usize = MAX_ASES * MAX_HELD * PLACE_BYTES;

// Traffic modes of an AS.
pub const OVERRIDE: u8 = 1;
pub const LOAD_SHARE: u8 = 2;
pub const BROADCAST: u8 = 3;

// States of a link.
pub const IDLE: u8 = 0;
pub const STARTING: u8 = 1;
pub const IN_SERVICE: u8 = 2;
pub const STOPPING: u8 = 3;

// Kinds of a link.
pub const PLAIN: u8 = 0;
pub const HIGH_SPEED: u8 = 1;

/// The state with its plan. The place of a pair is 16 times the AS plus the
/// ASP, so that the ASPs of one AS are 16 bytes in a row. The place of a unit
/// is 8 times the AS plus its number among those held, the oldest 0; its
/// bytes are in the hold, which is no part of this.
#[repr(C)]
#[derive(Clone, Copy, PartialEq, Eq, Debug)]
pub struct Gateway {
    pub asps: u8,
    pub ases: u8,
    pub links: u8,
    /// 0 in a sound state (Rule 5.20).
    pub spare: u8,
    pub asp_id: [u32; 16],
    /// 1 for an ASP that is up.
    pub up: [u8; 16],
    /// 1 for an ASP in an AS.
    pub member: [u8; 256],
    /// 1 for an ASP active in an AS.
    pub active: [u8; 256],
    /// Traffic mode of each AS.
    pub mode: [u8; 16],
    /// 1 for an AS that waits for an active ASP.
    pub waiting: [u8; 16],
    pub link_id: [u32; 128],
    /// The AS that owns each link.
    pub owner: [u8; 128],
    pub state: [u8; 128],
    /// 1 for a link of 12-bit sequence numbers.
    pub highspeed: [u8; 128],
    /// 1 for an ASP whose lists of identifiers are taken whole or not at all.
    pub wholelists: [u8; 16],
    /// How many units each AS holds.
    pub held: [u8; 16],
    /// Tag and length field of each unit's data parameter.
    pub held_tag: [u16; 128],
    pub held_len: [u16; 128],
    /// 1 for a unit that came with a correlation id.
    pub held_marked: [u16; 128],
    /// The identifier of the link that a unit came from.
    pub held_id: [u32; 128],
    pub held_correlation: [u32; 128],
}

/// What the state keeps of a unit.
#[derive(Clone, Copy, PartialEq, Eq, Debug)]
pub struct Unit {
    pub tag: u16,
    /// The length field: 4 more than the unit has bytes.
    pub len: u16,
    pub id: u32,
    pub correlation: Option<u32>,
}

/// The bytes of a place of the hold: unit k of AS a.
#[inline(always)]
pub const fn place_in_hold(a: usize, k: usize) -> std::ops::Range<usize> {
    let start = (MAX_HELD * a + k) * PLACE_BYTES;
    start..start + PLACE_BYTES
}

/// State of an AS, numbered as Notify numbers it.
#[derive(Clone, Copy, PartialEq, Eq, Debug)]
#[repr(u32)]
pub enum AsState {
    Down = 1,
    Inactive = 2,
    Active = 3,
    Pending = 4,
}

/// A set of ASPs: 16 bytes, of which byte p is 1 for ASP p.
pub type Asps = u128;

/// The set of all 16.
const ALL: Asps = 0x0101_0101_0101_0101_0101_0101_0101_0101;

/// The set of ASP p alone.
#[inline(always)]
pub const fn one(p: usize) -> Asps {
    1 << (8 * p)
}

/// The members of a set, ascending.
#[derive(Clone, Copy)]
pub struct Each(pub Asps);

impl Iterator for Each {
    type Item = usize;

    #[inline(always)]
    fn next(&mut self) -> Option<usize> {
        if self.0 == 0 {
            return None;
        }
        let p = self.0.trailing_zeros() as usize / 8;
        self.0 &= self.0 - 1;
        Some(p)
    }
}

#[inline(always)]
fn row(table: &[u8; 256], a: usize) -> Asps {
    let (rows, _) = table.as_chunks::<16>();
    Asps::from_le_bytes(rows[a])
}

impl Gateway {
    /// The state of zeros, which no plan gives.
    pub const ZERO: Gateway = Gateway {
        asps: 0,
        ases: 0,
        links: 0,
        spare: 0,
        asp_id: [0; 16],
        up: [0; 16],
        member: [0; 256],
        active: [0; 256],
        mode: [0; 16],
        waiting: [0; 16],
        link_id: [0; 128],
        owner: [0; 128],
        state: [0; 128],
        highspeed: [PLAIN; 128],
        wholelists: [0; 16],
        held: [0; 16],
        held_tag: [0; 128],
        held_len: [0; 128],
        held_marked: [0; 128],
        held_id: [0; 128],
        held_correlation: [0; 128],
    };

    /// The ASPs that are up.
    #[inline(always)]
    pub fn up_set(&self) -> Asps {
        Asps::from_le_bytes(self.up)
    }

    #[inline(always)]
    pub fn members(&self, a: usize) -> Asps {
        row(&self.member, a)
    }

    #[inline(always)]
    pub fn actives(&self, a: usize) -> Asps {
        row(&self.active, a)
    }

    #[inline(always)]
    pub fn set_actives(&mut self, a: usize, asps: Asps) {
        let (rows, _) = self.active.as_chunks_mut::<16>();
        rows[a] = asps.to_le_bytes();
    }

    #[inline(always)]
    pub fn is_member(&self, a: usize, p: usize) -> bool {
        self.member[16 * a + p] != 0
    }

    #[inline(always)]
    pub fn is_active(&self, a: usize, p: usize) -> bool {
        self.active[16 * a + p] != 0
    }

    #[inline(always)]
    pub fn as_state(&self, a: usize) -> AsState {
        if self.actives(a) != 0 {
            AsState::Active
        } else if self.waiting[a] != 0 {
            AsState::Pending
        } else if self.members(a) & self.up_set() != 0 {
            AsState::Inactive
        } else {
            AsState::Down
        }
    }

    /// The identifiers of the links, ascending.
    #[inline(always)]
    pub fn link_ids(&self) -> &[u32] {
        &self.link_id[..(self.links as usize).min(MAX_LINKS)]
    }

    /// The place of the first link whose identifier is not below `id`.
    #[inline]
    pub fn first_link_from(&self, id: u32) -> usize {
        self.link_ids().partition_point(|other| *other < id)
    }

    /// The place of a link, if the plan has it.
    #[inline]
    pub fn find_link(&self, id: u32) -> Option<usize> {
        let place = self.first_link_from(id);
        (self.link_ids().get(place) == Some(&id)).then_some(place)
    }

    /// Whether a link can have a sequence number that reads; 0 stands for none.
    #[inline(always)]
    pub fn can_have(&self, link: usize, sequence: u32) -> bool {
        self.highspeed[link] == HIGH_SPEED || sequence <= MAX_PLAIN_SEQUENCE
    }

    /// How many units an AS holds.
    #[inline(always)]
    pub fn held_of(&self, a: usize) -> usize {
        (self.held[a] as usize).min(MAX_HELD)
    }

    /// Unit k of AS a.
    #[inline(always)]
    pub fn unit(&self, a: usize, k: usize) -> Unit {
        let i = MAX_HELD * a + k;
        Unit {
            tag: self.held_tag[i],
            len: self.held_len[i],
            id: self.held_id[i],
            correlation: (self.held_marked[i] != 0).then_some(self.held_correlation[i]),
        }
    }

    /// One more unit of AS a, which holds fewer than 8.
    #[inline(always)]
    pub(crate) fn add_unit(&mut self, a: usize, unit: Unit) {
        let i = MAX_HELD * a + self.held_of(a);
        self.held[a] += 1;
        self.held_tag[i] = unit.tag;
        self.held_len[i] = unit.len;
        self.held_id[i] = unit.id;
        self.held_marked[i] = unit.correlation.is_some() as u16;
        self.held_correlation[i] = unit.correlation.unwrap_or(0);
    }

    /// AS a holds nothing any more.
    #[inline(always)]
    pub(crate) fn drop_units(&mut self, a: usize) {
        let places = MAX_HELD * a..MAX_HELD * a + MAX_HELD;
        self.held[a] = 0;
        self.held_tag[places.clone()].fill(0);
        self.held_len[places.clone()].fill(0);
        self.held_marked[places.clone()].fill(0);
        self.held_id[places.clone()].fill(0);
        self.held_correlation[places].fill(0);
    }

    /// Those that get what comes from a link.
    #[inline]
    pub fn recipients(&self, link: usize) -> Asps {
        let a = self.owner[link] as usize % MAX_ASES;
        let actives = self.actives(a);
        if self.mode[a] != LOAD_SHARE || actives == 0 {
            return actives;
        }
        // Drop as many as come before the chosen one, then keep the lowest.
        let mut chosen = actives;
        for _ in 0..self.link_id[link] % actives.count_ones() {
            chosen &= chosen - 1;
        }
        chosen & chosen.wrapping_neg()
    }

    /// Whether the state is sound: what every event asks first. No exit inside
    /// the loops, so that they take many places at a time.
    pub fn is_sound(&self) -> bool {
        let asps = self.asps as usize;
        let ases = self.ases as usize;
        let links = self.links as usize;
        if asps.wrapping_sub(1) >= MAX_ASPS || ases.wrapping_sub(1) >= MAX_ASES {
            return false;
        }
        if links > MAX_LINKS || self.spare != 0 {
            return false;
        }
        self.asps_sound(asps) & self.ases_sound(asps, ases) & self.links_sound(ases, links)
            && self.held_sound()
    }

    /// Identifiers that differ, zeros beyond.
    #[inline(always)]
    fn asps_sound(&self, asps: usize) -> bool {
        let mut beyond = 0;
        for (p, id) in self.asp_id.iter().enumerate() {
            beyond |= if p < asps { 0 } else { *id };
        }
        // Each is equal to itself and, if it is 0, to the places beyond; to
        // nothing else.
        let mut equal = 0;
        let mut zeros = 0;
        for id in &self.asp_id[..asps] {
            for other in &self.asp_id {
                equal += (id == other) as u32;
            }
            zeros += (*id == 0) as u32;
        }
        let differ = equal == asps as u32 + zeros * (MAX_ASPS - asps) as u32;
        (beyond == 0) & differ
    }

    #[inline(always)]
    fn ases_sound(&self, asps: usize, ases: usize) -> bool {
        let planned = ALL & (Asps::MAX >> (8 * (MAX_ASPS - asps)));
        let up = self.up_set();
        let lists = Asps::from_le_bytes(self.wholelists);
        let mut wrong = (up | lists) & !planned != 0;
        for a in 0..ases {
            let member = self.members(a);
            let active = self.actives(a);
            wrong |= member & !planned != 0;
            wrong |= active & !(member & up) != 0;
            wrong |= self.mode[a].wrapping_sub(1) > 2;
            wrong |= (self.mode[a] == OVERRIDE) & (active & active.wrapping_sub(1) != 0);
            wrong |= self.waiting[a] > (active == 0) as u8;
        }
        let mut beyond = 0;
        for a in ases..MAX_ASES {
            beyond |= self.members(a) | self.actives(a);
            beyond |= (self.mode[a] | self.waiting[a]) as Asps;
        }
        !wrong & (beyond == 0)
    }

    #[inline(always)]
    fn links_sound(&self, ases: usize, links: usize) -> bool {
        let (ids, ids_beyond) = self.link_id.split_at(links);
        let (owners, owners_beyond) = self.owner.split_at(links);
        let (states, states_beyond) = self.state.split_at(links);
        let (kinds, kinds_beyond) = self.highspeed.split_at(links);
        let mut wrong = false;
        for (id, next) in ids.iter().zip(ids.iter().skip(1)) {
            wrong |= id >= next;
        }
        let last = owners.iter().fold(0, |last, owner| last.max(*owner));
        wrong |= last as usize >= ases;
        // 0 to 3 are all numbers of two bits.
        wrong |= states.iter().fold(0, |bits, state| bits | state) > STOPPING;
        wrong |= kinds.iter().fold(0, |bits, kind| bits | kind) > HIGH_SPEED;
        let mut beyond = ids_beyond.iter().fold(0, |bits, id| bits | id);
        beyond |= owners_beyond.iter().fold(0, |bits, owner| bits | owner) as u32;
        beyond |= states_beyond.iter().fold(0, |bits, state| bits | state) as u32;
        beyond |= kinds_beyond.iter().fold(0, |bits, kind| bits | kind) as u32;
        !wrong & (beyond == 0)
    }

    /// Units only where an AS waits, and zeros beyond them. Asked last: links
    /// are found by their identifiers, which must ascend.
    #[inline(always)]
    fn held_sound(&self) -> bool {
        // Mostly nothing is held anywhere.
        if self.nothing_held() {
            return true;
        }
        (0..MAX_ASES).all(|a| {
            let held = self.held[a] as usize;
            held <= MAX_HELD * self.waiting[a] as usize
                && (0..held).all(|k| self.unit_sound(a, k))
                && (held..MAX_HELD).all(|k| self.place_empty(MAX_HELD * a + k))
        })
    }

    #[inline(always)]
    fn nothing_held(&self) -> bool {
        let counts = self.held.iter().fold(0, |bits, count| bits | count);
        let mut halves = 0;
        let mut words = 0;
        for i in 0..MAX_ASES * MAX_HELD {
            halves |= self.held_tag[i] | self.held_len[i] | self.held_marked[i];
            words |= self.held_id[i] | self.held_correlation[i];
        }
        (counts == 0) & (halves == 0) & (words == 0)
    }

    #[inline(always)]
    fn place_empty(&self, i: usize) -> bool {
        let halves = self.held_tag[i] | self.held_len[i] | self.held_marked[i];
        (halves == 0) & (self.held_id[i] | self.held_correlation[i] == 0)
    }

    /// Tag, length, mark and number; and the link is one of the AS's own.
    #[inline(always)]
    fn unit_sound(&self, a: usize, k: usize) -> bool {
        let i = MAX_HELD * a + k;
        let (marked, number) = (self.held_marked[i], self.held_correlation[i]);
        let fits = (self.held_tag[i] | 1 == DATA2)
            & (self.held_len[i].wrapping_sub(5) < PLACE_BYTES as u16)
            & ((marked == 1) | ((marked == 0) & (number == 0)));
        let id = self.held_id[i];
        // Often several come from one link.
        if k > 0 && self.held_id[i - 1] == id {
            return fits;
        }
        let link = self.find_link(id);
        fits && link.is_some_and(|link| self.owner[link] as usize == a)
    }
}

/// Whether the state is sound.
pub fn is_sound(gateway: &Gateway) -> bool {
    gateway.is_sound()
}
