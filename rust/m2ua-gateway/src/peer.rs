//! A peer: an ASP, or the link side; its association while it has one, and what waits to be sent.
use crate::beats::Beats;
use crate::os;
use crate::queue::{Mark, Queue, ENTRY};
use crate::transport::{Association, Batch, Received, Sent, BURST};
use crate::unread::Handed;
use std::time::Instant;

/// What a peer has received and sent since the start. Every message to it is sent, waits, or is dropped with
/// its
/// association; over a Unix socket what was not read when that ended is unread, and not sent.
#[derive(Clone, Copy, Default)]
pub struct Counts {
    pub received: u64,
    pub ordered: u64,
    pub sent: u64,
    pub dropped: u64,
    pub unread: u64,
    pub associations: u64,
}

/// What became of the units of an AS that were ordered for a peer.
#[derive(Clone, Copy, Debug, Default, PartialEq, Eq)]
pub struct UnitCounts {
    pub ordered: u64,
    pub sent: u64,
    pub dropped: u64,
    pub unread: u64,
}

/// What has become of a message to a peer.
#[derive(Clone, Copy, Debug, PartialEq, Eq)]
pub enum Fate {
    /// It waits, for the end of this turn at least.
    Taken,
    /// There is no association.
    Absent,
    /// Too much waits already.
    Overflow,
}

pub struct Peer {
    pub name: String,
    /// The file name of its Unix socket.
    pub socket: String,
    pub association: Option<Association>,
    /// When the transport last took a message, or when the first came that waits since.
    pub progress: Instant,
    /// Nothing is read of it until less waits.
    pub paused: bool,
    /// There may be something to read, which nobody else tells.
    pub ready: bool,
    /// How much came when it was last read.
    pub came: usize,
    pub counts: Counts,
    /// The units among the messages, by AS.
    pub units: Vec<UnitCounts>,
    /// How often was looked for messages, and whether there were several the last time.
    looks: u8,
    many: bool,
    queue: Queue,
    handed: Handed,
    /// It has gone without reading all.
    reset: bool,
    pub beats: Beats,
    limit: usize,
    /// The transport has no room: until it says so nothing is sent.
    pub blocked: bool,
}

impl Peer {
    /// A peer without an association, for which at most `limit` bytes may wait.
    pub fn new(name: &str, socket: String, limit: usize, origins: usize, beats: Beats) -> Peer {
        Peer {
            name: name.into(),
            socket,
            association: None,
            progress: Instant::now(),
            paused: false,
            ready: false,
            came: 0,
            counts: Counts::default(),
            units: vec![UnitCounts::default(); m2ua::sys::MAX_ASES],
            looks: 0,
            many: false,
            queue: Queue::new(limit, origins),
            handed: Handed::default(),
            reset: false,
            beats,
            limit,
            blocked: false,
        }
    }

    pub fn begin(&mut self, association: Association, now: Instant) {
        self.association = Some(association);
        self.progress = now;
        self.ready = true;
        (self.paused, self.blocked, self.reset) = (false, false, false);
        self.beats.begin(now);
        self.counts.associations += 1;
    }

    /// Takes the association away, and drops what waits for it: how many messages that is.
    pub fn end(&mut self) -> (Option<Association>, usize) {
        self.account();
        let units = &mut self.units;
        let dropped = self.queue.clear(|mark| {
            if let Some(a) = mark.unit {
                units[usize::from(a)].dropped += 1;
            }
        });
        self.counts.dropped += dropped as u64;
        self.ready = false;
        (self.association.take(), dropped)
    }

    /// Forgets what the peer has read since it was handed to its socket. Of one that has gone nobody can tell
    /// any more what
    /// it read last.
    pub fn measure(&mut self) {
        if let Some(Association::Packets(socket)) = &self.association {
            self.handed.measure(socket);
        }
    }

    /// What was handed to the socket and is unread at the end was not sent. Where the peer went and left
    /// something unread,
    /// that is what was unread when it was last looked for.
    fn account(&mut self) {
        if let Some(Association::Packets(socket)) = &self.association {
            match os::is_closed(socket) {
                (_, true) => self.reset = true,
                (true, _) if !self.reset => drop(self.handed.take()),
                _ => {}
            }
        }
        self.measure();
        for unit in self.handed.take() {
            self.counts.sent -= 1;
            self.counts.unread += 1;
            if let Some(a) = unit {
                self.units[usize::from(a)].sent -= 1;
                self.units[usize::from(a)].unread += 1;
            }
        }
    }

    /// The counts, in which what is unread now is not sent yet.
    pub fn counts_now(&self) -> Counts {
        let unread = self.handed.units().count() as u64;
        Counts {
            sent: self.counts.sent - unread,
            unread: self.counts.unread + unread,
            ..self.counts
        }
    }

    /// The same of the units of an AS.
    pub fn units_now(&self, a: usize) -> UnitCounts {
        let of = |unit: &Option<u8>| unit.map(usize::from) == Some(a);
        let unread = self.handed.units().filter(of).count() as u64;
        UnitCounts {
            sent: self.units[a].sent - unread,
            unread: self.units[a].unread + unread,
            ..self.units[a]
        }
    }

    /// What has come. To look for a second message where there is none costs as much as half a message: so
    /// that is done now and then, and as long as there is one.
    pub fn receive(&mut self, batch: &mut Batch) {
        batch.clear();
        self.looks = self.looks.wrapping_add(1);
        let most = if self.many || self.looks.is_multiple_of(8) {
            BURST
        } else {
            1
        };
        if let Some(association) = &mut self.association {
            association.receive(batch, most);
        }
        self.many = batch.len() > 1;
        self.ready = batch.len() == BURST;
        self.came = batch.len();
        let messages = batch.messages();
        self.counts.received += messages as u64;
        if messages > 0 {
            self.beats.heard();
        }
        self.reset |= (0..batch.len()).any(|k| batch.get(k).0 == Received::Reset);
    }

    /// Lets a message wait until the next flush. Where too much waits, what can be sent is sent first.
    pub fn send(&mut self, message: &[u8], mark: Mark, now: Instant) -> Fate {
        self.counts.ordered += 1;
        if let Some(a) = mark.unit {
            self.units[usize::from(a)].ordered += 1;
        }
        let fate = if self.association.is_none() {
            Fate::Absent
        } else if self.has_room(message) || (self.flush(now) && self.has_room(message)) {
            if self.queue.is_empty() {
                self.progress = now;
            }
            self.queue.push(message, mark);
            return Fate::Taken;
        } else {
            Fate::Overflow
        };
        self.counts.dropped += 1;
        if let Some(a) = mark.unit {
            self.units[usize::from(a)].dropped += 1;
        }
        fate
    }

    pub fn has_room(&self, message: &[u8]) -> bool {
        self.queue.cost() + message.len() + ENTRY <= self.limit
    }

    /// Sends what waits, as far as the transport takes it; `false` where the association is over.
    pub fn flush(&mut self, now: Instant) -> bool {
        let Some(association) = &self.association else {
            return true;
        };
        while !self.blocked && !self.queue.is_empty() {
            let (count, rest) = match self.queue.only() {
                Some(message) => match association.send(message) {
                    Sent::Done => (1, Sent::Done),
                    other => (0, other),
                },
                None => association.send_all(self.queue.iter()),
            };
            let (units, handed) = (&mut self.units, &mut self.handed);
            let is_unix = matches!(association, Association::Packets(_));
            self.queue.pop(count, |length, mark| {
                if let Some(a) = mark.unit {
                    units[usize::from(a)].sent += 1;
                }
                if is_unix {
                    handed.push(length, mark.unit);
                }
            });
            self.counts.sent += count as u64;
            match rest {
                Sent::Ended => return false,
                Sent::Reset => {
                    self.reset = true;
                    return false;
                }
                Sent::Later => self.blocked = true,
                Sent::Done => {}
            }
            if count > 0 {
                self.progress = now;
            }
        }
        self.measure();
        true
    }

    /// The transport has room again.
    pub fn unblock(&mut self) {
        self.blocked = false;
    }

    /// How many bytes wait, and how many messages.
    pub fn waiting(&self) -> (usize, usize) {
        (self.queue.cost(), self.queue.len())
    }

    /// How many units of an AS wait.
    pub fn units_waiting(&self, a: usize) -> u64 {
        let of = |mark: &Mark| mark.unit.map(usize::from) == Some(a);
        self.queue.marks().filter(of).count() as u64
    }

    /// How many of the bytes that wait come from an origin.
    pub fn share(&self, origin: usize) -> usize {
        self.queue.share(origin)
    }
}
