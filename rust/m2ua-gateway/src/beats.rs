//! The gateway's own Heartbeats to an ASP. They are no orders: the library knows nothing of them, and their
//! Acks are
//! messages that lead to nothing. An ASP that says nothing at all while so many of them are sent is lost.
use std::time::{Duration, Instant};

/// How often an ASP is asked, and how many Heartbeats in a row may go without a sign of it.
#[derive(Clone, Copy, Debug, PartialEq, Eq)]
pub struct Terms {
    pub interval: Duration,
    pub misses: u32,
}

pub struct Beats {
    /// `None`: none are sent.
    terms: Option<Terms>,
    next: Instant,
    /// One is under way, and nothing has come since it was sent.
    asked: bool,
    missed: u32,
    /// How many were sent since the start.
    pub sent: u64,
}

/// What is to be done.
#[derive(Clone, Copy, Debug, PartialEq, Eq)]
pub enum Due {
    Nothing,
    Beat([u8; 20]),
    /// So many were not answered.
    Lost(u32),
}

impl Beats {
    pub fn new(terms: Option<Terms>) -> Beats {
        Beats {
            terms,
            next: Instant::now(),
            asked: false,
            missed: 0,
            sent: 0,
        }
    }

    /// An association begins.
    pub fn begin(&mut self, now: Instant) {
        (self.asked, self.missed) = (false, 0);
        self.next = now + self.terms.map_or(Duration::ZERO, |t| t.interval);
    }

    /// A message has come, whatever it is; or there may be one that nobody has read yet.
    pub fn heard(&mut self) {
        (self.asked, self.missed) = (false, 0);
    }

    /// When something is to be done.
    pub fn next(&self) -> Option<Instant> {
        self.terms.map(|_| self.next)
    }

    pub fn due(&mut self, now: Instant) -> Due {
        let Some(terms) = self.terms.filter(|_| self.next <= now) else {
            return Due::Nothing;
        };
        self.next = now + terms.interval;
        self.missed += u32::from(self.asked);
        if self.missed >= terms.misses {
            return Due::Lost(self.missed);
        }
        self.asked = true;
        self.sent += 1;
        Due::Beat(message(self.sent))
    }
}

/// A Heartbeat, with its number as heartbeat data.
fn message(number: u64) -> [u8; 20] {
    let mut bytes = [0; 20];
    bytes[..12].copy_from_slice(&[1, 0, 3, 3, 0, 0, 0, 20, 0, 9, 0, 12]);
    bytes[12..].copy_from_slice(&number.to_be_bytes());
    bytes
}

#[cfg(test)]
mod tests {
    use super::*;
    use m2ua::{read, MessageType};

    #[test]
    fn a_peer_that_says_nothing_is_lost() {
        let interval = Duration::from_millis(100);
        let mut beats = Beats::new(Some(Terms {
            interval,
            misses: 3,
        }));
        let start = Instant::now();
        let at = |tenths: u32| start + tenths * interval / 10;
        beats.begin(start);
        assert_eq!(beats.due(at(9)), Due::Nothing);
        assert_eq!(beats.due(at(10)), Due::Beat(message(1)));
        assert_eq!(beats.due(at(11)), Due::Nothing);
        // it answers the first, and two are missed before it answers again
        beats.heard();
        assert_eq!(beats.due(at(20)), Due::Beat(message(2)));
        assert_eq!(beats.due(at(30)), Due::Beat(message(3)));
        assert_eq!(beats.due(at(40)), Due::Beat(message(4)));
        beats.heard();
        for k in 5..8 {
            assert_eq!(beats.due(at(10 * k)), Due::Beat(message(k.into())));
        }
        assert_eq!(beats.due(at(80)), Due::Lost(3));
        beats.begin(at(90));
        assert_eq!(beats.due(at(99)), Due::Nothing);
        assert_eq!(beats.due(at(100)), Due::Beat(message(8)));
        let reads = read(&message(8)).map(|r| r.message);
        assert_eq!(reads.ok(), Some(MessageType::Beat));
    }

    #[test]
    fn none_are_sent_where_none_are_wanted() {
        let mut beats = Beats::new(None);
        beats.begin(Instant::now());
        let late = Instant::now() + Duration::from_secs(9);
        assert_eq!((beats.due(late), beats.next()), (Due::Nothing, None));
    }
}
