//! How SCTP associations are kept: what is agreed with a peer, and how soon one that is silent is given up.

/// Terms of every association of a program.
#[derive(Clone, Copy, Debug)]
pub struct Terms {
    /// The peer's port where SCTP goes inside UDP (RFC 6951); 0 over IP.
    pub udp_port: u16,
    /// Milliseconds within which a dead peer is noticed.
    pub dead: u32,
    /// Bytes that are kept for an association, each way.
    pub buffer: u32,
    /// The most streams that a peer may have towards this side.
    pub streams: u16,
}

/// The streams that this side asks for: 0 for management, 1 for traffic.
pub const STREAMS: u16 = 2;
/// The streams that a peer may have.
pub const GRANTED: u16 = 16;

/// What the timers of an association are set to, in milliseconds.
#[derive(Clone, Copy, Debug, PartialEq, Eq)]
pub struct Pace {
    /// The longest retransmission timeout.
    pub rto: u32,
    /// Between two heartbeats lie this time and half to one and a half timeouts, at random.
    pub heartbeat: u32,
    /// Unanswered heartbeats, or retransmissions, that an association survives.
    pub misses: u16,
}

/// The shortest time that the kernel's SCTP can keep.
pub const KERNEL_LEAST: u32 = 1000;

impl Pace {
    /// libusrsctp. A peer may die just behind its answer. Then one interval passes until it is asked again,
    /// and four more until four answers are missing: five of at most 2.5 timeouts, with the clock of the
    /// stack's timers, 10 ms, in each. So 12.5 parts and 50 ms would do; the rest is for a machine that is
    /// busy.
    pub fn of_library(dead: u32) -> Pace {
        let part = (dead.saturating_sub(50) / 14).max(1);
        Pace {
            rto: part,
            heartbeat: part,
            misses: 3,
        }
    }

    /// The kernel gives up when the timer of a heartbeat ends and as many answers are missing as are
    /// allowed: two intervals more than that. None is shorter than 200 ms, and a random part, up to a
    /// timeout, comes to that.
    ///
    /// Retransmissions count against the same limit. So timeouts are as long as they can be, and heartbeats
    /// have little more than these between them: a peer that is slow is not given up sooner than one that is
    /// silent has to be. (Of two addresses of a peer the dead one is asked at most three times between two
    /// answers of the other.)
    pub fn of_kernel(dead: u32) -> Pace {
        const FLOOR: u32 = 200;
        const TICK: u32 = 12;
        let (misses, rest) = match dead {
            ..2000 => (2, 0),
            2000..4000 => (3, dead / 16),
            _ => (5, dead / 16),
        };
        let interval = (dead - rest) / (misses + 2) - TICK;
        // max(FLOOR, half a timeout) and up to one more
        let rto = if interval / 3 >= FLOOR {
            interval * 2 / 3
        } else {
            interval.saturating_sub(FLOOR).max(1)
        };
        Pace {
            rto,
            heartbeat: 1,
            misses: misses as u16,
        }
    }

    /// The shortest retransmission timeout.
    pub fn least(&self) -> u32 {
        self.rto.min(100)
    }
}

#[cfg(test)]
mod tests {
    use super::*;

    /// The longest time of the intervals that pass until the association is given up.
    fn longest(pace: Pace, floor: u32, tick: u32) -> u32 {
        let interval = (pace.heartbeat + pace.rto.div_ceil(2)).max(floor) + pace.rto + tick;
        interval * (u32::from(pace.misses) + 2)
    }

    #[test]
    fn within_the_time() {
        for dead in (200..5000).chain([20_000, 60_000, 3_600_000]) {
            let library = Pace::of_library(dead);
            assert!(longest(library, 0, 10) <= dead, "{dead}: {library:?}");
            if dead >= KERNEL_LEAST {
                let kernel = Pace::of_kernel(dead);
                assert!(longest(kernel, 200, 10) <= dead, "{dead}: {kernel:?}");
                // most of the time is used
                assert!(longest(kernel, 200, 10) >= dead / 2, "{dead}: {kernel:?}");
            }
        }
    }
}
