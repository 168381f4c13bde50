//! What becomes of units, by AS: each Data of the link side is passed on to an ASP, held, or counted as not
//! delivered with its reason. None goes without a count.
use crate::engine::Engine;
use crate::peer::Peer;
use m2ua::{parameter, sys, Addressee, Event, Gateway, MessageType};

/// What became of the units of an AS that have come from the link side: `arrived` is the sum of the others
/// and of those that are held.
#[derive(Clone, Copy, Debug, Default, PartialEq, Eq)]
pub struct Tally {
    pub arrived: u64,
    /// Ordered for one ASP at least, at once or when one became active.
    pub passed_on: u64,
    /// The AS was pending, and held as many as it can (Rule 7.24).
    pub turned_away: u64,
    /// Held when the recovery time was over (Rule 7.26).
    pub discarded: u64,
    /// Nobody was active, and the AS did not wait (Rule 7.22).
    pub no_recipient: u64,
}

pub struct Units {
    /// The identifier of each link, ascending, and its AS.
    owners: Vec<(u32, usize)>,
    pub of: Vec<Tally>,
    /// How many each AS held after the last event.
    held: Vec<usize>,
    /// Something was not delivered, and nobody has said so yet.
    pub lost: bool,
}

impl Units {
    pub fn new(g: &Gateway) -> Units {
        let owner = |l| Some((g.interface_id(l)?, g.owner(l)?));
        let mut owners: Vec<_> = (0..g.links()).filter_map(owner).collect();
        owners.sort_unstable();
        Units {
            owners,
            of: vec![Tally::default(); g.ases()],
            held: vec![0; g.ases()],
            lost: false,
        }
    }

    /// The AS of the link with an identifier.
    pub fn owner(&self, id: u32) -> Option<usize> {
        let found = self.owners.binary_search_by_key(&id, |(id, _)| *id);
        found.ok().map(|k| self.owners[k].1)
    }

    /// Counts what an event that was not refused has done to units.
    pub fn count(&mut self, event: &Event<'_>, engine: &Engine) {
        match event {
            Event::LinkMessage { message } => self.arrival(message, engine),
            Event::Recovery { r#as } => {
                let gone = self.released(*r#as, &engine.state);
                self.of[*r#as].discarded += gone;
                self.lost |= gone > 0;
            }
            _ => {
                for a in 0..self.held.len() {
                    if self.held[a] > 0 {
                        self.of[a].passed_on += self.released(a, &engine.state);
                    }
                }
            }
        }
    }

    /// How many units an AS has let go.
    fn released(&mut self, a: usize, g: &Gateway) -> u64 {
        let before = std::mem::replace(&mut self.held[a], g.held(a).count());
        before.saturating_sub(self.held[a]) as u64
    }

    fn arrival(&mut self, message: &[u8], engine: &Engine) {
        let Some(a) = self.data_for(message) else {
            return;
        };
        let tally = &mut self.of[a];
        tally.arrived += 1;
        let passed = |(order, _): (m2ua::Order, &[u8])| {
            order.message == MessageType::Data && matches!(order.to, Addressee::Asp(_))
        };
        if engine.orders().any(passed) {
            tally.passed_on += 1;
        } else if engine.state.is_waiting(a) {
            let held = engine.state.held(a).count();
            let turned = held == self.held[a];
            tally.turned_away += u64::from(turned);
            self.lost |= turned;
            self.held[a] = held;
        } else {
            tally.no_recipient += 1;
            self.lost = true;
        }
    }

    /// The AS that a message of the link side brings a unit for.
    fn data_for(&self, message: &[u8]) -> Option<usize> {
        let class = [sys::CLASS_MAUP, 1];
        if message.get(2..4) != Some(&class[..]) {
            return None;
        }
        let id = parameter(message, sys::TAG_INTERFACE_ID)?;
        self.owner(u32::from_be_bytes(id.try_into().ok()?))
    }
}

/// How many units of an AS were not delivered, by reason.
#[derive(Clone, Copy, Debug, Default, PartialEq, Eq)]
pub struct Losses([u64; 6]);

const REASONS: [&str; 6] = [
    "turned away, since the AS was pending and held eight",
    "discarded, since the recovery time was over",
    "without a recipient",
    "dropped with the association of their ASP",
    "not read by their ASP",
    "dropped or not read on their way to the link side",
];

impl Losses {
    /// All until now; the last of the peers is the link side.
    pub fn of(a: usize, units: &Units, peers: &[Peer]) -> Losses {
        let dropped = |peer: &Peer| peer.units[a].dropped;
        let unread = |peer: &Peer| peer.units[a].unread;
        let tally = &units.of[a];
        let (asps, links) = peers.split_at(peers.len() - 1);
        Losses([
            tally.turned_away,
            tally.discarded,
            tally.no_recipient,
            asps.iter().map(dropped).sum(),
            asps.iter().map(unread).sum(),
            links.iter().map(|p| dropped(p) + unread(p)).sum(),
        ])
    }

    /// Those that were not there before.
    pub fn since(&self, before: &Losses) -> Losses {
        Losses(std::array::from_fn(|k| self.0[k] - before.0[k]))
    }
}

impl std::fmt::Display for Losses {
    fn fmt(&self, f: &mut std::fmt::Formatter<'_>) -> std::fmt::Result {
        let some = |(count, why): (&u64, &str)| (*count > 0).then(|| format!("{count} {why}"));
        let parts: Vec<String> = self.0.iter().zip(REASONS).filter_map(some).collect();
        f.write_str(&parts.join("; "))
    }
}

#[cfg(test)]
mod tests {
    use super::*;
    use m2ua::{write, Parameter};

    const PLAN: &str = "asp a id 1\nasp b id 2\nas x mode broadcast members a b\nas y mode override members b\nlink 100 as x\nlink 200 as y\n";

    fn data(id: u32) -> Vec<u8> {
        let id = id.to_be_bytes();
        let list = [
            Parameter::new(sys::TAG_INTERFACE_ID, &id),
            Parameter::new(sys::TAG_DATA_1, b"unit"),
        ];
        write(MessageType::Data, &list).unwrap()
    }

    /// An AS through all of its states, and what is counted of its units.
    #[test]
    fn every_unit_is_counted() {
        let g = Gateway::load(&m2ua_plan::compile(PLAN).unwrap()).unwrap();
        let mut units = Units::new(&g);
        let mut engine = Engine::new(g);
        let mut happens = |event: Event<'_>| {
            engine.run(&event).unwrap();
            units.count(&event, &engine);
            let [x, y] = [0, 1].map(|a| {
                let t = units.of[a];
                let held = engine.state.held(a).count() as u64;
                let sum = t.passed_on + t.turned_away + t.discarded + t.no_recipient + held;
                assert_eq!(t.arrived, sum, "every unit has a place");
                [
                    t.passed_on,
                    held,
                    t.turned_away,
                    t.discarded,
                    t.no_recipient,
                ]
            });
            (x, y)
        };
        let (up, active) = (
            write(MessageType::Up, &[]).unwrap(),
            write(MessageType::Active, &[]).unwrap(),
        );
        let (to_x, to_y) = (data(100), data(200));
        happens(Event::LinkMessage { message: &to_x });
        happens(Event::LinkMessage { message: &to_y });
        for asp in [0, 1] {
            happens(Event::Message { asp, message: &up });
            happens(Event::Message {
                asp,
                message: &active,
            });
        }
        // to both of them: one unit
        let (x, y) = happens(Event::LinkMessage { message: &to_x });
        assert_eq!((x, y), ([1, 0, 0, 0, 1], [0, 0, 0, 0, 1]));
        happens(Event::Lost { asp: 0 });
        happens(Event::Lost { asp: 1 });
        for _ in 0..9 {
            happens(Event::LinkMessage { message: &to_x });
            happens(Event::LinkMessage { message: &to_y });
        }
        happens(Event::Message {
            asp: 1,
            message: &up,
        });
        let (x, y) = happens(Event::Recovery { r#as: 1 });
        assert_eq!((x, y), ([1, 8, 1, 0, 1], [0, 0, 1, 8, 1]));
        let (x, y) = happens(Event::Message {
            asp: 1,
            message: &active,
        });
        assert_eq!((x, y), ([9, 0, 1, 0, 1], [0, 0, 1, 8, 1]));
        // what is no unit is not counted
        let level = [0, 0, 0, 1];
        let id = 100u32.to_be_bytes();
        let list = [
            Parameter::new(sys::TAG_INTERFACE_ID, &id),
            Parameter::new(sys::TAG_CONGESTION, &level),
        ];
        let congestion = write(MessageType::CongestionIndication, &list).unwrap();
        let (x, _) = happens(Event::LinkMessage {
            message: &congestion,
        });
        assert_eq!(x, [9, 0, 1, 0, 1]);
    }
}
