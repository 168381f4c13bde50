//! What went to and fro in a script.
use crate::script::{Command, Happening};
use m2ua::{sys, Addressee, AsState, Event, Gateway, Hold, MessageType, Orders, Refusal};

/// Who takes part.
#[derive(Clone, Copy, Debug, PartialEq, Eq)]
pub enum Lane {
    LinkSide,
    Gateway,
    Asp(usize),
}

/// One thing that is seen.
#[derive(Clone, Debug, PartialEq, Eq)]
pub enum What {
    /// A message of an association, with its bytes.
    Message(Lane, Lane, Vec<u8>),
    /// A primitive between the gateway and the link side.
    Primitive(Lane, Lane),
    /// An association breaks.
    Lost(usize),
    /// Something about the gateway itself.
    Note,
}

/// A line of the chart: what is seen, in words; and the number of the event that it belongs to.
#[derive(Clone, Debug, PartialEq, Eq)]
pub struct Step {
    pub event: usize,
    pub what: What,
    pub label: String,
}

/// All of it, and how many ASPs take part.
#[derive(Clone, Debug, PartialEq, Eq)]
pub struct Trace {
    pub asps: usize,
    pub steps: Vec<Step>,
}

/// Runs a script, from a state that no event accepts until a plan is loaded.
pub fn run(commands: &[Command]) -> Trace {
    let mut runner = Runner {
        gateway: None,
        hold: Hold::new(),
        lent: sys::HOLD_BYTES,
        orders: Orders::new(),
        event: 0,
        trace: Trace {
            asps: 0,
            steps: Vec::new(),
        },
    };
    for command in commands {
        match command {
            Command::Plan(file) => runner.plan(file),
            Command::Event(happening, list) => runner.happens(happening, *list),
            Command::Hold(bytes) => runner.lent = *bytes,
            Command::Paint(byte) => runner.hold = painted(*byte),
        }
    }
    runner.trace
}

/// A hold with one byte everywhere.
fn painted(byte: u8) -> Hold {
    Hold::from_bytes(&[byte; sys::HOLD_BYTES]).expect("as long as a hold")
}

struct Runner {
    gateway: Option<Gateway>,
    /// The hold that goes with the state, and how long the one is that events are lent.
    hold: Hold,
    lent: usize,
    orders: Orders,
    event: usize,
    trace: Trace,
}

impl Runner {
    fn step(&mut self, what: What, label: impl Into<String>) {
        for lane in lanes(&what) {
            if let Lane::Asp(p) = lane {
                self.trace.asps = self.trace.asps.max(p + 1);
            }
        }
        self.trace.steps.push(Step {
            event: self.event,
            what,
            label: label.into(),
        });
    }

    fn refused(&mut self, code: u32) {
        let no = Refusal::of(code).map_or(String::new(), |no| no.to_string());
        self.step(What::Note, format!("refused: {no}"));
    }

    fn plan(&mut self, file: &[u8]) {
        self.event += 1;
        match Gateway::load(file) {
            Ok(g) => {
                self.trace.asps = self.trace.asps.max(g.asps());
                let high_speed = match (0..g.links()).filter(|&l| g.is_high_speed(l)).count() {
                    0 => String::new(),
                    n => format!(", {n} of them high-speed"),
                };
                let whole_lists = match (0..g.asps()).filter(|&p| g.takes_whole_lists(p)).count() {
                    0 => String::new(),
                    n => format!(" ({n} with whole-lists)"),
                };
                self.step(
                    What::Note,
                    format!(
                        "plan: {} ASPs{whole_lists}, {} ASes, {} links{high_speed}",
                        g.asps(),
                        g.ases(),
                        g.links()
                    ),
                );
                self.gateway = Some(g);
            }
            Err(no) => {
                self.step(What::Note, format!("plan refused: {no}"));
                self.gateway = None;
            }
        }
    }

    /// What comes in is seen first, then the orders, then what has changed.
    fn happens(&mut self, happening: &Happening, list: usize) {
        self.event += 1;
        let event = happening.event();
        self.comes_in(&event);
        let Some(g) = self.gateway.clone() else {
            return self.refused(sys::REFUSED_STATE);
        };
        let (mut next, mut hold) = (g.clone(), self.hold.clone());
        match next.handle(&event, &mut hold, &mut self.orders) {
            Ok(_) if self.lent != sys::HOLD_BYTES => return self.refused(sys::REFUSED_HOLD),
            Ok(_) if list < sys::LIST_WORDS => return self.refused(sys::REFUSED_LIST),
            Ok(()) => {}
            Err(no) => return self.refused(no.code()),
        };
        let sent: Vec<_> = (self.orders.messages())
            .map(|(order, message)| (order, message.to_vec()))
            .collect();
        for (order, message) in sent {
            let text = order.to_string();
            let label = text
                .split_once(": ")
                .map_or(text.as_str(), |(_, words)| words);
            match (order.to, message) {
                (Addressee::Asp(p), bytes) => {
                    self.step(What::Message(Lane::Gateway, Lane::Asp(p), bytes), label)
                }
                _ => self.step(What::Primitive(Lane::Gateway, Lane::LinkSide), label),
            }
        }
        self.changes(&g, &next);
        self.units(&event, &g, &next);
        self.gateway = Some(next);
        self.hold = hold;
    }

    fn comes_in(&mut self, event: &Event<'_>) {
        let text = event.to_string();
        let label = text
            .split_once(": ")
            .map_or(text.as_str(), |(_, words)| words)
            .to_string();
        match *event {
            Event::Message { asp, message } => self.step(
                What::Message(Lane::Asp(asp.min(255)), Lane::Gateway, message.to_vec()),
                label,
            ),
            Event::Lost { asp } => self.step(What::Lost(asp.min(255)), label),
            Event::Recovery { r#as } => {
                self.step(What::Note, format!("T(r) of AS {} is over", r#as))
            }
            Event::LinkUp { link } => self.step(
                What::Primitive(Lane::LinkSide, Lane::Gateway),
                format!("{} in service", self.link(link)),
            ),
            Event::LinkDown { link } => self.step(
                What::Primitive(Lane::LinkSide, Lane::Gateway),
                format!("{} out of service", self.link(link)),
            ),
            Event::LinkMessage { .. } => {
                self.step(What::Primitive(Lane::LinkSide, Lane::Gateway), label)
            }
        }
    }

    fn link(&self, place: usize) -> String {
        match (self.gateway.as_ref()).and_then(|g| g.interface_id(place)) {
            Some(id) => format!("link {id}"),
            None => format!("link at place {place}"),
        }
    }

    fn changes(&mut self, before: &Gateway, after: &Gateway) {
        let timers = before.timers(after);
        for a in 0..after.ases() {
            match (before.as_state(a), after.as_state(a)) {
                (was, Some(is)) if was != Some(is) => {
                    let timer = if timers.started().any(|b| a == b) {
                        ", T(r) starts"
                    } else {
                        ""
                    };
                    self.step(What::Note, format!("AS {a} is {is}{timer}"));
                }
                _ => {}
            }
        }
    }

    /// A unit that is kept, one that is turned away, and those that are discarded. (Those that go out are
    /// orders.)
    fn units(&mut self, event: &Event<'_>, before: &Gateway, after: &Gateway) {
        for a in 0..after.ases() {
            let (was, is) = (before.held(a).count(), after.held(a).count());
            let state = after.as_state(a);
            if is > was {
                self.step(What::Note, format!("AS {a} keeps the unit, {is} held"));
            } else if is < was && state != Some(AsState::Active) {
                self.step(What::Note, format!("AS {a} discards what it held, {was}"));
            } else if state == Some(AsState::Pending) && brings_unit(event, after, a) {
                self.step(What::Note, format!("AS {a} turns the unit away, {is} held"));
            }
        }
    }
}

/// Whether an event is Data of the link side for an AS.
fn brings_unit(event: &Event<'_>, g: &Gateway, r#as: usize) -> bool {
    let Event::LinkMessage { message } = event else {
        return false;
    };
    m2ua::read(message).is_ok_and(|r| {
        let link = g.link_place(r.id);
        r.message == MessageType::Data && link.and_then(|l| g.owner(l)) == Some(r#as)
    })
}

/// The lanes of a step.
pub fn lanes(what: &What) -> Vec<Lane> {
    match what {
        What::Message(from, to, _) | What::Primitive(from, to) => vec![*from, *to],
        What::Lost(p) => vec![Lane::Asp(*p)],
        What::Note => vec![Lane::Gateway],
    }
}
