//! All that is around the gateway itself: the peers, and what is written down. It carries out orders, and
//! remembers what these lead to.
use crate::beats::Due;
use crate::engine::Engine;
use crate::links;
use crate::log::{Level, Log};
use crate::options::Links;
use crate::peer::{Fate, Peer};
use crate::queue::Mark;
use crate::records::{Capture, Journal};
use crate::transport::Association;
use crate::units::{Losses, Units};
use m2ua::{Addressee, Event, Gateway, MessageType, Order, Status};
use m2ua_trace::capture::End;
use m2ua_trace::script::Happening;
use std::collections::VecDeque;
use std::fs::File;
use std::io::Result;
use std::time::{Duration, Instant, SystemTime};

/// What is to happen next, before anything more is read.
pub enum Next {
    Event(Happening),
    /// The link side is gone: no link is in service any more.
    LinksGone,
}

pub struct Outside {
    /// The ASPs by their numbers, and behind them the link side.
    pub peers: Vec<Peer>,
    /// The names of the ASes.
    pub ases: Vec<String>,
    pub units: Units,
    /// What was said of units that were not delivered, by AS, and when more is to be said.
    said: Vec<Losses>,
    pub say_at: Option<Instant>,
    pub links: Links,
    pub log: Log<File>,
    pub journal: Option<Journal>,
    pub capture: Option<Capture>,
    pub next: VecDeque<Next>,
    pub now: Instant,
    /// Until when complaints about a peer are counted, and how many there were; the last is for strangers.
    complaints: Vec<(Instant, u64)>,
}

/// So many complaints about a peer are written in a second; of more, how many there were.
const COMPLAINTS: u64 = 10;
/// So long units that are not delivered are summed up for one line.
const LOSSES: Duration = Duration::from_secs(1);
/// Where so much waits for an ASP, or so much of it for the link side, nothing is read of it until half has
/// gone: a peer is held up by itself alone.
pub const FULL: usize = 32768;

impl Outside {
    pub fn new(
        peers: Vec<Peer>,
        ases: Vec<String>,
        units: Units,
        links: Links,
        log: Log<File>,
    ) -> Outside {
        let now = Instant::now();
        let complaints = vec![(now, 0); peers.len() + 1];
        Outside {
            peers,
            said: vec![Losses::default(); ases.len()],
            say_at: None,
            ases,
            units,
            links,
            log,
            journal: None,
            capture: None,
            next: VecDeque::new(),
            now,
            complaints,
        }
    }

    /// The place behind the peers, for complaints about somebody who is none.
    pub fn stranger(&self) -> usize {
        self.peers.len()
    }

    /// The place of the link side among the peers.
    pub fn link_side(&self) -> usize {
        self.peers.len() - 1
    }

    pub fn set_time(&mut self, now: Instant, clock: SystemTime) {
        self.now = now;
        self.log.set_time(clock);
        if let Some(capture) = &mut self.capture {
            capture.set_time(clock);
        }
    }

    /// Whether so much waits that nothing more is to be read of a peer. One that is paused goes on when half
    /// has gone.
    pub fn is_full(&self, p: usize) -> bool {
        let most = if self.peers[p].paused { FULL / 2 } else { FULL };
        let links = self.link_side();
        p != links && (self.peers[p].waiting().0 > most || self.peers[links].share(p) > most)
    }

    fn end_of(&self, p: usize) -> End {
        if p == self.link_side() {
            End::LinkSide
        } else {
            End::Asp(p)
        }
    }

    /// Writes an event down before it is run: in the journal, in the log, and as a packet in the capture.
    pub fn record(&mut self, event: &Event<'_>, g: &Gateway) {
        let written = self.journal.as_mut().map(|j| j.event(event));
        self.journalled(written);
        if self.log.says(Level::All) {
            self.log_event(event, g);
        }
        match event {
            Event::Message { asp, message } => self.captured(End::Asp(*asp), false, message),
            Event::LinkMessage { message } => self.captured(End::LinkSide, false, message),
            _ => {}
        }
    }

    /// A journal that cannot be written ends.
    pub fn journalled(&mut self, written: Option<Result<()>>) {
        if let Some(Err(e)) = written {
            self.journal = None;
            self.log
                .line(Level::Faults, format_args!("journal: {e}; it ends here"));
        }
    }

    /// The journal has all events until here. It has them before anything is sent that follows from them: so
    /// whatever a peer has received, `replay` says too, even if the daemon is killed.
    pub fn flush_journal(&mut self) {
        let written = self.journal.as_mut().map(|j| j.flush());
        self.journalled(written);
    }

    /// Says what became of a file that was to be opened anew: it stays the old one where that failed.
    pub fn reopened(&mut self, what: &str, done: Option<Result<bool>>) {
        match done {
            Some(Err(e)) => self.log.line(
                Level::Faults,
                format_args!("{what}: it goes on in the file it had: {e}"),
            ),
            Some(Ok(true)) => self
                .log
                .line(Level::Faults, format_args!("{what}: goes on in a new file")),
            _ => {}
        }
    }

    fn log_event(&mut self, event: &Event<'_>, g: &Gateway) {
        let text = event.to_string();
        let words = text
            .split_once(": ")
            .map_or(text.as_str(), |(_, words)| words);
        let id = |link: usize| g.interface_id(link).unwrap_or_default();
        let line = match *event {
            Event::Message { asp, .. } | Event::Lost { asp } => {
                format!("{}: {words}", self.peers[asp].name)
            }
            Event::Recovery { r#as } => format!("AS {}: recovery time over", self.ases[r#as]),
            Event::LinkUp { link } => format!("links: link {} in service", id(link)),
            Event::LinkDown { link } => format!("links: link {} out of service", id(link)),
            Event::LinkMessage { .. } => format!("links: {words}"),
        };
        self.log.line(Level::All, format_args!("{line}"));
    }

    pub fn captured(&mut self, end: End, from_gateway: bool, message: &[u8]) {
        let Some(capture) = &mut self.capture else {
            return;
        };
        let written = capture.message(end, from_gateway, message);
        if written.is_err() || capture.is_full() {
            let why = written.err().map_or("it is full".into(), |e| e.to_string());
            self.log
                .line(Level::Faults, format_args!("capture: {why}; it ends here"));
            self.capture = None;
        }
    }

    /// Carries out an order: a message to an ASP, or to the link side.
    pub fn carry_out(&mut self, order: &Order, message: &[u8], event: &Event<'_>, g: &Gateway) {
        self.log_order(order);
        match order.to {
            Addressee::Asp(p) => self.send(p, message, self.mark(order, p)),
            Addressee::LinkSide => match links::message_of(order, event) {
                Ok(message) => self.carry_to_links(order, &message, event, g),
                Err(no) => self.log.line(
                    Level::Faults,
                    format_args!("links: {order} cannot be written: {no}"),
                ),
            },
        }
    }

    /// The mark of an order's message.
    fn mark(&self, order: &Order, origin: usize) -> Mark {
        let is_unit = order.message == MessageType::Data;
        let owner = is_unit.then(|| self.units.owner(order.subject)).flatten();
        Mark {
            origin,
            unit: owner.map(|a| a as u8),
        }
    }

    fn log_order(&mut self, order: &Order) {
        let fault = order.message == MessageType::Error;
        if !self.log.says(Level::All) && !fault {
            return;
        }
        let (p, name) = match order.to {
            Addressee::Asp(p) => (p, self.peers[p].name.as_str()),
            Addressee::LinkSide => (self.link_side(), "links"),
        };
        let text = order.to_string();
        let words = text
            .split_once(": ")
            .map_or(text.as_str(), |(_, words)| words);
        let line = match (order.message, Status::of(order.value)) {
            (MessageType::Notify, Some(status)) => format!(
                "to {name}: Notify, AS {} {status}",
                self.ases[order.subject as usize]
            ),
            _ => format!("to {name}: {words}"),
        };
        if self.log.says(Level::All) {
            self.log.line(Level::All, format_args!("{line}"));
        } else {
            self.complain(p, format_args!("{line}"));
        }
    }

    fn carry_to_links(&mut self, order: &Order, message: &[u8], event: &Event<'_>, g: &Gateway) {
        let side = self.link_side();
        if self.links == Links::Loop {
            self.captured(End::LinkSide, true, message);
            return self.next.extend(
                links::simulated(order, message, g)
                    .into_iter()
                    .map(Next::Event),
            );
        }
        let origin = match event {
            Event::Message { asp, .. } => *asp,
            _ => side,
        };
        let mark = self.mark(order, origin);
        if self.peers[side].association.is_none() {
            self.send(side, message, mark);
            self.complain(
                side,
                format_args!(
                    "links: not connected, {} of link {} is not carried out",
                    order.message, order.subject
                ),
            );
            let link = g
                .link_place(order.subject)
                .filter(|&l| g.raw().state[l] != 0);
            self.next
                .extend(link.map(|l| Next::Event(Happening::LinkDown(l))));
            return;
        }
        self.send(side, message, mark)
    }

    /// Sends a message to a peer; a peer for which too much waits is disconnected.
    pub fn send(&mut self, p: usize, message: &[u8], mark: Mark) {
        if !self.peers[p].has_room(message) {
            // it sends what it can first
            self.flush_journal();
        }
        let fate = self.peers[p].send(message, mark, self.now);
        self.units.lost |= fate != Fate::Taken && mark.unit.is_some();
        match fate {
            Fate::Taken => self.captured(self.end_of(p), true, message),
            Fate::Absent => {}
            Fate::Overflow => self.lose(p, "too much waits for it: disconnected"),
        }
    }

    /// Sends the gateway's own Heartbeat to an ASP where one is due; an ASP that does not answer is lost.
    pub fn beat(&mut self, p: usize) {
        if self.peers[p].association.is_none() {
            return;
        }
        if self.peers[p].paused {
            // what it says is not read for the moment
            self.peers[p].beats.heard();
        }
        match self.peers[p].beats.due(self.now) {
            Due::Nothing => {}
            Due::Beat(message) => {
                let name = &self.peers[p].name;
                self.log.line(
                    Level::All,
                    format_args!("to {name}: Heartbeat of the gateway"),
                );
                let mark = Mark {
                    origin: p,
                    unit: None,
                };
                self.send(p, &message, mark);
            }
            Due::Lost(count) => {
                let why = format!("it has not answered {count} Heartbeats: disconnected");
                self.lose(p, &why);
            }
        }
    }

    /// Sends what waits, to all peers.
    pub fn flush(&mut self) {
        self.flush_journal();
        for p in 0..self.peers.len() {
            if !self.peers[p].flush(self.now) {
                self.lose(p, "the association is over");
            }
        }
    }

    /// An association begins.
    pub fn begin(&mut self, p: usize, association: Association) {
        self.note(p, "begins");
        self.peers[p].begin(association, self.now);
    }

    /// Says in the journal where an association begins or ends.
    fn note(&mut self, p: usize, what: &str) {
        let socket = &self.peers[p].socket;
        let journal = self.journal.as_mut();
        let written = journal.map(|j| j.note(format_args!("{socket} {what}")));
        self.journalled(written);
    }

    /// Ends the association of a peer, if it has one, and lets that be known.
    pub fn lose(&mut self, p: usize, why: &str) {
        let unread = self.peers[p].counts.unread;
        let (association, dropped) = self.peers[p].end();
        let unread = self.peers[p].counts.unread - unread;
        let Some(association) = association else {
            return;
        };
        association.close(true);
        self.units.lost |= dropped > 0 || unread > 0;
        let name = &self.peers[p].name;
        let said = |count: u64, what: &str| match count {
            0 => String::new(),
            _ => format!(", {count} messages {what}"),
        };
        let waited = said(dropped as u64, "that waited are dropped");
        let unread = said(unread, "were not read");
        self.log.line(
            Level::Changes,
            format_args!("{name}: {why}{waited}{unread}"),
        );
        self.note(p, "ends");
        let end = self.end_of(p);
        if let Some(capture) = &mut self.capture {
            // a capture that cannot be written is told of at the next message
            let _ = capture.lost(end);
        }
        self.next.push_back(if p == self.link_side() {
            Next::LinksGone
        } else {
            Next::Event(Happening::Lost(p))
        });
    }

    /// A line about what a peer does wrong: the first few in a second, then how many more there were.
    pub fn complain(&mut self, p: usize, words: std::fmt::Arguments<'_>) {
        let (until, count) = self.complaints[p];
        if self.now >= until {
            self.sum_up(p);
            self.complaints[p] = (self.now + Duration::from_secs(1), 1);
        } else {
            self.complaints[p].1 = count + 1;
        }
        if self.complaints[p].1 <= COMPLAINTS {
            self.log.line(Level::Changes, words);
        }
    }

    /// Says how many complaints were left out, once their second is over.
    pub fn sum_up(&mut self, p: usize) {
        let (until, count) = self.complaints[p];
        if self.now >= until && count > COMPLAINTS {
            let name = self.peers.get(p).map_or("sctp".into(), |p| p.name.clone());
            let more = count - COMPLAINTS;
            self.log.line(
                Level::Changes,
                format_args!("{name}: {more} more such lines"),
            );
            self.complaints[p].1 = 0;
        }
    }

    /// Says how many units were not delivered since it was said last: a second after the first of them, and
    /// with `now` at once.
    pub fn say_losses(&mut self, now: bool) {
        if std::mem::take(&mut self.units.lost) && self.say_at.is_none() {
            self.say_at = Some(self.now + LOSSES);
        }
        if !self.say_at.is_some_and(|at| now || at <= self.now) {
            return;
        }
        self.say_at = None;
        for a in 0..self.ases.len() {
            let losses = Losses::of(a, &self.units, &self.peers);
            let new = losses.since(&self.said[a]);
            self.said[a] = losses;
            if new != Losses::default() {
                self.log.line(
                    Level::Changes,
                    format_args!("AS {}: units not delivered: {new}", self.ases[a]),
                );
            }
        }
    }

    /// What has become of ASPs, ASes and links by the last event.
    pub fn log_changes(&mut self, engine: &Engine) {
        let (was, is) = (&engine.before, &engine.state);
        if !self.log.says(Level::Changes) || !engine.has_changed() {
            return;
        }
        for p in (0..is.asps()).filter(|&p| was.is_up(p) != is.is_up(p)) {
            let (name, state) = (&self.peers[p].name, if is.is_up(p) { "up" } else { "down" });
            self.log
                .line(Level::Changes, format_args!("ASP {name} is {state}"));
        }
        for (a, name) in self.ases.iter().enumerate() {
            let moved = (0..is.asps()).any(|p| was.is_active(a, p) != is.is_active(a, p));
            if let Some(state) = is
                .as_state(a)
                .filter(|s| moved || was.as_state(a) != Some(*s))
            {
                let active: Vec<&str> = (0..is.asps())
                    .filter(|&p| is.is_active(a, p))
                    .map(|p| self.peers[p].name.as_str())
                    .collect();
                let who = if active.is_empty() {
                    String::new()
                } else {
                    format!(": {}", active.join(", "))
                };
                self.log
                    .line(Level::Changes, format_args!("AS {name} is {state}{who}"));
            }
        }
        for l in (0..is.links()).filter(|&l| was.link_state(l) != is.link_state(l)) {
            if let (Some(id), Some(state)) = (is.interface_id(l), is.link_state(l)) {
                self.log
                    .line(Level::Changes, format_args!("link {id} is {state}"));
            }
        }
    }
}
