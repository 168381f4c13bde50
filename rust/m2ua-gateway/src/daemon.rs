//! The daemon: one loop that waits for sockets, signals and timers, makes an event of what has happened, and
//! has the orders carried out. Events come one after the other, each with all of its orders, before anything
//! more is read.
use crate::arrivals::{self, Held};
use crate::dump;
use crate::engine::Engine;
use crate::files::{Entrance, Folder};
use crate::kernel;
use crate::links;
use crate::log::Level;
use crate::options::Options;
use crate::os::{self, Epoll, Ready, Signals};
use crate::outside::{Next, Outside};
use crate::queue::Mark;
use crate::records::Capture;
use crate::sctp;
use crate::transport::{Association, Batch, Received, Told};
use m2ua::{Event, Refusal};
use m2ua_plan::Plan;
use m2ua_trace::capture::End;
use std::io::{Error, ErrorKind, Result};
use std::time::{Duration, Instant, SystemTime};

/// The SCTP stack does not always tell that it has room again: so it is asked.
const SEND_AGAIN: Duration = Duration::from_millis(1);

/// So long nobody is let in when there is no descriptor for a peer.
const CLOSED: Duration = Duration::from_secs(1);

/// So often is read of a peer before a second association of it is refused: more than what the transport
/// keeps.
const DRAIN: usize = 1024;

/// What is watched, by number: the peers, their listening sockets, and three more.
const LISTENERS: u64 = 32;
const SIGNALS: u64 = 64;
const WAKE: u64 = 65;
const KERNEL: u64 = 66;

/// What a daemon has opened.
pub struct Opened {
    pub watch: Epoll,
    pub signals: Signals,
    pub folder: Folder,
    /// Of each peer the socket where it connects.
    pub listeners: Vec<Entrance>,
    pub sctp: Option<(sctp::Stack, sctp::Listener)>,
    /// Where the kernel's SCTP listens.
    pub kernel: Option<kernel::Listener>,
}

impl Opened {
    /// Watches all of it.
    pub fn watched(&self) -> Result<()> {
        self.watch.add(&self.signals, SIGNALS)?;
        for (p, listener) in self.listeners.iter().enumerate() {
            self.watch.add(listener, LISTENERS + p as u64)?;
        }
        if let Some((stack, _)) = &self.sctp {
            self.watch.add(stack.wake(), WAKE)?;
        }
        match &self.kernel {
            Some(listener) => self.watch.add(listener, KERNEL),
            None => Ok(()),
        }
    }
}

pub struct Daemon {
    pub options: Options,
    pub plan: Plan,
    pub engine: Engine,
    pub outside: Outside,
    pub opened: Opened,
    /// Of each AS that waits, when its recovery time is over.
    pub timers: Vec<Option<Instant>>,
    /// What each peer's socket is watched for: to read, to write.
    pub interests: Vec<(bool, bool)>,
    /// Associations of which is not yet known whose they are.
    pub held: Vec<Held>,
    /// Until when nobody is let in at the Unix sockets.
    pub closed: Option<Instant>,
    /// Room for what is read.
    pub batch: Option<Box<Batch>>,
}

impl Daemon {
    /// Serves until a signal ends it.
    pub fn run(mut self) -> Result<()> {
        let mut room = [Ready::NONE; 64];
        loop {
            let patience = self.patience();
            let ready = self.opened.watch.wait(&mut room, patience)?;
            self.outside.set_time(Instant::now(), SystemTime::now());
            for one in ready {
                if !self.serve(one) {
                    return self.finish();
                }
            }
            self.serve_sctp();
            self.serve_held();
            self.serve_timers();
            self.end_turn()?;
        }
    }

    /// How long nothing is due: not at all where something has come that no descriptor tells.
    fn patience(&self) -> Option<Duration> {
        let peers = &self.outside.peers;
        let mut sctp = peers.iter().filter(|p| is_sctp(&p.association));
        if sctp.clone().any(|p| p.ready && !p.paused) {
            return Some(Duration::ZERO);
        }
        let stalls = peers
            .iter()
            .filter(|p| p.waiting().1 > 0)
            .map(|p| p.progress + self.options.stall);
        let again = sctp
            .any(|p| p.blocked)
            .then(|| self.outside.now + SEND_AGAIN);
        let held = (!self.held.is_empty()).then(|| self.outside.now + arrivals::ASK_AGAIN);
        let due = self.timers.iter().flatten().copied();
        let others = [self.closed, self.outside.say_at];
        let connected = peers.iter().filter(|p| p.association.is_some());
        let beats = connected.filter_map(|p| p.beats.next());
        let due = due
            .chain(stalls)
            .chain(beats)
            .chain(again)
            .chain(held)
            .chain(others.into_iter().flatten());
        let due = due.min()?;
        Some(due.saturating_duration_since(Instant::now()))
    }

    /// Serves one descriptor; `false` where the daemon is to end.
    fn serve(&mut self, ready: &Ready) -> bool {
        match ready.number() {
            SIGNALS => return self.signalled(),
            WAKE => self.wake(),
            KERNEL => self.accept_kernel(),
            n if n >= LISTENERS => self.accept((n - LISTENERS) as usize),
            n => {
                let p = n as usize;
                self.outside.peers[p].unblock();
                if ready.is_closed() && self.outside.peers[p].paused {
                    self.lose_unread(p);
                }
                self.read(p);
            }
        }
        true
    }

    /// A peer of which nothing is read for the moment has gone: what it sent last is not waited for. The loss
    /// is an event before anything else is, and before the peer is let in again: else what others order for
    /// it would go to an association that has not come up.
    fn lose_unread(&mut self, p: usize) {
        self.outside.lose(p, "the association is over");
        self.deliver();
    }

    /// Takes messages of a peer, each with all that follows from it.
    fn read(&mut self, p: usize) {
        if self.outside.is_full(p) {
            return;
        }
        let mut batch = self.batch.take().unwrap_or_default();
        self.outside.peers[p].receive(&mut batch);
        for k in 0..batch.len() {
            // what came before its end, and was not yet taken then, is no event
            if self.outside.peers[p].association.is_none() {
                break;
            }
            let (received, bytes) = batch.get(k);
            match received {
                Received::Message(length) => self.message(p, bytes, length),
                Received::Foreign(ppid) => {
                    let name = self.outside.peers[p].name.clone();
                    self.outside.complain(
                        p,
                        format_args!(
                            "{name}: a message of payload protocol {ppid}, not 2, is passed over"
                        ),
                    )
                }
                Received::Told(told) => {
                    let line = format!("{}: sctp: {told}", self.outside.peers[p].name);
                    // addresses may come and go as often as a network likes
                    match told {
                        Told::Address(..) => self.outside.complain(p, format_args!("{line}")),
                        _ => self
                            .outside
                            .log
                            .line(Level::Changes, format_args!("{line}")),
                    }
                }
                // what comes of the old association and what of the new one cannot be told apart any more
                Received::Restarted => self
                    .outside
                    .lose(p, "the peer has begun anew: it has to connect again"),
                Received::Ended | Received::Reset => {
                    self.outside.lose(p, "the association is over")
                }
            }
            self.settle();
        }
        self.batch = Some(batch);
        self.deliver();
    }

    /// A message of an ASP is an event whatever it is; one of the link side says which event it is.
    fn message(&mut self, p: usize, message: &[u8], length: usize) {
        if length > message.len() {
            let name = self.outside.peers[p].name.clone();
            self.outside.complain(
                p,
                format_args!(
                    "{name}: a message of {length} bytes; the longest that reads has 2048"
                ),
            );
        }
        if p != self.outside.link_side() {
            return self.happens(&Event::Message { asp: p, message });
        }
        match links::event_of(message, &self.engine.state) {
            Some(event) => {
                if !matches!(event, Event::LinkMessage { .. }) {
                    self.outside.captured(End::LinkSide, false, message);
                }
                self.happens(&event)
            }
            None => self.link_fault(m2ua::sys::ERROR_INVALID_INTERFACE_ID, message),
        }
    }

    /// An event, and its orders carried out.
    fn happens(&mut self, event: &Event<'_>) {
        self.outside.record(event, &self.engine.state);
        if let Err(no) = self.engine.run(event) {
            return self.refused(event, no);
        }
        self.outside.units.count(event, &self.engine);
        self.set_timers();
        for (order, message) in self.engine.orders() {
            self.outside
                .carry_out(&order, message, event, &self.engine.state);
        }
        self.outside.log_changes(&self.engine);
    }

    /// Sends what the events until here have ordered, with what follows from that.
    fn deliver(&mut self) {
        self.settle();
        self.outside.flush();
        while !self.outside.next.is_empty() {
            self.settle();
            self.outside.flush();
        }
    }

    /// What follows from the events until here: lost associations, and what simulated links answer.
    fn settle(&mut self) {
        while let Some(next) = self.outside.next.pop_front() {
            match next {
                Next::Event(happening) => self.happens(&happening.event()),
                Next::LinksGone => {
                    let busy: Vec<usize> = (0..self.engine.state.links())
                        .filter(|&l| self.engine.state.raw().state[l] != 0)
                        .collect();
                    busy.into_iter()
                        .for_each(|link| self.happens(&Event::LinkDown { link }));
                }
            }
        }
    }

    /// Of all events only a message of the link side is ever refused here, and it is answered by an Error.
    fn refused(&mut self, event: &Event<'_>, no: Refusal) {
        match event {
            Event::LinkMessage { message } if no.code() == m2ua::sys::REFUSED_PLACE => {
                self.link_fault(links::why_refused(message, &self.engine.state), message)
            }
            _ => self
                .outside
                .log
                .line(Level::Faults, format_args!("refused: {event}: {no}")),
        }
    }

    fn link_fault(&mut self, code: u32, message: &[u8]) {
        let side = self.outside.link_side();
        let text = Refusal::of(code).map_or(String::new(), |no| no.to_string());
        self.outside.complain(
            side,
            format_args!("links: a message that is no event is answered by Error {text}"),
        );
        let mark = Mark {
            origin: side,
            unit: None,
        };
        self.outside.send(side, &links::error(code, message), mark);
    }

    fn set_timers(&mut self) {
        let Some(timers) = self.engine.timers() else {
            return;
        };
        for a in timers.started() {
            self.timers[a] = Some(self.outside.now + self.options.recovery);
        }
        for a in timers.stopped() {
            self.timers[a] = None;
        }
    }

    fn serve_timers(&mut self) {
        let now = self.outside.now;
        if self.closed.is_some_and(|until| until <= now) {
            self.let_in(true);
        }
        for a in 0..self.timers.len() {
            if self.timers[a].is_some_and(|due| due <= now) {
                self.timers[a] = None;
                self.happens(&Event::Recovery { r#as: a });
            }
        }
        for p in 0..self.outside.peers.len() {
            self.outside.beat(p);
            let peer = &self.outside.peers[p];
            if peer.waiting().1 > 0 && peer.progress + self.options.stall <= now {
                self.outside.lose(
                    p,
                    "it takes nothing while messages wait for it: disconnected",
                );
            }
        }
        self.deliver();
    }

    /// A peer connects to its Unix socket. It has one association at a time.
    fn accept(&mut self, p: usize) {
        loop {
            match self.opened.listeners[p].accept() {
                Ok(socket) => self.begin(p, Association::Packets(socket), ""),
                Err(e) if e.kind() == ErrorKind::WouldBlock => return,
                // it has gone again before its turn
                Err(e)
                    if matches!(
                        e.kind(),
                        ErrorKind::Interrupted | ErrorKind::ConnectionAborted
                    ) => {}
                Err(e) => {
                    let name = self.outside.peers[p].name.clone();
                    return self.not_let_in(&name, &e);
                }
            }
        }
    }

    pub(crate) fn not_let_in(&mut self, name: &str, why: &Error) {
        let line = format_args!("{name}: cannot be let in, and nobody is for a second: {why}");
        self.outside.log.line(Level::Faults, line);
        self.let_in(false);
    }

    /// Whether peers are let in. They are not for a while after one could not be: without a descriptor for
    /// it, it would be told of again and again.
    fn let_in(&mut self, now: bool) {
        self.closed = (!now).then(|| self.outside.now + CLOSED);
        let opened = &self.opened;
        let numbered = (LISTENERS..).zip(&opened.listeners);
        let unix = numbered.map(|(number, l)| opened.watch.set(l, number, now, false));
        let kernel = opened.kernel.iter();
        let kernel = kernel.map(|l| opened.watch.set(l, KERNEL, now, false));
        for done in unix.chain(kernel) {
            if let Err(e) = done {
                let line = format_args!("epoll: {e}");
                self.outside.log.line(Level::Faults, line);
            }
        }
    }

    pub(crate) fn begin(&mut self, p: usize, association: Association, from: &str) {
        let (name, transport) = (self.outside.peers[p].name.clone(), association.transport());
        self.drain(p);
        if self.outside.peers[p].association.is_some() {
            self.outside.complain(
                p,
                format_args!("{name}: a second association ({transport}{from}) is refused"),
            );
            return association.close(true);
        }
        if association.is_watched() {
            if let Err(e) = self.opened.watch.add(&association, p as u64) {
                let line = format_args!("{name}: cannot be watched: {e}");
                self.outside.log.line(Level::Faults, line);
                return association.close(true);
            }
            self.interests[p] = (true, false);
        }
        self.outside.log.line(
            Level::Changes,
            format_args!("{name}: association ({transport}{from})"),
        );
        self.outside.begin(p, association);
    }

    /// Takes all that a peer has sent by now. One that was killed and comes again does so when its old
    /// association is over: then the end of that is among it, and the new one is not a second one. Where
    /// nothing is read of the peer for the moment, the association itself is asked.
    fn drain(&mut self, p: usize) {
        for _ in 0..DRAIN {
            let Some(association) = &self.outside.peers[p].association else {
                return;
            };
            if self.outside.is_full(p) {
                if association.is_over() {
                    self.lose_unread(p);
                }
                return;
            }
            self.read(p);
            if self.outside.peers[p].came == 0 {
                return;
            }
        }
    }

    /// The SCTP stack has something: which association, it does not tell.
    fn wake(&mut self) {
        let Some((stack, listener)) = &self.opened.sctp else {
            return;
        };
        os::calm(stack.wake());
        let new: Vec<_> = std::iter::from_fn(|| listener.accept()).collect();
        for (association, peer) in new {
            self.arrives(&[peer], Association::Sctp(association));
        }
        for peer in self
            .outside
            .peers
            .iter_mut()
            .filter(|p| is_sctp(&p.association))
        {
            peer.ready = true;
        }
    }

    fn serve_sctp(&mut self) {
        if self.opened.sctp.is_none() {
            return;
        }
        for p in 0..self.outside.peers.len() {
            if is_sctp(&self.outside.peers[p].association) {
                // what waits is tried at the end of the turn
                self.outside.peers[p].unblock();
                if self.outside.peers[p].ready {
                    self.read(p);
                }
            }
        }
    }

    /// What peers are watched for from here on, and what is written down.
    fn end_turn(&mut self) -> Result<()> {
        self.outside.sum_up(self.outside.stranger());
        self.outside.say_losses(false);
        for p in 0..self.outside.peers.len() {
            let full = self.outside.is_full(p);
            self.outside.sum_up(p);
            let peer = &mut self.outside.peers[p];
            peer.paused = full;
            let interest = (!full, peer.blocked);
            let watched = peer.association.as_ref().is_some_and(|a| a.is_watched());
            if interest != self.interests[p] && watched {
                self.opened.watch.set(
                    peer.association.as_ref().expect("there is one"),
                    p as u64,
                    interest.0,
                    interest.1,
                )?;
                self.interests[p] = interest;
            }
        }
        self.write_down();
        Ok(())
    }

    fn write_down(&mut self) {
        let outside = &mut self.outside;
        outside.log.flush();
        outside.flush_journal();
        if let Some(Err(e)) = outside.capture.as_mut().map(|c| c.flush()) {
            outside.capture = None;
            outside
                .log
                .line(Level::Faults, format_args!("capture: {e}; it ends here"));
        }
    }

    /// Signals; `false` where one ends the daemon.
    fn signalled(&mut self) -> bool {
        while let Some(signal) = self.opened.signals.next() {
            match signal {
                os::SIGHUP => self.reopen(),
                os::SIGUSR1 => self.dump(),
                os::SIGUSR2 => self.toggle_capture(),
                _ => return false,
            }
        }
        true
    }

    /// Opens log, journal and capture anew where they were moved away; the state and all associations stay.
    fn reopen(&mut self) {
        self.write_down();
        let path = self.options.log_file.as_deref();
        let done = path.map(|path| self.outside.log.reopen(path));
        self.outside.reopened("log", done);
        let done = self.outside.journal.as_mut().map(|j| j.reopen());
        self.outside.reopened("journal", done);
        let now = SystemTime::now();
        let done = self.outside.capture.as_mut().map(|c| c.reopen(now));
        self.outside.reopened("capture", done);
        self.outside.log.line(
            Level::Faults,
            format_args!(
                "m2ua-gateway: opened its files anew, after {} events",
                self.engine.events
            ),
        );
    }

    fn dump(&mut self) {
        self.write_down();
        self.outside.peers.iter_mut().for_each(|p| p.measure());
        let path = self.opened.folder.join("state");
        let text = dump::text(&self.plan, &self.engine, &self.outside, SystemTime::now());
        match self.opened.folder.replace("state", &text) {
            Ok(()) => self.outside.log.line(
                Level::Changes,
                format_args!(
                    "dump: {} after {} events",
                    path.display(),
                    self.engine.events
                ),
            ),
            Err(e) => self
                .outside
                .log
                .line(Level::Faults, format_args!("dump: {}: {e}", path.display())),
        }
    }

    pub fn toggle_capture(&mut self) {
        let path = self.opened.folder.join("m2ua.pcap");
        if let Some(mut capture) = self.outside.capture.take() {
            let ended = capture
                .flush()
                .map_or_else(|e| e.to_string(), |()| "ended".into());
            return self
                .outside
                .log
                .line(Level::Changes, format_args!("capture: {ended}"));
        }
        match Capture::open(&path, SystemTime::now()) {
            Ok(capture) => {
                self.outside.capture = Some(capture);
                self.outside
                    .log
                    .line(Level::Changes, format_args!("capture: {}", path.display()));
            }
            Err(e) => self.outside.log.line(
                Level::Faults,
                format_args!("capture: {}: {e}", path.display()),
            ),
        }
    }

    /// Ends: no more is read, what waits is sent as far as it goes within a second, associations are closed
    /// in order.
    fn finish(mut self) -> Result<()> {
        self.outside.log.line(
            Level::Faults,
            format_args!(
                "m2ua-gateway: ends by a signal, after {} events",
                self.engine.events
            ),
        );
        self.outside.flush();
        let end = Instant::now() + Duration::from_secs(1);
        while Instant::now() < end && self.outside.peers.iter().any(|p| p.waiting().1 > 0) {
            self.outside.peers.iter_mut().for_each(|p| p.unblock());
            self.outside.flush();
            std::thread::sleep(Duration::from_millis(5));
        }
        for peer in &mut self.outside.peers {
            if let (Some(association), dropped) = peer.end() {
                association.close(false);
                if dropped > 0 {
                    self.outside.log.line(
                        Level::Faults,
                        format_args!("{}: {dropped} messages that waited are dropped", peer.name),
                    );
                }
            }
        }
        if let Some((stack, listener)) = self.opened.sctp.take() {
            listener.close();
            stack.stop(Duration::from_secs(1));
        }
        self.opened.listeners.clear();
        self.outside.units.lost = true;
        self.outside.say_losses(true);
        let ended = self.outside.journal.as_mut().map(|j| j.end());
        self.outside.journalled(ended);
        self.write_down();
        Ok(())
    }
}

/// Whether it is one of libusrsctp's, of which no descriptor tells.
fn is_sctp(association: &Option<Association>) -> bool {
    association.as_ref().is_some_and(|a| !a.is_watched())
}
