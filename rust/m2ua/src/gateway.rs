//! The gateway's state.
use crate::event::Event;
use crate::hold::Hold;
use crate::order::Orders;
use crate::refusal::Refusal;
use crate::sys;
use std::fmt;

/// How the ASPs of an AS share its traffic.
#[derive(Clone, Copy, Debug, PartialEq, Eq, Hash)]
pub enum TrafficMode {
    /// One at a time.
    Override,
    /// Each link to one of them.
    LoadShare,
    /// All to all of them.
    Broadcast,
}

impl TrafficMode {
    /// The mode of a number of RFC 3331.
    pub fn of(number: u32) -> Option<TrafficMode> {
        match number {
            sys::MODE_OVERRIDE => Some(TrafficMode::Override),
            sys::MODE_LOADSHARE => Some(TrafficMode::LoadShare),
            sys::MODE_BROADCAST => Some(TrafficMode::Broadcast),
            _ => None,
        }
    }

    /// Its number.
    pub fn number(self) -> u32 {
        match self {
            TrafficMode::Override => sys::MODE_OVERRIDE,
            TrafficMode::LoadShare => sys::MODE_LOADSHARE,
            TrafficMode::Broadcast => sys::MODE_BROADCAST,
        }
    }
}

impl fmt::Display for TrafficMode {
    fn fmt(&self, f: &mut fmt::Formatter<'_>) -> fmt::Result {
        f.pad(match self {
            TrafficMode::Override => "override",
            TrafficMode::LoadShare => "load-share",
            TrafficMode::Broadcast => "broadcast",
        })
    }
}

/// The state of a link (Rule 5.1).
#[derive(Clone, Copy, Debug, PartialEq, Eq, Hash)]
pub enum LinkState {
    /// Out of service.
    Idle,
    /// An Establish Request is under way.
    Starting,
    /// In service.
    InService,
    /// A Release Request is under way.
    Stopping,
}

impl fmt::Display for LinkState {
    fn fmt(&self, f: &mut fmt::Formatter<'_>) -> fmt::Result {
        f.pad(match self {
            LinkState::Idle => "idle",
            LinkState::Starting => "starting",
            LinkState::InService => "in service",
            LinkState::Stopping => "stopping",
        })
    }
}

/// The state of an AS (Rule 5.2).
#[derive(Clone, Copy, Debug, PartialEq, Eq, Hash)]
pub enum AsState {
    /// No member is up, and it does not wait.
    Down,
    /// A member is up, none is active, and it does not wait.
    Inactive,
    /// A member is active.
    Active,
    /// No member is active, and it waits for one.
    Pending,
}

impl fmt::Display for AsState {
    fn fmt(&self, f: &mut fmt::Formatter<'_>) -> fmt::Result {
        f.pad(match self {
            AsState::Down => "down",
            AsState::Inactive => "inactive",
            AsState::Active => "active",
            AsState::Pending => "pending",
        })
    }
}

/// The recovery timers T(r) that an event asks for (Rule 5.19).
#[derive(Clone, Copy, Debug, PartialEq, Eq)]
pub struct Timers {
    waits: sys::Waits,
}

impl Timers {
    pub(crate) const NONE: Timers = Timers {
        waits: sys::Waits {
            began: [0; sys::MAX_ASES],
            ended: [0; sys::MAX_ASES],
        },
    };

    /// Whether there is nothing to start and nothing to stop.
    pub fn is_empty(&self) -> bool {
        *self == Timers::NONE
    }

    /// The ASes whose timer is to be started.
    pub fn started(&self) -> impl Iterator<Item = usize> + '_ {
        (0..sys::MAX_ASES).filter(|&a| self.waits.began[a] == 1)
    }

    /// The ASes whose timer is to be stopped.
    pub fn stopped(&self) -> impl Iterator<Item = usize> + '_ {
        (0..sys::MAX_ASES).filter(|&a| self.waits.ended[a] == 1)
    }
}

/// The gateway's state (Rule 5.1): the plan, and what events have made of it. It lives where the host keeps
/// it, and events change it there. A clone is another gateway, with a hold of its own: clone the [`Hold`]
/// with it.
///
/// ASPs and ASes are named by number and links by place, all from 0 in the plan's order. What lies beyond the
/// plan is `false`, 0 or `None`.
#[derive(Clone, PartialEq, Eq)]
pub struct Gateway {
    pub(crate) state: sys::Gateway,
}

impl Gateway {
    /// The fresh state of a plan file (section 4 of the rules), or 201 or 202. The program `m2ua-plan` makes
    /// such files from text.
    ///
    /// ```
    /// assert_eq!(m2ua::Gateway::load(b"no plan").unwrap_err().code(), 201);
    /// ```
    pub fn load(file: &[u8]) -> Result<Gateway, Refusal> {
        let loaded = sys::load(file);
        Refusal::check(loaded.code)?;
        Ok(Gateway {
            state: loaded.gateway,
        })
    }

    /// A state that comes from elsewhere, as from another node: refused with 105 where it is not sound
    /// (Rule 5.4).
    pub fn from_raw(state: sys::Gateway) -> Result<Gateway, Refusal> {
        let code = if sys::is_sound(&state) {
            sys::OK
        } else {
            sys::REFUSED_STATE
        };
        Refusal::check(code).map(|()| Gateway { state })
    }

    /// The C struct.
    pub fn raw(&self) -> &sys::Gateway {
        &self.state
    }

    /// An event: the state becomes the next one, and `orders` has all that is to be done: the orders, their
    /// messages, the timers. `hold` is the one that goes with this state: Data for an AS that is pending is
    /// put there. Refused (102), state and hold are as they were, and `orders` is empty.
    ///
    /// ```
    /// # use m2ua::{Addressee, Event, Gateway, Hold, Orders, Refusal};
    /// # fn host(gateway: &mut Gateway, hold: &mut Hold, orders: &mut Orders, bytes: &[u8], send: fn(usize, &[u8])) -> Result<(), Refusal> {
    /// gateway.handle(&Event::Message { asp: 0, message: bytes }, hold, orders)?;
    /// for (order, message) in orders.messages() {
    ///     match order.to {
    ///         Addressee::Asp(asp) => send(asp, message),
    ///         Addressee::LinkSide => { /* order.message says what, order.subject which link */ }
    ///     }
    /// }
    /// for r#as in orders.timers().started() { /* start T(r) */ }
    /// for r#as in orders.timers().stopped() { /* stop it */ }
    /// # Ok(())
    /// # }
    /// ```
    pub fn handle(
        &mut self,
        event: &Event<'_>,
        hold: &mut Hold,
        orders: &mut Orders,
    ) -> Result<(), Refusal> {
        let (kind, index, message) = event.parts();
        let before = self.state.waiting;
        let handled = sys::handle(
            &mut self.state,
            kind,
            index,
            message,
            &mut hold.bytes[..],
            &mut orders.words,
            &mut orders.lens,
            &mut orders.bytes,
        );
        orders.count = handled.count;
        orders.timers = Timers {
            waits: sys::waits(&before, &self.state.waiting),
        };
        Refusal::check(handled.refusal)
    }

    /// The recovery timers to start and to stop where this state was before an event, or before several, and
    /// `next` is after.
    pub fn timers(&self, next: &Gateway) -> Timers {
        Timers {
            waits: sys::waits(&self.state.waiting, &next.state.waiting),
        }
    }

    /// The state of an AS.
    pub fn as_state(&self, r#as: usize) -> Option<AsState> {
        let answer = sys::as_state(&self.state, r#as);
        match (answer.code, answer.value) {
            (sys::OK, sys::AS_DOWN) => Some(AsState::Down),
            (sys::OK, sys::AS_INACTIVE) => Some(AsState::Inactive),
            (sys::OK, sys::AS_ACTIVE) => Some(AsState::Active),
            (sys::OK, sys::AS_PENDING) => Some(AsState::Pending),
            _ => None,
        }
    }

    /// The place of the link with an interface identifier.
    pub fn link_place(&self, id: u32) -> Option<usize> {
        let answer = sys::link_place(&self.state, id);
        (answer.code == sys::OK).then_some(answer.value as usize)
    }

    /// How many ASPs the plan has.
    pub fn asps(&self) -> usize {
        self.state.asps.into()
    }

    /// How many ASes the plan has.
    pub fn ases(&self) -> usize {
        self.state.ases.into()
    }

    /// How many links the plan has.
    pub fn links(&self) -> usize {
        self.state.links.into()
    }

    /// The identifier of an ASP.
    pub fn asp_id(&self, asp: usize) -> Option<u32> {
        (asp < self.asps()).then(|| self.state.aspid[asp])
    }

    /// Whether identifiers that an ASP lists are taken all or none: an Active or Inactive with one that it
    /// cannot have is answered by Error 2 alone. Without that, part of a list may succeed: the Ack says for
    /// which links, and Error 2 follows it with the first identifier that was bad (Rules 7.8, 8.11).
    ///
    /// ```
    /// use m2ua::{sys, write, Event, Gateway, Hold, MessageType, Orders, Parameter};
    ///
    /// // Two ASPs with identifiers 7 and 8 in one AS, load-share; the second's lists are taken whole; a link with identifier 100.
    /// let plan = [
    ///     0, 0, 0, 24, 0, 0, 0, 2, 0, 0, 0, 40, 0, 0, 0, 1, 0, 0, 0, 44, 0, 0, 0, 1, 0, 0, 0, 7, 0, 1, 0, 0, 0, 0, 0, 8, 0, 1, 0, 1, 0, 0, 0, 2, 0, 0, 0, 100, 0, 0, 0, 0,
    /// ];
    /// let (mut gateway, mut hold, mut orders) = (Gateway::load(&plan)?, Hold::new(), Orders::new());
    /// assert_eq!([0, 1, 2].map(|asp| gateway.takes_whole_lists(asp)), [false, true, false]);
    /// let up = write(MessageType::Up, &[])?;
    /// // Links 100 and 101, of which there is one.
    /// let active = write(MessageType::Active, &[Parameter::new(sys::TAG_INTERFACE_ID, &[0, 0, 0, 100, 0, 0, 0, 101])])?;
    /// for (asp, answer) in [(0, "to ASP 0: ASP Active Ack"), (1, "to ASP 1: Error 2 (invalid interface identifier 101)")] {
    ///     for message in [&up, &active] {
    ///         gateway.handle(&Event::Message { asp, message }, &mut hold, &mut orders)?;
    ///     }
    ///     assert_eq!(orders.get(0).unwrap().to_string(), answer);
    ///     assert_eq!(gateway.is_active(0, asp), asp == 0);
    /// }
    /// # Ok::<(), m2ua::Refusal>(())
    /// ```
    pub fn takes_whole_lists(&self, asp: usize) -> bool {
        self.state.wholelists.get(asp) == Some(&1)
    }

    /// The traffic mode of an AS.
    pub fn mode(&self, r#as: usize) -> Option<TrafficMode> {
        TrafficMode::of((*self.state.mode.get(r#as)?).into())
    }

    /// The interface identifier of the link at a place.
    pub fn interface_id(&self, link: usize) -> Option<u32> {
        (link < self.links()).then(|| self.state.iid[link])
    }

    /// The AS that owns the link at a place.
    pub fn owner(&self, link: usize) -> Option<usize> {
        (link < self.links()).then(|| self.state.owner[link].into())
    }

    /// Whether the link at a place is a high-speed one (ITU-T Q.703, Annex A), whose sequence numbers go up
    /// to 4,095. Those of a plain link go up to 127: a Retrieval Request with a greater one is answered by
    /// Error 17, and a Retrieval Confirm of the link side refused with 102 (Rule 5.23).
    ///
    /// ```
    /// use m2ua::{sys, write, Event, Gateway, Hold, MessageType, Orders, Parameter};
    ///
    /// // One ASP with identifier 7 in one AS, override; a plain link with identifier 100, a high-speed one with 200.
    /// let plan = [
    ///     0, 0, 0, 24, 0, 0, 0, 1, 0, 0, 0, 32, 0, 0, 0, 1, 0, 0, 0, 36, 0, 0, 0, 2, 0, 0, 0, 7, 0, 1, 0, 0, 0, 0, 0, 1, 0, 0, 0, 100, 0, 0, 0, 0, 0, 0, 0, 200, 0, 1, 0, 0,
    /// ];
    /// let (mut gateway, mut hold, mut orders) = (Gateway::load(&plan)?, Hold::new(), Orders::new());
    /// assert_eq!([0, 1, 2].map(|link| gateway.is_high_speed(link)), [false, true, false]);
    /// let (up, active) = (write(MessageType::Up, &[])?, write(MessageType::Active, &[])?);
    /// for message in [&up, &active] {
    ///     gateway.handle(&Event::Message { asp: 0, message }, &mut hold, &mut orders)?;
    /// }
    /// // The ASP asks both for what they have sent after number 128.
    /// for (id, answer) in [(200u32, "to the link side: Data Retrieval Request of link 200, action 2"), (100, "to ASP 0: Error 17 (invalid parameter value)")] {
    ///     let request = write(MessageType::RetrievalRequest, &[
    ///         Parameter::new(sys::TAG_INTERFACE_ID, &id.to_be_bytes()),
    ///         Parameter::new(sys::TAG_RETRIEVAL_ACTION, &sys::RETRIEVE_MESSAGES.to_be_bytes()),
    ///         Parameter::new(sys::TAG_SEQUENCE, &128u32.to_be_bytes()),
    ///     ])?;
    ///     gateway.handle(&Event::Message { asp: 0, message: &request }, &mut hold, &mut orders)?;
    ///     assert_eq!(orders.get(0).unwrap().to_string(), answer);
    /// }
    /// # Ok::<(), m2ua::Refusal>(())
    /// ```
    pub fn is_high_speed(&self, link: usize) -> bool {
        self.state.highspeed.get(link) == Some(&1)
    }

    /// Whether an ASP has part in an AS.
    pub fn is_member(&self, r#as: usize, asp: usize) -> bool {
        pair(&self.state.member, r#as, asp)
    }

    /// Whether an ASP is up.
    pub fn is_up(&self, asp: usize) -> bool {
        self.state.up.get(asp) == Some(&1)
    }

    /// Whether an ASP is active in an AS.
    pub fn is_active(&self, r#as: usize, asp: usize) -> bool {
        pair(&self.state.active, r#as, asp)
    }

    /// Whether an AS waits: then its recovery timer T(r) has to run.
    pub fn is_waiting(&self, r#as: usize) -> bool {
        self.state.waiting.get(r#as) == Some(&1)
    }

    /// The state of the link at a place.
    pub fn link_state(&self, link: usize) -> Option<LinkState> {
        (link < self.links()).then(|| match u32::from(self.state.state[link]) {
            sys::LINK_IDLE => LinkState::Idle,
            sys::LINK_STARTING => LinkState::Starting,
            sys::LINK_IN_SERVICE => LinkState::InService,
            _ => LinkState::Stopping,
        })
    }
}

fn pair(table: &[u8; sys::PAIRS], r#as: usize, asp: usize) -> bool {
    r#as < sys::MAX_ASES && asp < sys::MAX_ASPS && table[r#as * sys::MAX_ASPS + asp] == 1
}

impl fmt::Display for Gateway {
    /// One line: what is up, active and waiting, how many units are held, and the links that are not idle.
    fn fmt(&self, f: &mut fmt::Formatter<'_>) -> fmt::Result {
        let asps = (0..self.asps()).filter(|&p| self.is_up(p));
        write!(f, "up: {}", listed(asps.map(|p| format!("ASP {p}"))))?;
        for a in 0..self.ases() {
            let active = (0..self.asps()).filter(|&p| self.is_active(a, p));
            write!(
                f,
                "; AS {a}: {}",
                listed(active.map(|p| format!("ASP {p} active")))
            )?;
            if self.is_waiting(a) {
                f.write_str(", waits")?;
            }
            match self.held(a).count() {
                0 => {}
                1 => f.write_str(", 1 unit held")?,
                n => write!(f, ", {n} units held")?,
            }
        }
        for l in 0..self.links() {
            if let (Some(id), Some(state)) = (self.interface_id(l), self.link_state(l)) {
                if state != LinkState::Idle {
                    write!(f, "; link {id} {state}")?;
                }
            }
        }
        Ok(())
    }
}

fn listed(items: impl Iterator<Item = String>) -> String {
    let all: Vec<String> = items.collect();
    if all.is_empty() {
        return "none".into();
    }
    all.join(", ")
}

impl fmt::Debug for Gateway {
    fn fmt(&self, f: &mut fmt::Formatter<'_>) -> fmt::Result {
        write!(
            f,
            "Gateway({} ASPs, {} ASes, {} links; {self})",
            self.asps(),
            self.ases(),
            self.links()
        )
    }
}
