//! The gateway itself: the state, the hold that goes with it, and what the last event ordered, as words and
//! as bytes. All that a host does with an event is in [`Engine::run`].
use m2ua::{Event, Gateway, Hold, Order, Orders, Refusal, Timers};

pub struct Engine {
    /// The state after the last event, and before it: the log says what has changed.
    pub state: Gateway,
    pub before: Gateway,
    pub hold: Hold,
    /// How many events there have been that were not refused, and how many that were.
    pub events: u64,
    pub refused: u64,
    orders: Orders,
}

impl Engine {
    pub fn new(state: Gateway) -> Engine {
        Engine {
            before: state.clone(),
            state,
            hold: Hold::new(),
            events: 0,
            refused: 0,
            orders: Orders::new(),
        }
    }

    /// Runs an event: the state becomes the next one, and the orders can be asked for. A refused one changes
    /// nothing and has no orders.
    pub fn run(&mut self, event: &Event<'_>) -> Result<(), Refusal> {
        self.before.clone_from(&self.state);
        self.state
            .handle(event, &mut self.hold, &mut self.orders)
            .inspect_err(|_| self.refused += 1)?;
        self.events += 1;
        Ok(())
    }

    /// The orders of the last event in their sequence, each with its message; one to the link side has none.
    pub fn orders(&self) -> impl Iterator<Item = (Order, &[u8])> {
        self.orders.messages()
    }

    /// The recovery timers to start and stop after the last event; `None` where no AS began or ceased to
    /// wait.
    pub fn timers(&self) -> Option<Timers> {
        let timers = *self.orders.timers();
        (!timers.is_empty()).then_some(timers)
    }

    /// Whether the last event changed what an ASP is, or an AS: who is up, active, waits.
    pub fn has_changed(&self) -> bool {
        let (was, is) = (self.before.raw(), self.state.raw());
        was.up != is.up
            || was.active != is.active
            || was.waiting != is.waiting
            || was.state != is.state
    }
}
