//! The orders of an event that is not kept, as the bytes of messages: the state is only read. A host that
//! keeps the event has all its messages from [`Gateway::handle`].
use crate::event::Event;
use crate::gateway::Gateway;
use crate::hold::Hold;
use crate::refusal::Refusal;
use crate::sys;

impl Gateway {
    /// Writes the order at a place of an event on this state as the message that goes to its ASP (Rule 8.15),
    /// and hands back its length. This is the state before the event, and `hold` the one that goes with it.
    /// Refused: 102 as the event itself; 104 where there is no such order, or it goes to the link side; 103
    /// where the buffer is short. A buffer of 2,048 bytes (`sys::MAX_MESSAGE`) holds every message. It
    /// allocates nothing.
    pub fn order_into(
        &self,
        event: &Event<'_>,
        hold: &Hold,
        place: usize,
        out: &mut [u8],
    ) -> Result<usize, Refusal> {
        let (kind, index, message) = event.parts();
        let hold = &hold.bytes[..];
        let written = sys::order(&self.state, kind, index, message, hold, place, out);
        Refusal::check(written.code).map(|()| written.length)
    }

    /// The message of the order at a place of an event on this state.
    pub fn order(&self, event: &Event<'_>, hold: &Hold, place: usize) -> Result<Vec<u8>, Refusal> {
        let mut out = [0; sys::MAX_MESSAGE];
        let length = self.order_into(event, hold, place, &mut out)?;
        Ok(out[..length].to_vec())
    }

    /// Writes the messages of as many orders, from a place on, as go into a buffer and have a place in
    /// `lens`, one behind the other (Rule 8.16): how many orders that were, and how many bytes. The length of
    /// an order to the link side is 0. Refused: 102 as the event itself; 104 where the place is beyond the
    /// orders; 103 where not one goes in. It allocates nothing.
    pub fn orders_into(
        &self,
        event: &Event<'_>,
        hold: &Hold,
        place: usize,
        lens: &mut [u32],
        out: &mut [u8],
    ) -> Result<(usize, usize), Refusal> {
        let (kind, index, message) = event.parts();
        let hold = &hold.bytes[..];
        let batch = sys::orders(&self.state, kind, index, message, hold, place, lens, out);
        Refusal::check(batch.code).map(|()| (batch.count, batch.length))
    }
}
