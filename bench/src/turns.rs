//! Events that are timed again and again on a state that they change where it lies. Where each leads to the
//! state of the next, or leaves the state as it is, nothing is to be put back; else the state is copied back
//! before each call, for both sides alike (some 40 ns).
use crate::lines::{Call, What};
use second::events::LIST_WORDS;
use second::{Gateway, HOLD_BYTES};

/// Events in turn, each with the state that it meets.
pub struct Turns<'a> {
    pub calls: &'a [(Gateway, Call)],
    /// Whether the state is to be put back.
    back: bool,
}

impl<'a> Turns<'a> {
    pub fn new(calls: &'a [(Gateway, Call)], hold: &[u8]) -> Self {
        let back = calls.iter().enumerate().any(|(i, (state, call))| {
            let mut next = *state;
            call.second(&mut next, &mut hold.to_vec(), &mut [0; LIST_WORDS]);
            next != calls[(i + 1) % calls.len()].0
        });
        Turns { calls, back }
    }

    /// Whether the state is put back before each call.
    pub fn puts_back(&self) -> bool {
        self.back
    }

    /// A side that goes through them.
    pub fn side(&self) -> Side<'a> {
        Side {
            calls: self.calls,
            back: self.back,
            at: 0,
            state: self.calls[0].0,
        }
    }
}

/// One side: the state where it lies, and which call is next.
pub struct Side<'a> {
    calls: &'a [(Gateway, Call)],
    back: bool,
    at: usize,
    state: Gateway,
}

impl<'a> Side<'a> {
    #[inline(always)]
    pub fn turn(&mut self) -> (&mut Gateway, &'a Call) {
        let (state, call) = &self.calls[self.at];
        if self.back {
            self.state = *state;
        }
        self.at = if self.at + 1 == self.calls.len() {
            0
        } else {
            self.at + 1
        };
        (&mut self.state, call)
    }
}

/// A call that is lent a whole hold and a list of its length.
pub fn call(what: What, index: u32, message: &[u8]) -> Call {
    Call {
        what,
        index,
        message: message.to_vec(),
        hold: HOLD_BYTES,
        room: LIST_WORDS,
    }
}
