//! What a refused call says.
use crate::sys;
use crate::words::error_name;
use std::fmt;

/// The number of a refusal (Rule 6.7), with its meaning as text. A refused call changes nothing.
#[derive(Clone, Copy, Debug, PartialEq, Eq, Hash)]
pub struct Refusal(u32);

impl Refusal {
    /// The number: an Error code of RFC 3331 from the reader and the writer, 101 to 106 from events and
    /// orders, 201 or 202 from the loading of a plan.
    pub fn code(self) -> u32 {
        self.0
    }

    /// The refusal of a number; `None` for 0, which is none.
    pub fn of(code: u32) -> Option<Refusal> {
        (code != sys::OK).then_some(Refusal(code))
    }

    /// `Ok` for 0.
    pub(crate) fn check(code: u32) -> Result<(), Refusal> {
        Refusal::of(code).map_or(Ok(()), Err)
    }
}

impl fmt::Display for Refusal {
    fn fmt(&self, f: &mut fmt::Formatter<'_>) -> fmt::Result {
        let meaning = match self.0 {
            sys::REFUSED_LIST => "the lent list of words is too short",
            sys::REFUSED_PLACE => "no such ASP, AS or link in the plan, or a message of the link side that does not fit",
            sys::REFUSED_BUFFER => "the lent buffer is too short",
            sys::REFUSED_ORDER => "the event has no such order, or it goes to the link side",
            sys::REFUSED_STATE => "the state is not sound",
            sys::REFUSED_HOLD => "the lent hold has another length",
            sys::REFUSED_LAYOUT => "plan file: a count, an offset or the length is wrong",
            sys::REFUSED_ROW => "plan file: a row is wrong",
            code => error_name(code),
        };
        write!(f, "{} ({meaning})", self.0)
    }
}

impl std::error::Error for Refusal {}
