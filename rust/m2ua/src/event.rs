//! Events.
use crate::message::read;
use crate::sys;
use std::fmt;

/// What happens to the gateway (Rule 6.1).
#[derive(Clone, Copy, Debug, PartialEq, Eq)]
pub enum Event<'a> {
    /// A message has come on the association of an ASP, any bytes.
    Message {
        /// The ASP's number.
        asp: usize,
        /// The bytes.
        message: &'a [u8],
    },
    /// The association of an ASP is lost.
    Lost {
        /// The ASP's number.
        asp: usize,
    },
    /// The recovery time T(r) of an AS is over.
    Recovery {
        /// The AS's number.
        r#as: usize,
    },
    /// A link is in service.
    LinkUp {
        /// The link's place.
        link: usize,
    },
    /// A link is out of service.
    LinkDown {
        /// The link's place.
        link: usize,
    },
    /// The link side has a message for the ASPs: 6.1, 6.8, 6.9 or 6.11 to 6.14, with the identifier of its
    /// link. A 6.11 has a sequence number that the link can have (Rule 5.23).
    LinkMessage {
        /// The bytes.
        message: &'a [u8],
    },
}

impl<'a> Event<'a> {
    /// As `m2ua_event` takes it: the number of its kind, what it names, its message.
    pub(crate) fn parts(&self) -> (u32, usize, &'a [u8]) {
        match *self {
            Event::Message { asp, message } => (sys::MESSAGE, asp, message),
            Event::Lost { asp } => (sys::LOST, asp, &[]),
            Event::Recovery { r#as } => (sys::RECOVERY, r#as, &[]),
            Event::LinkUp { link } => (sys::LINK_UP, link, &[]),
            Event::LinkDown { link } => (sys::LINK_DOWN, link, &[]),
            Event::LinkMessage { message } => (sys::LINK_MESSAGE, 0, message),
        }
    }
}

impl fmt::Display for Event<'_> {
    fn fmt(&self, f: &mut fmt::Formatter<'_>) -> fmt::Result {
        match *self {
            Event::Message { asp, message } => {
                write!(f, "ASP {asp}: ")?;
                said(message, f)
            }
            Event::Lost { asp } => write!(f, "ASP {asp}: association lost"),
            Event::Recovery { r#as } => write!(f, "AS {}: recovery time over", r#as),
            Event::LinkUp { link } => write!(f, "link at place {link}: up"),
            Event::LinkDown { link } => write!(f, "link at place {link}: down"),
            Event::LinkMessage { message } => {
                f.write_str("link side: ")?;
                said(message, f)
            }
        }
    }
}

fn said(message: &[u8], f: &mut fmt::Formatter<'_>) -> fmt::Result {
    match read(message) {
        Ok(reading) => write!(f, "{reading}"),
        Err(no) => write!(f, "{} bytes that do not read: {no}", message.len()),
    }
}
