//! The M2UA side (RFC 3331) of a signalling gateway: SS7 links come in, call controllers (ASPs) take them
//! over by M2UA messages. This crate is a safe layer over the proved library `libm2ua.a`; it adds types,
//! words and no rule of its own. The rules are in docs/RULES.md, the guide for hosts is docs/HOST.md.
//!
//! A host has SCTP, timers and MTP2. It loads a [`Gateway`] from a plan file, makes a [`Hold`] to go with it
//! and [`Orders`] to lend, and for each thing that happens it makes an [`Event`], calls [`Gateway::handle`]
//! and carries out what the orders say:
//!
//! ```
//! use m2ua::{Addressee, Event, Gateway, Hold, MessageType, Orders};
//!
//! // One ASP with identifier 7 in one AS, override; one link with identifier 100.
//! let plan = [
//!     0, 0, 0, 24, 0, 0, 0, 1, 0, 0, 0, 32, 0, 0, 0, 1, 0, 0, 0, 36, 0, 0, 0, 1, // where the rows are, and how many
//!     0, 0, 0, 7, 0, 1, 0, 0, // an ASP: identifier, its ASes as bits, whether its lists are taken whole
//!     0, 0, 0, 1, // an AS: mode
//!     0, 0, 0, 100, 0, 0, 0, 0, // a link: identifier, kind, owner
//! ];
//! let (mut gateway, mut hold, mut orders) = (Gateway::load(&plan)?, Hold::new(), Orders::new());
//! let up = m2ua::write(MessageType::Up, &[])?;
//! gateway.handle(&Event::Message { asp: 0, message: &up }, &mut hold, &mut orders)?;
//! assert!(gateway.is_up(0));
//! let (first, message) = orders.messages().next().unwrap();
//! assert_eq!((first.to, first.message), (Addressee::Asp(0), MessageType::UpAck));
//! assert_eq!(first.to_string(), "to ASP 0: ASP Up Ack");
//! assert_eq!(message, m2ua::write(MessageType::UpAck, &[])?);
//! # Ok::<(), m2ua::Refusal>(())
//! ```
//!
//! The state lives where the host keeps it, and an event changes it there; so does the hold, which has the
//! bytes of the units that wait with a pending AS. One call gives everything that an event asks for, so no
//! order can be lost between two calls.
#![deny(unsafe_code)]
#![warn(missing_docs)]

mod bytes;
mod event;
mod gateway;
mod hold;
mod message;
mod order;
mod refusal;
#[allow(missing_docs)]
pub mod sys;
mod words;

pub use event::Event;
pub use gateway::{AsState, Gateway, LinkState, Timers, TrafficMode};
pub use hold::{Hold, Unit};
pub use message::{
    parameter, parameters, protocol_data, read, write, write_into, MessageType, Parameter,
    Parameters, Reading,
};
pub use order::{Addressee, Order, Orders, Status};
pub use refusal::Refusal;

/// The ABI of the library that is linked (`sys::ABI` is the one that this crate was written for).
pub fn abi() -> u32 {
    sys::abi()
}
