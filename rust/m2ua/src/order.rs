//! Orders: what the host has to do after an event.
use crate::gateway::Timers;
use crate::message::MessageType;
use crate::sys;
use crate::words::error_name;
use std::fmt;

/// Who gets an order.
#[derive(Clone, Copy, Debug, PartialEq, Eq, Hash)]
pub enum Addressee {
    /// An ASP, by its number: the order is a message on its association.
    Asp(usize),
    /// The link side: the order is a primitive to MTP2 or its layer management.
    LinkSide,
}

impl fmt::Display for Addressee {
    fn fmt(&self, f: &mut fmt::Formatter<'_>) -> fmt::Result {
        match self {
            Addressee::Asp(p) => write!(f, "ASP {p}"),
            Addressee::LinkSide => f.write_str("the link side"),
        }
    }
}

/// What a Notify tells (Rule 8.5).
#[derive(Clone, Copy, Debug, PartialEq, Eq, Hash)]
#[non_exhaustive]
pub enum Status {
    /// The AS is inactive.
    AsInactive,
    /// The AS is active.
    AsActive,
    /// The AS is pending.
    AsPending,
    /// Another ASP is active now.
    OtherActive,
}

impl Status {
    /// The status of an order's value.
    pub fn of(value: u32) -> Option<Status> {
        match value {
            sys::STATUS_AS_INACTIVE => Some(Status::AsInactive),
            sys::STATUS_AS_ACTIVE => Some(Status::AsActive),
            sys::STATUS_AS_PENDING => Some(Status::AsPending),
            sys::STATUS_OTHER_ACTIVE => Some(Status::OtherActive),
            _ => None,
        }
    }
}

impl fmt::Display for Status {
    fn fmt(&self, f: &mut fmt::Formatter<'_>) -> fmt::Result {
        f.pad(match self {
            Status::AsInactive => "inactive",
            Status::AsActive => "active",
            Status::AsPending => "pending",
            Status::OtherActive => "taken over by another ASP",
        })
    }
}

/// An order (Rule 8.1).
#[derive(Clone, Copy, Debug, PartialEq, Eq, Hash)]
pub struct Order {
    /// Who gets it.
    pub to: Addressee,
    /// Which message it is.
    pub message: MessageType,
    /// In class 6 the interface identifier, in a Notify the number of the AS, in an Error of code 2 the
    /// refused identifier, else 0.
    pub subject: u32,
    /// Of an Error the code, of a Notify the status, of a Data Ack the correlation id, of State and Retrieval
    /// Requests what they ask for, else 0.
    pub value: u32,
}

impl Order {
    fn of(words: [u32; 4]) -> Order {
        let [to, word, subject, value] = words;
        Order {
            to: if to == sys::LINK_SIDE {
                Addressee::LinkSide
            } else {
                Addressee::Asp(to as usize)
            },
            message: MessageType::of(word / 256, word % 256)
                .expect("an order is a message of Rule 2.10"),
            subject,
            value,
        }
    }
}

impl fmt::Display for Order {
    fn fmt(&self, f: &mut fmt::Formatter<'_>) -> fmt::Result {
        write!(f, "to {}: {}", self.to, self.message)?;
        match self.message {
            MessageType::Error => {
                write!(f, " {} ({}", self.value, error_name(self.value))?;
                if self.value == sys::ERROR_INVALID_INTERFACE_ID {
                    write!(f, " {}", self.subject)?;
                }
                f.write_str(")")
            }
            MessageType::Notify => match Status::of(self.value) {
                Some(status) => write!(f, ", AS {} {status}", self.subject),
                None => write!(f, ", AS {} status {}", self.subject, self.value),
            },
            _ if self.message.class() != sys::CLASS_MAUP => Ok(()),
            MessageType::StateRequest => {
                write!(f, " of link {}, state {}", self.subject, self.value)
            }
            MessageType::RetrievalRequest => {
                write!(f, " of link {}, action {}", self.subject, self.value)
            }
            MessageType::DataAck => write!(
                f,
                " of link {}, correlation id {}",
                self.subject, self.value
            ),
            _ => write!(f, " of link {}", self.subject),
        }
    }
}

/// What a host lends to [`Gateway::handle`](crate::Gateway::handle), and what the last event that was handled
/// with it asks for: its orders in their sequence, the message of each, and the recovery timers to start and
/// to stop. Make one and use it for every event; it has room for all that an event can give, so nothing is
/// ever left out.
#[derive(Clone)]
pub struct Orders {
    pub(crate) words: Box<[u32; sys::LIST_WORDS]>,
    pub(crate) lens: Box<[u32; sys::MAX_ORDERS]>,
    pub(crate) bytes: Box<[u8]>,
    pub(crate) count: usize,
    pub(crate) timers: Timers,
}

impl Orders {
    /// A list without orders.
    pub fn new() -> Orders {
        Orders {
            words: Box::new([0; sys::LIST_WORDS]),
            lens: Box::new([0; sys::MAX_ORDERS]),
            bytes: vec![0; sys::ROOM_BYTES].into(),
            count: 0,
            timers: Timers::NONE,
        }
    }

    /// How many orders there are, at most 386 (`sys::MAX_ORDERS`).
    pub fn len(&self) -> usize {
        self.count
    }

    /// Whether there are none.
    pub fn is_empty(&self) -> bool {
        self.count == 0
    }

    /// The order at a place, from 0.
    pub fn get(&self, place: usize) -> Option<Order> {
        (place < self.count).then(|| {
            let words = &self.words[place * sys::ORDER_WORDS..];
            Order::of([words[0], words[1], words[2], words[3]])
        })
    }

    /// The orders in their sequence, in which they are to be carried out.
    pub fn iter(&self) -> impl Iterator<Item = Order> + '_ {
        (0..self.count).filter_map(|place| self.get(place))
    }

    /// The same, each with the message that goes to its ASP (Rules 8.8 to 8.18); one to the link side has
    /// none, which is no byte.
    pub fn messages(&self) -> impl Iterator<Item = (Order, &[u8])> {
        let mut rest = &self.bytes[..];
        self.iter()
            .zip(self.lens.iter())
            .map(move |(order, length)| {
                let (message, behind) = rest.split_at(*length as usize);
                rest = behind;
                (order, message)
            })
    }

    /// The recovery timers T(r) that the event starts and stops (Rule 5.19).
    pub fn timers(&self) -> &Timers {
        &self.timers
    }
}

impl Default for Orders {
    fn default() -> Orders {
        Orders::new()
    }
}

impl fmt::Debug for Orders {
    fn fmt(&self, f: &mut fmt::Formatter<'_>) -> fmt::Result {
        f.debug_list().entries(self.iter()).finish()
    }
}
