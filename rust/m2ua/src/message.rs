//! Messages: their types, read and written.
use crate::gateway::TrafficMode;
use crate::refusal::Refusal;
use crate::sys;
use crate::words::tag_name;
use std::fmt;

macro_rules! message_types {
    ($($name:ident $class:ident $number:ident $text:literal,)*) => {
        /// The message types that the gateway knows (Rule 2.10).
        #[derive(Clone, Copy, Debug, PartialEq, Eq, Hash)]
        #[non_exhaustive]
        pub enum MessageType {
            $(#[doc = $text] $name,)*
        }

        impl MessageType {
            /// Every type, by class and number.
            pub const ALL: &'static [MessageType] = &[$(MessageType::$name,)*];

            /// The type of a class and a number; `None` where there is none.
            pub fn of(class: u32, number: u32) -> Option<MessageType> {
                match (u8::try_from(class).ok()?, u8::try_from(number).ok()?) {
                    $((sys::$class, sys::$number) => Some(MessageType::$name),)*
                    _ => None,
                }
            }

            /// Its class.
            pub fn class(self) -> u8 {
                match self { $(MessageType::$name => sys::$class,)* }
            }

            /// Its number within the class.
            pub fn number(self) -> u8 {
                match self { $(MessageType::$name => sys::$number,)* }
            }
        }

        impl fmt::Display for MessageType {
            fn fmt(&self, f: &mut fmt::Formatter<'_>) -> fmt::Result {
                f.pad(match self { $(MessageType::$name => $text,)* })
            }
        }
    };
}

message_types! {
    Error CLASS_MGMT TYPE_ERROR "Error",
    Notify CLASS_MGMT TYPE_NOTIFY "Notify",
    Up CLASS_ASPSM TYPE_UP "ASP Up",
    Down CLASS_ASPSM TYPE_DOWN "ASP Down",
    Beat CLASS_ASPSM TYPE_BEAT "Heartbeat",
    UpAck CLASS_ASPSM TYPE_UP_ACK "ASP Up Ack",
    DownAck CLASS_ASPSM TYPE_DOWN_ACK "ASP Down Ack",
    BeatAck CLASS_ASPSM TYPE_BEAT_ACK "Heartbeat Ack",
    Active CLASS_ASPTM TYPE_ACTIVE "ASP Active",
    Inactive CLASS_ASPTM TYPE_INACTIVE "ASP Inactive",
    ActiveAck CLASS_ASPTM TYPE_ACTIVE_ACK "ASP Active Ack",
    InactiveAck CLASS_ASPTM TYPE_INACTIVE_ACK "ASP Inactive Ack",
    Data CLASS_MAUP TYPE_DATA "Data",
    EstablishRequest CLASS_MAUP TYPE_ESTABLISH_REQUEST "Establish Request",
    EstablishConfirm CLASS_MAUP TYPE_ESTABLISH_CONFIRM "Establish Confirm",
    ReleaseRequest CLASS_MAUP TYPE_RELEASE_REQUEST "Release Request",
    ReleaseConfirm CLASS_MAUP TYPE_RELEASE_CONFIRM "Release Confirm",
    ReleaseIndication CLASS_MAUP TYPE_RELEASE_INDICATION "Release Indication",
    StateRequest CLASS_MAUP TYPE_STATE_REQUEST "State Request",
    StateConfirm CLASS_MAUP TYPE_STATE_CONFIRM "State Confirm",
    StateIndication CLASS_MAUP TYPE_STATE_INDICATION "State Indication",
    RetrievalRequest CLASS_MAUP TYPE_RETRIEVAL_REQUEST "Data Retrieval Request",
    RetrievalConfirm CLASS_MAUP TYPE_RETRIEVAL_CONFIRM "Data Retrieval Confirm",
    RetrievalIndication CLASS_MAUP TYPE_RETRIEVAL_INDICATION "Data Retrieval Indication",
    RetrievalComplete CLASS_MAUP TYPE_RETRIEVAL_COMPLETE "Data Retrieval Complete Indication",
    CongestionIndication CLASS_MAUP TYPE_CONGESTION_INDICATION "Congestion Indication",
    DataAck CLASS_MAUP TYPE_DATA_ACK "Data Acknowledge",
}

impl MessageType {
    /// As the second word of an order has it: class * 256 + type.
    pub fn word(self) -> u32 {
        u32::from(self.class()) * 256 + u32::from(self.number())
    }
}

/// What an accepted message says (Rule 2.18).
#[derive(Clone, Copy, Debug, PartialEq, Eq)]
pub struct Reading {
    /// Which message it is.
    pub message: MessageType,
    /// Whether it names interface identifiers or ranges of them.
    pub has_ids: bool,
    /// The first interface identifier of the first 0x1; 0 where there is none.
    pub id: u32,
    /// The traffic mode, where it has one.
    pub mode: Option<TrafficMode>,
    /// The ASP identifier, where it has one.
    pub asp_id: Option<u32>,
    /// The correlation id, where it has one.
    pub correlation: Option<u32>,
    /// The state of a State Request or Confirm, else 0.
    pub state: u32,
    /// The retrieval action of a Retrieval Request or Confirm, else 0.
    pub retrieval: u32,
    /// The sequence number of a Retrieval Request or Confirm, where it has one: up to 4,095
    /// (`sys::MAX_SEQUENCE`). A plain link has none above 127, which events see to (see
    /// [`Gateway::is_high_speed`](crate::Gateway::is_high_speed)).
    pub sequence: Option<u32>,
}

/// Reads a message of any bytes: what it says, or the number with which the rules refuse it.
///
/// ```
/// let m = [1, 0, 4, 1, 0, 0, 0, 28, 0, 11, 0, 8, 0, 0, 0, 1, 0, 8, 0, 12, 0, 0, 0, 100, 0, 0, 0, 115];
/// let reading = m2ua::read(&m)?;
/// assert_eq!(reading.to_string(), "ASP Active, override, with identifiers");
/// assert_eq!(m2ua::read(&m[..27]).unwrap_err().code(), 7);
/// # Ok::<(), m2ua::Refusal>(())
/// ```
pub fn read(message: &[u8]) -> Result<Reading, Refusal> {
    let r = sys::read(message);
    Refusal::check(r.code)?;
    Ok(Reading {
        message: MessageType::of(r.class, r.msgtype)
            .expect("an accepted message is of a type of Rule 2.10"),
        has_ids: r.ids == 1,
        id: r.id,
        mode: TrafficMode::of(r.mode),
        asp_id: (r.identified == 1).then_some(r.aspid),
        correlation: (r.correlated == 1).then_some(r.correlation),
        state: r.state,
        retrieval: r.retrieval,
        sequence: (r.sequenced == 1).then_some(r.sequence),
    })
}

impl fmt::Display for Reading {
    fn fmt(&self, f: &mut fmt::Formatter<'_>) -> fmt::Result {
        write!(f, "{}", self.message)?;
        if self.message.class() == sys::CLASS_MAUP {
            write!(f, " of link {}", self.id)?;
        }
        if let Some(mode) = self.mode {
            write!(f, ", {mode}")?;
        }
        if self.has_ids && self.message.class() != sys::CLASS_MAUP {
            f.write_str(", with identifiers")?;
        }
        if let Some(id) = self.asp_id {
            write!(f, ", ASP identifier {id}")?;
        }
        if let Some(id) = self.correlation {
            write!(f, ", correlation id {id}")?;
        }
        if let Some(number) = self.sequence {
            write!(f, ", sequence number {number}")?;
        }
        Ok(())
    }
}

/// A parameter to be written, or one of a message: its tag and its value without padding.
#[derive(Clone, Copy, Debug, PartialEq, Eq)]
pub struct Parameter<'a> {
    /// As RFC 3331 numbers it (`sys::TAG_DATA_1` ..).
    pub tag: u16,
    /// The bytes.
    pub value: &'a [u8],
}

impl<'a> Parameter<'a> {
    /// A parameter of a tag and a value.
    pub fn new(tag: u16, value: &'a [u8]) -> Self {
        Parameter { tag, value }
    }
}

impl fmt::Display for Parameter<'_> {
    fn fmt(&self, f: &mut fmt::Formatter<'_>) -> fmt::Result {
        write!(f, "{} (0x{:x})", tag_name(self.tag), self.tag)?;
        if let Ok(number) = <[u8; 4]>::try_from(self.value) {
            return write!(f, " {}", u32::from_be_bytes(number));
        }
        self.value.iter().try_for_each(|b| write!(f, " {b:02x}"))
    }
}

/// The parameters of a message that [`read`] accepts, in their order. (This walk is the crate's own, in safe
/// Rust, and not proved; it stops at the first byte that is no parameter.)
pub fn parameters(message: &[u8]) -> Parameters<'_> {
    Parameters {
        rest: message.get(8..).unwrap_or(&[]),
    }
}

/// See [`parameters`].
#[derive(Clone, Debug)]
pub struct Parameters<'a> {
    rest: &'a [u8],
}

impl<'a> Iterator for Parameters<'a> {
    type Item = Parameter<'a>;

    fn next(&mut self) -> Option<Parameter<'a>> {
        let (head, _) = self.rest.split_at_checked(4)?;
        let tag = u16::from_be_bytes([head[0], head[1]]);
        let length = usize::from(u16::from_be_bytes([head[2], head[3]]));
        let value = self.rest.get(4..length)?;
        self.rest = self.rest.get(length.next_multiple_of(4)..)?;
        Some(Parameter { tag, value })
    }
}

/// The protocol data of a message, the SS7 unit: the value of its first 0x300 or 0x301; empty where there is
/// none (Rule 1.7). It asks for no verdict: read the message first.
///
/// ```
/// use m2ua::{protocol_data, sys, write, MessageType, Parameter};
/// let data = write(MessageType::Data, &[Parameter::new(sys::TAG_INTERFACE_ID, &[0, 0, 0, 100]), Parameter::new(sys::TAG_DATA_1, b"unit")])?;
/// assert_eq!(protocol_data(&data), b"unit");
/// # Ok::<(), m2ua::Refusal>(())
/// ```
pub fn protocol_data(message: &[u8]) -> &[u8] {
    let at = sys::data(message);
    &message[at.start..at.start + at.length]
}

/// The value of the first parameter of a tag, without padding; `None` where there is none (Rule 1.8).
pub fn parameter(message: &[u8], tag: u16) -> Option<&[u8]> {
    let at = sys::parameter(message, tag);
    (at.found == 1).then(|| &message[at.start..at.start + at.length])
}

/// Writes a message into a lent buffer, and hands back how many bytes it has. Refused as the reader would
/// refuse the message; 103 where the buffer is short; the buffer is then unchanged.
pub fn write_into(
    message: MessageType,
    parameters: &[Parameter<'_>],
    out: &mut [u8],
) -> Result<usize, Refusal> {
    let count = parameters.len();
    let bytes: usize = parameters.iter().map(|p| p.value.len()).sum();
    // most messages are short: no heap for them
    if count <= FEW && bytes <= SHORT {
        return lend(
            message,
            parameters,
            &mut [0; FEW][..count],
            &mut [0; FEW][..count],
            &mut [0; SHORT][..bytes],
            out,
        );
    }
    lend(
        message,
        parameters,
        &mut vec![0; count],
        &mut vec![0; count],
        &mut vec![0; bytes],
        out,
    )
}

const FEW: usize = 8;
const SHORT: usize = 320;

/// Fills the three lists that the writer is lent (Rule 3.2), and writes.
fn lend(
    message: MessageType,
    parameters: &[Parameter<'_>],
    tags: &mut [u16],
    lens: &mut [u32],
    values: &mut [u8],
    out: &mut [u8],
) -> Result<usize, Refusal> {
    let mut at = 0;
    for (i, p) in parameters.iter().enumerate() {
        tags[i] = p.tag;
        // a value of 4 GB or more makes the list not whole, and any longer than 2,040 bytes is refused with
        // the same number
        lens[i] = p.value.len().try_into().unwrap_or(u32::MAX);
        values[at..at + p.value.len()].copy_from_slice(p.value);
        at += p.value.len();
    }
    let w = sys::write(message.class(), message.number(), tags, lens, values, out);
    Refusal::check(w.code).map(|()| w.length)
}

/// Writes a message.
///
/// ```
/// use m2ua::{sys, write, MessageType, Parameter};
/// let beat = write(MessageType::Beat, &[Parameter::new(sys::TAG_HEARTBEAT, b"one")])?;
/// assert_eq!(beat, [1, 0, 3, 3, 0, 0, 0, 16, 0, 9, 0, 7, b'o', b'n', b'e', 0]);
/// assert_eq!(write(MessageType::Notify, &[]).unwrap_err().to_string(), "22 (missing parameter)");
/// # Ok::<(), m2ua::Refusal>(())
/// ```
pub fn write(message: MessageType, parameters: &[Parameter<'_>]) -> Result<Vec<u8>, Refusal> {
    let size: usize = 8 + parameters
        .iter()
        .map(|p| 4 + p.value.len().next_multiple_of(4))
        .sum::<usize>();
    let mut out = vec![0; size.min(sys::MAX_MESSAGE)];
    let length = write_into(message, parameters, &mut out)?;
    out.truncate(length);
    Ok(out)
}
