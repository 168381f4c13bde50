//! Tags, refusal numbers and the walk over a message's parameters.

pub const HEADER_LEN: usize = 8;
/// House limit of a whole message.
pub const MAX_MESSAGE: usize = 2048;

/// The highest sequence number: those of a high-speed link have 12 bits, those
/// of a plain one 7.
pub const MAX_SEQUENCE: u32 = 4095;
pub const MAX_PLAIN_SEQUENCE: u32 = 127;

// Parameter tags.
pub const INTERFACE_ID: u16 = 0x1;
pub const TEXT_INTERFACE_ID: u16 = 0x3;
pub const INFO_STRING: u16 = 0x4;
pub const DIAGNOSTIC: u16 = 0x7;
pub const INTERFACE_RANGE: u16 = 0x8;
pub const HEARTBEAT_DATA: u16 = 0x9;
pub const TRAFFIC_MODE: u16 = 0xb;
pub const ERROR_CODE: u16 = 0xc;
pub const STATUS: u16 = 0xd;
pub const ASP_ID: u16 = 0x11;
pub const CORRELATION_ID: u16 = 0x13;
pub const DATA1: u16 = 0x300;
pub const DATA2: u16 = 0x301;
pub const STATE: u16 = 0x302;
pub const EVENT: u16 = 0x303;
pub const CONGESTION: u16 = 0x304;
pub const DISCARD: u16 = 0x305;
pub const ACTION: u16 = 0x306;
pub const SEQUENCE: u16 = 0x307;
pub const RESULT: u16 = 0x308;

// Message classes.
pub const MGMT: u32 = 0;
pub const ASPSM: u32 = 3;
pub const ASPTM: u32 = 4;
pub const MAUP: u32 = 6;

// Refusals of the reader.
pub const BAD_VERSION: u32 = 1;
pub const BAD_CLASS: u32 = 3;
pub const BAD_TYPE: u32 = 4;
pub const BAD_MODE: u32 = 5;
pub const PROTOCOL_ERROR: u32 = 7;
pub const TEXT_ID: u32 = 8;
pub const BAD_VALUE: u32 = 17;
pub const BAD_FIELD: u32 = 18;
pub const UNEXPECTED: u32 = 19;
pub const MISSING: u32 = 22;

/// The big-endian number in the first four bytes; 0 where there are fewer.
#[inline(always)]
pub fn be32(bytes: &[u8]) -> u32 {
    match bytes.first_chunk::<4>() {
        Some(word) => u32::from_be_bytes(*word),
        None => 0,
    }
}

/// `len` rounded up to a multiple of 4.
#[inline(always)]
pub const fn padded(len: usize) -> usize {
    (len + 3) & !3
}

#[derive(Clone, Copy, PartialEq, Eq, Debug)]
pub struct Param<'a> {
    pub tag: u16,
    /// The length field: 4 more than the value has bytes.
    pub len: u16,
    pub value: &'a [u8],
}

#[derive(Clone, Copy, PartialEq, Eq, Debug)]
pub enum Step<'a> {
    Param(Param<'a>),
    End,
    Fault,
}

/// Cursor over the parameters of a message. As an iterator it ends at the end
/// of the message or at the first fault.
#[derive(Clone, Copy, Debug)]
pub struct Params<'a> {
    rest: &'a [u8],
}

impl<'a> Params<'a> {
    /// The parameters from byte 8 on.
    #[inline]
    pub fn new(message: &'a [u8]) -> Self {
        Params {
            rest: message.get(HEADER_LEN..).unwrap_or(&[]),
        }
    }

    #[inline]
    pub fn step(&mut self) -> Step<'a> {
        let Some(head) = self.rest.first_chunk::<4>() else {
            return if self.rest.is_empty() {
                Step::End
            } else {
                Step::Fault
            };
        };
        let word = u32::from_be_bytes(*head);
        let len = (word & 0xffff) as usize;
        if len < 4 || padded(len) > self.rest.len() {
            return Step::Fault;
        }
        let value = &self.rest[4..len];
        self.rest = &self.rest[padded(len)..];
        Step::Param(Param {
            tag: (word >> 16) as u16,
            len: len as u16,
            value,
        })
    }
}

impl<'a> Iterator for Params<'a> {
    type Item = Param<'a>;

    #[inline]
    fn next(&mut self) -> Option<Param<'a>> {
        match self.step() {
            Step::Param(param) => Some(param),
            _ => None,
        }
    }
}
