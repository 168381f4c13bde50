//! Reading a message: one pass that gives the verdict and the fields the
//! events need.

use crate::wire::*;

/// What reading gives. Of a refused message every field but `code` is 0.
#[repr(C)]
#[derive(Clone, Copy, PartialEq, Eq, Debug, Default)]
pub struct Reading {
    /// 0, or the refusal number.
    pub code: u32,
    pub class: u32,
    pub kind: u32,
    /// 1 if some 0x1 or 0x8 parameter is there.
    pub ids: u32,
    /// First number of the first 0x1 parameter.
    pub id: u32,
    pub mode: u32,
    pub has_asp_id: u32,
    pub asp_id: u32,
    pub has_correlation: u32,
    pub correlation: u32,
    pub state: u32,
    pub action: u32,
    pub has_sequence: u32,
    pub sequence: u32,
}

/// Known tags get a number below 32, so that sets of tags are bit masks.
/// All other tags share number 0, which no message allows.
#[inline(always)]
const fn slot(tag: u16) -> u32 {
    let high = (tag as u32).wrapping_sub(0x300);
    if tag < 0x14 {
        tag as u32
    } else if high < 9 {
        high + 0x14
    } else {
        0
    }
}

const fn bit(tag: u16) -> u32 {
    1 << slot(tag)
}

/// Both tags of protocol data, which count as one.
const DATA: u32 = bit(DATA1) | bit(DATA2);
/// The identifiers. The text form is let through here to be refused with its
/// own number.
const IDS: u32 = bit(INTERFACE_ID) | bit(INTERFACE_RANGE) | bit(TEXT_INTERFACE_ID);
/// Parameters of exactly one 32-bit number.
const WORDS: u32 = bit(TRAFFIC_MODE)
    | bit(ERROR_CODE)
    | bit(STATUS)
    | bit(ASP_ID)
    | bit(CORRELATION_ID)
    | bit(STATE)
    | bit(EVENT)
    | bit(CONGESTION)
    | bit(DISCARD)
    | bit(ACTION)
    | bit(SEQUENCE)
    | bit(RESULT);

/// One row of the table of messages.
#[derive(Clone, Copy)]
struct Row {
    allowed: u32,
    mandatory: u32,
    /// What stays allowed after any parameter: in class 6 the identifier may
    /// come in first place only.
    later: u32,
}

/// The types of each class, as bits; 0 for a class not listed.
const TYPES: [u16; 8] = [0x3, 0, 0, 0x7e, 0x1e, 0, 0xfffe, 0];

const fn row(class: u32, kind: u32) -> Row {
    const ID: u32 = bit(INTERFACE_ID);
    const INFO: u32 = bit(INFO_STRING);
    let (mandatory, optional) = match (class, kind) {
        (0, 0) => (bit(ERROR_CODE), IDS | bit(DIAGNOSTIC)),
        (0, 1) => (bit(STATUS), bit(ASP_ID) | IDS | INFO),
        (3, 1) => (0, bit(ASP_ID) | INFO),
        (3, 2 | 4 | 5) => (0, INFO),
        (3, 3 | 6) => (0, bit(HEARTBEAT_DATA)),
        (4, 1 | 3) => (0, bit(TRAFFIC_MODE) | IDS | INFO),
        (4, 2 | 4) => (0, IDS | INFO),
        (6, 1) => (ID | DATA, bit(CORRELATION_ID)),
        (6, 2..=6) => (ID, 0),
        (6, 7 | 8) => (ID | bit(STATE), 0),
        (6, 9) => (ID | bit(EVENT), 0),
        (6, 10) => (ID | bit(ACTION), bit(SEQUENCE)),
        (6, 11) => (ID | bit(ACTION) | bit(RESULT), bit(SEQUENCE)),
        (6, 12) => (ID | DATA, 0),
        (6, 13) => (ID, DATA),
        (6, 14) => (ID | bit(CONGESTION), bit(DISCARD)),
        (6, 15) => (ID | bit(CORRELATION_ID), 0),
        _ => (0, 0),
    };
    let (first, later) = if class == MAUP {
        (ID | bit(TEXT_INTERFACE_ID), !(ID | bit(TEXT_INTERFACE_ID)))
    } else {
        (0, !0)
    };
    Row {
        allowed: mandatory | optional | first,
        mandatory,
        later,
    }
}

/// Rows by class and type, 16 to a class.
static ROWS: [Row; 128] = {
    let mut rows = [row(7, 0); 128];
    let mut i = 0;
    while i < 128 {
        rows[i] = row(i as u32 >> 4, i as u32 & 15);
        i += 1;
    }
    rows
};

/// What a tag means for the rest of the message, and the limits of its
/// number if it has one.
#[derive(Clone, Copy)]
struct Tag {
    /// Set in the tags seen.
    seen: u32,
    /// What may still come after it.
    keep: u32,
    low: u32,
    span: u32,
}

static TAGS: [Tag; 32] = {
    let free = Tag {
        seen: 0,
        keep: !0,
        low: 0,
        span: !0,
    };
    let mut tags = [free; 32];
    let mut i = 0;
    while i < 32 {
        let own = 1 << i;
        tags[i].seen = if own & DATA != 0 { DATA } else { own };
        tags[i].keep = if own & IDS != 0 { !0 } else { !tags[i].seen };
        i += 1;
    }
    tags = limit(tags, TRAFFIC_MODE, 1, 3);
    tags = limit(tags, STATE, 0, 10);
    tags = limit(tags, EVENT, 1, 4);
    tags = limit(tags, CONGESTION, 0, 3);
    tags = limit(tags, DISCARD, 0, 3);
    tags = limit(tags, ACTION, 1, 2);
    tags = limit(tags, RESULT, 0, 1);
    limit(tags, SEQUENCE, 0, MAX_SEQUENCE)
};

const fn limit(mut tags: [Tag; 32], tag: u16, low: u32, high: u32) -> [Tag; 32] {
    tags[slot(tag) as usize].low = low;
    tags[slot(tag) as usize].span = high - low;
    tags
}

#[inline(always)]
fn refused(code: u32) -> Reading {
    Reading {
        code,
        ..Reading::default()
    }
}

/// A parameter was refused: a fault of the walk further on comes before it.
#[cold]
#[inline(never)]
fn refused_unless_fault(code: u32, mut rest: &[u8]) -> Reading {
    while rest.len() >= 4 {
        let len = (be32(rest) & 0xffff) as usize;
        if len < 4 || len > rest.len() {
            return refused(BAD_FIELD);
        }
        rest = rest.get(padded(len)..).unwrap_or(&[]);
    }
    refused(code)
}

/// The checks of a message from its parameters on: those that the reader and
/// the writer share.
pub(crate) struct Check {
    class: u32,
    kind: u32,
    row: &'static Row,
    /// Tags that may still come.
    allowed: u32,
    seen: u32,
    id: u32,
    /// Numbers by the low half byte of their tag. Those that are handed back
    /// differ in it from all others of their rows.
    numbers: [u32; 16],
}

/// The row of a message, or the refusal.
#[inline(always)]
fn row_of(class: u32, kind: u32) -> Result<&'static Row, u32> {
    if class >= 8 || TYPES[class as usize] == 0 {
        return Err(BAD_CLASS);
    }
    if kind >= 16 || TYPES[class as usize] >> kind & 1 == 0 {
        return Err(BAD_TYPE);
    }
    Ok(&ROWS[(class * 16 + kind) as usize])
}

impl Check {
    /// The row of the message decides; a class or type not listed is refused.
    #[inline(always)]
    pub(crate) fn new(class: u32, kind: u32) -> Result<Self, u32> {
        Ok(Self::with_row(class, kind, row_of(class, kind)?))
    }

    #[inline(always)]
    fn with_row(class: u32, kind: u32, row: &'static Row) -> Self {
        Check {
            class,
            kind,
            row,
            allowed: row.allowed,
            seen: 0,
            id: 0,
            numbers: [0; 16],
        }
    }

    /// The next parameter in turn: 0 or the refusal.
    #[inline(always)]
    pub(crate) fn param(&mut self, tag: u16, value: &[u8]) -> u32 {
        let slot = slot(tag);
        let rule = &TAGS[slot as usize % 32];
        if self.allowed >> slot & 1 == 0 {
            return UNEXPECTED;
        }
        self.allowed &= rule.keep & self.row.later;

        if WORDS >> slot & 1 != 0 {
            let Ok(number) = <[u8; 4]>::try_from(value) else {
                return BAD_FIELD;
            };
            let number = u32::from_be_bytes(number);
            if number.wrapping_sub(rule.low) > rule.span {
                let mode = tag == TRAFFIC_MODE;
                return if mode { BAD_MODE } else { BAD_VALUE };
            }
            self.numbers[tag as usize % 16] = number;
        } else {
            match tag {
                INTERFACE_ID => {
                    let fits = if self.class == MAUP {
                        value.len() == 4
                    } else {
                        value.len() >= 4 && value.len().is_multiple_of(4)
                    };
                    if !fits {
                        return BAD_FIELD;
                    }
                    if self.seen & bit(INTERFACE_ID) == 0 {
                        self.id = be32(value);
                    }
                }
                INTERFACE_RANGE => {
                    if value.is_empty() || !value.len().is_multiple_of(8) {
                        return BAD_FIELD;
                    }
                    if !ascending_pairs(value) {
                        return BAD_VALUE;
                    }
                }
                DATA1 | DATA2 if (value.is_empty() || value.len() > 273) => {
                    return BAD_FIELD;
                }
                INFO_STRING if value.len() > 255 => {
                    return BAD_FIELD;
                }
                TEXT_INTERFACE_ID => return TEXT_ID,
                _ => {}
            }
        }
        self.seen |= rule.seen;
        0
    }

    /// What is to be checked after the last parameter: 0 or the refusal.
    #[inline(always)]
    pub(crate) fn end(&self) -> u32 {
        if self.row.mandatory & !self.seen != 0 {
            return MISSING;
        }
        if self.class == MAUP && (self.kind == 10 || self.kind == 11) {
            let action = self.numbers[ACTION as usize % 16];
            let result = self.numbers[RESULT as usize % 16];
            let wanted = if self.kind == 10 {
                action == 2
            } else {
                action == 1 && result == 0
            };
            let given = self.seen & bit(SEQUENCE) != 0;
            if given != wanted {
                return if given { UNEXPECTED } else { MISSING };
            }
        }
        0
    }

    #[inline(always)]
    fn reading(&self) -> Reading {
        let has_correlation = self.seen >> slot(CORRELATION_ID) & 1;
        Reading {
            code: 0,
            class: self.class,
            kind: self.kind,
            ids: (self.seen & (bit(INTERFACE_ID) | bit(INTERFACE_RANGE)) != 0) as u32,
            id: self.id,
            mode: self.numbers[TRAFFIC_MODE as usize % 16],
            has_asp_id: self.seen >> slot(ASP_ID) & 1,
            asp_id: self.numbers[ASP_ID as usize % 16],
            has_correlation,
            // Tag 0x303 ends in 3 too.
            correlation: self.numbers[CORRELATION_ID as usize % 16] * has_correlation,
            state: self.numbers[STATE as usize % 16],
            action: self.numbers[ACTION as usize % 16],
            has_sequence: self.seen >> slot(SEQUENCE) & 1,
            sequence: self.numbers[SEQUENCE as usize % 16],
        }
    }
}

/// The verdict on a message and what it says.
pub fn read(message: &[u8]) -> Reading {
    let Some(head) = message.first_chunk::<HEADER_LEN>() else {
        return refused(PROTOCOL_ERROR);
    };
    if message.len() > MAX_MESSAGE {
        return refused(PROTOCOL_ERROR);
    }
    let head = u64::from_be_bytes(*head);
    if head >> 56 != 1 {
        return refused(BAD_VERSION);
    }
    let class = (head >> 40) as u32 & 0xff;
    let kind = (head >> 32) as u32 & 0xff;
    let row = match row_of(class, kind) {
        Ok(row) => row,
        Err(code) => return refused(code),
    };
    if head as u32 as usize != message.len() || !message.len().is_multiple_of(4) {
        return refused(PROTOCOL_ERROR);
    }
    // Bare messages are common (Up, Down, Active), and soon done.
    if message.len() == HEADER_LEN {
        if row.mandatory != 0 {
            return refused(MISSING);
        }
        return Reading {
            class,
            kind,
            ..Reading::default()
        };
    }

    let mut check = Check::with_row(class, kind, row);
    // The rest stays a multiple of 4 long, so a parameter within it has its
    // padding within it too.
    let mut rest = &message[HEADER_LEN..];
    while let Some(head) = rest.first_chunk::<4>() {
        let head = u32::from_be_bytes(*head);
        let len = (head & 0xffff) as usize;
        if len < 4 || len > rest.len() {
            return refused(BAD_FIELD);
        }
        let value = &rest[4..len];
        let Some(next) = rest.get(padded(len)..) else {
            return refused(BAD_FIELD);
        };
        rest = next;
        let code = check.param((head >> 16) as u16, value);
        if code != 0 {
            return refused_unless_fault(code, rest);
        }
    }
    match check.end() {
        0 => check.reading(),
        code => refused(code),
    }
}

/// Whether no pair of start and stop has its start above its stop.
#[inline]
fn ascending_pairs(value: &[u8]) -> bool {
    // All pairs are looked at: no exit inside, so that this can be done
    // several pairs at a time.
    let mut wrong = false;
    for pair in value.chunks_exact(8) {
        // As one number the pair is not above the traded pair.
        let pair = pair
            .first_chunk::<8>()
            .map_or(0, |p| u64::from_be_bytes(*p));
        wrong |= pair > pair.rotate_left(32);
    }
    !wrong
}

/// The data parameter of a message, if it has one.
#[inline]
pub(crate) fn data_of(message: &[u8]) -> Option<Param<'_>> {
    Params::new(message).find(|param| param.tag == DATA1 || param.tag == DATA2)
}

/// The protocol data of a message as a part of it; empty where there is none.
pub fn protocol_data(message: &[u8]) -> &[u8] {
    data_of(message).map_or(&[], |param| param.value)
}
