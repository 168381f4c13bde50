//! Messages to be read: valid ones, and the many ways to damage them.

use super::retrievals;
use super::rng::Rng;
use crate::wire::*;

/// Class and type of the 27 messages.
pub const MESSAGES: [(u8, u8); 27] = [
    (0, 0),
    (0, 1),
    (3, 1),
    (3, 2),
    (3, 3),
    (3, 4),
    (3, 5),
    (3, 6),
    (4, 1),
    (4, 2),
    (4, 3),
    (4, 4),
    (6, 1),
    (6, 2),
    (6, 3),
    (6, 4),
    (6, 5),
    (6, 6),
    (6, 7),
    (6, 8),
    (6, 9),
    (6, 10),
    (6, 11),
    (6, 12),
    (6, 13),
    (6, 14),
    (6, 15),
];

/// Known tags, and some that no message has.
pub const TAGS: [u16; 28] = [
    0x1, 0x3, 0x4, 0x7, 0x8, 0x9, 0xb, 0xc, 0xd, 0x11, 0x13, 0x300, 0x301, 0x302, 0x303, 0x304,
    0x305, 0x306, 0x307, 0x308, 0x0, 0x2, 0x12, 0x14, 0x2ff, 0x309, 0x101, 0xffff,
];

/// A parameter as it will be written. The length field may lie.
#[derive(Clone)]
pub struct Piece {
    pub tag: u16,
    pub value: Vec<u8>,
    /// Added to the true length field.
    pub lie: i32,
}

impl Piece {
    pub fn new(tag: u16, value: Vec<u8>) -> Self {
        Piece { tag, value, lie: 0 }
    }

    pub fn word(tag: u16, number: u32) -> Self {
        Piece::new(tag, number.to_be_bytes().to_vec())
    }
}

/// A message as it will be written.
#[derive(Clone)]
pub struct Message {
    pub version: u8,
    pub spare: u8,
    pub class: u8,
    pub kind: u8,
    pub pieces: Vec<Piece>,
    /// What padding bytes are made of; 0 mostly.
    pub padding: u8,
}

impl Message {
    pub fn new(class: u8, kind: u8, pieces: Vec<Piece>) -> Self {
        Message {
            version: 1,
            spare: 0,
            class,
            kind,
            pieces,
            padding: 0,
        }
    }

    pub fn encode(&self) -> Vec<u8> {
        let mut bytes = vec![self.version, self.spare, self.class, self.kind, 0, 0, 0, 0];
        for piece in &self.pieces {
            let len = piece.value.len() as i32 + 4 + piece.lie;
            bytes.extend_from_slice(&piece.tag.to_be_bytes());
            bytes.extend_from_slice(&(len as u16).to_be_bytes());
            bytes.extend_from_slice(&piece.value);
            while bytes.len() % 4 != 0 {
                bytes.push(self.padding);
            }
        }
        set_length(&mut bytes);
        bytes
    }
}

/// Makes the length field that of the bytes there are.
pub fn set_length(bytes: &mut [u8]) {
    let len = bytes.len() as u32;
    if let Some(field) = bytes.get_mut(4..8) {
        field.copy_from_slice(&len.to_be_bytes());
    }
}

/// The lowest and highest number allowed under a tag of one number.
pub fn limits(tag: u16) -> Option<(u32, u32)> {
    Some(match tag {
        TRAFFIC_MODE => (1, 3),
        ERROR_CODE | STATUS | ASP_ID | CORRELATION_ID => (0, u32::MAX),
        STATE => (0, 10),
        EVENT => (1, 4),
        CONGESTION | DISCARD => (0, 3),
        ACTION => (1, 2),
        RESULT => (0, 1),
        SEQUENCE => (0, MAX_SEQUENCE),
        _ => return None,
    })
}

/// A count of bytes between the two, mostly small, now and then at an end.
fn size(rng: &mut Rng, low: usize, high: usize) -> usize {
    match rng.below(60) {
        0 => high,
        1 => high - rng.below(3) as usize,
        2..=20 => low,
        _ => (low + rng.below(10) as usize).min(high),
    }
}

/// A parameter that is fine by itself in a message with ids.
pub fn good_piece(rng: &mut Rng, tag: u16) -> Piece {
    if let Some((low, high)) = limits(tag) {
        let number = match rng.below(4) {
            _ if tag == SEQUENCE => retrievals::good_number(rng),
            0 => low,
            1 => high,
            _ if high == u32::MAX => rng.word(),
            _ => rng.range(low as u64, high as u64) as u32,
        };
        return Piece::word(tag, number);
    }
    let value = match tag {
        INTERFACE_ID => {
            let count = few(rng);
            rng_words(rng, count)
        }
        INTERFACE_RANGE => {
            let mut value = Vec::new();
            for _ in 0..few(rng) {
                let (a, b) = pair(rng);
                value.extend_from_slice(&a.to_be_bytes());
                value.extend_from_slice(&b.to_be_bytes());
            }
            value
        }
        DATA1 | DATA2 => {
            let count = size(rng, 1, 273);
            rng.bytes(count)
        }
        INFO_STRING => {
            let count = size(rng, 0, 255);
            rng.bytes(count)
        }
        _ => {
            let count = size(rng, 0, 300);
            rng.bytes(count)
        }
    };
    Piece::new(tag, value)
}

/// Mostly one, seldom many.
fn few(rng: &mut Rng) -> usize {
    match rng.below(400) {
        0 => 60,
        1..=20 => rng.range(4, 9) as usize,
        21..=150 => rng.range(2, 3) as usize,
        _ => 1,
    }
}

fn rng_words(rng: &mut Rng, count: usize) -> Vec<u8> {
    (0..count).flat_map(|_| rng.word().to_be_bytes()).collect()
}

/// Start not above stop, often the same or one apart.
fn pair(rng: &mut Rng) -> (u32, u32) {
    let a = rng.word();
    match rng.below(4) {
        0 => (a, a),
        1 => (a, a.saturating_add(1)),
        _ => {
            let b = rng.word();
            (a.min(b), a.max(b))
        }
    }
}

/// Mandatory and optional tags of a message; `ids` and the choice of data tag
/// are made here.
fn row(rng: &mut Rng, class: u8, kind: u8) -> (Vec<u16>, Vec<u16>) {
    let data = rng.pick(&[DATA1, DATA2]);
    let ids = {
        let mut ids = Vec::new();
        for _ in 0..rng.pick(&[0, 1, 1, 2, 3]) {
            ids.push(rng.pick(&[INTERFACE_ID, INTERFACE_RANGE]));
        }
        ids
    };
    let with = |mut tags: Vec<u16>| {
        tags.extend_from_slice(&ids);
        tags
    };
    match (class, kind) {
        (0, 0) => (vec![ERROR_CODE], with(vec![DIAGNOSTIC])),
        (0, 1) => (vec![STATUS], with(vec![ASP_ID, INFO_STRING])),
        (3, 1) => (vec![], vec![ASP_ID, INFO_STRING]),
        (3, 2 | 4 | 5) => (vec![], vec![INFO_STRING]),
        (3, _) => (vec![], vec![HEARTBEAT_DATA]),
        (4, 1 | 3) => (vec![], with(vec![TRAFFIC_MODE, INFO_STRING])),
        (4, _) => (vec![], with(vec![INFO_STRING])),
        (_, 1) => (vec![data], vec![CORRELATION_ID]),
        (_, 7 | 8) => (vec![STATE], vec![]),
        (_, 9) => (vec![EVENT], vec![]),
        (_, 10) => (vec![ACTION], vec![SEQUENCE]),
        (_, 11) => (vec![ACTION, RESULT], vec![SEQUENCE]),
        (_, 12) => (vec![data], vec![]),
        (_, 13) => (vec![], vec![data]),
        (_, 14) => (vec![CONGESTION], vec![DISCARD]),
        (_, 15) => (vec![CORRELATION_ID], vec![]),
        _ => (vec![], vec![]),
    }
}

/// A message that reads.
pub fn valid(rng: &mut Rng, class: u8, kind: u8) -> Message {
    let (mandatory, optional) = row(rng, class, kind);
    let mut pieces: Vec<Piece> = mandatory.iter().map(|tag| good_piece(rng, *tag)).collect();
    for tag in optional {
        if !rng.one_in(3) {
            pieces.push(good_piece(rng, tag));
        }
    }
    if class == 6 {
        fit_sequence(rng, kind, &mut pieces);
    }
    rng.shuffle(&mut pieces);
    if class == 6 {
        pieces.insert(0, Piece::word(INTERFACE_ID, rng.word()));
    }
    Message::new(class, kind, pieces)
}

/// Adds or takes away the sequence number as the rules of 6.10 and 6.11 want.
fn fit_sequence(rng: &mut Rng, kind: u8, pieces: &mut Vec<Piece>) {
    let number = |tag: u16| {
        let piece = pieces.iter().find(|piece| piece.tag == tag);
        piece.map(|piece| be32(&piece.value))
    };
    let wanted = match kind {
        10 => number(ACTION) == Some(2),
        11 => number(ACTION) == Some(1) && number(RESULT) == Some(0),
        _ => return,
    };
    pieces.retain(|piece| piece.tag != SEQUENCE);
    if wanted {
        pieces.push(good_piece(rng, SEQUENCE));
    }
}

/// One fault, or something that looks like one, among the parameters.
pub fn damage_pieces(rng: &mut Rng, message: &mut Message) {
    let count = message.pieces.len();
    let at = |rng: &mut Rng| rng.below(count as u64) as usize;
    let anywhere = rng.below(count as u64 + 1) as usize;
    match rng.below(16) {
        // A tag too few, too many, twice.
        0 | 1 if count > 0 => {
            let at = at(rng);
            message.pieces.remove(at);
        }
        2 if count > 0 => {
            let mut again = message.pieces[at(rng)].clone();
            if rng.one_in(2) {
                again = good_piece(rng, again.tag);
            }
            message.pieces.insert(anywhere, again);
        }
        3 | 4 => {
            let tag = rng.pick(&TAGS);
            let piece = good_piece(rng, tag);
            message.pieces.insert(anywhere, piece);
        }
        5 => {
            let size = rng.below(9) as usize;
            let text = Piece::new(TEXT_INTERFACE_ID, rng.bytes(size));
            message.pieces.insert(anywhere, text);
        }
        6 => {
            let tag = rng.pick(&[DATA1, DATA2]);
            let piece = good_piece(rng, tag);
            message.pieces.insert(anywhere, piece);
        }
        // Another place, another tag.
        7 if count > 1 => {
            let (a, b) = (at(rng), at(rng));
            message.pieces.swap(a, b);
        }
        8 if count > 0 => message.pieces[at(rng)].tag = rng.pick(&TAGS),
        // Another length, with the value to go with it.
        9 | 10 if count > 0 => {
            let len = match rng.below(20) {
                0 => rng.pick(&[254, 255, 256, 272, 273, 274]),
                _ => rng.pick(&[0, 0, 1, 2, 3, 4, 5, 7, 8, 9, 12, 16]),
            };
            let at = at(rng);
            message.pieces[at].value.resize(len, 0);
        }
        // A length field that lies.
        11 if count > 0 => {
            let at = at(rng);
            let true_len = message.pieces[at].value.len() as i32 + 4;
            message.pieces[at].lie = match rng.below(4) {
                0 => rng.range(0, 5) as i32 - true_len,
                1 => rng.pick(&[-4, -1, 1, 4]),
                2 => rng.pick(&[-8, -3, -2, 2, 3, 8, 12]),
                _ => rng.pick(&[0xffff, 0x8000, 0x100]) - true_len,
            };
        }
        // A value at or beyond its limits.
        12..=14 if count > 0 => {
            let at = at(rng);
            damage_value(rng, &mut message.pieces[at]);
        }
        // What a reader must pass over.
        _ => {
            message.spare = rng.byte();
            message.padding = rng.byte();
        }
    }
}

fn damage_value(rng: &mut Rng, piece: &mut Piece) {
    if let Some((low, high)) = limits(piece.tag) {
        let number = match rng.below(6) {
            0 => low,
            1 => low.wrapping_sub(1),
            2 => high,
            3 => high.wrapping_add(1),
            // Right in its last byte only.
            4 => low | 1 << rng.range(8, 31),
            _ => rng.word(),
        };
        piece.value = number.to_be_bytes().to_vec();
        return;
    }
    if piece.tag == INTERFACE_RANGE && piece.value.len() >= 8 {
        let pairs = piece.value.len() as u64 / 8;
        let at = 8 * rng.below(pairs) as usize;
        let pair = &mut piece.value[at..at + 8];
        match rng.below(4) {
            0 => pair.rotate_left(4),
            1 => {
                let start = be32(pair);
                pair[4..].copy_from_slice(&start.to_be_bytes());
            }
            2 => {
                let start = be32(pair);
                pair[4..].copy_from_slice(&start.wrapping_sub(1).to_be_bytes());
            }
            _ => pair.copy_from_slice(&rng.next64().to_be_bytes()),
        }
    }
}

/// One fault, or something that looks like one, of the message as a whole.
pub fn damage_bytes(rng: &mut Rng, bytes: &mut Vec<u8>) {
    if bytes.len() < 8 {
        return;
    }
    let len = bytes.len() as u32;
    match rng.below(12) {
        0 => bytes[0] = rng.pick(&[0, 2, 3, 0x81, 255]),
        1 => bytes[2] = rng.pick(&[1, 2, 5, 7, 8, 10, 16, 19, 128, 255]),
        2 => {
            let class = rng.pick(&[0, 3, 4, 6]);
            bytes[2] = class;
            bytes[3] = match class {
                0 => rng.pick(&[2, 3, 16, 255]),
                3 => rng.pick(&[0, 7, 17, 128]),
                4 => rng.pick(&[0, 5, 17, 128]),
                _ => rng.pick(&[0, 16, 17, 31, 128, 255]),
            };
        }
        3 | 4 => {
            let other = match rng.below(6) {
                0 => len.wrapping_add(1),
                1 => len.wrapping_sub(1),
                2 => len.wrapping_add(4),
                3 => len.wrapping_sub(4),
                4 => len | 0x0100_0000,
                _ => rng.word(),
            };
            bytes[4..8].copy_from_slice(&other.to_be_bytes());
        }
        // Cut off at the end, at a multiple of 4 or not, length field right
        // or not.
        5 | 6 => {
            let cut = match rng.below(3) {
                0 => rng.range(1, 4),
                1 => 4 * rng.range(1, 3),
                _ => rng.below(len as u64),
            };
            bytes.truncate(bytes.len().saturating_sub(cut as usize));
            if rng.one_in(2) {
                set_length(bytes);
            }
        }
        7 => {
            let more = rng.pick(&[1, 2, 3, 4, 4, 8]);
            let fill = rng.pick(&[0, 0, 1, 255]);
            bytes.extend(std::iter::repeat_n(fill, more));
            if rng.one_in(2) {
                set_length(bytes);
            }
        }
        8 => {
            // Unknown to the table, and a length field that is wrong too.
            bytes[3] = rng.byte();
            bytes[7] ^= 1 << rng.below(4);
        }
        9 => {
            bytes[0] = rng.byte();
            bytes[2] = rng.byte();
        }
        _ => {
            let at = rng.below(len as u64) as usize;
            bytes[at] ^= 1 << rng.below(8);
        }
    }
}

/// A header that may pass, and random words after it, of which many look
/// like parameters.
pub fn noise(rng: &mut Rng) -> Vec<u8> {
    let (class, kind) = rng.pick(&MESSAGES);
    let mut bytes = vec![1, 0, class, kind, 0, 0, 0, 0];
    for _ in 0..rng.below(10) {
        if rng.one_in(2) {
            bytes.extend_from_slice(&rng.pick(&TAGS).to_be_bytes());
            let len = rng.pick(&[3, 4, 5, 8, 8, 8, 12, 16]) as u16;
            bytes.extend_from_slice(&len.to_be_bytes());
        } else {
            bytes.extend_from_slice(&rng.word().to_be_bytes());
        }
    }
    if rng.one_in(8) {
        let more = rng.range(1, 3) as usize;
        bytes.extend(rng.bytes(more));
    }
    set_length(&mut bytes);
    bytes
}

/// A message of close to 2,048 bytes.
pub fn huge(rng: &mut Rng) -> Vec<u8> {
    let total = rng.pick(&[2040, 2044, 2047, 2048, 2048, 2049, 2050, 2052, 2056]);
    let ids = 4 * rng.below(3) as usize;
    let mut message = match rng.below(4) {
        // A Beat whose data fills the message, with or without padding.
        0 => {
            let size = total - 12 - rng.below(4) as usize;
            Message::new(3, 3, vec![Piece::new(HEARTBEAT_DATA, rng.bytes(size))])
        }
        1 => {
            let size = total - 12 - 8;
            let code = Piece::word(ERROR_CODE, rng.word());
            let text = Piece::new(DIAGNOSTIC, rng.bytes(size));
            Message::new(0, 0, vec![text, code])
        }
        2 => {
            let value = rng.bytes((total - 12) / 4 * 4);
            Message::new(4, 1, vec![Piece::new(INTERFACE_ID, value)])
        }
        _ => {
            let mut value = Vec::new();
            while value.len() + 12 + 8 + 8 + ids <= total {
                let (start, stop) = pair(rng);
                value.extend_from_slice(&start.to_be_bytes());
                value.extend_from_slice(&stop.to_be_bytes());
            }
            let mode = Piece::word(TRAFFIC_MODE, 2);
            let range = Piece::new(INTERFACE_RANGE, value);
            Message::new(4, 1, vec![range, mode])
        }
    };
    if rng.one_in(4) {
        damage_pieces(rng, &mut message);
    }
    let mut bytes = message.encode();
    if !total.is_multiple_of(4) || rng.one_in(8) {
        bytes.resize(total, 0);
        if rng.one_in(2) {
            set_length(&mut bytes);
        }
    }
    bytes
}

/// A text or protocol data at the limit of its length.
pub fn longest(rng: &mut Rng) -> Message {
    let (class, kind) = rng.pick(&[(0, 1), (3, 1), (3, 2), (4, 1), (6, 1), (6, 12), (6, 13)]);
    let mut message = valid(rng, class, kind);
    let size = rng.pick(&[-2, -1, 0, 0, 1, 1, 2]);
    for piece in &mut message.pieces {
        let limit = match piece.tag {
            INFO_STRING => 255,
            DATA1 | DATA2 => 273,
            _ => continue,
        };
        let fill = rng.byte();
        piece.value.resize((limit + size) as usize, fill);
    }
    message
}

/// Active or its Ack with a mode at or beyond its limits.
pub fn traffic_mode(rng: &mut Rng) -> Message {
    let kind = rng.pick(&[1, 3]);
    let mut message = valid(rng, 4, kind);
    let mode = rng.pick(&[0, 1, 3, 4, 5, 0x101, u32::MAX]);
    message.pieces.retain(|piece| piece.tag != TRAFFIC_MODE);
    message.pieces.push(Piece::word(TRAFFIC_MODE, mode));
    rng.shuffle(&mut message.pieces);
    message
}

/// Any message for the reader: valid, damaged once or twice, or noise.
pub fn any(rng: &mut Rng) -> Vec<u8> {
    let (class, kind) = rng.pick(&MESSAGES);
    match rng.below(1000) {
        0..=3 => return huge(rng),
        4..=23 => {
            let size = rng.below(9) as usize;
            let mut bytes = valid(rng, class, kind).encode();
            bytes.truncate(size);
            return bytes;
        }
        24..=83 => return noise(rng),
        84..=133 => return retrievals::any(rng).encode(),
        134..=163 => return retrievals::fitting(rng).encode(),
        164..=173 => return longest(rng).encode(),
        174..=183 => return traffic_mode(rng).encode(),
        _ => {}
    }
    let mut message = valid(rng, class, kind);
    let faults = rng.pick(&[0, 0, 0, 1, 1, 1, 1, 2, 2, 3]);
    let mut late = 0;
    for _ in 0..faults {
        if rng.one_in(4) {
            late += 1;
        } else {
            damage_pieces(rng, &mut message);
        }
    }
    let mut bytes = message.encode();
    for _ in 0..late {
        damage_bytes(rng, &mut bytes);
    }
    bytes
}
