//! Lines of the kind `write`.

use super::message::{self, Message, Piece};
use super::rng::Rng;
use super::{malformed, reading, retrievals};
use crate::script::{put_hex, put_number};
use crate::wire::*;

/// Lines that are no good `write`.
const MALFORMED: [&str; 34] = [
    "write",
    "write ",
    "write 3",
    "write 3 1",
    "write 3 1 8",
    "write 3 1 8 ",
    "write 3 1 8  -",
    "write 3 1 8 - ",
    "write 3 1 8 - -",
    "write  3 1 8 -",
    "write 3 1 8 --",
    "write 3 1 8 ,",
    "write 3 1 8 :",
    "write 3 1 8 4",
    "write 3 1 99 4:,",
    "write 3 1 99 ,4:",
    "write 3 1 99 4:,,17:00000001",
    "write 3 1 99 4:0",
    "write 3 1 99 4:0g",
    "write 3 1 99 4:AB",
    "write 3 1 99 4:00:00",
    "write 3 1 99 :00",
    "write 3 1 99 4 :00",
    "write 3 1 99 4: 00",
    "write 3 1 99 x:00",
    "write 3 1 99 4:00,17",
    "write 3 1 4294967296 -",
    "write 4294967296 1 8 -",
    "write 3 4294967297 8 -",
    "write 3 1 99 4294967300:00",
    "write -3 1 8 -",
    "write 3 +1 8 -",
    "write 3 1 0x8 -",
    "Write 3 1 8 -",
];

/// Good ones that look strange.
const STRANGE: [&str; 9] = [
    "write 3 1 8 -",
    "write 3 1 7 -",
    "write 003 0000000000000001 008 -",
    "write 3 1 4294967295 -",
    "write 3 1 8192 0004:",
    "write 259 1 8 -",
    "write 3 257 8 -",
    "write 4294967295 4294967295 0 -",
    "write 3 1 99 65540:00",
];

pub fn line(rng: &mut Rng, line: &mut Vec<u8>) {
    match rng.below(400) {
        0 => return malformed::line(rng, line),
        1 | 2 => return line.extend_from_slice(rng.pick(&MALFORMED).as_bytes()),
        3 => return line.extend_from_slice(rng.pick(&STRANGE).as_bytes()),
        // Some reading in between.
        4..=11 => return reading::line(rng, line),
        _ => {}
    }
    let message = match rng.below(300) {
        0 => huge(rng),
        1..=16 => retrievals::any(rng),
        17..=26 => retrievals::fitting(rng),
        27..=30 => message::longest(rng),
        31..=36 => message::traffic_mode(rng),
        _ => any(rng),
    };
    put(rng, &message, line);
    if rng.one_in(150) {
        malformed::damage(rng, line);
    }
}

fn any(rng: &mut Rng) -> Message {
    let (class, kind) = rng.pick(&message::MESSAGES);
    let mut message = message::valid(rng, class, kind);
    for _ in 0..rng.pick(&[0, 0, 1, 1, 2]) {
        message::damage_pieces(rng, &mut message);
    }
    match rng.below(40) {
        0 => message.class = rng.pick(&[1, 2, 5, 7, 8, 10, 255]),
        1 => message.kind = rng.pick(&[0, 2, 5, 7, 16, 17, 255]),
        _ => {}
    }
    message
}

/// Of close to 2,048 bytes, or far more.
fn huge(rng: &mut Rng) -> Message {
    // What the values take together with their padding.
    let room = rng.pick(&[2032, 2036, 2036, 2040, 2044, 65_528]) as usize;
    let mut message = match rng.below(5) {
        0 => {
            let size = room - rng.below(4) as usize;
            Message::new(3, 3, vec![Piece::new(HEARTBEAT_DATA, vec![0xab; size])])
        }
        1 => {
            let size = room.min(4000) - 8;
            let value = rng.bytes(size);
            let mode = Piece::word(TRAFFIC_MODE, 1);
            Message::new(4, 3, vec![mode, Piece::new(INTERFACE_ID, value)])
        }
        2 => {
            let ids = Piece::new(INTERFACE_ID, rng.bytes(2000));
            Message::new(4, 3, vec![ids])
        }
        // Many small parameters.
        3 => {
            let count = rng.pick(&[254, 255, 256, 300, 511, 512]);
            let kind = rng.range(1, 4) as u8;
            Message::new(4, kind, vec![Piece::word(INTERFACE_ID, 7); count])
        }
        _ => Message::new(
            4,
            1,
            vec![Piece::new(INFO_STRING, vec![]); 510 + rng.below(3) as usize],
        ),
    };
    // The sum of a long line must stay below the limit of a line.
    for piece in &mut message.pieces {
        piece.value.truncate(32_000);
    }
    if rng.one_in(6) {
        message.class = 9;
    }
    message
}

/// The command that writes a message, with a buffer around its length.
fn put(rng: &mut Rng, message: &Message, line: &mut Vec<u8>) {
    let sizes = message.pieces.iter().map(|p| 4 + padded(p.value.len()));
    let total = sizes.sum::<usize>() as u32 + 8;
    let room = match rng.below(12) {
        0..=4 => total,
        5 | 6 => total - 1,
        7 => total + 1,
        8 => rng.below(total as u64) as u32,
        9 => rng.pick(&[0, 7, 8, 2047, 2048, 8192, 8193, u32::MAX]),
        10 => total.saturating_sub(4),
        _ => total + rng.below(100) as u32,
    };
    line.extend_from_slice(b"write ");
    for number in [message.class as u32, message.kind as u32, room] {
        put_number(number, line);
        line.push(b' ');
    }
    if message.pieces.is_empty() {
        line.push(b'-');
    }
    for (place, piece) in message.pieces.iter().enumerate() {
        if place > 0 {
            line.push(b',');
        }
        put_number(piece.tag as u32, line);
        line.push(b':');
        put_hex(&piece.value, line);
    }
}
