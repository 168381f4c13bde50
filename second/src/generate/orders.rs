//! Lines of the kind `bytes`: the orders of an event as bytes.

use super::rng::Rng;
use crate::events::{Event, DATA, LIST_WORDS};
use crate::gateway::Gateway;
use crate::naming::Marks;
use crate::script::put_number;
use crate::wire::*;

/// Lines that are no good `bytes`, and the last two, which look strange only.
pub const MALFORMED: [&str; 27] = [
    "bytes",
    "bytes ",
    "bytes 0",
    "bytes 0 99 ",
    "bytes  0 99 lost 0 1544",
    "bytes 0  99 lost 0 1544",
    "bytes 0 99  lost 0 1544",
    "bytes 0 99 lost 0 1544 ",
    "bytes 0 99 lost 0 1544 0",
    "bytes 0 99 lost 0 4294967296",
    "bytes 0 99 lost 4294967296 0",
    "bytes 0 4294967296 lost 0 1544",
    "bytes 4294967296 99 lost 0 1544",
    "bytes -1 99 lost 0 1544",
    "bytes 0 - lost 0 1544",
    "bytes x 99 lost 0 1544",
    "bytes 0 99 read -",
    "bytes 0 99 plan -",
    "bytes 0 99 write 3 1 8 -",
    "bytes 0 99 bytes 0 99 lost 0 1544",
    "bytes 0 99 msg 0 1544",
    "bytes 0 99 msg 0 1544 0",
    "bytes 0 99 linkmsg 0 1544 -",
    "byte 0 99 lost 0 1544",
    "Bytes 0 99 lost 0 1544",
    "bytes 00 0099 lost 000 01544",
    "bytes 0 99 lost 0 0",
];

/// Of more orders than this only some places are tried.
const MANY: u32 = 6;

/// The places to try of these orders: each one, or both ends and some between,
/// with some of the units that go out; often the first beyond, now and then
/// one far beyond.
pub fn places(rng: &mut Rng, orders: &[[u32; 4]]) -> Vec<u32> {
    let count = orders.len() as u32;
    let mut places: Vec<u32> = if count <= MANY {
        (0..count).collect()
    } else {
        let between = rng.range(2, count as u64 - 2) as u32;
        let mut places = vec![0, 1, between, count - 1];
        let units = (0..count).filter(|place| orders[*place as usize][1] == DATA);
        let mut units: Vec<u32> = units.collect();
        rng.shuffle(&mut units);
        places.extend(units.iter().take(4));
        places
    };
    if count == 0 || rng.one_in(3) {
        places.push(count);
    }
    if rng.one_in(15) {
        places.push(rng.pick(&[count + 1, 257, 258, 384, 385, 386, u32::MAX]));
    }
    places
}

/// The orders of an event that is lent a hold of so many bytes; none if it is
/// refused.
pub fn all(gateway: &Gateway, event: Event, hold: usize) -> Vec<[u32; 4]> {
    let mut list = [0; LIST_WORDS];
    let count = gateway
        .dry_run(event, hold, &mut list, &mut Marks::new())
        .count;
    list.as_chunks::<4>().0[..count as usize].to_vec()
}

/// `bytes` with a place and a buffer around the length of its order.
pub fn put_command(
    rng: &mut Rng,
    (gateway, hold): (&Gateway, &[u8]),
    event: Event,
    place: u32,
    line: &mut Vec<u8>,
) {
    let mut buffer = [0; MAX_MESSAGE];
    let length = gateway.order_bytes(event, hold, place, &mut buffer).length;
    let room = match rng.below(10) {
        0 | 1 => length.saturating_sub(1),
        2 => rng.below(length as u64 + 1) as u32,
        3 => rng.pick(&[0, 7, 8, 2048, 8192, u32::MAX]),
        4 => length + 1,
        5 => length + rng.below(200) as u32,
        _ => length,
    };
    line.extend_from_slice(b"bytes ");
    put_number(place, line);
    line.push(b' ');
    put_number(room, line);
    line.push(b' ');
}

/// Gives a message what a reader passes over: a spare byte and padding that
/// are not zero.
pub fn litter(rng: &mut Rng, message: &mut [u8]) {
    if message.len() < HEADER_LEN {
        return;
    }
    message[1] = rng.byte();
    let ends: Vec<usize> = Params::new(message)
        .scan(HEADER_LEN, |at, param| {
            let end = *at + param.len as usize;
            *at += padded(param.len as usize);
            Some(end)
        })
        .collect();
    for end in ends {
        for byte in &mut message[end..padded(end)] {
            *byte = rng.byte() | 1;
        }
    }
}
