//! Messages, made of parameters.

pub fn number(tag: u16, value: u32) -> Vec<u8> {
    bytes(tag, &value.to_be_bytes())
}

pub fn bytes(tag: u16, value: &[u8]) -> Vec<u8> {
    let mut p = vec![];
    p.extend(tag.to_be_bytes());
    p.extend((4 + value.len() as u16).to_be_bytes());
    p.extend(value);
    p.resize(p.len().div_ceil(4) * 4, 0);
    p
}

pub fn message(class: u8, kind: u8, params: &[Vec<u8>]) -> Vec<u8> {
    let body: Vec<u8> = params.concat();
    let mut m = vec![1, 0, class, kind];
    m.extend((8 + body.len() as u32).to_be_bytes());
    m.extend(body);
    m
}

/// Message M (Rule 11.2): Active, override, links 100 to 115.
pub fn sample_m() -> Vec<u8> {
    let range = bytes(0x8, &[0, 0, 0, 100, 0, 0, 0, 115]);
    message(4, 1, &[number(0xb, 1), range])
}

/// Data of 88 bytes with a correlation id.
pub fn data(id: u32) -> Vec<u8> {
    message(
        6,
        1,
        &[number(0x1, id), number(0x13, 7), bytes(0x300, &[0x55; 60])],
    )
}

/// A Retrieval Request with a sequence number.
pub fn retrieval(id: u32, sequence: u32) -> Vec<u8> {
    message(
        6,
        10,
        &[number(0x1, id), number(0x306, 2), number(0x307, sequence)],
    )
}

/// An Active that names identifiers.
pub fn active_of(ids: impl Iterator<Item = u32>) -> Vec<u8> {
    let value: Vec<u8> = ids.flat_map(u32::to_be_bytes).collect();
    message(4, 1, &[bytes(0x1, &value)])
}

/// 500 identifiers of links 0 to 127, in order again and again or in no order; each tenth has no link.
pub fn tenth_missing(mixed: bool) -> Vec<u8> {
    let step = if mixed { 37 } else { 1 };
    active_of((0..500).map(|i| if i % 10 == 9 { 1000 } else { i * step % 128 }))
}

/// An Active that names ranges, of which each stop is meant too.
pub fn active_of_ranges(ranges: impl Iterator<Item = (u32, u32)>) -> Vec<u8> {
    let ends = ranges.flat_map(|(start, stop)| [start, stop]);
    let value: Vec<u8> = ends.flat_map(u32::to_be_bytes).collect();
    message(4, 1, &[bytes(0x8, &value)])
}

/// 500 identifiers in no order of links that are numbered in steps of three; each tenth has no link.
pub fn missing_in_gaps() -> impl Iterator<Item = u32> {
    (0..500).map(|i| i * 37 % 128 * 3 + (i % 10 == 9) as u32)
}

/// 250 ranges over eight such links each, with the gaps between them.
pub fn over_gaps() -> impl Iterator<Item = (u32, u32)> {
    (0..250).map(|i| (i * 37 % 120 * 3, i * 37 % 120 * 3 + 21))
}

/// An Active of 509 identifiers in no order, of links 0, 3, 6 and so on; about half of them have no link.
/// Another one for each seed.
pub fn half_unknown(seed: u32) -> Vec<u8> {
    let mut x = seed.wrapping_mul(2_654_435_761) | 1;
    active_of((0..509).map(move |_| {
        x ^= x << 13;
        x ^= x >> 17;
        x ^= x << 5;
        x % 128 * 3 + (x >> 20) % 2
    }))
}
