//! Lines that are no commands, and lines that are passed over.

use super::hex::put_bytes;
use super::message;
use super::rng::Rng;

/// Printable ones, for scripts that are kept.
const PRINTABLE: [&str; 47] = [
    "",
    "#",
    "# a comment",
    "#read -",
    " ",
    "  ",
    "-",
    "?",
    "0",
    "read",
    "read ",
    "read  ",
    "read  -",
    " read -",
    "read - ",
    "read -  ",
    "read - -",
    "read --",
    "read -00",
    "read 0",
    "read 000",
    "read 0100030100000008 ",
    "read  0100030100000008",
    " read 0100030100000008",
    "read 0100030100000008 -",
    "read 0100030100000008 0100030100000008",
    "read 01000301000000080",
    "read 010003010000000",
    "read 01 00030100000008",
    "read 010003010000000g",
    "read 010003010000000A",
    "read 0100030100000008#",
    "read 0x0100030100000008",
    "read -1",
    "Read 0100030100000008",
    "READ 0100030100000008",
    "reads 0100030100000008",
    "rea 0100030100000008",
    "read0100030100000008",
    "show",
    "show ",
    "show 0",
    "show - -",
    "show 0100030100000008 ",
    "shows 0100030100000008",
    "verdict 0",
    "message 3 1 8",
];

/// Bytes that are no text, and control characters.
const RAW: [&[u8]; 10] = [
    b"\r",
    b"read -\r",
    b"read\t-",
    b"\tread -",
    b"\xff",
    b"read \xff\xfe",
    b"read 0\xc3\xa9",
    b"\0",
    b"read -\0",
    b"read 00\0",
];

pub fn line(rng: &mut Rng, line: &mut Vec<u8>) {
    if rng.one_in(100) {
        return long(rng, line);
    }
    if rng.one_in(3) {
        return damaged_command(rng, line);
    }
    line.extend_from_slice(rng.pick(&PRINTABLE).as_bytes());
}

/// Of every sort, also with bytes that are no text.
pub fn any_line(rng: &mut Rng, line: &mut Vec<u8>) {
    match rng.below(4) {
        0 => line.extend_from_slice(rng.pick(&RAW)),
        1 => {
            damaged_command(rng, line);
            if let Some(last) = line.len().checked_sub(1) {
                let at = rng.below(last as u64 + 1) as usize;
                line[at] = rng.byte();
            }
            line.retain(|byte| *byte != b'\n');
        }
        _ => self::line(rng, line),
    }
}

/// A good command with one character wrong.
fn damaged_command(rng: &mut Rng, line: &mut Vec<u8>) {
    line.extend_from_slice(if rng.one_in(4) { b"show " } else { b"read " });
    let (class, kind) = rng.pick(&message::MESSAGES);
    put_bytes(&message::valid(rng, class, kind).encode(), line);
    damage(rng, line);
}

/// Puts a character in, takes one out or changes one.
pub fn damage(rng: &mut Rng, line: &mut Vec<u8>) {
    let at = rng.below(line.len() as u64) as usize;
    let other = rng.pick(b" -0g:AF,#x");
    match rng.below(3) {
        0 => line.insert(at, other),
        1 => line[at] = other,
        _ => {
            line.remove(at);
        }
    }
}

/// Of 65,535 characters, which is a command, or of one or two more.
fn long(rng: &mut Rng, line: &mut Vec<u8>) {
    line.extend_from_slice(if rng.one_in(4) { b"show " } else { b"read " });
    line.resize(65_535 + rng.below(3) as usize, b'0');
}
