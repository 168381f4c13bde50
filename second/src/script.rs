//! Scripts: one command to a line, one line of result to a command.

use crate::events::{bits, Event};
use crate::gateway::{place_in_hold, Gateway, HOLD_BYTES, MAX_ASES, MAX_HELD};
use crate::plan::load;
use crate::read::read;
use crate::wire::Params;
use crate::write::{write, Written};

/// The longest line that is a command.
pub const MAX_LINE: usize = 65_535;

/// The most that can be lent to a command: words of a list, bytes of a buffer,
/// bytes of a hold.
const MAX_LIST: usize = 2048;
const MAX_BUFFER: usize = 8192;
const MAX_HOLD: usize = 65_536;

/// A line that is no command.
struct Malformed;

type Parsed<T> = Result<T, Malformed>;

type Words<'a> = std::slice::Split<'a, u8, fn(&u8) -> bool>;

/// Takes scripts line by line.
pub struct Session {
    /// Bytes of the command at hand, kept to save allocations.
    bytes: Vec<u8>,
    tags: Vec<u16>,
    lens: Vec<u32>,
    /// The current state.
    gateway: Gateway,
    /// The hold that goes with the state.
    hold: Hold,
    /// The list lent to events.
    list: Vec<u32>,
    /// The buffer lent to `write` and `bytes`.
    buffer: Vec<u8>,
}

/// The hold that is kept, and another one to be lent in its place.
struct Hold {
    kept: Vec<u8>,
    other: Vec<u8>,
    /// Bytes that are lent.
    bytes: usize,
}

impl Hold {
    fn new() -> Self {
        Hold {
            kept: vec![0; HOLD_BYTES],
            other: vec![0; MAX_HOLD],
            bytes: HOLD_BYTES,
        }
    }

    fn lent(&self) -> &[u8] {
        match self.bytes {
            HOLD_BYTES => &self.kept,
            bytes => &self.other[..bytes],
        }
    }

    fn lend(&mut self) -> &mut [u8] {
        match self.bytes {
            HOLD_BYTES => &mut self.kept,
            bytes => &mut self.other[..bytes],
        }
    }

    /// `hold`, `paint` and `held`.
    fn command(&mut self, command: &[u8], words: &mut Words, out: &mut Vec<u8>) -> Parsed<()> {
        match command {
            b"hold" => {
                let bytes = number(word(words)?)? as usize;
                end(words)?;
                self.bytes = bytes.min(MAX_HOLD);
                out.push(b'0');
            }
            b"paint" => {
                let byte = number_below(256, word(words)?)?;
                end(words)?;
                self.kept.fill(byte as u8);
                out.push(b'0');
            }
            _ => {
                let a = number_below(MAX_ASES, word(words)?)?;
                let k = number_below(MAX_HELD, word(words)?)?;
                end(words)?;
                put_hex(&self.kept[place_in_hold(a, k)], out);
            }
        }
        Ok(())
    }
}

impl Default for Session {
    fn default() -> Self {
        Self::new()
    }
}

impl Session {
    pub fn new() -> Self {
        Session {
            bytes: Vec::new(),
            tags: Vec::new(),
            lens: Vec::new(),
            gateway: Gateway::ZERO,
            hold: Hold::new(),
            list: vec![0; MAX_LIST],
            buffer: vec![0; MAX_BUFFER],
        }
    }

    /// The current state.
    pub fn gateway(&self) -> &Gateway {
        &self.gateway
    }

    /// The hold that the next event is lent.
    pub fn hold(&self) -> &[u8] {
        self.hold.lent()
    }

    /// Takes one line, without its newline, and appends its result, if it has
    /// one, with a newline.
    pub fn line(&mut self, line: &[u8], out: &mut Vec<u8>) {
        // Comments are passed over whatever their length.
        if line.is_empty() || line[0] == b'#' {
            return;
        }
        let start = out.len();
        if line.len() > MAX_LINE || self.command(line, out).is_err() {
            out.truncate(start);
            out.push(b'?');
        }
        out.push(b'\n');
    }

    fn command(&mut self, line: &[u8], out: &mut Vec<u8>) -> Parsed<()> {
        let is_blank: fn(&u8) -> bool = |byte| *byte == b' ';
        let mut words = line.split(is_blank);
        let command = word(&mut words)?;
        match command {
            b"read" => {
                last_hex(&mut words, &mut self.bytes)?;
                put_reading(&self.bytes, out);
            }
            b"show" => {
                last_hex(&mut words, &mut self.bytes)?;
                put_shown(&self.bytes, out);
            }
            b"plan" => {
                last_hex(&mut words, &mut self.bytes)?;
                let loaded = load(&self.bytes);
                self.gateway = loaded.gateway;
                put_number(loaded.code, out);
            }
            b"state" => {
                end(&mut words)?;
                put_state(&self.gateway, out);
            }
            b"write" => {
                let class = number(word(&mut words)?)?;
                let kind = number(word(&mut words)?)?;
                let room = number(word(&mut words)?)? as usize;
                self.list(word(&mut words)?)?;
                end(&mut words)?;
                let buffer = &mut self.buffer[..room.min(MAX_BUFFER)];
                let written = write(class, kind, &self.tags, &self.lens, &self.bytes, buffer);
                put_written(written, &self.buffer, out);
            }
            b"hold" | b"paint" | b"held" => self.hold.command(command, &mut words, out)?,
            b"bytes" => {
                let place = number(word(&mut words)?)?;
                let room = number(word(&mut words)?)? as usize;
                let command = word(&mut words)?;
                let (event, _) = event(command, &mut words, &mut self.bytes)?;
                let buffer = &mut self.buffer[..room.min(MAX_BUFFER)];
                let written = self
                    .gateway
                    .order_bytes(event, self.hold.lent(), place, buffer);
                put_written(written, &self.buffer, out);
            }
            b"reach" => {
                let command = word(&mut words)?;
                let (event, words) = event(command, &mut words, &mut self.bytes)?;
                let ases = self.gateway.reach(event, self.hold.bytes, words);
                put_reach(ases, out);
            }
            _ => {
                let (event, words) = event(command, &mut words, &mut self.bytes)?;
                let list = &mut self.list[..words];
                let done = self.gateway.run(event, self.hold.lend(), list);
                put_orders(done.code, done.count, list, out);
            }
        }
        Ok(())
    }

    /// A list of tags and values.
    fn list(&mut self, text: &[u8]) -> Parsed<()> {
        self.tags.clear();
        self.lens.clear();
        self.bytes.clear();
        if text == b"-" {
            return Ok(());
        }
        for item in text.split(|byte| *byte == b',') {
            let colon = item.iter().position(|byte| *byte == b':');
            let (tag, value) = item.split_at(colon.ok_or(Malformed)?);
            // A tag of over 16 bits is, like the highest of 16, no tag of any
            // message: it is refused in its turn.
            let tag = number(tag)?.min(u16::MAX as u32);
            let start = self.bytes.len();
            push_unhexed(&value[1..], &mut self.bytes)?;
            self.tags.push(tag as u16);
            self.lens.push((self.bytes.len() - start) as u32);
        }
        Ok(())
    }
}

/// The last word, bytes in hex.
fn last_hex(words: &mut Words, bytes: &mut Vec<u8>) -> Parsed<()> {
    let text = word(words)?;
    end(words)?;
    bytes.clear();
    if text == b"-" {
        return Ok(());
    }
    if text.is_empty() {
        return Err(Malformed);
    }
    push_unhexed(text, bytes)
}

/// The rest of an event's line: the event, and the words of its list.
fn event<'a>(
    command: &[u8],
    words: &mut Words,
    bytes: &'a mut Vec<u8>,
) -> Parsed<(Event<'a>, usize)> {
    if command == b"linkmsg" {
        let list = list_words(words)?;
        last_hex(words, bytes)?;
        return Ok((Event::LinkMessage { message: bytes }, list));
    }
    if !matches!(command, b"msg" | b"lost" | b"recovery" | b"up" | b"down") {
        return Err(Malformed);
    }
    let index = number(word(words)?)?;
    let list = list_words(words)?;
    let event = match command {
        b"msg" => {
            last_hex(words, bytes)?;
            let message = bytes;
            return Ok((
                Event::Message {
                    asp: index,
                    message,
                },
                list,
            ));
        }
        b"lost" => Event::Lost { asp: index },
        b"recovery" => Event::Recovery { server: index },
        b"up" => Event::LinkUp { link: index },
        _ => Event::LinkDown { link: index },
    };
    end(words)?;
    Ok((event, list))
}

fn list_words(words: &mut Words) -> Parsed<usize> {
    Ok((number(word(words)?)? as usize).min(MAX_LIST))
}

fn word<'a>(words: &mut Words<'a>) -> Parsed<&'a [u8]> {
    words.next().ok_or(Malformed)
}

fn end(words: &mut Words) -> Parsed<()> {
    match words.next() {
        None => Ok(()),
        Some(_) => Err(Malformed),
    }
}

/// A decimal number of 32 bits; leading zeros do not matter.
fn number(text: &[u8]) -> Parsed<u32> {
    if text.is_empty() {
        return Err(Malformed);
    }
    text.iter().try_fold(0u32, |number, byte| {
        let digit = byte.wrapping_sub(b'0');
        if digit > 9 {
            return Err(Malformed);
        }
        let tens = number.checked_mul(10).ok_or(Malformed)?;
        tens.checked_add(digit as u32).ok_or(Malformed)
    })
}

/// A number below a limit.
fn number_below(limit: usize, text: &[u8]) -> Parsed<usize> {
    let number = number(text)? as usize;
    if number >= limit {
        return Err(Malformed);
    }
    Ok(number)
}

/// Marks a byte that is no hex digit.
const NO_DIGIT: u8 = 0xff;

static DIGITS: [u8; 256] = {
    let mut digits = [NO_DIGIT; 256];
    let mut i = 0;
    while i < 16 {
        digits[b"0123456789abcdef"[i] as usize] = i as u8;
        i += 1;
    }
    digits
};

fn push_unhexed(text: &[u8], bytes: &mut Vec<u8>) -> Parsed<()> {
    if !text.len().is_multiple_of(2) {
        return Err(Malformed);
    }
    bytes.reserve(text.len() / 2);
    for pair in text.chunks_exact(2) {
        let (high, low) = (DIGITS[pair[0] as usize], DIGITS[pair[1] as usize]);
        if high == NO_DIGIT || low == NO_DIGIT {
            return Err(Malformed);
        }
        bytes.push(high << 4 | low);
    }
    Ok(())
}

pub fn put_hex(bytes: &[u8], out: &mut Vec<u8>) {
    const DIGITS: &[u8; 16] = b"0123456789abcdef";
    out.reserve(2 * bytes.len());
    for byte in bytes {
        out.push(DIGITS[(byte >> 4) as usize]);
        out.push(DIGITS[(byte & 15) as usize]);
    }
}

pub fn put_number(mut number: u32, out: &mut Vec<u8>) {
    let mut digits = [0; 10];
    let mut at = digits.len();
    loop {
        at -= 1;
        digits[at] = b'0' + (number % 10) as u8;
        number /= 10;
        if number == 0 {
            break;
        }
    }
    out.extend_from_slice(&digits[at..]);
}

/// The result of `read`.
fn put_reading(message: &[u8], out: &mut Vec<u8>) {
    let code = read(message).code;
    put_number(code, out);
    if code != 0 {
        return;
    }
    for param in Params::new(message) {
        out.push(b' ');
        put_number(param.tag as u32, out);
        out.push(b':');
        put_number(param.len as u32, out);
        out.push(b':');
        put_hex(param.value, out);
    }
}

/// The lines of `show`, joined by a bar between blanks.
fn put_shown(message: &[u8], out: &mut Vec<u8>) {
    let reading = read(message);
    if reading.code == 0 {
        out.extend_from_slice(b"message ");
        put_number(reading.class, out);
        out.push(b' ');
        put_number(reading.kind, out);
        out.push(b' ');
        put_number(message.len() as u32, out);
        out.extend_from_slice(b" | ");
        for param in Params::new(message) {
            out.extend_from_slice(b"param ");
            put_number(param.tag as u32, out);
            out.push(b' ');
            put_number(param.len as u32, out);
            if !param.value.is_empty() {
                out.push(b' ');
                put_hex(param.value, out);
            }
            out.extend_from_slice(b" | ");
        }
    }
    out.extend_from_slice(b"verdict ");
    put_number(reading.code, out);
}

/// The result of `state`.
fn put_state(gateway: &Gateway, out: &mut Vec<u8>) {
    let (asps, ases) = (gateway.asps as usize, gateway.ases as usize);
    let digits = |marks: &[u8], out: &mut Vec<u8>| {
        out.extend(marks.iter().map(|mark| b'0' + mark));
    };
    out.extend_from_slice(b"up=");
    digits(&gateway.up[..asps], out);
    out.extend_from_slice(b" active=");
    let start = out.len();
    for p in 0..asps {
        for a in 0..ases {
            if gateway.is_active(a, p) {
                if out.len() > start {
                    out.push(b',');
                }
                put_number(p as u32, out);
                out.push(b':');
                put_number(a as u32, out);
            }
        }
    }
    out.extend_from_slice(b" waiting=");
    digits(&gateway.waiting[..ases], out);
    out.extend_from_slice(b" links=");
    digits(&gateway.state[..gateway.links as usize], out);
    out.extend_from_slice(b" held=");
    put_held(gateway, out);
}

/// The units held, ASes ascending, in each the oldest first.
fn put_held(gateway: &Gateway, out: &mut Vec<u8>) {
    let start = out.len();
    for a in 0..MAX_ASES {
        for k in 0..gateway.held_of(a) {
            if out.len() > start {
                out.push(b',');
            }
            let unit = gateway.unit(a, k);
            for number in [a as u32, unit.tag as u32, unit.len as u32, unit.id] {
                put_number(number, out);
                out.push(b':');
            }
            match unit.correlation {
                Some(number) => put_number(number, out),
                None => out.push(b'-'),
            }
        }
    }
}

/// The result of an event.
fn put_orders(code: u32, count: u32, list: &[u32], out: &mut Vec<u8>) {
    if code != 0 {
        out.extend_from_slice(b"R ");
        put_number(code, out);
        return;
    }
    out.extend_from_slice(b"N ");
    put_number(count, out);
    for order in &list.as_chunks::<4>().0[..count as usize] {
        let [addressee, code, subject, value] = *order;
        out.extend_from_slice(b" (");
        put_number(addressee, out);
        for number in [code, subject, value] {
            out.push(b',');
            put_number(number, out);
        }
        out.push(b')');
    }
}

/// The result of `write` and `bytes`.
fn put_written(written: Written, buffer: &[u8], out: &mut Vec<u8>) {
    put_number(written.code, out);
    if written.code == 0 {
        out.push(b' ');
        put_hex(&buffer[..written.length as usize], out);
    }
}

/// The result of `reach`.
fn put_reach(ases: u16, out: &mut Vec<u8>) {
    if ases == 0 {
        out.push(b'-');
    }
    for (place, a) in bits(ases).enumerate() {
        if place > 0 {
            out.push(b',');
        }
        put_number(a as u32, out);
    }
}

/// Runs a whole script; for tests.
pub fn run(script: &[u8]) -> Vec<u8> {
    let mut session = Session::new();
    let mut out = Vec::new();
    let text = script.strip_suffix(b"\n").unwrap_or(script);
    for line in text.split(|byte| *byte == b'\n') {
        session.line(line, &mut out);
    }
    out
}
