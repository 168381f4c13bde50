//! The event lines of a generated script as calls of both libraries, the proved one and the second program.
use crate::proved::{self, Batch, Done, Handled, Written};
use second::bytes::MAX_ORDERS;
use second::events::LIST_WORDS;
use second::generate::{generate, Kind};
use second::{Event, Gateway, HOLD_BYTES};

#[derive(Clone, Copy, Debug, PartialEq, Eq)]
pub enum What {
    Message,
    Lost,
    Recovery,
    LinkUp,
    LinkDown,
    LinkMessage,
}

/// An event with its message and the lengths of its hold and of its list: what it keeps when it trades
/// places.
#[derive(Clone, Debug, PartialEq, Eq)]
pub struct Call {
    pub what: What,
    pub index: u32,
    pub message: Vec<u8>,
    pub hold: usize,
    pub room: usize,
}

/// A line that matters here.
pub enum Line {
    Plan(Vec<u8>),
    Call(Call),
    /// The hold that goes with the state has this byte everywhere.
    Paint(u8),
}

/// The hold that goes through a history, and another one, lent to an event that keeps another length.
#[derive(Clone, PartialEq, Eq)]
pub struct Hold {
    pub kept: Vec<u8>,
    other: Vec<u8>,
}

/// What stands in the other one.
const OTHER: u8 = 0x5c;

impl Default for Hold {
    fn default() -> Self {
        Hold {
            kept: vec![0; HOLD_BYTES],
            other: vec![OTHER; 65_536],
        }
    }
}

impl Hold {
    /// What a call is lent.
    pub fn lend(&mut self, bytes: usize) -> &mut [u8] {
        match bytes {
            HOLD_BYTES => &mut self.kept,
            _ => &mut self.other[..bytes],
        }
    }

    pub fn lent(&self, bytes: usize) -> &[u8] {
        match bytes {
            HOLD_BYTES => &self.kept,
            _ => &self.other[..bytes],
        }
    }

    /// Whether no event has written into the other one.
    pub fn other_untouched(&self) -> bool {
        self.other.iter().all(|byte| *byte == OTHER)
    }
}

fn hex(word: &str) -> Option<Vec<u8>> {
    if word == "-" {
        return Some(vec![]);
    }
    if !word.len().is_multiple_of(2) {
        return None;
    }
    (0..word.len() / 2)
        .map(|i| u8::from_str_radix(&word[2 * i..2 * i + 2], 16).ok())
        .collect()
}

/// A plan, a painted hold or an event, which is lent a hold of so many bytes; nothing for other lines and for
/// malformed ones, which the scripts compare.
pub fn line(text: &str, hold: usize) -> Option<Line> {
    let words: Vec<&str> = text.split(' ').collect();
    let (what, index, room, message) = match words[..] {
        ["plan", file] => return hex(file).map(Line::Plan),
        ["paint", byte] => return byte.parse().ok().map(Line::Paint),
        ["msg", p, room, message] => (What::Message, p, room, message),
        ["lost", p, room] => (What::Lost, p, room, "-"),
        ["recovery", a, room] => (What::Recovery, a, room, "-"),
        ["up", l, room] => (What::LinkUp, l, room, "-"),
        ["down", l, room] => (What::LinkDown, l, room, "-"),
        ["linkmsg", room, message] => (What::LinkMessage, "0", room, message),
        _ => return None,
    };
    Some(Line::Call(Call {
        what,
        index: index.parse().ok()?,
        message: hex(message)?,
        hold,
        // as the scripts have it: at most 2,048 words are lent
        room: (room.parse::<u32>().ok()? as usize).min(2048),
    }))
}

/// The kinds of histories that a program is asked for: one by its name, or the usual ones. With it, what a
/// line about them begins with.
pub fn asked(program: &str, word: Option<&str>, usual: &[Kind]) -> (String, Vec<Kind>) {
    let Some(word) = word else {
        return (program.to_string(), usual.to_vec());
    };
    match Kind::named(word) {
        Some(kind @ (Kind::Event | Kind::Bytes | Kind::Ranges | Kind::Partly)) => {
            (format!("{program} of {word}"), vec![kind])
        }
        _ => panic!("no kind of histories: {word}"),
    }
}

/// The plans and events of a generated script.
pub fn generated_of(kind: Kind, seed: u64, lines: u64) -> Vec<Line> {
    let mut found = vec![];
    let mut hold = HOLD_BYTES;
    let mut keep = |text: &[u8]| {
        let text = String::from_utf8_lossy(text);
        match text.strip_prefix("hold ").map(str::parse::<u32>) {
            // as the scripts have it: at most 65,536 bytes are lent
            Some(Ok(bytes)) => hold = (bytes as usize).min(65_536),
            _ => found.extend(line(&text, hold)),
        }
        Ok(())
    };
    generate(seed, lines, kind, &mut keep).expect("a script");
    found
}

impl Call {
    pub fn event(&self) -> Event<'_> {
        let (index, message) = (self.index, &self.message[..]);
        match self.what {
            What::Message => Event::Message {
                asp: index,
                message,
            },
            What::Lost => Event::Lost { asp: index },
            What::Recovery => Event::Recovery { server: index },
            What::LinkUp => Event::LinkUp { link: index },
            What::LinkDown => Event::LinkDown { link: index },
            What::LinkMessage => Event::LinkMessage { message },
        }
    }

    /// The controller whose event it is.
    pub fn controller(&self) -> Option<u32> {
        matches!(self.what, What::Message | What::Lost).then_some(self.index)
    }

    /// A lent list with leftovers, which must stay behind the orders.
    pub fn list(&self) -> Vec<u32> {
        (0..self.room as u32)
            .map(|i| i.wrapping_mul(0x9e37_79b9))
            .collect()
    }

    /// The event by the proved library, on the state where it lies.
    #[inline(always)]
    pub fn proved(&self, state: &mut Gateway, hold: &mut [u8], list: &mut [u32]) -> Done {
        let (kind, index) = (self.what as u32, self.index as usize);
        proved::event(state, kind, index, &self.message, hold, list)
    }

    /// The same with the messages of all its actions.
    #[inline(always)]
    pub fn handled(
        &self,
        state: &mut Gateway,
        hold: &mut [u8],
        list: &mut [u32; LIST_WORDS],
        lens: &mut [u32; MAX_ORDERS],
        out: &mut [u8],
    ) -> Handled {
        let (kind, index) = (self.what as u32, self.index as usize);
        proved::handle(state, kind, index, &self.message, hold, list, lens, out)
    }

    /// One of its actions as bytes, by the proved library.
    pub fn order(&self, state: &Gateway, hold: &[u8], place: usize, out: &mut [u8]) -> Written {
        let (kind, index) = (self.what as u32, self.index as usize);
        proved::order(state, kind, index, &self.message, hold, place, out)
    }

    /// As many of them as go in.
    pub fn orders(
        &self,
        state: &Gateway,
        hold: &[u8],
        place: usize,
        lens: &mut [u32],
        out: &mut [u8],
    ) -> Batch {
        let (kind, index) = (self.what as u32, self.index as usize);
        proved::orders(state, kind, index, &self.message, hold, place, lens, out)
    }

    /// The event by the second program, on the state where it lies.
    #[inline(always)]
    pub fn second(&self, state: &mut Gateway, hold: &mut [u8], list: &mut [u32]) -> second::Done {
        state.run(self.event(), hold, list)
    }
}
