//! The lines of a script that load a plan, say an event or change what an event is lent; and an event as such
//! a line.
use m2ua::{sys, Event};
use std::fmt;

/// A line that matters here.
#[derive(Clone, Debug, PartialEq, Eq)]
pub enum Command {
    Plan(Vec<u8>),
    /// An event, and the words that it is lent.
    Event(Happening, usize),
    /// How many bytes of hold the events that follow are lent.
    Hold(usize),
    /// The hold that goes with the state has this byte everywhere.
    Paint(u8),
}

/// An event with its own bytes.
#[derive(Clone, Debug, PartialEq, Eq)]
pub enum Happening {
    Message(usize, Vec<u8>),
    Lost(usize),
    Recovery(usize),
    LinkUp(usize),
    LinkDown(usize),
    LinkMessage(Vec<u8>),
}

impl Happening {
    /// The event, with its bytes lent.
    pub fn event(&self) -> Event<'_> {
        match self {
            Happening::Message(asp, message) => Event::Message { asp: *asp, message },
            Happening::Lost(asp) => Event::Lost { asp: *asp },
            Happening::Recovery(server) => Event::Recovery { r#as: *server },
            Happening::LinkUp(link) => Event::LinkUp { link: *link },
            Happening::LinkDown(link) => Event::LinkDown { link: *link },
            Happening::LinkMessage(message) => Event::LinkMessage { message },
        }
    }
}

/// An event as a line of a script, lent the words that it needs; without the end of the line.
pub struct Line<'a>(pub &'a Event<'a>);

impl fmt::Display for Line<'_> {
    fn fmt(&self, f: &mut fmt::Formatter<'_>) -> fmt::Result {
        let words = sys::LIST_WORDS;
        match *self.0 {
            Event::Message { asp, message } => write!(f, "msg {asp} {words} {}", Hex(message)),
            Event::Lost { asp } => write!(f, "lost {asp} {words}"),
            Event::Recovery { r#as } => write!(f, "recovery {} {words}", r#as),
            Event::LinkUp { link } => write!(f, "up {link} {words}"),
            Event::LinkDown { link } => write!(f, "down {link} {words}"),
            Event::LinkMessage { message } => write!(f, "linkmsg {words} {}", Hex(message)),
        }
    }
}

/// Bytes as a script has them: pairs of hex digits, or - for none.
pub struct Hex<'a>(pub &'a [u8]);

impl fmt::Display for Hex<'_> {
    fn fmt(&self, f: &mut fmt::Formatter<'_>) -> fmt::Result {
        const DIGITS: &[u8; 16] = b"0123456789abcdef";
        if self.0.is_empty() {
            return f.write_str("-");
        }
        // many at a time: a call for each digit takes longer than the event itself
        for bytes in self.0.chunks(64) {
            let mut text = [0; 128];
            for (pair, byte) in text.chunks_mut(2).zip(bytes) {
                pair.copy_from_slice(&[
                    DIGITS[usize::from(byte >> 4)],
                    DIGITS[usize::from(byte & 15)],
                ]);
            }
            f.write_str(std::str::from_utf8(&text[..2 * bytes.len()]).unwrap_or_default())?;
        }
        Ok(())
    }
}

/// The commands of a script, or of a file of samples (`> ` before each command, `< ` before each answer).
/// Commands that load nothing and say no event are passed over.
pub fn parse(source: &str) -> Result<Vec<Command>, String> {
    let samples = source.lines().any(|line| line.starts_with("> "));
    let mut commands = Vec::new();
    for (i, line) in source.lines().enumerate() {
        let line = if samples {
            line.strip_prefix("> ").unwrap_or("")
        } else {
            line
        };
        if let Some(command) = command(line).map_err(|why| format!("line {}: {why}", i + 1))? {
            commands.push(command);
        }
    }
    Ok(commands)
}

fn command(line: &str) -> Result<Option<Command>, String> {
    if line.is_empty() || line.starts_with('#') {
        return Ok(None);
    }
    if line.len() > 65535 {
        return Err("more than 65,535 characters".into());
    }
    let words: Vec<&str> = line.split(' ').collect();
    let event = |happening, list| Ok(Some(Command::Event(happening, number(list)?)));
    match words[..] {
        ["plan", file] => Ok(Some(Command::Plan(bytes(file)?))),
        ["msg", asp, list, message] => {
            event(Happening::Message(number(asp)?, bytes(message)?), list)
        }
        ["lost", asp, list] => event(Happening::Lost(number(asp)?), list),
        ["recovery", server, list] => event(Happening::Recovery(number(server)?), list),
        ["up", link, list] => event(Happening::LinkUp(number(link)?), list),
        ["down", link, list] => event(Happening::LinkDown(number(link)?), list),
        ["linkmsg", list, message] => event(Happening::LinkMessage(bytes(message)?), list),
        ["hold", length] => Ok(Some(Command::Hold(number(length)?))),
        ["paint", byte] => match number(byte)?.try_into() {
            Ok(byte) => Ok(Some(Command::Paint(byte))),
            Err(_) => Err(format!("'{byte}' is no byte")),
        },
        ["read" | "show" | "write" | "state" | "reach" | "bytes" | "held", ..] => Ok(None),
        _ => Err(format!(
            "no command of docs/SCRIPT.md: {}",
            line.chars().take(60).collect::<String>()
        )),
    }
}

fn number(word: &str) -> Result<usize, String> {
    word.parse::<u32>()
        .map(|n| n as usize)
        .map_err(|_| format!("'{word}' is no number of 32 bits"))
}

/// Bytes from pairs of hex digits, or - for none.
pub fn bytes(word: &str) -> Result<Vec<u8>, String> {
    if word == "-" {
        return Ok(Vec::new());
    }
    let wrong = || "bytes are pairs of hex digits, or -".to_string();
    if !word.len().is_multiple_of(2) || !word.bytes().all(|b| b.is_ascii_hexdigit()) {
        return Err(wrong());
    }
    (0..word.len())
        .step_by(2)
        .map(|i| u8::from_str_radix(&word[i..i + 2], 16).map_err(|_| wrong()))
        .collect()
}
