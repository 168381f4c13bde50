//! The scripts of m2ua-asp: messages by name with parameters by name, and what is waited for.
use m2ua::{parameters, read, sys, write, MessageType, Parameter};
use m2ua_trace::script::bytes;

/// A message as it is written in a script. As a pattern it fits every message of its type that has all of its
/// parameters, with these values.
#[derive(Clone, Debug, PartialEq, Eq)]
pub struct Said {
    /// As it is written.
    pub text: String,
    pub message: MessageType,
    pub parameters: Vec<(u16, Value)>,
}

/// The value of a parameter: bytes, or the number of messages that were sent before, in four bytes.
#[derive(Clone, Debug, PartialEq, Eq)]
pub enum Value {
    Bytes(Vec<u8>),
    Counter,
}

#[derive(Clone, Debug, PartialEq, Eq)]
pub enum Command {
    Send(Said),
    /// Any bytes; with a payload protocol of its own where SCTP carries it.
    Raw(Vec<u8>, u32),
    /// Takes what comes until so many messages fit.
    Wait(usize, Said),
    /// The next message must fit.
    Expect(Said),
    Sleep(u64),
    Repeat(usize, Vec<Command>),
    Close,
    Connect,
    /// The process ends at once, as if it were killed.
    Die,
}

/// The names of message types: those of the library in lower case, without "ASP" and "Data Retrieval ..",
/// joined by minus.
pub fn name_of(message: MessageType) -> String {
    let text = message.to_string();
    let words = text.strip_prefix("ASP ").unwrap_or(&text).to_lowercase();
    let short = words
        .replace("heartbeat", "beat")
        .replace("data retrieval complete indication", "retrieval complete")
        .replace("data retrieval", "retrieval");
    short
        .replace("data acknowledge", "data ack")
        .replace(' ', "-")
}

fn message_named(name: &str) -> Option<MessageType> {
    MessageType::ALL
        .iter()
        .copied()
        .find(|m| name_of(*m) == name)
}

/// The parameters that have one number.
const NUMBERS: [(&str, u16); 10] = [
    ("id", sys::TAG_ASP_ID),
    ("correlation", sys::TAG_CORRELATION_ID),
    ("state", sys::TAG_STATE),
    ("event", sys::TAG_STATE_EVENT),
    ("congestion", sys::TAG_CONGESTION),
    ("discard", sys::TAG_DISCARD),
    ("action", sys::TAG_RETRIEVAL_ACTION),
    ("sequence", sys::TAG_SEQUENCE),
    ("result", sys::TAG_RETRIEVAL_RESULT),
    ("code", sys::TAG_ERROR_CODE),
];

/// Those that have bytes.
const BYTES: [(&str, u16); 3] = [
    ("data", sys::TAG_DATA_1),
    ("data2", sys::TAG_DATA_2),
    ("heartbeat", sys::TAG_HEARTBEAT),
];

/// Numbers that have names.
const MODES: [(&str, u32); 3] = [
    ("override", sys::MODE_OVERRIDE),
    ("load-share", sys::MODE_LOADSHARE),
    ("broadcast", sys::MODE_BROADCAST),
];
const STATUSES: [(&str, u32); 4] = [
    ("inactive", sys::STATUS_AS_INACTIVE),
    ("active", sys::STATUS_AS_ACTIVE),
    ("pending", sys::STATUS_AS_PENDING),
    ("other-active", sys::STATUS_OTHER_ACTIVE),
];

fn number(word: &str) -> Result<u32, String> {
    word.parse()
        .map_err(|_| format!("'{word}' is no number of 32 bits"))
}

/// Numbers that are joined by commas, each as its four bytes.
fn numbers(word: &str) -> Result<Vec<u8>, String> {
    let each: Result<Vec<u32>, String> = word.split(',').map(number).collect();
    Ok(each?.iter().flat_map(|n| n.to_be_bytes()).collect())
}

fn named(word: &str, known: &[(&str, u32)]) -> Result<Vec<u8>, String> {
    let found = known
        .iter()
        .find(|(name, _)| *name == word)
        .map(|(_, n)| *n);
    found
        .map_or_else(|| number(word), Ok)
        .map(|n| n.to_be_bytes().to_vec())
}

/// A parameter from its name and its word.
fn parameter(name: &str, word: &str) -> Result<(u16, Value), String> {
    let found = |list: &[(&str, u16)]| list.iter().find(|(n, _)| *n == name).map(|(_, tag)| *tag);
    if let Some(tag) = found(&BYTES) {
        let value = if word == "counter" {
            Value::Counter
        } else {
            Value::Bytes(bytes(word)?)
        };
        return Ok((tag, value));
    }
    if let Some(tag) = found(&NUMBERS) {
        return Ok((tag, Value::Bytes(number(word)?.to_be_bytes().to_vec())));
    }
    let (tag, value) = match name {
        "link" => (sys::TAG_INTERFACE_ID, numbers(word)?),
        "range" => (
            sys::TAG_INTERFACE_ID_RANGE,
            numbers(&word.replace('-', ","))?,
        ),
        "mode" => (sys::TAG_TRAFFIC_MODE, named(word, &MODES)?),
        "status" => (sys::TAG_STATUS, named(word, &STATUSES)?),
        "info" => (sys::TAG_INFO, word.as_bytes().to_vec()),
        _ => return Err(format!("no such parameter: {name}")),
    };
    Ok((tag, Value::Bytes(value)))
}

fn said(words: &[&str]) -> Result<Said, String> {
    let [name, rest @ ..] = words else {
        return Err("a message is missing".into());
    };
    let message =
        message_named(name).ok_or_else(|| format!("no such command or message: {name}"))?;
    if rest.len() % 2 == 1 {
        return Err(format!("'{}' has no value", rest[rest.len() - 1]));
    }
    let parameters: Result<Vec<_>, String> = rest
        .chunks(2)
        .map(|pair| parameter(pair[0], pair[1]))
        .collect();
    Ok(Said {
        text: words.join(" "),
        message,
        parameters: parameters?,
    })
}

impl Said {
    /// The bytes, after so many messages.
    pub fn written(&self, sent: u32) -> Result<Vec<u8>, String> {
        let values: Vec<Vec<u8>> = self
            .parameters
            .iter()
            .map(|(_, value)| value.bytes(sent))
            .collect();
        let list: Vec<Parameter<'_>> = self
            .parameters
            .iter()
            .zip(&values)
            .map(|((tag, _), value)| Parameter::new(*tag, value))
            .collect();
        write(self.message, &list)
            .map_err(|no| format!("{} cannot be written: {no}", name_of(self.message)))
    }

    /// Whether a message fits.
    pub fn fits(&self, message: &[u8]) -> bool {
        let has = |(tag, value): &(u16, Value)| match value {
            Value::Bytes(wanted) => {
                parameters(message).any(|p| p.tag == *tag && p.value == &wanted[..])
            }
            Value::Counter => parameters(message).any(|p| p.tag == *tag),
        };
        read(message).is_ok_and(|r| r.message == self.message) && self.parameters.iter().all(has)
    }
}

impl Value {
    fn bytes(&self, sent: u32) -> Vec<u8> {
        match self {
            Value::Bytes(bytes) => bytes.clone(),
            Value::Counter => sent.to_be_bytes().to_vec(),
        }
    }
}

fn command(words: &[&str]) -> Result<Command, String> {
    let count = |word: &str| number(word).map(|n| n as usize);
    match words {
        ["wait", "for", rest @ ..] => Ok(Command::Wait(1, said(rest)?)),
        ["wait", n, "for", rest @ ..] => Ok(Command::Wait(count(n)?, said(rest)?)),
        ["expect", rest @ ..] => Ok(Command::Expect(said(rest)?)),
        ["raw", hex] => Ok(Command::Raw(bytes(hex)?, sys::PPID)),
        ["raw", hex, "times", n] => Ok(Command::Raw(bytes(hex)?.repeat(count(n)?), sys::PPID)),
        ["raw", hex, "protocol", n] => Ok(Command::Raw(bytes(hex)?, number(n)?)),
        ["sleep", n] => Ok(Command::Sleep(number(n)?.into())),
        ["close"] => Ok(Command::Close),
        ["connect"] => Ok(Command::Connect),
        ["die"] => Ok(Command::Die),
        _ => Ok(Command::Send(said(words)?)),
    }
}

/// What is wrong with a script that could go on.
pub const UNFINISHED: &str = "the end of a repeat is missing";

/// The commands of a script, or the first line that is none.
pub fn parse(source: &str) -> Result<Vec<Command>, String> {
    let mut open: Vec<(usize, Vec<Command>)> = vec![(1, Vec::new())];
    for (i, line) in source.lines().enumerate() {
        let at = |why: String| format!("line {}: {why}", i + 1);
        let words: Vec<&str> = line
            .split('#')
            .next()
            .unwrap_or_default()
            .split_whitespace()
            .collect();
        match words[..] {
            [] => {}
            ["repeat", n] => open.push((number(n).map_err(at)? as usize, Vec::new())),
            ["end"] if open.len() > 1 => {
                let (n, body) = open.pop().unwrap_or_default();
                push(&mut open, Command::Repeat(n, body));
            }
            ["end"] => return Err(at("nothing to end".into())),
            _ => push(&mut open, command(&words).map_err(at)?),
        }
    }
    match open.pop() {
        Some((_, commands)) if open.is_empty() => Ok(commands),
        _ => Err(UNFINISHED.into()),
    }
}

fn push(open: &mut [(usize, Vec<Command>)], command: Command) {
    if let Some((_, body)) = open.last_mut() {
        body.push(command);
    }
}

#[cfg(test)]
mod tests {
    use super::*;

    #[test]
    fn every_message_has_a_name_of_its_own() {
        let names: Vec<String> = MessageType::ALL.iter().map(|m| name_of(*m)).collect();
        assert_eq!(
            names[..8],
            ["error", "notify", "up", "down", "beat", "up-ack", "down-ack", "beat-ack"]
        );
        assert_eq!(
            names[12..],
            [
                "data",
                "establish-request",
                "establish-confirm",
                "release-request",
                "release-confirm",
                "release-indication",
                "state-request",
                "state-confirm",
                "state-indication",
                "retrieval-request",
                "retrieval-confirm",
                "retrieval-indication",
                "retrieval-complete",
                "congestion-indication",
                "data-ack"
            ]
        );
    }

    #[test]
    fn sample_m() {
        let parsed = parse("active mode override range 100-115 # M").unwrap();
        let [Command::Send(m)] = &parsed[..] else {
            panic!("{parsed:?}")
        };
        assert_eq!(
            m.written(0).unwrap(),
            [
                1, 0, 4, 1, 0, 0, 0, 28, 0, 11, 0, 8, 0, 0, 0, 1, 0, 8, 0, 12, 0, 0, 0, 100, 0, 0,
                0, 115
            ]
        );
        assert!(m.fits(&m.written(0).unwrap()));
        let wanted = parse("wait 3 for active mode load-share").unwrap();
        let [Command::Wait(3, other)] = &wanted[..] else {
            panic!("{wanted:?}")
        };
        assert!(!other.fits(&m.written(0).unwrap()));
    }

    #[test]
    fn loops_and_counters() {
        let parsed =
            parse("repeat 2\n repeat 3\n data link 7 data counter\n end\n sleep 5\nend\ndie")
                .unwrap();
        let [Command::Repeat(2, outer), Command::Die] = &parsed[..] else {
            panic!("{parsed:?}")
        };
        let [Command::Repeat(3, inner), Command::Sleep(5)] = &outer[..] else {
            panic!("{outer:?}")
        };
        let [Command::Send(data)] = &inner[..] else {
            panic!("{inner:?}")
        };
        assert_eq!(
            m2ua::protocol_data(&data.written(258).unwrap()),
            [0, 0, 1, 2]
        );
    }

    #[test]
    fn wrong_lines() {
        for (line, why) in [
            ("jump", "line 1: no such command or message: jump"),
            ("up\ndata link", "line 2: 'link' has no value"),
            ("up colour 3", "line 1: no such parameter: colour"),
            ("up id x", "line 1: 'x' is no number of 32 bits"),
            ("data data 1", "line 1: bytes are pairs of hex digits, or -"),
            ("repeat 2\nup", UNFINISHED),
            ("end", "line 1: nothing to end"),
            ("wait 2 for", "line 1: a message is missing"),
        ] {
            assert_eq!(parse(line).unwrap_err(), why);
        }
    }
}
