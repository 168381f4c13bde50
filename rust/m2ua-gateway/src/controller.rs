//! What m2ua-asp does: an association, a script, and a record of every message that went to and fro.
use crate::kernel;
use crate::os;
use crate::script::{Command, Said};
use crate::sctp::Stack;
use crate::terms::Terms;
use crate::transport::{Association, Batch, Received, Sent, BURST};
use m2ua::{sys, MessageType, Parameter};
use m2ua_trace::capture::stream;
use m2ua_trace::script::Hex;
use std::collections::VecDeque;
use std::fs::File;
use std::io::Write;
use std::net::SocketAddr;
use std::path::PathBuf;
use std::time::{Duration, Instant};

/// Where the other end is.
pub enum Target {
    Unix(PathBuf),
    Sctp {
        stack: Stack,
        from: SocketAddr,
        to: SocketAddr,
    },
    /// By the kernel's SCTP, from some addresses to some addresses.
    Kernel {
        terms: Terms,
        from: Vec<SocketAddr>,
        to: Vec<SocketAddr>,
    },
}

impl Target {
    /// An association; until the time is over it is tried again.
    fn connect(&self, time: Duration) -> Result<Association, String> {
        let end = Instant::now() + time;
        loop {
            let (tried, name) = match self {
                Target::Unix(path) => (
                    os::seqpacket_connect(path).map(Association::Packets),
                    path.display().to_string(),
                ),
                Target::Sctp { stack, from, to } => (
                    stack.connect(*from, *to).map(Association::Sctp),
                    to.to_string(),
                ),
                Target::Kernel { terms, from, to } => (
                    kernel::Association::connect(from, to, terms).map(Association::Kernel),
                    to[0].to_string(),
                ),
            };
            match tried {
                Ok(association) => return Ok(association),
                Err(e) if Instant::now() >= end => return Err(format!("{name}: {e}")),
                Err(_) => std::thread::sleep(Duration::from_millis(20)),
            }
        }
    }
}

pub struct Controller {
    target: Target,
    timeout: Duration,
    /// Every message, as a line: > and its bytes where it was sent, < where it was received. A line is
    /// written before its message is sent.
    record: Option<File>,
    /// Each message in words on standard output.
    verbose: bool,
    /// Heartbeats are the script's to see and to answer; else they are answered here, and it sees none.
    own_beats: bool,
    association: Option<Association>,
    inbox: VecDeque<Vec<u8>>,
    /// Answers to Heartbeats that are still to be sent, and whether a message of the script is being sent.
    answers: VecDeque<Vec<u8>>,
    sending: bool,
    batch: Batch,
    sent: u32,
}

impl Controller {
    pub fn new(
        target: Target,
        timeout: Duration,
        record: Option<File>,
        verbose: bool,
        own_beats: bool,
    ) -> Controller {
        Controller {
            target,
            timeout,
            record,
            verbose,
            own_beats,
            association: None,
            inbox: VecDeque::new(),
            answers: VecDeque::new(),
            sending: false,
            batch: Batch::new(),
            sent: 0,
        }
    }

    /// Runs a script over an association of its own.
    pub fn run(&mut self, commands: &[Command]) -> Result<(), String> {
        self.connect()?;
        self.all(commands)
    }

    pub fn all(&mut self, commands: &[Command]) -> Result<(), String> {
        commands.iter().try_for_each(|command| self.one(command))
    }

    fn one(&mut self, command: &Command) -> Result<(), String> {
        match command {
            Command::Send(said) => {
                let message = said.written(self.sent)?;
                self.send(&message, sys::PPID)
            }
            Command::Raw(bytes, ppid) => self.send(bytes, *ppid),
            Command::Wait(count, said) => self.wait(*count, said),
            Command::Expect(said) => {
                let message = self.next(said, Some(stream_of(said.message)))?;
                if said.fits(&message) {
                    Ok(())
                } else {
                    Err(format!(
                        "{} came where {} was expected",
                        words(&message),
                        said.text
                    ))
                }
            }
            Command::Sleep(time) => self.rest(Duration::from_millis(*time)),
            Command::Repeat(count, body) => (0..*count).try_for_each(|_| self.all(body)),
            Command::Close => {
                self.close();
                Ok(())
            }
            Command::Connect => self.connect(),
            Command::Die => std::process::abort(),
        }
    }

    /// More of standard input, added to what there is; `false` at its end. What the association brings
    /// meanwhile is taken in.
    pub fn more(&mut self, input: &mut Vec<u8>) -> Result<bool, String> {
        // more than std keeps for standard input, so that nothing stays there, where no descriptor tells of
        // it
        let mut bytes = [0; 1 << 16];
        loop {
            let stdin = std::io::stdin();
            let ready = match &self.association {
                Some(association) => {
                    os::wait_for_either(&stdin, association).map_err(|e| e.to_string())?
                }
                None => (true, false),
            };
            if ready.1 {
                self.take_in(Duration::ZERO)?;
            }
            if ready.0 {
                let count = std::io::Read::read(&mut stdin.lock(), &mut bytes)
                    .map_err(|e| e.to_string())?;
                input.extend(&bytes[..count]);
                return Ok(count > 0);
            }
        }
    }

    pub fn connect(&mut self) -> Result<(), String> {
        self.close();
        self.association = Some(self.target.connect(self.timeout)?);
        self.note("# connected");
        Ok(())
    }

    /// Ends the association in order.
    pub fn close(&mut self) {
        if let Some(association) = self.association.take() {
            association.close(false);
        }
    }

    /// Ends: what was sent goes out, and the stack is done.
    pub fn end(mut self) {
        self.close();
        if let Target::Sctp { stack, .. } = self.target {
            stack.stop(Duration::from_secs(2));
        }
    }

    fn note(&mut self, line: &str) {
        if let Some(record) = &mut self.record {
            // one call for a line, so that a process that is killed leaves whole lines
            let _ = record.write_all(format!("{line}\n").as_bytes());
        }
    }

    fn show(&mut self, sign: &str, message: &[u8]) {
        if self.record.is_some() {
            self.note(&format!("{sign} {}", Hex(message)));
        }
        if self.verbose {
            println!("{sign} {}", words(message));
        }
    }

    /// Sends a message, and takes in what comes meanwhile.
    pub fn send(&mut self, message: &[u8], ppid: u32) -> Result<(), String> {
        self.transmit(message, ppid)?;
        self.sent = self.sent.wrapping_add(1);
        self.answer()
    }

    /// Answers the Heartbeats that have come, but not while another message is being sent: the record has
    /// messages in their sequence.
    fn answer(&mut self) -> Result<(), String> {
        while let (false, Some(answer)) = (self.sending, self.answers.pop_front()) {
            self.transmit(&answer, sys::PPID)?;
        }
        Ok(())
    }

    fn transmit(&mut self, message: &[u8], ppid: u32) -> Result<(), String> {
        self.sending = true;
        let done = self.attempts(message, ppid);
        self.sending = false;
        done
    }

    fn attempts(&mut self, message: &[u8], ppid: u32) -> Result<(), String> {
        self.show(">", message);
        let end = Instant::now() + self.timeout;
        loop {
            match self.attempt(message, ppid)? {
                Sent::Done => return Ok(()),
                Sent::Ended | Sent::Reset => return Err("the association is over".into()),
                Sent::Later if Instant::now() >= end => {
                    return Err("the other end takes nothing more".into())
                }
                Sent::Later => self.take_in(Duration::from_millis(1))?,
            }
        }
    }

    fn attempt(&self, message: &[u8], ppid: u32) -> Result<Sent, String> {
        match &self.association {
            None => Err("there is no association".into()),
            Some(association) => Ok(association.send_as(message, ppid)),
        }
    }

    /// Takes in what has come, and if there is nothing what comes within a time. The end of the association
    /// is a fault.
    fn take_in(&mut self, time: Duration) -> Result<(), String> {
        if self.taken()? {
            return Ok(());
        }
        let association = self.association.as_ref().ok_or("there is no association")?;
        os::wait_for(association, false, time).map_err(|e| e.to_string())?;
        if let Association::Sctp(a) = association {
            a.calm();
        }
        self.taken().map(|_| ())
    }

    /// Takes in what has come; `false` where that is nothing.
    fn taken(&mut self) -> Result<bool, String> {
        let mut batch = std::mem::take(&mut self.batch);
        self.association
            .as_mut()
            .ok_or("there is no association")?
            .receive(&mut batch, BURST);
        for k in 0..batch.len() {
            match batch.get(k) {
                (Received::Message(_), message) => {
                    self.show("<", message);
                    match ack_of(message).filter(|_| !self.own_beats) {
                        Some(ack) => self.answers.push_back(ack),
                        None => self.inbox.push_back(message.to_vec()),
                    }
                }
                (Received::Ended | Received::Reset, _) => self.association = None,
                _ => {}
            }
        }
        let some = !batch.is_empty();
        self.batch = batch;
        if self.association.is_none() {
            return Err("the association is over".into());
        }
        if !self.sending {
            self.answer()?;
        }
        Ok(some)
    }

    /// The next message that comes; over SCTP, which keeps the sequence within a stream alone, the next one
    /// of a stream where one is given.
    fn next(&mut self, wanted: &Said, of: Option<u16>) -> Result<Vec<u8>, String> {
        let end = Instant::now() + self.timeout;
        let one_sequence = matches!(self.association, Some(Association::Packets(_)));
        let of = of.filter(|_| !one_sequence);
        loop {
            let fits = |message: &Vec<u8>| of.is_none_or(|of| stream(message) == of);
            let place = self.inbox.iter().position(fits);
            if let Some(message) = place.and_then(|k| self.inbox.remove(k)) {
                return Ok(message);
            }
            if Instant::now() >= end {
                return Err(format!(
                    "nothing came within {} ms; waited for: {}",
                    self.timeout.as_millis(),
                    wanted.text
                ));
            }
            let left = end.saturating_duration_since(Instant::now());
            self.take_in(left)
                .map_err(|why| format!("{why}; waited for: {}", wanted.text))?;
        }
    }

    fn wait(&mut self, count: usize, said: &Said) -> Result<(), String> {
        let mut found = 0;
        while found < count {
            let message = self
                .next(said, None)
                .map_err(|why| format!("{why} ({found} of {count} came)"))?;
            found += usize::from(said.fits(&message));
        }
        Ok(())
    }

    /// Waits for a time, and takes in what comes. That the association ends meanwhile is no fault.
    fn rest(&mut self, time: Duration) -> Result<(), String> {
        let end = Instant::now() + time;
        while Instant::now() < end {
            let left = end.saturating_duration_since(Instant::now());
            if self.association.is_none() || self.take_in(left).is_err() {
                std::thread::sleep(end.saturating_duration_since(Instant::now()));
            }
        }
        Ok(())
    }

    /// Round trips of Beats of `bytes` bytes, `window` of them under way at a time: the time of each in
    /// nanoseconds, and of all.
    pub fn measure(
        &mut self,
        count: usize,
        window: usize,
        bytes: usize,
    ) -> Result<(Vec<u64>, Duration), String> {
        let (mut begun, mut times) = (VecDeque::with_capacity(window), Vec::with_capacity(count));
        let mut beat = [1, 0, 3, 3, 0, 0, 0, 0, 0, 9, 0, 0].to_vec();
        beat.resize(12 + bytes.next_multiple_of(4), 7);
        let length = beat.len() as u32;
        beat[4..8].copy_from_slice(&length.to_be_bytes());
        beat[10..12].copy_from_slice(&(length as u16 - 8).to_be_bytes());
        let start = Instant::now();
        while times.len() < count {
            while begun.len() < window && begun.len() + times.len() < count {
                begun.push_back(Instant::now());
                self.send(&beat, sys::PPID)?;
            }
            while self.inbox.is_empty() {
                self.take_in(self.timeout)?;
            }
            for answer in std::mem::take(&mut self.inbox) {
                let right = answer.len() == beat.len() && answer[8..] == beat[8..];
                let sent: Instant = begun
                    .pop_front()
                    .filter(|_| right)
                    .ok_or("an answer that is none came")?;
                times.push(sent.elapsed().as_nanos() as u64);
            }
        }
        Ok((times, start.elapsed()))
    }
}

/// The stream of a message type, as that of its messages.
fn stream_of(message: MessageType) -> u16 {
    stream(&[1, 0, message.class()])
}

/// The Heartbeat Ack of a Heartbeat, with its data; `None` of any other message.
fn ack_of(message: &[u8]) -> Option<Vec<u8>> {
    let beat = m2ua::read(message).is_ok_and(|r| r.message == MessageType::Beat);
    let data = m2ua::parameter(message, sys::TAG_HEARTBEAT);
    let list = data.map(|data| Parameter::new(sys::TAG_HEARTBEAT, data));
    let ack = beat.then(|| m2ua::write(MessageType::BeatAck, list.as_slice()))?;
    ack.ok()
}

fn words(message: &[u8]) -> String {
    match m2ua::read(message) {
        Ok(reading) => match m2ua::parameter(message, sys::TAG_ERROR_CODE)
            .or(m2ua::parameter(message, sys::TAG_STATUS))
        {
            Some(value) => format!(
                "{reading}: {}",
                value.iter().fold(0, |n: u64, b| n * 256 + u64::from(*b))
            ),
            None => reading.to_string(),
        },
        Err(no) => format!("{} bytes that do not read: {no}", message.len()),
    }
}
