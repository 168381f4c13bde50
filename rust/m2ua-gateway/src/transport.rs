//! The transports behind one interface: Unix sockets of type SOCK_SEQPACKET, the kernel's SCTP, and that of
//! libusrsctp. All keep the boundaries of messages and tell the end of an association.
use crate::kernel;
use crate::os::{self, Packets};
use crate::sctp;
use m2ua_trace::capture::stream;
use std::fmt;
use std::io::{ErrorKind, Result};
use std::net::IpAddr;
use std::os::fd::{AsRawFd, OwnedFd, RawFd};

/// As much as is read of a message. One byte more than a message may have: what is longer is refused for
/// its size alone (Rule 2.1), so that its first bytes stand for all of it.
pub const READ: usize = m2ua::sys::MAX_MESSAGE + 1;

/// So much is taken of one peer before it is another's turn.
pub const BURST: usize = 32;

/// What an association hands out.
#[derive(Clone, Copy, Debug, PartialEq, Eq)]
pub enum Received {
    /// A message of so many bytes, of which the first [`READ`] are kept.
    Message(usize),
    /// A message of another payload protocol, which is none of ours.
    Foreign(u32),
    /// What SCTP tells of the association, for the log alone.
    Told(Told),
    /// The peer has begun anew: what it was before is lost.
    Restarted,
    /// The association is over.
    Ended,
    /// The same, and the peer has not read all that it was sent.
    Reset,
}

impl Received {
    /// A message of so many bytes and some payload protocol.
    pub fn of(length: usize, ppid: u32) -> Received {
        if ppid == m2ua::sys::PPID {
            Received::Message(length)
        } else {
            Received::Foreign(ppid)
        }
    }
}

/// What SCTP tells of an association, by the names of RFC 6458.
#[derive(Clone, Copy, Debug, PartialEq, Eq)]
pub enum Told {
    Up { out: u16, r#in: u16 },
    Lost { error: u16 },
    Restart,
    Shutdown,
    ShutdownComplete,
    Address(IpAddr, i32),
}

impl fmt::Display for Told {
    fn fmt(&self, f: &mut fmt::Formatter<'_>) -> fmt::Result {
        match self {
            Told::Up { out, r#in } => {
                write!(f, "COMM_UP, {out} streams to it and {in} from it", in = r#in)
            }
            Told::Lost { error } => write!(f, "COMM_LOST, cause {error}"),
            Told::Restart => f.write_str("RESTART"),
            Told::Shutdown => f.write_str("SHUTDOWN, the peer sends nothing more"),
            Told::ShutdownComplete => f.write_str("SHUTDOWN_COMP"),
            Told::Address(at, state) => {
                let words = [
                    "available",
                    "unreachable",
                    "removed",
                    "added",
                    "made primary",
                    "confirmed",
                ];
                let word = usize::try_from(*state).ok().and_then(|k| words.get(k));
                write!(
                    f,
                    "PEER_ADDR_CHANGE, {at} is {}",
                    word.unwrap_or(&"changed")
                )
            }
        }
    }
}

/// What has come of one peer, in its sequence.
pub struct Batch {
    packets: Packets<BURST, READ>,
    received: Vec<Received>,
}

impl Batch {
    pub fn new() -> Batch {
        Batch {
            packets: Packets::new(),
            received: Vec::with_capacity(BURST),
        }
    }

    pub fn clear(&mut self) {
        self.received.clear();
    }

    pub fn len(&self) -> usize {
        self.received.len()
    }

    pub fn is_empty(&self) -> bool {
        self.received.is_empty()
    }

    /// What came at a place, and the bytes of a message.
    pub fn get(&self, k: usize) -> (Received, &[u8]) {
        (self.received[k], self.packets.bytes(k))
    }

    /// How many messages there are.
    pub fn messages(&self) -> usize {
        self.received
            .iter()
            .filter(|r| matches!(r, Received::Message(_)))
            .count()
    }

    /// Takes packets of a Unix socket. An empty one looks like the end, of which there is no end: where
    /// only such are left and the peer has closed, it is the end.
    fn take_packets(&mut self, socket: &OwnedFd, most: usize) {
        let count = match self.packets.receive(socket, most) {
            Ok(count) => count,
            Err(e) if matches!(e.kind(), ErrorKind::WouldBlock | ErrorKind::Interrupted) => 0,
            Err(e) if e.kind() == ErrorKind::ConnectionReset => {
                return self.received.push(Received::Reset)
            }
            Err(_) => return self.received.push(Received::Ended),
        };
        let full = (0..count)
            .rev()
            .find(|&k| self.packets.length(k) > 0)
            .map_or(0, |k| k + 1);
        let ended = full < count && os::is_ended(socket);
        let messages = if ended { full } else { count };
        self.received
            .extend((0..messages).map(|k| Received::Message(self.packets.length(k))));
        if ended {
            self.received.push(Received::Ended);
        }
    }

    /// Takes messages one by one, at most so many.
    fn take(&mut self, most: usize, mut next: impl FnMut(&mut [u8; READ]) -> Option<Received>) {
        while self.received.len() < most {
            let (bytes, length) = self.packets.place(self.received.len());
            let Some(received) = next(bytes) else {
                return;
            };
            if let Received::Message(whole) = received {
                *length = whole.try_into().unwrap_or(u32::MAX);
            }
            self.received.push(received);
            if received == Received::Ended {
                return;
            }
        }
    }
}

impl Default for Batch {
    fn default() -> Batch {
        Batch::new()
    }
}

/// What became of a message.
#[derive(Clone, Copy, Debug, PartialEq, Eq)]
pub enum Sent {
    /// The transport has it whole.
    Done,
    /// There is no room: later.
    Later,
    /// The association is over.
    Ended,
    /// The same, and the peer has not read all that it was sent.
    Reset,
}

/// An association with one peer.
pub enum Association {
    Packets(OwnedFd),
    Kernel(kernel::Association),
    Sctp(sctp::Association),
}

impl Association {
    /// What has come, without waiting; nothing where the batch is empty behind it. Of a descriptor, which
    /// tells by itself that more is there, at most so much.
    pub fn receive(&mut self, batch: &mut Batch, most: usize) {
        batch.clear();
        match self {
            Association::Packets(socket) => batch.take_packets(socket, most),
            Association::Kernel(association) => {
                batch.take(most, |bytes| association.receive(bytes))
            }
            Association::Sctp(association) => batch.take(BURST, |bytes| association.receive(bytes)),
        }
    }

    /// Sends a message whole, or nothing of it, without waiting.
    pub fn send(&self, message: &[u8]) -> Sent {
        self.send_as(message, m2ua::sys::PPID)
    }

    /// The same, of some payload protocol.
    pub fn send_as(&self, message: &[u8], ppid: u32) -> Sent {
        // a peer that grants one stream has all on it
        let stream = |streams: u16| stream(message).min(streams - 1);
        match self {
            Association::Packets(socket) => sent(os::transmit(socket, message)),
            Association::Kernel(a) => a.send(message, stream(a.streams()), ppid),
            Association::Sctp(a) => a.send(message, stream(a.streams()), ppid),
        }
    }

    /// Sends some messages, each whole, as far as there is room: how many, and what became of the next one.
    /// There is one at least.
    pub fn send_all<'a>(&self, mut messages: impl Iterator<Item = &'a [u8]>) -> (usize, Sent) {
        if let Association::Packets(socket) = self {
            return match os::transmit_all(socket, messages) {
                Ok(count) => (count, Sent::Done),
                Err(e) => (0, sent(Err(e))),
            };
        }
        let mut count = 0;
        loop {
            match messages.next().map(|message| self.send(message)) {
                Some(Sent::Done) => count += 1,
                other => return (count, other.unwrap_or(Sent::Done)),
            }
        }
    }

    /// Ends the association: what the transport has goes out first, or, with `now`, nothing more.
    pub fn close(self, now: bool) {
        match self {
            Association::Packets(socket) => drop(socket),
            Association::Kernel(association) => association.close(now),
            Association::Sctp(association) => association.close(now),
        }
    }

    /// Whether it has a descriptor of its own, which tells what it is ready for.
    pub fn is_watched(&self) -> bool {
        !matches!(self, Association::Sctp(_))
    }

    /// Whether the other end has closed, whatever is still unread. Of libusrsctp it is known when all is
    /// read.
    pub fn is_over(&self) -> bool {
        match self {
            Association::Packets(socket) => os::is_over(socket),
            Association::Kernel(association) => os::is_over(association),
            Association::Sctp(_) => false,
        }
    }

    /// The name of the transport.
    pub fn transport(&self) -> &'static str {
        match self {
            Association::Packets(_) => "unix",
            Association::Kernel(_) => "kernel's sctp",
            Association::Sctp(_) => "sctp",
        }
    }
}

impl AsRawFd for Association {
    /// What is to be watched: the socket, or the counter that the SCTP stack raises.
    fn as_raw_fd(&self) -> RawFd {
        match self {
            Association::Packets(socket) => socket.as_raw_fd(),
            Association::Kernel(association) => association.as_raw_fd(),
            Association::Sctp(association) => association.as_raw_fd(),
        }
    }
}

/// What a call that sends answers.
pub(crate) fn sent(result: Result<()>) -> Sent {
    match result {
        Ok(()) => Sent::Done,
        Err(e) if matches!(e.kind(), ErrorKind::WouldBlock | ErrorKind::Interrupted) => Sent::Later,
        // the kernel is short of memory for the moment
        Err(e) if e.raw_os_error() == Some(105) => Sent::Later,
        Err(e) if e.kind() == ErrorKind::ConnectionReset => Sent::Reset,
        Err(_) => Sent::Ended,
    }
}
