//! What went over the associations as a capture file: IPv4 and SCTP, port 2904, payload protocol
//! identifier 2. The gateway is 10.0.0.1, ASP p is 10.0.1.(p + 1); an event takes a second.
use crate::trace::{Lane, Trace, What};
use m2ua::sys;

/// The first bytes of a capture file: its format, and that each packet begins with its IP header.
pub fn header() -> Vec<u8> {
    [0xa1b2_c3d4, 4 << 16 | 2, 0, 0, 65535, 101u32]
        .iter()
        .flat_map(|word| word.to_le_bytes())
        .collect()
}

/// The other end of an association with the gateway.
#[derive(Clone, Copy, Debug, PartialEq, Eq)]
pub enum End {
    Asp(usize),
    /// 10.0.2.1: the process that has the links, where it speaks M2UA's messages too.
    LinkSide,
}

impl End {
    /// A number of its own, below 512.
    fn number(self) -> usize {
        match self {
            End::Asp(p) => p & 0xff,
            End::LinkSide => 0x100,
        }
    }

    fn address(self) -> [u8; 4] {
        match self {
            End::Asp(p) => [10, 0, 1, (p + 1) as u8],
            End::LinkSide => [10, 0, 2, 1],
        }
    }
}

/// What is known of each association: the next transmission sequence number of each side.
pub struct Associations([[u32; 2]; 512]);

impl Associations {
    pub fn new() -> Associations {
        Associations([[1; 2]; 512])
    }

    /// A message as a packet of a capture file, with its time in seconds and microseconds.
    pub fn message(
        &mut self,
        end: End,
        from_gateway: bool,
        bytes: &[u8],
        time: (u32, u32),
    ) -> Vec<u8> {
        let tsn = &mut self.0[end.number()][usize::from(from_gateway)];
        *tsn = tsn.wrapping_add(1);
        recorded(sctp(end, from_gateway, &data_chunk(bytes, *tsn)), time)
    }
}

impl Default for Associations {
    fn default() -> Self {
        Associations::new()
    }
}

/// The end of an association as a packet: an ABORT of the other end.
pub fn lost(end: End, time: (u32, u32)) -> Vec<u8> {
    recorded(sctp(end, false, &[6, 0, 0, 4]), time)
}

fn recorded(packet: Vec<u8>, (seconds, micros): (u32, u32)) -> Vec<u8> {
    let length = packet.len() as u32;
    let mut record = Vec::with_capacity(16 + packet.len());
    for word in [seconds, micros, length, length] {
        record.extend(word.to_le_bytes());
    }
    record.extend(packet);
    record
}

/// The capture of a trace. An association that breaks is an ABORT of its ASP.
pub fn pcap(trace: &Trace) -> Vec<u8> {
    let mut out = header();
    let mut associations = Associations::new();
    let (mut event, mut micros) = (0, 0);
    for step in &trace.steps {
        micros = if step.event == event {
            micros + 1000
        } else {
            0
        };
        event = step.event;
        let time = (event as u32, micros);
        match &step.what {
            What::Message(Lane::Asp(p), _, bytes) => {
                out.extend(associations.message(End::Asp(*p), false, bytes, time))
            }
            What::Message(_, Lane::Asp(p), bytes) => {
                out.extend(associations.message(End::Asp(*p), true, bytes, time))
            }
            What::Lost(p) => out.extend(lost(End::Asp(*p), time)),
            _ => {}
        }
    }
    out
}

/// The stream of a message (RFC 3331, 1.5.4.1 and 4.3.3): 1 for traffic, and for what makes an ASP active or
/// inactive for it, so that an Ack stays before the units behind it; 0 for management.
pub fn stream(message: &[u8]) -> u16 {
    let traffic = [sys::CLASS_ASPTM, sys::CLASS_MAUP];
    u16::from(message.get(2).is_some_and(|class| traffic.contains(class)))
}

fn data_chunk(message: &[u8], tsn: u32) -> Vec<u8> {
    let stream = stream(message);
    // begin and end of one message
    let mut chunk = vec![0, 3];
    chunk.extend((16 + message.len() as u16).to_be_bytes());
    chunk.extend(tsn.to_be_bytes());
    chunk.extend(stream.to_be_bytes());
    chunk.extend((tsn as u16).to_be_bytes());
    chunk.extend(sys::PPID.to_be_bytes());
    chunk.extend(message);
    chunk.resize(chunk.len().next_multiple_of(4), 0);
    chunk
}

fn sctp(end: End, from_gateway: bool, chunk: &[u8]) -> Vec<u8> {
    let (gateway, peer) = ([10, 0, 0, 1], end.address());
    let (source, destination) = if from_gateway {
        (gateway, peer)
    } else {
        (peer, gateway)
    };
    let mut segment = Vec::new();
    segment.extend(sys::PORT.to_be_bytes());
    segment.extend(sys::PORT.to_be_bytes());
    segment.extend((0x1000 + end.number() as u32 * 2 + u32::from(from_gateway)).to_be_bytes());
    segment.extend([0; 4]);
    segment.extend(chunk);
    let sum = crc32c(&segment);
    segment[8..12].copy_from_slice(&sum.to_le_bytes());
    let mut packet = vec![0x45, 0];
    packet.extend((20 + segment.len() as u16).to_be_bytes());
    packet.extend([0, 0, 0, 0, 64, 132, 0, 0]);
    packet.extend(source);
    packet.extend(destination);
    let sum = ip_sum(&packet);
    packet[10..12].copy_from_slice(&sum.to_be_bytes());
    packet.extend(segment);
    packet
}

fn ip_sum(header: &[u8]) -> u16 {
    let mut sum: u32 = header
        .chunks(2)
        .map(|pair| u32::from(u16::from_be_bytes([pair[0], pair[1]])))
        .sum();
    while sum > 0xffff {
        sum = (sum & 0xffff) + (sum >> 16);
    }
    !(sum as u16)
}

/// The checksum of SCTP (RFC 4960, appendix B).
pub fn crc32c(data: &[u8]) -> u32 {
    let mut crc = u32::MAX;
    for byte in data {
        crc ^= u32::from(*byte);
        for _ in 0..8 {
            crc = if crc & 1 == 1 {
                crc >> 1 ^ 0x82f6_3b78
            } else {
                crc >> 1
            };
        }
    }
    !crc
}
