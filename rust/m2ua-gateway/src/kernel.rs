//! The kernel's own SCTP (RFC 6458): one-to-one sockets, watched like any other descriptor. No C and no
//! libsctp: the calls and structs of <linux/sctp.h> that are used are declared here.
#![allow(unsafe_code)]
use crate::os;
use crate::pieces::Pieces;
use crate::terms::{Pace, Terms, KERNEL_LEAST, STREAMS};
use crate::transport::{Received, Sent, Told, READ};
use std::ffi::{c_int, c_void};
use std::io::{Error, ErrorKind, Result};
use std::net::{IpAddr, Ipv4Addr, Ipv6Addr, SocketAddr, SocketAddrV6};
use std::os::fd::{AsRawFd, OwnedFd, RawFd};

const AF_INET: u16 = 2;
const AF_INET6: u16 = 10;
const SOCK_STREAM: c_int = 1;
const SOL_SOCKET: c_int = 1;
const SO_REUSEADDR: c_int = 2;
const SO_SNDBUF: c_int = 7;
const SO_RCVBUF: c_int = 8;
const SO_LINGER: c_int = 13;
const MSG_EOR: c_int = 0x80;
const MSG_NOTIFICATION: c_int = 0x8000;
const SCTP: c_int = 132;

/// Options of the level SCTP.
mod option {
    pub const RTOINFO: i32 = 0;
    pub const ASSOCINFO: i32 = 1;
    pub const INITMSG: i32 = 2;
    pub const NODELAY: i32 = 3;
    pub const PEER_ADDR_PARAMS: i32 = 9;
    pub const STATUS: i32 = 14;
    pub const PEER_ADDR_INFO: i32 = 15;
    pub const DELAYED_SACK: i32 = 16;
    pub const RECVRCVINFO: i32 = 32;
    pub const BINDX_ADD: i32 = 100;
    pub const PEER_ADDRS: i32 = 108;
    pub const CONNECTX: i32 = 110;
    pub const EVENT: i32 = 127;
}

/// Kinds of ancillary data.
const SNDINFO: c_int = 2;
const RCVINFO: c_int = 3;
/// Notifications.
const ASSOC_CHANGE: u16 = 0x8001;
const PEER_ADDR_CHANGE: u16 = 0x8002;
const SHUTDOWN_EVENT: u16 = 0x8005;
/// What an address is while nothing has come back from it.
const UNCONFIRMED: i32 = 3;

#[repr(C)]
struct RtoInfo {
    association: i32,
    initial: u32,
    max: u32,
    min: u32,
}

#[repr(C)]
struct AssociationParameters {
    association: i32,
    misses: u16,
    destinations: u16,
    peer_window: u32,
    window: u32,
    cookie_life: u32,
}

#[repr(C, packed(4))]
struct PathParameters {
    association: i32,
    address: Storage,
    heartbeat: u32,
    misses: u16,
    rest: Packed,
}

/// The kernel packs this struct: what follows the misses has no gap before it.
#[repr(C, packed)]
struct Packed {
    mtu: u32,
    sack_delay: u32,
    flags: u32,
    flow_label: u32,
    dscp: u8,
    _end: u8,
}

#[repr(C)]
struct InitMessage {
    out_streams: u16,
    in_streams: u16,
    attempts: u16,
    timeout: u16,
}

#[repr(C)]
struct SackInfo {
    association: i32,
    delay: u32,
    frequency: u32,
}

#[repr(C)]
struct Subscription {
    association: i32,
    kind: u16,
    on: u8,
}

#[repr(C)]
struct SendInfo {
    stream: u16,
    flags: u16,
    ppid: u32,
    context: u32,
    association: i32,
}

/// An address of any family (struct sockaddr_storage).
#[repr(C)]
#[derive(Clone, Copy)]
struct Storage([u32; 32]);

#[repr(C)]
#[derive(Clone, Copy)]
struct AddressInfo {
    association: i32,
    address: Storage,
    state: i32,
    window: u32,
    srtt: u32,
    rto: u32,
    mtu: u32,
}

#[repr(C)]
struct Status {
    association: i32,
    state: i32,
    window: u32,
    unacknowledged: u16,
    pending: u16,
    in_streams: u16,
    out_streams: u16,
    fragmentation: u32,
    primary: AddressInfo,
}

/// Ancillary data: one header (struct cmsghdr), and what it stands for.
#[repr(C)]
struct Control<T> {
    length: usize,
    level: c_int,
    kind: c_int,
    data: T,
}

/// Room for what comes with a message (struct sctp_rcvinfo, padded). The payload protocol is its third word.
type ReceiveInfo = [u32; 8];

// What a C compiler says of the structs.
const _: () = assert!(
    size_of::<PathParameters>() == 156
        && std::mem::offset_of!(PathParameters, heartbeat) == 132
        && std::mem::offset_of!(PathParameters, rest) == 138
        && size_of::<Packed>() == 18
        && size_of::<Status>() == 176
        && std::mem::offset_of!(Status, out_streams) == 18
        && size_of::<AddressInfo>() == 152
        && std::mem::offset_of!(AddressInfo, state) == 132
        && size_of::<AssociationParameters>() == 20
        && size_of::<Subscription>() == 8
        && size_of::<SendInfo>() == 16
        && size_of::<Control<SendInfo>>() == 32
        && size_of::<Control<ReceiveInfo>>() == 48
);

impl Storage {
    const NONE: Storage = Storage([0; 32]);

    fn of(at: SocketAddr) -> Storage {
        let mut bytes = [0; 128];
        let packed = packed(&[at]);
        bytes[..packed.len()].copy_from_slice(&packed);
        let word = |k: usize| u32::from_ne_bytes([0, 1, 2, 3].map(|i| bytes[4 * k + i]));
        Storage(std::array::from_fn(word))
    }
}

/// Addresses one behind the other, as the kernel takes them (struct sockaddr_in, sockaddr_in6).
fn packed(addresses: &[SocketAddr]) -> Vec<u8> {
    let mut bytes = Vec::new();
    for at in addresses {
        match at {
            SocketAddr::V4(at) => {
                bytes.extend(AF_INET.to_ne_bytes());
                bytes.extend(at.port().to_be_bytes());
                bytes.extend(at.ip().octets());
                bytes.extend([0; 8]);
            }
            SocketAddr::V6(at) => {
                bytes.extend(AF_INET6.to_ne_bytes());
                bytes.extend(at.port().to_be_bytes());
                bytes.extend(at.flowinfo().to_ne_bytes());
                bytes.extend(at.ip().octets());
                bytes.extend(at.scope_id().to_ne_bytes());
            }
        }
    }
    bytes
}

/// The first address of packed ones, and how long it is. An IPv4 peer of an IPv6 socket is known by its own
/// address.
fn unpacked(bytes: &[u8]) -> Option<(SocketAddr, usize)> {
    let port = u16::from_be_bytes([*bytes.get(2)?, *bytes.get(3)?]);
    match u16::from_ne_bytes([bytes[0], bytes[1]]) {
        AF_INET => {
            let ip: [u8; 4] = bytes.get(4..8)?.try_into().ok()?;
            Some((SocketAddr::new(Ipv4Addr::from(ip).into(), port), 16))
        }
        AF_INET6 => {
            let ip: [u8; 16] = bytes.get(8..24)?.try_into().ok()?;
            let scope = u32::from_ne_bytes(bytes.get(24..28)?.try_into().ok()?);
            let at = match IpAddr::V6(Ipv6Addr::from(ip)).to_canonical() {
                IpAddr::V6(ip) => SocketAddrV6::new(ip, port, 0, scope).into(),
                ip => SocketAddr::new(ip, port),
            };
            Some((at, 28))
        }
        _ => None,
    }
}

fn set<T>(fd: &OwnedFd, level: c_int, name: c_int, value: &T) -> Result<()> {
    // Safety: the struct is lent whole, and the kernel copies it.
    os::done(unsafe {
        let value = std::ptr::from_ref(value).cast();
        os::setsockopt(fd.as_raw_fd(), level, name, value, size_of::<T>() as u32)
    })
}

fn set_bytes(fd: &OwnedFd, name: c_int, bytes: &[u8]) -> Result<()> {
    let (start, length) = (bytes.as_ptr().cast(), bytes.len() as u32);
    // Safety: the slice is lent whole, and the kernel copies it.
    os::done(unsafe { os::setsockopt(fd.as_raw_fd(), SCTP, name, start, length) })
}

/// Asks for an option: as much of the struct as the kernel fills in, with what it had before.
fn get<T>(fd: &OwnedFd, name: c_int, value: &mut T) -> Result<()> {
    let mut length = size_of::<T>() as u32;
    // Safety: the struct is lent whole; every value of its bytes is one of it, since it has integers alone.
    os::done(unsafe {
        let value: *mut c_void = std::ptr::from_mut(value).cast();
        os::getsockopt(fd.as_raw_fd(), SCTP, name, value, &mut length)
    })
}

/// Whether the kernel has SCTP. Asking for a socket lets it load the module, where there is one. A kernel
/// that has it and gives us none has it nevertheless: over IP it answers every association by an ABORT
/// before any other stack can.
pub fn is_there() -> bool {
    std::path::Path::new("/proc/net/sctp").exists() || stream_socket(AF_INET, 0).is_ok()
}

fn stream_socket(family: u16, flags: c_int) -> Result<OwnedFd> {
    let kind = SOCK_STREAM | os::SOCK_CLOEXEC | flags;
    // Safety: numbers alone.
    os::owned(unsafe { os::socket(family.into(), kind, SCTP) })
}

/// A socket for some addresses, on terms.
fn opened(addresses: &[SocketAddr], terms: &Terms, flags: c_int) -> Result<OwnedFd> {
    if terms.dead < KERNEL_LEAST {
        let why = format!("the kernel's SCTP does not notice a dead peer within {KERNEL_LEAST} ms");
        return Err(Error::new(ErrorKind::InvalidInput, why));
    }
    let mixed = addresses.iter().any(SocketAddr::is_ipv6);
    let fd = stream_socket(if mixed { AF_INET6 } else { AF_INET }, flags)?;
    keep(&fd, terms)?;
    Ok(fd)
}

/// Sets how the associations of a socket are kept.
fn keep(fd: &OwnedFd, terms: &Terms) -> Result<()> {
    let pace = Pace::of_kernel(terms.dead);
    let rto = RtoInfo {
        association: 0,
        initial: pace.rto,
        max: pace.rto,
        min: pace.least(),
    };
    let association = AssociationParameters {
        association: 0,
        misses: pace.misses,
        destinations: 0,
        peer_window: 0,
        window: 0,
        cookie_life: 0,
    };
    let path = PathParameters {
        association: 0,
        address: Storage::NONE,
        heartbeat: pace.heartbeat,
        misses: pace.misses,
        rest: Packed {
            mtu: 0,
            sack_delay: 0,
            // heartbeats
            flags: 1,
            flow_label: 0,
            dscp: 0,
            _end: 0,
        },
    };
    let init = InitMessage {
        out_streams: STREAMS,
        in_streams: terms.streams,
        attempts: pace.misses,
        timeout: pace.rto.min(60_000) as u16,
    };
    // sooner than a peer on the same terms would send again
    let sack = SackInfo {
        association: 0,
        delay: (pace.least() / 2).max(1),
        frequency: 2,
    };
    let (buffer, on) = (terms.buffer as c_int, 1 as c_int);
    set(fd, SCTP, option::RTOINFO, &rto)?;
    set(fd, SCTP, option::ASSOCINFO, &association)?;
    set(fd, SCTP, option::PEER_ADDR_PARAMS, &path)?;
    set(fd, SCTP, option::INITMSG, &init)?;
    set(fd, SCTP, option::DELAYED_SACK, &sack)?;
    for kind in [ASSOC_CHANGE, PEER_ADDR_CHANGE, SHUTDOWN_EVENT] {
        let subscription = Subscription {
            association: 0,
            kind,
            on: 1,
        };
        set(fd, SCTP, option::EVENT, &subscription)?;
    }
    set(fd, SCTP, option::RECVRCVINFO, &on)?;
    set(fd, SCTP, option::NODELAY, &on)?;
    set(fd, SOL_SOCKET, SO_SNDBUF, &buffer)?;
    set(fd, SOL_SOCKET, SO_RCVBUF, &buffer)?;
    // associations that still close have the port; a socket that listens has it for itself nevertheless
    set(fd, SOL_SOCKET, SO_REUSEADDR, &on)
}

fn bound(fd: &OwnedFd, addresses: &[SocketAddr]) -> Result<()> {
    let Some((first, more)) = addresses.split_first() else {
        return Ok(());
    };
    let first = packed(&[*first]);
    // Safety: the slice is lent whole.
    os::done(unsafe { os::bind(fd.as_raw_fd(), first.as_ptr().cast(), first.len() as u32) })?;
    if more.is_empty() {
        return Ok(());
    }
    set_bytes(fd, option::BINDX_ADD, &packed(more))
}

/// A listening socket.
pub struct Listener(OwnedFd);

impl Listener {
    /// Listens at some addresses, which have one port.
    pub fn new(at: &[SocketAddr], terms: &Terms) -> Result<Listener> {
        let fd = opened(at, terms, os::SOCK_NONBLOCK)?;
        bound(&fd, at)?;
        // Safety: numbers alone.
        os::done(unsafe { os::listen(fd.as_raw_fd(), 16) })?;
        Ok(Listener(fd))
    }

    /// The next association; `WouldBlock` where there is none.
    pub fn accept(&self) -> Result<Association> {
        os::accept(&self.0).map(Association::new)
    }
}

impl AsRawFd for Listener {
    fn as_raw_fd(&self) -> RawFd {
        self.0.as_raw_fd()
    }
}

/// An association, and the part of a message that came before its end.
pub struct Association {
    fd: OwnedFd,
    streams: u16,
    pieces: Pieces,
    /// What comes next, before anything more is read.
    then: Option<Received>,
}

impl Association {
    fn new(fd: OwnedFd) -> Association {
        let mut made = Association {
            fd,
            streams: 1,
            pieces: Pieces::default(),
            then: None,
        };
        made.streams = made.granted().max(1);
        made
    }

    /// Waits for an association with a peer, from some addresses of this side to some of the other.
    pub fn connect(from: &[SocketAddr], to: &[SocketAddr], terms: &Terms) -> Result<Association> {
        let all: Vec<SocketAddr> = from.iter().chain(to).copied().collect();
        let fd = opened(&all, terms, 0)?;
        bound(&fd, from)?;
        set_bytes(&fd, option::CONNECTX, &packed(to))?;
        Ok(Association::new(fd))
    }

    /// How many streams the peer takes.
    fn granted(&self) -> u16 {
        // Safety: integers alone, for which zero is a value.
        let mut status: Status = unsafe { std::mem::zeroed() };
        get(&self.fd, option::STATUS, &mut status).map_or(0, |()| status.out_streams)
    }

    pub fn streams(&self) -> u16 {
        self.streams
    }

    /// All addresses of the peer.
    pub fn peer(&self) -> Vec<SocketAddr> {
        // number and addresses behind eight bytes; more than a peer has
        let mut bytes = [0; 4096];
        if get(&self.fd, option::PEER_ADDRS, &mut bytes).is_err() {
            return Vec::new();
        }
        let count = u32::from_ne_bytes([bytes[4], bytes[5], bytes[6], bytes[7]]);
        let mut rest = &bytes[8..];
        let mut found = Vec::new();
        for _ in 0..count {
            let Some((at, length)) = unpacked(rest) else {
                break;
            };
            found.push(at);
            rest = &rest[length..];
        }
        found
    }

    /// Whether an address of the peer has answered: before that it is what the peer says, and nothing more.
    pub fn is_confirmed(&self, at: SocketAddr) -> bool {
        let mut info = AddressInfo {
            association: 0,
            address: Storage::of(at),
            state: UNCONFIRMED,
            window: 0,
            srtt: 0,
            rto: 0,
            mtu: 0,
        };
        let asked = get(&self.fd, option::PEER_ADDR_INFO, &mut info);
        asked.is_ok() && info.state != UNCONFIRMED
    }

    /// The next message, or what has become of the association; `None` where there is nothing.
    pub fn receive(&mut self, bytes: &mut [u8; READ]) -> Option<Received> {
        loop {
            if let Some(then) = self.then.take() {
                return Some(then);
            }
            let (length, flags, ppid) = match self.taken(bytes) {
                Ok(taken) => taken,
                Err(e) if matches!(e.kind(), ErrorKind::WouldBlock | ErrorKind::Interrupted) => {
                    return None
                }
                Err(_) => return Some(Received::Ended),
            };
            if flags & MSG_NOTIFICATION != 0 {
                let (told, then) = notified(&bytes[..length]);
                self.then = then;
                if let Some(told) = told {
                    return Some(Received::Told(told));
                }
            } else if length == 0 {
                return Some(Received::Ended);
            } else if let Some(whole) = self.pieces.add(bytes, length, flags & MSG_EOR != 0) {
                return Some(Received::of(whole, ppid));
            }
        }
    }

    /// One call's bytes: how many, the flags, and the payload protocol.
    fn taken(&self, bytes: &mut [u8; READ]) -> Result<(usize, c_int, u32)> {
        let mut control: Control<ReceiveInfo> = Control {
            length: 0,
            level: 0,
            kind: 0,
            data: [0; 8],
        };
        let mut part = os::Part {
            start: bytes.as_mut_ptr(),
            length: READ,
        };
        let mut header = os::Message {
            parts: &mut part,
            part_count: 1,
            control: std::ptr::from_mut(&mut control).cast(),
            control_length: size_of::<Control<ReceiveInfo>>(),
            ..os::Message::NONE
        };
        // Safety: the header's one part and its ancillary data are lent through the call.
        let count = unsafe { os::recvmsg(self.fd.as_raw_fd(), &mut header, os::MSG_DONTWAIT) };
        let length = os::counted(count)?;
        let is_info = header.control_length > 0 && (control.level, control.kind) == (SCTP, RCVINFO);
        let ppid = if is_info { control.data[2] } else { 0 };
        Ok((length, header.flags, u32::from_be(ppid)))
    }

    /// Sends a message whole on a stream, or nothing of it, without waiting.
    pub fn send(&self, message: &[u8], stream: u16, ppid: u32) -> Sent {
        let length = size_of::<Control<SendInfo>>();
        let mut control = Control {
            length,
            level: SCTP,
            kind: SNDINFO,
            data: SendInfo {
                stream,
                flags: 0,
                ppid: ppid.to_be(),
                context: 0,
                association: 0,
            },
        };
        let mut part = os::Part {
            // the kernel only reads there
            start: message.as_ptr().cast_mut(),
            length: message.len(),
        };
        let header = os::Message {
            parts: &mut part,
            part_count: 1,
            control: std::ptr::from_mut(&mut control).cast(),
            control_length: length,
            ..os::Message::NONE
        };
        let flags = os::MSG_NOSIGNAL | os::MSG_DONTWAIT;
        // Safety: as for `taken`.
        let count = unsafe { os::sendmsg(self.fd.as_raw_fd(), &header, flags) };
        crate::transport::sent(os::counted(count).map(drop))
    }

    /// Ends the association: what is sent goes out first, or, with `now`, nothing more, and the peer is
    /// told by an ABORT.
    pub fn close(self, now: bool) {
        if now {
            // on, and no time
            let linger: [c_int; 2] = [1, 0];
            let _ = set(&self.fd, SOL_SOCKET, SO_LINGER, &linger);
        }
    }
}

impl AsRawFd for Association {
    fn as_raw_fd(&self) -> RawFd {
        self.fd.as_raw_fd()
    }
}

/// What a notification tells, and what follows from it.
fn notified(bytes: &[u8]) -> (Option<Told>, Option<Received>) {
    let word = |at: usize| u16::from_ne_bytes([bytes[at], bytes[at + 1]]);
    if bytes.len() >= 16 && word(0) == ASSOC_CHANGE {
        let (error, out, r#in) = (word(10), word(12), word(14));
        return match word(8) {
            0 => (Some(Told::Up { out, r#in }), None),
            1 => (Some(Told::Lost { error }), Some(Received::Ended)),
            2 => (Some(Told::Restart), Some(Received::Restarted)),
            3 => (Some(Told::ShutdownComplete), Some(Received::Ended)),
            _ => (None, Some(Received::Ended)),
        };
    }
    if bytes.len() >= 140 && word(0) == PEER_ADDR_CHANGE {
        let state = i32::from_ne_bytes([136, 137, 138, 139].map(|k: usize| bytes[k]));
        let told = unpacked(&bytes[8..136]).map(|(at, _)| Told::Address(at.ip(), state));
        return (told, None);
    }
    let shutdown = bytes.len() >= 2 && word(0) == SHUTDOWN_EVENT;
    (shutdown.then_some(Told::Shutdown), None)
}

#[cfg(test)]
mod tests {
    use super::*;

    #[test]
    fn addresses_there_and_back() {
        let all: Vec<SocketAddr> = ["127.0.0.1:2904", "[2001:db8::7%3]:9", "[::1]:65535"]
            .map(|word| word.parse().unwrap())
            .to_vec();
        let bytes = packed(&all);
        let mut rest = &bytes[..];
        for at in &all {
            let (found, length) = unpacked(rest).unwrap();
            assert_eq!(found, *at);
            rest = &rest[length..];
        }
        assert!(rest.is_empty());
        let mapped = packed(&["[::ffff:10.0.0.7]:5".parse().unwrap()]);
        assert_eq!(unpacked(&mapped).unwrap().0, "10.0.0.7:5".parse().unwrap());
        for cut in 0..28 {
            assert!(unpacked(&mapped[..cut]).is_none());
        }
    }

    #[test]
    fn notifications_cut_short_are_nothing() {
        let whole = [&ASSOC_CHANGE.to_ne_bytes()[..], &[0; 14]].concat();
        assert_eq!(notified(&whole).0, Some(Told::Up { out: 0, r#in: 0 }));
        for cut in 0..whole.len() {
            assert_eq!(notified(&whole[..cut]), (None, None));
        }
    }
}
