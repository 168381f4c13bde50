//! The C library's calls that std has not: sockets of type SOCK_SEQPACKET, epoll, signals as a file, users
//! and groups. With kernel.rs and sctp.rs all that has `unsafe` in this crate: each function lends
//! whole slices and owned descriptors, and answers with `io::Result`.
#![allow(unsafe_code)]
use std::ffi::{c_char, c_int, c_void, CString, OsStr};
use std::io::{Error, ErrorKind, Result};
use std::os::fd::{AsRawFd, FromRawFd, OwnedFd, RawFd};
use std::os::unix::ffi::OsStrExt;
use std::path::Path;
use std::time::Duration;

const AF_UNIX: u16 = 1;
const SOCK_SEQPACKET: c_int = 5;
pub(crate) const SOCK_NONBLOCK: c_int = 0o4000;
pub(crate) const SOCK_CLOEXEC: c_int = 0o2000000;
pub(crate) const MSG_DONTWAIT: c_int = 0x40;
const MSG_PEEK: c_int = 2;
const MSG_TRUNC: c_int = 0x20;
pub(crate) const MSG_NOSIGNAL: c_int = 0x4000;
const POLLIN: i16 = 1;
const POLLOUT: i16 = 4;
const POLLERR: i16 = 8;
const POLLHUP: i16 = 0x10;
const POLLRDHUP: i16 = 0x2000;

pub const SIGHUP: i32 = 1;
pub const SIGINT: i32 = 2;
pub const SIGUSR1: i32 = 10;
pub const SIGUSR2: i32 = 12;
pub const SIGTERM: i32 = 15;

/// An address of a Unix socket: family and path with a zero behind it.
#[repr(C)]
struct UnixAddress {
    family: u16,
    path: [u8; 108],
}

#[repr(C)]
struct PollFd {
    fd: RawFd,
    events: i16,
    seen: i16,
}

/// What epoll tells of a descriptor: what has happened, and the number that it was watched under. (The kernel
/// packs it on x86-64.)
#[derive(Clone, Copy)]
#[cfg_attr(target_arch = "x86_64", repr(C, packed))]
#[cfg_attr(not(target_arch = "x86_64"), repr(C))]
pub struct Ready {
    events: u32,
    number: u64,
}

#[repr(C)]
struct SignalSet([u64; 16]);

/// Where a part of a packet is (struct iovec).
#[repr(C)]
#[derive(Clone, Copy)]
pub(crate) struct Part {
    pub start: *mut u8,
    pub length: usize,
}

impl Part {
    const NONE: Part = Part {
        start: std::ptr::null_mut(),
        length: 0,
    };
}

/// A message to be taken or sent, with what goes beside it (struct msghdr).
#[repr(C)]
#[derive(Clone, Copy)]
pub(crate) struct Message {
    pub name: *mut c_void,
    pub name_length: u32,
    pub parts: *mut Part,
    pub part_count: usize,
    pub control: *mut c_void,
    pub control_length: usize,
    pub flags: c_int,
}

impl Message {
    pub const NONE: Message = Message {
        name: std::ptr::null_mut(),
        name_length: 0,
        parts: std::ptr::null_mut(),
        part_count: 0,
        control: std::ptr::null_mut(),
        control_length: 0,
        flags: 0,
    };
}

/// A packet to be taken (struct mmsghdr).
#[repr(C)]
#[derive(Clone, Copy)]
struct Header {
    message: Message,
    length: u32,
}

impl Header {
    const NONE: Header = Header {
        message: Message::NONE,
        length: 0,
    };
}

/// A group of users (struct group).
#[repr(C)]
struct Group {
    name: *mut c_char,
    password: *mut c_char,
    number: u32,
    members: *mut *mut c_char,
}

// What a C compiler says of the structs.
const _: () = assert!(
    size_of::<Group>() == 32
        && size_of::<Message>() == 56
        && size_of::<Header>() == 64
        && std::mem::offset_of!(Header, length) == 56
        && size_of::<Part>() == 16
        && size_of::<UnixAddress>() == 110
        && size_of::<PollFd>() == 8
);

extern "C" {
    pub(crate) fn socket(domain: c_int, kind: c_int, protocol: c_int) -> c_int;
    pub(crate) fn bind(fd: c_int, address: *const c_void, length: u32) -> c_int;
    fn connect(fd: c_int, address: *const c_void, length: u32) -> c_int;
    pub(crate) fn listen(fd: c_int, backlog: c_int) -> c_int;
    pub(crate) fn setsockopt(
        fd: c_int,
        level: c_int,
        name: c_int,
        value: *const c_void,
        length: u32,
    ) -> c_int;
    pub(crate) fn getsockopt(
        fd: c_int,
        level: c_int,
        name: c_int,
        value: *mut c_void,
        length: *mut u32,
    ) -> c_int;
    pub(crate) fn recvmsg(fd: c_int, message: *mut Message, flags: c_int) -> isize;
    pub(crate) fn sendmsg(fd: c_int, message: *const Message, flags: c_int) -> isize;
    fn accept4(fd: c_int, address: *mut c_void, length: *mut u32, flags: c_int) -> c_int;
    fn recv(fd: c_int, bytes: *mut u8, length: usize, flags: c_int) -> isize;
    fn recvmmsg(
        fd: c_int,
        headers: *mut Header,
        count: u32,
        flags: c_int,
        timeout: *mut c_void,
    ) -> c_int;
    fn sendmmsg(fd: c_int, headers: *mut Header, count: u32, flags: c_int) -> c_int;
    fn send(fd: c_int, bytes: *const u8, length: usize, flags: c_int) -> isize;
    fn poll(fds: *mut PollFd, count: u64, timeout: c_int) -> c_int;
    fn epoll_create1(flags: c_int) -> c_int;
    fn epoll_ctl(epoll: c_int, what: c_int, fd: c_int, event: *mut Ready) -> c_int;
    fn epoll_wait(epoll: c_int, events: *mut Ready, most: c_int, timeout: c_int) -> c_int;
    fn sigemptyset(set: *mut SignalSet) -> c_int;
    fn sigaddset(set: *mut SignalSet, signal: c_int) -> c_int;
    fn pthread_sigmask(how: c_int, set: *const SignalSet, old: *mut SignalSet) -> c_int;
    fn signalfd(fd: c_int, set: *const SignalSet, flags: c_int) -> c_int;
    fn eventfd(count: u32, flags: c_int) -> c_int;
    fn read(fd: c_int, bytes: *mut u8, length: usize) -> isize;
    fn umask(mask: u32) -> u32;
    fn geteuid() -> u32;
    fn socketpair(domain: c_int, kind: c_int, protocol: c_int, pair: *mut c_int) -> c_int;
    fn ioctl(fd: c_int, what: u64, value: *mut c_int) -> c_int;
    fn getgrnam_r(
        name: *const c_char,
        group: *mut Group,
        text: *mut c_char,
        size: usize,
        found: *mut *mut Group,
    ) -> c_int;
}

pub(crate) fn owned(fd: c_int) -> Result<OwnedFd> {
    if fd < 0 {
        return Err(Error::last_os_error());
    }
    // Safety: the call has just handed out this descriptor, and nobody else has it.
    Ok(unsafe { OwnedFd::from_raw_fd(fd) })
}

pub(crate) fn done(code: c_int) -> Result<()> {
    if code < 0 {
        return Err(Error::last_os_error());
    }
    Ok(())
}

pub(crate) fn counted(count: isize) -> Result<usize> {
    usize::try_from(count).map_err(|_| Error::last_os_error())
}

fn address(path: &Path) -> Result<UnixAddress> {
    let bytes = OsStr::as_bytes(path.as_os_str());
    let mut address = UnixAddress {
        family: AF_UNIX,
        path: [0; 108],
    };
    if bytes.len() >= address.path.len() || bytes.contains(&0) {
        return Err(Error::new(
            ErrorKind::InvalidInput,
            "a socket's path has at most 107 bytes",
        ));
    }
    address.path[..bytes.len()].copy_from_slice(bytes);
    Ok(address)
}

fn seqpacket(flags: c_int) -> Result<OwnedFd> {
    // Safety: numbers alone.
    owned(unsafe { socket(AF_UNIX.into(), SOCK_SEQPACKET | SOCK_CLOEXEC | flags, 0) })
}

/// A listening socket at a path, which only its owner's user may connect to, or with `group` its group too.
/// The path must be free.
pub fn seqpacket_listen(path: &Path, group: bool) -> Result<OwnedFd> {
    let (fd, address) = (seqpacket(SOCK_NONBLOCK)?, address(path)?);
    // Safety: the address lives through the call and has the length that is told.
    unsafe {
        let before = umask(if group { 0o007 } else { 0o077 });
        let at = std::ptr::from_ref(&address).cast();
        let bound = bind(fd.as_raw_fd(), at, size_of::<UnixAddress>() as u32);
        umask(before);
        done(bound)?;
        done(listen(fd.as_raw_fd(), 4))?;
    }
    Ok(fd)
}

/// A socket connected to a path.
pub fn seqpacket_connect(path: &Path) -> Result<OwnedFd> {
    let (fd, address) = (seqpacket(0)?, address(path)?);
    let at = std::ptr::from_ref(&address).cast();
    // Safety: as above.
    done(unsafe { connect(fd.as_raw_fd(), at, size_of::<UnixAddress>() as u32) })?;
    Ok(fd)
}

/// Two sockets that are connected to each other.
pub fn seqpacket_pair() -> Result<(OwnedFd, OwnedFd)> {
    let mut pair = [0; 2];
    let kind = SOCK_SEQPACKET | SOCK_CLOEXEC | SOCK_NONBLOCK;
    // Safety: room for two descriptors is lent.
    done(unsafe { socketpair(AF_UNIX.into(), kind, 0, pair.as_mut_ptr()) })?;
    Ok((owned(pair[0])?, owned(pair[1])?))
}

/// How much memory the kernel keeps for what was sent and is not yet read at the other end.
pub fn unread(fd: &OwnedFd) -> Result<usize> {
    const SIOCOUTQ: u64 = 0x5411;
    let mut value = 0;
    // Safety: one number is lent.
    done(unsafe { ioctl(fd.as_raw_fd(), SIOCOUTQ, &mut value) })?;
    Ok(value.max(0) as usize)
}

/// The next connection of a listening socket; `WouldBlock` where there is none.
pub fn accept(listener: &OwnedFd) -> Result<OwnedFd> {
    // Safety: no address is asked for.
    owned(unsafe {
        accept4(
            listener.as_raw_fd(),
            std::ptr::null_mut(),
            std::ptr::null_mut(),
            SOCK_CLOEXEC,
        )
    })
}

/// Room for `COUNT` packets of `SIZE` bytes that one call takes.
pub struct Packets<const COUNT: usize, const SIZE: usize> {
    bytes: Box<[[u8; SIZE]; COUNT]>,
    lengths: [u32; COUNT],
}

impl<const COUNT: usize, const SIZE: usize> Packets<COUNT, SIZE> {
    pub fn new() -> Self {
        Packets {
            bytes: Box::new([[0; SIZE]; COUNT]),
            lengths: [0; COUNT],
        }
    }

    /// The packets that have come, up to `most`, without waiting: how many.
    pub fn receive(&mut self, fd: &OwnedFd, most: usize) -> Result<usize> {
        if most == 1 {
            // Safety: the array is lent whole.
            let length = counted(unsafe {
                recv(
                    fd.as_raw_fd(),
                    self.bytes[0].as_mut_ptr(),
                    SIZE,
                    MSG_DONTWAIT | MSG_TRUNC,
                )
            })?;
            self.lengths[0] = length as u32;
            return Ok(1);
        }
        self.receive_some(fd, most.min(COUNT))
    }

    /// What points at the arrays is made for the call alone: a pointer that was kept would be that of a box
    /// which has moved since.
    fn receive_some(&mut self, fd: &OwnedFd, most: usize) -> Result<usize> {
        let mut parts = [Part::NONE; COUNT];
        let mut headers = [Header::NONE; COUNT];
        for ((bytes, part), header) in self.bytes.iter_mut().zip(&mut parts).zip(&mut headers) {
            *part = Part {
                start: bytes.as_mut_ptr(),
                length: SIZE,
            };
            (header.message.parts, header.message.part_count) = (part, 1);
        }
        // Safety: each header has one part, which is one array of `bytes`; nobody else has them during the
        // call.
        let count = counted(unsafe {
            recvmmsg(
                fd.as_raw_fd(),
                headers.as_mut_ptr(),
                most as u32,
                MSG_DONTWAIT | MSG_TRUNC,
                std::ptr::null_mut(),
            )
        } as isize)?;
        for (length, header) in self.lengths.iter_mut().zip(&headers[..count]) {
            *length = header.length;
        }
        Ok(count)
    }

    /// How long a packet was: more than `SIZE` where its end was cut off.
    pub fn length(&self, k: usize) -> usize {
        self.lengths[k] as usize
    }

    pub fn bytes(&self, k: usize) -> &[u8] {
        &self.bytes[k][..self.length(k).min(SIZE)]
    }

    /// A place to fill otherwise, and the length to set for it.
    pub fn place(&mut self, k: usize) -> (&mut [u8; SIZE], &mut u32) {
        (&mut self.bytes[k], &mut self.lengths[k])
    }
}

impl<const COUNT: usize, const SIZE: usize> Default for Packets<COUNT, SIZE> {
    fn default() -> Self {
        Packets::new()
    }
}

/// Whether the peer has closed, and nothing but empty packets is left of what it sent.
pub fn is_ended(fd: &OwnedFd) -> bool {
    let mut one = PollFd {
        fd: fd.as_raw_fd(),
        events: POLLIN | POLLRDHUP,
        seen: 0,
    };
    let mut byte = [0];
    // Safety: one entry, and one byte, are lent.
    unsafe {
        poll(&mut one, 1, 0) >= 0
            && one.seen & (POLLHUP | POLLRDHUP) != 0
            && recv(
                fd.as_raw_fd(),
                byte.as_mut_ptr(),
                1,
                MSG_PEEK | MSG_DONTWAIT,
            ) <= 0
    }
}

/// Whether the other end is closed, and whether that left unread what it was sent.
pub fn is_closed(fd: &OwnedFd) -> (bool, bool) {
    let mut one = PollFd {
        fd: fd.as_raw_fd(),
        events: 0,
        seen: 0,
    };
    // Safety: one entry is lent.
    unsafe { poll(&mut one, 1, 0) };
    (one.seen & POLLHUP != 0, one.seen & POLLERR != 0)
}

/// Whether the other end of a socket has closed, whatever is still unread.
pub fn is_over(fd: &impl AsRawFd) -> bool {
    let mut one = PollFd {
        fd: fd.as_raw_fd(),
        events: POLLRDHUP,
        seen: 0,
    };
    // Safety: one entry is lent.
    unsafe { poll(&mut one, 1, 0) > 0 && one.seen & (POLLRDHUP | POLLHUP | POLLERR) != 0 }
}

/// Sends one packet whole, or none of it: `WouldBlock` where there is no room.
pub fn transmit(fd: &OwnedFd, bytes: &[u8]) -> Result<()> {
    // Safety: the slice is lent whole.
    counted(unsafe {
        send(
            fd.as_raw_fd(),
            bytes.as_ptr(),
            bytes.len(),
            MSG_NOSIGNAL | MSG_DONTWAIT,
        )
    })
    .map(|_| ())
}

/// Sends packets one by one, each whole, as far as there is room: how many. `WouldBlock` where there is none
/// for the first.
pub fn transmit_all<'a>(fd: &OwnedFd, packets: impl Iterator<Item = &'a [u8]>) -> Result<usize> {
    const MOST: usize = 32;
    let mut parts = [Part::NONE; MOST];
    let mut headers = [Header::NONE; MOST];
    let mut count = 0;
    for ((packet, part), header) in packets.zip(&mut parts).zip(&mut headers) {
        // the kernel only reads there
        *part = Part {
            start: packet.as_ptr().cast_mut(),
            length: packet.len(),
        };
        (header.message.parts, header.message.part_count) = (part, 1);
        count += 1;
    }
    // Safety: `count` headers have a part each, which is a slice that is lent through the call.
    counted(unsafe {
        sendmmsg(
            fd.as_raw_fd(),
            headers.as_mut_ptr(),
            count,
            MSG_NOSIGNAL | MSG_DONTWAIT,
        )
    } as isize)
}

/// Waits until a descriptor can be read, or written; `false` where the time is over first.
pub fn wait_for(fd: &impl AsRawFd, write: bool, time: Duration) -> Result<bool> {
    let events = if write { POLLOUT } else { POLLIN };
    let mut one = PollFd {
        fd: fd.as_raw_fd(),
        events,
        seen: 0,
    };
    // Safety: one entry is lent.
    let count = unsafe { poll(&mut one, 1, millis(time)) };
    done(count).map(|()| count > 0)
}

/// Waits until one of two descriptors can be read, and says which of them can.
pub fn wait_for_either(one: &impl AsRawFd, other: &impl AsRawFd) -> Result<(bool, bool)> {
    let entry = |fd: RawFd| PollFd {
        fd,
        events: POLLIN,
        seen: 0,
    };
    let mut both = [entry(one.as_raw_fd()), entry(other.as_raw_fd())];
    // Safety: two entries are lent.
    done(unsafe { poll(both.as_mut_ptr(), 2, -1) })?;
    Ok((both[0].seen != 0, both[1].seen != 0))
}

/// Milliseconds, rounded up, so that nobody wakes before the time.
fn millis(time: Duration) -> c_int {
    time.as_nanos()
        .div_ceil(1_000_000)
        .try_into()
        .unwrap_or(c_int::MAX)
}

/// A set of watched descriptors, each under a number.
pub struct Epoll(OwnedFd);

impl Epoll {
    const IN: u32 = 1;
    const OUT: u32 = 4;
    const RDHUP: u32 = 0x2000;

    pub fn new() -> Result<Epoll> {
        // Safety: a number alone.
        owned(unsafe { epoll_create1(SOCK_CLOEXEC) }).map(Epoll)
    }

    fn control(&self, what: c_int, fd: RawFd, events: u32, number: u64) -> Result<()> {
        let mut event = Ready { events, number };
        // Safety: one event is lent.
        done(unsafe { epoll_ctl(self.0.as_raw_fd(), what, fd, &mut event) })
    }

    /// Watches a descriptor for something to read.
    pub fn add(&self, fd: &impl AsRawFd, number: u64) -> Result<()> {
        self.control(1, fd.as_raw_fd(), Epoll::IN | Epoll::RDHUP, number)
    }

    /// Says anew what a descriptor is watched for; its end is always told.
    pub fn set(&self, fd: &impl AsRawFd, number: u64, read: bool, write: bool) -> Result<()> {
        let read = if read { Epoll::IN } else { 0 };
        let write = if write { Epoll::OUT } else { 0 };
        self.control(3, fd.as_raw_fd(), read | write | Epoll::RDHUP, number)
    }

    /// Waits for at most the time that is given, and fills in what is ready.
    pub fn wait<'a>(&self, ready: &'a mut [Ready], time: Option<Duration>) -> Result<&'a [Ready]> {
        let time = time.map_or(-1, millis);
        // Safety: the slice is lent whole.
        let count = unsafe {
            epoll_wait(
                self.0.as_raw_fd(),
                ready.as_mut_ptr(),
                ready.len() as c_int,
                time,
            )
        };
        match done(count) {
            Ok(()) => Ok(&ready[..count as usize]),
            Err(e) if e.kind() == ErrorKind::Interrupted => Ok(&[]),
            Err(e) => Err(e),
        }
    }
}

impl Ready {
    pub const NONE: Ready = Ready {
        events: 0,
        number: 0,
    };

    /// The number of the descriptor.
    pub fn number(&self) -> u64 {
        self.number
    }

    /// Whether its other end is closed.
    pub fn is_closed(&self) -> bool {
        self.events & (Epoll::RDHUP | 0x18) != 0
    }
}

/// Signals as a file that can be watched. From here on they do nothing else, in this thread and those that it
/// starts.
pub struct Signals(OwnedFd);

impl Signals {
    pub fn new(signals: &[i32]) -> Result<Signals> {
        let mut set = SignalSet([0; 16]);
        // Safety: one set is lent, and the kernel copies it.
        unsafe {
            done(sigemptyset(&mut set))?;
            for signal in signals {
                done(sigaddset(&mut set, *signal))?;
            }
            done(-pthread_sigmask(0, &set, std::ptr::null_mut()).abs())?;
            owned(signalfd(-1, &set, SOCK_NONBLOCK | SOCK_CLOEXEC)).map(Signals)
        }
    }

    /// The next signal that has come.
    pub fn next(&self) -> Option<i32> {
        let mut record = [0; 128];
        // Safety: the slice is lent whole. The kernel writes records of 128 bytes that begin with the
        // signal's number.
        let count = unsafe { read(self.0.as_raw_fd(), record.as_mut_ptr(), record.len()) };
        (count == 128).then(|| i32::from_ne_bytes([record[0], record[1], record[2], record[3]]))
    }
}

impl AsRawFd for Signals {
    fn as_raw_fd(&self) -> RawFd {
        self.0.as_raw_fd()
    }
}

/// A counter that one thread raises and another waits for.
pub fn wake_file() -> Result<OwnedFd> {
    // Safety: numbers alone.
    owned(unsafe { eventfd(0, SOCK_NONBLOCK | SOCK_CLOEXEC) })
}

/// Sets the counter back to zero.
pub fn calm(wake: &OwnedFd) {
    let mut count = [0; 8];
    // Safety: the slice is lent whole. Nothing to read is no fault.
    let _ = unsafe { read(wake.as_raw_fd(), count.as_mut_ptr(), count.len()) };
}

/// The user that this process acts as.
pub fn user() -> u32 {
    // Safety: it takes nothing, and never fails.
    unsafe { geteuid() }
}

/// The number of a group of users, from its name or its number; `None` where there is none.
pub fn group(name: &str) -> Option<u32> {
    if let Ok(number) = name.parse() {
        return Some(number);
    }
    let name = CString::new(name).ok()?;
    let mut text = vec![0; 1 << 16];
    let mut group = Group {
        name: std::ptr::null_mut(),
        password: std::ptr::null_mut(),
        number: 0,
        members: std::ptr::null_mut(),
    };
    let mut found = std::ptr::null_mut();
    // Safety: name, record and room live through the call, and of what points into the room nothing is kept.
    unsafe {
        getgrnam_r(
            name.as_ptr(),
            &mut group,
            text.as_mut_ptr(),
            text.len(),
            &mut found,
        )
    };
    (!found.is_null()).then_some(group.number)
}

/// The file system's flags that std has no name for.
pub mod open {
    /// The last part of a path is no link.
    #[cfg(any(target_arch = "aarch64", target_arch = "arm"))]
    pub const NO_LINK: i32 = 0o100000;
    #[cfg(not(any(target_arch = "aarch64", target_arch = "arm")))]
    pub const NO_LINK: i32 = 0o400000;
    /// It is a folder.
    #[cfg(any(target_arch = "aarch64", target_arch = "arm"))]
    pub const FOLDER: i32 = 0o40000;
    #[cfg(not(any(target_arch = "aarch64", target_arch = "arm")))]
    pub const FOLDER: i32 = 0o200000;
    /// A pipe or a device is not waited for.
    pub const NO_WAIT: i32 = 0o4000;
}
