//! SCTP by libusrsctp, over src/sctp.c. Where the library was not there when this was compiled, starting it
//! says so and nothing else is ever reached.
#![allow(unsafe_code)]
// without the library a socket has no value, so that what follows one is never reached
#![cfg_attr(not(sctp), allow(unreachable_code))]
use crate::pieces::Pieces;
use crate::terms::{Pace, Terms};
use crate::transport::{Received, Sent, READ};
use std::io::{Error, Result};
use std::net::{IpAddr, Ipv4Addr, Ipv6Addr, SocketAddr, UdpSocket};
use std::os::fd::{AsRawFd, OwnedFd, RawFd};
use std::sync::Arc;
use std::time::Duration;

/// An address as sctp.c has it.
#[repr(C)]
#[derive(Clone, Copy, Default)]
struct Address {
    family: u8,
    bytes: [u8; 16],
    port: u16,
}

impl Address {
    fn of(at: SocketAddr) -> Address {
        let mut bytes = [0; 16];
        let family = match at.ip() {
            IpAddr::V4(ip) => {
                bytes[..4].copy_from_slice(&ip.octets());
                4
            }
            IpAddr::V6(ip) => {
                bytes = ip.octets();
                6
            }
        };
        Address {
            family,
            bytes,
            port: at.port(),
        }
    }

    fn socket_address(&self) -> SocketAddr {
        let ip = match self.family {
            4 => {
                let [a, b, c, d, ..] = self.bytes;
                IpAddr::V4(Ipv4Addr::new(a, b, c, d))
            }
            // an IPv4 peer of an IPv6 socket is known by its own address
            _ => IpAddr::V6(Ipv6Addr::from(self.bytes)).to_canonical(),
        };
        SocketAddr::new(ip, self.port)
    }
}

/// Terms as sctp.c has them.
#[repr(C)]
#[derive(Clone, Copy)]
struct Kept {
    udp_port: u16,
    streams: u16,
    misses: u16,
    rto: u32,
    rto_least: u32,
    heartbeat: u32,
    buffer: u32,
}

impl Kept {
    fn of(terms: &Terms) -> Kept {
        let pace = Pace::of_library(terms.dead);
        Kept {
            udp_port: terms.udp_port,
            streams: terms.streams,
            misses: pace.misses,
            rto: pace.rto,
            rto_least: pace.least(),
            heartbeat: pace.heartbeat,
            buffer: terms.buffer,
        }
    }
}

/// The stack of this process, with the counter that it raises when something has come, gone or ended.
pub struct Stack {
    wake: Arc<OwnedFd>,
    terms: Kept,
    over_ip: bool,
}

/// What sctp.c answers: zero, or why not.
fn done(code: i32) -> Result<()> {
    match code {
        0 => Ok(()),
        why => Err(Error::from_raw_os_error(why)),
    }
}

/// A listening socket.
pub struct Listener {
    socket: c::Socket,
    wake: Arc<OwnedFd>,
    _hold: Option<UdpSocket>,
}

/// An association, and the part of a message that came before its end.
pub struct Association {
    socket: c::Socket,
    wake: Arc<OwnedFd>,
    streams: u16,
    pieces: Pieces,
}

impl Stack {
    /// Starts the stack for an address of this side: inside UDP from a port, or over IP where none is given.
    pub fn start(at: SocketAddr, udp_port: Option<u16>, terms: Terms) -> Result<Stack> {
        if !cfg!(sctp) {
            return Err(Error::other(
                "compiled without SCTP: libusrsctp was not installed (tools/build/setup)",
            ));
        }
        match udp_port {
            // of all addresses the stack does not tell whether it could have its port
            Some(port) if at.ip().is_unspecified() => {
                drop(UdpSocket::bind((Ipv4Addr::UNSPECIFIED, port))?)
            }
            Some(_) => {}
            None => done(c::raw())?,
        }
        done(c::start(&Address::of(at), udp_port.unwrap_or(0)))?;
        Ok(Stack {
            wake: Arc::new(crate::os::wake_file()?),
            terms: Kept::of(&terms),
            over_ip: udp_port.is_none(),
        })
    }

    /// The counter that is raised.
    pub fn wake(&self) -> &OwnedFd {
        &self.wake
    }

    pub fn listen(&self, at: SocketAddr) -> Result<Listener> {
        // over IP nobody says that another has the address and port: so the port of UDP that has the same
        // number is held too
        let hold = self.over_ip.then(|| UdpSocket::bind(at)).transpose()?;
        let socket = c::listen(&Address::of(at), &self.terms, self.wake.as_raw_fd())?;
        Ok(Listener {
            socket,
            wake: self.wake.clone(),
            _hold: hold,
        })
    }

    /// Waits for an association with a peer.
    pub fn connect(&self, from: SocketAddr, to: SocketAddr) -> Result<Association> {
        let socket = c::connect(
            &Address::of(from),
            &Address::of(to),
            &self.terms,
            self.wake.as_raw_fd(),
        )?;
        Ok(Association::new(socket, self.wake.clone()))
    }

    /// Ends the stack; `false` where an association is still there after the time.
    pub fn stop(self, most: Duration) -> bool {
        c::stop(most.as_millis() as u32) == 0
    }
}

impl Listener {
    /// The next association and the address of its peer.
    pub fn accept(&self) -> Option<(Association, SocketAddr)> {
        let mut peer = Address::default();
        let socket = c::accept(self.socket, &mut peer, self.wake.as_raw_fd())?;
        Some((
            Association::new(socket, self.wake.clone()),
            peer.socket_address(),
        ))
    }

    pub fn close(self) {
        c::close(self.socket, false);
    }
}

impl Association {
    fn new(socket: c::Socket, wake: Arc<OwnedFd>) -> Association {
        Association {
            socket,
            wake,
            streams: c::streams(socket).max(1),
            pieces: Pieces::default(),
        }
    }

    /// How many streams the peer takes.
    pub fn streams(&self) -> u16 {
        self.streams
    }

    /// The next message; `None` where there is none. A long one comes in pieces: of these the first bytes
    /// are kept, and the rest is counted.
    pub fn receive(&mut self, bytes: &mut [u8; READ]) -> Option<Received> {
        loop {
            let (kind, length, ppid) = c::receive(self.socket, bytes);
            match kind {
                c::PIECE | c::END => {
                    if let Some(whole) = self.pieces.add(bytes, length, kind == c::END) {
                        return Some(Received::of(whole, ppid));
                    }
                }
                c::NOTHING => return None,
                c::RESTARTED => return Some(Received::Restarted),
                c::ENDED => return Some(Received::Ended),
                _ => {}
            }
        }
    }

    pub fn send(&self, message: &[u8], stream: u16, ppid: u32) -> Sent {
        match c::send(self.socket, message, stream, ppid) {
            1 => Sent::Done,
            0 => Sent::Later,
            _ => Sent::Ended,
        }
    }

    /// Sets the counter back, for a process that has this association alone.
    pub fn calm(&self) {
        crate::os::calm(&self.wake);
    }

    pub fn close(self, now: bool) {
        c::close(self.socket, now);
    }
}

impl AsRawFd for Association {
    fn as_raw_fd(&self) -> RawFd {
        self.wake.as_raw_fd()
    }
}

/// The functions of sctp.c. A socket is handed to them only between its opening and its close, which takes
/// it away.
#[cfg(sctp)]
mod c {
    use super::{Address, Error, Kept, RawFd, Result};
    use std::ffi::{c_int, c_void};

    pub const NOTHING: c_int = 0;
    pub const PIECE: c_int = 1;
    pub const END: c_int = 2;
    pub const ENDED: c_int = 3;
    pub const RESTARTED: c_int = 4;

    #[derive(Clone, Copy)]
    pub struct Socket(*mut c_void);

    extern "C" {
        fn m2ua_sctp_raw() -> c_int;
        fn m2ua_sctp_start(at: *const Address, udp_port: u16) -> c_int;
        fn m2ua_sctp_listen(at: *const Address, terms: *const Kept, wake: c_int) -> *mut c_void;
        fn m2ua_sctp_accept(listener: *mut c_void, peer: *mut Address, wake: c_int) -> *mut c_void;
        fn m2ua_sctp_connect(
            from: *const Address,
            to: *const Address,
            terms: *const Kept,
            wake: c_int,
        ) -> *mut c_void;
        fn m2ua_sctp_streams(socket: *mut c_void) -> u16;
        fn m2ua_sctp_receive(
            socket: *mut c_void,
            bytes: *mut u8,
            size: usize,
            length: *mut usize,
            ppid: *mut u32,
        ) -> c_int;
        fn m2ua_sctp_send(
            socket: *mut c_void,
            bytes: *const u8,
            length: usize,
            stream: u16,
            ppid: u32,
        ) -> c_int;
        fn m2ua_sctp_close(socket: *mut c_void, abort: c_int);
        fn m2ua_sctp_stop(most: u32) -> c_int;
    }

    fn opened(socket: *mut c_void) -> Result<Socket> {
        if socket.is_null() {
            return Err(Error::last_os_error());
        }
        Ok(Socket(socket))
    }

    pub fn raw() -> c_int {
        // Safety: it takes nothing.
        unsafe { m2ua_sctp_raw() }
    }

    pub fn start(at: &Address, udp_port: u16) -> c_int {
        // Safety: the address is lent through the call, and not kept.
        unsafe { m2ua_sctp_start(at, udp_port) }
    }

    pub fn listen(at: &Address, terms: &Kept, wake: RawFd) -> Result<Socket> {
        // Safety: address and terms are lent through the call, and not kept. The counter outlives the
        // socket, which has a share in it.
        opened(unsafe { m2ua_sctp_listen(at, terms, wake) })
    }

    pub fn accept(listener: Socket, peer: &mut Address, wake: RawFd) -> Option<Socket> {
        // Safety: the listener is open, the address is lent through the call; the counter as above.
        opened(unsafe { m2ua_sctp_accept(listener.0, peer, wake) }).ok()
    }

    pub fn connect(from: &Address, to: &Address, terms: &Kept, wake: RawFd) -> Result<Socket> {
        // Safety: addresses and terms are lent through the call, and not kept; the counter as above.
        opened(unsafe { m2ua_sctp_connect(from, to, terms, wake) })
    }

    pub fn streams(socket: Socket) -> u16 {
        // Safety: the socket is open.
        unsafe { m2ua_sctp_streams(socket.0) }
    }

    pub fn receive(socket: Socket, bytes: &mut [u8]) -> (c_int, usize, u32) {
        let (mut length, mut ppid) = (0, 0);
        // Safety: the socket is open; the slice is lent whole with its length, and so are the two numbers,
        // and none is kept.
        let kind = unsafe {
            m2ua_sctp_receive(
                socket.0,
                bytes.as_mut_ptr(),
                bytes.len(),
                &mut length,
                &mut ppid,
            )
        };
        (kind, length.min(bytes.len()), ppid)
    }

    pub fn send(socket: Socket, message: &[u8], stream: u16, ppid: u32) -> c_int {
        // Safety: the socket is open; the slice is lent whole with its length, and the stack copies it.
        unsafe { m2ua_sctp_send(socket.0, message.as_ptr(), message.len(), stream, ppid) }
    }

    pub fn close(socket: Socket, abort: bool) {
        // Safety: the socket is open, and whoever had it gives it up with this call.
        unsafe { m2ua_sctp_close(socket.0, abort.into()) }
    }

    pub fn stop(most: u32) -> c_int {
        // Safety: a number alone.
        unsafe { m2ua_sctp_stop(most) }
    }
}

/// Without the library: no socket can be made, so none is ever lent.
#[cfg(not(sctp))]
mod c {
    use super::{Address, Error, Kept, RawFd, Result};

    pub const NOTHING: i32 = 0;
    pub const PIECE: i32 = 1;
    pub const END: i32 = 2;
    pub const ENDED: i32 = 3;
    pub const RESTARTED: i32 = 4;

    #[derive(Clone, Copy)]
    pub enum Socket {}

    pub fn raw() -> i32 {
        0
    }
    pub fn start(_: &Address, _: u16) -> i32 {
        0
    }
    pub fn stop(_: u32) -> i32 {
        0
    }
    pub fn listen(_: &Address, _: &Kept, _: RawFd) -> Result<Socket> {
        Err(Error::other("no SCTP"))
    }
    pub fn connect(_: &Address, _: &Address, _: &Kept, _: RawFd) -> Result<Socket> {
        Err(Error::other("no SCTP"))
    }
    pub fn accept(listener: Socket, _: &mut Address, _: RawFd) -> Option<Socket> {
        match listener {}
    }
    pub fn streams(socket: Socket) -> u16 {
        match socket {}
    }
    pub fn receive(socket: Socket, _: &mut [u8]) -> (i32, usize, u32) {
        match socket {}
    }
    pub fn send(socket: Socket, _: &[u8], _: u16, _: u32) -> i32 {
        match socket {}
    }
    pub fn close(socket: Socket, _: bool) {
        match socket {}
    }
}
