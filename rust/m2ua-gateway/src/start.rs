//! Starting: the plan is read and loaded, sockets and files are opened. Whatever fails is said in one line or
//! more, and nothing runs.
use crate::beats::{self, Beats};
use crate::daemon::{Daemon, Opened};
use crate::engine::Engine;
use crate::files::{self, Folder};
use crate::kernel;
use crate::log::{Level, Log};
use crate::options::Options;
use crate::os::{self, Epoll, Signals};
use crate::outside::Outside;
use crate::peer::Peer;
use crate::records::{Before, Journal};
use crate::sctp::{Listener, Stack};
use crate::terms::{Terms, GRANTED};
use crate::units::Units;
use m2ua::Gateway;
use m2ua_plan::Plan;
use std::fs::File;
use std::io::ErrorKind;
use std::net::SocketAddr;
use std::os::fd::AsFd;
use std::os::unix::net::UnixDatagram;
use std::path::Path;
use std::time::{Instant, SystemTime};

/// What the daemon takes as an order (daemon.rs).
const SIGNALS: [i32; 5] = [
    os::SIGTERM,
    os::SIGINT,
    os::SIGHUP,
    os::SIGUSR1,
    os::SIGUSR2,
];
/// The name of the link side, and of its socket.
const LINKS: &str = "links";
/// The port inside UDP where none is said (RFC 6951).
const UDP: u16 = 9899;
/// What the SCTP stack keeps for an association, each way.
const BUFFER: u32 = 1 << 18;

/// A plan, as text or compiled, and its file.
pub fn plan_of(path: &Path) -> Result<(Plan, Vec<u8>), String> {
    let said = |why: String| format!("{}: {why}", path.display());
    let bytes = std::fs::read(path).map_err(|e| said(e.to_string()))?;
    if m2ua_plan::is_text(&bytes) {
        let text = String::from_utf8_lossy(&bytes);
        let lines = |problems: Vec<m2ua_plan::Problem>| {
            problems
                .iter()
                .map(|p| said(p.to_string()))
                .collect::<Vec<_>>()
                .join("\n")
        };
        let file = m2ua_plan::compile(&text).map_err(lines)?;
        return m2ua_plan::parse(&text)
            .map(|plan| (plan, file))
            .map_err(lines);
    }
    let gateway = Gateway::load(&bytes).map_err(|no| said(no.to_string()))?;
    Ok((Plan::of(&gateway), bytes))
}

/// A daemon that is ready to run, or why there is none.
pub fn daemon(options: Options) -> Result<Daemon, String> {
    let (plan, file) = plan_of(&options.plan)?;
    let state = Gateway::load(&file).map_err(|no| no.to_string())?;
    // before any thread of the SCTP stack is there, so that no signal ends the process elsewhere
    let signals = Signals::new(&SIGNALS).map_err(|e| format!("signals: {e}"))?;
    check(&plan, &options)?;
    let peers = peers_of(&plan, &options);
    let ases = plan.ases.iter().map(|r#as| r#as.name.clone()).collect();
    let mut outside = Outside::new(
        peers,
        ases,
        Units::new(&state),
        options.links,
        Log::new(options.log, standard_error()?),
    );
    outside.set_time(Instant::now(), SystemTime::now());
    // files behind the sockets: a start that is refused has not touched any
    let opened = opened(&options, &mut outside, signals)?;
    opened.watched().map_err(|e| format!("epoll: {e}"))?;
    written(&options, &mut outside, &file)?;
    let mut daemon = Daemon {
        engine: Engine::new(state),
        timers: vec![None; plan.ases.len()],
        interests: vec![(true, false); outside.peers.len()],
        held: Vec::new(),
        closed: None,
        batch: None,
        options,
        plan,
        outside,
        opened,
    };
    if daemon.options.capture {
        daemon.toggle_capture();
    }
    ready(&mut daemon);
    Ok(daemon)
}

fn peers_of(plan: &Plan, options: &Options) -> Vec<Peer> {
    let origins = plan.asps.len() + 1;
    let misses = options.beat_misses;
    let terms = options
        .beat
        .map(|interval| beats::Terms { interval, misses });
    let peer = |name: &str, socket, terms| {
        Peer::new(name, socket, options.queue, origins, Beats::new(terms))
    };
    let asp = |name: &String| peer(name, format!("asp-{name}"), terms);
    let mut peers: Vec<Peer> = plan.asps.iter().map(|a| asp(&a.name)).collect();
    // the link side speaks class 6 alone
    peers.push(peer(LINKS, LINKS.into(), None));
    peers
}

/// What of a plan does not go with the options.
fn check(plan: &Plan, options: &Options) -> Result<(), String> {
    let said = |why: &str| Err(format!("{}: {why}", options.plan.display()));
    if plan.asps.iter().any(|asp| asp.name == LINKS) {
        return said("no ASP may have the name of the link side, 'links'");
    }
    let sctp = !options.sctp.is_empty() || !options.kernel.is_empty();
    if sctp && plan.asps.iter().all(|asp| asp.from.is_empty()) {
        return said("--sctp: nobody could come: no ASP of the plan says where it is 'from'");
    }
    Ok(())
}

/// Standard error as a file of its own.
fn standard_error() -> Result<File, String> {
    let own = std::io::stderr().as_fd().try_clone_to_owned();
    own.map(File::from)
        .map_err(|e| format!("standard error: {e}"))
}

/// Opens the log's file and the journal, and says whether the run before ended in order.
fn written(options: &Options, outside: &mut Outside, plan: &[u8]) -> Result<(), String> {
    let said = |path: &Path, e: std::io::Error| format!("{}: {e}", path.display());
    if let Some(path) = &options.log_file {
        let file = files::append(path).map_err(|e| said(path, e))?;
        outside.log.set_out(file);
    }
    if let Some(path) = &options.journal {
        let (journal, before) =
            Journal::open(path, plan, SystemTime::now()).map_err(|e| said(path, e))?;
        outside.journal = Some(journal);
        if before == Before::Killed {
            outside.log.line(
                Level::Faults,
                format_args!("the last run did not end in order: its journal has no end"),
            );
        }
    }
    Ok(())
}

fn opened(options: &Options, outside: &mut Outside, signals: Signals) -> Result<Opened, String> {
    let watch = Epoll::new().map_err(|e| format!("epoll: {e}"))?;
    let folder = Folder::open(&options.dir, options.group)?;
    let (mut listeners, mut left) = (Vec::new(), 0);
    for peer in &outside.peers {
        let (entrance, was_left) = folder.listen(&peer.socket)?;
        listeners.push(entrance);
        left += usize::from(was_left);
    }
    if left > 0 {
        outside.log.line(
            Level::Faults,
            format_args!(
                "the last run did not end in order: it left {left} sockets, which are made anew"
            ),
        );
    }
    let kernel = match kernels(options) {
        [] => None,
        at => Some(kernel_sctp(at, options, outside)?),
    };
    let sctp = match options.sctp[..] {
        [] => None,
        _ if kernels(options) == options.sctp => None,
        [at] => Some(sctp(at, options, outside)?),
        _ => return Err("SCTP by libusrsctp has one address; the kernel's takes several".into()),
    };
    Ok(Opened {
        watch,
        signals,
        folder,
        listeners,
        sctp,
        kernel,
    })
}

/// The addresses where the kernel's SCTP is to listen: those of `--sctp` too, where it is there and nothing
/// else is said.
fn kernels(options: &Options) -> &[SocketAddr] {
    let by_choice = options.udp.is_none() && kernel::is_there();
    if options.kernel.is_empty() && by_choice {
        &options.sctp
    } else {
        &options.kernel
    }
}

fn terms(options: &Options) -> Terms {
    Terms {
        udp_port: 0,
        dead: options.dead.as_millis() as u32,
        buffer: BUFFER,
        streams: GRANTED,
    }
}

fn kernel_sctp(
    at: &[SocketAddr],
    options: &Options,
    outside: &mut Outside,
) -> Result<kernel::Listener, String> {
    let words: Vec<String> = at.iter().map(|at| at.to_string()).collect();
    let words = words.join(", ");
    let listener = kernel::Listener::new(at, &terms(options));
    let listener = listener.map_err(|e| format!("SCTP {words}, the kernel's: {e}"))?;
    let line = format_args!("sctp: listens at {words}, by the kernel's SCTP");
    outside.log.line(Level::Faults, line);
    Ok(listener)
}

/// The SCTP stack: over IP if that may be, else inside UDP.
fn sctp(
    at: SocketAddr,
    options: &Options,
    outside: &mut Outside,
) -> Result<(Stack, Listener), String> {
    let terms = terms(options);
    let mut udp = options.udp;
    let stack = match Stack::start(at, udp, terms) {
        Err(e) if udp.is_none() && e.kind() == ErrorKind::PermissionDenied => {
            udp = Some(UDP);
            Stack::start(at, udp, terms)
        }
        other => other,
    };
    let way = udp.map_or("over IP".into(), |port| format!("inside UDP, port {port}"));
    let stack = stack.map_err(|e| format!("SCTP {way}: {e}"))?;
    let listener = stack
        .listen(at)
        .map_err(|e| format!("SCTP {at} {way}: {e}"))?;
    outside.log.line(
        Level::Faults,
        format_args!("sctp: listens at {at}, by libusrsctp {way}"),
    );
    Ok((stack, listener))
}

/// Says that it is ready: in the log, and to systemd where that asks for it.
fn ready(daemon: &mut Daemon) {
    let (plan, dir) = (&daemon.plan, daemon.options.dir.display());
    let counts = (plan.asps.len(), plan.ases.len(), plan.links.len());
    let line = format_args!(
        "m2ua-gateway {}: ready, {} ASPs, {} ASes, {} links, sockets in {dir}",
        env!("CARGO_PKG_VERSION"),
        counts.0,
        counts.1,
        counts.2
    );
    daemon.outside.log.line(Level::Faults, line);
    daemon.outside.log.flush();
    if let (Some(path), Ok(socket)) = (std::env::var_os("NOTIFY_SOCKET"), UnixDatagram::unbound()) {
        let _ = socket.send_to(b"READY=1", path);
    }
}
