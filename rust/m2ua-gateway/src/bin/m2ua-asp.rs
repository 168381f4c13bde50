//! m2ua-asp: a controller, or a link side, that a script drives.
#![forbid(unsafe_code)]
use m2ua_gateway::controller::{Controller, Target};
use m2ua_gateway::kernel;
use m2ua_gateway::options::{addresses, asked, number, split};
use m2ua_gateway::script;
use m2ua_gateway::sctp::Stack;
use m2ua_gateway::terms::{Terms, GRANTED};
use std::net::SocketAddr;
use std::process::ExitCode;
use std::time::Duration;

const USAGE: &str = "\
usage: m2ua-asp [OPTION ..] SCRIPT                a script is run; of '-', standard input, each command as it comes, and 'ok' when it is done
       m2ua-asp [OPTION ..] --measure COUNT       round trips of so many Heartbeats are timed

  --unix PATH              the gateway's Unix socket: DIR/asp-NAME, or DIR/links for a link side
  --sctp ADDRESS[:PORT]    the gateway by SCTP (port 2904): the kernel's where it is there, else libusrsctp's over IP
  --sctp-kernel ADDRESS[:PORT][,ADDRESS ..]    the gateway by the kernel's SCTP alone; it may have several addresses
  --from ADDRESS:PORT      SCTP: the address and port of this side; of the kernel's several, with commas between them
  --udp PORT               SCTP by libusrsctp inside UDP from that port
  --gateway-udp PORT       SCTP inside UDP: the gateway's port (default 9899)
  --dead MS                SCTP: the gateway is lost within that time if it does not answer (default 5000)
  --streams N              SCTP: the streams that the gateway may have towards this side (default 16)
  --timeout MS             how long it waits, for a message or an association (default 10000)
  --record FILE            every message as a line: '> ' and its bytes in hex where it was sent, '< ' where it was received
  --quiet                  says no message on standard output
  --own-beats              the gateway's Heartbeats are the script's to see and to answer; else it sees none, and each is answered
  --window N, --bytes N    --measure: so many under way at a time (default 1), with so many bytes of heartbeat data (default 8)
  -h, --help, -V, --version

A script has a command to a line; what follows a '#' is a comment.
  MESSAGE [PARAMETER VALUE ..]       sends a message: up, down, beat, active, inactive, data, establish-request, release-request, state-request,
                                     retrieval-request; for a link side data, establish-confirm (the link is in service), release-confirm,
                                     release-indication (it is not), state-confirm, state-indication, retrieval-confirm, retrieval-indication,
                                     retrieval-complete, congestion-indication
  wait [N] for MESSAGE [PARAMETER VALUE ..]    takes what comes until N of them have come, with these parameters at least
  expect MESSAGE [PARAMETER VALUE ..]          the next one must be it; over SCTP the next one of its stream
  raw HEX [times N | protocol N]     any bytes; the same so many times in one message; or of another payload protocol
  repeat N .. end, sleep MS, close, connect, die (ends at once, as if killed)
Parameters: link N[,N..]  range A-B[,A-B..]  mode override|load-share|broadcast  id N  data HEX|counter  data2 HEX|counter  correlation N  heartbeat HEX
  state N  event N  congestion N  discard N  action N  sequence N  result N  info WORD  code N  status inactive|active|pending|other-active
Exit status: 0 all was done; 1 something waited for did not come, the association is over, or the script is wrong; 2 wrong usage.";

struct Options {
    unix: Option<String>,
    sctp: Vec<SocketAddr>,
    kernel: Vec<SocketAddr>,
    from: Vec<SocketAddr>,
    udp: Option<u16>,
    gateway_udp: u16,
    dead: u32,
    streams: u16,
    timeout: Duration,
    record: Option<String>,
    quiet: bool,
    own_beats: bool,
    measure: Option<usize>,
    window: usize,
    bytes: usize,
    script: Option<String>,
}

fn parse(words: &[String]) -> Result<Options, String> {
    let mut o = Options {
        unix: None,
        sctp: Vec::new(),
        kernel: Vec::new(),
        from: Vec::new(),
        udp: None,
        gateway_udp: 9899,
        dead: 5000,
        streams: GRANTED,
        timeout: Duration::from_secs(10),
        record: None,
        quiet: false,
        own_beats: false,
        measure: None,
        window: 1,
        bytes: 8,
        script: None,
    };
    let mut rest = words.iter().map(String::as_str);
    while let Some(word) = rest.next() {
        let (option, given) = split(word);
        if word == "--quiet" {
            o.quiet = true;
        } else if word == "--own-beats" {
            o.own_beats = true;
        } else if word.starts_with("--") {
            let value = given.or_else(|| rest.next());
            set(
                &mut o,
                option,
                value.ok_or(format!("{option} takes a value"))?,
            )?;
        } else if o.script.replace(word.into()).is_some() {
            return Err(format!("one script, and '{word}' follows it"));
        }
    }
    let said = [o.unix.is_some(), !o.sctp.is_empty(), !o.kernel.is_empty()];
    if said.iter().filter(|said| **said).count() != 1 {
        return Err("where the gateway is, one of --unix, --sctp and --sctp-kernel says".into());
    }
    if o.script.is_some() == o.measure.is_some() {
        return Err("a script or --measure is wanted".into());
    }
    Ok(o)
}

fn set(o: &mut Options, option: &str, value: &str) -> Result<(), String> {
    let at = |port| addresses(option, value, port);
    match option {
        "--unix" => o.unix = Some(value.into()),
        "--sctp" => o.sctp = at(m2ua::sys::PORT)?,
        "--sctp-kernel" => o.kernel = at(m2ua::sys::PORT)?,
        "--from" => o.from = at(0)?,
        "--streams" => o.streams = number(option, value, 1, u16::MAX)?,
        "--udp" => o.udp = Some(number(option, value, 1, u16::MAX)?),
        "--gateway-udp" => o.gateway_udp = number(option, value, 1, u16::MAX)?,
        "--dead" => o.dead = number(option, value, 10, 3_600_000)?,
        "--timeout" => o.timeout = Duration::from_millis(number(option, value, 1, 3_600_000)?),
        "--record" => o.record = Some(value.into()),
        "--measure" => o.measure = Some(number(option, value, 1, 1_000_000_000)?),
        "--window" => o.window = number(option, value, 1, 100_000)?,
        "--bytes" => o.bytes = number(option, value, 0, 2036)?,
        _ => return Err(format!("no such option: {option}")),
    }
    Ok(())
}

fn target(o: &Options) -> Result<Target, String> {
    if let Some(path) = &o.unix {
        return Ok(Target::Unix(path.into()));
    }
    let terms = Terms {
        udp_port: if o.udp.is_some() { o.gateway_udp } else { 0 },
        dead: o.dead,
        buffer: 1 << 18,
        streams: o.streams,
    };
    if !o.kernel.is_empty() || (o.udp.is_none() && kernel::is_there()) {
        let to = [&o.kernel[..], &o.sctp].concat();
        let from = o.from.clone();
        return Ok(Target::Kernel { terms, from, to });
    }
    let ([to], [] | [_]) = (&o.sctp[..], &o.from[..]) else {
        return Err("SCTP by libusrsctp has one address; the kernel's takes several".into());
    };
    let any = if to.is_ipv4() {
        [0, 0, 0, 0].into()
    } else {
        [0; 16].into()
    };
    let from = o.from.first().copied();
    let from = from.unwrap_or(SocketAddr::new(any, 0));
    let stack = Stack::start(from, o.udp, terms).map_err(|e| format!("SCTP: {e}"))?;
    Ok(Target::Sctp {
        stack,
        from,
        to: *to,
    })
}

fn run(o: &Options) -> Result<(), String> {
    let record = match &o.record {
        Some(path) => Some(std::fs::File::create(path).map_err(|e| format!("{path}: {e}"))?),
        None => None,
    };
    let commands = match o.script.as_deref() {
        Some("-") | None => Vec::new(),
        Some(path) => commands(path)?,
    };
    let mut controller = Controller::new(
        target(o)?,
        o.timeout,
        record,
        !o.quiet && o.measure.is_none(),
        o.own_beats,
    );
    match o.measure {
        Some(count) => measure(&mut controller, count, o)?,
        None if o.script.as_deref() == Some("-") => as_they_come(&mut controller)?,
        None => controller.run(&commands)?,
    }
    controller.end();
    Ok(())
}

/// Commands of standard input, each when its last line has come.
fn as_they_come(controller: &mut Controller) -> Result<(), String> {
    controller.connect()?;
    println!("ok");
    let (mut input, mut open) = (Vec::new(), String::new());
    while controller.more(&mut input)? {
        while let Some(end) = input.iter().position(|byte| *byte == b'\n') {
            open += &String::from_utf8_lossy(&input[..=end]);
            input.drain(..=end);
            match script::parse(&open) {
                Err(why) if why == script::UNFINISHED => continue,
                commands => controller.all(&commands?)?,
            }
            open.clear();
            println!("ok");
        }
    }
    Ok(())
}

fn commands(path: &str) -> Result<Vec<script::Command>, String> {
    let source = std::fs::read_to_string(path).map_err(|e| format!("{path}: {e}"))?;
    script::parse(&source).map_err(|why| format!("{path}: {why}"))
}

fn measure(controller: &mut Controller, count: usize, o: &Options) -> Result<(), String> {
    controller.connect()?;
    controller.measure((count / 20).max(1), o.window, o.bytes)?;
    let (mut times, all) = controller.measure(count, o.window, o.bytes)?;
    times.sort_unstable();
    let at = |part: f64| times[((times.len() - 1) as f64 * part) as usize] as f64 / 1000.0;
    println!(
        "{count} messages, {} under way: {:.0} a second, {:.2} us each; round trip median {:.1} us, 99th {:.1}, 99.9th {:.1}, most {:.1}",
        o.window,
        count as f64 / all.as_secs_f64(),
        all.as_secs_f64() * 1e6 / count as f64,
        at(0.5),
        at(0.99),
        at(0.999),
        at(1.0)
    );
    Ok(())
}

fn main() -> ExitCode {
    let words: Vec<String> = std::env::args().skip(1).collect();
    if let Some(text) = asked(&words, "m2ua-asp", USAGE) {
        println!("{text}");
        return ExitCode::SUCCESS;
    }
    let parsed = parse(&words);
    let usage = parsed.is_err();
    match parsed.and_then(|o| run(&o)) {
        Ok(()) => ExitCode::SUCCESS,
        Err(why) => {
            eprintln!("m2ua-asp: {why}");
            ExitCode::from(if usage { 2 } else { 1 })
        }
    }
}
