//! The daemon's command line.
use crate::log::Level;
use std::net::{IpAddr, SocketAddr};
use std::path::PathBuf;
use std::str::FromStr;
use std::time::Duration;

pub const USAGE: &str = "\
usage: m2ua-gateway [OPTION ..] PLAN

A signalling gateway's M2UA side (RFC 3331) over the proved library. PLAN is a plan as text (m2ua-plan(1)).

  --dir DIR               where its sockets and files are (default /run/m2ua-gateway): DIR/asp-NAME for each ASP and DIR/links for the link
                          side, Unix sockets of type SOCK_SEQPACKET; DIR/state, the dump; DIR/m2ua.pcap, the capture
  --sctp ADDRESS[:PORT]   also listen for SCTP there (port 2904): an ASP is known by where it comes from, 'from' in its line of the plan.
                          By the kernel's SCTP where it is there; else by libusrsctp over IP, or, where that is not permitted, inside UDP
                          from 9899. It says which it took. Several addresses of this machine, with commas between them: as below
  --sctp-kernel ADDRESS[:PORT][,ADDRESS ..]
                          the same by the kernel's SCTP alone. An association has all of the addresses: where one is cut off, the others are used
  --udp PORT              SCTP by libusrsctp inside UDP (RFC 6951) from that port
  --dead MS               SCTP: a peer that does not answer is lost within that time (default 5000)
  --links socket|loop     the link side is the process at DIR/links (default), or a simulated one: links start when asked to, units come back
  --recovery MS           the recovery time T(r) of an AS whose last active ASP is gone (default 2000)
  --queue BYTES           the most that waits for one peer; with more it is disconnected (default 1048576, at least 262144)
  --stall MS              a peer that takes nothing for that time while something waits for it is disconnected (default 5000)
  --beat MS               an ASP is sent a Heartbeat each so many milliseconds, over each transport (default 2000; 0: none)
  --beat-misses N         an ASP of which nothing has come while it was sent so many of them is disconnected (default 3)
  --group NAME            members of this group may connect to the Unix sockets and read the dump; else only the user that runs it
  --log all|changes|faults    every event and order in words; without these (default); only what goes wrong
  --log-file FILE         the log goes there, at its end, and not to standard error
  --journal FILE          each event as a line of a script for 'replay', at the end of FILE
  --capture               write the capture from the start
  -h, --help, -V, --version

Signals: TERM and INT end it; HUP opens log, journal and capture anew, for rotation; USR1 writes the dump; USR2 begins the capture, or ends it.
Exit status: 0 ended by a signal; 1 the plan is refused, a socket or file cannot be had; 2 wrong usage.";

/// Who has the links.
#[derive(Clone, Copy, Debug, PartialEq, Eq)]
pub enum Links {
    Socket,
    Loop,
}

#[derive(Clone, Debug, PartialEq, Eq)]
pub struct Options {
    pub plan: PathBuf,
    pub dir: PathBuf,
    /// Where SCTP is listened for, by what there is, and by the kernel's alone.
    pub sctp: Vec<SocketAddr>,
    pub kernel: Vec<SocketAddr>,
    pub udp: Option<u16>,
    pub dead: Duration,
    pub links: Links,
    pub recovery: Duration,
    pub queue: usize,
    pub stall: Duration,
    pub beat: Option<Duration>,
    pub beat_misses: u32,
    pub group: Option<u32>,
    pub log: Level,
    pub log_file: Option<PathBuf>,
    pub journal: Option<PathBuf>,
    pub capture: bool,
}

impl Options {
    fn new() -> Options {
        Options {
            plan: PathBuf::new(),
            dir: "/run/m2ua-gateway".into(),
            sctp: Vec::new(),
            kernel: Vec::new(),
            udp: None,
            dead: Duration::from_millis(5000),
            links: Links::Socket,
            recovery: Duration::from_millis(2000),
            queue: 1 << 20,
            stall: Duration::from_millis(5000),
            beat: Some(Duration::from_millis(2000)),
            beat_misses: 3,
            group: None,
            log: Level::Changes,
            log_file: None,
            journal: None,
            capture: false,
        }
    }

    /// The options that words say, or what is wrong with them.
    pub fn parse(words: &[String]) -> Result<Options, String> {
        let mut options = Options::new();
        let mut plans = Vec::new();
        let mut rest = words.iter().map(String::as_str);
        while let Some(word) = rest.next() {
            match split(word) {
                ("--capture", None) => options.capture = true,
                (option, given) if option.starts_with('-') => {
                    let value = given.or_else(|| rest.next());
                    options.set(option, value.ok_or(format!("{option} takes a value"))?)?;
                }
                _ => plans.push(word),
            }
        }
        match plans[..] {
            [plan] => options.plan = plan.into(),
            [] => return Err("the plan is missing".into()),
            [_, more, ..] => return Err(format!("one plan, and '{more}' follows it")),
        }
        if options.udp.is_some() && options.sctp.is_empty() {
            return Err("--udp says how SCTP is sent: --sctp is missing".into());
        }
        Ok(options)
    }

    fn set(&mut self, option: &str, value: &str) -> Result<(), String> {
        match option {
            "--dir" => self.dir = value.into(),
            "--sctp" => self.sctp = addresses(option, value, m2ua::sys::PORT)?,
            "--sctp-kernel" => self.kernel = addresses(option, value, m2ua::sys::PORT)?,
            "--udp" => self.udp = Some(number(option, value, 1, u16::MAX)?),
            "--dead" => self.dead = millis(option, value)?,
            "--links" => {
                self.links = one_of(
                    option,
                    value,
                    &[("socket", Links::Socket), ("loop", Links::Loop)],
                )?
            }
            "--recovery" => self.recovery = millis(option, value)?,
            "--queue" => self.queue = number(option, value, 1 << 18, 1 << 30)?,
            "--stall" => self.stall = millis(option, value)?,
            "--log" => {
                self.log = one_of(
                    option,
                    value,
                    &[
                        ("all", Level::All),
                        ("changes", Level::Changes),
                        ("faults", Level::Faults),
                    ],
                )?
            }
            "--beat" if value == "0" => self.beat = None,
            "--beat" => self.beat = Some(millis(option, value)?),
            "--beat-misses" => self.beat_misses = number(option, value, 1, 1000)?,
            "--group" => {
                let found = crate::os::group(value);
                self.group = Some(found.ok_or(format!("--group: there is no group '{value}'"))?)
            }
            "--log-file" => self.log_file = Some(value.into()),
            "--journal" => self.journal = Some(value.into()),
            _ => return Err(format!("no such option: {option}")),
        }
        Ok(())
    }
}

/// An option, and the value that stands behind its '='.
pub fn split(word: &str) -> (&str, Option<&str>) {
    match word.split_once('=') {
        Some((option, value)) if option.starts_with("--") => (option, Some(value)),
        _ => (word, None),
    }
}

/// What is printed where a word asks for the usage or the version.
pub fn asked(words: &[String], program: &str, usage: &str) -> Option<String> {
    words.iter().find_map(|word| match word.as_str() {
        "-h" | "--help" => Some(usage.into()),
        "-V" | "--version" => Some(format!("{program} {}", env!("CARGO_PKG_VERSION"))),
        _ => None,
    })
}

fn one_of<T: Copy>(option: &str, value: &str, known: &[(&str, T)]) -> Result<T, String> {
    let names: Vec<&str> = known.iter().map(|(name, _)| *name).collect();
    let found = known.iter().find(|(name, _)| *name == value);
    found.map(|(_, is)| *is).ok_or(format!(
        "{option}: '{value}' is none of {}",
        names.join(", ")
    ))
}

/// A number within limits.
pub fn number<T: FromStr + PartialOrd + std::fmt::Display>(
    option: &str,
    value: &str,
    least: T,
    most: T,
) -> Result<T, String> {
    match value.parse() {
        Ok(number) if number >= least && number <= most => Ok(number),
        _ => Err(format!(
            "{option}: '{value}' is no number from {least} to {most}"
        )),
    }
}

fn millis(option: &str, value: &str) -> Result<Duration, String> {
    number(option, value, 10, 3_600_000).map(Duration::from_millis)
}

/// Addresses with commas between them. They have one port: the one that is said, or the usual one.
pub fn addresses(option: &str, value: &str, usual: u16) -> Result<Vec<SocketAddr>, String> {
    let parsed = |word: &str| address(word).ok_or(format!("{option}: '{word}' is no address"));
    let all: Vec<(IpAddr, Option<u16>)> = value.split(',').map(parsed).collect::<Result<_, _>>()?;
    let port = all.iter().find_map(|(_, port)| *port).unwrap_or(usual);
    if all
        .iter()
        .any(|(_, own)| own.is_some_and(|own| own != port))
    {
        return Err(format!(
            "{option}: '{value}' has two ports, and an association has one"
        ));
    }
    Ok(all
        .iter()
        .map(|(ip, _)| SocketAddr::new(*ip, port))
        .collect())
}

/// An address, and its port where that is said.
fn address(word: &str) -> Option<(IpAddr, Option<u16>)> {
    let bare = word
        .strip_prefix('[')
        .and_then(|w| w.strip_suffix(']'))
        .unwrap_or(word);
    match word.parse::<SocketAddr>() {
        Ok(at) => Some((at.ip(), Some(at.port()))),
        Err(_) => Some((bare.parse().ok()?, None)),
    }
}

#[cfg(test)]
mod tests {
    use super::*;

    fn parsed(words: &str) -> Result<Options, String> {
        Options::parse(
            &words
                .split_whitespace()
                .map(String::from)
                .collect::<Vec<_>>(),
        )
    }

    #[test]
    fn right_ones() {
        let o = parsed("--sctp 127.0.0.1 --udp 9899 --dead 800 --links loop --queue 262144 --log changes --capture plan.txt --dir d").unwrap();
        assert_eq!(
            (o.sctp.clone(), o.udp, o.links),
            (
                vec!["127.0.0.1:2904".parse().unwrap()],
                Some(9899),
                Links::Loop
            )
        );
        assert_eq!(
            (o.dead, o.queue, o.log, o.capture),
            (Duration::from_millis(800), 262144, Level::Changes, true)
        );
        assert_eq!(
            parsed("--sctp [::1]:7 p").unwrap().sctp,
            ["[::1]:7".parse().unwrap()]
        );
        assert_eq!(
            parsed("--sctp ::1 p").unwrap().sctp,
            ["[::1]:2904".parse().unwrap()]
        );
        assert_eq!(
            parsed("--sctp-kernel 10.0.0.1,::1,10.0.1.1:7 p")
                .unwrap()
                .kernel,
            ["10.0.0.1:7", "[::1]:7", "10.0.1.1:7"].map(|at| at.parse().unwrap())
        );
    }

    #[test]
    fn values_behind_an_equals_sign_and_questions() {
        let o = parsed("--dir=a=b --dead=700 p").unwrap();
        assert_eq!((o.dir, o.dead), ("a=b".into(), Duration::from_millis(700)));
        assert_eq!(o.log, Level::Changes);
        let words = |word: &str| asked(&["x".into(), word.into()], "m2ua", "usage");
        assert_eq!(words("-h"), Some("usage".into()));
        assert_eq!(
            words("-V"),
            Some(format!("m2ua {}", env!("CARGO_PKG_VERSION")))
        );
        assert_eq!((words("--version").is_some(), words("-v")), (true, None));
    }

    #[test]
    fn heartbeats() {
        let said = |words| parsed(words).map(|o| (o.beat, o.beat_misses));
        let two_seconds = Some(Duration::from_secs(2));
        assert_eq!(said("p"), Ok((two_seconds, 3)));
        assert_eq!(said("--beat 0 p"), Ok((None, 3)));
        assert_eq!(said("--beat 2000 --beat-misses 5 p"), Ok((two_seconds, 5)));
        assert!(said("--beat 5 p").is_err() && said("--beat-misses 0 p").is_err());
    }

    #[test]
    fn groups() {
        assert_eq!(parsed("--group root p").unwrap().group, Some(0));
        assert_eq!(parsed("--group 77 p").unwrap().group, Some(77));
        assert_eq!(
            parsed("--group no-such-one p").unwrap_err(),
            "--group: there is no group 'no-such-one'"
        );
    }

    #[test]
    fn wrong_ones() {
        for (words, why) in [
            ("", "the plan is missing"),
            ("a b", "one plan, and 'b' follows it"),
            (
                "--udp 9 p",
                "--udp says how SCTP is sent: --sctp is missing",
            ),
            ("--dead", "--dead takes a value"),
            ("--dead 9 p", "--dead: '9' is no number from 10 to 3600000"),
            (
                "--queue 65536 p",
                "--queue: '65536' is no number from 262144 to 1073741824",
            ),
            ("--links up p", "--links: 'up' is none of socket, loop"),
            ("--sctp here p", "--sctp: 'here' is no address"),
            ("--sctp-kernel ::1, p", "--sctp-kernel: '' is no address"),
            (
                "--sctp 10.0.0.1:7,10.0.0.2:8 p",
                "--sctp: '10.0.0.1:7,10.0.0.2:8' has two ports, and an association has one",
            ),
            ("--fast x p", "no such option: --fast"),
            ("--capture=yes p", "no such option: --capture"),
            ("-q x p", "no such option: -q"),
        ] {
            assert_eq!(parsed(words).unwrap_err(), why);
        }
    }
}
