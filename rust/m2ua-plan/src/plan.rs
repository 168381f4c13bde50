//! A plan: what text and file both say.
use m2ua::{Gateway, TrafficMode};
use std::fmt;
use std::net::{IpAddr, SocketAddr};

/// An ASP row. (Document 02 gives it more: an owner, text identifiers.)
#[derive(Clone, Debug, PartialEq, Eq)]
pub struct Asp {
    pub name: String,
    pub id: u32,
    /// Identifiers that it lists are taken all or none; else part of a list may succeed.
    pub whole_lists: bool,
    /// Where its SCTP association comes from: each address that it may have. A plan file has no place for it:
    /// it is for the host that reads the text, such as m2ua-gateway.
    pub from: Vec<Origin>,
}

/// An address, and a port where that matters.
#[derive(Clone, Copy, Debug, PartialEq, Eq)]
pub struct Origin {
    pub ip: IpAddr,
    pub port: Option<u16>,
}

impl Origin {
    /// ADDRESS or ADDRESS:PORT, an IPv6 address with a port in brackets.
    pub fn parse(word: &str) -> Option<Origin> {
        match word.parse::<SocketAddr>() {
            Ok(at) if at.port() != 0 => Some(Origin {
                ip: at.ip(),
                port: Some(at.port()),
            }),
            Ok(_) => None,
            Err(_) => Some(Origin {
                ip: word.parse().ok()?,
                port: None,
            }),
        }
    }

    /// Whether a peer's address is this one.
    pub fn is(&self, peer: SocketAddr) -> bool {
        self.ip == peer.ip() && self.port.is_none_or(|port| port == peer.port())
    }

    /// Whether a peer could be both.
    pub fn meets(&self, other: &Origin) -> bool {
        self.ip == other.ip
            && (self.port == other.port || self.port.is_none() || other.port.is_none())
    }
}

impl fmt::Display for Origin {
    fn fmt(&self, f: &mut fmt::Formatter<'_>) -> fmt::Result {
        match self.port {
            Some(port) => write!(f, "{}", SocketAddr::new(self.ip, port)),
            None => write!(f, "{}", self.ip),
        }
    }
}

/// An AS row. (Document 02: a sharing rule, an owner.)
#[derive(Clone, Debug, PartialEq, Eq)]
pub struct As {
    pub name: String,
    pub mode: TrafficMode,
    /// Numbers of ASPs, ascending.
    pub members: Vec<usize>,
}

/// A link row. (Document 02: fill numbers, a name.)
#[derive(Clone, Copy, Debug, PartialEq, Eq)]
pub struct Link {
    pub id: u32,
    /// The number of its AS.
    pub owner: usize,
    /// Its kind: a high-speed link, or a plain one.
    pub high_speed: bool,
}

impl Link {
    /// The second word of its row (Rule 4.2): the kind in the high half, the owner in the low one.
    fn word(&self) -> u32 {
        u32::from(self.high_speed) << 16 | self.owner as u32
    }
}

/// A plan: rows in their order; links ascend.
#[derive(Clone, Debug, PartialEq, Eq, Default)]
pub struct Plan {
    pub asps: Vec<Asp>,
    pub ases: Vec<As>,
    pub links: Vec<Link>,
}

impl Plan {
    /// The plan of a state that was loaded, with names made up from the numbers.
    pub fn of(g: &Gateway) -> Plan {
        Plan {
            asps: (0..g.asps())
                .map(|p| Asp {
                    name: format!("asp{p}"),
                    id: g.asp_id(p).unwrap_or_default(),
                    whole_lists: g.takes_whole_lists(p),
                    from: Vec::new(),
                })
                .collect(),
            ases: (0..g.ases())
                .map(|a| As {
                    name: format!("as{a}"),
                    mode: g.mode(a).unwrap_or(TrafficMode::Override),
                    members: (0..g.asps()).filter(|&p| g.is_member(a, p)).collect(),
                })
                .collect(),
            links: (0..g.links())
                .map(|l| Link {
                    id: g.interface_id(l).unwrap_or_default(),
                    owner: g.owner(l).unwrap_or_default(),
                    high_speed: g.is_high_speed(l),
                })
                .collect(),
        }
    }

    /// The same rows, whatever the names.
    pub fn is_like(&self, other: &Plan) -> bool {
        let asps = |p: &Plan| {
            p.asps
                .iter()
                .map(|a| (a.id, a.whole_lists))
                .collect::<Vec<_>>()
        };
        let ases = |p: &Plan| {
            p.ases
                .iter()
                .map(|a| (a.mode, a.members.clone()))
                .collect::<Vec<_>>()
        };
        asps(self) == asps(other) && ases(self) == ases(other) && self.links == other.links
    }

    /// The plan file (Rules 4.1 to 4.3): contents, ASP rows, AS rows, link rows.
    pub fn encode(&self) -> Vec<u8> {
        let bodies = [
            self.asps
                .iter()
                .enumerate()
                .flat_map(|(p, asp)| [asp.id, self.mask(p) << 16 | u32::from(asp.whole_lists)])
                .collect::<Vec<u32>>(),
            self.ases.iter().map(|r#as| r#as.mode.number()).collect(),
            self.links
                .iter()
                .flat_map(|link| [link.id, link.word()])
                .collect(),
        ];
        let counts = [self.asps.len(), self.ases.len(), self.links.len()];
        let mut at = 8 * bodies.len();
        let mut words = Vec::new();
        for (body, count) in bodies.iter().zip(counts) {
            words.extend([at as u32, count as u32]);
            at += 4 * body.len();
        }
        words.extend(bodies.concat());
        words.iter().flat_map(|w| w.to_be_bytes()).collect()
    }

    /// The ASes of an ASP as bits.
    fn mask(&self, asp: usize) -> u32 {
        let of = |(a, r#as): (usize, &As)| u32::from(r#as.members.contains(&asp)) << a;
        self.ases.iter().enumerate().map(of).sum()
    }
}

impl fmt::Display for Plan {
    /// Canonical text: rows in their order, links of one AS and one kind that follow one another as a range.
    fn fmt(&self, f: &mut fmt::Formatter<'_>) -> fmt::Result {
        for asp in &self.asps {
            let lists = if asp.whole_lists { " whole-lists" } else { "" };
            write!(f, "asp {} id {}{lists}", asp.name, asp.id)?;
            if !asp.from.is_empty() {
                f.write_str(" from")?;
                asp.from.iter().try_for_each(|from| write!(f, " {from}"))?;
            }
            writeln!(f)?;
        }
        for r#as in &self.ases {
            write!(f, "as {} mode {}", r#as.name, r#as.mode)?;
            if !r#as.members.is_empty() {
                f.write_str(" members")?;
                r#as.members
                    .iter()
                    .try_for_each(|&p| write!(f, " {}", self.asps[p].name))?;
            }
            writeln!(f)?;
        }
        let mut rest = &self.links[..];
        while let Some(first) = rest.first() {
            let run = rest
                .iter()
                .zip(first.id..=u32::MAX)
                .take_while(|(l, id)| l.id == *id && l.word() == first.word())
                .count();
            write!(f, "link {}", first.id)?;
            if run > 1 {
                write!(f, "-{}", rest[run - 1].id)?;
            }
            write!(f, " as {}", self.ases[first.owner].name)?;
            if first.high_speed {
                f.write_str(" high-speed")?;
            }
            writeln!(f)?;
            rest = &rest[run..];
        }
        Ok(())
    }
}
