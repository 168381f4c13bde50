//! The state as text: for whoever asks with a signal, and for tests, which compare it with what `replay`
//! says.
use crate::engine::Engine;
use crate::log::Stamp;
use crate::outside::Outside;
use crate::peer::Peer;
use m2ua::{Gateway, Hold};
use m2ua_plan::Plan;
use m2ua_trace::script::Hex;
use std::fmt::Write;
use std::time::SystemTime;

/// The dump. It is made between two events, so all of it is of one state.
pub fn text(plan: &Plan, engine: &Engine, outside: &Outside, now: SystemTime) -> String {
    let (g, peers) = (&engine.state, &outside.peers);
    let mut out = String::new();
    let _ = writeln!(
        out,
        "# m2ua-gateway {}, {}",
        env!("CARGO_PKG_VERSION"),
        Stamp(now)
    );
    let _ = writeln!(out, "events {} refused {}", engine.events, engine.refused);
    let sound = Gateway::from_raw(*g.raw()).is_ok();
    let _ = writeln!(out, "sound {}", if sound { "yes" } else { "no" });
    for (p, peer) in peers.iter().enumerate() {
        let what = if p < g.asps() { "asp " } else { "" };
        let _ = writeln!(out, "{what}{}{}", peer.name, association(peer));
    }
    for (a, r#as) in plan.ases.iter().enumerate() {
        let state = g.as_state(a).map_or(String::new(), |s| s.to_string());
        let active: Vec<&str> = plan
            .asps
            .iter()
            .enumerate()
            .filter(|(p, _)| g.is_active(a, *p))
            .map(|(_, asp)| asp.name.as_str())
            .collect();
        let _ = writeln!(
            out,
            "as {} {} {state} active [{}] held {}",
            r#as.name,
            r#as.mode,
            active.join(" "),
            g.held(a).count()
        );
    }
    for (a, r#as) in plan.ases.iter().enumerate() {
        let _ = write!(out, "{}", unit_lines(a, &r#as.name, g, outside));
    }
    for (l, link) in plan.links.iter().enumerate() {
        let state = g.link_state(l).map_or(String::new(), |s| s.to_string());
        let _ = writeln!(
            out,
            "link {} as {} {state}",
            link.id, plan.ases[link.owner].name
        );
    }
    let _ = writeln!(out, "memory {}", memory());
    let _ = writeln!(out, "state {}", state_line(g));
    for line in units(g, &engine.hold) {
        let _ = writeln!(out, "{line}");
    }
    out
}

fn association(peer: &Peer) -> String {
    let (bytes, messages) = peer.waiting();
    let c = peer.counts_now();
    format!(
        " {} associations {} received {} ordered {} sent {} waiting {messages} ({bytes} bytes) dropped {} unread {} heartbeats {}",
        peer.association.as_ref().map_or("no association", |a| a.transport()),
        c.associations,
        c.received,
        c.ordered,
        c.sent,
        c.dropped,
        c.unread,
        peer.beats.sent
    )
}

/// What became of the units of an AS: of those of the link side, of all that were ordered for ASPs (of a
/// broadcast unit each), and of those for the link side.
fn unit_lines(a: usize, name: &str, g: &Gateway, outside: &Outside) -> String {
    let t = &outside.units.of[a];
    let (asps, links) = outside.peers.split_at(outside.link_side());
    let to = |what: &str, peers: &[Peer]| {
        let sum = |of: &dyn Fn(&Peer) -> u64| peers.iter().map(of).sum::<u64>();
        format!(
            "{what} {name} ordered {} sent {} waiting {} dropped {} unread {}\n",
            sum(&|p| p.units[a].ordered),
            sum(&|p| p.units_now(a).sent),
            sum(&|p| p.units_waiting(a)),
            sum(&|p| p.units[a].dropped),
            sum(&|p| p.units_now(a).unread)
        )
    };
    format!(
        "units {name} arrived {} passed-on {} held {} turned-away {} discarded {} no-recipient {}\n{}{}",
        t.arrived,
        t.passed_on,
        g.held(a).count(),
        t.turned_away,
        t.discarded,
        t.no_recipient,
        to("units-to-asps", asps),
        to("units-to-links", links)
    )
}

/// What the process has of memory now, and at most had.
fn memory() -> String {
    let status = std::fs::read_to_string("/proc/self/status").unwrap_or_default();
    let of = |name: &str| {
        status
            .lines()
            .find_map(|l| l.strip_prefix(name))
            .unwrap_or("?")
            .trim()
            .to_string()
    };
    format!("{} now, {} at most", of("VmRSS:"), of("VmHWM:"))
}

/// What `replay` answers to `state` (docs/SCRIPT.md).
pub fn state_line(g: &Gateway) -> String {
    let digits = |count: usize, of: &dyn Fn(usize) -> u8| {
        (0..count)
            .map(|i| char::from(b'0' + of(i)))
            .collect::<String>()
    };
    let mut pairs = Vec::new();
    for p in 0..g.asps() {
        pairs.extend(
            (0..g.ases())
                .filter(|&a| g.is_active(a, p))
                .map(|a| format!("{p}:{a}")),
        );
    }
    let mut held = Vec::new();
    for a in 0..g.ases() {
        held.extend(g.held(a).map(|u| {
            let correlation = u.correlation.map_or("-".into(), |id| id.to_string());
            format!("{a}:{}:{}:{}:{correlation}", u.tag, u.length, u.link)
        }));
    }
    format!(
        "up={} active={} waiting={} links={} held={}",
        digits(g.asps(), &|p| g.is_up(p).into()),
        pairs.join(","),
        digits(g.ases(), &|a| g.is_waiting(a).into()),
        digits(g.links(), &|l| g.raw().state[l]),
        held.join(",")
    )
}

/// The bytes of the units held, with the AS and the place of each.
fn units(g: &Gateway, hold: &Hold) -> Vec<String> {
    let unit = |a: usize, k: usize| {
        g.unit_bytes(hold, a, k)
            .map(|bytes| format!("unit {a} {k} {}", Hex(bytes)))
    };
    (0..g.ases())
        .flat_map(|a| (0..g.held(a).count()).filter_map(move |k| unit(a, k)))
        .collect()
}
