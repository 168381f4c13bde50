//! How often generated lines meet a sequence number, by who sends it, the kind
//! of its link and the answer; and kinds of links in plans. The counts are shown
//! by `cargo test --release --test retrievals -- --nocapture`.

#[path = "common/lines.rs"]
mod lines;

use lines::{each_line, unhex, LINES};
use second::generate::retrievals::BORDERS;
use second::generate::Kind;
use second::{is_sound, load, read, Gateway, Params};
use std::collections::{BTreeMap, BTreeSet};

/// What was met, how often, and with which of the borders.
#[derive(Default)]
struct Tally(BTreeMap<String, (u32, BTreeSet<u32>)>);

impl Tally {
    fn add(&mut self, what: impl Into<String>, number: u32) {
        let entry = self.0.entry(what.into()).or_default();
        entry.0 += 1;
        entry.1.extend(BORDERS.contains(&number).then_some(number));
    }

    /// Met so often at least, and with these borders.
    fn expect(&self, what: &str, least: u32, borders: &[u32]) {
        let Some((count, met)) = self.0.get(what) else {
            panic!("never: {what}");
        };
        assert!(*count >= least, "only {count}: {what}");
        let all = borders.iter().all(|number| met.contains(number));
        assert!(all, "only with {met:?}: {what}");
    }
}

/// Where a sequence number lies.
fn span(number: u32) -> &'static str {
    match number {
        0..=127 => "to 127",
        128..=4095 => "to 4,095",
        _ => "above",
    }
}

/// The sequence number of a 6.10 or 6.11, whether or not it reads.
fn number_in(m: &[u8]) -> Option<u32> {
    let retrieval = m.len() >= 8 && m[2] == 6 && (m[3] == 10 || m[3] == 11);
    let mut params = Params::new(m).filter(|param| param.tag == 0x307);
    let value = params.next().filter(|_| retrieval)?.value;
    Some(u32::from_be_bytes(value.try_into().ok()?))
}

fn add_read(line: &str, tally: &mut Tally) {
    let message = line.strip_prefix("read ").and_then(unhex);
    let message = message.unwrap_or_default();
    if let Some(number) = number_in(&message) {
        let code = read(&message).code;
        let what = format!("read 6.{}, {}: {code}", message[3], span(number));
        tally.add(what, number);
    }
}

fn add_write(line: &str, result: &str, tally: &mut Tally) {
    let words: Vec<&str> = line.split(' ').collect();
    if let ["write", "6", kind @ ("10" | "11"), _, list] = words[..] {
        let mut items = list.split(',').flat_map(|item| item.strip_prefix("775:"));
        if let Some(Ok(number)) = items.next().map(|n| u32::from_str_radix(n, 16)) {
            let code = result.split(' ').next().unwrap();
            let what = format!("write 6.{kind}, {}: {code}", span(number));
            tally.add(what, number);
        }
    }
}

fn add_plan(line: &str, result: &str, g: &Gateway, tally: &mut Tally) {
    let Some(mut file) = line.strip_prefix("plan ").and_then(unhex) else {
        return;
    };
    tally.add(format!("plan: {result}"), 0);
    for kind in &g.highspeed[..g.links as usize] {
        let what = ["plan: a plain link", "plan: a high-speed link"][*kind as usize];
        tally.add(what, 0);
    }
    if result != "202" {
        return;
    }
    // Whether it is the kinds alone.
    let start = u32::from_be_bytes(file[16..20].try_into().unwrap()) as usize;
    let mut wrong = false;
    for row in file[start..].chunks_exact_mut(8) {
        wrong |= row[4] > 0 || row[5] > 1;
        (row[4], row[5]) = (0, 0);
    }
    match load(&file).code {
        0 => tally.add("plan: 202 for a kind alone", 0),
        _ if wrong => tally.add("plan: 202 for a kind and more", 0),
        _ => {}
    }
}

/// Who sends a request, as the checks see it.
fn standing(g: &Gateway, p: usize, id: u32) -> &'static str {
    let owner = g.find_link(id).map(|link| g.owner[link] as usize);
    match owner {
        _ if p >= g.asps as usize => "an ASP beyond the plan",
        _ if g.up[p] == 0 => "an ASP that is down",
        None => "an ASP that is up",
        Some(a) if !g.is_member(a, p) => "no member",
        Some(a) if !g.is_active(a, p) => "an inactive member",
        Some(_) => "an active member",
    }
}

/// The answer to an event's line, in short.
fn said(result: &str) -> &str {
    let words: Vec<&str> = result.split(' ').collect();
    match words[..] {
        ["N", _, order] if order.contains(",0,0,17)") => "Error 17",
        ["N", _, order] if order.contains(",0,0,6)") => "Error 6",
        ["N", _, order] if order.starts_with("(255,1546,") => "to the link side",
        ["N", _, order, ..] if order.contains(",1547,") => "passed on",
        ["N", "0"] => "nobody to tell",
        ["N", ..] => "another Error",
        _ => result,
    }
}

fn add_event(line: &str, result: &str, g: &Gateway, tally: &mut Tally) {
    let words: Vec<&str> = line.split(' ').collect();
    let (how, words) = match words[0] {
        "reach" => ("reach ", &words[1..]),
        "bytes" => ("bytes ", &words[3..]),
        _ => ("", &words[..]),
    };
    let (asp, message) = match words {
        ["msg", p, _, m] => (Some(p.parse().unwrap()), unhex(m)),
        ["linkmsg", _, m] => (None, unhex(m)),
        _ => return,
    };
    let message = message.unwrap_or_default();
    let Some(number) = number_in(&message).filter(|_| is_sound(g)) else {
        return;
    };
    let reading = read(&message);
    let link = match g.find_link(reading.id) {
        _ if reading.code != 0 => "unreadable",
        None => "unknown",
        Some(link) => ["plain", "high-speed"][g.highspeed[link] as usize],
    };
    let who = match asp {
        _ if link == "unreadable" => "anybody",
        Some(p) => standing(g, p, reading.id),
        None => "the link side",
    };
    let said = match how {
        "reach " if result != "-" => "its owner",
        "bytes " => result.split(' ').next().unwrap(),
        _ => said(result),
    };
    let (kind, span) = (message[3], span(number));
    tally.add(
        format!("{how}6.{kind} of {who}, {link}, {span}: {said}"),
        number,
    );
}

/// What lines of a kind hold.
fn tally(kind: Kind) -> Tally {
    let mut tally = Tally::default();
    each_line(kind, |ran| {
        add_read(ran.line, &mut tally);
        add_write(ran.line, ran.result, &mut tally);
        add_plan(ran.line, ran.result, ran.after, &mut tally);
        add_event(ran.line, ran.result, ran.before, &mut tally);
    });
    println!("{LINES} lines of {kind:?}");
    for (what, (count, _)) in &tally.0 {
        println!("{count:8} {what}");
    }
    tally
}

/// Numbers that both kinds of link have, that a high-speed one alone has, and
/// that do not read.
const BOTH: &[u32] = BORDERS.split_at(4).0;
const HIGH: &[u32] = BORDERS.split_at(4).1.split_at(6).0;
const BEYOND: &[u32] = BORDERS.split_at(10).1;

/// The list that the generator picks from has both sides of each limit.
#[test]
fn borders() {
    for number in [0, 127, 128, 4095, 4096, u32::MAX] {
        assert!(BORDERS.contains(&number), "{number}");
    }
}

#[test]
fn in_messages() {
    for (kind, name) in [(Kind::Read, "read"), (Kind::Write, "write")] {
        let tally = tally(kind);
        for message in ["6.10", "6.11"] {
            tally.expect(&format!("{name} {message}, to 127: 0"), 250, BOTH);
            tally.expect(&format!("{name} {message}, to 4,095: 0"), 300, HIGH);
            tally.expect(&format!("{name} {message}, above: 17"), 200, BEYOND);
        }
    }
}

#[test]
fn in_plans() {
    let tally = tally(Kind::Plan);
    tally.expect("plan: 202 for a kind alone", 1000, &[]);
    tally.expect("plan: 202 for a kind and more", 500, &[]);
    let count = |what: &str| tally.0[what].0 as f64;
    let (plain, high) = (
        count("plan: a plain link"),
        count("plan: a high-speed link"),
    );
    let share = high / (plain + high);
    assert!((0.25..0.45).contains(&share), "{share}");
}

#[test]
fn in_events() {
    let tally = tally(Kind::Event);
    let expect = |what: &str, least, borders| tally.expect(what, least, borders);
    let active = "6.10 of an active member";
    expect(
        &format!("{active}, plain, to 127: to the link side"),
        250,
        BOTH,
    );
    expect(&format!("{active}, plain, to 4,095: Error 17"), 350, HIGH);
    expect(
        &format!("{active}, high-speed, to 127: to the link side"),
        200,
        BOTH,
    );
    expect(
        &format!("{active}, high-speed, to 4,095: to the link side"),
        300,
        HIGH,
    );
    expect("6.10 of anybody, unreadable, above: Error 17", 300, BEYOND);
    let side = "6.11 of the link side";
    expect(&format!("{side}, plain, to 127: passed on"), 150, BOTH);
    expect(&format!("{side}, plain, to 4,095: R 102"), 350, HIGH);
    expect(&format!("{side}, high-speed, to 127: passed on"), 150, BOTH);
    expect(
        &format!("{side}, high-speed, to 4,095: passed on"),
        200,
        HIGH,
    );
    expect("6.11 of anybody, unreadable, above: R 102", 200, BEYOND);
    // The other checks come before the number's.
    for kind in ["plain", "high-speed"] {
        for span in ["to 127", "to 4,095"] {
            let of = |who: &str| format!("6.10 of {who}, {kind}, {span}: ");
            expect(&(of("an ASP that is down") + "Error 6"), 30, &[]);
            expect(&(of("an inactive member") + "Error 6"), 80, &[]);
            expect(&(of("no member") + "another Error"), 80, &[]);
        }
    }
    expect(
        &format!("reach {active}, plain, to 4,095: its owner"),
        30,
        &[],
    );
    expect(&format!("reach {side}, plain, to 4,095: -"), 30, &[]);
    expect(
        &format!("reach {side}, high-speed, to 4,095: its owner"),
        30,
        &[],
    );
}

#[test]
fn in_bytes() {
    let tally = tally(Kind::Bytes);
    let expect = |what: &str, least| tally.expect(what, least, &[]);
    let active = "6.10 of an active member";
    expect(&format!("bytes {active}, plain, to 4,095: 0"), 50);
    expect(&format!("bytes {active}, plain, to 4,095: 103"), 20);
    expect(&format!("bytes {active}, high-speed, to 4,095: 104"), 80);
    let side = "6.11 of the link side";
    expect(&format!("bytes {side}, plain, to 4,095: 102"), 80);
    expect(&format!("bytes {side}, high-speed, to 4,095: 0"), 30);
}
