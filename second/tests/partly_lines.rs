//! What generated lines of the kind `partly` hold: lists that are good in part,
//! by what is bad in them, where it stands and what is answered. The counts are
//! shown by `cargo test --release --test partly_lines -- --nocapture`.

#[path = "common/lines.rs"]
mod lines;
#[path = "common/tally.rs"]
mod tally;

use lines::{each_line, unhex, Ran, LINES};
use second::generate::Kind;
use second::{is_sound, load, read, Gateway, Params};
use tally::Tally;

const MAX: u32 = u32::MAX;

/// Start, stop and whether it came as a range.
type Entry = (u32, u32, bool);

/// An Active or Inactive that names identifiers, as it meets a state.
struct List<'a> {
    g: &'a Gateway,
    p: usize,
    what: &'static str,
    mode: u32,
    entries: Vec<Entry>,
    /// Places of the links named, good and foreign.
    good: Vec<usize>,
    foreign: Vec<usize>,
    /// Entries with an identifier that no link has.
    holed: usize,
}

impl<'a> List<'a> {
    fn of(g: &'a Gateway, p: usize, m: &[u8]) -> Option<Self> {
        let r = read(m);
        if r.code != 0 || r.class != 4 || r.kind > 2 || r.ids == 0 {
            return None;
        }
        let mut entries = Vec::new();
        for param in Params::new(m) {
            let words = param.value.as_chunks::<4>().0.iter();
            let words: Vec<u32> = words.map(|word| u32::from_be_bytes(*word)).collect();
            match param.tag {
                1 => entries.extend(words.iter().map(|id| (*id, *id, false))),
                8 => entries.extend(words.chunks(2).map(|pair| (pair[0], pair[1], true))),
                _ => {}
            }
        }
        let is_named = |link: &usize| entries.iter().any(|entry| within(g, *link, entry));
        let named = (0..g.links as usize).filter(is_named);
        let serves = |link: &usize| g.is_member(g.owner[*link] as usize, p);
        let (good, foreign) = named.partition(serves);
        let holed = entries.iter().filter(|entry| {
            let links = (0..g.links as usize).filter(|link| within(g, *link, entry));
            links.count() as u64 != (entry.1 - entry.0) as u64 + 1
        });
        let holed = holed.count();
        Some(List {
            g,
            p,
            what: ["Active", "Inactive"][r.kind as usize - 1],
            mode: r.mode,
            good,
            foreign,
            holed,
            entries,
        })
    }

    fn is_bad(&self) -> bool {
        self.holed > 0 || !self.foreign.is_empty()
    }

    /// Whether an AS of these links has another mode than the one given.
    fn differs(&self, links: &[usize]) -> bool {
        let mode = |link: &usize| self.g.mode[self.g.owner[*link] as usize] as u32;
        self.mode != 0 && links.iter().any(|link| mode(link) != self.mode)
    }

    /// What the rules make of it.
    fn class(&self) -> String {
        let whole = self.g.wholelists[self.p] == 1;
        let class = match (self.is_bad(), self.good.is_empty()) {
            _ if self.g.up[self.p] == 0 => "down",
            (true, true) => "none good",
            (true, false) if whole => "whole list with a bad one",
            (true, false) if self.differs(&self.good) => "in part, another mode",
            (true, false) => "in part",
            (false, _) if self.differs(&self.good) => "all good, another mode",
            (false, _) if whole => "whole list, all good",
            (false, _) => "all good",
        };
        class.into()
    }
}

/// Whether a link's identifier is in an entry.
fn within(g: &Gateway, link: usize, (start, stop, _): &Entry) -> bool {
    (*start..=*stop).contains(&g.link_id[link])
}

/// What a list that succeeds in part has, and where the bad one stands.
fn add_shape(list: &List, bad: u32, tally: &mut Tally) {
    let mut add = |holds: bool, what: &str| tally.add_if(holds, &format!("in part, {what}"));
    let ranges = list.entries.iter().filter(|entry| entry.2).count();
    add(ranges == 0, "identifiers alone");
    add(ranges == list.entries.len(), "ranges alone");
    add(ranges > 0 && ranges < list.entries.len(), "both");
    let known = list.g.find_link(bad).is_some();
    add(known, "the first bad one is of another AS");
    add(!known, "the first bad one is missing");
    add(list.holed > 0 && !list.foreign.is_empty(), "of both sorts");
    add(list.holed + list.foreign.len() > 1, "several bad ones");
    add(list.holed + list.foreign.len() >= 20, "20 bad ones or more");
    add(list.good.len() == 1, "one good one");
    add(list.good.len() >= 100, "100 good ones or more");
    add(list.good.len() == 128, "128 good ones");
    let has_bad = |&(a, b, _): &Entry| a <= bad && bad <= b;
    let at = list.entries.iter().position(has_bad).unwrap();
    let behind = &list.entries[at + 1..];
    let mut good = list.good.iter();
    let any_behind = good.any(|link| behind.iter().any(|entry| within(list.g, *link, entry)));
    let where_it_is = match any_behind {
        _ if list.entries[0].0 == bad => "the bad one first",
        true => "the bad one between good ones",
        false => "the bad one behind all good ones",
    };
    add(true, where_it_is);
    add(list.mode != 0, "a mode is given");
    let differs = list.differs(&list.foreign);
    add(differs, "a mode that a bad one's AS has not");
}

/// What its ranges are like, and what it names more than once.
fn add_ranges(list: &List, tally: &mut Tally) {
    let g = list.g;
    let known = |id: u32| g.find_link(id).is_some();
    let holed = |a: u32, b: u32| known(a) && known(b) && (a..=b).take(300).any(|id| !known(id));
    let has = |links: &[usize], entry: &Entry| links.iter().any(|link| within(g, *link, entry));
    let mut any = |test: &dyn Fn(&Entry) -> bool, what: &str| {
        let holds = list.entries.iter().any(test);
        tally.add_if(holds, &format!("in part, {what}"));
    };
    any(&|(a, b, _)| (*a, *b) == (0, MAX), "a range of all numbers");
    any(&|(a, b, _)| b - a > 1 << 31, "a range of more than 2^31");
    any(&|(a, b, _)| holed(*a, *b), "a range with a hole inside");
    let two = |entry: &Entry| has(&list.good, entry) && has(&list.foreign, entry);
    any(&two, "a range over two ASes, one of them another's");
    let again = |links: &[usize]| {
        let times = |link: &usize| {
            let entries = list.entries.iter();
            entries.filter(|entry| within(g, *link, entry)).count()
        };
        links.iter().any(|link| times(link) > 1)
    };
    tally.add_if(again(&list.good), "in part, a good one more than once");
    tally.add_if(again(&list.foreign), "in part, a bad one more than once");
}

fn add_event(list: &List, ran: &Ran, tally: &mut Tally) {
    let class = list.class();
    let mut words = ran.result.split(' ').skip(2);
    let (first, second) = (words.next().unwrap_or(""), words.next().unwrap_or(""));
    let told = |order: &str, code: &str| order.contains(",0,") && order.ends_with(code);
    let answer = match () {
        _ if ran.result.starts_with('R') => "refused",
        _ if told(first, ",2)") => "Error 2",
        _ if first.ends_with(",0,0,5)") => "Error 5",
        _ if first.ends_with(",0,0,6)") => "Error 6",
        _ if second.ends_with(",2)") && second.contains(",0,") => "Ack, Error 2",
        _ => "Ack",
    };
    tally.add(format!("{}, {class}: {answer}", list.what));
    if answer == "Ack, Error 2" {
        let bad = second.split(',').nth(2).unwrap().parse().unwrap();
        add_shape(list, bad, tally);
        add_ranges(list, tally);
        let (g, after) = (ran.before, ran.after);
        let changed = (0..16)
            .filter(|a| g.actives(*a) != after.actives(*a))
            .count();
        tally.add_if(changed > 0, "in part, changes something");
        tally.add_if(changed > 1, "in part, changes several ASes");
        tally.add_if(g.held != after.held, "in part, units go out");
    }
    if class == "none good" && answer == "Error 2" {
        tally.add_if(list.mode != 0, "none good, a mode is given");
        tally.add_if(list.differs(&list.foreign), "none good, another mode");
    }
    if class == "whole list with a bad one" && answer == "Error 2" {
        tally.add_if(
            list.differs(&list.good),
            "whole list with a bad one, another mode",
        );
    }
}

/// Orders of a list as bytes: the Ack and the Error.
fn add_bytes(list: &List, words: &[&str], ran: &Ran, tally: &mut Tally) {
    let code = ran.result.split(' ').next().unwrap();
    let order = match words[1] {
        "0" => "the first order",
        "1" => "the second order",
        _ => return,
    };
    let mode = if list.mode != 0 {
        "with a mode"
    } else {
        "without"
    };
    let class = list.class();
    tally.add(format!("bytes, {class}, {mode}, {order}: {code}"));
}

fn add_plan(ran: &Ran, tally: &mut Tally) {
    let Some(mut file) = ran.line.strip_prefix("plan ").and_then(unhex) else {
        return;
    };
    tally.add(format!("plan: {}", ran.result));
    let g = ran.after;
    let whole = g.wholelists.iter().filter(|mark| **mark == 1).count();
    tally.add_if(whole > 0, "plan: some lists taken whole");
    tally.add_if(
        ran.result == "0" && whole == g.asps as usize,
        "plan: all lists taken whole",
    );
    if ran.result == "202" {
        // Whether it is the spares alone.
        let asps = u32::from_be_bytes(file[4..8].try_into().unwrap()) as usize;
        for row in file[24..24 + 8 * asps].chunks_exact_mut(8) {
            (row[6], row[7]) = (0, 0);
        }
        tally.add_if(load(&file).code == 0, "plan: 202 for a spare alone");
    }
}

fn add(ran: &Ran, tally: &mut Tally) {
    add_plan(ran, tally);
    let words: Vec<&str> = ran.line.split(' ').collect();
    let skip = match words[0] {
        "reach" => 1,
        "bytes" => 3,
        _ => 0,
    };
    let ["msg", p, _, m] = words[skip.min(words.len())..] else {
        return;
    };
    let (p, m) = (p.parse().unwrap_or(16), unhex(m).unwrap());
    if !is_sound(ran.before) || p >= ran.before.asps as usize {
        return;
    }
    let Some(list) = List::of(ran.before, p, &m) else {
        return;
    };
    match words[0] {
        "reach" => {
            let reached = if ran.result == "-" { "none" } else { "some" };
            tally.add(format!("reach, {}: {reached}", list.class()));
        }
        "bytes" => add_bytes(&list, &words, ran, tally),
        _ => add_event(&list, ran, tally),
    }
}

fn counted(kind: Kind) -> Tally {
    let mut tally = Tally::default();
    each_line(kind, |ran| add(&ran, &mut tally));
    tally.show(&format!("{LINES} lines of {kind:?}"));
    tally
}

#[test]
fn what_they_hold() {
    counted(Kind::Partly).expect(&EXPECTED);
}

/// Lines of other kinds meet such lists too.
#[test]
fn in_other_kinds() {
    counted(Kind::Event).expect(&IN_EVENTS);
    counted(Kind::Bytes).expect(&IN_BYTES);
    counted(Kind::Plan).expect(&[
        ("plan: 202 for a spare alone", 1300),
        ("plan: some lists taken whole", 7000),
    ]);
}

/// How often each must be met at least: about half as often as it is.
const EXPECTED: [(&str, u32); 59] = [
    ("Active, in part: Ack, Error 2", 3700),
    ("Inactive, in part: Ack, Error 2", 3200),
    ("Active, in part, another mode: Error 5", 900),
    ("Active, all good: Ack", 1300),
    ("Inactive, all good: Ack", 1300),
    ("Active, all good, another mode: Error 5", 450),
    ("Active, none good: Error 2", 800),
    ("Inactive, none good: Error 2", 800),
    ("Active, whole list with a bad one: Error 2", 1600),
    ("Inactive, whole list with a bad one: Error 2", 900),
    ("Active, whole list, all good: Ack", 350),
    ("Inactive, whole list, all good: Ack", 300),
    ("Active, down: Error 6", 40),
    ("Active, in part: refused", 240),
    ("in part, identifiers alone", 700),
    ("in part, ranges alone", 900),
    ("in part, both", 5000),
    ("in part, the first bad one is missing", 3400),
    ("in part, the first bad one is of another AS", 3400),
    ("in part, of both sorts", 2700),
    ("in part, several bad ones", 4000),
    ("in part, 20 bad ones or more", 1100),
    ("in part, one good one", 900),
    ("in part, 100 good ones or more", 290),
    ("in part, 128 good ones", 60),
    ("in part, the bad one first", 2400),
    ("in part, the bad one between good ones", 2900),
    ("in part, the bad one behind all good ones", 1500),
    ("in part, a range of all numbers", 1100),
    ("in part, a range of more than 2^31", 1900),
    ("in part, a range with a hole inside", 900),
    (
        "in part, a range over two ASes, one of them another's",
        2800,
    ),
    ("in part, a good one more than once", 5000),
    ("in part, a bad one more than once", 1700),
    ("in part, a mode is given", 1300),
    ("in part, a mode that a bad one's AS has not", 300),
    ("in part, changes something", 6500),
    ("in part, changes several ASes", 3500),
    ("in part, units go out", 260),
    ("none good, a mode is given", 420),
    ("none good, another mode", 140),
    ("whole list with a bad one, another mode", 310),
    ("reach, in part: some", 1800),
    ("reach, in part, another mode: some", 240),
    ("reach, none good: none", 450),
    ("reach, whole list with a bad one: some", 700),
    ("reach, down: some", 12),
    ("bytes, in part, with a mode, the first order: 0", 200),
    ("bytes, in part, with a mode, the first order: 103", 100),
    ("bytes, in part, without, the first order: 0", 900),
    ("bytes, in part, without, the first order: 103", 450),
    ("bytes, in part, without, the second order: 0", 900),
    (
        "bytes, in part, another mode, with a mode, the first order: 0",
        150,
    ),
    (
        "bytes, in part, another mode, with a mode, the second order: 104",
        80,
    ),
    (
        "bytes, whole list with a bad one, without, the first order: 0",
        240,
    ),
    (
        "bytes, whole list with a bad one, without, the second order: 104",
        120,
    ),
    ("plan: some lists taken whole", 200),
    ("plan: all lists taken whole", 5),
    ("plan: 202 for a spare alone", 7),
];

const IN_EVENTS: [(&str, u32); 9] = [
    ("Active, in part: Ack, Error 2", 430),
    ("Inactive, in part: Ack, Error 2", 110),
    ("Active, in part, another mode: Error 5", 150),
    ("Active, whole list with a bad one: Error 2", 100),
    ("Inactive, whole list with a bad one: Error 2", 25),
    ("Active, none good: Error 2", 75),
    ("in part, units go out", 85),
    ("reach, in part: some", 60),
    ("plan: some lists taken whole", 55),
];

const IN_BYTES: [(&str, u32); 4] = [
    ("bytes, in part, with a mode, the first order: 0", 45),
    ("bytes, in part, without, the first order: 0", 90),
    ("bytes, in part, without, the second order: 0", 90),
    (
        "bytes, whole list with a bad one, without, the first order: 0",
        19,
    ),
];
