//! What generated lines of the kind `ranges` hold: shapes of ranges, answers and
//! plans. The counts are shown by
//! `cargo test --release --test range_lines -- --nocapture`.

#[path = "common/lines.rs"]
mod lines;
#[path = "common/tally.rs"]
mod tally;

use lines::{each_line, unhex, Ran, LINES};
use second::generate::Kind;
use second::{is_sound, read, Gateway, Params};
use tally::Tally;

const MAX: u32 = u32::MAX;

/// What a message names: single identifiers, ranges, and how many parameters
/// there are of either.
#[derive(Default)]
struct Named {
    ids: Vec<u32>,
    ranges: Vec<(u32, u32)>,
    params: [usize; 2],
}

fn named(m: &[u8]) -> Named {
    let mut named = Named::default();
    for param in Params::new(m) {
        let words = param.value.as_chunks::<4>().0.iter();
        let words: Vec<u32> = words.map(|word| u32::from_be_bytes(*word)).collect();
        match param.tag {
            1 => named.ids.extend(&words),
            8 => named.ranges.extend(words.chunks(2).map(|p| (p[0], p[1]))),
            _ => continue,
        }
        named.params[(param.tag == 8) as usize] += 1;
    }
    named
}

/// Shapes of an accepted message.
fn add_shapes(named: &Named, g: &Gateway, tally: &mut Tally) {
    let Named {
        ids,
        ranges,
        params,
    } = named;
    let mut add = |holds: bool, what: &str| tally.add_if(holds, &format!("accepted, {what}"));
    let any = |test: &dyn Fn(u32, u32) -> bool| ranges.iter().any(|(a, b)| test(*a, *b));
    let two = |test: &dyn Fn((u32, u32), (u32, u32)) -> bool| {
        ranges.windows(2).any(|pair| test(pair[0], pair[1]))
    };
    add(ranges.len() == 254, "254 ranges");
    add(ranges.len() >= 20, "20 ranges or more");
    add(ranges.len() == 1 && ids.is_empty(), "a single range");
    add(ids.len() == 509, "509 identifiers");
    add(ids.len() >= 20, "20 identifiers or more");
    let in_order = ids.windows(2).all(|pair| pair[0] <= pair[1]);
    add(ids.len() > 2 && in_order, "a list in order");
    add(ids.len() > 2 && !in_order, "a list in no order");
    add(!ids.is_empty() && !ranges.is_empty(), "lists and ranges");
    add(params[1] >= 10, "10 parameters of ranges or more");
    add(params[1] == 170, "170 parameters of ranges");
    add(any(&|a, b| b - a >= 63), "a range of 64 links or more");
    add(any(&|a, b| b - a == 127), "a range of 128 links");
    add(any(&|a, b| a == b), "a range of one link");
    add(any(&|a, _| a == 0), "a range from 0");
    add(any(&|_, b| b == MAX), "a range to 4,294,967,295");
    let whole = |a, b| {
        let ids = g.link_ids();
        (a, b) == (ids[0], ids[ids.len() - 1]) && a < b
    };
    add(any(&whole), "a range of all links");
    add(two(&|x, y| x == y && x.0 < x.1), "repeated");
    let inside = |x: (u32, u32), y: (u32, u32)| x.0 < y.0 && y.1 < x.1;
    add(two(&|x, y| inside(x, y) || inside(y, x)), "nested");
    let over = |x: (u32, u32), y: (u32, u32)| x.0 < y.0 && y.0 <= x.1 && x.1 < y.1;
    add(two(&|x, y| over(x, y) || over(y, x)), "overlapping");
    let next = |x: (u32, u32), y: (u32, u32)| x.1 != MAX && x.1 + 1 == y.0;
    add(two(&|x, y| next(x, y) || next(y, x)), "adjacent");
}

/// Where the refused identifier lies in its range, and why it is refused.
fn add_refused(named: &Named, g: &Gateway, id: u32, tally: &mut Tally) {
    let why = match g.find_link(id) {
        Some(_) => "of another AS",
        None => "missing",
    };
    // The range that was refused is the first that has it, if no single one is.
    let at = named.ranges.iter().position(|(a, b)| *a <= id && id <= *b);
    let Some(at) = at.filter(|_| !named.ids.contains(&id)) else {
        return tally.add(format!("refused, a single one or a mixture, {why}"));
    };
    let (start, stop) = named.ranges[at];
    let place = match id {
        _ if start == stop => "alone",
        _ if id == start => "first",
        _ if id == stop => "last",
        _ => "inside",
    };
    tally.add(format!("refused, {place}, {why}"));
    tally.add_if((start, stop) == (0, MAX), "refused, a range of all numbers");
    tally.add_if(at > 0, "refused, not the first range");
    tally.add_if(at >= 20, "refused, behind 20 ranges");
    let unknown = (start..=stop)
        .take(200)
        .find(|id| g.find_link(*id).is_none());
    let both = why != "missing" && unknown.is_some();
    tally.add_if(both, "refused, of another AS before a missing one");
}

fn add_plan(g: &Gateway, tally: &mut Tally) {
    let ids = g.link_ids();
    tally.add("plan");
    if ids.is_empty() {
        return;
    }
    let gaps = ids.windows(2).filter(|pair| pair[0] + 1 < pair[1]);
    let gaps: Vec<u32> = gaps.map(|pair| pair[1] - pair[0]).collect();
    tally.add_if(ids.len() == 128, "plan of 128 links");
    tally.add_if(ids.len() <= 8, "plan of 8 links or fewer");
    tally.add_if(gaps.is_empty() && ids.len() > 1, "plan of one run");
    tally.add_if(gaps.contains(&2), "plan with one identifier missing");
    tally.add_if(ids[0] == 0, "plan with identifier 0");
    tally.add_if(ids[ids.len() - 1] == MAX, "plan with 4,294,967,295");
    let owner = |link: usize| g.owner[link];
    let last = ids.len() - 1;
    let alone = last > 0 && (0..last).all(|link| owner(link) != owner(last));
    tally.add_if(alone, "plan whose last link is its AS's only one");
}

fn add_event(ran: &Ran, tally: &mut Tally) {
    let (g, after, result) = (ran.before, ran.after, ran.result);
    let words: Vec<&str> = ran.line.split(' ').collect();
    let (reach, words) = match words[0] {
        "reach" => (true, &words[1..]),
        _ => (false, &words[..]),
    };
    let ["msg", _, _, m] = words else {
        return;
    };
    let m = unhex(m).unwrap();
    let r = read(&m);
    if !is_sound(g) || r.code != 0 || r.class != 4 || r.kind > 2 || r.ids == 0 {
        return;
    }
    let what = ["Active", "Inactive"][r.kind as usize - 1];
    let named = named(&m);
    if reach {
        let known = if result == "-" { "none" } else { "some" };
        tally.add(format!("reach of {what}: {known}"));
        return tally.add_if(result.contains(','), "reach of several ASes");
    }
    let mut orders = result.split(' ').skip(2).map(order);
    match (orders.next(), orders.next()) {
        (Some([_, 0, id, 2]), _) => {
            tally.add(format!("{what}: Error 2"));
            add_refused(&named, g, id, tally);
        }
        (Some([_, 0, 0, code]), _) => tally.add(format!("{what}: Error {code}")),
        (Some([_, 0x403 | 0x404, ..]), Some([_, 0, id, 2])) => {
            tally.add(format!("{what}: in part"));
            add_refused(&named, g, id, tally);
        }
        (Some([_, 0x403 | 0x404, ..]), _) => {
            tally.add(format!("{what}: accepted"));
            let changed = (0..16).filter(|a| g.actives(*a) != after.actives(*a));
            let changed = changed.count();
            tally.add_if(changed > 0, "accepted, changes something");
            tally.add_if(changed > 1, "accepted, changes several ASes");
            add_shapes(&named, g, tally);
        }
        _ => tally.add(format!("{what}: {result}")),
    }
}

/// The words of an order.
fn order(text: &str) -> [u32; 4] {
    let words = text.trim_matches(['(', ')']).split(',');
    let words: Vec<u32> = words.flat_map(str::parse).collect();
    words.try_into().unwrap()
}

#[test]
fn what_they_hold() {
    let mut tally = Tally::default();
    each_line(Kind::Ranges, |ran| {
        if ran.line.starts_with("plan ") && ran.result == "0" {
            add_plan(ran.after, &mut tally);
        }
        add_event(&ran, &mut tally);
    });
    tally.show(&format!("{LINES} lines of ranges"));
    tally.expect(&EXPECTED);
}

/// How often each must be met at least: about half as often as it is.
const EXPECTED: [(&str, u32); 56] = [
    ("Active: accepted", 15000),
    ("Inactive: accepted", 12000),
    ("Active: in part", 2400),
    ("Active: Error 2", 700),
    ("Inactive: in part", 1900),
    ("Inactive: Error 2", 600),
    ("Active: Error 5", 1000),
    ("accepted, changes something", 25000),
    ("accepted, changes several ASes", 12000),
    ("accepted, 254 ranges", 100),
    ("accepted, 20 ranges or more", 2000),
    ("accepted, a single range", 2000),
    ("accepted, 509 identifiers", 30),
    ("accepted, 20 identifiers or more", 1500),
    ("accepted, a list in order", 1500),
    ("accepted, a list in no order", 5000),
    ("accepted, lists and ranges", 4000),
    ("accepted, 10 parameters of ranges or more", 1000),
    ("accepted, 170 parameters of ranges", 50),
    ("accepted, a range of 64 links or more", 400),
    ("accepted, a range of 128 links", 100),
    ("accepted, a range of one link", 10000),
    ("accepted, a range of all links", 1000),
    ("accepted, a range from 0", 2000),
    ("accepted, a range to 4,294,967,295", 1500),
    ("accepted, repeated", 3000),
    ("accepted, nested", 2000),
    ("accepted, overlapping", 1500),
    ("accepted, adjacent", 2000),
    ("refused, first, missing", 1500),
    ("refused, inside, missing", 1000),
    ("refused, last, missing", 300),
    ("refused, alone, missing", 500),
    ("refused, first, of another AS", 800),
    ("refused, inside, of another AS", 300),
    ("refused, last, of another AS", 80),
    ("refused, alone, of another AS", 600),
    ("refused, a single one or a mixture, missing", 600),
    ("refused, a single one or a mixture, of another AS", 400),
    ("refused, a range of all numbers", 600),
    ("refused, not the first range", 4000),
    ("refused, behind 20 ranges", 300),
    ("refused, of another AS before a missing one", 500),
    ("reach of Active: some", 4000),
    ("reach of Active: none", 200),
    ("reach of Inactive: some", 3000),
    ("reach of Inactive: none", 150),
    ("reach of several ASes", 4000),
    ("plan", 500),
    ("plan of 128 links", 120),
    ("plan of 8 links or fewer", 120),
    ("plan of one run", 140),
    ("plan with one identifier missing", 250),
    ("plan with identifier 0", 150),
    ("plan with 4,294,967,295", 150),
    ("plan whose last link is its AS's only one", 90),
];
