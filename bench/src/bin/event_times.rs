//! Times events of the proved library against the hand-written second program, both in this one run, on the
//! state where it lies. Each call is first checked to give the same on both sides: refusal, count, state, the
//! whole list of words and the whole hold. Where an event changes the state and none of the same line changes
//! it back, both sides also put it back, which takes some 40 ns: those lines have a star.
use bench::holds::{full_hold, held_on_plan_s};
use bench::lines::What;
use bench::messages::{
    active_of, active_of_ranges, bytes, data, message, missing_in_gaps, number, over_gaps,
    retrieval, sample_m, tenth_missing,
};
use bench::plans::{full_plan, full_plan_of, plan_s, plan_s_with, with_asp_0, HIGH_SPEED};
use bench::timing;
use bench::turns::{call, Turns};
use second::events::LIST_WORDS as ROOM;
use second::{load, Done, Event, Gateway, HOLD_BYTES};
use std::hint::black_box;

// The hand-written baseline, not compiled into the loop that calls it.
#[inline(never)]
fn hand(state: &mut Gateway, event: Event, hold: &mut [u8], words: &mut [u32]) -> Done {
    state.run(event, hold, words)
}

/// Events in turn; all must give so many orders.
fn turns(name: &str, calls: &[(Gateway, bench::lines::Call)], orders: u32) {
    let (mut x, mut y) = ([0xaa; ROOM], [0xaa; ROOM]);
    let (mut v, mut w) = (vec![0xaa; HOLD_BYTES], vec![0xaa; HOLD_BYTES]);
    for (state, call) in calls {
        let (mut g, mut h) = (*state, *state);
        let a = call.proved(&mut g, &mut v, &mut x);
        let b = hand(&mut h, call.event(), &mut w, &mut y);
        assert_eq!((a.refusal, a.count), (b.code, b.count as usize), "{name}");
        assert_eq!((b.code, b.count), (0, orders), "{name}");
        assert!(g == h && x == y && v == w, "{name}");
    }
    let turns = Turns::new(calls, &v);
    let (mut ours, mut theirs) = (turns.side(), turns.side());
    let star = if turns.puts_back() { " *" } else { "" };
    timing::compare(
        &format!("{name}{star}"),
        || {
            let (g, call) = ours.turn();
            black_box(call).proved(g, &mut v, &mut x)
        },
        || {
            let (g, call) = theirs.turn();
            hand(g, black_box(call).event(), &mut w, &mut y)
        },
    );
}

/// Messages of ASPs at states.
fn messages(name: &str, of: &[(Gateway, u32, &[u8])], orders: u32) {
    let calls: Vec<_> = (of.iter())
        .map(|(state, p, msg)| (*state, call(What::Message, *p, msg)))
        .collect();
    turns(name, &calls, orders);
}

fn link_message(name: &str, state: &Gateway, msg: &[u8], orders: u32) {
    turns(name, &[(*state, call(What::LinkMessage, 0, msg))], orders);
}

/// The state after messages of ASPs.
fn after(state: Gateway, msgs: &[(u32, &[u8])]) -> Gateway {
    msgs.iter().fold(state, |g, (p, msg)| {
        let next = g.message(*p, msg, &mut [0; HOLD_BYTES], &mut [0; ROOM]);
        assert_eq!(next.code, 0);
        next.gateway
    })
}

/// The state with every link that ASP p asks for in service.
fn in_service(state: Gateway, p: u32, ids: &[u32]) -> Gateway {
    ids.iter().fold(state, |g, id| {
        let g = after(g, &[(p, &message(6, 2, &[number(0x1, *id)]))]);
        let place = g.link_id.iter().position(|x| x == id).expect("a link");
        g.link_up(place as u32, &mut [0; HOLD_BYTES], &mut [0; ROOM])
            .gateway
    })
}

fn on_plan_s() {
    let (up, beat, m) = (message(3, 1, &[]), message(3, 3, &[]), sample_m());
    let fresh = load(&plan_s()).gateway;
    let both = after(fresh, &[(0, &up), (1, &up)]);
    let first = after(both, &[(0, &m)]);
    let other = after(both, &[(1, &m)]);
    assert!(after(first, &[(1, &m)]) == other && after(other, &[(0, &m)]) == first);
    let serving = in_service(first, 0, &[100]);
    let active = active_of((0..500).map(|i| 100 + i % 16));
    messages(
        "M, a takeover, plan S",
        &[(first, 1, &m), (other, 0, &m)],
        2,
    );
    messages("Data, plan S", &[(serving, 0, &data(100))], 2);
    messages("Beat, plan S", &[(first, 0, &beat)], 1);
    link_message("Data of the link side, plan S", &serving, &data(100), 1);
    messages("Active of 500 ids, plan S", &[(both, 0, &active)], 3);
}

fn on_full_plan() {
    let (up, beat, all) = (message(3, 1, &[]), message(3, 3, &[]), message(4, 1, &[]));
    let fresh = load(&full_plan()).gateway;
    let ups: Vec<(u32, &[u8])> = (0..16).map(|p| (p, &up[..])).collect();
    let alls: Vec<(u32, &[u8])> = (0..16).map(|p| (p, &all[..])).collect();
    // all are up, ASP 0 is active in all, or each is
    let idle = after(fresh, &ups);
    let one = after(idle, &alls[..1]);
    let each = in_service(after(idle, &alls), 15, &[0, 3, 6]);
    // link 0 is of AS 0 (override), link 3 of AS 1 (load-share), link 6 of AS 2 (broadcast)
    let range = bytes(0x8, &[0, 0, 0, 0, 0, 0, 0, 0]);
    let m = message(4, 1, &[number(0xb, 1), range]);
    let (first, other) = (after(idle, &[(0, &m)]), after(idle, &[(1, &m)]));
    let active = active_of((0..500).map(|i| i % 128 * 3));
    let mixed = active_of((0..500).map(|i| i * 37 % 128 * 3));
    messages(
        "takeover in an AS, full plan",
        &[(first, 1, &m), (other, 0, &m)],
        2,
    );
    messages("Data, full plan", &[(each, 15, &data(3))], 2);
    messages("Beat, full plan", &[(each, 15, &beat)], 1);
    link_message("link side, load-share, full plan", &each, &data(3), 1);
    link_message("link side, broadcast, full plan", &each, &data(6), 16);
    messages("Active in 16 ASes, full plan", &[(idle, 0, &all)], 257);
    messages("Up after it, full plan", &[(one, 0, &up)], 258);
    messages("Active of 500 ids, full plan", &[(idle, 0, &active)], 257);
    messages("the same, ids mixed, full plan", &[(idle, 0, &mixed)], 257);
}

fn with_units() {
    let unit = data(100);
    for (name, count) in [("the first", 0), ("the eighth", 7), ("the ninth", 8)] {
        let name = format!("Data held, {name}, plan S");
        link_message(&name, &held_on_plan_s(count).0, &unit, 0);
    }
    let (beat, all) = (message(3, 3, &[]), message(4, 1, &[]));
    let one = held_on_plan_s(8).0;
    messages("Active, 8 units, plan S", &[(one, 0, &all)], 11);
    let full = full_hold().0;
    messages("Beat, 128 units held", &[(full, 0, &beat)], 1);
    messages("Active in 16 ASes, 128 units", &[(full, 0, &all)], 385);
    let part = active_of((0..129).map(|l| 3 * l));
    messages(
        "the same of all links and one more",
        &[(full, 0, &part)],
        386,
    );
}

/// On the full plan with identifiers 0 to 127: every Active names all 16 ASes, with 254 ranges or 509
/// identifiers, the most that a message has.
fn with_ranges() {
    let up = message(3, 1, &[]);
    let ups: Vec<(u32, &[u8])> = (0..16).map(|p| (p, &up[..])).collect();
    let idle = after(load(&full_plan_of(128, 1)).gateway, &ups);
    let ranges = |name: &str, count: u32, range: fn(u32) -> (u32, u32)| {
        let msg = active_of_ranges((0..count).map(range));
        messages(name, &[(idle, 0, &msg)], 257);
    };
    ranges("1 range of all 128 links", 1, |_| (0, 127));
    ranges("254 ranges of all 128 links", 254, |_| (0, 127));
    ranges("254 ranges of one link, mixed", 254, |i| {
        (i * 37 % 128, i * 37 % 128)
    });
    ranges("254 ranges j to 127, j descending", 254, |i| {
        (127 - i % 128, 127)
    });
    ranges("128 of one link, then 126 nested", 254, |i| match i {
        0..128 => (i, i),
        _ => ((i - 128) / 2, 127 - (i - 128) / 2),
    });
    let mixed = active_of((0..509).map(|i| i * 37 % 128));
    messages("509 ids in no order", &[(idle, 0, &mixed)], 257);
}

/// On the same plan: lists of 500 identifiers and of 250 ranges of which a part succeeds. What is bad is
/// missing, or of AS 15, where ASP 0 is no member; or the list is taken whole, and its last identifier is the
/// bad one.
fn in_part() {
    let up = message(3, 1, &[]);
    let ups: Vec<(u32, &[u8])> = (0..16).map(|p| (p, &up[..])).collect();
    let state = |mask, whole| {
        let file = with_asp_0(full_plan_of(128, 1), mask, whole);
        after(load(&file).gateway, &ups)
    };
    let (all, some, whole) = (
        state(0xffff, false),
        state(0x7fff, false),
        state(0xffff, true),
    );
    messages(
        "500 ids in order, each tenth bad",
        &[(all, 0, &tenth_missing(false))],
        258,
    );
    messages(
        "500 ids, no order, each tenth bad",
        &[(all, 0, &tenth_missing(true))],
        258,
    );
    let ids = active_of((0..500).map(|i| i % 128));
    messages("500 ids in order, some another's", &[(some, 0, &ids)], 242);
    let last = active_of((0..500).map(|i| if i < 499 { i % 128 } else { 1000 }));
    messages("500 ids, the last one bad", &[(all, 0, &last)], 258);
    messages("the same, taken whole", &[(whole, 0, &last)], 1);
    ranges_in_part(all, some);
    // Where the numbers of the links have gaps.
    let gaps = after(load(&full_plan()).gateway, &ups);
    let ids = active_of(missing_in_gaps());
    let ranges = active_of_ranges(over_gaps());
    messages(
        "500 ids, gaps, no order, tenth bad",
        &[(gaps, 0, &ids)],
        258,
    );
    messages(
        "250 ranges over 8 links with gaps",
        &[(gaps, 0, &ranges)],
        258,
    );
}

fn ranges_in_part(all: Gateway, some: Gateway) {
    let ranges = |name: &str, state: Gateway, orders: u32, range: fn(u32) -> (u32, u32)| {
        let msg = active_of_ranges((0..250).map(range));
        messages(name, &[(state, 0, &msg)], orders);
    };
    ranges("250 ranges, each to beyond the end", all, 258, |i| {
        (i * 37 % 128, 1000)
    });
    ranges("250 ranges, each tenth missing", all, 258, |i| {
        match i % 10 {
            9 => (1000, 2000),
            _ => (i * 37 % 120, i * 37 % 120 + 7),
        }
    });
    ranges("250 ranges over 8, some another's", some, 242, |i| {
        (i * 37 % 120, i * 37 % 120 + 7)
    });
    ranges("250 ranges of all numbers", all, 258, |_| (0, u32::MAX));
}

/// The highest sequence number: for a high-speed link it goes to the link side, for a plain one it is
/// Error 17.
fn with_sequence_numbers() {
    let (up, m) = (message(3, 1, &[]), sample_m());
    let fresh = load(&plan_s_with(HIGH_SPEED)).gateway;
    let active = after(fresh, &[(0, &up), (0, &m)]);
    for (name, id, order) in [
        (
            "Retrieval 4,095, high-speed link",
            100,
            [255, 0x60a, 100, 2],
        ),
        ("Retrieval 4,095, plain: Error 17", 101, [0, 0, 0, 17]),
    ] {
        let msg = retrieval(id, 4095);
        let mut words = [0; ROOM];
        active.message(0, &msg, &mut [0; HOLD_BYTES], &mut words);
        assert_eq!(words[..4], order, "{name}");
        messages(name, &[(active, 0, &msg)], 1);
    }
}

fn main() {
    timing::heading();
    on_plan_s();
    on_full_plan();
    with_units();
    with_ranges();
    in_part();
    with_sequence_numbers();
    timing::end();
}
