//! Times actions as bytes, of the proved library against the hand-written second program, both in this one
//! run: one action and many of an event that is not kept, where the state is only read; and an event on the
//! state where it lies with all its bytes, by one call. Each call is first checked to give the same on both
//! sides: result, state, words, lengths and all bytes. A star as in event_times. With an older library linked
//! (tools/measure/bench --old) the one call is timed against that one's two calls too, and a Beat alone.
use bench::holds::{full_hold, held_on_plan_s};
use bench::lines::{Call, What};
use bench::messages::{
    active_of, active_of_ranges, data, half_unknown, message, missing_in_gaps, number, over_gaps,
    sample_m, tenth_missing,
};
use bench::plans::{full_plan, full_plan_of, plan, plan_s};
use bench::timing;
use bench::turns::{call, Turns};
use second::bytes::{MAX_ORDERS, ROOM_BYTES};
use second::events::LIST_WORDS as ROOM;
use second::{load, Batch, Event, Gateway, Handled, Written, HOLD_BYTES};
use std::hint::black_box;

/// The state that an event meets, and the hold.
type Met<'a> = (&'a Gateway, &'a [u8]);

/// A hold that no unit is in.
static EMPTY: [u8; HOLD_BYTES] = [0; HOLD_BYTES];

// The hand-written baseline, not compiled into the loop that calls it.
#[inline(never)]
fn hand_order(state: &Gateway, hold: &[u8], call: &Call, place: u32, out: &mut [u8]) -> Written {
    state.order_bytes(call.event(), hold, place, out)
}

#[inline(never)]
fn hand_orders(
    state: &Gateway,
    hold: &[u8],
    call: &Call,
    lens: &mut [u32],
    out: &mut [u8],
) -> Batch {
    state.orders_bytes(call.event(), hold, 0, lens, out)
}

/// One action; its message must have so many bytes.
fn single(name: &str, (state, hold): Met, call: &Call, place: usize, length: usize) {
    let (mut x, mut y) = ([0xaa; 2048], [0xaa; 2048]);
    let a = call.order(state, hold, place, &mut x);
    let b = hand_order(state, hold, call, place as u32, &mut y);
    assert_eq!((a.code, a.length), (b.code, b.length as usize), "{name}");
    assert_eq!((a.code, a.length), (0, length), "{name}");
    assert!(x == y, "{name}");
    timing::compare(
        name,
        || call.order(black_box(state), hold, place, &mut x),
        || hand_order(black_box(state), hold, call, place as u32, &mut y),
    );
}

/// All actions of an event; there must be so many.
fn batch(name: &str, (state, hold): Met, call: &Call, count: usize) {
    let (mut x, mut y) = ([0xaa; 32768], [0xaa; 32768]);
    let (mut k, mut l) = ([0xaa; 386], [0xaa; 386]);
    let a = call.orders(state, hold, 0, &mut k, &mut x);
    let b = hand_orders(state, hold, call, &mut l, &mut y);
    let numbers = (b.code, b.count as usize, b.length as usize);
    assert_eq!((a.code, a.count, a.length), numbers, "{name}");
    assert_eq!((a.code, a.count), (0, count), "{name}");
    assert!(x == y && k == l, "{name}");
    timing::compare(
        name,
        || call.orders(black_box(state), hold, 0, &mut k, &mut x),
        || hand_orders(black_box(state), hold, call, &mut l, &mut y),
    );
}

fn of(what: What, index: u32, message: Vec<u8>) -> Call {
    call(what, index, &message)
}

/// The state after events.
fn after(state: Gateway, calls: &[Call]) -> Gateway {
    calls.iter().fold(state, |mut g, call| {
        let done = call.second(&mut g, &mut EMPTY.clone(), &mut [0; ROOM]);
        assert_eq!(done.code, 0);
        g
    })
}

fn main() {
    let up = |p| of(What::Message, p, message(3, 1, &[]));
    let all = |p| of(What::Message, p, message(4, 1, &[]));
    timing::heading();

    let full = load(&full_plan()).gateway;
    let ups: Vec<Call> = (0..16).map(up).collect();
    let idle = after(full, &ups);
    let active = of(What::Message, 0, active_of((0..500).map(|i| i % 128 * 3)));
    single(
        "Ack of an Active of 500 ids",
        (&idle, &EMPTY),
        &active,
        0,
        2012,
    );

    let links: Vec<(u32, u32)> = (0..128).map(|l| (l * 3, 0)).collect();
    let wide = load(&plan(&[(7, 1), (8, 1)], &[1], &links)).gateway;
    single(
        "Notify of 128 ids",
        (&wide, &EMPTY),
        &up(0),
        1,
        8 + 8 + 4 + 512,
    );

    let establish = of(What::Message, 0, message(6, 2, &[number(0x1, 100)]));
    let in_service = of(What::LinkUp, 0, vec![]);
    let fresh = load(&plan_s()).gateway;
    let serving = after(fresh, &[up(0), all(0), establish, in_service]);
    let passed_on = of(What::LinkMessage, 0, data(100));
    single(
        "Data of 88 bytes passed on",
        (&serving, &EMPTY),
        &passed_on,
        0,
        88,
    );

    in_part(&ups);
    let one = after(idle, &[all(0)]);
    batch("all 258 actions of an Up", (&one, &EMPTY), &up(0), 258);
    from_the_hold(&all(0));
    in_one_call(&ups);
    timing::end();
}

/// Lists that succeed in part: their Acks, which list the 128 good ones, and from the message to the bytes of
/// all answers, beside lists that are good.
fn in_part(ups: &[Call]) {
    let idle = after(load(&full_plan_of(128, 1)).gateway, ups);
    let met = (&idle, &EMPTY[..]);
    let list = |bytes| of(What::Message, 0, bytes);
    let good = list(active_of((0..500).map(|i| i % 128)));
    let ids = list(tenth_missing(false));
    let mixed = list(tenth_missing(true));
    let whole = list(active_of_ranges(
        (0..250).map(|i| (i * 37 % 120, i * 37 % 120 + 7)),
    ));
    let ranges = list(active_of_ranges((0..250).map(|i| (i * 37 % 128, 1000))));
    single("Ack of 500 ids, each tenth bad", met, &ids, 0, 524);
    single("Ack of 250 ranges beyond the end", met, &ranges, 0, 524);
    batch("257 actions of 500 ids", met, &good, 257);
    batch("258 actions, each tenth bad", met, &ids, 258);
    batch("258 actions, the same in no order", met, &mixed, 258);
    batch("257 actions of 250 ranges", met, &whole, 257);
    batch("258 actions, ranges beyond the end", met, &ranges, 258);
    // The same where the numbers of the links have gaps.
    let gaps = after(load(&full_plan()).gateway, ups);
    let met = (&gaps, &EMPTY[..]);
    let ids = list(active_of(missing_in_gaps()));
    let ranges = list(active_of_ranges(over_gaps()));
    batch("258 actions, gaps, ids in no order", met, &ids, 258);
    batch("258 actions, gaps, 250 ranges", met, &ranges, 258);
}

fn from_the_hold(active: &Call) {
    let (state, hold) = held_on_plan_s(8);
    batch(
        "all 11 actions of an Active",
        (&state, &hold[..]),
        active,
        11,
    );
    let (state, hold) = full_hold();
    let held = (&state, &hold[..]);
    single("Data of 88 bytes from the hold", held, active, 368, 88);
    batch("all 385 actions of an Active", held, active, 385);
    let part = of(What::Message, 0, active_of((0..129).map(|l| 3 * l)));
    batch("all 386 of one good in part", held, &part, 386);
}

/// What an event with its bytes is lent.
struct Lent {
    hold: Vec<u8>,
    words: Box<[u32; ROOM]>,
    lens: Box<[u32; MAX_ORDERS]>,
    out: Vec<u8>,
}

impl Lent {
    fn new(hold: &[u8]) -> Lent {
        Lent {
            hold: hold.to_vec(),
            words: Box::new([0xaa; ROOM]),
            lens: Box::new([0xaa; MAX_ORDERS]),
            out: vec![0xaa; ROOM_BYTES],
        }
    }

    #[inline(always)]
    fn proved(&mut self, g: &mut Gateway, call: &Call) -> bench::proved::Handled {
        let Lent {
            hold,
            words,
            lens,
            out,
        } = self;
        call.handled(g, hold, words, lens, out)
    }
}

#[inline(never)]
fn hand_handle(state: &mut Gateway, event: Event, lent: &mut Lent) -> Handled {
    let Lent {
        hold,
        words,
        lens,
        out,
    } = lent;
    state.handle(event, hold, words, lens, out)
}

/// Events in turn with all their bytes, by one call; all must give so many orders.
fn whole(name: &str, hold: &[u8], calls: &[(Gateway, Call)], orders: u32) {
    let (mut v, mut w) = (Lent::new(hold), Lent::new(hold));
    for (state, call) in calls {
        let (mut g, mut h) = (*state, *state);
        let a = v.proved(&mut g, call);
        let b = hand_handle(&mut h, call.event(), &mut w);
        let numbers = (b.code, b.count as usize, b.length as usize);
        assert_eq!((a.refusal, a.count, a.length), numbers, "{name}");
        assert_eq!((b.code, b.count), (0, orders), "{name}");
        assert!(g == h && v.hold == w.hold && v.words == w.words, "{name}");
        assert!(v.lens == w.lens && v.out == w.out, "{name}");
    }
    let turns = Turns::new(calls, hold);
    let (mut ours, mut theirs) = (turns.side(), turns.side());
    let star = if turns.puts_back() { " *" } else { "" };
    timing::compare(
        &format!("{name}{star}"),
        || {
            let (g, call) = ours.turn();
            v.proved(g, black_box(call))
        },
        || {
            let (g, call) = theirs.turn();
            hand_handle(g, black_box(call).event(), &mut w)
        },
    );
    #[cfg(old)]
    against_old(name, &turns, v, w);
}

/// The same against the older version's two calls, which gives the same: the next state takes the place of
/// the one before.
#[cfg(old)]
fn against_old(name: &str, turns: &Turns, mut v: Lent, mut w: Lent) {
    use bench::old;
    let mut two = |g: &mut Gateway, call: &Call| {
        let (kind, index, msg) = (call.what as u32, call.index as usize, &call.message[..]);
        let r = old::event(g, kind, index, msg, &mut w.hold, &mut w.words[..]);
        let b = old::orders(g, kind, index, msg, &w.hold, &mut w.lens[..], &mut w.out);
        *g = r.gateway;
        (r.refusal, r.count, b.length)
    };
    for (state, call) in turns.calls {
        let (mut g, mut h) = (*state, *state);
        let a = v.proved(&mut g, call);
        assert_eq!((a.refusal, a.count, a.length), two(&mut h, call), "{name}");
        assert!(g == h, "{name}");
    }
    let (mut ours, mut theirs) = (turns.side(), turns.side());
    timing::compare(
        &format!("{name}, against old"),
        || {
            let (g, call) = ours.turn();
            v.proved(g, black_box(call))
        },
        || {
            let (g, call) = theirs.turn();
            two(g, black_box(call))
        },
    );
}

/// A Beat alone, against the older version's.
#[cfg(old)]
fn beat_against_old(state: Gateway) {
    let beat = call(What::Message, 0, &message(3, 3, &[]));
    let (mut g, mut h) = (state, state);
    let (mut v, mut w) = (Lent::new(&EMPTY), Lent::new(&EMPTY));
    timing::compare(
        "Beat, plan S, against old",
        || black_box(&beat).proved(black_box(&mut g), &mut v.hold, &mut v.words[..]),
        || {
            let c = black_box(&beat);
            let r = bench::old::event(&h, 0, 0, &c.message, &mut w.hold, &mut w.words[..]);
            h = r.gateway;
        },
    );
}

/// An event with all its bytes.
fn in_one_call(ups: &[Call]) {
    let asp = |p: u32, message: Vec<u8>| of(What::Message, p, message);
    let (up, m) = (message(3, 1, &[]), sample_m());
    let establish = asp(0, message(6, 2, &[number(0x1, 100)]));
    let fresh = load(&plan_s()).gateway;
    let both = after(fresh, &[asp(0, up.clone()), asp(1, up)]);
    let (first, other) = (
        after(both, &[asp(0, m.clone())]),
        after(both, &[asp(1, m.clone())]),
    );
    let serving = after(first, &[establish, of(What::LinkUp, 0, vec![])]);
    let passed_on = of(What::LinkMessage, 0, data(100));
    let beat = asp(0, message(3, 3, &[]));
    whole("with bytes: Beat, plan S", &EMPTY, &[(first, beat)], 1);
    whole(
        "with bytes: Data, plan S",
        &EMPTY,
        &[(serving, asp(0, data(100)))],
        2,
    );
    whole(
        "with bytes: link side, plan S",
        &EMPTY,
        &[(serving, passed_on)],
        1,
    );
    whole(
        "with bytes: M, a takeover, plan S",
        &EMPTY,
        &[(first, asp(1, m.clone())), (other, asp(0, m))],
        2,
    );
    let all = asp(0, message(4, 1, &[]));
    let (state, hold) = held_on_plan_s(8);
    whole(
        "with bytes: Active, 8 units, plan S",
        &hold,
        &[(state, all.clone())],
        11,
    );
    let idle = after(load(&full_plan()).gateway, ups);
    let one = after(idle, std::slice::from_ref(&all));
    whole(
        "with bytes: Up with 258 actions",
        &EMPTY,
        &[(one, asp(0, message(3, 1, &[])))],
        258,
    );
    let (state, hold) = full_hold();
    whole("with bytes: Active, 128 units", &hold, &[(state, all)], 385);
    // the dearest: identifiers in no order, half of them unknown, another message each time
    let fresh_each: Vec<_> = (0..512).map(|n| (state, asp(0, half_unknown(n)))).collect();
    whole("with bytes: 509 ids, half unknown", &hold, &fresh_each, 386);
    #[cfg(old)]
    beat_against_old(first);
}
