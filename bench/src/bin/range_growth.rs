//! How the time of an Active grows with the number of its ranges, with their width and with the links of the
//! plan, by the proved library and by the second program. ASP 0 is active in all 16 ASes already, so that
//! every message gives its Ack and changes nothing: what grows is reading it and finding the owners.
use bench::messages::{active_of, active_of_ranges, message};
use bench::plans::full_plan_of;
use bench::{proved, timing};
use second::events::LIST_WORDS as ROOM;
use second::{load, Done, Event, Gateway, HOLD_BYTES};
use std::hint::black_box;

/// The most ranges that a message has.
const MOST: u32 = 254;

// The hand-written baseline, not compiled into the loop that calls it.
#[inline(never)]
fn hand(state: &mut Gateway, msg: &[u8], hold: &mut [u8], words: &mut [u32]) -> Done {
    let event = Event::Message {
        asp: 0,
        message: msg,
    };
    state.run(event, hold, words)
}

/// So many links, identifiers 0, 1 and so on; ASP 0 up and active everywhere.
fn active_on(links: u32) -> Gateway {
    let (mut hold, mut words) = (vec![0; HOLD_BYTES], [0; ROOM]);
    let mut state = load(&full_plan_of(links, 1)).gateway;
    for msg in [message(3, 1, &[]), message(4, 1, &[])] {
        hand(&mut state, &msg, &mut hold, &mut words);
    }
    state
}

/// The Active, first seen to give its Ack alone on both sides.
fn time(name: &str, state: &Gateway, msg: &[u8]) {
    let (mut x, mut y) = ([0xaa; ROOM], [0xaa; ROOM]);
    let (mut v, mut w) = (vec![0xaa; HOLD_BYTES], vec![0xaa; HOLD_BYTES]);
    let (mut g, mut h) = (*state, *state);
    let a = proved::event(&mut g, 0, 0, msg, &mut v, &mut x);
    let b = hand(&mut h, msg, &mut w, &mut y);
    assert_eq!(
        (a.refusal, a.count, b.code, b.count),
        (0, 1, 0, 1),
        "{name}"
    );
    assert_eq!(y[..4], [0, 0x403, 0, 0], "{name}");
    assert!(x == y && v == w, "{name}");
    assert!(g == *state && h == *state, "{name}");
    timing::compare(
        name,
        || proved::event(black_box(&mut g), 0, 0, msg, &mut v, &mut x),
        || hand(black_box(&mut h), msg, &mut w, &mut y),
    );
}

fn main() {
    let full = active_on(128);
    let doubled = |last: u32| (0..8).map(|k| 1 << k).chain([last]);
    timing::heading();
    println!("by their number: ranges of all 128 links");
    time("no range", &full, &message(4, 1, &[]));
    for count in doubled(MOST) {
        let msg = active_of_ranges((0..count).map(|_| (0, 127)));
        time(&format!("ranges: {count}"), &full, &msg);
    }
    println!("by their width: 254 ranges in no order, of 128 links");
    for width in doubled(MOST).take(8) {
        let starts = (0..MOST).map(|i| i * 37 % (129 - width));
        let msg = active_of_ranges(starts.map(|start| (start, start + width - 1)));
        time(&format!("links in a range: {width}"), &full, &msg);
    }
    println!("by the links: 254 ranges of all of them");
    for links in [16, 32, 64, 128] {
        let msg = active_of_ranges((0..MOST).map(|_| (0, links - 1)));
        time(&format!("links: {links}"), &active_on(links), &msg);
    }
    println!("by the number of identifiers: in no order, of 128 links");
    for count in doubled(509) {
        let msg = active_of((0..count).map(|i| i * 37 % 128));
        time(&format!("identifiers: {count}"), &full, &msg);
    }
}
