//! What the crate's calls cost beside the library's entries themselves: nanoseconds of one call, best of 101
//! rounds, and the median of the rounds' ratios. (tools/measure/bench times the entries against a
//! hand-written program.) Nothing else should run on the machine.
use m2ua::{sys, write, Event, Gateway, Hold, MessageType, Orders, Parameter};
use std::hint::black_box;
use std::time::Instant;

const ROUNDS: usize = 101;

fn nanoseconds<T>(calls: usize, f: &mut impl FnMut() -> T) -> f64 {
    let start = Instant::now();
    for _ in 0..calls {
        black_box(f());
    }
    start.elapsed().as_nanos() as f64 / calls as f64
}

/// Both sides in each round, since the clock moves.
fn compare<T, U>(
    what: &str,
    calls: usize,
    mut ours: impl FnMut() -> T,
    mut entry: impl FnMut() -> U,
) {
    let (mut best, mut ratios) = ((f64::MAX, f64::MAX), Vec::new());
    for _ in 0..ROUNDS {
        let (a, b) = (
            nanoseconds(calls, &mut ours),
            nanoseconds(calls, &mut entry),
        );
        best = (best.0.min(a), best.1.min(b));
        ratios.push(a / b);
    }
    ratios.sort_by(f64::total_cmp);
    println!(
        "{what:<44} {:>9.1} {:>9.1} {:>7.2}",
        best.0,
        best.1,
        ratios[ROUNDS / 2]
    );
}

/// 16 ASPs in 16 ASes of broadcast with 8 links each, all up, the first active everywhere.
fn full() -> Gateway {
    let mut words: Vec<u32> = vec![24, 16, 152, 16, 216, 128];
    words.extend((0..16).flat_map(|id| [id, 0xffff_0000]));
    words.extend([3; 16]);
    words.extend((0..128).flat_map(|id| [id, id / 8]));
    let file: Vec<u8> = words.iter().flat_map(|w| w.to_be_bytes()).collect();
    let mut g = Gateway::load(&file).expect("a plan");
    let (mut hold, mut orders) = (Hold::new(), Orders::new());
    let (up, active) = (
        write(MessageType::Up, &[]).expect("an Up"),
        write(MessageType::Active, &[]).expect("an Active"),
    );
    for asp in 0..16 {
        g.handle(
            &Event::Message { asp, message: &up },
            &mut hold,
            &mut orders,
        )
        .expect("accepted");
    }
    g.handle(
        &Event::Message {
            asp: 0,
            message: &active,
        },
        &mut hold,
        &mut orders,
    )
    .expect("accepted");
    g
}

fn main() {
    let mut g = full();
    let mut state = *g.raw();
    let (mut orders, mut words, mut out) = (
        Orders::new(),
        [0u32; sys::LIST_WORDS],
        vec![0u8; sys::ROOM_BYTES],
    );
    let (mut hold, mut bytes) = (Hold::new(), vec![0u8; sys::HOLD_BYTES]);
    let mut lens = [0u32; sys::MAX_ORDERS];
    let parameters = [
        Parameter::new(sys::TAG_INTERFACE_ID, &[0, 0, 0, 9]),
        Parameter::new(sys::TAG_DATA_1, &[7; 64]),
    ];
    let data = write(MessageType::Data, &parameters).expect("a Data");
    let beat = write(MessageType::Beat, &[]).expect("a Beat");
    let values: Vec<u8> = parameters.iter().flat_map(|p| p.value).copied().collect();
    println!(
        "{:<44} {:>9} {:>9} {:>7}",
        "nanoseconds of one call", "crate", "entry", "ratio"
    );
    compare(
        "read Data of 84 bytes",
        20000,
        || m2ua::read(black_box(&data)),
        || sys::read(black_box(&data)),
    );
    compare(
        "write Data of 84 bytes",
        20000,
        || m2ua::write(MessageType::Data, black_box(&parameters)),
        || {
            sys::write(
                6,
                1,
                black_box(&[1, 0x300]),
                black_box(&[4, 64]),
                black_box(&values),
                &mut out,
            )
        },
    );
    // an Active of one that is active changes nothing, so both meet the same state each time
    let active = write(MessageType::Active, &[]).expect("an Active");
    for (what, message) in [
        ("Beat and its message, full plan", &beat),
        ("Active and its message, full plan", &active),
    ] {
        let event = Event::Message { asp: 0, message };
        compare(
            what,
            2000,
            || g.handle(black_box(&event), &mut hold, &mut orders),
            || {
                sys::handle(
                    black_box(&mut state),
                    0,
                    0,
                    message,
                    &mut bytes,
                    &mut words,
                    &mut lens,
                    &mut out,
                )
            },
        );
    }
}
