//! Times the proved library against the hand-written second program, both in this one run, on the same
//! inputs. Each pair is first checked to agree on what is timed.
use bench::holds::full_hold;
use bench::messages::{active_of, bytes, data, message, sample_m};
use bench::plans::{full_plan, plan, plan_s};
use bench::{proved, timing};
use second::read::{read, Reading};
use second::{is_sound, load, write, Gateway};
use std::hint::black_box;

/// The hand-written baseline, not compiled into the loop that calls it.
#[inline(never)]
fn hand_is_sound(state: &Gateway) -> bool {
    is_sound(state)
}

fn read_both(msg: &[u8]) -> Reading {
    let r = proved::reading(msg);
    assert_eq!(r, read(msg), "the two readers differ");
    r
}

fn main() {
    let up = message(3, 1, &[]);
    let m = sample_m();
    let data = data(100);
    assert_eq!(data.len(), 88);
    let ids: Vec<u8> = (0..500u32).flat_map(|i| (i * 3).to_be_bytes()).collect();
    let active = active_of((0..500).map(|i| i * 3));
    let ranges: Vec<u8> = (0..250u32)
        .flat_map(|i| [i * 3, i * 3 + 1])
        .flat_map(|x| x.to_be_bytes())
        .collect();
    let active_ranges = message(4, 1, &[bytes(0x8, &ranges)]);

    let plans = [
        ("smallest plan", plan(&[(7, 1)], &[1], &[])),
        ("plan S", plan_s()),
        ("full plan", full_plan()),
    ];

    timing::heading();
    for (name, msg) in [
        ("read sample M", &m),
        ("read Up of 8 bytes", &up),
        ("read Data of 88 bytes", &data),
        ("read Active of 500 identifiers", &active),
        ("read Active of 250 ranges", &active_ranges),
    ] {
        assert_eq!(read_both(msg).code, 0);
        timing::compare(
            name,
            || proved::read(black_box(msg)),
            || read(black_box(msg)),
        );
    }
    for (name, class, kind, list) in [
        (
            "write sample M",
            4,
            1,
            vec![
                (0xb, vec![0, 0, 0, 1]),
                (0x8, vec![0, 0, 0, 100, 0, 0, 0, 115]),
            ],
        ),
        (
            "write Data of 88 bytes",
            6,
            1,
            vec![
                (0x1, vec![0, 0, 0, 100]),
                (0x13, vec![0, 0, 0, 7]),
                (0x300, vec![0x55; 60]),
            ],
        ),
        (
            "write Active Ack of 500 identifiers",
            4,
            3,
            vec![(0x1, ids.clone())],
        ),
    ] {
        let tags: Vec<u16> = list.iter().map(|p: &(u16, Vec<u8>)| p.0).collect();
        let lens: Vec<u32> = list.iter().map(|p| p.1.len() as u32).collect();
        let values: Vec<u8> = list.iter().flat_map(|p| p.1.clone()).collect();
        let (mut a, mut b) = ([0xaa; 2048], [0xaa; 2048]);
        let w = proved::write(class, kind, &tags, &lens, &values, &mut a);
        let v = write(class.into(), kind.into(), &tags, &lens, &values, &mut b);
        assert_eq!(
            (w.code, w.length as u32),
            (v.code, v.length),
            "the two writers differ"
        );
        assert_eq!(w.code, 0);
        assert_eq!(a, b);
        timing::compare(
            name,
            || proved::write(class, kind, black_box(&tags), &lens, &values, &mut a),
            || {
                write(
                    class.into(),
                    kind.into(),
                    black_box(&tags),
                    &lens,
                    &values,
                    &mut b,
                )
            },
        );
    }
    for (name, file) in &plans {
        let loaded = proved::loaded(file);
        assert_eq!(loaded, load(file), "the two loaders differ");
        assert_eq!(loaded.code, 0);
        timing::compare(
            &format!("load {name}"),
            || proved::load(black_box(file)),
            || load(black_box(file)),
        );
        soundness(name, loaded.gateway);
    }
    soundness("128 units held", full_hold().0);
    timing::end();
}

fn soundness(name: &str, state: Gateway) {
    assert!(proved::is_sound(&state) && is_sound(&state));
    timing::compare(
        &format!("soundness, {name}"),
        || proved::is_sound(black_box(&state)),
        || hand_is_sound(black_box(&state)),
    );
}
