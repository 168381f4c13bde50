//! Two functions timed in many short rounds, each round both of them, the first one now the one and now the
//! other: best and median of each, and the median of the rounds' ratios. (The machine's clock moves, so only
//! what runs in one round is compared.) It is processor time.
use std::hint::black_box;
use std::sync::atomic::{AtomicU32, Ordering};

const ROUNDS: usize = 101;

/// The most that a ratio may be, by the beginning of a line's name and its end (`--limits`).
const LIMITS: &[(&str, &str, f64)] = &[
    ("Beat, plan S", "against old", 0.5),
    ("with bytes", "plan S, against old", 0.45),
    ("Beat,", "plan S", 1.1),
    ("Beat,", "full plan", 1.1),
    ("Data,", "full plan", 1.1),
    ("Data,", "plan S", 1.1),
    ("Data of the link side", "plan S", 1.1),
    ("link side", "full plan", 1.1),
    ("soundness", "", 1.1),
    ("M, a takeover", "plan S", 1.25),
    ("takeover in an AS", "full plan", 1.25),
];

static BEYOND: AtomicU32 = AtomicU32::new(0);

fn limit_of(name: &str) -> Option<f64> {
    let name = name.trim_end_matches(" *");
    let fits =
        |(start, end, _): &&(&str, &str, f64)| name.starts_with(start) && name.ends_with(end);
    LIMITS.iter().find(fits).map(|(_, _, most)| *most)
}

/// Ends the program: with 1 where `--limits` was said and a line is beyond its own.
pub fn end() {
    let beyond = BEYOND.load(Ordering::Relaxed);
    if beyond > 0 {
        println!("{beyond} beyond their limits");
    }
    let asked = std::env::args().any(|word| word == "--limits");
    std::process::exit((asked && beyond > 0) as i32);
}

pub fn heading() {
    println!(
        "{:44} {:>9} {:>9} {:>9} {:>9} {:>6}",
        "ns for each call", "best", "median", "hand best", "median", "ratio"
    );
}

extern "C" {
    fn clock_gettime(clock: i32, time: *mut [i64; 2]) -> i32;
}

/// The processor time of this thread, in nanoseconds: what other programs take of the machine is not in it.
fn processor_time() -> f64 {
    const THREAD: i32 = 3;
    let mut time = [0; 2];
    // SAFETY: the pair is a `struct timespec` of a 64-bit machine, lent for the call.
    assert_eq!(unsafe { clock_gettime(THREAD, &mut time) }, 0);
    time[0] as f64 * 1e9 + time[1] as f64
}

fn run<T>(f: &mut impl FnMut() -> T, calls: usize) -> f64 {
    let start = processor_time();
    for _ in 0..calls {
        black_box(f());
    }
    (processor_time() - start) / calls as f64
}

pub fn compare<T, U>(name: &str, mut proved: impl FnMut() -> T, mut hand: impl FnMut() -> U) {
    // so many calls that one run takes some 2 ms
    let calls = (2e6 / run(&mut hand, 2000).max(0.5)) as usize + 1;
    let (mut a, mut b, mut ratios) = (vec![], vec![], vec![]);
    for round in 0..ROUNDS {
        let (x, y);
        if round % 2 == 0 {
            x = run(&mut proved, calls);
            y = run(&mut hand, calls);
        } else {
            y = run(&mut hand, calls);
            x = run(&mut proved, calls);
        }
        a.push(x);
        b.push(y);
        ratios.push(x / y);
    }
    for times in [&mut a, &mut b, &mut ratios] {
        times.sort_by(f64::total_cmp);
    }
    let ratio = ratios[ROUNDS / 2];
    // printed as it is compared
    let said = match limit_of(name) {
        Some(most) if (100.0 * ratio).round() > (100.0 * most).round() => {
            BEYOND.fetch_add(1, Ordering::Relaxed);
            format!("  BEYOND {most}")
        }
        Some(most) => format!("  of {most}"),
        None => String::new(),
    };
    println!(
        "{name:44} {:9.1} {:9.1} {:9.1} {:9.1} {ratio:6.2}{said}",
        a[0],
        a[ROUNDS / 2],
        b[0],
        b[ROUNDS / 2],
    );
}
