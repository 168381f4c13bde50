//! Generated histories of events, call by call through the proved library and through the second program:
//! refusal, count, next state, the whole list of words and the whole hold must be the same, and a hold of
//! another length must stay. So must all that is read of each event's message, and the state that each plan
//! file gives, of the histories and of other generated plans. `events SEED LINES [KIND]`; KIND: event (where
//! none is given), bytes, ranges, partly.
use bench::lines::{asked, generated_of, Call, Hold, Line};
use bench::proved;
use second::generate::Kind;
use second::read::read;
use second::{load, Gateway};
use std::fmt::Debug;

#[derive(Default)]
struct Tried {
    plans: u32,
    calls: u32,
    kinds: [u32; 6],
    refused: u32,
    orders: u32,
    failures: u32,
}

impl Tried {
    fn expect(&mut self, same: bool, what: &impl Debug) {
        if same {
            return;
        }
        self.failures += 1;
        if self.failures <= 5 {
            println!("differs: {what:?}");
        }
    }

    /// A plan file; gives its state.
    fn plan(&mut self, file: &[u8]) -> Gateway {
        let loaded = load(file);
        self.expect(proved::loaded(file) == loaded, &("plan", file));
        self.plans += 1;
        loaded.gateway
    }

    /// An event, lent one hold by the proved library and the other by the second program; gives the next
    /// state.
    fn call(&mut self, call: &Call, state: &Gateway, v: &mut Hold, w: &mut Hold) -> Gateway {
        let message = &call.message[..];
        self.expect(
            proved::reading(message) == read(message),
            &("read", message),
        );
        let (mut x, mut y) = (call.list(), call.list());
        let (mut g, mut h) = (*state, *state);
        let a = call.proved(&mut g, v.lend(call.hold), &mut x);
        let b = call.second(&mut h, w.lend(call.hold), &mut y);
        let same = (a.refusal, a.count) == (b.code, b.count as usize)
            && (g == h && x == y && v == w && w.other_untouched())
            && (b.code == 0 || h == *state);
        self.expect(same, call);
        self.calls += 1;
        self.kinds[call.what as usize] += 1;
        self.refused += (b.code != 0) as u32;
        self.orders += b.count;
        h
    }
}

fn main() {
    let mut args = std::env::args().skip(1);
    let seed = args.next().and_then(|w| w.parse().ok()).unwrap_or(1);
    let lines = args.next().and_then(|w| w.parse().ok()).unwrap_or(50_000);
    let (name, kinds) = asked("events", args.next().as_deref(), &[Kind::Event]);
    let mut tried = Tried::default();
    let mut state = Gateway::ZERO;
    let (mut v, mut w) = (Hold::default(), Hold::default());
    for line in generated_of(kinds[0], seed, lines) {
        match line {
            Line::Plan(file) => state = tried.plan(&file),
            Line::Paint(byte) => {
                v.kept.fill(byte);
                w.kept.fill(byte);
            }
            Line::Call(call) => state = tried.call(&call, &state, &mut v, &mut w),
        }
    }
    for line in generated_of(Kind::Plan, seed, lines / 4) {
        if let Line::Plan(file) = line {
            tried.plan(&file);
        }
    }
    let Tried {
        plans,
        calls,
        kinds,
        refused,
        orders,
        failures,
    } = tried;
    println!("{name}, seed {seed}: {calls} calls {kinds:?} (message, lost, recovery, link up, link down, link side), {refused} refused, {orders} orders, {plans} plans, {failures} differences");
    std::process::exit((failures > 0) as i32);
}
