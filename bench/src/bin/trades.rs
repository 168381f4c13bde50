//! Demand 3 as a run beside its proof: histories of the proved library with random allowed trades. Every
//! event must hand back the same refusal, count and orders as before the trades, the last state must be the
//! same in every field and the last hold in every byte, and what lies outside an event's reach must be as it
//! was. Reach is the second program's. `trades SEED LINES [KIND] [second]`; KIND: event (where none is
//! given), bytes, ranges, partly; with the last word, histories of the second program.
//!
//! Trades that are not allowed are made too, on copies, and counted where they change something: so the
//! comparison is seen to fail where it should.
use bench::lines::{asked, generated_of, Call, Line};
use second::generate::{Kind, Rng};
use second::{load, Gateway, HOLD_BYTES};

/// What an event hands back: refusal, count and orders.
#[derive(Clone, PartialEq, Eq, Debug)]
struct Given {
    refusal: u32,
    count: usize,
    orders: Vec<u32>,
}

/// What goes through a history: the state, and the one hold.
#[derive(Clone, PartialEq, Eq)]
struct World {
    state: Gateway,
    hold: Vec<u8>,
}

impl World {
    fn new(state: Gateway, byte: u8) -> Self {
        let hold = vec![byte; HOLD_BYTES];
        World { state, hold }
    }
}

/// An event by one of the two libraries, on the state where it lies: refusal and count.
type Side = fn(&Call, &mut Gateway, &mut [u8], &mut [u32]) -> (u32, usize);

fn by_proved(call: &Call, state: &mut Gateway, hold: &mut [u8], list: &mut [u32]) -> (u32, usize) {
    let r = call.proved(state, hold, list);
    (r.refusal, r.count)
}

fn by_second(call: &Call, state: &mut Gateway, hold: &mut [u8], list: &mut [u32]) -> (u32, usize) {
    let r = call.second(state, hold, list);
    (r.code, r.count as usize)
}

/// What stands in a hold that is lent for its length alone.
const OTHER: u8 = 0x5c;

fn step(side: Side, call: &Call, world: &World) -> (Given, World) {
    let mut list = call.list();
    let mut next = world.clone();
    let mut other = vec![OTHER; call.hold];
    let right = call.hold == HOLD_BYTES;
    let lent = if right { &mut next.hold } else { &mut other };
    let (refusal, count) = side(call, &mut next.state, lent, &mut list);
    let same = right || other.iter().all(|byte| *byte == OTHER);
    assert!(same, "a hold of another length was written: {call:?}");
    list.truncate(4 * count);
    let given = Given {
        refusal,
        count,
        orders: list,
    };
    (given, next)
}

fn run(side: Side, first: &World, calls: &[Call]) -> (Vec<Given>, World) {
    let mut world = first.clone();
    let given = calls.iter().map(|call| {
        let (given, next) = step(side, call, &world);
        world = next;
        given
    });
    (given.collect(), world)
}

/// The ASes reached, bit a for AS a.
fn reach(call: &Call, state: &Gateway) -> u16 {
    state.reach(call.event(), call.hold, call.room)
}

/// Two neighbours may trade places: not both of one controller, and no AS reached by both.
fn may_trade(a: &Call, b: &Call, state: &Gateway) -> bool {
    let one = a.controller().is_some() && a.controller() == b.controller();
    !one && reach(a, state) & reach(b, state) == 0
}

/// What an AS holds: the number, and of each place tag, length, mark, identifier, correlation id and bytes.
fn held_same(a: usize, x: &World, y: &World) -> bool {
    let places = 8 * a..8 * a + 8;
    let kept = |g: &Gateway| {
        let all = places.clone();
        all.map(|i| (g.unit(a, i % 8), g.held_marked[i], g.held_correlation[i]))
            .collect::<Vec<_>>()
    };
    let bytes = 273 * places.start..273 * places.end;
    x.state.held[a] == y.state.held[a]
        && kept(&x.state) == kept(&y.state)
        && x.hold[bytes.clone()] == y.hold[bytes]
}

/// What lies outside an event's reach is as it was: the plan, the other ASes with their links, what they hold
/// and the up flags of their members, link places beyond the plan, other ASPs.
fn untouched(call: &Call, old: &World, new: &World) -> bool {
    let (before, after) = (&old.state, &new.state);
    let reached = reach(call, before);
    let outside = |a: usize| reached >> a & 1 == 0;
    let plan = |g: &Gateway| {
        (
            (g.asps, g.ases, g.links, g.spare, g.asp_id),
            (g.member, g.mode, g.link_id, g.owner, g.highspeed),
            g.wholelists,
        )
    };
    let ases = (0..16).filter(|a| outside(*a));
    let mut links =
        (0..128).filter(|l| *l >= before.links as usize || outside(before.owner[*l] as usize));
    let mut asps = (0..16).filter(|p| call.controller() != Some(*p as u32));
    let mut members = (0..256).filter(|i| outside(*i / 16) && before.member[*i] != 0);
    plan(before) == plan(after)
        && ases.clone().all(|a| before.waiting[a] == after.waiting[a])
        && ases.clone().all(|a| held_same(a, old, new))
        && ases
            .flat_map(|a| 16 * a..16 * a + 16)
            .all(|i| before.active[i] == after.active[i])
        && links.all(|l| before.state[l] == after.state[l])
        && asps.all(|p| before.up[p] == after.up[p])
        && members.all(|i| before.up[i % 16] == after.up[i % 16])
}

#[derive(Default)]
struct Tally {
    histories: u64,
    events: u64,
    trades: u64,
    forbidden: u64,
    forbidden_felt: u64,
    /// Units sent out, in the histories as they came.
    units: u64,
    failures: u64,
}

/// What each event meets.
fn worlds(side: Side, first: &World, calls: &[Call]) -> Vec<World> {
    let mut world = first.clone();
    calls
        .iter()
        .map(|call| {
            let next = step(side, call, &world).1;
            std::mem::replace(&mut world, next)
        })
        .collect()
}

fn units(call: &Call, given: &Given) -> u64 {
    let orders = given.orders.chunks(4);
    let data = orders.filter(|order| order[1] == 0x601 && order[0] != 255);
    match call.controller() {
        Some(_) => data.count() as u64,
        None => 0,
    }
}

fn history(side: Side, first: &World, calls: &[Call], rng: &mut Rng, tally: &mut Tally) {
    let (given, last) = run(side, first, calls);
    let mut before = worlds(side, first, calls);
    let mut order: Vec<usize> = (0..calls.len()).collect();
    for (i, call) in calls.iter().enumerate() {
        let after = before.get(i + 1).unwrap_or(&last);
        tally.units += units(call, &given[i]);
        if !untouched(call, &before[i], after) {
            tally.failures += 1;
            println!("touched outside its reach: {call:?}");
        }
    }
    for _ in 0..8 * calls.len() {
        if calls.len() < 2 {
            break;
        }
        let i = rng.below(calls.len() as u64 - 1) as usize;
        let (a, b) = (&calls[order[i]], &calls[order[i + 1]]);
        if may_trade(a, b, &before[i].state) {
            order.swap(i, i + 1);
            before[i + 1] = step(side, b, &before[i]).1;
            tally.trades += 1;
        } else if rng.one_in(8) {
            // on a copy: may change what is handed back, and mostly does not matter
            let ((x, s), (y, t)) = (step(side, b, &before[i]), step(side, a, &before[i]));
            let ((z, s), (w, t)) = (step(side, a, &s), step(side, b, &t));
            tally.forbidden += 1;
            tally.forbidden_felt += ((x, z) != (w, y) || s != t) as u64;
        }
    }
    let traded: Vec<Call> = order.iter().map(|i| calls[*i].clone()).collect();
    let (now, end) = run(side, first, &traded);
    let same = order.iter().zip(&now).all(|(i, g)| *g == given[*i]);
    if !same || end != last {
        tally.failures += 1;
        println!("a history of {} events differs after trades", calls.len());
    }
    tally.histories += 1;
    tally.events += calls.len() as u64;
}

fn main() {
    let mut args = std::env::args().skip(1);
    let seed = args.next().and_then(|w| w.parse().ok()).unwrap_or(1);
    let lines = args.next().and_then(|w| w.parse().ok()).unwrap_or(20_000);
    let mut words: Vec<String> = args.collect();
    let side: Side = match words.last().map(String::as_str) {
        Some("second") => by_second,
        _ => by_proved,
    };
    words.retain(|word| word != "second");
    let word = words.first().map(String::as_str);
    let (name, kinds) = asked("trades", word, &[Kind::Event]);
    let mut rng = Rng::new(seed);
    let mut tally = Tally::default();
    let mut first = World::new(Gateway::ZERO, 0);
    let mut calls = vec![];
    // a history's hold starts as the script painted it last
    let mut byte = 0;
    for line in generated_of(kinds[0], seed, lines) {
        match line {
            Line::Call(call) => calls.push(call),
            Line::Paint(with) => byte = with,
            Line::Plan(file) => {
                history(side, &first, &calls, &mut rng, &mut tally);
                first = World::new(load(&file).gateway, byte);
                calls.clear();
            }
        }
    }
    history(side, &first, &calls, &mut rng, &mut tally);
    let Tally {
        histories,
        events,
        trades,
        forbidden,
        forbidden_felt,
        units,
        failures,
    } = tally;
    println!("{name}, seed {seed}: {histories} histories of {events} events that send out {units} held units, {trades} allowed trades, {failures} failures; {forbidden_felt} of {forbidden} trades that are not allowed change something");
    // a run in which nothing was traded, no unit went out, or no forbidden trade shows, says nothing
    let empty = trades == 0 || units == 0 || forbidden_felt == 0;
    std::process::exit((failures > 0 || empty) as i32);
}
