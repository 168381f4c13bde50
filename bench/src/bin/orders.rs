//! Actions as bytes, call by call through the proved library and through the second program. Of each event of
//! generated histories every place is tried, with buffers of the message's length, one short, longer and of
//! no byte, and so is the batch form from random places, with random lists and buffers, also against the
//! single form. Then the event with all its bytes by one call, against the event and the batch, and against
//! the second program's; and the same with a room that is short, which is refused (103) and changes nothing.
//! Results and all bytes and lengths, with guards around what is lent, must be the same.
//! `orders SEED LINES [KIND]`; KIND: event, bytes (where none is given, half of the lines are of each),
//! ranges, partly.
use bench::lines::{asked, generated_of, Call, Hold, Line};
use bench::proved::{self, Batch, Written};
use second::bytes::{MAX_ORDERS, ROOM_BYTES};
use second::events::LIST_WORDS;
use second::generate::{Kind, Rng};
use second::{load, Gateway};
use std::collections::BTreeMap;

/// What stands around a lent slice, and in it before a call.
const GUARD: usize = 64;
const LEFT: u8 = 0xa5;
const UNSET: u32 = 0xdead_beef;

/// The state that an event meets, and the hold that it is lent.
type Met<'a> = (&'a Gateway, &'a [u8]);

/// A slice to lend, with guards.
struct Lent<T>(Vec<T>);

impl<T: Copy + PartialEq> Lent<T> {
    fn new(size: usize, left: T) -> Self {
        Lent(vec![left; size + 2 * GUARD])
    }

    fn lend(&mut self) -> &mut [T] {
        let end = self.0.len() - GUARD;
        &mut self.0[GUARD..end]
    }
}

#[derive(Default)]
struct Tried {
    singles: u64,
    batches: u64,
    failures: u64,
    /// Results of the single form, of the batch form, and the messages by class and type.
    codes: BTreeMap<u32, u64>,
    batch_codes: BTreeMap<u32, u64>,
    types: BTreeMap<(u8, u8), u64>,
    /// Most actions in one batch.
    most: usize,
    /// Events with all their bytes, and rooms that were short.
    whole: u64,
    short: u64,
}

/// What an event with all its bytes is lent, kept from event to event, as a host keeps it.
struct Room {
    words: [u32; LIST_WORDS],
    lens: [u32; MAX_ORDERS],
    out: Lent<u8>,
}

impl Room {
    fn new() -> Box<Room> {
        Box::new(Room {
            words: [UNSET; LIST_WORDS],
            lens: [UNSET; MAX_ORDERS],
            out: Lent::new(ROOM_BYTES, LEFT),
        })
    }

    /// As it was before an event that wrote so many bytes.
    fn clear(&mut self, bytes: usize) {
        self.words.fill(UNSET);
        self.lens.fill(UNSET);
        self.out.0[..bytes + 2 * GUARD].fill(LEFT);
    }

    /// Whether nothing is written behind so many actions and bytes (and two guards behind them).
    fn ends_at(&self, count: usize, bytes: usize) -> bool {
        let untouched = self.words[4 * count..].iter().all(|w| *w == UNSET)
            && self.lens[count..].iter().all(|l| *l == UNSET);
        let guards = [
            &self.out.0[..GUARD],
            &self.out.0[GUARD + bytes..2 * GUARD + bytes],
        ];
        untouched && guards.concat().iter().all(|byte| *byte == LEFT)
    }
}

impl Tried {
    fn expect(&mut self, same: bool, call: &Call, what: &str, place: usize, room: usize) {
        if same {
            return;
        }
        self.failures += 1;
        if self.failures <= 5 {
            println!("differs: {what}, place {place}, buffer of {room}: {call:?}");
        }
    }

    /// One place with one buffer.
    fn single(&mut self, call: &Call, (state, hold): Met, place: usize, room: usize) {
        let (mut x, mut y) = (Lent::new(room, LEFT), Lent::new(room, LEFT));
        let a = call.order(state, hold, place, x.lend());
        let b = state.order_bytes(call.event(), hold, place as u32, y.lend());
        let same = (a.code, a.length) == (b.code, b.length as usize) && x.0 == y.0;
        self.expect(same, call, "single", place, room);
        self.singles += 1;
        *self.codes.entry(b.code).or_insert(0) += 1;
        if b.code == 0 {
            let kind = (y.0[GUARD + 2], y.0[GUARD + 3]);
            *self.types.entry(kind).or_insert(0) += 1;
        }
    }

    fn all_places(&mut self, call: &Call, met: Met, count: usize, rng: &mut Rng) {
        for place in (0..count + 2).chain([u32::MAX as usize]) {
            let mut whole = [0; 2048];
            let length = met
                .0
                .order_bytes(call.event(), met.1, place as u32, &mut whole)
                .length as usize;
            self.single(call, met, place, length);
            self.single(call, met, place, length + 1 + rng.below(99) as usize);
            self.single(call, met, place, 0);
            if length > 0 {
                self.single(call, met, place, length - 1);
                self.single(call, met, place, rng.below(length as u64) as usize);
            }
        }
    }

    /// One batch.
    fn batch(&mut self, call: &Call, met: Met, place: usize, slots: usize, room: usize) {
        let (state, hold) = met;
        let (mut x, mut y, mut z) = (
            Lent::new(room, LEFT),
            Lent::new(room, LEFT),
            Lent::new(room, LEFT),
        );
        let (mut k, mut l, mut m) = (
            Lent::new(slots, UNSET),
            Lent::new(slots, UNSET),
            Lent::new(slots, UNSET),
        );
        let a = call.orders(state, hold, place, k.lend(), x.lend());
        let b = state.orders_bytes(call.event(), hold, place as u32, l.lend(), y.lend());
        let numbers = (b.code, b.count as usize, b.length as usize);
        let same = (a.code, a.count, a.length) == numbers && k.0 == l.0 && x.0 == y.0;
        self.expect(same, call, "batch", place, room);
        let c = by_singles(call, met, place, m.lend(), z.lend());
        let same = a == c && k.0 == m.0 && x.0 == z.0;
        self.expect(same, call, "batch against single", place, room);
        self.batches += 1;
        *self.batch_codes.entry(b.code).or_insert(0) += 1;
        self.most = self.most.max(a.count);
    }

    fn some_batches(&mut self, call: &Call, met: Met, count: usize, rng: &mut Rng) {
        for _ in 0..3 {
            let place = rng.below(count as u64 + 2) as usize;
            let slots = rng.pick(&[0, 1, 2, 3, 8, 257, 258, 385, 400]);
            let room = rng.pick(&[0, 8, 16, 24, 48, 64, 100, 1000, 14_000]);
            self.batch(call, met, place, slots, room + rng.below(48) as usize);
        }
        self.batch(call, met, 0, 386, 65_536);
    }

    /// What a host does: batch after batch until all are written. The messages are those of the single form.
    fn host(&mut self, call: &Call, (state, hold): Met, count: usize, rng: &mut Rng) {
        let (slots, room) = (rng.range(1, 40) as usize, 2048 + rng.below(4096) as usize);
        let (mut lens, mut out) = (vec![UNSET; slots], vec![LEFT; room]);
        let mut place = 0;
        while place < count {
            let batch = call.orders(state, hold, place, &mut lens, &mut out);
            let mut at = 0;
            let mut same = batch.code == 0 && batch.count > 0;
            for (i, len) in lens[..batch.count].iter().enumerate() {
                let end = at + *len as usize;
                let mut message = [0; 2048];
                let one = call.order(state, hold, place + i, &mut message);
                same &= one.length == *len as usize && out[at..end] == message[..one.length];
                at = end;
            }
            same &= at == batch.length;
            self.expect(same, call, "host", place, room);
            if !same {
                return;
            }
            place += batch.count;
        }
        self.expect(place == count, call, "host's last place", place, room);
    }

    /// The event with all its bytes by one call: the state, the hold and the words of the event alone, and
    /// the bytes of the batch.
    fn whole(
        &mut self,
        call: &Call,
        (state, hold): Met,
        rooms: &mut [Box<Room>; 2],
        rng: &mut Rng,
    ) {
        let (mut g, mut h, mut alone) = (*state, *state, *state);
        let (mut u, mut v, mut w) = (hold.to_vec(), hold.to_vec(), hold.to_vec());
        let [ours, theirs] = rooms;
        // short by one byte or by more: refused, after what else is wrong, and nothing changes
        let bytes = rng.pick(&[0, 1, 2048, 65_536, ROOM_BYTES - 1]);
        let no = call.handled(
            &mut g,
            &mut u,
            &mut ours.words,
            &mut ours.lens,
            &mut ours.out.lend()[..bytes],
        );
        let theirs_no = h.handle(
            call.event(),
            &mut v,
            &mut theirs.words,
            &mut theirs.lens,
            &mut theirs.out.lend()[..bytes],
        );
        let mut words = [UNSET; LIST_WORDS];
        let done = call.proved(&mut alone, &mut w, &mut words);
        let code = if done.refusal == 0 { 103 } else { done.refusal };
        let refused = (no.refusal, no.count, no.length) == (code, 0, 0)
            && (theirs_no.code, theirs_no.count, theirs_no.length) == (code, 0, 0);
        let kept = g == *state
            && h == *state
            && u == hold
            && v == hold
            && ours.ends_at(0, 0)
            && theirs.ends_at(0, 0);
        self.expect(refused && kept, call, "a short room", 0, bytes);
        self.short += 1;
        let a = call.handled(
            &mut g,
            &mut u,
            &mut ours.words,
            &mut ours.lens,
            ours.out.lend(),
        );
        let b = h.handle(
            call.event(),
            &mut v,
            &mut theirs.words,
            &mut theirs.lens,
            theirs.out.lend(),
        );
        let numbers = (b.code, b.count as usize, b.length as usize);
        let same = (a.refusal, a.count, a.length) == numbers
            && (a.refusal, a.count) == (done.refusal, done.count)
            && (g == h && g == alone && u == v && u == w)
            && (ours.words == theirs.words && ours.words == words && ours.lens == theirs.lens);
        let end = 2 * GUARD + a.length;
        let same =
            same && ours.out.0[..end] == theirs.out.0[..end] && ours.ends_at(a.count, a.length);
        self.expect(same, call, "with its bytes", 0, ROOM_BYTES);
        if a.count > 0 {
            let (mut lens, mut out) = (Lent::new(MAX_ORDERS, UNSET), Lent::new(a.length, LEFT));
            let batch = call.orders(state, hold, 0, lens.lend(), out.lend());
            let same = (batch.code, batch.count, batch.length) == (0, a.count, a.length)
                && *lens.lend() == ours.lens
                && *out.lend() == ours.out.lend()[..a.length];
            self.expect(
                same,
                call,
                "with its bytes against the batch",
                0,
                ROOM_BYTES,
            );
        }
        ours.clear(a.length);
        theirs.clear(a.length);
        self.whole += 1;
    }

    /// Numbers beyond 32 bits are not cut, and a kind that there is not is an ASP beyond the plan.
    fn wide(&mut self, call: &Call, (state, hold): Met, refusal: u32) {
        let (far, kind, index) = (1 << 32, call.what as u32, call.index as usize);
        let wrong = if state.is_sound() { 102 } else { 105 };
        let beyond = match refusal {
            0 => 104,
            refusal => refusal,
        };
        let has_index = !matches!(call.what, bench::lines::What::LinkMessage);
        let far_index = if has_index { far + index } else { index };
        let wrong_index = if has_index { wrong } else { beyond };
        for (kind, index, place, code) in [
            (kind, index, far, beyond),
            (kind, far_index, far, wrong_index),
            (6, index, 0, wrong),
            (u32::MAX, index, 0, wrong),
        ] {
            let (mut lens, mut out) = ([UNSET; 4], [LEFT; 64]);
            let a = proved::order(state, kind, index, &call.message, hold, place, &mut out);
            let b = proved::orders(
                state,
                kind,
                index,
                &call.message,
                hold,
                place,
                &mut lens,
                &mut out,
            );
            let nothing = lens == [UNSET; 4] && out == [LEFT; 64];
            let same = (a.code, a.length, b.code, b.count, b.length) == (code, 0, code, 0, 0);
            self.expect(same && nothing, call, "wide numbers", place, 64);
        }
    }
}

/// The batch form, told by the single form of the proved library.
fn by_singles(
    call: &Call,
    (state, hold): Met,
    place: usize,
    lens: &mut [u32],
    out: &mut [u8],
) -> Batch {
    let refused = |code| Batch {
        code,
        count: 0,
        length: 0,
    };
    let mut words = [0; LIST_WORDS];
    let next = call.second(&mut { *state }, &mut hold.to_vec(), &mut words);
    if next.code != 0 {
        return refused(next.code);
    }
    if place >= next.count as usize {
        return refused(104);
    }
    let (mut count, mut length) = (0, 0);
    while place + count < next.count as usize && count < lens.len() {
        let written = call.order(state, hold, place + count, &mut out[length..]);
        let to_link_side = words[4 * (place + count)] == 255;
        match written {
            Written { code: 0, .. } if !to_link_side => {}
            Written { code: 104, .. } if to_link_side => {}
            Written { code: 103, .. } => break,
            Written { code, .. } => return refused(1000 + code),
        }
        lens[count] = written.length as u32;
        length += written.length;
        count += 1;
    }
    match count {
        0 => refused(103),
        _ => Batch {
            code: 0,
            count,
            length,
        },
    }
}

fn main() {
    let mut args = std::env::args().skip(1);
    let seed = args.next().and_then(|w| w.parse().ok()).unwrap_or(1);
    let lines = args.next().and_then(|w| w.parse().ok()).unwrap_or(10_000);
    let usual = [Kind::Event, Kind::Bytes];
    let (name, kinds) = asked("orders", args.next().as_deref(), &usual);
    let share = lines / kinds.len() as u64;
    let mut rng = Rng::new(seed);
    let mut tried = Tried::default();
    let mut events = 0;
    let mut rooms = [Room::new(), Room::new()];
    for kind in kinds {
        let mut state = Gateway::ZERO;
        let mut hold = Hold::default();
        for line in generated_of(kind, seed, share) {
            let mut call = match line {
                Line::Plan(file) => {
                    state = load(&file).gateway;
                    continue;
                }
                Line::Paint(byte) => {
                    hold.kept.fill(byte);
                    continue;
                }
                Line::Call(call) => call,
            };
            // the list's length plays no part
            call.room = LIST_WORDS;
            let before = hold.lent(call.hold).to_vec();
            let was = state;
            let next = call.second(&mut state, hold.lend(call.hold), &mut [0; LIST_WORDS]);
            let count = next.count as usize;
            let met = (&was, &before[..]);
            tried.all_places(&call, met, count, &mut rng);
            tried.some_batches(&call, met, count, &mut rng);
            tried.host(&call, met, count, &mut rng);
            tried.wide(&call, met, next.code);
            tried.whole(&call, met, &mut rooms, &mut rng);
            events += 1;
        }
    }
    let Tried {
        singles,
        batches,
        failures,
        most,
        whole,
        short,
        ..
    } = tried;
    println!("{name}, seed {seed}: {events} events, {singles} single calls (results {:?}), {batches} batches (results {:?}, at most {most} actions in one), {whole} events with all their bytes, {short} short rooms, {failures} differences", tried.codes, tried.batch_codes);
    println!("  messages by class and type: {:?}", tried.types);
    std::process::exit((failures > 0) as i32);
}
