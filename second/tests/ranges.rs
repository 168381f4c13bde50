//! Ranges of identifiers in Active and Inactive, and in reach: case by case, and
//! against a plain walk over identifiers.

#[path = "common/ids.rs"]
mod ids;

use ids::Param::{self, Ids, Ranges};
use second::events::{bits, Event};
use second::generate::Rng;
use second::{load, Gateway, HOLD_BYTES};

const MAX: u32 = u32::MAX;

/// Active (1) or Inactive (2).
fn message(kind: u8, params: &[Param]) -> Vec<u8> {
    ids::message(kind, 0, params)
}

/// The state of a plan whose only ASP is in the ASes of the mask and up. All
/// ASes share the load; links are identifiers with owners.
fn state(mask: u16, ases: u32, links: &[(u32, u32)]) -> Gateway {
    let links_at = 32 + 4 * ases;
    let mut words = vec![24, 1, 32, ases, links_at, links.len() as u32];
    words.extend([7, (mask as u32) << 16]);
    words.extend((0..ases).map(|_| 2));
    words.extend(links.iter().flat_map(|(id, owner)| [*id, *owner]));
    let file: Vec<u8> = words.iter().flat_map(|word| word.to_be_bytes()).collect();
    let loaded = load(&file);
    assert_eq!(loaded.code, 0);
    let mut g = loaded.gateway;
    g.up[0] = 1;
    g
}

/// Link i is of AS i, all of which have the ASP.
fn one_each(ids: impl Iterator<Item = u32>) -> Gateway {
    let links: Vec<(u32, u32)> = ids.zip(0..).collect();
    state(MAX as u16, 16, &links)
}

/// Sends a message; the orders, and the next state.
fn send(g: &Gateway, m: &[u8]) -> (Vec<[u32; 4]>, Gateway) {
    let mut list = [0; 1544];
    let next = g.message(0, m, &mut [0; HOLD_BYTES], &mut list);
    assert_eq!(next.code, 0);
    let orders = &list.as_chunks::<4>().0[..next.count as usize];
    (orders.to_vec(), next.gateway)
}

/// The ASes named, as bits, or the identifier of Error 2: of an Active at a
/// state where the ASP is active nowhere, and of an Inactive at one where it is
/// active in all of its ASes, which must agree. Lists are taken whole; where part
/// of one may succeed, the Error is the same one and the ASes are those reached.
fn answer(g: &Gateway, params: &[Param]) -> Result<u16, u32> {
    let active = |g: &Gateway| (0..16).fold(0, |all, a| all | (g.is_active(a, 0) as u16) << a);
    let whole = |g: &Gateway, mark: u8| {
        let mut g = *g;
        g.wholelists[0] = mark;
        g
    };
    let (_, full) = send(g, &message(1, &[]));
    let mut answers = Vec::new();
    for (kind, before) in [(1, *g), (2, full)] {
        let m = message(kind, params);
        let (orders, after) = send(&whole(&before, 1), &m);
        let ack = [0, 0x402 + kind as u32, 0, 0];
        let changed = active(&before) ^ active(&after);
        let all = match orders[0] {
            [0, 0, id, 2] => {
                assert_eq!((orders.len(), changed), (1, 0));
                Err(id)
            }
            order => {
                assert_eq!(order, ack);
                Ok(changed)
            }
        };
        let (orders, after) = send(&whole(&before, 0), &m);
        let part = active(&before) ^ active(&after);
        assert_eq!(part, reached(g, params), "{params:?}");
        match all {
            Ok(named) => assert_eq!((orders[0], part), (ack, named)),
            Err(id) if part == 0 => assert_eq!(orders, [[0, 0, id, 2]]),
            Err(id) => assert_eq!(orders[..2], [ack, [0, 0, id, 2]]),
        }
        answers.push(all);
    }
    assert_eq!(answers[0], answers[1], "{params:?}");
    answers[0]
}

/// The ASes reached by an Active, which an Inactive reaches too.
fn reached(g: &Gateway, params: &[Param]) -> u16 {
    let of = |kind: u8| {
        let message = &message(kind, params)[..];
        g.reach(Event::Message { asp: 0, message }, HOLD_BYTES, 1544)
    };
    assert_eq!(of(1), of(2));
    of(1)
}

/// The same told by a walk: the first answer over identifiers in received
/// order, and the ASes reached over links.
fn by_walk(g: &Gateway, params: &[Param]) -> (Result<u16, u32>, u16) {
    let mut ranges = Vec::new();
    for param in params {
        match param {
            Ids(ids) => ranges.extend(ids.iter().map(|id| (*id, *id))),
            Ranges(more) => ranges.extend(more),
        }
    }
    let links = &g.link_id[..g.links as usize];
    let (mut named, mut refused, mut reached) = (0, None, 0);
    for (start, stop) in ranges {
        for (place, id) in links.iter().enumerate() {
            let a = g.owner[place] as usize;
            if start <= *id && *id <= stop && g.member[16 * a] == 1 {
                reached |= 1 << a;
            }
        }
        let mut id = start;
        while refused.is_none() {
            match links.iter().position(|other| *other == id) {
                Some(place) if g.member[16 * g.owner[place] as usize] == 1 => {
                    named |= 1 << g.owner[place]
                }
                _ => refused = Some(id),
            }
            if id == stop {
                break;
            }
            id += 1;
        }
    }
    (refused.map_or(Ok(named), Err), reached)
}

/// Both answers are those of the walk.
fn check(g: &Gateway, params: &[Param]) {
    let expected = by_walk(g, params);
    let found = (answer(g, params), reached(g, params));
    assert_eq!(found, expected, "{params:?}");
}

/// One range.
fn range(start: u32, stop: u32) -> [Param; 1] {
    [Ranges(vec![(start, stop)])]
}

/// These ASes.
fn ases(list: &[u16]) -> u16 {
    list.iter().fold(0, |all, a| all | 1 << a)
}

#[test]
fn stop_is_meant() {
    let g = one_each(100..116);
    assert_eq!(answer(&g, &range(100, 115)), Ok(0xffff));
    assert_eq!(answer(&g, &range(100, 114)), Ok(0x7fff));
    assert_eq!(answer(&g, &range(101, 115)), Ok(0xfffe));
    assert_eq!(answer(&g, &range(103, 106)), Ok(ases(&[3, 4, 5, 6])));
    assert_eq!(reached(&g, &range(103, 106)), ases(&[3, 4, 5, 6]));
    assert_eq!(answer(&g, &range(100, 116)), Err(116));
    assert_eq!(reached(&g, &range(100, 116)), 0xffff);
}

#[test]
fn the_last_link_alone() {
    // AS 1 has only the last link of 16, or of 128.
    for count in [16, 128] {
        let links: Vec<(u32, u32)> = (0..count).map(|l| (l, (l == count - 1) as u32)).collect();
        let g = state(3, 2, &links);
        for start in 0..count - 1 {
            assert_eq!(answer(&g, &range(start, count - 1)), Ok(3));
            assert_eq!(answer(&g, &range(start, count - 2)), Ok(1));
            assert_eq!(reached(&g, &range(start, count - 1)), 3);
            assert_eq!(reached(&g, &range(start, count - 2)), 1);
        }
        // Without it the ASP is refused there, and only there.
        let g = state(1, 2, &links);
        assert_eq!(answer(&g, &range(0, count - 1)), Err(count - 1));
        assert_eq!(answer(&g, &range(0, count - 2)), Ok(1));
    }
}

#[test]
fn the_first_is_missing() {
    let g = one_each(100..104);
    assert_eq!(answer(&g, &range(99, 103)), Err(99));
    assert_eq!(answer(&g, &range(99, 99)), Err(99));
    assert_eq!(answer(&g, &range(0, 101)), Err(0));
    assert_eq!(answer(&g, &range(104, 104)), Err(104));
    assert_eq!(answer(&g, &range(104, MAX)), Err(104));
    assert_eq!(reached(&g, &range(99, 101)), ases(&[0, 1]));
    assert_eq!(reached(&g, &range(104, MAX)), 0);
    // As many identifiers as links, one too low.
    let g = one_each([1, 2, 3, 5].into_iter());
    assert_eq!(answer(&g, &range(0, 3)), Err(0));
    assert_eq!(answer(&g, &range(4, 5)), Err(4));
}

#[test]
fn a_gap_inside() {
    let g = one_each((0..10).filter(|id| *id != 5));
    assert_eq!(answer(&g, &range(0, 4)), Ok(0x1f));
    assert_eq!(answer(&g, &range(6, 9)), Ok(0x1e0));
    for (start, stop) in [(0, 9), (0, 5), (4, 6), (5, 5), (5, 9), (0, MAX)] {
        assert_eq!(answer(&g, &range(start, stop)), Err(5));
    }
    assert_eq!(reached(&g, &range(4, 6)), ases(&[4, 5]));
    assert_eq!(reached(&g, &range(5, 5)), 0);
    // Two gaps: the lower one.
    let g = one_each([0, 1, 3, 5, 6].into_iter());
    assert_eq!(answer(&g, &range(0, 6)), Err(2));
    assert_eq!(answer(&g, &range(3, 6)), Err(4));
}

#[test]
fn all_numbers() {
    let whole = range(0, MAX);
    assert_eq!(answer(&one_each(0..16), &whole), Err(16));
    assert_eq!(answer(&one_each(1..17), &whole), Err(0));
    let ends = one_each([0, MAX].into_iter());
    assert_eq!(answer(&ends, &whole), Err(1));
    assert_eq!(reached(&ends, &whole), 3);
    let none = one_each(0..0);
    assert_eq!((answer(&none, &whole), reached(&none, &whole)), (Err(0), 0));
    let links: Vec<(u32, u32)> = (0..128).map(|l| (l, l % 16)).collect();
    let full = state(0xffff, 16, &links);
    assert_eq!(answer(&full, &whole), Err(128));
    assert_eq!(reached(&full, &whole), 0xffff);
    // Links 9, 25 and so on are of an AS without the ASP.
    let some = state(0xfdff, 16, &links);
    assert_eq!(answer(&some, &whole), Err(9));
}

#[test]
fn at_both_ends() {
    let g = one_each([0, 1, MAX - 1, MAX].into_iter());
    for (start, stop, expected) in [
        (0, 0, Ok(1)),
        (0, 1, Ok(3)),
        (1, 1, Ok(2)),
        (MAX - 1, MAX, Ok(0xc)),
        (MAX, MAX, Ok(8)),
        (MAX - 1, MAX - 1, Ok(4)),
        (0, 2, Err(2)),
        (1, MAX, Err(2)),
        (MAX - 2, MAX, Err(MAX - 2)),
    ] {
        assert_eq!(answer(&g, &range(start, stop)), expected);
        check(&g, &range(start, stop));
    }
    // The last place and the last number, with a full table.
    let links: Vec<(u32, u32)> = (0..128).map(|l| (MAX - 127 + l, l / 8)).collect();
    let g = state(0xffff, 16, &links);
    assert_eq!(answer(&g, &range(MAX - 127, MAX)), Ok(0xffff));
    assert_eq!(answer(&g, &range(MAX - 7, MAX)), Ok(0x8000));
    assert_eq!(answer(&g, &range(MAX - 128, MAX)), Err(MAX - 128));
}

#[test]
fn several_ranges() {
    let g = one_each(50..66);
    for (name, ranges, expected) in [
        ("one element", vec![(53, 53)], ases(&[3])),
        ("nested", vec![(50, 57), (52, 55), (53, 53)], 0xff),
        (
            "nested, inner first",
            vec![(53, 53), (52, 55), (50, 57)],
            0xff,
        ),
        ("overlapping", vec![(50, 53), (52, 56), (55, 58)], 0x1ff),
        (
            "overlapping, downwards",
            vec![(55, 58), (52, 56), (50, 53)],
            0x1ff,
        ),
        ("adjacent", vec![(50, 52), (53, 55), (56, 56)], 0x7f),
        (
            "adjacent, downwards",
            vec![(56, 56), (53, 55), (50, 52)],
            0x7f,
        ),
        ("repeated", vec![(60, 62); 9], ases(&[10, 11, 12])),
        ("repeated ones", vec![(65, 65); 9], 0x8000),
        ("apart", vec![(50, 50), (65, 65), (57, 58)], 0x8181),
    ] {
        assert_eq!(
            answer(&g, &[Ranges(ranges.clone())]),
            Ok(expected),
            "{name}"
        );
        assert_eq!(reached(&g, &[Ranges(ranges.clone())]), expected, "{name}");
        // Each in a parameter of its own.
        let apart: Vec<Param> = ranges.iter().map(|one| Ranges(vec![*one])).collect();
        assert_eq!(answer(&g, &apart), Ok(expected), "{name}");
        assert_eq!(reached(&g, &apart), expected, "{name}");
    }
    // One range too far, behind others.
    let far = vec![(50, 57), (52, 55), (60, 66)];
    assert_eq!(answer(&g, &[Ranges(far)]), Err(66));
    let low = vec![(50, 57), (49, 55), (60, 66)];
    assert_eq!(answer(&g, &[Ranges(low)]), Err(49));
}

#[test]
fn lists_and_ranges() {
    let g = one_each(50..66);
    for (params, expected) in [
        (vec![Ids(vec![50, 51]), Ranges(vec![(52, 54)])], Ok(0x1f)),
        (vec![Ranges(vec![(52, 54)]), Ids(vec![55, 50])], Ok(0x3d)),
        (
            vec![
                Ranges(vec![(50, 51)]),
                Ids(vec![52]),
                Ranges(vec![(53, 54)]),
            ],
            Ok(0x1f),
        ),
        (
            vec![Ids(vec![60]), Ids(vec![58]), Ranges(vec![(50, 50)])],
            Ok(0x501),
        ),
        // What lies behind the first that is refused does not matter.
        (vec![Ids(vec![50, 66]), Ranges(vec![(49, 54)])], Err(66)),
        (vec![Ranges(vec![(49, 54)]), Ids(vec![50, 66])], Err(49)),
        (vec![Ranges(vec![(60, 70)]), Ids(vec![49])], Err(66)),
        (vec![Ids(vec![49]), Ranges(vec![(60, 70)])], Err(49)),
        (vec![Ranges(vec![(50, 65)]), Ids(vec![66])], Err(66)),
    ] {
        assert_eq!(answer(&g, &params), expected, "{params:?}");
        check(&g, &params);
    }
}

/// The ASP has no part in AS 1; links 50 to 57 are of AS 0 but for 53, and 55 is
/// missing.
#[test]
fn links_of_others() {
    let links = [50, 51, 52, 53, 54, 56, 57].map(|id| (id, (id == 53) as u32));
    let g = state(1, 2, &links);
    let one = |id| Ids(vec![id]);
    let many = |list: &[(u32, u32)]| Ranges(list.to_vec());
    for (params, expected) in [
        // First, last, in the middle, alone.
        (vec![many(&[(53, 54)])], Err(53)),
        (vec![many(&[(50, 53)])], Err(53)),
        (vec![many(&[(51, 54)])], Err(53)),
        (vec![many(&[(53, 53)])], Err(53)),
        (vec![one(53)], Err(53)),
        (vec![many(&[(50, 52), (54, 54), (56, 57)])], Ok(1)),
        // Before a gap, and behind one.
        (vec![many(&[(50, 57)])], Err(53)),
        (vec![many(&[(54, 57)])], Err(55)),
        (vec![many(&[(49, 57)])], Err(49)),
        (vec![many(&[(0, MAX)])], Err(0)),
        (vec![many(&[(50, MAX)])], Err(53)),
        // Of two that are refused, the one named first.
        (vec![many(&[(54, 57), (50, 53)])], Err(55)),
        (vec![many(&[(50, 53), (54, 57)])], Err(53)),
        (vec![many(&[(50, 53)]), one(55)], Err(53)),
        (vec![one(55), many(&[(50, 53)])], Err(55)),
        (vec![many(&[(50, 52)]), one(53), many(&[(54, 57)])], Err(53)),
        (vec![many(&[(50, 52)]), one(58), many(&[(50, 53)])], Err(58)),
    ] {
        assert_eq!(answer(&g, &params), expected, "{params:?}");
        check(&g, &params);
    }
    // Two of others: the one named first, which is not the lower one.
    let links = [(1, 1), (2, 0), (3, 2), (4, 0)];
    let g = state(1, 3, &links);
    assert_eq!(answer(&g, &[many(&[(2, 4), (1, 2)])]), Err(3));
    assert_eq!(answer(&g, &[many(&[(1, 2), (2, 4)])]), Err(1));
    assert_eq!(answer(&g, &[many(&[(2, 4)]), one(1)]), Err(3));
    assert_eq!(answer(&g, &[one(1), many(&[(2, 4)])]), Err(1));
}

#[test]
fn the_longest_messages() {
    let links: Vec<(u32, u32)> = (0..128).map(|l| (l, l % 16)).collect();
    let g = state(0xffff, 16, &links);
    let ids: Vec<u32> = (0..509).map(|i| i * 37 % 128).collect();
    let mut ones: Vec<(u32, u32)> = (0..254).map(|i| (i * 16 % 128, i * 16 % 128)).collect();
    let apart: Vec<Param> = (0..170).map(|_| Ranges(vec![(0, 127)])).collect();
    assert_eq!(message(1, &[Ids(ids.clone())]).len(), 2048);
    assert_eq!(message(1, &apart).len(), 2048);
    assert_eq!(answer(&g, &[Ids(ids)]), Ok(0xffff));
    assert_eq!(answer(&g, &[Ranges(vec![(0, 127); 254])]), Ok(0xffff));
    assert_eq!(answer(&g, &apart), Ok(0xffff));
    assert_eq!(answer(&g, &[Ranges(ones.clone())]), Ok(1));
    // The last range counts as the first does.
    ones[253] = (21, 22);
    assert_eq!(answer(&g, &[Ranges(ones.clone())]), Ok(ases(&[0, 5, 6])));
    ones[253] = (127, 128);
    assert_eq!(answer(&g, &[Ranges(ones)]), Err(128));
}

/// Every range over all numbers about a small table, with every mask.
#[test]
fn all_ranges_of_small_plans() {
    for ids in [
        vec![],
        vec![0],
        vec![3],
        vec![1, 2, 3],
        vec![0, 1, 3, 4],
        vec![0, 2, 4, 6],
        vec![1, 2, 5, 6, 7],
        vec![0, 1, 2, 3, 5, 6],
    ] {
        let links: Vec<(u32, u32)> = ids.iter().map(|id| (*id, id % 3)).collect();
        // The same at the end of all numbers.
        let high: Vec<(u32, u32)> = links.iter().map(|(id, a)| (MAX - 8 + id, *a)).collect();
        for mask in 0..8 {
            let (low, high) = (state(mask, 3, &links), state(mask, 3, &high));
            for start in 0..=8 {
                for stop in start..=8 {
                    check(&low, &range(start, stop));
                    check(&high, &range(MAX - 8 + start, MAX - 8 + stop));
                }
            }
        }
    }
}

/// Every range of a full table.
#[test]
fn all_ranges_of_a_full_plan() {
    let links: Vec<(u32, u32)> = (0..128).map(|l| (l + 5, l / 8)).collect();
    let (all, some) = (state(0xffff, 16, &links), state(0xbffe, 16, &links));
    for start in 4..134 {
        for stop in start..134 {
            check(&all, &range(start, stop));
            check(&some, &range(start, stop));
        }
    }
}

/// Messages of several parameters, at random, about tables with gaps.
#[test]
fn random_messages() {
    let mut rng = Rng::new(3);
    let (mut accepted, mut refused) = (0, 0);
    for _ in 0..2000 {
        let gap = rng.range(2, 20);
        let ids = (0..40u32).filter(|_| !rng.one_in(gap));
        let links: Vec<u32> = ids.collect();
        let links: Vec<(u32, u32)> = links.iter().map(|id| (*id, rng.below(5) as u32)).collect();
        let g = state(rng.pick(&[31, 31, 30, 15, 27]), 5, &links);
        for _ in 0..10 {
            let reach = rng.pick(&[1, 2, 4, 10, 42]);
            let mut pair = || {
                let start = rng.below(41) as u32;
                (start, start + rng.below(reach) as u32)
            };
            let mut params = vec![Ranges(vec![pair()])];
            for _ in 0..4 {
                let (a, b) = (pair(), pair());
                match a.0 % 4 {
                    0 => params.push(Ranges(vec![a, b])),
                    1 => params.insert(0, Ids(vec![a.0, b.0])),
                    2 => params.push(Ids(vec![a.0])),
                    _ => {}
                }
            }
            check(&g, &params);
            match answer(&g, &params) {
                Ok(named) => accepted += (bits(named).count() > 1) as u32,
                Err(_) => refused += 1,
            }
        }
    }
    println!("{accepted} accepted in two ASes or more, {refused} refused");
    assert!(accepted > 1000 && refused > 5000);
}
