//! Part of a list may succeed: Active and Inactive act on the good identifiers
//! and tell of the first bad one (Rules 7.8 to 7.10, 8.11, 9.2).

#[path = "common/ids.rs"]
mod ids;

use ids::message;
use ids::Param::{self, Ids, Ranges};
use second::events::Event;
use second::{is_sound, load, Gateway, HOLD_BYTES};

const MAX: u32 = u32::MAX;

/// A plan file: ASPs as masks with spares, modes, links with owners.
fn plan(asps: &[(u16, u16)], modes: &[u32], links: &[(u32, u32)]) -> Vec<u8> {
    let ases_at = 24 + 8 * asps.len() as u32;
    let links_at = ases_at + 4 * modes.len() as u32;
    let mut words = vec![24, asps.len() as u32, ases_at, modes.len() as u32];
    words.extend([links_at, links.len() as u32]);
    for (p, (mask, spare)) in asps.iter().enumerate() {
        words.extend([p as u32, (*mask as u32) << 16 | *spare as u32]);
    }
    words.extend(modes);
    words.extend(links.iter().flat_map(|(id, owner)| [*id, *owner]));
    words.iter().flat_map(|word| word.to_be_bytes()).collect()
}

/// ASP 0 is in AS 0 (override) and AS 1 (load-share), and so is ASP 1, whose
/// lists are taken whole; ASP 2 is in AS 2 (broadcast). Of AS 2 are links 13 and
/// 30, of AS 1 links 14 and 20 to 22, of AS 0 links 10 to 12. All ASPs are up.
fn state() -> Gateway {
    let links = [10, 11, 12, 13, 14, 20, 21, 22, 30].map(|id| match id {
        10..=12 => (id, 0),
        13 | 30 => (id, 2),
        _ => (id, 1),
    });
    let loaded = load(&plan(&[(3, 0), (3, 1), (4, 0)], &[1, 2, 3], &links));
    assert_eq!(loaded.code, 0);
    let mut g = loaded.gateway;
    g.up[..3].fill(1);
    g
}

/// The orders of a message of ASP p, and the next state.
fn send(g: &Gateway, p: u32, m: &[u8]) -> (Vec<[u32; 4]>, Gateway) {
    let mut list = [0; 1544];
    let next = g.message(p, m, &mut [0; HOLD_BYTES], &mut list);
    assert_eq!(next.code, 0);
    let orders = &list.as_chunks::<4>().0[..next.count as usize];
    (orders.to_vec(), next.gateway)
}

fn reached(g: &Gateway, p: u32, m: &[u8]) -> u16 {
    let event = Event::Message { asp: p, message: m };
    g.reach(event, HOLD_BYTES, 1544)
}

/// The order at a place as bytes.
fn bytes(g: &Gateway, p: u32, m: &[u8], place: u32) -> Vec<u8> {
    let event = Event::Message { asp: p, message: m };
    let mut out = vec![0x55; 3000];
    let written = g.order_bytes(event, &[0; HOLD_BYTES], place, &mut out);
    assert_eq!(written.code, 0);
    assert!(out[written.length as usize..].iter().all(|b| *b == 0x55));
    out.truncate(written.length as usize);
    // And not one byte less.
    let short = &mut out.clone()[1..];
    let refused = g.order_bytes(event, &[0; HOLD_BYTES], place, short);
    assert_eq!((refused.code, refused.length), (103, 0));
    out
}

/// The ASes where p is active, as bits.
fn active(g: &Gateway, p: usize) -> u16 {
    (0..16).fold(0, |all, a| all | (g.is_active(a, p) as u16) << a)
}

/// What ASP 0 names, the good ones of it ascending, and the first bad one.
type Case = (Vec<Param>, Vec<u32>, Option<u32>);

fn cases() -> Vec<Case> {
    let ids = |list: &[u32]| Ids(list.to_vec());
    let ranges = |list: &[(u32, u32)]| Ranges(list.to_vec());
    vec![
        // All good.
        (vec![ids(&[10, 12])], vec![10, 12], None),
        (
            vec![ranges(&[(10, 12), (20, 22)])],
            vec![10, 11, 12, 20, 21, 22],
            None,
        ),
        // An unknown one first, between, last, and twice.
        (vec![ids(&[9, 12, 10])], vec![10, 12], Some(9)),
        (vec![ids(&[12, 9, 10])], vec![10, 12], Some(9)),
        (vec![ids(&[12, 10, 9])], vec![10, 12], Some(9)),
        (vec![ids(&[9, 12, 9, 10, 9])], vec![10, 12], Some(9)),
        // Of another AS; of two bad ones the one named first.
        (vec![ids(&[10, 13])], vec![10], Some(13)),
        (vec![ids(&[30, 13, 10])], vec![10], Some(30)),
        (vec![ids(&[13, 9, 10])], vec![10], Some(13)),
        (vec![ids(&[9, 13, 10])], vec![10], Some(9)),
        // Good ones again and again.
        (vec![ids(&[12, 10, 12, 10, 12, 13])], vec![10, 12], Some(13)),
        (
            vec![ids(&[12]), ids(&[12]), ids(&[15]), ids(&[12])],
            vec![12],
            Some(15),
        ),
        // A hole behind, before and inside.
        (vec![ranges(&[(20, 23)])], vec![20, 21, 22], Some(23)),
        (vec![ranges(&[(19, 21)])], vec![20, 21], Some(19)),
        (vec![ranges(&[(14, 20)])], vec![14, 20], Some(15)),
        // Of another AS at the start, inside and at the end of a range.
        (vec![ranges(&[(13, 14)])], vec![14], Some(13)),
        (vec![ranges(&[(11, 14)])], vec![11, 12, 14], Some(13)),
        (vec![ranges(&[(12, 13)])], vec![12], Some(13)),
        // In one range of another AS before a hole, and the other way round.
        (vec![ranges(&[(12, 20)])], vec![12, 14, 20], Some(13)),
        (
            vec![ranges(&[(22, 30), (10, 13)])],
            vec![10, 11, 12, 22],
            Some(23),
        ),
        (
            vec![ranges(&[(10, 13), (22, 30)])],
            vec![10, 11, 12, 22],
            Some(13),
        ),
        // Overlapping and repeated.
        (
            vec![ranges(&[(10, 12), (11, 14), (10, 12)]), ids(&[11])],
            vec![10, 11, 12, 14],
            Some(13),
        ),
        // Single ones and ranges: received order decides.
        (
            vec![ranges(&[(12, 13)]), ids(&[9, 10])],
            vec![10, 12],
            Some(13),
        ),
        (
            vec![ids(&[10, 9]), ranges(&[(12, 13)])],
            vec![10, 12],
            Some(9),
        ),
        (
            vec![ranges(&[(20, 21)]), ids(&[30]), ranges(&[(12, 13)])],
            vec![12, 20, 21],
            Some(30),
        ),
        // Of one link alone, known or not.
        (vec![ranges(&[(13, 13), (12, 12)])], vec![12], Some(13)),
        (vec![ranges(&[(15, 15), (12, 12)])], vec![12], Some(15)),
        // As wide as can be.
        (
            vec![ranges(&[(0, MAX)])],
            vec![10, 11, 12, 14, 20, 21, 22],
            Some(0),
        ),
        (
            vec![ranges(&[(10, MAX); 3]), ids(&[22, 22])],
            vec![10, 11, 12, 14, 20, 21, 22],
            Some(13),
        ),
        (vec![ranges(&[(20, MAX)])], vec![20, 21, 22], Some(23)),
        (vec![ranges(&[(0, 10)])], vec![10], Some(0)),
        // None good.
        (vec![ids(&[9])], vec![], Some(9)),
        (vec![ids(&[13, 30])], vec![], Some(13)),
        (vec![ranges(&[(23, MAX)])], vec![], Some(23)),
        (vec![ranges(&[(15, 19)]), ids(&[13])], vec![], Some(15)),
        (vec![ranges(&[(13, 13)])], vec![], Some(13)),
    ]
}

/// The owners of links of the state above.
fn owners(good: &[u32]) -> u16 {
    good.iter()
        .fold(0, |all, id| all | if *id < 13 { 1 } else { 2 })
}

/// Orders of an Active or Inactive, what changes, the Ack and the reach.
fn check(kind: u8, params: &[Param], good: &[u32], bad: Option<u32>) {
    let mut before = state();
    if kind == 2 {
        before = send(&before, 0, &message(1, 0, &[])).1;
    }
    let m = message(kind, 0, params);
    let ases = owners(good);
    assert_eq!(reached(&before, 0, &m), ases, "{params:?}");
    let (orders, after) = send(&before, 0, &m);
    assert_eq!(active(&before, 0) ^ active(&after, 0), ases, "{params:?}");
    let mut expected = Vec::new();
    if !good.is_empty() {
        expected.push([0, 0x402 + kind as u32, 0, 0]);
    }
    expected.extend(bad.map(|id| [0, 0, id, 2]));
    // Both members are up: of each AS both are told.
    let value = if kind == 1 { 65539 } else { 65540 };
    for a in (0..2).filter(|a| ases >> a & 1 == 1) {
        expected.extend([[0, 1, a, value], [1, 1, a, value]]);
    }
    assert_eq!(orders, expected, "{params:?}");
    if good.is_empty() {
        assert_eq!(after, before);
        return;
    }
    let listed = match bad {
        Some(_) => vec![Ids(good.to_vec())],
        None => params.to_vec(),
    };
    let ack = message(kind + 2, 0, &listed);
    assert_eq!(bytes(&before, 0, &m, 0), ack, "{params:?}");
}

#[test]
fn actives() {
    for (params, good, bad) in cases() {
        check(1, &params, &good, bad);
    }
}

#[test]
fn inactives() {
    for (params, good, bad) in cases() {
        check(2, &params, &good, bad);
    }
}

/// ASP 1 may name the same ones, and keeps the old rule: what is bad stops all.
#[test]
fn taken_whole() {
    let mut refused = 0;
    for (params, good, bad) in cases() {
        for kind in [1, 2] {
            let mut before = state();
            if kind == 2 {
                before = send(&before, 1, &message(1, 0, &[])).1;
            }
            let m = message(kind, 0, &params);
            let (orders, after) = send(&before, 1, &m);
            // The reach is the good ones' all the same.
            assert_eq!(reached(&before, 1, &m), owners(&good));
            let Some(id) = bad else {
                assert_eq!(orders[0], [1, 0x402 + kind as u32, 0, 0]);
                assert_eq!(active(&before, 1) ^ active(&after, 1), owners(&good));
                let ack = message(kind + 2, 0, &params);
                assert_eq!(bytes(&before, 1, &m, 0), ack);
                continue;
            };
            assert_eq!(orders, [[1, 0, id, 2]], "{params:?}");
            assert_eq!(after, before);
            refused += 1;
        }
    }
    assert!(refused > 50);
}

/// An ASP that is down is told Error 6; what it names is reached.
#[test]
fn down() {
    let mut g = state();
    g.up[0] = 0;
    for kind in [1, 2] {
        let m = message(kind, 0, &[Ids(vec![10, 13, 20])]);
        assert_eq!(send(&g, 0, &m), (vec![[0, 0, 0, 6]], g));
        assert_eq!(reached(&g, 0, &m), 3);
        let none = message(kind, 0, &[Ids(vec![13, 9])]);
        assert_eq!(reached(&g, 0, &none), 0);
    }
}

#[test]
fn modes() {
    let g = state();
    let of = |mode: u32, ids: &[u32]| message(1, mode, &[Ids(ids.to_vec())]);
    let error5 = vec![[0, 0, 0, 5]];
    // Of a good one's AS: Error 5 alone, whether something is bad or not.
    for (ids, ases) in [
        (&[10, 20][..], 3),
        (&[10, 20, 9], 3),
        (&[9, 20, 10], 3),
        (&[20, 13], 2),
    ] {
        let m = of(1, ids);
        assert_eq!(reached(&g, 0, &m), ases, "{ids:?}");
        assert_eq!(send(&g, 0, &m), (error5.clone(), g), "{ids:?}");
        let answer = bytes(&g, 0, &m, 0);
        assert_eq!(answer, [1, 0, 0, 0, 0, 0, 0, 16, 0, 0xc, 0, 8, 0, 0, 0, 5]);
    }
    // Of a bad one's AS alone: link 13 is of AS 2, broadcast, which is not
    // looked at.
    for (mode, ids, ases) in [(1, [13, 10], 1), (2, [13, 20], 2), (1, [9, 12], 1)] {
        let (orders, after) = send(&g, 0, &of(mode, &ids));
        assert_eq!(orders[..2], [[0, 1027, 0, 0], [0, 0, ids[0], 2]]);
        assert_eq!(active(&after, 0), ases);
    }
    // The mode of the bad one's AS, which no good one has.
    assert_eq!(send(&g, 0, &of(3, &[13, 10])), (error5, g));
    // None good: Error 2 alone, whatever the mode.
    for mode in [1, 2, 3] {
        assert_eq!(send(&g, 0, &of(mode, &[13])), (vec![[0, 0, 13, 2]], g));
        let both = of(mode, &[9, 30]);
        assert_eq!(send(&g, 0, &both), (vec![[0, 0, 9, 2]], g));
        assert_eq!(reached(&g, 0, &both), 0);
    }
    // Lists taken whole: what is bad comes before the mode.
    assert_eq!(send(&g, 1, &of(3, &[10, 13])), (vec![[1, 0, 13, 2]], g));
    assert_eq!(send(&g, 1, &of(3, &[10])), (vec![[1, 0, 0, 5]], g));
}

/// The Ack has the mode first, wherever it stood, and no text.
#[test]
fn acks_with_a_mode() {
    let g = state();
    let m = message(1, 1, &[Ids(vec![12, 13]), Ranges(vec![(10, 12)])]);
    let ack = message(3, 1, &[Ids(vec![10, 11, 12])]);
    assert_eq!(bytes(&g, 0, &m, 0), ack);
    let mut late = message(1, 0, &[Ranges(vec![(12, 13)])]);
    late.extend([0, 4, 0, 6, b'h', b'i', 9, 9]);
    late.extend([0, 0xb, 0, 8, 0, 0, 0, 1]);
    late[7] = late.len() as u8;
    assert_eq!(bytes(&g, 0, &late, 0), message(3, 1, &[Ids(vec![12])]));
    let error = bytes(&g, 0, &late, 1);
    let expected = [1, 0, 0, 0, 0, 0, 0, 24, 0, 0xc, 0, 8, 0, 0, 0, 2];
    assert_eq!(error[..16], expected);
    assert_eq!(error[16..], [0, 1, 0, 8, 0, 0, 0, 13]);
    // An ASP that is active already is acknowledged again.
    let (_, after) = send(&g, 0, &m);
    let (orders, same) = send(&after, 0, &m);
    assert_eq!(orders, [[0, 1027, 0, 0], [0, 0, 13, 2]]);
    assert_eq!((bytes(&after, 0, &m, 0), same), (ack, after));
}

/// 16 ASPs in 16 ASes of 8 links each, all up.
fn full() -> Gateway {
    let links: Vec<(u32, u32)> = (0..128).map(|l| (2 * l, l / 8)).collect();
    let mut g = load(&plan(&[(0xffff, 0); 16], &[2; 16], &links)).gateway;
    g.up.fill(1);
    assert!(is_sound(&g));
    g
}

/// An Ack has at most 128 identifiers, however often they are named.
#[test]
fn all_links_and_a_bad_one() {
    let g = full();
    let even: Vec<u32> = (0..128).map(|l| 2 * l).collect();
    let ack = message(3, 0, &[Ids(even.clone())]);
    let mixed: Vec<u32> = (0..508).map(|i| 2 * (i * 37 % 128)).chain([255]).collect();
    for (params, bad) in [
        (vec![Ids(mixed)], 255),
        (vec![Ranges(vec![(0, MAX)])], 1),
        (vec![Ranges(vec![(0, MAX); 254])], 1),
        (vec![Ranges(vec![(100, MAX), (0, 103)])], 101),
        (vec![Ranges(vec![(MAX, MAX), (0, 254)])], MAX),
    ] {
        let m = message(1, 0, &params);
        assert_eq!(bytes(&g, 5, &m, 0), ack);
        assert_eq!(reached(&g, 5, &m), 0xffff);
        let (orders, _) = send(&g, 5, &m);
        assert_eq!(orders[..2], [[5, 1027, 0, 0], [5, 0, bad, 2]]);
    }
    // With the mode too.
    let m = message(1, 2, &[Ranges(vec![(0, MAX)])]);
    assert_eq!(bytes(&g, 5, &m, 0), message(3, 2, &[Ids(even)]));
}

/// The most orders that there are: an Ack, an Error, and in each of 16 ASes 8
/// units and 16 Notifies.
#[test]
fn most_orders() {
    let mut g = full();
    g.waiting.fill(1);
    g.held.fill(8);
    for i in 0..128 {
        (g.held_tag[i], g.held_len[i], g.held_id[i]) = (0x300, 5, 2 * i as u32);
    }
    assert!(is_sound(&g));
    let m = message(1, 0, &[Ranges(vec![(0, 254)])]);
    let (orders, after) = send(&g, 3, &m);
    assert_eq!((orders.len(), after.held), (386, [0; 16]));
    assert_eq!(orders[..2], [[3, 1027, 0, 0], [3, 0, 1, 2]]);
    assert_eq!(orders[2..4], [[3, 1537, 0, 0], [3, 1537, 2, 0]]);
    assert_eq!(orders[9..11], [[3, 1537, 14, 0], [0, 1, 0, 65539]]);
    assert_eq!(orders[26], [3, 1537, 16, 0]);
    assert_eq!(orders[385], [15, 1, 15, 65539]);
    // All of them as bytes, and none beyond.
    let event = Event::Message {
        asp: 3,
        message: &m,
    };
    let (mut lens, mut out) = ([7; 390], vec![0; 65_536]);
    let hold = [0x33; HOLD_BYTES];
    let batch = g.orders_bytes(event, &hold, 0, &mut lens, &mut out);
    assert_eq!((batch.code, batch.count), (0, 386));
    assert_eq!(lens[..3], [8 + 4 + 4 * 128, 24, 24]);
    assert_eq!(lens[385..], [52, 7, 7, 7, 7]);
    let none = g.order_bytes(event, &hold, 386, &mut out);
    assert_eq!((none.code, none.length), (104, 0));
    // A list with one word too few: nothing at all.
    let mut list = [9; 1543];
    let next = g.message(3, &m, &mut [0; HOLD_BYTES], &mut list);
    assert_eq!((next.code, next.count, next.gateway), (101, 0, g));
}

#[test]
fn rows_of_asps() {
    for (spare, fits) in [
        (0, true),
        (1, true),
        (2, false),
        (3, false),
        (255, false),
        (256, false),
        (257, false),
        (0x8000, false),
        (0x8001, false),
        (0xffff, false),
    ] {
        for at in 0..3 {
            let mut asps = [(1, 0), (1, 1), (0, 0)];
            asps[at].1 = spare;
            let loaded = load(&plan(&asps, &[1], &[(5, 0)]));
            assert_eq!(loaded.code, if fits { 0 } else { 202 });
            if !fits {
                assert_eq!(loaded.gateway, Gateway::ZERO);
                continue;
            }
            let marks = asps.map(|(_, spare)| spare as u8);
            assert_eq!(loaded.gateway.wholelists[..3], marks);
            assert_eq!(loaded.gateway.wholelists[3..], [0; 13]);
            assert!(is_sound(&loaded.gateway));
        }
    }
}

#[test]
fn marks_of_a_sound_state() {
    let g = state();
    for mark in 0..=255 {
        for p in 0..16 {
            let mut other = g;
            other.wholelists[p] = mark;
            let most = (p < 3) as u8;
            assert_eq!(is_sound(&other), mark <= most, "{mark} at {p}");
        }
    }
    // Not sound comes first.
    let mut other = g;
    other.wholelists[3] = 1;
    let next = other.message(0, &message(1, 0, &[]), &mut [], &mut []);
    assert_eq!((next.code, next.gateway), (105, other));
    let m = message(1, 0, &[Ids(vec![10])]);
    assert_eq!(reached(&other, 0, &m), 0);
}
