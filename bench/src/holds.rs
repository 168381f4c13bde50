//! States in which ASes hold units, with the hold that has their bytes.
use crate::messages::{data, message};
use crate::plans::{full_plan, plan_s};
use second::events::LIST_WORDS;
use second::{load, Gateway, HOLD_BYTES};

/// The plan's state with ASPs 0 up to `asps` up and ASP 0 inactive after it was active: every AS of ASP 0 is
/// pending.
fn pending(file: &[u8], asps: u32) -> Gateway {
    let (up, active, inactive) = (message(3, 1, &[]), message(4, 1, &[]), message(4, 2, &[]));
    let mut events: Vec<(u32, &[u8])> = (0..asps).map(|p| (p, &up[..])).collect();
    events.extend([(0, &active[..]), (0, &inactive[..])]);
    events.iter().fold(load(file).gateway, |g, (p, msg)| {
        let next = g.message(*p, msg, &mut [0; HOLD_BYTES], &mut [0; LIST_WORDS]);
        assert_eq!(next.code, 0);
        next.gateway
    })
}

/// It gets Data of these links.
fn filled(state: Gateway, ids: impl Iterator<Item = u32>) -> (Gateway, Vec<u8>) {
    let mut hold = vec![0; HOLD_BYTES];
    let state = ids.fold(state, |g, id| {
        let next = g.link_message(&data(id), &mut hold, &mut [0; LIST_WORDS]);
        assert_eq!((next.code, next.count), (0, 0));
        next.gateway
    });
    (state, hold)
}

/// Plan S, AS 0 pending with so many units.
pub fn held_on_plan_s(count: u32) -> (Gateway, Vec<u8>) {
    filled(pending(&plan_s(), 2), (0..count).map(|k| 100 + k))
}

/// The full plan, all ASPs up, every AS pending with 8 units: an Active of any ASP gives 385 orders.
pub fn full_hold() -> (Gateway, Vec<u8>) {
    let held = filled(pending(&full_plan(), 16), (0..128).map(|l| 3 * l));
    assert_eq!(held.0.held, [8; 16]);
    held
}
