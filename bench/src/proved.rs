//! The proved library's entries, as the crate `m2ua` declares them, over the second program's structs: both
//! are `repr(C)` with the same fields.
use m2ua::sys;
pub use m2ua::sys::{load, read, write, Batch, Done, Handled, Written};
use second::read::Reading;
use second::{Gateway, Loaded};
use std::mem::{align_of, size_of, transmute};

const _: () = assert!(size_of::<Gateway>() == size_of::<sys::Gateway>());
const _: () = assert!(align_of::<Gateway>() == align_of::<sys::Gateway>());

/// What reading gives, to be compared. (What is timed is the entry itself.)
pub fn reading(msg: &[u8]) -> Reading {
    // SAFETY: both structs have the same fields, all of them numbers.
    unsafe { transmute(sys::read(msg)) }
}

/// What loading gives, to be compared.
pub fn loaded(file: &[u8]) -> Loaded {
    // SAFETY: as above.
    unsafe { transmute(sys::load(file)) }
}

#[inline(always)]
fn raw(g: &Gateway) -> &sys::Gateway {
    // SAFETY: as above.
    unsafe { &*(g as *const Gateway).cast() }
}

#[inline(always)]
fn raw_mut(g: &mut Gateway) -> &mut sys::Gateway {
    // SAFETY: as above.
    unsafe { &mut *(g as *mut Gateway).cast() }
}

#[inline(always)]
pub fn is_sound(g: &Gateway) -> bool {
    sys::is_sound(raw(g))
}

/// An event by the number of its kind (include/m2ua.h), on the state where it lies.
#[inline(always)]
pub fn event(
    g: &mut Gateway,
    kind: u32,
    index: usize,
    msg: &[u8],
    hold: &mut [u8],
    words: &mut [u32],
) -> Done {
    sys::event(raw_mut(g), kind, index, msg, hold, words)
}

/// The same with the messages of all its actions.
#[allow(clippy::too_many_arguments)]
#[inline(always)]
pub fn handle(
    g: &mut Gateway,
    kind: u32,
    index: usize,
    msg: &[u8],
    hold: &mut [u8],
    words: &mut [u32; sys::LIST_WORDS],
    lens: &mut [u32; sys::MAX_ORDERS],
    out: &mut [u8],
) -> Handled {
    sys::handle(raw_mut(g), kind, index, msg, hold, words, lens, out)
}

/// The action at a place of an event that is not kept, as bytes.
#[inline(always)]
pub fn order(
    g: &Gateway,
    kind: u32,
    index: usize,
    msg: &[u8],
    hold: &[u8],
    place: usize,
    out: &mut [u8],
) -> Written {
    sys::order(raw(g), kind, index, msg, hold, place, out)
}

/// As many of them as go in, from a place on.
#[allow(clippy::too_many_arguments)]
#[inline(always)]
pub fn orders(
    g: &Gateway,
    kind: u32,
    index: usize,
    msg: &[u8],
    hold: &[u8],
    place: usize,
    lens: &mut [u32],
    out: &mut [u8],
) -> Batch {
    sys::orders(raw(g), kind, index, msg, hold, place, lens, out)
}
