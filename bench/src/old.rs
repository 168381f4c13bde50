//! The entries of an older version, ABI 4, at commit a79f60c: the state by value, the bytes of an event by a
//! second call on the state before it.
use crate::proved::Batch;
use second::Gateway;

/// What an event hands back.
#[repr(C)]
#[derive(Clone, Copy)]
pub struct Outcome {
    pub refusal: u32,
    pub count: usize,
    pub gateway: Gateway,
}

extern "C" {
    fn old_m2ua_run(
        g: Gateway,
        kind: u32,
        index: usize,
        msg: *const u8,
        len: usize,
        hold: *mut u8,
        hold_bytes: usize,
        size: usize,
        words: *mut u32,
        count: usize,
    ) -> Outcome;
    fn old_m2ua_orders(
        g: Gateway,
        kind: u32,
        index: usize,
        msg: *const u8,
        len: usize,
        hold: *const u8,
        hold_bytes: usize,
        place: usize,
        lens: *mut u32,
        len_count: usize,
        out: *mut u8,
        out_bytes: usize,
    ) -> Batch;
}

#[inline(always)]
pub fn event(
    g: &Gateway,
    kind: u32,
    index: usize,
    msg: &[u8],
    hold: &mut [u8],
    words: &mut [u32],
) -> Outcome {
    // SAFETY: each pointer and length are those of one slice, any bytes are a state, and the entry has no
    // `requires`.
    unsafe {
        old_m2ua_run(
            *g,
            kind,
            index,
            msg.as_ptr(),
            msg.len(),
            hold.as_mut_ptr(),
            hold.len(),
            hold.len(),
            words.as_mut_ptr(),
            words.len(),
        )
    }
}

#[inline(always)]
pub fn orders(
    g: &Gateway,
    kind: u32,
    index: usize,
    msg: &[u8],
    hold: &[u8],
    lens: &mut [u32],
    out: &mut [u8],
) -> Batch {
    // SAFETY: as above.
    unsafe {
        old_m2ua_orders(
            *g,
            kind,
            index,
            msg.as_ptr(),
            msg.len(),
            hold.as_ptr(),
            hold.len(),
            0,
            lens.as_mut_ptr(),
            lens.len(),
            out.as_mut_ptr(),
            out.len(),
        )
    }
}
