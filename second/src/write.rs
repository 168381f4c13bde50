//! Writing a message from a list of tags and values.

use crate::read::Check;
use crate::wire::*;

/// The lent buffer is too short.
pub const SHORT_BUFFER: u32 = 103;

/// What writing gives: 0 and the length, or the refusal and 0.
#[repr(C)]
#[derive(Clone, Copy, PartialEq, Eq, Debug)]
pub struct Written {
    pub code: u32,
    pub length: u32,
}

impl Written {
    #[inline]
    pub(crate) fn refused(code: u32) -> Self {
        Written { code, length: 0 }
    }
}

/// Writes a message. The list is lent as its tags, the sizes of its values
/// and the values one after the other; a list that is not whole is refused
/// with 7. A refusal leaves the buffer as it was.
pub fn write(
    class: u32,
    kind: u32,
    tags: &[u16],
    lens: &[u32],
    values: &[u8],
    out: &mut [u8],
) -> Written {
    // A list that fits has no more parameters than 4 bytes each allow, and
    // then the sums cannot overflow.
    if tags.len() != lens.len() || tags.len() > MAX_MESSAGE / 4 {
        return Written::refused(PROTOCOL_ERROR);
    }
    let mut total = HEADER_LEN;
    let mut sizes = 0;
    for len in lens {
        let len = *len as usize;
        if len > MAX_MESSAGE {
            return Written::refused(PROTOCOL_ERROR);
        }
        total += 4 + padded(len);
        sizes += len;
    }
    if total > MAX_MESSAGE || sizes != values.len() {
        return Written::refused(PROTOCOL_ERROR);
    }

    let mut check = match Check::new(class, kind) {
        Ok(check) => check,
        Err(code) => return Written::refused(code),
    };
    let mut rest = values;
    for (tag, len) in tags.iter().zip(lens) {
        let Some((value, after)) = rest.split_at_checked(*len as usize) else {
            return Written::refused(PROTOCOL_ERROR);
        };
        let code = check.param(*tag, value);
        if code != 0 {
            return Written::refused(code);
        }
        rest = after;
    }
    let code = check.end();
    if code != 0 {
        return Written::refused(code);
    }

    let Some(out) = out.get_mut(..total) else {
        return Written::refused(SHORT_BUFFER);
    };
    put_header(out, class, kind, total);
    let mut at = HEADER_LEN;
    let mut rest = values;
    for (tag, len) in tags.iter().zip(lens) {
        let (value, after) = rest.split_at(*len as usize);
        at += put_param(&mut out[at..], *tag, value);
        rest = after;
    }
    Written {
        code: 0,
        length: total as u32,
    }
}

#[inline(always)]
pub(crate) fn put_header(out: &mut [u8], class: u32, kind: u32, total: usize) {
    let head = 1 << 56 | (class as u64) << 40 | (kind as u64) << 32 | total as u64;
    out[..HEADER_LEN].copy_from_slice(&head.to_be_bytes());
}

/// Writes one parameter at the start of the buffer, which must have room for
/// it. Gives the bytes written, padding included.
#[inline(always)]
pub(crate) fn put_param(out: &mut [u8], tag: u16, value: &[u8]) -> usize {
    let len = value.len() + 4;
    let end = padded(len);
    let out = &mut out[..end];
    // The last word first: what the value leaves of it is padding.
    out[end - 4..].fill(0);
    let head = (tag as u32) << 16 | len as u32;
    out[..4].copy_from_slice(&head.to_be_bytes());
    if let (Some(to), Some(word)) = (out.get_mut(4..8), value.first_chunk::<4>()) {
        if len == 8 {
            // Most values are one number: no call to copy it.
            to.copy_from_slice(word);
            return end;
        }
    }
    out[4..len].copy_from_slice(value);
    end
}
