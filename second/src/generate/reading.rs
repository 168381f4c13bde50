//! Lines of the kind `read`.

use super::hex::put_bytes;
use super::rng::Rng;
use super::{malformed, message};

pub fn line(rng: &mut Rng, line: &mut Vec<u8>) {
    if rng.one_in(70) {
        return malformed::line(rng, line);
    }
    let command: &[u8] = if rng.one_in(10) { b"show " } else { b"read " };
    line.extend_from_slice(command);
    put_bytes(&message::any(rng), line);
}
