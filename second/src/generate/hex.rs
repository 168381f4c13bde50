//! Bytes in hex as scripts have them.

use crate::script::put_hex;

pub fn put_bytes(bytes: &[u8], line: &mut Vec<u8>) {
    if bytes.is_empty() {
        line.push(b'-');
    } else {
        put_hex(bytes, line);
    }
}
