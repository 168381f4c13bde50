//! A message that comes in pieces: SCTP hands out no more at a time than fits into what is lent to it.
use crate::transport::READ;

/// The pieces of a message until its end: its first bytes, and how long it is so far.
#[derive(Default)]
pub struct Pieces {
    part: Vec<u8>,
    length: usize,
}

impl Pieces {
    /// Takes in a piece. At the end of a message its first bytes are in the buffer, and its length is
    /// handed out.
    pub fn add(&mut self, bytes: &mut [u8; READ], length: usize, end: bool) -> Option<usize> {
        if end && self.length == 0 {
            return Some(length);
        }
        let room = READ - self.part.len();
        self.part.extend(&bytes[..length.min(room)]);
        self.length += length;
        if !end {
            return None;
        }
        bytes[..self.part.len()].copy_from_slice(&self.part);
        self.part.clear();
        Some(std::mem::take(&mut self.length))
    }
}
