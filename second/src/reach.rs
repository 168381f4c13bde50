//! What an event reaches: the ASes, and with them their links and their part
//! of the hold, which it may change.

use crate::events::{is_error, Event, ACTIVE, DOWN, INACTIVE, LIST_WORDS, UP};
use crate::gateway::{Gateway, HOLD_BYTES};
use crate::read::read;
use crate::wire::*;

impl Gateway {
    /// The ASes reached, bit a for AS a. An event that is refused, also for a
    /// hold of another length or a list of fewer words, reaches none.
    pub fn reach(&self, event: Event, hold_bytes: usize, list_words: usize) -> u16 {
        if !self.is_sound() || hold_bytes != HOLD_BYTES || list_words < LIST_WORDS {
            return 0;
        }
        match event {
            Event::Message { asp, message } if asp < self.asps as u32 => {
                self.message_reach(asp as usize, message)
            }
            Event::Lost { asp } if asp < self.asps as u32 => self.ases_of(asp as usize),
            Event::Recovery { server } if server < self.ases as u32 => 1 << server,
            Event::LinkUp { link } | Event::LinkDown { link } if link < self.links as u32 => {
                self.owner_bit(link as usize)
            }
            Event::LinkMessage { message } => match self.link_message_place(message) {
                Some((place, _)) => self.owner_bit(place),
                None => 0,
            },
            _ => 0,
        }
    }

    fn message_reach(&self, p: usize, message: &[u8]) -> u16 {
        if is_error(message) {
            return 0;
        }
        let reading = read(message);
        if reading.code != 0 {
            return 0;
        }
        match reading.class << 8 | reading.kind {
            UP | DOWN => self.ases_of(p),
            ACTIVE | INACTIVE if reading.ids == 0 => self.ases_of(p),
            ACTIVE | INACTIVE => self.named_ases(p, message).ases,
            _ if reading.class == MAUP => match self.find_link(reading.id) {
                Some(link) => self.owner_bit(link),
                None => 0,
            },
            _ => 0,
        }
    }
}
