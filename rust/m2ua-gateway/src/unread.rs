//! What a Unix socket has taken and its peer has not read: such a message is not called sent. The kernel
//! tells how much
//! memory it keeps for what is unread; what a message takes of it is found out by weighing one of the same
//! length.
use crate::os;
use std::collections::VecDeque;
use std::os::fd::OwnedFd;
use std::sync::{Mutex, OnceLock};

/// Messages that were handed to the socket and are perhaps unread, oldest first: the length of each, and the
/// AS of a unit.
#[derive(Default)]
pub struct Handed {
    entries: VecDeque<(usize, Option<u8>)>,
}

impl Handed {
    pub fn push(&mut self, length: usize, unit: Option<u8>) {
        self.entries.push_back((length, unit));
    }

    /// Forgets what is read, as far as the kernel tells. A socket is read in its sequence: what is unread are
    /// the last.
    /// With a socket goes what was unread at it, as if it were read: so what is told then is not believed.
    pub fn measure(&mut self, socket: &OwnedFd) {
        if self.entries.is_empty() {
            return;
        }
        let told = os::unread(socket);
        if os::is_closed(socket) != (false, false) {
            return;
        }
        let unread = match told {
            Ok(0) | Err(_) => return self.entries.clear(),
            Ok(unread) => unread,
        };
        let Ok(mut scale) = SCALE.get_or_init(|| Mutex::new(Scale::new())).lock() else {
            return;
        };
        let (mut weight, mut keep) = (0, 0);
        for (length, _) in self.entries.iter().rev() {
            if weight >= unread {
                break;
            }
            weight += scale.weigh(*length);
            keep += 1;
        }
        self.entries.drain(..self.entries.len() - keep);
    }

    /// The AS of each unit, `None` of other messages.
    pub fn units(&self) -> impl Iterator<Item = Option<u8>> + '_ {
        self.entries.iter().map(|(_, unit)| *unit)
    }

    /// Takes all away: the AS of each unit, `None` of other messages.
    pub fn take(&mut self) -> impl Iterator<Item = Option<u8>> {
        std::mem::take(&mut self.entries)
            .into_iter()
            .map(|(_, unit)| unit)
    }
}

static SCALE: OnceLock<Mutex<Scale>> = OnceLock::new();

/// Weighs messages: what the kernel keeps for one of a length.
struct Scale {
    pair: Option<(OwnedFd, OwnedFd)>,
    weights: Vec<usize>,
}

impl Scale {
    fn new() -> Scale {
        Scale {
            pair: os::seqpacket_pair().ok(),
            weights: Vec::new(),
        }
    }

    fn weigh(&mut self, length: usize) -> usize {
        if self.weights.len() <= length {
            self.weights.resize(length + 1, 0);
        }
        if self.weights[length] == 0 {
            self.weights[length] = self.measured(length).unwrap_or(length).max(1);
        }
        self.weights[length]
    }

    fn measured(&self, length: usize) -> Option<usize> {
        let (one, other) = self.pair.as_ref()?;
        os::transmit(one, &vec![0; length]).ok()?;
        let weight = os::unread(one).ok()?;
        os::Packets::<1, 1>::new().receive(other, 1).ok()?;
        Some(weight)
    }
}

#[cfg(test)]
mod tests {
    use super::*;

    #[test]
    fn what_is_unread_is_known_to_the_message() {
        let (here, there) = os::seqpacket_pair().unwrap();
        let mut handed = Handed::default();
        let length = |k: usize| [0, 1, 20, 300, 2000, 77][k % 6];
        let (mut sent, mut read) = (0, 0);
        for round in 0..40 {
            for _ in 0..round % 7 {
                os::transmit(&here, &vec![1; length(sent)]).unwrap();
                handed.push(length(sent), Some(sent as u8));
                sent += 1;
            }
            for _ in 0..(round % 5).min(sent - read) {
                os::Packets::<1, 1>::new().receive(&there, 1).unwrap();
                read += 1;
            }
            handed.measure(&here);
            let units: Vec<_> = handed.units().collect();
            let due: Vec<_> = (read..sent).map(|k| Some(k as u8)).collect();
            assert_eq!(units, due, "round {round}");
        }
        assert!(sent > read && os::is_closed(&here) == (false, false));
        drop(there);
        handed.measure(&here);
        assert_eq!(handed.units().count(), sent - read);
        assert_eq!(os::is_closed(&here), (true, true));
        assert_eq!(handed.take().count(), sent - read);
        assert_eq!(handed.take().count(), 0);
    }
}
