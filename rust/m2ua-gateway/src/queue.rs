//! Messages that wait for a peer, oldest first, one behind the other in one buffer. Each has a mark.
use std::collections::VecDeque;

/// What a message costs beside its bytes: its entry, twice, since a list that grows has room for as much
/// again.
pub const ENTRY: usize = 64;

/// What is known of a message beside its bytes.
#[derive(Clone, Copy, Debug, PartialEq, Eq)]
pub struct Mark {
    /// The ASP whose message it came from, where that matters.
    pub origin: usize,
    /// The AS that it brings a unit of.
    pub unit: Option<u8>,
}

#[derive(Clone, Copy)]
struct Entry {
    length: usize,
    mark: Mark,
}

pub struct Queue {
    /// The bytes of the messages from `start` on; those before it are sent.
    bytes: Vec<u8>,
    start: usize,
    /// The most that is ever to wait.
    limit: usize,
    entries: VecDeque<Entry>,
    /// What waits, by origin, and in all.
    shares: Vec<usize>,
    cost: usize,
}

impl Queue {
    pub fn new(limit: usize, origins: usize) -> Queue {
        Queue {
            bytes: Vec::new(),
            start: 0,
            limit,
            entries: VecDeque::new(),
            shares: vec![0; origins],
            cost: 0,
        }
    }

    pub fn len(&self) -> usize {
        self.entries.len()
    }

    pub fn is_empty(&self) -> bool {
        self.entries.is_empty()
    }

    /// What waits, in bytes, with what each message costs beside its own.
    pub fn cost(&self) -> usize {
        self.cost
    }

    /// How much of it comes from an origin.
    pub fn share(&self, origin: usize) -> usize {
        self.shares[origin]
    }

    pub fn push(&mut self, message: &[u8], mark: Mark) {
        let end = self.bytes.len() + message.len();
        if end > self.bytes.capacity() {
            // twice as much, but no more than ever is needed: what is sent takes no more than what waits
            let room = (2 * end).min(2 * self.limit).max(end);
            self.bytes.reserve_exact(room - self.bytes.len());
        }
        self.bytes.extend(message);
        self.entries.push_back(Entry {
            length: message.len(),
            mark,
        });
        self.shares[mark.origin] += message.len() + ENTRY;
        self.cost += message.len() + ENTRY;
    }

    /// The message, where there is one alone.
    pub fn only(&self) -> Option<&[u8]> {
        (self.entries.len() == 1).then(|| &self.bytes[self.start..])
    }

    /// The messages, oldest first.
    pub fn iter(&self) -> impl Iterator<Item = &[u8]> {
        let mut rest = &self.bytes[self.start..];
        self.entries.iter().map(move |entry| {
            let (message, behind) = rest.split_at(entry.length);
            rest = behind;
            message
        })
    }

    /// The marks of the messages, oldest first.
    pub fn marks(&self) -> impl Iterator<Item = Mark> + '_ {
        self.entries.iter().map(|entry| entry.mark)
    }

    /// Takes the oldest messages away, and tells the length and the mark of each.
    pub fn pop(&mut self, count: usize, mut gone: impl FnMut(usize, Mark)) {
        for entry in self.entries.drain(..count) {
            gone(entry.length, entry.mark);
            self.start += entry.length;
            self.shares[entry.mark.origin] -= entry.length + ENTRY;
            self.cost -= entry.length + ENTRY;
        }
        if self.entries.is_empty() {
            self.bytes.clear();
            self.start = 0;
        } else if self.start > self.bytes.len() / 2 {
            // what is sent is given up before it is more than what waits
            self.bytes.drain(..self.start);
            self.start = 0;
        }
    }

    /// Takes all away, and tells the mark of each: how many there were. The room is given back.
    pub fn clear(&mut self, gone: impl FnMut(Mark)) -> usize {
        let count = self.len();
        self.marks().for_each(gone);
        *self = Queue::new(self.limit, self.shares.len());
        count
    }
}

#[cfg(test)]
mod tests {
    use super::*;

    #[test]
    fn a_queue_keeps_sequence_and_shares() {
        let mut queue = Queue::new(1 << 16, 2);
        let (mut pushed, mut popped) = (0u32, 0u32);
        for round in 0..1000usize {
            for _ in 0..round % 7 {
                let message = vec![pushed as u8; pushed as usize % 50];
                let mark = Mark {
                    origin: pushed as usize % 2,
                    unit: Some(pushed as u8),
                };
                queue.push(&message, mark);
                pushed += 1;
            }
            let gone = queue.len().min(round % 5);
            for (k, message) in queue.iter().enumerate() {
                let number = popped as usize + k;
                assert_eq!(message, vec![number as u8; number % 50]);
            }
            queue.pop(gone, |length, mark| {
                assert_eq!(
                    (length, mark.unit),
                    (popped as usize % 50, Some(popped as u8))
                );
                popped += 1;
            });
            let waiting: usize = (popped..pushed).map(|n| n as usize % 50 + ENTRY).sum();
            assert_eq!(
                (queue.cost(), queue.share(0) + queue.share(1)),
                (waiting, waiting)
            );
            assert!(queue.bytes.len() <= 2 * waiting + 64 && queue.bytes.capacity() <= 2 << 16);
        }
        let mut cleared = popped;
        let count = queue.clear(|mark| {
            assert_eq!(mark.unit, Some(cleared as u8));
            cleared += 1;
        });
        assert_eq!((count, cleared), ((pushed - popped) as usize, pushed));
        assert_eq!(
            (queue.cost(), queue.share(1), queue.is_empty()),
            (0, 0, true)
        );
    }
}
