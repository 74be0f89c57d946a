//! The messages that wait (document 02, Changes 1 and 6), kept in the order in which they were queued. The original knows no messages. Which goes
//! next is chosen when a burst asks, by the sentence: "A message once begun is finished. Then the lowest class waiting goes, the earliest of it
//! first." What a queuing withdraws is found when it is made, by looking at each: "each waiting message with that label that hasn't begun".

use std::collections::VecDeque;

pub const MESSAGES_MOST: usize = 256;
pub const CLASS_MOST: u8 = 3;
/// The class of a queuing that gives none.
pub const ROUTINE: u8 = 3;

/// What of a message waits.
#[derive(Clone, Debug, PartialEq)]
pub struct Message {
    pub class: u8,
    /// 0: none.
    pub label: u16,
    pub bytes: Vec<u8>,
}

#[derive(Clone, Debug, Default)]
pub struct Messages {
    /// In the order in which they were queued.
    queued: Vec<Message>,
    /// The place in it of the one that has begun.
    begun: Option<usize>,
    /// Bytes withdrawn, in all.
    withdrawn: u64,
}

impl Messages {
    pub fn len(&self) -> usize {
        self.queued.len()
    }

    pub fn begun(&self) -> bool {
        self.begun.is_some()
    }

    pub fn withdrawn(&self) -> u64 {
        self.withdrawn
    }

    /// The places of those that a queuing of `n` bytes with `label` withdraws.
    fn superseded(&self, label: u16, n: usize) -> Vec<usize> {
        if label == 0 || n == 0 {
            return Vec::new();
        }
        (0..self.queued.len())
            .filter(|&i| self.queued[i].label == label && self.begun != Some(i))
            .collect()
    }

    /// How many a queuing of `n` bytes with `label` withdraws, and their bytes.
    pub fn gone(&self, label: u16, n: usize) -> (usize, usize) {
        let places = self.superseded(label, n);
        let bytes = places.iter().map(|&i| self.queued[i].bytes.len()).sum();
        (places.len(), bytes)
    }

    /// No bytes make no message and withdraw none. Gives how many are withdrawn.
    pub fn queue(&mut self, class: u8, label: u16, bytes: &[u8]) -> usize {
        let places = self.superseded(label, bytes.len());
        for &at in places.iter().rev() {
            self.withdrawn += self.queued.remove(at).bytes.len() as u64;
            self.begun = self.begun.map(|b| if b > at { b - 1 } else { b });
        }
        if !bytes.is_empty() {
            self.queued.push(Message {
                class,
                label,
                bytes: bytes.to_vec(),
            });
        }
        places.len()
    }

    /// The place of the message that goes next.
    fn next(&self) -> Option<usize> {
        self.begun
            .or_else(|| (0..self.queued.len()).min_by_key(|&i| (self.queued[i].class, i)))
    }

    fn take(&mut self, at: usize) -> Message {
        self.begun = None;
        self.queued.remove(at)
    }

    /// All of them, chosen one after the other.
    pub fn in_order(&self) -> Vec<Message> {
        let mut rest = self.clone();
        let mut order = Vec::new();
        while let Some(at) = rest.next() {
            order.push(rest.take(at));
        }
        order
    }

    /// The waiting bytes in the order in which they go.
    pub fn bytes(&self) -> VecDeque<u8> {
        self.in_order().into_iter().flat_map(|m| m.bytes).collect()
    }

    /// `n` waiting bytes begin to fly.
    pub fn fly(&mut self, mut n: usize) {
        while n > 0 {
            let Some(at) = self.next() else { return };
            let left = self.queued[at].bytes.len();
            if n < left {
                self.queued[at].bytes.drain(..n);
                self.begun = Some(at);
                return;
            }
            self.take(at);
            n -= left;
        }
    }
}

#[cfg(test)]
mod tests {
    use super::*;

    fn shown(m: &Messages) -> Vec<(u8, Vec<u8>)> {
        m.in_order().into_iter().map(|m| (m.class, m.bytes)).collect()
    }

    /// Document 02's rules, on a few messages.
    #[test]
    fn the_order_of_going() {
        let mut m = Messages::default();
        m.queue(3, 0, &[1, 2, 3]);
        m.queue(3, 0, &[4]);
        m.queue(1, 0, &[5]);
        m.queue(1, 0, &[]);
        assert_eq!(shown(&m), [(1, vec![5]), (3, vec![1, 2, 3]), (3, vec![4])]);
        // A byte of the third goes, and all of the first: that stays first.
        m.fly(2);
        m.queue(0, 0, &[6]);
        m.queue(1, 0, &[7]);
        assert!(m.begun());
        assert_eq!(m.bytes(), [2, 3, 6, 7, 4]);
        // To the very end of a message: the next has not begun.
        m.fly(2);
        assert!(!m.begun());
        m.queue(0, 0, &[8]);
        assert_eq!(m.bytes(), [6, 8, 7, 4]);
        m.fly(4);
        assert_eq!((m.len(), m.begun()), (0, false));
        m.fly(1);
    }

    /// Document 02's rules about labels, on a few messages.
    #[test]
    fn what_a_label_withdraws() {
        let mut m = Messages::default();
        m.queue(3, 7, &[1, 2]);
        m.queue(0, 7, &[3]);
        // Each queuing withdraws the one before it, of whatever class; the new one inherits no place.
        assert_eq!((shown(&m), m.withdrawn()), (vec![(0, vec![3])], 2));
        m.queue(1, 8, &[4]);
        m.queue(3, 0, &[5, 6]);
        m.queue(3, 0, &[7]);
        assert_eq!(m.gone(7, 1), (1, 1));
        assert_eq!((m.gone(0, 1), m.gone(7, 0), m.gone(9, 1)), ((0, 0), (0, 0), (0, 0)));
        assert_eq!(m.queue(3, 7, &[8]), 1);
        assert_eq!((m.bytes(), m.withdrawn()), ([4, 5, 6, 7, 8].into(), 3));
        // No label and no bytes withdraw nothing.
        assert_eq!((m.queue(2, 7, &[]), m.queue(2, 0, &[9])), (0, 0));
        // One that has begun goes on, and a label that it bears withdraws only others.
        m.fly(3);
        assert!(m.begun());
        m.queue(3, 65_535, &[10, 11]);
        assert_eq!(m.queue(0, 7, &[12]), 1);
        assert_eq!((m.begun(), m.bytes()), (true, [6, 12, 7, 10, 11].into()));
        m.fly(4);
        assert!(m.begun());
        assert_eq!(m.queue(2, 65_535, &[13]), 0);
        assert_eq!(m.queue(3, 65_535, &[14]), 1);
        assert_eq!((m.bytes(), m.withdrawn()), ([11, 14].into(), 5));
        // It stays the begun one where an earlier message is withdrawn.
        let mut m = Messages::default();
        m.queue(3, 5, &[1]);
        m.queue(0, 0, &[2, 3]);
        m.fly(1);
        assert_eq!(m.queue(0, 5, &[4]), 1);
        assert_eq!((m.begun(), m.bytes()), (true, [3, 4].into()));
        m.fly(1);
        assert_eq!((m.begun(), m.bytes()), (false, [4].into()));
    }
}
