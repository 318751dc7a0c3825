//! The tasks that wait at an object, the messages of a mailbox, and the words of a data queue, in their order.
use core::iter::FusedIterator;

use crate::names::{MAILBOXES, MESSAGES, QUEUES, TASKS, WORDS};
use crate::record::{Chains, Ring, HEADS_OF_MESSAGES, HEADS_OF_RECEIVERS, HEADS_OF_SENDERS, HEADS_OF_WAITERS};
use crate::Record;

/// The numbers of a chain from its head on. On a record that isn't sound a chain may come round, or lead to numbers that nobody has; the iterator ends
/// there, after as many numbers as there are at the latest.
#[derive(Clone, Debug)]
pub struct Numbers<'a> {
    chains: &'a Chains,
    next: usize,
    /// The largest number of the kind.
    limit: usize,
    left: usize,
}

impl<'a> Numbers<'a> {
    /// The chain of an object. One whose number is out of range has none.
    fn of(chains: &'a Chains, heads: usize, object: u32, objects: usize, limit: usize) -> Numbers<'a> {
        let object = usize::try_from(object).ok().filter(|number| (1..=objects).contains(number));
        let next = object.map_or(0, |number| chains.link[heads + number].into());
        Numbers { chains, next, limit, left: limit }
    }
}

impl Iterator for Numbers<'_> {
    type Item = u32;

    fn next(&mut self) -> Option<u32> {
        if self.left == 0 || !(1..=self.limit).contains(&self.next) {
            self.left = 0;
            return None;
        }
        let number = self.next;
        self.next = self.chains.link[number].into();
        self.left -= 1;
        Some(number as u32)
    }
}

impl FusedIterator for Numbers<'_> {}

/// The stored words of a data queue, the oldest first.
#[derive(Clone, Debug)]
pub struct StoredWords<'a> {
    ring: &'a Ring,
    taken: usize,
    count: usize,
}

impl Iterator for StoredWords<'_> {
    type Item = u32;

    fn next(&mut self) -> Option<u32> {
        if self.taken >= self.count {
            return None;
        }
        let word = self.ring.words[(usize::from(self.ring.head) + self.taken) % WORDS];
        self.taken += 1;
        Some(word)
    }

    fn size_hint(&self) -> (usize, Option<usize>) {
        let left = self.count - self.taken;
        (left, Some(left))
    }
}

impl ExactSizeIterator for StoredWords<'_> {}
impl FusedIterator for StoredWords<'_> {}

/// Lists in the record. They end on whatever record, and a number out of range has none.
impl Record {
    /// The tasks that wait to send to a data queue, the next to be served first.
    #[must_use]
    pub fn senders(&self, queue: u32) -> Numbers<'_> {
        Numbers::of(&self.waiting, HEADS_OF_SENDERS, queue, QUEUES, TASKS)
    }

    /// The tasks that wait to receive from a data queue, likewise.
    #[must_use]
    pub fn receivers(&self, queue: u32) -> Numbers<'_> {
        Numbers::of(&self.waiting, HEADS_OF_RECEIVERS, queue, QUEUES, TASKS)
    }

    /// The tasks that wait at a mailbox, likewise.
    #[must_use]
    pub fn waiters(&self, mailbox: u32) -> Numbers<'_> {
        Numbers::of(&self.waiting, HEADS_OF_WAITERS, mailbox, MAILBOXES, TASKS)
    }

    /// The messages that are queued in a mailbox, the next to be received first.
    #[must_use]
    pub fn messages(&self, mailbox: u32) -> Numbers<'_> {
        Numbers::of(&self.messages, HEADS_OF_MESSAGES, mailbox, MAILBOXES, MESSAGES)
    }

    /// The words that are stored in a data queue, the next to be received first.
    #[must_use]
    pub fn words(&self, queue: u32) -> StoredWords<'_> {
        let stored = usize::try_from(queue).ok().filter(|number| (1..=QUEUES).contains(number)).map(|number| &self.queues[number].ring);
        let ring = stored.unwrap_or(&self.queues[0].ring);
        StoredWords { ring, taken: 0, count: stored.map_or(0, |ring| WORDS.min(ring.count.into())) }
    }
}
