//! The state record that a host lends, field by field.
use crate::names::{MAILBOXES, QUEUES, TASKS, WORDS};

/// A bit of a task's flags: the task is defined.
pub const DEFINED: u32 = 1;
/// A bit of a task's flags: the task is suspended.
pub const SUSPENDED: u32 = 2;

/// A task, but for its priority, which is `waiting.key` of the record.
#[repr(C)]
#[derive(Clone, Copy, PartialEq, Eq, Debug)]
pub struct Task {
    /// Of the stored pair that fetch gives.
    pub word: u32,
    /// The tick that ends the wait, where it is timed.
    pub end: u32,
    /// The word that a sender waits with.
    pub sending: u32,
    /// What the task waits for: `NO_WAIT`, `SENDING`, `RECEIVING` or `AT_MAILBOX`.
    pub wait: u8,
    /// The data queue or mailbox of the wait.
    pub object: u8,
    /// 1 where a tick ends the wait, else 0.
    pub timed: u8,
    /// Of the stored pair, without its minus sign.
    pub code: u8,
    /// A sum of `DEFINED` and `SUSPENDED`.
    pub flags: u32,
}

/// The stored words start at `words[head]` and go on, from the last place to the first.
#[repr(C)]
#[derive(Clone, Copy, PartialEq, Eq, Debug)]
pub struct Ring {
    /// The places.
    pub words: [u32; WORDS],
    /// The place of the oldest word.
    pub head: u8,
    /// So many words are stored.
    pub count: u8,
    /// So many can be.
    pub capacity: u8,
    /// Says nothing.
    pub spare: u8,
}

/// A data queue, but for its senders and receivers, which are chains of `waiting`.
#[repr(C)]
#[derive(Clone, Copy, PartialEq, Eq, Debug)]
pub struct Queue {
    /// The stored words.
    pub ring: Ring,
    /// 1 or 0.
    pub defined: u8,
    /// `TA_TFIFO` or `TA_TPRI`.
    pub attribute: u8,
    /// Says nothing.
    pub spare: u16,
}

/// A mailbox, but for its waiters, which are a chain of `waiting`, and its messages, which are one of `messages`.
#[repr(C)]
#[derive(Clone, Copy, PartialEq, Eq, Debug)]
pub struct Mailbox {
    /// 1 or 0.
    pub defined: u8,
    /// A sum of `TA_TPRI` and `TA_MPRI`.
    pub attribute: u8,
    /// The highest message priority, kept with `TA_MPRI` alone.
    pub highest: u8,
}

/// Chains of tasks or messages.
#[repr(C)]
#[derive(Clone, Copy, PartialEq, Eq, Debug)]
pub struct Chains {
    /// `link[n]` is the number behind number n, 0 at the end; the cells behind those of all numbers hold the first number of each chain.
    pub link: [u8; 81],
    /// `key[n]` is number n's priority.
    pub key: [u8; 65],
}

/// Cell `HEADS_OF_SENDERS + q` of `waiting.link` is the head of data queue q's senders.
pub const HEADS_OF_SENDERS: usize = 32;
/// Cell `HEADS_OF_RECEIVERS + q` of `waiting.link` is the head of data queue q's receivers.
pub const HEADS_OF_RECEIVERS: usize = 48;
/// Cell `HEADS_OF_WAITERS + b` of `waiting.link` is the head of mailbox b's waiters.
pub const HEADS_OF_WAITERS: usize = 64;
/// Cell `HEADS_OF_MESSAGES + b` of `messages.link` is the head of mailbox b's messages.
pub const HEADS_OF_MESSAGES: usize = 64;

/// The kernel's whole state. Entry n of each array belongs to number n, entry 0 to nobody. What a host writes here is taken as it is if the record is
/// then sound; else every call of a known number answers E_SYS.
///
/// Every byte belongs to a field, so that records can be compared as bytes. A field named `spare` says nothing: whatever it holds, the record means
/// the same. Displayed, a record is its state in words, a line for each thing that is defined.
///
/// A clone is for looking at and comparing with. It must not be used to go on from: each call gets the record as the call before it left it. Calls on
/// a clone would hand out words and messages a second time, and calls on the record would know nothing of the tasks that wait in the clone.
#[repr(C)]
#[derive(Clone, PartialEq, Eq, Debug)]
pub struct Record {
    /// The tick counter.
    pub counter: u32,
    /// The tasks, with their waits and stored pairs.
    pub tasks: [Task; TASKS + 1],
    /// The data queues, with their stored words.
    pub queues: [Queue; QUEUES + 1],
    /// The tasks that wait, with the priorities of all tasks.
    pub waiting: Chains,
    /// The messages that are queued, with the priorities kept for them.
    pub messages: Chains,
    /// The mailboxes.
    pub mailboxes: [Mailbox; MAILBOXES + 1],
    /// Says nothing.
    pub spare: u8,
}

impl Record {
    const NO_TASK: Task = Task { word: 0, end: 0, sending: 0, wait: 0, object: 0, timed: 0, code: 0, flags: 0 };
    const NO_RING: Ring = Ring { words: [0; WORDS], head: 0, count: 0, capacity: 0, spare: 0 };
    const NO_QUEUE: Queue = Queue { ring: Record::NO_RING, defined: 0, attribute: 0, spare: 0 };
    const NO_CHAINS: Chains = Chains { link: [0; 81], key: [0; 65] };
    const NO_MAILBOX: Mailbox = Mailbox { defined: 0, attribute: 0, highest: 0 };

    /// The record in which nothing is defined, at counter 0: all bytes are 0 (the theorem `zeroed_empty`). So a static record needs no call to begin with.
    pub const EMPTY: Record = Record {
        counter: 0,
        tasks: [Record::NO_TASK; TASKS + 1],
        queues: [Record::NO_QUEUE; QUEUES + 1],
        waiting: Record::NO_CHAINS,
        messages: Record::NO_CHAINS,
        mailboxes: [Record::NO_MAILBOX; MAILBOXES + 1],
        spare: 0,
    };
}
