//! The types of the state, of a call and of an answer, and how they print.

use crate::errors::code_name;
use std::fmt;

/// Limits of the paper's "Sizes". Each kind is numbered from 1.
pub const TASKS: u32 = 32;
pub const QUEUES: u32 = 16;
pub const MAILBOXES: u32 = 16;
pub const MESSAGES: u32 = 64;
pub const LARGEST_CAPACITY: u32 = 16;
/// Largest priority of tasks and of messages.
pub const LARGEST_PRIORITY: u32 = 16;
/// Largest tmout that step 4 takes. Item 1 of document 02 leaves it as it is.
pub const LARGEST_TMOUT: u32 = 2_147_483_646;
/// A sound end tick is at most so many ticks away: item 1 of document 02.
pub const FARTHEST_END: u32 = 2_147_483_647;
/// Most records of a table: item 2 of document 02.
pub const LARGEST_TABLE: u32 = 64;

/// The call numbers of the table "The calls, by number".
pub const TICK: u32 = 0;
pub const DEFINE_TASK: u32 = 1;
pub const CRE_DTQ: u32 = 2;
pub const DEL_DTQ: u32 = 3;
pub const SND_DTQ: u32 = 4;
pub const PSND_DTQ: u32 = 5;
pub const TSND_DTQ: u32 = 6;
pub const FSND_DTQ: u32 = 7;
pub const RCV_DTQ: u32 = 8;
pub const PRCV_DTQ: u32 = 9;
pub const TRCV_DTQ: u32 = 10;
pub const REF_DTQ: u32 = 11;
pub const CRE_MBX: u32 = 12;
pub const DEL_MBX: u32 = 13;
pub const SND_MBX: u32 = 14;
pub const RCV_MBX: u32 = 15;
pub const PRCV_MBX: u32 = 16;
pub const TRCV_MBX: u32 = 17;
pub const REF_MBX: u32 = 18;
pub const REL_WAI: u32 = 19;
pub const SUS_TSK: u32 = 20;
pub const RSM_TSK: u32 = 21;
pub const LOOK: u32 = 22;
pub const FETCH: u32 = 23;

/// The names of the calls, by number.
pub const CALL_NAMES: [&str; 24] = [
    "tick",
    "define task",
    "cre_dtq",
    "del_dtq",
    "snd_dtq",
    "psnd_dtq",
    "tsnd_dtq",
    "fsnd_dtq",
    "rcv_dtq",
    "prcv_dtq",
    "trcv_dtq",
    "ref_dtq",
    "cre_mbx",
    "del_mbx",
    "snd_mbx",
    "rcv_mbx",
    "prcv_mbx",
    "trcv_mbx",
    "ref_mbx",
    "rel_wai",
    "sus_tsk",
    "rsm_tsk",
    "look",
    "fetch",
];

/// One call with its context. Fields that the call does not use are ignored.
#[derive(Clone, Copy, PartialEq, Eq, Debug, Default)]
pub struct Call {
    pub number: u32,
    /// 0 for a handler or start-up, else a task.
    pub caller: u32,
    /// CPU locked.
    pub locked: bool,
    /// Dispatching disabled.
    pub disabled: bool,
    /// The task, data queue or mailbox that the call names.
    pub object: u32,
    /// Word, message number, capacity, task priority or highest message priority.
    pub value: u32,
    pub tmout: i32,
    /// Attribute (calls 2 and 12) or message priority (call 14).
    pub attribute: u32,
}

/// The answer to a call or tick.
#[derive(Clone, Copy, PartialEq, Eq, Debug)]
pub enum Answer {
    Finished { code: i32, a: u32, b: u32, c: u32 },
    Waits { place: u32 },
}

/// What a task waits for. `end` is the tick of the time-out, `None` for no end.
#[derive(Clone, PartialEq, Eq, Debug)]
pub enum Wait {
    No,
    Sending {
        queue: u32,
        word: u32,
        end: Option<u32>,
    },
    Receiving {
        queue: u32,
        end: Option<u32>,
    },
    AtMailbox {
        mailbox: u32,
        end: Option<u32>,
    },
}

#[derive(Clone, PartialEq, Eq, Debug)]
pub struct Task {
    pub exists: bool,
    pub priority: u32,
    pub wait: Wait,
    pub suspended: bool,
    /// The stored pair: how the last wait ended, and the word it gave.
    pub code: i32,
    pub word: u32,
}

#[derive(Clone, PartialEq, Eq, Debug)]
pub struct Queue {
    pub exists: bool,
    /// 0: senders wait by arrival, 1: by task priority.
    pub attribute: u32,
    pub capacity: u32,
    /// The stored words, the oldest first.
    pub words: Vec<u32>,
    /// Task numbers of the waiting senders and receivers, the head first.
    pub senders: Vec<u32>,
    pub receivers: Vec<u32>,
}

#[derive(Clone, PartialEq, Eq, Debug)]
pub struct Mailbox {
    pub exists: bool,
    /// 1 is added for waiters by task priority, 2 for messages by priority.
    pub attribute: u32,
    /// Highest message priority; used with attribute 2 or 3 only.
    pub highest: u32,
    /// Task numbers of the waiting tasks, the head first.
    pub waiters: Vec<u32>,
    pub messages: Vec<Message>,
}

#[derive(Clone, PartialEq, Eq, Debug)]
pub struct Message {
    pub number: u32,
    /// 0 where no priority is kept.
    pub priority: u32,
}

/// The whole state. Entry n of each list belongs to number n; entry 0 belongs
/// to nobody. The lists always have 33, 17 and 17 entries.
#[derive(Clone, PartialEq, Eq, Debug)]
pub struct State {
    pub counter: u32,
    pub tasks: Vec<Task>,
    pub queues: Vec<Queue>,
    pub mailboxes: Vec<Mailbox>,
}

impl State {
    /// Nothing is defined; the tick counter is as given.
    pub fn empty(counter: u32) -> State {
        State {
            counter,
            tasks: vec![Task::undefined(); TASKS as usize + 1],
            queues: vec![Queue::undefined(); QUEUES as usize + 1],
            mailboxes: vec![Mailbox::undefined(); MAILBOXES as usize + 1],
        }
    }

    pub fn task(&self, number: u32) -> &Task {
        &self.tasks[number as usize]
    }

    pub fn queue(&self, number: u32) -> &Queue {
        &self.queues[number as usize]
    }

    pub fn mailbox(&self, number: u32) -> &Mailbox {
        &self.mailboxes[number as usize]
    }
}

impl Task {
    pub fn undefined() -> Task {
        Task {
            exists: false,
            priority: 0,
            wait: Wait::No,
            suspended: false,
            code: 0,
            word: 0,
        }
    }

    pub fn waits(&self) -> bool {
        self.wait != Wait::No
    }

    /// Able to call: defined, not waiting and not suspended.
    pub fn able(&self) -> bool {
        self.exists && !self.waits() && !self.suspended
    }
}

impl Queue {
    pub fn undefined() -> Queue {
        Queue {
            exists: false,
            attribute: 0,
            capacity: 0,
            words: Vec::new(),
            senders: Vec::new(),
            receivers: Vec::new(),
        }
    }

    pub fn senders_by_priority(&self) -> bool {
        self.attribute == 1
    }

    /// No room for another word; with capacity 0 this is always so.
    pub fn full(&self) -> bool {
        self.words.len() >= self.capacity as usize
    }
}

impl Mailbox {
    pub fn undefined() -> Mailbox {
        Mailbox {
            exists: false,
            attribute: 0,
            highest: 0,
            waiters: Vec::new(),
            messages: Vec::new(),
        }
    }

    pub fn waiters_by_priority(&self) -> bool {
        self.attribute == 1 || self.attribute == 3
    }

    pub fn messages_by_priority(&self) -> bool {
        self.attribute == 2 || self.attribute == 3
    }
}

impl Wait {
    /// The end tick of a wait with a finite time-out.
    pub fn end(&self) -> Option<u32> {
        match self {
            Wait::No => None,
            Wait::Sending { end, .. } => *end,
            Wait::Receiving { end, .. } => *end,
            Wait::AtMailbox { end, .. } => *end,
        }
    }

    /// The queue or mailbox waited at, 0 without a wait.
    pub fn object(&self) -> u32 {
        match self {
            Wait::No => 0,
            Wait::Sending { queue, .. } => *queue,
            Wait::Receiving { queue, .. } => *queue,
            Wait::AtMailbox { mailbox, .. } => *mailbox,
        }
    }
}

impl Answer {
    /// A refusal: the code, and all result words 0.
    pub fn refused(code: i32) -> Answer {
        Answer::Finished {
            code,
            a: 0,
            b: 0,
            c: 0,
        }
    }

    /// Code E_OK with the three result words.
    pub fn done(a: u32, b: u32, c: u32) -> Answer {
        Answer::Finished {
            code: crate::errors::E_OK,
            a,
            b,
            c,
        }
    }
}

impl fmt::Display for Answer {
    fn fmt(&self, out: &mut fmt::Formatter) -> fmt::Result {
        match self {
            Answer::Finished { code, a, b, c } => {
                write!(out, "{}, words {} {} {}", code_name(*code), a, b, c)
            }
            Answer::Waits { place } => write!(out, "waits, place {place}"),
        }
    }
}

impl fmt::Display for Call {
    fn fmt(&self, out: &mut fmt::Formatter) -> fmt::Result {
        if self.number == TICK {
            return write!(out, "tick");
        }
        match self.caller {
            0 => write!(out, "handler calls ")?,
            task => write!(out, "task {task} calls ")?,
        }
        match CALL_NAMES.get(self.number as usize) {
            Some(name) => write!(out, "{name} ({})", self.number)?,
            None => write!(out, "unknown number {}", self.number)?,
        }
        self.write_names(out)?;
        if self.locked {
            write!(out, ", CPU locked")?;
        }
        if self.disabled {
            write!(out, ", dispatching disabled")?;
        }
        Ok(())
    }
}

impl Call {
    /// The fields that the call uses, in words.
    fn write_names(&self, out: &mut fmt::Formatter) -> fmt::Result {
        let (object, value) = (self.object, self.value);
        let (attribute, tmout) = (self.attribute, self.tmout);
        match self.number {
            DEFINE_TASK => write!(out, " task {object} priority {value}"),
            CRE_DTQ => write!(
                out,
                " queue {object} attribute {attribute} capacity {value}"
            ),
            SND_DTQ | PSND_DTQ | FSND_DTQ => write!(out, " queue {object} word {value}"),
            TSND_DTQ => write!(out, " queue {object} word {value} time-out {tmout}"),
            TRCV_DTQ => write!(out, " queue {object} time-out {tmout}"),
            DEL_DTQ | RCV_DTQ | PRCV_DTQ | REF_DTQ => write!(out, " queue {object}"),
            CRE_MBX => write!(
                out,
                " mailbox {object} attribute {attribute} highest {value}"
            ),
            SND_MBX => write!(
                out,
                " mailbox {object} message {value} priority {attribute}"
            ),
            TRCV_MBX => write!(out, " mailbox {object} time-out {tmout}"),
            DEL_MBX | RCV_MBX | PRCV_MBX | REF_MBX => write!(out, " mailbox {object}"),
            REL_WAI | SUS_TSK | RSM_TSK | LOOK | FETCH => write!(out, " task {object}"),
            _ => Ok(()),
        }
    }
}

impl fmt::Display for Wait {
    fn fmt(&self, out: &mut fmt::Formatter) -> fmt::Result {
        match self {
            Wait::No => return write!(out, "no wait"),
            Wait::Sending { queue, word, .. } => {
                write!(out, "waits to send word {word} to queue {queue}")?
            }
            Wait::Receiving { queue, .. } => write!(out, "waits to receive from queue {queue}")?,
            Wait::AtMailbox { mailbox, .. } => write!(out, "waits at mailbox {mailbox}")?,
        }
        match self.end() {
            None => write!(out, " for ever"),
            Some(end) => write!(out, " until tick {end}"),
        }
    }
}

impl fmt::Display for Task {
    fn fmt(&self, out: &mut fmt::Formatter) -> fmt::Result {
        if self.exists {
            write!(out, "priority {}, ", self.priority)?;
        } else {
            write!(out, "undefined, ")?;
        }
        write!(out, "{}", self.wait)?;
        if self.suspended {
            write!(out, ", suspended")?;
        }
        write!(out, ", stored {} {}", code_name(self.code), self.word)
    }
}

impl fmt::Display for Queue {
    fn fmt(&self, out: &mut fmt::Formatter) -> fmt::Result {
        if self.exists {
            write!(
                out,
                "attribute {}, capacity {}",
                self.attribute, self.capacity
            )?;
        } else {
            write!(out, "undefined")?;
        }
        write!(out, ", words {:?}, senders {:?}", self.words, self.senders)?;
        write!(out, ", receivers {:?}", self.receivers)
    }
}

impl fmt::Display for Mailbox {
    fn fmt(&self, out: &mut fmt::Formatter) -> fmt::Result {
        if self.exists {
            write!(out, "attribute {}", self.attribute)?;
        } else {
            write!(out, "undefined")?;
        }
        if self.exists && self.messages_by_priority() {
            write!(out, ", highest {}", self.highest)?;
        }
        write!(out, ", waiters {:?}, messages", self.waiters)?;
        if self.messages.is_empty() {
            write!(out, " none")?;
        }
        for message in &self.messages {
            write!(out, " {}", message.number)?;
            if self.messages_by_priority() {
                write!(out, " (priority {})", message.priority)?;
            }
        }
        Ok(())
    }
}

impl fmt::Display for State {
    /// One line for the counter and one for each defined task and object.
    /// An undefined one gets a line only if it holds what it must not hold.
    fn fmt(&self, out: &mut fmt::Formatter) -> fmt::Result {
        writeln!(out, "counter {}", self.counter)?;
        for (number, task) in self.tasks.iter().enumerate().skip(1) {
            if task.exists || task.waits() || task.suspended {
                writeln!(out, "task {number}: {task}")?;
            }
        }
        for (number, queue) in self.queues.iter().enumerate().skip(1) {
            let lists = [&queue.words, &queue.senders, &queue.receivers];
            if queue.exists || lists.iter().any(|list| !list.is_empty()) {
                writeln!(out, "queue {number}: {queue}")?;
            }
        }
        for (number, mailbox) in self.mailboxes.iter().enumerate().skip(1) {
            let empty = mailbox.waiters.is_empty() && mailbox.messages.is_empty();
            if mailbox.exists || !empty {
                writeln!(out, "mailbox {number}: {mailbox}")?;
            }
        }
        Ok(())
    }
}
