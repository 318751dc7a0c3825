//! Sizes, limits, codes and attributes, the numbers of the calls, and their names in words.

// ── Sizes and limits ──

/// Tasks have the numbers 1 to 32.
pub const TASKS: usize = 32;
/// Data queues have the numbers 1 to 16.
pub const QUEUES: usize = 16;
/// Mailboxes have the numbers 1 to 16.
pub const MAILBOXES: usize = 16;
/// Messages have the numbers 1 to 64.
pub const MESSAGES: usize = 64;
/// The largest capacity of a data queue.
pub const WORDS: usize = 16;
/// Of tasks and messages; 1 goes first.
pub const LOWEST_PRIORITY: u32 = 16;
/// The most calls of a table.
pub const TABLE: usize = 64;

/// The longest tmout that ends, in ticks of 1 ms.
pub const LONGEST_TMOUT: i32 = 2_147_483_646;
/// The tmout that doesn't wait: the call polls.
pub const TMO_POL: i32 = 0;
/// The tmout that waits without end.
pub const TMO_FEVR: i32 = -1;
/// No task: the head of a chain in which nobody waits, as ref_dtq and ref_mbx give it, and the caller of a handler or of start-up.
pub const TSK_NONE: u32 = 0;

// ── Attributes, by their names in the standard ──

/// Tasks wait in order of arrival.
pub const TA_TFIFO: u32 = 0;
/// Tasks wait by priority: the senders of a data queue, the waiters of a mailbox.
pub const TA_TPRI: u32 = 1;
/// A mailbox's messages by priority; may be added to `TA_TPRI`.
pub const TA_MPRI: u32 = 2;

// ── What a task waits for: the numbers that look gives as a ──

/// The task doesn't wait.
pub const NO_WAIT: u8 = 0;
/// It waits to send to a data queue.
pub const SENDING: u8 = 1;
/// It waits to receive from a data queue.
pub const RECEIVING: u8 = 2;
/// It waits to receive from a mailbox.
pub const AT_MAILBOX: u8 = 3;

/// 'to send to a data queue', for a wait of [`Task`](crate::Task) or [`Looked`](crate::Looked).
#[must_use]
pub const fn wait_name(wait: u8) -> &'static str {
    match wait {
        NO_WAIT => "no wait",
        SENDING => "to send to a data queue",
        RECEIVING => "to receive from a data queue",
        AT_MAILBOX => "to receive from a mailbox",
        _ => "no kind of wait",
    }
}

// ── Codes ──

/// Done; of a wait: it got what it waited for.
pub const E_OK: i32 = 0;
/// The record isn't sound, or the caller can't call; [`Record::sys_cause`](crate::Record::sys_cause) says which.
pub const E_SYS: i32 = -5;
/// A parameter is out of range.
pub const E_PAR: i32 = -17;
/// The number of a task, data queue or mailbox is out of range.
pub const E_ID: i32 = -18;
/// Not allowed in this context.
pub const E_CTX: i32 = -25;
/// A forced send that has no word to replace.
pub const E_ILUSE: i32 = -28;
/// The object, task or message isn't in the state that the call needs.
pub const E_OBJ: i32 = -41;
/// The task, data queue or mailbox doesn't exist.
pub const E_NOEXS: i32 = -42;
/// The task is suspended already.
pub const E_QOVR: i32 = -43;
/// Of a wait: ended by rel_wai.
pub const E_RLWAI: i32 = -49;
/// A poll that would have to wait; of a wait: its time is over.
pub const E_TMOUT: i32 = -50;
/// Of a wait: the object was deleted.
pub const E_DLT: i32 = -51;

/// What [`HostAnswer::code`](crate::HostAnswer::code) holds where the call waits. It is no code: it says nothing of how the wait will end.
pub const NO_CODE: i32 = 1;

/// 'E_PAR'.
#[must_use]
pub const fn code_name(code: i32) -> &'static str {
    match code {
        E_OK => "E_OK",
        E_SYS => "E_SYS",
        E_PAR => "E_PAR",
        E_ID => "E_ID",
        E_CTX => "E_CTX",
        E_ILUSE => "E_ILUSE",
        E_OBJ => "E_OBJ",
        E_NOEXS => "E_NOEXS",
        E_QOVR => "E_QOVR",
        E_RLWAI => "E_RLWAI",
        E_TMOUT => "E_TMOUT",
        E_DLT => "E_DLT",
        _ => "no code of the kernel",
    }
}

/// What a code means, in the words of docs/calls/README.md.
#[must_use]
pub const fn code_meaning(code: i32) -> &'static str {
    match code {
        E_OK => "done; of a wait: it got what it waited for",
        E_SYS => "the record isn't sound, or the caller can't call",
        E_PAR => "a parameter is out of range",
        E_ID => "the number of a task, data queue or mailbox is out of range",
        E_CTX => "not allowed in this context",
        E_ILUSE => "a forced send that has no word to replace",
        E_OBJ => "the object, task or message isn't in the state that the call needs",
        E_NOEXS => "the task, data queue or mailbox doesn't exist",
        E_QOVR => "the task is suspended already",
        E_RLWAI => "of a wait: ended by rel_wai",
        E_TMOUT => "a poll that would have to wait; of a wait: its time is over",
        E_DLT => "of a wait: the object was deleted",
        _ => "no code of the kernel",
    }
}

// ── The calls ──

/// The calls by number. docs/calls/README.md has the page of each.
pub mod number {
    /// The tick; it has no context.
    pub const TICK: u32 = 0;
    /// Creates a task.
    pub const DEFINE_TASK: u32 = 1;
    /// Creates a data queue.
    pub const CRE_DTQ: u32 = 2;
    /// Deletes a data queue.
    pub const DEL_DTQ: u32 = 3;
    /// Sends a word, and may wait.
    pub const SND_DTQ: u32 = 4;
    /// Sends a word, and doesn't wait.
    pub const PSND_DTQ: u32 = 5;
    /// Sends a word, and may wait for a time.
    pub const TSND_DTQ: u32 = 6;
    /// Sends a word by force.
    pub const FSND_DTQ: u32 = 7;
    /// Receives a word, and may wait.
    pub const RCV_DTQ: u32 = 8;
    /// Receives a word, and doesn't wait.
    pub const PRCV_DTQ: u32 = 9;
    /// Receives a word, and may wait for a time.
    pub const TRCV_DTQ: u32 = 10;
    /// Reads the state of a data queue.
    pub const REF_DTQ: u32 = 11;
    /// Creates a mailbox.
    pub const CRE_MBX: u32 = 12;
    /// Deletes a mailbox.
    pub const DEL_MBX: u32 = 13;
    /// Sends a message.
    pub const SND_MBX: u32 = 14;
    /// Receives a message, and may wait.
    pub const RCV_MBX: u32 = 15;
    /// Receives a message, and doesn't wait.
    pub const PRCV_MBX: u32 = 16;
    /// Receives a message, and may wait for a time.
    pub const TRCV_MBX: u32 = 17;
    /// Reads the state of a mailbox.
    pub const REF_MBX: u32 = 18;
    /// Ends a task's wait.
    pub const REL_WAI: u32 = 19;
    /// Suspends a task.
    pub const SUS_TSK: u32 = 20;
    /// Resumes a task.
    pub const RSM_TSK: u32 = 21;
    /// Reads what a task waits for.
    pub const LOOK: u32 = 22;
    /// Reads how a task's last wait ended.
    pub const FETCH: u32 = 23;
    /// The largest number that a call has.
    pub const LAST: u32 = FETCH;
}

/// The calls' names, by number, as document 01 and docs/calls have them.
pub const CALL_NAMES: [&str; number::LAST as usize + 1] = [
    "tick",
    "define_task",
    "cre_dtq",
    "del_dtq",
    "snd_dtq",
    "psnd_dtq",
    "tsnd_dtq",
    "fsnd_dtq",
    "rcv_dtq",
    "prcv_dtq",
    "trcv_dtq",
    "ref_dtq",
    "cre_mbx",
    "del_mbx",
    "snd_mbx",
    "rcv_mbx",
    "prcv_mbx",
    "trcv_mbx",
    "ref_mbx",
    "rel_wai",
    "sus_tsk",
    "rsm_tsk",
    "look",
    "fetch",
];

/// 'snd_dtq'.
#[must_use]
pub const fn call_name(number: u32) -> &'static str {
    if number <= number::LAST {
        CALL_NAMES[number as usize]
    } else {
        "no call"
    }
}
