//! Which rows of the error table and which paths of the calls and tables a run
//! reached. Nothing here has an influence on an answer or on the state.

use crate::errors::*;
use crate::state::*;
use std::fmt;

/// Lists each path once, with the words that the table prints for it.
macro_rules! paths {
    ($path:ident, $paths:ident; $($name:ident: $text:literal,)*) => {
        #[derive(Clone, Copy, PartialEq, Eq, Debug)]
        pub enum $path { $($name,)* }

        /// Every path with its name, in the order of the enum.
        pub const $paths: &[($path, &str)] = &[$(($path::$name, $text),)*];
    };
}
pub(crate) use paths;

paths! {
    Path, PATHS;
    UnknownNumber: "step 0 E_PAR: call number above 23",
    UnsoundCall: "step 1 E_SYS: call on a state that is not sound",
    UnsoundTick: "step 1 E_SYS: tick on a state that is not sound",
    CallerOutside: "step 1 E_SYS: caller outside 0 to 32",
    CallerUndefined: "step 1 E_SYS: caller undefined",
    CallerWaiting: "step 1 E_SYS: caller waiting",
    CallerSuspended: "step 1 E_SYS: caller suspended",
    Locked: "step 2 E_CTX: CPU locked",
    HandlerDelDtq: "step 2 E_CTX: caller 0, del_dtq",
    HandlerSndDtq: "step 2 E_CTX: caller 0, snd_dtq",
    HandlerTsndDtq: "step 2 E_CTX: caller 0, tsnd_dtq",
    HandlerRcvDtq: "step 2 E_CTX: caller 0, rcv_dtq",
    HandlerTrcvDtq: "step 2 E_CTX: caller 0, trcv_dtq",
    HandlerDelMbx: "step 2 E_CTX: caller 0, del_mbx",
    HandlerRcvMbx: "step 2 E_CTX: caller 0, rcv_mbx",
    HandlerTrcvMbx: "step 2 E_CTX: caller 0, trcv_mbx",
    DisabledSndDtq: "step 2 E_CTX: dispatching disabled, snd_dtq",
    DisabledTsndDtq: "step 2 E_CTX: dispatching disabled, tsnd_dtq",
    DisabledRcvDtq: "step 2 E_CTX: dispatching disabled, rcv_dtq",
    DisabledTrcvDtq: "step 2 E_CTX: dispatching disabled, trcv_dtq",
    DisabledRcvMbx: "step 2 E_CTX: dispatching disabled, rcv_mbx",
    DisabledTrcvMbx: "step 2 E_CTX: dispatching disabled, trcv_mbx",
    DisabledSusTskOfCaller: "step 2 E_CTX: dispatching disabled, sus_tsk of the caller",
    TaskNumberZero: "step 3 E_ID: task number 0",
    TaskNumberAbove: "step 3 E_ID: task number above 32",
    QueueNumberZero: "step 3 E_ID: queue number 0",
    QueueNumberAbove: "step 3 E_ID: queue number above 16",
    MailboxNumberZero: "step 3 E_ID: mailbox number 0",
    MailboxNumberAbove: "step 3 E_ID: mailbox number above 16",
    TmoutBelow: "step 4 E_PAR: tmout below -1",
    TmoutAbove: "step 4 E_PAR: tmout above 2,147,483,646",
    QueueAttribute: "step 4 E_PAR: queue attribute",
    MailboxAttribute: "step 4 E_PAR: mailbox attribute",
    Capacity: "step 4 E_PAR: capacity above 16",
    TaskPriorityZero: "step 4 E_PAR: task priority 0",
    TaskPriorityAbove: "step 4 E_PAR: task priority above 16",
    MessageNumberZero: "step 4 E_PAR: message number 0",
    MessageNumberAbove: "step 4 E_PAR: message number above 64",
    HighestZero: "step 4 E_PAR: highest message priority 0",
    HighestAbove: "step 4 E_PAR: highest message priority above 16",
    NoTask: "step 5 E_NOEXS: task",
    NoQueue: "step 5 E_NOEXS: queue",
    NoMailbox: "step 5 E_NOEXS: mailbox",
    MessagePriorityBelow: "step 6a E_PAR: message priority 0",
    MessagePriorityAbove: "step 6a E_PAR: message priority above the highest",
    TaskExists: "step 6b E_OBJ: task already exists",
    QueueExists: "step 6b E_OBJ: queue already exists",
    MailboxExists: "step 6b E_OBJ: mailbox already exists",
    MessageQueued: "step 6b E_OBJ: message already queued",
    TaskNotWaiting: "step 6b E_OBJ: rel_wai, task not waiting",
    TaskNotSuspended: "step 6b E_OBJ: rsm_tsk, task not suspended",
    TaskWaiting: "step 6b E_OBJ: fetch, task waiting",
    TaskSuspended: "step 6c E_QOVR: task already suspended",
    ForcedSendWithoutRoom: "step 6d E_ILUSE: fsnd_dtq, capacity 0, no receiver",
    PollPsndDtq: "step 7 E_TMOUT: psnd_dtq",
    PollTsndDtq: "step 7 E_TMOUT: tsnd_dtq with tmout 0",
    PollPrcvDtq: "step 7 E_TMOUT: prcv_dtq",
    PollTrcvDtq: "step 7 E_TMOUT: trcv_dtq with tmout 0",
    PollPrcvMbx: "step 7 E_TMOUT: prcv_mbx",
    PollTrcvMbx: "step 7 E_TMOUT: trcv_mbx with tmout 0",
    AcceptedTick: "accepted: tick",
    AcceptedDefineTask: "accepted: define task",
    AcceptedCreDtq: "accepted: cre_dtq",
    AcceptedDelDtq: "accepted: del_dtq",
    AcceptedSndDtq: "accepted: snd_dtq",
    AcceptedPsndDtq: "accepted: psnd_dtq",
    AcceptedTsndDtq: "accepted: tsnd_dtq",
    AcceptedFsndDtq: "accepted: fsnd_dtq",
    AcceptedRcvDtq: "accepted: rcv_dtq",
    AcceptedPrcvDtq: "accepted: prcv_dtq",
    AcceptedTrcvDtq: "accepted: trcv_dtq",
    AcceptedRefDtq: "accepted: ref_dtq",
    AcceptedCreMbx: "accepted: cre_mbx",
    AcceptedDelMbx: "accepted: del_mbx",
    AcceptedSndMbx: "accepted: snd_mbx",
    AcceptedRcvMbx: "accepted: rcv_mbx",
    AcceptedPrcvMbx: "accepted: prcv_mbx",
    AcceptedTrcvMbx: "accepted: trcv_mbx",
    AcceptedRefMbx: "accepted: ref_mbx",
    AcceptedRelWai: "accepted: rel_wai",
    AcceptedSusTsk: "accepted: sus_tsk",
    AcceptedRsmTsk: "accepted: rsm_tsk",
    AcceptedLook: "accepted: look",
    AcceptedFetch: "accepted: fetch",
    AcceptedOfHandler: "accepted from caller 0",
    AcceptedOfTask: "accepted from a task",
    AcceptedOfHandlerDisabled: "accepted from caller 0 while dispatching is disabled",
    AcceptedOfTaskDisabled: "accepted from a task while dispatching is disabled",
    DisabledSusTskOfOther: "accepted sus_tsk of another task while dispatching is disabled",
    ReceiverServedBySnd: "receiver served by snd_dtq",
    ReceiverServedByPsnd: "receiver served by psnd_dtq",
    ReceiverServedByTsnd: "receiver served by tsnd_dtq",
    ReceiverServedByFsnd: "receiver served by fsnd_dtq",
    ReceiverServedByFsndAtCapacityZero: "receiver served by fsnd_dtq at capacity 0",
    SenderReleasedByReceiveFromFull: "sender released by a receive from a full queue",
    SenderReleasedAtCapacityZero: "sender released by a receive at capacity 0",
    MailboxWaiterServed: "mailbox waiter served",
    RelWaiOfSender: "rel_wai of a sender",
    RelWaiOfReceiver: "rel_wai of a receiver",
    RelWaiOfMailboxWaiter: "rel_wai of a mailbox waiter",
    TimeOutOfSender: "time-out of a sender",
    TimeOutOfReceiver: "time-out of a receiver",
    TimeOutOfMailboxWaiter: "time-out of a mailbox waiter",
    SeveralTimeOuts: "several time-outs in one tick",
    TimeOutAcrossWrap: "time-out of a wait begun before the wrap of the counter",
    DelDtqWithSenders: "del_dtq ends the wait of a sender",
    DelDtqWithReceivers: "del_dtq ends the wait of a receiver",
    DelMbxWithWaiters: "del_mbx ends the wait of a mailbox waiter",
    DelMbxWithMessages: "del_mbx frees messages",
    SuspendedServed: "suspended waiter ends with E_OK",
    SuspendedReleased: "suspended waiter ends with E_RLWAI",
    SuspendedTimedOut: "suspended waiter ends with E_TMOUT",
    SuspendedDeleted: "suspended waiter ends with E_DLT",
    WaiterSuspended: "sus_tsk of a waiting task",
    CallerSuspendsItself: "sus_tsk of the caller",
    SenderBehindEquals: "sender placed behind equals and ahead of larger ones",
    MailboxWaiterBehindEquals: "mailbox waiter placed behind equals and ahead of larger ones",
    MessageBehindEquals: "message placed behind equals and ahead of larger ones",
    ForcedSendWithSenders: "fsnd_dtq replaces a word, senders wait",
    ForcedSendWithoutSenders: "fsnd_dtq replaces a word, no sender waits",
    MessageAgainAfterReceive: "message sent again after it was received",
    MessageAgainAfterDelete: "message sent again after its mailbox was deleted",
    MessageAgainAfterHandingOver: "message sent again after a waiter got it",
    ForEverTsndDtq: "tsnd_dtq waits with tmout -1",
    ForEverTrcvDtq: "trcv_dtq waits with tmout -1",
    ForEverTrcvMbx: "trcv_mbx waits with tmout -1",
    FiniteTsndDtq: "tsnd_dtq waits with a finite tmout",
    FiniteTrcvDtq: "trcv_dtq waits with a finite tmout",
    FiniteTrcvMbx: "trcv_mbx waits with a finite tmout",
    LargestTmout: "wait with tmout 2,147,483,646",
    SenderAtPlaceZero: "sender waits at place 0",
    SenderAtPlace31: "sender waits at place 31",
    ReceiverAtPlaceZero: "receiver waits at place 0",
    ReceiverAtPlace31: "receiver waits at place 31",
    MailboxWaiterAtPlaceZero: "mailbox waiter waits at place 0",
    MailboxWaiterAtPlace31: "mailbox waiter waits at place 31",
    MessageAtPlaceZero: "message queued at place 0",
    MessageAtPlace63: "message queued at place 63",
    QueueFilledTo16: "queue filled to 16 words",
    MoreThan16Words: "more than 16 words through a queue that never became empty",
    FetchOk: "fetch gives E_OK",
    FetchReleased: "fetch gives E_RLWAI",
    FetchTimedOut: "fetch gives E_TMOUT",
    FetchDeleted: "fetch gives E_DLT",
    LookNoWait: "look gives a 0, no wait",
    LookSending: "look gives a 1, sending",
    LookReceiving: "look gives a 2, receiving",
    LookAtMailbox: "look gives a 3, mailbox",
    LookNotSuspended: "look gives c 0",
    LookSuspended: "look gives c 1",
    RefDtqWithSender: "ref_dtq with a head sender",
    RefDtqWithReceiver: "ref_dtq with a head receiver",
    RefDtqWithoutWaiter: "ref_dtq without a waiter",
    RefMbxWithWaiter: "ref_mbx with a head waiter",
    RefMbxWithMessage: "ref_mbx with a head message",
    RefMbxEmpty: "ref_mbx without waiter and message",
    TableUnsound: "table E_SYS: state not sound",
    TableUnsoundEmpty: "table E_SYS: state not sound, table empty",
    TableUnsoundTooLong: "table E_SYS: state not sound, and more than 64 records",
    TableUnsoundShort: "table E_SYS: state not sound, and too few answer cells",
    TableTooLong: "table E_PAR: more than 64 records, enough answer cells",
    TableOf65: "table E_PAR: 65 records, enough answer cells",
    TableShort: "table E_PAR: too few answer cells, 64 records or less",
    TableTooLongShort: "table E_PAR: more than 64 records, and too few answer cells",
    TableEmpty: "table E_OK: empty",
    TableOf64: "table E_OK: 64 records",
    TableCellForEach: "table E_OK: as many answer cells as records, not empty",
    TableCellsPast: "table E_OK: answer cells past the last call",
    TableNumberZero: "table record E_PAR: call number 0",
    TableUnknownNumber: "table record E_PAR: call number above 23",
    TableCallWaits: "table record waits",
    TableGoesOn: "table record accepted after a refused one",
}

const ACCEPTED: [Path; 24] = [
    Path::AcceptedTick,
    Path::AcceptedDefineTask,
    Path::AcceptedCreDtq,
    Path::AcceptedDelDtq,
    Path::AcceptedSndDtq,
    Path::AcceptedPsndDtq,
    Path::AcceptedTsndDtq,
    Path::AcceptedFsndDtq,
    Path::AcceptedRcvDtq,
    Path::AcceptedPrcvDtq,
    Path::AcceptedTrcvDtq,
    Path::AcceptedRefDtq,
    Path::AcceptedCreMbx,
    Path::AcceptedDelMbx,
    Path::AcceptedSndMbx,
    Path::AcceptedRcvMbx,
    Path::AcceptedPrcvMbx,
    Path::AcceptedTrcvMbx,
    Path::AcceptedRefMbx,
    Path::AcceptedRelWai,
    Path::AcceptedSusTsk,
    Path::AcceptedRsmTsk,
    Path::AcceptedLook,
    Path::AcceptedFetch,
];

/// How a message became free again.
#[derive(Clone, Copy, PartialEq, Eq, Debug)]
pub enum Freed {
    ByReceive,
    ByDelete,
    ByHandingOver,
}

/// Counts for each path, and what has to be remembered of the run to know
/// some of the paths. Call `start_sequence` before a run from another state.
#[derive(Clone, PartialEq, Eq, Debug)]
pub struct Reached {
    counts: [u64; PATHS.len()],
    /// By task: the counter when its wait began, if this run saw it begin.
    begun: [Option<u32>; TASKS as usize + 1],
    /// By message: how it last became free, if this run saw it.
    freed: [Option<Freed>; MESSAGES as usize + 1],
    /// By queue: words stored since it was last seen empty.
    stored: [u64; QUEUES as usize + 1],
}

impl Default for Reached {
    fn default() -> Reached {
        Reached::new()
    }
}

impl Reached {
    pub fn new() -> Reached {
        Reached {
            counts: [0; PATHS.len()],
            begun: [None; TASKS as usize + 1],
            freed: [None; MESSAGES as usize + 1],
            stored: [0; QUEUES as usize + 1],
        }
    }

    /// Forgets the run so far; the counts stay.
    pub fn start_sequence(&mut self) {
        *self = Reached {
            counts: self.counts,
            ..Reached::new()
        };
    }

    /// Adds the counts of another run.
    pub fn merge(&mut self, other: &Reached) {
        for (count, more) in self.counts.iter_mut().zip(&other.counts) {
            *count += more;
        }
    }

    /// How often the path was reached.
    pub fn count(&self, path: Path) -> u64 {
        self.counts[path as usize]
    }

    /// The names of the paths that were not reached.
    pub fn missing(&self) -> Vec<&'static str> {
        let unreached = PATHS.iter().filter(|(path, _)| self.count(*path) == 0);
        unreached.map(|(_, name)| *name).collect()
    }

    pub fn note(&mut self, path: Path) {
        self.counts[path as usize] += 1;
    }

    pub(crate) fn note_if(&mut self, condition: bool, path: Path) {
        if condition {
            self.note(path);
        }
    }

    pub(crate) fn accepted(&mut self, call: &Call) {
        self.note(ACCEPTED[call.number as usize]);
        // The tick has no context.
        if call.number == TICK {
            return;
        }
        self.note(match (call.caller, call.disabled) {
            (0, false) => Path::AcceptedOfHandler,
            (0, true) => Path::AcceptedOfHandlerDisabled,
            (_, false) => Path::AcceptedOfTask,
            (_, true) => Path::AcceptedOfTaskDisabled,
        });
        let other = call.number == SUS_TSK && call.caller != 0 && call.disabled;
        self.note_if(other, Path::DisabledSusTskOfOther);
    }

    pub(crate) fn receiver_served(&mut self, call: &Call, capacity: u32) {
        match call.number {
            SND_DTQ => self.note(Path::ReceiverServedBySnd),
            PSND_DTQ => self.note(Path::ReceiverServedByPsnd),
            TSND_DTQ => self.note(Path::ReceiverServedByTsnd),
            _ => self.note(Path::ReceiverServedByFsnd),
        }
        let forced = call.number == FSND_DTQ && capacity == 0;
        self.note_if(forced, Path::ReceiverServedByFsndAtCapacityZero);
    }

    /// A word went into the queue, which holds `count` words now.
    pub(crate) fn word_stored(&mut self, queue: u32, count: usize) {
        self.note_if(count == LARGEST_CAPACITY as usize, Path::QueueFilledTo16);
        self.stored[queue as usize] += 1;
        self.note_if(self.stored[queue as usize] > 16, Path::MoreThan16Words);
    }

    /// A forced send took a word out and put one in.
    pub(crate) fn word_replaced(&mut self, queue: u32, senders: bool) {
        self.note_if(senders, Path::ForcedSendWithSenders);
        self.note_if(!senders, Path::ForcedSendWithoutSenders);
        self.stored[queue as usize] += 1;
        self.note_if(self.stored[queue as usize] > 16, Path::MoreThan16Words);
    }

    /// Words were taken out of the queue, which holds `count` words now.
    pub(crate) fn words_changed(&mut self, queue: u32, count: usize) {
        if count == 0 {
            self.stored[queue as usize] = 0;
        }
    }

    pub(crate) fn message_freed(&mut self, message: u32, how: Freed) {
        self.freed[message as usize] = Some(how);
    }

    pub(crate) fn message_sent(&mut self, message: u32) {
        match self.freed[message as usize] {
            Some(Freed::ByReceive) => self.note(Path::MessageAgainAfterReceive),
            Some(Freed::ByDelete) => self.note(Path::MessageAgainAfterDelete),
            Some(Freed::ByHandingOver) => self.note(Path::MessageAgainAfterHandingOver),
            None => {}
        }
        self.freed[message as usize] = None;
    }

    pub(crate) fn wait_begun(&mut self, call: &Call, wait: &Wait, place: usize, counter: u32) {
        self.begun[call.caller as usize] = Some(counter);
        self.note_if(
            wait.end().is_some() && call.tmout == 2_147_483_646,
            Path::LargestTmout,
        );
        let (ever, finite) = match call.number {
            TSND_DTQ => (Path::ForEverTsndDtq, Path::FiniteTsndDtq),
            TRCV_DTQ => (Path::ForEverTrcvDtq, Path::FiniteTrcvDtq),
            TRCV_MBX => (Path::ForEverTrcvMbx, Path::FiniteTrcvMbx),
            _ => return self.waits_at(wait, place),
        };
        self.note(if wait.end().is_some() { finite } else { ever });
        self.waits_at(wait, place);
    }

    fn waits_at(&mut self, wait: &Wait, place: usize) {
        let (zero, last) = match wait {
            Wait::No => return,
            Wait::Sending { .. } => (Path::SenderAtPlaceZero, Path::SenderAtPlace31),
            Wait::Receiving { .. } => (Path::ReceiverAtPlaceZero, Path::ReceiverAtPlace31),
            Wait::AtMailbox { .. } => {
                (Path::MailboxWaiterAtPlaceZero, Path::MailboxWaiterAtPlace31)
            }
        };
        self.note_if(place == 0, zero);
        self.note_if(place == 31, last);
    }

    /// Called before `wait_ended` when the end tick has come.
    pub(crate) fn timed_out(&mut self, task: u32, counter: u32) {
        let across = matches!(self.begun[task as usize], Some(begun) if begun > counter);
        self.note_if(across, Path::TimeOutAcrossWrap);
    }

    pub(crate) fn wait_ended(&mut self, task: u32, wait: &Wait, suspended: bool, code: i32) {
        self.begun[task as usize] = None;
        match (code, wait) {
            // Senders and receivers of a queue are noted by the call itself.
            (E_OK, Wait::AtMailbox { .. }) => self.note(Path::MailboxWaiterServed),
            (E_RLWAI, Wait::Sending { .. }) => self.note(Path::RelWaiOfSender),
            (E_RLWAI, Wait::Receiving { .. }) => self.note(Path::RelWaiOfReceiver),
            (E_RLWAI, Wait::AtMailbox { .. }) => self.note(Path::RelWaiOfMailboxWaiter),
            (E_TMOUT, Wait::Sending { .. }) => self.note(Path::TimeOutOfSender),
            (E_TMOUT, Wait::Receiving { .. }) => self.note(Path::TimeOutOfReceiver),
            (E_TMOUT, Wait::AtMailbox { .. }) => self.note(Path::TimeOutOfMailboxWaiter),
            (E_DLT, Wait::Sending { .. }) => self.note(Path::DelDtqWithSenders),
            (E_DLT, Wait::Receiving { .. }) => self.note(Path::DelDtqWithReceivers),
            (E_DLT, Wait::AtMailbox { .. }) => self.note(Path::DelMbxWithWaiters),
            _ => {}
        }
        let path = match code {
            E_RLWAI => Path::SuspendedReleased,
            E_TMOUT => Path::SuspendedTimedOut,
            E_DLT => Path::SuspendedDeleted,
            _ => Path::SuspendedServed,
        };
        self.note_if(suspended, path);
    }

    pub(crate) fn fetched(&mut self, code: i32) {
        match code {
            E_RLWAI => self.note(Path::FetchReleased),
            E_TMOUT => self.note(Path::FetchTimedOut),
            E_DLT => self.note(Path::FetchDeleted),
            _ => self.note(Path::FetchOk),
        }
    }

    /// A table of so many calls and answer cells was refused with this code.
    pub(crate) fn table_refused(&mut self, code: i32, calls: usize, cells: usize) {
        let limit = LARGEST_TABLE as usize;
        let long = calls > limit;
        let short = cells < calls;
        if code == E_SYS {
            self.note(Path::TableUnsound);
            self.note_if(calls == 0, Path::TableUnsoundEmpty);
            self.note_if(long, Path::TableUnsoundTooLong);
            self.note_if(short, Path::TableUnsoundShort);
            return;
        }
        self.note_if(long && !short, Path::TableTooLong);
        self.note_if(calls == limit + 1 && !short, Path::TableOf65);
        self.note_if(short && !long, Path::TableShort);
        self.note_if(long && short, Path::TableTooLongShort);
    }

    /// A table of so many calls and answer cells was answered E_OK.
    pub(crate) fn table_taken(&mut self, calls: usize, cells: usize) {
        self.note_if(calls == 0, Path::TableEmpty);
        self.note_if(calls == LARGEST_TABLE as usize, Path::TableOf64);
        self.note_if(calls > 0 && cells == calls, Path::TableCellForEach);
        self.note_if(cells > calls, Path::TableCellsPast);
    }
}

impl fmt::Display for Reached {
    fn fmt(&self, out: &mut fmt::Formatter) -> fmt::Result {
        for (path, name) in PATHS {
            writeln!(out, "{:>12}  {}", self.count(*path), name)?;
        }
        Ok(())
    }
}
