//! The paper's section "Error numbers and their order": one function for each
//! step of the table, in the order of the table. None of them changes the
//! state; the first that applies gives the code.

use crate::reached::{Path, Reached};
use crate::state::*;

pub const E_OK: i32 = 0;
pub const E_SYS: i32 = -5;
pub const E_PAR: i32 = -17;
pub const E_ID: i32 = -18;
pub const E_CTX: i32 = -25;
pub const E_ILUSE: i32 = -28;
pub const E_OBJ: i32 = -41;
pub const E_NOEXS: i32 = -42;
pub const E_QOVR: i32 = -43;
pub const E_RLWAI: i32 = -49;
pub const E_TMOUT: i32 = -50;
pub const E_DLT: i32 = -51;

/// The name of a code, or the number in words.
pub fn code_name(code: i32) -> String {
    let name = match code {
        E_OK => "E_OK",
        E_SYS => "E_SYS",
        E_PAR => "E_PAR",
        E_ID => "E_ID",
        E_CTX => "E_CTX",
        E_ILUSE => "E_ILUSE",
        E_OBJ => "E_OBJ",
        E_NOEXS => "E_NOEXS",
        E_QOVR => "E_QOVR",
        E_RLWAI => "E_RLWAI",
        E_TMOUT => "E_TMOUT",
        E_DLT => "E_DLT",
        _ => return format!("unknown code {code}"),
    };
    name.to_string()
}

/// The code of the first row that applies, and which of its conditions held.
pub(crate) fn refusal(state: &State, call: &Call, reached: &mut Reached) -> Option<i32> {
    let (code, path) = first_row(state, call)?;
    reached.note(path);
    Some(code)
}

fn first_row(state: &State, call: &Call) -> Option<(i32, Path)> {
    let first =
        row(E_PAR, step_0_call_number(call)).or_else(|| row(E_SYS, step_1_state(state, call)));
    // The tick has the test of the state only.
    if first.is_some() || call.number == TICK {
        return first;
    }
    rows_for_calls(state, call)
}

fn rows_for_calls(state: &State, call: &Call) -> Option<(i32, Path)> {
    row(E_SYS, step_1_caller(state, call))
        .or_else(|| row(E_CTX, step_2_context(call)))
        .or_else(|| row(E_ID, step_3_number(call)))
        .or_else(|| row(E_PAR, step_4_parameters(call)))
        .or_else(|| row(E_NOEXS, step_5_existence(state, call)))
        .or_else(|| row(E_PAR, step_6a_message_priority(state, call)))
        .or_else(|| row(E_OBJ, step_6b_object_state(state, call)))
        .or_else(|| row(E_QOVR, step_6c_suspended_already(state, call)))
        .or_else(|| row(E_ILUSE, step_6d_forced_send(state, call)))
        .or_else(|| row(E_TMOUT, step_7_would_wait(state, call)))
}

/// The code of a row together with the condition that held, if one did.
fn row(code: i32, path: Option<Path>) -> Option<(i32, Path)> {
    path.map(|path| (code, path))
}

/// What kind of thing the call's object number counts.
enum Kind {
    Task,
    Queue,
    Mailbox,
}

/// The column "Names" of the table of calls; asked for calls 1 to 23 only.
fn kind(call: &Call) -> Kind {
    match call.number {
        CRE_DTQ..=REF_DTQ => Kind::Queue,
        CRE_MBX..=REF_MBX => Kind::Mailbox,
        _ => Kind::Task,
    }
}

fn step_0_call_number(call: &Call) -> Option<Path> {
    when(call.number > FETCH, Path::UnknownNumber)
}

fn step_1_state(state: &State, call: &Call) -> Option<Path> {
    if state.sound() {
        return None;
    }
    match call.number {
        TICK => Some(Path::UnsoundTick),
        _ => Some(Path::UnsoundCall),
    }
}

/// Caller 0 is a handler or start-up and is always in order here.
fn step_1_caller(state: &State, call: &Call) -> Option<Path> {
    if call.caller == 0 {
        return None;
    }
    if call.caller > TASKS {
        return Some(Path::CallerOutside);
    }
    let caller = state.task(call.caller);
    if !caller.exists {
        return Some(Path::CallerUndefined);
    }
    if caller.waits() {
        return Some(Path::CallerWaiting);
    }
    when(caller.suspended, Path::CallerSuspended)
}

fn step_2_context(call: &Call) -> Option<Path> {
    if call.locked {
        return Some(Path::Locked);
    }
    if call.caller == 0 {
        // Dispatching disabled is never a reason for caller 0.
        return match call.number {
            DEL_DTQ => Some(Path::HandlerDelDtq),
            SND_DTQ => Some(Path::HandlerSndDtq),
            TSND_DTQ => Some(Path::HandlerTsndDtq),
            RCV_DTQ => Some(Path::HandlerRcvDtq),
            TRCV_DTQ => Some(Path::HandlerTrcvDtq),
            DEL_MBX => Some(Path::HandlerDelMbx),
            RCV_MBX => Some(Path::HandlerRcvMbx),
            TRCV_MBX => Some(Path::HandlerTrcvMbx),
            _ => None,
        };
    }
    if !call.disabled {
        return None;
    }
    match call.number {
        SND_DTQ => Some(Path::DisabledSndDtq),
        TSND_DTQ => Some(Path::DisabledTsndDtq),
        RCV_DTQ => Some(Path::DisabledRcvDtq),
        TRCV_DTQ => Some(Path::DisabledTrcvDtq),
        RCV_MBX => Some(Path::DisabledRcvMbx),
        TRCV_MBX => Some(Path::DisabledTrcvMbx),
        SUS_TSK => when(call.object == call.caller, Path::DisabledSusTskOfCaller),
        _ => None,
    }
}

fn step_3_number(call: &Call) -> Option<Path> {
    let (limit, zero, above) = match kind(call) {
        Kind::Task => (TASKS, Path::TaskNumberZero, Path::TaskNumberAbove),
        Kind::Queue => (QUEUES, Path::QueueNumberZero, Path::QueueNumberAbove),
        Kind::Mailbox => (MAILBOXES, Path::MailboxNumberZero, Path::MailboxNumberAbove),
    };
    if call.object < 1 {
        return Some(zero);
    }
    when(call.object > limit, above)
}

fn step_4_parameters(call: &Call) -> Option<Path> {
    match call.number {
        TSND_DTQ | TRCV_DTQ | TRCV_MBX => {
            if call.tmout < -1 {
                return Some(Path::TmoutBelow);
            }
            when(call.tmout > LARGEST_TMOUT as i32, Path::TmoutAbove)
        }
        CRE_DTQ => {
            if call.attribute > 1 {
                return Some(Path::QueueAttribute);
            }
            when(call.value > LARGEST_CAPACITY, Path::Capacity)
        }
        CRE_MBX => step_4_new_mailbox(call),
        DEFINE_TASK => {
            if call.value < 1 {
                return Some(Path::TaskPriorityZero);
            }
            when(call.value > LARGEST_PRIORITY, Path::TaskPriorityAbove)
        }
        SND_MBX => {
            if call.value < 1 {
                return Some(Path::MessageNumberZero);
            }
            when(call.value > MESSAGES, Path::MessageNumberAbove)
        }
        _ => None,
    }
}

/// The highest message priority is looked at with attribute 2 or 3 only.
fn step_4_new_mailbox(call: &Call) -> Option<Path> {
    match call.attribute {
        0 | 1 => None,
        2 | 3 if call.value < 1 => Some(Path::HighestZero),
        2 | 3 => when(call.value > LARGEST_PRIORITY, Path::HighestAbove),
        _ => Some(Path::MailboxAttribute),
    }
}

fn step_5_existence(state: &State, call: &Call) -> Option<Path> {
    if matches!(call.number, DEFINE_TASK | CRE_DTQ | CRE_MBX) {
        return None;
    }
    match kind(call) {
        Kind::Task => when(!state.task(call.object).exists, Path::NoTask),
        Kind::Queue => when(!state.queue(call.object).exists, Path::NoQueue),
        Kind::Mailbox => when(!state.mailbox(call.object).exists, Path::NoMailbox),
    }
}

/// Without attribute 2 the priority of a message is ignored.
fn step_6a_message_priority(state: &State, call: &Call) -> Option<Path> {
    if call.number != SND_MBX {
        return None;
    }
    let mailbox = state.mailbox(call.object);
    if !mailbox.messages_by_priority() {
        return None;
    }
    if call.attribute < 1 {
        return Some(Path::MessagePriorityBelow);
    }
    when(call.attribute > mailbox.highest, Path::MessagePriorityAbove)
}

fn step_6b_object_state(state: &State, call: &Call) -> Option<Path> {
    match call.number {
        DEFINE_TASK => when(state.task(call.object).exists, Path::TaskExists),
        CRE_DTQ => when(state.queue(call.object).exists, Path::QueueExists),
        CRE_MBX => when(state.mailbox(call.object).exists, Path::MailboxExists),
        SND_MBX => when(state.message_queued(call.value), Path::MessageQueued),
        REL_WAI => when(!state.task(call.object).waits(), Path::TaskNotWaiting),
        RSM_TSK => when(!state.task(call.object).suspended, Path::TaskNotSuspended),
        FETCH => when(state.task(call.object).waits(), Path::TaskWaiting),
        _ => None,
    }
}

fn step_6c_suspended_already(state: &State, call: &Call) -> Option<Path> {
    let again = call.number == SUS_TSK && state.task(call.object).suspended;
    when(again, Path::TaskSuspended)
}

/// With capacity 0 there is no word to replace, so only a receiver helps.
fn step_6d_forced_send(state: &State, call: &Call) -> Option<Path> {
    if call.number != FSND_DTQ {
        return None;
    }
    let queue = state.queue(call.object);
    when(
        queue.capacity == 0 && queue.receivers.is_empty(),
        Path::ForcedSendWithoutRoom,
    )
}

fn step_7_would_wait(state: &State, call: &Call) -> Option<Path> {
    let (path, would_wait) = match call.number {
        PSND_DTQ => (Path::PollPsndDtq, state.send_would_wait(call.object)),
        TSND_DTQ => (
            Path::PollTsndDtq,
            call.tmout == 0 && state.send_would_wait(call.object),
        ),
        PRCV_DTQ => (Path::PollPrcvDtq, state.receive_would_wait(call.object)),
        TRCV_DTQ => (
            Path::PollTrcvDtq,
            call.tmout == 0 && state.receive_would_wait(call.object),
        ),
        PRCV_MBX => (Path::PollPrcvMbx, state.mailbox_would_wait(call.object)),
        TRCV_MBX => (
            Path::PollTrcvMbx,
            call.tmout == 0 && state.mailbox_would_wait(call.object),
        ),
        _ => return None,
    };
    when(would_wait, path)
}

fn when(condition: bool, path: Path) -> Option<Path> {
    if condition {
        return Some(path);
    }
    None
}
