// Document 01's tables: the calls, the codes, the steps of the error table.
use linguastel::Call;

use crate::kernel::Outcome;

pub struct CallRow {
    pub name: &'static str,
    pub page: &'static str,
    // The fields that hold the parameters, in the order in which the pages name them.
    pub fields: &'static [&'static str],
    // Whether caller 0 may make the call.
    pub i_form: bool,
}

pub const fn call_row(page: &'static str, name: &'static str, fields: &'static [&'static str], i_form: bool) -> CallRow {
    CallRow { name, page, fields, i_form }
}

impl CallRow {
    // The names of the call and of its i-form.
    pub fn forms(&self) -> Vec<String> {
        let i_form = format!("i{}", self.name);
        [self.name.to_string()].into_iter().chain(Some(i_form).filter(|_| self.i_form)).collect()
    }
}

pub const FETCH: usize = 23;

// The calls that name a task.
pub const TASK_CALLS: [u32; 6] = [1, 19, 20, 21, 22, 23];

pub const CALLS: [CallRow; 24] = [
    call_row("tick.md", "tick", &[], false),
    call_row("tasks.md", "define_task", &["object", "value"], true),
    call_row("data-queues.md", "cre_dtq", &["object", "attribute", "value"], true),
    call_row("data-queues.md", "del_dtq", &["object"], false),
    call_row("data-queues.md", "snd_dtq", &["object", "value"], false),
    call_row("data-queues.md", "psnd_dtq", &["object", "value"], true),
    call_row("data-queues.md", "tsnd_dtq", &["object", "value", "tmout"], false),
    call_row("data-queues.md", "fsnd_dtq", &["object", "value"], true),
    call_row("data-queues.md", "rcv_dtq", &["object"], false),
    call_row("data-queues.md", "prcv_dtq", &["object"], true),
    call_row("data-queues.md", "trcv_dtq", &["object", "tmout"], false),
    call_row("data-queues.md", "ref_dtq", &["object"], true),
    call_row("mailboxes.md", "cre_mbx", &["object", "attribute", "value"], true),
    call_row("mailboxes.md", "del_mbx", &["object"], false),
    call_row("mailboxes.md", "snd_mbx", &["object", "value", "attribute"], true),
    call_row("mailboxes.md", "rcv_mbx", &["object"], false),
    call_row("mailboxes.md", "prcv_mbx", &["object"], true),
    call_row("mailboxes.md", "trcv_mbx", &["object", "tmout"], false),
    call_row("mailboxes.md", "ref_mbx", &["object"], true),
    call_row("tasks.md", "rel_wai", &["object"], true),
    call_row("tasks.md", "sus_tsk", &["object"], true),
    call_row("tasks.md", "rsm_tsk", &["object"], true),
    call_row("tasks.md", "look", &["object"], true),
    call_row("tasks.md", "fetch", &["object"], true),
];

pub const CODES: [(&str, i32); 12] = [
    ("E_OK", 0),
    ("E_SYS", -5),
    ("E_PAR", -17),
    ("E_ID", -18),
    ("E_CTX", -25),
    ("E_ILUSE", -28),
    ("E_OBJ", -41),
    ("E_NOEXS", -42),
    ("E_QOVR", -43),
    ("E_RLWAI", -49),
    ("E_TMOUT", -50),
    ("E_DLT", -51),
];

pub const E_OK: Outcome = Outcome::Code(0);
pub const E_SYS: Outcome = Outcome::Code(-5);
pub const E_PAR: Outcome = Outcome::Code(-17);
pub const E_CTX: Outcome = Outcome::Code(-25);

// The error table's steps in order, each with its code; the dash is for accepted calls.
pub const STEPS: [(&str, &str); 11] = [
    ("0", "E_PAR"),
    ("1", "E_SYS"),
    ("2", "E_CTX"),
    ("3", "E_ID"),
    ("4", "E_PAR"),
    ("5", "E_NOEXS"),
    ("6a", "E_PAR"),
    ("6b", "E_OBJ"),
    ("6c", "E_QOVR"),
    ("6d", "E_ILUSE"),
    ("7", "E_TMOUT"),
];

pub const ACCEPTED: &str = "-";

pub fn can_refuse(step: &str, call: usize) -> bool {
    match step {
        "1" => true,
        "2" | "3" => call != 0,
        "4" => [1, 2, 6, 10, 12, 14, 17].contains(&call),
        "5" => ![0, 1, 2, 12].contains(&call),
        "6a" => call == 14,
        "6b" => [1, 2, 12, 14, 19, 21, 23].contains(&call),
        "6c" => call == 20,
        "6d" => call == 7,
        "7" => [5, 6, 9, 10, 16, 17].contains(&call),
        _ => false,
    }
}

// The parameter that is out of range, where a call has several that can be.
pub fn outside(call: &Call) -> &'static str {
    match call.number {
        2 if call.attribute > 1 => "attribute",
        2 => "capacity",
        12 if call.attribute > 3 => "attribute",
        12 => "highest",
        14 if !(1..=64).contains(&call.value) => "message",
        14 => "priority",
        _ => "",
    }
}

// Whether a wait can end with this; also what fetch gives where it isn't refused.
pub fn is_end(outcome: Outcome) -> bool {
    [0, -49, -50, -51].map(Outcome::Code).contains(&outcome)
}

pub fn can_accept(call: usize, outcome: Outcome) -> bool {
    match outcome {
        Outcome::Waits => [4, 6, 8, 10, 15, 17].contains(&call),
        Outcome::Code(0) => true,
        Outcome::Code(_) => call == FETCH && is_end(outcome),
    }
}

// 'E_OK', or 'waits'.
pub fn outcome_named(name: &str) -> Result<Outcome, String> {
    if name == "waits" {
        return Ok(Outcome::Waits);
    }
    let code = CODES.iter().find(|code| code.0 == name);
    code.map(|code| Outcome::Code(code.1)).ok_or(format!("there is no code '{name}'"))
}

// 'E_SYS -5', or 'waits'.
pub fn outcome_in_cell(cell: &str) -> Result<Outcome, String> {
    let (name, number) = cell.split_once(' ').unwrap_or((cell, ""));
    let outcome = outcome_named(name)?;
    let right = match outcome {
        Outcome::Code(code) => number == code.to_string(),
        Outcome::Waits => number.is_empty(),
    };
    if right {
        Ok(outcome)
    } else {
        Err(format!("'{number}' isn't the number of {name}"))
    }
}
