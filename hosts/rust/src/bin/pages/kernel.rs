// The kernel that examples and drawn calls are played on, and what was seen of it.
use std::collections::BTreeSet;
use std::fmt;

use linguastel::{trace_table, Call, HostAnswer, Record, NO_CODE, TASKS, TRACE_SIZE};

use crate::document::{is_end, outside, CALLS, CODES, E_CTX, E_PAR, E_SYS, FETCH};
use crate::states::{moves, states_in, Move};

#[derive(Clone, Copy, PartialEq, Eq, PartialOrd, Ord)]
pub enum Outcome {
    Code(i32),
    Waits,
}

#[derive(Clone, Copy, PartialEq)]
pub struct Answer {
    pub outcome: Outcome,
    pub place: u32,
    pub words: [u32; 3],
}

impl Answer {
    pub fn of(answer: HostAnswer) -> Answer {
        let outcome = match (answer.kind, answer.code) {
            (1, NO_CODE) => Outcome::Waits,
            (_, code) => Outcome::Code(code),
        };
        Answer { outcome, place: answer.place, words: [answer.a, answer.b, answer.c] }
    }
}

impl fmt::Display for Outcome {
    fn fmt(&self, f: &mut fmt::Formatter) -> fmt::Result {
        match self {
            Outcome::Waits => write!(f, "waits"),
            Outcome::Code(number) => match CODES.iter().find(|code| code.1 == *number) {
                Some(code) => write!(f, "{}", code.0),
                None => write!(f, "the unknown code {number}"),
            },
        }
    }
}

impl fmt::Display for Answer {
    fn fmt(&self, f: &mut fmt::Formatter) -> fmt::Result {
        let [a, b, c] = self.words;
        write!(f, "{} place {} a {a} b {b} c {c}", self.outcome, self.place)
    }
}

// An outcome with its cause, as far as the call and the damage done to the record tell it; else the cause is empty.
#[derive(Clone, Copy, PartialEq, Eq, PartialOrd, Ord)]
pub struct Sight {
    pub outcome: Outcome,
    pub cause: &'static str,
}

// What was seen of each call: what it answered, the codes that its waits ended with, and which tasks' states it changed. The entry behind the calls is
// for unknown numbers. What the last call or table adds to a trace is kept too.
#[derive(Default)]
pub struct Seen {
    pub recorded: Vec<[u8; TRACE_SIZE]>,
    pub calls: usize,
    pub answers: [BTreeSet<Sight>; CALLS.len() + 1],
    pub ends: [BTreeSet<Outcome>; CALLS.len() + 1],
    pub moves: [BTreeSet<Move>; CALLS.len() + 1],
}

// A record, whether damage was done to it, and for each task the call that its last wait came from.
#[derive(Clone)]
pub struct Kernel {
    pub record: Record,
    pub damaged: bool,
    pub waited_by: [Option<usize>; TASKS + 1],
}

impl Kernel {
    pub fn empty() -> Kernel {
        Kernel { record: Record::empty(), damaged: false, waited_by: [None; TASKS + 1] }
    }

    pub fn call(&mut self, call: Call, seen: &mut Seen) -> Answer {
        let (number, before) = (CALLS.len().min(call.number as usize), states_in(&self.record));
        let given = self.record.host_call(call);
        let answer = Answer::of(given);
        self.note(&call, number, answer, seen);
        seen.moves[number].extend(moves(&call, &before, &states_in(&self.record)));
        seen.recorded.clear();
        seen.recorded.extend(call.trace(given));
        answer
    }

    // A table of calls; gives its code. In a table number 0 is as unknown as those above 23.
    pub fn table(&mut self, calls: &[Call], cells: &mut [HostAnswer], seen: &mut Seen) -> Outcome {
        let code = self.record.table(calls, cells);
        seen.recorded = trace_table(calls, cells, code).collect();
        for (call, cell) in calls.iter().zip(cells).filter(|_| code == linguastel::E_OK) {
            let number = if call.number == 0 { CALLS.len() } else { CALLS.len().min(call.number as usize) };
            self.note(call, number, Answer::of(*cell), seen);
        }
        Outcome::Code(code)
    }

    pub fn note(&mut self, call: &Call, number: usize, answer: Answer, seen: &mut Seen) {
        seen.calls += 1;
        seen.answers[number].insert(self.sight(call, answer.outcome));
        if let Some(task) = self.waited_by.get_mut(call.caller as usize).filter(|_| answer.outcome == Outcome::Waits) {
            *task = Some(number);
        }
        if let Some(starter) = self.starter(call).filter(|_| is_end(answer.outcome)) {
            seen.ends[starter].insert(answer.outcome);
        }
    }

    pub fn sight(&self, call: &Call, outcome: Outcome) -> Sight {
        let cause = match outcome {
            E_SYS if self.damaged => "the record",
            E_SYS => "the caller",
            E_CTX if call.locked != 0 => "locked",
            E_CTX if call.caller == 0 => "caller 0",
            E_CTX => "disabled",
            E_PAR => outside(call),
            _ => "",
        };
        Sight { outcome, cause }
    }

    // Of a fetch: the call that the fetched wait came from.
    pub fn starter(&self, call: &Call) -> Option<usize> {
        if call.number as usize != FETCH {
            return None;
        }
        *self.waited_by.get(call.object as usize)?
    }

    pub fn damage(&mut self) {
        damage(&mut self.record);
        self.damaged = true;
    }
}

// The chains of tasks lead to numbers that no task has.
pub fn damage(record: &mut Record) {
    record.waiting.link.fill(255);
}
