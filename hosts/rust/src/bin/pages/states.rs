// The states of tasks, and which call takes a task from which state to which.
use std::collections::BTreeSet;
use std::fmt;

use linguastel::{Call, Record, DEFINED, NO_WAIT, SUSPENDED, TASKS};

use crate::check::Check;
use crate::document::TASK_CALLS;
use crate::page::{Page, Section};

const STATES: [&str; 4] = ["Task", "From", "To", "When"];

#[derive(Clone, Copy, PartialEq, Eq, PartialOrd, Ord)]
pub enum State {
    NotDefined,
    Runnable,
    Waiting,
    Suspended,
    WaitingAndSuspended,
}

impl State {
    const ALL: [(State, &'static str); 5] = [
        (State::NotDefined, "not defined"),
        (State::Runnable, "runnable"),
        (State::Waiting, "waiting"),
        (State::Suspended, "suspended"),
        (State::WaitingAndSuspended, "waiting and suspended"),
    ];

    fn named(name: &str) -> Option<State> {
        State::ALL.iter().find(|state| state.1 == name).map(|state| state.0)
    }
}

impl fmt::Display for State {
    fn fmt(&self, f: &mut fmt::Formatter) -> fmt::Result {
        let name = State::ALL.iter().find(|state| state.0 == *self).map_or("", |state| state.1);
        write!(f, "{name}")
    }
}

// Whose state changes: the task that the call names, the task that calls, or another one.
#[derive(Clone, Copy, PartialEq, Eq, PartialOrd, Ord)]
pub enum Role {
    Named,
    Caller,
    Other,
}

impl Role {
    // The first cell of a row.
    fn in_cell(cell: &str) -> Role {
        match cell {
            "the task" => Role::Named,
            "the caller" => Role::Caller,
            _ => Role::Other,
        }
    }

    fn of(task: usize, call: &Call) -> Role {
        if TASK_CALLS.contains(&call.number) && call.object as usize == task {
            Role::Named
        } else if call.number != 0 && call.caller as usize == task {
            Role::Caller
        } else {
            Role::Other
        }
    }
}

// A task's state before and after a call.
#[derive(Clone, Copy, PartialEq, Eq, PartialOrd, Ord)]
pub struct Move {
    role: Role,
    from: State,
    to: State,
}

impl fmt::Display for Move {
    fn fmt(&self, f: &mut fmt::Formatter) -> fmt::Result {
        let who = match self.role {
            Role::Named => "the task",
            Role::Caller => "the caller",
            Role::Other => "another task",
        };
        write!(f, "{who} from '{}' to '{}'", self.from, self.to)
    }
}

// The state of each task, by its number.
pub type States = [State; TASKS + 1];

pub fn states_in(record: &Record) -> States {
    std::array::from_fn(|task| {
        let row = &record.tasks[task];
        match (row.flags & DEFINED != 0, row.wait != NO_WAIT, row.flags & SUSPENDED != 0) {
            (false, _, _) => State::NotDefined,
            (true, false, false) => State::Runnable,
            (true, true, false) => State::Waiting,
            (true, false, true) => State::Suspended,
            (true, true, true) => State::WaitingAndSuspended,
        }
    })
}

pub fn moves<'a>(call: &'a Call, before: &'a States, after: &'a States) -> impl Iterator<Item = Move> + 'a {
    let moved = (1..=TASKS).filter(|task| before[*task] != after[*task]);
    moved.map(|task| Move { role: Role::of(task, call), from: before[task], to: after[task] })
}

impl Check {
    // The table of states has the changes that were seen, and no other. Where none was seen there is no table.
    pub fn compare_states(&mut self, page: &Page, section: &Section, call: usize) {
        let mut written = BTreeSet::new();
        for (at, cells) in section.table(&STATES).map_or(&[][..], |table| &table.rows) {
            match (State::named(&cells[1]), State::named(&cells[2])) {
                (Some(from), Some(to)) => written.insert(Move { role: Role::in_cell(&cells[0]), from, to }),
                _ => return self.differs(page, *at, "the row names no state of a task"),
            };
        }
        let seen = self.seen.moves[call].clone();
        for one in seen.difference(&written) {
            self.differs(page, section.at, &format!("it takes {one}, which isn't on the page"));
        }
        for one in written.difference(&seen) {
            self.differs(page, section.at, &format!("it was never seen that it takes {one}"));
        }
        let says_none = section.text.iter().any(|line| line.text.contains("No task changes its state."));
        self.expect(says_none == seen.is_empty(), page, section.at, "'No task changes its state.' stands exactly where none does");
    }
}
