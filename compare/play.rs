//! One call on the kernel and on the second program: the answers must be the same and the states equal, and a call that is refused, or only reads, must
//! leave every byte of the kernel's record.
use crate::record::{answer_in_words, kernel_answer, kernel_call, record_of, state_of};
use linguastel::{number, Record};
use second::{Answer, Call, Random, Reached, State};
use std::panic::{catch_unwind, AssertUnwindSafe};

/// The kernel's record and the second program's state, which are equal.
pub struct Pair {
    pub record: Record,
    pub state: State,
}

impl Pair {
    /// Unused cells of the record are random.
    pub fn new(state: State, random: &mut Random) -> Pair {
        Pair { record: record_of(&state, random), state }
    }

    /// Plays a call on both. An error is the difference in words.
    pub fn play(&mut self, call: &Call, reached: &mut Reached) -> Result<Answer, String> {
        let before = self.record.clone();
        let kernel = self.record.host_call(kernel_call(call));
        let played = catch_unwind(AssertUnwindSafe(|| self.state.play(call, reached)));
        let second =
            played.map_err(|_| format!("the second program panics\ncall: {call}\n── the state before the call ──\n{}", words_of(&before)))?;
        match self.difference(call, &before, &kernel, &second) {
            None => Ok(second),
            Some(what) => Err(self.in_words(&what, call, &before, &kernel, &second)),
        }
    }

    fn difference(&self, call: &Call, before: &Record, kernel: &linguastel::HostAnswer, second: &Answer) -> Option<String> {
        if *kernel != kernel_answer(second) {
            return Some("the answers differ".to_string());
        }
        if leaves_the_record(call, kernel) && self.record != *before {
            return Some(format!("the call is refused or only reads, yet the record changed: {}", first_change(before, &self.record)));
        }
        match state_of(&self.record) {
            None => Some("no state can be read from the kernel's record".to_string()),
            Some(read) if !read.equal(&self.state) => Some("the states differ".to_string()),
            Some(_) => None,
        }
    }

    fn in_words(&self, what: &str, call: &Call, before: &Record, kernel: &linguastel::HostAnswer, second: &Answer) -> String {
        let answers = format!("the kernel answers: {}\nthe second program answers: {second}", answer_in_words(kernel));
        format!("{what}\ncall: {call}\n{answers}\n{}", self.states_in_words(before))
    }

    /// The states of both after a call or table, and before it.
    pub fn states_in_words(&self, before: &Record) -> String {
        let (start, left, second_left) = (words_of(before), words_of(&self.record), self.state.to_string());
        let lines = lines_apart(&left, &second_left);
        let states = format!("── the kernel's state after it ──\n{left}\n── the second program's state after it ──\n{second_left}");
        format!("{lines}── the state before, of both ──\n{start}\n{states}")
    }
}

/// Whether a call with this answer changes no byte of the record.
pub fn leaves_the_record(call: &Call, answer: &linguastel::HostAnswer) -> bool {
    let reads = matches!(call.number, number::REF_DTQ | number::REF_MBX | number::LOOK | number::FETCH);
    reads || matches!(answer.read(), linguastel::Answer::Error(_))
}

/// The lines that only one of two states in words has.
pub fn lines_apart(kernel: &str, second: &str) -> String {
    let mut text = String::new();
    for line in kernel.lines().filter(|line| !second.lines().any(|other| other == *line)) {
        text += &format!("only the kernel has: {line}\n");
    }
    for line in second.lines().filter(|line| !kernel.lines().any(|other| other == *line)) {
        text += &format!("only the second program has: {line}\n");
    }
    text
}

pub fn words_of(record: &Record) -> String {
    state_of(record).map_or("no state can be read".to_string(), |state| state.to_string())
}

/// Where two records differ first, by the names of the record's fields.
pub fn first_change(before: &Record, after: &Record) -> String {
    if before.counter != after.counter {
        return format!("counter {} became {}", before.counter, after.counter);
    }
    let lists = [
        in_list("tasks", &before.tasks, &after.tasks),
        in_list("queues", &before.queues, &after.queues),
        in_list("waiting.link", &before.waiting.link, &after.waiting.link),
        in_list("waiting.key", &before.waiting.key, &after.waiting.key),
        in_list("messages.link", &before.messages.link, &after.messages.link),
        in_list("messages.key", &before.messages.key, &after.messages.key),
        in_list("mailboxes", &before.mailboxes, &after.mailboxes),
        in_list("spare", &[before.spare], &[after.spare]),
    ];
    lists.into_iter().flatten().next().unwrap_or("nothing".to_string())
}

fn in_list<T: PartialEq + std::fmt::Debug>(name: &str, before: &[T], after: &[T]) -> Option<String> {
    let place = (0..before.len()).find(|&place| before[place] != after[place])?;
    Some(format!("{name}[{place}] {:?} became {:?}", before[place], after[place]))
}
