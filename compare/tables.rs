//! Tables: calls made in one go, on the kernel and on the second program. The codes and all answer cells must be the same and the states equal. A
//! table that is refused must leave every byte of the kernel's record and of its cells; one that is taken must leave the cells past its last call
//! and, where all of its calls are refused or only read, every byte of the record. It must also do what the same calls do when made singly.
use crate::limits::next_table;
use crate::play::{first_change, leaves_the_record, words_of, Pair};
use crate::record::{answer_in_words, kernel_answer, kernel_call, random_word, record_of, state_of};
use linguastel::{number, Record, E_OK, E_PAR, TABLE};
use second::{code_name, Answer, Call, Profile, Random, Reached, Table};
use std::cmp::Ordering;
use std::collections::BTreeMap;
use std::panic::{catch_unwind, AssertUnwindSafe};

// ── Counts ──

/// Random tables have up to so many calls.
pub const LONGEST: usize = TABLE + 2;

/// How many tables there were, by the number of calls, and by whether there were fewer cells than calls, as many or more.
#[derive(Default)]
pub struct Lengths(BTreeMap<(usize, Ordering), u64>);

impl Lengths {
    pub fn count(&mut self, table: &Table) {
        let (calls, cells) = (table.calls.len(), table.answers.len());
        *self.0.entry((calls, cells.cmp(&calls))).or_default() += 1;
    }

    pub fn tables(&self) -> u64 {
        self.0.values().sum()
    }

    /// How many lengths there were, of those that random tables have.
    pub fn in_words(&self) -> String {
        let reached = (0..=LONGEST).filter(|&calls| self.0.keys().any(|key| key.0 == calls)).count();
        format!("{reached} of the {} lengths from 0 to {LONGEST}", LONGEST + 1)
    }

    /// What never was at a limit of the length. No table has fewer cells than no calls.
    pub fn missing(&self) -> Vec<String> {
        let mut missing = Vec::new();
        for calls in [0, 1, TABLE - 1, TABLE, TABLE + 1, TABLE + 2] {
            for (order, cells) in [(Ordering::Less, "fewer"), (Ordering::Equal, "as many"), (Ordering::Greater, "more")] {
                if (calls, order) != (0, Ordering::Less) && !self.0.contains_key(&(calls, order)) {
                    missing.push(format!("a table with {calls} calls and {cells} cells"));
                }
            }
        }
        missing
    }
}

/// Tables that were compared with the second program.
#[derive(Default)]
pub struct Counts {
    pub lengths: Lengths,
    /// Tables that were refused.
    pub refused: u64,
    /// Calls of the others.
    pub calls: u64,
    /// Tables with calls, all of which were refused or only read.
    pub idle: u64,
}

// ── On the kernel ──

/// Hands a table to the kernel, with these cells. Gives its code and what the cells hold then.
pub fn post_on_kernel(record: &mut Record, calls: &[Call], cells: &[linguastel::HostAnswer]) -> (i32, Vec<linguastel::HostAnswer>) {
    let calls: Vec<linguastel::Call> = calls.iter().map(kernel_call).collect();
    let mut cells = cells.to_vec();
    (record.table(&calls, &mut cells), cells)
}

/// The calls of a table made singly, with their answers. Number 0 isn't made, since it would be a tick.
fn make_singly(record: &mut Record, calls: &[Call]) -> Vec<linguastel::HostAnswer> {
    let mut single = |call: &Call| match call.number {
        number::TICK => kernel_answer(&Answer::refused(E_PAR)),
        _ => record.host_call(kernel_call(call)),
    };
    calls.iter().map(&mut single).collect()
}

/// Cells for the kernel: the second program's marks or, in every other table, any numbers in all fields.
pub fn cells_for_kernel(marks: &[Answer], random: &mut Random) -> Vec<linguastel::HostAnswer> {
    if random.percent(50) {
        return marks.iter().map(kernel_answer).collect();
    }
    marks.iter().map(|_| any_answer(random)).collect()
}

fn any_answer(random: &mut Random) -> linguastel::HostAnswer {
    let [kind, place, a, b, c] = std::array::from_fn(|_| random_word(random));
    linguastel::HostAnswer { kind, code: random_word(random) as i32, place, a, b, c }
}

// ── On both ──

/// A random table for the states of a pair.
pub fn compare_table(pair: &mut Pair, profile: &Profile, random: &mut Random, reached: &mut Reached, counts: &mut Counts) -> Result<(), String> {
    // Calls before it may have written unused cells; every other table finds random numbers there.
    if random.percent(50) {
        pair.record = record_of(&pair.state, random);
    }
    // The second program plays the calls while it makes them up.
    let made = catch_unwind(AssertUnwindSafe(|| next_table(random, profile, &pair.state)));
    let table = made.map_err(|_| format!("the second program panics while it makes a table\n── for this state ──\n{}", pair.state))?;
    let lent = cells_for_kernel(&table.answers, random);
    pair.post(&table, &lent, reached, counts)
}

/// A table with what came of it on both.
struct Posted<'a> {
    /// With the second program's cells as they were before.
    table: &'a Table,
    /// The kernel's cells as they were before.
    lent: &'a [linguastel::HostAnswer],
    before: Record,
    kernel: (i32, Vec<linguastel::HostAnswer>),
    second: (i32, Vec<Answer>),
}

impl Pair {
    /// Posts a table on both, on the kernel with the cells `lent`. An error is the difference in words.
    fn post(&mut self, table: &Table, lent: &[linguastel::HostAnswer], reached: &mut Reached, counts: &mut Counts) -> Result<(), String> {
        let posted = self.posted(table, lent, reached)?;
        posted.count(counts);
        match posted.difference(self) {
            None => Ok(()),
            Some(what) => Err(format!("{what}\n{}{}", posted.in_words(), self.states_in_words(&posted.before))),
        }
    }

    fn posted<'a>(&mut self, table: &'a Table, lent: &'a [linguastel::HostAnswer], reached: &mut Reached) -> Result<Posted<'a>, String> {
        let before = self.record.clone();
        let kernel = post_on_kernel(&mut self.record, &table.calls, lent);
        let mut cells = table.answers.clone();
        let played = catch_unwind(AssertUnwindSafe(|| second::post(&mut self.state, &table.calls, &mut cells, reached)));
        let code = played.map_err(|_| format!("the second program panics\n{table}── the state before the table ──\n{}", words_of(&before)))?;
        Ok(Posted { table, lent, before, kernel, second: (code, cells) })
    }
}

impl Posted<'_> {
    fn count(&self, counts: &mut Counts) {
        counts.lengths.count(self.table);
        if self.kernel.0 != E_OK {
            counts.refused += 1;
            return;
        }
        counts.calls += self.table.calls.len() as u64;
        counts.idle += u64::from(!self.table.calls.is_empty() && self.is_idle());
    }

    /// The calls with their answers, of a table that was taken.
    fn answered(&self) -> impl Iterator<Item = (&Call, &linguastel::HostAnswer)> {
        self.table.calls.iter().zip(&self.kernel.1)
    }

    /// Whether all calls of a table that was taken are refused or only read.
    fn is_idle(&self) -> bool {
        self.answered().all(|(call, answer)| leaves_the_record(call, answer))
    }

    fn difference(&self, pair: &Pair) -> Option<String> {
        let (code, cells) = &self.kernel;
        if *code != self.second.0 {
            return Some("the codes differ".to_string());
        }
        if let Some(place) = (0..cells.len()).find(|&place| !self.same_cell(place)) {
            return Some(format!("cell {} differs", place + 1));
        }
        // Also where both programs have changed such a cell alike.
        let kept = if *code == E_OK { self.table.calls.len().min(cells.len()) } else { 0 };
        if cells[kept..] != self.lent[kept..] {
            return Some("a cell of a refused table, or one past the last call, changed".to_string());
        }
        if (*code != E_OK || self.is_idle()) && pair.record != self.before {
            let change = first_change(&self.before, &pair.record);
            return Some(format!("the table or each of its calls is refused or only reads, yet the record changed: {change}"));
        }
        match state_of(&pair.record) {
            None => Some("no state can be read from the kernel's record".to_string()),
            Some(read) if !read.equal(&pair.state) => Some("the states differ".to_string()),
            Some(_) if *code == E_OK => self.difference_singly(pair),
            Some(_) => None,
        }
    }

    /// A cell that the second program kept must hold what was lent to the kernel. No answer is the same as a mark.
    fn same_cell(&self, place: usize) -> bool {
        let (cell, second) = (self.kernel.1[place], self.second.1[place]);
        cell == if second == self.table.answers[place] { self.lent[place] } else { kernel_answer(&second) }
    }

    /// The same calls made singly on the kernel.
    fn difference_singly(&self, pair: &Pair) -> Option<String> {
        let mut record = self.before.clone();
        let singly = make_singly(&mut record, &self.table.calls);
        let apart = self.answered().zip(&singly).position(|((_, answer), single)| answer != single);
        if let Some(place) = apart {
            return Some(format!("made singly, call {} gets from the kernel: {}", place + 1, answer_in_words(&singly[place])));
        }
        let equal = record == pair.record || state_of(&record).is_some_and(|read| read.equal(&pair.state));
        (!equal).then(|| "made singly, the calls leave another state in the kernel's record".to_string())
    }

    /// The calls, the codes and the cells.
    fn in_words(&self) -> String {
        let (calls, cells) = (&self.table.calls, self.lent.len());
        let mut text = format!("a table of {} calls with {cells} cells\n", calls.len());
        // The cells follow below.
        text += &Table { calls: calls.clone(), answers: Vec::new() }.to_string();
        text += &format!("the kernel's code: {}; the second program's: {}\n", code_name(self.kernel.0), code_name(self.second.0));
        for place in 0..cells {
            let (cell, second) = (self.kernel.1[place], self.second.1[place]);
            let cell = if cell == self.lent[place] { "kept".to_string() } else { answer_in_words(&cell) };
            let second = if second == self.table.answers[place] { "kept".to_string() } else { second.to_string() };
            let apart = if self.same_cell(place) { "" } else { " - they differ" };
            text += &format!("cell {}: the kernel: {cell}; the second program: {second}{apart}\n", place + 1);
        }
        text
    }
}

#[cfg(test)]
mod tests {
    use super::*;
    use second::{random_marks, State};

    /// Data queue 1 has room for one word.
    fn start() -> Pair {
        let mut pair = Pair::new(State::empty(7), &mut Random::new(1));
        let create = Call { number: number::CRE_DTQ, object: 1, value: 1, ..Call::default() };
        pair.play(&create, &mut Reached::new()).expect("no difference");
        pair
    }

    /// The first send is accepted, the second one and number 0 are refused.
    fn example() -> Table {
        let send = |value| Call { number: number::PSND_DTQ, object: 1, value, ..Call::default() };
        Table { calls: vec![send(10), send(11), Call::default()], answers: random_marks(&mut Random::new(2), 5) }
    }

    /// Posts a table, makes a change and gives the difference that is found.
    fn found(table: &Table, change: fn(&mut Posted, &mut Pair)) -> String {
        let (mut pair, lent) = (start(), cells_for_kernel(&table.answers, &mut Random::new(3)));
        let mut posted = pair.posted(table, &lent, &mut Reached::new()).expect("no panic");
        change(&mut posted, &mut pair);
        posted.difference(&pair).unwrap_or("no difference".to_string())
    }

    #[test]
    fn every_change_is_found() {
        let changes: [(&str, fn(&mut Posted, &mut Pair)); 12] = [
            ("no difference", |_, _| {}),
            ("no difference", |_, pair| pair.record.spare ^= 1),
            ("the codes differ", |posted, _| posted.kernel.0 = E_PAR),
            ("cell 1 differs", |posted, _| posted.kernel.1[0].a ^= 1),
            ("cell 2 differs", |posted, _| posted.second.1[1] = posted.table.answers[1]),
            ("cell 3 differs", |posted, _| posted.kernel.1[2] = posted.lent[2]),
            ("cell 5 differs", |posted, _| posted.kernel.1[4].place ^= 1),
            ("a cell of a refused table, or one past the last call, changed", |posted, _| {
                posted.second.1[4] = Answer::refused(E_OK);
                posted.kernel.1[4] = kernel_answer(&posted.second.1[4]);
            }),
            ("no state can be read", |_, pair| pair.record.tasks[1].flags = 4),
            ("the states differ", |_, pair| pair.record.counter += 1),
            ("made singly, call 1 gets from the kernel: E_TMOUT", |posted, _| posted.before.queues[1].ring.capacity = 0),
            ("made singly, the calls leave another state", |posted, _| posted.before.counter += 1),
        ];
        for (text, change) in changes {
            assert!(found(&example(), change).starts_with(text), "{text}");
        }
    }

    /// A refused table, and one whose calls are refused or only read, leave even what is unused.
    #[test]
    fn every_byte_is_left() {
        let locked = |call: &Call| Call { locked: true, ..*call };
        let idle = Table { calls: example().calls.iter().map(locked).collect(), ..example() };
        let short = Table { answers: example().answers[..2].to_vec(), ..example() };
        let changes: [fn(&mut Posted, &mut Pair); 3] =
            [|_, pair| pair.record.spare ^= 1, |_, pair| pair.record.queues[1].ring.words[9] ^= 1, |_, pair| pair.record.waiting.link[0] ^= 1];
        for table in [idle, short, Table { calls: Vec::new(), ..example() }] {
            assert_eq!(found(&table, |_, _| {}), "no difference");
            for change in changes {
                assert!(found(&table, change).contains("yet the record changed"), "{table}");
            }
        }
    }

    #[test]
    fn a_difference_in_words() {
        let (mut pair, table) = (start(), example());
        pair.state.queues[1].words.push(9);
        let lent: Vec<linguastel::HostAnswer> = table.answers.iter().map(kernel_answer).collect();
        let text = pair.post(&table, &lent, &mut Reached::new(), &mut Counts::default()).expect_err("a difference");
        for line in [
            "cell 1 differs",
            "a table of 3 calls with 5 cells",
            "call 2: handler calls psnd_dtq (5) queue 1 word 11",
            "call 3: number 0",
            "the kernel's code: E_OK; the second program's: E_OK",
            "cell 1: the kernel: E_OK, words 0 0 0; the second program: E_TMOUT, words 0 0 0 - they differ",
            "cell 3: the kernel: E_PAR, words 0 0 0; the second program: E_PAR, words 0 0 0",
            "cell 5: the kernel: kept; the second program: kept",
        ] {
            assert!(text.lines().any(|found| found == line), "{line}\n{text}");
        }
    }

    #[test]
    fn lengths() {
        let mut lengths = Lengths::default();
        assert_eq!(lengths.missing().len(), 6 * 3 - 1);
        lengths.count(&example());
        lengths.count(&Table { calls: vec![Call::default(); TABLE], answers: Vec::new() });
        assert_eq!((lengths.tables(), lengths.missing().len()), (2, 6 * 3 - 2));
        assert_eq!(lengths.in_words(), "2 of the 67 lengths from 0 to 66");
    }
}
