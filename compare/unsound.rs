//! Records of any kind. The second program judges what was read from one; the kernel's own test must agree. Where the record isn't sound, every
//! call of known number gets E_SYS and every other one E_PAR, with zero words, every table gets E_SYS, and no byte changes. Where it is sound, calls
//! and tables are compared as usual.
use crate::damage::{damage, DAMAGES};
use crate::limits::next_call;
use crate::play::{first_change, Pair};
use crate::record::{answer_in_words, kernel_call, record_of, state_of};
use crate::tables::{self, cells_for_kernel, compare_table, post_on_kernel, Lengths, LONGEST};
use linguastel::{Record, E_PAR, E_SYS};
use second::{code_name, random_marks, Answer, Call, Profile, Random, Reached, State, Table};
use std::collections::BTreeMap;

/// How many records there were, by the kind of damage.
#[derive(Clone, Copy, Default)]
pub struct Judged {
    pub sound: u64,
    /// A state could be read, which isn't sound.
    pub unsound: u64,
    /// A chain or a number let no state be read.
    pub unreadable: u64,
}

/// So many of a hundred records that are still sound get a table too.
const TABLES: u32 = 4;

#[derive(Default)]
pub struct Counts {
    pub judged: [Judged; DAMAGES.len()],
    /// Why the second program found a state not sound, without the numbers.
    pub faults: BTreeMap<String, u64>,
    /// Calls on records that aren't sound.
    pub refused: u64,
    /// Tables on those.
    pub refused_tables: Lengths,
    /// Calls on those that were sound after all.
    pub played: u64,
    /// Tables on those.
    pub tables: tables::Counts,
}

impl Counts {
    fn count(&mut self, way: usize, readable: bool, fault: Option<String>) {
        let judged = &mut self.judged[way];
        match fault {
            _ if !readable => judged.unreadable += 1,
            None => judged.sound += 1,
            Some(text) => {
                judged.unsound += 1;
                let words: Vec<&str> = text.split(' ').filter(|word| word.parse::<u64>().is_err()).collect();
                *self.faults.entry(words.join(" ")).or_default() += 1;
            }
        }
    }

    pub fn records(&self) -> u64 {
        self.judged.iter().map(|counts| counts.sound + counts.unsound + counts.unreadable).sum()
    }
}

/// Damages a record that holds this state, in each of the ways, and looks at what came of it.
pub fn compare_damaged(state: &State, random: &mut Random, counts: &mut Counts, reached: &mut Reached) -> Result<(), String> {
    for (way, &kind) in DAMAGES.iter().enumerate() {
        let mut record = record_of(state, random);
        damage(&mut record, kind, random);
        compare_judgement(&record, way, random, counts, reached).map_err(|text| format!("damage: {kind:?}\n{text}"))?;
    }
    Ok(())
}

fn compare_judgement(record: &Record, way: usize, random: &mut Random, counts: &mut Counts, reached: &mut Reached) -> Result<(), String> {
    let read = state_of(record);
    let fault = read.as_ref().and_then(State::fault);
    let sound = read.is_some() && fault.is_none();
    counts.count(way, read.is_some(), fault);
    if record.is_sound() != sound {
        let second = read.as_ref().map_or("can't be read".to_string(), |state| state.fault().unwrap_or("sound".to_string()));
        return Err(format!("the kernel's test says sound: {}; the second program: {second}\n{}", !sound, damaged_in_words(record)));
    }
    match read {
        Some(state) if sound => play_some(Pair { record: record.clone(), state }, random, counts, reached),
        read => {
            if let Some(state) = &read {
                second_refuses(state, random, reached)?;
            }
            refuse_all(record, read.as_ref(), random, counts, reached)
        }
    }
}

/// The second program too refuses a call on a state that isn't sound, and leaves it.
fn second_refuses(state: &State, random: &mut Random, reached: &mut Reached) -> Result<(), String> {
    let call = Call { number: random.below(24), ..Call::default() };
    let mut left = state.clone();
    let answer = left.play(&call, reached);
    if answer == Answer::refused(E_SYS) && left == *state {
        return Ok(());
    }
    Err(format!("call: {call}\nthe second program answers: {answer}\n── the state, which isn't sound ──\n{state}\n── and after it ──\n{left}"))
}

/// Likewise a table.
fn second_refuses_table(state: &State, table: &Table, reached: &mut Reached) -> Result<(), String> {
    let (mut left, mut cells) = (state.clone(), table.answers.clone());
    let code = second::post(&mut left, &table.calls, &mut cells, reached);
    if code == E_SYS && cells == table.answers && left == *state {
        return Ok(());
    }
    let after = Table { calls: Vec::new(), answers: cells };
    let words = format!("the second program's code for a table: {}\n{table}── its cells after it ──\n{after}", code_name(code));
    Err(format!("{words}── the state, which isn't sound ──\n{state}\n── and after it ──\n{left}"))
}

fn play_some(mut pair: Pair, random: &mut Random, counts: &mut Counts, reached: &mut Reached) -> Result<(), String> {
    let profile = any_profile(random);
    for _ in 0..4 {
        let call = next_call(random, &profile, &pair.state);
        counts.played += 1;
        pair.play(&call, reached)?;
    }
    if random.percent(TABLES) {
        compare_table(&mut pair, &profile, random, reached, &mut counts.tables)?;
    }
    Ok(())
}

fn any_profile(random: &mut Random) -> Profile {
    Profile::new(random.pick(&second::KINDS), random)
}

/// Calls of all numbers and, every other time, a table. Of the record a state may have been read.
fn refuse_all(record: &Record, read: Option<&State>, random: &mut Random, counts: &mut Counts, reached: &mut Reached) -> Result<(), String> {
    let profile = any_profile(random);
    let call = next_call(random, &profile, &State::empty(0));
    for number in 0..=23 {
        expect(record, &Call { number, ..call }, E_SYS)?;
    }
    // As a byte, the third of these would be a known number.
    let unknown = [24, 25 + random.below(231), 256 + random.below(24), u32::MAX];
    for number in unknown {
        expect(record, &Call { number, ..call }, E_PAR)?;
    }
    counts.refused += 24 + unknown.len() as u64;
    if random.percent(50) {
        let table = any_table(&call, random);
        counts.refused_tables.count(&table);
        refuse_table(record, &table, random)?;
        return read.map_or(Ok(()), |state| second_refuses_table(state, &table, reached));
    }
    Ok(())
}

/// Of any length, with fewer cells than calls, as many or more. As no call is made, one is enough, with numbers in turn.
fn any_table(call: &Call, random: &mut Random) -> Table {
    let count = random.below(LONGEST as u32 + 1);
    let cells = match random.below(3) {
        0 => random.below(count.max(1)),
        1 => count,
        _ => count + random.between(1, 10),
    };
    let calls = (0..count).map(|number| Call { number, ..*call }).collect();
    Table { calls, answers: random_marks(random, cells as usize) }
}

fn refuse_table(record: &Record, table: &Table, random: &mut Random) -> Result<(), String> {
    let mut lent = record.clone();
    let cells = cells_for_kernel(&table.answers, random);
    let (code, left) = post_on_kernel(&mut lent, &table.calls, &cells);
    if code == E_SYS && left == cells && lent == *record {
        return Ok(());
    }
    let first_cell = (1..).zip(cells.iter().zip(&left)).find(|(_, (cell, left))| cell != left);
    let text = format!("the kernel's code for a table: {}\n{table}first cell that changed: {first_cell:?}\n", code_name(code));
    let change = first_change(record, &lent);
    Err(format!("{text}changed: {change}\n── the record, which isn't sound ──\n{}", damaged_in_words(record)))
}

fn expect(record: &Record, call: &Call, code: i32) -> Result<(), String> {
    let mut lent = record.clone();
    let answer = lent.host_call(kernel_call(call));
    let refusal = linguastel::HostAnswer { kind: 0, code, place: 0, a: 0, b: 0, c: 0 };
    if answer == refusal && lent == *record {
        return Ok(());
    }
    let answers = format!("the kernel answers: {}\nexpected: {}", answer_in_words(&answer), answer_in_words(&refusal));
    let change = first_change(record, &lent);
    Err(format!("call: {call}\n{answers}\nchanged: {change}\n── the record, which isn't sound ──\n{}", damaged_in_words(record)))
}

/// The state, or all numbers of a record from which none can be read.
fn damaged_in_words(record: &Record) -> String {
    state_of(record).map_or_else(|| format!("{record:?}"), |state| state.to_string())
}

#[cfg(test)]
mod tests {
    use super::*;

    /// Tables of any length pass where the record isn't sound; where it is, each program would be found to take them or to give E_PAR.
    #[test]
    fn refused_tables() {
        let mut random = Random::new(1);
        let mut state = State::empty(0);
        state.tasks[1].suspended = true;
        let mut reached = Reached::new();
        for _ in 0..500 {
            let table = any_table(&Call::default(), &mut random);
            let unsound = record_of(&state, &mut random);
            assert!(refuse_table(&unsound, &table, &mut random).is_ok() && second_refuses_table(&state, &table, &mut reached).is_ok());
            assert!(refuse_table(&Record::empty(), &table, &mut random).is_err());
            assert!(second_refuses_table(&State::empty(0), &table, &mut reached).is_err());
        }
    }
}
