//! Item 2 of document 02, "Post a burst in one go": `post` plays a table of
//! calls on the state. Below it are random tables to compare with.

use crate::errors::*;
use crate::random::{random_call, Profile, Random};
use crate::reached::{Path, Reached};
use crate::state::*;
use std::fmt;

/// Plays the calls from first to last, each on the state that the one before
/// left, and puts each answer into the cell of the same place. Gives the code
/// of the table. A refused table leaves the state and all cells as they are.
pub fn post(
    state: &mut State,
    calls: &[Call],
    answers: &mut [Answer],
    reached: &mut Reached,
) -> i32 {
    if let Some(code) = table_refusal(state, calls.len(), answers.len()) {
        reached.table_refused(code, calls.len(), answers.len());
        return code;
    }
    reached.table_taken(calls.len(), answers.len());
    let mut refused_before = false;
    // The cells past the last call have no partner here and stay.
    for (call, cell) in calls.iter().zip(answers) {
        *cell = play_record(state, call, reached);
        // A refused call does not stop the rest. What follows is for `reached`
        // only; a fetch may give the code of an ended wait and is left out.
        let done = matches!(
            cell,
            Answer::Waits { .. } | Answer::Finished { code: E_OK, .. }
        );
        reached.note_if(refused_before && done, Path::TableGoesOn);
        refused_before = refused_before || (!done && call.number != FETCH);
    }
    E_OK
}

/// The state comes first, then the two lengths, which share a code. An empty
/// table meets neither of the two, but it does meet the test of the state.
fn table_refusal(state: &State, calls: usize, cells: usize) -> Option<i32> {
    if !state.sound() {
        return Some(E_SYS);
    }
    if calls > LARGEST_TABLE as usize || cells < calls {
        return Some(E_PAR);
    }
    None
}

/// In a table number 0 is no tick: it is refused at step 0 as an unknown
/// number is, before its context and the rest of the record are looked at.
fn play_record(state: &mut State, call: &Call, reached: &mut Reached) -> Answer {
    if call.number == TICK {
        reached.note(Path::TableNumberZero);
        return Answer::refused(E_PAR);
    }
    reached.note_if(call.number > FETCH, Path::TableUnknownNumber);
    let answer = state.play(call, reached);
    let waits = matches!(answer, Answer::Waits { .. });
    reached.note_if(waits, Path::TableCallWaits);
    answer
}

/// A table of calls and the table for its answers, as they are lent.
#[derive(Clone, PartialEq, Eq, Debug)]
pub struct Table {
    pub calls: Vec<Call>,
    pub answers: Vec<Answer>,
}

impl fmt::Display for Table {
    /// One line for each call, then one for each cell.
    fn fmt(&self, out: &mut fmt::Formatter) -> fmt::Result {
        for (call, place) in self.calls.iter().zip(1..) {
            match call.number {
                TICK => writeln!(out, "call {place}: number 0")?,
                _ => writeln!(out, "call {place}: {call}")?,
            }
        }
        for (cell, place) in self.answers.iter().zip(1..) {
            writeln!(out, "cell {place}: {cell}")?;
        }
        Ok(())
    }
}

/// A random table of 0 to 66 calls, with fewer, as many or more cells. Each
/// call is guided by the state that the calls before it leave, whether the
/// table will be taken or not. The state may be unsound; then nothing moves.
pub fn random_table(random: &mut Random, profile: &Profile, state: &State) -> Table {
    let mut state = state.clone();
    // What is reached here is not part of any run.
    let mut reached = Reached::new();
    let mut calls = Vec::new();
    for _ in 0..random_length(random) {
        let call = random_record(random, profile, &state);
        play_record(&mut state, &call, &mut reached);
        calls.push(call);
    }
    let cells = random_cells(random, calls.len());
    let answers = random_marks(random, cells);
    Table { calls, answers }
}

/// Any length up to two above the limit, often one next to a limit.
fn random_length(random: &mut Random) -> u32 {
    let limit = LARGEST_TABLE;
    match random.below(4) {
        0 => random.pick(&[0, 1, limit - 1, limit, limit + 1, limit + 2]),
        1 => random.between(0, 8),
        _ => random.between(0, limit + 2),
    }
}

/// Mostly a call as it would be made singly. Some records have number 0, which
/// a tick of the profile has too, or an unknown number, but the rest of a call
/// that would do something, so that doing it is noticed.
fn random_record(random: &mut Random, profile: &Profile, state: &State) -> Call {
    let mut call = random_call(random, profile, state);
    match random.below(100) {
        0..=2 => call.number = TICK,
        3..=5 => call.number = random.pick(&[24, 25, 255, 256, 65_536, u32::MAX]),
        _ => {}
    }
    call
}

/// The length of the answer table. None is shorter than no calls at all.
fn random_cells(random: &mut Random, calls: usize) -> usize {
    let shorter = calls > 0 && random.percent(30);
    match (shorter, random.below(4)) {
        (true, 0) => 0,
        (true, 1) => random.below(calls as u32) as usize,
        (true, _) => calls - 1,
        (false, 0 | 1) => calls,
        (false, 2) => calls + 1,
        (false, _) => calls + random.between(2, 10) as usize,
    }
}

/// Contents for an answer table. Each mark differs from the others and from
/// every answer that a call has: no code is so low, and no place so high.
pub fn random_marks(random: &mut Random, count: usize) -> Vec<Answer> {
    let numbers = 0..count as u32;
    numbers.map(|number| mark(random, number)).collect()
}

fn mark(random: &mut Random, number: u32) -> Answer {
    if random.percent(25) {
        return Answer::Waits {
            place: 100 + number,
        };
    }
    Answer::Finished {
        code: -1_000 - number as i32,
        a: random.bits() as u32,
        b: 100 + number,
        c: 1_000 + number,
    }
}
