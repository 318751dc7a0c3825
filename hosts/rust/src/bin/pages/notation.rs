// The examples' notation: steps, answers, tables of calls.
use linguastel::{Call, HostAnswer, TSK_NONE};

use crate::document::{outcome_named, CALLS, E_OK};
use crate::kernel::{Answer, Kernel, Outcome, Seen};

pub enum Step {
    Call(Call),
    Counter(u32),
    Damage,
}

pub fn parsed<N: std::str::FromStr>(word: &str) -> Result<N, String> {
    word.parse().map_err(|_| format!("'{word}' isn't a number that fits"))
}

pub fn set_field(call: &mut Call, field: &str, word: &str) -> Result<(), String> {
    match field {
        "object" => call.object = parsed(word)?,
        "value" => call.value = parsed(word)?,
        "attribute" => call.attribute = parsed(word)?,
        _ => call.tmout = parsed(word)?,
    }
    Ok(())
}

// 'snd_dtq 1 10', or 'call 24'.
pub fn set_call(call: &mut Call, words: &[&str]) -> Result<(), String> {
    let (name, parameters) = words.split_first().ok_or("a step has no call")?;
    if let ["call", word] = words {
        call.number = parsed(word)?;
        return Ok(());
    }
    let row = CALLS.iter().position(|row| row.name == *name && row.name != "tick");
    let row = row.ok_or(format!("there is no call '{name}'"))?;
    call.number = row as u32;
    let fields = CALLS[row].fields;
    if parameters.len() != fields.len() {
        return Err(format!("'{name}' has {} parameters", fields.len()));
    }
    fields.iter().zip(parameters).try_for_each(|(field, word)| set_field(call, field, word))
}

// 'T1', or 'H'.
pub fn caller_of(word: &str) -> Result<u32, String> {
    match word.strip_prefix('T') {
        Some(task) => parsed(task),
        None if word == "H" => Ok(TSK_NONE),
        None => Err(format!("there is no caller '{word}'")),
    }
}

// 'T1 locked snd_dtq 1 10'.
pub fn call_by(caller: &str, words: &[&str]) -> Result<Call, String> {
    let caller = caller_of(caller)?;
    let count = words.iter().take_while(|word| ["locked", "disabled"].contains(word)).count();
    let (marks, rest) = words.split_at(count);
    let marked = |mark: &str| u32::from(marks.contains(&mark));
    let mut call = Call { caller, locked: marked("locked"), disabled: marked("disabled"), ..Call::default() };
    set_call(&mut call, rest)?;
    Ok(call)
}

pub fn step_of(text: &str) -> Result<Step, String> {
    let words: Vec<&str> = text.split_whitespace().collect();
    match words[..] {
        [] => Err("a step is empty".to_string()),
        ["tick"] => Ok(Step::Call(Call::default())),
        ["damage"] => Ok(Step::Damage),
        ["counter", counter] => Ok(Step::Counter(parsed(counter)?)),
        _ => Ok(Step::Call(call_by(words[0], &words[1..])?)),
    }
}

// A table of calls and what its cells hold afterwards; None where a cell keeps its contents. Call i and cell i stand on line i.
#[derive(Default)]
pub struct CallTable {
    pub lines: usize,
    pub calls: Vec<Call>,
    pub cells: Vec<Option<Answer>>,
}

impl CallTable {
    // '64 times H ref_dtq 1 -> E_OK c 1', 'H ref_dtq 1' where there is no cell for the call, or '-> kept' where there is no call for the cell.
    pub fn add(&mut self, text: &str) -> Result<(), String> {
        let (times, line) = text.split_once(" times ").map_or((Ok(1), text), |(times, line)| (parsed(times), line));
        let (call, cell) = line.split_once("->").map_or((line, None), |(call, cell)| (call, Some(cell.trim())));
        let words: Vec<&str> = call.split_whitespace().collect();
        let call = words.split_first().map(|(caller, words)| call_by(caller, words)).transpose()?;
        let cell = cell.map(|cell| if cell == "kept" { Ok(None) } else { whole_answer(cell).map(Some) }).transpose()?;
        for _ in 0..times? {
            self.lines += 1;
            self.calls.extend(call);
            self.cells.extend(cell);
        }
        let gap = call.is_some() && self.calls.len() < self.lines || cell.is_some() && self.cells.len() < self.lines;
        if gap || (call, cell.is_some()) == (None, false) {
            return Err(format!("'{text}': the line has neither a call nor a cell, or one that a line before it lacks"));
        }
        Ok(())
    }

    pub fn of<'a>(lines: impl Iterator<Item = &'a str>) -> Result<CallTable, String> {
        let mut table = CallTable::default();
        lines.map(|line| table.add(line.trim())).collect::<Result<(), String>>()?;
        Ok(table)
    }

    // The table gives this code, its cells hold what they should, and a refused one changes nothing. The cells are marked, so that it shows which of
    // them are written.
    pub fn play(&self, kernel: &mut Kernel, code: Outcome, seen: &mut Seen) -> Result<(), String> {
        let mark = |i: usize| HostAnswer { kind: 9, code: 9, place: i as u32, a: 9, b: 9, c: 9 };
        let marks: Vec<HostAnswer> = (0..self.cells.len()).map(mark).collect();
        let (mut cells, before) = (marks.clone(), kernel.record.clone());
        let given = kernel.table(&self.calls, &mut cells, seen);
        if given != code {
            return Err(format!("the kernel gives {given}"));
        }
        if given != E_OK && (&kernel.record, &cells) != (&before, &marks) {
            return Err("the refused table changes something".to_string());
        }
        for (i, expected) in self.cells.iter().enumerate() {
            let right = expected.map_or(cells[i] == marks[i], |answer| Answer::of(cells[i]) == answer);
            if !right {
                return Err(format!("cell {i} holds {}", Answer::of(cells[i])));
            }
        }
        Ok(())
    }
}

// 'E_OK a 10 c 1', or 'waits place 1'.
pub fn whole_answer(text: &str) -> Result<Answer, String> {
    let (name, words) = text.split_once(' ').unwrap_or((text, ""));
    answer_of(outcome_named(name)?, words)
}

// 'a 10 c 1', or 'place 1'.
pub fn answer_of(outcome: Outcome, text: &str) -> Result<Answer, String> {
    let mut answer = Answer { outcome, place: 0, words: [0; 3] };
    let words: Vec<&str> = text.split_whitespace().collect();
    for pair in words.chunks(2) {
        match (outcome, pair) {
            (Outcome::Waits, ["place", place]) => answer.place = parsed(place)?,
            (Outcome::Code(_), ["a", word]) => answer.words[0] = parsed(word)?,
            (Outcome::Code(_), ["b", word]) => answer.words[1] = parsed(word)?,
            (Outcome::Code(_), ["c", word]) => answer.words[2] = parsed(word)?,
            _ => return Err(format!("'{text}' doesn't fit the answer '{outcome}'")),
        }
    }
    if outcome == Outcome::Waits && words.is_empty() {
        return Err("the place isn't stated".to_string());
    }
    Ok(answer)
}

// Plays one step; a call gives its answer.
pub fn play(kernel: &mut Kernel, step: &Step, seen: &mut Seen) -> Option<Answer> {
    match step {
        Step::Call(call) => return Some(kernel.call(*call, seen)),
        Step::Counter(counter) => kernel.record.counter = *counter,
        Step::Damage => kernel.damage(),
    }
    None
}
