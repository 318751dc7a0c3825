// The check of a page: its examples are played, its tables compared.
use std::collections::BTreeSet;

use linguastel::{code_meaning, code_name, Call};

use crate::document::{can_accept, can_refuse, outcome_in_cell, CallRow, ACCEPTED, CALLS, CODES, E_OK, STEPS};
use crate::kernel::{Kernel, Outcome, Seen, Sight};
use crate::notation::{answer_of, play, step_of, whole_answer, Step};
use crate::page::{quoted, Block, Line, Page, Section, Table};
use crate::prototypes::Declared;
use crate::questions::asked;
use crate::recording::bytes_in_text;
use crate::sources::{Programs, HEADER};

pub const CHECKS: [&str; 4] = ["Step", "Code", "When", "Example"];
pub const TABLE_CHECKS: [&str; 4] = ["Check", "Code", "When", "Example"];
pub const ENDS: [&str; 4] = ["The wait ends by", "Code", "Word", "Example"];
pub const PARAMETERS: [&str; 3] = ["Parameter", "Field", "Values"];
pub const CODE_LIST: [&str; 3] = ["Code", "Number", "Meaning"];
pub const CALL_LIST: [&str; 3] = ["No.", "Call", "Page"];
pub const BYTES: [&str; 3] = ["Bytes", "Field", "Holds"];
pub const TRACED: [&str; 4] = ["Recorded", "Code", "When", "Example"];

pub struct Check {
    // The functions of the header and of the wrapper.
    pub declared: Declared,
    // The programs that lines of code on the pages are taken from.
    pub programs: Programs,
    // The state that every example starts from.
    pub setting: Kernel,
    pub seen: Seen,
    // What the examples in each call's table of checks show.
    pub shown: [BTreeSet<Sight>; CALLS.len()],
    pub examples: usize,
    pub differ: usize,
}

// An example's last call, what it showed, and the kernel after it.
pub struct Played {
    pub call: Call,
    pub sight: Sight,
    pub kernel: Kernel,
}

impl Check {
    pub fn differs(&mut self, page: &Page, at: usize, what: &str) {
        println!("{}:{at}: {what}", page.file);
        self.differ += 1;
    }

    pub fn expect(&mut self, right: bool, page: &Page, at: usize, what: &str) {
        if !right {
            self.differs(page, at, what);
        }
    }

    // Plays all steps of an example but the last; they have to be accepted. Gives the last.
    pub fn play_before<'a>(&mut self, kernel: &mut Kernel, text: &'a str) -> Result<&'a str, String> {
        let (before, last) = text.rsplit_once(';').map_or((None, text), |(before, last)| (Some(before), last));
        for step in before.iter().flat_map(|before| before.split(';')) {
            let answer = play(kernel, &step_of(step)?, &mut self.seen);
            if answer.is_some_and(|answer| ![Outcome::Waits, E_OK].contains(&answer.outcome)) {
                return Err("a step before the last isn't accepted".to_string());
            }
        }
        Ok(last.trim())
    }

    // Plays an example from a table of checks. The last step has to give the expected answer.
    pub fn play_example(&mut self, outcome: Outcome, text: &str) -> Result<Played, String> {
        let mut kernel = self.setting.clone();
        let last = self.play_before(&mut kernel, text)?;
        let (step, words) = last.split_once("->").unwrap_or((last, ""));
        let expected = answer_of(outcome, words)?;
        let Step::Call(call) = step_of(step)? else {
            return Err("the last step is no call".to_string());
        };
        let answer = kernel.call(call, &mut self.seen);
        if answer == expected {
            Ok(Played { call, sight: kernel.sight(&call, outcome), kernel })
        } else {
            Err(format!("the kernel gives {answer}"))
        }
    }

    // Plays the examples of a row, and hands out those that give what they should.
    pub fn play_row<T>(&mut self, page: &Page, row: &(usize, Vec<String>), play: fn(&mut Check, Outcome, &str) -> Result<T, String>) -> Vec<T> {
        let (at, cells) = row;
        let mut played = vec![];
        let outcome = match outcome_in_cell(&cells[1]) {
            Ok(outcome) => outcome,
            Err(what) => {
                self.differs(page, *at, &what);
                return played;
            }
        };
        let examples = quoted(&cells[3]);
        self.expect(!examples.is_empty(), page, *at, "the row has no example");
        for example in examples {
            self.examples += 1;
            match play(self, outcome, example) {
                Ok(one) => played.push(one),
                Err(what) => self.differs(page, *at, &format!("'{example}': {what}")),
            }
        }
        played
    }

    // Plays a worked example, in which every call has its answer behind an arrow. The lines of a table are indented. In an example of a trace, the bytes
    // that each step adds to it stand below the step, indented twice. Gives the kernel after the last step.
    pub fn play_block(&mut self, page: &Page, block: &Block) -> Kernel {
        let (mut kernel, of_trace) = (self.setting.clone(), block.kind == "trace");
        self.examples += 1;
        for lines in block.lines.chunk_by(|_, next| next.text.starts_with("  ")) {
            let (first, rest) = lines.split_first().expect("a chunk has a line");
            let (bytes, rest): (Vec<&Line>, Vec<&Line>) = rest.iter().partition(|line| of_trace && line.text.starts_with("    "));
            self.seen.recorded.clear();
            let played = match first.text.strip_prefix("table -> ") {
                Some(code) => self.play_lines(&mut kernel, code, &rest),
                None if rest.is_empty() => self.play_line(&mut kernel, &first.text),
                None => Err("the lines below it belong to no table".to_string()),
            };
            if let Err(what) = played {
                self.differs(page, first.at, &format!("'{}': {what}", first.text));
            }
            let recorded: Vec<String> = self.seen.recorded.iter().map(bytes_in_text).collect();
            let right = !of_trace || bytes.iter().map(|line| line.text.trim()).eq(&recorded);
            self.expect(right, page, first.at, &format!("'{}' adds to a trace: {}", first.text, recorded.join(", ")));
        }
        kernel
    }

    pub fn play_line(&mut self, kernel: &mut Kernel, text: &str) -> Result<(), String> {
        let (step, answer) = match text.split_once(" -> ") {
            Some((step, answer)) => (step, Some(answer)),
            None => (text, None),
        };
        if let Some(found) = asked(&kernel.record, step)? {
            return if answer == Some(found.as_str()) { Ok(()) } else { Err(format!("the record says {found}")) };
        }
        let given = play(kernel, &step_of(step)?, &mut self.seen);
        match (given, answer.map(whole_answer).transpose()?) {
            (None, None) => Ok(()),
            (Some(given), Some(expected)) if given == expected => Ok(()),
            (Some(given), _) => Err(format!("the kernel gives {given}")),
            (None, Some(_)) => Err("the step is no call".to_string()),
        }
    }

    // The rows of a table of checks stand in the steps' order, each with its step's code.
    pub fn check_order(&mut self, page: &Page, table: &Table, steps: &[(&str, &str)], accepts: impl Fn(Outcome) -> bool) {
        let mut reached = 0;
        for (at, cells) in &table.rows {
            let (step, code) = (cells[0].as_str(), cells[1].as_str());
            let place = if step == ACCEPTED { Some(steps.len()) } else { steps.iter().position(|row| row.0 == step) };
            let Some(place) = place else {
                self.differs(page, *at, &format!("there is no step '{step}'"));
                continue;
            };
            self.expect(reached <= place, page, *at, "the row comes after a later step");
            reached = place;
            let right = match steps.get(place) {
                Some(row) => code.split(' ').next() == Some(row.1),
                None => outcome_in_cell(code).is_ok_and(&accepts),
            };
            self.expect(right, page, *at, &format!("step {step} doesn't give '{code}' here"));
        }
    }

    // The steps that are on the page are those that can refuse the call.
    pub fn check_steps(&mut self, page: &Page, at: usize, table: &Table, steps: &[(&str, &str)], can_refuse: impl Fn(&str) -> bool) {
        for (step, _) in steps.iter().copied() {
            let written = table.rows.iter().any(|row| row.1[0] == step);
            let what = if written { "the call has no such step" } else { "the step is missing" };
            self.expect(written == can_refuse(step), page, at, &format!("step {step}: {what}"));
        }
    }

    pub fn check_parameters(&mut self, page: &Page, section: &Section, row: &CallRow) {
        let rows = section.table(&PARAMETERS).map_or(&[][..], |table| &table.rows);
        let fields: Vec<&str> = rows.iter().flat_map(|row| quoted(&row.1[1])).collect();
        self.expect(fields == row.fields, page, section.at, &format!("the parameters' fields are {}", row.fields.join(", ")));
    }

    pub fn play_checks(&mut self, page: &Page, checks: &Table, call: usize) {
        for row in &checks.rows {
            let played = self.play_row(page, row, Check::play_example);
            self.expect(played.iter().all(|one| one.call.number as usize == call), page, row.0, "an example is one of another call");
            self.shown[call].extend(played.iter().map(|one| one.sight));
        }
    }

    pub fn play_ends(&mut self, page: &Page, ends: &Table, call: usize) {
        for row in &ends.rows {
            let played = self.play_row(page, row, Check::play_example);
            let right = played.iter().all(|one| one.kernel.starter(&one.call) == Some(call));
            self.expect(right, page, row.0, "an example doesn't fetch the end of this call's wait");
        }
    }

    // A call's section: all but which codes were seen.
    pub fn check_call(&mut self, page: &Page, section: &Section, call: usize, name: &str) {
        let Some(row) = CALLS.get(call).filter(|row| row.name == name && page.file.ends_with(row.page)) else {
            return self.differs(page, section.at, "no call with this number and name belongs on this page");
        };
        let forms = row.forms();
        self.check_prototypes(page, section, &forms.iter().map(|form| format!("linguastel_{form}")).collect::<Vec<String>>(), &forms);
        self.check_standard(page, section, call);
        self.check_parameters(page, section, row);
        self.check_kinds(page, section, &["calls"]);
        let Some(checks) = section.table(&CHECKS) else {
            return self.differs(page, section.at, "the table of checks is missing");
        };
        self.check_order(page, checks, &STEPS, |outcome| can_accept(call, outcome));
        self.check_steps(page, section.at, checks, &STEPS, |step| can_refuse(step, call));
        self.play_checks(page, checks, call);
        if let Some(ends) = section.table(&ENDS) {
            self.play_ends(page, ends, call);
        }
    }

    // There are blocks of these kinds.
    pub fn check_kinds(&mut self, page: &Page, section: &Section, kinds: &[&str]) {
        for kind in kinds {
            self.expect(section.blocks.iter().any(|block| block.kind == *kind), page, section.at, &format!("no example is one of '{kind}'"));
        }
    }

    // The table of checks that all calls share: every step, and no accepted call.
    pub fn check_table(&mut self, page: &Page, at: usize, table: &Table) {
        self.check_order(page, table, &STEPS, |_| false);
        self.check_steps(page, at, table, &STEPS, |_| true);
        for row in &table.rows {
            self.play_row(page, row, Check::play_example);
        }
    }

    pub fn check_codes(&mut self, page: &Page, at: usize, table: &Table) {
        let right = CODES.map(|code| [code.0.to_string(), code.1.to_string()]);
        let written: Vec<&[String]> = table.rows.iter().map(|row| &row.1[..2]).collect();
        self.expect(written == right, page, at, "the codes and numbers aren't document 01's");
        for ((name, number), (at, cells)) in CODES.iter().zip(&table.rows) {
            let in_rust = (code_name(*number), code_meaning(*number)) == (*name, cells[2].as_str());
            let in_c = HEADER.contains(&format!("case LINGUASTEL_{name}: return \"{}\";", cells[2]));
            self.expect(in_rust && in_c, page, *at, "the header or the wrapper has other words for the code");
        }
    }

    pub fn check_call_list(&mut self, page: &Page, at: usize, table: &Table) {
        let line = |(call, row): (usize, &CallRow)| {
            let (name, file) = (row.name, row.page);
            vec![call.to_string(), format!("`{name}`"), format!("[{file}]({file}#{call}-{name})")]
        };
        let right = CALLS.iter().enumerate().map(line);
        self.expect(table.rows.iter().map(|row| row.1.clone()).eq(right), page, at, "the calls, names and links aren't those of the pages");
    }

    // A section that belongs to no call.
    pub fn check_common(&mut self, page: &Page, section: &Section) {
        for table in &section.tables {
            if table.header == CHECKS {
                self.check_table(page, section.at, table);
            } else if table.header == CODE_LIST {
                self.check_codes(page, section.at, table);
            } else if table.header == CALL_LIST {
                self.check_call_list(page, section.at, table);
            }
        }
    }

    fn play_blocks(&mut self, page: &Page, section: &Section) {
        let mut played = None;
        for block in &section.blocks {
            match block.kind.as_str() {
                "calls" | "trace" => played = Some(self.play_block(page, block)),
                "replay" => self.play_replay_block(page, block),
                "state" => self.check_state(page, block, played.as_ref()),
                _ => self.check_code(page, block),
            }
        }
    }

    // Lines of code are lines of a program in that language.
    fn check_code(&mut self, page: &Page, block: &Block) {
        let at = block.lines.first().map_or(1, |line| line.at);
        let lines: String = block.lines.iter().map(|line| format!("{}\n", line.text)).collect();
        self.expect(self.programs.have(&block.kind, &lines), page, at, "no program has such lines");
    }

    // All but which codes were seen. Gives the number of examples.
    pub fn check_page(&mut self, page: &Page) -> usize {
        let before = self.examples;
        for at in page.long_lines() {
            self.differs(page, at, "the line is too long");
        }
        if page.sections.iter().any(|section| section.call().is_some()) {
            let is_shown = page.sections.iter().flat_map(|section| &section.blocks).any(|block| block.kind == "c");
            self.expect(is_shown, page, 1, "no lines of a program in C show how answers are looked at");
        }
        for section in &page.sections {
            match section.call() {
                Some((call, name)) => self.check_call(page, section, call, name),
                None if section.is_of_tables() => self.check_call_table(page, section),
                None if section.is_of_traces() => self.check_recording(page, section),
                None if section.is_of_replays() => self.check_replay(page, section),
                None => self.check_common(page, section),
            }
            self.check_declared(page, section);
            self.play_blocks(page, section);
        }
        self.examples - before
    }

    // Compares what a table has with what was seen.
    pub fn compare(&mut self, page: &Page, at: usize, table: Option<&Table>, seen: &BTreeSet<Outcome>, verb: &str) {
        let rows = table.map_or(&[][..], |table| &table.rows);
        let written: BTreeSet<Outcome> = rows.iter().flat_map(|row| outcome_in_cell(&row.1[1])).collect();
        for outcome in seen.difference(&written) {
            self.differs(page, at, &format!("it {verb} {outcome}, which isn't on the page"));
        }
        for outcome in written.difference(seen) {
            self.differs(page, at, &format!("it was never seen that it {verb} {outcome}"));
        }
    }

    // Every cause that was seen has an example.
    pub fn compare_causes(&mut self, page: &Page, at: usize, call: usize) {
        let missing: Vec<Sight> = self.seen.answers[call].difference(&self.shown[call]).copied().collect();
        for sight in missing.iter().filter(|sight| !sight.cause.is_empty()) {
            self.differs(page, at, &format!("it gives {} by {}, and no example shows it", sight.outcome, sight.cause));
        }
    }

    pub fn compare_page(&mut self, page: &Page) {
        for section in &page.sections {
            if let Some((call, _)) = section.call().filter(|(call, _)| *call < CALLS.len()) {
                let answers = self.seen.answers[call].iter().map(|sight| sight.outcome).collect();
                let ends = self.seen.ends[call].clone();
                self.compare(page, section.at, section.table(&CHECKS), &answers, "gives");
                self.compare(page, section.at, section.table(&ENDS), &ends, "waits until");
                self.compare_causes(page, section.at, call);
                self.compare_states(page, section, call);
            }
        }
    }
}
