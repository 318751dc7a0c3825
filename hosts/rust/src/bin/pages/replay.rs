// The section on replays in blocks, and the notation of its examples.
use std::mem::{offset_of, size_of};

use linguastel::Replay;

use crate::check::{Check, BYTES, TABLE_CHECKS};
use crate::document::{outcome_named, E_OK, E_PAR, E_SYS};
use crate::kernel::{damage, Outcome};
use crate::notation::parsed;
use crate::page::{Block, Page, Section, Table};

// Document 02's replay in blocks: its checks in order, its functions' names, and the fields of a replay and of its line, with their first bytes.
pub const REPLAY_STEPS: [(&str, &str); 2] = [("1", "E_SYS"), ("2", "E_PAR")];
pub const REPLAY_IN_C: [&str; 3] = ["linguastel_replay_empty", "linguastel_replay_feed", "linguastel_replay_end"];
pub const REPLAY_IN_RUST: [&str; 3] = ["empty", "feed", "end"];
pub const REPLAY_FIELDS: [(&str, usize); 6] = [
    ("records", offset_of!(Replay, records)),
    ("differ", offset_of!(Replay, differ)),
    ("first", offset_of!(Replay, first)),
    ("length", offset_of!(Replay, length)),
    ("kernel", offset_of!(Replay, kernel)),
    ("part", offset_of!(Replay, part)),
];
pub const LINE_FIELDS: [(&str, usize); 6] = [
    ("records", offset_of!(linguastel::Line, records)),
    ("differ", offset_of!(linguastel::Line, differ)),
    ("first", offset_of!(linguastel::Line, first)),
    ("tail", offset_of!(linguastel::Line, tail)),
    ("code", offset_of!(linguastel::Line, code)),
    ("spare", offset_of!(linguastel::Line, spare)),
];

// The nearest numbers that check 1 refuses, each by one rule alone: records, differ, first, length. Then codes at the limit of records, with the
// records, the length and the bytes of the block.
pub const REFUSED_NUMBERS: [[u64; 4]; 5] = [[0, 0, 0, 32], [1, 2, 1, 0], [1, 1, 2, 0], [1, 1, 0, 0], [1, 0, 1, 0]];
pub const RECORD_LIMITS: [(Outcome, u64, u64, usize); 6] = [
    (E_PAR, u64::MAX, 0, 32),
    (E_PAR, u64::MAX, 31, 1),
    (E_PAR, u64::MAX - 1, 0, 64),
    (E_OK, u64::MAX, 0, 0),
    (E_OK, u64::MAX, 0, 31),
    (E_OK, u64::MAX - 1, 0, 32),
];

pub enum ReplayStep {
    // Fields that the host sets itself.
    Set(Vec<(String, u64)>),
    Damage,
    Feed(Vec<u8>),
    End,
}

// Pairs of a name and a number: 'records 5 differ 2'.
pub fn pairs_in(text: &str) -> Result<Vec<(String, u64)>, String> {
    let words: Vec<&str> = text.split_whitespace().collect();
    let pair = |pair: &[&str]| match pair {
        [name, number] => Ok((name.to_string(), parsed(number)?)),
        _ => Err(format!("'{text}' isn't made of names and numbers")),
    };
    words.chunks(2).map(pair).collect()
}

// '01000001 05', in hexadecimal digits.
pub fn bytes_in(digits: &str) -> Result<Vec<u8>, String> {
    let byte = |pair: &[u8]| std::str::from_utf8(pair).ok().filter(|pair| pair.len() == 2).and_then(|pair| u8::from_str_radix(pair, 16).ok());
    digits.as_bytes().chunks(2).map(|pair| byte(pair).ok_or(format!("'{digits}' aren't the digits of bytes"))).collect()
}

// '01000001 31 times 00'.
pub fn block_in(words: &[&str]) -> Result<Vec<u8>, String> {
    match words {
        [] => Ok(vec![]),
        [times, "times", digits, rest @ ..] => Ok([bytes_in(digits)?.repeat(parsed(times)?), block_in(rest)?].concat()),
        [digits, rest @ ..] => Ok([bytes_in(digits)?, block_in(rest)?].concat()),
    }
}

pub fn replay_step(text: &str) -> Result<ReplayStep, String> {
    let words: Vec<&str> = text.split_whitespace().collect();
    match words[..] {
        [] => Err("a step is empty".to_string()),
        ["damage"] => Ok(ReplayStep::Damage),
        ["end"] => Ok(ReplayStep::End),
        ["feed", ref block @ ..] => Ok(ReplayStep::Feed(block_in(block)?)),
        _ => Ok(ReplayStep::Set(pairs_in(text)?)),
    }
}

// 'records 2 differ 1'; a number that isn't written is 0.
pub fn line_in(outcome: Outcome, text: &str) -> Result<linguastel::Line, String> {
    let Outcome::Code(code) = outcome else {
        return Err("a replay doesn't wait".to_string());
    };
    let mut line = linguastel::Line { records: 0, differ: 0, first: 0, tail: 0, code, spare: 0 };
    for (name, number) in pairs_in(text)? {
        match name.as_str() {
            "records" => line.records = number,
            "differ" => line.differ = number,
            "first" => line.first = number,
            "tail" => line.tail = number,
            _ => return Err(format!("a line has no number '{name}'")),
        }
    }
    Ok(line)
}

pub fn set_number(replay: &mut Replay, name: &str, number: u64) -> Result<(), String> {
    match name {
        "records" => replay.records = number,
        "differ" => replay.differ = number,
        "first" => replay.first = number,
        "length" => replay.length = number,
        _ => return Err(format!("there is no step '{name}'")),
    }
    Ok(())
}

// Plays one step. The end gives its line, a block its code with four zeros. What is refused, and the end, change nothing.
pub fn play_replay(replay: &mut Replay, step: &ReplayStep) -> Result<Option<linguastel::Line>, String> {
    let before = replay.clone();
    let given = match step {
        ReplayStep::Set(pairs) => {
            pairs.iter().try_for_each(|(name, number)| set_number(replay, name, *number))?;
            return Ok(None);
        }
        ReplayStep::Damage => {
            damage(&mut replay.kernel);
            return Ok(None);
        }
        ReplayStep::Feed(block) => line_in(Outcome::Code(replay.feed(block)), "")?,
        ReplayStep::End => replay.end(),
    };
    let keeps = given.code != linguastel::E_OK || matches!(step, ReplayStep::End);
    if keeps && *replay != before {
        return Err("a refused block, or the end, changes something".to_string());
    }
    Ok(Some(given))
}

// Plays one step of which this is expected.
pub fn play_replay_as(replay: &mut Replay, step: &ReplayStep, expected: linguastel::Line) -> Result<(), String> {
    match play_replay(replay, step)? {
        Some(given) if given == expected => Ok(()),
        Some(given) => Err(format!("the library gives {} {given}", Outcome::Code(given.code))),
        None => Err("the step is neither a block nor the end".to_string()),
    }
}

// 'feed 00 -> E_OK', or 'end -> E_OK records 1'.
pub fn play_replay_line(replay: &mut Replay, text: &str) -> Result<(), String> {
    let (step, answer) = text.split_once(" -> ").ok_or("the step has no answer")?;
    let (code, numbers) = answer.split_once(' ').unwrap_or((answer, ""));
    play_replay_as(replay, &replay_step(step)?, line_in(outcome_named(code)?, numbers)?)
}

// What an example shows: the replay before its last step, how many bytes that has where it is a block, and its code.
pub struct ReplayShown {
    pub replay: Replay,
    pub bytes: Option<usize>,
    pub outcome: Outcome,
}

impl ReplayShown {
    pub fn numbers(&self) -> [u64; 4] {
        [self.replay.records, self.replay.differ, self.replay.first, self.replay.length]
    }

    // Refused by the kernel's state alone.
    pub fn is_damaged(&self) -> bool {
        self.numbers() == [0; 4] && !self.replay.kernel.is_sound()
    }
}

impl Check {
    // The section on replays in blocks.
    pub fn check_replay(&mut self, page: &Page, section: &Section) {
        self.check_prototypes(page, section, &REPLAY_IN_C.map(String::from), &REPLAY_IN_RUST.map(String::from));
        self.check_kinds(page, section, &["replay", "c", "rust"]);
        let bytes: Vec<&Table> = section.tables.iter().filter(|table| table.header == BYTES).collect();
        let ([of_replay, of_line], Some(checks)) = (&bytes[..], section.table(&TABLE_CHECKS)) else {
            return self.differs(page, section.at, "the tables of fields or that of checks are missing");
        };
        self.check_fields(page, section.at, of_replay, &REPLAY_FIELDS, size_of::<Replay>());
        self.check_fields(page, section.at, of_line, &LINE_FIELDS, size_of::<linguastel::Line>());
        self.check_order(page, checks, &REPLAY_STEPS, |outcome| outcome == E_OK);
        self.check_steps(page, section.at, checks, &REPLAY_STEPS, |_| true);
        let shown: Vec<ReplayShown> = checks.rows.iter().flat_map(|row| self.play_row(page, row, Check::play_replay_example)).collect();
        self.check_replays_shown(page, section.at, &shown);
    }

    // Every field has a row, in order, with its bytes.
    pub fn check_fields(&mut self, page: &Page, at: usize, table: &Table, fields: &[(&str, usize)], size: usize) {
        let ends = fields.iter().skip(1).map(|field| field.1).chain([size]);
        let right: Vec<[String; 2]> =
            fields.iter().zip(ends).map(|((name, first), end)| [format!("{first} to {}", end - 1), format!("`{name}`")]).collect();
        let written: Vec<&[String]> = table.rows.iter().map(|row| &row.1[..2]).collect();
        self.expect(written == right, page, at, "these aren't the fields with their bytes");
    }

    // Each rule of check 1 has an example with a block of no bytes, with one that has bytes, and with the end. The limit of records has its examples.
    pub fn check_replays_shown(&mut self, page: &Page, at: usize, shown: &[ReplayShown]) {
        let ways: [(&str, fn(Option<usize>) -> bool); 3] = [
            ("a block of no bytes", |bytes| bytes == Some(0)),
            ("a block", |bytes| bytes.is_some_and(|bytes| bytes > 0)),
            ("the end", |bytes| bytes.is_none()),
        ];
        for (what, way) in ways {
            let of_way: Vec<&ReplayShown> = shown.iter().filter(|one| one.outcome == E_SYS && way(one.bytes)).collect();
            self.expect(of_way.iter().any(|one| one.is_damaged()), page, at, &format!("no example shows that damage refuses {what}"));
            for numbers in REFUSED_NUMBERS {
                let is_shown = of_way.iter().any(|one| one.numbers() == numbers && one.replay.kernel.is_sound());
                self.expect(is_shown, page, at, &format!("no example shows that {numbers:?} refuse {what}"));
            }
        }
        for (outcome, records, length, bytes) in RECORD_LIMITS {
            let limit = (outcome, records, length, Some(bytes));
            let is_shown = shown.iter().any(|one| (one.outcome, one.replay.records, one.replay.length, one.bytes) == limit);
            self.expect(is_shown, page, at, &format!("no example shows {outcome} with records {records} length {length} and {bytes} bytes"));
        }
    }

    // An example of a replay, from a new one. The steps before the last are accepted.
    pub fn play_replay_example(&mut self, outcome: Outcome, text: &str) -> Result<ReplayShown, String> {
        let (steps, words) = text.split_once("->").unwrap_or((text, ""));
        let (before, last) = steps.rsplit_once(';').map_or((None, steps), |(before, last)| (Some(before), last));
        let mut replay = Replay::empty();
        for step in before.iter().flat_map(|before| before.split(';')) {
            let given = play_replay(&mut replay, &replay_step(step)?)?;
            if given.is_some_and(|line| line.code != linguastel::E_OK) {
                return Err("a step before the last isn't accepted".to_string());
            }
        }
        let (step, found) = (replay_step(last)?, replay.clone());
        play_replay_as(&mut replay, &step, line_in(outcome, words)?)?;
        let bytes = if let ReplayStep::Feed(block) = &step { Some(block.len()) } else { None };
        Ok(ReplayShown { replay: found, bytes, outcome })
    }

    // Plays a worked example of a replay, in which every block and every end has its answer behind an arrow.
    pub fn play_replay_block(&mut self, page: &Page, block: &Block) {
        let mut replay = Replay::empty();
        self.examples += 1;
        for line in &block.lines {
            if let Err(what) = play_replay_line(&mut replay, &line.text) {
                self.differs(page, line.at, &format!("'{}': {what}", line.text));
            }
        }
    }
}
