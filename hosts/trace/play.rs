//! A trace replayed on the kernel, record by record.
use crate::decode::{self, NotRun, Recorded, SIZE};
use linguastel::{HostAnswer, Record};
use std::fmt::{Display, Formatter};

/// The line of item 3.
#[derive(Clone, Copy, Default, PartialEq, Debug)]
pub struct Line {
    pub records: u64,
    pub differ: u64,
    pub first: u64,
    pub tail: u64,
}

impl Line {
    pub fn count(&mut self, same: bool) {
        self.records += 1;
        if !same {
            self.differ += 1;
            if self.first == 0 {
                self.first = self.records;
            }
        }
    }

    /// The line of a file's bytes, replayed from the empty state with this counter.
    pub fn of(bytes: &[u8], counter: u32) -> Line {
        let mut line = Line { tail: tail(bytes).len() as u64, ..Line::default() };
        for step in steps(bytes, counter) {
            line.count(step.same());
        }
        line
    }
}

impl Display for Line {
    fn fmt(&self, to: &mut Formatter) -> std::fmt::Result {
        write!(to, "records {} differ {} first {} tail {}", self.records, self.differ, self.first, self.tail)
    }
}

/// One record of a trace and what it came to.
pub struct Step {
    /// The first record has number 1.
    pub number: u64,
    pub bytes: [u8; SIZE],
    pub before: Record,
    /// The same as before where the record isn't run.
    pub after: Record,
    pub outcome: Result<Run, NotRun>,
}

#[derive(Clone, Copy)]
pub struct Run {
    pub recorded: Recorded,
    pub replayed: HostAnswer,
}

impl Step {
    /// Whether the record is run and the kernel's answer is the recorded one.
    pub fn same(&self) -> bool {
        self.outcome.as_ref().is_ok_and(|run| run.recorded.answer == run.replayed)
    }
}

/// The bytes after the last whole record.
pub fn tail(bytes: &[u8]) -> &[u8] {
    &bytes[bytes.len() / SIZE * SIZE..]
}

/// Replays a file's whole records from the empty state with this counter.
pub fn steps(bytes: &[u8], counter: u32) -> impl Iterator<Item = Step> + '_ {
    let mut record = Record { counter, ..Record::empty() };
    (1..).zip(bytes.chunks_exact(SIZE)).map(move |(number, chunk)| {
        let bytes = chunk.try_into().expect("a chunk has the size of a record");
        let before = record.clone();
        let outcome = decode::read(&bytes).map(|recorded| Run { recorded, replayed: record.host_call(recorded.call) });
        Step { number, bytes, before, after: record.clone(), outcome }
    })
}

#[cfg(test)]
mod tests {
    use super::*;

    /// Three records that define tasks 1 to 3, with the kernel's answers.
    fn three() -> Vec<u8> {
        let mut bytes = Vec::new();
        for task in 1..=3 {
            let mut record = [0; SIZE];
            (record[0], record[3], record[4]) = (1, task, 5);
            bytes.extend(record);
        }
        bytes
    }

    fn line(bytes: &[u8]) -> String {
        Line::of(bytes, 0).to_string()
    }

    #[test]
    fn the_lines_of_item_3() {
        assert_eq!(line(&[]), "records 0 differ 0 first 0 tail 0");
        assert_eq!(line(&[0; 31]), "records 0 differ 0 first 0 tail 31");
        assert_eq!(line(&three()), "records 3 differ 0 first 0 tail 0");
        let mut bytes = three();
        bytes[SIZE + 20] = 1;
        assert_eq!(line(&bytes), "records 3 differ 1 first 2 tail 0");
    }

    #[test]
    fn every_byte_of_the_answer_counts() {
        for place in 16..SIZE {
            let mut bytes = three();
            bytes[2 * SIZE + place] ^= 0x80;
            assert_eq!(line(&bytes), "records 3 differ 1 first 3 tail 0", "byte {place}");
        }
    }

    #[test]
    fn fields_that_a_call_does_not_use_are_ignored() {
        let mut bytes = three();
        for place in 8..16 {
            bytes[place] = 0xff;
        }
        assert_eq!(line(&bytes), "records 3 differ 0 first 0 tail 0");
        // Of a tick: caller, known flags, object, value, tmout and attribute.
        let mut tick = [0xff; SIZE];
        (tick[0], tick[2]) = (0, 3);
        tick[16..].fill(0);
        assert_eq!(line(&tick), "records 1 differ 0 first 0 tail 0");
    }

    #[test]
    fn a_record_that_is_not_run_changes_nothing() {
        let mut bytes = three();
        bytes[SIZE + 2] = 4;
        // Had task 2 been defined, this would be E_OBJ.
        bytes.extend(&three()[SIZE..2 * SIZE]);
        assert_eq!(line(&bytes), "records 4 differ 1 first 2 tail 0");
        let step = steps(&bytes, 0).nth(1).expect("four steps");
        assert!(step.before == step.after && step.outcome.is_err());
    }

    #[test]
    fn words_of_a_wait_differ() {
        let mut bytes = three();
        let mut wait = [0; SIZE];
        (wait[0], wait[3]) = (2, 1);
        bytes.extend(wait);
        (wait[0], wait[1], wait[16]) = (8, 1, 1);
        bytes.extend(wait);
        assert_eq!(line(&bytes), "records 5 differ 0 first 0 tail 0");
        for place in [24, 28, 29] {
            let mut changed = bytes.clone();
            changed[4 * SIZE + place] = 1;
            assert_eq!(line(&changed), "records 5 differ 1 first 5 tail 0");
        }
    }

    #[test]
    fn from_another_counter() {
        assert_eq!(steps(&[0; SIZE], u32::MAX).next().expect("one step").after.counter, 0);
    }
}
