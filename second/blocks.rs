//! Item 5 of document 02, "Traces over a serial line": the replay of a
//! recording that arrives in blocks. `replay.rs` says how one record is taken;
//! here stand what is kept between the blocks, and when a block or the end is
//! refused. A refusal changes nothing.

use crate::errors::*;
use crate::reached_blocks::BlocksReached;
use crate::replay::{take, Line, RECORD};
use crate::state::State;
use std::fmt;

/// "Between blocks the replay keeps at most one part record of bytes": one
/// byte more, and the part would be a whole record.
pub const LARGEST_PART: usize = RECORD - 1;
/// The largest number of records that 64 bits hold.
const LARGEST_RECORDS: u128 = u64::MAX as u128;

/// A replay between two blocks. It may hold any numbers, and a part of any
/// length.
#[derive(Clone, PartialEq, Eq, Debug)]
pub struct ReplayState {
    /// The kernel state that the last call or tick left.
    pub state: State,
    pub records: u64,
    pub differ: u64,
    /// The number of the first record that differs, from 1; 0 if none does.
    pub first: u64,
    /// The bytes that came after the last whole record.
    pub part: Vec<u8>,
}

impl Default for ReplayState {
    fn default() -> ReplayState {
        ReplayState::new()
    }
}

impl ReplayState {
    /// No block yet: the empty state, with counter 0.
    pub fn new() -> ReplayState {
        ReplayState {
            state: State::empty(0),
            records: 0,
            differ: 0,
            first: 0,
            part: Vec::new(),
        }
    }

    /// Why the replay gets E_SYS, in words; `None` if it is let through. It is
    /// not asked whether some recording gives these numbers.
    pub fn fault(&self) -> Option<String> {
        let (records, differ, first) = (self.records, self.differ, self.first);
        // "an unsound kernel state"
        if let Some(fault) = self.state.fault() {
            return Some(format!("kernel state: {fault}"));
        }
        // "a part above 31 bytes"
        if self.part.len() > LARGEST_PART {
            return Some(format!("a part of {} bytes", self.part.len()));
        }
        // "differ or first above records"
        if differ > records {
            return Some(format!("differ {differ} is above records {records}"));
        }
        if first > records {
            return Some(format!("first {first} is above records {records}"));
        }
        // "or only one of these two 0"
        if (differ == 0) != (first == 0) {
            return Some(format!(
                "only one of differ {differ} and first {first} is 0"
            ));
        }
        None
    }

    /// The records after a block of so many bytes, if it were taken. The part
    /// and the block together may make one whole record more than the block
    /// alone. The sum may need more than 64 bits.
    pub fn records_with(&self, block: usize) -> u128 {
        let bytes = self.part.len() as u128 + block as u128;
        self.records as u128 + bytes / RECORD as u128
    }

    /// The code for a block of so many bytes: E_SYS, "then a block that would
    /// take records past 64 bits gets E_PAR".
    fn code(&self, block: usize) -> i32 {
        if self.fault().is_some() {
            return E_SYS;
        }
        if self.records_with(block) > LARGEST_RECORDS {
            return E_PAR;
        }
        E_OK
    }

    /// Takes a block, also one of no bytes, and gives its code. The block goes
    /// on where the part ends; what is left after the last whole record is the
    /// new part.
    pub fn feed(&mut self, block: &[u8], reached: &mut BlocksReached) -> i32 {
        let code = self.code(block.len());
        reached.block(self, block.len(), code);
        if code != E_OK {
            return code;
        }
        let bytes = [&self.part[..], block].concat();
        let mut records = bytes.chunks_exact(RECORD);
        for record in &mut records {
            let record = record.try_into().expect("a chunk has 32 bytes");
            self.take_record(record, reached);
        }
        self.part = records.remainder().to_vec();
        E_OK
    }

    fn take_record(&mut self, record: &[u8; RECORD], reached: &mut BlocksReached) {
        let before = self.differ;
        let numbers = [&mut self.records, &mut self.differ, &mut self.first];
        take(&mut self.state, numbers, record, &mut reached.traces);
        reached.record(self, record, self.differ != before);
    }

    /// The end of the recording: the code and the line. A replay that gets
    /// E_SYS has four zeros. No end gets E_PAR, since it adds no record.
    pub fn end(&self, reached: &mut BlocksReached) -> (i32, Line) {
        let (code, line) = match self.fault() {
            Some(_) => (E_SYS, Line::ZEROS),
            None => (E_OK, self.line()),
        };
        reached.end(self, code, &line);
        (code, line)
    }

    /// The part is what comes after the last whole record of the recording.
    fn line(&self) -> Line {
        Line {
            records: self.records,
            differ: self.differ,
            first: self.first,
            tail: self.part.len() as u64,
        }
    }
}

impl fmt::Display for ReplayState {
    /// The numbers, the part byte by byte, then the kernel state.
    fn fmt(&self, out: &mut fmt::Formatter) -> fmt::Result {
        write!(out, "records {} differ {}", self.records, self.differ)?;
        writeln!(out, " first {}", self.first)?;
        write!(out, "part of {} bytes:", self.part.len())?;
        for byte in &self.part {
            write!(out, " {byte:02x}")?;
        }
        write!(out, "\n{}", self.state)
    }
}
