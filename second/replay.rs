//! Item 3 of document 02, "Replay what a unit recorded": the fields of a
//! record, when it is run, when its answer differs, and the line of a file.
//! `record_of` writes a record as a unit does.

use crate::reached_traces::TraceReached;
use crate::state::*;
use std::fmt;
use std::io::{self, Read};

/// The bytes of a record.
pub const RECORD: usize = 32;
/// So many bytes are read at once; a multiple of `RECORD`.
const BLOCK: usize = 32_768 * RECORD;

/// The known flags of byte 2.
const LOCKED: u8 = 1;
const DISABLED: u8 = 2;
/// The known answer kinds of byte 16.
pub(crate) const FINISHED: u8 = 0;
pub(crate) const WAITS: u8 = 1;

/// The fields of a record, each by its bytes.
#[derive(Clone, Copy, PartialEq, Eq, Debug)]
pub struct Record {
    pub number: u8,
    pub caller: u8,
    pub flags: u8,
    /// Task or object.
    pub object: u8,
    /// Word, message, capacity, task priority or highest message priority.
    pub value: u32,
    pub tmout: i32,
    /// Attribute or message priority.
    pub attribute: u32,
    pub kind: u8,
    /// Bytes 17, 18, 19 and 31.
    pub spare: [u8; 4],
    /// Bytes 20 to 23, which are signed as a code and unsigned as a place.
    pub code: i32,
    pub place: u32,
    pub a: u32,
    pub b: u8,
    pub c: u16,
}

impl Record {
    pub fn decode(bytes: &[u8; RECORD]) -> Record {
        let four = |at: usize| [bytes[at], bytes[at + 1], bytes[at + 2], bytes[at + 3]];
        Record {
            number: bytes[0],
            caller: bytes[1],
            flags: bytes[2],
            object: bytes[3],
            value: u32::from_le_bytes(four(4)),
            tmout: i32::from_le_bytes(four(8)),
            attribute: u32::from_le_bytes(four(12)),
            kind: bytes[16],
            spare: [bytes[17], bytes[18], bytes[19], bytes[31]],
            code: i32::from_le_bytes(four(20)),
            place: u32::from_le_bytes(four(20)),
            a: u32::from_le_bytes(four(24)),
            b: bytes[28],
            c: u16::from_le_bytes([bytes[29], bytes[30]]),
        }
    }

    /// The numbers of the calls end with fetch; 0 is the tick.
    pub fn unknown_call(&self) -> bool {
        self.number as u32 > FETCH
    }

    /// Asked of a tick too, though a tick has no context.
    pub fn unknown_flag(&self) -> bool {
        self.flags > (LOCKED | DISABLED)
    }

    pub fn unknown_kind(&self) -> bool {
        self.kind != FINISHED && self.kind != WAITS
    }

    /// A record with something unknown in it, or a non-zero spare byte, is not
    /// run. What it says of the answer is not a reason, and neither are the
    /// fields that its call does not use.
    pub fn is_run(&self) -> bool {
        let unknown = self.unknown_call() || self.unknown_flag() || self.unknown_kind();
        !unknown && self.spare == [0; 4]
    }

    /// The call of a record that is run. It gets every field, used or not; the
    /// call ignores those that it does not use.
    pub fn call(&self) -> Call {
        Call {
            number: self.number as u32,
            caller: self.caller as u32,
            locked: self.flags & LOCKED != 0,
            disabled: self.flags & DISABLED != 0,
            object: self.object as u32,
            value: self.value,
            tmout: self.tmout,
            attribute: self.attribute,
        }
    }

    /// The answer is the recorded one: both are finished, with the same code
    /// and words, or both are waits, with the same place. For waits the
    /// recorded words have to be 0.
    pub fn has_answer(&self, answer: &Answer) -> bool {
        let words = (self.a, self.b as u32, self.c as u32);
        match (*answer, self.kind) {
            (Answer::Finished { code, a, b, c }, FINISHED) => {
                self.code == code && words == (a, b, c)
            }
            (Answer::Waits { place }, WAITS) => self.place == place && words == (0, 0, 0),
            _ => false,
        }
    }
}

impl fmt::Display for Record {
    /// What it records if it is run, else the fields that may be the reason.
    fn fmt(&self, out: &mut fmt::Formatter) -> fmt::Result {
        if !self.is_run() {
            write!(out, "not run: call number {}", self.number)?;
            write!(out, ", flags {}, kind {}", self.flags, self.kind)?;
            return write!(out, ", spare bytes {:?}", self.spare);
        }
        write!(out, "{}; recorded: ", self.call())?;
        match self.kind {
            FINISHED => write!(out, "code {}", self.code)?,
            _ => write!(out, "waits, place {}", self.place)?,
        }
        write!(out, ", words {} {} {}", self.a, self.b, self.c)
    }
}

/// The record of a call and its answer, as a unit records it. A number of call,
/// caller or object above 255 does not fit its byte and becomes 255, which is
/// as unknown or as far outside its limits, so that the answer stays right.
pub fn record_of(call: &Call, answer: &Answer) -> [u8; RECORD] {
    let mut bytes = [0; RECORD];
    bytes[0] = call.number.min(255) as u8;
    bytes[1] = call.caller.min(255) as u8;
    bytes[2] = LOCKED * call.locked as u8 + DISABLED * call.disabled as u8;
    bytes[3] = call.object.min(255) as u8;
    bytes[4..8].copy_from_slice(&call.value.to_le_bytes());
    bytes[8..12].copy_from_slice(&call.tmout.to_le_bytes());
    bytes[12..16].copy_from_slice(&call.attribute.to_le_bytes());
    match *answer {
        Answer::Finished { code, a, b, c } => {
            bytes[16] = FINISHED;
            bytes[20..24].copy_from_slice(&code.to_le_bytes());
            bytes[24..28].copy_from_slice(&a.to_le_bytes());
            // No call gives a larger b or c.
            bytes[28] = b.min(255) as u8;
            bytes[29..31].copy_from_slice(&(c.min(65_535) as u16).to_le_bytes());
        }
        Answer::Waits { place } => {
            bytes[16] = WAITS;
            bytes[20..24].copy_from_slice(&place.to_le_bytes());
        }
    }
    bytes
}

/// The four numbers that the program prints.
#[derive(Clone, Copy, PartialEq, Eq, Debug)]
pub struct Line {
    pub records: u64,
    pub differ: u64,
    /// The number of the first record that differs, from 1; 0 if none does.
    pub first: u64,
    /// The bytes after the last whole record.
    pub tail: u64,
}

impl Line {
    /// The line of an empty file.
    pub const ZEROS: Line = Line {
        records: 0,
        differ: 0,
        first: 0,
        tail: 0,
    };
}

impl fmt::Display for Line {
    fn fmt(&self, out: &mut fmt::Formatter) -> fmt::Result {
        write!(out, "records {} differ {}", self.records, self.differ)?;
        write!(out, " first {} tail {}", self.first, self.tail)
    }
}

/// Takes the next record of a recording: plays it on the state and counts it
/// in records, differ and first, which stand in this order.
pub(crate) fn take(
    state: &mut State,
    [records, differ, first]: [&mut u64; 3],
    bytes: &[u8; RECORD],
    reached: &mut TraceReached,
) {
    *records += 1;
    if differs(state, &Record::decode(bytes), reached) {
        *differ += 1;
        if *first == 0 {
            *first = *records;
        }
    }
}

/// A record that is not run counts as differing and leaves the state. Any
/// other is run, and the state goes on from there if it differs too.
fn differs(state: &mut State, record: &Record, reached: &mut TraceReached) -> bool {
    if !record.is_run() {
        reached.not_run(record);
        return true;
    }
    let call = record.call();
    let answer = state.play(&call, &mut reached.calls);
    reached.run(record, &call, &answer);
    !record.has_answer(&answer)
}

/// What the replay of a whole file gives, and what it reached.
#[derive(Clone, PartialEq, Eq, Debug)]
pub struct Replayed {
    pub line: Line,
    /// The state that the last call or tick left.
    pub state: State,
    pub reached: TraceReached,
}

/// A replay after some records of a file.
#[derive(Clone, PartialEq, Eq, Debug)]
pub struct Replay {
    pub state: State,
    pub records: u64,
    pub differ: u64,
    pub first: u64,
    pub reached: TraceReached,
}

impl Default for Replay {
    fn default() -> Replay {
        Replay::new()
    }
}

impl Replay {
    /// No record yet: the empty state, with counter 0.
    pub fn new() -> Replay {
        Replay {
            state: State::empty(0),
            records: 0,
            differ: 0,
            first: 0,
            reached: TraceReached::new(),
        }
    }

    /// Takes the next record of the file.
    pub fn take_record(&mut self, bytes: &[u8; RECORD]) {
        let numbers = [&mut self.records, &mut self.differ, &mut self.first];
        take(&mut self.state, numbers, bytes, &mut self.reached);
    }

    /// Takes the whole records of the bytes; gives the number of bytes after
    /// the last of them.
    fn take_records(&mut self, bytes: &[u8]) -> usize {
        let mut records = bytes.chunks_exact(RECORD);
        for record in &mut records {
            self.take_record(record.try_into().expect("a chunk has 32 bytes"));
        }
        records.remainder().len()
    }

    /// The line of a file that ends here with so many bytes after the last
    /// whole record. It is counted in `reached` as the end of a file.
    pub fn line(&mut self, tail: usize) -> Line {
        let line = Line {
            records: self.records,
            differ: self.differ,
            first: self.first,
            tail: tail as u64,
        };
        self.reached.ended(&line);
        line
    }

    fn end(mut self, tail: usize) -> Replayed {
        Replayed {
            line: self.line(tail),
            state: self.state,
            reached: self.reached,
        }
    }
}

/// Replays the bytes of a whole file.
pub fn replay(bytes: &[u8]) -> Replayed {
    let mut replay = Replay::new();
    let tail = replay.take_records(bytes);
    replay.end(tail)
}

/// Replays a file that is read to its end, without holding all of it.
pub fn replay_reader(mut input: impl Read) -> io::Result<Replayed> {
    let mut replay = Replay::new();
    let mut block = Vec::with_capacity(BLOCK);
    loop {
        block.clear();
        input.by_ref().take(BLOCK as u64).read_to_end(&mut block)?;
        let tail = replay.take_records(&block);
        // Only at the end of the file a block is not full; a full one has no
        // tail.
        if block.len() < BLOCK {
            return Ok(replay.end(tail));
        }
    }
}
