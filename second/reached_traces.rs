//! Which reasons for not being run, which differences and which tails the
//! replay of traces reached: item 3 of document 02. Nothing here has an
//! influence on a line or on the state.

use crate::errors::*;
use crate::reached::{paths, Reached};
use crate::replay::{record_of, Line, Record, WAITS};
use crate::state::*;
use std::fmt;

paths! {
    TracePath, TRACE_PATHS;
    OnlyCall: "not run: unknown call number alone",
    OnlyCall24: "not run: call number 24 alone",
    OnlyKind: "not run: unknown answer kind alone",
    OnlyKind2: "not run: answer kind 2 alone",
    OnlyFlagInCall: "not run: unknown flag alone, in a call",
    OnlyFlagInTick: "not run: unknown flag alone, in a tick",
    OnlyFlag4: "not run: flag 4 alone, with known flags or without",
    OnlyFlag8: "not run: flag 8 alone, with known flags or without",
    OnlyFlag16: "not run: flag 16 alone, with known flags or without",
    OnlyFlag32: "not run: flag 32 alone, with known flags or without",
    OnlyFlag64: "not run: flag 64 alone, with known flags or without",
    OnlyFlag128: "not run: flag 128 alone, with known flags or without",
    OnlySpare17: "not run: byte 17 alone",
    OnlySpare18: "not run: byte 18 alone",
    OnlySpare19: "not run: byte 19 alone",
    OnlySpare31: "not run: byte 31 alone",
    SeveralReasons: "not run: several reasons",
    SameOk: "run, same answer: E_OK",
    SameOtherCode: "run, same answer: another code",
    SameWaits: "run, same answer: waits",
    SameWideWord: "run, same answer: a above 65,535",
    RecordedFinished: "run, differs: recorded as finished, waits",
    RecordedWaits: "run, differs: recorded as waits, finished",
    FinishedCode0: "run, differs: finished, byte 20 of the code alone",
    FinishedCode1: "run, differs: finished, byte 21 of the code alone",
    FinishedCode2: "run, differs: finished, byte 22 of the code alone",
    FinishedCode3: "run, differs: finished, byte 23 of the code alone",
    FinishedA0: "run, differs: finished, byte 24 of a alone",
    FinishedA1: "run, differs: finished, byte 25 of a alone",
    FinishedA2: "run, differs: finished, byte 26 of a alone",
    FinishedA3: "run, differs: finished, byte 27 of a alone",
    FinishedB: "run, differs: finished, byte 28, b, alone",
    FinishedC0: "run, differs: finished, byte 29 of c alone",
    FinishedC1: "run, differs: finished, byte 30 of c alone",
    FinishedSeveral: "run, differs: finished, several bytes",
    WaitsPlace0: "run, differs: waits, byte 20 of the place alone",
    WaitsPlace1: "run, differs: waits, byte 21 of the place alone",
    WaitsPlace2: "run, differs: waits, byte 22 of the place alone",
    WaitsPlace3: "run, differs: waits, byte 23 of the place alone",
    WaitsA0: "run, differs: waits, byte 24 of a alone",
    WaitsA1: "run, differs: waits, byte 25 of a alone",
    WaitsA2: "run, differs: waits, byte 26 of a alone",
    WaitsA3: "run, differs: waits, byte 27 of a alone",
    WaitsB: "run, differs: waits, byte 28, b, alone",
    WaitsC0: "run, differs: waits, byte 29 of c alone",
    WaitsC1: "run, differs: waits, byte 30 of c alone",
    WaitsSeveral: "run, differs: waits, several bytes",
    UnusedCaller: "run: tick with a caller above 32",
    UnusedFlags: "run: tick with known flags",
    UnusedObject: "run: tick with an object",
    UnusedValue: "run: bytes 4 to 7 not used and not 0",
    UnusedTmout: "run: tmout not used and out of range",
    UnusedAttribute: "run: bytes 12 to 15 not used and not 0",
    UnusedHighest: "run: cre_mbx E_OK without attribute 2, highest above 16",
    UnusedPriority: "run: snd_mbx E_OK with a priority above 16",
    WideTaskPriority: "run: E_PAR, task priority above 255, its low byte in range",
    WideQueueAttribute: "run: E_PAR, queue attribute above 255, its low byte in range",
    WideCapacity: "run: E_PAR, capacity above 255, its low byte in range",
    WideMailboxAttribute: "run: E_PAR, mailbox attribute above 255, its low byte in range",
    WideHighest: "run: E_PAR, highest priority above 255, its low byte in range",
    WideMessage: "run: E_PAR, message number above 255, its low byte in range",
    WidePriority: "run: E_PAR, message priority above 255, its low byte in range",
    FirstIsRecord1: "file: record 1 differs",
    FirstIsLater: "file: a later record is the first that differs",
    SeveralDiffer: "file: more than one record differs",
    NoneDiffers: "file: no record differs, not empty",
    EmptyFile: "file: no bytes",
    TailAlone: "file: a tail and no record",
    TailZero: "file: records without a tail",
    TailOne: "file: records and a tail of 1 byte",
    TailMiddle: "file: records and a tail of 2 to 30 bytes",
    Tail31: "file: records and a tail of 31 bytes",
}

/// By flag, from 4 to 128.
const FLAGS: [TracePath; 6] = [
    TracePath::OnlyFlag4,
    TracePath::OnlyFlag8,
    TracePath::OnlyFlag16,
    TracePath::OnlyFlag32,
    TracePath::OnlyFlag64,
    TracePath::OnlyFlag128,
];

/// By entry of `Record::spare`.
const SPARE: [TracePath; 4] = [
    TracePath::OnlySpare17,
    TracePath::OnlySpare18,
    TracePath::OnlySpare19,
    TracePath::OnlySpare31,
];

/// The first byte of the code or place, and the bytes from there to c.
const ANSWER: usize = 20;
const FINISHED_BYTES: [TracePath; 11] = [
    TracePath::FinishedCode0,
    TracePath::FinishedCode1,
    TracePath::FinishedCode2,
    TracePath::FinishedCode3,
    TracePath::FinishedA0,
    TracePath::FinishedA1,
    TracePath::FinishedA2,
    TracePath::FinishedA3,
    TracePath::FinishedB,
    TracePath::FinishedC0,
    TracePath::FinishedC1,
];
const WAITS_BYTES: [TracePath; 11] = [
    TracePath::WaitsPlace0,
    TracePath::WaitsPlace1,
    TracePath::WaitsPlace2,
    TracePath::WaitsPlace3,
    TracePath::WaitsA0,
    TracePath::WaitsA1,
    TracePath::WaitsA2,
    TracePath::WaitsA3,
    TracePath::WaitsB,
    TracePath::WaitsC0,
    TracePath::WaitsC1,
];

/// Counts for each path of the replay, and what its calls reached.
#[derive(Clone, PartialEq, Eq, Debug)]
pub struct TraceReached {
    counts: [u64; TRACE_PATHS.len()],
    /// Not asked by `missing`: a replay starts from the empty state with
    /// counter 0, so that it cannot reach every row and path of the calls.
    pub calls: Reached,
}

impl Default for TraceReached {
    fn default() -> TraceReached {
        TraceReached::new()
    }
}

impl TraceReached {
    pub fn new() -> TraceReached {
        TraceReached {
            counts: [0; TRACE_PATHS.len()],
            calls: Reached::new(),
        }
    }

    /// Adds the counts of another replay.
    pub fn merge(&mut self, other: &TraceReached) {
        for (count, more) in self.counts.iter_mut().zip(&other.counts) {
            *count += more;
        }
        self.calls.merge(&other.calls);
    }

    /// How often the path was reached.
    pub fn count(&self, path: TracePath) -> u64 {
        self.counts[path as usize]
    }

    /// The names of the paths that were not reached.
    pub fn missing(&self) -> Vec<&'static str> {
        let unreached = TRACE_PATHS
            .iter()
            .filter(|(path, _)| self.count(*path) == 0);
        unreached.map(|(_, name)| *name).collect()
    }

    fn note(&mut self, path: TracePath) {
        self.counts[path as usize] += 1;
    }

    fn note_if(&mut self, condition: bool, path: TracePath) {
        if condition {
            self.note(path);
        }
    }

    /// A reason is counted where it is the only one, so that it decides.
    pub(crate) fn not_run(&mut self, record: &Record) {
        let reasons = reasons(record);
        let [only] = reasons[..] else {
            return self.note(TracePath::SeveralReasons);
        };
        self.note(only);
        self.note_if(record.number == 24, TracePath::OnlyCall24);
        self.note_if(record.kind == 2, TracePath::OnlyKind2);
        for (flag, path) in FLAGS.iter().enumerate() {
            // Without the known flags.
            self.note_if(record.flags >> 2 == 1 << flag, *path);
        }
    }

    /// The record was run, and the call has this answer.
    pub(crate) fn run(&mut self, record: &Record, call: &Call, answer: &Answer) {
        match (record.kind == WAITS, answer) {
            (true, Answer::Finished { .. }) => self.note(TracePath::RecordedWaits),
            (false, Answer::Waits { .. }) => self.note(TracePath::RecordedFinished),
            _ => self.same_kind(record, call, answer),
        }
        self.unused_fields(call);
        self.wide_fields(call, answer);
        if matches!(answer, Answer::Finished { code: E_OK, .. }) {
            let highest = call.number == CRE_MBX && call.attribute < 2 && call.value > 16;
            self.note_if(highest, TracePath::UnusedHighest);
            let priority = call.number == SND_MBX && call.attribute > 16;
            self.note_if(priority, TracePath::UnusedPriority);
        }
    }

    /// The recorded kind is right: in which bytes the answer differs.
    fn same_kind(&mut self, record: &Record, call: &Call, answer: &Answer) {
        let right = record_of(call, answer);
        let given = answer_bytes(record);
        let differing: Vec<usize> = (0..given.len())
            .filter(|&byte| given[byte] != right[ANSWER + byte])
            .collect();
        let waits = record.kind == WAITS;
        let bytes = if waits { WAITS_BYTES } else { FINISHED_BYTES };
        match (&differing[..], waits) {
            ([], _) => self.same(answer),
            ([only], _) => self.note(bytes[*only]),
            (_, true) => self.note(TracePath::WaitsSeveral),
            (_, false) => self.note(TracePath::FinishedSeveral),
        }
    }

    fn same(&mut self, answer: &Answer) {
        match *answer {
            Answer::Waits { .. } => self.note(TracePath::SameWaits),
            Answer::Finished { code, a, .. } => {
                self.note_if(code == E_OK, TracePath::SameOk);
                self.note_if(code != E_OK, TracePath::SameOtherCode);
                self.note_if(a > 65_535, TracePath::SameWideWord);
            }
        }
    }

    fn unused_fields(&mut self, call: &Call) {
        if call.number == TICK {
            self.note_if(call.caller > TASKS, TracePath::UnusedCaller);
            self.note_if(call.locked || call.disabled, TracePath::UnusedFlags);
            self.note_if(call.object != 0, TracePath::UnusedObject);
        }
        let value = matches!(
            call.number,
            DEFINE_TASK | CRE_DTQ | SND_DTQ..=FSND_DTQ | CRE_MBX | SND_MBX
        );
        self.note_if(!value && call.value != 0, TracePath::UnusedValue);
        let tmout = matches!(call.number, TSND_DTQ | TRCV_DTQ | TRCV_MBX);
        let outside = call.tmout < -1 || call.tmout > LARGEST_TMOUT as i32;
        self.note_if(!tmout && outside, TracePath::UnusedTmout);
        let attribute = matches!(call.number, CRE_DTQ | CRE_MBX | SND_MBX);
        let unused = !attribute && call.attribute != 0;
        self.note_if(unused, TracePath::UnusedAttribute);
    }

    /// Where a replay that took the low byte alone would find it in the range
    /// of its kind; mostly it would then have another answer than E_PAR.
    fn wide_fields(&mut self, call: &Call, answer: &Answer) {
        if *answer != Answer::refused(E_PAR) {
            return;
        }
        let (value, attribute) = (call.value, call.attribute);
        match call.number {
            DEFINE_TASK => self.note_if(wide(value, 1, 16), TracePath::WideTaskPriority),
            CRE_DTQ if value <= 16 => {
                self.note_if(wide(attribute, 0, 1), TracePath::WideQueueAttribute)
            }
            CRE_DTQ if attribute <= 1 => self.note_if(wide(value, 0, 16), TracePath::WideCapacity),
            CRE_MBX if (1..=16).contains(&value) => {
                self.note_if(wide(attribute, 0, 3), TracePath::WideMailboxAttribute)
            }
            CRE_MBX if attribute <= 3 => self.note_if(wide(value, 1, 16), TracePath::WideHighest),
            SND_MBX if (1..=64).contains(&value) => {
                self.note_if(wide(attribute, 1, 16), TracePath::WidePriority)
            }
            SND_MBX => self.note_if(wide(value, 1, 64), TracePath::WideMessage),
            _ => {}
        }
    }

    /// A file ended with this line.
    pub(crate) fn ended(&mut self, line: &Line) {
        self.note_if(line.first == 1, TracePath::FirstIsRecord1);
        self.note_if(line.first > 1, TracePath::FirstIsLater);
        self.note_if(line.differ > 1, TracePath::SeveralDiffer);
        let none = line.records > 0 && line.differ == 0;
        self.note_if(none, TracePath::NoneDiffers);
        self.note(match (line.records, line.tail) {
            (0, 0) => TracePath::EmptyFile,
            (0, _) => TracePath::TailAlone,
            (_, 0) => TracePath::TailZero,
            (_, 1) => TracePath::TailOne,
            (_, 2..=30) => TracePath::TailMiddle,
            (_, _) => TracePath::Tail31,
        });
    }
}

/// Every reason for not running the record.
fn reasons(record: &Record) -> Vec<TracePath> {
    let mut reasons = Vec::new();
    if record.unknown_call() {
        reasons.push(TracePath::OnlyCall);
    }
    if record.unknown_kind() {
        reasons.push(TracePath::OnlyKind);
    }
    if record.unknown_flag() {
        reasons.push(match record.number as u32 {
            TICK => TracePath::OnlyFlagInTick,
            _ => TracePath::OnlyFlagInCall,
        });
    }
    let spare = SPARE.iter().zip(record.spare);
    let spare = spare.filter(|(_, byte)| *byte != 0);
    reasons.extend(spare.map(|(path, _)| *path));
    reasons
}

/// Bytes 20 to 30 of a record.
fn answer_bytes(record: &Record) -> [u8; 11] {
    let mut bytes = [0; 11];
    bytes[..4].copy_from_slice(&record.place.to_le_bytes());
    bytes[4..8].copy_from_slice(&record.a.to_le_bytes());
    bytes[8] = record.b;
    bytes[9..].copy_from_slice(&record.c.to_le_bytes());
    bytes
}

/// Above 255, with a low byte from `low` to `high`.
fn wide(number: u32, low: u32, high: u32) -> bool {
    number > 255 && (low..=high).contains(&(number & 255))
}

impl fmt::Display for TraceReached {
    fn fmt(&self, out: &mut fmt::Formatter) -> fmt::Result {
        for (path, name) in TRACE_PATHS {
            writeln!(out, "{:>12}  {}", self.count(*path), name)?;
        }
        Ok(())
    }
}
