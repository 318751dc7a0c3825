//! Which refusals, which cuts and which ends the replay in blocks reached:
//! item 5 of document 02. Nothing here has an influence on a code, on a line
//! or on the replay.

use crate::blocks::ReplayState;
use crate::errors::*;
use crate::reached::paths;
use crate::reached_traces::TraceReached;
use crate::replay::{Line, Record, RECORD};
use std::fmt;

paths! {
    BlockPath, BLOCK_PATHS;
    BlockKernel: "block, E_SYS: kernel state not sound, alone",
    BlockPart: "block, E_SYS: part above 31 bytes, alone",
    BlockPart32: "block, E_SYS: part of 32 bytes, alone",
    BlockPart64: "block, E_SYS: part of 64 bytes, alone",
    BlockDiffer: "block, E_SYS: differ above records, alone",
    BlockDifferBy1: "block, E_SYS: differ 1 above records, alone",
    BlockDifferLargest: "block, E_SYS: differ 2^64 - 1, alone",
    BlockFirst: "block, E_SYS: first above records, alone",
    BlockFirstBy1: "block, E_SYS: first 1 above records, alone",
    BlockFirstLargest: "block, E_SYS: first 2^64 - 1, alone",
    BlockDifferZero: "block, E_SYS: only differ is 0, alone",
    BlockDifferZeroFirst1: "block, E_SYS: only differ is 0, alone, first 1",
    BlockFirstZero: "block, E_SYS: only first is 0, alone",
    BlockFirstZeroDiffer1: "block, E_SYS: only first is 0, alone, differ 1",
    BlockSeveral: "block, E_SYS: several reasons",
    BlockRefusedEmpty: "block, E_SYS: no bytes",
    BlockRefusedPartRecord: "block, E_SYS: bytes, no whole record",
    BlockRefusedRecords: "block, E_SYS: whole records",
    KernelAndPast: "block, E_SYS: kernel state not sound, E_PAR would hold too",
    PartAndPast: "block, E_SYS: part above 31 bytes, E_PAR would hold too",
    NumbersAndPast: "block, E_SYS: differ and first, E_PAR would hold too",
    PastBy1: "block, E_PAR: one record too many",
    PastBy1OfPart: "block, E_PAR: one record too many, the one made of the part",
    PastBy1Exactly: "block, E_PAR: one record too many, no bytes after it",
    PastBy1AndRest: "block, E_PAR: one record too many, bytes after it",
    PastByMore: "block, E_PAR: several records too many",
    PastAtLimit: "block, E_PAR: records 2^64 - 1 before it",
    LimitReached: "block, E_OK: records become 2^64 - 1",
    LimitReachedOfPart: "block, E_OK: records become 2^64 - 1 by the one made of the part",
    LimitReachedAndPart31: "block, E_OK: records become 2^64 - 1, a part of 31 bytes",
    LimitStays: "block, E_OK: records are 2^64 - 1, bytes, no whole record",
    LimitStaysEmpty: "block, E_OK: records are 2^64 - 1, no bytes",
    LimitMissedBy1: "block, E_OK: records become 2^64 - 2",
    EmptyWithPart: "block, E_OK: no bytes, with a part",
    EmptyWithoutPart: "block, E_OK: no bytes, without a part",
    PartBegins: "block, E_OK: without a part, no whole record",
    PartStays: "block, E_OK: the part stays a part",
    PartStaysAt31: "block, E_OK: the part stays a part, 31 bytes",
    PartWhole: "block, E_OK: the part becomes a whole record, no more",
    PartWholeAndRest: "block, E_OK: the part becomes a whole record, then a part",
    PartWholeAndRecords: "block, E_OK: the part becomes a whole record, then whole ones",
    PartWholeAndBoth: "block, E_OK: the part becomes a whole record, then whole ones and a part",
    RecordsAlone: "block, E_OK: without a part, whole records",
    RecordsAndRest: "block, E_OK: without a part, whole records and a part",
    RecordsAndPart1: "block, E_OK: whole records, then a part of 1 byte",
    RecordsAndPart31: "block, E_OK: whole records, then a part of 31 bytes",
    JoinedSame: "record joined: run, same answer",
    JoinedDiffers: "record joined: run, differs",
    JoinedNotRun: "record joined: not run",
    JoinedAfter1: "record joined: run, same answer, cut after byte 0",
    JoinedAfter16: "record joined: run, same answer, cut after byte 15",
    JoinedAfter17: "record joined: run, same answer, cut after byte 16",
    JoinedAfter31: "record joined: run, same answer, cut after byte 30",
    FirstSet: "record: the first that differs",
    FirstSetJoined: "record: the first that differs, joined",
    FirstSetAtLimit: "record: the first that differs is number 2^64 - 1",
    FirstKept: "record: differs, another did before",
    DifferAtLimit: "record: differ becomes 2^64 - 1",
    OddBlock: "block, E_OK: differ and first that no recording gives",
    OddDifferIsRecords: "block, E_OK: differ is records, first above 1",
    OddFirstIsRecords: "block, E_OK: first is records, differ above 1",
    OddDiffers: "record: differs, with differ and first that no recording gives",
    EndKernel: "end, E_SYS: kernel state not sound, alone",
    EndPart: "end, E_SYS: part above 31 bytes, alone",
    EndPart32: "end, E_SYS: part of 32 bytes, alone",
    EndPart64: "end, E_SYS: part of 64 bytes, alone",
    EndDiffer: "end, E_SYS: differ above records, alone",
    EndDifferBy1: "end, E_SYS: differ 1 above records, alone",
    EndDifferLargest: "end, E_SYS: differ 2^64 - 1, alone",
    EndFirst: "end, E_SYS: first above records, alone",
    EndFirstBy1: "end, E_SYS: first 1 above records, alone",
    EndFirstLargest: "end, E_SYS: first 2^64 - 1, alone",
    EndDifferZero: "end, E_SYS: only differ is 0, alone",
    EndDifferZeroFirst1: "end, E_SYS: only differ is 0, alone, first 1",
    EndFirstZero: "end, E_SYS: only first is 0, alone",
    EndFirstZeroDiffer1: "end, E_SYS: only first is 0, alone, differ 1",
    EndSeveral: "end, E_SYS: several reasons",
    EndZeros: "end, E_OK: four zeros",
    EndTailAlone: "end, E_OK: no record, a tail",
    EndWithoutTail: "end, E_OK: records without a tail",
    EndTail1: "end, E_OK: records and a tail of 1 byte",
    EndTailMiddle: "end, E_OK: records and a tail of 2 to 30 bytes",
    EndTail31: "end, E_OK: records and a tail of 31 bytes",
    EndNoneDiffers: "end, E_OK: records, none differs",
    EndFirstIs1: "end, E_OK: record 1 differs",
    EndFirstIsLater: "end, E_OK: a later record is the first that differs",
    EndSeveralDiffer: "end, E_OK: more than one record differs",
    EndAllDiffer: "end, E_OK: differ is records",
    EndFirstIsLast: "end, E_OK: first is records",
    EndAtLimit: "end, E_OK: records are 2^64 - 1",
    EndOdd: "end, E_OK: differ and first that no recording gives",
}

/// The reasons of E_SYS.
#[derive(Clone, Copy, PartialEq, Eq, Debug)]
enum Reason {
    Kernel,
    Part,
    Differ,
    First,
    DifferZero,
    FirstZero,
}

/// Every reason that the replay has.
fn reasons(replay: &ReplayState) -> Vec<Reason> {
    let reasons = [
        (Reason::Kernel, !replay.state.sound()),
        (Reason::Part, replay.part.len() > 31),
        (Reason::Differ, replay.differ > replay.records),
        (Reason::First, replay.first > replay.records),
        (Reason::DifferZero, replay.differ == 0 && replay.first > 0),
        (Reason::FirstZero, replay.first == 0 && replay.differ > 0),
    ];
    let held = reasons.iter().filter(|(_, holds)| *holds);
    held.map(|(reason, _)| *reason).collect()
}

/// Whether no recording gives this differ and first, though neither is above
/// records: the records from first to the last are fewer than differ.
fn odd(replay: &ReplayState) -> bool {
    let later = replay.records.saturating_sub(replay.first);
    replay.first > 0 && replay.differ > 0 && replay.differ - 1 > later
}

/// By reason: its path at a block and at the end.
fn alone(reason: Reason) -> [BlockPath; 2] {
    match reason {
        Reason::Kernel => [BlockPath::BlockKernel, BlockPath::EndKernel],
        Reason::Part => [BlockPath::BlockPart, BlockPath::EndPart],
        Reason::Differ => [BlockPath::BlockDiffer, BlockPath::EndDiffer],
        Reason::First => [BlockPath::BlockFirst, BlockPath::EndFirst],
        Reason::DifferZero => [BlockPath::BlockDifferZero, BlockPath::EndDifferZero],
        Reason::FirstZero => [BlockPath::BlockFirstZero, BlockPath::EndFirstZero],
    }
}

/// The paths of a reason with the number next to what is let through, or with
/// the farthest, if it has such a number.
fn nearest(reason: Reason, replay: &ReplayState) -> Option<[BlockPath; 2]> {
    let (differ, first) = (replay.differ, replay.first);
    // For the two reasons that use it, records are below these numbers.
    let next = replay.records.wrapping_add(1);
    Some(match reason {
        Reason::Part if replay.part.len() == 32 => [BlockPath::BlockPart32, BlockPath::EndPart32],
        Reason::Part if replay.part.len() == 64 => [BlockPath::BlockPart64, BlockPath::EndPart64],
        Reason::Differ if differ == next => [BlockPath::BlockDifferBy1, BlockPath::EndDifferBy1],
        Reason::Differ if differ == u64::MAX => {
            [BlockPath::BlockDifferLargest, BlockPath::EndDifferLargest]
        }
        Reason::First if first == next => [BlockPath::BlockFirstBy1, BlockPath::EndFirstBy1],
        Reason::First if first == u64::MAX => {
            [BlockPath::BlockFirstLargest, BlockPath::EndFirstLargest]
        }
        Reason::DifferZero if first == 1 => [
            BlockPath::BlockDifferZeroFirst1,
            BlockPath::EndDifferZeroFirst1,
        ],
        Reason::FirstZero if differ == 1 => [
            BlockPath::BlockFirstZeroDiffer1,
            BlockPath::EndFirstZeroDiffer1,
        ],
        _ => return None,
    })
}

/// Counts for each path of the replay in blocks, and what its records reached.
#[derive(Clone, PartialEq, Eq, Debug)]
pub struct BlocksReached {
    counts: [u64; BLOCK_PATHS.len()],
    /// The bytes of the part that the next record begins with, else 0.
    joined: usize,
    /// Not asked by `missing`.
    pub traces: TraceReached,
}

impl Default for BlocksReached {
    fn default() -> BlocksReached {
        BlocksReached::new()
    }
}

impl BlocksReached {
    pub fn new() -> BlocksReached {
        BlocksReached {
            counts: [0; BLOCK_PATHS.len()],
            joined: 0,
            traces: TraceReached::new(),
        }
    }

    /// Adds the counts of another replay.
    pub fn merge(&mut self, other: &BlocksReached) {
        for (count, more) in self.counts.iter_mut().zip(&other.counts) {
            *count += more;
        }
        self.traces.merge(&other.traces);
    }

    /// How often the path was reached.
    pub fn count(&self, path: BlockPath) -> u64 {
        self.counts[path as usize]
    }

    /// The names of the paths that were not reached.
    pub fn missing(&self) -> Vec<&'static str> {
        let unreached = BLOCK_PATHS
            .iter()
            .filter(|(path, _)| self.count(*path) == 0);
        unreached.map(|(_, name)| *name).collect()
    }

    fn note(&mut self, path: BlockPath) {
        self.counts[path as usize] += 1;
    }

    fn note_if(&mut self, condition: bool, path: BlockPath) {
        if condition {
            self.note(path);
        }
    }

    /// A block of so many bytes comes to the replay and gets this code.
    pub(crate) fn block(&mut self, replay: &ReplayState, block: usize, code: i32) {
        self.joined = 0;
        match code {
            E_SYS => self.block_refused(replay, block),
            E_PAR => self.block_past(replay, block),
            _ => {
                if replay.part.len() + block >= RECORD {
                    self.joined = replay.part.len();
                }
                self.block_taken(replay, block);
                self.block_at_limit(replay, block);
                self.block_with_numbers(replay);
            }
        }
    }

    fn block_refused(&mut self, replay: &ReplayState, block: usize) {
        let reasons = reasons(replay);
        self.reason(&reasons, replay, 0, BlockPath::BlockSeveral);
        let records = replay.records_with(block);
        self.note(match (block, records > replay.records as u128) {
            (0, _) => BlockPath::BlockRefusedEmpty,
            (_, false) => BlockPath::BlockRefusedPartRecord,
            (_, true) => BlockPath::BlockRefusedRecords,
        });
        if records > u64::MAX as u128 {
            self.note_if(reasons == [Reason::Kernel], BlockPath::KernelAndPast);
            self.note_if(reasons == [Reason::Part], BlockPath::PartAndPast);
            let others = !reasons.contains(&Reason::Kernel) && !reasons.contains(&Reason::Part);
            self.note_if(others, BlockPath::NumbersAndPast);
        }
    }

    /// A reason is counted where it is the only one, so that it decides.
    /// `place` is 0 for a block and 1 for the end.
    fn reason(
        &mut self,
        reasons: &[Reason],
        replay: &ReplayState,
        place: usize,
        several: BlockPath,
    ) {
        let [only] = reasons[..] else {
            return self.note(several);
        };
        self.note(alone(only)[place]);
        if let Some(paths) = nearest(only, replay) {
            self.note(paths[place]);
        }
    }

    fn block_past(&mut self, replay: &ReplayState, block: usize) {
        let limit = u64::MAX as u128;
        let past = replay.records_with(block).saturating_sub(limit);
        let rest = (replay.part.len() + block) % RECORD;
        let of_block = replay.records as u128 + (block / RECORD) as u128;
        self.note_if(past > 1, BlockPath::PastByMore);
        self.note_if(replay.records == u64::MAX, BlockPath::PastAtLimit);
        if past == 1 {
            self.note(BlockPath::PastBy1);
            self.note_if(rest == 0, BlockPath::PastBy1Exactly);
            self.note_if(rest > 0, BlockPath::PastBy1AndRest);
            // The block alone would have been taken.
            self.note_if(of_block <= limit, BlockPath::PastBy1OfPart);
        }
    }

    /// What the part and the block together are.
    fn block_taken(&mut self, replay: &ReplayState, block: usize) {
        let part = replay.part.len();
        let (records, rest) = ((part + block) / RECORD, (part + block) % RECORD);
        self.note(match (part, block, records, rest) {
            (0, 0, _, _) => BlockPath::EmptyWithoutPart,
            (_, 0, _, _) => BlockPath::EmptyWithPart,
            (0, _, 0, _) => BlockPath::PartBegins,
            (_, _, 0, _) => BlockPath::PartStays,
            (0, _, _, 0) => BlockPath::RecordsAlone,
            (0, _, _, _) => BlockPath::RecordsAndRest,
            (_, _, 1, 0) => BlockPath::PartWhole,
            (_, _, 1, _) => BlockPath::PartWholeAndRest,
            (_, _, _, 0) => BlockPath::PartWholeAndRecords,
            (_, _, _, _) => BlockPath::PartWholeAndBoth,
        });
        let stays = part > 0 && block > 0 && records == 0;
        self.note_if(stays && rest == 31, BlockPath::PartStaysAt31);
        self.note_if(records > 0 && rest == 1, BlockPath::RecordsAndPart1);
        self.note_if(records > 0 && rest == 31, BlockPath::RecordsAndPart31);
    }

    fn block_at_limit(&mut self, replay: &ReplayState, block: usize) {
        let after = replay.records_with(block);
        let limit = u64::MAX as u128;
        let rest = (replay.part.len() + block) % RECORD;
        let more = after > replay.records as u128;
        self.note_if(more && after == limit - 1, BlockPath::LimitMissedBy1);
        if after != limit {
            return;
        }
        if !more {
            self.note_if(block > 0, BlockPath::LimitStays);
            return self.note_if(block == 0, BlockPath::LimitStaysEmpty);
        }
        self.note(BlockPath::LimitReached);
        self.note_if(rest == 31, BlockPath::LimitReachedAndPart31);
        let of_block = replay.records as u128 + (block / RECORD) as u128;
        self.note_if(of_block < limit, BlockPath::LimitReachedOfPart);
    }

    fn block_with_numbers(&mut self, replay: &ReplayState) {
        let (records, differ, first) = (replay.records, replay.differ, replay.first);
        self.note_if(odd(replay), BlockPath::OddBlock);
        let all = differ == records && first > 1;
        self.note_if(all, BlockPath::OddDifferIsRecords);
        let last = first == records && differ > 1;
        self.note_if(last, BlockPath::OddFirstIsRecords);
    }

    /// The replay has taken this record.
    pub(crate) fn record(&mut self, replay: &ReplayState, record: &[u8; RECORD], differs: bool) {
        let joined = std::mem::replace(&mut self.joined, 0);
        if joined > 0 {
            self.record_joined(Record::decode(record).is_run(), differs, joined);
        }
        if !differs {
            return;
        }
        let set = replay.first == replay.records;
        self.note_if(set, BlockPath::FirstSet);
        self.note_if(set && joined > 0, BlockPath::FirstSetJoined);
        let at_limit = set && replay.first == u64::MAX;
        self.note_if(at_limit, BlockPath::FirstSetAtLimit);
        self.note_if(!set, BlockPath::FirstKept);
        self.note_if(replay.differ == u64::MAX, BlockPath::DifferAtLimit);
        self.note_if(odd(replay), BlockPath::OddDiffers);
    }

    /// The record was cut after so many bytes.
    fn record_joined(&mut self, is_run: bool, differs: bool, bytes: usize) {
        self.note(match (is_run, differs) {
            (false, _) => BlockPath::JoinedNotRun,
            (true, true) => BlockPath::JoinedDiffers,
            (true, false) => BlockPath::JoinedSame,
        });
        if differs {
            return;
        }
        self.note_if(bytes == 1, BlockPath::JoinedAfter1);
        self.note_if(bytes == 16, BlockPath::JoinedAfter16);
        self.note_if(bytes == 17, BlockPath::JoinedAfter17);
        self.note_if(bytes == 31, BlockPath::JoinedAfter31);
    }

    /// The recording ends here, and the end gets this code and line.
    pub(crate) fn end(&mut self, replay: &ReplayState, code: i32, line: &Line) {
        if code != E_OK {
            return self.reason(&reasons(replay), replay, 1, BlockPath::EndSeveral);
        }
        self.traces.ended(line);
        let (records, differ, first) = (replay.records, replay.differ, replay.first);
        self.note(match (records, replay.part.len()) {
            (0, 0) => BlockPath::EndZeros,
            (0, _) => BlockPath::EndTailAlone,
            (_, 0) => BlockPath::EndWithoutTail,
            (_, 1) => BlockPath::EndTail1,
            (_, 2..=30) => BlockPath::EndTailMiddle,
            (_, _) => BlockPath::EndTail31,
        });
        let none = records > 0 && differ == 0;
        self.note_if(none, BlockPath::EndNoneDiffers);
        self.note_if(first == 1, BlockPath::EndFirstIs1);
        self.note_if(first > 1, BlockPath::EndFirstIsLater);
        self.note_if(differ > 1, BlockPath::EndSeveralDiffer);
        let all = differ > 0 && differ == records;
        self.note_if(all, BlockPath::EndAllDiffer);
        let last = first > 0 && first == records;
        self.note_if(last, BlockPath::EndFirstIsLast);
        self.note_if(records == u64::MAX, BlockPath::EndAtLimit);
        self.note_if(odd(replay), BlockPath::EndOdd);
    }
}

impl fmt::Display for BlocksReached {
    fn fmt(&self, out: &mut fmt::Formatter) -> fmt::Result {
        for (path, name) in BLOCK_PATHS {
            writeln!(out, "{:>12}  {}", self.count(*path), name)?;
        }
        Ok(())
    }
}
