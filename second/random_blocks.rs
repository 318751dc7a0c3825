//! Random cuts, replay states and blocks for item 5 of document 02.

use crate::blocks::ReplayState;
use crate::errors::E_OK;
use crate::random::{Profile, Random};
use crate::random_states::change_state;
use crate::random_traces::{damage_record, known_call};
use crate::reached::Reached;
use crate::reached_blocks::BlocksReached;
use crate::replay::{record_of, Record, RECORD};
use crate::state::*;

/// In so many of a hundred places between blocks an empty one is put.
const EMPTY: u32 = 10;
/// Records so near to the limit are to be met by a block.
const NEAR: u32 = 70;

/// Where a recording is cut.
#[derive(Clone, Copy, PartialEq, Eq, Debug)]
pub enum Cut {
    /// Nowhere.
    Whole,
    /// After every byte.
    Bytes,
    /// Into blocks of 0 to 70 bytes.
    Short,
    /// Into blocks of 0 to 1,000 bytes.
    Middle,
    /// At most 2 bytes away from the edge of a record.
    Edges,
}

pub const CUTS: [Cut; 5] = [Cut::Whole, Cut::Bytes, Cut::Short, Cut::Middle, Cut::Edges];

/// The lengths of the blocks into which so many bytes are cut, from first to
/// last, with empty blocks among them.
pub fn random_cuts(random: &mut Random, bytes: usize, cut: Cut) -> Vec<usize> {
    let mut lengths = Vec::new();
    let mut at = 0;
    while at < bytes {
        if random.percent(EMPTY) {
            lengths.push(0);
        }
        let length = random_cut(random, at, cut).min(bytes - at);
        lengths.push(length);
        at += length;
    }
    if random.percent(EMPTY) {
        lengths.push(0);
    }
    lengths
}

/// The length of the block that begins after so many bytes.
fn random_cut(random: &mut Random, at: usize, cut: Cut) -> usize {
    match cut {
        Cut::Whole => usize::MAX,
        Cut::Bytes => 1,
        Cut::Short => random.between(0, 70) as usize,
        Cut::Middle => random.between(0, 1_000) as usize,
        Cut::Edges => {
            let edge = (at / RECORD + random.between(1, 4) as usize) * RECORD;
            let end = edge + random.below(5) as usize - 2;
            end.saturating_sub(at)
        }
    }
}

/// Feeds the bytes in blocks of these lengths, which add up to no more than
/// there are bytes. Gives E_OK, or the code of the first block that is refused;
/// no block follows it.
pub fn feed_in_blocks(
    replay: &mut ReplayState,
    bytes: &[u8],
    lengths: &[usize],
    reached: &mut BlocksReached,
) -> i32 {
    let mut left = bytes;
    for &length in lengths {
        let (block, rest) = left.split_at(length);
        let code = replay.feed(block, reached);
        if code != E_OK {
            return code;
        }
        left = rest;
    }
    E_OK
}

/// A random replay state that is let through. Its kernel state is sound; its
/// part is mostly the beginning of a record that a unit could make there.
pub fn random_replay_state(random: &mut Random, profile: &Profile) -> ReplayState {
    let state = profile.start(random);
    let part = random_part(random, profile, &state);
    let records = random_records(random);
    let (differ, first) = random_differ_and_first(random, records);
    ReplayState {
        state,
        records,
        differ,
        first,
        part,
    }
}

/// The beginning of a record with the answer that it has in this state, or of
/// a damaged one, or any bytes; often of a length next to a limit.
fn random_part(random: &mut Random, profile: &Profile, state: &State) -> Vec<u8> {
    let length = match random.below(4) {
        0 => 0,
        1 | 2 => random.pick(&[1, 2, 4, 15, 16, 17, 30, 31]),
        _ => random.between(0, RECORD as u32 - 1),
    };
    let mut record = random_record(random, profile, state, &[]);
    match random.below(10) {
        0 => fill(random, &mut record),
        1 | 2 => drop(damage_record(random, &mut record)),
        _ => {}
    }
    record[..length as usize].to_vec()
}

fn fill(random: &mut Random, bytes: &mut [u8]) {
    for byte in bytes {
        *byte = random.bits() as u8;
    }
}

/// A record that begins with these bytes and goes on as a unit makes it, with
/// the answer that its call has in this state. If the bytes are the beginning
/// of such a record, it is one; if something in them is unknown or wrong, that
/// stays.
fn random_record(
    random: &mut Random,
    profile: &Profile,
    state: &State,
    begun: &[u8],
) -> [u8; RECORD] {
    let mut call = known_call(random, profile, state);
    // Some attempts to find fields that suit the number of the call.
    for _ in 0..8 {
        if begun.is_empty() || call.number == begun[0] as u32 {
            break;
        }
        call = known_call(random, profile, state);
    }
    let mut record = record_of(&call, &Answer::refused(E_OK));
    record[..begun.len()].copy_from_slice(begun);
    let call = Record::decode(&record).call();
    // What is reached here is not part of any run.
    let answer = state.clone().play(&call, &mut Reached::new());
    record = record_of(&call, &answer);
    record[..begun.len()].copy_from_slice(begun);
    record
}

/// Often none, few, or so many that a block meets the limit.
fn random_records(random: &mut Random) -> u64 {
    match random.below(8) {
        0 => 0,
        1 => random.between(1, 3) as u64,
        2 => random.between(1, 1_000) as u64,
        3 | 4 => u64::MAX - random.below(4) as u64,
        5 | 6 => u64::MAX - random.between(0, NEAR) as u64,
        _ => random.bits(),
    }
}

/// A number from 1 to the limit, both included, often one of these two.
fn up_to(random: &mut Random, limit: u64) -> u64 {
    match random.below(3) {
        0 => 1,
        1 => limit,
        _ => 1 + random.bits() % limit,
    }
}

/// A differ and a first that are let through with so many records: both 0, or
/// both from 1 to records. The last three kinds may be such as no recording
/// gives.
fn random_differ_and_first(random: &mut Random, records: u64) -> (u64, u64) {
    if records == 0 {
        return (0, 0);
    }
    match random.below(8) {
        0 | 1 => (0, 0),
        2 => (1, 1),
        3 => (1, up_to(random, records)),
        4 => {
            let first = up_to(random, records);
            (up_to(random, records - first + 1), first)
        }
        5 => (records.min(2), records),
        6 => (records, up_to(random, records)),
        _ => (up_to(random, records), up_to(random, records)),
    }
}

/// What is wrong with a replay state that gets E_SYS.
#[derive(Clone, Copy, PartialEq, Eq, Debug)]
pub enum Damage {
    /// The kernel state is not sound.
    Kernel,
    /// The part has 32 to 64 bytes.
    Part,
    /// Differ is above records.
    Differ,
    /// First is above records.
    First,
    /// Only differ is 0.
    DifferZero,
    /// Only first is 0.
    FirstZero,
    /// At least two of these.
    Several,
}

pub const DAMAGES: [Damage; 7] = [
    Damage::Kernel,
    Damage::Part,
    Damage::Differ,
    Damage::First,
    Damage::DifferZero,
    Damage::FirstZero,
    Damage::Several,
];

/// The kinds that differ and first have.
const OF_NUMBERS: [Damage; 4] = [
    Damage::Differ,
    Damage::First,
    Damage::DifferZero,
    Damage::FirstZero,
];

/// Makes a replay state that is let through into one that gets E_SYS, for this
/// reason alone, or for several. Where records do not allow the reason to stand
/// alone, they are changed too.
pub fn damage_replay_state(random: &mut Random, replay: &mut ReplayState, damage: Damage) {
    match damage {
        Damage::Kernel => make_unsound(random, &mut replay.state),
        Damage::Part => lengthen(random, &mut replay.part),
        Damage::Differ => {
            leave_room(random, replay);
            replay.differ = above(random, replay.records);
            replay.first = up_to(random, replay.records);
        }
        Damage::First => {
            leave_room(random, replay);
            replay.differ = up_to(random, replay.records);
            replay.first = above(random, replay.records);
        }
        Damage::DifferZero => {
            replay.records = replay.records.max(1);
            replay.differ = 0;
            replay.first = up_to(random, replay.records);
        }
        Damage::FirstZero => {
            replay.records = replay.records.max(1);
            replay.differ = up_to(random, replay.records);
            replay.first = 0;
        }
        Damage::Several => damage_more(random, replay),
    }
}

/// Changes the state until it is not sound; mostly one change is enough.
fn make_unsound(random: &mut Random, state: &mut State) {
    while state.sound() {
        change_state(random, state);
    }
}

/// A part of 32 to 64 bytes that begins as the part does.
fn lengthen(random: &mut Random, part: &mut Vec<u8>) {
    let length = match random.below(3) {
        0 => RECORD as u32,
        1 => random.pick(&[33, 63, 64]),
        _ => random.between(32, 64),
    };
    // A record of zeros is run, any bytes mostly are not.
    let mask = random.pick(&[0, u8::MAX]);
    while part.len() < length as usize {
        part.push(random.bits() as u8 & mask);
    }
}

/// Records such that 1 is not above them, and that a number above them exists.
fn leave_room(random: &mut Random, replay: &mut ReplayState) {
    let most = u64::MAX - random.between(1, 3) as u64;
    replay.records = replay.records.clamp(1, most);
}

/// A number above records, often the next one or the largest.
fn above(random: &mut Random, records: u64) -> u64 {
    match random.below(4) {
        0 | 1 => records + 1,
        2 => u64::MAX,
        _ => records + 1 + random.bits() % (u64::MAX - records),
    }
}

/// Two or three things that are wrong.
fn damage_more(random: &mut Random, replay: &mut ReplayState) {
    if random.percent(25) {
        return damage_both_numbers(random, replay);
    }
    let choices = [
        &[Damage::Kernel, Damage::Part][..],
        &[Damage::Kernel, random.pick(&OF_NUMBERS)],
        &[Damage::Part, random.pick(&OF_NUMBERS)],
        &[Damage::Kernel, Damage::Part, random.pick(&OF_NUMBERS)],
    ];
    for damage in random.pick(&choices) {
        damage_replay_state(random, replay, *damage);
    }
}

/// Both above records, or one above records and the other 0.
fn damage_both_numbers(random: &mut Random, replay: &mut ReplayState) {
    leave_room(random, replay);
    let differ = above(random, replay.records);
    let first = above(random, replay.records);
    (replay.differ, replay.first) = random.pick(&[(differ, first), (differ, 0), (0, first)]);
}

/// A random block for this replay state, which may be one that gets E_SYS. The
/// block completes the part as a unit would and goes on with records as a unit
/// makes them, some damaged; the cut is anywhere. Some blocks are any bytes.
pub fn random_block(random: &mut Random, profile: &Profile, replay: &ReplayState) -> Vec<u8> {
    let begun = replay.part.len() % RECORD;
    let length = random_block_length(random, replay, begun);
    if random.percent(8) {
        let mut block = vec![0; length];
        fill(random, &mut block);
        return block;
    }
    let records = (begun + length).div_ceil(RECORD);
    let mut block = following(random, profile, replay, records);
    block.truncate(length);
    block
}

/// With a last record of so many bytes: none, one, up to the end of the record
/// or next to it, or some records and the beginning of another.
fn random_block_length(random: &mut Random, replay: &ReplayState, begun: usize) -> usize {
    let missing = RECORD - begun;
    let rest = match random.below(3) {
        0 => 0,
        1 => random.pick(&[1, 30, 31]),
        _ => random.below(RECORD as u32),
    };
    match random.below(12) {
        0 => 0,
        1 => 1,
        2 => missing,
        3 => missing - 1,
        4 => missing + 1,
        _ => {
            let records = random_whole_records(random, replay) as usize;
            (records * RECORD + rest as usize).saturating_sub(begun)
        }
    }
}

/// How many whole records the part and the block are to have. Near the limit
/// often so many as there is room for, or one more or less.
fn random_whole_records(random: &mut Random, replay: &ReplayState) -> u32 {
    let room = u64::MAX - replay.records;
    if room <= NEAR as u64 && random.percent(75) {
        let room = room as u32;
        return random.pick(&[room, room, room + 1, room + 1, room + 2, room.max(1) - 1]);
    }
    match random.percent(95) {
        true => random.between(0, 6),
        false => random.between(0, NEAR),
    }
}

/// So many records, without the bytes that the part has of the first.
fn following(
    random: &mut Random,
    profile: &Profile,
    replay: &ReplayState,
    count: usize,
) -> Vec<u8> {
    let mut state = replay.state.clone();
    let mut begun = &replay.part[replay.part.len() / RECORD * RECORD..];
    let damage = random.pick(&[0, 10, 50, 100]);
    let mut bytes = Vec::new();
    for _ in 0..count {
        let mut record = random_record(random, profile, &state, begun);
        if random.percent(damage) {
            damage_record(random, &mut record);
            // The part is there already; this may take the damage back.
            record[..begun.len()].copy_from_slice(begun);
        }
        let fields = Record::decode(&record);
        if fields.is_run() {
            state.play(&fields.call(), &mut Reached::new());
        }
        bytes.extend(&record[begun.len()..]);
        begun = &[];
    }
    bytes
}

/// A replay state and a block that comes to it.
#[derive(Clone, PartialEq, Eq, Debug)]
pub struct Fed {
    pub replay: ReplayState,
    pub block: Vec<u8>,
}

/// A random replay state with a block for it. Of a hundred such states `damage`
/// get E_SYS; the others are let through.
pub fn random_fed(random: &mut Random, profile: &Profile, damage: u32) -> Fed {
    let mut replay = random_replay_state(random, profile);
    if random.percent(damage) {
        let kind = random.pick(&DAMAGES);
        damage_replay_state(random, &mut replay, kind);
    }
    let block = random_block(random, profile, &replay);
    Fed { replay, block }
}
