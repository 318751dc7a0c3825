//! Random traces for item 3 of document 02: records as a unit makes them, with
//! damage of every kind, and bytes after the last whole record.

use crate::errors::*;
use crate::random::{random_call, Profile, Random};
use crate::reached::Reached;
use crate::replay::{record_of, Line, RECORD};
use crate::state::*;

/// In so many of a hundred calls a field goes past its lowest byte.
const WIDE: u32 = 10;
/// In so many of a hundred calls the unused fields get any bits.
const FILLED: u32 = 30;

/// A trace with what its replay has to give.
#[derive(Clone, PartialEq, Eq, Debug)]
pub struct Trace {
    pub bytes: Vec<u8>,
    pub line: Line,
    pub state: State,
}

/// The bytes of a random trace of so many records, from the empty state with
/// counter 0. Each call is guided by the state that the replay has before it.
/// Of a hundred records `damage` are damaged, so that they differ; the others
/// do not. The tail has 0 to 31 bytes.
pub fn random_trace(random: &mut Random, profile: &Profile, length: u32, damage: u32) -> Vec<u8> {
    random_trace_and_end(random, profile, length, damage).bytes
}

/// The same trace, with its line and last state. They are known from how the
/// trace is made; nothing is replayed for them.
pub fn random_trace_and_end(
    random: &mut Random,
    profile: &Profile,
    length: u32,
    damage: u32,
) -> Trace {
    let mut trace = Trace {
        bytes: Vec::new(),
        line: Line::ZEROS,
        state: State::empty(0),
    };
    for _ in 0..length {
        trace.add_record(random, profile, damage);
    }
    let tail = random_tail(random);
    trace.line.tail = tail.len() as u64;
    trace.bytes.extend(tail);
    trace
}

impl Trace {
    fn add_record(&mut self, random: &mut Random, profile: &Profile, damage: u32) {
        let call = known_call(random, profile, &self.state);
        let mut after = self.state.clone();
        // What is reached here is not part of any run.
        let answer = after.play(&call, &mut Reached::new());
        let mut record = record_of(&call, &answer);
        self.line.records += 1;
        let mut is_run = true;
        if random.percent(damage) {
            is_run = damage_record(random, &mut record);
            self.line.differ += 1;
            if self.line.differ == 1 {
                self.line.first = self.line.records;
            }
        }
        if is_run {
            self.state = after;
        }
        self.bytes.extend(record);
    }
}

/// A call or tick of known number; unknown ones come as damage.
pub(crate) fn known_call(random: &mut Random, profile: &Profile, state: &State) -> Call {
    let mut call = random_call(random, profile, state);
    while call.number > FETCH {
        call = random_call(random, profile, state);
    }
    if random.percent(WIDE) {
        widen(random, &mut call);
    }
    if random.percent(FILLED) {
        fill_unused(random, &mut call);
    }
    call
}

/// Adds a bit above the lowest byte to a field that the call uses, so that
/// taking less than the whole field gives another answer.
fn widen(random: &mut Random, call: &mut Call) {
    let bit = 1 << random.pick(&[8, 9, 15, 16, 24, 31]);
    let attribute = random.percent(50);
    match call.number {
        DEFINE_TASK => call.value |= bit,
        CRE_DTQ | CRE_MBX | SND_MBX if attribute => call.attribute |= bit,
        CRE_DTQ | CRE_MBX | SND_MBX => call.value |= bit,
        _ => {}
    }
}

/// Any bits in fields that the call does not use, which have to be ignored.
fn fill_unused(random: &mut Random, call: &mut Call) {
    if call.number == TICK {
        call.caller = random.below(256);
        call.object = random.below(256);
        call.locked = random.percent(50);
        call.disabled = random.percent(50);
    }
    let value = random.bits() as u32;
    if !matches!(
        call.number,
        DEFINE_TASK | CRE_DTQ | SND_DTQ..=FSND_DTQ | CRE_MBX | SND_MBX
    ) {
        call.value = value;
    }
    let tmout = random.bits() as i32;
    if !matches!(call.number, TSND_DTQ | TRCV_DTQ | TRCV_MBX) {
        call.tmout = tmout;
    }
    let attribute = random.bits() as u32;
    if !matches!(call.number, CRE_DTQ | CRE_MBX | SND_MBX) {
        call.attribute = attribute;
    }
}

/// Makes a record differ. Says whether it is run all the same.
pub(crate) fn damage_record(random: &mut Random, record: &mut [u8; RECORD]) -> bool {
    if random.percent(50) {
        change_answer(random, record);
        return true;
    }
    make_unknown(random, record);
    // Another reason, or the same byte again, which does not take it back.
    if random.percent(15) {
        make_unknown(random, record);
    }
    if random.percent(10) {
        change_answer(random, record);
    }
    false
}

/// One reason for not running the record.
fn make_unknown(random: &mut Random, record: &mut [u8; RECORD]) {
    let tick = record[0] as u32 == TICK;
    if tick && random.percent(50) {
        return add_flag(random, record);
    }
    match random.below(9) {
        0 if random.percent(50) => record[0] = FETCH as u8 + 1,
        0 => record[0] = random.between(FETCH + 1, 255) as u8,
        1 if random.percent(50) => record[16] = random.pick(&[2, 3, 128, 129]),
        1 => record[16] = random.between(2, 255) as u8,
        2 | 3 => add_flag(random, record),
        4 => record[17] = not_zero(random),
        5 => record[18] = not_zero(random),
        6 => record[19] = not_zero(random),
        7 => record[31] = not_zero(random),
        _ => fill_record(random, record),
    }
}

/// One unknown flag, or some, beside the known ones that are there.
fn add_flag(random: &mut Random, record: &mut [u8; RECORD]) {
    record[2] |= match random.percent(50) {
        true => 4 << random.below(6),
        false => (random.between(1, 63) << 2) as u8,
    };
}

/// Any bytes, of which a spare one is not 0.
fn fill_record(random: &mut Random, record: &mut [u8; RECORD]) {
    for byte in record.iter_mut() {
        *byte = random.bits() as u8;
    }
    record[17] = not_zero(random);
}

/// One bit, or any byte but 0.
fn not_zero(random: &mut Random) -> u8 {
    match random.percent(50) {
        true => 1 << random.below(8),
        false => random.between(1, 255) as u8,
    }
}

/// Another kind, another code or place, or other words; nothing unknown.
fn change_answer(random: &mut Random, record: &mut [u8; RECORD]) {
    let byte = random.between(20, 30) as usize;
    match random.below(4) {
        0 => record[16] ^= 1,
        1 => change_code(random, record),
        2 => {
            record[byte] ^= not_zero(random);
            // Another byte of the answer, never the same one.
            let other = 20 + (byte - 20 + random.between(1, 10) as usize) % 11;
            record[other] ^= not_zero(random);
        }
        _ => record[byte] ^= not_zero(random),
    }
}

/// A code that a call can have, or in a wait a place, but not the right one.
fn change_code(random: &mut Random, record: &mut [u8; RECORD]) {
    let codes = [
        E_OK, E_SYS, E_PAR, E_ID, E_CTX, E_ILUSE, E_OBJ, E_NOEXS, E_QOVR, E_RLWAI, E_TMOUT, E_DLT,
    ];
    let numbers = match record[16] {
        0 => &codes[..],
        _ => &[0, 1, 2, 30, 31, 32],
    };
    let mut others = numbers.to_vec();
    others.retain(|number| number.to_le_bytes() != record[20..24]);
    record[20..24].copy_from_slice(&random.pick(&others).to_le_bytes());
}

/// The bytes after the last whole record: often none, else zeros, which would
/// begin the record of a tick, or any bytes.
fn random_tail(random: &mut Random) -> Vec<u8> {
    let length = match random.below(4) {
        0 | 1 => 0,
        2 => random.pick(&[1, 31]),
        _ => random.between(1, RECORD as u32 - 1),
    };
    let zeros = random.percent(50);
    let byte = |_| match zeros {
        true => 0,
        false => random.bits() as u8,
    };
    (0..length).map(byte).collect()
}
