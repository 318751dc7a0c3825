//! A record of a trace, as document 02's item 3 lays it out: 32 bytes, little-endian, tmout and code signed.
use linguastel::{number, Call, HostAnswer, NO_CODE, TRACE_SIZE};
use std::fmt::{Display, Formatter};

pub const SIZE: usize = TRACE_SIZE;

/// The largest call number that is known; 0 is the tick.
pub const LAST_CALL: u32 = number::LAST;

// Byte 2.
const LOCKED: u8 = 1;
const DISABLED: u8 = 2;

const SPARE_BYTES: [usize; 4] = [17, 18, 19, 31];

/// A call and the answer that the unit recorded. Fields that the call doesn't use are as they stand in the record; the kernel ignores them.
#[derive(Clone, Copy, PartialEq, Debug)]
pub struct Recorded {
    pub call: Call,
    pub answer: HostAnswer,
}

/// Why a record isn't run.
#[derive(Clone, Copy, PartialEq, Debug)]
pub enum NotRun {
    UnknownCall(u8),
    UnknownKind(u8),
    UnknownFlag(u8),
    SpareByte { place: usize, byte: u8 },
}

impl Display for NotRun {
    fn fmt(&self, to: &mut Formatter) -> std::fmt::Result {
        match self {
            NotRun::UnknownCall(number) => write!(to, "unknown call, number {number} (byte 0)"),
            NotRun::UnknownKind(kind) => write!(to, "unknown kind of answer, {kind} (byte 16)"),
            NotRun::UnknownFlag(flags) => write!(to, "unknown flag, flags {flags} (byte 2)"),
            NotRun::SpareByte { place, byte } => write!(to, "spare byte {place} is {byte}, not 0"),
        }
    }
}

fn word_at(bytes: &[u8; SIZE], place: usize) -> u32 {
    u32::from_le_bytes([bytes[place], bytes[place + 1], bytes[place + 2], bytes[place + 3]])
}

/// What a record holds, or why it isn't run. Flags are looked at in a tick too.
pub fn read(bytes: &[u8; SIZE]) -> Result<Recorded, NotRun> {
    if u32::from(bytes[0]) > LAST_CALL {
        return Err(NotRun::UnknownCall(bytes[0]));
    }
    if bytes[16] > 1 {
        return Err(NotRun::UnknownKind(bytes[16]));
    }
    if bytes[2] > LOCKED + DISABLED {
        return Err(NotRun::UnknownFlag(bytes[2]));
    }
    match SPARE_BYTES.into_iter().find(|place| bytes[*place] != 0) {
        Some(place) => Err(NotRun::SpareByte { place, byte: bytes[place] }),
        None => Ok(Recorded { call: call_in(bytes), answer: answer_in(bytes) }),
    }
}

fn call_in(bytes: &[u8; SIZE]) -> Call {
    Call {
        number: bytes[0].into(),
        caller: bytes[1].into(),
        locked: (bytes[2] & LOCKED != 0).into(),
        disabled: (bytes[2] & DISABLED != 0).into(),
        object: bytes[3].into(),
        value: word_at(bytes, 4),
        tmout: word_at(bytes, 8) as i32,
        attribute: word_at(bytes, 12),
    }
}

/// Code and place stand in the same field. The words of a wait are read as well: the kernel's are 0, so that anything else there differs.
fn answer_in(bytes: &[u8; SIZE]) -> HostAnswer {
    let waits = bytes[16] == 1;
    let code_or_place = word_at(bytes, 20);
    let (code, place) = if waits { (NO_CODE, code_or_place) } else { (code_or_place as i32, 0) };
    let (a, b, c) = (word_at(bytes, 24), bytes[28].into(), u16::from_le_bytes([bytes[29], bytes[30]]).into());
    HostAnswer { kind: waits.into(), code, place, a, b, c }
}

#[cfg(test)]
mod tests {
    use super::*;

    fn with(changes: &[(usize, u8)]) -> [u8; SIZE] {
        let mut bytes = [0; SIZE];
        for (place, byte) in changes {
            bytes[*place] = *byte;
        }
        bytes
    }

    #[test]
    fn every_reason_not_to_run() {
        assert_eq!(read(&with(&[(0, 24)])), Err(NotRun::UnknownCall(24)));
        assert_eq!(read(&with(&[(0, 255)])), Err(NotRun::UnknownCall(255)));
        assert_eq!(read(&with(&[(16, 2)])), Err(NotRun::UnknownKind(2)));
        assert_eq!(read(&with(&[(0, 5), (2, 4)])), Err(NotRun::UnknownFlag(4)));
        // In a tick too.
        assert_eq!(read(&with(&[(2, 131)])), Err(NotRun::UnknownFlag(131)));
        for place in [17, 18, 19, 31] {
            assert_eq!(read(&with(&[(place, 1)])), Err(NotRun::SpareByte { place, byte: 1 }));
        }
        // The first of several, in the order of item 3.
        assert_eq!(read(&with(&[(0, 24), (16, 2), (2, 4), (17, 1)])), Err(NotRun::UnknownCall(24)));
    }

    #[test]
    fn known_calls_kinds_and_flags_are_run() {
        for number in 0..=23 {
            for kind in 0..=1 {
                for flags in 0..=3 {
                    assert!(read(&with(&[(0, number), (16, kind), (2, flags)])).is_ok());
                }
            }
        }
    }

    #[test]
    fn every_field() {
        let mut bytes: [u8; SIZE] = std::array::from_fn(|place| place as u8);
        (bytes[0], bytes[2], bytes[16]) = (6, 3, 0);
        for place in SPARE_BYTES {
            bytes[place] = 0;
        }
        bytes[11] = 0xff;
        bytes[23] = 0xff;
        let call = Call {
            number: 6,
            caller: 1,
            locked: 1,
            disabled: 1,
            object: 3,
            value: 0x0706_0504,
            tmout: 0xff0a_0908_u32 as i32,
            attribute: 0x0f0e_0d0c,
        };
        let answer = HostAnswer { kind: 0, code: 0xff16_1514_u32 as i32, place: 0, a: 0x1b1a_1918, b: 0x1c, c: 0x1e1d };
        assert_eq!(read(&bytes), Ok(Recorded { call, answer }));
        assert_eq!(call.trace(answer), Some(bytes));
    }

    #[test]
    fn a_wait_has_a_place() {
        let bytes = with(&[(0, 4), (16, 1), (20, 7), (24, 9)]);
        let recorded = read(&bytes).expect("it is run");
        assert_eq!(recorded.answer, HostAnswer { kind: 1, code: NO_CODE, place: 7, a: 9, b: 0, c: 0 });
        assert_eq!(recorded.call.trace(recorded.answer), Some(bytes));
    }

    #[test]
    fn reasons_in_words() {
        assert_eq!(NotRun::UnknownCall(24).to_string(), "unknown call, number 24 (byte 0)");
        assert_eq!(NotRun::UnknownKind(2).to_string(), "unknown kind of answer, 2 (byte 16)");
        assert_eq!(NotRun::UnknownFlag(4).to_string(), "unknown flag, flags 4 (byte 2)");
        assert_eq!(NotRun::SpareByte { place: 19, byte: 1 }.to_string(), "spare byte 19 is 1, not 0");
    }
}
