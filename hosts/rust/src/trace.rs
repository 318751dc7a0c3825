//! Recording calls: traces, which the program replay and `Replay::feed` read (document 02, item 3).
use core::array::from_fn;

use crate::names::{number, E_OK, E_PAR};
use crate::{Call, HostAnswer};

/// The bytes of one call with its answer in a trace. A trace has these for each call, and nothing else. It starts at the empty record.
pub const TRACE_SIZE: usize = 32;

impl Call {
    /// The bytes of the call with its answer, or nothing where the call is left out. So this line records a call, a tick (`Call::TICK`), or a call of a
    /// table that was answered E_OK; the answer is that of [`Record::host_call`](crate::Record::host_call) or the table's cell:
    ///
    /// `trace.extend(call.trace(answer).into_iter().flatten());`
    ///
    /// Left out are the calls that step 0 refuses: a number above 23, and number 0 in a table. They change nothing, and the replay can't make them: it
    /// counts the first as differing, and the second would be a tick. Where number 0 is answered E_PAR it was in a table, since no tick gives E_PAR.
    ///
    /// A number above the largest of its bytes is written as that. For caller and object nothing is lost: the kernel reads a number from 255 on as 255.
    /// Of the kernel's answers, b is at most 64 (ref_mbx, a message) and c at most 16 (ref_dtq, the stored count). If another answer is handed in, the
    /// largest number makes it differ in the replay; cut down to its low bits, it could have looked like the kernel's. For the same reason the words of
    /// an answer that waits are written as they come; the kernel's are 0. docs/calls/recording.md#trace
    ///
    /// The bytes are the same on a host of either byte order.
    #[must_use]
    pub fn trace(self, answer: HostAnswer) -> Option<[u8; TRACE_SIZE]> {
        let finished = answer.kind == 0;
        let no_tick = self.number == number::TICK && finished && answer.code == E_PAR;
        if no_tick || self.number > number::LAST {
            return None;
        }
        let byte = |number: u32| number.min(u8::MAX.into());
        let flags = u32::from(self.locked != 0) + 2 * u32::from(self.disabled != 0);
        let words: [u32; TRACE_SIZE / 4] = [
            self.number | byte(self.caller) << 8 | flags << 16 | byte(self.object) << 24,
            self.value,
            self.tmout as u32,
            self.attribute,
            byte(answer.kind),
            if finished { answer.code as u32 } else { answer.place },
            answer.a,
            byte(answer.b) | answer.c.min(u16::MAX.into()) << 8,
        ];
        Some(from_fn(|i| words[i / 4].to_le_bytes()[i % 4]))
    }
}

/// The same for a table of calls with its code: the bytes of its calls in a row; nothing where the code isn't E_OK, because none of the calls was made
/// then. docs/calls/recording.md#trace
pub fn trace_table<'a>(calls: &'a [Call], answers: &'a [HostAnswer], code: i32) -> impl Iterator<Item = [u8; TRACE_SIZE]> + 'a {
    let made = if code == E_OK { calls.len() } else { 0 };
    calls.iter().zip(answers).take(made).filter_map(|(call, answer)| call.trace(*answer))
}
