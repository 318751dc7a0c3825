//! Makes calls drawn at random, always the same ones, and records them: `recorder FILE` writes the trace. The calls and the bytes are those of
//! hosts/c/recorder.c.
use linguastel::{number, trace_table, Call, HostAnswer, Record, E_OK, TABLE, TRACE_SIZE};
use std::process::ExitCode;

// So many calls are recorded at least. Two more than a table may have are drawn for it at most; it is refused then.
const ENOUGH: usize = 20_000;
const MOST_CALLS: u32 = TABLE as u32 + 2;

// ── Calls drawn at random ──

// Marsaglia's generator.
struct Noise(u32);

impl Noise {
    fn word(&mut self) -> u32 {
        self.0 ^= self.0 << 13;
        self.0 ^= self.0 >> 17;
        self.0 ^= self.0 << 5;
        self.0
    }

    fn below(&mut self, limit: u32) -> u32 {
        (self.word() >> 8) % limit
    }

    fn pick<T: Copy>(&mut self, list: &[T]) -> T {
        list[self.below(list.len() as u32) as usize]
    }

    // Few numbers, so that calls meet; at times limits, and numbers that are wider than their byte in a trace.
    fn few(&mut self) -> u32 {
        match self.below(16) {
            0 => self.pick(&[0, 16, 17, 32, 33, 254, 255, 256, 257, u32::MAX]),
            _ => 1 + self.below(6),
        }
    }

    fn one_in_32(&mut self) -> u32 {
        match self.below(32) {
            0 => self.pick(&[1, 2, 256, u32::MAX]),
            _ => 0,
        }
    }

    // The fields are drawn in the order in which they stand here.
    fn call(&mut self) -> Call {
        Call {
            number: if self.below(32) == 0 { self.pick(&[24, 255, 279, u32::MAX]) } else { self.below(number::LAST + 1) },
            caller: if self.below(3) == 0 { 0 } else { self.few() },
            locked: self.one_in_32(),
            disabled: self.one_in_32(),
            object: self.few(),
            value: if self.below(4) == 0 { self.word() } else { self.below(8) },
            tmout: self.pick(&[i32::MIN, -2, -1, 0, 1, 1, 2, 2, 3, 3, 5, 2_147_483_646, i32::MAX]),
            attribute: self.pick(&[0, 0, 0, 1, 1, 2, 2, 3, 3, 4, u32::MAX]),
        }
    }
}

// ── A host that records ──

struct Host {
    record: Record,
    trace: Vec<u8>,
    // Calls; a refused table counts as none.
    made: usize,
}

impl Host {
    fn make_call(&mut self, call: Call) {
        let answer = self.record.host_call(call);
        self.trace.extend(call.trace(answer).into_iter().flatten());
        self.made += 1;
    }

    fn make_table(&mut self, calls: &[Call]) {
        let mut answers = vec![HostAnswer::default(); calls.len()];
        let code = self.record.table(calls, &mut answers);
        self.trace.extend(trace_table(calls, &answers, code).flatten());
        self.made += if code == E_OK { calls.len() } else { 0 };
    }
}

fn main() -> ExitCode {
    let mut noise = Noise(2_463_534_242);
    let mut host = Host { record: Record::EMPTY, trace: Vec::new(), made: 0 };
    while host.trace.len() < ENOUGH * TRACE_SIZE {
        match noise.below(16) {
            0 => {
                let calls: Vec<Call> = (0..noise.below(MOST_CALLS + 1)).map(|_| noise.call()).collect();
                host.make_table(&calls);
            }
            1 => host.make_call(Call::TICK),
            _ => host.make_call(noise.call()),
        }
    }
    println!("{} of {} calls recorded", host.trace.len() / TRACE_SIZE, host.made);
    match std::env::args().nth(1).map(|file| std::fs::write(file, &host.trace)) {
        Some(Ok(())) => ExitCode::SUCCESS,
        _ => {
            eprintln!("recorder FILE: the file can't be written");
            ExitCode::FAILURE
        }
    }
}
