//! The programs that bench/figures measures, under one trait.
use linguastel::{Call, HostAnswer, Record};
use std::marker::PhantomData;

pub trait Program: Sized {
    const NAME: &'static str;
    // The program's own form of a call, made before anything is measured.
    type Call;
    fn call_of(call: &Call) -> Self::Call;
    fn empty(counter: u32) -> Self;
    fn play(&mut self, call: &Self::Call) -> HostAnswer;
    fn sound(&self) -> bool;
    // The host takes a task away that doesn't wait.
    fn undefine(&mut self, task: usize);
}

// ── The programs that work on the lent record ──

pub trait OnRecord {
    const NAME: &'static str;
    fn call(record: &mut Record, call: Call) -> HostAnswer;
    fn sound(record: &Record) -> bool;
}

/// The proved library, through its entry `linguastel_unguarded_call`; whether a record is sound is told by a call too.
pub struct Library;

impl OnRecord for Library {
    const NAME: &'static str = "entry";

    #[inline(always)]
    fn call(record: &mut Record, call: Call) -> HostAnswer {
        record.host_call(call)
    }

    #[inline(always)]
    fn sound(record: &Record) -> bool {
        record.is_sound()
    }
}

/// The kernel in ordinary Rust, bench/kernel.rs.
pub struct Rust;

impl OnRecord for Rust {
    const NAME: &'static str = "baseline";

    #[inline(always)]
    fn call(record: &mut Record, call: Call) -> HostAnswer {
        baseline::call(record, call)
    }

    #[inline(always)]
    fn sound(record: &Record) -> bool {
        baseline::sound(record)
    }
}

/// The same without the test of the record.
pub struct RustUntested;

impl OnRecord for RustUntested {
    const NAME: &'static str = "untested";

    #[inline(always)]
    fn call(record: &mut Record, call: Call) -> HostAnswer {
        baseline::call_untested(record, call)
    }

    #[inline(always)]
    fn sound(record: &Record) -> bool {
        baseline::sound(record)
    }
}

/// One of these with the record that it is lent.
pub struct Lent<K> {
    record: Record,
    kernel: PhantomData<K>,
}

pub type Entry = Lent<Library>;
pub type Baseline = Lent<Rust>;
pub type Untested = Lent<RustUntested>;

impl<K: OnRecord> Program for Lent<K> {
    const NAME: &'static str = K::NAME;
    type Call = Call;

    fn call_of(call: &Call) -> Call {
        *call
    }

    fn empty(counter: u32) -> Lent<K> {
        Lent { record: Record { counter, ..Record::empty() }, kernel: PhantomData }
    }

    #[inline(always)]
    fn play(&mut self, call: &Call) -> HostAnswer {
        K::call(&mut self.record, *call)
    }

    #[inline(always)]
    fn sound(&self) -> bool {
        K::sound(&self.record)
    }

    #[inline(always)]
    fn undefine(&mut self, task: usize) {
        self.record.tasks[task].flags = 0;
    }
}

// ── The program with a state of its own ──

/// The second program, second/lib.rs. It counts the paths that a call takes, as it does wherever it runs.
#[cfg(second)]
pub struct Second {
    state: second::State,
    reached: second::Reached,
}

#[cfg(second)]
impl Program for Second {
    const NAME: &'static str = "second";
    type Call = second::Call;

    fn call_of(call: &Call) -> second::Call {
        let Call { number, caller, locked, disabled, object, value, tmout, attribute } = *call;
        second::Call { number, caller, locked: locked != 0, disabled: disabled != 0, object, value, tmout, attribute }
    }

    fn empty(counter: u32) -> Second {
        Second { state: second::State::empty(counter), reached: second::Reached::new() }
    }

    #[inline(always)]
    fn play(&mut self, call: &second::Call) -> HostAnswer {
        match self.state.play(call, &mut self.reached) {
            second::Answer::Finished { code, a, b, c } => HostAnswer { kind: 0, code, place: 0, a, b, c },
            second::Answer::Waits { place } => HostAnswer { kind: 1, code: linguastel::NO_CODE, place, a: 0, b: 0, c: 0 },
        }
    }

    #[inline(always)]
    fn sound(&self) -> bool {
        self.state.sound()
    }

    #[inline(always)]
    fn undefine(&mut self, task: usize) {
        self.state.tasks[task].exists = false;
    }
}
