//! The stored traces of this folder, written again: two carriers as in hosts/rust/src/bin/demo.rs, with some more calls, and a short trace that differs.
use crate::decode::SIZE;
use linguastel::{number, Answer, Call, Context, Record, E_RLWAI, E_TMOUT, NO_WAIT, TA_MPRI, TA_TFIFO};

// ── A trace in the making ──

/// The kernel's record so far, and the bytes that a unit would have recorded of it.
pub struct Writer {
    record: Record,
    bytes: Vec<u8>,
}

impl Writer {
    pub fn empty(counter: u32) -> Writer {
        Writer { record: Record { counter, ..Record::empty() }, bytes: Vec::new() }
    }

    pub fn bytes(&self) -> &[u8] {
        &self.bytes
    }

    /// Makes the call and adds its record.
    pub fn make(&mut self, call: Call) -> Answer {
        let answer = self.record.host_call(call);
        self.bytes.extend(call.trace(answer).into_iter().flatten());
        answer.read()
    }

    /// The same, of whose answer nothing depends.
    pub fn add(&mut self, call: Call) {
        let _ = self.make(call);
    }

    /// The same, with one byte of the record changed afterwards.
    pub fn add_changed(&mut self, call: Call, place: usize, byte: u8) {
        self.add(call);
        let start = self.bytes.len() - SIZE;
        self.bytes[start + place] = byte;
    }

    /// The same for a record that isn't run: the kernel's record stays.
    pub fn add_not_run(&mut self, call: Call, place: usize, byte: u8) {
        let before = self.record.clone();
        self.add_changed(call, place, byte);
        self.record = before;
    }

    pub fn add_tail(&mut self, bytes: &[u8]) {
        self.bytes.extend(bytes);
    }

    fn handler(&mut self, number: u32, object: u32, value: u32) {
        self.task(0, number, object, value);
    }

    fn task(&mut self, caller: u32, number: u32, object: u32, value: u32) {
        self.add(Call { value, ..Call::new(number, Context::task(caller), object) });
    }

    fn waits(&self, task: u32) -> bool {
        self.record.tasks[task as usize].wait != NO_WAIT
    }
}

// ── The carriers ──

const A_IMPORT: u32 = 1;
const A_READER: u32 = 2;
const B_IMPORT: u32 = 3;
const B_READER: u32 = 4;
const OPERATOR: u32 = 5;

const A_QUEUE: u32 = 1;
const B_QUEUE: u32 = 2;

// Where the operator is told what becomes of carrier A.
const REPORTS: u32 = 1;

const PRIORITY: u32 = 5;
const CAPACITY: u32 = 8;
const STEPS: usize = 12;

const A_BURST: u32 = 10;
const A_TMOUT: i32 = 2;
const A_TAKES: u32 = 4;

const B_WORDS: [u32; STEPS] = [615, 640, 705, 730, 800, 830, 915, 1000, 1045, 1130, 1215, 1300];
const B_BURST: usize = 4;

struct Story {
    writer: Writer,
    // Of carrier A's file, to be sent next; it is its own number.
    element: u32,
    a_waited: bool,
    a_stopped: bool,
}

impl Story {
    fn start() -> Story {
        let mut writer = Writer::empty(0);
        for task in A_IMPORT..=OPERATOR {
            writer.handler(number::DEFINE_TASK, task, PRIORITY);
        }
        for queue in A_QUEUE..=B_QUEUE {
            writer.add(Call { value: CAPACITY, attribute: TA_TFIFO, ..Call::new(number::CRE_DTQ, Context::HANDLER, queue) });
        }
        writer.add(Call { value: 4, attribute: TA_MPRI, ..Call::new(number::CRE_MBX, Context::HANDLER, REPORTS) });
        writer.task(OPERATOR, number::RCV_MBX, REPORTS, 0);
        Story { writer, element: 1, a_waited: false, a_stopped: false }
    }

    fn report(&mut self, caller: u32, message: u32, priority: u32) {
        self.writer.add(Call { value: message, attribute: priority, ..Call::new(number::SND_MBX, Context::task(caller), REPORTS) });
    }

    /// The reader takes a word in each step, or waits for the next burst.
    fn carrier_b(&mut self, step: usize) {
        if !self.writer.waits(B_READER) {
            self.writer.task(B_READER, number::RCV_DTQ, B_QUEUE, 0);
        }
        if step % B_BURST == 0 {
            for word in &B_WORDS[step..step + B_BURST] {
                self.writer.task(B_IMPORT, number::PSND_DTQ, B_QUEUE, *word);
            }
        }
    }

    /// What is done to carrier A's queue or import task.
    fn happen(&mut self, step: usize) {
        match step {
            1 => (0..A_TAKES).for_each(|_| self.writer.task(A_READER, number::PRCV_DTQ, A_QUEUE, 0)),
            5 => self.refusals(),
            6 => {
                self.writer.handler(number::REL_WAI, A_IMPORT, 0);
                self.report(0, 3, 1);
            }
            8 => {
                (0..2).for_each(|_| self.writer.task(OPERATOR, number::PRCV_MBX, REPORTS, 0));
                self.writer.task(OPERATOR, number::DEL_DTQ, A_QUEUE, 0);
            }
            9 => self.writer.add(Call { tmout: 1, ..Call::new(number::TRCV_MBX, Context::task(OPERATOR), REPORTS) }),
            _ => (),
        }
    }

    /// E_CTX, once for each flag.
    fn refusals(&mut self) {
        let context = Context::task(OPERATOR);
        self.writer.add(Call::new(number::LOOK, Context { locked: true, ..context }, A_IMPORT));
        self.writer.add(Call::new(number::RCV_MBX, Context { disabled: true, ..context }, REPORTS));
        self.writer.handler(number::LOOK, A_IMPORT, 0);
        self.writer.handler(number::REF_DTQ, A_QUEUE, 0);
    }

    /// The import task learns how its wait ended, and reports what isn't E_OK. Gives whether it got room.
    fn a_got_room(&mut self) -> bool {
        let ended = self.writer.make(Call::new(number::FETCH, Context::task(A_IMPORT), A_IMPORT));
        match ended {
            Answer::Done(_) => self.element += 1,
            Answer::Error(E_TMOUT) => self.report(A_IMPORT, 1, 2),
            Answer::Error(E_RLWAI) => self.report(A_IMPORT, 2, 2),
            _ => (),
        }
        ended.is_ok()
    }

    /// Hands over a burst where there may be room, then waits with the first element that was refused.
    fn carrier_a(&mut self) {
        if self.a_stopped || self.writer.waits(A_IMPORT) {
            return;
        }
        if !self.a_waited || self.a_got_room() {
            let next = self.element;
            let send = |value: u32| Call { value, ..Call::new(number::PSND_DTQ, Context::task(A_IMPORT), A_QUEUE) };
            let accepted = (next..next + A_BURST).take_while(|element| self.writer.make(send(*element)).is_ok());
            self.element = next + accepted.count() as u32;
        }
        let send = Call { value: self.element, tmout: A_TMOUT, ..Call::new(number::TSND_DTQ, Context::task(A_IMPORT), A_QUEUE) };
        let answer = self.writer.make(send);
        self.a_waited = answer.waits();
        self.a_stopped = !answer.waits();
    }
}

/// Two carriers, of which A floods its own queue: its waits end with E_OK, by a time-out, by rel_wai and with its queue. B goes on all the time. The
/// operator waits at a mailbox for reports, the last time until a time-out.
pub fn carriers() -> Vec<u8> {
    let mut story = Story::start();
    for step in 0..STEPS {
        story.carrier_b(step);
        story.happen(step);
        story.carrier_a();
        story.writer.add(Call::default());
    }
    story.writer.bytes
}

/// A short trace with three records that differ, of which the second isn't run, and a tail of three bytes. The unit's first wrong answer is the
/// second word where the oldest is due; its last is that a sender waits behind another, where nobody waits.
pub fn differs() -> Vec<u8> {
    let mut writer = Writer::empty(0);
    for task in 1..=4 {
        writer.handler(number::DEFINE_TASK, task, PRIORITY);
    }
    writer.add(Call { value: 2, ..Call::new(number::CRE_DTQ, Context::HANDLER, 1) });
    writer.add(Call { value: 4, attribute: TA_MPRI, ..Call::new(number::CRE_MBX, Context::HANDLER, 1) });
    writer.add(Call { value: 7, attribute: 3, ..Call::new(number::SND_MBX, Context::task(4), 1) });
    for word in [615, 640] {
        writer.task(1, number::SND_DTQ, 1, word);
    }
    writer.add(Call { value: 705, tmout: 5, ..Call::new(number::TSND_DTQ, Context::task(1), 1) });
    writer.add(Call { value: 730, tmout: -1, ..Call::new(number::TSND_DTQ, Context::task(2), 1) });
    writer.add(Call::default());
    // 640 = 0x280 is recorded in place of 615 = 0x267.
    writer.add_changed(Call::new(number::PRCV_DTQ, Context::task(3), 1), 24, 0x80);
    writer.add_not_run(Call { value: 800, ..Call::new(number::FSND_DTQ, Context::task(3), 1) }, 2, 4);
    writer.handler(number::REL_WAI, 2, 0);
    writer.add_changed(Call { value: 830, ..Call::new(number::SND_DTQ, Context::task(1), 1) }, 20, 1);
    writer.add(Call::default());
    writer.handler(number::REF_DTQ, 1, 0);
    writer.task(3, number::PRCV_MBX, 1, 0);
    writer.add_tail(&[4, 3, 0]);
    writer.bytes
}

#[cfg(test)]
mod tests {
    use super::*;
    use crate::play::{steps, Line};
    use crate::state::ended;

    #[test]
    fn the_carriers_trace_has_what_it_says() {
        let bytes = carriers();
        let line = Line::of(&bytes, 0);
        assert!((60..=100).contains(&line.records) && line.differ == 0 && line.tail == 0, "{line}");
        let codes: Vec<i32> = steps(&bytes, 0).flat_map(|step| ended(&step.before, &step.after)).map(|ended| ended.code).collect();
        for code in [linguastel::E_OK, E_TMOUT, E_RLWAI, linguastel::E_DLT] {
            assert!(codes.contains(&code), "{code} in {codes:?}");
        }
    }

    #[test]
    fn the_short_trace_has_what_it_says() {
        let bytes = differs();
        assert_eq!(Line::of(&bytes, 0).to_string(), "records 19 differ 3 first 13 tail 3");
        assert_eq!(steps(&bytes, 0).filter(|step| step.outcome.is_err()).count(), 1);
    }
}
