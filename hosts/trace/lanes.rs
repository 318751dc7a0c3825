//! What a picture shows of a trace, gathered in one replay.
use crate::play::{self, Line, Step};
use crate::state::{self, Ended, Wait};
use crate::words;
use linguastel::{number, Record, MAILBOXES, QUEUES, TASKS};

/// What a data queue or mailbox holds from this record on.
#[derive(Clone, Copy, PartialEq, Debug)]
pub struct Level {
    pub record: u64,
    pub exists: bool,
    /// Of a data queue; 0 for a mailbox.
    pub capacity: u32,
    /// Stored words or queued messages.
    pub held: u32,
}

/// A data queue or mailbox, with its levels from the first record on at which it exists.
#[derive(Clone, Debug, Default)]
pub struct Holder {
    pub number: usize,
    pub levels: Vec<Level>,
    /// Whether it ever held anything, or a task waited at it.
    pub used: bool,
}

impl Holder {
    fn see(&mut self, level: Level, waited_at: bool) {
        let last = self.levels.last().map_or((false, 0, 0), |last| (last.exists, last.capacity, last.held));
        if last != (level.exists, level.capacity, level.held) {
            self.levels.push(level);
        }
        self.used |= level.held > 0 || waited_at;
    }
}

/// A wait, from the record that began it to the one that ended it.
#[derive(Clone, Debug)]
pub struct Bar {
    pub first: u64,
    pub wait: Wait,
    /// None where the trace ends before the wait does.
    pub ended: Option<(u64, Ended)>,
}

#[derive(Clone, Debug, Default)]
pub struct TaskLane {
    pub number: usize,
    pub defined: bool,
    pub bars: Vec<Bar>,
}

/// A record that differs.
pub struct Fault {
    pub record: u64,
    /// False where it isn't run.
    pub run: bool,
    /// For a reader who points at it; empty beyond `FAULTS_IN_WORDS`.
    pub words: String,
}

/// So many faults have words; a trace of a million may differ everywhere.
const FAULTS_IN_WORDS: usize = 1000;

#[derive(Default)]
pub struct Lanes {
    pub line: Line,
    pub start: u32,
    pub counter: u32,
    pub queues: Vec<Holder>,
    pub mailboxes: Vec<Holder>,
    pub tasks: Vec<TaskLane>,
    pub faults: Vec<Fault>,
    /// Records that brought the counter to a value.
    pub ticks: Vec<(u64, u32)>,
}

pub fn gather(bytes: &[u8], counter: u32) -> Lanes {
    let holder = |number| Holder { number, ..Holder::default() };
    let task = |number| TaskLane { number, ..TaskLane::default() };
    let mut lanes = Lanes {
        line: Line { tail: play::tail(bytes).len() as u64, ..Line::default() },
        start: counter,
        counter,
        queues: (1..=QUEUES).map(holder).collect(),
        mailboxes: (1..=MAILBOXES).map(holder).collect(),
        tasks: (1..=TASKS).map(task).collect(),
        ..Lanes::default()
    };
    for step in play::steps(bytes, counter) {
        lanes.add(&step);
    }
    lanes
}

impl Lanes {
    fn add(&mut self, step: &Step) {
        self.line.count(step.same());
        if !step.same() {
            let words = if self.faults.len() < FAULTS_IN_WORDS { fault_in_words(step) } else { String::new() };
            self.faults.push(Fault { record: step.number, run: step.outcome.is_ok(), words });
        }
        if step.before == step.after {
            return;
        }
        self.counter = step.after.counter;
        if step.outcome.as_ref().is_ok_and(|run| run.recorded.call.number == number::TICK) {
            self.ticks.push((step.number, self.counter));
        }
        self.see_holders(step.number, &step.after);
        self.see_tasks(step);
    }

    fn see_holders(&mut self, record: u64, after: &Record) {
        for lane in &mut self.queues {
            let cells = &after.queues[lane.number];
            let exists = cells.defined != 0;
            let capacity = if exists { cells.ring.capacity.into() } else { 0 };
            let number = lane.number as u32;
            let waited_at = after.senders(number).chain(after.receivers(number)).next().is_some();
            lane.see(Level { record, exists, capacity, held: cells.ring.count.into() }, waited_at);
        }
        for lane in &mut self.mailboxes {
            let exists = after.mailboxes[lane.number].defined != 0;
            let number = lane.number as u32;
            let held = after.messages(number).count() as u32;
            lane.see(Level { record, exists, capacity: 0, held }, after.waiters(number).next().is_some());
        }
    }

    fn see_tasks(&mut self, step: &Step) {
        for ended in state::ended(&step.before, &step.after) {
            if let Some(bar) = self.tasks[ended.task - 1].bars.last_mut() {
                bar.ended = Some((step.number, ended));
            }
        }
        for lane in &mut self.tasks {
            lane.defined |= step.after.tasks[lane.number].flags != 0;
            let (before, after) = (state::wait_of(&step.before, lane.number), state::wait_of(&step.after, lane.number));
            if let (None, Some(wait)) = (before, after) {
                lane.bars.push(Bar { first: step.number, wait, ended: None });
            }
        }
    }
}

fn fault_in_words(step: &Step) -> String {
    match &step.outcome {
        Err(why) => format!("record {} isn't run: {why}", step.number),
        Ok(run) => {
            let (call, number) = (words::call(&run.recorded.call), run.recorded.call.number);
            let (recorded, replayed) = (words::answer(number, &run.recorded.answer), words::answer(number, &run.replayed));
            format!("record {}, {call}: recorded {recorded}; replayed {replayed}", step.number)
        }
    }
}

#[cfg(test)]
mod tests {
    use super::*;
    use crate::stored;

    #[test]
    fn the_carriers() {
        let lanes = gather(&stored::carriers(), 0);
        let used = |holders: &[Holder]| holders.iter().filter(|lane| lane.used).map(|lane| lane.number).collect::<Vec<_>>();
        assert_eq!((used(&lanes.queues), used(&lanes.mailboxes)), (vec![1, 2], vec![1]));
        let waiting: Vec<usize> = lanes.tasks.iter().filter(|lane| !lane.bars.is_empty()).map(|lane| lane.number).collect();
        assert_eq!(waiting, [1, 4, 5]);
        assert_eq!((lanes.counter, lanes.ticks.len(), lanes.faults.len()), (12, 12, 0));
        let last = lanes.queues[0].levels.last().expect("it existed");
        assert!(!last.exists && last.held == 0);
        assert_eq!(lanes.queues[0].levels.iter().map(|level| level.held).max(), Some(8));
        let ends = lanes.tasks[0].bars.iter().map(|bar| (bar.first, bar.ended.expect("all of them ended")));
        let found: Vec<(u64, u64, i32)> = ends.map(|(first, (last, ended))| (first, last, ended.code)).collect();
        assert_eq!(found, [(24, 27, 0), (36, 41, -50), (49, 58, -49), (62, 73, -51)]);
    }

    #[test]
    fn faults_have_words() {
        let lanes = gather(&stored::differs(), 0);
        let found: Vec<(u64, bool)> = lanes.faults.iter().map(|fault| (fault.record, fault.run)).collect();
        assert_eq!(found, [(13, true), (14, false), (16, true)]);
        assert_eq!(lanes.faults[0].words, "record 13, task 3 prcv_dtq data queue 1: recorded E_OK, word 640; replayed E_OK, word 615");
        assert_eq!(lanes.faults[1].words, "record 14 isn't run: unknown flag, flags 4 (byte 2)");
    }
}
