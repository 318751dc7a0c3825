//! The kinds of run. A run follows from its kind and its seed alone, so that it can be repeated.
use crate::block_counts;
use crate::blocks::compare_blocks;
use crate::carriers::{self, compare_merges};
use crate::damage::{Damage, DAMAGES};
use crate::limits::next_call;
use crate::play::Pair;
use crate::record::{random_word, record_of};
use crate::replays::{self, compare_replay};
use crate::tables::{self, compare_table};
use crate::unsound::{self, compare_damaged};
use linguastel::Record;
use second::{random_sound_state, Profile, Random, Reached, State};

#[derive(Clone, Copy, PartialEq, Eq, Debug)]
pub enum Kind {
    /// Calls from the empty state, at counter 0.
    Empty,
    /// Calls from the empty state with a counter that soon goes round.
    Wrap,
    /// Calls from a random sound state, in a record whose rings start anywhere and whose unused cells are random.
    States,
    /// Damaged records.
    Records,
    /// Merges of two carriers' lists.
    Carriers,
    /// Files of records, on the program replay.
    Replays,
    /// Recordings in blocks, on the library's replay record.
    Blocks,
}

/// In how many ways the second program finds a state not sound, but for lists that are too long and numbers in them that are out of range: from such
/// a record no state is read.
const FAULTS: usize = 22;

/// So many of a hundred calls of a run have a table before them.
const TABLES: u32 = 1;

pub const KINDS: [Kind; 7] = [Kind::Empty, Kind::Wrap, Kind::States, Kind::Records, Kind::Carriers, Kind::Replays, Kind::Blocks];

impl Kind {
    pub fn name(self) -> &'static str {
        match self {
            Kind::Empty => "empty",
            Kind::Wrap => "wrap",
            Kind::States => "states",
            Kind::Records => "records",
            Kind::Carriers => "carriers",
            Kind::Replays => "replays",
            Kind::Blocks => "blocks",
        }
    }

    pub fn named(name: &str) -> Option<Kind> {
        KINDS.into_iter().find(|kind| kind.name() == name)
    }

    fn calls_in_a_run(self) -> u64 {
        match self {
            Kind::Empty | Kind::Wrap => 500,
            Kind::States => 200,
            Kind::Records | Kind::Carriers | Kind::Replays | Kind::Blocks => 0,
        }
    }
}

/// A random sound state. The second program's leave the stored pair of a waiting task at 0 and 0; a sound record may have any pair there.
fn random_start(random: &mut Random) -> State {
    let mut state = random_sound_state(random);
    for task in &mut state.tasks[1..] {
        if task.exists && random.percent(20) {
            task.code = random.pick(&[0, -49, -50, -51]);
            task.word = random.number();
        }
    }
    state
}

/// Near the wrap, every other run has short time-outs and many ticks.
fn random_profile(kind: Kind, random: &mut Random) -> Profile {
    let wanted = random.pick(&second::KINDS);
    let chosen = if kind == Kind::Wrap && random.percent(50) { second::Kind::NearWrap } else { wanted };
    Profile::new(chosen, random)
}

fn summary_of_tables(what: &str, counts: &tables::Counts) -> String {
    let (tables, lengths) = (counts.lengths.tables(), counts.lengths.in_words());
    let others = format!("{} refused, {} whose calls change nothing", counts.refused, counts.idle);
    format!("{tables:>12}  {what}: {} calls, {lengths}; {others}\n", counts.calls)
}

/// What was compared.
#[derive(Default)]
pub struct Totals {
    /// By kind.
    pub runs: [u64; KINDS.len()],
    /// Calls whose answer and state were compared with the second program's, by kind of run.
    pub calls: [u64; KINDS.len()],
    /// Tables in the same runs.
    pub tables: tables::Counts,
    pub records: unsound::Counts,
    pub carriers: carriers::Counts,
    pub replays: replays::Counts,
    pub blocks: block_counts::Counts,
    pub reached: Reached,
}

impl Totals {
    /// Calls compared with the second program in runs of calls, without those of tables.
    pub fn compared(&self) -> u64 {
        self.calls.iter().sum()
    }

    /// Those and the calls of tables, on damaged records and in merges.
    pub fn all_calls(&self) -> u64 {
        let in_tables = self.tables.calls + self.records.tables.calls;
        self.compared() + in_tables + self.records.refused + self.records.played + self.carriers.calls
    }

    /// Tables of all kinds, in merges too.
    pub fn all_tables(&self) -> u64 {
        let compared = self.tables.lengths.tables() + self.records.tables.lengths.tables();
        compared + self.records.refused_tables.tables() + self.carriers.tables
    }

    /// What was never reached in runs of calls: rows and paths of the second program, and damages that came to no record of one of the two kinds.
    pub fn missing(&self) -> Vec<String> {
        let mut missing: Vec<String> = self.reached.missing().into_iter().map(String::from).collect();
        for (kind, judged) in DAMAGES.iter().zip(&self.records.judged) {
            if judged.unreadable + judged.unsound == 0 {
                missing.push(format!("a record that isn't sound, by damage {kind:?}"));
            }
            // Random records are hardly ever sound.
            if judged.sound == 0 && !matches!(kind, Damage::Bytes | Damage::Numbers) {
                missing.push(format!("a record that is still sound, by damage {kind:?}"));
            }
        }
        missing.extend(self.tables.lengths.missing().into_iter().map(|what| what + " in a run of calls"));
        missing.extend(self.records.refused_tables.missing().into_iter().map(|what| what + " on a record that isn't sound"));
        if self.records.faults.len() < FAULTS {
            missing.push(format!("{} of {FAULTS} reasons why a state isn't sound", FAULTS - self.records.faults.len()));
        }
        missing
    }

    /// One run. An error is the first difference in words.
    pub fn run(&mut self, kind: Kind, seed: u64) -> Result<(), String> {
        let mut random = Random::new(seed);
        self.runs[kind as usize] += 1;
        self.reached.start_sequence();
        match kind {
            Kind::Empty => self.play(kind, State::empty(0), &mut random),
            Kind::Wrap => {
                let counter = u32::MAX - random.below(60);
                self.play(kind, State::empty(counter), &mut random)
            }
            Kind::States => {
                let state = random_start(&mut random);
                self.play(kind, state, &mut random)
            }
            Kind::Records => {
                let state = random_start(&mut random);
                compare_damaged(&state, &mut random, &mut self.records, &mut self.reached)
            }
            Kind::Carriers => self.merge(&mut random),
            Kind::Replays => compare_replay(&mut random, &mut self.replays),
            Kind::Blocks => compare_blocks(&mut random, &mut self.blocks),
        }
    }

    fn play(&mut self, kind: Kind, start: State, random: &mut Random) -> Result<(), String> {
        let mut pair = Pair::new(start, random);
        if kind == Kind::Empty && random.percent(50) {
            // The empty record as the library makes it.
            pair.record = Record::empty();
        }
        let profile = random_profile(kind, random);
        for number in 1..=kind.calls_in_a_run() {
            // A call may have written unused cells; they get random numbers again.
            if random.percent(4) {
                pair.record = record_of(&pair.state, random);
            }
            if random.percent(TABLES) {
                compare_table(&mut pair, &profile, random, &mut self.reached, &mut self.tables)
                    .map_err(|text| format!("table before call {number} of the run: {text}"))?;
            }
            let call = next_call(random, &profile, &pair.state);
            self.calls[kind as usize] += 1;
            pair.play(&call, &mut self.reached).map_err(|text| format!("call {number} of the run: {text}"))?;
        }
        Ok(())
    }

    fn merge(&mut self, random: &mut Random) -> Result<(), String> {
        let state = if random.below(3) == 0 { State::empty(random_word(random)) } else { random_start(random) };
        compare_merges(&state, random, &mut self.carriers)
    }

    /// What was compared, a line for each kind.
    pub fn summary(&self) -> String {
        let mut text = String::new();
        for kind in [Kind::Empty, Kind::Wrap, Kind::States] {
            text += &format!("{:>12}  calls compared, in {} runs of kind {}\n", self.calls[kind as usize], self.runs[kind as usize], kind.name());
        }
        text += &summary_of_tables("tables compared in these runs", &self.tables);
        let carriers = &self.carriers;
        text += &format!("{:>12}  calls in {} merges of {} pairs of lists", carriers.calls, carriers.merges, carriers.pairs);
        text += &format!(", of which {} refused and {} wait\n", carriers.refused, carriers.waits);
        text += &format!("{:>12}  tables in these merges: {} refused", carriers.tables, carriers.refused_tables);
        text += &format!(", the others with {} of the calls\n", carriers.calls_in_tables);
        text + &self.summary_of_records()
    }

    fn summary_of_records(&self) -> String {
        let records = &self.records;
        let mut text = format!("{:>12}  damaged records; {} calls on those that aren't sound", records.records(), records.refused);
        text += &format!(", {} compared on those that still are\n", records.played);
        let refused = &records.refused_tables;
        text += &format!("{:>12}  tables on those that aren't sound: {}\n", refused.tables(), refused.in_words());
        text += &summary_of_tables("tables compared on those that still are", &records.tables);
        for (kind, judged) in DAMAGES.iter().zip(&records.judged) {
            let name = format!("{kind:?}");
            let counts = format!("unreadable {:>7}  not sound {:>7}  sound {:>7}", judged.unreadable, judged.unsound, judged.sound);
            text += &format!("{:>12}  {name:<9}{counts}\n", "");
        }
        for (fault, count) in &records.faults {
            text += &format!("{count:>12}  not sound: {fault}\n");
        }
        text
    }
}
