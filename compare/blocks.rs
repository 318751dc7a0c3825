//! Recordings that arrive in blocks (document 02, item 5), on the library and on the second program: random files in random cuts, whose line and last
//! kernel state must be those of the whole file, and random replay records between two blocks: such as are let through, many of them with records near
//! 2^64, and damaged ones. both.rs says what is compared after every block.
use crate::block_counts::{Counts, Source};
use crate::both::{line_of, Both};
use crate::damage::{self, damage};
use crate::record::{record_of, state_of};
use crate::replays::File;
use linguastel::{E_OK, MESSAGES, TASKS};
use second::{code_name, damage_replay_state, random_block, random_cuts, random_replay_state, random_sound_state};
use second::{Cut, Line, Profile, Random, ReplayState, State, CUTS, DAMAGES};
use std::panic::{catch_unwind, AssertUnwindSafe};

/// In so many of a hundred places between blocks the end is asked for.
const ENDS: u32 = 10;
/// After so many of a hundred blocks of a file, unused bytes of the record get random numbers again.
const REWRITTEN: u32 = 4;
/// So many replay records make a run; one run of so many is a file instead.
const STATES_IN_A_RUN: u64 = 20;
const RUNS_FOR_A_FILE: u32 = 6;
/// A longer file isn't cut after every byte.
const MOST_IN_BYTES: usize = 4_000;

/// One run. An error is the first difference in words.
pub fn compare_blocks(random: &mut Random, counts: &mut Counts) -> Result<(), String> {
    // The second program plays calls while it makes up files, replays and blocks.
    let made = catch_unwind(AssertUnwindSafe(|| file_or_states(random, counts)));
    made.unwrap_or_else(|_| Err("the second program panics while it makes up the run".to_string()))
}

/// A file, or some replay records.
fn file_or_states(random: &mut Random, counts: &mut Counts) -> Result<(), String> {
    if random.below(RUNS_FOR_A_FILE) == 0 {
        return compare_file(random, counts);
    }
    for number in 1..=STATES_IN_A_RUN {
        compare_state(random, counts).map_err(|text| format!("replay record {number} of the run: {text}"))?;
    }
    Ok(())
}

fn compare_file(random: &mut Random, counts: &mut Counts) -> Result<(), String> {
    let file = File::random(random);
    let cut = random.pick(&cuts_for(file.bytes.len()));
    counts.forms[file.form as usize] += 1;
    let about = format!("a file of form {:?} with {} bytes, in cut {cut:?}", file.form, file.bytes.len());
    compare_in_blocks(&file.bytes, cut, file.line.as_ref(), random, counts).map_err(|text| format!("{about}: {text}"))
}

/// How a file of this length may be cut.
pub fn cuts_for(length: usize) -> Vec<Cut> {
    CUTS.into_iter().filter(|cut| *cut != Cut::Bytes || length <= MOST_IN_BYTES).collect()
}

/// The bytes of a whole file in random cuts of this kind. Line and last kernel state must be those that the second program gives for the whole file,
/// and the line the one that is known.
pub fn compare_in_blocks(bytes: &[u8], cut: Cut, known: Option<&Line>, random: &mut Random, counts: &mut Counts) -> Result<(), String> {
    let mut both = Both::start();
    counts.started[Source::Files as usize] += 1;
    counts.cuts[cut as usize] += 1;
    let mut left = bytes;
    for (number, length) in (1..).zip(random_cuts(random, bytes.len(), cut)) {
        let (block, rest) = left.split_at(length);
        let in_block = |text| format!("block {number}: {text}");
        both.feed(block, counts).map_err(in_block)?;
        left = rest;
        if random.percent(ENDS) {
            both.end(counts).map(drop).map_err(in_block)?;
        }
        if random.percent(REWRITTEN) {
            both.rewrite(random);
        }
    }
    let line = both.end(counts)?;
    let whole = catch_unwind(|| second::replay(bytes)).map_err(|_| "the second program panics on the whole file")?;
    if line != line_of(E_OK, &whole.line) || known.is_some_and(|known| *known != whole.line) {
        let known = known.map_or(String::new(), |line| format!("as it is known: {line}\n"));
        return Err(format!("the lines differ\nin blocks: {}, {line}\nthe whole file: {}\n{known}", code_name(line.code), whole.line));
    }
    match state_of(&both.lent.kernel) {
        Some(read) if read.equal(&whole.state) => Ok(()),
        _ => Err("the last kernel state isn't that of the whole file".to_string()),
    }
}

/// One replay record with blocks in a row.
fn compare_state(random: &mut Random, counts: &mut Counts) -> Result<(), String> {
    let profile = Profile::new(random.pick(&second::KINDS), random);
    let mut replay = random_replay_state(random, &profile);
    let (mut both, about) = match random.below(10) {
        0..=4 => (Both::of(Source::States, record_of(&replay.state, random), &replay, random), "let through".to_string()),
        5..=7 => damaged_by_second(&replay, random, counts),
        _ => {
            // An empty state, of which there are many, has little to be damaged.
            replay.state = random_sound_state(random);
            damaged_in_bytes(&replay, random, counts)
        }
    };
    counts.started[both.source as usize] += 1;
    both.feed_some(&replay, &profile, random, counts).map_err(|text| format!("{about}: {text}"))
}

impl Both {
    /// Some blocks, and the end before the first and after the last, at times also between them.
    fn feed_some(&mut self, replay: &ReplayState, profile: &Profile, random: &mut Random, counts: &mut Counts) -> Result<(), String> {
        self.end(counts).map(drop)?;
        for number in 1..=random.between(1, 4) {
            let in_block = |text| format!("block {number} on it: {text}");
            // Calls are made up for a state that is sound.
            let guide = self.second.as_ref().filter(|second| second.state.sound()).unwrap_or(replay);
            let block = random_block(random, profile, guide);
            self.feed(&block, counts).map_err(in_block)?;
            if random.percent(ENDS) {
                self.end(counts).map(drop).map_err(in_block)?;
            }
        }
        self.end(counts).map(drop)
    }
}

/// Whether all numbers in the lists are such as there are; the chains of a record have no room for others.
fn can_be_written(state: &State) -> bool {
    let tasks = |list: &[u32]| list.iter().all(|&number| number <= TASKS as u32);
    let queues = state.queues.iter().all(|queue| tasks(&queue.senders) && tasks(&queue.receivers));
    let messages = |list: &[second::Message]| list.iter().all(|message| message.number <= MESSAGES as u32);
    queues && state.mailboxes.iter().all(|mailbox| tasks(&mailbox.waiters) && messages(&mailbox.messages))
}

/// A damaged replay that can be written.
fn damaged(replay: &ReplayState, kind: second::Damage, random: &mut Random) -> ReplayState {
    loop {
        let mut damaged = replay.clone();
        damage_replay_state(random, &mut damaged, kind);
        if can_be_written(&damaged.state) {
            return damaged;
        }
    }
}

/// The second program judges what is read from the record. Where a field of the record is too small for the damage, that may be a sound state.
fn damaged_by_second(replay: &ReplayState, random: &mut Random, counts: &mut Counts) -> (Both, String) {
    let kind = random.pick(&DAMAGES);
    let damaged = damaged(replay, kind, random);
    let both = Both::of(Source::Damaged, record_of(&damaged.state, random), &damaged, random);
    let (refused, others) = &mut counts.damaged[kind as usize];
    *(if both.is_let_through() { others } else { refused }) += 1;
    (both, format!("damage {kind:?}"))
}

fn damaged_in_bytes(replay: &ReplayState, random: &mut Random, counts: &mut Counts) -> (Both, String) {
    let kind = random.pick(&damage::DAMAGES);
    let mut kernel = record_of(&replay.state, random);
    damage(&mut kernel, kind, random);
    let both = Both::of(Source::Kernels, kernel, replay, random);
    let judged = &mut counts.kernels[kind as usize];
    match &both.second {
        None => judged.unreadable += 1,
        Some(second) if second.state.sound() => judged.sound += 1,
        Some(_) => judged.unsound += 1,
    }
    (both, format!("damage {kind:?} in the bytes of the kernel record"))
}

#[cfg(test)]
mod tests {
    use super::*;
    use linguastel::TRACE_SIZE;

    /// A tick with its answer.
    const TICK: [u8; TRACE_SIZE] = [0; TRACE_SIZE];

    /// A line, or a last state, that isn't that of the whole file.
    #[test]
    fn whole_files() {
        let (mut random, mut counts) = (Random::new(1), Counts::default());
        let bytes = [&TICK[..], &TICK, &TICK[..7]].concat();
        let line = Line { records: 2, differ: 0, first: 0, tail: 7 };
        for cut in CUTS {
            assert_eq!(compare_in_blocks(&bytes, cut, None, &mut random, &mut counts), Ok(()));
            assert_eq!(compare_in_blocks(&bytes, cut, Some(&line), &mut random, &mut counts), Ok(()));
            let other = Line { tail: 8, ..line };
            let text = compare_in_blocks(&bytes, cut, Some(&other), &mut random, &mut counts).expect_err("a difference");
            assert!(text.starts_with("the lines differ") && text.contains("as it is known: records 2 differ 0 first 0 tail 8"));
        }
        assert_eq!(counts.cuts, [3; CUTS.len()]);
    }

    #[test]
    fn states_that_can_be_written() {
        let mut state = State::empty(0);
        assert!(can_be_written(&state));
        state.queues[1].senders.push(32);
        state.mailboxes[1].messages.push(second::Message { number: 64, priority: 1 });
        assert!(can_be_written(&state));
        state.mailboxes[1].messages[0].number = 65;
        assert!(!can_be_written(&state));
        state.mailboxes[1].messages.clear();
        state.mailboxes[1].waiters.push(33);
        assert!(!can_be_written(&state));
    }

    /// A run follows from its seed.
    #[test]
    fn runs_by_seed() {
        for seed in 0..20 {
            let [one, two] = [0; 2].map(|_| {
                let mut counts = Counts::default();
                assert_eq!(compare_blocks(&mut Random::new(seed), &mut counts), Ok(()));
                counts.summary()
            });
            assert_eq!(one, two);
        }
    }
}
