//! `second COUNT SEED` plays COUNT random calls and ticks alone, and checks
//! after every step that the state is sound, and that a refusal left it equal
//! and gave zero words. Now and then it posts a random table in the place of a
//! call, and checks it against its calls made singly. It prints how often each
//! row and path was reached and exits with 1 if one was not reached or a check
//! failed.
//!
//! `second replay` reads records from standard input to its end, replays them
//! and prints the line of item 3 of document 02. `second replay --blocks SEED`
//! does the same by item 5: it cuts what it reads into random blocks and feeds
//! these one by one.
#![forbid(unsafe_code)]

use second::*;
use std::io::Read;
use std::process::exit;
use std::time::Instant;

/// Steps of one sequence, at most.
const LENGTH: u64 = 400;
/// Steps of one sequence from a state that is not sound.
const SHORT_LENGTH: u64 = 5;
/// In so many of a hundred steps a table is posted.
const TABLES: u32 = 1;

fn main() {
    let arguments: Vec<String> = std::env::args().skip(1).collect();
    let words: Vec<&str> = arguments.iter().map(String::as_str).collect();
    match words[..] {
        ["replay"] => replay_input(),
        ["replay", "--blocks", seed] => replay_blocks(number(seed)),
        [count, seed] => play_alone(number(count), number(seed)),
        _ => misused(),
    }
}

/// A number that was given as an argument.
fn number(text: &str) -> u64 {
    text.parse().unwrap_or_else(|_| misused())
}

fn misused() -> ! {
    eprintln!("usage: second COUNT SEED, second replay, or second replay --blocks SEED");
    exit(2);
}

/// Plays so many random calls and prints what they reached.
fn play_alone(count: u64, seed: u64) {
    let begun = Instant::now();
    let mut random = Random::new(seed);
    let mut reached = Reached::new();
    let mut played = 0;
    let mut turn = 0;
    while played < count {
        let kind = KINDS[turn % KINDS.len()];
        turn += 1;
        let left = count - played;
        played += play_sequence(&mut random, kind, left.min(LENGTH), &mut reached);
        let left = (count - played).min(SHORT_LENGTH);
        played += play_unsound(&mut random, left, &mut reached);
    }
    let seconds = begun.elapsed().as_secs_f64();
    print!("{reached}");
    println!(
        "{played} calls and tables in {seconds:.2} s, {:.0} a second",
        played as f64 / seconds
    );
    let missing = reached.missing();
    for name in &missing {
        println!("not reached: {name}");
    }
    if !missing.is_empty() {
        exit(1);
    }
}

/// Replays standard input and prints its line.
fn replay_input() {
    match replay_reader(std::io::stdin().lock()) {
        Ok(replayed) => println!("{}", replayed.line),
        Err(error) => {
            eprintln!("standard input: {error}");
            exit(2);
        }
    }
}

/// Feeds standard input in random blocks and prints its line.
fn replay_blocks(seed: u64) {
    let mut bytes = Vec::new();
    if let Err(error) = std::io::stdin().lock().read_to_end(&mut bytes) {
        eprintln!("standard input: {error}");
        exit(2);
    }
    let mut random = Random::new(seed);
    let cut = random.pick(&CUTS);
    let lengths = random_cuts(&mut random, bytes.len(), cut);
    let mut replay = ReplayState::new();
    let mut reached = BlocksReached::new();
    let mut code = feed_in_blocks(&mut replay, &bytes, &lengths, &mut reached);
    let (code_at_end, line) = replay.end(&mut reached);
    if code == E_OK {
        code = code_at_end;
    }
    // No input is so long that it is refused.
    if code != E_OK {
        eprintln!("refused: {}", code_name(code));
        exit(1);
    }
    println!("{line}");
}

/// One step, kept to be printed when a check fails.
struct Step<'a> {
    before: &'a State,
    call: Call,
    answer: Answer,
}

impl Step<'_> {
    /// Stops the program if the check fails.
    fn check(&self, holds: bool, what: &str) {
        if holds {
            return;
        }
        println!("check failed: {what}");
        println!("state before:\n{}", self.before);
        println!("call: {}", self.call);
        println!("answer: {}", self.answer);
        exit(1);
    }

    /// The answer has a code that refuses. A fetch that is not refused may
    /// give the code of an ended wait, which no row gives for a fetch.
    fn refused(&self) -> bool {
        match self.answer {
            Answer::Waits { .. } => false,
            Answer::Finished { code, .. } if self.call.number == FETCH => {
                !matches!(code, E_OK | E_RLWAI | E_TMOUT | E_DLT)
            }
            Answer::Finished { code, .. } => code != E_OK,
        }
    }
}

/// Plays one sequence from a sound state; gives the number of steps.
fn play_sequence(random: &mut Random, kind: Kind, length: u64, reached: &mut Reached) -> u64 {
    let profile = Profile::new(kind, random);
    let mut state = profile.start(random);
    let mut before = state.clone();
    reached.start_sequence();
    for _ in 0..length {
        if random.percent(TABLES) {
            play_table(random, &profile, &mut state, reached);
            before = state.clone();
            continue;
        }
        let call = random_call(random, &profile, &state);
        let answer = state.play(&call, reached);
        let step = Step {
            before: &before,
            call,
            answer,
        };
        step.check(state.sound(), "the state is sound");
        if step.refused() {
            let zero = matches!(
                answer,
                Answer::Finished {
                    a: 0,
                    b: 0,
                    c: 0,
                    ..
                }
            );
            step.check(zero, "a refusal gives zero words");
            step.check(state.equal(&before), "a refusal leaves the state equal");
        } else {
            before = state.clone();
        }
    }
    length
}

/// Plays a few steps and a table on a state that is not sound; gives the
/// number of the steps without the table.
fn play_unsound(random: &mut Random, length: u64, reached: &mut Reached) -> u64 {
    let profile = Profile::new(Kind::Mixed, random);
    let before = random_unsound_state(random);
    let sound = random_sound_state(random);
    let mut state = before.clone();
    reached.start_sequence();
    for _ in 0..length {
        // The call is made for another, sound state: any call will do here.
        let call = random_call(random, &profile, &sound);
        let answer = state.play(&call, reached);
        let step = Step {
            before: &before,
            call,
            answer,
        };
        let code = if call.number > FETCH { E_PAR } else { E_SYS };
        step.check(
            answer == Answer::refused(code),
            "an unsound state is refused",
        );
        step.check(state == before, "a refused unsound state stays");
    }
    play_table(random, &profile, &mut state, reached);
    length
}

/// One table with what came of it, kept to be printed when a check fails.
struct Posted<'a> {
    before: &'a State,
    /// With the cells as they were lent.
    table: &'a Table,
    code: i32,
    answers: Vec<Answer>,
}

impl Posted<'_> {
    /// Stops the program if the check fails.
    fn check(&self, holds: bool, what: &str) {
        if holds {
            return;
        }
        println!("check failed: {what}");
        println!("state before:\n{}", self.before);
        print!("table:\n{}", self.table);
        println!("code: {}", code_name(self.code));
        for (answer, place) in self.answers.iter().zip(1..) {
            println!("cell {place} afterwards: {answer}");
        }
        exit(1);
    }

    /// What item 2 of document 02 asks of the lengths, for a sound state.
    fn fits(&self) -> bool {
        let calls = self.table.calls.len();
        calls <= LARGEST_TABLE as usize && calls <= self.table.answers.len()
    }

    /// The calls made singly: the state, and the cells with their answers.
    fn singly(&self) -> (State, Vec<Answer>) {
        let mut state = self.before.clone();
        let mut cells = self.table.answers.clone();
        for (place, call) in self.table.calls.iter().enumerate() {
            cells[place] = match call.number {
                TICK => Answer::refused(E_PAR),
                // Counted already, when the table was posted.
                _ => state.play(call, &mut Reached::new()),
            };
        }
        (state, cells)
    }
}

/// Posts one random table on the state, sound or not. A refused table must
/// have changed nothing, and another must equal its calls made singly.
fn play_table(random: &mut Random, profile: &Profile, state: &mut State, reached: &mut Reached) {
    let before = state.clone();
    let table = random_table(random, profile, state);
    let mut answers = table.answers.clone();
    let code = post(state, &table.calls, &mut answers, reached);
    let posted = Posted {
        before: &before,
        table: &table,
        code,
        answers,
    };
    let expected = match (before.sound(), posted.fits()) {
        (false, _) => E_SYS,
        (true, false) => E_PAR,
        (true, true) => E_OK,
    };
    posted.check(code == expected, "the code of the table");
    if code != E_OK {
        let kept = posted.answers == table.answers;
        posted.check(kept, "a refused table leaves the cells");
        posted.check(*state == before, "a refused table leaves the state");
        return;
    }
    let (single, cells) = posted.singly();
    posted.check(posted.answers == cells, "the answers of the single calls");
    posted.check(*state == single, "the state of the single calls");
    posted.check(state.sound(), "the state is sound after a table");
}
