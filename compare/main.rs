//! Compares the kernel with the second program. README.md beside this file says what is compared and how a difference is repeated.
//! `compare short` plays 1,000,000 calls, `compare long [CALLS] [SEED]` 100,000,000 or as many as said; both with tables, damaged records and merges.
//! `compare records [COUNT] [SEED]` and `compare carriers [COUNT] [SEED]` play those alone, `compare run KIND SEED` repeats one run.
//! `compare replays [COUNT] [SEED]` plays 2,500 files of records, or as many as said, on the program replay.
//! `compare blocks [COUNT] [SEED]` feeds 1,000,000 blocks of recordings, or as many as said, to the library's replay record, `compare blocks --corpus`
//! the stored recordings and `compare blocks --files FILE...` these in random cuts.
//! `compare mutant` stops at the first difference within 100,000 calls, `compare mutant replays` within 1,000 files, `compare mutant blocks` within
//! 20,000 blocks; each prints one line.
//! The exit status is 1 where something differs.
#![forbid(unsafe_code)]
use comparison::replays;
use comparison::runs::{Kind, Totals};
use comparison::stored;
use std::fmt::{Display, Formatter};
use std::path::PathBuf;
use std::process::ExitCode;
use std::time::{Duration, Instant};

/// What is played over and over: kinds of run, and how many of each.
type Round = &'static [(Kind, u64)];

/// Has 2,000 compared calls, about 20 tables beside them, 260 damaged records and 20 merges.
const ALL_KINDS: Round = &[(Kind::Empty, 1), (Kind::Wrap, 1), (Kind::States, 5), (Kind::Records, 20), (Kind::Carriers, 4)];
const RECORDS: Round = &[(Kind::Records, 20)];
const CARRIERS: Round = &[(Kind::Carriers, 20)];
const REPLAYS: Round = &[(Kind::Replays, 20)];
const BLOCKS: Round = &[(Kind::Blocks, 20)];
/// The carriers' lists are played on the kernel alone, and say nothing of the second program.
const FOR_A_MUTANT: Round = &[(Kind::Empty, 1), (Kind::Wrap, 1), (Kind::States, 5), (Kind::Records, 6)];

const CALLS_FOR_A_MUTANT: u64 = 100_000;
const FILES_FOR_A_MUTANT: u64 = 1_000;
const BLOCKS_FOR_A_MUTANT: u64 = 20_000;
const BETWEEN_REPORTS: Duration = Duration::from_secs(10);

const USAGE: &str = "compare short | long [CALLS] [SEED] | records, carriers, replays or blocks [COUNT] [SEED] | blocks --corpus |
    blocks --files FILE... | mutant [replays or blocks] | run KIND SEED";

/// What a comparison must have reached.
#[derive(Clone, Copy)]
enum Asked {
    /// Some kinds of run alone say nothing of the rest.
    Nothing,
    /// Every row and path of the calls and tables.
    Calls,
    /// Every path of the replay.
    Replays,
    /// Every path of the replay in blocks.
    Blocks,
}

/// A run that found a difference.
struct Found {
    kind: Kind,
    seed: u64,
    /// Calls on the kernel until then, in all runs, or files, or blocks.
    place: String,
    text: String,
}

impl Display for Found {
    fn fmt(&self, to: &mut Formatter) -> std::fmt::Result {
        let (name, seed) = (self.kind.name(), self.seed);
        writeln!(to, "DIFFERENCE at {} in all. To repeat it: compare run {name} {seed}\n{}", self.place, self.text)
    }
}

struct Session {
    totals: Totals,
    round: Round,
    next_seed: u64,
    started: Instant,
}

impl Session {
    /// Sessions with different seeds have no run in common.
    fn new(round: Round, seed: u64) -> Session {
        Session { totals: Totals::default(), round, next_seed: seed << 32, started: Instant::now() }
    }

    /// Plays until `done`, or up to the first difference.
    fn play(&mut self, done: impl Fn(&Totals) -> bool) -> Option<Found> {
        let mut reported = Instant::now();
        while !done(&self.totals) {
            for &(kind, runs) in self.round {
                for _ in 0..runs {
                    let seed = self.next_seed;
                    self.next_seed += 1;
                    if let Err(text) = self.totals.run(kind, seed) {
                        return Some(Found { kind, seed, place: self.place(kind), text });
                    }
                }
            }
            if reported.elapsed() >= BETWEEN_REPORTS {
                reported = Instant::now();
                println!("{}", self.progress());
            }
        }
        None
    }

    /// How far the session has come, counted in what this kind plays.
    fn place(&self, kind: Kind) -> String {
        match kind {
            Kind::Replays => format!("file {}", self.totals.replays.files),
            Kind::Blocks => format!("block {}", self.totals.blocks.all_blocks()),
            _ => format!("call {}", self.totals.all_calls()),
        }
    }

    fn progress(&self) -> String {
        let totals = &self.totals;
        if totals.replays.files > 0 {
            return format!("{} files replayed, 0 differences", totals.replays.files);
        }
        if totals.blocks.all_blocks() > 0 {
            return format!("{} blocks compared, 0 differences", totals.blocks.all_blocks());
        }
        let rate = totals.all_calls() as f64 / self.started.elapsed().as_secs_f64();
        let others = format!("{} tables, {} damaged records, {} merges", totals.all_tables(), totals.records.records(), totals.carriers.merges);
        format!("{} calls compared, {others}, 0 differences, {rate:.0} calls a second", totals.compared())
    }
}

/// Plays and prints all. True where nothing differs and all was reached that is asked for.
fn compare(mut session: Session, asked: Asked, done: impl Fn(&Totals) -> bool) -> bool {
    let found = session.play(done);
    let seconds = session.started.elapsed().as_secs_f64();
    let totals = &session.totals;
    let (summary, played) = in_words(totals, asked);
    print!("{summary}");
    // After a difference much is left unplayed, and says nothing.
    let missing = if found.is_none() { never_reached(totals, asked) } else { Vec::new() };
    for what in &missing {
        println!("NEVER REACHED: {what}");
    }
    if let Some(found) = &found {
        print!("{found}");
        print_kept(found.kind, found.seed);
    }
    let result = format!("{} differences, {} never reached", u32::from(found.is_some()), missing.len());
    println!("{result}; {played} in {seconds:.1} s");
    found.is_none() && missing.is_empty()
}

/// What was compared, by kind, and in few words.
fn in_words(totals: &Totals, asked: Asked) -> (String, String) {
    let (replays, blocks) = (&totals.replays, &totals.blocks);
    match asked {
        Asked::Blocks => (blocks.summary(), format!("{} blocks with {} records, {} ends", blocks.all_blocks(), blocks.records, blocks.ends.all())),
        Asked::Replays => (replays.summary(), format!("{} files with {} records", replays.files, replays.records)),
        Asked::Nothing | Asked::Calls => (totals.summary(), format!("{} calls and {} tables of all kinds", totals.all_calls(), totals.all_tables())),
    }
}

/// Prints how often each row and path was reached. Gives those that never were.
fn never_reached(totals: &Totals, asked: Asked) -> Vec<String> {
    let what = "rows and paths of the second program, and how often each was reached";
    match asked {
        Asked::Nothing => Vec::new(),
        Asked::Calls => {
            println!("{what}\n{}", totals.reached);
            totals.missing()
        }
        Asked::Replays => {
            println!("{what}\n{}", totals.replays.reached);
            totals.replays.missing()
        }
        Asked::Blocks => {
            println!("{what}\n{}", totals.blocks.reached);
            totals.blocks.missing()
        }
    }
}

fn print_kept(kind: Kind, seed: u64) {
    if kind == Kind::Replays {
        println!("{}", replays::keep(seed));
    }
}

/// One line, for the script that tries mutants of the second program.
fn mutant(round: Round, limit: &str, done: impl Fn(&Totals) -> bool) -> bool {
    match Session::new(round, 1).play(done) {
        None => {
            println!("no difference in {limit}");
            true
        }
        Some(found) => {
            let what = found.text.lines().next().unwrap_or_default();
            println!("{}, in a run of kind {}, seed {}: {what}", found.place, found.kind.name(), found.seed);
            false
        }
    }
}

/// Calls say nothing of how records are read or cut, so a mutant of that is played on files alone, or on blocks.
fn mutant_of(what: Option<&String>) -> Result<bool, String> {
    match what.map(String::as_str) {
        None => {
            let limit = format!("{CALLS_FOR_A_MUTANT} calls");
            Ok(mutant(FOR_A_MUTANT, &limit, |totals| totals.all_calls() >= CALLS_FOR_A_MUTANT))
        }
        Some("replays") => {
            replays::find_program()?;
            let limit = format!("{FILES_FOR_A_MUTANT} files");
            Ok(mutant(REPLAYS, &limit, |totals| totals.replays.files >= FILES_FOR_A_MUTANT))
        }
        Some("blocks") => {
            let limit = format!("{BLOCKS_FOR_A_MUTANT} blocks");
            Ok(mutant(BLOCKS, &limit, |totals| totals.blocks.all_blocks() >= BLOCKS_FOR_A_MUTANT))
        }
        Some(other) => Err(format!("mutants are played on calls, on replays or on blocks; '{other}' isn't known")),
    }
}

fn number_or(argument: Option<&String>, usual: u64) -> Result<u64, String> {
    argument.map_or(Ok(usual), |text| text.parse().map_err(|_| format!("'{text}' is no number")))
}

fn run(arguments: &[String]) -> Result<bool, String> {
    let command = arguments.first().map_or("", String::as_str);
    let count = |usual| number_or(arguments.get(1), usual);
    let seed = || number_or(arguments.get(2), 1);
    match command {
        "short" => Ok(compare(Session::new(ALL_KINDS, 1), Asked::Calls, |totals| totals.compared() >= 1_000_000)),
        "long" => {
            let calls = count(100_000_000)?;
            Ok(compare(Session::new(ALL_KINDS, seed()?), Asked::Calls, |totals| totals.compared() >= calls))
        }
        "records" => {
            let records = count(1_000_000)?;
            Ok(compare(Session::new(RECORDS, seed()?), Asked::Nothing, |totals| totals.records.records() >= records))
        }
        "carriers" => {
            let merges = count(100_000)?;
            Ok(compare(Session::new(CARRIERS, seed()?), Asked::Nothing, |totals| totals.carriers.merges >= merges))
        }
        "replays" => {
            let files = count(2_500)?;
            replays::find_program()?;
            Ok(compare(Session::new(REPLAYS, seed()?), Asked::Replays, |totals| totals.replays.files >= files))
        }
        "blocks" => match arguments.get(1).map(String::as_str) {
            Some("--corpus") => stored::compare_files(&stored::corpus()?),
            Some("--files") => stored::compare_files(&arguments[2..].iter().map(PathBuf::from).collect::<Vec<PathBuf>>()),
            _ => {
                let blocks = count(1_000_000)?;
                Ok(compare(Session::new(BLOCKS, seed()?), Asked::Blocks, |totals| totals.blocks.all_blocks() >= blocks))
            }
        },
        "mutant" => mutant_of(arguments.get(1)),
        "run" => repeat(arguments.get(1), seed()?),
        _ => Err(USAGE.to_string()),
    }
}

fn repeat(kind: Option<&String>, seed: u64) -> Result<bool, String> {
    let kind = kind.and_then(|name| Kind::named(name)).ok_or("kinds of run: empty, wrap, states, records, carriers, replays, blocks")?;
    let result = Totals::default().run(kind, seed);
    println!("{}", result.as_ref().err().map_or("no difference", String::as_str));
    if result.is_err() {
        print_kept(kind, seed);
    }
    Ok(result.is_ok())
}

fn main() -> ExitCode {
    comparison::exit_after(run)
}
