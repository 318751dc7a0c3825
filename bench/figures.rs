//! What bench/figures runs. `figures same CALLS SEED` plays random calls on the proved library and the baseline and compares; `figures check` plays
//! every cycle on every program, and as tables, and compares the answers with those expected; `figures times` prints nanoseconds; `figures marked` is
//! run under callgrind, which counts the instructions between its marks; `figures rows` lists the cycles and `figures cycle RECORD ROW PROGRAM ROUNDS`
//! plays one of them; `table` before `times`, `marked` and `rows` is the same for tables of calls. `figures growth CALLS` plays as many calls on the
//! typical record and prints nanoseconds for a call and the memory used. What is printed for bench/figures has tabs between its fields. For bench/enter
//! `figures laps RECORD ROW HOW ROUNDS` writes a cycle as the input of the program laps, and `figures sum RECORD ROW ROUNDS` prints the checksum that
//! this program is to give.
mod cycles;
mod programs;
mod same;
mod tables;

use cycles::{situations, Cycle, Situation};
use linguastel::{Answer, Call, HostAnswer};
use programs::{Baseline, Entry, Program, Untested};
use std::hint::black_box;
use std::io::Write;
use std::process::exit;
use std::time::Instant;

// ── Playing ──

// A program brought to where a cycle starts, with the cycle's calls in its own form.
struct Ready<P: Program> {
    program: P,
    calls: Vec<P::Call>,
    undefined: usize,
}

fn ready<P: Program>(situation: &Situation, cycle: &Cycle) -> Ready<P> {
    let mut program = P::empty(situation.counter);
    for call in situation.calls.iter().chain(&cycle.before) {
        let _ = program.play(&P::call_of(call));
    }
    Ready { program, calls: cycle.calls.iter().map(|(call, _)| P::call_of(call)).collect(), undefined: cycle.undefined }
}

#[inline(never)]
fn rounds<P: Program>(ready: &mut Ready<P>, count: u64) {
    for _ in 0..count {
        if ready.undefined != 0 {
            ready.program.undefine(ready.undefined);
        }
        for call in &ready.calls {
            let _ = black_box(ready.program.play(black_box(call)));
        }
    }
}

#[inline(never)]
fn tests<P: Program>(ready: &Ready<P>, count: u64) {
    for _ in 0..count {
        black_box(black_box(&ready.program).sound());
    }
}

// ── Checking ──

// Every call that makes a record is accepted, and every round of a cycle gives the same codes and places. 64 rounds turn every ring four times.
fn check<P: Program>(situation: &Situation, cycle: &Cycle) -> Result<(), String> {
    let mut program = P::empty(situation.counter);
    for call in situation.calls.iter().chain(&cycle.before) {
        let answer = program.play(&P::call_of(call));
        if matches!(answer.read(), Answer::Error(_)) {
            return Err(format!("{}, {}: {} refuses {call:?}: {answer:?}", situation.name, cycle.name, P::NAME));
        }
    }
    for _ in 0..64 {
        if cycle.undefined != 0 {
            program.undefine(cycle.undefined);
        }
        for (call, expected) in &cycle.calls {
            let answer = program.play(&P::call_of(call));
            if !expected.is(answer) {
                return Err(format!("{}, {}: {} answers {call:?}: {answer:?}", situation.name, cycle.name, P::NAME));
            }
        }
    }
    Ok(())
}

fn check_all() -> Result<(), String> {
    for situation in situations() {
        for cycle in &situation.cycles {
            check::<Entry>(&situation, cycle)?;
            check::<Baseline>(&situation, cycle)?;
            check::<Untested>(&situation, cycle)?;
            #[cfg(second)]
            check::<programs::Second>(&situation, cycle)?;
        }
    }
    tables::check_all()
}

fn same(calls: u64, seed: u64) -> Result<(), String> {
    let counts = same::play(calls, seed)?;
    let least = counts.accepted.iter().min().expect("24 counts");
    println!("{} random calls on the library and the baseline: 0 differences in answers and records", counts.calls);
    println!(
        "({} refused; each of the 24 calls accepted {least} times or more; {} damaged records tested, {} of them not sound)",
        counts.refused, counts.damaged, counts.unsound
    );
    Ok(())
}

// ── Times ──

fn nanoseconds<P: Program>(ready: &mut Ready<P>, count: u64) -> f64 {
    let start = Instant::now();
    rounds(ready, count);
    start.elapsed().as_nanos() as f64 / (count * ready.calls.len() as u64) as f64
}

fn test_nanoseconds<P: Program>(ready: &Ready<P>, count: u64) -> f64 {
    let start = Instant::now();
    tests(ready, count);
    start.elapsed().as_nanos() as f64 / count as f64
}

// Calls of one measured run, and how many runs each program has, in turn.
const CALLS: u64 = 4000;
const RUNS: usize = 25;

// The shortest of the runs, for each program.
fn times(situation: &Situation, cycle: &Cycle) {
    let mut entry = ready::<Entry>(situation, cycle);
    let mut baseline = ready::<Baseline>(situation, cycle);
    let mut untested = ready::<Untested>(situation, cycle);
    #[cfg(second)]
    let mut second = ready::<programs::Second>(situation, cycle);
    let count = CALLS / cycle.calls.len() as u64;
    let mut best = [f64::INFINITY; 4];
    for _ in 0..RUNS {
        best[0] = best[0].min(nanoseconds(&mut entry, count));
        best[1] = best[1].min(nanoseconds(&mut baseline, count));
        best[2] = best[2].min(nanoseconds(&mut untested, count));
        #[cfg(second)]
        {
            best[3] = best[3].min(nanoseconds(&mut second, count));
        }
    }
    print_times(situation.name, cycle.name, cycle.calls.len(), &best);
}

fn print_times(record: &str, row: &str, calls: usize, best: &[f64; 4]) {
    for (program, nanoseconds) in ["entry", "baseline", "untested", "second"].iter().zip(best) {
        if nanoseconds.is_finite() {
            println!("{record}\t{row}\t{calls}\t{program}\t{nanoseconds:.2}");
        }
    }
}

// The test of the record alone.
const TEST: &str = "the test alone";

fn test_times(situation: &Situation) {
    let entry = ready::<Entry>(situation, &situation.cycles[0]);
    let baseline = ready::<Baseline>(situation, &situation.cycles[0]);
    let mut best = [f64::INFINITY; 4];
    for _ in 0..RUNS {
        best[0] = best[0].min(test_nanoseconds(&entry, CALLS));
        best[1] = best[1].min(test_nanoseconds(&baseline, CALLS));
    }
    print_times(situation.name, TEST, 1, &best);
}

fn all_times() {
    for situation in situations() {
        for cycle in &situation.cycles {
            times(&situation, cycle);
        }
        test_times(&situation);
    }
}

// ── Instructions ──

// callgrind is told to write its counts, and to start from 0, before each call of this function.
#[no_mangle]
#[inline(never)]
pub extern "C" fn figures_mark() {
    black_box(());
}

const FEWER: u64 = 16;
const MORE: u64 = 48;

// Prints a line for each of the two counts that callgrind is to write: what was counted, how many calls, and the rounds.
fn marked<P: Program>(situation: &Situation, cycle: &Cycle) {
    let mut ready = ready::<P>(situation, cycle);
    rounds(&mut ready, FEWER);
    for count in [FEWER, MORE] {
        println!("{}\t{}\t{}\t{}\t{count}", situation.name, cycle.name, cycle.calls.len(), P::NAME);
        figures_mark();
        rounds(&mut ready, count);
        figures_mark();
    }
}

fn marked_tests<P: Program>(situation: &Situation) {
    let ready = ready::<P>(situation, &situation.cycles[0]);
    for count in [FEWER, MORE] {
        println!("{}\t{TEST}\t1\t{}\t{count}", situation.name, P::NAME);
        figures_mark();
        tests(&ready, count);
        figures_mark();
    }
}

fn all_marked() {
    for situation in situations() {
        for cycle in &situation.cycles {
            marked::<Entry>(&situation, cycle);
            marked::<Baseline>(&situation, cycle);
            marked::<Untested>(&situation, cycle);
            #[cfg(second)]
            marked::<programs::Second>(&situation, cycle);
        }
        marked_tests::<Entry>(&situation);
        marked_tests::<Baseline>(&situation);
    }
}

// ── One cycle, and growth ──

fn rows() {
    for situation in situations() {
        for (place, cycle) in situation.cycles.iter().enumerate() {
            println!("{}\t{place}\t{}\t{}", situation.name, cycle.calls.len(), cycle.name);
        }
    }
}

// ROW is the row's place in the table, from 0, or `all` for every row. The program `table` plays the cycle as tables of calls, where it can stand in one.
fn one_cycle(record: &str, row: &str, program: &str, count: u64) -> Option<()> {
    let situations = situations();
    let situation = situations.iter().find(|situation| situation.name == record)?;
    let row: Option<usize> = if row == "all" { None } else { Some(row.parse().ok()?) };
    for (place, cycle) in situation.cycles.iter().enumerate() {
        if row.is_some_and(|row| row != place) {
            continue;
        }
        match program {
            "entry" => rounds(&mut ready::<Entry>(situation, cycle), count),
            "baseline" => rounds(&mut ready::<Baseline>(situation, cycle), count),
            "untested" => rounds(&mut ready::<Untested>(situation, cycle), count),
            "table" => tables::play(situation, cycle, count)?,
            _ => return None,
        }
    }
    Some(())
}

// The largest memory of this process so far, in kilobytes.
fn memory() -> Option<String> {
    let status = std::fs::read_to_string("/proc/self/status").ok()?;
    let line = status.lines().find(|line| line.starts_with("VmHWM:"))?;
    Some(line.split_whitespace().nth(1)?.to_string())
}

// Calls that are timed together.
const PART: u64 = 1000;

// Plays all cycles once or more, for at least a part, and returns how many calls that were.
fn part<P: Program>(all: &mut [Ready<P>]) -> u64 {
    let mut played = 0;
    while played < PART {
        for ready in all.iter_mut() {
            rounds(ready, 1);
            played += ready.calls.len() as u64;
        }
    }
    played
}

// All cycles of the typical record in turn, on records that live as long as the run: nanoseconds for a call, the mean of the run and the shortest
// part of its last tenth.
fn growth_of<P: Program>(calls: u64) -> (f64, f64) {
    let situation = &situations()[1];
    let mut all: Vec<Ready<P>> = situation.cycles.iter().map(|cycle| ready(situation, cycle)).collect();
    let (mut played, mut sum, mut shortest) = (0, 0.0, f64::INFINITY);
    while played < calls {
        let start = Instant::now();
        let more = part(&mut all);
        let taken = start.elapsed().as_nanos() as f64;
        played += more;
        sum += taken;
        if played >= calls / 10 * 9 {
            shortest = shortest.min(taken / more as f64);
        }
    }
    (sum / played as f64, shortest)
}

fn growth(calls: u64) -> Option<()> {
    let (entry, entry_last) = growth_of::<Entry>(calls);
    let (baseline, baseline_last) = growth_of::<Baseline>(calls);
    println!("{calls}\t{entry}\t{entry_last}\t{baseline}\t{baseline_last}\t{}", memory()?);
    Some(())
}

// ── The same cycles for the program laps (crates/laps) ──

// Numbers of records that are no calls.
const MARK: u8 = 255;
const UNDEFINE: u8 = 254;

fn found<'a>(situations: &'a [Situation], record: &str, row: &str) -> Option<(&'a Situation, &'a Cycle)> {
    let situation = situations.iter().find(|situation| situation.name == record)?;
    Some((situation, situation.cycles.get(row.parse::<usize>().ok()?)?))
}

// A record of 32 bytes (document 02, item 3), with nothing in the half that holds the answer.
fn bytes_of(call: &Call) -> [u8; 32] {
    let mut bytes = [0; 32];
    bytes[..4].copy_from_slice(&[call.number as u8, call.caller as u8, (call.locked | call.disabled << 1) as u8, call.object as u8]);
    bytes[4..8].copy_from_slice(&call.value.to_le_bytes());
    bytes[8..12].copy_from_slice(&call.tmout.to_le_bytes());
    bytes[12..16].copy_from_slice(&call.attribute.to_le_bytes());
    bytes
}

// A record that is no call: a number, the object, and the word of bytes 4 to 7.
fn bare(number: u8, object: u8, word: u32) -> [u8; 32] {
    let mut bytes = [0; 32];
    (bytes[0], bytes[3]) = (number, object);
    bytes[4..8].copy_from_slice(&word.to_le_bytes());
    bytes
}

fn laps(record: &str, row: &str, how: u8, count: u64) -> Option<()> {
    let situations = situations();
    let (situation, cycle) = found(&situations, record, row)?;
    let mut input = vec![bare(how, 0, situation.counter)];
    input.extend(situation.calls.iter().chain(&cycle.before).map(bytes_of));
    input.push(bare(MARK, 0, 0));
    for _ in 0..count {
        if cycle.undefined != 0 {
            input.push(bare(UNDEFINE, cycle.undefined as u8, 0));
        }
        input.extend(cycle.calls.iter().map(|(call, _)| bytes_of(call)));
    }
    std::io::stdout().write_all(&input.concat()).ok()
}

// What stands for an answer where the host takes a task away.
const NO_WORDS: HostAnswer = HostAnswer { kind: 0, code: 0, place: 0, a: 0, b: 0, c: 0 };

// As `with_answer` of crates/laps.
fn with_answer(sum: u32, answer: HostAnswer) -> u32 {
    let first = if answer.kind == 0 { answer.code.unsigned_abs() } else { answer.place ^ 65536 };
    [first, answer.a, answer.b, answer.c].iter().fold(sum, |sum, word| sum.rotate_left(5) ^ word)
}

fn sum(record: &str, row: &str, count: u64) -> Option<()> {
    let situations = situations();
    let (situation, cycle) = found(&situations, record, row)?;
    let Ready { mut program, calls, undefined } = ready::<Baseline>(situation, cycle);
    let mut sum = 1;
    for _ in 0..count {
        if undefined != 0 {
            program.undefine(undefined);
            sum = with_answer(sum, NO_WORDS);
        }
        for call in &calls {
            sum = with_answer(sum, program.play(call));
        }
    }
    println!("{sum}");
    Some(())
}

// ── The commands ──

fn run(words: &[&str]) -> Option<Result<(), String>> {
    match *words {
        ["same", calls, seed] => return Some(same(calls.parse().ok()?, seed.parse().ok()?)),
        ["check"] => return Some(check_all()),
        ["times"] => all_times(),
        ["marked"] => all_marked(),
        ["rows"] => rows(),
        ["table", "times"] => tables::all_times(),
        ["table", "marked"] => tables::all_marked(),
        ["table", "rows"] => tables::rows(),
        ["cycle", record, row, program, count] => one_cycle(record, row, program, count.parse().ok()?)?,
        ["laps", record, row, how, count] => laps(record, row, how.parse().ok()?, count.parse().ok()?)?,
        ["sum", record, row, count] => sum(record, row, count.parse().ok()?)?,
        ["growth", calls] => growth(calls.parse().ok()?)?,
        _ => return None,
    }
    Some(Ok(()))
}

fn main() {
    let words: Vec<String> = std::env::args().skip(1).collect();
    let words: Vec<&str> = words.iter().map(String::as_str).collect();
    match run(&words) {
        Some(Ok(())) => {}
        Some(Err(what)) => {
            eprintln!("{what}");
            exit(1);
        }
        None => {
            eprintln!("figures same CALLS SEED, check, times, marked, rows, cycle RECORD ROW PROGRAM ROUNDS, growth CALLS,");
            eprintln!("table times, table marked, table rows, laps RECORD ROW HOW ROUNDS, or sum RECORD ROW ROUNDS");
            exit(2);
        }
    }
}
