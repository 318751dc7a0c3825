//! Tables of calls, for bench/figures. Every cycle that can stand in a table is repeated as often as a table has room. The same calls are played as a
//! table by `linguastel_unguarded_table`, singly by `linguastel_unguarded_call`, and singly by the kernel in Rust with its test on every call; all three write their
//! answers into a table of cells.
use crate::cycles::{situations, Cycle, Expectation, Situation};
use crate::programs::{Library, OnRecord, Rust};
use crate::{figures_mark, CALLS, RUNS};
use linguastel::number::TICK;
use linguastel::{Call, HostAnswer, Record, E_OK, TABLE};
use std::hint::black_box;
use std::time::Instant;

// ── The three ways ──

trait Way {
    const PROGRAM: &'static str;
    // Gives the table's code.
    fn play(record: &mut Record, calls: &[Call], answers: &mut [HostAnswer]) -> i32;
}

struct InTables;

impl Way for InTables {
    const PROGRAM: &'static str = "table";

    #[inline(always)]
    fn play(record: &mut Record, calls: &[Call], answers: &mut [HostAnswer]) -> i32 {
        record.table(calls, answers)
    }
}

impl<K: OnRecord> Way for K {
    const PROGRAM: &'static str = K::NAME;

    #[inline(always)]
    fn play(record: &mut Record, calls: &[Call], answers: &mut [HostAnswer]) -> i32 {
        for (call, answer) in calls.iter().zip(answers) {
            *answer = K::call(record, *call);
        }
        E_OK
    }
}

// ── Rows ──

struct Row {
    record: &'static str,
    name: String,
    start: Record,
    calls: Vec<Expectation>,
    // The most calls of one table.
    length: usize,
}

// In a table number 0 is no tick, and between two of its calls the host can't take a task away.
fn fits(cycle: &Cycle) -> bool {
    cycle.undefined == 0 && cycle.calls.iter().all(|(call, _)| call.number != TICK)
}

fn row(situation: &Situation, cycle: &Cycle, name: String, length: usize) -> Row {
    let mut start = Record { counter: situation.counter, ..Record::empty() };
    for call in situation.calls.iter().chain(&cycle.before) {
        let _ = start.call(*call);
    }
    Row { record: situation.name, name, start, calls: cycle.calls.repeat(TABLE / cycle.calls.len()), length }
}

/// The same as `figures rows` prints, with as many calls as the table has.
pub fn rows() {
    for situation in situations() {
        for (place, cycle) in situation.cycles.iter().enumerate().filter(|(_, cycle)| fits(cycle)) {
            println!("{}\t{place}\t{}\t{}", situation.name, TABLE / cycle.calls.len() * cycle.calls.len(), cycle.name);
        }
    }
}

fn whole_tables(situation: &Situation) -> Vec<Row> {
    let cycles = situation.cycles.iter().filter(|cycle| fits(cycle));
    cycles.map(|cycle| row(situation, cycle, cycle.name.into(), TABLE)).collect()
}

// Two calls, which are cut into shorter tables too, on a typical record and a full one. A table of one call has the first or the second in turn.
const CUT: &str = "psnd, prcv: the word is stored";
const LENGTHS: [usize; 7] = [1, 2, 4, 8, 16, 32, TABLE];

fn shorter_tables(situation: &Situation) -> Vec<Row> {
    let cycle = situation.cycles.iter().find(|cycle| cycle.name == CUT && situation.name != "small");
    let rows = cycle.map(|cycle| LENGTHS.map(|length| row(situation, cycle, format!("tables of {length}"), length)));
    rows.into_iter().flatten().collect()
}

// ── Playing ──

// A row that is played in one of the ways, at the start or after some rounds.
struct Ready {
    record: Record,
    calls: Vec<Call>,
    answers: Vec<HostAnswer>,
    length: usize,
}

// What a cell holds before its call is answered; no call gives it.
const NO_ANSWER: HostAnswer = HostAnswer { kind: 2, code: 0, place: 0, a: 0, b: 0, c: 0 };

fn ready(row: &Row) -> Ready {
    let calls: Vec<Call> = row.calls.iter().map(|(call, _)| *call).collect();
    Ready { record: row.start.clone(), answers: vec![NO_ANSWER; calls.len()], calls, length: row.length }
}

#[inline(never)]
fn rounds<W: Way>(ready: &mut Ready, count: u64) -> bool {
    let mut accepted = true;
    for _ in 0..count {
        for (calls, answers) in ready.calls.chunks(ready.length).zip(ready.answers.chunks_mut(ready.length)) {
            accepted &= W::play(black_box(&mut ready.record), black_box(calls), black_box(answers)) == E_OK;
        }
    }
    accepted
}

/// A cycle as tables, so and so often. None where it can't stand in a table.
pub fn play(situation: &Situation, cycle: &Cycle, count: u64) -> Option<()> {
    let fits = fits(cycle) && rounds::<InTables>(&mut ready(&row(situation, cycle, cycle.name.into(), TABLE)), count);
    fits.then_some(())
}

// ── Checking ──

// One more round, with the answers of the round before wiped out. False where a table is refused.
fn another<W: Way>(ready: &mut Ready) -> bool {
    ready.answers.fill(NO_ANSWER);
    rounds::<W>(ready, 1)
}

// In each of 64 rounds the table's answers are the expected ones and those of the single calls and of the Rust kernel, and so is the record. Every byte
// of an answer or a record belongs to a field, so `==` compares all of them.
fn check(row: &Row) -> Result<(), String> {
    let (mut tables, mut singly, mut rust) = (ready(row), ready(row), ready(row));
    let fault = |what: &str| Err(format!("{}, {}, as a table: {what}", row.record, row.name));
    for _ in 0..64 {
        if !(another::<InTables>(&mut tables) && another::<Library>(&mut singly) && another::<Rust>(&mut rust)) {
            return fault("it is refused");
        }
        for (place, (call, expected)) in row.calls.iter().enumerate() {
            let [answer, single, other] = [&tables, &singly, &rust].map(|ready| ready.answers[place]);
            if !expected.is(answer) || answer != single || answer != other {
                return fault(&format!("place {place}, {call:?}: {answer:?}, singly {single:?}, in Rust {other:?}"));
            }
        }
        if tables.record != singly.record || tables.record != rust.record {
            return fault("the record isn't that of the single calls, or of the Rust kernel");
        }
    }
    Ok(())
}

pub fn check_all() -> Result<(), String> {
    for situation in situations() {
        whole_tables(&situation).iter().chain(&shorter_tables(&situation)).try_for_each(check)?;
    }
    Ok(())
}

// ── Times ──

fn nanoseconds<W: Way>(ready: &mut Ready) -> f64 {
    let count = CALLS / ready.calls.len() as u64;
    let start = Instant::now();
    rounds::<W>(ready, count);
    start.elapsed().as_nanos() as f64 / (count * ready.calls.len() as u64) as f64
}

fn print_time(row: &Row, program: &str, nanoseconds: f64) {
    println!("{}\t{}\t{}\t{program}\t{nanoseconds:.2}", row.record, row.name, row.calls.len());
}

// The shortest of the runs, for each way.
fn times(row: &Row) {
    let (mut tables, mut singly, mut rust) = (ready(row), ready(row), ready(row));
    let mut best = [f64::INFINITY; 3];
    for _ in 0..RUNS {
        best[0] = best[0].min(nanoseconds::<InTables>(&mut tables));
        best[1] = best[1].min(nanoseconds::<Library>(&mut singly));
        best[2] = best[2].min(nanoseconds::<Rust>(&mut rust));
    }
    for (program, best) in [InTables::PROGRAM, Library::PROGRAM, Rust::PROGRAM].iter().zip(best) {
        print_time(row, program, best);
    }
}

// The lengths take turns.
fn times_by_length(rows: &[Row]) {
    let mut all: Vec<(Ready, f64)> = rows.iter().map(|row| (ready(row), f64::INFINITY)).collect();
    for _ in 0..RUNS {
        for (ready, best) in &mut all {
            *best = best.min(nanoseconds::<InTables>(ready));
        }
    }
    for (row, (_, best)) in rows.iter().zip(all) {
        print_time(row, InTables::PROGRAM, best);
    }
}

pub fn all_times() {
    for situation in situations() {
        whole_tables(&situation).iter().for_each(times);
        times_by_length(&shorter_tables(&situation));
    }
}

// ── Instructions ──

// Rounds of up to 64 calls each, so fewer than for single calls.
const FEWER: u64 = 4;
const MORE: u64 = 12;

// As `marked` of figures.rs.
fn marked<W: Way>(row: &Row) {
    let mut ready = ready(row);
    rounds::<W>(&mut ready, FEWER);
    for count in [FEWER, MORE] {
        println!("{}\t{}\t{}\t{}\t{count}", row.record, row.name, row.calls.len(), W::PROGRAM);
        figures_mark();
        rounds::<W>(&mut ready, count);
        figures_mark();
    }
}

pub fn all_marked() {
    for situation in situations() {
        for row in whole_tables(&situation) {
            marked::<InTables>(&row);
            marked::<Library>(&row);
            marked::<Rust>(&row);
        }
        shorter_tables(&situation).iter().for_each(marked::<InTables>);
    }
}
