//! What bench/worst runs: the most instructions of each call, of a table of 64 calls and of a block of a recording, on the states of bench/worst.txt, or on
//! states that it searches. callgrind counts them: those of the library's own code, since what memcpy and memset take depends on the machine's libc.
//! It fails where a row takes more than bench/footprint.txt states.
//!
//! A state is planned, and reached from the empty record by the calls that the plan comes to. A line of bench/worst.txt has a row's name and its plan: the
//! 32 tasks, the 16 data queues, the 16 mailboxes, and what is played. `x*3` is x three times.
//!
//! A task is `-` where it isn't defined, `.` where it is able, `R`, `T` or `D` where it is able after a wait that ended with E_RLWAI, E_TMOUT or E_DLT, and
//! `s1`, `r1` or `m1` where it waits to send to data queue 1, to receive from it or at mailbox 1; with `n` behind it the next tick ends the wait, with `f`
//! a later one; with `S` it is suspended. All have one priority, and they start to wait in the order 32 to 1. A data queue is its attribute, capacity and
//! stored words, a mailbox its attribute and messages, which all have one priority. A call is its caller, its name and, in this order, object, value,
//! tmout and attribute. A line whose name begins with @ names a state, for the lines behind it.
#[allow(dead_code)]
mod cycles;
#[allow(dead_code)]
mod footprint;
mod worst_count;
mod worst_plan;

use footprint::{row_of, stated, INSTRUCTIONS};
use linguastel::CALL_NAMES;
use std::process::exit;
use worst_count::*;
use worst_plan::*;

struct Row {
    // As in bench/footprint.txt.
    name: String,
    plan: Plan,
    count: Count,
}

// Of a table, what each of its calls takes. A damaged record that is still sound counts nothing.
fn counted(counter: &mut Counter, plan: &Plan) -> Result<Count, String> {
    let record = plan.record();
    if matches!(plan.played, Played::Damaged(_)) && record.is_sound() {
        return Ok(Count::default());
    }
    let count = counter.count(&record, &plan.played)?;
    Ok(match &plan.played {
        Played::Table(calls) => count.shared(calls.len() as u64),
        _ => count,
    })
}

fn stored_rows(text: &str, counter: &mut Counter) -> Result<Vec<Row>, String> {
    let (mut rows, mut states) = (Vec::new(), Vec::new());
    for line in text.lines().filter(|line| !line.starts_with('#')) {
        let (name, plan) = line.split_once(": ").ok_or_else(|| format!("'{line}' has no plan"))?;
        if name.starts_with('@') {
            states.push((name, plan));
            continue;
        }
        let plan = states.iter().fold(plan.to_string(), |plan, (name, state)| plan.replace(&format!("{name} "), &format!("{state} ")));
        let name = if CALL_NAMES.contains(&name) { row_of(name) } else { name.into() };
        let plan: Plan = plan.parse()?;
        if !plan.is_reached(&plan.record()) {
            return Err(format!("{name}: the record is not as planned"));
        }
        let count = counted(counter, &plan)?;
        rows.push(Row { name, plan, count });
    }
    Ok(rows)
}

fn compare(rows: &[Row]) -> Result<(), String> {
    let mut faults = Vec::new();
    for Row { name, count, .. } in rows {
        let stated = stated(name, INSTRUCTIONS)?;
        println!("{name}: {} instructions, {stated} stated; {} more in memcpy and memset", count.own, count.copying);
        if count.own > stated {
            faults.push(format!("{name}: above what bench/footprint.txt states"));
        }
    }
    if faults.is_empty() {
        Ok(())
    } else {
        Err(faults.join("\n"))
    }
}

// ── The search ──

// At its start a search goes on from a state that takes less by a hundredth than the one before it, at its end from none that takes less.
const SLACK: u64 = 100;

// What takes most of all states that were met on the way.
fn climbed(counter: &mut Counter, random: &mut Random, plan: &Plan, steps: u64) -> Result<(Plan, u64), String> {
    let (mut here, mut top) = (plan.clone(), plan.clone());
    let mut count = counted(counter, &here)?.own;
    let mut most = count;
    for step in 0..steps {
        let next = here.changed(random);
        let other = counted(counter, &next)?.own;
        let slack = count * (steps - step) / steps / SLACK;
        if other + slack >= count {
            (here, count) = (next, other);
        }
        if count > most {
            (top, most) = (here.clone(), count);
        }
    }
    Ok((top, most))
}

// The plan with as many neighbours made equal as cost no instruction, so that its text is short.
fn simplified(counter: &mut Counter, mut plan: Plan, most: u64) -> Result<Plan, String> {
    for at in 0..plan.parts() {
        for simpler in plan.simpler(at) {
            if counted(counter, &simpler)?.own >= most {
                plan = simpler;
                break;
            }
        }
    }
    Ok(plan)
}

// What a row's search may start from: its own state, those of the other rows with what this row plays, and random ones.
fn starts(rows: &[Row], row: &Row, random: &mut Random) -> Vec<Plan> {
    const EACH: usize = 8;
    const RANDOM: usize = 16;
    let mut plans = vec![row.plan.clone()];
    for other in rows {
        plans.extend((0..EACH).map(|_| Plan { played: row.plan.played.varied(random), ..other.plan.clone() }));
    }
    plans.extend((0..RANDOM).map(|_| {
        let played = row.plan.played.varied(random);
        Plan::random(random, played)
    }));
    plans
}

fn best_start(rows: &[Row], row: &Row, counter: &mut Counter, random: &mut Random) -> Result<Plan, String> {
    let (mut best, mut most) = (row.plan.clone(), 0);
    for plan in starts(rows, row, random) {
        let own = counted(counter, &plan)?.own;
        if own > most {
            (best, most) = (plan, own);
        }
    }
    Ok(best)
}

// Prints what was found where it takes more than the stored state.
fn search(rows: &[Row], counter: &mut Counter, random: &mut Random, steps: u64) -> Result<(), String> {
    for row in rows {
        let start = best_start(rows, row, counter, random)?;
        let (plan, most) = climbed(counter, random, &start, steps)?;
        println!("{}: {most} instructions found, {} stored", row.name, row.count.own);
        if most > row.count.own {
            println!("{}: {}", row.name, simplified(counter, plan, most)?);
        }
    }
    Ok(())
}

const USAGE: &str = "worst STORED FOLDER, or worst STORED FOLDER search STEPS SEED";

fn run(words: &[&str]) -> Result<(), String> {
    let [stored, folder, ref rest @ ..] = *words else {
        return if *words == [PLAY] { play_all().map_err(|why| why.to_string()) } else { Err(USAGE.into()) };
    };
    let mut counter = Counter::start(folder)?;
    let text = std::fs::read_to_string(stored).map_err(|why| format!("{stored}: {why}"))?;
    let rows = stored_rows(&text, &mut counter)?;
    match *rest {
        [] => compare(&rows),
        ["search", steps, seed] => {
            let number = |word: &str| word.parse().map_err(|_| format!("{word} is no number"));
            search(&rows, &mut counter, &mut Random::new(number(seed)?), number(steps)?)
        }
        _ => Err(USAGE.into()),
    }
}

fn main() {
    let words: Vec<String> = std::env::args().skip(1).collect();
    let words: Vec<&str> = words.iter().map(String::as_str).collect();
    if let Err(what) = run(&words) {
        eprintln!("{what}");
        exit(1);
    }
}
