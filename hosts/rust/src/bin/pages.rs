// Holds the reference pages, docs/calls/*.md, against the built kernel, so that neither changes without the other.
// `pages [FOLDER]` plays every example of the pages, compares prototypes, names, numbers and the order of rows with the header, the wrapper and document
// 01's tables, lines of code with the programs that they are taken from, and plays calls drawn at random to see which codes each call gives and which
// tasks' states it changes. It prints a line for each difference, with file and line, and one for each page. It fails where anything differs.
// docs/calls/README.md has the examples' notation, and says what else is compared.
#[path = "pages/check.rs"]
mod check;
#[path = "pages/document.rs"]
mod document;
#[path = "pages/kernel.rs"]
mod kernel;
#[path = "pages/links.rs"]
mod links;
#[path = "pages/notation.rs"]
mod notation;
#[path = "pages/page.rs"]
mod page;
#[path = "pages/prototypes.rs"]
mod prototypes;
#[path = "pages/questions.rs"]
mod questions;
#[path = "pages/random.rs"]
mod random;
#[path = "pages/recording.rs"]
mod recording;
#[path = "pages/replay.rs"]
mod replay;
#[path = "pages/sources.rs"]
mod sources;
#[path = "pages/states.rs"]
mod states;
#[path = "pages/table.rs"]
mod table;

use std::mem::{align_of, size_of};
use std::path::Path;
use std::process::exit;

use linguastel::{Replay, TRACE_SIZE, VERSION};

use check::{Check, CALL_LIST, CHECKS, CODE_LIST};
use document::{CALLS, E_PAR};
use kernel::{Kernel, Outcome, Seen};
use links::links_that_lead_nowhere;
use notation::{play, step_of};
use page::{read_pages, Page, Section};
use prototypes::{names_that_differ, Declared};
use random::play_at_random;
use sources::{wrapper_is_whole, Programs, HEADER};
use table::MOST_CALLS;

// The setting stands in a block of README.md.
fn setting_of(pages: &[Page], seen: &mut Seen) -> Result<Kernel, String> {
    let blocks = pages.iter().flat_map(|page| &page.sections).flat_map(|section| &section.blocks);
    let block = blocks.into_iter().find(|block| block.kind == "setting").ok_or("no page has the setting")?;
    let mut kernel = Kernel::empty();
    for line in &block.lines {
        let answer = play(&mut kernel, &step_of(&line.text)?, seen);
        if answer.map(|answer| answer.outcome) != Some(Outcome::Code(0)) {
            return Err(format!("the setting's '{}' isn't accepted", line.text));
        }
    }
    Ok(kernel)
}

// Each call has one section and so have tables of calls, traces and replays; each common table is there once.
fn wrong_sections(pages: &[Page]) -> Vec<String> {
    let (calls, common): (Vec<&Section>, Vec<&Section>) = pages.iter().flat_map(|page| &page.sections).partition(|section| section.call().is_some());
    let sections = |call: usize| calls.iter().filter(|section| section.call().is_some_and(|found| found.0 == call)).count();
    let tables = |header: &[&str]| common.iter().filter(|section| section.table(header).is_some()).count();
    let titled = |title: &str| common.iter().filter(|section| section.title == title).count();
    let wrong_calls = (0..CALLS.len()).filter(|call| sections(*call) != 1).map(|call| format!("call {call} has {} sections", sections(call)));
    let headers = [&CHECKS[..], &CODE_LIST[..], &CALL_LIST[..]];
    let wrong_tables =
        headers.iter().filter(|header| tables(header) != 1).map(|header| format!("the common table '{}' isn't there once", header.join(" | ")));
    let wrong_titles = ["table", "trace", "replay"].into_iter().filter(|title| titled(title) != 1);
    wrong_calls.chain(wrong_tables).chain(wrong_titles.map(|title| format!("the section '{title}' isn't there once"))).collect()
}

// The version and its number stand on a page, as header and wrapper have them.
fn is_version_right(pages: &[Page]) -> bool {
    let text = format!("{}.{}.{}", VERSION / 10000, VERSION / 100 % 100, VERSION % 100);
    let on_page = format!("{text}: `LINGUASTEL_VERSION` {VERSION}");
    let in_header = [format!("#define LINGUASTEL_VERSION {VERSION}\n"), format!("#define LINGUASTEL_VERSION_TEXT \"{text}\"\n")];
    pages.iter().any(|page| page.text.contains(&on_page)) && in_header.iter().all(|line| HEADER.contains(line))
}

// An unknown number gives E_PAR alone. Header and wrapper name the version, the most calls of a table, the bytes of a recorded call and those of a
// replay; all files of the wrapper are read here.
fn wrong_numbers(pages: &[Page], seen: &Seen) -> Vec<String> {
    let (size, align) = (size_of::<Replay>(), align_of::<Replay>());
    let of_replay = [format!("LINGUASTEL_REPLAY_SIZE = {size},"), format!("LINGUASTEL_REPLAY_ALIGN = {align}\n")];
    let most_calls = format!("LINGUASTEL_TABLE = {MOST_CALLS},");
    let right = [
        (seen.answers[CALLS.len()].iter().all(|sight| sight.outcome == E_PAR), "unknown numbers give another answer than E_PAR"),
        (is_version_right(pages), "no page has the version and its number, or header and wrapper have others"),
        (of_replay.iter().all(|text| HEADER.contains(text)), "the header names another size or alignment of a replay than the wrapper has"),
        (TRACE_SIZE == 32 && HEADER.contains("LINGUASTEL_TRACE_SIZE = 32,"), "header or wrapper names another number of bytes for a recorded call"),
        (linguastel::TABLE == MOST_CALLS && HEADER.contains(&most_calls), "header or wrapper names another number of calls in a table"),
        (wrapper_is_whole(), "the wrapper has other modules than those that are read here"),
    ];
    right.iter().filter(|(right, _)| !right).map(|(_, what)| what.to_string()).collect()
}

// What differs on no page in particular.
fn differences(pages: &[Page], check: &Check) -> Vec<String> {
    let numbers = wrong_numbers(pages, &check.seen);
    [wrong_sections(pages), numbers, names_that_differ(pages, &check.declared), links_that_lead_nowhere(pages)].concat()
}

fn run(folder: &str) -> Result<bool, String> {
    let pages = read_pages(folder)?;
    let mut seen = Seen::default();
    let setting = setting_of(&pages, &mut seen)?;
    // docs/calls stands two folders below the one that holds hosts.
    let programs = Programs::read(&Path::new(folder).join("../.."))?;
    let mut check = Check { declared: Declared::read(), programs, setting, seen, shown: Default::default(), examples: 0, differ: 0 };
    play_at_random(&mut check);
    println!("{} calls drawn at random", check.seen.calls);
    let played: Vec<usize> = pages.iter().map(|page| check.check_page(page)).collect();
    for (page, examples) in pages.iter().zip(played) {
        check.compare_page(page);
        println!("{}: {examples} examples", page.file);
    }
    for what in differences(&pages, &check) {
        println!("{folder}: {what}");
        check.differ += 1;
    }
    println!("pages: {} examples, {} differ", check.examples, check.differ);
    Ok(check.differ == 0)
}

fn main() {
    let folder = std::env::args().nth(1).unwrap_or("docs/calls".to_string());
    match run(&folder) {
        Ok(true) => {}
        Ok(false) => exit(1),
        Err(what) => {
            eprintln!("{what}");
            exit(1)
        }
    }
}
