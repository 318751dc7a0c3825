//! Counts instructions of the library. This program is started again under callgrind and plays what it is handed: callgrind collects from the first
//! instruction of a function of the library to its return, and writes what it collected to a file of its own at each mark.
use crate::worst_plan::{Damaged, Played};
use linguastel::*;
use std::fs;
use std::hint::black_box;
use std::io::{self, Read, Write};
use std::process::{Child, ChildStdin, ChildStdout, Command, Stdio};
use std::slice::from_ref;

/// Instructions: of the library's own code, and of memcpy, memmove and memset.
#[derive(Clone, Copy, PartialEq, Default, Debug)]
pub struct Count {
    pub own: u64,
    pub copying: u64,
}

impl Count {
    /// Of each of so many, rounded up.
    pub fn shared(self, among: u64) -> Count {
        Count { own: self.own.div_ceil(among), copying: self.copying.div_ceil(among) }
    }
}

pub struct Counter {
    child: Child,
    // None when it is to end.
    input: Option<ChildStdin>,
    output: ChildStdout,
    // callgrind's files are numbered from 1.
    files: String,
    counted: u64,
}

const FUNCTIONS: [&str; 5] = [
    "linguastel_unguarded_call",
    "linguastel_unguarded_task_sets",
    "linguastel_unguarded_table",
    "linguastel_unguarded_replay_feed",
    "linguastel_unguarded_replay_end",
];

impl Counter {
    /// callgrind's files go to this folder. The environment is empty, since what stands there moves the stack, and with it memcpy's count.
    pub fn start(folder: &str) -> Result<Counter, String> {
        let valgrind = std::env::var("VALGRIND").map_err(|_| "VALGRIND has to name valgrind")?;
        let program = std::env::current_exe().map_err(|why| why.to_string())?;
        let files = format!("{folder}/worst.out.{}", std::process::id());
        let mut command = Command::new(valgrind);
        command.env_clear().args(["--tool=callgrind", "--collect-atstart=no", "--compress-strings=no", "--compress-pos=no", "--log-file=/dev/null"]);
        command.args(FUNCTIONS.map(|function| format!("--toggle-collect={function}")));
        command
            .arg("--dump-before=worst_mark")
            .arg(format!("--callgrind-out-file={files}"))
            .arg(program)
            .arg(PLAY)
            .stdin(Stdio::piped())
            .stdout(Stdio::piped());
        let mut child = command.spawn().map_err(|why| format!("valgrind: {why}"))?;
        let input = child.stdin.take();
        let output = child.stdout.take().ok_or("no output")?;
        Ok(Counter { child, input, output, files, counted: 0 })
    }

    fn hand_over(&mut self, job: &[u8]) -> io::Result<String> {
        if let Some(input) = &mut self.input {
            input.write_all(job)?;
        }
        self.output.read_exact(&mut [0])?;
        self.counted += 1;
        let file = format!("{}.{}", self.files, self.counted);
        let text = fs::read_to_string(&file)?;
        fs::remove_file(file)?;
        Ok(text)
    }

    pub fn count(&mut self, record: &Record, played: &Played) -> Result<Count, String> {
        let text = self.hand_over(&job(record, played)).map_err(|why| format!("playing under callgrind: {why}"))?;
        read_count(&text).ok_or_else(|| "callgrind's file can't be read".into())
    }
}

impl Drop for Counter {
    // callgrind writes a last file when the program ends.
    fn drop(&mut self) {
        self.input = None;
        let _ = self.child.wait();
        let _ = fs::remove_file(&self.files);
    }
}

// ── What is handed over, and played ──

/// The word that starts this program to play.
pub const PLAY: &str = "play";

extern "C" {
    fn linguastel_unguarded_call(record: *mut u8, call: Call) -> HostAnswer;
    // Two sets of 32 bits.
    fn linguastel_unguarded_task_sets(record: *const u8) -> u64;
    fn linguastel_unguarded_table(record: *mut u8, calls: *const Call, call_count: usize, answers: *mut HostAnswer, answer_count: usize) -> i32;
    fn linguastel_unguarded_replay_feed(replay: *mut u8, block: *const u8, size: usize) -> i32;
    fn linguastel_unguarded_replay_end(replay: *const u8) -> Line;
}

// Kinds of jobs. A job is its kind, how many bytes of calls or block it has, the bytes of the record or replay, and those bytes.
const A_CALL: u64 = 0;
const A_TABLE: u64 = 1;
const SETS: u64 = 2;
const A_BLOCK: u64 = 3;
const AN_END: u64 = 4;
// Up to this one, a record is lent; from there on a replay.
const LAST_OF_RECORD: u64 = SETS;

// Of types of which every byte belongs to a field.
fn bytes_of<T>(all: &[T]) -> &[u8] {
    // SAFETY: the slice is whole, and so are its bytes.
    unsafe { std::slice::from_raw_parts(all.as_ptr().cast(), size_of_val(all)) }
}

fn job(record: &Record, played: &Played) -> Vec<u8> {
    let lent = bytes_of(from_ref(record));
    let with = |kind: u64, lent: &[u8], items: &[u8]| [&kind.to_ne_bytes(), &(items.len() as u64).to_ne_bytes(), lent, items].concat();
    match played {
        Played::One(made) | Played::Damaged(Damaged { made, .. }) => with(A_CALL, lent, bytes_of(from_ref(made))),
        Played::Table(calls) => with(A_TABLE, lent, bytes_of(calls)),
        Played::Sets => with(SETS, lent, &[]),
        Played::Block(block) => with(A_BLOCK, bytes_of(from_ref(&block.replay(record))), &block.bytes(record)),
        Played::End => with(AN_END, bytes_of(from_ref(&Replay { kernel: record.clone(), ..Replay::EMPTY })), &[]),
    }
}

// callgrind is told to write its counts, and to start from 0, before each call of this function.
#[no_mangle]
#[inline(never)]
pub extern "C" fn worst_mark() {
    black_box(());
}

// Aligned for a record, a replay and calls.
#[repr(align(16))]
struct Place<const N: usize>([u8; N]);

const LONGEST: usize = TABLE * size_of::<Call>();

fn play(kind: u64, lent: &mut Place<{ size_of::<Replay>() }>, items: &Place<LONGEST>, size: usize) {
    let (lent, calls) = (lent.0.as_mut_ptr(), items.0.as_ptr().cast::<Call>());
    let mut answers = [HostAnswer::default(); TABLE];
    // SAFETY: the record or replay is whole and aligned, and so are the calls; any bytes of them will do. The block has so many bytes. A job's lengths are
    // those of `job`, and there are as many cells as calls.
    unsafe {
        match kind {
            A_CALL => answers[0] = linguastel_unguarded_call(lent, calls.read()),
            A_TABLE => _ = linguastel_unguarded_table(lent, calls, size / size_of::<Call>(), answers.as_mut_ptr(), TABLE),
            SETS => _ = linguastel_unguarded_task_sets(lent),
            A_BLOCK => _ = linguastel_unguarded_replay_feed(lent, items.0.as_ptr(), size),
            _ => _ = linguastel_unguarded_replay_end(lent),
        }
    }
    let _ = black_box(answers);
}

/// Plays the jobs on the standard input, and writes a byte after each. They stand at the same places in every run, so that what is counted is the same.
pub fn play_all() -> io::Result<()> {
    let (mut lent, mut items) = (Place([0; size_of::<Replay>()]), Place([0; LONGEST]));
    let (mut input, mut output, mut number) = (io::stdin().lock(), io::stdout().lock(), [0; size_of::<u64>()]);
    while input.read_exact(&mut number).is_ok() {
        let kind = u64::from_ne_bytes(number);
        input.read_exact(&mut number)?;
        let size = u64::from_ne_bytes(number) as usize;
        let whole = if kind <= LAST_OF_RECORD { size_of::<Record>() } else { size_of::<Replay>() };
        input.read_exact(&mut lent.0[..whole])?;
        input.read_exact(&mut items.0[..size])?;
        play(kind, &mut lent, &items, size);
        worst_mark();
        output.write_all(b".")?;
        output.flush()?;
    }
    Ok(())
}

// ── callgrind's file ──

// A line `fn=` names a function, and the lines of numbers behind it are its own instructions, but for one behind each line `calls=`.
fn read_count(text: &str) -> Option<Count> {
    let mut count = Count::default();
    let (mut copies, mut called) = (false, false);
    for line in text.lines() {
        if let Some(function) = line.strip_prefix("fn=") {
            copies = function.contains("memcpy") || function.contains("memmove") || function.contains("memset");
        } else if line.starts_with("calls=") {
            called = true;
        } else if line.starts_with(|first: char| first.is_ascii_digit()) && !std::mem::take(&mut called) {
            let instructions: u64 = line.split(' ').nth(1)?.parse().ok()?;
            *(if copies { &mut count.copying } else { &mut count.own }) += instructions;
        }
    }
    (count.own > 0).then_some(count)
}
