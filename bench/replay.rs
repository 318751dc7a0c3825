//! What bench/replay runs. `replay trace MIX SEED FILE SIZE...` writes a trace of as many records as the last size and prints what it has up to each
//! size; `replay play tested` and `replay play untested` replay standard input on the Rust kernel, with its test of the record before each call and
//! without it, and print the line of document 02, item 3; `replay play blocks LENGTH` feeds standard input to the library's replay in blocks of so many
//! bytes and prints the same line; `replay times COUNT FILE` plays a file with every program in turn, as often as COUNT says, and prints the median times
//! of each in nanoseconds. What is printed for bench/replay has tabs between its fields.
mod traces;

use linguastel::number::FETCH;
use linguastel::{Call, HostAnswer, Record, NO_CODE};
use std::fs::File;
use std::io::{self, BufWriter, Read};
use std::process::{exit, Command, Stdio};
use std::time::Instant;

// ── The replay in ordinary Rust ──

const RECORD_BYTES: usize = 32;

// Bytes that are read at once, as many as the proved program reads.
const BLOCK: usize = 65536;

fn word(bytes: &[u8; RECORD_BYTES], at: usize) -> u32 {
    u32::from_le_bytes([bytes[at], bytes[at + 1], bytes[at + 2], bytes[at + 3]])
}

// The call and the recorded answer, if the record is to be run.
#[inline(always)]
fn decode(bytes: &[u8; RECORD_BYTES]) -> Option<(Call, HostAnswer)> {
    let [number, caller, flags, object] = [bytes[0], bytes[1], bytes[2], bytes[3]].map(u32::from);
    let kind = u32::from(bytes[16]);
    if number > FETCH || flags > 3 || kind > 1 || bytes[17..20] != [0; 3] || bytes[31] != 0 {
        return None;
    }
    let (value, tmout, attribute) = (word(bytes, 4), word(bytes, 8) as i32, word(bytes, 12));
    let call = Call { number, caller, locked: flags & 1, disabled: flags & 2, object, value, tmout, attribute };
    let outcome = word(bytes, 20);
    let (code, place) = if kind == 0 { (outcome as i32, 0) } else { (NO_CODE, outcome) };
    let (a, b, c) = (word(bytes, 24), bytes[28].into(), u16::from_le_bytes([bytes[29], bytes[30]]).into());
    Some((call, HostAnswer { kind, code, place, a, b, c }))
}

struct Replay {
    record: Record,
    records: u64,
    differ: u64,
    first: u64,
}

impl Replay {
    #[inline(always)]
    fn take(&mut self, bytes: &[u8; RECORD_BYTES], kernel: impl Fn(&mut Record, Call) -> HostAnswer) {
        self.records += 1;
        let same = match decode(bytes) {
            Some((call, recorded)) => kernel(&mut self.record, call) == recorded,
            None => false,
        };
        if !same {
            self.differ += 1;
            if self.first == 0 {
                self.first = self.records;
            }
        }
    }
}

fn play(kernel: impl Fn(&mut Record, Call) -> HostAnswer) -> io::Result<()> {
    let mut replay = Replay { record: Record::empty(), records: 0, differ: 0, first: 0 };
    let mut input = io::stdin().lock();
    let mut block = vec![0; BLOCK];
    // Bytes of a part record, at the start of the block.
    let mut part = 0;
    loop {
        let got = input.read(&mut block[part..])?;
        if got == 0 {
            break;
        }
        let have = part + got;
        for bytes in block[..have].chunks_exact(RECORD_BYTES) {
            replay.take(bytes.try_into().expect("a chunk has 32 bytes"), &kernel);
        }
        part = have % RECORD_BYTES;
        block.copy_within(have - part..have, 0);
    }
    println!("records {} differ {} first {} tail {part}", replay.records, replay.differ, replay.first);
    Ok(())
}

// ── The library's replay ──

// All of the input is read first, so that however it is cut the reads are the same.
fn play_blocks(length: usize) -> io::Result<()> {
    let mut bytes = Vec::new();
    io::stdin().lock().read_to_end(&mut bytes)?;
    let mut replay = linguastel::Replay::empty();
    for block in bytes.chunks(length) {
        if replay.feed(block) != linguastel::E_OK {
            return Err(io::Error::other("a block is refused"));
        }
    }
    println!("{}", replay.end());
    Ok(())
}

// ── Times ──

// In the order in which they take turns.
const PROGRAMS: [(&str, &[&str]); 4] = [
    ("proved", &["crates/replay/out/replay"]),
    ("tested", &["target/bench/replay", "play", "tested"]),
    ("untested", &["target/bench/replay", "play", "untested"]),
    ("second", &["target/bench/second_alone", "replay"]),
];

// Linux's struct rusage: seconds and microseconds of user and system time, and fourteen counts.
#[repr(C)]
#[derive(Default)]
struct Usage {
    user: [i64; 2],
    system: [i64; 2],
    counts: [i64; 14],
}

// libc is linked anyway. The standard library doesn't tell what a child used.
extern "C" {
    fn getrusage(who: i32, usage: &mut Usage) -> i32;
}

const CHILDREN: i32 = -1;

// Nanoseconds.
#[derive(Clone, Copy)]
struct Times {
    wall: u64,
    // User and system time together, which the system measures exactly. How the two share it, it only samples.
    processor: u64,
    user: u64,
}

// User and system time of all children that have ended.
fn used() -> [u64; 2] {
    let mut usage = Usage::default();
    // SAFETY: `Usage` has the layout that the function fills.
    let failed = unsafe { getrusage(CHILDREN, &mut usage) };
    assert!(failed == 0, "getrusage");
    [usage.user, usage.system].map(|[seconds, micros]| (seconds * 1_000_000 + micros) as u64 * 1000)
}

fn run(words: &[&str], file: &str) -> io::Result<(Times, String)> {
    let mut command = Command::new(words[0]);
    command.args(&words[1..]).stdin(File::open(file)?).stderr(Stdio::inherit());
    let [user, system] = used();
    let start = Instant::now();
    let output = command.output()?;
    let wall = start.elapsed().as_nanos() as u64;
    let [more_user, more_system] = used();
    let user = more_user - user;
    Ok((Times { wall, processor: user + more_system - system, user }, String::from_utf8_lossy(&output.stdout).into_owned()))
}

// Of an odd count the middle one. The shortest would be no measure here: of many short runs it is a lucky one, of a few long ones hardly.
fn median(runs: &[Times], of: impl Fn(&Times) -> u64) -> u64 {
    let mut sorted: Vec<u64> = runs.iter().map(of).collect();
    sorted.sort_unstable();
    sorted[sorted.len() / 2]
}

// Fails where a line isn't that of a file without a difference.
fn times(count: usize, file: &str) -> Result<(), String> {
    let records = std::fs::metadata(file).map_err(|error| format!("{file}: {error}"))?.len() / RECORD_BYTES as u64;
    let expected = format!("records {records} differ 0 first 0 tail 0\n");
    let mut runs = PROGRAMS.map(|_| Vec::new());
    for _ in 0..count {
        for ((name, words), runs) in PROGRAMS.iter().zip(&mut runs) {
            let (took, line) = run(words, file).map_err(|error| format!("{name}: {error}"))?;
            if line != expected {
                return Err(format!("{name} on {file}: {line:?}, not {expected:?}"));
            }
            runs.push(took);
        }
    }
    for ((name, _), runs) in PROGRAMS.iter().zip(runs) {
        println!("{name}\t{}\t{}\t{}", median(&runs, |t| t.wall), median(&runs, |t| t.processor), median(&runs, |t| t.user));
    }
    Ok(())
}

// ── The commands ──

// A line for each size: the mix, how many records, how many of them changed the state, were refused, wait and are ticks, and the mean fill.
fn trace(mix: &str, seed: u64, file: &str, sizes: &[u64]) -> Option<Result<(), String>> {
    let mix = traces::MIXES.iter().find(|known| known.name == mix)?;
    let say = |counts: &traces::Counts| {
        print!("{}\t{}\t{}\t{}\t{}\t{}", mix.name, counts.records, counts.changed, counts.refused, counts.waits, counts.ticks);
        counts.fill().iter().for_each(|mean| print!("\t{mean:.1}"));
        println!();
    };
    let written = File::create(file).and_then(|out| traces::write(mix, seed, sizes, BufWriter::with_capacity(BLOCK, out), say));
    Some(written.map_err(|error| format!("{file}: {error}")))
}

fn command(words: &[&str]) -> Option<Result<(), String>> {
    let played = match *words {
        ["play", "tested"] => play(baseline::call),
        ["play", "untested"] => play(baseline::call_untested),
        ["play", "blocks", length] => play_blocks(length.parse().ok().filter(|length| *length > 0)?),
        ["times", count, file] => return Some(times(count.parse().ok()?, file)),
        ["trace", mix, seed, file, ref sizes @ ..] => {
            let sizes: Option<Vec<u64>> = sizes.iter().map(|size| size.parse().ok()).collect();
            return trace(mix, seed.parse().ok()?, file, &sizes?);
        }
        _ => return None,
    };
    Some(played.map_err(|error| format!("standard input: {error}")))
}

fn main() {
    let words: Vec<String> = std::env::args().skip(1).collect();
    let words: Vec<&str> = words.iter().map(String::as_str).collect();
    match command(&words) {
        Some(Ok(())) => {}
        Some(Err(what)) => {
            eprintln!("{what}");
            exit(1);
        }
        None => {
            eprintln!("replay trace MIX SEED FILE SIZE..., play tested, play untested, play blocks LENGTH, or times COUNT FILE");
            exit(2);
        }
    }
}
