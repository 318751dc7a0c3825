//! `trace FILE... [--counter N] [--details]` plays trace files on the kernel and on the second program, each from the empty state, at counter 0 or N,
//! and prints for each file the line of document 02, item 3, that either of them gives. `--details` shows the first record that differs. The exit
//! status is 1 where the two programs aren't of one mind, in an answer or in a state.
//! `trace --write FILE COUNT SEED [--counter N]` writes a trace of random calls with the second program's answers.
//! `trace --write-damaged FILE COUNT SEED PERCENT` writes one of which so many of a hundred records are damaged, with a tail, and prints its line.
//!
//! Records are read, and the line is kept, by hosts/trace, which also shows a trace on the kernel alone.
#![forbid(unsafe_code)]
use comparison::record::{answer_in_words, kernel_answer, kernel_call, second_call, state_of};
use linguastel::Record;
use second::{random_call, random_trace_and_end, Answer, Call, Profile, Random, Reached, State};
use std::process::ExitCode;
use trace_tool::decode::{self, Recorded, SIZE};
use trace_tool::play::{tail, Line};
use trace_tool::words;

/// The record of a call and the second program's answer, as a host in Rust writes it; none for a call that the replay doesn't run.
fn written(call: &Call, answer: &Answer) -> Option<[u8; SIZE]> {
    kernel_call(call).trace(kernel_answer(answer))
}

// ── Playing a file ──

#[derive(Default)]
struct Replay {
    kernel: Line,
    second: Line,
    /// The first record that differs, in words.
    details: Option<String>,
    /// The first record after which the two programs aren't of one mind.
    apart: Option<String>,
}

struct Programs {
    record: Record,
    state: State,
}

impl Programs {
    fn empty(counter: u32) -> Programs {
        Programs { record: Record { counter, ..Record::empty() }, state: State::empty(counter) }
    }

    fn play(&mut self, call: &linguastel::Call) -> (linguastel::HostAnswer, linguastel::HostAnswer) {
        let kernel = self.record.host_call(*call);
        (kernel, kernel_answer(&self.state.play(&second_call(call), &mut Reached::default())))
    }

    fn same_state(&self) -> bool {
        state_of(&self.record).is_some_and(|read| read.equal(&self.state))
    }
}

fn replay(bytes: &[u8], counter: u32) -> Replay {
    let mut programs = Programs::empty(counter);
    let mut replay = Replay::default();
    for record in bytes.chunks_exact(SIZE) {
        play_record(record.try_into().expect("a chunk has the size of a record"), &mut programs, &mut replay);
    }
    replay.kernel.tail = tail(bytes).len() as u64;
    replay.second.tail = replay.kernel.tail;
    replay
}

fn play_record(bytes: &[u8; SIZE], programs: &mut Programs, replay: &mut Replay) {
    let number = replay.kernel.records + 1;
    let Recorded { call, answer: recorded } = match decode::read(bytes) {
        Ok(read) => read,
        Err(why) => {
            replay.kernel.count(false);
            replay.second.count(false);
            replay.details.get_or_insert_with(|| format!("record {number} isn't run: {why}"));
            return;
        }
    };
    let (before, state) = (programs.record.clone(), programs.state.clone());
    let (kernel, second) = programs.play(&call);
    replay.kernel.count(recorded == kernel);
    replay.second.count(recorded == second);
    let same = kernel == second && programs.same_state();
    if same && recorded == kernel {
        return;
    }
    let in_words = || {
        let answers = format!("kernel: {}\nsecond program: {}", answer_in_words(&kernel), answer_in_words(&second));
        let states = format!("state before, of the second program:\n{state}\nafter:\n{}", programs.state);
        let kernel_states = format!("state before, of the kernel:\n{}\nafter:\n{}", in_words_of(&before), in_words_of(&programs.record));
        let recorded = words::answer(call.number, &recorded);
        format!("record {number}: {}\nrecorded: {recorded}\n{answers}\n{states}\n{kernel_states}", words::call(&call))
    };
    if !same {
        replay.apart.get_or_insert_with(in_words);
    }
    replay.details.get_or_insert_with(in_words);
}

fn in_words_of(record: &Record) -> String {
    state_of(record).map_or("no state can be read".to_string(), |state| state.to_string())
}

// ── Writing a file ──

/// A trace in the making: the second program's state so far, and the records.
struct Writer {
    state: State,
    bytes: Vec<u8>,
}

impl Writer {
    fn empty(counter: u32) -> Writer {
        Writer { state: State::empty(counter), bytes: Vec::new() }
    }

    /// Plays the call and adds its record; adds nothing where the call doesn't fit into one.
    fn add(&mut self, call: &Call) -> bool {
        if call.number > decode::LAST_CALL || written(call, &Answer::refused(0)).is_none() {
            return false;
        }
        let answer = self.state.play(call, &mut Reached::default());
        self.bytes.extend(written(call, &answer).expect("an answer fits into a record"));
        true
    }
}

fn random_trace(count: usize, seed: u64, counter: u32) -> Vec<u8> {
    let mut random = Random::new(seed);
    let mut writer = Writer::empty(counter);
    while writer.bytes.len() < count * SIZE {
        // What the calls are after changes now and then.
        let profile = Profile::new(random.pick(&second::KINDS), &mut random);
        let end = count.min(writer.bytes.len() / SIZE + 200) * SIZE;
        while writer.bytes.len() < end {
            let call = random_call(&mut random, &profile, &writer.state);
            writer.add(&call);
        }
    }
    writer.bytes
}

// ── Commands ──

fn read_file(path: &str) -> Result<Vec<u8>, String> {
    std::fs::read(path).map_err(|error| format!("{path}: {error}"))
}

fn number_in<T: std::str::FromStr>(argument: Option<&String>) -> Result<T, String> {
    let text = argument.ok_or("a number is missing")?;
    text.parse().map_err(|_| format!("'{text}' is no number that fits here"))
}

/// Plays each file; false where the programs were apart.
fn play_files(arguments: &[String]) -> Result<bool, String> {
    let (mut paths, mut counter, mut details) = (Vec::new(), 0, false);
    let mut left = arguments.iter();
    while let Some(argument) = left.next() {
        match argument.as_str() {
            "--counter" => counter = number_in(left.next())?,
            "--details" => details = true,
            option if option.starts_with("--") => return Err(format!("'{option}' isn't known")),
            path => paths.push(path),
        }
    }
    let mut as_one = true;
    for path in paths {
        as_one &= play_file(path, counter, details)?;
    }
    Ok(as_one)
}

fn play_file(path: &str, counter: u32, details: bool) -> Result<bool, String> {
    let replay = replay(&read_file(path)?, counter);
    println!("{path}\nkernel: {}\nsecond program: {}", replay.kernel, replay.second);
    if let (true, Some(text)) = (details, &replay.details) {
        println!("{text}");
    }
    if let Some(text) = &replay.apart {
        println!("the two programs are apart:\n{text}");
    }
    Ok(replay.apart.is_none())
}

fn write_file(path: &str, bytes: &[u8]) -> Result<bool, String> {
    std::fs::write(path, bytes).map_err(|error| format!("{path}: {error}"))?;
    Ok(true)
}

fn write_random(arguments: &[String]) -> Result<bool, String> {
    let path = arguments.first().ok_or("the file's name is missing")?;
    let (count, seed) = (number_in(arguments.get(1))?, number_in(arguments.get(2))?);
    let counter = match arguments.get(3).map(String::as_str) {
        Some("--counter") => number_in(arguments.get(4))?,
        Some(other) => return Err(format!("'{other}' isn't known here")),
        None => 0,
    };
    write_file(path, &random_trace(count, seed, counter))
}

fn write_damaged(arguments: &[String]) -> Result<bool, String> {
    let path = arguments.first().ok_or("the file's name is missing")?;
    let (count, seed, damage) = (number_in(arguments.get(1))?, number_in(arguments.get(2))?, number_in(arguments.get(3))?);
    let mut random = Random::new(seed);
    let profile = Profile::new(random.pick(&second::KINDS), &mut random);
    let trace = random_trace_and_end(&mut random, &profile, count, damage);
    println!("{}", trace.line);
    write_file(path, &trace.bytes)
}

fn run(arguments: &[String]) -> Result<bool, String> {
    match arguments.first().map(String::as_str) {
        None => Err("no file is named".to_string()),
        Some("--write") => write_random(&arguments[1..]),
        Some("--write-damaged") => write_damaged(&arguments[1..]),
        Some(_) => play_files(arguments),
    }
}

fn main() -> ExitCode {
    comparison::exit_after(run)
}

#[cfg(test)]
mod tests {
    use super::*;

    fn line(bytes: &[u8]) -> String {
        let replay = replay(bytes, 0);
        assert_eq!(replay.kernel, replay.second);
        assert!(replay.apart.is_none());
        replay.kernel.to_string()
    }

    fn three() -> Vec<u8> {
        let mut writer = Writer::empty(0);
        for task in 1..=3 {
            writer.add(&Call { number: 1, object: task, value: 5, ..Call::default() });
        }
        writer.bytes
    }

    #[test]
    fn no_bytes() {
        assert_eq!(line(&[]), "records 0 differ 0 first 0 tail 0");
    }

    #[test]
    fn second_answer_of_three() {
        let mut bytes = three();
        assert_eq!(line(&bytes), "records 3 differ 0 first 0 tail 0");
        bytes[SIZE + 20] = 1;
        assert_eq!(line(&bytes), "records 3 differ 1 first 2 tail 0");
    }

    #[test]
    fn bytes_after_the_last_record() {
        assert_eq!(line(&[0; 31]), "records 0 differ 0 first 0 tail 31");
        assert_eq!(line(&three()[..2 * SIZE + 5]), "records 2 differ 0 first 0 tail 5");
    }

    #[test]
    fn a_record_that_is_not_run() {
        for (place, byte, why) in
            [(0, 24, "unknown call"), (16, 2, "unknown kind"), (2, 4, "unknown flag"), (19, 1, "spare byte"), (31, 255, "spare byte")]
        {
            let mut bytes = three();
            bytes[SIZE + place] = byte;
            assert_eq!(line(&bytes), "records 3 differ 1 first 2 tail 0");
            assert!(replay(&bytes, 0).details.is_some_and(|text| text.contains(why)));
            // Had task 2 been defined, this would be E_OBJ.
            bytes.extend(&three()[SIZE..2 * SIZE]);
            assert_eq!(line(&bytes), "records 4 differ 1 first 2 tail 0");
        }
    }

    /// A change in any byte of the answer, or in a spare byte, makes the record differ.
    #[test]
    fn every_byte_of_the_answer() {
        for place in 16..SIZE {
            let mut bytes = three();
            bytes[2 * SIZE + place] ^= 0x80;
            assert_eq!(line(&bytes), "records 3 differ 1 first 3 tail 0", "byte {place}");
        }
    }

    #[test]
    fn what_is_written_is_read_again() {
        for (seed, counter) in [(1, 0), (2, 0), (3, u32::MAX - 20)] {
            let replay = replay(&random_trace(2000, seed, counter), counter);
            assert_eq!(replay.second.to_string(), "records 2000 differ 0 first 0 tail 0");
            assert_eq!(replay.kernel, replay.second);
        }
    }
}
