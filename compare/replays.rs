//! Files of records (document 02, item 3) on the program replay, as it is proved and built, and on the second program: both must give the same line.
//! The program gets a file through a pipe, in pieces that end anywhere, so that its reads cut records. A file and its pieces follow from the seed.
use second::{random_trace_and_end, Line, Profile, Random, TraceReached, FETCH, RECORD};
use std::fmt::Write as _;
use std::io::Write as _;
use std::panic::catch_unwind;
use std::process::{Child, ChildStdin, Command, Stdio};
use std::time::Duration;

/// From the repository's folder, in which the comparison is run.
const PROGRAM: &str = "crates/replay/out/replay";
/// Where a file is kept on which the two lines differ.
const KEPT: &str = "target/compare";
/// The program reads so many bytes at most at once.
const BLOCK: usize = 65_536;

// ── Files ──

/// How a file is made.
#[derive(Clone, Copy, PartialEq, Eq, Debug)]
pub enum Form {
    /// No bytes.
    Empty,
    /// Records as a unit makes them, some damaged, and a tail.
    Made,
    /// The same, larger than a block.
    Large,
    /// The same, cut shortly before the end of a block, there or shortly after it.
    AtBlock,
    /// Made, with any bytes here and there, and perhaps a byte put in or taken out, which moves all later records.
    Changed,
    /// Any bytes: records of which hardly one is run.
    Bytes,
    /// Any bytes in records that are run: known call, kind and flags, and spare bytes 0.
    Fields,
}

pub const FORMS: [Form; 7] = [Form::Empty, Form::Made, Form::Large, Form::AtBlock, Form::Changed, Form::Bytes, Form::Fields];

pub struct File {
    pub form: Form,
    pub bytes: Vec<u8>,
    /// Where it follows from how the file was made.
    pub line: Option<Line>,
}

impl File {
    pub fn random(random: &mut Random) -> File {
        let form = match random.below(100) {
            0..=1 => Form::Empty,
            2..=54 => Form::Made,
            55..=59 => Form::Large,
            60..=61 => Form::AtBlock,
            62..=79 => Form::Changed,
            80..=89 => Form::Bytes,
            _ => Form::Fields,
        };
        let (bytes, line) = match form {
            Form::Empty => (Vec::new(), None),
            Form::Made => made(random_length(random), random),
            Form::Large => made(random.between(2_049, 3_000), random),
            Form::AtBlock => (at_block(random), None),
            Form::Changed => (changed(random), None),
            Form::Bytes => (any_bytes(random), None),
            Form::Fields => (any_fields(random), None),
        };
        File { form, bytes, line }
    }
}

/// Mostly few records: a file on which the lines differ is then soon understood.
fn random_length(random: &mut Random) -> u32 {
    let most = random.pick(&[5, 30, 100, 100, 400]);
    random.between(0, most)
}

fn made(length: u32, random: &mut Random) -> (Vec<u8>, Option<Line>) {
    let profile = Profile::new(random.pick(&second::KINDS), random);
    let damage = random.pick(&[0, 1, 10, 10, 50, 100]);
    let trace = random_trace_and_end(random, &profile, length, damage);
    (trace.bytes, Some(trace.line))
}

fn at_block(random: &mut Random) -> Vec<u8> {
    let (mut bytes, _) = made(2_060, random);
    bytes.truncate(BLOCK - 40 + random.below(80) as usize);
    bytes
}

fn changed(random: &mut Random) -> Vec<u8> {
    let (mut bytes, _) = made(random_length(random), random);
    for _ in 0..random.below(6) {
        if bytes.is_empty() {
            break;
        }
        let place = random.below(bytes.len() as u32) as usize;
        match random.below(8) {
            0 => bytes.insert(place, random_byte(random)),
            1 => drop(bytes.remove(place)),
            _ => bytes[place] = random_byte(random),
        }
    }
    bytes
}

fn random_byte(random: &mut Random) -> u8 {
    random.bits() as u8
}

fn any_bytes(random: &mut Random) -> Vec<u8> {
    let most = random.pick(&[40, 1_000, 20_000]);
    (0..random.between(0, most)).map(|_| random_byte(random)).collect()
}

/// The callers and objects are often in range, so that calls are accepted.
fn any_fields(random: &mut Random) -> Vec<u8> {
    let mut bytes = Vec::new();
    for _ in 0..random_length(random) {
        let mut record: Vec<u8> = (0..RECORD).map(|_| random_byte(random)).collect();
        record[0] = random.below(FETCH + 1) as u8;
        record[1] = random.pick(&[0, 0, 0, 1, 2, 33]);
        record[2] = random.pick(&[0, 0, 0, 1, 2, 3]);
        record[3] = random.pick(&[0, 1, 1, 1, 2, 17, record[3]]);
        record[16] = random.below(2) as u8;
        for spare in [17, 18, 19, 31] {
            record[spare] = 0;
        }
        for field in [4, 8, 12, 20, 24] {
            // A number in the lowest byte alone is in range more often, and is more often the right answer.
            if random.percent(70) {
                record[field] = random.below(18) as u8;
                record[field + 1..field + 4].fill(0);
            }
        }
        record[28..31].fill(0);
        bytes.extend(record);
    }
    bytes
}

// ── Pieces ──

/// How long the pieces are that are written to the program's pipe.
#[derive(Clone, Copy, PartialEq, Eq, Debug)]
pub enum Pieces {
    /// One piece.
    Whole,
    /// One byte each.
    Bytes,
    /// 0 to 70 bytes.
    Short,
    /// 0 to 5,000 bytes.
    Middle,
    /// 0 to 70,000 bytes, so that some are longer than a block.
    Long,
}

pub const PIECES: [Pieces; 5] = [Pieces::Whole, Pieces::Bytes, Pieces::Short, Pieces::Middle, Pieces::Long];

/// Each piece takes a write, so that a long file gets no short ones.
const MOST_IN_SHORT_PIECES: usize = 4_000;
/// After so many pieces of a file no pause is made.
const PAUSES: usize = 20;
/// Mostly the program reads a piece in this time, so that the next one comes in another read.
const PAUSE: Duration = Duration::from_micros(40);

impl Pieces {
    fn random(length: usize, random: &mut Random) -> Pieces {
        let short = length <= MOST_IN_SHORT_PIECES;
        random.pick(if short { &PIECES } else { &PIECES[3..] })
    }

    fn next(self, left: usize, random: &mut Random) -> usize {
        let length = match self {
            Pieces::Whole => left,
            Pieces::Bytes => 1,
            Pieces::Short => random.between(0, 70) as usize,
            Pieces::Middle => random.between(0, 5_000) as usize,
            Pieces::Long => random.between(0, 70_000) as usize,
        };
        length.min(left)
    }
}

// ── Comparing ──

#[derive(Default)]
pub struct Counts {
    pub files: u64,
    /// By form.
    pub forms: [u64; FORMS.len()],
    /// Files by the length of their pieces.
    pub fed: [u64; PIECES.len()],
    pub records: u64,
    pub differ: u64,
    /// Files by the bytes after their last whole record.
    pub tails: [u64; RECORD],
    pub pieces: u64,
    /// Pieces that begin inside a record, and those of them in files that are larger than a block.
    pub cut: u64,
    pub cut_in_large: u64,
    pub reached: TraceReached,
}

impl Counts {
    /// What was never reached: paths of the replay, forms of files, lengths of tails and of pieces.
    pub fn missing(&self) -> Vec<String> {
        let mut missing: Vec<String> = self.reached.missing().into_iter().map(String::from).collect();
        let forms = FORMS.iter().zip(self.forms).filter(|(_, count)| *count == 0);
        missing.extend(forms.map(|(form, _)| format!("a file of form {form:?}")));
        let tails = self.tails.iter().enumerate().filter(|(_, count)| **count == 0);
        missing.extend(tails.map(|(tail, _)| format!("a tail of {tail} bytes")));
        let fed = PIECES.iter().zip(self.fed).filter(|(_, count)| *count == 0);
        missing.extend(fed.map(|(pieces, _)| format!("a file in pieces {pieces:?}")));
        if self.cut_in_large == 0 {
            missing.push("a cut record in a file larger than a block".to_string());
        }
        missing
    }

    pub fn summary(&self) -> String {
        let mut text = format!("{:>12}  files with {} records, of which {} differ\n", self.files, self.records, self.differ);
        let _ = writeln!(text, "{:>12}  files or more with each tail of 0 to 31 bytes", self.tails.iter().min().unwrap_or(&0));
        for (form, count) in FORMS.iter().zip(self.forms) {
            let _ = writeln!(text, "{count:>12}  files of form {form:?}");
        }
        let cut = format!("{} begin inside a record, {} of these in files larger than a block", self.cut, self.cut_in_large);
        let _ = writeln!(text, "{:>12}  pieces; {cut}", self.pieces);
        for (pieces, count) in PIECES.iter().zip(self.fed) {
            let _ = writeln!(text, "{count:>12}  files in pieces {pieces:?}");
        }
        text
    }

    /// Writes the file to the program. An error comes where the program has ended before.
    fn feed(&mut self, mut input: ChildStdin, bytes: &[u8], pieces: Pieces, random: &mut Random) -> std::io::Result<()> {
        let (mut at, mut written) = (0, 0);
        while at < bytes.len() {
            if at % RECORD != 0 {
                self.cut += 1;
                self.cut_in_large += u64::from(bytes.len() > BLOCK);
            }
            let length = pieces.next(bytes.len() - at, random);
            input.write_all(&bytes[at..at + length])?;
            input.flush()?;
            at += length;
            written += 1;
            if written < PAUSES && at < bytes.len() {
                std::thread::sleep(PAUSE);
            }
        }
        self.pieces += written as u64;
        Ok(())
    }
}

/// Makes a file and plays it on both. An error is the difference in words.
pub fn compare_replay(random: &mut Random, counts: &mut Counts) -> Result<(), String> {
    let file = File::random(random);
    let pieces = Pieces::random(file.bytes.len(), random);
    counts.files += 1;
    counts.forms[file.form as usize] += 1;
    counts.fed[pieces as usize] += 1;
    let about = format!("a file of form {:?} with {} bytes, in pieces {pieces:?}", file.form, file.bytes.len());
    let mut program = start()?;
    let input = program.stdin.take().ok_or("the program has no pipe")?;
    let fed = counts.feed(input, &file.bytes, pieces, random);
    // The program reads on meanwhile.
    let replayed = catch_unwind(|| second::replay(&file.bytes));
    let printed = printed(program, fed.is_ok()).map_err(|text| format!("{text}\n{about}"))?;
    let replayed = replayed.map_err(|_| format!("the second program panics; the program prints {printed:?}\n{about}"))?;
    counts.records += replayed.line.records;
    counts.differ += replayed.line.differ;
    counts.tails[file.bytes.len() % RECORD] += 1;
    counts.reached.merge(&replayed.reached);
    difference(&printed, &replayed.line, file.line.as_ref()).map_or(Ok(()), |text| Err(format!("{text}{about}")))
}

/// What the program printed has to be the second program's line and nothing else, and that line the one as which the file was made.
fn difference(printed: &str, second: &Line, made: Option<&Line>) -> Option<String> {
    if printed == format!("{second}\n") && made.is_none_or(|line| line == second) {
        return None;
    }
    let made = made.map_or(String::new(), |line| format!("as the file was made: {line}\n"));
    Some(format!("the lines differ\nthe program:          {printed:?}\nthe second program:   {second}\n{made}"))
}

/// Without the program there is nothing to compare, which is no difference.
pub fn find_program() -> Result<(), String> {
    std::fs::metadata(PROGRAM).map(drop).map_err(|error| format!("{PROGRAM}: {error}"))
}

fn start() -> Result<Child, String> {
    let started = Command::new(PROGRAM).stdin(Stdio::piped()).stdout(Stdio::piped()).stderr(Stdio::piped()).spawn();
    started.map_err(|error| format!("{PROGRAM} doesn't start: {error}"))
}

/// What the program printed, if it read the file to its end and succeeded.
fn printed(program: Child, whole: bool) -> Result<String, String> {
    let output = program.wait_with_output().map_err(|error| format!("{PROGRAM}: {error}"))?;
    let printed = String::from_utf8_lossy(&output.stdout).into_owned();
    if whole && output.status.success() && output.stderr.is_empty() {
        return Ok(printed);
    }
    let ended = if whole { "ended" } else { "ended before the file was read" };
    Err(format!("the program {ended} with {}; it printed {printed:?}, as errors {:?}", output.status, String::from_utf8_lossy(&output.stderr)))
}

/// Writes the file of this seed, to be looked at. Says where it stands.
pub fn keep(seed: u64) -> String {
    let path = format!("{KEPT}/replays-{seed}.bin");
    match std::fs::write(&path, File::random(&mut Random::new(seed)).bytes) {
        Ok(()) => format!("the file is kept: {PROGRAM} <{path}; target/compare/trace {path} --details"),
        Err(error) => format!("the file can't be kept: {path}: {error}"),
    }
}

#[cfg(test)]
mod tests {
    use super::*;

    /// The file of a seed is always the same, and its line is known where a unit could have made it.
    #[test]
    fn files_by_seed() {
        for seed in 0..300 {
            let (file, again) = (File::random(&mut Random::new(seed)), File::random(&mut Random::new(seed)));
            assert!(file.form == again.form && file.bytes == again.bytes && file.line == again.line);
            let made = matches!(file.form, Form::Made | Form::Large);
            assert_eq!(file.line, made.then(|| second::replay(&file.bytes).line));
            assert!(file.form != Form::Large || file.bytes.len() > BLOCK);
        }
    }

    /// Most records of `Fields` are run, and hardly one of `Bytes`.
    #[test]
    fn records_of_any_bytes() {
        let mut random = Random::new(1);
        let is_run = |bytes: &[u8]| second::Record::decode(bytes.try_into().expect("a record")).is_run();
        for _ in 0..100 {
            assert!(any_fields(&mut random).chunks(RECORD).all(is_run));
            assert!(any_bytes(&mut random).chunks_exact(RECORD).filter(|bytes| is_run(bytes)).count() < 2);
        }
    }

    #[test]
    fn lengths_of_pieces() {
        let mut random = Random::new(1);
        assert_eq!(Pieces::Whole.next(77, &mut random), 77);
        for (pieces, limit) in [(Pieces::Bytes, 1), (Pieces::Short, 70), (Pieces::Middle, 5_000), (Pieces::Long, 70_000)] {
            let most = (0..1_000).map(|_| pieces.next(1_000_000, &mut random)).max();
            assert!(most.is_some_and(|most| (limit * 98 / 100..=limit).contains(&most)), "{pieces:?}: {most:?}");
            assert!(pieces.next(1, &mut random) <= 1);
        }
    }

    #[test]
    fn lines_that_differ() {
        let line = Line { records: 3, differ: 1, first: 2, tail: 0 };
        let right = "records 3 differ 1 first 2 tail 0\n";
        assert_eq!(difference(right, &line, None), None);
        assert_eq!(difference(right, &line, Some(&line)), None);
        assert!(difference(right, &line, Some(&Line { tail: 1, ..line })).is_some_and(|text| text.contains("as the file was made")));
        for wrong in ["", "records 3 differ 1 first 2 tail 0", "records 3 differ 1 first 2 tail 0\n\n", "records 3 differ 1 first 3 tail 0\n"] {
            assert!(difference(wrong, &line, None).is_some(), "{wrong:?}");
        }
    }
}
