//! The library's replay record and the second program's replay (document 02, item 5), which get the same blocks. After every block the codes, the three
//! numbers and the parts must be the same and the kernel states equal, and a refused block must leave every byte of the library's record, unused ones
//! too. The ends are compared likewise; an end must leave every byte in any case.
use crate::block_counts::{Counts, Source, TOO_LONG};
use crate::play::{first_change, lines_apart, words_of};
use crate::record::{record_of, state_of};
use linguastel::{Replay, E_OK, E_SYS, TRACE_SIZE};
use second::{code_name, Line, Random, ReplayState};
use std::hint::black_box;
use std::panic::{catch_unwind, AssertUnwindSafe};

/// The library's replay record and the second program's replay, which hold the same.
pub struct Both {
    pub source: Source,
    pub lent: Replay,
    /// None where no kernel state can be read from the record. It isn't sound then, and the second program has nothing to judge.
    pub second: Option<ReplayState>,
}

/// What came of a block.
struct Given<'a> {
    block: &'a [u8],
    before: Replay,
    code: i32,
    /// The second program's.
    second: i32,
}

impl Both {
    /// The beginning of a recording.
    pub fn start() -> Both {
        Both { source: Source::Files, lent: Replay::empty(), second: Some(ReplayState::new()) }
    }

    /// A record with this kernel record, and these numbers and part, whose unused bytes are random. The second program gets what is read from it.
    pub fn of(source: Source, kernel: linguastel::Record, replay: &ReplayState, random: &mut Random) -> Both {
        let mut part: [u8; TRACE_SIZE] = std::array::from_fn(|_| random.bits() as u8);
        let used = replay.part.len().min(TRACE_SIZE);
        part[..used].copy_from_slice(&replay.part[..used]);
        let length = if used < TRACE_SIZE { used as u64 } else { random.pick(&TOO_LONG) };
        let (records, differ, first) = (replay.records, replay.differ, replay.first);
        let second = state_of(&kernel).map(|state| ReplayState { state, ..replay.clone() });
        Both { source, lent: Replay { records, differ, first, length, kernel, part }, second }
    }

    /// The same replay in another record, in which all that is unused is random again.
    pub fn rewrite(&mut self, random: &mut Random) {
        if let Some(second) = self.second.take() {
            *self = Both::of(self.source, record_of(&second.state, random), &second, random);
        }
    }

    pub fn is_let_through(&self) -> bool {
        self.second.as_ref().is_some_and(|second| second.fault().is_none())
    }

    /// One block on both. An error is the difference in words.
    pub fn feed(&mut self, block: &[u8], counts: &mut Counts) -> Result<(), String> {
        let given = self.given(block, counts)?;
        counts.block(self.source, &given.before, &self.lent, given.code);
        match given.difference(self) {
            None => Ok(()),
            Some(what) => Err(format!("{what}\n{}{}", given.in_words(), self.in_words(&given.before))),
        }
    }

    fn given<'a>(&mut self, block: &'a [u8], counts: &mut Counts) -> Result<Given<'a>, String> {
        let before = self.lent.clone();
        let code = self.lent.feed(block);
        let feed = || self.second.as_mut().map_or(E_SYS, |second| second.feed(block, &mut counts.reached));
        let fed = catch_unwind(AssertUnwindSafe(feed));
        let second =
            fed.map_err(|_| format!("the second program panics\n{}── the replay before ──\n{}", block_in_words(block), replay_in_words(&before)))?;
        Ok(Given { block, before, code, second })
    }

    /// The end on both, which the recording need not have reached. Gives the library's line.
    pub fn end(&self, counts: &mut Counts) -> Result<linguastel::Line, String> {
        let mut lent = self.lent.clone();
        // The library only gets a reference to read by. Without these two the compiler could take the record for unchanged, and compare nothing.
        black_box(&mut lent);
        let line = lent.end();
        black_box(&mut lent);
        let end = || self.second.as_ref().map_or((E_SYS, Line::ZEROS), |second| second.end(&mut counts.reached));
        let ended = catch_unwind(AssertUnwindSafe(end));
        let ended = ended.map_err(|_| format!("the second program panics at the end\n{}", self.in_words(&self.lent)))?;
        counts.ends.count(line.code);
        match self.difference_of_end(&lent, &line, ended) {
            None => Ok(line),
            Some(what) => Err(format!("{what}\n{}", self.in_words(&self.lent))),
        }
    }

    /// `left` is the record that the end left.
    fn difference_of_end(&self, left: &Replay, line: &linguastel::Line, (code, second): (i32, Line)) -> Option<String> {
        if *line != line_of(code, &second) {
            let library = format!("{}, {line}, spare {}", code_name(line.code), line.spare);
            return Some(format!("the ends differ\nthe library:          {library}\nthe second program:   {}, {second}", code_name(code)));
        }
        (*left != self.lent).then(|| format!("the end changed the record: {}", change(&self.lent, left)))
    }

    /// What the two hold that isn't the same.
    fn apart(&self) -> Option<&'static str> {
        let (lent, second) = (&self.lent, self.second.as_ref()?);
        if [lent.records, lent.differ, lent.first] != [second.records, second.differ, second.first] {
            return Some("the numbers differ");
        }
        if !same_part(lent, &second.part) {
            return Some("the parts differ");
        }
        match state_of(&lent.kernel) {
            None => Some("no state can be read from the library's kernel record"),
            Some(read) if !read.equal(&second.state) => Some("the kernel states differ"),
            Some(_) => None,
        }
    }

    /// The replays of both after a block, and before it.
    fn in_words(&self, before: &Replay) -> String {
        let left = replay_in_words(&self.lent);
        let second = self.second.as_ref().map_or("no kernel state can be read, so that it has none".to_string(), ReplayState::to_string);
        let lines = lines_apart(&left, &second);
        let before = replay_in_words(before);
        format!(
            "{lines}── the replay before, of both ──\n{before}\n── the library's replay after it ──\n{left}\n── the second program's ──\n{second}"
        )
    }
}

impl Given<'_> {
    fn difference(&self, both: &Both) -> Option<String> {
        if self.code != self.second {
            return Some("the codes differ".to_string());
        }
        if self.code != E_OK && both.lent != self.before {
            return Some(format!("the block is refused, yet the record changed: {}", change(&self.before, &both.lent)));
        }
        both.apart().map(String::from)
    }

    fn in_words(&self) -> String {
        let codes = format!("the library's code: {}; the second program's: {}", code_name(self.code), code_name(self.second));
        format!("{codes}\n{}{}", block_in_words(self.block), self.records_in_words())
    }

    /// The first records that the part and the block make.
    fn records_in_words(&self) -> String {
        let part = self.before.length.min(TRACE_SIZE as u64) as usize;
        let bytes = [&self.before.part[..part], self.block].concat();
        let records = bytes.chunks_exact(TRACE_SIZE).flat_map(<[u8; TRACE_SIZE]>::try_from);
        (1..).zip(records.take(8)).map(|(number, bytes)| format!("record {number} of it: {}\n", second::Record::decode(&bytes))).collect()
    }
}

/// The library's line that is the same as this one. The spare word is 0.
pub fn line_of(code: i32, line: &Line) -> linguastel::Line {
    linguastel::Line { records: line.records, differ: line.differ, first: line.first, tail: line.tail, code, spare: 0 }
}

/// Of a part that is too long the record has 32 bytes and a length of any size, the second program 32 to 64 bytes. Those agree in the first 32.
fn same_part(lent: &Replay, part: &[u8]) -> bool {
    if lent.length < TRACE_SIZE as u64 {
        return *part == lent.part[..lent.length as usize];
    }
    part.len() >= TRACE_SIZE && part[..TRACE_SIZE] == lent.part
}

/// Where two replay records differ first, by the names of the fields.
fn change(before: &Replay, after: &Replay) -> String {
    let numbers = |replay: &Replay| [replay.records, replay.differ, replay.first, replay.length];
    let (old, new) = (numbers(before), numbers(after));
    for (name, place) in ["records", "differ", "first", "length"].iter().zip(0..) {
        if old[place] != new[place] {
            return format!("{name} {} became {}", old[place], new[place]);
        }
    }
    if before.part != after.part {
        return format!("part {:?} became {:?}", before.part, after.part);
    }
    format!("kernel.{}", first_change(&before.kernel, &after.kernel))
}

fn bytes_in_words(bytes: &[u8]) -> String {
    bytes.iter().map(|byte| format!(" {byte:02x}")).collect()
}

/// A long one is cut; a run is repeated by its seed.
fn block_in_words(block: &[u8]) -> String {
    let shown = &block[..block.len().min(100)];
    let more = if shown.len() < block.len() { " .." } else { "" };
    format!("a block of {} bytes:{}{more}\n", block.len(), bytes_in_words(shown))
}

/// In the words of the second program.
fn replay_in_words(lent: &Replay) -> String {
    let used = lent.length.min(TRACE_SIZE as u64) as usize;
    let numbers = format!("records {} differ {} first {}", lent.records, lent.differ, lent.first);
    format!("{numbers}\npart of {} bytes:{}\n{}", lent.length, bytes_in_words(&lent.part[..used]), words_of(&lent.kernel))
}

#[cfg(test)]
mod tests {
    use super::*;
    use second::{random_replay_state, Profile};

    /// A tick is recorded with the right answer in these bytes, and with a wrong one where byte 20 isn't 0.
    const TICK: [u8; TRACE_SIZE] = [0; TRACE_SIZE];

    /// A replay after two ticks, of which the second differs, and five bytes of a third.
    fn example() -> Both {
        let (mut both, mut wrong) = (Both::start(), TICK);
        wrong[20] = 1;
        both.feed(&[&TICK[..], &wrong, &TICK[..5]].concat(), &mut Counts::default()).expect("no difference");
        both.rewrite(&mut Random::new(1));
        both
    }

    /// Feeds a block, makes a change and gives the difference that is found.
    fn found(mut both: Both, block: &[u8], change: fn(&mut Given, &mut Both)) -> String {
        let mut given = both.given(block, &mut Counts::default()).expect("no panic");
        change(&mut given, &mut both);
        given.difference(&both).unwrap_or("no difference".to_string())
    }

    fn second(both: &mut Both) -> &mut ReplayState {
        both.second.as_mut().expect("a replay")
    }

    #[test]
    fn every_change_is_found() {
        let changes: [(&str, fn(&mut Given, &mut Both)); 15] = [
            ("no difference", |_, _| {}),
            // Unused bytes.
            ("no difference", |_, both| both.lent.kernel.spare ^= 1),
            ("no difference", |_, both| both.lent.part[6] ^= 1),
            ("the codes differ", |given, _| given.code = E_SYS),
            ("the numbers differ", |_, both| both.lent.records += 1 << 32),
            ("the numbers differ", |_, both| both.lent.differ += 1),
            ("the numbers differ", |_, both| both.lent.first -= 1),
            ("the parts differ", |_, both| both.lent.length += 1),
            ("the parts differ", |_, both| both.lent.length += 1 << 32),
            ("the parts differ", |_, both| both.lent.part[5] ^= 1),
            ("the parts differ", |_, both| second(both).part[0] ^= 1),
            ("the parts differ", |_, both| second(both).part.clear()),
            ("the kernel states differ", |_, both| both.lent.kernel.counter += 1),
            ("the kernel states differ", |_, both| second(both).state.tasks[1].exists = true),
            ("no state can be read", |_, both| both.lent.kernel.tasks[1].flags = 4),
        ];
        for (number, (text, change)) in changes.into_iter().enumerate() {
            // Three records more, and six bytes of another.
            assert!(found(example(), &[0; 3 * TRACE_SIZE + 1], change).starts_with(text), "{number}: {text}");
        }
    }

    /// Three replays that refuse a block of 64 bytes: for their numbers, for their part and for records near 2^64.
    fn refusing() -> [Both; 3] {
        [
            |both: &mut Both| (second(both).first, both.lent.first) = (0, 0),
            part_of_32_bytes,
            |both: &mut Both| (second(both).records, both.lent.records) = (u64::MAX - 1, u64::MAX - 1),
        ]
        .map(|change| {
            let mut both = example();
            change(&mut both);
            both
        })
    }

    fn part_of_32_bytes(both: &mut Both) {
        second(both).part = both.lent.part.to_vec();
        both.lent.length = 1 << 32;
    }

    /// A refused block leaves even what is unused, in both.
    #[test]
    fn every_byte_is_left() {
        let changes: [fn(&mut Given, &mut Both); 7] = [
            |_, both| both.lent.kernel.spare ^= 1,
            |_, both| both.lent.kernel.waiting.link[0] ^= 1,
            |_, both| both.lent.part[31] ^= 1,
            |_, both| both.lent.length += 1,
            |_, both| both.lent.records -= 1,
            |_, both| both.lent.differ += 1,
            |_, both| both.lent.first += 1,
        ];
        for place in 0..refusing().len() {
            let refused = |change| found(refusing().into_iter().nth(place).expect("a replay"), &[0; 64], change);
            assert_eq!(refused(|_, _| {}), "no difference");
            for change in changes {
                assert!(refused(change).starts_with("the block is refused, yet the record changed: "), "{place}");
            }
            assert_eq!(refused(|_, both| second(both).part.clear()), "the parts differ");
            assert_eq!(refused(|_, both| second(both).differ += 1), "the numbers differ");
        }
    }

    #[test]
    fn names_of_what_changed() {
        let before = example().lent;
        let changes: [(&str, fn(&mut Replay)); 6] = [
            ("records 2 became 3", |replay| replay.records = 3),
            ("differ 1 became 0", |replay| replay.differ = 0),
            ("first 2 became 1", |replay| replay.first = 1),
            ("length 5 became 0", |replay| replay.length = 0),
            ("part [", |replay| replay.part[9] ^= 1),
            ("kernel.counter 2 became 3", |replay| replay.kernel.counter = 3),
        ];
        for (text, make) in changes {
            let mut after = before.clone();
            make(&mut after);
            assert!(change(&before, &after).starts_with(text), "{text}");
        }
    }

    #[test]
    fn ends() {
        let both = example();
        let (line, second) = (both.end(&mut Counts::default()).expect("no difference"), Line { records: 2, differ: 1, first: 2, tail: 5 });
        assert_eq!(line, line_of(E_OK, &second));
        assert_eq!(both.difference_of_end(&both.lent, &line, (E_OK, second)), None);
        let changes: [fn(&mut linguastel::Line); 6] = [
            |line| line.records += 1,
            |line| line.differ += 1,
            |line| line.first += 1,
            |line| line.tail += 1,
            |line| line.code = E_SYS,
            |line| line.spare = 1,
        ];
        for change in changes {
            let mut changed = line;
            change(&mut changed);
            assert!(both.difference_of_end(&both.lent, &changed, (E_OK, second)).is_some_and(|text| text.starts_with("the ends differ")));
        }
        let mut left = both.lent.clone();
        left.part[31] ^= 1;
        assert!(both.difference_of_end(&left, &line, (E_OK, second)).is_some_and(|text| text.starts_with("the end changed the record: part")));
    }

    /// A record from which no state can be read is refused with four zeros, and so is one with a part that is too long.
    #[test]
    fn refused_ends() {
        let mut unreadable = example();
        unreadable.lent.kernel.tasks[1].flags = 4;
        unreadable.second = None;
        let [_, long, _] = refusing();
        for mut both in [unreadable, long] {
            let mut counts = Counts::default();
            assert_eq!(both.end(&mut counts), Ok(line_of(E_SYS, &Line::ZEROS)));
            assert_eq!(both.feed(&TICK, &mut counts), Ok(()));
            assert_eq!((counts.ends.sys, counts.blocks[Source::Files as usize].sys), (1, 1));
        }
    }

    /// What is written is read again. In two records that hold the same, unused bytes differ; a few bytes may be the same by chance.
    #[test]
    fn round_trip() {
        let mut random = Random::new(1);
        let profile = Profile::new(second::Kind::Mixed, &mut random);
        for _ in 0..500 {
            let replay = random_replay_state(&mut random, &profile);
            let [one, two] = [0; 2].map(|_| Both::of(Source::States, record_of(&replay.state, &mut random), &replay, &mut random));
            assert!(one.is_let_through() && one.apart().is_none() && two.apart().is_none() && one.lent != two.lent);
            assert!(one.lent.part[replay.part.len()..] != two.lent.part[replay.part.len()..] || replay.part.len() > 28);
        }
    }

    #[test]
    fn a_difference_in_words() {
        let (mut both, mut counts) = (example(), Counts::default());
        second(&mut both).differ = 2;
        let text = both.feed(&TICK, &mut counts).expect_err("a difference");
        for line in [
            "the numbers differ",
            "the library's code: E_OK; the second program's: E_OK",
            "only the kernel has: records 3 differ 1 first 2",
            "only the second program has: records 3 differ 2 first 2",
            "── the replay before, of both ──",
            "part of 5 bytes: 00 00 00 00 00",
        ] {
            assert!(text.lines().any(|found| found == line), "{line}\n{text}");
        }
        assert!(text.contains("a block of 32 bytes: 00 00") && text.contains("record 1 of it: tick"), "{text}");
    }
}
