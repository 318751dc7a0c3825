//! What was compared of recordings in blocks, and what was never reached.
use crate::damage;
use crate::replays::FORMS;
use crate::unsound::Judged;
use linguastel::{Replay, E_OK, E_SYS, TRACE_SIZE};
use second::{BlocksReached, CUTS, DAMAGES};
use std::fmt::Write as _;

/// The `length` of a part that is too long. 256 and 2^32 are 0 in their low bytes, 2^32 + 5 is 5 there, 2^63 has the highest bit alone.
pub const TOO_LONG: [u64; 8] = [32, 33, 63, 256, 1 << 32, (1 << 32) + 5, 1 << 63, u64::MAX];

/// Where the blocks come from.
#[derive(Clone, Copy, PartialEq, Eq, Debug)]
pub enum Source {
    /// A file from its first byte to its last.
    Files,
    /// Replay records that are let through.
    States,
    /// Those that the second program damages: its kernel state, part or numbers.
    Damaged,
    /// Those whose kernel record is damaged in its bytes.
    Kernels,
}

pub const SOURCES: [Source; 4] = [Source::Files, Source::States, Source::Damaged, Source::Kernels];

/// How many got each code, at blocks or at ends.
#[derive(Clone, Copy, Default)]
pub struct Codes {
    pub ok: u64,
    pub sys: u64,
    pub par: u64,
}

impl Codes {
    pub fn count(&mut self, code: i32) {
        match code {
            E_OK => self.ok += 1,
            E_SYS => self.sys += 1,
            _ => self.par += 1,
        }
    }

    pub fn all(&self) -> u64 {
        self.ok + self.sys + self.par
    }

    fn in_words(&self) -> String {
        format!("E_OK {}, E_SYS {}, E_PAR {}", self.ok, self.sys, self.par)
    }
}

#[derive(Default)]
pub struct Counts {
    /// Files and replay records, by source.
    pub started: [u64; SOURCES.len()],
    pub blocks: [Codes; SOURCES.len()],
    pub ends: Codes,
    pub forms: [u64; FORMS.len()],
    /// Files by how they were cut.
    pub cuts: [u64; CUTS.len()],
    /// Records that were taken, and those of them that differ.
    pub records: u64,
    pub differ: u64,
    /// Replay records that the second program damaged, by the kind of damage: those that get E_SYS, and those that don't, because the damage can't be
    /// written.
    pub damaged: [(u64, u64); DAMAGES.len()],
    /// Kernel records that were damaged in their bytes, by the kind of damage.
    pub kernels: [Judged; damage::DAMAGES.len()],
    /// Blocks that were taken, by the length of the part before and after them.
    pub before: [u64; TRACE_SIZE],
    pub after: [u64; TRACE_SIZE],
    /// Blocks on parts that are too long.
    pub too_long: [u64; TOO_LONG.len()],
    pub reached: BlocksReached,
}

impl Counts {
    pub fn all_blocks(&self) -> u64 {
        self.blocks.iter().map(Codes::all).sum()
    }

    pub fn block(&mut self, source: Source, before: &Replay, after: &Replay, code: i32) {
        self.blocks[source as usize].count(code);
        if let Some(place) = TOO_LONG.iter().position(|&length| length == before.length) {
            self.too_long[place] += 1;
        }
        if code == E_OK {
            count_at(&mut self.before, before.length);
            count_at(&mut self.after, after.length);
            self.records += after.records.wrapping_sub(before.records);
            self.differ += after.differ.wrapping_sub(before.differ);
        }
    }

    /// What was never reached: paths of the replay in blocks, forms of files, cuts, damages, codes and lengths of parts.
    pub fn missing(&self) -> Vec<String> {
        let mut missing: Vec<String> = self.reached.missing().into_iter().map(String::from).collect();
        let mut ask = |reached: bool, what: String| {
            if !reached {
                missing.push(what);
            }
        };
        FORMS.iter().zip(self.forms).for_each(|(form, count)| ask(count > 0, format!("a file of form {form:?}")));
        CUTS.iter().zip(self.cuts).for_each(|(cut, count)| ask(count > 0, format!("a file in cut {cut:?}")));
        DAMAGES.iter().zip(self.damaged).for_each(|(kind, (refused, _))| ask(refused > 0, format!("E_SYS by damage {kind:?}")));
        for (kind, judged) in damage::DAMAGES.iter().zip(&self.kernels) {
            ask(judged.unreadable + judged.unsound > 0, format!("a kernel record that isn't sound, by damage {kind:?}"));
            // Random records are hardly ever sound.
            let random = matches!(kind, damage::Damage::Bytes | damage::Damage::Numbers);
            ask(judged.sound > 0 || random, format!("a kernel record that is still sound, by damage {kind:?}"));
        }
        for length in 0..TRACE_SIZE {
            ask(self.before[length] > 0, format!("a block taken with a part of {length} bytes"));
            ask(self.after[length] > 0, format!("a block taken that leaves a part of {length} bytes"));
        }
        TOO_LONG.iter().zip(self.too_long).for_each(|(length, count)| ask(count > 0, format!("a block on a part of {length} bytes")));
        for (source, [ok, sys, par]) in self.codes_by_source() {
            ask(ok, format!("E_OK at a block of {source:?}"));
            ask(sys, format!("E_SYS at a block of {source:?}"));
            ask(par, format!("E_PAR at a block of {source:?}"));
        }
        ask(self.ends.ok > 0, "E_OK at an end".to_string());
        ask(self.ends.sys > 0, "E_SYS at an end".to_string());
        missing
    }

    /// By source: whether each code came, or needn't. No block of a file and no record that is let through gets E_SYS, and no file is so long that a
    /// block gets E_PAR. Few of the second program's damages can't be written, so that no E_OK or E_PAR is asked of them.
    fn codes_by_source(&self) -> [(Source, [bool; 3]); SOURCES.len()] {
        SOURCES.map(|source| {
            let codes = &self.blocks[source as usize];
            let (file, state, damaged) = (source == Source::Files, source == Source::States, source == Source::Damaged);
            (source, [codes.ok > 0 || damaged, codes.sys > 0 || file || state, codes.par > 0 || file || damaged])
        })
    }

    pub fn summary(&self) -> String {
        let mut text = String::new();
        for source in SOURCES {
            let (started, codes) = (self.started[source as usize], &self.blocks[source as usize]);
            let what = match source {
                Source::Files => format!("{started} files"),
                Source::States => format!("{started} replay records that are let through"),
                Source::Damaged => format!("{started} replay records that the second program damaged"),
                Source::Kernels => format!("{started} replay records whose kernel record was damaged in its bytes"),
            };
            let _ = writeln!(text, "{:>12}  blocks of {what}: {}", codes.all(), codes.in_words());
        }
        let _ = writeln!(text, "{:>12}  records taken in these blocks, of which {} differ", self.records, self.differ);
        let _ = writeln!(text, "{:>12}  ends: {}", self.ends.all(), self.ends.in_words());
        let least = |counts: &[u64]| *counts.iter().min().unwrap_or(&0);
        let _ = writeln!(text, "{:>12}  blocks or more taken with each part of 0 to 31 bytes", least(&self.before));
        let _ = writeln!(text, "{:>12}  or more that leave each of them", least(&self.after));
        let _ = writeln!(text, "{:>12}  blocks or more on each of {} longer parts", least(&self.too_long), TOO_LONG.len());
        self.kinds_in_words(&mut text);
        text
    }

    fn kinds_in_words(&self, text: &mut String) {
        for (form, count) in FORMS.iter().zip(self.forms) {
            let _ = writeln!(text, "{count:>12}  files of form {form:?}");
        }
        for (cut, count) in CUTS.iter().zip(self.cuts) {
            let _ = writeln!(text, "{count:>12}  files in cut {cut:?}");
        }
        for (kind, (refused, others)) in DAMAGES.iter().zip(self.damaged) {
            let name = format!("{kind:?}");
            let _ = writeln!(text, "{:>12}  {name:<11}E_SYS {refused:>7}  let through {others:>7}", "");
        }
        for (kind, judged) in damage::DAMAGES.iter().zip(&self.kernels) {
            let name = format!("{kind:?}");
            let counts = format!("unreadable {:>7}  not sound {:>7}  sound {:>7}", judged.unreadable, judged.unsound, judged.sound);
            let _ = writeln!(text, "{:>12}  {name:<11}{counts}", "");
        }
    }
}

fn count_at(counts: &mut [u64], length: u64) {
    if let Some(count) = usize::try_from(length).ok().and_then(|place| counts.get_mut(place)) {
        *count += 1;
    }
}

#[cfg(test)]
mod tests {
    use super::*;

    fn replay(records: u64, length: u64) -> Replay {
        Replay { records, length, ..Replay::empty() }
    }

    /// At first everything is missing; a block takes away what it reached.
    #[test]
    fn what_is_missing() {
        let mut counts = Counts::default();
        let missing = counts.missing();
        for what in [
            "a file of form AtBlock",
            "a file in cut Edges",
            "E_SYS by damage FirstZero",
            "a kernel record that is still sound, by damage Link",
            "a block taken with a part of 31 bytes",
            "a block taken that leaves a part of 0 bytes",
            "a block on a part of 4294967301 bytes",
            "E_PAR at a block of States",
            "E_SYS at an end",
        ] {
            assert!(missing.iter().any(|found| found == what), "{what}");
        }
        counts.block(Source::States, &replay(u64::MAX - 2, 31), &replay(u64::MAX, 0), E_OK);
        counts.block(Source::Damaged, &replay(1, 1 << 32), &replay(1, 1 << 32), E_SYS);
        // Two lengths of parts and a code; a longer part and a code.
        assert_eq!(counts.missing().len(), missing.len() - 5);
        assert_eq!((counts.all_blocks(), counts.records), (2, 2));
    }
}
