//! Recordings that stand in files, in random cuts, on the library's replay record and on the second program's replay. What the recording gives at the
//! end must be the line that stands beside it: of FILE.bin in FILE.line.
use crate::block_counts::Counts;
use crate::blocks::{compare_in_blocks, cuts_for};
use second::{Line, Random};
use std::fs::{read, read_dir, read_to_string};
use std::path::{Path, PathBuf};

/// From the repository's folder, in which the comparison is run.
const CORPUS: &str = "compare/corpus";
/// A file is cut so often in each way.
const TIMES: u64 = 3;

/// The stored recordings. Those named -from-COUNTER start from another counter than 0, which the replay in blocks doesn't have.
pub fn corpus() -> Result<Vec<PathBuf>, String> {
    let entries = read_dir(CORPUS).map_err(|error| format!("{CORPUS}: {error}"))?;
    let mut files: Vec<PathBuf> = entries.flatten().map(|entry| entry.path()).filter(|path| is_played(path)).collect();
    files.sort();
    Ok(files)
}

fn is_played(path: &Path) -> bool {
    path.extension().is_some_and(|extension| extension == "bin") && !path.to_string_lossy().contains("-from-")
}

/// The numbers of a line in the form that the program replay prints.
fn line_of(text: &str) -> Option<Line> {
    let words: Vec<&str> = text.split_whitespace().collect();
    let ["records", records, "differ", differ, "first", first, "tail", tail] = words[..] else {
        return None;
    };
    let [records, differ, first, tail] = [records, differ, first, tail].map(|number| number.parse().ok());
    Some(Line { records: records?, differ: differ?, first: first?, tail: tail? })
}

/// The line beside a recording.
fn known(path: &Path) -> Result<Line, String> {
    let beside = path.with_extension("line");
    let text = read_to_string(&beside).map_err(|error| format!("{}: {error}", beside.display()))?;
    line_of(&text).ok_or_else(|| format!("{} has no line: {text:?}", beside.display()))
}

/// Feeds a file, in each way in which it may be cut. Gives the line, or the first difference in words; the outer error says why it can't be read.
fn compare_stored(path: &Path, counts: &mut Counts) -> Result<Result<Line, String>, String> {
    let bytes = read(path).map_err(|error| format!("{}: {error}", path.display()))?;
    let line = known(path)?;
    for cut in cuts_for(bytes.len()) {
        for seed in 1..=TIMES {
            let found = compare_in_blocks(&bytes, cut, Some(&line), &mut Random::new(seed), counts);
            if let Err(text) = found {
                return Ok(Err(format!("in cut {cut:?}, seed {seed}: {text}")));
            }
        }
    }
    Ok(Ok(line))
}

/// Feeds the files and prints a line for each. True where nothing differs.
pub fn compare_files(files: &[PathBuf]) -> Result<bool, String> {
    if files.is_empty() {
        return Err("there are no recordings".to_string());
    }
    let mut counts = Counts::default();
    let mut failed = 0;
    for path in files {
        match compare_stored(path, &mut counts)? {
            Ok(line) => println!("{}: {line}", path.display()),
            Err(text) => {
                failed += 1;
                println!("DIFFERENCE: {}, {text}", path.display());
            }
        }
    }
    let fed: u64 = counts.cuts.iter().sum();
    println!("{} recordings, fed {fed} times in random cuts, {} blocks: {failed} differ", files.len(), counts.all_blocks());
    Ok(failed == 0)
}

#[cfg(test)]
mod tests {
    use super::*;

    #[test]
    fn lines() {
        let line = Line { records: 3, differ: 1, first: 2, tail: 31 };
        assert_eq!(line_of(&format!("{line}\n")), Some(line));
        for text in ["", "records 3 differ 1 first 2", "records 3 differ 1 first 2 tail x", "records 3 differ 1 first 2 tail 31 more"] {
            assert_eq!(line_of(text), None, "{text}");
        }
    }

    #[test]
    fn files_that_are_played() {
        let names = ["corpus/large.bin", "corpus/large.line", "corpus/wrap-from-4294967200.bin", "corpus/described.txt"];
        assert_eq!(names.map(|name| is_played(Path::new(name))), [true, false, false, false]);
    }
}
