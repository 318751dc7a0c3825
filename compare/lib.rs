//! The proved kernel, through the library that hosts link, compared with the second program (folder second/). README.md says what is compared.
#![forbid(unsafe_code)]
use std::process::ExitCode;

pub mod block_counts;
pub mod blocks;
pub mod both;
pub mod carriers;
pub mod damage;
pub mod limits;
pub mod play;
pub mod record;
pub mod replays;
pub mod runs;
pub mod stored;
pub mod tables;
pub mod unsound;

/// Runs a program with its arguments. Its exit status is 0 where all is the same, 1 where something differs, 2 where it was called wrongly.
pub fn exit_after(run: fn(&[String]) -> Result<bool, String>) -> ExitCode {
    let arguments: Vec<String> = std::env::args().skip(1).collect();
    match run(&arguments) {
        Ok(true) => ExitCode::SUCCESS,
        Ok(false) => ExitCode::FAILURE,
        Err(message) => {
            eprintln!("{message}");
            ExitCode::from(2)
        }
    }
}
