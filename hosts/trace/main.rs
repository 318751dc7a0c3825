//! `show FILE [--counter N] [--list] [--first] [--picture FILE.svg]` replays a trace of a unit (document 02, item 3) on the kernel, from the empty
//! state at counter 0 or N, and prints item 3's line. FILE may be -, the standard input. docs/reading-traces.md says what the options show.
//! `show --write-carriers FILE` and `show --write-differs FILE` write the stored traces of this folder.
//! The exit status is 0 where no record differs, 1 where one does, 2 where the program was called wrongly or a file can't be read or written.
#![forbid(unsafe_code)]
use std::io::{BufWriter, ErrorKind, Read, Write};
use std::process::ExitCode;
use trace_tool::play::Line;
use trace_tool::{first, list, picture, stored};

const USAGE: &str = "show FILE [--counter N] [--list] [--first] [--picture FILE.svg]\nshow --write-carriers FILE\nshow --write-differs FILE";

#[derive(Default, Debug, PartialEq)]
struct Options {
    path: Option<String>,
    counter: u32,
    list: bool,
    first: bool,
    picture: Option<String>,
}

fn options(arguments: &[String]) -> Result<Options, String> {
    let mut options = Options::default();
    let mut left = arguments.iter();
    while let Some(argument) = left.next() {
        let mut next = || left.next().cloned().ok_or(format!("{argument} needs something after it"));
        match argument.as_str() {
            "--counter" => options.counter = counter_in(&next()?)?,
            "--list" => options.list = true,
            "--first" => options.first = true,
            "--picture" => options.picture = Some(next()?),
            option if option.starts_with("--") => return Err(format!("'{option}' isn't known\n{USAGE}")),
            path if options.path.is_none() => options.path = Some(path.to_string()),
            path => return Err(format!("'{path}' is a second file\n{USAGE}")),
        }
    }
    Ok(options)
}

fn counter_in(text: &str) -> Result<u32, String> {
    text.parse().map_err(|_| format!("'{text}' is no value of the counter: 0 to 4294967295"))
}

fn read(path: &str) -> Result<Vec<u8>, String> {
    let mut bytes = Vec::new();
    let read = match path {
        "-" => std::io::stdin().read_to_end(&mut bytes).map(|_| bytes),
        _ => std::fs::read(path),
    };
    read.map_err(|error| format!("{path}: {error}"))
}

fn write(path: &str, bytes: &[u8]) -> Result<(), String> {
    std::fs::write(path, bytes).map_err(|error| format!("{path}: {error}"))
}

/// Prints what the options ask for, the line last.
fn print(options: &Options, bytes: &[u8], line: &Line) -> std::io::Result<()> {
    let mut to = BufWriter::new(std::io::stdout().lock());
    if options.list {
        list::write(&mut to, bytes, options.counter)?;
    }
    if options.first {
        first::write(&mut to, bytes, options.counter)?;
    }
    writeln!(to, "{line}")?;
    to.flush()
}

/// Gives whether no record differs.
fn show(options: &Options) -> Result<bool, String> {
    let path = options.path.as_deref().ok_or(format!("no file is named\n{USAGE}"))?;
    let bytes = read(path)?;
    if let Some(path) = &options.picture {
        write(path, picture::picture(&bytes, options.counter).as_bytes())?;
    }
    let line = Line::of(&bytes, options.counter);
    match print(options, &bytes, &line) {
        // Whoever reads the list may stop before its end.
        Err(error) if error.kind() != ErrorKind::BrokenPipe => Err(error.to_string()),
        _ => Ok(line.differ == 0),
    }
}

fn run(arguments: &[String]) -> Result<bool, String> {
    match arguments {
        [option, path] if option == "--write-carriers" => write(path, &stored::carriers()).map(|()| true),
        [option, path] if option == "--write-differs" => write(path, &stored::differs()).map(|()| true),
        _ => show(&options(arguments)?),
    }
}

fn main() -> ExitCode {
    let arguments: Vec<String> = std::env::args().skip(1).collect();
    match run(&arguments) {
        Ok(same) => ExitCode::from(u8::from(!same)),
        Err(message) => {
            eprintln!("{message}");
            ExitCode::from(2)
        }
    }
}

#[cfg(test)]
mod tests {
    use super::*;

    fn read_options(text: &str) -> Result<Options, String> {
        options(&text.split_whitespace().map(str::to_string).collect::<Vec<_>>())
    }

    #[test]
    fn all_options() {
        let expected = Options { path: Some("-".to_string()), counter: 7, list: true, first: true, picture: Some("p.svg".to_string()) };
        assert_eq!(read_options("--list - --counter 7 --picture p.svg --first"), Ok(expected));
    }

    #[test]
    fn wrong_options() {
        for text in ["--lists a", "a b", "a --counter", "a --counter -1", "a --counter 4294967296", "a --picture"] {
            assert!(read_options(text).is_err(), "{text}");
        }
        assert!(show(&Options::default()).is_err());
    }
}
