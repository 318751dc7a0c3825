// The functions that header and wrapper declare, read from their text, and the programs that lines of code on the pages are taken from.
use std::fs;
use std::path::Path;

pub const HEADER: &str = include_str!("../../../../c/linguastel.h");
pub const PRINT_HEADER: &str = include_str!("../../../../c/linguastel_print.h");

// The wrapper's modules.
const WRAPPER: [(&str, &str); 12] = [
    ("answer", include_str!("../../answer.rs")),
    ("call", include_str!("../../call.rs")),
    ("calls", include_str!("../../calls.rs")),
    ("display", include_str!("../../display.rs")),
    ("layout", include_str!("../../layout.rs")),
    ("library", include_str!("../../library.rs")),
    ("lists", include_str!("../../lists.rs")),
    ("names", include_str!("../../names.rs")),
    ("record", include_str!("../../record.rs")),
    ("replay", include_str!("../../replay.rs")),
    ("state", include_str!("../../state.rs")),
    ("trace", include_str!("../../trace.rs")),
];

const WRAPPER_ROOT: &str = include_str!("../../lib.rs");

// A function's name, and its prototype without what says nothing to a host.
#[derive(PartialEq)]
pub struct Function {
    pub name: String,
    pub prototype: String,
}

fn is_word(c: char) -> bool {
    c.is_alphanumeric() || c == '_'
}

// The words of a text: names of functions among them.
pub fn words(text: &str) -> impl Iterator<Item = &str> {
    text.split(|c| !is_word(c)).filter(|word| !word.is_empty())
}

// The text with no blanks but those that keep two words apart, so that it can be compared wherever its lines are broken.
pub fn squeezed(text: &str) -> String {
    let mut result = String::new();
    let mut blank = false;
    for c in text.chars() {
        if c.is_whitespace() {
            blank = true;
            continue;
        }
        if blank && is_word(c) && result.ends_with(is_word) {
            result.push(' ');
        }
        blank = false;
        result.push(c);
    }
    result.replace(",)", ")")
}

// C without comments, and without the preprocessor's lines.
fn plain_c(text: &str) -> String {
    let (first, rest) = text.split_once("/*").map_or((text, None), |(first, rest)| (first, Some(rest)));
    let mut code = first.to_string();
    for part in rest.iter().flat_map(|rest| rest.split("/*")) {
        code.push_str(part.split_once("*/").map_or("", |(_, code)| code));
    }
    let (mut kept, mut directive) = (String::new(), false);
    for line in code.lines() {
        if !directive && !line.trim_start().starts_with('#') {
            kept.push_str(line);
            kept.push('\n');
        }
        directive = line.ends_with('\\') && (directive || line.trim_start().starts_with('#'));
    }
    kept.replace("extern \"C\" {", "")
}

// The prototype without 'static inline' and without the macros before it.
fn bare(prototype: &str) -> String {
    let says_nothing = |word: &&str| ["static", "inline", "extern"].contains(word) || word.starts_with("LINGUASTEL_");
    squeezed(&prototype.split_whitespace().skip_while(says_nothing).collect::<Vec<&str>>().join(" "))
}

// What C declares outside of braces with a name that begins as those of the library do.
pub fn c_functions(text: &str) -> Vec<Function> {
    let (mut functions, mut depth, mut outside) = (vec![], 0_usize, String::new());
    for c in plain_c(text).chars() {
        match c {
            '{' => depth += 1,
            '}' => depth = depth.saturating_sub(1),
            _ if depth == 0 => outside.push(c),
            _ => {}
        }
        if depth == 0 && (c == '}' || c == ';') || depth == 1 && c == '{' {
            let prototype = bare(outside.trim_end_matches(';'));
            let name = prototype.split_once('(').and_then(|(before, _)| words(before).last());
            if let Some(name) = name.filter(|name| name.starts_with("linguastel_") && prototype.ends_with(')')) {
                functions.push(Function { name: name.to_string(), prototype: prototype.clone() });
            }
            outside.clear();
        }
    }
    functions
}

// The public functions of the wrapper.
pub fn wrapper_functions() -> Vec<Function> {
    WRAPPER.iter().flat_map(|(_, text)| rust_functions(text)).collect()
}

pub fn wrapper_text() -> String {
    WRAPPER.iter().map(|(_, text)| *text).collect()
}

// Whether these are all modules of the wrapper.
pub fn wrapper_is_whole() -> bool {
    let modules = WRAPPER_ROOT.lines().filter_map(|line| line.strip_prefix("mod ")?.strip_suffix(';'));
    modules.eq(WRAPPER.iter().map(|(name, _)| *name))
}

fn rust_functions(text: &str) -> Vec<Function> {
    let code: String = text.lines().filter(|line| !line.trim_start().starts_with("//")).map(|line| format!("{line}\n")).collect();
    let declared = code.split("pub ").skip(1).map(|text| text.split_once('{').map_or(text, |(prototype, _)| prototype));
    let functions = declared.filter(|text| text.starts_with("fn ") || text.starts_with("const fn "));
    functions.map(rust_function).collect()
}

fn rust_function(prototype: &str) -> Function {
    let name = prototype.split_once("fn ").and_then(|(_, text)| words(text).next()).unwrap_or("");
    Function { name: name.to_string(), prototype: squeezed(prototype) }
}

// The signatures on a page: each starts at the left edge.
pub fn signatures(text: &str) -> Vec<Function> {
    let lines: Vec<&str> = text.lines().collect();
    let one = |lines: &[&str]| rust_function(&lines.join("\n"));
    lines.chunk_by(|_, next| next.starts_with([' ', ')'])).map(one).collect()
}

// The words behind a fence, and the files whose lines may stand there. hosts/check compiles and runs them. The standard's prototypes are those of the port.
const PROGRAMS: [(&str, &[&str]); 6] = [
    ("c", &["hosts/c/demo.c", "hosts/c/replay.c", "hosts/port/port.c", "hosts/port/calls.c", "hosts/examples/first.c"]),
    ("c standard", &["hosts/port/itron.h"]),
    ("cpp", &["hosts/examples/first.cpp"]),
    ("rust", &["hosts/rust/src/bin/demo.rs", "hosts/rust/src/bin/replay.rs", "hosts/examples/cargo/src/main.rs"]),
    ("cmake", &["hosts/examples/cmake/CMakeLists.txt"]),
    ("toml", &["hosts/examples/cargo/Cargo.toml"]),
];

// The standard's packets aren't const, those of the port are.
fn comparable(text: &str) -> String {
    squeezed(text).replace("const ", "")
}

// The text of each program, squeezed, with the words behind its fence.
pub struct Programs {
    texts: Vec<(&'static str, String)>,
}

impl Programs {
    // From the folder that holds hosts.
    pub fn read(root: &Path) -> Result<Programs, String> {
        let files = PROGRAMS.iter().flat_map(|(kind, files)| files.iter().map(|file| (*kind, root.join(file))));
        let read = |(kind, file): (&'static str, std::path::PathBuf)| match fs::read_to_string(&file) {
            Ok(text) => Ok((kind, comparable(&text))),
            Err(error) => Err(format!("{}: {error}", file.display())),
        };
        Ok(Programs { texts: files.map(read).collect::<Result<_, String>>()? })
    }

    // Whether a program of this kind has these lines, wherever they are broken. Blocks of other kinds are no code.
    pub fn have(&self, kind: &str, lines: &str) -> bool {
        let lines = comparable(lines);
        let mut of_kind = self.texts.iter().filter(|(found, _)| *found == kind).peekable();
        of_kind.peek().is_none() || !lines.is_empty() && of_kind.any(|(_, text)| text.contains(&lines))
    }
}
