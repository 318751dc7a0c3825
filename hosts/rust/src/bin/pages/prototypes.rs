// The prototypes on the pages are those of header and wrapper, and every function that hosts call stands on a page.
use std::collections::BTreeSet;

use crate::check::Check;
use crate::document::CALLS;
use crate::page::{Page, Section};
use crate::sources::{c_functions, signatures, words, wrapper_functions, Function, HEADER, PRINT_HEADER};

const IN_C: &str = "c prototype";
const IN_RUST: &str = "rust prototype";
const STANDARD: &str = "c standard";

// The calls that the standard doesn't have: define_task, look, fetch.
const OWN_CALLS: [usize; 3] = [1, 22, 23];

// The tick is the call of the standard with this name.
const TICK_IN_STANDARD: &str = "isig_tim";

// Functions of the headers that their other functions are made of. A host has no use for them.
const PARTS: [&str; 14] = [
    "linguastel_is_aligned",
    "linguastel_refusal",
    "linguastel_look_only",
    "linguastel_linked",
    "linguastel_head",
    "linguastel_at_most",
    "linguastel_make_call",
    "linguastel_print_wait",
    "linguastel_print_task",
    "linguastel_print_tasks",
    "linguastel_wait_order",
    "linguastel_print_queue",
    "linguastel_print_messages",
    "linguastel_print_mailbox",
];

// The variable that the wrapper's build.rs reads.
const ARCHIVES_FOLDER: &str = "LINGUASTEL_LIB";

pub struct Declared {
    in_c: Vec<Function>,
    in_rust: Vec<Function>,
}

impl Declared {
    pub fn read() -> Declared {
        Declared { in_c: [HEADER, PRINT_HEADER].map(c_functions).into_iter().flatten().collect(), in_rust: wrapper_functions() }
    }
}

impl Section {
    fn lines_of(&self, kind: &str) -> String {
        let lines = self.blocks.iter().filter(|block| block.kind == kind).flat_map(|block| &block.lines);
        lines.map(|line| format!("{}\n", line.text)).collect()
    }
}

impl Check {
    // The section has the prototypes of these functions, in this order.
    pub fn check_prototypes(&mut self, page: &Page, section: &Section, in_c: &[String], in_rust: &[String]) {
        let c = c_functions(&section.lines_of(IN_C));
        let rust = signatures(&section.lines_of(IN_RUST));
        self.expect(c.iter().map(|one| &one.name).eq(in_c), page, section.at, &format!("the functions in C are {}", in_c.join(", ")));
        self.expect(rust.iter().map(|one| &one.name).eq(in_rust), page, section.at, &format!("the functions in Rust are {}", in_rust.join(", ")));
    }

    // Every prototype of the section is declared so in header or wrapper.
    pub fn check_declared(&mut self, page: &Page, section: &Section) {
        let c = c_functions(&section.lines_of(IN_C));
        let rust = signatures(&section.lines_of(IN_RUST));
        let wrong_c = c.iter().filter(|one| !self.declared.in_c.contains(one));
        let wrong_rust = rust.iter().filter(|one| !self.declared.in_rust.contains(one));
        let wrong: Vec<&str> = wrong_c.chain(wrong_rust).map(|one| one.name.as_str()).collect();
        for name in wrong {
            self.differs(page, section.at, &format!("neither the header nor the wrapper declares {name} like this"));
        }
    }

    // The standard's prototypes, where it has the call: the first is that of the call, and a second one that of its i-form.
    pub fn check_standard(&mut self, page: &Page, section: &Section, call: usize) {
        let text = section.lines_of(STANDARD);
        let names: Vec<&str> = text.lines().filter_map(|line| line.split_once('(')).filter_map(|(before, _)| words(before).last()).collect();
        let row = &CALLS[call];
        let i_form = format!("i{}", row.name);
        let right = match names[..] {
            [] => OWN_CALLS.contains(&call),
            [TICK_IN_STANDARD] => call == 0,
            [name] => name == row.name && !OWN_CALLS.contains(&call),
            [name, handler] => name == row.name && handler == i_form && row.i_form,
            _ => false,
        };
        self.expect(right, page, section.at, "these aren't the standard's calls");
    }
}

// Names that stand in header or wrapper and on no page, and names on pages that neither header nor wrapper has.
pub fn names_that_differ(pages: &[Page], declared: &Declared) -> Vec<String> {
    let on_pages: BTreeSet<&str> = pages.iter().flat_map(|page| page.code()).flat_map(words).collect();
    let functions = declared.in_c.iter().chain(&declared.in_rust).map(|one| one.name.as_str());
    let missing = functions.filter(|name| !PARTS.contains(name) && !on_pages.contains(name));
    let in_headers: BTreeSet<&str> = words(HEADER).chain(words(PRINT_HEADER)).collect();
    let is_in_c = |word: &&&str| ["linguastel_", "LINGUASTEL_", "Linguastel"].iter().any(|start| word.starts_with(start) && word.len() > start.len());
    let unknown = on_pages.iter().filter(is_in_c).filter(|word| !in_headers.contains(*word) && **word != ARCHIVES_FOLDER);
    let stale = PARTS.iter().filter(|part| declared.in_c.iter().all(|one| one.name != **part));
    let missing = missing.map(|name| format!("no page has {name}"));
    let unknown = unknown.map(|word| format!("the headers have no {word}, which is on a page"));
    missing.chain(unknown).chain(stale.map(|part| format!("the headers have no {part}, which is left out here"))).collect()
}
