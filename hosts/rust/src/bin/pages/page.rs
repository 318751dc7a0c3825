// Reading a page: its sections with their text, tables and blocks.
use std::fs;

// A line of a page with its number.
pub struct Line {
    pub at: usize,
    pub text: String,
}

pub struct Table {
    pub header: Vec<String>,
    pub rows: Vec<(usize, Vec<String>)>,
}

// What stands between two fences, with the word behind the first.
pub struct Block {
    pub kind: String,
    pub lines: Vec<Line>,
}

// What follows a heading of the second level.
pub struct Section {
    pub at: usize,
    pub title: String,
    pub text: Vec<Line>,
    pub tables: Vec<Table>,
    pub blocks: Vec<Block>,
}

pub struct Page {
    pub file: String,
    pub text: String,
    pub sections: Vec<Section>,
}

// The most columns of a line.
const COLUMNS: usize = 120;

impl Page {
    // The lines that are longer than they may be.
    pub fn long_lines(&self) -> Vec<usize> {
        self.text.lines().enumerate().filter(|(_, line)| line.chars().count() > COLUMNS).map(|(index, _)| index + 1).collect()
    }

    // What stands between backticks or fences.
    pub fn code(&self) -> Vec<&str> {
        quoted(&self.text)
    }
}

impl Table {
    // A cell that is missing is empty. A row whose first cell is empty goes on with the cells of the row above it.
    fn add(&mut self, at: usize, mut cells: Vec<String>) {
        cells.resize(self.header.len(), String::new());
        match self.rows.last_mut().filter(|_| cells[0].is_empty()) {
            Some((_, above)) => above.iter_mut().zip(cells).for_each(|(above, cell)| *above = format!("{above} {cell}").trim().to_string()),
            None => self.rows.push((at, cells)),
        }
    }
}

impl Section {
    pub fn new(at: usize, title: &str) -> Section {
        Section { at, title: title.to_string(), text: vec![], tables: vec![], blocks: vec![] }
    }

    pub fn table(&self, header: &[&str]) -> Option<&Table> {
        self.tables.iter().find(|table| table.header == header)
    }

    // What is said of a table of calls.
    pub fn is_of_tables(&self) -> bool {
        self.title == "table"
    }

    // What is said of a trace.
    pub fn is_of_traces(&self) -> bool {
        self.title == "trace"
    }

    // What is said of the replay in blocks.
    pub fn is_of_replays(&self) -> bool {
        self.title == "replay"
    }

    // '4 snd_dtq' is a call's title.
    pub fn call(&self) -> Option<(usize, &str)> {
        let (number, name) = self.title.split_once(' ')?;
        Some((number.parse().ok()?, name))
    }

    // A row of a table; the first two are its header and the rule below it.
    pub fn add_row(&mut self, at: usize, text: &str, first: bool) {
        let cells = cells_of(text);
        if first {
            self.tables.push(Table { header: cells, rows: vec![] });
        } else if let Some(table) = self.tables.last_mut().filter(|_| !text.starts_with("|---")) {
            table.add(at, cells);
        }
    }
}

fn cells_of(row: &str) -> Vec<String> {
    let row = row.strip_prefix('|').unwrap_or(row);
    row.strip_suffix('|').unwrap_or(row).split('|').map(|cell| cell.trim().to_string()).collect()
}

pub fn page_of(file: &str, text: &str) -> Page {
    let mut sections = vec![Section::new(1, "")];
    let (mut in_block, mut in_table) = (false, false);
    for (index, line) in text.lines().enumerate() {
        let at = index + 1;
        let section = sections.last_mut().expect("there is always one");
        let is_row = !in_block && line.starts_with('|');
        if let Some(kind) = line.strip_prefix("```") {
            in_block = !in_block;
            if in_block {
                section.blocks.push(Block { kind: kind.to_string(), lines: vec![] });
            }
        } else if in_block {
            let lines = &mut section.blocks.last_mut().expect("a block was begun").lines;
            lines.push(Line { at, text: line.to_string() });
        } else if let Some(title) = line.strip_prefix("## ") {
            sections.push(Section::new(at, title));
        } else if is_row {
            section.add_row(at, line, !in_table);
        } else {
            section.text.push(Line { at, text: line.to_string() });
        }
        in_table = is_row;
    }
    Page { file: file.to_string(), text: text.to_string(), sections }
}

// What stands between backticks.
pub fn quoted(text: &str) -> Vec<&str> {
    text.split('`').skip(1).step_by(2).collect()
}

pub fn read_pages(folder: &str) -> Result<Vec<Page>, String> {
    let entries = fs::read_dir(folder).map_err(|error| format!("{folder}: {error}"))?;
    let mut files: Vec<String> = entries.flatten().map(|entry| entry.path().display().to_string()).filter(|path| path.ends_with(".md")).collect();
    files.sort();
    let read = |file: &String| fs::read_to_string(file).map(|text| page_of(file, &text)).map_err(|error| format!("{file}: {error}"));
    files.iter().map(read).collect()
}
