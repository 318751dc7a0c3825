//! What the marks of a picture mean: those that occur in it.
use crate::bars::{self, End, ENDS};
use crate::fills::Sort;
use crate::lanes::{Holder, Lanes, TaskLane};
use crate::scale::{Scale, RIGHT};
use crate::svg::{width_of, Svg};
use crate::{axis, faults};

pub const PITCH: f64 = 18.0;

/// Of a swatch or symbol.
const MARK: f64 = 22.0;

enum Mark {
    Swatch(&'static str),
    Symbol(End),
    Fault(bool),
    Grid,
    None,
}

type Entry = (Mark, String);

fn holder_entries(sort: Sort, lanes: &[&Holder], scale: &Scale) -> Vec<Entry> {
    if lanes.is_empty() {
        return Vec::new();
    }
    let (classes, texts) = match sort {
        Sort::Queue => (["words", "words-most", "capacity"], ["words stored", "most words", "capacity of a data queue"]),
        Sort::Mailbox => (["messages", "messages-most", "exists"], ["messages queued", "most messages", "mailbox exists"]),
    };
    let dark = if scale.sampled() { format!("fewest {}", texts[0]) } else { texts[0].to_string() };
    let mut entries = vec![(Mark::Swatch(classes[0]), dark)];
    entries.extend(scale.sampled().then(|| (Mark::Swatch(classes[1]), texts[1].to_string())));
    entries.push((Mark::Swatch(classes[2]), texts[2].to_string()));
    entries
}

fn wait_entries(tasks: &[&TaskLane], scale: &Scale) -> Vec<Entry> {
    let occurs = |kind: usize| tasks.iter().flat_map(|lane| &lane.bars).any(|bar| bars::kind_of(bar) == kind);
    let texts = ["waits to send", "waits to receive", "waits at a mailbox"];
    (0..3).filter(|kind| occurs(*kind)).map(|kind| (Mark::Swatch(bars::classes(scale)[kind]), texts[kind].to_string())).collect()
}

fn end_entries(lanes: &Lanes, scale: &Scale) -> Vec<Entry> {
    let text = |end| match end {
        End::TimeOut => ["time-out (E_TMOUT)", "under a bar, row 1: time-out (E_TMOUT)"],
        End::Release => ["released (E_RLWAI)", "row 2: released (E_RLWAI)"],
        End::Delete => ["deleted (E_DLT)", "row 3: deleted (E_DLT)"],
    };
    let entry = |end: End| match scale.dense() {
        true => (Mark::Swatch(end.row_class()), text(end)[1].to_string()),
        false => (Mark::Symbol(end), text(end)[0].to_string()),
    };
    ENDS.into_iter().filter(|end| bars::occurs(&lanes.tasks, *end)).map(entry).collect()
}

fn fault_entries(lanes: &Lanes, scale: &Scale) -> Vec<Entry> {
    let texts = [(true, "differs", "answer differs"), (false, "not-run", "record not run")];
    let occurs = |run: bool| lanes.faults.iter().any(|fault| fault.run == run);
    let mark = |run, class| if scale.dense() { Mark::Swatch(class) } else { Mark::Fault(run) };
    texts.into_iter().filter(|(run, ..)| occurs(*run)).map(|(run, class, text)| (mark(run, class), text.to_string())).collect()
}

fn draw_mark(svg: &mut Svg, mark: &Mark, x: f64, y: f64) {
    match mark {
        Mark::Swatch(class) => svg.rect(class, (x, y - 9.0), (MARK - 6.0, 10.0), ""),
        Mark::Symbol(end) => end.symbol(svg, x + 8.0, y - 4.0, ""),
        Mark::Fault(run) => faults::symbol(svg, *run, x + 8.0, y - 4.0, ""),
        Mark::None => (),
        Mark::Grid => svg.path("grid", &format!("M{} {}V{}", x + 8.0, y - 11.0, y + 2.0), ""),
    }
}

/// What is drawn of the lanes.
pub struct Shown<'a> {
    pub queues: Vec<&'a Holder>,
    pub mailboxes: Vec<&'a Holder>,
    pub tasks: Vec<&'a TaskLane>,
}

/// Draws the legend below y, and gives where it ends. Each group of entries starts a line of its own.
pub fn draw(svg: &mut Svg, lanes: &Lanes, shown: &Shown, scale: &Scale, y: f64) -> f64 {
    let mut held = holder_entries(Sort::Queue, &shown.queues, scale);
    held.extend(holder_entries(Sort::Mailbox, &shown.mailboxes, scale));
    let ticked = axis::counter_labels(lanes, scale).len() > 1;
    held.extend(ticked.then(|| (Mark::Grid, "tick to the counter's value".to_string())));
    let mut waits = wait_entries(&shown.tasks, scale);
    let mut ends = end_entries(lanes, scale);
    ends.extend((!waits.is_empty()).then(|| (Mark::None, "no mark: E_OK".to_string())));
    if !scale.dense() {
        waits.append(&mut ends);
    }
    let mut base = y;
    for entries in [fault_entries(lanes, scale), held, waits, ends].into_iter().filter(|entries| !entries.is_empty()) {
        base += PITCH;
        let mut x = 16.0;
        for (mark, text) in &entries {
            let width = MARK + width_of(text, 11.0) + 14.0;
            if x + width > RIGHT {
                (x, base) = (16.0, base + PITCH);
            }
            draw_mark(svg, mark, x, base);
            svg.text("", x + MARK, base, text);
            x += width;
        }
    }
    base
}
