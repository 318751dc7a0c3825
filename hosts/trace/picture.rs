//! A trace as a picture: a lane for each data queue, mailbox and task in which something happens, over the record numbers.
use crate::fills::{self, Sort};
use crate::lanes::{self, Holder, Lanes, TaskLane};
use crate::legend::{self, Shown};
use crate::scale::{Scale, LEFT, WHOLE};
use crate::svg::{at, escaped, Svg, HATCH, STYLE};
use crate::{axis, bars, faults};

/// Of a heading over a group of lanes, and of a line of text.
const HEADING: f64 = 22.0;
const LINE: f64 = 16.0;

/// The picture of a file's bytes, replayed from the empty state with this counter, as an SVG document.
pub fn picture(bytes: &[u8], counter: u32) -> String {
    let lanes = lanes::gather(bytes, counter);
    let scale = Scale::new(lanes.line.records);
    let shown = shown(&lanes);
    let mut head = Svg::default();
    let above = draw_head(&mut head, &lanes, &shown, &scale);
    axis::draw(&mut head, &lanes, &scale, above, true);
    let top = above + axis::HEIGHT;
    faults::draw(&mut head, &lanes, &scale, top);
    let mut drawn = Svg::default();
    let bottom = draw_lanes(&mut drawn, &shown, &scale, top + faults::PITCH * faults::rows(&lanes) as f64);
    let mut grid = Svg::default();
    axis::draw_grid(&mut grid, &lanes, &scale, top, bottom);
    let mut foot = Svg::default();
    faults::draw_lines(&mut foot, &lanes, &scale, top, bottom);
    axis::draw(&mut foot, &lanes, &scale, bottom, false);
    let end = draw_foot(&mut foot, &lanes, bottom + axis::HEIGHT);
    document(&title(&lanes), end, &[grid, head, drawn, foot])
}

fn document(title: &str, height: f64, parts: &[Svg]) -> String {
    let size = format!("width=\"{}\" height=\"{}\" viewBox=\"0 0 {} {}\"", at(WHOLE), at(height), at(WHOLE), at(height));
    let start = format!("<svg xmlns=\"http://www.w3.org/2000/svg\" {size}>\n<title>{}</title>", escaped(title));
    let paper = format!("<rect width=\"{}\" height=\"{}\" fill=\"#fff\"/>", at(WHOLE), at(height));
    let body: String = parts.iter().map(|part| part.text.as_str()).collect();
    format!("{start}\n<style>\n{STYLE}\n</style>\n<defs>{HATCH}</defs>\n{paper}\n{body}</svg>\n")
}

fn title(lanes: &Lanes) -> String {
    format!("Trace of {} records, counter {} to {}", lanes.line.records, lanes.start, lanes.counter)
}

/// The lanes in which something happens.
fn shown(lanes: &Lanes) -> Shown<'_> {
    Shown {
        queues: lanes.queues.iter().filter(|lane| lane.used).collect(),
        mailboxes: lanes.mailboxes.iter().filter(|lane| lane.used).collect(),
        tasks: lanes.tasks.iter().filter(|lane| !lane.bars.is_empty()).collect(),
    }
}

/// Title, line of item 3, what the reader has to know, legend; gives where they end.
fn draw_head(svg: &mut Svg, lanes: &Lanes, shown: &Shown, scale: &Scale) -> f64 {
    svg.text("title", 16.0, 24.0, &title(lanes));
    let mut y = 42.0;
    svg.text("", 16.0, y, &lanes.line.to_string());
    for note in notes(lanes, scale) {
        y += LINE;
        svg.text("", 16.0, y, &note);
    }
    legend::draw(svg, lanes, shown, scale, y) + 14.0
}

fn notes(lanes: &Lanes, scale: &Scale) -> Vec<String> {
    let mut notes = Vec::new();
    if scale.sampled() {
        let columns = format!("Sampled: each column stands for {} records.", scale.per_column);
        notes.push(format!("{columns} A bar of half the height: the task waits in some of them, not in all."));
    }
    if !faults::lines_drawn(lanes, scale) {
        notes.push("Records that differ are marked above the lanes alone: lines through the lanes would hide them.".to_string());
    }
    notes
}

fn draw_lanes(svg: &mut Svg, shown: &Shown, scale: &Scale, top: f64) -> f64 {
    let y = draw_holders(svg, Sort::Queue, "data queues: words", &shown.queues, scale, top);
    let y = draw_holders(svg, Sort::Mailbox, "mailboxes: messages", &shown.mailboxes, scale, y);
    draw_tasks(svg, &shown.tasks, scale, y)
}

fn draw_holders(svg: &mut Svg, sort: Sort, heading: &str, lanes: &[&Holder], scale: &Scale, top: f64) -> f64 {
    if lanes.is_empty() {
        return top;
    }
    svg.text("group", 16.0, top + 14.0, heading);
    let mut y = top + HEADING;
    for lane in lanes {
        fills::draw(svg, sort, lane, scale, y);
        y += fills::PITCH;
    }
    y
}

fn draw_tasks(svg: &mut Svg, lanes: &[&TaskLane], scale: &Scale, top: f64) -> f64 {
    if lanes.is_empty() {
        return top;
    }
    svg.text("group", 16.0, top + 14.0, "tasks: waits");
    let mut y = top + HEADING;
    for lane in lanes {
        bars::draw(svg, lane, scale, y);
        y += bars::pitch(scale);
    }
    y
}

/// Which lanes are left out; gives where that ends.
fn draw_foot(svg: &mut Svg, lanes: &Lanes, top: f64) -> f64 {
    let idle = |holders: &[Holder]| holders.iter().filter(|lane| !lane.used && !lane.levels.is_empty()).map(|lane| lane.number).collect();
    let tasks = lanes.tasks.iter().filter(|lane| lane.defined && lane.bars.is_empty()).map(|lane| lane.number).collect();
    let groups =
        [(["data queue", "data queues"], idle(&lanes.queues)), (["mailbox", "mailboxes"], idle(&lanes.mailboxes)), (["task", "tasks"], tasks)];
    let texts: Vec<String> = groups.into_iter().filter_map(|(names, numbers): (_, Vec<usize>)| left_out(names, &numbers)).collect();
    if texts.is_empty() {
        return top;
    }
    svg.text("", LEFT, top + 12.0, &format!("Left out, nothing stored and nobody waiting: {}.", texts.join("; ")));
    top + 24.0
}

/// With the name for one and the name for several.
fn left_out([one, several]: [&str; 2], numbers: &[usize]) -> Option<String> {
    let listed: Vec<String> = numbers.iter().map(usize::to_string).collect();
    let name = if listed.len() == 1 { one } else { several };
    (!listed.is_empty()).then(|| format!("{name} {}", listed.join(", ")))
}

#[cfg(test)]
mod tests {
    use super::*;
    use crate::stored::{self, Writer};
    use crate::svg::width_of;
    use linguastel::{number, Call, Context};

    /// Calls of four tasks on two data queues and a mailbox, drawn by a simple generator.
    fn many(records: usize) -> Vec<u8> {
        let mut writer = Writer::empty(0);
        for task in 1..=4 {
            writer.add(Call { value: 5, ..Call::new(number::DEFINE_TASK, Context::HANDLER, task) });
        }
        let mut seed: u64 = 1;
        for _ in 4..records {
            seed = seed.wrapping_mul(6_364_136_223_846_793_005).wrapping_add(1_442_695_040_888_963_407);
            let draw = |shift: u32, below: u64| ((seed >> shift) % below) as u32;
            let context = Context::task(draw(33, 5));
            let call = Call { value: draw(38, 9), tmout: draw(42, 9) as i32 - 1, attribute: draw(46, 2), ..Call::default() };
            let (number, object) = (draw(50, 24), draw(55, 2) + 1);
            writer.add(Call { number, caller: context.caller, object, ..call });
        }
        writer.bytes().to_vec()
    }

    fn wrong(records: &[u8]) -> Vec<u8> {
        let mut bytes = records.to_vec();
        bytes.iter_mut().skip(20).step_by(32).for_each(|byte| *byte ^= 1);
        bytes
    }

    /// Every element is closed, every attribute quoted, every & an entity.
    fn assert_well_formed(text: &str) {
        let mut open: Vec<&str> = Vec::new();
        for part in text.split('<').skip(1) {
            let (tag, content) = part.split_once('>').expect("a tag ends");
            assert!(!content.contains('>') && tag.matches('"').count() % 2 == 0, "{part}");
            for entity in content.split('&').skip(1) {
                assert!(["amp;", "lt;", "gt;", "quot;"].iter().any(|known| entity.starts_with(known)), "{content}");
            }
            let name = tag.split([' ', '/']).next().expect("a first part");
            if let Some(closed) = tag.strip_prefix('/') {
                assert_eq!(open.pop(), Some(closed));
            } else if !tag.ends_with('/') {
                open.push(name);
            }
        }
        assert!(open.is_empty(), "{open:?} not closed");
    }

    fn attribute<'a>(tag: &'a str, name: &str) -> &'a str {
        let start = tag.find(&format!(" {name}=\"")).expect("the attribute") + name.len() + 3;
        tag[start..].split('"').next().expect("its value")
    }

    fn content(element: &str) -> &str {
        let (_, rest) = element.split_once('>').expect("a tag ends");
        rest.split('<').next().expect("its text")
    }

    /// Left, right, top and bottom of each text.
    fn text_boxes(svg: &str) -> Vec<(f64, f64, f64, f64, String)> {
        let texts = svg.split("<text").skip(1);
        let boxes = texts.map(|part| {
            let (tag, content) = (part, content(part).to_string());
            let [x, y] = ["x", "y"].map(|name| attribute(tag, name).parse::<f64>().expect("a number"));
            let (size, shift) = match attribute(tag, "class") {
                "title" => (15.0, 0.0),
                "name" => (11.0, 1.0),
                "small" => (9.0, 1.0),
                "label" => (10.0, 0.5),
                "inside" | "inside-dark" => (9.0, 0.0),
                _ => (11.0, 0.0),
            };
            let width = width_of(&content, size);
            (x - shift * width, x + (1.0 - shift) * width, y - 0.75 * size, y + 0.2 * size, content)
        });
        boxes.collect()
    }

    /// All texts are inside, and none covers another.
    fn assert_readable(svg: &str) {
        let start = &svg[..svg.find("<title>").expect("a title")];
        let height: f64 = attribute(start, "height").parse().expect("a number");
        let boxes = text_boxes(svg);
        for (place, one) in boxes.iter().enumerate() {
            assert!(one.0 >= 0.0 && one.1 <= WHOLE && one.2 >= 0.0 && one.3 <= height, "{one:?} is outside");
            for other in &boxes[place + 1..] {
                let apart = one.1 <= other.0 || other.1 <= one.0 || one.3 <= other.2 || other.3 <= one.2;
                assert!(apart, "{one:?} covers {other:?}");
            }
        }
    }

    #[test]
    fn all_pictures_are_well_formed_and_readable() {
        let carriers = stored::carriers();
        for bytes in
            [carriers.clone(), stored::differs(), wrong(&carriers), Vec::new(), vec![0; 32], many(20), many(600), many(20_000), wrong(&many(20_000))]
        {
            for counter in [0, u32::MAX - 5] {
                let svg = picture(&bytes, counter);
                assert_well_formed(&svg);
                assert_readable(&svg);
            }
        }
    }

    #[test]
    fn lanes_of_the_carriers() {
        let svg = picture(&stored::carriers(), 0);
        let names: Vec<&str> = svg.lines().filter(|line| line.starts_with("<text class=\"name\"")).map(|line| content(line)).collect();
        let lanes = ["data queue 1", "data queue 2", "mailbox 1", "task 1", "task 4", "task 5"];
        assert_eq!(names, [["record", "counter"].as_slice(), &lanes, &["record", "counter"]].concat());
        for (class, count) in [("time-out", 2), ("release", 1), ("delete", 1)] {
            // One more in the legend.
            assert_eq!(svg.matches(&format!("class=\"{class}\"")).count(), count + 1, "{class}");
        }
        assert!(svg.contains("nobody waiting: tasks 2, 3."));
        assert!(!svg.contains("stands for"));
    }

    #[test]
    fn records_that_differ() {
        let svg = picture(&stored::differs(), 0);
        assert_eq!(svg.matches("class=\"line-differs\"").count(), 2);
        assert_eq!(svg.matches("class=\"line-not-run\"").count(), 1);
        assert!(svg.contains("<title>record 14 isn't run: unknown flag, flags 4 (byte 2)</title>"));
        let all = picture(&wrong(&many(600)), 0);
        assert!(!all.contains("class=\"line-differs\"") && all.contains("lines through the lanes would hide them"));
    }

    #[test]
    fn several_records_in_a_column() {
        assert!(picture(&many(20_000), 0).contains("each column stands for 20 records"));
        assert!(picture(&many(1001), 0).contains("each column stands for 2 records"));
        assert!(!picture(&many(1000), 0).contains("stands for"));
    }
}
