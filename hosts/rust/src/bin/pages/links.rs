// Links between the pages, and those of header and wrapper to them.
use crate::page::Page;
use crate::sources::{wrapper_text, HEADER};

// '#4-snd_dtq' for the heading '4 snd_dtq'.
fn anchor(title: &str) -> String {
    let kept = title.to_lowercase().chars().filter(|c| c.is_alphanumeric() || "-_ ".contains(*c)).collect::<String>();
    kept.replace(' ', "-")
}

// The file's name alone.
fn name(page: &Page) -> &str {
    page.file.rsplit('/').next().unwrap_or(&page.file)
}

// Whether a page has this name, and a section with this anchor.
fn leads(pages: &[Page], file: &str, to: &str) -> bool {
    let mut found = pages.iter().filter(|page| name(page) == file);
    found.any(|page| to.is_empty() || page.sections.iter().any(|section| anchor(&section.title) == to))
}

// 'tasks.md#22-look', as the file and the anchor, from the page on which it stands.
fn parts<'a>(link: &'a str, page: &'a str) -> (&'a str, &'a str) {
    let (file, to) = link.split_once('#').unwrap_or((link, ""));
    (if file.is_empty() { page } else { file }, to)
}

// What begins behind 'start', up to a sign that no link has.
fn links<'a>(text: &'a str, start: &'a str) -> impl Iterator<Item = &'a str> {
    text.split(start).skip(1).filter_map(|rest| rest.split(|c: char| !(c.is_alphanumeric() || "#-_./".contains(c))).next())
}

// Links that lead nowhere. Those out of the folder aren't followed.
pub fn links_that_lead_nowhere(pages: &[Page]) -> Vec<String> {
    let on_pages = pages.iter().flat_map(|page| links(&page.text, "](").map(move |link| (name(page), link)));
    let on_pages = on_pages.filter(|(_, link)| !link.contains('/'));
    let wrapper = wrapper_text();
    let in_code = [("the header", HEADER), ("the wrapper", &wrapper)].map(|(who, text)| links(text, "docs/calls/").map(move |link| (who, link)));
    let wrong = |(who, link): &(&str, &str)| {
        let (file, to) = parts(link.trim_end_matches('.'), who);
        file.ends_with(".md") && !leads(pages, file, to)
    };
    on_pages.chain(in_code.into_iter().flatten()).filter(wrong).map(|(who, link)| format!("{who}: the link {link} leads nowhere")).collect()
}
