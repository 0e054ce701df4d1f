//! How pages are laid out: in forms that these tests read, not too long, and landing notes as the template.

use crate::markdown::Page;
use crate::repository::Repository;

const LONGEST_LINE: usize = 100;
const LONGEST_PAGE: usize = 400;
const LONGEST_README: usize = 125;

const NOTES: &str = "docs/landings";

/// Lines whose links and names no other check could read, and a page without a title.
pub fn unread(page: &Page) -> Vec<String> {
    let mut faults = Vec::new();
    if !page
        .lines
        .first()
        .is_some_and(|line| line.text.starts_with("# "))
    {
        faults.push(page.fault(1, "the page has no title"));
    }
    for line in page.prose() {
        if line.text.matches('`').count() % 2 == 1 {
            faults.push(page.fault(line.number, "an odd number of backticks"));
        }
        let outside: String = line.text.split('`').step_by(2).collect();
        let is_link = ["][", "<a "].iter().any(|form| outside.contains(form));
        if line.text.contains("``") || is_link || outside.ends_with("](") {
            faults.push(page.fault(line.number, "code or a link in a form that is not read"));
        }
    }
    faults
}

/// Lines and pages that are too long to read.
pub fn too_long(page: &Page) -> Vec<String> {
    let mut faults = Vec::new();
    for line in &page.lines {
        let length = line.text.chars().count();
        if length > LONGEST_LINE {
            faults.push(page.fault(line.number, &format!("{length} characters")));
        }
    }
    let most = match page.path.as_str() {
        "README.md" => LONGEST_README,
        _ => LONGEST_PAGE,
    };
    let lines = page.lines.len();
    if lines > most {
        faults.push(page.fault(lines, &format!("the page may have {most} lines")));
    }
    faults
}

/// Notes of a landing whose name is no number, whose title has another, or whose headings are not the
/// template's, each with some text.
pub fn unlike_the_template(repository: &Repository) -> Vec<String> {
    let template = repository.page(&format!("{NOTES}/TEMPLATE.md"));
    let wanted = template.as_ref().map(headings).unwrap_or_default();
    assert!(!wanted.is_empty(), "the template has no headings");
    let pages = repository.pages();
    let notes = pages.iter().filter(|page| page.folder() == NOTES);
    let notes = notes.filter(|page| !["README.md", "TEMPLATE.md"].contains(&page.name()));
    let mut faults = Vec::new();
    for note in notes {
        if !is_numbered(note) {
            faults.push(note.fault(1, "the name of a note is two digits"));
        }
        let title = format!("# Request {}: ", note.name().trim_end_matches(".md"));
        if !note
            .headings()
            .next()
            .is_some_and(|own| own.starts_with(&title))
        {
            faults.push(note.fault(1, &format!("the title of the note begins with '{title}'")));
        }
        if headings(note) != wanted {
            faults.push(note.fault(1, &format!("the headings of a note are {wanted:?}")));
        }
        faults.extend(without_text(note));
    }
    faults
}

fn is_numbered(page: &Page) -> bool {
    let number = page.name().trim_end_matches(".md");
    number.len() == 2 && number.chars().all(|c| c.is_ascii_digit())
}

/// Headings that another one, or the page's end, follows at once.
fn without_text(page: &Page) -> Vec<String> {
    let mut faults = Vec::new();
    let mut open: Option<usize> = None;
    for line in page.lines.iter().filter(|line| !line.text.is_empty()) {
        let heading = line.text.starts_with('#');
        faults.extend(open.filter(|_| heading));
        open = heading.then_some(line.number);
    }
    faults.extend(open);
    let faults = faults
        .iter()
        .map(|number| page.fault(*number, "no text below the heading"));
    faults.collect()
}

fn headings(page: &Page) -> Vec<&str> {
    page.headings()
        .filter(|text| text.starts_with("## "))
        .collect()
}
