//! Names in inline code: each stands where the page says, and somewhere in any case.

use crate::file_names::{found, is_file_name, Found};
use crate::markdown::{Page, Span};
use crate::repository::{is_in_a_name, starts_large, Repository};

/// What stands between a place and the first name of it.
const BEGINS: &str = " ";
/// What stands between that name and the others of the same place.
const GOES_ON: [&str; 4] = [BEGINS, ", ", " and ", " to "];

/// Where names have to be declared that follow in a list: `machine/Due` `distance`, `ticksTo`.
struct Place<'r> {
    /// As the page has it.
    shown: String,
    holder: Holder<'r>,
    /// Whether one of the names has been met; the first follows with no text between.
    is_begun: bool,
}

enum Holder<'r> {
    /// A file, a folder or a crate's code.
    Files(Vec<&'r str>),
    /// The files that declare a name, such as that of a record, whose fields follow.
    Declaring(Vec<&'r str>),
    /// The crate of an edit, whose other edits follow.
    EditsOf(String),
}

impl<'r> Holder<'r> {
    fn of_file_or_crate(page: &Page, text: &str, repository: &'r Repository) -> Option<Holder<'r>> {
        if let Some(folder) = repository.sources_of(text) {
            return Some(Holder::Files(repository.matching(&folder)));
        }
        let name = Some(text).filter(|text| is_file_name(text))?;
        match found(page, name, repository)? {
            Found::Files(files) => Some(Holder::Files(files)),
            Found::EditOf(name) => Some(Holder::EditsOf(name)),
            Found::Built => None,
        }
    }

    fn has(&self, name: &str, repository: &Repository) -> bool {
        match self {
            Holder::Files(files) | Holder::Declaring(files) => {
                files.iter().any(|file| repository.declares(file, name))
            }
            Holder::EditsOf(of) => repository.has_edit(&format!("{of}/{name}")),
        }
    }
}

impl<'r> Place<'r> {
    fn new(shown: &str, holder: Holder<'r>) -> Place<'r> {
        Place {
            shown: shown.to_string(),
            is_begun: matches!(holder, Holder::EditsOf(_)),
            holder,
        }
    }

    fn is_joined_to(&self, span: &Span) -> bool {
        let before = span.before.as_str();
        before == BEGINS || (self.is_begun && GOES_ON.contains(&before))
    }

    fn in_words(&self) -> String {
        let shown = &self.shown;
        match self.holder {
            Holder::Files(_) => format!("`{shown}`"),
            Holder::Declaring(_) => format!("the file of `{shown}`"),
            Holder::EditsOf(_) => format!("the crate of `{shown}`"),
        }
    }

    /// Whether a span that is joined to the place has to stand in it. In a list behind a record's
    /// name another record can follow.
    fn wants(&self, span: &Span) -> bool {
        let is_record = span.before != BEGINS && starts_large(&span.text);
        is_name(&span.text) && !(is_record && matches!(self.holder, Holder::Declaring(_)))
    }
}

/// Names that the file or crate which they follow does not declare, and edits that a crate has not.
pub fn misplaced(page: &Page, repository: &Repository) -> Vec<String> {
    let mut faults = Vec::new();
    let mut place: Option<Place> = None;
    for span in single_names(page, repository) {
        let name = &span.text;
        let own = Holder::of_file_or_crate(page, name, repository);
        if let Some(mut joined) = place.take().filter(|place| place.is_joined_to(&span)) {
            if joined.holder.has(name, repository) {
                joined.is_begun = true;
                place = Some(joined);
                continue;
            }
            if own.is_none() && joined.wants(&span) {
                let words = format!("`{name}` does not stand in {}", joined.in_words());
                faults.push(page.fault(span.line, &words));
            }
        }
        let declaring = || Holder::Declaring(repository.files_declaring(name));
        let holder = own.or_else(|| is_name(name).then(declaring));
        place = holder.map(|holder| Place::new(name, holder));
    }
    faults
}

/// Names that stand in no file but in pages.
pub fn unknown(page: &Page, repository: &Repository) -> Vec<String> {
    let mut names = single_names(page, repository);
    names.retain(|span| is_name(&span.text) && !repository.knows(&span.text));
    let words = |name: &str| format!("`{name}` stands nowhere");
    let faults = names
        .iter()
        .map(|span| page.fault(span.line, &words(&span.text)));
    faults.collect()
}

fn is_name(text: &str) -> bool {
    text.starts_with(|c: char| c.is_alphabetic()) && text.chars().all(is_in_a_name)
}

/// The page's spans, with `simulator::load` as `simulator` `load`. A crate that is named so belongs
/// to no list in front of it.
fn single_names(page: &Page, repository: &Repository) -> Vec<Span> {
    let mut names = Vec::new();
    for span in page.spans() {
        let parts: Vec<&str> = span.text.split("::").collect();
        let begins = parts.len() > 1 && repository.sources_of(parts[0]).is_some();
        let first = if begins { "" } else { &span.before };
        for (index, part) in parts.iter().enumerate() {
            names.push(Span {
                line: span.line,
                text: part.to_string(),
                before: if index == 0 { first } else { " " }.to_string(),
            });
        }
    }
    names
}
