//! Names of files and of must-fail edits in inline code.

use crate::links::joined;
use crate::markdown::Page;
use crate::repository::Repository;

/// A name without a '/' is a file's only with one of these.
const ENDINGS: [&str; 12] = [
    ".md", ".rs", ".rt", ".antt", ".c", ".h", ".toml", ".txt", ".plan", ".edit", ".awk", ".sh",
];

/// Words of a name that stand for any.
const PLACEHOLDERS: [&str; 5] = ["CRATE", "FILE", "NAME", "TITLE", "K"];

/// What `tools/build` makes.
const BUILT: [&str; 2] = ["target/bin/listing", "target/staticlib/libcup.a"];

/// What a name leads to.
pub enum Found<'r> {
    /// The file, or all files of a folder.
    Files(Vec<&'r str>),
    /// An edit of a crate.
    EditOf(String),
    /// A file that the build makes.
    Built,
}

pub fn is_file_name(text: &str) -> bool {
    let is_allowed = |c: char| c.is_alphanumeric() || "_-./*·".contains(c);
    let ends = |end: &&str| text.len() > end.len() && text.ends_with(*end);
    text.chars().all(is_allowed) && (text.contains('/') || ENDINGS.iter().any(ends))
}

/// Names that lead to no file and to no edit.
pub fn faults(page: &Page, repository: &Repository) -> Vec<String> {
    let mut names = page.spans();
    names.retain(|span| is_file_name(&span.text) && found(page, &span.text, repository).is_none());
    let words = |name: &str| format!("`{name}` is no file and no edit");
    let faults = names
        .iter()
        .map(|span| page.fault(span.line, &words(&span.text)));
    faults.collect()
}

/// Looks in the page's folder, then where the pages of this repository leave the beginning out.
pub fn found<'r>(page: &Page, name: &str, repository: &'r Repository) -> Option<Found<'r>> {
    if BUILT.contains(&name) {
        return Some(Found::Built);
    }
    let name = with_wildcards(name);
    let (first, rest) = name.split_once('/').unwrap_or(("", &name));
    let (folders, last) = name.rsplit_once('/').unwrap_or(("", &name));
    let ways = [
        vec![joined(page.folder(), &name)],
        vec![joined("", &name)],
        vec![joined("crates", &name)],
        // The folder with the proof of a recursive function.
        vec![joined("crates", &format!("{folders}/+{last}"))],
        vec![
            joined("crates", &format!("{first}/specs/{rest}.antt")),
            joined("crates", &format!("{first}/specs/{rest}")),
        ],
        // Laws and tables of examples.
        vec![
            joined("crates", &format!("{first}/proofs/{rest}.antt")),
            joined("crates", &format!("{first}/proofs/{rest}")),
        ],
        vec![
            joined("rust/tests", &name),
            joined("rust/bridge/tests", &name),
        ],
    ];
    for paths in ways {
        let paths = paths.iter().flatten();
        let files: Vec<&str> = paths.flat_map(|path| repository.matching(path)).collect();
        if !files.is_empty() {
            return Some(Found::Files(files));
        }
    }
    repository
        .has_edit(&name)
        .then(|| Found::EditOf(first.to_string()))
}

/// A name with '*' in the place of each placeholder.
fn with_wildcards(name: &str) -> String {
    let pieces = name.split_inclusive(|c: char| !c.is_alphanumeric());
    let replaced = pieces.map(|piece| {
        let word = piece.trim_end_matches(|c: char| !c.is_alphanumeric());
        match PLACEHOLDERS.contains(&word) {
            true => piece.replace(word, "*"),
            false => piece.to_string(),
        }
    });
    replaced.collect()
}
