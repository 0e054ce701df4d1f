//! Lists that a page has to keep whole: what is in the repository stands on it.

use crate::markdown::Page;
use crate::repository::{crate_on, Repository};

/// How the first line of a file begins that has to be believed.
const BELIEVED: [&str; 3] = [
    "-- Binding definition: ",
    "-- The same as a proposition: ",
    "-- Promise: ",
];

/// The same of the other files that stand in `specs` itself.
const OTHERS: [&str; 3] = [
    "-- Model of the code: ",
    "-- Worked examples, ",
    "-- For worked examples, ",
];

/// Files that only lead to others, and that which has all proofs.
const INDEXES: [&str; 3] = ["Lib.antt", "Laws.antt", "Proofs.antt"];

/// The crates that docs/CRATES.md does not name.
pub fn unnamed_crates(repository: &Repository) -> Vec<String> {
    let listed = repository.text("crates.txt").lines();
    let names = listed.filter(|line| !line.starts_with('#'));
    let names = names.filter_map(crate_on);
    missing(repository, "docs/CRATES.md", names)
}

/// The promises that docs/PROMISES.md does not name: the fields of the two records that have all.
pub fn unnamed_promises(repository: &Repository) -> Vec<String> {
    let records = [
        ("crates/calls/specs/Promises.antt", "EveryPromise"),
        ("crates/listingturns/specs/Promises.antt", "ListingPromise"),
    ];
    let types = records.map(|(path, record)| field_types(repository.text(path), record));
    let types = types.iter().flatten().copied();
    missing(repository, "docs/PROMISES.md", types)
}

/// The types of a record's fields.
fn field_types<'t>(text: &'t str, record: &str) -> Vec<&'t str> {
    let head = format!("pub record {record} ");
    let (_, fields) = text.split_once(&head).expect("the record");
    let fields = fields
        .lines()
        .skip(1)
        .take_while(|line| line.starts_with("  "));
    let fields = fields.filter_map(|line| line.strip_prefix("  pub ")?.split_once(" : "));
    fields.map(|(_, its_type)| its_type).collect()
}

/// The files with definitions or promises, by their first line, that docs/PROMISES.md does not name. Those of
/// a folder are named with the file of the same name.
pub fn unnamed_beliefs(repository: &Repository) -> Vec<String> {
    let mut names = Vec::new();
    for path in repository.matching("crates/*/specs") {
        let text = repository.text(path);
        if BELIEVED.iter().any(|beginning| text.starts_with(beginning)) {
            let parts: Vec<&str> = path.split('/').collect();
            let file = parts[3].trim_end_matches(".antt");
            names.push(format!("{}/{file}", parts[1]));
        }
    }
    names.dedup();
    missing(
        repository,
        "docs/PROMISES.md",
        names.iter().map(String::as_str),
    )
}

/// Files that stand in `specs` itself and whose first line does not say what they are, so that they could be
/// left out of what must be believed.
pub fn of_no_kind(repository: &Repository) -> Vec<String> {
    let mut files = repository.matching("crates/*/specs/*.antt");
    files.retain(|path| !INDEXES.iter().any(|name| path.ends_with(name)));
    files.retain(|path| {
        let mut kinds = BELIEVED.iter().chain(&OTHERS);
        !kinds.any(|beginning| repository.text(path).starts_with(beginning))
    });
    let faults = files
        .iter()
        .map(|path| format!("{path}: the first line names no kind"));
    faults.collect()
}

/// The sample plans that plans/README.md does not name.
pub fn unnamed_plans(repository: &Repository) -> Vec<String> {
    let plans = repository.matching("plans/*.plan").into_iter();
    let names = plans.filter_map(|path| path.strip_prefix("plans/")?.strip_suffix(".plan"));
    missing(repository, "plans/README.md", names)
}

/// Of some names, of which there has to be one at least, those that the page has not in backticks.
fn missing<'n>(
    repository: &Repository,
    path: &str,
    names: impl Iterator<Item = &'n str>,
) -> Vec<String> {
    let page = Page::new(path, repository.text(path));
    let spans = page.spans();
    let mut names = names.peekable();
    assert!(names.peek().is_some(), "{path}: nothing to look for");
    let missing = names.filter(|name| spans.iter().all(|span| span.text != *name));
    missing
        .map(|name| page.fault(1, &format!("`{name}` is not named")))
        .collect()
}
