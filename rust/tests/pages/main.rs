//! Reads every page of the repository, and fails for a link, a file name or a name that leads
//! nowhere, so that no page goes on naming what was renamed or removed.

mod file_names;
mod layout;
mod links;
mod made_up;
mod markdown;
mod names;
mod repository;
mod whole_lists;

use markdown::Page;
use repository::Repository;
use std::path::Path;
use std::sync::LazyLock;

static REPOSITORY: LazyLock<Repository> =
    LazyLock::new(|| Repository::read(&Path::new(env!("CARGO_MANIFEST_DIR")).join("..")));

#[test]
fn every_link_leads_somewhere() {
    assert_none(on_pages(|page| links::faults(page, &REPOSITORY)));
}

#[test]
fn every_page_has_a_title_and_forms_that_are_read() {
    assert_none(on_pages(layout::unread));
}

#[test]
fn every_page_is_reached_from_the_readme() {
    assert_none(links::unreached(&REPOSITORY));
}

#[test]
fn every_file_name_is_that_of_a_file_or_an_edit() {
    assert_none(on_pages(|page| file_names::faults(page, &REPOSITORY)));
}

#[test]
fn every_name_stands_where_a_page_says() {
    let mut pages = REPOSITORY.pages();
    // There a module of Rust can bear the name of a crate.
    pages.retain(|page| page.path != "rust/README.md");
    assert_none(faults_of(&pages, |page| {
        names::misplaced(page, &REPOSITORY)
    }));
}

#[test]
fn every_name_stands_somewhere() {
    assert_none(on_pages(|page| names::unknown(page, &REPOSITORY)));
}

#[test]
fn no_line_and_no_page_is_too_long() {
    assert_none(on_pages(layout::too_long));
}

#[test]
fn every_landing_note_has_the_headings_of_the_template() {
    assert_none(layout::unlike_the_template(&REPOSITORY));
}

#[test]
fn every_crate_promise_and_plan_is_on_its_page() {
    assert_none(whole_lists::unnamed_crates(&REPOSITORY));
    assert_none(whole_lists::unnamed_promises(&REPOSITORY));
    assert_none(whole_lists::unnamed_plans(&REPOSITORY));
}

#[test]
fn every_file_that_must_be_believed_is_on_its_page() {
    assert_none(whole_lists::unnamed_beliefs(&REPOSITORY));
    assert_none(whole_lists::of_no_kind(&REPOSITORY));
}

fn on_pages(faults: impl Fn(&Page) -> Vec<String>) -> Vec<String> {
    faults_of(&REPOSITORY.pages(), faults)
}

/// The faults of some pages, of which there have to be more than one.
fn faults_of(pages: &[Page], faults: impl Fn(&Page) -> Vec<String>) -> Vec<String> {
    assert!(pages.len() > 1, "no pages were found");
    pages.iter().flat_map(faults).collect()
}

fn assert_none(faults: Vec<String>) {
    assert!(faults.is_empty(), "faults:\n{}", faults.join("\n"));
}
