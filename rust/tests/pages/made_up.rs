//! Each check on short made-up pages: it finds what is wrong, and nothing in what is right.

use crate::markdown::Page;
use crate::repository::Repository;
use crate::{file_names, layout, links, names, whole_lists};

/// Files that the pages can speak of.
const FILES: [(&str, &str); 11] = [
    ("crates.txt", "machine:\nrates: machine\n"),
    (
        "crates/machine/specs/Due.antt",
        "-- elapsed ticks\npub distance : ℤ\nticksTo = max 1 distance\n",
    ),
    (
        "crates/machine/specs/Laws/Levels.antt",
        "pub record Between where\n  pub upper-size : Size\n",
    ),
    (
        "crates/machine/must-fail/definitions_1.edit",
        "wrong: nearer_level\nlaw: Laws/Levels upper-size\n",
    ),
    ("crates/machine/must-fail/m_one_less.edit", "old: 1\n"),
    (
        "crates/rates/src/lib.rt",
        "pub fn rate() {\n    sum_of(links)\n",
    ),
    ("crates/rates/proofs/+fold/Proof.antt", ""),
    (
        "crates/rates/proofs/Laws/Folds.antt",
        "pub fold-kept : Kept\n",
    ),
    ("rust/bridge/tests/calls.rs", "fn a_call_is_declined() {\n"),
    ("include/cup.h", "CupRan cup_run(void);\n"),
    (
        "docs/OTHER.md",
        "# Other\n\n## The `first` one, again\n\n## The first one, again\n",
    ),
];

fn repository() -> Repository {
    with_pages(&[])
}

fn with_pages(pages: &[(&str, &str)]) -> Repository {
    let files = FILES.iter().chain(pages);
    let files = files.map(|(path, text)| (path.to_string(), text.to_string()));
    Repository::of(files.collect())
}

fn page(text: &str) -> Page {
    Page::new("docs/PAGE.md", text)
}

/// Compares with what is said of the page behind its name.
fn assert_faults(faults: Vec<String>, expected: &[&str]) {
    let expected = expected
        .iter()
        .map(|fault| format!("docs/PAGE.md, {fault}"));
    assert_eq!(faults, expected.collect::<Vec<_>>());
}

fn assert_links(text: &str, expected: &[&str]) {
    assert_faults(
        links::faults(&page(text), &with_pages(&[("docs/PAGE.md", text)])),
        expected,
    );
}

fn assert_file_names(text: &str, expected: &[&str]) {
    assert_faults(file_names::faults(&page(text), &repository()), expected);
}

fn assert_places(text: &str, expected: &[&str]) {
    assert_faults(names::misplaced(&page(text), &repository()), expected);
}

#[test]
fn links_to_files_folders_and_headings_are_right() {
    let text = "# Own\n\n[a](OTHER.md), [`b`](../rust/bridge), [c](#own) and\n\
                [d](OTHER.md#the-first-one-again), [e](./OTHER.md#the-first-one-again-1)\n";
    assert_links(text, &[]);
}

#[test]
fn links_in_code_are_none() {
    let fenced = "```\n[a](NONE.md)\n```\n";
    let indented = "1. Text\n    of an item\n\n       [a](OTHER.md)\n\nText\n\n    [a](NONE.md)\n";
    assert_links(&format!("`[a](NONE.md)`\n\n{fenced}\n{indented}"), &[]);
}

#[test]
fn a_broken_link_is_found() {
    let fault = "line 2: the link to 'NONE.md' leads to no file";
    assert_links("Text\n[a](NONE.md)\n", &[fault]);
    assert_links("[a]\n[a]: NONE.md\n", &[fault]);
}

#[test]
fn a_link_to_a_missing_heading_is_found() {
    let here = "line 3: the link to '#other' leads to no heading";
    let there = "line 4: the link to 'OTHER.md#none' leads to no heading";
    assert_links("# Own\n\n[a](#other)\n[b](OTHER.md#none)\n", &[here, there]);
}

#[test]
fn an_outside_address_is_found() {
    let site = "line 1: the link to 'https://a.b/c' leads out of the repository";
    assert_links("[a](https://a.b/c)\n", &[site]);
    assert_links("<https://a.b/c>\n", &[site]);
    let above = "line 1: the link to '../../a' leads out of the repository";
    assert_links("[a](../../a)\n", &[above]);
    let root = "line 1: the link to '/docs/OTHER.md' leads out of the repository";
    assert_links("[a](/docs/OTHER.md)\n", &[root]);
    assert_links("[a]()\n", &["line 1: the link to '' leads nowhere"]);
}

#[test]
fn a_page_that_nothing_links_to_is_found() {
    let linked = with_pages(&[
        ("README.md", "[a](docs/A.md), [b](docs/NONE.md)\n"),
        ("docs/A.md", "[b](OTHER.md)\n"),
    ]);
    assert_eq!(links::unreached(&linked), [""; 0]);
    let alone = with_pages(&[("README.md", "`docs/OTHER.md`\n")]);
    let fault = "docs/OTHER.md, line 1: no links lead here from README.md";
    assert_eq!(links::unreached(&alone), [fault]);
}

#[test]
fn file_names_are_looked_up_where_pages_leave_the_beginning_out() {
    let text = "`OTHER.md`, `crates/machine/specs`, `rates/src/lib.rt`, `rates/proofs/fold`,\n\
                `machine/Due`, `machine/Laws`, `calls.rs`, `target/bin/listing`,\n\
                `rates/Laws`, `rates/Laws/Folds`,\n\
                `machine/nearer_level`, `machine/m_one_less`, `a / b`, `cargo test`, `nodes.a`\n";
    assert_file_names(text, &[]);
}

#[test]
fn wildcards_and_placeholders_have_to_match_something() {
    let right = "`machine/Laws/Lev*`, `crates/CRATE/specs/FILE.antt`, `CRATE/TITLE`,\n\
                 `crates/CRATE/must-fail/definitions_K.edit`\n";
    assert_file_names(right, &[]);
    let wrong = "`machine/Laws/X*`\n`crates/CRATE/NAME.toml`\n";
    let faults = [
        "line 1: `machine/Laws/X*` is no file and no edit",
        "line 2: `crates/CRATE/NAME.toml` is no file and no edit",
    ];
    assert_file_names(wrong, &faults);
}

#[test]
fn a_missing_file_and_an_unknown_edit_are_found() {
    let faults = [
        "line 1: `machine/None` is no file and no edit",
        "line 1: `none.rs` is no file and no edit",
        "line 2: `rates/nearer_level` is no file and no edit",
    ];
    assert_file_names("`machine/None`, `none.rs`\n`rates/nearer_level`\n", &faults);
}

#[test]
fn what_the_checks_could_not_read_is_found() {
    let read = "# Title\n`a`, [b](OTHER.md)\n\n    `c\n";
    assert_faults(layout::unread(&page(read)), &[]);
    let open = "# Title\n`b\n";
    let fault = "line 2: an odd number of backticks";
    assert_faults(layout::unread(&page(open)), &[fault]);
    for form in ["``a``", "[a][b]", "<a href='NONE.md'>", "[a]("] {
        let fault = "line 2: code or a link in a form that is not read";
        let text = format!("# Title\n{form}\n");
        assert_faults(layout::unread(&page(&text)), &[fault]);
    }
    let fault = "line 1: the page has no title";
    assert_faults(layout::unread(&page("")), &[fault]);
    assert_faults(layout::unread(&page("Text\n")), &[fault]);
}

#[test]
fn names_that_follow_their_place_are_right() {
    let text = "`machine/Due` `distance`,\n`ticksTo`; `machine/Laws` `Between` and `upper-size`.\n\
                `rates` `rate`, `rates::rate`, `include/cup.h` `cup_run`; `Between` `upper-size`;\n\
                `rates/Laws` `fold-kept`;\n\
                `machine/nearer_level`, `m_one_less`; `calls.rs` `a_call_is_declined`\n";
    assert_places(text, &[]);
}

#[test]
fn a_name_that_its_file_does_not_declare_is_found() {
    let text = "`machine/Due` `distance`, `upper-size`\n\n`machine/Due` `elapsed`\n\n\
                `Between` `lower-size`\n";
    let faults = [
        "line 1: `upper-size` does not stand in `machine/Due`",
        "line 3: `elapsed` does not stand in `machine/Due`",
        "line 5: `lower-size` does not stand in the file of `Between`",
    ];
    assert_places(text, &faults);
}

#[test]
fn a_function_that_its_crate_does_not_have_is_found() {
    let faults = [
        "line 1: `links` does not stand in `rates`",
        "line 2: `fold` does not stand in `rates`",
        "line 3: `sum_of` does not stand in `rates`",
    ];
    // It calls sum_of, and has none.
    let text = "`rates` `rate`, `links`\n`rates::fold`\n`rates::sum_of`\n";
    assert_places(text, &faults);
}

#[test]
fn an_edit_of_another_crate_in_a_list_is_found() {
    let fault = "line 1: `any_clock` does not stand in the crate of `machine/nearer_level`";
    assert_places(
        "`machine/nearer_level`, `m_one_less`, `any_clock`\n",
        &[fault],
    );
}

#[test]
fn an_unknown_name_is_found() {
    let text = "`ticksTo`, `sum_of`, `m_one_less`, `upper-size`, `a b`, `lower-size`\n";
    let fault = "line 1: `lower-size` stands nowhere";
    assert_faults(names::unknown(&page(text), &repository()), &[fault]);
}

#[test]
fn long_lines_and_long_pages_are_found() {
    let longest = "±".repeat(100) + "\n";
    assert_faults(layout::too_long(&page(&longest.repeat(400))), &[]);
    assert_faults(
        layout::too_long(&page(&"a".repeat(101))),
        &["line 1: 101 characters"],
    );
    let pages = ["line 401: the page may have 400 lines"];
    assert_faults(layout::too_long(&page(&longest.repeat(401))), &pages);
    let readme = layout::too_long(&Page::new("README.md", &longest.repeat(126)));
    assert_eq!(readme, ["README.md, line 126: the page may have 125 lines"]);
}

#[test]
fn a_landing_note_unlike_the_template_is_found() {
    let template = (
        "docs/landings/TEMPLATE.md",
        "# Request NN\n\n## What\n\nText\n\n## Why\n\nText\n",
    );
    let right = (
        "docs/landings/01.md",
        "# Request 01: readings\n\nText\n\n## What\n\nText\n\n## Why\n\nText\n",
    );
    assert_eq!(
        layout::unlike_the_template(&with_pages(&[template, right])),
        [""; 0]
    );
    let short = (
        "docs/landings/2.md",
        "# Request 2\n\n## Why\n\n    ## What\n",
    );
    let faults = [
        "docs/landings/2.md, line 1: the name of a note is two digits",
        "docs/landings/2.md, line 1: the title of the note begins with '# Request 2: '",
        "docs/landings/2.md, line 1: the headings of a note are [\"## What\", \"## Why\"]",
        "docs/landings/2.md, line 1: no text below the heading",
    ];
    assert_eq!(
        layout::unlike_the_template(&with_pages(&[template, short])),
        faults
    );
}

/// What the pages with whole lists speak of.
const LISTED: [(&str, &str); 10] = [
    ("docs/CRATES.md", "`machine`\n"),
    (
        "docs/PROMISES.md",
        "`DueLeast`, `plan/Format`, `calls/Promises`\n",
    ),
    ("plans/README.md", "`sample`\n"),
    ("plans/sample.plan", ""),
    ("plans/chain.plan", ""),
    (
        "crates/plan/specs/Format.antt",
        "-- Binding definition: a\n",
    ),
    (
        "crates/plan/specs/Rules.antt",
        "-- The same as a proposition: a\n",
    ),
    (
        "crates/calls/specs/Promises.antt",
        "pub record EveryPromise : Type 0 where\n  pub due-least : DueLeast\n  -- of a list\n  \
         pub list-ends : ListEnds\n\nLater",
    ),
    ("crates/calls/specs/Promises/Files.antt", "-- Promise: a\n"),
    (
        "crates/listingturns/specs/Promises.antt",
        "pub record ListingPromise : Type 0 where\n  pub turns-end : TurnsEnd\n",
    ),
];

#[test]
fn what_a_list_leaves_out_is_found() {
    let repository = with_pages(&LISTED);
    let crates = whole_lists::unnamed_crates(&repository);
    assert_eq!(crates, ["docs/CRATES.md, line 1: `rates` is not named"]);
    let promises = whole_lists::unnamed_promises(&repository);
    let faults = [
        "docs/PROMISES.md, line 1: `ListEnds` is not named",
        "docs/PROMISES.md, line 1: `TurnsEnd` is not named",
    ];
    assert_eq!(promises, faults);
    let beliefs = whole_lists::unnamed_beliefs(&repository);
    assert_eq!(
        beliefs,
        ["docs/PROMISES.md, line 1: `plan/Rules` is not named"]
    );
    let plans = whole_lists::unnamed_plans(&repository);
    assert_eq!(plans, ["plans/README.md, line 1: `chain` is not named"]);
}

#[test]
fn a_definition_that_does_not_say_what_it_is_is_found() {
    let files = [
        ("crates/plan/specs/Lib.antt", "-- All.\n"),
        ("crates/plan/specs/Model.antt", "-- Model of the code: a\n"),
        ("crates/plan/specs/Other.antt", "-- Definition.\n"),
        ("crates/plan/specs/Laws/Some.antt", "-- A law.\n"),
    ];
    let found = whole_lists::of_no_kind(&with_pages(&files));
    let others = [
        "crates/machine/specs/Due.antt",
        "crates/plan/specs/Other.antt",
    ];
    let faults = others.map(|path| format!("{path}: the first line names no kind"));
    assert_eq!(found, faults);
}
