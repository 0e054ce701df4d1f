//! The words of the refusals on the page, in the header and in Rust, and the examples of the README.

mod common;

use common::{compiled_file, in_one_line, root, text_of};
use cup_bridge::meaning;
use std::fs::File;
use std::path::Path;
use std::process::Command;

/// The text from a heading to the next one of its rank.
fn section_of<'a>(page: &'a str, heading: &str) -> &'a str {
    let (_, behind) = page.split_once(heading).expect("the heading");
    behind.split("\n## ").next().expect("a first part")
}

/// The list of refusals: each number with its words, without the entry and the full stop.
fn refusals_of(page: &str) -> Vec<(usize, String)> {
    let items = section_of(page, "\n## Refusals\n").split("\n- **").skip(1);
    let parts = items.map(|item| {
        let (number, words) = item.split_once("**: ").expect("a number and its words");
        let words = words.split("\n  Entry: ").next().expect("a first part");
        let words = in_one_line(words);
        let words = words.strip_suffix('.').expect("a full stop");
        (number.parse().expect("a number"), words.to_string())
    });
    parts.collect()
}

/// The same of the header: the comment above each name of a refusal.
fn refusals_of_header(header: &str) -> Vec<(usize, String)> {
    let named = ["#define CUP_ACCEPTED ", "#define CUP_REFUSED_"];
    let lines = header.lines().enumerate();
    let names = lines.filter(|(_, line)| named.iter().any(|name| line.starts_with(name)));
    let found = names.map(|(at, line)| {
        let number = line.split_whitespace().nth(2).expect("a number");
        let above = header.lines().take(at).collect::<Vec<_>>().join("\n");
        let (_, comment) = above.rsplit_once("/* ").expect("a comment above");
        let words = comment.strip_suffix(" */").expect("the comment's end");
        let words = in_one_line(&words.replace("\n * ", " "));
        (number.parse().expect("a number"), words)
    });
    found.collect()
}

#[test]
fn page_header_and_rust_have_the_same_words_for_every_refusal() {
    let page = refusals_of(&text_of("docs/FORMAT.md"));
    assert!(page.iter().map(|(number, _)| *number).eq(0..page.len()));
    assert_eq!(page, refusals_of_header(&text_of("include/cup.h")));
    for (number, words) in &page {
        assert_eq!(meaning(*number), words, "{number}");
    }
    // No other number has words in Rust.
    let others = page.len()..=page.len() + 1000;
    assert!(others
        .into_iter()
        .all(|number| meaning(number) == meaning(usize::MAX)));
    assert!(page.iter().all(|(_, words)| words != meaning(usize::MAX)));
}

#[test]
fn another_word_on_the_page_would_be_found() {
    let page = text_of("docs/FORMAT.md");
    let changed = page.replace("or coefficient is outside", "or coefficient is beyond");
    assert_ne!(page, changed);
    let header = refusals_of_header(&text_of("include/cup.h"));
    let found: Vec<usize> = (refusals_of(&changed).iter().zip(&header))
        .filter(|(ours, theirs)| ours != theirs)
        .map(|(ours, _)| ours.0)
        .collect();
    assert_eq!(found, [8]);
}

/// The README's block of a language.
fn block_of<'a>(page: &'a str, language: &str) -> &'a str {
    let (_, behind) = page
        .split_once(&format!("```{language}\n"))
        .expect("a block");
    behind.split_once("```").expect("the block's end").0
}

/// The example in C reads the plan from standard input, that in Rust by its name.
fn printed(program: &Path, plan: &str) -> String {
    let plan = root().join("plans").join(plan);
    let output = Command::new(program)
        .arg(&plan)
        .stdin(File::open(plan).expect("a sample plan"))
        .output()
        .expect("the program starts");
    String::from_utf8(output.stdout).expect("text")
}

#[test]
fn the_readmes_examples_are_those_of_the_folder_and_run() {
    let page = text_of("README.md");
    assert_eq!(block_of(&page, "c"), text_of("examples/sample.c"));
    assert_eq!(block_of(&page, "rust"), text_of("examples/sample.rs"));
    let in_c = compiled_file(&root().join("examples/sample.c"));
    let in_rust = Path::new(env!("CARGO_BIN_EXE_sample"));
    let sample = "load 0, entry 0\nrun 0, status 1, 24 bytes\nposition 0, 18 grains\n";
    assert_eq!(printed(&in_c, "sample.plan"), sample);
    assert_eq!(printed(&in_c, "refused.plan"), "load 8, entry 4\n");
    let sample = "load: accepted, entry 0\nrun: accepted, status 1\n\
                  position: accepted, 18 grains\n";
    assert_eq!(printed(in_rust, "sample.plan"), sample);
    let refused = format!("load: {}, entry 4\n", meaning(8));
    assert_eq!(printed(in_rust, "refused.plan"), refused);
}

/// What the README shows as printed, and explains line by line.
#[test]
fn the_readme_shows_the_listing_of_the_sample() {
    let page = text_of("README.md");
    let listing = text_of("plans/sample.txt");
    let shown: String = listing
        .lines()
        .map(|line| format!("    {line}\n"))
        .collect();
    assert!(page.contains(&format!("\n\n{shown}\n")), "{shown}");
    for line in listing.lines() {
        assert!(page.contains(&format!("\n- `{line}`: ")), "{line}");
    }
}

/// The bytes at the beginning of each line of a block, in hexadecimal.
fn bytes_of(block: &str) -> Vec<u8> {
    let lines = block.lines().map(str::split_whitespace);
    let bytes = lines.flat_map(|words| {
        let words = words.take_while(|word| word.len() == 2);
        words.map(|word| u8::from_str_radix(word, 16).expect("a byte"))
    });
    bytes.collect()
}

#[test]
fn the_page_has_the_sample_plan_byte_by_byte() {
    let page = text_of("docs/FORMAT.md");
    let (_, block) = page.split_once("byte by byte:\n\n").expect("the block");
    let (block, _) = block.split_once("\n\n").expect("the block's end");
    let plan = std::fs::read(root().join("plans/sample.plan")).expect("the sample plan");
    assert_eq!(bytes_of(block), plan);
}
