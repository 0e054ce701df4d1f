//! The stack that each call takes, on the largest plan, beside what the page and the header tell a caller.

mod common;

use common::{compiled, in_one_line, root, text_of};
use cup_bridge::state::State;
use std::collections::BTreeMap;
use std::process::Command;

/// Bytes of stack by call, at most, from the rows of the page, which are in thousand bytes.
fn told_by(page: &str) -> BTreeMap<String, usize> {
    let (_, table) = page.split_once("| Call | Stack |\n").expect("the table");
    let rows = table
        .lines()
        .take_while(|line| line.starts_with('|'))
        .skip(1);
    let mut told = BTreeMap::new();
    for row in rows {
        let cells: Vec<&str> = row.split('|').map(str::trim).collect();
        let bytes: usize = cells[2].parse().expect("a number");
        for call in cells[1].split(", ") {
            let earlier = told.insert(call.trim_matches('`').to_string(), 1000 * bytes);
            assert_eq!(earlier, None, "{call} has two rows");
        }
    }
    told
}

fn measured() -> BTreeMap<String, usize> {
    let output = Command::new(compiled("stack"))
        .arg(root().join("plans/full.plan"))
        .output()
        .expect("the program starts");
    assert!(output.status.success(), "{}", output.status);
    let printed = String::from_utf8(output.stdout).expect("text");
    let lines = printed.lines().filter_map(|line| line.split_once(' '));
    lines
        .map(|(call, bytes)| (call.to_string(), bytes.parse().expect("a number")))
        .collect()
}

/// The functions that the header declares.
fn declared_in(header: &str) -> Vec<&str> {
    let words = header.split(|c: char| !c.is_alphanumeric() && c != '_' && c != '(');
    let calls = words.filter_map(|word| word.strip_prefix("cup_")?.split_once('('));
    let mut names: Vec<&str> = calls.map(|(name, _)| name).collect();
    names.sort();
    names
}

/// What page and header ask of a thread.
const THREAD_BYTES: usize = 128 * 1024;
/// Of these, for the thread itself and the frames above the call.
const OTHER_BYTES: usize = 16 * 1024;

/// Far below the page's figure would be wrong as well: it is there so that a caller can choose a stack.
#[test]
fn every_call_takes_the_stack_that_the_page_tells() {
    let told = told_by(&text_of("docs/API.md"));
    let measured = measured();
    for (call, bytes) in &measured {
        let told = told[call];
        let fits = told * 2 / 3 < *bytes && *bytes <= told;
        assert!(
            fits,
            "{call} takes {bytes} bytes, and the page tells {told}"
        );
        assert!(told + OTHER_BYTES <= THREAD_BYTES, "{call}");
    }
    assert!(told.keys().eq(measured.keys()));
    let header = text_of("include/cup.h");
    let names = measured.keys().filter_map(|call| call.strip_prefix("cup_"));
    assert!(names.eq(declared_in(&header)));
}

#[test]
fn page_and_header_tell_the_same_of_stack_and_state() {
    let page = text_of("docs/API.md");
    let header = in_one_line(&text_of("include/cup.h").replace("\n * ", " "));
    let most = told_by(&page).into_values().max().expect("a row") / 1000;
    assert!(header.contains(&format!("up to {most} KB of stack")));
    let state = std::mem::size_of::<State>();
    let state = format!("A state is {},{:03} bytes", state / 1000, state % 1000);
    let thread = format!("{} KB or more", THREAD_BYTES / 1024);
    for text in [in_one_line(&page), header] {
        assert!(text.contains(&state), "{state}");
        assert!(text.contains(&thread), "{thread}");
    }
}
