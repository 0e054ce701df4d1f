//! Each number of the header by its name: document 01's, Rust's and C's. The width of the tables alone is
//! none of document 01's.

mod common;

use common::{compiled, root};
use cup_check::limits::Section;
use std::fs;
use std::process::Command;

/// The names, each with document 01's number and with the constant of the same name in Rust.
macro_rules! numbers {
    ($($name:ident $number:literal,)+) => {
        [$((stringify!($name), $number, cup_check::limits::$name as u64)),+]
    };
}

/// In the header's order.
const NUMBERS: [(&str, u64, u64); 47] = numbers!(
    ACCEPTED 0,
    REFUSED_SHORT 1,
    REFUSED_OFFSETS 2,
    REFUSED_SIZES 3,
    REFUSED_HORIZON 4,
    REFUSED_INTEGRATOR 5,
    REFUSED_INPUT 6,
    REFUSED_NODE 7,
    REFUSED_LINK 8,
    REFUSED_COMMAND 9,
    REFUSED_UNSOUND 10,
    REFUSED_BUDGET 11,
    REFUSED_RUN_BUFFER 12,
    REFUSED_WRITE_BUFFER 13,
    REFUSED_INTEGRATOR_NUMBER 14,
    PAUSED 0,
    FINISHED 1,
    RANGE 2,
    M 1_073_741_824,
    NEVER 4_294_967_295,
    LARGEST_HORIZON 2_000_000_000,
    LARGEST_COEFFICIENT 16_777_216,
    SECTION_INTEGRATORS 0,
    SECTION_INPUTS 1,
    SECTION_NODES 2,
    SECTION_LINKS 3,
    SECTION_COMMANDS 4,
    SECTIONS 5,
    KIND_DIFFERENCE 0,
    KIND_PRODUCT 1,
    KIND_LIMIT 2,
    KIND_COMPARISON 3,
    HEADER_BYTES 44,
    INTEGRATOR_BYTES 8,
    INPUT_BYTES 4,
    NODE_BYTES 20,
    LINK_BYTES 12,
    COMMAND_BYTES 12,
    LONGEST_FILE 4_492,
    INTEGRATORS 32,
    INPUTS 8,
    NODES 16,
    LINKS 256,
    COMMANDS 64,
    SOURCES 64,
    EVENT_BYTES 12,
    LARGEST_BUDGET 1_024,
);

#[test]
fn every_number_in_rust_is_the_documents() {
    for (name, number, in_rust) in NUMBERS {
        assert_eq!(in_rust, number, "{name}");
    }
}

#[test]
fn every_number_in_c_is_the_documents() {
    let output = Command::new(compiled("numbers"))
        .output()
        .expect("the program starts");
    assert!(output.status.success(), "{}", output.status);
    let expected = NUMBERS.map(|(name, number, _)| format!("CUP_{name} {number}\n"));
    let printed = String::from_utf8(output.stdout).expect("text");
    assert_eq!(printed, expected.concat());
}

#[test]
fn the_figures_that_c_does_not_have_are_the_documents() {
    use cup_check::limits::{run_bytes, GRAINS_PER_ML, LISTING_BUDGET, LISTING_INPUT};
    assert_eq!(GRAINS_PER_ML, 65_536);
    assert_eq!((LISTING_INPUT, LISTING_BUDGET), (4_493, 64));
    assert_eq!((run_bytes(64), run_bytes(1_024)), (30_720, 491_520));
}

/// The same name in C, in Rust and in the proved code, whose contracts fix the numbers there.
#[test]
fn every_number_of_the_header_has_its_name_in_the_proved_code() {
    let numbers = root().join("crates/plan/src/numbers.rt");
    let numbers = fs::read_to_string(numbers).expect("the proved code's numbers");
    let constants = numbers
        .lines()
        .filter_map(|line| line.strip_prefix("pub const "));
    let names: Vec<&str> = constants
        .filter_map(|rest| rest.split(':').next())
        .collect();
    for (name, ..) in NUMBERS {
        assert!(names.contains(&name), "{name}");
    }
}

/// What the header defines beside numbers: that it was read, and a sum of bytes from a budget.
const OTHERS: [&str; 2] = ["H", "RUN_BYTES(budget)"];

/// A number that the header has and the list does not would be compared with nothing.
#[test]
fn every_number_of_the_header_is_listed() {
    let header = fs::read_to_string(root().join("include/cup.h")).expect("the header");
    let defined = header
        .lines()
        .filter_map(|line| line.strip_prefix("#define CUP_"));
    let names = defined.filter_map(|rest| rest.split_whitespace().next());
    let names: Vec<&str> = names.filter(|name| !OTHERS.contains(name)).collect();
    assert_eq!(names, NUMBERS.map(|(name, ..)| name));
}

/// The longest file has every section as long as it may be.
#[test]
fn the_longest_file_is_the_sum_of_its_parts() {
    let sections = Section::ALL.map(|section| section.most() * section.entry_bytes());
    let sum = cup_check::limits::HEADER_BYTES + sections.iter().sum::<usize>();
    assert_eq!(sum, cup_check::limits::LONGEST_FILE);
}
