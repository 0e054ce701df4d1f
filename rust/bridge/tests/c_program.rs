//! The header and the library serve programs in C.

mod common;

use common::{compiled, root};
use cup_check::samples;
use std::fs;
use std::path::Path;
use std::process::Command;

fn printed(program: &Path, plan: &str) -> String {
    let plan = root().join("plans").join(plan);
    let output = Command::new(program)
        .arg(plan)
        .output()
        .expect("the program starts");
    assert!(output.status.success(), "{}", output.status);
    String::from_utf8(output.stdout).expect("text")
}

#[test]
fn a_program_in_c_reads_views_and_rewrites() {
    let program = compiled("view");
    let sample = "\
read 0, entry 0
section 0: 16 bytes at 44
section 1: 4 bytes at 60
section 2: 0 bytes at 64
section 3: 24 bytes at 64
section 4: 12 bytes at 88
section 5: 0 bytes at 0
rewrite 0, 100 bytes, the same, then a5
one byte short 13, 0 bytes, first a5
";
    assert_eq!(printed(&program, "sample.plan"), sample);
    let refused = "\
read 8, entry 4
section 0: 0 bytes at 0
section 1: 0 bytes at 0
section 2: 0 bytes at 0
section 3: 0 bytes at 0
section 4: 0 bytes at 0
section 5: 0 bytes at 0
rewrite 8, 0 bytes, the same, then a5
one byte short 8, 0 bytes, first a5
";
    assert_eq!(printed(&program, "refused.plan"), refused);
    // The longest that is accepted, so that the header's constant is met.
    let full = printed(&program, "full.plan");
    assert!(
        full.starts_with("read 0, entry 0\n")
            && full.contains("\nrewrite 0, 4492 bytes, the same, then a5\n"),
        "{full}"
    );
}

/// The listings kept beside the sample plans come from the second simulator. The program itself compares
/// both engines and asks for every position, and ends with another status if something is not as it
/// should be.
#[test]
fn a_program_in_c_lists_the_samples_by_runs_of_both_engines() {
    let program = compiled("list");
    for sample in samples::all() {
        let listing = root().join(format!("plans/{}.txt", sample.name));
        let listing = fs::read_to_string(&listing).expect("a listing beside each plan");
        let plan = format!("{}.plan", sample.name);
        assert_eq!(printed(&program, &plan), listing, "{}", sample.name);
    }
}
