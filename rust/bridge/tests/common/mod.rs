//! What the tests over campaigns, with a program in C and of the pages need.

// Each test file is a program of its own and uses a part of these.
#![allow(dead_code)]

use cup_bridge::campaign::Outcome;
use cup_check::met::Met;
use std::io::Write;
use std::path::{Path, PathBuf};
use std::process::Command;
use std::time::Instant;

/// How a campaign is reported.
pub struct Report {
    /// The first word of its report, which the gate looks for.
    pub title: &'static str,
    /// The count that stands behind it.
    pub counted: &'static str,
    /// Where its material starts from.
    pub seed: u64,
    /// The mutant that is compared with, if there is one.
    pub mutant: Option<String>,
}

impl Report {
    /// Runs a campaign and prints what it has met. Fails if it found a difference or met something too
    /// seldom.
    pub fn check(&self, run: impl FnOnce() -> Outcome) -> Met {
        let started = Instant::now();
        let Outcome { met, differences } = run();
        let seconds = started.elapsed().as_secs_f64();
        let (title, counted, seed) = (self.title, self.counted, self.seed);
        let first = format!("{title}: {} {counted}", met.of(counted));
        let report = format!("\n{first}\n{met}  seed {seed}, {seconds:.1} s\n");
        // Past the test harness, which keeps what a passing test prints to itself.
        std::io::stdout()
            .write_all(report.as_bytes())
            .expect("standard output");
        let (mutant, found) = (&self.mutant, differences.join("\n"));
        assert!(found.is_empty(), "with mutant {mutant:?}:\n{found}");
        met.assert_enough();
        met
    }
}

/// The repository's root.
pub fn root() -> PathBuf {
    Path::new(env!("CARGO_MANIFEST_DIR")).join("../..")
}

/// Compiles a program of this folder and answers where it is.
pub fn compiled(name: &str) -> PathBuf {
    let folder = Path::new(env!("CARGO_MANIFEST_DIR")).join("tests");
    compiled_file(&folder.join(name).with_extension("c"))
}

/// Compiles a program in C and answers where it is. Warnings are errors, in the header too.
pub fn compiled_file(source: &Path) -> PathBuf {
    let name = source.file_stem().expect("a program has a name");
    let program = Path::new(env!("CARGO_TARGET_TMPDIR")).join(name);
    let strict = ["-std=c11", "-pedantic", "-Wall", "-Wextra", "-Werror"];
    let status = Command::new("cc")
        .args(strict)
        .arg("-pthread")
        .arg("-I")
        .arg(root().join("include"))
        .arg(source)
        .arg(env!("CUP_LINKED"))
        .arg("-o")
        .arg(&program)
        .status()
        .expect("cc starts");
    assert!(status.success(), "{status}");
    program
}

/// A file of the repository as text.
pub fn text_of(place: &str) -> String {
    let path = root().join(place);
    std::fs::read_to_string(&path).unwrap_or_else(|error| panic!("{}: {error}", path.display()))
}

/// Words with one space between them, however they were laid out.
pub fn in_one_line(text: &str) -> String {
    text.split_whitespace().collect::<Vec<_>>().join(" ")
}
