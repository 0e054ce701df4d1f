//! Times of the proved calls beside the second simulator's, in one run.

use cup_bridge::measure::{repeated, times, warn_of_checks, Repeated};
use cup_bridge::{read, rewrite, section};
use cup_check::file;
use cup_check::samples;
use std::hint::black_box;

/// The section that is viewed: links, the longest.
const VIEWED: usize = 3;

const NOTES: &str = "\
Times in ns for a call. A ratio is the proved call's time over the second simulator's.

read     cup_read answers number and entry. The second simulator's reader, which is written to be
         read and not to be fast, fills vectors with the plan, then tests it.
section  The section view of the links. Both read the whole file first, since a refused file has
         no parts.
rewrite  cup_rewrite reads and writes into a buffer of the file's length. The second simulator
         reads, puts a new file together from the plan and copies it.
";

fn main() {
    println!("{NOTES}");
    warn_of_checks();
    println!(
        "{:30}{:>10}{:>10}{:>12}{:>10}{:>10}{:>8}",
        "", "proved", "", "second", "", "ratio", ""
    );
    println!(
        "{:30}{:>10}{:>10}{:>12}{:>10}{:>10}{:>8}",
        "", "best", "median", "best", "median", "best", "median"
    );
    for sample in samples::all() {
        if ["full", "sample"].contains(&sample.name) {
            time_calls(sample.name, &sample.file);
        }
    }
}

fn time_calls(name: &str, plan: &[u8]) {
    let of = |call: &str| format!("{call} {name}, {} bytes", plan.len());
    compare(
        &of("read"),
        repeated(|| read(black_box(plan))),
        repeated(|| file::read(black_box(plan))),
    );
    compare(
        &of("section"),
        repeated(|| section(black_box(plan), VIEWED)),
        repeated(|| file::section(black_box(plan), VIEWED)),
    );
    let length = plan.len();
    compare(
        &of("rewrite"),
        Box::new(|times| {
            let mut buffer = vec![0; length];
            for _ in 0..times {
                black_box(rewrite(black_box(plan), black_box(&mut buffer)));
            }
        }),
        Box::new(|times| {
            let mut buffer = vec![0; length];
            for _ in 0..times {
                let read = file::read(black_box(plan)).expect("the samples timed are accepted");
                black_box(file::write(&read, black_box(&mut buffer)));
            }
        }),
    );
}

fn compare(name: &str, proved: Repeated, second: Repeated) {
    let [proved, second] = times(&[proved, second]);
    println!(
        "{name:30}{:>10.1}{:>10.1}{:>12.1}{:>10.1}{:>10.2}{:>8.2}",
        proved.best,
        proved.median,
        second.best,
        second.median,
        proved.best / second.best,
        proved.median / second.median
    );
}
