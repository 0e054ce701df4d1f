//! What the campaign over files counts, and how often it has to be met.

use super::FILES;
use cup_check::file::{Cause, Refusal};
use cup_check::generate::Origin;
use cup_check::limits::{ACCEPTED, REFUSED_COMMAND, REFUSED_WRITE_BUFFER, SECTIONS};
use cup_check::met::Met;
use cup_check::plan::Plan;

/// How often each answer has to be met, and each way in which files come about.
const ENOUGH: u64 = 100;

/// The longest file has to have so many bytes.
const LONGEST_AT_LEAST: u64 = 100_000;

/// What has to be met. The numbers are the second simulator's, with which the reader has to agree.
pub fn required() -> Met {
    let mut met = Met::default();
    met.require("files", FILES);
    met.require("bytes of the longest", LONGEST_AT_LEAST);
    for number in ACCEPTED..=REFUSED_COMMAND {
        met.require(format!("number {number}"), ENOUGH);
        let causes = Cause::ALL.into_iter();
        let causes = causes.filter(|cause| cause.number() == number);
        met.require_each(causes.map(cause_of), ENOUGH);
    }
    met.require("faults at an entry above 0", ENOUGH);
    met.require_each((0..SECTIONS).map(section_of), ENOUGH);
    // An accepted file has an integrator, so that section is never empty.
    met.require_each((1..SECTIONS).map(empty_section_of), ENOUGH);
    met.require_each([WRITTEN, SHORT], ENOUGH);
    met.require_each(Origin::ALL.map(origin_of), ENOUGH);
    met
}

const WRITTEN: &str = "rewriting: written";
const SHORT: &str = "rewriting: into a buffer too short";

fn cause_of(cause: Cause) -> String {
    format!("cause {cause:?}")
}

fn origin_of(origin: Origin) -> String {
    format!("origin {origin:?}")
}

fn section_of(number: usize) -> String {
    format!("section {number} with entries")
}

fn empty_section_of(number: usize) -> String {
    format!("section {number} without entries")
}

/// Counts a file by what the second simulator says of it.
pub fn count_file(met: &mut Met, origin: Origin, file: &[u8], read: &Result<Plan, Refusal>) {
    met.count("files");
    met.keep_highest("bytes of the longest", file.len() as u64);
    met.count(origin_of(origin));
    match read {
        Ok(_) => met.count(format!("number {ACCEPTED}")),
        Err(refusal) => {
            met.count(format!("number {}", refusal.number()));
            met.count(cause_of(refusal.cause));
            met.count_if(refusal.entry > 0, "faults at an entry above 0");
        }
    }
}

/// Counts a view of a section of an accepted file.
pub fn count_section(met: &mut Met, number: usize, length: usize) {
    met.count(match length {
        0 => empty_section_of(number),
        _ => section_of(number),
    });
}

/// Counts the answer to rewriting.
pub fn count_rewritten(met: &mut Met, number: usize) {
    met.count(match number {
        ACCEPTED => WRITTEN,
        REFUSED_WRITE_BUFFER => SHORT,
        _ => "rewriting: of a refused file",
    });
}
