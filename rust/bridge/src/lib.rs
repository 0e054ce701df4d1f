//! The proved calls for Rust: the reader of plan files, the section view and the plan writer; in
//! [`machine`] the calls on a [`state`].
//!
//! The functions come from the library that `tools/build cup` makes of the proved crates. The
//! module `header` declares them, and only this file and [`machine`] call them and so have unsafe
//! code: what the C functions ask of their pointers is what references and slices give. [`campaign`]
//! compares the calls with the second simulator.

#![deny(unsafe_code)]
#![warn(missing_docs)]

pub mod campaign;
mod header;
pub mod machine;
pub mod measure;
pub mod state;

pub use cup_check::engine::Engine;
pub use cup_check::limits;

use cup_check::limits::{
    ACCEPTED, REFUSED_BUDGET, REFUSED_COMMAND, REFUSED_HORIZON, REFUSED_INPUT, REFUSED_INTEGRATOR,
    REFUSED_INTEGRATOR_NUMBER, REFUSED_LINK, REFUSED_NODE, REFUSED_OFFSETS, REFUSED_RUN_BUFFER,
    REFUSED_SHORT, REFUSED_SIZES, REFUSED_UNSOUND, REFUSED_WRITE_BUFFER,
};

/// What the reader answers.
#[derive(Clone, Copy, Debug, PartialEq, Eq)]
pub struct Answer {
    /// Document 01's number: 0 for an accepted file, else 1 to 9.
    pub number: usize,
    /// The lowest faulty entry, 0 for the numbers 0 to 4.
    pub entry: usize,
}

/// What rewriting a plan file answers.
#[derive(Clone, Copy, Debug, PartialEq, Eq)]
pub struct Rewritten {
    /// 0, the reader's number 1 to 9, or 13 for a buffer shorter than the file.
    pub number: usize,
    /// Bytes written from the buffer's start, 0 if the number is not 0.
    pub length: usize,
}

/// Reads a plan file.
#[allow(unsafe_code)]
pub fn read(file: &[u8]) -> Answer {
    let mut entry = 0;
    // SAFETY: the slice is readable for its length, and the word is this function's own.
    let number = unsafe { header::cup_read(file.as_ptr(), file.len(), &mut entry) };
    Answer { number, entry }
}

/// The section view: the part of the file with this number, 0 to 4, at its place also where it is
/// empty; an empty part at the file's start if the file would be refused or the number is above 4.
#[allow(unsafe_code)]
pub fn section(file: &[u8], number: usize) -> &[u8] {
    let mut offset = 0;
    // SAFETY: the slice is readable for its length, and the word is this function's own.
    let length = unsafe { header::cup_section(file.as_ptr(), file.len(), number, &mut offset) };
    // Slicing tests that the part lies in the file.
    &file[offset..][..length]
}

/// Reads a plan file and writes its plan from the buffer's start; later bytes keep their value, and
/// all do if the number is not 0.
#[allow(unsafe_code)]
pub fn rewrite(file: &[u8], buffer: &mut [u8]) -> Rewritten {
    let mut length = 0;
    // SAFETY: both slices are valid for their lengths and share no byte, since one of them is
    // borrowed mutably; the word is this function's own.
    let number = unsafe {
        header::cup_rewrite(
            file.as_ptr(),
            file.len(),
            buffer.as_mut_ptr(),
            buffer.len(),
            &mut length,
        )
    };
    Rewritten { number, length }
}

/// What a number of document 01 means, in the words of docs/FORMAT.md.
pub fn meaning(number: usize) -> &'static str {
    match number {
        ACCEPTED => "accepted",
        REFUSED_SHORT => "the file is shorter than 44 bytes",
        REFUSED_OFFSETS => "a pair breaks the offset rule, or the file does not end with its last section",
        REFUSED_SIZES => "a section is no whole number of entries, or has too few or too many",
        REFUSED_HORIZON => "the horizon is outside its limits",
        REFUSED_INTEGRATOR => "an integrator's start or quantum is outside its limits",
        REFUSED_INPUT => "an input's first value is outside its limits",
        REFUSED_NODE => "a node has a kind above 3, names a source that is not below it, or breaks its kind's rule for B, lo and hi",
        REFUSED_LINK => "a link's target, source or coefficient is outside its limits, or it does not stand above its predecessor",
        REFUSED_COMMAND => "a command's tick, input or value is outside its limits, or it does not stand above its predecessor",
        REFUSED_UNSOUND => "the state is not sound",
        REFUSED_BUDGET => "a run's budget is above 1,024",
        REFUSED_RUN_BUFFER => "a run's buffer is shorter than budget × (n + m) × 12 bytes",
        REFUSED_WRITE_BUFFER => "the plan writer's buffer is shorter than the file",
        REFUSED_INTEGRATOR_NUMBER => "the position call's integrator number is n or more",
        _ => "no number of document 01",
    }
}
