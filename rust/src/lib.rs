//! A second simulator of cup plans, written from document 01 and sharing nothing with the first.
//!
//! The layers, each using only those above it:
//!
//! - [`limits`], [`words`], [`status`], [`plan`]: the figures, the words of files and events, the three
//!   statuses and the plan as plain data;
//! - [`mod@file`]: the plan file, its refusals 1 to 9, the section view and the encoding;
//! - [`engine`]: the lazy and the eager engine;
//! - [`plain`]: the plain machine, naive on purpose, which shares nothing with the engines but the
//!   names of the two, with an observer of what each of them moves;
//! - [`raw`], [`sound`], [`calls`]: the state as a struct of arrays, its soundness, the public calls;
//! - [`fast`]: the engines and the other calls once more, written for speed, to time the proved ones
//!   against;
//! - [`listing`]: the listing program as a function;
//! - [`generate`]: seeded plans, lists of run calls, states filled by hand and damaged files;
//! - [`met`], [`compare`]: counts of what a comparison met; any simulator's calls compared with the plain
//!   machine;
//! - [`samples`]: the plans kept in the folder `plans`.

#![forbid(unsafe_code)]
#![warn(missing_docs)]

pub mod calls;
pub mod compare;
pub mod engine;
pub mod fast;
pub mod file;
pub mod generate;
pub mod limits;
pub mod listing;
pub mod met;
pub mod plain;
pub mod plan;
pub mod raw;
pub mod samples;
pub mod sound;
pub mod status;
pub mod words;
