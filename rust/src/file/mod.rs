//! The plan file: reading with refusals 1 to 9, the section view and the encoding.
//!
//! The rules that a known error would replace are reached through the table [`ReaderRules`], so that a
//! test can exchange one of them by a [`Mutant`] and see a comparison fail.

pub mod cause;
pub mod encoding;
pub mod mutant;
pub mod read;
pub mod reader_rules;
pub mod rules;

pub use cause::{Cause, Refusal};
pub use encoding::{encode, write};
pub use mutant::Mutant;
pub use read::{read, section};
pub use reader_rules::ReaderRules;
