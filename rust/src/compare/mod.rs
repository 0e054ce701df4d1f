//! A simulator's calls compared with the plain machine, over lists of run calls.
//!
//! Every function answers the first difference it finds as a text, so that a test can also ask
//! whether a mutant is found.

mod buffer;
pub mod counts;
mod hook;
mod list;
mod state;

pub use buffer::MarkedBuffer;
pub use hook::{Called, Hook};
pub use list::{continued_list, continued_list_with_hook, loaded_list, loaded_list_with_hook};
pub use state::{moment_of, same_as_plain};

use crate::limits::EVENT_BYTES;
use std::fmt::Debug;

/// Nothing, or the first difference.
pub type Found = Result<(), String>;

/// A difference unless both are equal.
pub fn same<T: PartialEq + Debug>(what: &str, found: T, expected: T) -> Found {
    if found == expected {
        Ok(())
    } else {
        Err(format!("{what}: found {found:?}, expected {expected:?}"))
    }
}

/// A difference unless the condition holds.
pub fn holds(what: &str, condition: bool) -> Found {
    if condition {
        Ok(())
    } else {
        Err(what.to_string())
    }
}

/// The first event that differs, unless all bytes are equal. `None` is found where a buffer has fewer
/// bytes than a call says that it has written.
pub fn same_events(found: Option<&[u8]>, expected: &[u8]) -> Found {
    let Some(found) = found else {
        return Err("events: more bytes than the buffer has".to_string());
    };
    if found == expected {
        return Ok(());
    }
    let equal = |number: &usize| event(found, *number) == event(expected, *number);
    let number = (0..).take_while(equal).count();
    let at = format!("event {number}");
    same(&at, event(found, number), event(expected, number))
}

/// The bytes of an event, fewer where they end.
fn event(bytes: &[u8], number: usize) -> &[u8] {
    let from = bytes.len().min(number * EVENT_BYTES);
    let to = bytes.len().min(from + EVENT_BYTES);
    &bytes[from..to]
}
