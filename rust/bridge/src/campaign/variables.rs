//! The environment variables by which more, or other, material is asked for.

use std::env;
use std::fmt::Debug;

/// The number that a variable has, or another without it.
pub fn number(variable: &str, otherwise: u64) -> u64 {
    match env::var(variable) {
        Ok(text) => text
            .parse()
            .unwrap_or_else(|_| panic!("{variable} is a number, not '{text}'")),
        Err(_) => otherwise,
    }
}

/// The mutant that the variable CUP_MUTANT names, or none without it.
pub fn mutant<T: Debug + Default>(named: impl Fn(&str) -> Option<T>, all: &[T]) -> T {
    match env::var("CUP_MUTANT") {
        Ok(name) => named(&name).unwrap_or_else(|| panic!("CUP_MUTANT is none of {all:?}")),
        Err(_) => T::default(),
    }
}
