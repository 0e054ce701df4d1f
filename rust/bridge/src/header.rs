//! The functions of include/cup.h.

use crate::state::{Loaded, Positioned, Ran, State, Tables, Written};

#[allow(unsafe_code)]
extern "C" {
    pub fn cup_read(file: *const u8, file_length: usize, entry: *mut usize) -> usize;
    pub fn cup_section(
        file: *const u8,
        file_length: usize,
        number: usize,
        offset: *mut usize,
    ) -> usize;
    pub fn cup_rewrite(
        file: *const u8,
        file_length: usize,
        buffer: *mut u8,
        buffer_length: usize,
        length: *mut usize,
    ) -> usize;
    pub fn cup_load(file: *const u8, file_length: usize) -> Loaded;
    pub fn cup_write(state: State, buffer: *mut u8, buffer_length: usize) -> Written;
    pub fn cup_sound(state: State) -> bool;
    pub fn cup_echo(state: State) -> State;
    pub fn cup_tables(state: State) -> Tables;
    pub fn cup_run_lazy(state: State, budget: u64, buffer: *mut u8, buffer_length: usize) -> Ran;
    pub fn cup_run_eager(state: State, budget: u64, buffer: *mut u8, buffer_length: usize) -> Ran;
    pub fn cup_position(state: State, integrator: usize) -> Positioned;
}
