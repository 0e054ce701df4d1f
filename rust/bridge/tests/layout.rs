//! Size and place of every field, in C and in Rust, as numbers that stay: a program that was compiled
//! with an older header goes on linking with a newer library.
//!
//! That C and Rust agree with each other, and the library with both, is shown in `echo.rs`.

mod common;

use common::compiled;
use cup_bridge::state::{Loaded, Plan, Positioned, Ran, Running, State, Tables, Written};
use std::mem::offset_of;

/// `layout.c` has the same numbers as assertions of the compiler.
#[test]
fn every_field_in_c_is_where_it_was() {
    compiled("layout");
}

/// The bytes of a field.
fn bytes<T, F>(_: fn(&T) -> &F) -> usize {
    size_of::<F>()
}

macro_rules! assert_layout {
    ($kind:ident, $size:literal: $($part:ident $(. $name:ident)* $start:literal $bytes:literal,)+) => {
        assert_eq!(size_of::<$kind>(), $size, stringify!($kind));
        $(assert_eq!(
            (
                offset_of!($kind, $part $(. $name)*),
                bytes(|value: &$kind| &value.$part $(. $name)*)
            ),
            ($start, $bytes),
            concat!(stringify!($kind), ".", stringify!($part $(. $name)*))
        );)+
    };
}

#[test]
fn every_field_of_a_state_in_rust_is_where_it_was() {
    assert_layout!(Plan, 8_688:
        horizon 0 4,
        counts 8 40,
        counts.n 8 8,
        counts.m 16 8,
        counts.k 24 8,
        counts.links 32 8,
        counts.commands 40 8,
        integrators 48 512,
        integrators.starts 48 256,
        integrators.quanta 304 256,
        inputs 560 64,
        inputs.firsts 560 64,
        nodes 624 640,
        nodes.kinds 624 128,
        nodes.a 752 128,
        nodes.b 880 128,
        nodes.lows 1_008 128,
        nodes.highs 1_136 128,
        links 1_264 6_144,
        links.targets 1_264 2_048,
        links.sources 3_312 2_048,
        links.coefficients 5_360 2_048,
        commands 7_408 1_280,
        commands.ticks 7_408 256,
        commands.inputs 7_664 512,
        commands.values 8_176 512,
    );
    assert_layout!(Running, 1_120:
        x 0 256,
        q 256 256,
        s 512 256,
        l 768 128,
        d 896 128,
        inputs 1_024 64,
        clocks 1_088 32,
        clocks.clock 1_088 4,
        clocks.next 1_096 8,
        clocks.instants 1_104 8,
        clocks.updates 1_112 8,
    );
    assert_layout!(State, 9_808: plan 0 8_688, run 8_688 1_120,);
}

#[test]
fn every_field_of_an_answer_in_rust_is_where_it_was() {
    assert_layout!(Loaded, 9_824: number 0 8, entry 8 8, state 16 9_808,);
    assert_layout!(Written, 9_824: number 0 8, length 8 8, state 16 9_808,);
    assert_layout!(Ran, 9_840: number 0 8, status 8 8, integrator 16 8, written 24 8, state 32 9_808,);
    assert_layout!(Positioned, 9_824: number 0 8, value 8 8, state 16 9_808,);
    assert_layout!(Tables, 1_288: ranges 0 264, reach 264 512, values 776 512,);
}
