//! Mutants of the engines: each has one rule exchanged, to show that a comparison notices.

use super::rules::{divided_rounding_up, node_value, ticks_to_level, Rules};
use super::Engine;
use crate::limits::{GRAINS_PER_ML, GRAIN_BITS, KIND_COMPARISON, KIND_DIFFERENCE, KIND_PRODUCT, M};
use crate::plan::Node;

/// One exchanged rule, or none.
#[derive(Clone, Copy, Debug, Default, PartialEq, Eq)]
pub enum Mutant {
    /// Document 01 as it stands.
    #[default]
    None,
    /// The rate is rounded towards 0 (an error document 01 names).
    TruncatedSlope,
    /// The product is rounded towards 0.
    TruncatedProduct,
    /// D − |x − q| is the distance in both directions (an error document 01 names).
    DistanceBothWays,
    /// A level that is reached exactly is not enough.
    LevelMustBePassed,
    /// A moved integrator's output is set although it is not due (an error document 01 names).
    ReceiverOutputSet,
    /// A slope is taken when the outputs of higher due integrators are not set yet (an error
    /// document 01 names).
    SlopeBeforeOutputs,
    /// Kind 3 compares a > b.
    StrictComparison,
    /// Nodes are clipped to ±2 M.
    WideClip,
    /// The lazy engine moves only the due.
    OnlyDueMoved,
    /// The lazy engine moves all.
    AllMoved,
    /// B of kind 2 is taken for integrator 0.
    UnusedBFollowed,
    /// Reach ends at the first node.
    NodesNotFollowed,
    /// A command that repeats a value does not reach.
    RepeatedValueIgnored,
    /// A due integrator's output is the level, and what lies beyond it is lost.
    OutputAtLevel,
    /// A due value of exactly ±M bars the instant.
    BoundBars,
}

impl Mutant {
    /// Every mutant.
    pub const ALL: [Mutant; 15] = [
        Mutant::TruncatedSlope,
        Mutant::TruncatedProduct,
        Mutant::DistanceBothWays,
        Mutant::LevelMustBePassed,
        Mutant::ReceiverOutputSet,
        Mutant::SlopeBeforeOutputs,
        Mutant::StrictComparison,
        Mutant::WideClip,
        Mutant::OnlyDueMoved,
        Mutant::AllMoved,
        Mutant::UnusedBFollowed,
        Mutant::NodesNotFollowed,
        Mutant::RepeatedValueIgnored,
        Mutant::OutputAtLevel,
        Mutant::BoundBars,
    ];

    /// The mutant that is written so; "None" is none.
    pub fn named(name: &str) -> Option<Mutant> {
        let mut all = Mutant::ALL.into_iter().chain([Mutant::None]);
        all.find(|mutant| format!("{mutant:?}") == name)
    }

    /// Document 01 with this one rule exchanged.
    pub fn rules(self) -> Rules {
        let right = Rules::DOCUMENT;
        match self {
            Mutant::None => right,
            Mutant::TruncatedSlope => Rules {
                slope: |sum| sum / i128::from(GRAINS_PER_ML),
                ..right
            },
            Mutant::TruncatedProduct => Rules {
                node: truncated_product,
                ..right
            },
            Mutant::DistanceBothWays => Rules {
                ticks_to_level: distance_both_ways,
                ..right
            },
            Mutant::LevelMustBePassed => Rules {
                ticks_to_level: |x, q, quantum, slope| ticks_to_level(x, q, quantum + 1, slope),
                ..right
            },
            Mutant::ReceiverOutputSet => Rules {
                receiver_output: |_, position| position,
                ..right
            },
            Mutant::SlopeBeforeOutputs => Rules {
                slopes_after_outputs: false,
                ..right
            },
            Mutant::StrictComparison => Rules {
                node: strict_comparison,
                ..right
            },
            Mutant::WideClip => Rules {
                node: wide_clip,
                ..right
            },
            Mutant::OnlyDueMoved => Rules {
                moves: |engine, due, _| engine == Engine::Eager || due,
                ..right
            },
            Mutant::AllMoved => Rules {
                moves: |_, _, _| true,
                ..right
            },
            Mutant::UnusedBFollowed => Rules {
                follows_b: |_| true,
                ..right
            },
            Mutant::NodesNotFollowed => Rules {
                nodes_are_followed: false,
                ..right
            },
            Mutant::RepeatedValueIgnored => Rules {
                command_reaches: |before, after| before != after,
                ..right
            },
            Mutant::OutputAtLevel => Rules {
                due_output: |position, q, quantum| q + quantum * (position - q).signum(),
                ..right
            },
            Mutant::BoundBars => Rules {
                bars: |value| value.abs() >= i128::from(M),
                ..right
            },
        }
    }
}

fn truncated_product(node: &Node, a: i128, b: i128) -> i128 {
    match node.kind {
        KIND_PRODUCT => (a * b / i128::from(GRAINS_PER_ML)).clamp(i128::from(-M), i128::from(M)),
        _ => node_value(node, a, b),
    }
}

fn strict_comparison(node: &Node, a: i128, b: i128) -> i128 {
    match node.kind {
        KIND_COMPARISON if a == b => i128::from(node.low),
        _ => node_value(node, a, b),
    }
}

fn wide_clip(node: &Node, a: i128, b: i128) -> i128 {
    let bound = 2 * i128::from(M);
    match node.kind {
        KIND_DIFFERENCE => (a - b).clamp(-bound, bound),
        KIND_PRODUCT => ((a * b) >> GRAIN_BITS).clamp(-bound, bound),
        _ => node_value(node, a, b),
    }
}

fn distance_both_ways(x: i128, q: i128, quantum: i128, slope: i128) -> Option<i128> {
    let distance = quantum - (x - q).abs();
    (slope != 0).then(|| divided_rounding_up(distance, slope.abs()).max(1))
}
