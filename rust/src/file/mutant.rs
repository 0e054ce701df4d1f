//! Mutants of the reader: each has one rule exchanged, to show that a comparison notices.

use super::cause::Cause;
use super::reader_rules::ReaderRules;
use crate::limits::{Section, KIND_COMPARISON, KIND_LIMIT, REFUSED_LINK, REFUSED_NODE};
use crate::plan::Plan;
use std::cmp::Ordering;

/// One exchanged rule of the reader, or none.
#[derive(Clone, Copy, Debug, Default, PartialEq, Eq)]
pub enum Mutant {
    /// Document 01 as it stands.
    #[default]
    None,
    /// Offset and length are added in 32 bits, so that a sum may wrap.
    SumIn32Bits,
    /// Bytes after the last section are accepted.
    EndIgnored,
    /// A section may have one entry more than its limit.
    OneEntryMore,
    /// The horizon is tried before the counts.
    HorizonBeforeCounts,
    /// The links are tried before the nodes.
    NodesAfterLinks,
    /// The highest faulty entry is answered.
    HighestEntry,
    /// An order fault is the earlier entry's.
    EarlierEntry,
    /// The order of a section is tried after the limits of all its entries.
    OrderAfterLimits,
    /// An entry may have the key of the entry before it.
    RepeatAllowed,
    /// A value at its bound is beyond it.
    BoundExcluded,
    /// A node may name itself.
    NodeNamesItself,
    /// B of kind 2 may name a source.
    UnusedBNames,
    /// Kind 3 asks lo ≤ hi as well.
    KindThreeOrdered,
    /// Links may name integrators and inputs only.
    LinksNameNoNode,
    /// A command's tick must be below the horizon.
    TickBelowHorizon,
}

impl Mutant {
    /// Every mutant.
    pub const ALL: [Mutant; 15] = [
        Mutant::SumIn32Bits,
        Mutant::EndIgnored,
        Mutant::OneEntryMore,
        Mutant::HorizonBeforeCounts,
        Mutant::NodesAfterLinks,
        Mutant::HighestEntry,
        Mutant::EarlierEntry,
        Mutant::OrderAfterLimits,
        Mutant::RepeatAllowed,
        Mutant::BoundExcluded,
        Mutant::NodeNamesItself,
        Mutant::UnusedBNames,
        Mutant::KindThreeOrdered,
        Mutant::LinksNameNoNode,
        Mutant::TickBelowHorizon,
    ];

    /// The mutant that is written so; "None" is none.
    pub fn named(name: &str) -> Option<Mutant> {
        let mut all = Mutant::ALL.into_iter().chain([Mutant::None]);
        all.find(|mutant| format!("{mutant:?}") == name)
    }

    /// Document 01 with this one rule exchanged.
    pub fn rules(self) -> ReaderRules {
        let right = ReaderRules::DOCUMENT;
        match self {
            Mutant::None => right,
            Mutant::SumIn32Bits => ReaderRules {
                end: |offset, length| u64::from((offset + length) as u32),
                ..right
            },
            Mutant::EndIgnored => ReaderRules {
                ends_file: |end, file_length| end <= file_length,
                ..right
            },
            Mutant::OneEntryMore => ReaderRules {
                most: |section: Section| section.most() + 1,
                ..right
            },
            Mutant::HorizonBeforeCounts => ReaderRules {
                counts_first: false,
                ..right
            },
            Mutant::NodesAfterLinks => ReaderRules {
                numbers: nodes_after_links(right.numbers),
                ..right
            },
            Mutant::HighestEntry => ReaderRules {
                answered: |faults| faults.next_back(),
                ..right
            },
            Mutant::EarlierEntry => ReaderRules {
                entry: earlier_entry,
                ..right
            },
            Mutant::OrderAfterLimits => ReaderRules {
                order_with_limits: false,
                ..right
            },
            Mutant::RepeatAllowed => ReaderRules {
                may_follow: |before| before != Ordering::Greater,
                ..right
            },
            Mutant::BoundExcluded => ReaderRules {
                beyond: |value, bound| value <= -bound || bound <= value,
                ..right
            },
            Mutant::NodeNamesItself => ReaderRules {
                node_may_name: |source| source + 1,
                ..right
            },
            Mutant::UnusedBNames => ReaderRules {
                node_b: |node, sources_below| {
                    (node.b >= sources_below).then_some(Cause::BOutOfPlace)
                },
                ..right
            },
            Mutant::KindThreeOrdered => ReaderRules {
                limits_ordered: |kind| kind == KIND_LIMIT || kind == KIND_COMPARISON,
                ..right
            },
            Mutant::LinksNameNoNode => ReaderRules {
                link_may_name: |plan: &Plan| plan.node_source(0),
                ..right
            },
            Mutant::TickBelowHorizon => ReaderRules {
                last_tick: |horizon| horizon - 1,
                ..right
            },
        }
    }
}

/// The same numbers with those of nodes and links exchanged.
fn nodes_after_links(numbers: [usize; 6]) -> [usize; 6] {
    numbers.map(|number| match number {
        REFUSED_NODE => REFUSED_LINK,
        REFUSED_LINK => REFUSED_NODE,
        _ => number,
    })
}

fn earlier_entry(cause: Cause, found_at: usize) -> usize {
    match cause {
        Cause::LinkRepeats
        | Cause::LinkDescends
        | Cause::CommandRepeats
        | Cause::CommandDescends => found_at - 1,
        _ => found_at,
    }
}
