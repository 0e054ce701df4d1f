//! The fields of a state one by one, by their names in C.

use super::State;
use std::mem::offset_of;

/// Numbers of 32 or 64 bits, or an array of them, as words of 64 bits.
pub trait Words {
    /// The bytes of one number.
    const WIDTH: usize;

    /// Every number, by its bits.
    fn words(&self) -> Vec<u64>;

    /// Takes every number from the lowest bits of a word.
    fn fill(&mut self, word: &mut dyn FnMut() -> u64);
}

macro_rules! one_word {
    ($($number:ty),+) => {$(
        impl Words for $number {
            const WIDTH: usize = size_of::<$number>();

            fn words(&self) -> Vec<u64> {
                vec![*self as u64]
            }

            fn fill(&mut self, word: &mut dyn FnMut() -> u64) {
                *self = word() as $number;
            }
        }
    )+};
}

one_word!(u32, u64, usize, i64);

impl<T: Words, const N: usize> Words for [T; N] {
    const WIDTH: usize = T::WIDTH;

    fn words(&self) -> Vec<u64> {
        self.iter().flat_map(T::words).collect()
    }

    fn fill(&mut self, word: &mut dyn FnMut() -> u64) {
        self.iter_mut().for_each(|entry| entry.fill(word));
    }
}

/// One field of a state.
#[derive(Clone, Debug, PartialEq, Eq)]
pub struct Field {
    /// Its name, with those of the structs that it stands in: `plan.integrators.starts`.
    pub name: &'static str,
    /// Where it starts in the struct.
    pub offset: usize,
    /// The bytes of one entry.
    pub width: usize,
    /// Its entries, by their bits; a field that is no array has one.
    pub entries: Vec<u64>,
}

fn field<T: Words>(name: &'static str, offset: usize, value: &T) -> Field {
    Field {
        name,
        offset,
        width: T::WIDTH,
        entries: value.words(),
    }
}

/// Hands the path of every field, in the header's order, to a macro that is given the state too.
macro_rules! each_field {
    ($one:ident, $state:expr, $($part:ident $(. $name:ident)+,)+) => {
        [$($one!($state, $part $(. $name)+)),+]
    };
    ($one:ident, $state:expr) => {
        each_field!(
            $one,
            $state,
            plan.horizon,
            plan.counts.n,
            plan.counts.m,
            plan.counts.k,
            plan.counts.links,
            plan.counts.commands,
            plan.integrators.starts,
            plan.integrators.quanta,
            plan.inputs.firsts,
            plan.nodes.kinds,
            plan.nodes.a,
            plan.nodes.b,
            plan.nodes.lows,
            plan.nodes.highs,
            plan.links.targets,
            plan.links.sources,
            plan.links.coefficients,
            plan.commands.ticks,
            plan.commands.inputs,
            plan.commands.values,
            run.x,
            run.q,
            run.s,
            run.l,
            run.d,
            run.inputs,
            run.clocks.clock,
            run.clocks.next,
            run.clocks.instants,
            run.clocks.updates,
        )
    };
}

macro_rules! named {
    ($state:expr, $part:ident $(. $name:ident)+) => {
        field(
            concat!(stringify!($part), $(".", stringify!($name)),+),
            offset_of!(State, $part $(. $name)+),
            &$state.$part $(. $name)+,
        )
    };
}

macro_rules! as_words {
    ($state:expr, $part:ident $(. $name:ident)+) => {
        &mut $state.$part $(. $name)+ as &mut dyn FillField
    };
}

/// [`Words::fill`] alone, for a list of fields of several types.
trait FillField {
    fn fill_from(&mut self, word: &mut dyn FnMut() -> u64);
}

impl<T: Words> FillField for T {
    fn fill_from(&mut self, word: &mut dyn FnMut() -> u64) {
        self.fill(word);
    }
}

impl State {
    /// Every field in the header's order.
    pub fn fields(&self) -> Vec<Field> {
        each_field!(named, self).into()
    }

    /// Fills every entry of every field, in the header's order, with the lowest bits of a word.
    pub fn fill(&mut self, mut word: impl FnMut() -> u64) {
        for field in each_field!(as_words, self) {
            field.fill_from(&mut word);
        }
    }

    /// Exchanges two fields of one shape, numbered as [`State::fields`] has them.
    pub fn exchange(&mut self, one: usize, other: usize) {
        let mut fields = self.fields();
        fields.swap(one, other);
        let mut words = fields.into_iter().flat_map(|field| field.entries);
        self.fill(|| words.next().expect("as many words as entries"));
    }

    /// The entries in which two states differ, with both numbers as signed ones.
    pub fn differences(&self, other: &State) -> Vec<String> {
        if self == other {
            return Vec::new();
        }
        let pairs = self.fields().into_iter().zip(other.fields());
        pairs
            .flat_map(|(one, other)| one.differences(&other))
            .collect()
    }
}

impl Field {
    fn differences(&self, other: &Field) -> Vec<String> {
        let entries = self.entries.iter().zip(&other.entries);
        let different = (0..).zip(entries).filter(|(_, (one, other))| one != other);
        different
            .map(|(entry, (&one, &other))| {
                format!("{}[{entry}] {} -> {}", self.name, one as i64, other as i64)
            })
            .collect()
    }
}
