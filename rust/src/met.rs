//! What a comparison has met: counts by name, and the least that they have to reach, so that a comparison
//! fails that met something too seldom.

use std::borrow::Cow;
use std::collections::HashMap;
use std::fmt;

/// The name of a count.
pub type Name = Cow<'static, str>;

#[derive(Clone, Debug)]
struct Count {
    name: Name,
    count: u64,
    least: u64,
}

/// Counts, in the order in which their names came up.
#[derive(Clone, Debug, Default)]
pub struct Met {
    counts: Vec<Count>,
    places: HashMap<Name, usize>,
}

impl Met {
    /// Asks for a count of at least so many. A name that nothing is counted under is never reached.
    pub fn require(&mut self, name: impl Into<Name>, least: u64) {
        self.at(name.into()).least = least;
    }

    /// The same for each of several.
    pub fn require_each<N: Into<Name>>(&mut self, names: impl IntoIterator<Item = N>, least: u64) {
        for name in names {
            self.require(name, least);
        }
    }

    /// Counts so many more.
    pub fn add(&mut self, name: impl Into<Name>, more: u64) {
        self.at(name.into()).count += more;
    }

    /// Counts one more.
    pub fn count(&mut self, name: impl Into<Name>) {
        self.add(name, 1);
    }

    /// Counts one more if this holds.
    pub fn count_if(&mut self, holds: bool, name: impl Into<Name>) {
        if holds {
            self.count(name);
        }
    }

    /// Keeps the highest number, in place of a count.
    pub fn keep_highest(&mut self, name: impl Into<Name>, to: u64) {
        let kept = self.at(name.into());
        kept.count = kept.count.max(to);
    }

    /// A count, 0 if its name never came up.
    pub fn of(&self, name: &str) -> u64 {
        let place = self.places.get(name);
        place.map_or(0, |&place| self.counts[place].count)
    }

    /// What was met too seldom to count as compared.
    pub fn too_seldom(&self) -> Vec<String> {
        let seldom = self.counts.iter().filter(|count| count.count < count.least);
        seldom.map(Count::to_string).collect()
    }

    /// Panics if something was met too seldom, or if nothing was asked for.
    pub fn assert_enough(&self) {
        assert!(
            self.counts.iter().any(|count| count.least > 0),
            "nothing has to be met"
        );
        let seldom = self.too_seldom();
        assert!(seldom.is_empty(), "met too seldom: {seldom:?}");
    }

    fn at(&mut self, name: Name) -> &mut Count {
        let place = match self.places.get(&name) {
            Some(&place) => place,
            None => {
                let place = self.counts.len();
                self.places.insert(name.clone(), place);
                self.counts.push(Count {
                    name,
                    count: 0,
                    least: 0,
                });
                place
            }
        };
        &mut self.counts[place]
    }
}

impl fmt::Display for Count {
    fn fmt(&self, out: &mut fmt::Formatter) -> fmt::Result {
        write!(out, "{}: {}", self.name, self.count)?;
        match self.least {
            0 => Ok(()),
            least => write!(out, ", at least {least}"),
        }
    }
}

/// A line for each count.
impl fmt::Display for Met {
    fn fmt(&self, out: &mut fmt::Formatter) -> fmt::Result {
        self.counts
            .iter()
            .try_for_each(|count| writeln!(out, "  {count}"))
    }
}

#[cfg(test)]
mod tests {
    use super::*;

    fn required() -> Met {
        let mut met = Met::default();
        met.require("files", 3);
        met.require_each(["accepted", "damaged"], 1);
        met
    }

    #[test]
    fn a_count_below_its_least_is_too_seldom() {
        let mut met = required();
        met.add("files", 2);
        met.count("accepted");
        met.count_if(false, "damaged");
        let seldom = ["files: 2, at least 3", "damaged: 0, at least 1"];
        assert_eq!(met.too_seldom(), seldom);
        met.count("files");
        met.count_if(true, "damaged");
        met.assert_enough();
    }

    #[test]
    #[should_panic(expected = "met too seldom")]
    fn what_is_counted_under_another_name_is_missed() {
        let mut met = required();
        met.add("files", 3);
        met.add("Accepted", 1);
        met.add("damaged", 1);
        met.assert_enough();
    }

    #[test]
    #[should_panic(expected = "nothing has to be met")]
    fn a_comparison_that_asks_for_nothing_fails() {
        let mut met = Met::default();
        met.count("files");
        met.assert_enough();
    }

    #[test]
    fn names_stay_in_the_order_in_which_they_came_up() {
        let mut met = required();
        met.keep_highest("longest", 7);
        met.keep_highest("longest", 5);
        met.add("files", 4);
        let lines = "  files: 4, at least 3\n  accepted: 0, at least 1\n  damaged: 0, at least 1\n";
        assert_eq!(met.to_string(), format!("{lines}  longest: 7\n"));
        assert_eq!((met.of("files"), met.of("none such")), (4, 0));
    }
}
