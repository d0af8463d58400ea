//! What a part of the comparison has seen: how many cases, what each call replied, and where the two services differ.

use std::collections::BTreeMap;
use std::fmt::Write;

/// So many differences are kept as text; all are counted.
const KEPT: usize = 20;

/// The counts of one part. Those of several parts are added up in their order.
#[derive(Clone, Debug, Default, PartialEq, Eq)]
pub struct Tally {
    pub cases: u64,
    /// How often each call gave each number, 0 where nothing was refused.
    pub numbers: BTreeMap<(&'static str, u64), u64>,
    /// How many shown parts of tables were not empty.
    pub shown: u64,
    pub differences: u64,
    /// The first of them, as text.
    pub kept: Vec<String>,
}

impl Tally {
    /// Counts a reply of a call.
    pub fn count_reply(&mut self, call: &'static str, number: u64) {
        *self.numbers.entry((call, number)).or_default() += 1;
    }

    /// Counts a difference and keeps its text, by lines of a name and a value, if it is among the first.
    pub fn differ(&mut self, from: &str, lines: &[(&str, &dyn Fn() -> String)]) {
        self.differences += 1;
        if self.kept.len() < KEPT {
            let mut text = format!("DIFFERENCE: {from}\n");
            for (name, value) in lines {
                writeln!(text, "  {name}: {}", value()).expect("text grows");
            }
            self.kept.push(text);
        }
    }

    /// Adds what came after.
    pub fn add(&mut self, later: Tally) {
        self.cases += later.cases;
        for (reply, count) in later.numbers {
            *self.numbers.entry(reply).or_default() += count;
        }
        self.shown += later.shown;
        self.differences += later.differences;
        self.kept.extend(later.kept);
        self.kept.truncate(KEPT);
    }

    /// All of them, added up.
    pub fn sum(tallies: impl IntoIterator<Item = Tally>) -> Tally {
        let mut sum = Tally::default();
        tallies.into_iter().for_each(|tally| sum.add(tally));
        sum
    }
}
