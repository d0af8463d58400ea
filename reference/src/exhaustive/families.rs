//! The families of small lists: each line over every p up to 13 and every base and digit count
//! that such a p has room for; and lists by chance.

use super::SmallList;
use crate::generate::{small_draft, Dice};

/// The primes of all families but root's, which no p below 17 allows (FORMAT 6.4).
const PRIMES: [i64; 5] = [3, 5, 7, 11, 13];

/// Lists of one shape.
pub struct Family {
    pub gadget: &'static str,
    /// Where a family has many lists, only those with few tables are taken: the bound on the
    /// tables of a list is divided by this.
    share: u64,
    /// As `text` takes them; not all of them are read.
    lists: Vec<String>,
    /// There are more than so many lists with at most 6,000,000 tables.
    pub least: usize,
}

impl Family {
    /// The lists that are read and have at most so many tables.
    pub fn lists(&self, most: u64) -> Vec<SmallList> {
        let small = |list: &SmallList| {
            list.table_count(list.p()).is_some_and(|tables| tables <= most / self.share)
        };
        let read = |lines: &String| SmallList::written(self.gadget, lines);
        self.lists.iter().filter_map(read).filter(small).collect()
    }
}

/// All families.
pub fn families() -> Vec<Family> {
    let plain = |gadget, least, lists| Family { gadget, share: 1, lists, least };
    vec![
        plain("in", 19, inputs()),
        plain("span", 100, shapes(spans)),
        plain("span", 60, shapes(spans_twice)),
        plain("sum", 20, shapes(sums_after_span)),
        plain("sum", 300, sums()),
        plain("relu", 20, shapes(|_, b, k| vec![format!("in;relu 0 {b} {k}")])),
        plain("relu", 15, shapes(|_, b, k| vec![format!("in;span 0 3 1 -1;relu 0 {b} {k}")])),
        Family { share: 15, ..plain("which", 20, shapes(|m, b, k| sides("which", m, b, k))) },
        plain("which", 15, shapes(|_, b, k| vec![format!("in;sum 0;which 0 1 {b} {k}")])),
        Family { share: 15, ..plain("which", 150, shapes(|m, b, k| twice("which", m, b, k))) },
        plain("which", 2, shapes(|_, b, k| vec![two_spanned("which", b, k)])),
        plain("max", 60, shapes(|m, b, k| sides("max", m, b, k))),
        plain("max", 2, shapes(|_, b, k| vec![two_spanned("max", b, k)])),
        plain("max", 8, shapes(|_, b, k| vec![format!("in;span 0 2 1 0;max 0 0 {b} {k}")])),
    ]
}

/// Lists of mixed lines by chance with at least 100 and at most so many tables.
pub fn mixes(most: u64) -> Vec<SmallList> {
    let drafts = (0..2_000).map(|index| small_draft(&mut Dice::new(13, index), 13));
    let lists = drafts.filter_map(|list| SmallList::read("mix", list));
    let small = |list: &SmallList| {
        list.table_count(list.p()).is_some_and(|tables| (100..=most).contains(&tables))
    };
    lists.filter(small).collect()
}

/// All b and k whose power is at most the limit.
fn digits(limit: i64) -> Vec<(i64, i64)> {
    let mut all = Vec::new();
    for b in 2..=limit {
        let mut k = 1;
        while b.pow(k as u32) <= limit {
            all.push((b, k));
            k += 1;
        }
    }
    all
}

/// The lists of every p and every b and k, of the shape that the function gives for M, b and k.
fn shapes(shape: impl Fn(i64, i64, i64) -> Vec<String>) -> Vec<String> {
    let mut all = Vec::new();
    for p in PRIMES {
        for (b, k) in digits(p + 1) {
            let lines = shape((p - 1) / 2, b, k);
            all.extend(lines.iter().map(|lines| format!("field {p};{lines}")));
        }
    }
    all
}

/// No line after the field line, or up to three inputs: every table is a true one.
fn inputs() -> Vec<String> {
    let lists =
        PRIMES.map(|p| (0..4).map(move |count| format!("field {p}{}", ";in".repeat(count))));
    lists.into_iter().flatten().collect()
}

fn spans(m: i64, b: i64, k: i64) -> Vec<String> {
    (-m..=m).map(|low| format!("in;span 0 {b} {k} {low}")).collect()
}

fn spans_twice(m: i64, b: i64, k: i64) -> Vec<String> {
    (-m..=m).map(|low| format!("in;span 0 2 1 0;span 0 {b} {k} {low}")).collect()
}

fn sums_after_span(m: i64, b: i64, k: i64) -> Vec<String> {
    (-m..=m).map(|c| format!("in;span 0 {b} {k} 0;sum {c} -2 0;sum 0 1 0 -1 1")).collect()
}

/// Every constant, every coefficient of an input and of a constant.
fn sums() -> Vec<String> {
    let mut all = Vec::new();
    for p in PRIMES {
        let m = (p - 1) / 2;
        for c in -m..=m {
            all.push(format!("field {p};sum {c}"));
            all.push(format!("field {p};in;sum 0 {c} 0"));
            all.extend((-m..=m).map(|d| format!("field {p};in;sum {d};sum {c} 1 1;sum 0 1 0 0 2")));
        }
    }
    all
}

/// One input against a constant, on either side.
fn sides(word: &str, m: i64, b: i64, k: i64) -> Vec<String> {
    let list = |c: i64, names: &str| format!("in;sum {c};{word} {names} {b} {k}");
    (-m..=m).flat_map(|c| ["0 1", "1 0"].map(|names| list(c, names))).collect()
}

/// A constant against itself.
fn twice(word: &str, m: i64, b: i64, k: i64) -> Vec<String> {
    (-m..=m).map(|c| format!("sum {c};{word} 0 0 {b} {k}")).collect()
}

/// Two inputs of two numbers each.
fn two_spanned(word: &str, b: i64, k: i64) -> String {
    format!("in;in;span 0 2 1 0;span 1 2 1 -1;{word} 0 1 {b} {k}")
}
