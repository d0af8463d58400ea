//! What the comparison prints: a line for each part, the counts of all replies, refusals that were never reached, the differences, and the
//! last line.

use crate::Tally;
use std::collections::BTreeMap;
use std::ops::RangeInclusive;
use std::time::Instant;

/// The numbers that each call can give, 0 for no refusal. Each must be reached, so that cases which silently stop reaching one are noticed.
pub const REQUIRED: [(&str, &[RangeInclusive<u64>]); 9] = [
    ("read", &[0..=12]),
    ("check", &[0..=15]),
    ("make", &[0..=13, 16..=18]),
    ("desk", &[0..=15, 19..=20]),
    ("answer", &[0..=12, 16..=18]),
    ("answer to an input line", &[3..=3]),
    ("write", &[0..=12, 21..=21]),
    ("program", &[0..=12, 16..=18]),
    ("program's input line", &[3..=3]),
];

/// The parts so far.
pub struct Report {
    all: Tally,
    part_began: Instant,
}

impl Report {
    pub fn begin() -> Report {
        Report { all: Tally::default(), part_began: Instant::now() }
    }

    /// Prints a part's line, and how long it took to standard error.
    pub fn part(&mut self, name: &str, tally: Tally) {
        eprintln!("{name}: {:.1} s", self.part_began.elapsed().as_secs_f64());
        let (cases, differences) = (tally.cases, tally.differences);
        let shown =
            if tally.shown > 0 { format!(", {} parts shown", tally.shown) } else { String::new() };
        println!(
            "{name}: {cases} cases, {differences} differences{shown}; reached: {}",
            reached(&tally)
        );
        self.all.add(tally);
        self.part_began = Instant::now();
    }

    /// The refusals that were never reached, as text.
    pub fn never_reached(&self) -> Vec<String> {
        let mut missing = Vec::new();
        for (call, ranges) in REQUIRED {
            for number in ranges.iter().cloned().flatten() {
                if !self.all.numbers.contains_key(&(call, number)) {
                    missing.push(format!("NEVER REACHED: {call} {number}"));
                }
            }
        }
        missing
    }

    /// Prints the rest; true where all is well.
    pub fn end(&self) -> bool {
        for (call, counts) in by_call(&self.all) {
            let counts = counts.iter().map(|(number, count)| format!("{number}: {count}"));
            println!("{call}  {}", counts.collect::<Vec<_>>().join(", "));
        }
        self.all.kept.iter().for_each(|difference| println!("{difference}"));
        let missing = self.never_reached();
        missing.iter().for_each(|line| println!("{line}"));
        println!("compare: {} cases, {} differences", self.all.cases, self.all.differences);
        self.all.differences == 0 && missing.is_empty()
    }
}

/// How often each call gave each number.
fn by_call(tally: &Tally) -> BTreeMap<&'static str, Vec<(u64, u64)>> {
    let mut calls: BTreeMap<&'static str, Vec<(u64, u64)>> = BTreeMap::new();
    for (&(call, number), &count) in &tally.numbers {
        calls.entry(call).or_default().push((number, count));
    }
    calls
}

/// The numbers that each call gave, runs of them as first-last.
fn reached(tally: &Tally) -> String {
    let mut texts = Vec::new();
    for (call, counts) in by_call(tally) {
        let mut runs: Vec<(u64, u64)> = Vec::new();
        for (number, _) in counts {
            match runs.last_mut() {
                Some((_, last)) if *last + 1 == number => *last = number,
                _ => runs.push((number, number)),
            }
        }
        let run = |(first, last): &(u64, u64)| match last - first {
            0 => first.to_string(),
            _ => format!("{first}-{last}"),
        };
        texts.push(format!("{call} {}", runs.iter().map(run).collect::<Vec<_>>().join(" ")));
    }
    texts.join(", ")
}
