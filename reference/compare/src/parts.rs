//! The parts of the comparison that call both services. Each is cut into fixed blocks, which the cores share; a desk of each service hears
//! the cases of a block, so what is seen does not depend on how many cores there are.

use crate::{all_lines, in_order, small_jobs, Comparison, Proved, Tally};
use reference::generate::{case, large, Directed, Writing};
use std::collections::BTreeMap;
use std::sync::atomic::{AtomicU64, Ordering};

/// The seeds of the cases by chance: the case of a number n has the seed n mod 4, and n / 4 is its index there.
pub const SEEDS: [u64; 4] = [1, 20_241, 31_337, 65_537];

/// How many cases a block has.
const BLOCK: usize = 250;
const BLOCK_BY_CHANCE: u64 = 5_000;
/// Progress is told after so many cases by chance.
const TOLD: u64 = 100_000;

/// Cases built on purpose, held to their own replies too. All lines are shown, of a very long list one.
pub fn on_purpose(cases: &[Directed]) -> Tally {
    let blocks: Vec<&[Directed]> = cases.chunks(BLOCK).collect();
    Tally::sum(in_order(blocks.len(), |block| {
        let mut comparison = Comparison::default();
        for directed in blocks[block] {
            let case = &directed.case;
            let lines = if case.list.len() < 4_096 { all_lines(case) } else { vec![1] };
            comparison.compare_directed(directed, &lines);
        }
        comparison.tally
    }))
}

/// Lines that are written on purpose, held to their own replies and texts too.
pub fn writings_on_purpose(writings: &[Writing]) -> Tally {
    let blocks: Vec<&[Writing]> = writings.chunks(BLOCK).collect();
    Tally::sum(in_order(blocks.len(), |block| {
        let mut comparison = Comparison::default();
        blocks[block].iter().for_each(|writing| comparison.compare_writing(writing));
        comparison.tally
    }))
}

/// So many large cases, all lines shown.
pub fn large_cases(count: u64) -> Tally {
    Tally::sum(in_order(count as usize, |seed| {
        let mut comparison = Comparison::default();
        let case = large(seed as u64);
        comparison.compare(&format!("large {seed}"), &case, &all_lines(&case));
        comparison.tally
    }))
}

/// So many cases by chance, from the seeds with this number added to each.
pub fn by_chance(count: u64, added: u64) -> Tally {
    let done = AtomicU64::new(0);
    Tally::sum(in_order(count.div_ceil(BLOCK_BY_CHANCE) as usize, |block| {
        let first = block as u64 * BLOCK_BY_CHANCE;
        let past = count.min(first + BLOCK_BY_CHANCE);
        let mut comparison = Comparison::default();
        for number in first..past {
            let (seed, index) = (SEEDS[(number % 4) as usize] + added, number / 4);
            let case = case(seed, index);
            comparison.compare(&format!("seed {seed}, index {index}"), &case, &[case.line]);
        }
        let before = done.fetch_add(past - first, Ordering::Relaxed);
        let now = before + past - first;
        if now / TOLD > before / TOLD {
            eprintln!("by chance: {now} of {count} cases");
        }
        comparison.tally
    }))
}

/// Every table of the small lists, and for each gadget and p how many lists and tables there were.
pub fn every_small_table() -> (Tally, Vec<String>) {
    let jobs = small_jobs();
    let tallies = in_order(jobs.len(), |job| jobs[job].compare::<Proved>());
    let mut counts: BTreeMap<&str, BTreeMap<u32, (u64, u64)>> = BTreeMap::new();
    for (job, tally) in jobs.iter().zip(&tallies) {
        let of_gadget = counts.entry(job.small.gadget).or_default();
        let (lists, tables) = of_gadget.entry(job.small.p()).or_default();
        *lists += 1;
        *tables += tally.cases;
    }
    let lines = counts.iter().map(|(gadget, of_gadget)| {
        let of_p = |(p, (lists, tables)): (&u32, &(u64, u64))| {
            format!("p = {p}: {tables} tables of {lists} lists")
        };
        format!("  {gadget}: {}", of_gadget.iter().map(of_p).collect::<Vec<_>>().join("; "))
    });
    let lines = lines.collect();
    (Tally::sum(tallies), lines)
}
