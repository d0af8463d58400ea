//! The standard inputs that the built program is run on, and the ways in which they are fed to it.

use crate::{in_order, Feeding, Program, Tally};
use reference::generate::{case, random_bytes, text, Call, Dice, Directed};
use std::collections::BTreeSet;

/// How many runs a block has.
const BLOCK: usize = 50;

/// One run of the program.
pub struct Run {
    pub from: String,
    pub stdin: Vec<u8>,
    pub feeding: Feeding,
}

impl Run {
    pub fn new(from: &str, stdin: Vec<u8>, feeding: Feeding) -> Run {
        Run { from: from.to_string(), stdin, feeding }
    }
}

/// Runs the program on all of these.
pub fn program_runs(program: &Program, runs: &[Run]) -> Tally {
    let blocks: Vec<&[Run]> = runs.chunks(BLOCK).collect();
    Tally::sum(in_order(blocks.len(), |block| {
        let mut tally = Tally::default();
        for run in blocks[block] {
            program.compare(&mut tally, &run.from, &run.stdin, run.feeding);
        }
        tally
    }))
}

/// The standard inputs of cases built on purpose, each once; those about the program in all ways of feeding.
pub fn runs_on_purpose(cases: &[Directed]) -> Vec<Run> {
    let (about, others): (Vec<&Directed>, Vec<&Directed>) =
        cases.iter().partition(|directed| directed.call == Call::Program);
    let mut met = BTreeSet::new();
    let mut runs = Vec::new();
    for Directed { way, call, case, .. } in about.into_iter().chain(others) {
        if met.insert(&case.stdin) {
            let all = every_feeding(&case.stdin);
            let feedings = if *call == Call::Program { &all[..] } else { &[Feeding::AtOnce] };
            runs.extend(feedings.iter().map(|&feeding| Run::new(way, case.stdin.clone(), feeding)));
        }
    }
    runs
}

/// All ways of feeding; byte by byte only what is short.
fn every_feeding(stdin: &[u8]) -> Vec<Feeding> {
    let small = if stdin.len() < 1_000 { 1 } else { 4_096 };
    vec![
        Feeding::AtOnce,
        Feeding::FirstByte,
        Feeding::Pieces(small),
        Feeding::Pause(1),
        Feeding::Pause(stdin.len() / 2),
    ]
}

/// The empty input, inputs about 65,536 bytes and far beyond in all ways of feeding, and bytes by chance.
pub fn runs_of_limits() -> Vec<Run> {
    let mut runs = vec![Run::new("no byte", Vec::new(), Feeding::AtOnce)];
    for length in [65_535, 65_536, 65_537, 65_538, 70_000, 1_000_000] {
        // The list is read; only the count of bytes or of inputs can be wrong.
        let mut short = text("field 31;in;in;end");
        short.resize(length, b'\n');
        for (way, stdin) in [
            ("bytes 10", vec![b'\n'; length]),
            ("bytes 120", vec![b'x'; length]),
            ("bytes of a short list and empty lines", short),
            ("bytes of inputs", many_inputs(length)),
        ] {
            let run = |feeding| Run::new(&format!("{length} {way}"), stdin.clone(), feeding);
            runs.extend(every_feeding(&stdin).into_iter().map(run));
        }
    }
    for index in 0..300 {
        let bytes = random_bytes(&mut Dice::new(300, index));
        runs.push(Run::new(&format!("random bytes {index}"), bytes, Feeding::AtOnce));
    }
    for index in 0..10 {
        let mut dice = Dice::new(301, index);
        let length = dice.range(60_000, 66_000);
        let bytes = (0..length).map(|_| dice.draw() as u8).collect();
        runs.push(Run::new(&format!("many random bytes {index}"), bytes, Feeding::AtOnce));
    }
    runs
}

/// A list of one input and then far too many inputs, up to so many bytes.
fn many_inputs(length: usize) -> Vec<u8> {
    let mut input = text("field 31;in;end");
    while input.len() + 2 <= length {
        input.extend(b"0\n");
    }
    input.resize(length, b'\n');
    input
}

/// The standard inputs of so many cases by chance; some arrive in pieces.
pub fn runs_by_chance(count: u64, seed: u64) -> Vec<Run> {
    let run = |index: u64| {
        let feeding = match index % 8 {
            0 => Feeding::FirstByte,
            1 => Feeding::Pieces(1 + (index % 97) as usize),
            _ => Feeding::AtOnce,
        };
        Run::new(&format!("seed {seed}, index {index}"), case(seed, index).stdin, feeding)
    };
    (0..count).map(run).collect()
}
