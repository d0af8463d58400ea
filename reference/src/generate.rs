//! A deterministic generator of test cases: the same seed and index always give the same case.
//!
//! `case` draws one case by chance; `directed` lists cases built on purpose, each with the reply
//! that the format gives, so that every refusal of its chapter 10 is reached in every way it can
//! be; `sources` lists the worked examples of the source documents and of the format, with their
//! own figures; `writings` lists lines to be written, with the reply and the text that the format
//! gives.

mod columns;
mod damage;
mod dice;
mod directed;
mod directed_limits;
mod directed_lines;
mod directed_numbers;
mod directed_program;
mod directed_tables;
mod lists;
mod rows;
mod sources;
mod sources_format;
mod sources_range;
mod sources_relu;
mod sources_root;
mod sources_whole;
mod tables;
mod writings;
mod writings_lengths;

pub use damage::random_bytes;
pub use dice::Dice;
pub use directed::{directed, Call, Directed};
pub use rows::{cut, Cut, Rows, NO_WORD};
pub use sources::{sources, SOURCE};
pub use writings::{writings, Writing};

use crate::plan::Plan;
use crate::Desk;
use lists::Draft;

/// Everything that the calls of the service take, to be handed to each of them.
#[derive(Clone, Debug, PartialEq, Eq)]
pub struct Case {
    /// How the list was drawn.
    pub kind: &'static str,
    pub list: Vec<u8>,
    pub inputs: Vec<i64>,
    /// The table for check and desk, and what stands in the table that make fills.
    pub table: Vec<u32>,
    /// The line to show.
    pub line: usize,
    pub desk: Desk,
    /// The program's standard input.
    pub stdin: Vec<u8>,
}

impl Case {
    /// A plain case about a list: the inputs nearest to 0 that its known ends allow, their true
    /// table where there is one, a fresh desk, and the same inputs for the program.
    pub fn about(list: Vec<u8>) -> Case {
        let (inputs, table) = match Plan::read(&list) {
            Ok(plan) => {
                let inputs = columns::nearest_to_zero(&plan);
                let table = tables::true_table(&plan, &inputs);
                (inputs, table.unwrap_or_else(|| vec![0; plan.cells]))
            }
            Err(_) => (Vec::new(), Vec::new()),
        };
        let stdin = program_text(&list, &inputs);
        Case { kind: "directed", list, inputs, table, line: 1, desk: Desk::fresh(), stdin }
    }
}

/// A list as it is written in this crate: a blank for each tab, a semicolon between lines.
pub fn text(lines: &str) -> Vec<u8> {
    let mut list: Vec<u8> = lines
        .bytes()
        .map(|byte| match byte {
            b' ' => b'\t',
            b';' => b'\n',
            other => other,
        })
        .collect();
    list.push(b'\n');
    list
}

/// What the program reads for a list and a column of inputs (FORMAT 11.3, 11.4).
pub fn program_text(list: &[u8], inputs: &[i64]) -> Vec<u8> {
    let mut stdin = list.to_vec();
    stdin.extend(b"end\n");
    for input in inputs {
        stdin.extend(format!("{input}\n").bytes());
    }
    stdin
}

/// The cases of a seed, from index 0.
pub fn cases(seed: u64, count: u64) -> impl Iterator<Item = Case> {
    (0..count).map(move |index| case(seed, index))
}

/// One case, by chance.
pub fn case(seed: u64, index: u64) -> Case {
    let mut dice = Dice::new(seed, index);
    let (draft, mut inputs) = lists::draft(&mut dice);
    let (kind, list) = drawn_list(&mut dice, &draft);
    // A list that was changed but can still be read gets a column and a table of its own.
    let plan = Plan::read(&list).unwrap_or(draft.plan);
    if list != draft.text {
        inputs = columns::column(&mut dice, &plan);
    }
    let table = tables::table(&mut dice, &plan, &inputs);
    let inputs = columns::spoilt(&mut dice, &plan, inputs);
    let line = dice.below(plan.steps.len() as u64 + 2) as usize;
    let desk = drawn_desk(&mut dice);
    let stdin = damage::program_input(&mut dice, &list, &inputs);
    Case { kind, list, inputs, table, line, desk, stdin }
}

/// A valid list of few lines, with a prime of at most so much.
pub fn small_draft(dice: &mut Dice, most: i64) -> Vec<u8> {
    lists::small(dice, most).text
}

/// A large valid case: close to 256 values and 4,096 cells, with its true table.
pub fn large(seed: u64) -> Case {
    let (draft, inputs) = lists::worked(&mut Dice::new(seed, 0), 2_147_483_647, 4_000);
    let table = tables::true_table(&draft.plan, &inputs).unwrap_or_default();
    Case { kind: "large", inputs, table, ..Case::about(draft.text) }.restated()
}

impl Case {
    /// The case with the program's input written anew from its list and inputs.
    fn restated(mut self) -> Case {
        self.stdin = program_text(&self.list, &self.inputs);
        self
    }
}

/// The draft's own text mostly; else one spoilt in one of the ways in which a text can be.
fn drawn_list(dice: &mut Dice, draft: &Draft) -> (&'static str, Vec<u8>) {
    match dice.below(40) {
        0..=19 => ("valid", draft.text.clone()),
        20..=26 => ("nudged line", damage::with_nudged_line(dice, draft)),
        27..=29 => ("wild line", damage::with_wild_line(dice, draft)),
        30..=31 => ("wild lines", damage::wild_lines(dice)),
        32 => ("at a limit", damage::at_limit(dice, draft)),
        33..=36 => ("damaged", damage::one_byte(dice, &draft.text)),
        37 => ("last byte missing", draft.text[..draft.text.len() - 1].to_vec()),
        38 => ("random bytes", damage::random_bytes(dice)),
        _ => ("long", damage::long_text(dice, draft)),
    }
}

/// A fresh desk, one with fitting counts, one at the last count, or one whose counts differ.
fn drawn_desk(dice: &mut Dice) -> Desk {
    let heard = match dice.below(8) {
        0..=3 => return Desk::fresh(),
        4 => u64::MAX,
        5 => u64::MAX - 1,
        _ => dice.draw() >> dice.below(64),
    };
    let accepted = match dice.below(3) {
        0 => 0,
        1 => heard,
        _ => dice.draw() % heard.max(1),
    };
    let refused = heard - accepted;
    match dice.below(12) {
        0 => Desk { heard, accepted, refused: refused.wrapping_add(1) },
        1 => Desk { heard, accepted: dice.draw(), refused: dice.draw() },
        // Sums that fit only when the carry past 2^64 is lost.
        2 => Desk { heard: 0, accepted: 1 << 63, refused: 1 << 63 },
        _ => Desk { heard, accepted, refused },
    }
}
