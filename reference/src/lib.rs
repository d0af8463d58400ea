//! Digit tables over Z/p: the public calls of the service, over bytes, i64 inputs and u32 cells.
//!
//! What the format, `docs/FORMAT.md`, says, as directly as its clauses allow. It was written apart
//! from the program that it is run against. The calls are those of the format's chapter 9, for
//! anything that FORMAT 9.1 lets them be given. A reply is a pair (number, place); 0, 0 says that
//! a table was accepted or made, and 0 with a length that a text was written (FORMAT 9.3).

mod check;
mod desk;
mod ends;
pub mod exhaustive;
pub mod generate;
mod line;
mod plan;
mod prime;
mod program;
mod work;
mod write;

pub use desk::Desk;
pub use program::respond;

use plan::Plan;

/// What a read list returns: its prime, and its counts of values, cells and rows (FORMAT 9.4, 8.7).
#[derive(Clone, Copy, Debug, PartialEq, Eq)]
pub struct Counts {
    pub p: u64,
    pub values: u64,
    pub cells: u64,
    pub rows: u64,
}

/// A refusal: its number in the format's chapter 10, and its place (FORMAT 9.3).
#[derive(Clone, Copy, Debug, PartialEq, Eq)]
pub struct Refusal {
    pub number: u64,
    pub place: u64,
}

impl Refusal {
    fn new(number: u64, place: usize) -> Refusal {
        Refusal { number, place: place as u64 }
    }
}

/// Reads a list: its counts, or the first refusal of 1 to 12 (FORMAT 9.4, 13.3).
pub fn read(list: &[u8]) -> Result<Counts, Refusal> {
    let plan = Plan::read(list)?;
    Ok(Counts {
        p: plan.p as u64,
        values: plan.value_cells.len() as u64,
        cells: plan.cells as u64,
        rows: plan.rows as u64,
    })
}

/// Checks an offered table: all its cells, then the rows in order (FORMAT 9.6).
pub fn check(list: &[u8], table: &[u32]) -> (u64, u64) {
    reply(Plan::read(list).and_then(|plan| check::check(&plan, table)))
}

/// Makes the table of these inputs; a refusal leaves the table as it was (FORMAT 9.7, 9.8).
pub fn make(list: &[u8], inputs: &[i64], table: &mut [u32]) -> (u64, u64) {
    reply(Plan::read(list).and_then(|plan| work::make(&plan, inputs, table)))
}

/// Hands back the stretch of the table that holds the cells of a line (FORMAT 9.9).
///
/// It is empty for the field line, for a line that is not there, for a refused list and for a
/// wrong table length (FORMAT 9.10).
pub fn show<'a>(list: &[u8], table: &'a [u32], line: usize) -> &'a [u32] {
    let Ok(plan) = Plan::read(list) else {
        return &[];
    };
    match plan.steps.get(line) {
        Some(step) if table.len() == plan.cells => {
            &table[step.first_cell..step.first_cell + step.line.cells()]
        }
        _ => &[],
    }
}

/// Writes lines that come as words, counts and numbers (FORMAT 9.23): 0 and the length of their
/// text, with which the buffer then begins, or the refusal of 1 to 12 or 21, with the buffer as it
/// was (FORMAT 9.26, 9.27).
pub fn write(words: &[u8], counts: &[usize], numbers: &[i64], buffer: &mut [u8]) -> (u64, u64) {
    match write::write(words, counts, numbers, buffer) {
        Ok(length) => (0, length as u64),
        Err(refusal) => (refusal.number, refusal.place),
    }
}

/// The pair that a call returns (FORMAT 9.3).
fn reply(outcome: Result<(), Refusal>) -> (u64, u64) {
    match outcome {
        Ok(()) => (0, 0),
        Err(refusal) => (refusal.number, refusal.place),
    }
}
