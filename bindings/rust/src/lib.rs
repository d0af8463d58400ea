//! Digit tables over Z/p: reads and writes lists, makes and checks tables, shows a line's cells, counts at a desk, and answers as the
//! program does.
//!
//! The work is done by the static library of `crates/exports`, whose functions are proved to answer as docs/FORMAT.md says for every
//! input. They ask nothing of their caller but that what is lent is there and does not overlap, which references ensure. So every
//! function here may be called with any arguments.

#![deny(missing_docs)]
#![deny(unsafe_op_in_unsafe_fn)]

#[cfg(not(all(target_arch = "x86_64", target_os = "linux")))]
compile_error!("the static library is compiled for x86-64 Linux");

mod calls;
mod write;

pub use write::{write, write_rows, Line, Word, LONGEST_LIST};

use std::fmt;

/// What a read list has: its prime, and its counts of values, cells and rows.
#[derive(Clone, Copy, Debug, PartialEq, Eq)]
pub struct Counts {
    /// The prime of the field line.
    pub p: u32,
    /// How many values its lines make.
    pub values: usize,
    /// How many cells its tables have.
    pub cells: usize,
    /// How many rows a table has to meet.
    pub rows: usize,
}

/// A refusal: its number and its place (FORMAT 9.3). The clause of refusal n is that number of chapter 10, from FORMAT 10.1 to 10.21.
#[derive(Clone, Copy, Debug, PartialEq, Eq)]
pub struct Refusal {
    /// From 1 to 21.
    pub number: u32,
    /// A line, a cell, a row or an input, by the number; each counts from 0.
    pub place: usize,
}

impl fmt::Display for Refusal {
    fn fmt(&self, f: &mut fmt::Formatter) -> fmt::Result {
        write!(f, "refused {}, {}", self.number, self.place)
    }
}

impl std::error::Error for Refusal {}

/// A reply: number 0 is no refusal.
fn reply(number: u32, place: usize) -> Result<(), Refusal> {
    match number {
        0 => Ok(()),
        _ => Err(Refusal { number, place }),
    }
}

/// Reads a list (FORMAT 9.4): its counts, or its first refusal, 1 to 12.
pub fn read(list: &[u8]) -> Result<Counts, Refusal> {
    let mut counts = Counts { p: 0, values: 0, cells: 0, rows: 0 };
    read_into(list, &mut counts).map(|()| counts)
}

/// The same into lent counts. A refusal leaves them as they were.
pub fn read_into(list: &[u8], counts: &mut Counts) -> Result<(), Refusal> {
    let mut place = 0;
    // SAFETY: the slice is there for the call; the counts are borrowed for it alone, and the place is apart from all.
    let number = unsafe {
        calls::digit_table_read(
            list.as_ptr(),
            list.len(),
            &mut place,
            &mut counts.p,
            &mut counts.values,
            &mut counts.cells,
            &mut counts.rows,
        )
    };
    reply(number, place)
}

/// Checks a table, whoever wrote it (FORMAT 9.6): accepted, or refused 1 to 15.
pub fn check(list: &[u8], table: &[u32]) -> Result<(), Refusal> {
    let mut place = 0;
    // SAFETY: the slices are there for the call, and the place is apart from them.
    let number = unsafe {
        calls::digit_table_check(list.as_ptr(), list.len(), table.as_ptr(), table.len(), &mut place)
    };
    reply(number, place)
}

/// Makes the table of a column of inputs (FORMAT 9.7, 9.8), in a slice of as many cells as the list has. A refusal, 1 to 13 or 16 to
/// 18, leaves the slice as it was.
pub fn make(list: &[u8], inputs: &[i64], table: &mut [u32]) -> Result<(), Refusal> {
    let mut place = 0;
    // SAFETY: the slices are there for the call, `table` is borrowed for it alone, and the place is apart from them.
    let number = unsafe {
        calls::digit_table_make(
            list.as_ptr(),
            list.len(),
            inputs.as_ptr(),
            inputs.len(),
            table.as_mut_ptr(),
            table.len(),
            &mut place,
        )
    };
    reply(number, place)
}

/// Hands back the part of the table that holds the cells of a line (FORMAT 9.9, 9.10). It is empty for the field line, for a line
/// that is not there, for a refused list and for a wrong table length.
pub fn show<'a>(list: &[u8], table: &'a [u32], line: usize) -> &'a [u32] {
    let mut first = 0;
    // SAFETY: the slices are there for the call, and the number is apart from them.
    let count = unsafe {
        calls::digit_table_show(
            list.as_ptr(),
            list.len(),
            table.as_ptr(),
            table.len(),
            line,
            &mut first,
        )
    };
    // That the part lies in the table is proved of the call, and tested here once more by the index.
    &table[first..first + count]
}

/// In an output of so many bytes every answer has room (FORMAT 9.17).
pub const LONGEST_ANSWER: usize = 65_547;

/// Answers an input as the program does (FORMAT 9.16): a list, the line `end`, then one input a line, by the lines of the table or by
/// one line `refused`, number, place.
pub fn respond(input: &[u8]) -> Vec<u8> {
    let mut output = vec![0; LONGEST_ANSWER];
    let length = respond_into(input, &mut output);
    output.truncate(length);
    output
}

/// The same into a lent output. It begins with the answer, whose length is returned; where the answer has no room the output is as it
/// was, and 0 is returned.
pub fn respond_into(input: &[u8], output: &mut [u8]) -> usize {
    // SAFETY: the slices are there for the call, and `output` is borrowed for it alone.
    unsafe {
        calls::digit_table_respond(input.as_ptr(), input.len(), output.as_mut_ptr(), output.len())
    }
}

/// Three counts of the tables that a desk has heard, all 0 when fresh (FORMAT 9.11).
#[derive(Clone, Copy, Debug, Default, PartialEq, Eq)]
pub struct Desk {
    /// How many calls were counted: accepted and refused together.
    pub heard: u64,
    /// How many of them were accepted.
    pub accepted: u64,
    /// How many of them were refused.
    pub refused: u64,
}

impl Desk {
    /// A desk that has heard nothing.
    pub fn fresh() -> Desk {
        Desk::default()
    }

    /// Checks a table and counts the call (FORMAT 9.12, 9.13). Refusals 19, where the counts do not agree, and 20, at the full count,
    /// come before all others and leave the counts as they are.
    pub fn call(&mut self, list: &[u8], table: &[u32]) -> Result<(), Refusal> {
        let mut place = 0;
        // SAFETY: the slices are there for the call; the counts are borrowed for it alone, and the place is apart from all.
        let number = unsafe {
            calls::digit_table_desk_call(
                &mut self.heard,
                &mut self.accepted,
                &mut self.refused,
                list.as_ptr(),
                list.len(),
                table.as_ptr(),
                table.len(),
                &mut place,
            )
        };
        reply(number, place)
    }
}
