//! The program: from its whole standard input to its whole standard output, by chapter 11 of the
//! format.

use crate::line::read_number;
use crate::plan::{Plan, MOST_BYTES};
use crate::work::make;
use crate::Refusal;
use std::io::Write;

/// Everything that the program writes for this input (FORMAT 9.16), each line ended by byte 10
/// (FORMAT 11.9, 11.10).
pub fn respond(input: &[u8]) -> Vec<u8> {
    match answer(input) {
        Ok(table) => table_lines(&table),
        Err(refusal) => format!("refused\t{}\t{}\n", refusal.number, refusal.place).into_bytes(),
    }
}

/// The made table, or the refusal, in the order of FORMAT 11.11: 1 and 2 by FORMAT 11.2, 11.3, the
/// list's own by FORMAT 11.4, 11.5, 3 of an input line by FORMAT 11.6, the rest by FORMAT 11.7.
fn answer(input: &[u8]) -> Result<Vec<u32>, Refusal> {
    if input.len() > MOST_BYTES {
        return Err(Refusal::new(1, 0));
    }
    let [body @ .., b'\n'] = input else {
        return Err(Refusal::new(2, 0));
    };
    let lines: Vec<&[u8]> = body.split(|&byte| byte == b'\n').collect();
    let end = lines.iter().position(|line| line == b"end").ok_or(Refusal::new(2, 0))?;
    let list_length = lines[..end].iter().map(|line| line.len() + 1).sum();
    let plan = Plan::read(&input[..list_length])?;
    let mut inputs = Vec::new();
    for (place, text) in lines.iter().enumerate().skip(end + 1) {
        inputs.push(read_number(text).ok_or(Refusal::new(3, place))?);
    }
    let mut table = vec![0; plan.cells];
    make(&plan, &inputs, &mut table)?;
    Ok(table)
}

/// The count of cells, then each cell and its remainder (FORMAT 11.8).
fn table_lines(table: &[u32]) -> Vec<u8> {
    let mut output = format!("table\t{}\n", table.len()).into_bytes();
    for (cell, remainder) in table.iter().enumerate() {
        writeln!(output, "{cell}\t{remainder}").expect("a vector takes every byte");
    }
    output
}
