//! Reading a list: line by line, each judged by the refusals in the order of their numbers, by
//! chapters 4, 10 and 13 of the format (FORMAT 13.1).

use crate::ends::{after, After, Ends};
use crate::line::{read_line, Line};
use crate::prime::is_odd_prime;
use crate::Refusal;

/// The greatest length of a text, in bytes (FORMAT 4.8).
pub const MOST_BYTES: usize = 65_536;
/// The most values and cells of a list, and the most digits of a group (FORMAT 4.6, 4.7, 4.2).
const MOST_VALUES: usize = 256;
const MOST_CELLS: usize = 4_096;
const MOST_DIGITS: i64 = 31;

/// A line that has been read, with the place of its first cell (FORMAT 7.1).
#[derive(Clone, Debug)]
pub struct Step {
    pub line: Line,
    pub first_cell: usize,
}

/// A list as far as it has been read: what reading knows from line to line (FORMAT 9.5).
#[derive(Clone, Debug)]
pub struct Plan {
    /// The prime; 0 until the field line is read.
    pub p: i64,
    pub steps: Vec<Step>,
    /// The cell of each value, and its known ends.
    pub value_cells: Vec<usize>,
    pub ends: Vec<Ends>,
    pub inputs: usize,
    pub cells: usize,
    pub rows: usize,
}

impl Plan {
    /// The plan before the first line.
    pub fn empty() -> Plan {
        Plan {
            p: 0,
            steps: Vec::new(),
            value_cells: Vec::new(),
            ends: Vec::new(),
            inputs: 0,
            cells: 0,
            rows: 0,
        }
    }

    /// Reads a whole text (FORMAT 2.1): refusals 1 and 2, then the lines (FORMAT 10.1, 10.2, 13.1).
    pub fn read(list: &[u8]) -> Result<Plan, Refusal> {
        if list.len() > MOST_BYTES {
            return Err(Refusal::new(1, 0));
        }
        let [body @ .., b'\n'] = list else {
            return Err(Refusal::new(2, 0));
        };
        let mut plan = Plan::empty();
        for (place, text) in body.split(|&byte| byte == b'\n').enumerate() {
            plan.take(text).map_err(|number| Refusal::new(number, place))?;
        }
        Ok(plan)
    }

    /// Reads the next line; refused by a number of 3 to 12, it leaves the plan as it was.
    ///
    /// The tests stand in the order of FORMAT 13.1: 3 by FORMAT 10.3, 4 and 5 in `prime_with`, 6
    /// to 9 by FORMAT 10.6, 10.7, 10.8, 10.9, and 10 to 12 in `after`.
    pub fn take(&mut self, text: &[u8]) -> Result<(), u64> {
        let line = read_line(text).ok_or(3u64)?;
        let p = self.prime_with(&line)?;
        let m = (p - 1) / 2;
        if !in_range(&line, m) {
            return Err(6);
        }
        let values = self.value_cells.len();
        if !line.every_name(|name| 0 <= name && name < values as i64) {
            return Err(7);
        }
        if line.makes_value() && values == MOST_VALUES {
            return Err(8);
        }
        if self.cells + line.cells() > MOST_CELLS {
            return Err(9);
        }
        let after = after(&line, &self.ends, p)?;
        self.p = p;
        self.add(line, after);
        Ok(())
    }

    /// The prime that holds from this line on (FORMAT 3.5), or refusal 4 or 5 (FORMAT 10.4, 10.5).
    fn prime_with(&self, line: &Line) -> Result<i64, u64> {
        match *line {
            Line::Field { p } if self.steps.is_empty() => is_odd_prime(p).then_some(p).ok_or(5),
            Line::Field { .. } => Err(4),
            _ if self.steps.is_empty() => Err(4),
            _ => Ok(self.p),
        }
    }

    /// Adds a line that is not refused (FORMAT 9.5).
    fn add(&mut self, line: Line, after: After) {
        let first_cell = self.cells;
        match after {
            After::Same => {}
            After::Made(ends) => {
                self.value_cells.push(first_cell);
                self.ends.push(ends);
            }
            After::Narrowed(value, ends) => self.ends[value] = ends,
        }
        self.inputs += usize::from(line == Line::In);
        self.cells += line.cells();
        self.rows += line.rows();
        self.steps.push(Step { line, first_cell });
    }
}

/// Whether b, k, L, c0 and the coefficients lie in their ranges (FORMAT 4.1, 4.2, 4.3, 4.4).
fn in_range(line: &Line, m: i64) -> bool {
    let digits_fit = line
        .digits()
        .is_none_or(|digits| digits.base >= 2 && (1..=MOST_DIGITS).contains(&digits.count));
    digits_fit && line.every_whole(|whole| -m <= whole && whole <= m)
}
