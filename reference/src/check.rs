//! Checking an offered table: its length, its cells, then every row in order (FORMAT 9.6, 13.6).
//! The rows are those of the format's chapter 7.

use crate::line::{Digits, Line, Term};
use crate::plan::{Plan, Step};
use crate::Refusal;

/// Refusal 13, 14 or 15, or none where the table is accepted (FORMAT 10.13, 10.14, 10.15).
pub fn check(plan: &Plan, table: &[u32]) -> Result<(), Refusal> {
    if table.len() != plan.cells {
        return Err(Refusal::new(13, 0));
    }
    if let Some(cell) = table.iter().position(|&cell| i64::from(cell) >= plan.p) {
        return Err(Refusal::new(14, cell));
    }
    let mut rows = Rows { plan, table, row: 0 };
    plan.steps.iter().try_for_each(|step| rows.line(step))
}

/// The walk over the rows, which are numbered over the whole list (FORMAT 7.6). All cells are below
/// p, so a product of two is below 2^62.
struct Rows<'a> {
    plan: &'a Plan,
    table: &'a [u32],
    row: usize,
}

type Held = Result<(), Refusal>;

impl Rows<'_> {
    /// All rows of one line; field and in have none (FORMAT 7.7), span those of its group
    /// (FORMAT 7.9).
    fn line(&mut self, step: &Step) -> Held {
        let cell = step.first_cell;
        match &step.line {
            Line::Field { .. } | Line::In => Ok(()),
            Line::Span { v, digits, low } => self.group(cell, *digits, self.value(*v), *low),
            Line::Sum { constant, terms } => self.sum(cell, *constant, terms),
            Line::Relu { v, digits } => self.relu(cell, *v, *digits),
            Line::Which { u, v, digits } => self.which(cell, *u, *v, *digits),
            Line::Max { u, v, digits } => self.max(cell, *u, *v, *digits),
            Line::Root { v, digits } => self.root(cell, *v, *digits),
        }
    }

    /// The value ≡ c0 + c1·v1 + .. (FORMAT 7.8).
    fn sum(&mut self, cell: usize, constant: i64, terms: &[Term]) -> Held {
        let mut sum = constant;
        for term in terms {
            sum = (sum + term.factor * self.value(term.name)) % self.plan.p;
        }
        self.same(self.cell(cell), sum)
    }

    /// The rows of a sign over v, then f·v ≡ y (FORMAT 7.13).
    fn relu(&mut self, cell: usize, v: i64, digits: Digits) -> Held {
        let form = self.value(v);
        let f = self.sign(cell + 1, digits, form)?;
        self.same(f * form, self.cell(cell))
    }

    /// The rows of a sign over u-v, then y ≡ 1-f (FORMAT 7.14).
    fn which(&mut self, cell: usize, u: i64, v: i64, digits: Digits) -> Held {
        let f = self.sign(cell + 1, digits, self.value(u) - self.value(v))?;
        self.same(self.cell(cell), 1 - f)
    }

    /// What relu and which share: the group with shift -B, then the three rows on f and w
    /// (FORMAT 7.10, 7.12). Hands back f.
    fn sign(&mut self, first: usize, digits: Digits, form: i64) -> Result<i64, Refusal> {
        self.group(first, digits, form, -digits.big_b())?;
        let past = first + digits.count as usize;
        let t = self.cell(past - 1) - (digits.base - 1);
        let (f, w) = (self.cell(past), self.cell(past + 1));
        self.same(t * w, 1 - f)?;
        self.same(t * f, 0)?;
        self.same(w * f, 0)?;
        Ok(f)
    }

    /// (y-u)·(y-v) ≡ 0, then the groups over y-u and y-v (FORMAT 7.15).
    fn max(&mut self, cell: usize, u: i64, v: i64, digits: Digits) -> Held {
        let over_u = self.cell(cell) - self.value(u);
        let over_v = self.cell(cell) - self.value(v);
        self.same(over_u * over_v, 0)?;
        self.group(cell + 1, digits, over_u, 0)?;
        self.group(cell + 1 + digits.count as usize, digits, over_v, 0)
    }

    /// y·y ≡ q, then the four groups (FORMAT 7.16).
    fn root(&mut self, cell: usize, v: i64, digits: Digits) -> Held {
        let (y, q, v) = (self.cell(cell), self.cell(cell + 1), self.value(v));
        self.same(y * y, q)?;
        let mut first = cell + 2;
        for form in [v, y, v - q, q + 2 * y - v] {
            self.group(first, digits, form, 0)?;
            first += digits.count as usize;
        }
        Ok(())
    }

    /// A digit group: a row for each digit, then form - L ≡ d0 + d1·b + .. (FORMAT 7.4).
    fn group(&mut self, first: usize, digits: Digits, form: i64, shift: i64) -> Held {
        let cells = first..first + digits.count as usize;
        for cell in cells.clone() {
            self.row(self.cell(cell) < digits.base)?;
        }
        let mut sum = 0;
        for cell in cells.rev() {
            sum = (sum * digits.base + self.cell(cell)) % self.plan.p;
        }
        self.same(form - shift, sum)
    }

    /// One row whose two sides must leave the same remainder modulo p (FORMAT 1.9).
    fn same(&mut self, left: i64, right: i64) -> Held {
        self.row((left - right) % self.plan.p == 0)
    }

    /// The next row; refusal 15 where it does not hold (FORMAT 10.15).
    fn row(&mut self, holds: bool) -> Held {
        if !holds {
            return Err(Refusal::new(15, self.row));
        }
        self.row += 1;
        Ok(())
    }

    fn cell(&self, cell: usize) -> i64 {
        i64::from(self.table[cell])
    }

    /// The cell that a name stands for in a row (FORMAT 7.2).
    fn value(&self, name: i64) -> i64 {
        self.cell(self.plan.value_cells[name as usize])
    }
}
