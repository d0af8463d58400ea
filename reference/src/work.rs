//! Making a table: the lines are worked over whole numbers first, then the cells are written, by
//! chapters 7 and 8 of the format.

use crate::line::{Digits, Line};
use crate::plan::Plan;
use crate::prime::inverse;
use crate::Refusal;

/// Fills the table with the true table of the inputs (FORMAT 9.7, 9.8). A refusal leaves it as it
/// was; the order of refusals is that of FORMAT 13.7.
pub fn make(plan: &Plan, inputs: &[i64], table: &mut [u32]) -> Result<(), Refusal> {
    let m = (plan.p - 1) / 2;
    if table.len() != plan.cells {
        return Err(Refusal::new(13, 0));
    }
    if inputs.len() != plan.inputs {
        return Err(Refusal::new(16, 0));
    }
    if let Some(place) = inputs.iter().position(|&input| input < -m || m < input) {
        return Err(Refusal::new(17, place));
    }
    let values = work(plan, inputs).map_err(|line| Refusal::new(18, line))?;
    write(plan, &values, table);
    Ok(())
}

/// All values as whole numbers, or the first line whose statement is false (FORMAT 8.3, 8.4). An
/// `in` line takes the next input (FORMAT 3.6).
pub fn work(plan: &Plan, inputs: &[i64]) -> Result<Vec<i64>, usize> {
    let mut inputs = inputs.iter().copied();
    let mut values = Vec::with_capacity(plan.value_cells.len());
    for (place, step) in plan.steps.iter().enumerate() {
        if step.line == Line::In {
            values.extend(inputs.next());
            continue;
        }
        if !statement(&step.line, &values) {
            return Err(place);
        }
        values.extend(new_value(&step.line, &values));
    }
    Ok(values)
}

/// What a line states of earlier values; one that says nothing is true (FORMAT 8.1). The
/// statements are those of FORMAT 3.7, 3.9, 3.10, 3.11, 3.12.
pub fn statement(line: &Line, values: &[i64]) -> bool {
    let of = |name: i64| values[name as usize];
    match *line {
        Line::Field { .. } | Line::In | Line::Sum { .. } => true,
        Line::Span { v, digits, low } => low <= of(v) && of(v) < low + digits.c(),
        Line::Relu { v, digits } => signed_fits(of(v), digits),
        Line::Which { u, v, digits } => signed_fits(of(u) - of(v), digits),
        Line::Max { u, v, digits } => (of(u) - of(v)).abs() < digits.c(),
        Line::Root { v, digits } => 0 <= of(v) && of(v) < digits.c(),
    }
}

/// -B ≤ form ≤ b^(k-1)-1, the statement of relu and which (FORMAT 3.9, 3.10).
fn signed_fits(form: i64, digits: Digits) -> bool {
    -digits.big_b() <= form && form < digits.top()
}

/// The value that a line other than `in` makes, where it makes one: that of
/// FORMAT 3.8, 3.9, 3.10, 3.11, 3.12.
pub fn new_value(line: &Line, values: &[i64]) -> Option<i64> {
    let of = |name: i64| values[name as usize];
    match line {
        Line::Field { .. } | Line::In | Line::Span { .. } => None,
        Line::Sum { constant, terms } => {
            Some(constant + terms.iter().map(|term| term.factor * of(term.name)).sum::<i64>())
        }
        Line::Relu { v, .. } => Some(of(*v).max(0)),
        Line::Which { u, v, .. } => Some(i64::from(of(*u) < of(*v))),
        Line::Max { u, v, .. } => Some(of(*u).max(of(*v))),
        Line::Root { v, .. } => Some(of(*v).isqrt()),
    }
}

/// Writes every cell, in order; all statements are known to be true (FORMAT 8.5, 8.6).
fn write(plan: &Plan, values: &[i64], table: &mut [u32]) {
    let mut pen = Pen { p: plan.p, rest: table.iter_mut() };
    let mut made = values.iter().copied();
    for step in &plan.steps {
        let y = if step.line.makes_value() { made.next() } else { None };
        if let Some(y) = y {
            pen.put(y);
        }
        write_rest(&mut pen, &step.line, values, y.unwrap_or(0));
    }
}

/// Writes a line's cells after its value y (FORMAT 7.9, 7.13, 7.14, 7.15, 7.16).
fn write_rest(pen: &mut Pen, line: &Line, values: &[i64], y: i64) {
    let of = |name: i64| values[name as usize];
    match *line {
        Line::Field { .. } | Line::In | Line::Sum { .. } => {}
        Line::Span { v, digits, low } => {
            pen.digits(of(v) - low, digits);
        }
        Line::Relu { v, digits } => pen.sign(of(v), digits),
        Line::Which { u, v, digits } => pen.sign(of(u) - of(v), digits),
        Line::Max { u, v, digits } => {
            pen.digits(y - of(u), digits);
            pen.digits(y - of(v), digits);
        }
        Line::Root { v, digits } => {
            let q = y * y;
            pen.put(q);
            for form in [of(v), y, of(v) - q, q + 2 * y - of(v)] {
                pen.digits(form, digits);
            }
        }
    }
}

/// Writes cell after cell.
struct Pen<'a> {
    p: i64,
    rest: std::slice::IterMut<'a, u32>,
}

impl Pen<'_> {
    /// The remainder that a whole number leaves (FORMAT 1.6).
    fn put(&mut self, whole: i64) {
        if let Some(cell) = self.rest.next() {
            *cell = whole.rem_euclid(self.p) as u32;
        }
    }

    /// The base-b digits of a whole number from 0 to c-1, lowest first (FORMAT 7.5); hands back the
    /// highest.
    fn digits(&mut self, whole: i64, digits: Digits) -> i64 {
        let mut left = whole;
        let mut digit = 0;
        for _ in 0..digits.count {
            digit = left % digits.base;
            left /= digits.base;
            self.put(digit);
        }
        digit
    }

    /// The cells of relu and which after y: the digits of form + B, f and w (FORMAT 7.10, 7.11).
    fn sign(&mut self, form: i64, digits: Digits) {
        let highest = self.digits(form + digits.big_b(), digits);
        let t = highest - (digits.base - 1);
        if t % self.p != 0 {
            self.put(0);
            self.put(inverse(t, self.p));
        } else {
            self.put(1);
            self.put(0);
        }
    }
}
