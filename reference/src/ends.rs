//! Known ends: what each line says of the least and greatest whole number of a value (chapter 5 of
//! the format), and the digit rule and the root rule, which are asked of them (chapter 6).

use crate::line::{Digits, Line, Term};

/// The lowest and the highest known end, E and F, of a value or of a form (FORMAT 5.1).
#[derive(Clone, Copy, Debug, PartialEq, Eq)]
pub struct Ends {
    pub low: i64,
    pub high: i64,
}

impl Ends {
    pub fn new(low: i64, high: i64) -> Ends {
        Ends { low, high }
    }

    /// One step of a sum (FORMAT 5.4).
    fn plus(self, other: Ends) -> Ends {
        Ends::new(self.low + other.low, self.high + other.high)
    }

    /// The ends of a difference (FORMAT 5.12).
    fn minus(self, other: Ends) -> Ends {
        Ends::new(self.low - other.high, self.high - other.low)
    }

    /// The ends of factor times a value; a negative factor exchanges them (FORMAT 5.3).
    fn times(self, factor: i64) -> Ends {
        let (one, other) = (factor * self.low, factor * self.high);
        Ends::new(one.min(other), one.max(other))
    }

    /// The greater of the two at each end (FORMAT 5.6, 5.8).
    fn greater(self, other: Ends) -> Ends {
        Ends::new(self.low.max(other.low), self.high.max(other.high))
    }

    /// From the lesser of 0 and the low end to the greater of 0 and the high one (FORMAT 5.13).
    fn with_zero(self) -> Ends {
        Ends::new(self.low.min(0), self.high.max(0))
    }

    /// Whether both lie in -M..M (FORMAT 5.5).
    fn within(self, m: i64) -> bool {
        -m <= self.low && self.high <= m
    }
}

/// What the known ends become by a line (FORMAT 5.11).
#[derive(Clone, Copy, Debug, PartialEq, Eq)]
pub enum After {
    /// The field line: no value is touched.
    Same,
    /// The next value is made, with these ends.
    Made(Ends),
    /// Span: this value's ends are these from the next line on (FORMAT 5.10).
    Narrowed(usize, Ends),
}

/// The known ends after a line, or refusal 10, 11 or 12 (FORMAT 10.10, 10.11, 10.12); the names are
/// of values already made.
///
/// The ends of a new value are those of FORMAT 5.2, 5.4, 5.6, 5.7, 5.8, 5.9; what the rules are
/// asked of is in FORMAT 6.2, 6.4.
pub fn after(line: &Line, known: &[Ends], p: i64) -> Result<After, u64> {
    let m = (p - 1) / 2;
    let of = |name: i64| known[name as usize];
    Ok(match line {
        Line::Field { .. } => After::Same,
        Line::In => After::Made(Ends::new(-m, m)),
        Line::Span { v, digits, low } => {
            digit_rule(*digits, of(*v), *low, p)?;
            After::Narrowed(*v as usize, share(of(*v), *low, digits.c())?)
        }
        Line::Sum { constant, terms } => After::Made(sum_ends(*constant, terms, known, m)?),
        Line::Relu { v, digits } => {
            digit_rule(*digits, of(*v), -digits.big_b(), p)?;
            After::Made(of(*v).greater(Ends::new(0, 0)))
        }
        Line::Which { u, v, digits } => {
            digit_rule(*digits, of(*u).minus(of(*v)), -digits.big_b(), p)?;
            After::Made(Ends::new(0, 1))
        }
        Line::Max { u, v, digits } => {
            // y is u or v, so y-u is 0 or v-u, and y-v is 0 or u-v (FORMAT 5.13).
            digit_rule(*digits, of(*v).minus(of(*u)).with_zero(), 0, p)?;
            digit_rule(*digits, of(*u).minus(of(*v)).with_zero(), 0, p)?;
            After::Made(of(*u).greater(of(*v)))
        }
        Line::Root { digits, .. } => {
            root_rule(*digits, m)?;
            After::Made(Ends::new(0, digits.c() - 1))
        }
    })
}

/// Refusal 10 unless a group over a form with these ends and this shift is allowed (FORMAT 6.1).
fn digit_rule(digits: Digits, form: Ends, shift: i64, p: i64) -> Result<(), u64> {
    let c = digits.c();
    let allowed = c <= p && form.high - shift < p && shift + c - 1 - form.low < p;
    allowed.then_some(()).ok_or(10)
}

/// Refusal 10 unless c ≥ 3 and c² ≤ M+1 (FORMAT 6.4).
fn root_rule(digits: Digits, m: i64) -> Result<(), u64> {
    let c = digits.c();
    (c >= 3 && c * c <= m + 1).then_some(()).ok_or(10)
}

/// What the old ends and L..L+c-1 share, or refusal 12 (FORMAT 5.10).
fn share(old: Ends, low: i64, c: i64) -> Result<Ends, u64> {
    let shared = Ends::new(old.low.max(low), old.high.min(low + c - 1));
    (shared.low <= shared.high).then_some(shared).ok_or(12)
}

/// The constant, then the terms one by one, or refusal 11 where a step leaves -M..M
/// (FORMAT 5.4, 5.5).
fn sum_ends(constant: i64, terms: &[Term], known: &[Ends], m: i64) -> Result<Ends, u64> {
    let mut ends = Ends::new(constant, constant);
    if !ends.within(m) {
        return Err(11);
    }
    for term in terms {
        ends = ends.plus(known[term.name as usize].times(term.factor));
        if !ends.within(m) {
            return Err(11);
        }
    }
    Ok(ends)
}
