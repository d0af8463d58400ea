//! One line of a list: from bytes to its word and numbers, by chapters 2 and 3 of the format, and
//! how many cells and rows the line lays out (FORMAT 7.3).

use crate::prime::capped_power;

/// The greatest size of a number (FORMAT 2.6).
const GREATEST: i64 = 2_147_483_647;

/// The most pairs that a sum may have (FORMAT 4.5).
const MOST_PAIRS: usize = 16;

/// A digit group's base b and digit count k (FORMAT 3.4).
#[derive(Clone, Copy, Debug, PartialEq, Eq)]
pub struct Digits {
    pub base: i64,
    pub count: i64,
}

impl Digits {
    /// c = b^k (FORMAT 3.4), cut down to the cap.
    pub fn c(self) -> i64 {
        capped_power(self.base, self.count)
    }

    /// b^(k-1), the weight of the highest digit, cut down to the cap.
    pub fn top(self) -> i64 {
        capped_power(self.base, self.count - 1)
    }

    /// B = (b-1)·b^(k-1) (FORMAT 3.4), exact where c is at most p.
    pub fn big_b(self) -> i64 {
        (self.base - 1) * self.top()
    }
}

/// One term of a sum: a coefficient and the name of a value (FORMAT 3.8).
#[derive(Clone, Copy, Debug, PartialEq, Eq)]
pub struct Term {
    pub factor: i64,
    pub name: i64,
}

/// A line as written, by the table of FORMAT 3.1; its numbers are numbers, but not yet in range.
#[derive(Clone, Debug, PartialEq, Eq)]
pub enum Line {
    Field { p: i64 },
    In,
    Span { v: i64, digits: Digits, low: i64 },
    Sum { constant: i64, terms: Vec<Term> },
    Relu { v: i64, digits: Digits },
    Which { u: i64, v: i64, digits: Digits },
    Max { u: i64, v: i64, digits: Digits },
    Root { v: i64, digits: Digits },
}

/// Reads one line, without its byte 10 (FORMAT 2.2, 2.4, 2.7); None is refusal 3.
pub fn read_line(text: &[u8]) -> Option<Line> {
    let mut fields = text.split(|&byte| byte == b'\t');
    let word = fields.next()?;
    let numbers: Vec<i64> = fields.map(read_number).collect::<Option<_>>()?;
    let digits = |base, count| Digits { base, count };
    Some(match (word, numbers.as_slice()) {
        (b"field", &[p]) => Line::Field { p },
        (b"in", []) => Line::In,
        (b"span", &[v, b, k, low]) => Line::Span { v, digits: digits(b, k), low },
        (b"sum", [constant, pairs @ ..]) => {
            Line::Sum { constant: *constant, terms: read_terms(pairs)? }
        }
        (b"relu", &[v, b, k]) => Line::Relu { v, digits: digits(b, k) },
        (b"which", &[u, v, b, k]) => Line::Which { u, v, digits: digits(b, k) },
        (b"max", &[u, v, b, k]) => Line::Max { u, v, digits: digits(b, k) },
        (b"root", &[v, b, k]) => Line::Root { v, digits: digits(b, k) },
        _ => return None,
    })
}

/// The pairs of a sum, 0 to 16 of them; anything else is a wrong count of numbers (FORMAT 4.5).
fn read_terms(numbers: &[i64]) -> Option<Vec<Term>> {
    if !numbers.len().is_multiple_of(2) || numbers.len() > 2 * MOST_PAIRS {
        return None;
    }
    let term = |pair: &[i64]| Term { factor: pair[0], name: pair[1] };
    Some(numbers.chunks(2).map(term).collect())
}

/// Reads a number: 0, or digits without leading zero, with - before it if negative; its size has
/// a limit (FORMAT 2.5, 2.6).
pub fn read_number(text: &[u8]) -> Option<i64> {
    let (sign, digits) = match text {
        b"0" => return Some(0),
        [b'-', digits @ ..] => (-1, digits),
        digits => (1, digits),
    };
    // A leading zero is caught here, and -0 with it; ten digits hold every allowed size.
    if digits.is_empty() || digits.len() > 10 || digits[0] == b'0' {
        return None;
    }
    let mut size = 0;
    for &digit in digits {
        if !digit.is_ascii_digit() {
            return None;
        }
        size = size * 10 + i64::from(digit - b'0');
    }
    (size <= GREATEST).then_some(sign * size)
}

impl Line {
    /// The digit group's base and count, where the line has one.
    pub fn digits(&self) -> Option<Digits> {
        match *self {
            Line::Field { .. } | Line::In | Line::Sum { .. } => None,
            Line::Span { digits, .. }
            | Line::Relu { digits, .. }
            | Line::Which { digits, .. }
            | Line::Max { digits, .. }
            | Line::Root { digits, .. } => Some(digits),
        }
    }

    /// Whether the test holds for L, c0 and each coefficient of the line (FORMAT 4.3, 4.4).
    pub fn every_whole(&self, test: impl Fn(i64) -> bool) -> bool {
        match self {
            Line::Span { low, .. } => test(*low),
            Line::Sum { constant, terms } => {
                test(*constant) && terms.iter().all(|term| test(term.factor))
            }
            _ => true,
        }
    }

    /// Whether the test holds for every name of a value in the line (FORMAT 3.3).
    pub fn every_name(&self, test: impl Fn(i64) -> bool) -> bool {
        match self {
            Line::Field { .. } | Line::In => true,
            Line::Sum { terms, .. } => terms.iter().all(|term| test(term.name)),
            Line::Span { v, .. } | Line::Relu { v, .. } | Line::Root { v, .. } => test(*v),
            Line::Which { u, v, .. } | Line::Max { u, v, .. } => test(*u) && test(*v),
        }
    }

    /// Whether the line makes the next value (FORMAT 3.2).
    pub fn makes_value(&self) -> bool {
        !matches!(self, Line::Field { .. } | Line::Span { .. })
    }

    /// How many cells the line lays out (FORMAT 7.3).
    pub fn cells(&self) -> usize {
        let k = self.digit_count();
        match self {
            Line::Field { .. } => 0,
            Line::In | Line::Sum { .. } => 1,
            Line::Span { .. } => k,
            Line::Relu { .. } | Line::Which { .. } => 1 + k + 2,
            Line::Max { .. } => 1 + 2 * k,
            Line::Root { .. } => 2 + 4 * k,
        }
    }

    /// How many rows the line lays out (FORMAT 7.3).
    pub fn rows(&self) -> usize {
        let group = self.digit_count() + 1;
        match self {
            Line::Field { .. } | Line::In => 0,
            Line::Sum { .. } => 1,
            Line::Span { .. } => group,
            Line::Relu { .. } | Line::Which { .. } => group + 4,
            Line::Max { .. } => 1 + 2 * group,
            Line::Root { .. } => 1 + 4 * group,
        }
    }

    fn digit_count(&self) -> usize {
        self.digits().map_or(0, |digits| digits.count as usize)
    }
}
