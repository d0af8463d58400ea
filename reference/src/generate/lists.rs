//! Valid lists by chance: each line is suggested from the known ends, tried, and kept if read.

use super::columns::column;
use super::Dice;
use crate::ends::Ends;
use crate::line::{read_line, Line};
use crate::plan::Plan;
use crate::prime::{capped_power, is_odd_prime};
use crate::work::{new_value, statement};

/// The primes that are drawn most.
const PRIMES: [i64; 10] = [3, 5, 7, 11, 13, 17, 31, 101, 65_537, 2_147_483_647];

/// A list that has been read so far, as text and as plan.
pub struct Draft {
    pub text: Vec<u8>,
    pub plan: Plan,
}

impl Draft {
    /// A list of the field line alone.
    pub fn open(p: i64) -> Draft {
        let mut draft = Draft { text: Vec::new(), plan: Plan::empty() };
        draft.offer(&line("field", &[p]));
        draft
    }

    /// Adds the line if it can be read there.
    pub fn offer(&mut self, line: &str) -> bool {
        let read = self.plan.take(line.as_bytes()).is_ok();
        if read {
            self.text.extend(line.bytes());
            self.text.push(b'\n');
        }
        read
    }
}

/// A column that grows with its list, and the values worked from it.
#[derive(Default)]
pub struct Worked {
    pub inputs: Vec<i64>,
    values: Vec<i64>,
}

impl Worked {
    /// Whether the line's statement is true of the values so far.
    fn holds(&self, line: &Line) -> bool {
        line.every_name(|name| 0 <= name && name < self.values.len() as i64)
            && statement(line, &self.values)
    }

    /// Works a line that has been read and holds; an input is drawn for an in line.
    fn work(&mut self, dice: &mut Dice, line: &Line, m: i64) {
        if *line == Line::In {
            let input = near(dice, 0, m);
            self.inputs.push(input);
            self.values.push(input);
        }
        self.values.extend(new_value(line, &self.values));
    }
}

/// A line from its word and numbers.
pub fn line(word: &str, numbers: &[i64]) -> String {
    let mut line = word.to_string();
    for number in numbers {
        line.push_str(&format!("\t{number}"));
    }
    line
}

/// A valid list, mostly short, and a column for it that is often one it can be worked with.
pub fn draft(dice: &mut Dice) -> (Draft, Vec<i64>) {
    let lines = match dice.below(100) {
        0..=1 => 0,
        2..=79 => 1 + dice.below(10),
        80..=98 => 10 + dice.below(30),
        _ => 300,
    };
    let p = prime(dice);
    if dice.once_in(2) {
        return worked(dice, p, lines);
    }
    let mut draft = Draft::open(p);
    for _ in 0..lines {
        grow(dice, &mut draft);
    }
    let inputs = column(dice, &draft.plan);
    (draft, inputs)
}

/// A list of one to five lines after the field line, for a small prime.
pub fn small(dice: &mut Dice, most: i64) -> Draft {
    let mut p = prime(dice);
    while p > most {
        p = prime(dice);
    }
    let mut draft = Draft::open(p);
    for _ in 0..1 + dice.below(5) {
        grow(dice, &mut draft);
    }
    draft
}

/// A list of so many lines at most, and a column that makes all its statements true.
pub fn worked(dice: &mut Dice, p: i64, lines: u64) -> (Draft, Vec<i64>) {
    let mut draft = Draft::open(p);
    let mut worked = Worked::default();
    for _ in 0..3 * lines {
        if draft.plan.steps.len() as u64 > lines {
            break;
        }
        let suggested = suggestion(dice, &draft.plan);
        let Some(line) = read_line(suggested.as_bytes()) else { continue };
        if worked.holds(&line) && draft.offer(&suggested) {
            worked.work(dice, &line, (p - 1) / 2);
        }
    }
    (draft, worked.inputs)
}

/// Adds one line, after a few suggestions at most.
fn grow(dice: &mut Dice, draft: &mut Draft) {
    for _ in 0..6 {
        let line = suggestion(dice, &draft.plan);
        if draft.offer(&line) {
            return;
        }
    }
}

/// One of the well-known primes, or one of any size.
pub fn prime(dice: &mut Dice) -> i64 {
    if !dice.once_in(4) {
        return dice.pick(&PRIMES);
    }
    let most = 1i64 << (3 + dice.below(29));
    let mut candidate = dice.range(3, most - 1);
    while !is_odd_prime(candidate) {
        candidate = dice.range(3, most - 1);
    }
    candidate
}

/// A line that has a good chance to be read next.
pub fn suggestion(dice: &mut Dice, plan: &Plan) -> String {
    if plan.ends.is_empty() {
        let constant = near(dice, 0, m(plan));
        return if dice.once_in(4) { line("sum", &[constant]) } else { line("in", &[]) };
    }
    let v = dice.below(plan.ends.len() as u64) as i64;
    let u = dice.below(plan.ends.len() as u64) as i64;
    let (v_ends, u_ends) = (plan.ends[v as usize], plan.ends[u as usize]);
    let apart = Ends::new(u_ends.low - v_ends.high, u_ends.high - v_ends.low);
    let p = plan.p;
    match dice.below(16) {
        0..=2 => line("in", &[]),
        3..=6 => span(dice, plan, v, v_ends),
        7..=9 => sum(dice, plan),
        10..=11 => {
            let (b, k) = digits(dice, p.min(p - v_ends.high));
            line("relu", &[v, b, k])
        }
        12..=13 => {
            let (b, k) = digits(dice, p.min(p - apart.high).min(p + apart.low));
            line("which", &[u, v, b, k])
        }
        14 => {
            let (b, k) = digits(dice, p + apart.low.min(-apart.high).min(0));
            line("max", &[u, v, b, k])
        }
        _ => {
            let (b, k) = digits(dice, (m(plan) + 1).isqrt());
            line("root", &[v, b, k])
        }
    }
}

/// A span whose shift lies between the least and the greatest that the rules allow.
fn span(dice: &mut Dice, plan: &Plan, v: i64, ends: Ends) -> String {
    let (p, m) = (plan.p, m(plan));
    let room = if dice.once_in(2) { p } else { dice.range(2, p) };
    let (b, k) = digits(dice, room);
    let c = capped_power(b, k);
    let least = (ends.high - (p - 1)).max(ends.low - c + 1).max(-m);
    let greatest = (p - c + ends.low).min(ends.high).min(m);
    let low = match dice.below(5) {
        0 => least,
        1 => greatest,
        2 => ends.low.clamp(-m, m),
        3 => 0,
        _ => dice.range(least, greatest),
    };
    line("span", &[v, b, k, low])
}

/// A sum with few terms mostly, and with small coefficients.
fn sum(dice: &mut Dice, plan: &Plan) -> String {
    let m = m(plan);
    let mut numbers = vec![near(dice, 0, m)];
    let pairs = if dice.once_in(12) { dice.below(17) } else { dice.below(4) };
    for _ in 0..pairs {
        numbers.push(match dice.below(4) {
            0 => 1.min(m),
            1 => -1,
            2 => near(dice, 0, m),
            _ => dice.range(-3, 3).clamp(-m, m),
        });
        numbers.push(dice.below(plan.ends.len() as u64) as i64);
    }
    line("sum", &numbers)
}

/// A base and a digit count with b^k at most the limit, where there are any.
fn digits(dice: &mut Dice, limit: i64) -> (i64, i64) {
    if limit < 2 {
        return (2, 1);
    }
    let most_digits = i64::from(limit.ilog2()).min(31);
    let k = dice.range(1, most_digits);
    let greatest = root_of_power(limit, k);
    let b = match dice.below(4) {
        0 => 2,
        1 => greatest,
        2 => dice.range(2, greatest.min(5)),
        _ => dice.range(2, greatest),
    };
    (b, k)
}

/// The greatest base from 2 on whose k-th power is at most the limit.
fn root_of_power(limit: i64, k: i64) -> i64 {
    let (mut low, mut high) = (2, limit.min(2_147_483_647));
    while low < high {
        let middle = (low + high + 1) / 2;
        if capped_power(middle, k) <= limit {
            low = middle;
        } else {
            high = middle - 1;
        }
    }
    low
}

/// A number about a centre, mostly close to it, never beyond the size m.
pub fn near(dice: &mut Dice, centre: i64, m: i64) -> i64 {
    let width = if dice.once_in(4) { m } else { 1 << dice.below(6) };
    (centre + dice.range(-width, width)).clamp(-m, m)
}

/// M of a plan.
pub fn m(plan: &Plan) -> i64 {
    (plan.p - 1) / 2
}
