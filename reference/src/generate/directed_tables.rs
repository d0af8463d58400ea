//! Directed cases about tables and columns, chapters 7 and 8 of the format: refusals 13, 14, 15, 16,
//! 17 and 18.

use super::directed::{Call, Directed};
use super::{tables, text, Case};
use crate::line::{Digits, Line};
use crate::plan::{Plan, Step};
use crate::prime::inverse;

/// A list with every line, and columns for it that bring out both sides of each sign.
const WHOLE: &str = "field 101;in;in;span 0 2 3 -3;span 1 3 2 -4;relu 0 3 3;which 0 1 2 5;\
                     max 0 1 5 2;sum 1 1 3 -2 0;root 2 2 2;relu 1 2 5";
const COLUMNS: [[i64; 2]; 5] = [[3, -4], [-3, 4], [2, 2], [-1, 0], [0, -1]];
/// The same lines with numbers of the greatest p's size.
const GREAT: &str = "field 2147483647;in;in;span 0 20000 2 -300000000;span 1 700 3 -171500000;\
                     relu 0 1000 3;which 0 1 27000 2;max 0 1 900 3;sum 1 1 3 -2 0;root 2 32768 1;\
                     relu 1 31000 2";
const GREAT_COLUMNS: [[i64; 2]; 6] = [
    [27_000, 1],
    [-300_000_000, 30_999],
    [-299_999_999, -171_500_000],
    [20_000, 20_000],
    [-1, 0],
    [0, -1],
];

/// The case of a list, a column and its true table.
fn made(list: &str, inputs: &[i64]) -> Option<(Case, Plan)> {
    let mut case = Case::about(text(list));
    let plan = Plan::read(&case.list).ok()?;
    case.inputs = inputs.to_vec();
    case.table = tables::true_table(&plan, inputs)?;
    Some((case.restated(), plan))
}

/// All made cases that the cases below start from.
fn starts() -> Vec<(Case, Plan)> {
    let great = GREAT_COLUMNS.iter().filter_map(|inputs| made(GREAT, inputs));
    COLUMNS.iter().filter_map(|inputs| made(WHOLE, inputs)).chain(great).collect()
}

/// Refusals 13 and 14 (FORMAT 10.13, 10.14).
pub fn lengths_and_cells() -> Vec<Directed> {
    let mut all = Vec::new();
    for (case, plan) in starts() {
        all.push(Directed::new("the true table", Call::Check, case.clone(), (0, 0)));
        for length in [0, 1, plan.cells - 1, plan.cells + 1, 2 * plan.cells] {
            let mut wrong = case.clone();
            wrong.table.resize(length, u32::MAX);
            all.push(Directed::new("table length", Call::Check, wrong.clone(), (13, 0)));
            // 13 comes before 16 and 17.
            wrong.inputs = vec![i64::MIN; 7];
            all.push(Directed::new("table length, making", Call::Make, wrong, (13, 0)));
        }
        for cell in 0..plan.cells {
            let p = plan.p as u32;
            for off in [p, case.table[cell] + p, u32::MAX] {
                let mut wrong = case.clone();
                wrong.table[cell..].fill(off);
                all.push(Directed::new("cell off", Call::Check, wrong, (14, cell as u64)));
            }
        }
    }
    all.push(Directed::new("empty table", Call::Check, Case::about(text("field 31")), (0, 0)));
    for (mut case, plan) in starts() {
        // 14 comes before 15: every row may fail before the last cell.
        case.table = vec![1; plan.cells];
        case.table[plan.cells - 1] = plan.p as u32;
        let last = plan.cells as u64 - 1;
        all.push(Directed::new("cell off after wrong rows", Call::Check, case, (14, last)));
    }
    let longer = Case { table: vec![0], ..Case::about(text("field 31")) };
    all.push(Directed::new("one cell too many", Call::Check, longer, (13, 0)));
    all
}

/// Refusal 15 at each row of each line (FORMAT 10.15).
pub fn rows() -> Vec<Directed> {
    let mut all = Vec::new();
    for (case, plan) in starts() {
        let mut first_row = 0;
        for step in &plan.steps {
            for (edits, row) in breaks(step, &case.table, plan.p) {
                let mut wrong = case.clone();
                for (cell, whole) in edits {
                    wrong.table[cell] = whole.rem_euclid(plan.p) as u32;
                }
                let way = format!("row {row} of {:?}", step.line);
                all.push(Directed::new(&way, Call::Check, wrong, (15, (first_row + row) as u64)));
            }
            first_row += step.line.rows();
        }
    }
    all
}

/// Cells to write, and the row of the line that is then the first to fail.
type Break = (Vec<(usize, i64)>, usize);

/// The breaks of one line in a true table.
fn breaks(step: &Step, table: &[u32], p: i64) -> Vec<Break> {
    let first = step.first_cell;
    let at = |cell: usize| i64::from(table[cell]);
    match step.line {
        Line::Field { .. } | Line::In => Vec::new(),
        Line::Sum { .. } => vec![(vec![(first, at(first) + 1)], 0)],
        Line::Span { digits, .. } => group_breaks(first, 0, digits, table),
        Line::Relu { digits, .. } | Line::Which { digits, .. } => {
            sign_breaks(first, digits, table, p)
        }
        Line::Max { digits, .. } => {
            let k = digits.count as usize;
            // No two values here are 40 apart modulo p, so y + 40 is neither of them.
            let mut all = vec![(vec![(first, at(first) + 40)], 0)];
            all.extend(group_breaks(first + 1, 1, digits, table));
            all.extend(group_breaks(first + 1 + k, 2 + k, digits, table));
            all
        }
        Line::Root { digits, .. } => {
            let k = digits.count as usize;
            let mut all = vec![(vec![(first + 1, at(first + 1) + 1)], 0)];
            for group in 0..4 {
                let (cell, row) = (first + 2 + group * k, 1 + group * (k + 1));
                all.extend(group_breaks(cell, row, digits, table));
            }
            all
        }
    }
}

/// Each digit set to b, then the lowest digit changed to another one.
fn group_breaks(first: usize, row: usize, digits: Digits, table: &[u32]) -> Vec<Break> {
    let k = digits.count as usize;
    let mut all: Vec<Break> =
        (0..k).map(|digit| (vec![(first + digit, digits.base)], row + digit)).collect();
    let other = (i64::from(table[first]) + 1) % digits.base;
    all.push((vec![(first, other)], row + k));
    all
}

/// The breaks of relu and which: the group, the rows on f and w, the row on y.
fn sign_breaks(first: usize, digits: Digits, table: &[u32], p: i64) -> Vec<Break> {
    let k = digits.count as usize;
    let (f, w) = (first + 1 + k, first + 2 + k);
    let t = i64::from(table[f - 1]) - (digits.base - 1);
    let mut all = group_breaks(first + 1, 0, digits, table);
    if t == 0 {
        all.push((vec![(f, 0)], k + 1));
        all.push((vec![(w, 1)], k + 3));
    } else {
        all.push((vec![(w, i64::from(table[w]) + 1)], k + 1));
        // t·w ≡ 1-f is kept with f = 2, so that t·f ≡ 0 is the first to fail.
        all.push((vec![(f, 2), (w, -inverse(t, p))], k + 2));
    }
    all.push((vec![(first, i64::from(table[first]) + 1)], k + 4));
    all
}

/// Refusals 16 and 17 (FORMAT 10.16, 10.17).
pub fn columns() -> Vec<Directed> {
    let three = "field 31;in;in;span 0 2 3 0;in";
    let mut all = Vec::new();
    for inputs in [&[][..], &[1], &[1, 2], &[1, 2, 3, 4], &[99], &[i64::MIN; 5]] {
        all.push(Directed::make("input count", three, inputs, (16, 0)));
    }
    all.push(Directed::make("no input wanted", "field 31;sum 3", &[3], (16, 0)));
    all.push(Directed::make("no input wanted", "field 31", &[], (0, 0)));
    for place in 0..3 {
        let offs = [16, -16, 31, i64::MAX, i64::MIN, i64::MIN + 1, 1 << 32, -(1 << 32), 1 << 31];
        for off in offs {
            let mut inputs = [-1; 3];
            inputs[place..].fill(off);
            all.push(Directed::make("input off", three, &inputs, (17, place as u64)));
        }
        let mut inputs = [0; 3];
        inputs[place] = if place == 0 { 7 } else { 15 };
        all.push(Directed::make("greatest input", three, &inputs, (0, 0)));
    }
    all.push(Directed::make("least inputs", three, &[0, -15, -15], (0, 0)));
    all
}

/// Some columns of inputs.
type Columns = &'static [&'static [i64]];

/// Refusal 18 (FORMAT 10.18): each line's statement false by one and just true, on both sides.
pub fn statements() -> Vec<Directed> {
    let two = "field 101;in;in;span 0 5 2 -12;span 1 5 2 -12";
    let cases: [(&str, &str, Columns, Columns); 8] = [
        ("field 101;in", "span 0 5 2 -27", &[&[-27], &[-3]], &[&[-28], &[-2], &[50], &[-50]]),
        ("field 31;in", "relu 0 2 4", &[&[-8], &[7], &[0]], &[&[-9], &[8], &[15], &[-15]]),
        ("field 31;in", "relu 0 4 1", &[&[-3], &[0]], &[&[-4], &[1]]),
        (two, "which 0 1 3 3", &[&[-9, 9], &[8, 0]], &[&[-10, 9], &[9, 0], &[-7, 12]]),
        (two, "max 0 1 3 2", &[&[0, 8], &[8, 0], &[4, -4]], &[&[0, 9], &[9, 0], &[12, -12]]),
        ("field 31;in", "root 0 2 2", &[&[0], &[3]], &[&[4], &[-1], &[15], &[-15]]),
        ("field 31;in", "root 0 3 1", &[&[0], &[1], &[2]], &[&[3], &[-1]]),
        ("field 2147483647;in", "span 0 2 30 0", &[&[0], &[1_073_741_823]], &[&[-1]]),
    ];
    let mut all = Vec::new();
    for (start, line, good, bad) in cases {
        let list = format!("{start};{line}");
        let place = start.matches(';').count() as u64 + 1;
        let make = |inputs: &&[i64], reply| Directed::make(line, &list, inputs, reply);
        all.extend(good.iter().map(|inputs| make(inputs, (0, 0))));
        all.extend(bad.iter().map(|inputs| make(inputs, (18, place))));
        // The first false line counts.
        let twice = format!("{list};sum 0;{line}");
        all.extend(bad.iter().map(|inputs| Directed::make(line, &twice, inputs, (18, place))));
    }
    all
}
