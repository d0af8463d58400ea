//! Directed cases about a list's limits and rules, chapters 4, 5 and 6 of the format: refusals 8, 9,
//! 10, 11 and 12.

use super::directed::Directed;
use super::text;

/// Lines that would be value 257, and their refusal: the least number counts.
const VALUES_ORDER: [(&str, u64); 7] = [
    ("relu 256 2 4", 7),
    ("max 0 1 31 31", 8),
    ("sum 15 15 255", 8),
    ("sum 16", 6),
    ("relu 0 1 4", 6),
    ("field 31", 4),
    ("sum 0 1", 3),
];

/// Lines after 4,096 cells, and their refusal: the least number counts.
const CELLS_ORDER: [(&str, u64); 10] = [
    ("span 9 2 1 0", 7),
    ("max 0 1 2 31", 9),
    ("root 0 2 1", 9),
    ("sum 1 1073741823 0", 9),
    ("span 0 2 1 -2", 9),
    ("span 0 1 1 0", 6),
    ("sum 1073741824", 6),
    ("root 2 2 32", 6),
    ("field 31", 4),
    ("span 0 2 1", 3),
];

/// Refusal 8 (FORMAT 10.8): 256 values are read; value 257 is not, by whatever line.
pub fn values() -> Vec<Directed> {
    // Two inputs from 0 to 7 and 254 sums: lines 0 to 258.
    let start = format!("field 31;in;in;span 0 2 3 0;span 1 2 3 0{}", ";sum 1".repeat(254));
    let mut all = vec![
        Directed::list("256 values", text(&start), (0, 0)),
        Directed::list("256 values and a span", text(&format!("{start};span 255 2 3 0")), (0, 0)),
        Directed::list("256 inputs", text(&format!("field 3{}", ";in".repeat(256))), (0, 0)),
        Directed::list("257 inputs", text(&format!("field 3{}", ";in".repeat(257))), (8, 257)),
    ];
    let lines = ["in", "sum 0", "relu 0 2 4", "which 0 1 2 4", "max 0 1 2 3", "root 0 2 2"];
    for line in lines {
        let list = text(&format!("{start};{line}"));
        all.push(Directed::list(&format!("value 257: {line}"), list, (8, 259)));
    }
    for (line, number) in VALUES_ORDER {
        let list = text(&format!("{start};{line}"));
        all.push(Directed::list(&format!("order with 8: {line}"), list, (number, 259)));
    }
    all
}

/// Refusal 9 (FORMAT 10.9): each line once with its last cell as cell 4,095, once with one cell
/// more.
pub fn cells() -> Vec<Directed> {
    let lines = [
        ("in", 1),
        ("sum 0", 1),
        ("span 0 2 1 0", 1),
        ("span 0 2 30 0", 30),
        ("relu 0 2 5", 8),
        ("which 0 1 2 5", 8),
        ("max 0 1 2 5", 11),
        ("root 0 2 15", 62),
    ];
    let mut all = Vec::new();
    for (line, count) in lines {
        let (start, _) = filled(4_096 - count);
        let list = text(&format!("{start};{line}"));
        all.push(Directed::list(&format!("4,096 cells: {line}"), list, (0, 0)));
        let (start, place) = filled(4_097 - count);
        let list = text(&format!("{start};{line}"));
        all.push(Directed::list(&format!("4,097 cells: {line}"), list, (9, place)));
    }
    let (full, place) = filled(4_096);
    for (line, number) in CELLS_ORDER {
        let list = text(&format!("{full};{line}"));
        all.push(Directed::list(&format!("order with 9: {line}"), list, (number, place)));
    }
    // With 4,096 cells and 256 values, 8 comes before 9 (FORMAT 13.5).
    let both = format!("{};{}", filled(4_096 - 254).0, vec!["sum 0"; 254].join(";"));
    let after = text(&format!("{both};in"));
    let place = after.iter().filter(|&&byte| byte == b'\n').count() as u64 - 1;
    all.push(Directed::list("256 values, 4,096 cells", text(&both), (0, 0)));
    all.push(Directed::list("257 values, 4,097 cells", after, (8, place)));
    all
}

/// A list of two values and so many cells, and the place of the next line.
fn filled(cells: usize) -> (String, u64) {
    let mut list = "field 2147483647;in;in".to_string();
    let mut left = cells - 2;
    let mut place = 3;
    while left > 0 {
        let count = left.min(30);
        list += &format!(";span {} 2 {count} 0", place % 2);
        left -= count;
        place += 1;
    }
    (list, place)
}

/// Refusal 10: each condition of the digit rule for each line, broken by one and just kept; and the
/// two conditions of root (FORMAT 6.1, 6.2, 6.4). Three cannot be broken and are left out: span's
/// second, relu's third and max's second (FORMAT 6.5).
pub fn digit_rule() -> Vec<Directed> {
    let cases = SPAN_AND_RELU.iter().chain(&WHICH_AND_MAX).chain(&ROOT);
    cases.map(|(way, start, line, number)| last_line(way, start, line, *number)).collect()
}

/// A way, the lines before, the line under test, and its refusal or 0.
type LastLine = (&'static str, &'static str, &'static str, u64);

/// Two fresh inputs.
const FRESH: &str = "field 31;in;in";
/// Two inputs from 0 to 7.
const NARROW: &str = "field 31;in;in;span 0 2 3 0;span 1 2 3 0";
/// One input from -15 to -14 and one from 14 to 15.
const FAR: &str = "field 31;in;in;span 0 2 1 -15;span 1 2 1 14";

const SPAN_AND_RELU: [LastLine; 19] = [
    ("span: c is p", FRESH, "span 0 31 1 -15", 0),
    ("span: c over p", FRESH, "span 0 32 1 -15", 10),
    ("span: c over p by power", FRESH, "span 0 2 5 -15", 10),
    ("span: F-L at p-1", FRESH, "span 0 2 2 -15", 0),
    ("span: L+c-1-E at p-1", FRESH, "span 0 2 4 0", 0),
    ("span: L+c-1-E over p-1", FRESH, "span 0 2 4 1", 10),
    ("span: the same after a span", NARROW, "span 0 2 4 1", 0),
    ("relu: c over p", NARROW, "relu 0 2 5", 10),
    ("relu: c over p, k = 1", NARROW, "relu 0 32 1", 10),
    ("relu: F+B at p-1", FRESH, "relu 0 16 1", 0),
    ("relu: F+B over p-1", FRESH, "relu 0 17 1", 10),
    ("relu: c is p", "field 31;sum 0", "relu 0 31 1", 0),
    ("relu: greatest b^(k-1)", FRESH, "relu 0 2 4", 0),
    ("relu: F+B at p-1, greatest p", "field 2147483647;in", "relu 0 1073741824 1", 0),
    ("relu: F+B over p-1, greatest p", "field 2147483647;in", "relu 0 1073741825 1", 10),
    ("span: c is p, greatest p", "field 2147483647;in", "span 0 2147483647 1 -1073741823", 0),
    ("span: L one more", "field 2147483647;in", "span 0 2147483647 1 -1073741822", 10),
    ("span: c = 2^30", "field 2147483647;in", "span 0 2 30 0", 0),
    ("span: c = 2^30, L one more", "field 2147483647;in", "span 0 2 30 1", 10),
];

const WHICH_AND_MAX: [LastLine; 15] = [
    ("which: c over p", NARROW, "which 0 1 2 5", 10),
    ("which: F+B at p-1", NARROW, "which 0 1 24 1", 0),
    ("which: F+B over p-1", NARROW, "which 0 1 25 1", 10),
    ("which: b^(k-1)-1-E at p-1", FAR, "which 0 1 2 1", 0),
    ("which: b^(k-1)-1-E over p-1", FAR, "which 0 1 2 2", 10),
    ("which: F+B over p-1, far", FAR, "which 1 0 2 1", 10),
    ("which: fresh inputs", FRESH, "which 0 1 2 1", 10),
    ("max: c over p", "field 31;sum 0", "max 0 0 32 1", 10),
    ("max: c is p", "field 31;sum 0", "max 0 0 31 1", 0),
    ("max: fresh inputs", FRESH, "max 0 1 2 3", 10),
    ("max: one fresh input twice", FRESH, "max 0 0 2 1", 10),
    ("max: c-1-E at p-1", NARROW, "max 0 1 24 1", 0),
    ("max: c-1-E over p-1", NARROW, "max 0 1 25 1", 10),
    ("max: first group alone broken", FAR, "max 1 0 2 1", 10),
    ("max: second group alone broken", FAR, "max 0 1 2 1", 10),
];

const ROOT: [LastLine; 9] = [
    ("root: c = 2", FRESH, "root 0 2 1", 10),
    ("root: c = 3", FRESH, "root 0 3 1", 0),
    ("root: c² is M+1", FRESH, "root 0 2 2", 0),
    ("root: c² over M+1", FRESH, "root 0 5 1", 10),
    ("root: c² is M+1, p = 17", "field 17;in", "root 0 3 1", 0),
    ("root: p = 13", "field 13;in", "root 0 3 1", 10),
    ("root: c² is 2^30", "field 2147483647;in", "root 0 2 15", 0),
    ("root: c² over 2^30", "field 2147483647;in", "root 0 32769 1", 10),
    ("root: c² over 2^64", "field 2147483647;in", "root 0 2147483647 31", 10),
];

/// The greatest p, an input, and as value 2 one that is 0 or 1.
const GREAT: &str = "field 2147483647;in;sum 0;which 0 1 2 30";

/// Refusals 11 and 12 (FORMAT 5.5, 5.10).
pub fn sums_and_spans() -> Vec<Directed> {
    let ins = "field 31;in;in;sum 15;sum -15;sum 0";
    let cases = [
        ("11 at the first term", ins, "sum 0 2 0", 11),
        ("11 at the first term, above", ins, "sum 1 1 0", 11),
        ("11 at the first term, below", ins, "sum -1 1 0", 11),
        ("11 by a negative coefficient", ins, "sum 1 -1 0", 11),
        ("11 at the last term", ins, "sum 0 1 2 1 2", 11),
        ("11 in the middle, later undone", ins, "sum 0 1 2 1 2 -1 2", 11),
        ("11 below in the middle, later undone", ins, "sum 0 1 3 1 3 1 2", 11),
        ("11 not reached in another order", ins, "sum 0 1 2 -1 2 1 2", 0),
        ("11 at the sixteenth term", ins, &format!("sum 15{} 1 2", " 0 2".repeat(15)), 11),
        ("15 and -15", ins, "sum 15 2 3", 0),
        ("11 with p at its greatest", "field 2147483647;in", "sum 0 1073741823 0", 11),
        ("11 at the constant is 6", ins, "sum 16", 6),
        ("11 after a span", "field 101;in;span 0 2 5 0", "sum 0 2 0", 11),
        ("sum after a span", "field 101;in;span 0 2 5 0", "sum -12 2 0", 0),
        ("12 above", "field 31;in;span 0 2 2 0", "span 0 2 2 4", 12),
        ("12 below", "field 31;in;span 0 2 2 0", "span 0 2 2 -4", 12),
        ("one number shared above", "field 31;in;span 0 2 2 0", "span 0 2 2 3", 0),
        ("one number shared below", "field 31;in;span 0 2 2 0", "span 0 2 2 -3", 0),
        ("12 over a sum", "field 31;sum 5", "span 0 2 1 3", 12),
        ("12 over a which", "field 31;in;sum 0;which 0 1 2 4", "span 2 2 1 2", 12),
        ("10 before 12", "field 31;in;span 0 2 2 0", "span 0 2 5 4", 10),
        ("12 after two spans", "field 31;in;span 0 2 2 0;span 0 2 2 3", "span 0 2 1 1", 12),
        ("a coefficient of M", GREAT, "sum 0 1073741823 2", 0),
        ("a coefficient of -M", GREAT, "sum 0 -1073741823 2", 0),
        ("M and one more", GREAT, "sum 1 1073741823 2", 11),
        ("M, one more by a term", GREAT, "sum 0 1073741823 2 1 2", 11),
        ("-M, one less by a term", GREAT, "sum 0 -1073741823 2 -1 2", 11),
        ("M and M again", GREAT, "sum 1073741823 1073741823 0", 11),
        ("-M and -M again", GREAT, "sum -1073741823 -1073741823 0", 11),
        ("M by sixteen terms", GREAT, &format!("sum 1073741807{}", " 1 2".repeat(16)), 0),
        ("M+1 by sixteen terms", GREAT, &format!("sum 1073741808{}", " 1 2".repeat(16)), 11),
        ("-M by sixteen terms", GREAT, &format!("sum -1073741807{}", " -1 2".repeat(16)), 0),
        ("-M-1 by sixteen terms", GREAT, &format!("sum -1073741808{}", " -1 2".repeat(16)), 11),
    ];
    cases.map(|(way, start, line, number)| last_line(way, start, line, number)).to_vec()
}

/// Lines after `field 101`, a value, and its known ends after these lines.
const KNOWN_ENDS: [(&str, i64, i64, i64); 24] = [
    ("in;span 0 2 3 -3", 0, -3, 4),
    ("in;span 0 2 3 -3;span 0 3 2 2", 0, 2, 4),
    ("in;span 0 2 3 -3;span 0 3 2 -9", 0, -3, -1),
    ("in;span 0 2 3 -3;span 0 5 2 -12", 0, -3, 4),
    ("sum 7", 0, 7, 7),
    ("in;in;span 0 2 3 0;span 1 2 3 0;sum 1 2 0 -1 1", 2, -6, 15),
    ("in;in;span 0 2 3 -3;span 1 2 2 2;sum 0 -2 0 0 1 3 1", 2, -2, 21),
    ("in;span 0 2 3 -3;sum 0 1 0 -1 0", 1, -7, 7),
    ("in;span 0 2 3 -3;relu 0 2 5", 1, 0, 4),
    ("in;span 0 2 3 2;relu 0 2 5", 1, 2, 9),
    ("in;span 0 2 3 -9;relu 0 2 5", 1, 0, 0),
    ("in;span 0 5 2 0;relu 0 2 3", 1, 0, 24),
    ("in;in;span 0 2 3 -3;span 1 2 3 2;which 0 1 2 6", 2, 0, 1),
    ("in;in;span 0 2 3 -9;span 1 2 3 2;which 0 1 2 6", 2, 0, 1),
    ("in;in;span 0 2 3 -3;span 1 2 3 2;max 0 1 2 5", 2, 2, 9),
    ("in;in;span 0 2 3 -3;span 1 2 3 2;max 1 0 2 5", 2, 2, 9),
    ("in;in;span 0 2 3 -3;span 1 3 1 0;max 0 1 2 5", 2, 0, 4),
    ("in;root 0 2 2", 1, 0, 3),
    ("in;root 0 7 1", 1, 0, 6),
    ("sum 2;root 0 2 2", 1, 0, 3),
    // Only span narrows a value; the other lines leave the ends of what they name (FORMAT 5.11).
    ("in;span 0 5 2 -12;relu 0 2 3", 0, -12, 12),
    ("in;span 0 5 2 -12;sum 0;max 0 1 2 1;which 0 1 2 3", 0, -12, 12),
    ("in;span 0 5 2 -12;root 0 2 2", 0, -12, 12),
    // A span narrows for later lines, but not what was made before it.
    ("in;span 0 5 2 -12;sum 0 1 0;span 0 2 3 0", 1, -12, 12),
];

/// Known ends, probed by spans of two numbers: one shares the end, the next is beyond it.
pub fn known_ends() -> Vec<Directed> {
    let mut all = Vec::new();
    for (lines, value, low, high) in KNOWN_ENDS {
        let start = format!("field 101;{lines}");
        for (shift, number) in [(high, 0), (high + 1, 12), (low - 1, 0), (low - 2, 12)] {
            let probe = format!("span {value} 2 1 {shift}");
            all.push(last_line("known ends", &start, &probe, number));
        }
    }
    all
}

/// The list of a start and one more line, which is the one refused, if any is.
fn last_line(way: &str, start: &str, line: &str, number: u64) -> Directed {
    let place = start.matches(';').count() as u64 + 1;
    let reply = if number == 0 { (0, 0) } else { (number, place) };
    Directed::list(way, text(&format!("{start};{line}")), reply)
}
