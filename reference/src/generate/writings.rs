//! Lines to be written, built on purpose, each with the reply that the format gives and the text
//! that is then written (FORMAT 9.23 to 9.28, 10.21, 13.9).

use super::rows::{Rows, EDGES, FIELD, IN, MAX, NO_WORD, RELU, ROOT, SPAN, SUM, WHICH};
use super::{cut, text, writings_lengths};
use crate::plan::MOST_BYTES;

/// Lines, a buffer's length, and what the format says of writing the one into the other.
#[derive(Clone, Debug)]
pub struct Writing {
    /// The way in which it comes to its reply, in a few words.
    pub way: String,
    pub rows: Rows,
    pub room: usize,
    pub reply: (u64, u64),
    /// What the buffer begins with afterwards; nothing where the lines are refused.
    pub text: Vec<u8>,
}

impl Writing {
    pub fn new(way: &str, rows: &Rows, room: usize, reply: (u64, u64), text: &[u8]) -> Writing {
        Writing { way: way.to_string(), rows: rows.clone(), room, reply, text: text.to_vec() }
    }
}

/// Lines that are written in as many bytes as their text has, or more; in fewer it is 21
/// (FORMAT 9.26, 10.21).
pub fn written(way: &str, rows: &Rows, text: &[u8]) -> Vec<Writing> {
    let length = text.len();
    let fits = [length, length + 1, length + 5, length + MOST_BYTES];
    let short = [length - 1, length / 2, 1, 0];
    let fits = fits.map(|room| Writing::new(way, rows, room, (0, length as u64), text));
    let short = short.map(|room| Writing::new(way, rows, room, (21, 0), b""));
    fits.into_iter().chain(short).collect()
}

/// Lines that are refused whatever the buffer, an empty one too (FORMAT 13.9).
pub fn refused(way: &str, rows: &Rows, reply: (u64, u64)) -> Vec<Writing> {
    [0, 1, 2 * MOST_BYTES].map(|room| Writing::new(way, rows, room, reply, b"")).into()
}

/// All of them; they depend on nothing.
pub fn writings() -> Vec<Writing> {
    [
        good_lines(),
        no_lines(),
        codes(),
        counts(),
        counts_of_each_word(),
        numbers(),
        lists_refused(),
        writings_lengths::longest_lists(),
        writings_lengths::lengths_of_lines_that_are_none(),
        writings_lengths::lengths_of_numbers(),
    ]
    .concat()
}

/// Lines: the code of each word, and its numbers.
type Lines<'a> = &'a [(u8, &'a [i64])];

/// P1's list (FORMAT 12.1).
pub const P1: [(u8, &[i64]); 3] = [(FIELD, &[31]), (IN, &[]), (RELU, &[0, 2, 4])];

/// A list of every word.
const EVERY_WORD: [(u8, &[i64]); 11] = [
    (FIELD, &[101]),
    (IN, &[]),
    (IN, &[]),
    (SPAN, &[0, 2, 3, -4]),
    (SPAN, &[1, 2, 3, -4]),
    (SUM, &[-7, 1, 0, -1, 1]),
    (RELU, &[2, 2, 6]),
    (WHICH, &[0, 1, 2, 4]),
    (MAX, &[0, 1, 2, 4]),
    (ROOT, &[0, 2, 2]),
    (SUM, &[50]),
];
const EVERY_WORD_TEXT: &str = "field 101;in;in;span 0 2 3 -4;span 1 2 3 -4;sum -7 1 0 -1 1;\
                               relu 2 2 6;which 0 1 2 4;max 0 1 2 4;root 0 2 2;sum 50";

fn good_lines() -> Vec<Writing> {
    let mut all = written("P1", &Rows::of(&P1), b"field\t31\nin\nrelu\t0\t2\t4\n");
    all.extend(written("every word", &Rows::of(&EVERY_WORD), &text(EVERY_WORD_TEXT)));
    all.extend(written("field line alone", &Rows::of(&[(FIELD, &[3])]), &text("field 3")));
    let (pairs, spelled) = ([&[-15][..], &[-15, 0].repeat(16)].concat(), " -15 0".repeat(16));
    let rows = Rows::of(&[(FIELD, &[31]), (SUM, &[0]), (SUM, &pairs)]);
    all.extend(written("16 pairs", &rows, &text(&format!("field 31;sum 0;sum -15{spelled}"))));
    // Every count of digits that a number can have, with either sign.
    let mut rows = Rows::of(&[(FIELD, &[2_147_483_647])]);
    let mut spelled = String::from("field 2147483647");
    for digits in 0..=9 {
        let power = 10i64.pow(digits);
        for number in [power - 1, power, power + 1, 1 - power, -power, -1 - power] {
            rows.push(SUM, &[number]);
            spelled += &format!(";sum {number}");
        }
    }
    all.extend(written("numbers of every length", &rows, &text(&spelled)));
    all
}

/// FORMAT 9.26: no line at all, whatever the other rows have.
fn no_lines() -> Vec<Writing> {
    let some = Rows { counts: vec![1, usize::MAX], numbers: vec![31], ..Rows::default() };
    [refused("no line", &Rows::default(), (2, 0)), refused("no word", &some, (2, 0))].concat()
}

/// Lines with the code of another word, and their refusal.
const OTHER_CODES: [(&str, Lines, (u64, u64)); 7] = [
    ("in for field", &[(IN, &[31]), (IN, &[])], (3, 0)),
    ("sum for field", &[(SUM, &[31]), (IN, &[])], (4, 0)),
    ("field for sum", &[(FIELD, &[31]), (FIELD, &[3])], (4, 1)),
    ("field for in", &[(FIELD, &[31]), (FIELD, &[])], (3, 1)),
    ("root for relu", &[(FIELD, &[31]), (IN, &[]), (ROOT, &[0, 2, 4])], (10, 2)),
    ("which for relu", &[(FIELD, &[31]), (IN, &[]), (WHICH, &[0, 2, 4])], (3, 2)),
    ("max for span", &[(FIELD, &[31]), (IN, &[]), (MAX, &[0, 2, 4, 1])], (7, 2)),
];

/// FORMAT 9.24: codes of no word, and codes of other words.
fn codes() -> Vec<Writing> {
    let mut all = Vec::new();
    for code in [NO_WORD, 9, 16, 127, 128, 255] {
        for line in 0..P1.len() {
            let mut lines = P1;
            lines[line].0 = code;
            let way = format!("code {code} in line {line}");
            all.extend(refused(&way, &Rows::of(&lines), (3, line as u64)));
        }
        let way = format!("code {code} without numbers");
        all.extend(refused(&way, &Rows::of(&[P1[0], (code, &[]), (code, &[])]), (3, 1)));
    }
    for (way, lines, reply) in OTHER_CODES {
        all.extend(refused(way, &Rows::of(lines), reply));
    }
    all
}

/// The numbers of P1's list, with an `in` after it or not.
const NUMBERS: [i64; 4] = [31, 0, 2, 4];
const MOST: usize = usize::MAX;

/// Counts and numbers with which P1's list and one more `in` are written.
const COUNTS_THAT_FIT: [(&[usize], &[i64]); 5] = [
    (&[1, 0, 3], &NUMBERS),
    (&[1, 0, 3, 0, 0], &NUMBERS),
    (&[1, 0, 3, 0, MOST, 7], &NUMBERS),
    (&[1, 0, 3, 0], &[31, 0, 2, 4, 5]),
    (&[1, 0, 3, 0, 1], &[31, 0, 2, 4, i64::MIN, i64::MAX]),
];

/// Counts and numbers with which the same words have a line that is none: the first one.
const COUNTS_REFUSED: [(&[usize], &[i64], u64); 23] = [
    (&[2, 0, 3, 0], &NUMBERS, 0),
    (&[0, 0, 3, 0], &NUMBERS, 0),
    (&[0, 1, 3, 0], &NUMBERS, 0),
    (&[1, 1, 3, 0], &NUMBERS, 1),
    (&[1, 0, 2, 0], &NUMBERS, 2),
    (&[1, 0, 2, 1], &NUMBERS, 2),
    (&[1, 0, 4, 0], &NUMBERS, 2),
    (&[1, 0, 3, 1], &NUMBERS, 3),
    (&[1, 0, 3, 1], &[31, 0, 2, 4, 0], 3),
    (&[1, 0], &NUMBERS, 2),
    (&[1], &NUMBERS, 2),
    (&[], &NUMBERS, 0),
    (&[MOST, 0, 3, 0], &NUMBERS, 0),
    (&[1, MOST, 3, 0], &NUMBERS, 1),
    (&[1, MOST, 1, 0], &NUMBERS, 1),
    (&[1, 0, MOST, 0], &NUMBERS, 2),
    (&[1, 0, (1 << 32) + 3, 0], &NUMBERS, 2),
    (&[1, 0, (1 << 63) + 3, 0], &NUMBERS, 2),
    (&[1, 0, 3, MOST], &NUMBERS, 3),
    (&[MOST, MOST, MOST, MOST], &NUMBERS, 0),
    (&[1, 0, 3, 0], &[31, 0, 2], 2),
    (&[1, 0, 3, 0], &[31], 2),
    (&[1, 0, 3, 0], &[], 0),
];

/// FORMAT 9.25: counts that are not those of the lines, and too few or too many numbers.
fn counts() -> Vec<Writing> {
    let four = Rows::of(&[P1[0], P1[1], P1[2], P1[1]]);
    let four_text = text("field 31;in;relu 0 2 4;in");
    let mut all = Vec::new();
    for (counts, numbers) in COUNTS_THAT_FIT {
        let way = format!("counts {counts:?}, numbers {numbers:?}");
        let rows = Rows { counts: counts.to_vec(), numbers: numbers.to_vec(), ..four.clone() };
        all.extend(written(&way, &rows, &four_text));
    }
    for (counts, numbers, line) in COUNTS_REFUSED {
        let way = format!("counts {counts:?}, numbers {numbers:?}");
        let rows = Rows { counts: counts.to_vec(), numbers: numbers.to_vec(), ..four.clone() };
        all.extend(refused(&way, &rows, (3, line)));
    }
    all
}

/// FORMAT 3.1: each line of a list with fewer numbers than its word has, and with more.
fn counts_of_each_word() -> Vec<Writing> {
    let mut all = Vec::new();
    for (line, (word, numbers)) in EVERY_WORD.into_iter().enumerate() {
        for count in 0..40 {
            let (is_sum, most) = (word == SUM, numbers.len());
            if count == most || is_sum && count % 2 == 1 && count <= 33 {
                continue;
            }
            let others: Vec<i64> = numbers.iter().copied().chain([0; 40]).take(count).collect();
            let mut lines = EVERY_WORD;
            lines[line].1 = &others;
            let way = format!("line {line} with {count} numbers");
            all.push(Writing::new(&way, &Rows::of(&lines), 1_000, (3, line as u64), b""));
        }
    }
    all
}

/// FORMAT 2.6: each number of a list in turn is one whose size is not allowed.
fn numbers() -> Vec<Writing> {
    let good = Rows::of(&EVERY_WORD);
    let lines = good.counts.iter().enumerate().flat_map(|(line, &count)| vec![line; count]);
    let mut all = Vec::new();
    for (place, line) in lines.enumerate() {
        for edge in EDGES.into_iter().filter(|edge| edge.unsigned_abs() > 2_147_483_647) {
            let mut rows = good.clone();
            rows.numbers[place] = edge;
            let way = format!("number {place} is {edge}");
            all.push(Writing::new(&way, &rows, 1_000, (3, line as u64), b""));
        }
    }
    // The greatest size is that of a number, and then other rules are broken.
    let rows = |p, v| Rows::of(&[(FIELD, &[p]), (IN, &[]), (RELU, &[v, 2, 4])]);
    all.extend(refused("p is -2147483647", &rows(-2_147_483_647, 0), (5, 0)));
    all.extend(refused("v is 2147483647", &rows(31, 2_147_483_647), (7, 2)));
    all.extend(refused("v is -2147483647", &rows(31, -2_147_483_647), (7, 2)));
    all
}

/// Refusals 4 to 12 of the reader (FORMAT 9.26), by lists that stand as text here.
fn lists_refused() -> Vec<Writing> {
    let lists = [
        ("in".to_string(), (4, 0)),
        ("field 31;in;field 31".to_string(), (4, 2)),
        ("field 32".to_string(), (5, 0)),
        ("field 0;field 31".to_string(), (5, 0)),
        ("field 31;in;relu 0 1 4".to_string(), (6, 2)),
        ("field 31;sum -16".to_string(), (6, 1)),
        ("field 31;in;relu 1 2 4".to_string(), (7, 2)),
        ("field 31;in;relu -1 2 4".to_string(), (7, 2)),
        (format!("field 31{}", ";in".repeat(257)), (8, 257)),
        (format!("field 31;in{}", ";span 0 2 4 0".repeat(1_024)), (9, 1_025)),
        ("field 31;in;span 0 2 4 1".to_string(), (10, 2)),
        ("field 101;in;span 0 2 5 0;sum 0 2 0".to_string(), (11, 3)),
        ("field 31;in;span 0 2 1 0;span 0 2 1 5".to_string(), (12, 3)),
    ];
    let writing = |(list, reply): &(String, _)| {
        let way: String = list.chars().take(60).collect();
        refused(&way, &cut(&text(list)).rows, *reply)
    };
    lists.iter().flat_map(writing).collect()
}
