//! Lines to be written whose text is as long as a text may be, or one byte longer: the length is
//! tested before any line (FORMAT 4.8, 9.26).

use super::rows::{Rows, FIELD, IN, NO_WORD, RELU, SPAN, SUM, WHICH};
use super::text;
use super::writings::{refused, written, Writing, P1};
use crate::plan::MOST_BYTES;

/// A list of so many inputs and of spans of 32 bytes each.
fn spans(inputs: usize, spans: usize) -> (Rows, Vec<u8>) {
    let mut rows = Rows::of(&[(FIELD, &[2_147_483_647])]);
    (0..inputs).for_each(|_| rows.push(IN, &[]));
    (0..spans).for_each(|_| rows.push(SPAN, &[0, 2_147_483_647, 1, -1_073_741_823]));
    let line = ";span 0 2147483647 1 -1073741823".repeat(spans);
    (rows, text(&format!("field 2147483647{}{line}", ";in".repeat(inputs))))
}

/// FORMAT 4.8: good lines whose text has 65,536 bytes, or one more.
pub fn longest_lists() -> Vec<Writing> {
    let (rows, list) = spans(5, 2_047);
    assert_eq!(list.len(), MOST_BYTES);
    let mut all = written("65,536 bytes", &rows, &list);
    let (rows, list) = spans(16, 2_046);
    assert_eq!(list.len(), MOST_BYTES + 1);
    all.extend(refused("65,537 bytes", &rows, (1, 0)));
    let mut inputs = Rows::of(&[(FIELD, &[31])]);
    (0..21_842).for_each(|_| inputs.push(IN, &[]));
    all.extend(refused("65,535 bytes of inputs", &inputs, (8, 257)));
    inputs.push(IN, &[]);
    all.extend(refused("65,538 bytes of inputs", &inputs, (1, 0)));
    all
}

/// Lines with so many empty ones after them, up to just 65,536 bytes, and then one line more: the
/// text is as long as is said, and the length is tested before any line (FORMAT 9.26).
fn up_to_the_limit(way: &str, rows: Rows, length: usize, reply: (u64, u64)) -> Vec<Writing> {
    let mut rows = rows;
    rows.counts.resize(rows.words.len(), 0);
    (length..MOST_BYTES).for_each(|_| rows.push(NO_WORD, &[]));
    let within = Writing::new(&format!("{way}, 65,536 bytes"), &rows, 100, reply, b"");
    rows.push(NO_WORD, &[]);
    let beyond = Writing::new(&format!("{way}, 65,537 bytes"), &rows, 100, (1, 0), b"");
    vec![within, beyond]
}

/// FORMAT 9.24, 9.25: how long the text of a line is that is none.
pub fn lengths_of_lines_that_are_none() -> Vec<Writing> {
    let many = |word, count, numbers| Rows {
        words: vec![word; 1_000],
        counts: vec![count; 1_000],
        numbers,
    };
    let short = |first: usize, second: usize| Rows {
        words: vec![SUM, WHICH],
        counts: vec![first, second],
        numbers: vec![i64::MIN; 3],
    };
    let ways: [(&str, Rows, usize); 13] = [
        ("no word, no numbers", many(NO_WORD, 0, Vec::new()), 1_000),
        ("no word, each a number", many(255, 1, vec![7; 1_000]), 3_000),
        ("no word, each a long number", many(NO_WORD, 1, vec![i64::MIN; 1_000]), 22_000),
        ("no word, all numbers in line 0", many(9, 3, vec![-5; 3]), 9 + 1_000),
        ("field, no number is left", many(FIELD, 1, Vec::new()), 1_000),
        ("in, one number and then none", many(IN, 1, vec![5]), 5 + 999),
        ("no word, too few numbers", many(NO_WORD, 4, vec![i64::MIN; 3]), 1_000),
        ("relu, far too few", many(RELU, usize::MAX, vec![i64::MIN; 3]), 1_000),
        ("nothing is left after too few", short(4, 3), 2),
        ("nothing is left for one number", short(4, 1), 2),
        ("nothing is left after far too few", short(usize::MAX, 2), 2),
        ("the last has too few", short(2, 2), 4 + 2 * 21 + 1),
        ("all are used", short(1, 2), 4 + 21 + 6 + 2 * 21),
    ];
    let mut all: Vec<Writing> = ways
        .into_iter()
        .flat_map(|(way, rows, length)| up_to_the_limit(way, rows, length, (3, 0)))
        .collect();
    let good = Rows::of(&P1);
    all.extend(up_to_the_limit("P1 and then no line", good, 23, (3, 3)));
    let fields = many(FIELD, 1, vec![31; 100_000]);
    let sums = many(SUM, 100, vec![i64::MIN; 100_000]);
    let words = Rows { words: vec![NO_WORD; 1_000_000], ..Rows::default() };
    all.push(Writing::new("1,000 field lines", &fields, 100, (4, 1), b""));
    all.push(Writing::new("1,000 lines of 100 long numbers", &sums, 100, (1, 0), b""));
    all.push(Writing::new("1,000,000 lines", &words, 100, (1, 0), b""));
    all
}

/// FORMAT 2.9: how long the spelling of a number is, of every count of digits, with either sign. A
/// line of as many as 65,536 bytes have room for, then empty lines.
pub fn lengths_of_numbers() -> Vec<Writing> {
    let mut all = Vec::new();
    for digits in 1..=19u32 {
        let (least, past) = (10i64.pow(digits - 1), 10i64.checked_pow(digits));
        let most = past.map_or(i64::MAX, |past| past - 1);
        let lowest = (digits == 19).then_some(i64::MIN);
        for number in [least, most, -least, -most].into_iter().chain(lowest) {
            let each = 1 + digits as usize + usize::from(number < 0);
            let count = (MOST_BYTES - 4) / each;
            let rows = Rows::of(&[(SUM, &vec![number; count])]);
            all.extend(up_to_the_limit(&number.to_string(), rows, 4 + count * each, (3, 0)));
        }
    }
    all
}
