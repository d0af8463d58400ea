//! Lines as words and numbers (FORMAT 9.23): put together, cut from a text, and damaged.

use super::damage::WORDS;
use super::Dice;

/// The codes of the words (FORMAT 9.24).
pub const FIELD: u8 = 0;
pub const IN: u8 = 1;
pub const SPAN: u8 = 2;
pub const SUM: u8 = 3;
pub const RELU: u8 = 4;
pub const WHICH: u8 = 5;
pub const MAX: u8 = 6;
pub const ROOT: u8 = 7;

/// The first code that no word has.
pub const NO_WORD: u8 = 8;

/// Numbers about the greatest size of a number, about 32 bits and at the ends of 64.
pub const EDGES: [i64; 12] = [
    2_147_483_647,
    2_147_483_648,
    -2_147_483_647,
    -2_147_483_648,
    4_294_967_295,
    4_294_967_296,
    4_294_967_327,
    -4_294_967_265,
    1_000_000_000_000_000_000,
    i64::MAX,
    -i64::MAX,
    i64::MIN,
];

/// The three rows in which lines come to be written.
#[derive(Clone, Debug, Default, PartialEq, Eq)]
pub struct Rows {
    pub words: Vec<u8>,
    pub counts: Vec<usize>,
    pub numbers: Vec<i64>,
}

impl Rows {
    /// The rows of these lines.
    pub fn of(lines: &[(u8, &[i64])]) -> Rows {
        let mut rows = Rows::default();
        lines.iter().for_each(|(word, numbers)| rows.push(*word, numbers));
        rows
    }

    /// Adds a line.
    pub fn push(&mut self, word: u8, numbers: &[i64]) {
        self.words.push(word);
        self.counts.push(numbers.len());
        self.numbers.extend(numbers);
    }

    /// What the reference's writer does with them.
    pub fn write(&self, buffer: &mut [u8]) -> (u64, u64) {
        crate::write(&self.words, &self.counts, &self.numbers, buffer)
    }

    /// The rows damaged in one way by chance: a word, a count, a number, or the length of a row.
    pub fn damaged(&self, dice: &mut Dice) -> Rows {
        let mut rows = self.clone();
        match dice.below(11) {
            0 => put(dice, &mut rows.words, |dice, _| dice.range(NO_WORD.into(), 255) as u8),
            1 => put(dice, &mut rows.words, |dice, _| dice.below(NO_WORD.into()) as u8),
            2 => put(dice, &mut rows.counts, |_, count| count.saturating_add(1)),
            3 => put(dice, &mut rows.counts, |_, count| count.saturating_sub(1)),
            4 => put(dice, &mut rows.counts, |dice, _| usize::MAX >> dice.below(40)),
            5 => put(dice, &mut rows.numbers, |dice, _| dice.pick(&EDGES)),
            6 => shorten(dice, &mut rows.words),
            7 => shorten(dice, &mut rows.counts),
            8 => shorten(dice, &mut rows.numbers),
            9 => rows.words.push(dice.below(u64::from(NO_WORD) + 1) as u8),
            _ => {
                rows.counts.push(dice.pick(&[0, 1, usize::MAX]));
                rows.numbers.push(dice.range(-40, 40));
            }
        }
        rows
    }
}

/// Puts another item in the place of one.
fn put<T: Copy>(dice: &mut Dice, row: &mut [T], other: impl Fn(&mut Dice, T) -> T) {
    let place = dice.below(row.len() as u64) as usize;
    if let Some(item) = row.get_mut(place) {
        *item = other(dice, *item);
    }
}

/// Takes items off the end of a row, or all.
fn shorten<T>(dice: &mut Dice, row: &mut Vec<T>) {
    let most = dice.pick(&[1, 4, row.len() as u64]);
    row.truncate(row.len().saturating_sub(1 + dice.below(most) as usize));
}

/// A text cut into words and numbers.
#[derive(Clone, Debug, PartialEq, Eq)]
pub struct Cut {
    pub rows: Rows,
    /// Whether the rows say all that the text does: they are written as this very text.
    pub whole: bool,
}

/// Cuts any text, without the reader. A word that is none gets a code of no word, and so does that
/// of a line with a field that is no i64, which is left out.
pub fn cut(text: &[u8]) -> Cut {
    let (body, mut whole) = match text {
        [] => return Cut { rows: Rows::default(), whole: true },
        [body @ .., b'\n'] => (body, true),
        body => (body, false),
    };
    let mut rows = Rows::default();
    for line in body.split(|&byte| byte == b'\n') {
        let mut fields = line.split(|&byte| byte == b'\t');
        let mut code = code_of(fields.next().unwrap_or_default());
        let first = rows.numbers.len();
        for field in fields {
            let number = number_of(field);
            code = number.and(code);
            // `+1`, `01` and `-0` are taken for numbers, but not written so.
            whole &= number.is_some_and(|number| number.to_string().as_bytes() == field);
            rows.numbers.extend(number);
        }
        whole &= code.is_some();
        rows.words.push(code.unwrap_or(NO_WORD));
        rows.counts.push(rows.numbers.len() - first);
    }
    Cut { rows, whole }
}

/// The code of a word by its spelling.
fn code_of(word: &[u8]) -> Option<u8> {
    let place = WORDS.iter().position(|(spelling, _)| spelling.as_bytes() == word)?;
    Some(place as u8)
}

/// A field as any i64.
fn number_of(field: &[u8]) -> Option<i64> {
    std::str::from_utf8(field).ok()?.parse().ok()
}
