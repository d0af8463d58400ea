//! Writing a list: lines as words and numbers, in a lent buffer as text.

use crate::{calls, Refusal};

/// In a buffer of so many bytes every list has room (FORMAT 4.8).
pub const LONGEST_LIST: usize = 65_536;

/// The word of a line; as a number, its code (FORMAT 3.1, 9.24).
#[derive(Clone, Copy, Debug, PartialEq, Eq)]
#[repr(u8)]
pub enum Word {
    /// `field p`
    Field = 0,
    /// `in`
    In = 1,
    /// `span v b k L`
    Span = 2,
    /// `sum c0 c1 v1 c2 v2 ..`
    Sum = 3,
    /// `relu v b k`
    Relu = 4,
    /// `which u v b k`
    Which = 5,
    /// `max u v b k`
    Max = 6,
    /// `root v b k`
    Root = 7,
}

/// A line of a list: a word and its numbers, in their order.
#[derive(Clone, Copy, Debug, PartialEq, Eq)]
pub struct Line<'a> {
    /// The word.
    pub word: Word,
    /// The numbers after it.
    pub numbers: &'a [i64],
}

/// Writes the text of these lines at the start of a buffer and returns its length (FORMAT 9.26, 9.27). The bytes after it are as they
/// were. A refusal, 1 to 12 where a list with this text is refused, or 21 where the buffer is shorter than it, leaves all as they were.
pub fn write(lines: &[Line], buffer: &mut [u8]) -> Result<usize, Refusal> {
    let words: Vec<u8> = lines.iter().map(|line| line.word as u8).collect();
    let counts: Vec<usize> = lines.iter().map(|line| line.numbers.len()).collect();
    let numbers: Vec<i64> = lines.iter().flat_map(|line| line.numbers).copied().collect();
    write_rows(&words, &counts, &numbers, buffer)
}

/// The same for lines that stand in three rows (FORMAT 9.23): the code of each word, how many numbers each line has, and the numbers of
/// all lines one after another. Any codes and counts may be given: a line with a code of no word, or with more numbers than are left, is
/// refused 3 (FORMAT 9.24, 9.25).
pub fn write_rows(
    words: &[u8],
    counts: &[usize],
    numbers: &[i64],
    buffer: &mut [u8],
) -> Result<usize, Refusal> {
    let mut place = 0;
    // SAFETY: the slices are there for the call, `buffer` is borrowed for it alone, and the place is apart from them.
    let number = unsafe {
        calls::digit_table_write(
            words.as_ptr(),
            words.len(),
            counts.as_ptr(),
            counts.len(),
            numbers.as_ptr(),
            numbers.len(),
            buffer.as_mut_ptr(),
            buffer.len(),
            &mut place,
        )
    };
    // Where nothing is refused the place is the length.
    match number {
        0 => Ok(place),
        _ => Err(Refusal { number, place }),
    }
}
