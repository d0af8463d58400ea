//! Writing a list: lines that come as words and numbers become their text in a lent buffer. The
//! text is built, read by the reader, held against the buffer, and copied, in this order
//! (FORMAT 13.9).

use crate::plan::{Plan, MOST_BYTES};
use crate::Refusal;
use std::io::Write;

/// The words, each at the place that is its code (FORMAT 9.24).
const WORDS: [&[u8]; 8] = [b"field", b"in", b"span", b"sum", b"relu", b"which", b"max", b"root"];

/// Fills the buffer with the text of the lines and hands back its length (FORMAT 9.26). The bytes
/// after the text are left as they were, and by a refusal all are (FORMAT 9.27).
pub fn write(
    words: &[u8],
    counts: &[usize],
    numbers: &[i64],
    buffer: &mut [u8],
) -> Result<usize, Refusal> {
    let text = text(words, counts, numbers);
    Plan::read(&text)?;
    // The buffer is shorter than the text (FORMAT 10.21).
    let begin = buffer.get_mut(..text.len()).ok_or(Refusal::new(21, 0))?;
    begin.copy_from_slice(&text);
    Ok(text.len())
}

/// The text of the lines, one for each word (FORMAT 2.9, 9.23). One that is over the greatest
/// length is refused for it before any line is looked at, so it is not built to its end.
fn text(words: &[u8], counts: &[usize], numbers: &[i64]) -> Vec<u8> {
    let mut text = Vec::new();
    let mut left = numbers;
    for (line, &code) in words.iter().enumerate() {
        // A line for which there is no count has no numbers (FORMAT 9.25).
        let count = counts.get(line).copied().unwrap_or(0);
        match left.split_at_checked(count) {
            Some((own, after)) => {
                spell(code, own, &mut text);
                left = after;
            }
            // Fewer are left: no byte before byte 10, and none left for later lines (FORMAT 9.25).
            None => left = &[],
        }
        text.push(b'\n');
        if text.len() > MOST_BYTES {
            break;
        }
    }
    text
}

/// Adds the word, then each number with a tab before it (FORMAT 2.9). A code that no word has is
/// spelled by no byte (FORMAT 9.24).
fn spell(code: u8, numbers: &[i64], text: &mut Vec<u8>) {
    text.extend_from_slice(WORDS.get(usize::from(code)).copied().unwrap_or_default());
    for number in numbers {
        if text.len() > MOST_BYTES {
            break;
        }
        write!(text, "\t{number}").expect("a vector takes every byte");
    }
}

#[cfg(test)]
mod tests {
    use super::*;

    /// The text as it stands before it is read.
    fn spelled(words: &[u8], counts: &[usize], numbers: &[i64]) -> String {
        String::from_utf8(text(words, counts, numbers)).expect("words and numbers")
    }

    /// FORMAT 2.9, 9.24.
    #[test]
    fn words_and_numbers_in_their_one_spelling() {
        assert_eq!(
            spelled(&[0, 1, 2, 3, 4, 5, 6, 7], &[1, 0, 2], &[31, 0, -15]),
            "field\t31\nin\nspan\t0\t-15\nsum\nrelu\nwhich\nmax\nroot\n"
        );
        let ends = [i64::MIN, i64::MAX, -1, 0];
        assert_eq!(
            spelled(&[3], &[4], &ends),
            "sum\t-9223372036854775808\t9223372036854775807\t-1\t0\n"
        );
    }

    /// FORMAT 9.24.
    #[test]
    fn a_code_of_no_word_is_spelled_by_no_byte() {
        assert_eq!(spelled(&[8, 255], &[2], &[7, 8]), "\t7\t8\n\n");
    }

    /// FORMAT 9.25.
    #[test]
    fn too_few_numbers_are_spelled_by_no_byte_and_none_is_left() {
        assert_eq!(spelled(&[0, 4, 1, 3], &[1, 4, 0, 1], &[31, 0, 2, 4]), "field\t31\n\nin\n\n");
        assert_eq!(spelled(&[0, 0, 1], &[usize::MAX, usize::MAX], &[31]), "\n\nin\n");
    }

    /// FORMAT 9.23, 9.25.
    #[test]
    fn counts_and_numbers_past_the_last_line_are_not_looked_at() {
        assert_eq!(spelled(&[0], &[1, usize::MAX, 3], &[31, 5, 6]), "field\t31\n");
        assert_eq!(spelled(&[], &[1], &[31]), "");
    }

    /// Whatever is given, the text ends soon after it is too long.
    #[test]
    fn a_text_that_is_too_long_is_not_built_to_its_end() {
        let most = MOST_BYTES + 100;
        assert!(text(&vec![8; 10_000_000], &[], &[]).len() < most);
        assert!(text(&[3], &[1_000_000], &vec![i64::MIN; 1_000_000]).len() < most);
        assert!(text(&vec![3; 1_000_000], &vec![1; 1_000_000], &vec![0; 1_000_000]).len() < most);
    }
}
