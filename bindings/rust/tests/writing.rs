//! Writing (FORMAT 9.23 to 9.28): lines that are written are read back, refused ones leave the buffer as it was, and any rows may be given.

use digit_table::{read, write, write_rows, Counts, Line, Refusal, Word, LONGEST_LIST};

const P1: &[u8] = b"field\t31\nin\nrelu\t0\t2\t4\n";

fn p1() -> [Line<'static>; 3] {
    [line(Word::Field, &[31]), line(Word::In, &[]), line(Word::Relu, &[0, 2, 4])]
}

fn line(word: Word, numbers: &[i64]) -> Line<'_> {
    Line { word, numbers }
}

fn refused(number: u32, place: usize) -> Result<usize, Refusal> {
    Err(Refusal { number, place })
}

#[test]
fn p1_is_written_and_read_back() {
    for room in [P1.len(), P1.len() + 1, 100] {
        let mut buffer = vec![7; room];
        assert_eq!(write(&p1(), &mut buffer), Ok(P1.len()));
        let (begin, rest) = buffer.split_at(P1.len());
        assert_eq!(begin, P1);
        assert!(rest.iter().all(|&byte| byte == 7));
        assert_eq!(read(begin), Ok(Counts { p: 31, values: 2, cells: 8, rows: 9 }));
    }
}

#[test]
fn a_buffer_that_is_too_short_is_left_as_it_was() {
    for room in 0..P1.len() {
        let mut buffer = vec![7; room];
        assert_eq!(write(&p1(), &mut buffer), refused(21, 0));
        assert_eq!(buffer, vec![7; room]);
    }
}

#[test]
fn every_word_is_written_by_its_spelling() {
    let lines = [
        line(Word::Field, &[101]),
        line(Word::In, &[]),
        line(Word::In, &[]),
        line(Word::Span, &[0, 2, 3, -4]),
        line(Word::Span, &[1, 2, 3, -4]),
        line(Word::Sum, &[-7, 1, 0, -1, 1]),
        line(Word::Relu, &[2, 2, 6]),
        line(Word::Which, &[0, 1, 2, 4]),
        line(Word::Max, &[0, 1, 2, 4]),
        line(Word::Root, &[0, 2, 2]),
    ];
    let text = "field 101;in;in;span 0 2 3 -4;span 1 2 3 -4;sum -7 1 0 -1 1;relu 2 2 6;\
                which 0 1 2 4;max 0 1 2 4;root 0 2 2;";
    let text = text.replace(' ', "\t").replace(';', "\n");
    let mut buffer = vec![7; LONGEST_LIST];
    assert_eq!(write(&lines, &mut buffer), Ok(text.len()));
    assert_eq!(&buffer[..text.len()], text.as_bytes());
}

#[test]
fn lines_whose_text_is_refused_get_that_refusal_in_any_buffer() {
    let [field, input, _] = p1();
    let cases: [(&[Line], (u32, usize)); 8] = [
        (&[], (2, 0)),
        (&[field, line(Word::In, &[1])], (3, 1)),
        (&[field, line(Word::Sum, &[2_147_483_648])], (3, 1)),
        (&[input], (4, 0)),
        (&[line(Word::Field, &[32])], (5, 0)),
        (&[field, input, line(Word::Relu, &[0, 1, 4])], (6, 2)),
        (&[field, input, line(Word::Relu, &[1, 2, 4])], (7, 2)),
        (&[field, input, line(Word::Span, &[0, 2, 4, 1])], (10, 2)),
    ];
    for (lines, (number, place)) in cases {
        for room in [0, 100] {
            let mut buffer = vec![7; room];
            assert_eq!(write(lines, &mut buffer), refused(number, place));
            assert_eq!(buffer, vec![7; room]);
        }
    }
    let long = vec![input; LONGEST_LIST / 3 + 1];
    assert_eq!(write(&long, &mut []), refused(1, 0));
}

/// Words, counts and numbers.
type Rows = (&'static [u8], &'static [usize], &'static [i64]);

#[test]
fn any_rows_are_answered() {
    const MOST: usize = usize::MAX;
    let cases: [(Rows, Result<usize, Refusal>); 9] = [
        ((&[0, 1, 4], &[1, 0, 3], &[31, 0, 2, 4]), Ok(23)),
        ((&[0, 1, 4], &[1, 0, 3, MOST], &[31, 0, 2, 4, i64::MIN]), Ok(23)),
        ((&[0, 1], &[1], &[31]), Ok(12)),
        ((&[], &[1], &[31]), refused(2, 0)),
        ((&[0, 8], &[1, 0], &[31]), refused(3, 1)),
        ((&[0, 255], &[1], &[31]), refused(3, 1)),
        ((&[0, 1, 4], &[1, 0, 4], &[31, 0, 2, 4]), refused(3, 2)),
        ((&[0, 1, 4], &[1, MOST, MOST], &[31, 0, 2, 4]), refused(3, 1)),
        ((&[0], &[1], &[i64::MIN]), refused(3, 0)),
    ];
    for ((words, counts, numbers), reply) in cases {
        assert_eq!(write_rows(words, counts, numbers, &mut [7; 23]), reply);
    }
}
