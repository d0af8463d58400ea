//! The two services agree; and a case on which two services differ is found.

use compare::{
    all_lines, outcome, written, Comparison, Counts, Desk, Proved, Reference, Reply, Service,
};
use reference::generate::{cases, cut, directed, large, text, writings, Call, Case};

#[test]
fn directed_cases_agree_with_each_other_and_the_format() {
    let mut comparison = Comparison::default();
    for directed in directed() {
        let case = &directed.case;
        comparison.compare(&directed.way, case, &[case.line]);
        let proved = outcome::<Proved>(case, &[], &[]);
        let reply = match directed.call {
            Call::Read => proved.read,
            Call::Check => proved.check,
            Call::Make => proved.make,
            Call::Desk => proved.desk,
            Call::Program => {
                let mut output = vec![0; 65_547];
                let length = Proved::respond(&case.stdin, &mut output);
                replied(&output[..length])
            }
        };
        assert_eq!(reply, directed.reply, "{}", directed.way);
    }
    assert_eq!(comparison.tally.kept, [""; 0]);
}

/// The number and place in an answer; 0, 0 for a table.
fn replied(answer: &[u8]) -> Reply {
    let answer = String::from_utf8_lossy(answer);
    let fields: Vec<&str> = answer.split(['\t', '\n']).collect();
    let number = |place: usize| fields[place].parse().expect("a number");
    match fields[0] {
        "refused" => (number(1), number(2)),
        word => {
            assert_eq!(word, "table");
            (0, 0)
        }
    }
}

#[test]
fn large_and_drawn_cases_agree() {
    let mut comparison = Comparison::default();
    let case = large(7);
    comparison.compare("large", &case, &all_lines(&case));
    for case in cases(7, 20_000) {
        comparison.compare("seed 7", &case, &[case.line]);
    }
    assert_eq!(comparison.tally.kept, [""; 0]);
}

/// The reference, with one call changed.
struct Changed<const CALL: usize>;

impl<const CALL: usize> Service for Changed<CALL> {
    fn read(list: &[u8], counts: &mut Counts) -> Reply {
        let reply = Reference::read(list, counts);
        match CALL {
            0 if reply == (0, 0) => counts.swap(1, 2),
            7 if reply != (0, 0) => *counts = [0; 4],
            _ => {}
        }
        reply
    }

    fn check(list: &[u8], table: &[u32]) -> Reply {
        let reply = Reference::check(list, table);
        if CALL == 1 {
            (reply.0, reply.1 + 1)
        } else {
            reply
        }
    }

    fn make(list: &[u8], inputs: &[i64], table: &mut [u32]) -> Reply {
        let reply = Reference::make(list, inputs, table);
        if CALL == 2 {
            table[0] += 1;
        }
        reply
    }

    fn show<'a>(list: &[u8], table: &'a [u32], line: usize) -> &'a [u32] {
        let part = Reference::show(list, table, line);
        if CALL == 3 {
            &part[1..]
        } else {
            part
        }
    }

    fn desk(desk: &mut Desk, list: &[u8], table: &[u32]) -> Reply {
        let reply = Reference::desk(desk, list, table);
        if CALL == 4 {
            desk.swap(0, 1);
        }
        reply
    }

    fn respond(input: &[u8], output: &mut [u8]) -> usize {
        let length = Reference::respond(input, output);
        if CALL == 5 {
            output[length] = 0;
        }
        length
    }

    fn write(words: &[u8], counts: &[usize], numbers: &[i64], buffer: &mut [u8]) -> Reply {
        let (number, place) = Reference::write(words, counts, numbers, buffer);
        match CALL {
            // A byte too many, bytes in a buffer that is too short, another place, and a row that is not kept.
            8 if number == 0 => buffer[place as usize] = 0,
            9 if number == 21 => buffer[0] = b'f',
            10 => return (number, place + 1),
            11 => return Reference::write(words, &counts[1..], numbers, buffer),
            _ => {}
        }
        (number, place)
    }
}

#[test]
fn a_change_of_one_call_is_seen() {
    // An input that making refuses, and a table that checking refuses.
    let mut case = Case::about(text("field 31;in;relu 0 2 4"));
    case.inputs = vec![8];
    case.table[0] = 1;
    let right = outcome::<Reference>(&case, &[1], &[100]);
    assert_ne!(right, outcome::<Changed<0>>(&case, &[1], &[100]));
    assert_ne!(right, outcome::<Changed<1>>(&case, &[1], &[100]));
    assert_ne!(right, outcome::<Changed<2>>(&case, &[1], &[100]));
    assert_ne!(right, outcome::<Changed<3>>(&case, &[1], &[100]));
    assert_ne!(right, outcome::<Changed<4>>(&case, &[1], &[100]));
    assert_ne!(right, outcome::<Changed<5>>(&case, &[1], &[100]));
    assert_eq!(right, outcome::<Changed<6>>(&case, &[1], &[100]));
}

#[test]
fn zeros_written_by_a_refused_read_are_seen() {
    let case = Case::about(text("field 32;in"));
    let right = outcome::<Reference>(&case, &[], &[]);
    assert_eq!(right.read, (5, 0));
    assert_eq!(outcome::<Changed<7>>(&case, &[], &[]).differing(&right), ["read"]);
    assert_eq!(outcome::<Proved>(&case, &[], &[]), right);
}

#[test]
fn writings_agree_with_each_other_and_the_format() {
    let mut comparison = Comparison::default();
    for writing in writings() {
        comparison.compare_writing(&writing);
        let proved = written::<Proved>(&writing.rows, &[writing.room]);
        assert_eq!(proved.each[0].0, writing.reply, "{}", writing.way);
    }
    assert_eq!(comparison.tally.kept, [""; 0]);
}

#[test]
fn a_change_of_writing_is_seen() {
    let list = text("field 31;in;relu 0 2 4");
    let rows = cut(&list).rows;
    let rooms = [list.len() - 1, list.len() + 5];
    let right = written::<Reference>(&rows, &rooms);
    assert_eq!(written::<Proved>(&rows, &rooms), right);
    assert_eq!(written::<Changed<0>>(&rows, &rooms), right);
    assert_ne!(written::<Changed<8>>(&rows, &rooms), right);
    assert_ne!(written::<Changed<9>>(&rows, &rooms), right);
    assert_ne!(written::<Changed<10>>(&rows, &rooms), right);
    assert_ne!(written::<Changed<11>>(&rows, &rooms), right);
}

#[test]
fn a_reply_and_a_text_that_are_not_the_format_s_are_seen() {
    for writing in writings().into_iter().take(8) {
        let (mut other, mut longer) = (writing.clone(), writing.clone());
        other.reply.1 += 1;
        longer.text.push(b'\n');
        longer.room += 1;
        for wrong in [other, longer] {
            let mut comparison = Comparison::default();
            comparison.compare_writing(&wrong);
            // Of the proved service, and of the reference.
            assert_eq!(comparison.tally.differences, 2, "{}", writing.way);
        }
    }
    let case = Case::about(text("field 31;in"));
    let mut comparison = Comparison::default();
    comparison.write_list("as it is read", &case, (0, 0));
    assert_eq!(comparison.tally.differences, 0);
    comparison.write_list("as if it were refused", &case, (7, 1));
    assert_eq!(comparison.tally.differences, 2);
}
