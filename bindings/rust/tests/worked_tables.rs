//! The worked tables P1 to P11 (FORMAT 12.1 to 12.11), and what the calls do with arguments that fit nothing.

use digit_table::{
    check, make, read, read_into, respond, respond_into, show, Counts, Desk, Refusal,
};

const RELU: &str = "field 31;in;relu 0 2 4";

/// A list from the document's way of writing: a blank for each tab, a semicolon between lines.
fn text(lines: &str) -> Vec<u8> {
    format!("{lines}\n").replace(' ', "\t").replace(';', "\n").into_bytes()
}

fn refused<A>(number: u32, place: usize) -> Result<A, Refusal> {
    Err(Refusal { number, place })
}

/// What making replies, and its table: accepted where it is made, and untouched where not.
fn made(lines: &str, inputs: &[i64]) -> Result<Vec<u32>, Refusal> {
    let list = text(lines);
    let cells = read(&list)?.cells;
    let mut table = vec![77; cells];
    let reply = make(&list, inputs, &mut table);
    if reply.is_ok() {
        assert_eq!(check(&list, &table), Ok(()));
    } else {
        assert_eq!(table, vec![77; cells]);
    }
    reply.map(|()| table)
}

#[test]
fn p1_p2_p3_relu() {
    assert_eq!(read(&text(RELU)), Ok(Counts { p: 31, values: 2, cells: 8, rows: 9 }));
    assert_eq!(made(RELU, &[-3]), Ok(vec![28, 0, 1, 0, 1, 0, 0, 30]));
    assert_eq!(made(RELU, &[5]), Ok(vec![5, 5, 1, 0, 1, 1, 1, 0]));
    assert_eq!(made(RELU, &[-8]), Ok(vec![23, 0, 0, 0, 0, 0, 0, 30]));
}

#[test]
fn p4_statements_that_are_false() {
    assert_eq!(made(RELU, &[8]), refused(18, 2));
    assert_eq!(made(RELU, &[-9]), refused(18, 2));
}

#[test]
fn p5_p6_rows_that_fail() {
    assert_eq!(check(&text(RELU), &[28, 28, 1, 0, 1, 0, 0, 30]), refused(15, 8));
    assert_eq!(check(&text(RELU), &[5, 5, 1, 0, 1, 1, 1, 1]), refused(15, 7));
}

#[test]
fn p7_root() {
    let root = "field 31;in;root 0 2 2";
    assert_eq!(made(root, &[3]), Ok(vec![3, 1, 1, 1, 1, 1, 0, 0, 1, 0, 0]));
    assert_eq!(made(root, &[4]), refused(18, 2));
    assert_eq!(read(&text("field 31;in;root 0 2 1")), refused(10, 2));
}

#[test]
fn p8_span() {
    let span = "field 101;in;span 0 5 2 -27";
    assert_eq!(made(span, &[-18]), Ok(vec![83, 4, 1]));
    assert_eq!(made(span, &[-27]), Ok(vec![74, 0, 0]));
    assert_eq!(made(span, &[-3]), Ok(vec![98, 4, 4]));
    assert_eq!(made(span, &[22]), refused(18, 2));
}

#[test]
fn p9_the_digit_rule() {
    assert!(read(&text("field 31;in;span 0 2 4 0")).is_ok());
    assert_eq!(read(&text("field 31;in;span 0 2 4 1")), refused(10, 2));
    assert!(read(&text("field 31;in;span 0 31 1 -15")).is_ok());
    assert_eq!(read(&text("field 31;in;span 0 2 5 -15")), refused(10, 2));
}

#[test]
fn p10_max_and_which() {
    assert_eq!(read(&text("field 31;in;in;max 0 1 2 3")), refused(10, 3));
    let spans = "field 31;in;in;span 0 2 3 0;span 1 2 3 0";
    let max = made(&format!("{spans};max 0 1 2 3"), &[3, 6]);
    assert_eq!(max, Ok(vec![3, 6, 1, 1, 0, 0, 1, 1, 6, 1, 1, 0, 0, 0, 0]));
    let which = made(&format!("{spans};which 0 1 2 4"), &[2, 2]);
    assert_eq!(which, Ok(vec![2, 2, 0, 1, 0, 0, 1, 0, 0, 0, 0, 0, 1, 1, 0]));
}

#[test]
fn p11_sum_that_leaves_the_range() {
    assert_eq!(read(&text("field 101;in;span 0 2 5 0;sum 0 2 0")), refused(11, 3));
}

#[test]
fn a_refused_read_leaves_the_counts_as_they_were() {
    let before = Counts { p: 101, values: 102, cells: 103, rows: 104 };
    let mut counts = before;
    assert_eq!(read_into(&text("field 31;in;root 0 2 1"), &mut counts), refused(10, 2));
    assert_eq!(counts, before);
    assert_eq!(read_into(&text(RELU), &mut counts), Ok(()));
    assert_eq!(counts, Counts { p: 31, values: 2, cells: 8, rows: 9 });
}

#[test]
fn a_shown_line_is_a_part_of_the_caller_s_slice() {
    let list = text(RELU);
    let table = made(RELU, &[-3]).expect("P1 is made");
    assert!(std::ptr::eq(show(&list, &table, 1), &table[0..1]));
    assert!(std::ptr::eq(show(&list, &table, 2), &table[1..8]));
    for (list, table, line) in [(&list, &table[..], 0), (&list, &table, 3), (&list, &table[1..], 1)]
    {
        assert!(show(list, table, line).is_empty());
    }
    assert!(show(b"", &table, 1).is_empty());
    assert!(show(&list, &vec![0; 100_000], 1).is_empty());
    assert!(show(&list, &table, usize::MAX).is_empty());
}

#[test]
fn a_desk_counts() {
    let list = text(RELU);
    let mut desk = Desk::fresh();
    assert_eq!(desk.call(&list, &[28, 0, 1, 0, 1, 0, 0, 30]), Ok(()));
    assert_eq!(desk.call(&list, &[28, 28, 1, 0, 1, 0, 0, 30]), refused(15, 8));
    assert_eq!(desk.call(b"", &[]), refused(2, 0));
    assert_eq!(desk, Desk { heard: 3, accepted: 1, refused: 2 });
}

#[test]
fn a_damaged_or_full_desk_stays_as_it_is() {
    let list = text(RELU);
    for (before, number) in [
        (Desk { heard: 0, accepted: 1 << 63, refused: 1 << 63 }, 19),
        (Desk { heard: u64::MAX, accepted: 1, refused: 1 }, 19),
        (Desk { heard: u64::MAX, accepted: u64::MAX, refused: 0 }, 20),
    ] {
        let mut desk = before;
        assert_eq!(desk.call(&list, &[]), refused(number, 0));
        assert_eq!(desk, before);
    }
}

#[test]
fn the_program_s_answers() {
    let p1 = text("field 31;in;relu 0 2 4;end;-3");
    let answer = text("table 8;0 28;1 0;2 1;3 0;4 1;5 0;6 0;7 30");
    assert_eq!(respond(&p1), answer);
    assert_eq!(respond(&text("field 31;in;relu 0 2 4;end;8")), text("refused 18 2"));
    assert_eq!(respond(b""), text("refused 2 0"));
    for room in [0, answer.len() - 1, answer.len(), answer.len() + 9] {
        let mut output = vec![7; room];
        let fits = answer.len() <= room;
        assert_eq!(respond_into(&p1, &mut output), if fits { answer.len() } else { 0 });
        let (begin, rest) = output.split_at(if fits { answer.len() } else { 0 });
        assert_eq!(begin, &answer[..begin.len()]);
        assert!(rest.iter().all(|&byte| byte == 7));
    }
}

#[test]
fn any_arguments_are_answered() {
    assert_eq!(read(&[]), refused(2, 0));
    assert_eq!(read(&vec![b'\n'; 65_537]), refused(1, 0));
    assert_eq!(read(&[0xff; 9]), refused(2, 0));
    assert_eq!(check(&text("field 31"), &[]), Ok(()));
    assert_eq!(check(&text("field 31;in"), &[31]), refused(14, 0));
    assert_eq!(make(&text("field 31"), &[], &mut []), Ok(()));
    assert_eq!(make(&text("field 31;in"), &[], &mut [0]), refused(16, 0));
    assert_eq!(make(&text("field 31;in"), &[i64::MIN], &mut [0]), refused(17, 0));
    assert_eq!(make(&text("field 31;in"), &[0], &mut []), refused(13, 0));
}

#[test]
fn the_program_answers_the_nine_lines_of_p1() {
    let input = b"field\t31\nin\nrelu\t0\t2\t4\nend\n-3\n";
    let nine = b"table\t8\n0\t28\n1\t0\n2\t1\n3\t0\n4\t1\n5\t0\n6\t0\n7\t30\n";
    assert_eq!(digit_table::respond(input), nine);
    assert_eq!(digit_table::respond(&[b'\n'; 65_537]), b"refused\t1\t0\n");
    assert_eq!(digit_table::respond(b"field\t31\nin\nend\n1\n+1\n"), b"refused\t3\t4\n");
}
