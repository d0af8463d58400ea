//! The format's worked tables P1 to P11 and mistakes that tempt (chapter 12), and its example of the
//! program's output (FORMAT 11.12).

use reference::generate::text;
use reference::{check, make, read, respond, show, Counts};

const RELU: &str = "field 31;in;relu 0 2 4";

/// The reply and the table of making from these inputs.
fn made(list: &str, inputs: &[i64]) -> ((u64, u64), Vec<u32>) {
    let list = text(list);
    let cells = read(&list).expect("a readable list").cells as usize;
    let mut table = vec![77; cells];
    let reply = make(&list, inputs, &mut table);
    if reply == (0, 0) {
        assert_eq!(check(&list, &table), (0, 0));
    } else {
        assert_eq!(table, vec![77; cells], "a refusal leaves the table as it was");
    }
    (reply, table)
}

/// The table, where it is made.
fn table(list: &str, inputs: &[i64]) -> Vec<u32> {
    let (reply, table) = made(list, inputs);
    assert_eq!(reply, (0, 0));
    table
}

/// The refusal of a list, 0, 0 where it is read.
fn refusal(list: &str) -> (u64, u64) {
    read(&text(list)).map_or_else(|refusal| (refusal.number, refusal.place), |_| (0, 0))
}

/// FORMAT 12.1, 12.2, 12.3.
#[test]
fn p1_p2_p3_relu() {
    assert_eq!(table(RELU, &[-3]), [28, 0, 1, 0, 1, 0, 0, 30]);
    assert_eq!(table(RELU, &[5]), [5, 5, 1, 0, 1, 1, 1, 0]);
    assert_eq!(table(RELU, &[-8]), [23, 0, 0, 0, 0, 0, 0, 30]);
    let counts = Counts { p: 31, values: 2, cells: 8, rows: 9 };
    assert_eq!(read(&text(RELU)), Ok(counts));
}

/// FORMAT 12.4.
#[test]
fn p4_relu_false() {
    assert_eq!(made(RELU, &[8]).0, (18, 2));
    assert_eq!(made(RELU, &[-9]).0, (18, 2));
}

/// FORMAT 12.5, 12.6.
#[test]
fn p5_p6_rows_that_fail() {
    let mut p1 = table(RELU, &[-3]);
    p1[1] = 28;
    assert_eq!(check(&text(RELU), &p1), (15, 8));
    let mut p2 = table(RELU, &[5]);
    p2[7] = 1;
    assert_eq!(check(&text(RELU), &p2), (15, 7));
}

/// FORMAT 12.7.
#[test]
fn p7_root() {
    let root = "field 31;in;root 0 2 2";
    assert_eq!(table(root, &[3]), [3, 1, 1, 1, 1, 1, 0, 0, 1, 0, 0]);
    assert_eq!(made(root, &[4]).0, (18, 2));
    assert_eq!(refusal("field 31;in;root 0 2 1"), (10, 2));
}

/// FORMAT 12.8.
#[test]
fn p8_span() {
    let span = "field 101;in;span 0 5 2 -27";
    assert_eq!(table(span, &[-18]), [83, 4, 1]);
    assert_eq!(table(span, &[-27]), [74, 0, 0]);
    assert_eq!(table(span, &[-3]), [98, 4, 4]);
    assert_eq!(made(span, &[22]).0, (18, 2));
}

/// FORMAT 12.9.
#[test]
fn p9_spans_read_or_not() {
    assert_eq!(refusal("field 31;in;span 0 2 4 0"), (0, 0));
    assert_eq!(refusal("field 31;in;span 0 2 4 1"), (10, 2));
    assert_eq!(refusal("field 31;in;span 0 31 1 -15"), (0, 0));
    assert_eq!(refusal("field 31;in;span 0 2 5 -15"), (10, 2));
}

/// FORMAT 12.10.
#[test]
fn p10_max_and_which() {
    assert_eq!(refusal("field 31;in;in;max 0 1 2 3"), (10, 3));
    let spans = "field 31;in;in;span 0 2 3 0;span 1 2 3 0";
    let max = table(&format!("{spans};max 0 1 2 3"), &[3, 6]);
    assert_eq!(max, [3, 6, 1, 1, 0, 0, 1, 1, 6, 1, 1, 0, 0, 0, 0]);
    let which = table(&format!("{spans};which 0 1 2 4"), &[2, 2]);
    assert_eq!(which, [2, 2, 0, 1, 0, 0, 1, 0, 0, 0, 0, 0, 1, 1, 0]);
}

/// FORMAT 12.11.
#[test]
fn p11_sum_leaves() {
    assert_eq!(refusal("field 101;in;span 0 2 5 0;sum 0 2 0"), (11, 3));
}

/// 15 and -15 would pass with -15 if max were over unspanned values: such a list is not read
/// (FORMAT 12.13).
#[test]
fn mistakes_that_tempt() {
    assert_eq!(refusal("field 31;in;in;max 0 1 2 1"), (10, 3));
    // Cell 31 is not taken for 0 (FORMAT 12.14).
    assert_eq!(check(&text("field 31;in"), &[31]), (14, 0));
    // u ≥ v is tested on whole numbers (FORMAT 12.15): -1 is less than 0 though 30 is more than 0.
    let which = table("field 31;in;sum 0;which 0 1 2 4", &[-1]);
    assert_eq!(which[2], 1);
}

/// FORMAT 8.15.
#[test]
fn field_line_alone() {
    let list = text("field 31");
    assert_eq!(read(&list), Ok(Counts { p: 31, values: 0, cells: 0, rows: 0 }));
    assert_eq!(check(&list, &[]), (0, 0));
    assert_eq!(make(&list, &[], &mut []), (0, 0));
    assert_eq!(respond(&text("field 31;end")), b"table\t0\n");
}

/// FORMAT 11.12.
#[test]
fn program_example() {
    let output = respond(&text("field 31;in;relu 0 2 4;end;-3"));
    let lines = "table 8;0 28;1 0;2 1;3 0;4 1;5 0;6 0;7 30";
    assert_eq!(output, text(lines));
    let refused = respond(&text("field 31;in;relu 0 2 4;end;8"));
    assert_eq!(refused, b"refused\t18\t2\n");
}

/// FORMAT 9.9, 9.10.
#[test]
fn shown_lines() {
    let list = text(RELU);
    let table = table(RELU, &[-3]);
    assert_eq!(show(&list, &table, 0), []);
    assert_eq!(show(&list, &table, 1), [28]);
    assert_eq!(show(&list, &table, 2), [0, 1, 0, 1, 0, 0, 30]);
    assert_eq!(show(&list, &table, 3), []);
    assert_eq!(show(&list, &table[..7], 1), []);
    assert_eq!(show(b"", &table, 1), []);
}
