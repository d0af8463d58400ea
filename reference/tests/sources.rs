//! The reference program held to the figures of the source documents and of the format.
//!
//! The cases of `generate::sources` carry the figures; the examples that a source works out in its
//! text stand here once more, written out whole.

use reference::generate::{sources, text, Call, Directed};
use reference::{check, make, read, respond};
use std::collections::{BTreeMap, BTreeSet};

/// Every example that has cases, by its place in a source or its clause of the format.
const PLACES: [&str; 39] = [
    "000, example 6.1",
    "000, example 6.2",
    "000, example 6.3",
    "000, example 6.4",
    "001, footnote 3",
    "001, section 4",
    "002, footnote 3",
    "002, section 4",
    "003, example 1.1",
    "003, example 1.1 (b)",
    "003, example 1.5",
    "003, example 1.6",
    "003, examples 1.1 (a) and 1.4",
    "003, remark 3.5 (i)",
    "003, remark 3.5 (ii)",
    "003, section 1.3",
    "003, section 1.3.1",
    "004, (2.3)",
    "004, example 5.1",
    "004, step 11",
    "004, step 2",
    "FORMAT 8.15",
    "FORMAT 11.12",
    "FORMAT 12.1",
    "FORMAT 12.2",
    "FORMAT 12.3",
    "FORMAT 12.4",
    "FORMAT 12.5",
    "FORMAT 12.6",
    "FORMAT 12.7",
    "FORMAT 12.8",
    "FORMAT 12.9",
    "FORMAT 12.10",
    "FORMAT 12.11",
    "FORMAT 12.12",
    "FORMAT 12.13",
    "FORMAT 12.14",
    "FORMAT 12.15",
    "FORMAT 12.16",
];

/// The place of a case's example.
fn place(directed: &Directed) -> &str {
    directed.way.split(':').next().unwrap_or_default()
}

/// The cases that give a true table: its list, inputs and table.
fn true_tables() -> Vec<Directed> {
    let accepted = |directed: &Directed| directed.call == Call::Check && directed.reply == (0, 0);
    sources().into_iter().filter(accepted).collect()
}

/// What the program writes for a table.
fn written(table: &[u32]) -> Vec<u8> {
    let mut output = format!("table\t{}\n", table.len());
    for (cell, remainder) in table.iter().enumerate() {
        output += &format!("{cell}\t{remainder}\n");
    }
    output.into_bytes()
}

/// The reply to making, and the table afterwards; before, no cell is a remainder.
fn made(list: &[u8], inputs: &[i64]) -> ((u64, u64), Vec<u32>) {
    let cells = read(list).map_or(0, |counts| counts.cells as usize);
    let mut table = vec![u32::MAX; cells];
    (make(list, inputs, &mut table), table)
}

#[test]
fn every_example_has_cases() {
    let cases = sources();
    let mut counts: BTreeMap<&str, usize> = BTreeMap::new();
    for directed in &cases {
        *counts.entry(place(directed)).or_default() += 1;
    }
    for (place, count) in &counts {
        println!("{place}: {count}");
    }
    println!("{} cases, {} true tables", cases.len(), true_tables().len());
    let places: BTreeSet<&str> = counts.into_keys().collect();
    assert_eq!(places, PLACES.into_iter().collect());
}

#[test]
fn every_reply_is_the_one_of_the_page() {
    for directed in sources() {
        assert_eq!(directed.actual(), directed.reply, "{}", directed.way);
    }
}

/// p and the counts of values, cells and rows, where a page has them.
#[test]
fn every_count_is_the_one_of_the_page() {
    let cases = sources();
    let mut counted = 0;
    for directed in &cases {
        if let Some(counts) = directed.counts {
            assert_eq!(read(&directed.case.list), Ok(counts), "{}", directed.way);
            counted += 1;
        }
    }
    assert_eq!(counted, 7);
}

/// Making, and the program, write the page's table, figure for figure.
#[test]
fn true_tables_are_made() {
    for directed in true_tables() {
        let case = &directed.case;
        let (reply, table) = made(&case.list, &case.inputs);
        assert_eq!((reply, &table), ((0, 0), &case.table), "{}", directed.way);
        assert_eq!(respond(&case.stdin), written(&case.table), "{}", directed.way);
    }
}

/// The program replies what making does, and a refusal leaves the lent table as it was
/// (FORMAT 11.7, 9.8).
#[test]
fn refused_columns_change_nothing() {
    for directed in sources().iter().filter(|directed| directed.call == Call::Make) {
        let (case, (number, place)) = (&directed.case, directed.reply);
        if number != 0 {
            let (_, table) = made(&case.list, &case.inputs);
            assert!(table.iter().all(|&cell| cell == u32::MAX), "{}", directed.way);
            let refused = format!("refused\t{number}\t{place}\n");
            assert_eq!(respond(&case.stdin), refused.into_bytes(), "{}", directed.way);
        }
    }
}

/// The table of these inputs, which is made and accepted.
fn table(list: &str, inputs: &[i64]) -> Vec<u32> {
    let list = text(list);
    let (reply, table) = made(&list, inputs);
    assert_eq!(reply, (0, 0));
    assert_eq!(check(&list, &table), (0, 0));
    table
}

/// 000, example 6.1: a = -18 gives R-a = 15 and the digits 0, 3; a = 22 gives 76, digits 1, 0 and
/// q = 3, and (6.1) fails.
#[test]
fn range_check_from_above() {
    let list = "field 101;in;span 0 5 2 -27;sum -3 -1 0;span 1 5 2 0";
    assert_eq!(table(list, &[-18]), [83, 4, 1, 15, 0, 3]);
    assert_eq!(made(&text(list), &[22]).0, (18, 2));
    assert_eq!(check(&text("field 101;in;span 0 5 2 0"), &[76, 1, 0]), (15, 2));
}

/// 000, example 6.2: a = -18 gives S+a = 92, digit 2 and q = 9; a = -1 gives 8, digit 8.
#[test]
fn range_check_from_below() {
    let list = "field 101;in;span 0 10 1 -9;sum 9 1 0";
    assert_eq!(table(list, &[-1]), [100, 8, 8]);
    assert_eq!(made(&text(list), &[-18]).0, (18, 2));
    assert_eq!(check(&text(list), &[83, 2, 92]), (15, 1));
    let both = text("field 101;in;span 0 5 2 -27;span 0 10 1 -9");
    let accepted: Vec<i64> = (-50..=50).filter(|&a| made(&both, &[a]).0 == (0, 0)).collect();
    assert_eq!(accepted, [-9, -8, -7, -6, -5, -4, -3]);
}

/// 000, examples 6.3 and 6.4: a = -15 has the bits 1000 with RHS 8 for 24; a = -18 has the digits
/// 000, sign 0 and ReLU 0.
#[test]
fn relu_in_base_2_and_3() {
    let binary = text("field 31;in;relu 0 2 4");
    assert_eq!(made(&binary, &[-15]).0, (18, 2));
    assert_eq!(check(&binary, &[16, 16, 0, 0, 0, 1, 1, 0]), (15, 4));
    assert_eq!(table("field 31;in;relu 0 2 4", &[7]), [7, 7, 1, 1, 1, 1, 1, 0]);
    assert_eq!(table("field 37;in;relu 0 3 3", &[-18]), [19, 0, 0, 0, 0, 0, 18]);
    assert_eq!(table("field 37;in;relu 0 3 3", &[-1]), [36, 0, 2, 2, 1, 0, 36]);
    assert_eq!(table("field 37;in;relu 0 3 3", &[8]), [8, 8, 2, 2, 2, 1, 0]);
}

/// 003, example 1.1: the witness (7, 1, 1, 1, 0); 004, example 5.1: x = 200 and y = 14.
#[test]
fn witness_and_root() {
    assert_eq!(table("field 101;in;span 0 2 4 0", &[7]), [7, 1, 1, 1, 0]);
    let root = table("field 2147483647;in;root 0 10 3", &[200]);
    assert_eq!(root, [200, 14, 196, 0, 0, 2, 4, 1, 0, 4, 0, 0, 4, 2, 0]);
}
