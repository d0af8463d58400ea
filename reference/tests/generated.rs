//! What must hold for every generated case, and how much the generator reaches.

use reference::generate::{cases, directed, large, program_text, Call, Case};
use reference::{check, make, read, respond, show, Desk};
use std::collections::{BTreeMap, BTreeSet};

const SEED: u64 = 2024;
const BUDGET: u64 = 12_000;

/// The column that stands in a table's input cells (FORMAT 8.10), and the table made from it.
fn remade(case: &Case, p: u64) -> Option<Vec<u32>> {
    let lines: Vec<&[u8]> = case.list.split(|&byte| byte == b'\n').collect();
    let is_in = |line: &usize| lines[*line] == b"in";
    let cells = (0..lines.len()).filter(is_in).map(|line| show(&case.list, &case.table, line)[0]);
    let signed = |cell: u32| {
        let cell = i64::from(cell);
        if cell <= (p as i64 - 1) / 2 {
            cell
        } else {
            cell - p as i64
        }
    };
    let column: Vec<i64> = cells.map(signed).collect();
    let mut table = vec![0; case.table.len()];
    (make(&case.list, &column, &mut table) == (0, 0)).then_some(table)
}

#[test]
fn directed_cases_give_their_replies() {
    for directed in directed() {
        let (way, list) = (&directed.way, String::from_utf8_lossy(&directed.case.list));
        let list: String = list.chars().take(300).collect();
        assert_eq!(directed.actual(), directed.reply, "{way}\n{list:?}");
    }
}

#[test]
fn directed_cases_reach_every_refusal() {
    println!("{} directed cases", directed().len());
    let reached: BTreeSet<u64> = directed().iter().map(|directed| directed.reply.0).collect();
    assert_eq!(reached, (0..=20).collect());
    let all = directed();
    assert_eq!(all.iter().filter(|case| case.way == "the true table").count(), 11);
    // Every row of each list with all lines is the first to fail in some case.
    let mut rows: BTreeMap<&[u8], BTreeSet<u64>> = BTreeMap::new();
    for case in all.iter().filter(|case| case.way.starts_with("row ")) {
        assert_eq!((case.call, case.reply.0), (Call::Check, 15));
        rows.entry(&case.case.list).or_default().insert(case.reply.1);
    }
    assert_eq!(rows.len(), 2);
    for (list, rows) in rows {
        let counts = read(list).expect("a readable list");
        assert_eq!(rows, (0..counts.rows).collect());
    }
}

/// The replies of all calls on a case.
fn replies(case: &Case) -> Vec<(&'static str, u64)> {
    let read = read(&case.list).map_or_else(|refusal| refusal.number, |_| 0);
    let make = make(&case.list, &case.inputs, &mut case.table.clone()).0;
    let mut desk = case.desk;
    let desk = desk.call(&case.list, &case.table).0;
    let output = respond(&case.stdin);
    let fields: Vec<&[u8]> = output.split(|&byte| byte == b'\t' || byte == b'\n').collect();
    let program = match fields[0] {
        b"refused" => String::from_utf8_lossy(fields[1]).parse().expect("a number"),
        _ => 0,
    };
    let check = check(&case.list, &case.table).0;
    vec![("read", read), ("check", check), ("make", make), ("desk", desk), ("program", program)]
}

#[test]
fn chance_reaches_every_refusal() {
    let mut counts: BTreeMap<(&str, u64), u64> = BTreeMap::new();
    for case in cases(SEED, BUDGET) {
        for reply in replies(&case) {
            *counts.entry(reply).or_default() += 1;
        }
    }
    for (reply, count) in &counts {
        println!("{reply:?}: {count}");
    }
    let of = |call: &'static str| -> BTreeSet<u64> {
        counts.keys().filter(|key| key.0 == call).map(|key| key.1).collect()
    };
    assert_eq!(of("read"), (0..=12).collect());
    assert_eq!(of("check"), (0..=15).collect());
    assert_eq!(of("desk"), (0..=15).chain([19, 20]).collect());
    assert_eq!(of("make"), (0..=13).chain(16..=18).collect());
    assert_eq!(of("program"), (0..=12).chain(16..=18).collect());
    // A good share is read, made and accepted.
    assert!(counts[&("read", 0)] > BUDGET / 2);
    assert!(counts[&("make", 0)] > BUDGET / 5);
    assert!(counts[&("check", 0)] > BUDGET / 10);
}

/// FORMAT 8.11: a table of the right length with all cells below p is accepted exactly when it is
/// the true table of its own input cells.
#[test]
fn accepted_exactly_when_true() {
    for case in cases(SEED + 1, BUDGET) {
        let reply = check(&case.list, &case.table);
        if reply.0 == 0 || reply.0 == 15 {
            let p = read(&case.list).expect("checked, so read").p;
            let is_true = remade(&case, p).as_ref() == Some(&case.table);
            assert_eq!(reply.0 == 0, is_true, "{case:?}");
        }
    }
}

/// FORMAT 8.13, 9.8.
#[test]
fn made_tables_are_accepted_and_refusals_change_nothing() {
    for case in cases(SEED + 2, BUDGET) {
        let mut table = case.table.clone();
        match make(&case.list, &case.inputs, &mut table) {
            (0, 0) => assert_eq!(check(&case.list, &table), (0, 0), "{case:?}"),
            _ => assert_eq!(table, case.table, "{case:?}"),
        }
    }
}

/// A made table with one cell changed is refused, unless that cell is an input's and the rest
/// does not depend on it: then it is the true table of another column (FORMAT 8.14).
#[test]
fn one_changed_cell() {
    for case in cases(SEED + 3, BUDGET / 10) {
        let mut made = case.clone();
        if make(&case.list, &case.inputs, &mut made.table) != (0, 0) || made.table.len() > 60 {
            continue;
        }
        let p = read(&case.list).expect("made, so read").p;
        for cell in 0..made.table.len() {
            for step in [1, 2, p - 1, p / 2] {
                let mut changed = made.clone();
                changed.table[cell] = ((u64::from(made.table[cell]) + step) % p) as u32;
                let accepted = check(&changed.list, &changed.table) == (0, 0);
                let same = changed.table == made.table;
                let is_true = remade(&changed, p).as_ref() == Some(&changed.table);
                assert_eq!(accepted, same || is_true, "{changed:?}");
            }
        }
    }
}

/// FORMAT 9.9, 9.10.
#[test]
fn shown_stretches_make_up_the_table() {
    for case in cases(SEED + 4, BUDGET / 4) {
        let fits = read(&case.list).is_ok_and(|counts| counts.cells == case.table.len() as u64);
        let lines = case.list.iter().filter(|&&byte| byte == b'\n').count();
        // Each call reads the whole list, so the longest lists are left out here.
        if lines > 100 {
            continue;
        }
        let mut next = 0;
        for line in 0..lines + 2 {
            let shown = show(&case.list, &case.table, line);
            if !shown.is_empty() {
                // The very cells of the caller's table, not a copy of them.
                assert_eq!(shown.as_ptr(), case.table[next..].as_ptr());
                next += shown.len();
            }
        }
        assert_eq!(next, if fits { case.table.len() } else { 0 });
        assert!(show(&case.list, &case.table, usize::MAX).is_empty());
    }
}

/// FORMAT 9.12, 9.13.
#[test]
fn desk_counts() {
    let mut desk = Desk::fresh();
    let (mut accepted, mut refused) = (0, 0);
    for case in cases(SEED + 5, BUDGET / 4) {
        let reply = check(&case.list, &case.table);
        assert_eq!(desk.call(&case.list, &case.table), reply);
        accepted += u64::from(reply.0 == 0);
        refused += u64::from(reply.0 != 0);
        assert_eq!(desk, Desk { heard: accepted + refused, accepted, refused });
        let mut other = case.desk;
        if other.call(&case.list, &case.table).0 > 15 {
            assert_eq!(other, case.desk);
        } else {
            assert_eq!(other.heard, case.desk.heard + 1);
        }
    }
}

/// The program writes what making gives for the same list and inputs (FORMAT 11.7).
#[test]
fn program_agrees_with_making() {
    for case in cases(SEED + 6, BUDGET / 2) {
        let Ok(counts) = read(&case.list) else { continue };
        let size = |input: &i64| input.unsigned_abs() <= 2_147_483_647;
        let stdin = program_text(&case.list, &case.inputs);
        if !case.inputs.iter().all(size) || stdin.len() > 65_536 {
            continue;
        }
        let mut table = vec![0; counts.cells as usize];
        let (number, place) = make(&case.list, &case.inputs, &mut table);
        let mut expected = format!("refused\t{number}\t{place}\n");
        if number == 0 {
            expected = format!("table\t{}\n", table.len());
            for (cell, remainder) in table.iter().enumerate() {
                expected += &format!("{cell}\t{remainder}\n");
            }
        }
        assert_eq!(respond(&stdin), expected.into_bytes());
    }
}

#[test]
fn large_cases_are_large_and_true() {
    for seed in 0..3 {
        let case = large(seed);
        let counts = read(&case.list).expect("a readable list");
        assert!(counts.cells > 3_900 && counts.values > 200, "{counts:?}");
        assert_eq!(check(&case.list, &case.table), (0, 0));
    }
}

#[test]
fn the_same_seed_gives_the_same_cases() {
    assert!(cases(7, 200).eq(cases(7, 200)));
    assert!(!cases(7, 200).eq(cases(8, 200)));
}
