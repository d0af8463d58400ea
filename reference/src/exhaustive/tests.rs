//! The reference's own checker on every table of the small lists (FORMAT 8.11).

use super::{families, mixes, SmallList};

/// Lists with more tables than this are left out.
const MOST: u64 = 6_000_000;

/// Tries every table of the list; hands back how many there are.
fn try_every_table(small: &SmallList) -> u64 {
    let allowed = small.true_tables();
    let written = String::from_utf8_lossy(&small.list);
    let (mut tried, mut accepted) = (0, 0);
    small.every_table(&vec![small.p() - 1; small.cells()], |table| {
        tried += 1;
        if small.check(table) == (0, 0) {
            assert!(allowed.contains(table), "{written:?} {table:?}");
            accepted += 1;
        }
    });
    // All accepted ones are true tables, each met once; so equal counts leave none out.
    assert_eq!(accepted, allowed.len(), "{written:?}");
    tried
}

/// Tries every table of the lists of every family of this gadget.
fn try_families(gadget: &str) {
    for family in families().iter().filter(|family| family.gadget == gadget) {
        let lists = family.lists(MOST);
        assert!(lists.len() > family.least, "{gadget}: {}", lists.len());
        lists.iter().for_each(|list| {
            try_every_table(list);
        });
    }
}

#[test]
fn inputs() {
    try_families("in");
}

#[test]
fn spans() {
    try_families("span");
}

#[test]
fn sums() {
    try_families("sum");
}

#[test]
fn relus() {
    try_families("relu");
}

#[test]
fn whiches() {
    try_families("which");
}

#[test]
fn maxes() {
    try_families("max");
}

/// No root is read below p = 17; there its smallest list has seven cells.
#[test]
fn smallest_root() {
    let root = |p| SmallList::written("root", &format!("field {p};in;root 0 3 1"));
    assert!([3, 5, 7, 11, 13].into_iter().all(|p| root(p).is_none()));
    assert_eq!(root(17).map(|list| try_every_table(&list)), Some(17u64.pow(7)));
}

#[test]
fn mixes_by_chance() {
    let lists = mixes(300_000);
    assert!(lists.len() > 300, "{}", lists.len());
    lists.iter().for_each(|list| {
        try_every_table(list);
    });
}

/// Every table near a true one is met once, as often as the choices of cells and remainders say.
#[test]
fn near_tables_are_counted() {
    let list = SmallList::written("span", "field 5;in;span 0 2 2 -2").expect("a readable list");
    let mut met = 0;
    list.near_tables(2, |_| met += 1);
    // Of the columns -2 to 2 the last is off; three cells, of which none, one or two are changed.
    assert_eq!(met, 4 * (1 + 3 * 4 + 3 * 4 * 4));
}
