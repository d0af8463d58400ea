//! Small lists, of which every table can be tried: a checker must accept exactly the true tables
//! of their columns (FORMAT 8.11), which are had by making the table of every column.
//!
//! The tests try the reference's own checker on them; the comparison tries the proved one.

mod families;
#[cfg(test)]
mod tests;

pub use families::{families, mixes, Family};

use crate::check::check;
use crate::generate::text;
use crate::plan::Plan;
use crate::work::make;
use std::collections::BTreeSet;

/// A list that is read, with few enough cells to count through its tables.
pub struct SmallList {
    /// What the list is about: the word of its lines, or `mix`.
    pub gadget: &'static str,
    pub list: Vec<u8>,
    plan: Plan,
}

impl SmallList {
    /// The list as `text` takes it, where it is read.
    pub fn written(gadget: &'static str, lines: &str) -> Option<SmallList> {
        SmallList::read(gadget, text(lines))
    }

    /// The list, where it is read.
    pub fn read(gadget: &'static str, list: Vec<u8>) -> Option<SmallList> {
        let plan = Plan::read(&list).ok()?;
        Some(SmallList { gadget, list, plan })
    }

    /// The prime of the list.
    pub fn p(&self) -> u32 {
        self.plan.p as u32
    }

    /// How many cells its tables have.
    pub fn cells(&self) -> usize {
        self.plan.cells
    }

    /// How many tables there are with so many remainders to each cell; None if they are far too
    /// many.
    pub fn table_count(&self, remainders: u32) -> Option<u64> {
        u64::from(remainders).checked_pow(self.plan.cells as u32)
    }

    /// The reply of checking, as `crate::check` gives it for this list.
    pub fn check(&self, table: &[u32]) -> (u64, u64) {
        crate::reply(check(&self.plan, table))
    }

    /// The true tables of all columns in -M..M.
    pub fn true_tables(&self) -> BTreeSet<Vec<u32>> {
        let m = (self.plan.p - 1) / 2;
        let mut column = vec![-m; self.plan.inputs];
        let mut tables = BTreeSet::new();
        loop {
            let mut table = vec![0; self.plan.cells];
            if make(&self.plan, &column, &mut table).is_ok() {
                tables.insert(table);
            }
            if !step(&mut column, |_| (-m, m)) {
                return tables;
            }
        }
    }

    /// Visits every table whose cells are at most these.
    pub fn every_table(&self, highest: &[u32], mut visit: impl FnMut(&[u32])) {
        let mut table = vec![0; self.plan.cells];
        loop {
            visit(&table);
            if !step(&mut table, |cell| (0, highest[cell])) {
                return;
            }
        }
    }

    /// Visits every table that differs from a true one in so many cells at most, all below p; for
    /// each true one, each such table once.
    pub fn near_tables(&self, changes: usize, mut visit: impl FnMut(&[u32])) {
        for mut table in self.true_tables() {
            change(&mut table, 0, changes, self.p(), &mut visit);
        }
    }
}

/// Visits the table, and all that differ from it from this cell on in so many cells at most.
fn change(table: &mut [u32], from: usize, changes: usize, p: u32, visit: &mut impl FnMut(&[u32])) {
    visit(table);
    if changes == 0 {
        return;
    }
    for cell in from..table.len() {
        let kept = table[cell];
        for other in (0..p).filter(|&other| other != kept) {
            table[cell] = other;
            change(table, cell + 1, changes - 1, p, visit);
        }
        table[cell] = kept;
    }
}

/// The next column or table in the order of counting, each place between its ends; false after
/// the last.
fn step<N: Copy + PartialOrd + std::ops::AddAssign + From<u8>>(
    row: &mut [N],
    ends: impl Fn(usize) -> (N, N),
) -> bool {
    for (index, place) in row.iter_mut().enumerate() {
        let (low, high) = ends(index);
        if *place < high {
            *place += N::from(1);
            return true;
        }
        *place = low;
    }
    false
}
