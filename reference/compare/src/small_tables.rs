//! Every table of small lists: the service accepts a table exactly when it is the true table of its own inputs, and its reply is the
//! reference's. The true tables are had without checking: by making the table of every column.

use crate::{Reply, Service, Tally};
use reference::exhaustive::{families, mixes, SmallList};
use reference::generate::Dice;
use std::collections::BTreeSet;

/// Of each family, all lists with at most so many tables are tried.
const FEW: u64 = 40_000;
/// Of those with at most so many, some are tried: of each p and count of cells as many as have together so many tables, and one at least.
const MANY: u64 = 6_000_000;
const TOGETHER: u64 = 400_000;
/// Mixes with more tables than this are left out.
const MOST_MIXED: u64 = 100_000;
/// Where a list has so few tables when each cell may be p as well, these are tried too.
const MOST_BEYOND: u64 = 20_000;

/// The tables of a list that are tried.
#[derive(Clone, Copy, Debug, PartialEq, Eq)]
enum Tables {
    /// Every table whose cells are at most this.
    UpTo(u32),
    /// Root: any remainder for v, y and q, and each digit from 0 to b, which is one too many.
    DigitsUpTo(u32),
    /// Every table that differs from a true one in so many cells at most.
    Near(usize),
}

/// A list, and which of its tables are tried.
pub struct SmallJob {
    pub small: SmallList,
    tables: Tables,
}

/// Root's lists, the count of changed cells for each, and b where each digit group has one digit.
const ROOTS: [(&str, usize, Option<u32>); 5] = [
    ("field 17;in;root 0 3 1", 3, Some(3)),
    ("field 19;in;root 0 3 1", 3, Some(3)),
    ("field 31;in;root 0 4 1", 2, None),
    ("field 31;in;root 0 2 2", 2, None),
    ("field 17;in;sum 1;root 1 3 1;max 1 2 3 1;which 2 1 2 2;relu 0 2 3;span 0 3 1 -1", 2, None),
];

/// All lists, those with the most tables first, so that the cores are done at about the same time.
pub fn small_jobs() -> Vec<SmallJob> {
    let chosen = families().into_iter().flat_map(|family| chosen(family.lists(MANY)));
    let lists = chosen.chain(mixes(MOST_MIXED));
    let mut jobs: Vec<SmallJob> = lists.map(SmallJob::every_table).collect();
    for (lines, changes, base) in ROOTS {
        let ways = base.map(Tables::DigitsUpTo).into_iter().chain([Tables::Near(changes)]);
        let job = |tables| Some(SmallJob { small: SmallList::written("root", lines)?, tables });
        jobs.extend(ways.filter_map(job));
    }
    jobs.sort_by_key(|job| std::cmp::Reverse(job.size()));
    jobs
}

/// The lists of a family that are tried: all that have few tables, and of the others some by chance, the same in every run.
fn chosen(mut lists: Vec<SmallList>) -> Vec<SmallList> {
    let tables = |list: &SmallList| list.table_count(list.p()).unwrap_or(u64::MAX);
    let mut dice = Dice::new(6, 0);
    lists.sort_by_cached_key(|list| (list.p(), list.cells(), dice.draw()));
    let (mut alike, mut together) = ((0, 0), 0);
    lists.retain(|list| {
        if alike != (list.p(), list.cells()) {
            (alike, together) = ((list.p(), list.cells()), 0);
        }
        let count = tables(list);
        let kept = count <= FEW || together == 0 || together + count <= TOGETHER;
        together += if kept { count } else { 0 };
        kept
    });
    lists
}

impl SmallJob {
    fn every_table(small: SmallList) -> SmallJob {
        let p = small.p();
        let beyond = small.table_count(p + 1).is_some_and(|tables| tables <= MOST_BEYOND);
        SmallJob { small, tables: Tables::UpTo(if beyond { p } else { p - 1 }) }
    }

    /// About how many tables there are to try.
    fn size(&self) -> u64 {
        match self.tables {
            Tables::UpTo(highest) => self.small.table_count(highest + 1).unwrap_or(u64::MAX),
            Tables::DigitsUpTo(_) | Tables::Near(_) => u64::MAX,
        }
    }

    /// Tries the tables on a service.
    pub fn compare<S: Service>(&self) -> Tally {
        let small = &self.small;
        let true_tables = small.true_tables();
        let mut trial = Trial { small, true_tables, replies: [0; 16], tally: Tally::default() };
        trial.check_true_tables::<S>();
        match self.tables {
            Tables::Near(changes) => small.near_tables(changes, |table| trial.check::<S>(table)),
            Tables::UpTo(highest) => {
                let highest = vec![highest; small.cells()];
                small.every_table(&highest, |table| trial.check::<S>(table));
            }
            Tables::DigitsUpTo(base) => {
                let mut highest = vec![base; small.cells()];
                highest[..3].fill(small.p() - 1);
                small.every_table(&highest, |table| trial.check::<S>(table));
            }
        }
        trial.counted()
    }
}

/// The tables of one list, as they are tried.
struct Trial<'a> {
    small: &'a SmallList,
    true_tables: BTreeSet<Vec<u32>>,
    /// How often each number was right.
    replies: [u64; 16],
    tally: Tally,
}

impl Trial<'_> {
    /// Every true table is accepted; they are counted when they are met among all.
    fn check_true_tables<S: Service>(&mut self) {
        for table in self.true_tables.clone() {
            let reply = S::check(&self.small.list, &table);
            if reply != (0, 0) {
                self.differ("a true table is refused", &table, reply, (0, 0));
            }
        }
    }

    /// One table: refused as by the reference, or accepted, and then a true one.
    fn check<S: Service>(&mut self, table: &[u32]) {
        let reply = S::check(&self.small.list, table);
        let right = self.small.check(table);
        self.replies[right.0 as usize] += 1;
        if reply != right {
            self.differ("check", table, reply, right);
        } else if reply.0 == 0 && !self.true_tables.contains(table) {
            self.differ("accepted, but no true table", table, reply, right);
        }
    }

    fn differ(&mut self, way: &str, table: &[u32], reply: Reply, right: Reply) {
        let lines: [(&str, &dyn Fn() -> String); 4] = [
            ("list", &|| format!("\"{}\"", self.small.list.escape_ascii())),
            ("table", &|| format!("{table:?}")),
            ("proved", &|| format!("{reply:?}")),
            ("reference", &|| format!("{right:?}")),
        ];
        self.tally.differ(&format!("every table: {way}"), &lines);
    }

    /// The tally, with what was counted apart for speed.
    fn counted(mut self) -> Tally {
        for (number, &count) in self.replies.iter().enumerate().filter(|(_, &count)| count > 0) {
            self.tally.cases += count;
            self.tally.numbers.insert(("check", number as u64), count);
        }
        self.tally
    }
}
