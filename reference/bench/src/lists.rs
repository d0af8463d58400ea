//! The lists that are measured: a short reorder list, lists of one gadget that are as large as the limits allow, a mixed one, the
//! largest texts, lists of growing length, and lists that differ in their digits alone.
//!
//! A list of spans, or at the greatest prime of any gadget but the sum, comes close to 4,096 cells. The others end at 256 values: a sum
//! has one cell, and at p = 31 a group has at most four digits.

use reference::generate::{cut, large, text, Rows};
use reference::Counts;

/// A list, its lines as words and numbers, a column of inputs and its true table.
pub struct Workload {
    pub name: String,
    pub list: Vec<u8>,
    pub rows: Rows,
    pub inputs: Vec<i64>,
    pub table: Vec<u32>,
}

/// The greatest prime, and one whose numbers have one or two digits.
pub const PRIMES: [i64; 2] = [31, GREATEST];
const GREATEST: i64 = 2_147_483_647;

/// The greatest prime but one. The service knows the greatest at once, and this one only by trying divisors.
const TRIED: i64 = 2_147_483_629;

/// How many gadgets have a list of their own.
pub const GADGETS: usize = 6;

const MOST_VALUES: u64 = 256;
const MOST_CELLS: u64 = 4_096;
const MOST_BYTES: usize = 65_536;

/// The service's own example: a reorder figure from the stock and the sales of two weeks.
const REORDER: &str =
    "in;in;in;span 0 2 10 0;span 1 2 10 0;span 2 2 10 0;sum 0 2 1 1 2;sum 0 1 3 -1 0;\
                       relu 4 2 13;max 1 2 2 10;root 6 2 10;which 0 1 2 11;sum 0 1 5 1 7";

/// The same model where pots are counted up to 3, as p = 31 has no room for more.
const SMALL_REORDER: &str =
    "in;in;in;span 0 2 2 0;span 1 2 2 0;span 2 2 2 0;sum 0 2 1 1 2;sum 0 1 3 -1 0;\
                             relu 4 3 3;max 1 2 2 2;root 6 2 2;which 0 1 2 3;sum 0 1 5 1 7";

impl Workload {
    /// The workload of a list that is read and inputs whose statements are true.
    fn new(name: String, list: Vec<u8>, inputs: Vec<i64>) -> Workload {
        Workload::made(&name, list, inputs).unwrap_or_else(|| panic!("{name} is not made"))
    }

    /// The same, or none where the list is not read or a statement is false.
    fn made(name: &str, list: Vec<u8>, inputs: Vec<i64>) -> Option<Workload> {
        let mut table = vec![0; counts(&list)?.cells as usize];
        let made = reference::make(&list, &inputs, &mut table) == (0, 0);
        let rows = cut(&list).rows;
        made.then(|| Workload { name: name.into(), list, rows, inputs, table })
    }
}

fn counts(list: &[u8]) -> Option<Counts> {
    reference::read(list).ok()
}

/// One gadget's list: how it begins, the line that is repeated, and its inputs.
struct Gadget {
    name: &'static str,
    begin: String,
    line: String,
    inputs: Vec<i64>,
}

/// The gadgets with as many digits as p allows, or as let 256 values fill 4,096 cells.
fn gadgets(p: i64) -> Vec<Gadget> {
    let small = p == 31;
    let digits = |at_31: u32, at_greatest: u32| if small { at_31 } else { at_greatest };
    let gadget = |name, begin: String, line, inputs: &[i64]| Gadget {
        name,
        begin: format!("field {p};{begin}"),
        line,
        inputs: inputs.to_vec(),
    };
    let pair = |k: u32| format!("in;in;span 0 2 {k} 0;span 1 2 {k} 0");
    let sign = digits(4, 13);
    let max = digits(3, 7);
    let root = digits(2, 15);
    vec![
        spans(p, digits(4, 30)),
        gadget("sum", "in;span 0 2 1 0".into(), format!("sum 1{}", " 1 0 -1 0".repeat(8)), &[1]),
        gadget("relu", "in".into(), format!("relu 0 2 {sign}"), &[-3]),
        gadget("which", pair(sign - 1), format!("which 0 1 2 {sign}"), &[2, 5]),
        gadget("max", pair(max), format!("max 0 1 2 {max}"), &[3, 6]),
        gadget("root", "in".into(), format!("root 0 2 {root}"), &[half(root)]),
    ]
}

/// The gadget span with so many digits.
fn spans(p: i64, k: u32) -> Gadget {
    Gadget {
        name: "span",
        begin: format!("field {p};in"),
        line: format!("span 0 2 {k} 0"),
        inputs: vec![half(k)],
    }
}

/// A number of so many binary digits, all 1 but the highest.
fn half(k: u32) -> i64 {
    (1 << (k - 1)) - 1
}

impl Gadget {
    /// The list with so many of its lines, or as many as fit.
    fn list(&self, most: usize) -> Vec<u8> {
        let (mut list, line) = (text(&self.begin), text(&self.line));
        for _ in 0..most {
            let longer = [&list[..], &line].concat();
            if counts(&longer).is_none() {
                break;
            }
            list = longer;
        }
        list
    }

    /// As many of its lines as 256 values and 4,096 cells allow.
    fn full(&self, p: i64) -> Workload {
        let list = self.list(usize::MAX);
        let read = counts(&list).expect("a list that is read");
        let name = format!("{} {p}, {} values, {} cells", self.name, read.values, read.cells);
        Workload::new(name, list, self.inputs.clone())
    }

    /// So many of its lines.
    fn lines(&self, p: i64, lines: usize) -> Workload {
        let name = format!("{} {p}, {lines} lines", self.name);
        Workload::new(name, self.list(lines), self.inputs.clone())
    }
}

/// Every list that is measured.
pub fn workloads() -> Vec<Workload> {
    let mut all = vec![Workload::new(
        "reorder 31".into(),
        text(&format!("field 31;{SMALL_REORDER}")),
        vec![1, 3, 2],
    )];
    all.extend([GREATEST, TRIED].map(reorder));
    for p in PRIMES {
        all.extend(gadgets(p).iter().map(|gadget| gadget.full(p)));
    }
    all.extend([GREATEST, TRIED].map(mixed));
    for p in [31, GREATEST, TRIED] {
        all.push(longest_of_sums(p));
        all.push(longest_of_spans(p));
    }
    all
}

fn reorder(p: i64) -> Workload {
    let list = text(&format!("field {p};{REORDER}"));
    Workload::new(format!("reorder {p}"), list, vec![40, 120, 95])
}

/// A list of every kind of line, drawn for the greatest prime. A few of its lines do not fit at another, and are left out there.
fn mixed(p: i64) -> Workload {
    let drawn = large(0);
    let mut inputs = drawn.inputs.iter();
    let mut work = Workload::new(format!("mixed {p}"), text(&format!("field {p}")), Vec::new());
    for line in drawn.list.split_inclusive(|&byte| byte == b'\n').skip(1) {
        let list = [&work.list, line].concat();
        let input = if line == b"in\n" { inputs.next() } else { None };
        let inputs = work.inputs.iter().chain(input).copied().collect();
        work = Workload::made(&work.name, list, inputs).unwrap_or(work);
    }
    work
}

/// A text of sums close to 65,536 bytes: a value known to be 0 takes any coefficient.
pub fn longest_of_sums(p: i64) -> Workload {
    let far = -(p - 1) / 2;
    let mut list = text(&format!("field {p};sum 0"));
    let line = text(&format!("sum {far}{}", format!(" {far} 0").repeat(16)));
    while list.len() + line.len() <= MOST_BYTES && counts(&list).expect("read").values < MOST_VALUES
    {
        list.extend(&line);
    }
    let name = format!("text of sums {p}, {} bytes", list.len());
    Workload::new(name, list, Vec::new())
}

/// A text of spans, each with one digit of a long base.
pub fn longest_of_spans(p: i64) -> Workload {
    let far = -(p - 1) / 2;
    let mut list = text(&format!("field {p};in"));
    let line = text(&format!("span 0 {p} 1 {far}"));
    while list.len() + line.len() <= MOST_BYTES && counts(&list).expect("read").cells < MOST_CELLS {
        list.extend(&line);
    }
    let name = format!("text of spans {p}, {} bytes", list.len());
    Workload::new(name, list, vec![1])
}

/// A gadget's list with 1, 2, 4, .. of its lines, for how cost grows.
pub fn growing(gadget: usize, p: i64) -> Vec<Workload> {
    let gadget = &gadgets(p)[gadget];
    (3..8).map(|power| gadget.lines(p, 1 << power)).collect()
}

/// A list of spans that have so many digits each.
pub struct Spans {
    pub digits: usize,
    pub work: Workload,
}

/// Two lists of spans with as many lines and bytes, of few digits and of many. The second is the one that is measured among the gadgets.
pub fn few_and_many_digits(p: i64) -> [Spans; 2] {
    let (few, many) = if p == 31 { (1, 4) } else { (10, 30) };
    // The first cell is the input's.
    let lines = (MOST_CELLS as usize - 1) / many as usize;
    let lists =
        [few, many].map(|k| Spans { digits: k as usize, work: spans(p, k).lines(p, lines) });
    assert_eq!(lists[0].work.list.len(), lists[1].work.list.len());
    lists
}
