//! All that the calls of one service do with one case: each reply, and each lent place afterwards.

use crate::service::{Counts, Desk, Reply, Service};
use reference::generate::Case;
use std::hint::black_box;

/// What stands before and after a lent table, and must stand there afterwards.
const GUARD: u32 = 0xdead_beef;
const GUARDS: usize = 8;

/// What stands in the numbers that are lent to a reading: each is more than any list has.
const NUMBERS: Counts =
    [0xdead_0001, 0xdead_0002_dead_0002, 0xdead_0003_dead_0003, 0xdead_0004_dead_0004];

/// A part of a table, by its place in it; an empty one has none.
pub type Part = Option<(usize, Vec<u32>)>;

/// What the calls did with a case. Two services agree on it where this is the same.
#[derive(Clone, Debug, PartialEq, Eq)]
pub struct Outcome {
    pub read: Reply,
    /// The lent numbers after reading.
    pub numbers: Counts,
    pub check: Reply,
    pub make: Reply,
    /// The table after making, with the guards around it.
    pub made: Vec<u32>,
    /// The reply to checking the table that was made, where one was.
    pub check_of_made: Option<Reply>,
    pub show: Vec<Part>,
    pub desk: Reply,
    /// The case's desk after the call.
    pub counts: Desk,
    /// The length of the program's answer, and the output that it was written to, for each room that was lent.
    pub answers: Vec<(usize, Vec<u8>)>,
    /// What is lent to be read is as it was.
    pub unchanged: bool,
}

impl Outcome {
    /// What is not the same in the other one, by the names of the calls.
    pub fn differing(&self, other: &Outcome) -> Vec<&'static str> {
        let made = |of: &Outcome| (of.make, of.made.clone(), of.check_of_made);
        let same = [
            ("read", (self.read, self.numbers) == (other.read, other.numbers)),
            ("check", self.check == other.check),
            ("make", made(self) == made(other)),
            ("show", self.show == other.show),
            ("desk", (self.desk, self.counts) == (other.desk, other.counts)),
            ("answer", self.answers == other.answers),
            ("what was lent to be read", self.unchanged == other.unchanged),
        ];
        same.iter().filter(|(_, same)| !same).map(|(call, _)| *call).collect()
    }
}

/// Runs every call on a case; `lines` are the lines to show, and `rooms` the lengths of the outputs to answer in.
pub fn outcome<S: Service>(case: &Case, lines: &[usize], rooms: &[usize]) -> Outcome {
    let (list, inputs, stdin) = (case.list.clone(), case.inputs.clone(), case.stdin.clone());
    let (table, mut counts, mut numbers) = (case.table.clone(), desk_of(case), NUMBERS);
    let (make, made) = make::<S>(&list, &inputs, &table);
    let outcome = Outcome {
        read: S::read(&list, &mut numbers),
        numbers,
        check: S::check(&list, &table),
        make,
        check_of_made: (make == (0, 0)).then(|| S::check(&list, &made[GUARDS..][..table.len()])),
        made,
        show: lines.iter().map(|&line| part(&table, S::show(&list, &table, line))).collect(),
        desk: S::desk(&mut counts, &list, &table),
        counts,
        answers: rooms.iter().map(|&room| answer::<S>(&stdin, room)).collect(),
        unchanged: true,
    };
    // The compiler is not to conclude that what was lent for reading is unchanged.
    let lent = black_box((list, inputs, table, stdin));
    let unchanged = lent.0 == case.list
        && lent.1 == case.inputs
        && lent.2 == case.table
        && lent.3 == case.stdin;
    Outcome { unchanged, ..outcome }
}

/// Answers in an output of so many bytes, of which none is 0.
fn answer<S: Service>(stdin: &[u8], room: usize) -> (usize, Vec<u8>) {
    let mut output: Vec<u8> = (0..room).map(|at| (at % 255) as u8 + 1).collect();
    (S::respond(stdin, &mut output), output)
}

/// The counts of a case's desk.
pub fn desk_of(case: &Case) -> Desk {
    [case.desk.heard, case.desk.accepted, case.desk.refused]
}

/// Makes in a copy of the table that stands between guards.
fn make<S: Service>(list: &[u8], inputs: &[i64], table: &[u32]) -> (Reply, Vec<u32>) {
    let mut guarded = vec![GUARD; table.len() + 2 * GUARDS];
    let lent = &mut guarded[GUARDS..][..table.len()];
    lent.copy_from_slice(table);
    let reply = S::make(list, inputs, lent);
    (reply, guarded)
}

/// Where a part stands in its table.
fn part(table: &[u32], part: &[u32]) -> Part {
    let offset = part.as_ptr().addr().wrapping_sub(table.as_ptr().addr()) / size_of::<u32>();
    (!part.is_empty()).then(|| (offset, part.to_vec()))
}
