//! The worked examples of the source documents 000 to 004, which the mathematics is from, and of
//! the format itself (chapter 12), as cases with the figures that stand on their pages.
//!
//! Every figure is copied from a page or, where a list stores more than a source does (w, the
//! zeros above a number's highest digit, the digits of a span), worked by hand from the format's
//! rules; none was taken from a program. Where a source differs from the format, the format's reply
//! is given, and the example says how they differ.
//!
//! What no list can state, and why:
//! - 000 and 004, the prime of BN254: 254 bits, while p is at most 2,147,483,647 (FORMAT 1.1).
//! - 000, section 3 by the upper bound (digits of B-a): `relu` has its group over v+B only.
//! - 000, 001 and 002, the columns q and RHS: the whole number left over by the digits and their
//!   sum stand in no cell.
//! - 003, example 1.1: bits in -99..100: a cell holds a remainder from 0 to p-1 (FORMAT 1.5).
//! - 003, example 1.7 and proposition 3.6: no line divides, and none multiplies two values.
//! - 003, propositions 3.1 and 3.2: no line says that a value is a constant or another value.
//! - 003, proposition 3.3: no line says that a value is in a set that is not a stretch.
//! - 003, section 4: random challenges.
//! - 004, example 5.1: 0.02, 0.14 and the factor 100 are not whole values of the list; 224, which
//!   is y² + 2y, is no value, and no group is over it.

use super::directed::{Call, Directed};
use super::{
    program_text, sources_format, sources_range, sources_relu, sources_root, sources_whole, text,
    Case,
};
use crate::Counts;

/// The kind of these cases.
pub const SOURCE: &str = "source";

/// All worked examples. A way is the place of the example, a colon, and what the case shows.
///
/// An accepted check gives the whole true table of the case's inputs; making from them must write
/// this very table.
pub fn sources() -> Vec<Directed> {
    [
        sources_range::cases(),
        sources_relu::cases(),
        sources_whole::cases(),
        sources_root::cases(),
        sources_format::cases(),
    ]
    .concat()
}

/// An example: its place in a source, or its clause of the format, and the list that states it.
#[derive(Clone, Copy)]
pub struct Example {
    pub place: &'static str,
    pub list: &'static str,
}

impl Example {
    /// What reading the list replies.
    pub fn reads(self, reply: (u64, u64)) -> Vec<Directed> {
        vec![Directed::list(&self.way("read"), text(self.list), reply)]
    }

    /// A list that is read: p, and how many values, cells and rows it has.
    pub fn counts(self, [p, values, cells, rows]: [u64; 4]) -> Vec<Directed> {
        let counts = Some(Counts { p, values, cells, rows });
        self.reads((0, 0)).into_iter().map(|read| Directed { counts, ..read }).collect()
    }

    /// What making from this column replies. No cell of the lent table is a remainder, so that
    /// every cell has to be written.
    pub fn makes(self, inputs: &[i64], reply: (u64, u64)) -> Vec<Directed> {
        let way = self.way(&format!("made from {inputs:?}"));
        let mut made = Directed::make(&way, self.list, inputs, reply);
        made.case.kind = SOURCE;
        made.case.table.fill(u32::MAX);
        vec![made]
    }

    /// What checking this table replies.
    pub fn offers(self, inputs: &[i64], table: &[u32], reply: (u64, u64)) -> Vec<Directed> {
        let case = self.case(inputs, table);
        vec![Directed::new(&self.way(&format!("offered {table:?}")), Call::Check, case, reply)]
    }

    /// The true table of a column: it is made, and it is accepted.
    pub fn holds(self, inputs: &[i64], table: &[u32]) -> Vec<Directed> {
        [self.makes(inputs, (0, 0)), self.offers(inputs, table, (0, 0))].concat()
    }

    /// A column with a false statement at a line, and the table that the source has for it, which
    /// fails at a row.
    pub fn fails(self, inputs: &[i64], line: u64, table: &[u32], row: u64) -> Vec<Directed> {
        [self.makes(inputs, (18, line)), self.offers(inputs, table, (15, row))].concat()
    }

    fn way(self, what: &str) -> String {
        format!("{}: {}, {what}", self.place, self.list)
    }

    fn case(self, inputs: &[i64], table: &[u32]) -> Case {
        let list = text(self.list);
        let stdin = program_text(&list, inputs);
        let (inputs, table) = (inputs.to_vec(), table.to_vec());
        Case { kind: SOURCE, inputs, table, stdin, ..Case::about(list) }
    }
}
