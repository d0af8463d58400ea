//! The two programs behind one set of calls, so that a case is run in the same way on both.

/// A number and a place; 0, 0 where nothing is refused, or 0 and a length.
pub type Reply = (u64, u64);

/// p and the counts of values, cells and rows.
pub type Counts = [u64; 4];

/// heard, accepted and refused.
pub type Desk = [u64; 3];

/// The calls of the format's chapter 9.
pub trait Service {
    /// The counts are written where the list is read; a refusal leaves them as they were.
    fn read(list: &[u8], counts: &mut Counts) -> Reply;
    fn check(list: &[u8], table: &[u32]) -> Reply;
    fn make(list: &[u8], inputs: &[i64], table: &mut [u32]) -> Reply;
    fn show<'a>(list: &[u8], table: &'a [u32], line: usize) -> &'a [u32];
    fn desk(desk: &mut Desk, list: &[u8], table: &[u32]) -> Reply;
    /// The length of the answer, which is written where it has room; else 0.
    fn respond(input: &[u8], output: &mut [u8]) -> usize;
    /// The place is the length of the text where nothing is refused.
    fn write(words: &[u8], counts: &[usize], numbers: &[i64], buffer: &mut [u8]) -> Reply;
}

/// The reference, which was written apart from the proved service.
pub struct Reference;

impl Service for Reference {
    fn read(list: &[u8], counts: &mut Counts) -> Reply {
        match reference::read(list) {
            Ok(read) => *counts = [read.p, read.values, read.cells, read.rows],
            Err(refusal) => return (refusal.number, refusal.place),
        }
        (0, 0)
    }

    fn check(list: &[u8], table: &[u32]) -> Reply {
        reference::check(list, table)
    }

    fn make(list: &[u8], inputs: &[i64], table: &mut [u32]) -> Reply {
        reference::make(list, inputs, table)
    }

    fn show<'a>(list: &[u8], table: &'a [u32], line: usize) -> &'a [u32] {
        reference::show(list, table, line)
    }

    fn desk(desk: &mut Desk, list: &[u8], table: &[u32]) -> Reply {
        let [heard, accepted, refused] = *desk;
        let mut called = reference::Desk { heard, accepted, refused };
        let reply = called.call(list, table);
        *desk = [called.heard, called.accepted, called.refused];
        reply
    }

    fn respond(input: &[u8], output: &mut [u8]) -> usize {
        let answer = reference::respond(input);
        match output.get_mut(..answer.len()) {
            Some(begin) => begin.copy_from_slice(&answer),
            None => return 0,
        }
        answer.len()
    }

    fn write(words: &[u8], counts: &[usize], numbers: &[i64], buffer: &mut [u8]) -> Reply {
        reference::write(words, counts, numbers, buffer)
    }
}

/// The proved service, by the static library.
pub struct Proved;

/// A reply as a pair.
fn pair(reply: Result<(), digit_table::Refusal>) -> Reply {
    reply.map_or_else(|refusal| (refusal.number.into(), refusal.place as u64), |()| (0, 0))
}

impl Service for Proved {
    fn read(list: &[u8], counts: &mut Counts) -> Reply {
        let [p, values, cells, rows] = *counts;
        let mut lent = digit_table::Counts {
            p: p as u32,
            values: values as usize,
            cells: cells as usize,
            rows: rows as usize,
        };
        let reply = pair(digit_table::read_into(list, &mut lent));
        *counts = [lent.p.into(), lent.values as u64, lent.cells as u64, lent.rows as u64];
        reply
    }

    fn check(list: &[u8], table: &[u32]) -> Reply {
        pair(digit_table::check(list, table))
    }

    fn make(list: &[u8], inputs: &[i64], table: &mut [u32]) -> Reply {
        pair(digit_table::make(list, inputs, table))
    }

    fn show<'a>(list: &[u8], table: &'a [u32], line: usize) -> &'a [u32] {
        digit_table::show(list, table, line)
    }

    fn desk(desk: &mut Desk, list: &[u8], table: &[u32]) -> Reply {
        let [heard, accepted, refused] = *desk;
        let mut called = digit_table::Desk { heard, accepted, refused };
        let reply = pair(called.call(list, table));
        *desk = [called.heard, called.accepted, called.refused];
        reply
    }

    fn respond(input: &[u8], output: &mut [u8]) -> usize {
        digit_table::respond_into(input, output)
    }

    fn write(words: &[u8], counts: &[usize], numbers: &[i64], buffer: &mut [u8]) -> Reply {
        match digit_table::write_rows(words, counts, numbers, buffer) {
            Ok(length) => (0, length as u64),
            Err(refusal) => (refusal.number.into(), refusal.place as u64),
        }
    }
}
