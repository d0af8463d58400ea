//! Lines written by both services: the reply, and the whole buffer with what stands around it.

use crate::{Comparison, Proved, Reference, Reply, Service};
use reference::generate::{cut, Case, Dice, Rows, Writing};
use std::hint::black_box;

/// How many bytes stand before and after a lent buffer, and must stand there afterwards.
const GUARDS: usize = 8;

/// What writing the same lines did, for each buffer. Two services agree on it where this is the same.
#[derive(Clone, Debug, PartialEq, Eq)]
pub struct Written {
    /// The reply, and the buffer afterwards with the guards around it.
    pub each: Vec<(Reply, Vec<u8>)>,
    /// What is lent to be read is as it was.
    pub unchanged: bool,
}

/// Writes the lines into buffers of these lengths.
pub fn written<S: Service>(rows: &Rows, rooms: &[usize]) -> Written {
    let Rows { words, counts, numbers } = black_box(rows.clone());
    let into = |&room: &usize| {
        let mut guarded = before(room);
        let lent = &mut guarded[GUARDS..][..room];
        (S::write(&words, &counts, &numbers, lent), guarded)
    };
    let each = rooms.iter().map(into).collect();
    // The compiler is not to conclude that what was lent for reading is unchanged.
    let unchanged = black_box(Rows { words, counts, numbers }) == *rows;
    Written { each, unchanged }
}

/// A buffer and its guards before a call: no byte in it can stand in a list.
fn before(room: usize) -> Vec<u8> {
    (0..room + 2 * GUARDS).map(|at| (at % 128) as u8 + 128).collect()
}

/// What a buffer is afterwards that begins with a text, or is as it was where that is empty.
fn after(text: &[u8], room: usize) -> Vec<u8> {
    let mut guarded = before(room);
    guarded[GUARDS..][..text.len()].copy_from_slice(text);
    guarded
}

/// A text's length, one byte fewer, and five more.
fn rooms(length: usize) -> [usize; 3] {
    [length, length.saturating_sub(1), length + 5]
}

impl Comparison {
    /// A case's list, cut into words and numbers, and the same lines with some damage. Where the cut says all that the list does, both
    /// services are held to the list's own bytes, or to its refusal, by the reply of reading it: the proved one in every buffer, the
    /// reference in one of them.
    pub fn write_list(&mut self, from: &str, case: &Case, read: Reply) {
        let Case { list, .. } = case;
        let (cut, rooms, mut dice) = (cut(list), rooms(list.len()), dice(list));
        // A list that is read has words and numbers alone.
        if cut.whole || read.0 == 0 {
            let right = |&room: &usize| right(list, read, room);
            self.hold::<Proved>("proved", from, &cut.rows, &rooms, right);
            self.hold::<Reference>("reference", from, &cut.rows, &[dice.pick(&rooms)], right);
        } else {
            self.compare_rows(from, &cut.rows, &rooms);
        }
        let damaged = cut.rows.damaged(&mut dice);
        // Room for the longest number in place of the shortest, as much as the list has, or none.
        let room = dice.pick(&[list.len() + 40, list.len(), 0]);
        self.compare_rows(&format!("{from}: damaged lines"), &damaged, &[room]);
    }

    /// Lines that are written on purpose: both services are held to the reply and the text that the format gives.
    pub fn compare_writing(&mut self, writing: &Writing) {
        let Writing { way, rows, room, reply, text } = writing;
        let right = |&room: &usize| (*reply, after(text, room));
        self.hold::<Proved>("proved", way, rows, &[*room], right);
        self.hold::<Reference>("reference", way, rows, &[*room], right);
        self.tally.cases += 1;
    }

    /// Both services on the same lines.
    fn compare_rows(&mut self, from: &str, rows: &Rows, rooms: &[usize]) {
        let proved = written::<Proved>(rows, rooms);
        let reference = written::<Reference>(rows, rooms);
        self.count(&reference);
        if proved != reference {
            let seen = [("proved", &proved), ("reference", &reference)];
            self.differ_in_writing(from, rows, rooms, seen);
        }
    }

    /// A service is held to what is right for each buffer.
    fn hold<S: Service>(
        &mut self,
        name: &str,
        from: &str,
        rows: &Rows,
        rooms: &[usize],
        right: impl Fn(&usize) -> (Reply, Vec<u8>),
    ) {
        let written = written::<S>(rows, rooms);
        let right = Written { each: rooms.iter().map(right).collect(), unchanged: true };
        self.count(&right);
        if written != right {
            let seen = [(name, &written), ("format", &right)];
            self.differ_in_writing(from, rows, rooms, seen);
        }
    }

    /// Counts the replies.
    fn count(&mut self, written: &Written) {
        written.each.iter().for_each(|(reply, _)| self.tally.count_reply("write", reply.0));
    }

    /// Counts a difference: the lines, the lengths of the buffers, and what either side has.
    fn differ_in_writing(
        &mut self,
        from: &str,
        rows: &Rows,
        rooms: &[usize],
        seen: [(&str, &Written); 2],
    ) {
        let lent: [(&str, &dyn Fn() -> String); 6] = [
            ("words", &|| format!("{:?}", rows.words)),
            ("counts", &|| format!("{:?}", rows.counts)),
            ("numbers", &|| format!("{:?}", rows.numbers)),
            ("buffers", &|| format!("{rooms:?}")),
            (seen[0].0, &|| seen[0].1.shown()),
            (seen[1].0, &|| seen[1].1.shown()),
        ];
        self.tally.differ(&format!("{from}: write"), &lent);
    }
}

impl Written {
    fn shown(&self) -> String {
        let one = |(reply, guarded): &(Reply, Vec<u8>)| {
            format!("{reply:?} \"{}\"", guarded.escape_ascii())
        };
        let each: Vec<String> = self.each.iter().map(one).collect();
        let rows = if self.unchanged { "" } else { ", the lent rows changed" };
        format!("{}{rows}", each.join(", "))
    }
}

/// What writing a list's own lines gives, by the reply of reading it.
fn right(list: &[u8], read: Reply, room: usize) -> (Reply, Vec<u8>) {
    match read {
        (0, _) if room < list.len() => ((21, 0), before(room)),
        (0, _) => ((0, list.len() as u64), after(list, room)),
        refusal => (refusal, before(room)),
    }
}

/// Chance that depends on the list alone.
fn dice(list: &[u8]) -> Dice {
    let mix = |sum: u64, &byte: &u8| (sum ^ u64::from(byte)).wrapping_mul(0x100_0000_01b3);
    Dice::new(list.iter().fold(0xcbf2_9ce4_8422_2325, mix), 0)
}
