//! Case after case, both services: every reply, every lent cell, a desk of each that hears all cases of a comparison, and each list
//! written from its words and numbers.

use crate::{outcome, Desk, Proved, Reference, Service, Tally};
use reference::generate::{Call, Case, Directed, SOURCE};

/// Compares cases and counts what was seen.
#[derive(Default)]
pub struct Comparison {
    pub tally: Tally,
    /// A desk of each that hears every case.
    desks: [Desk; 2],
}

impl Comparison {
    /// Runs both services on a case and shows these lines of its table.
    pub fn compare(&mut self, from: &str, case: &Case, lines: &[usize]) {
        // One byte too few for the answer; just enough, or up to five more.
        let length = reference::respond(&case.stdin).len();
        let rooms = [length - 1, length + (self.tally.cases % 6) as usize];
        let proved = outcome::<Proved>(case, lines, &rooms);
        let reference = outcome::<Reference>(case, lines, &rooms);
        if proved != reference {
            let calls = proved.differing(&reference).join(", ");
            let seen = both(format!("{proved:?}"), format!("{reference:?}"));
            self.differ(&format!("{from}: {calls}"), case, lines, seen);
        }
        self.hear(from, case);
        self.write_list(from, case, reference.read);
        self.tally.cases += 1;
        self.tally.shown += reference.show.iter().filter(|part| part.is_some()).count() as u64;
        self.tally.count_reply("read", reference.read.0);
        self.tally.count_reply("check", reference.check.0);
        self.tally.count_reply("make", reference.make.0);
        self.tally.count_reply("desk", reference.desk.0);
        match answered(&case.stdin, &reference.answers[1].1[..length]) {
            Answered::InputLine => self.tally.count_reply("answer to an input line", 3),
            Answered::Number(number) => self.tally.count_reply("answer", number),
        }
    }

    /// A case built on purpose: the two agree, and on the reply that the format gives. Where a source has a true table, making from its
    /// inputs writes that table; where a page has the counts of a list, reading gives them.
    pub fn compare_directed(&mut self, directed: &Directed, lines: &[usize]) {
        let Directed { way, call, case, reply, counts } = directed;
        self.compare(way, case, lines);
        let actual = directed.actual();
        if actual != *reply {
            let seen = [("reference", format!("{actual:?}")), ("format", format!("{reply:?}"))];
            self.differ(&format!("{way}: the format's reply"), case, lines, seen);
        }
        if case.kind == SOURCE && *call == Call::Check && *reply == (0, 0) {
            let mut made = vec![u32::MAX; case.table.len()];
            let making = Proved::make(&case.list, &case.inputs, &mut made);
            if making != (0, 0) || made != case.table {
                let seen = [("proved", format!("{making:?} {made:?}")), ("source", "table".into())];
                self.differ(&format!("{way}: the source's table"), case, lines, seen);
            }
        }
        if let Some(counts) = counts {
            let page = [counts.p, counts.values, counts.cells, counts.rows];
            let mut read = [0; 4];
            let reading = Proved::read(&case.list, &mut read);
            if reading != (0, 0) || read != page {
                let seen =
                    [("proved", format!("{reading:?} {read:?}")), ("format", format!("{page:?}"))];
                self.differ(&format!("{way}: the format's counts"), case, lines, seen);
            }
        }
    }

    /// The two desks that hear every case.
    fn hear(&mut self, from: &str, case: &Case) {
        let [mut proved, mut reference] = self.desks;
        let replies = [
            Proved::desk(&mut proved, &case.list, &case.table),
            Reference::desk(&mut reference, &case.list, &case.table),
        ];
        // From the same counts again, so that one difference is counted once.
        self.desks = [reference; 2];
        if replies[0] != replies[1] || proved != reference {
            let seen = both(
                format!("{:?} {proved:?}", replies[0]),
                format!("{:?} {reference:?}", replies[1]),
            );
            self.differ(&format!("{from}: the desk that hears all"), case, &[], seen);
        }
    }

    /// Counts a difference: what was lent, and what either side says, each by its name.
    fn differ(&mut self, from: &str, case: &Case, lines: &[usize], seen: [(&str, String); 2]) {
        let lent: [(&str, &dyn Fn() -> String); 8] = [
            ("list", &|| format!("\"{}\"", case.list.escape_ascii())),
            ("inputs", &|| format!("{:?}", case.inputs)),
            ("table", &|| format!("{:?}", case.table)),
            ("lines", &|| format!("{lines:?}")),
            ("desk", &|| format!("{:?}", case.desk)),
            ("standard input", &|| format!("\"{}\"", case.stdin.escape_ascii())),
            (seen[0].0, &|| seen[0].1.clone()),
            (seen[1].0, &|| seen[1].1.clone()),
        ];
        self.tally.differ(from, &lent);
    }
}

/// What the two services say.
fn both(proved: String, reference: String) -> [(&'static str, String); 2] {
    [("proved", proved), ("reference", reference)]
}

/// What an answer of the program says.
#[derive(Clone, Copy, Debug, PartialEq, Eq)]
pub enum Answered {
    /// Refusal 3 at a line after `end`.
    InputLine,
    /// Any other refusal, or 0 for a table.
    Number(u64),
}

/// What this answer to this standard input says.
pub fn answered(stdin: &[u8], answer: &[u8]) -> Answered {
    let Some(refused) = answer.strip_prefix(b"refused\t") else {
        return Answered::Number(0);
    };
    let mut numbers = refused
        .split(|byte| b"\t\n".contains(byte))
        .map(|number| String::from_utf8_lossy(number).parse::<u64>().unwrap_or(u64::MAX));
    let mut next = || numbers.next().unwrap_or(u64::MAX);
    let (number, place) = (next(), next());
    let end = stdin.split(|&byte| byte == b'\n').position(|line| line == b"end");
    match end {
        Some(end) if number == 3 && place > end as u64 => Answered::InputLine,
        _ => Answered::Number(number),
    }
}

/// The lines of a case's list, the one past its end, and lines far beyond.
pub fn all_lines(case: &Case) -> Vec<usize> {
    let count = case.list.iter().filter(|&&byte| byte == b'\n').count();
    (0..=count).chain([1 << 32, usize::MAX]).collect()
}
