//! Cases built on purpose, each with its reply: the collection, and those about whole texts and
//! the desk.

use super::{
    directed_limits, directed_lines, directed_numbers, directed_program, directed_tables,
    program_text, text, Case,
};
use crate::plan::MOST_BYTES;
use crate::{Counts, Desk, Refusal};

/// The call whose reply a directed case gives.
#[derive(Clone, Copy, Debug, PartialEq, Eq)]
pub enum Call {
    Read,
    Check,
    Make,
    Desk,
    Program,
}

/// A case and the reply that the format gives for one call on it; 0, 0 where nothing is refused.
#[derive(Clone, Debug)]
pub struct Directed {
    /// The way in which the case comes to its reply, in a few words.
    pub way: String,
    pub call: Call,
    pub case: Case,
    pub reply: (u64, u64),
    /// What reading the list gives, where a page has these figures.
    pub counts: Option<Counts>,
}

impl Directed {
    pub fn new(way: &str, call: Call, case: Case, reply: (u64, u64)) -> Directed {
        Directed { way: way.to_string(), call, case, reply, counts: None }
    }

    /// About reading a list.
    pub fn list(way: &str, list: Vec<u8>, reply: (u64, u64)) -> Directed {
        Directed::new(way, Call::Read, Case::about(list), reply)
    }

    /// About making from inputs.
    pub fn make(way: &str, list: &str, inputs: &[i64], reply: (u64, u64)) -> Directed {
        let mut case = Case::about(text(list));
        case.inputs = inputs.to_vec();
        case.stdin = program_text(&case.list, inputs);
        Directed::new(way, Call::Make, case, reply)
    }

    /// What the reference itself replies to this call.
    pub fn actual(&self) -> (u64, u64) {
        let case = &self.case;
        match self.call {
            Call::Read => pair(crate::read(&case.list)),
            Call::Check => crate::check(&case.list, &case.table),
            Call::Make => crate::make(&case.list, &case.inputs, &mut case.table.clone()),
            Call::Desk => {
                let mut desk = case.desk;
                desk.call(&case.list, &case.table)
            }
            Call::Program => program_reply(&crate::respond(&case.stdin)),
        }
    }
}

fn pair(outcome: Result<Counts, Refusal>) -> (u64, u64) {
    outcome.map_or_else(|refusal| (refusal.number, refusal.place), |_| (0, 0))
}

/// The number and place in the program's one line of `refused`; 0, 0 for a table.
fn program_reply(output: &[u8]) -> (u64, u64) {
    let output = String::from_utf8_lossy(output);
    let mut fields = output.trim_end_matches('\n').split('\t');
    if fields.next() != Some("refused") {
        return (0, 0);
    }
    let mut number = || fields.next().and_then(|field| field.parse().ok()).unwrap_or(u64::MAX);
    (number(), number())
}

/// All directed cases; they depend on nothing.
pub fn directed() -> Vec<Directed> {
    [
        whole_texts(),
        directed_lines::wrong_words(),
        directed_lines::wrong_numbers(),
        directed_lines::field_lines(),
        directed_lines::ranges(),
        directed_lines::names(),
        directed_limits::values(),
        directed_limits::cells(),
        directed_limits::digit_rule(),
        directed_limits::sums_and_spans(),
        directed_limits::known_ends(),
        directed_tables::lengths_and_cells(),
        directed_tables::rows(),
        directed_tables::columns(),
        directed_tables::statements(),
        directed_numbers::primes(),
        directed_numbers::greatest_bases(),
        directed_numbers::inverses(),
        directed_numbers::root_rule(),
        directed_numbers::roots(),
        directed_numbers::ends_of_inputs(),
        desks(),
        directed_program::programs(),
        directed_program::worked(),
    ]
    .concat()
}

/// A readable list of exactly 65,536 bytes (FORMAT 4.8): spans of 32 bytes each and five inputs.
pub fn longest() -> Vec<u8> {
    let mut list = text("field 2147483647;in;in;in;in;in");
    while list.len() < MOST_BYTES {
        list.extend(text("span 0 2147483647 1 -1073741823"));
    }
    list
}

/// Refusals 1 and 2 (FORMAT 10.1, 10.2).
fn whole_texts() -> Vec<Directed> {
    let longer = [longest(), b"\n".to_vec()].concat();
    let mut open = longest();
    open[MOST_BYTES - 1] = b'1';
    vec![
        Directed::list("65,536 bytes", longest(), (0, 0)),
        Directed::list("65,537 bytes", longer, (1, 0)),
        Directed::list("65,537 bytes of no list", vec![b'x'; MOST_BYTES + 1], (1, 0)),
        Directed::list("65,536 bytes without last byte 10", open, (2, 0)),
        Directed::list("65,536 bytes of no list", vec![b'\n'; MOST_BYTES], (3, 0)),
        Directed::list("empty text", Vec::new(), (2, 0)),
        Directed::list("field line without byte 10", b"field\t31".to_vec(), (2, 0)),
        Directed::list("last byte 13", b"field\t31\n\r".to_vec(), (2, 0)),
        Directed::list("last byte 10 missing", b"field\t31\nin".to_vec(), (2, 0)),
        Directed::list("no list, last byte 10 missing", b"x\ny".to_vec(), (2, 0)),
        Directed::list("field line alone", text("field 31"), (0, 0)),
        Directed::list("byte 10 alone", b"\n".to_vec(), (3, 0)),
        Directed::list(
            "a long word",
            vec![b'i'; 60_000].into_iter().chain(*b"\n").collect(),
            (3, 0),
        ),
        Directed::list(
            "many digits",
            text(&format!("field 31;sum {}", "1".repeat(60_000))),
            (3, 1),
        ),
        Directed::list("many zeros", text(&format!("field {}31", "0".repeat(60_000))), (3, 0)),
        Directed::list("many tabs", text(&format!("field 31;in{}", " ".repeat(60_000))), (3, 1)),
        Directed::list(
            "many pairs",
            text(&format!("field 31;in;sum 0{}", " 0 0".repeat(16_000))),
            (3, 2),
        ),
    ]
}

/// Refusals 19 and 20 (FORMAT 10.19, 10.20), and what comes after them (FORMAT 13.8).
fn desks() -> Vec<Directed> {
    let last = u64::MAX;
    let desks = [
        ("fresh", 0, 0, 0, (0, 0)),
        ("counts that fit", 7, 3, 4, (0, 0)),
        ("one before the last count", last - 1, 0, last - 1, (0, 0)),
        ("heard too great", 1, 0, 0, (19, 0)),
        ("heard too small", 0, 1, 0, (19, 0)),
        ("refused too great", 3, 1, 3, (19, 0)),
        ("sum is 2^64", 0, 1 << 63, 1 << 63, (19, 0)),
        ("sum is 2^65 - 2", last - 1, last, last, (19, 0)),
        ("last count, but no sum", last, 0, 0, (19, 0)),
        ("last count, all accepted", last, last, 0, (20, 0)),
        ("last count, all refused", last, 0, last, (20, 0)),
    ];
    let mut all = Vec::new();
    for (way, heard, accepted, refused, reply) in desks {
        let mut case = Case::about(text("field 31;in;relu 0 2 4"));
        case.desk = Desk { heard, accepted, refused };
        all.push(Directed::new(way, Call::Desk, case.clone(), reply));
        // 19 and 20 come before all, so also before a refused list and a wrong table.
        let fits = reply == (0, 0);
        case.table.pop();
        all.push(Directed::new(way, Call::Desk, case.clone(), if fits { (13, 0) } else { reply }));
        case.list.clear();
        all.push(Directed::new(way, Call::Desk, case, if fits { (2, 0) } else { reply }));
    }
    all
}
