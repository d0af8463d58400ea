//! Writing (FORMAT 9.23 to 9.28): the replies and texts of the lines built on purpose, and what
//! must hold for the lines of every generated list.

use reference::generate::{cases, cut, directed, large, sources, text, writings, Case, Dice, Rows};
use reference::{read, write};
use std::collections::BTreeSet;

const SEED: u64 = 2025;
const BUDGET: u64 = 12_000;

/// A buffer of so many bytes, of which none can stand in a list.
fn blank(room: usize) -> Vec<u8> {
    (0..room).map(|at| (at % 128) as u8 + 128).collect()
}

/// The reply of writing, and the buffer afterwards.
fn wrote(rows: &Rows, room: usize) -> ((u64, u64), Vec<u8>) {
    let mut buffer = blank(room);
    (rows.write(&mut buffer), buffer)
}

/// The buffer that begins with a text and is untouched after it (FORMAT 9.27).
fn begun(text: &[u8], room: usize) -> Vec<u8> {
    [text, &blank(room)[text.len()..]].concat()
}

/// Every list that is generated.
fn lists() -> impl Iterator<Item = Vec<u8>> {
    let on_purpose = directed().into_iter().chain(sources()).map(|directed| directed.case);
    let drawn = (0..4).map(large).chain(cases(SEED, BUDGET));
    on_purpose.chain(drawn).map(|Case { list, .. }| list)
}

/// The list of FORMAT 12.1, with the rest of the buffer untouched.
#[test]
fn p1_is_written() {
    let mut buffer = [7; 30];
    let reply = write(&[0, 1, 4], &[1, 0, 3], &[31, 0, 2, 4], &mut buffer);
    assert_eq!(reply, (0, 23));
    assert_eq!(buffer[..23], text("field 31;in;relu 0 2 4"));
    assert_eq!(buffer[23..], [7; 7]);
}

/// FORMAT 10.21: as many bytes as the text has are enough, and one fewer is not.
#[test]
fn p1_in_short_buffers() {
    for room in 0..30 {
        let mut buffer = vec![7; room];
        let reply = write(&[0, 1, 4], &[1, 0, 3], &[31, 0, 2, 4], &mut buffer);
        assert_eq!(reply, if room < 23 { (21, 0) } else { (0, 23) });
        assert!(room >= 23 || buffer == vec![7; room]);
    }
}

#[test]
fn lines_built_on_purpose_get_their_replies_and_texts() {
    let all = writings();
    println!("{} writings", all.len());
    for writing in &all {
        let right = (writing.reply, begun(&writing.text, writing.room));
        assert_eq!(wrote(&writing.rows, writing.room), right, "{}", writing.way);
    }
    let reached: BTreeSet<u64> = all.iter().map(|writing| writing.reply.0).collect();
    assert_eq!(reached, (0..=12).chain([21]).collect());
}

/// FORMAT 9.28: what is read is written byte for byte. FORMAT 9.26: what is refused gets the
/// reader's refusal, also where the buffer is empty.
#[test]
fn lists_come_back_byte_for_byte() {
    let (mut written, mut refused) = (0, 0);
    for list in lists() {
        let (cut, length) = (cut(&list), list.len());
        match read(&list) {
            Ok(_) => {
                assert!(cut.whole);
                for room in [length, length + 5] {
                    assert_eq!(wrote(&cut.rows, room), ((0, length as u64), begun(&list, room)));
                }
                assert_eq!(wrote(&cut.rows, length - 1), ((21, 0), blank(length - 1)));
                written += 1;
            }
            Err(refusal) if cut.whole => {
                for room in [0, length] {
                    let right = ((refusal.number, refusal.place), blank(room));
                    assert_eq!(wrote(&cut.rows, room), right);
                }
                refused += 1;
            }
            Err(_) => {}
        }
    }
    println!("{written} written, {refused} refused");
    assert!(written > 10_000 && refused > 3_000);
}

/// FORMAT 9.28: what is written is read, as the lines that were given; nothing else is
/// (FORMAT 9.27).
#[test]
fn damaged_lines_are_written_as_they_are_or_refused() {
    let mut reached = BTreeSet::new();
    for (index, list) in lists().enumerate() {
        let rows = cut(&list).rows.damaged(&mut Dice::new(SEED, index as u64));
        let room = 70_000 - index % 2 * 69_900;
        let (reply, buffer) = wrote(&rows, room);
        reached.insert(reply.0);
        match reply {
            (0, length) => {
                let text = &buffer[..length as usize];
                assert!(read(text).is_ok());
                assert_eq!(buffer, begun(text, room));
                assert_eq!(cut(text).rows, looked_at(rows));
            }
            _ => assert_eq!(buffer, blank(room)),
        }
    }
    assert_eq!(reached, (0..=12).chain([21]).collect());
}

/// The rows with one count for each word, and no number that no count takes (FORMAT 9.25).
fn looked_at(mut rows: Rows) -> Rows {
    rows.counts.resize(rows.words.len(), 0);
    rows.numbers.truncate(rows.counts.iter().sum());
    rows
}
