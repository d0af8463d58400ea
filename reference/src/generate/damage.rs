//! Texts that are mostly refused: wild lines, damaged bytes, random bytes, long texts.

use super::lists::{line, m, prime, suggestion, Draft};
use super::{program_text, Dice};
use crate::plan::MOST_BYTES;

/// The words of the lines, and how many numbers follow each (a sum may have more).
pub const WORDS: [(&str, usize); 8] = [
    ("field", 1),
    ("in", 0),
    ("span", 4),
    ("sum", 1),
    ("relu", 3),
    ("which", 4),
    ("max", 4),
    ("root", 3),
];

/// The text with one byte changed, dropped, inserted or doubled.
pub fn one_byte(dice: &mut Dice, text: &[u8]) -> Vec<u8> {
    let mut text = text.to_vec();
    let place = dice.below(text.len() as u64) as usize;
    let byte = damaging_byte(dice);
    match dice.below(5) {
        0 => text[place] = byte,
        1 => text[place] ^= 1 << dice.below(8),
        2 => {
            text.remove(place);
        }
        3 => text.insert(place, byte),
        _ => text.insert(place, text[place]),
    }
    text
}

/// A byte that means something in a list mostly, else any.
fn damaging_byte(dice: &mut Dice) -> u8 {
    if dice.once_in(3) {
        return dice.draw() as u8;
    }
    dice.pick(b"0123456789-+\t\n \rains.\x00\x80\xff")
}

/// The draft with one line of any numbers put in before some line or after the last.
pub fn with_wild_line(dice: &mut Dice, draft: &Draft) -> Vec<u8> {
    let mut lines: Vec<Vec<u8>> =
        draft.text.split_inclusive(|&b| b == b'\n').map(Vec::from).collect();
    let place = 1 + dice.below(lines.len() as u64) as usize;
    let values = draft.plan.ends.len() as i64;
    let wild = wild_line(dice, draft.plan.p, values);
    lines.insert(place, format!("{wild}\n").into_bytes());
    lines.concat()
}

/// The draft with one more line, suggested as one to be read, of which one number is nudged.
/// As suggestions often lie at the edge of a rule, this is often one step over it.
pub fn with_nudged_line(dice: &mut Dice, draft: &Draft) -> Vec<u8> {
    let suggested = suggestion(dice, &draft.plan);
    let mut fields: Vec<String> = suggested.split('\t').map(String::from).collect();
    let place = dice.below(fields.len() as u64) as usize;
    if let Ok(number) = fields[place].parse::<i64>() {
        let step = dice.pick(&[0, 1, -1, 1, -1, 2, -2, number, -number]);
        fields[place] = (number + step).to_string();
    }
    format!("{}{}\n", String::from_utf8_lossy(&draft.text), fields.join("\t")).into_bytes()
}

/// A list of wild lines after the field line, or from the first line on.
pub fn wild_lines(dice: &mut Dice) -> Vec<u8> {
    let p = prime(dice);
    let mut list = String::new();
    if !dice.once_in(4) {
        let p = if dice.once_in(3) { wild_number(dice, p) } else { p };
        list = format!("{}\n", line("field", &[p]));
    }
    for count in 0..1 + dice.below(5) {
        list += &format!("{}\n", wild_line(dice, p, count as i64));
    }
    list.into_bytes()
}

/// A known word with numbers by chance; once in a while not as many as it takes.
fn wild_line(dice: &mut Dice, p: i64, values: i64) -> String {
    let (word, mut count) = dice.pick(&WORDS);
    if word == "sum" {
        count += 2 * dice.below(4) as usize;
    }
    if dice.once_in(10) {
        count = dice.below(8) as usize;
    }
    let mut numbers: Vec<i64> = (0..count).map(|_| wild_number(dice, p)).collect();
    // The first number is a name for most words: one that is made, mostly.
    if count > 1 && word != "sum" && !dice.once_in(4) {
        numbers[0] = dice.range(0, values - 1);
    }
    line(word, &numbers)
}

/// A number at some edge of the rules, or a small one.
fn wild_number(dice: &mut Dice, p: i64) -> i64 {
    let m = (p - 1) / 2;
    let edges = [-1, 0, 1, 2, 3, 31, 32, m, m + 1, -m, -m - 1, p - 1, p, p + 1, 2_147_483_647];
    match dice.below(4) {
        0 => dice.pick(&edges).clamp(-2_147_483_647, 2_147_483_647),
        1 => dice.range(-2_147_483_647, 2_147_483_647),
        _ => dice.range(-1, 6),
    }
}

/// Bytes by chance: any, or such as stand in lists; among them the empty text.
pub fn random_bytes(dice: &mut Dice) -> Vec<u8> {
    let length = if dice.once_in(6) { 0 } else { dice.below(80) };
    let any = dice.once_in(2);
    (0..length).map(|_| if any { dice.draw() as u8 } else { damaging_byte(dice) }).collect()
}

/// The draft with lines added until it has as many values or cells as are allowed, or one more.
pub fn at_limit(dice: &mut Dice, draft: &Draft) -> Vec<u8> {
    let over = dice.below(2) as usize;
    let (line, left) = if dice.once_in(2) {
        ("sum\t0\n", 256 - draft.plan.ends.len())
    } else {
        ("span\t0\t2\t1\t0\n", 4_096 - draft.plan.cells)
    };
    [&draft.text, line.repeat(left + over).as_bytes()].concat()
}

/// The draft's text made as long as is allowed, or one byte longer, by spans or by a long line.
pub fn long_text(dice: &mut Dice, draft: &Draft) -> Vec<u8> {
    let length = MOST_BYTES + dice.below(2) as usize;
    let mut text = draft.text.clone();
    let span = format!("{}\n", line("span", &[0, draft.plan.p, 1, -m(&draft.plan)]));
    if dice.once_in(2) {
        while text.len() + span.len() <= length {
            text.extend(span.bytes());
        }
    }
    text.resize(length - 1, b'7');
    text.push(b'\n');
    text
}

/// What the program reads for a list and inputs, now and then spoilt.
pub fn program_input(dice: &mut Dice, list: &[u8], inputs: &[i64]) -> Vec<u8> {
    let whole = program_text(list, inputs);
    match dice.below(16) {
        0 => one_byte(dice, &whole),
        1 => whole[..whole.len() - 1].to_vec(),
        2 => list.to_vec(),
        3 => [&whole, &b"end\n"[..]].concat(),
        4 => {
            let bad =
                dice.pick(&["", "-0", "01", "2147483648", "x", "1\t2", " 1", "1\r", "\u{e9}"]);
            [&whole, bad.as_bytes(), b"\n"].concat()
        }
        5 => [&b"end\n"[..], &whole].concat(),
        _ => whole,
    }
}
