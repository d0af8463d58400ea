//! Directed cases about single lines, chapters 2, 3 and 4 of the format: refusals 3, 4, 5, 6 and 7.

use super::directed::Directed;
use super::text;

/// Before each line under test: two inputs from 0 to 7, so that every line below is read here.
const BEFORE: &str = "field 31;in;in;span 0 2 3 0;span 1 2 3 0";
/// The place of the line after these.
const PLACE: u64 = 5;
/// One good line for each word but `field`.
const LINES: [&str; 7] = [
    "in",
    "span 0 2 4 0",
    "sum 3 1 0 -1 1",
    "relu 0 2 4",
    "which 0 1 2 4",
    "max 0 1 2 3",
    "root 0 2 2",
];

/// The line under test after the usual ones.
fn after(way: &str, line: &[u8], reply: (u64, u64)) -> Directed {
    let list = [&text(BEFORE)[..], line, b"\n"].concat();
    Directed::list(&format!("{way}: {}", String::from_utf8_lossy(line)), list, reply)
}

/// The line as `text` takes it, as bytes without byte 10.
fn bytes(line: &str) -> Vec<u8> {
    let mut bytes = text(line);
    bytes.pop();
    bytes
}

/// Refusal 3 by the word and by the count of fields (FORMAT 10.3).
pub fn wrong_words() -> Vec<Directed> {
    let mut all = Vec::new();
    for line in LINES {
        all.push(after("good line", &bytes(line), (0, 0)));
        let more = [" ", " 0", " 0 0 0", " \t0"].map(|end| bytes(&format!("{line}{end}")));
        let odd = ["\r", "\0", "\u{a0}", ","].map(|end| bytes(&format!("{line}{end}")));
        let before = [" ", "-", "x", "\u{feff}"].map(|start| bytes(&format!("{start}{line}")));
        for wrong in more.into_iter().chain(odd).chain(before) {
            all.push(after("wrong fields", &wrong, (3, PLACE)));
        }
        if line.contains(' ') {
            let fewer = &line[..line.rfind(' ').unwrap_or(0)];
            let doubled = line.replacen(' ', "  ", 1);
            all.push(after("one field fewer", &bytes(fewer), (3, PLACE)));
            all.push(after("two tabs", &bytes(&doubled), (3, PLACE)));
            all.push(after("blanks for tabs", line.as_bytes(), (3, PLACE)));
        }
        all.push(after("great letters", &bytes(&line.to_uppercase()), (3, PLACE)));
    }
    for word in ["", "\t", "end", "min 0 1 2 3", "i", "inn", "span", "sum", "relu", "root 0 2"] {
        all.push(after("wrong word", &bytes(word), (3, PLACE)));
    }
    let pairs = |count| bytes(&format!("sum 0{}", " 0 0".repeat(count)));
    all.push(after("no pair", &pairs(0), (0, 0)));
    all.push(after("16 pairs", &pairs(16), (0, 0)));
    all.push(after("17 pairs", &pairs(17), (3, PLACE)));
    all.push(after("300 pairs", &pairs(300), (3, PLACE)));
    for line in ["field", "field ", "field 31 ", "field 31 31", "fields 31", "Field 31", "field\r"]
    {
        all.push(Directed::list("wrong first line", text(line), (3, 0)));
    }
    all
}

/// Texts that are no numbers (FORMAT 2.5, 2.6).
const NO_NUMBERS: [&[u8]; 32] = [
    b"",
    b"-",
    b"--1",
    b"-0",
    b"00",
    b"01",
    b"-01",
    b"000",
    b"+1",
    b"+0",
    b" 1",
    b"1 ",
    b"1\r",
    b"\r",
    b"1.0",
    b"1e1",
    b"0x1",
    b"1_0",
    b"1-",
    b"a",
    b"12345678901",
    b"00000000001",
    b"2147483648",
    b"-2147483648",
    b"4294967297",
    b"9999999999",
    b"18446744073709551617",
    b"\xd9\xa1",
    b"\x80",
    b"1\xff",
    b"\0",
    b"1\0",
];

/// Refusal 3 by each text that is no number, at each place of a number in each line.
pub fn wrong_numbers() -> Vec<Directed> {
    let mut all = Vec::new();
    for line in LINES {
        let good = bytes(line);
        let fields: Vec<&[u8]> = good.split(|&byte| byte == b'\t').collect();
        for place in 1..fields.len() {
            for wrong in NO_NUMBERS {
                let mut fields = fields.clone();
                fields[place] = wrong;
                all.push(after("no number", &fields.join(&b'\t'), (3, PLACE)));
            }
        }
    }
    for wrong in NO_NUMBERS {
        let list = [b"field\t", wrong, b"\n"].concat();
        all.push(Directed::list("no number for p", list, (3, 0)));
    }
    all
}

/// Numbers that are no odd prime: even, negative, products and squares of primes.
/// Among them 251², 257², 257·263 and 46,337², about the end of the table of small primes and
/// close to the greatest p.
const NO_ODD_PRIMES: [i64; 32] = [
    0,
    1,
    2,
    -1,
    -2,
    -3,
    -31,
    -2_147_483_647,
    4,
    6,
    8,
    9,
    15,
    25,
    49,
    77,
    121,
    169,
    255,
    256,
    341,
    561,
    63_001,
    66_049,
    67_591,
    65_535,
    65_536,
    2_147_117_569,
    2_147_483_646,
    2_147_483_645,
    1_073_741_823,
    1_000_000_000,
];

/// Odd primes: small ones, those about 256, and the greatest.
const ODD_PRIMES: [i64; 16] = [
    3,
    5,
    7,
    11,
    13,
    17,
    31,
    101,
    251,
    257,
    263,
    65_521,
    65_537,
    2_147_483_563,
    2_147_483_629,
    2_147_483_647,
];

/// Refusals 4 and 5 (FORMAT 10.4, 10.5, 13.4).
pub fn field_lines() -> Vec<Directed> {
    let mut all = Vec::new();
    for line in LINES {
        all.push(Directed::list("line 0 not field", text(line), (4, 0)));
        let later = format!("{line};field 31");
        all.push(Directed::list("field not first", text(&later), (4, 0)));
    }
    all.push(Directed::list("line 0 with every fault", text("relu 9 0 99"), (4, 0)));
    all.push(Directed::list("field twice", text("field 31;field 31"), (4, 1)));
    for (line, number) in [("field 31", 4), ("field 4", 4), ("field 0", 4), ("field x", 3)] {
        all.push(after("field later", &bytes(line), (number, PLACE)));
    }
    for p in NO_ODD_PRIMES {
        all.push(Directed::list("no odd prime", text(&format!("field {p};in")), (5, 0)));
    }
    for p in ODD_PRIMES {
        all.push(Directed::list("an odd prime", text(&format!("field {p};in")), (0, 0)));
    }
    all
}

/// Refusal 6 (FORMAT 10.6): b, k, L, c0 and each coefficient, off both sides and just within.
pub fn ranges() -> Vec<Directed> {
    let mut all = Vec::new();
    let groups = ["span 0 B K 0", "relu 0 B K", "which 0 1 B K", "max 0 1 B K", "root 0 B K"];
    for group in groups {
        for (b, k) in off_digits() {
            let line = group.replace('B', &b.to_string()).replace('K', &k.to_string());
            all.push(after("b or k off", &bytes(&line), (6, PLACE)));
            // 6 comes before 7, 10 and 12.
            let far = line.replacen(" 0 ", " 99 ", 1);
            all.push(after("b or k off, far name", &bytes(&far), (6, PLACE)));
        }
        for (b, k) in [(2, 31), (2_147_483_647, 31), (2_147_483_647, 1), (32, 1)] {
            let line = group.replace('B', &b.to_string()).replace('K', &k.to_string());
            all.push(after("great b or k in range", &bytes(&line), (10, PLACE)));
        }
    }
    for off in [16, -16, 31, 2_147_483_647, -2_147_483_647] {
        all.push(after("L off", &bytes(&format!("span 0 2 3 {off}")), (6, PLACE)));
        all.push(after("c0 off", &bytes(&format!("sum {off}")), (6, PLACE)));
        all.push(after("c0 off, far name", &bytes(&format!("sum {off} 1 9")), (6, PLACE)));
        for at in 0..16 {
            let line = format!("sum 0{} {off} 0{}", " 0 0".repeat(at), " 0 0".repeat(15 - at));
            all.push(after("coefficient off", &bytes(&line), (6, PLACE)));
        }
    }
    for within in [15, -15] {
        all.push(after("c0 at its end", &bytes(&format!("sum {within}")), (0, 0)));
        let zero = format!("{BEFORE};sum 0;sum 0 {within} 2");
        all.push(Directed::list("coefficient at its end", text(&zero), (0, 0)));
        let span = format!("field 31;in;span 0 31 1 -15;sum {within};span 1 2 1 {within}");
        all.push(Directed::list("L at its end", text(&span), (0, 0)));
    }
    all
}

/// Pairs of b and k of which one is off its range, or both.
fn off_digits() -> Vec<(i64, i64)> {
    let off_b = [1, 0, -1, -2, -2_147_483_647].map(|b| (b, 3));
    let off_k = [0, -1, 32, 33, 64, 2_147_483_647, -2_147_483_647].map(|k| (2, k));
    off_b.into_iter().chain(off_k).chain([(0, 0), (1, 1), (2_147_483_647, 32)]).collect()
}

/// Refusal 7 at each name of each line (FORMAT 10.7).
pub fn names() -> Vec<Directed> {
    let mut all = Vec::new();
    let lines = [
        "span N 2 4 0",
        "sum 0 1 N",
        "sum 0 0 0 0 N",
        "sum 0 0 N 0 0",
        "relu N 2 4",
        "which N 1 2 4",
        "which 0 N 2 4",
        "max N 1 2 3",
        "max 0 N 2 3",
        "root N 2 2",
        "root N 2 31",
    ];
    for line in lines {
        // 2 is the number of the value that the line itself would make.
        for name in [2, 3, 255, 256, 2_147_483_647, -1, -2, -2_147_483_647] {
            let line = line.replace('N', &name.to_string());
            all.push(after("no such value", &bytes(&line), (7, PLACE)));
        }
    }
    for line in &LINES[1..] {
        all.push(Directed::list("no value at all", text(&format!("field 31;{line}")), (7, 1)));
    }
    all
}
