//! Directed cases about the program, chapter 11 of the format: its own refusals and their order
//! (FORMAT 11.11), its limits, and the worked tables of chapter 12, P1 to P11, as standard inputs.

use super::directed::{longest, Call, Directed};
use super::{program_text, text, Case};

/// The input lines after a list of one input, and the program's reply.
const INPUT_LINES: [(&str, (u64, u64)); 22] = [
    ("-3", (0, 0)),
    ("0", (0, 0)),
    ("", (3, 4)),
    ("-", (3, 4)),
    ("-0", (3, 4)),
    ("03", (3, 4)),
    ("+3", (3, 4)),
    ("3 4", (3, 4)),
    ("3 ", (3, 4)),
    ("2147483648", (3, 4)),
    ("-2147483648", (3, 4)),
    ("end", (3, 4)),
    ("3;x", (3, 5)),
    ("99;x", (3, 5)),
    ("x;x", (3, 4)),
    ("3;4", (16, 0)),
    ("99;99", (16, 0)),
    ("16", (17, 0)),
    ("-16", (17, 0)),
    ("2147483647", (17, 0)),
    ("-2147483647", (17, 0)),
    ("8", (18, 2)),
];

/// The program's own refusals and their order (FORMAT 11.2, 11.3, 11.6, 11.11).
pub fn programs() -> Vec<Directed> {
    let start = "field 31;in;relu 0 2 4;end";
    let line = |&(input, reply): &(&str, (u64, u64))| {
        program(input, text(&format!("{start};{input}")), reply)
    };
    let mut all: Vec<Directed> = INPUT_LINES.iter().map(line).collect();
    let long = [longest(), b"x".to_vec()].concat();
    all.extend([
        program("no input", text(start), (16, 0)),
        program("field line alone", text("field 31;end"), (0, 0)),
        program("empty input", Vec::new(), (2, 0)),
        program("byte 10 alone", text(""), (2, 0)),
        program("end alone", text("end"), (2, 0)),
        program("end missing", text("field 31;in;3"), (2, 0)),
        program("end without byte 10", b"field\t31\nend".to_vec(), (2, 0)),
        program("input without byte 10", b"field\t31\nin\nend\n3".to_vec(), (2, 0)),
        program("end twice", text("field 31;end;end"), (3, 2)),
        program("refused list before a wrong input", text("field 31;in;on;end;x"), (3, 2)),
        program("over 65,536 bytes in all", long, (1, 0)),
        program("65,536 bytes in all", program_of_most_bytes("1073741823"), (0, 0)),
        program("65,537 bytes in all", program_of_most_bytes("-1073741823"), (1, 0)),
        program("65,536 bytes without end", longest(), (2, 0)),
        program("a list and end of 65,540 bytes", [longest(), text("end")].concat(), (1, 0)),
    ]);
    for no_end in ["end ", " end", "end 0", "endx", "xend", "END", "end\r", "en", "end\0", "-end"] {
        let lines = text(&format!("field 31;in;{no_end};3"));
        all.push(program("no line end", lines, (2, 0)));
        let later = text(&format!("field 31;in;{no_end};end;3"));
        all.push(program("end after what is no end", later, (3, 2)));
    }
    all.extend(many_inputs());
    all
}

/// As many inputs as there can be, and more.
fn many_inputs() -> Vec<Directed> {
    let inputs = |wanted: usize, given: usize, last: &str| {
        let start = format!("field 31{};end", ";in".repeat(wanted));
        text(&format!("{start}{}{last}", ";-15".repeat(given)))
    };
    // The list of one input and `end` are lines 0, 1 and 2.
    vec![
        program("256 inputs", inputs(256, 256, ""), (0, 0)),
        program("255 inputs for 256", inputs(256, 255, ""), (16, 0)),
        program("257 inputs for 256", inputs(256, 257, ""), (16, 0)),
        program("256 inputs, the last off", inputs(256, 255, ";16"), (17, 255)),
        program("256 inputs, the last no number", inputs(256, 255, ";-"), (3, 513)),
        program("257 inputs, the last no number", inputs(256, 256, ";-"), (3, 514)),
        program("257 in lines", inputs(257, 257, ""), (8, 257)),
        program("10,000 inputs for 1", inputs(1, 10_000, ""), (16, 0)),
        program("10,000 inputs and one off", inputs(1, 10_000, ";16"), (16, 0)),
        program("10,000 inputs and no number", inputs(1, 10_000, ";x"), (3, 10_003)),
        program("10,000 inputs for none", inputs(0, 10_000, ""), (16, 0)),
        program("a long answer", long_answer(), (0, 0)),
    ]
}

/// A list of 4,096 cells, of which most hold remainders of ten digits.
fn long_answer() -> Vec<u8> {
    let mut list = "field 2147483647;in;span 0 2 30 0".to_string();
    let long = 2_700;
    list += &";span 0 2000000000 1 0".repeat(long);
    let left = 4_096 - 31 - long;
    list += &";span 0 2 30 0".repeat(left / 30);
    list += &format!(";span 0 2 {} 1073741823", left % 30);
    text(&format!("{list};end;1073741823"))
}

/// What the program reads for a long list, five inputs, and this one of ten digits as the first:
/// 65,536 bytes, or one more where it has a sign.
fn program_of_most_bytes(first: &str) -> Vec<u8> {
    let list = longest();
    let inputs = text(&format!("end;{first};1073741823;0;0;0"));
    [&list[..list.len() - 32], &inputs].concat()
}

fn program(way: &str, stdin: Vec<u8>, reply: (u64, u64)) -> Directed {
    let case = Case { stdin, ..Case::about(text("field 31;in;relu 0 2 4")) };
    Directed::new(&format!("program: {way}"), Call::Program, case, reply)
}

/// A worked table of the format: its label, list, inputs and reply.
type Worked = (&'static str, &'static str, &'static [i64], (u64, u64));

/// P1 to P11, but for P5 and P6, which are about checking; the field line alone (FORMAT 8.15); and
/// the mistake of FORMAT 12.13.
const WORKED: [Worked; 22] = [
    ("FORMAT 12.1", "field 31;in;relu 0 2 4", &[-3], (0, 0)),
    ("FORMAT 12.2", "field 31;in;relu 0 2 4", &[5], (0, 0)),
    ("FORMAT 12.3", "field 31;in;relu 0 2 4", &[-8], (0, 0)),
    ("FORMAT 12.4", "field 31;in;relu 0 2 4", &[8], (18, 2)),
    ("FORMAT 12.4", "field 31;in;relu 0 2 4", &[-9], (18, 2)),
    ("FORMAT 12.7", "field 31;in;root 0 2 2", &[3], (0, 0)),
    ("FORMAT 12.7", "field 31;in;root 0 2 2", &[4], (18, 2)),
    ("FORMAT 12.7", "field 31;in;root 0 2 1", &[3], (10, 2)),
    ("FORMAT 12.8", "field 101;in;span 0 5 2 -27", &[-18], (0, 0)),
    ("FORMAT 12.8", "field 101;in;span 0 5 2 -27", &[-27], (0, 0)),
    ("FORMAT 12.8", "field 101;in;span 0 5 2 -27", &[-3], (0, 0)),
    ("FORMAT 12.8", "field 101;in;span 0 5 2 -27", &[22], (18, 2)),
    ("FORMAT 12.9", "field 31;in;span 0 2 4 0", &[0], (0, 0)),
    ("FORMAT 12.9", "field 31;in;span 0 2 4 1", &[1], (10, 2)),
    ("FORMAT 12.9", "field 31;in;span 0 31 1 -15", &[15], (0, 0)),
    ("FORMAT 12.9", "field 31;in;span 0 2 5 -15", &[0], (10, 2)),
    ("FORMAT 12.10", "field 31;in;in;max 0 1 2 3", &[3, 6], (10, 3)),
    ("FORMAT 12.10", "field 31;in;in;span 0 2 3 0;span 1 2 3 0;max 0 1 2 3", &[3, 6], (0, 0)),
    ("FORMAT 12.10", "field 31;in;in;span 0 2 3 0;span 1 2 3 0;which 0 1 2 4", &[2, 2], (0, 0)),
    ("FORMAT 12.11", "field 101;in;span 0 2 5 0;sum 0 2 0", &[1], (11, 3)),
    ("a field line alone", "field 31", &[], (0, 0)),
    ("max over unspanned values", "field 31;in;in;max 0 1 2 1", &[15, -15], (10, 3)),
];

/// P1 to P11, each with its clause as label: making, the program, and checking for P5 and P6.
pub fn worked() -> Vec<Directed> {
    let mut all = Vec::new();
    for (name, list, inputs, reply) in WORKED {
        let made = Directed::make(name, list, inputs, reply);
        all.push(Directed { call: Call::Program, ..made.clone() });
        all.push(made);
    }
    for (name, cell, remainder, row) in [("FORMAT 12.5", 1, 28, 8), ("FORMAT 12.6", 7, 1, 7)] {
        let input = if name == "FORMAT 12.5" { -3 } else { 5 };
        let mut case = Case::about(text("field 31;in;relu 0 2 4"));
        crate::make(&case.list, &[input], &mut case.table);
        case.table.iter_mut().skip(cell).take(1).for_each(|kept| *kept = remainder);
        case.inputs = vec![input];
        case.stdin = program_text(&case.list, &case.inputs);
        all.push(Directed::new(name, Call::Check, case, (15, row)));
    }
    all
}
