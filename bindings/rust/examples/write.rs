//! Writes the list of P1 (FORMAT 12.1) from words and numbers, prints it, and reads it back.

use digit_table::{read, write, Line, Refusal, Word};

fn main() -> Result<(), Refusal> {
    let lines = [
        Line { word: Word::Field, numbers: &[31] },
        Line { word: Word::In, numbers: &[] },
        Line { word: Word::Relu, numbers: &[0, 2, 4] },
    ];
    let mut buffer = [0; 100];
    let length = write(&lines, &mut buffer)?;
    let list = &buffer[..length];
    print!("{}", String::from_utf8_lossy(list));
    println!("written: {length} bytes");
    println!("read: {:?}", read(list)?);

    // Refusals: a buffer that is one byte too short, and a value that no line before has made.
    println!("in {} bytes: {:?}", length - 1, write(&lines, &mut buffer[..length - 1]));
    let wrong = [lines[0], lines[1], Line { word: Word::Relu, numbers: &[1, 2, 4] }];
    println!("of value 1: {:?}", write(&wrong, &mut buffer));
    Ok(())
}
