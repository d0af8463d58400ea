//! The program itself, over standard input and output (FORMAT 11.1).

use std::io::{copy, sink, stdin, stdout, Read, Result, Write};

fn main() -> Result<()> {
    let mut source = stdin().lock();
    let mut input = Vec::new();
    // One byte over the limit decides refusal 1 (FORMAT 11.2); what is left is read but not kept,
    // which is more than FORMAT 11.1 says: see READINGS.md.
    source.by_ref().take(65_537).read_to_end(&mut input)?;
    copy(&mut source, &mut sink())?;
    stdout().lock().write_all(&reference::respond(&input))
}
