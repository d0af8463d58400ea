//! P1 (FORMAT 12.1): makes the table of -3, prints it as the program does, and checks it at a desk.

use digit_table::{make, read, show, Desk, Refusal};

fn main() -> Result<(), Refusal> {
    let list = b"field\t31\nin\nrelu\t0\t2\t4\n";
    let mut table = vec![0; read(list)?.cells];
    make(list, &[-3], &mut table)?;
    println!("table\t{}", table.len());
    for (cell, remainder) in table.iter().enumerate() {
        println!("{cell}\t{remainder}");
    }

    let mut desk = Desk::fresh();
    println!("checked: {:?}", desk.call(list, &table));

    // P5: a table with the input in the cell of the output is refused, at row 8.
    table[1] = table[0];
    println!("with cell 1 = {}: {:?}", table[1], desk.call(list, &table));
    println!("{desk:?}");
    println!("line 2: {:?}", show(list, &table, 2));
    Ok(())
}
