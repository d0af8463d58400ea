//! The format's own worked tables P1 to P11 (FORMAT 12.1 and on), its program's example
//! (FORMAT 11.12), and the five mistakes that it names, each with the reply that it gives.

use super::directed::{Call, Directed};
use super::sources::Example;
use super::{text, Case};

pub fn cases() -> Vec<Directed> {
    [
        relus(),
        roots_and_spans(),
        values_of_two(),
        program(),
        w_is_not_free(),
        unspanned_maximum(),
        cell_of_p(),
        compared_remainders(),
        condition_of_004(),
    ]
    .concat()
}

const RELU: &str = "field 31;in;relu 0 2 4";

const fn worked(place: &'static str, list: &'static str) -> Example {
    Example { place, list }
}

/// P1 to P6 (FORMAT 12.1, 12.2, 12.3, 12.4, 12.5, 12.6).
fn relus() -> Vec<Directed> {
    [
        worked("FORMAT 12.1", RELU).counts([31, 2, 8, 9]),
        worked("FORMAT 12.1", RELU).holds(&[-3], &[28, 0, 1, 0, 1, 0, 0, 30]),
        worked("FORMAT 12.2", RELU).holds(&[5], &[5, 5, 1, 0, 1, 1, 1, 0]),
        worked("FORMAT 12.3", RELU).holds(&[-8], &[23, 0, 0, 0, 0, 0, 0, 30]),
        worked("FORMAT 12.4", RELU).makes(&[8], (18, 2)),
        worked("FORMAT 12.4", RELU).makes(&[-9], (18, 2)),
        worked("FORMAT 12.5", RELU).offers(&[-3], &[28, 28, 1, 0, 1, 0, 0, 30], (15, 8)),
        worked("FORMAT 12.6", RELU).offers(&[5], &[5, 5, 1, 0, 1, 1, 1, 1], (15, 7)),
    ]
    .concat()
}

/// P7, P8, P9 and P11 (FORMAT 12.7, 12.8, 12.9, 12.11).
fn roots_and_spans() -> Vec<Directed> {
    let root = worked("FORMAT 12.7", "field 31;in;root 0 2 2");
    let span = worked("FORMAT 12.8", "field 101;in;span 0 5 2 -27");
    [
        root.counts([31, 2, 11, 13]),
        root.holds(&[3], &[3, 1, 1, 1, 1, 1, 0, 0, 1, 0, 0]),
        root.makes(&[4], (18, 2)),
        worked("FORMAT 12.7", "field 31;in;root 0 2 1").reads((10, 2)),
        span.counts([101, 1, 3, 3]),
        span.holds(&[-18], &[83, 4, 1]),
        span.holds(&[-27], &[74, 0, 0]),
        span.holds(&[-3], &[98, 4, 4]),
        span.makes(&[22], (18, 2)),
        worked("FORMAT 12.9", "field 31;in;span 0 2 4 0").counts([31, 1, 5, 5]),
        worked("FORMAT 12.9", "field 31;in;span 0 2 4 1").reads((10, 2)),
        worked("FORMAT 12.9", "field 31;in;span 0 31 1 -15").counts([31, 1, 2, 2]),
        worked("FORMAT 12.9", "field 31;in;span 0 2 5 -15").reads((10, 2)),
        worked("FORMAT 12.11", "field 101;in;span 0 2 5 0;sum 0 2 0").reads((11, 3)),
    ]
    .concat()
}

/// P10 (FORMAT 12.10).
fn values_of_two() -> Vec<Directed> {
    let maximum = worked("FORMAT 12.10", "field 31;in;in;span 0 2 3 0;span 1 2 3 0;max 0 1 2 3");
    let which = worked("FORMAT 12.10", "field 31;in;in;span 0 2 3 0;span 1 2 3 0;which 0 1 2 4");
    [
        worked("FORMAT 12.10", "field 31;in;in;max 0 1 2 3").reads((10, 3)),
        maximum.counts([31, 3, 15, 17]),
        maximum.holds(&[3, 6], &[3, 6, 1, 1, 0, 0, 1, 1, 6, 1, 1, 0, 0, 0, 0]),
        which.counts([31, 3, 15, 17]),
        which.holds(&[2, 2], &[2, 2, 0, 1, 0, 0, 1, 0, 0, 0, 0, 0, 1, 1, 0]),
    ]
    .concat()
}

/// The program's example (FORMAT 11.12), and the list of the field line alone, whose table is empty
/// (FORMAT 8.15).
fn program() -> Vec<Directed> {
    let case = Case { stdin: text("field 31;in;relu 0 2 4;end;-3"), ..Case::about(text(RELU)) };
    let example = Directed::new("FORMAT 11.12: the program's example", Call::Program, case, (0, 0));
    [vec![example], worked("FORMAT 8.15", "field 31").holds(&[], &[])].concat()
}

/// The row w·f ≡ 0 left out (FORMAT 12.12): P2 with each w from 0 to 30, of which only 0 passes.
fn w_is_not_free() -> Vec<Directed> {
    let relu = worked("FORMAT 12.12", RELU);
    let table = |w: u32| [5, 5, 1, 0, 1, 1, 1, w];
    let others = (1..=30).flat_map(|w| relu.offers(&[5], &table(w), (15, 7)));
    relu.holds(&[5], &table(0)).into_iter().chain(others).collect()
}

/// A max over values that no span has narrowed (FORMAT 12.13): not read, whatever the digit count.
/// Between spanned values the lesser one fails in the last row of its group.
fn unspanned_maximum() -> Vec<Directed> {
    let place = "FORMAT 12.13";
    let one = worked(place, "field 31;in;in;max 0 1 2 1");
    let three = worked(place, "field 31;in;in;max 0 1 2 3");
    let spanned = worked(place, "field 31;in;in;span 0 2 3 0;span 1 2 3 0;max 0 1 2 3");
    let lesser = [3, 6, 1, 1, 0, 0, 1, 1, 3, 0, 0, 0, 1, 0, 1];
    let neither = [3, 6, 1, 1, 0, 0, 1, 1, 7, 0, 0, 1, 1, 0, 0];
    [
        one.reads((10, 3)),
        one.makes(&[15, -15], (10, 3)),
        one.offers(&[15, -15], &[15, 16, 16, 1, 0], (10, 3)),
        three.reads((10, 3)),
        three.makes(&[15, -15], (10, 3)),
        three.offers(&[15, -15], &[15, 16, 16, 1, 0, 0, 0, 0, 0], (10, 3)),
        spanned.makes(&[15, -15], (18, 3)),
        spanned.offers(&[3, 6], &lesser, (15, 16)),
        spanned.offers(&[3, 6], &neither, (15, 8)),
    ]
    .concat()
}

/// A cell of 31 taken for 0 (FORMAT 12.14): for the 0 in cell 1 of P1's table, alone, and for each
/// 0 of P3's table.
fn cell_of_p() -> Vec<Directed> {
    let place = "FORMAT 12.14";
    let mut all = worked(place, RELU).offers(&[-3], &[28, 31, 1, 0, 1, 0, 0, 30], (14, 1));
    all.extend(worked(place, "field 31;in").offers(&[0], &[31], (14, 0)));
    for cell in 1..7 {
        let mut table = [23, 0, 0, 0, 0, 0, 0, 30];
        table[cell] = 31;
        all.extend(worked(place, RELU).offers(&[-8], &table, (14, cell as u64)));
    }
    all
}

/// u ≥ v tested on remainders (FORMAT 12.15): -1 and 0 are 30 and 0, yet -1 is the lesser one. The
/// value is 1 with the digits of -1-0+8 = 7; 0 fails, with f = 1 too.
fn compared_remainders() -> Vec<Directed> {
    let place = "FORMAT 12.15";
    let which = worked(place, "field 31;in;in;span 0 2 3 -4;span 1 2 3 -4;which 0 1 2 4");
    let maximum = worked(place, "field 31;in;in;span 0 2 3 -4;span 1 2 3 -4;max 0 1 2 3");
    let spans = [30, 0, 1, 1, 0, 0, 0, 1];
    let with = |rest: &[u32]| [&spans[..], rest].concat();
    let other_way = [0, 30, 0, 0, 1, 1, 1, 0, 0, 1, 0, 0, 1, 1, 0];
    [
        which.holds(&[-1, 0], &with(&[1, 1, 1, 1, 0, 0, 30])),
        which.holds(&[0, -1], &other_way),
        which.offers(&[-1, 0], &with(&[0, 1, 1, 1, 0, 0, 30]), (15, 16)),
        which.offers(&[-1, 0], &with(&[0, 1, 1, 1, 0, 1, 0]), (15, 14)),
        maximum.holds(&[-1, 0], &with(&[0, 1, 0, 0, 0, 0, 0])),
        maximum.offers(&[-1, 0], &with(&[30, 0, 0, 0, 1, 1, 1]), (15, 16)),
    ]
    .concat()
}

/// (y+1)² ≤ c of source 004 taken for needed (FORMAT 12.16): with c = 5 the root of 4 is 2, though
/// (2+1)² is over 5. The smallest c that is allowed is 3, and the root of 1 and of 2 is 1, though
/// (1+1)² is over 3.
fn condition_of_004() -> Vec<Directed> {
    let place = "FORMAT 12.16";
    let five = worked(place, "field 53;in;root 0 5 1");
    let three = worked(place, "field 31;in;root 0 3 1");
    [
        five.holds(&[4], &[4, 2, 4, 4, 2, 0, 4]),
        three.holds(&[1], &[1, 1, 1, 1, 1, 0, 2]),
        three.holds(&[2], &[2, 1, 1, 2, 1, 1, 1]),
    ]
    .concat()
}
