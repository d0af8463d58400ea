//! Source 003: whole numbers and their classes modulo p, and the maximum of two.
//!
//! Examples 1.5 and 1.6 have no figures: there p = 31 and κ = 4 are taken, as in 000 and 002, and
//! the tables are worked by hand from the source's formulas. Its remark 3.5 (i) is stated with the
//! p = 101 of its example 1.1.

use super::directed::Directed;
use super::sources::Example;

pub fn cases() -> Vec<Directed> {
    [
        one_product(),
        four_bits(),
        weakest_assumption(),
        classes(),
        carries(),
        maximum(),
        maximum_unsound(),
        shifted_maximum(),
        sums(),
        one_bit(),
    ]
    .concat()
}

/// Examples 1.1 (a) and 1.4: 0 ≤ x ≤ 15 by x(x-1)..(x-15) ≡ 0. In a list this is the row of one
/// digit in base 16; the digit has a cell of its own, which equals x.
fn one_product() -> Vec<Directed> {
    let place = "003, examples 1.1 (a) and 1.4";
    let product = Example { place, list: "field 101;in;span 0 16 1 0" };
    let mut all: Vec<Directed> =
        (0..=15).flat_map(|x| product.holds(&[i64::from(x)], &[x, x])).collect();
    // 1.4 (d): the claim x ≤ 14 is not what it says, as 15 passes; (e): 16 does not.
    all.extend(product.fails(&[16], 2, &[16, 16], 0));
    for x in [-50, -1, 17, 50] {
        all.extend(product.makes(&[x], (18, 2)));
    }
    all
}

/// Example 1.1 (b): the same by four bits, and the witness (7, 1, 1, 1, 0) of the text after it.
/// x = b0 + 2·b1 + 4·b2 + 8·b3 + 16·q has q = 1 for 16 and q = -1 for -1.
fn four_bits() -> Vec<Directed> {
    let bits = Example { place: "003, example 1.1 (b)", list: "field 101;in;span 0 2 4 0" };
    [
        bits.holds(&[7], &[7, 1, 1, 1, 0]),
        bits.holds(&[0], &[0, 0, 0, 0, 0]),
        bits.holds(&[15], &[15, 1, 1, 1, 1]),
        bits.fails(&[16], 2, &[16, 0, 0, 0, 0], 4),
        bits.fails(&[-1], 2, &[100, 1, 1, 1, 1], 4),
        // A bit is a root of b(b-1), so 2 and -1 are none.
        bits.offers(&[7], &[7, 1, 1, 2, 0], (15, 2)),
        bits.offers(&[7], &[7, 100, 0, 0, 1], (15, 0)),
    ]
    .concat()
}

/// Example 1.1: the bits still say 0 ≤ x ≤ 15 where no more is known than -85 ≤ x ≤ 100.
/// Here x is y-u, whose lowest known end is v-50 for a fresh u: -85 is read, and -86 is not.
fn weakest_assumption() -> Vec<Directed> {
    let place = "003, example 1.1";
    let lowest = Example { place, list: "field 101;in;sum -35;max 0 1 2 4" };
    [
        lowest.reads((0, 0)),
        Example { place, list: "field 101;in;sum -36;max 0 1 2 4" }.reads((10, 3)),
        lowest.holds(&[-50], &[51, 66, 66, 1, 1, 1, 1, 0, 0, 0, 0]),
        lowest.holds(&[-20], &[81, 66, 81, 0, 0, 0, 0, 1, 1, 1, 1]),
        // The lesser one for 50 and -35: y-u is -85, 16 modulo 101, which four bits do not give.
        // Row 0 is the sum's, row 1 the product, rows 2 to 5 are the bits.
        lowest.fails(&[50], 3, &[50, 66, 66, 0, 0, 0, 0, 0, 0, 0, 0], 6),
    ]
    .concat()
}

/// Section 1.3: an input -p is taken for 0, and 99 + 2 ≡ 0 modulo 101. The format refuses the input,
/// the constant and the sum, and reads the cell 100 as -1 (FORMAT 1.7), which is less than 0.
fn classes() -> Vec<Directed> {
    let place = "003, section 1.3";
    let two = Example { place, list: "field 101;in;in" };
    let less = Example { place, list: "field 101;sum 0;sum -1;which 0 1 2 2" };
    [
        Example { place, list: "field 101;in" }.makes(&[-101], (17, 0)),
        two.makes(&[99, 2], (17, 0)),
        Example { place, list: "field 101;sum 99" }.reads((6, 1)),
        Example { place, list: "field 101;in;in;sum 0 1 0 1 1" }.reads((11, 3)),
        // 0 < p-1 as remainders, but not 0 < -1: the digits are those of 0 - (-1) + 2.
        less.holds(&[], &[0, 100, 0, 1, 1, 1, 0]),
        less.offers(&[], &[0, 100, 1, 1, 1, 1, 0], (15, 8)),
    ]
    .concat()
}

/// Section 1.3.1: (0,9,9) + (0,0,2) = (1,0,1) over Z/101 by digits and carries. A carry is 1 where 9
/// is less than the sum of the digits; the result is values 9, 10 and 7.
fn carries() -> Vec<Directed> {
    let addition = Example {
        place: "003, section 1.3.1",
        list: "field 101;in;in;in;in;span 0 10 1 0;span 1 10 1 0;span 2 10 1 0;span 3 10 1 0;\
               sum 0 1 0 1 2;sum 9;which 5 4 2 5;sum 0 1 4 -10 6;\
               sum 0 1 1 1 3 1 6;which 5 8 2 5;sum 0 1 8 -10 9",
    };
    let inputs_and_digits = [9, 9, 2, 0, 9, 9, 2, 0];
    // 9+2 = 11 and the constant 9; the carry with the digits of 9-11+16; 11-10.
    let units = [11, 9, 1, 0, 1, 1, 1, 0, 0, 100, 1];
    // 9+0+1 = 10; the carry with the digits of 9-10+16; 10-10.
    let tens = [10, 1, 1, 1, 1, 1, 0, 0, 100, 0];
    let table = [&inputs_and_digits[..], &units, &tens].concat();
    addition.holds(&[9, 9, 2, 0], &table)
}

/// Example 1.5 with (1.8) as spans: -8 ≤ a, b ≤ 7. The source's x, y, z are the list's y, u, v; its
/// α are the digits of y-u, its β those of y-v; its rows P, Q, R, S, T come as P, S, Q, T, R. The
/// spans' digits are the list's own.
fn maximum() -> Vec<Directed> {
    let place = "003, example 1.5";
    let maximum = Example { place, list: "field 31;in;in;span 0 2 4 -8;span 1 2 4 -8;max 0 1 2 4" };
    let lowest = [0, 0, 0, 0];
    let highest = [1, 1, 1, 1];
    let with = |u: u32, v: u32, groups: [[u32; 4]; 2], y: u32, alpha: [u32; 4], beta: [u32; 4]| {
        [&[u, v][..], &groups.concat(), &[y], &alpha, &beta].concat()
    };
    let ends = [lowest, highest];
    [
        maximum.holds(&[-8, 7], &with(23, 7, ends, 7, highest, lowest)),
        maximum.holds(&[7, -8], &with(7, 23, [highest, lowest], 7, lowest, highest)),
        maximum.holds(&[7, 7], &with(7, 7, [highest, highest], 7, lowest, lowest)),
        maximum.makes(&[8, 0], (18, 3)),
        maximum.makes(&[0, -9], (18, 4)),
        // M is neither a nor b: P fails. M is the lesser one: -15 ≡ 16 has no four bits.
        maximum.offers(&[-8, 7], &with(23, 7, ends, 6, [0, 1, 1, 1], lowest), (15, 10)),
        maximum.offers(&[-8, 7], &with(23, 7, ends, 23, lowest, lowest), (15, 20)),
        // α and β exchanged: M - a is not 0.
        maximum.offers(&[-8, 7], &with(23, 7, ends, 7, lowest, highest), (15, 15)),
    ]
    .concat()
}

/// Example 1.5 as written has no row on a and b themselves, and asks for 2^κ ≤ p-1 only. It then
/// accepts the lesser one: 15 and -15 with -15, as -30 ≡ 1; and 7 and -8 with -8 modulo 29, even
/// with (1.8), as -15 ≡ 14. By FORMAT 6.2 such lists are refused.
fn maximum_unsound() -> Vec<Directed> {
    let place = "003, example 1.5";
    let fresh = Example { place, list: "field 31;in;in;max 0 1 2 4" };
    let spanned = Example { place, list: "field 29;in;in;span 0 2 4 -8;span 1 2 4 -8;max 0 1 2 4" };
    let lesser = [15, 16, 16, 1, 0, 0, 0, 0, 0, 0, 0];
    let lesser_spanned = [7, 21, 1, 1, 1, 1, 0, 0, 0, 0, 21, 0, 1, 1, 1, 0, 0, 0, 0];
    [
        fresh.reads((10, 3)),
        fresh.offers(&[15, -15], &lesser, (10, 3)),
        spanned.reads((10, 5)),
        spanned.offers(&[7, -8], &lesser_spanned, (10, 5)),
    ]
    .concat()
}

/// Example 1.6: the maximum after a shift by 2^(κ-1), taken back afterwards. The greater one of the
/// remainders 28 and 5 would be 28, which is -3.
fn shifted_maximum() -> Vec<Directed> {
    let shifted = Example {
        place: "003, example 1.6",
        list: "field 31;in;in;span 0 2 4 -8;span 1 2 4 -8;sum 8 1 0;sum 8 1 1;max 2 3 2 4;\
               sum -8 1 4",
    };
    let five_and_thirteen = [1, 0, 1, 0, 1, 0, 1, 1];
    let thirteen = [13, 0, 0, 0, 1, 0, 0, 0, 0];
    let zero_and_five = [0, 0, 0, 0, 1, 0, 1, 0];
    let five = [5, 1, 0, 1, 0, 0, 0, 0, 0];
    let one = [&[28, 5][..], &five_and_thirteen, &[5, 13], &thirteen, &[5]].concat();
    let other = [&[23, 28][..], &zero_and_five, &[0, 5], &five, &[28]].concat();
    [shifted.holds(&[-3, 5], &one), shifted.holds(&[-8, -3], &other)].concat()
}

/// Proposition 3.4 and remark 3.5 (i): the sum of two values is right where both lie within
/// (p-1)/4, 25 for p = 101; with 26 it is not read.
fn sums() -> Vec<Directed> {
    let place = "003, remark 3.5 (i)";
    let quarter =
        Example { place, list: "field 101;in;in;span 0 51 1 -25;span 1 51 1 -25;sum 0 1 0 1 1" };
    let over =
        Example { place, list: "field 101;in;in;span 0 53 1 -26;span 1 53 1 -26;sum 0 1 0 1 1" };
    [
        quarter.holds(&[25, 25], &[25, 25, 50, 50, 50]),
        quarter.holds(&[-25, -25], &[76, 76, 0, 0, 51]),
        quarter.makes(&[26, 0], (18, 3)),
        over.reads((11, 5)),
    ]
    .concat()
}

/// Remark 3.5 (ii): x(x-1) ≡ 0 leaves 0 and 1 of -(p-1)/2..(p-1)/2, here with p = 31.
fn one_bit() -> Vec<Directed> {
    let bit = Example { place: "003, remark 3.5 (ii)", list: "field 31;in;span 0 2 1 0" };
    let mut all = [bit.holds(&[0], &[0, 0]), bit.holds(&[1], &[1, 1])].concat();
    for x in (-15..=-1).chain(2..=15) {
        all.extend(bit.makes(&[x], (18, 2)));
    }
    all
}
