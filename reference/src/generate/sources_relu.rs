//! Source 000, examples 6.3 and 6.4, and the examples of 001 and 002: ReLU and the range check
//! before it.
//!
//! The sources print digits highest first, the list holds them lowest first. Their sign, the
//! highest bit in base 2, is the list's f; the list's w is in no source: it is 0 where f is 1, else
//! the inverse of t = d(k-1)-(b-1) (FORMAT 7.11). Their product of sign and remainder is the list's
//! value y.

use super::directed::Directed;
use super::sources::Example;

const BINARY: &str = "field 31;in;relu 0 2 4";
const THREE: Example = Example { place: "000, example 6.3", list: BINARY };
const TWO: Example = Example { place: "002, section 4", list: BINARY };

/// Source 001 has the bits and no ReLU; its r♯ is a value here, a+8.
const RANGE: Example =
    Example { place: "001, section 4", list: "field 31;in;span 0 2 4 -8;sum 8 1 0" };

const TERNARY: Example = Example { place: "000, example 6.4", list: "field 37;in;relu 0 3 3" };

pub fn cases() -> Vec<Directed> {
    let mut all = Vec::new();
    // Table 5 of 000 and the tables of 001 and 002 have the same figures.
    for row in &BITS {
        all.extend(binary(THREE, row));
        all.extend(binary(TWO, row));
        all.extend(range(row));
    }
    TRITS.iter().for_each(|row| all.extend(ternary(row)));
    [all, misprints(), outside(), too_many_bits()].concat()
}

/// The digits of a printed number, lowest first.
fn digits(printed: &str) -> Vec<u32> {
    printed.bytes().rev().map(|digit| u32::from(digit - b'0')).collect()
}

/// A row of the binary table. Where (*) does not hold, it is the one row that the table misses.
fn binary(example: Example, &(a, residue, _, _, bits, _, holds, y): &BitRow) -> Vec<Directed> {
    let f = u32::from(bits.starts_with('1'));
    // t is 0 or -1, and -1 times 30 leaves 1.
    let w = if f == 1 { 0 } else { 30 };
    let table = [vec![residue, y], digits(bits), vec![f, w]].concat();
    if holds {
        example.holds(&[a], &table)
    } else {
        example.fails(&[a], 2, &table, 4)
    }
}

/// The same row as the range check of 001.
fn range(&(a, residue, _, reduced, bits, _, holds, _): &BitRow) -> Vec<Directed> {
    let table = [vec![residue], digits(bits), vec![reduced]].concat();
    if holds {
        RANGE.holds(&[a], &table)
    } else {
        RANGE.fails(&[a], 2, &table, 4)
    }
}

/// A row of the ternary table.
fn ternary(&(a, residue, _, _, printed, _, holds, sign, y): &TritRow) -> Vec<Directed> {
    let table = ternary_table(residue, printed, sign, y);
    if holds {
        TERNARY.holds(&[a], &table)
    } else {
        TERNARY.fails(&[a], 2, &table, 3)
    }
}

fn ternary_table(residue: u32, printed: &str, sign: u32, y: u32) -> Vec<u32> {
    // t is -2, -1 or 0; -2 times 18 and -1 times 36 leave 1.
    let w = match printed.as_bytes()[0] {
        b'0' => 18,
        b'1' => 36,
        _ => 0,
    };
    [vec![residue, y], digits(printed), vec![sign, w]].concat()
}

/// The last four rows of table 7 print digits that are not those of their own RHS 6, 7, 8 and 9;
/// here they are offered with the digits of these. Both kinds fail in the same row.
fn misprints() -> Vec<Directed> {
    let rows = [(15, "020"), (16, "021"), (17, "022"), (18, "100")];
    rows.map(|(a, printed)| {
        TERNARY.offers(&[i64::from(a)], &ternary_table(a, printed, 0, 0), (15, 3))
    })
    .concat()
}

/// Table 6 of 000 and the second tables of 001 and 002, then table 8: a outside of -M..M. The
/// sources reduce it modulo p without a word; making refuses it (FORMAT 10.17). Checking sees the
/// remainder alone, so that it accepts the source's table where it is the true table of the a in
/// -M..M.
fn outside() -> Vec<Directed> {
    let one = [1, 1, 1, 0, 0, 1, 1, 0];
    let sixteen = [16, 16, 0, 0, 0, 1, 1, 0];
    let mut all = Vec::new();
    for example in [THREE, TWO] {
        all.extend(example.makes(&[-30], (17, 0)));
        all.extend(example.offers(&[1], &one, (0, 0)));
        all.extend(example.makes(&[16], (17, 0)));
        all.extend(example.offers(&[-15], &sixteen, (15, 4)));
    }
    all.extend(RANGE.makes(&[-30], (17, 0)));
    all.extend(RANGE.makes(&[32], (17, 0)));
    all.extend(RANGE.offers(&[1], &[1, 1, 0, 0, 1, 9], (0, 0)));
    all.extend(TERNARY.makes(&[-36], (17, 0)));
    all.extend(TERNARY.offers(&[1], &[1, 1, 1, 0, 2, 1, 0], (0, 0)));
    all.extend(TERNARY.makes(&[19], (17, 0)));
    all.extend(TERNARY.offers(&[-18], &[19, 0, 0, 0, 0, 0, 18], (0, 0)));
    all
}

/// Footnote 3 of 001 and 002: five bits are too many modulo 17, as 00000 and 10001 are both 0.
fn too_many_bits() -> Vec<Directed> {
    let range = "001, footnote 3";
    let relu = "002, footnote 3";
    let five = Example { place: range, list: "field 17;in;span 0 2 5 0" };
    let relu_five = Example { place: relu, list: "field 17;in;relu 0 2 5" };
    [
        five.reads((10, 2)),
        five.offers(&[0], &[0, 0, 0, 0, 0, 0], (10, 2)),
        five.offers(&[0], &[0, 1, 0, 0, 0, 1], (10, 2)),
        Example { place: range, list: "field 17;in;span 0 2 4 -8" }.reads((0, 0)),
        relu_five.reads((10, 2)),
        Example { place: relu, list: "field 17;in;relu 0 2 4" }.reads((0, 0)),
    ]
    .concat()
}

/// a; its remainder; that plus 8; the remainder of a+8; its four lowest bits; RHS; whether (*)
/// holds; the highest bit times the remainder.
type BitRow = (i64, u32, u32, u32, &'static str, u32, bool, u32);

/// Table 5 of 000; the first tables of 001, which has no last column, and of 002.
const BITS: [BitRow; 31] = [
    (-15, 16, 24, 24, "1000", 8, false, 16),
    (-14, 17, 25, 25, "1001", 9, false, 17),
    (-13, 18, 26, 26, "1010", 10, false, 18),
    (-12, 19, 27, 27, "1011", 11, false, 19),
    (-11, 20, 28, 28, "1100", 12, false, 20),
    (-10, 21, 29, 29, "1101", 13, false, 21),
    (-9, 22, 30, 30, "1110", 14, false, 22),
    (-8, 23, 31, 0, "0000", 0, true, 0),
    (-7, 24, 32, 1, "0001", 1, true, 0),
    (-6, 25, 33, 2, "0010", 2, true, 0),
    (-5, 26, 34, 3, "0011", 3, true, 0),
    (-4, 27, 35, 4, "0100", 4, true, 0),
    (-3, 28, 36, 5, "0101", 5, true, 0),
    (-2, 29, 37, 6, "0110", 6, true, 0),
    (-1, 30, 38, 7, "0111", 7, true, 0),
    (0, 0, 8, 8, "1000", 8, true, 0),
    (1, 1, 9, 9, "1001", 9, true, 1),
    (2, 2, 10, 10, "1010", 10, true, 2),
    (3, 3, 11, 11, "1011", 11, true, 3),
    (4, 4, 12, 12, "1100", 12, true, 4),
    (5, 5, 13, 13, "1101", 13, true, 5),
    (6, 6, 14, 14, "1110", 14, true, 6),
    (7, 7, 15, 15, "1111", 15, true, 7),
    (8, 8, 16, 16, "0000", 0, false, 0),
    (9, 9, 17, 17, "0001", 1, false, 0),
    (10, 10, 18, 18, "0010", 2, false, 0),
    (11, 11, 19, 19, "0011", 3, false, 0),
    (12, 12, 20, 20, "0100", 4, false, 0),
    (13, 13, 21, 21, "0101", 5, false, 0),
    (14, 14, 22, 22, "0110", 6, false, 0),
    (15, 15, 23, 23, "0111", 7, false, 0),
];

/// a; its remainder; that plus 18; the remainder of a+18; its three lowest digits; RHS; whether (*)
/// holds; the sign; the sign times the remainder.
type TritRow = (i64, u32, u32, u32, &'static str, u32, bool, u32, u32);

/// Table 7 of 000.
const TRITS: [TritRow; 37] = [
    (-18, 19, 37, 0, "000", 0, true, 0, 0),
    (-17, 20, 38, 1, "001", 1, true, 0, 0),
    (-16, 21, 39, 2, "002", 2, true, 0, 0),
    (-15, 22, 40, 3, "010", 3, true, 0, 0),
    (-14, 23, 41, 4, "011", 4, true, 0, 0),
    (-13, 24, 42, 5, "012", 5, true, 0, 0),
    (-12, 25, 43, 6, "020", 6, true, 0, 0),
    (-11, 26, 44, 7, "021", 7, true, 0, 0),
    (-10, 27, 45, 8, "022", 8, true, 0, 0),
    (-9, 28, 46, 9, "100", 9, true, 0, 0),
    (-8, 29, 47, 10, "101", 10, true, 0, 0),
    (-7, 30, 48, 11, "102", 11, true, 0, 0),
    (-6, 31, 49, 12, "110", 12, true, 0, 0),
    (-5, 32, 50, 13, "111", 13, true, 0, 0),
    (-4, 33, 51, 14, "112", 14, true, 0, 0),
    (-3, 34, 52, 15, "120", 15, true, 0, 0),
    (-2, 35, 53, 16, "121", 16, true, 0, 0),
    (-1, 36, 54, 17, "122", 17, true, 0, 0),
    (0, 0, 18, 18, "200", 18, true, 1, 0),
    (1, 1, 19, 19, "201", 19, true, 1, 1),
    (2, 2, 20, 20, "202", 20, true, 1, 2),
    (3, 3, 21, 21, "210", 21, true, 1, 3),
    (4, 4, 22, 22, "211", 22, true, 1, 4),
    (5, 5, 23, 23, "212", 23, true, 1, 5),
    (6, 6, 24, 24, "220", 24, true, 1, 6),
    (7, 7, 25, 25, "221", 25, true, 1, 7),
    (8, 8, 26, 26, "222", 26, true, 1, 8),
    (9, 9, 27, 27, "000", 0, false, 0, 0),
    (10, 10, 28, 28, "001", 1, false, 0, 0),
    (11, 11, 29, 29, "002", 2, false, 0, 0),
    (12, 12, 30, 30, "010", 3, false, 0, 0),
    (13, 13, 31, 31, "011", 4, false, 0, 0),
    (14, 14, 32, 32, "012", 5, false, 0, 0),
    (15, 15, 33, 33, "100", 6, false, 0, 0),
    (16, 16, 34, 34, "101", 7, false, 0, 0),
    (17, 17, 35, 35, "102", 8, false, 0, 0),
    (18, 18, 36, 36, "110", 9, false, 0, 0),
];

#[cfg(test)]
mod tests {
    use super::{BITS, TRITS};

    fn number(printed: &str, base: u32) -> u32 {
        u32::from_str_radix(printed, base).expect("digits")
    }

    /// The printed columns fit each other, so no figure was copied wrongly; the digits of the last
    /// four rows of table 7 do not fit on the page either.
    #[test]
    fn columns_fit() {
        for &(a, residue, shifted, reduced, bits, right, holds, product) in &BITS {
            assert_eq!(i64::from(residue), a.rem_euclid(31));
            assert_eq!((residue + 8, shifted % 31), (shifted, reduced));
            assert_eq!((number(bits, 2), reduced % 16), (right, right));
            assert_eq!(holds, (-8..=7).contains(&a));
            assert_eq!(product, if bits.starts_with('1') { residue } else { 0 });
        }
        for &(a, residue, shifted, reduced, trits, right, holds, sign, product) in &TRITS {
            assert_eq!(i64::from(residue), a.rem_euclid(37));
            assert_eq!((residue + 18, shifted % 37), (shifted, reduced));
            assert_eq!(reduced % 27, right);
            assert_eq!(number(trits, 3) == right, a < 15);
            assert_eq!(holds, (-18..=8).contains(&a));
            assert_eq!((u32::from(trits.starts_with('2')), product), (sign, sign * residue));
        }
    }
}
