//! Source 000, examples 6.1 and 6.2: a range check from above and one from below, p = 101.
//!
//! The source writes h = (p+1)/2 = 50 in both, and h-p..h-1 = -50..50; that interval is the one of
//! h = M+1 = 51, and the format's signed range (FORMAT 1.4). With it the source's 77 in example 6.1
//! is 78. The b^κ = 9 of example 6.2 is 10. No row of its tables depends on these slips.

use super::directed::Directed;
use super::sources::Example;

/// Example 6.1 as the format's P8 (FORMAT 12.8): -27 ≤ a ≤ -3. The format's digits are those of
/// a+27, the source's those of R-a with R = -3; as a+27 = 24-(R-a), each is 4 less the source's.
/// S = 27 is over (b-1)·b^(k-1) = 20, so the source itself could not check it from below; the format
/// asks nothing of B (FORMAT 6.1).
const SPAN: Example = Example { place: "000, example 6.1", list: "field 101;in;span 0 5 2 -27" };

/// The same, and then R-a as a value with its own digits: all that the source writes in a row but q.
const DIFFERENCE: Example = Example {
    place: "000, example 6.1",
    list: "field 101;in;span 0 5 2 -27;sum -3 -1 0;span 1 5 2 0",
};

/// R-a as the input, by its remainder: the source's row (6.1) alone.
const INPUT: Example = Example { place: "000, example 6.1", list: "field 101;in;span 0 5 2 0" };

/// R-a of a fresh input: the source takes it modulo p; by FORMAT 5.5 the sum has to stay in -M..M.
const FRESH_DIFFERENCE: Example =
    Example { place: "000, example 6.1", list: "field 101;in;sum -3 -1 0" };

/// Example 6.2: -9 ≤ a ≤ 0, with the source's own digit of S+a, S = 9.
const LOWER_SPAN: Example =
    Example { place: "000, example 6.2", list: "field 101;in;span 0 10 1 -9" };

/// The same with S+a as a value.
const LOWER_SUM: Example =
    Example { place: "000, example 6.2", list: "field 101;in;span 0 10 1 -9;sum 9 1 0" };

/// Examples 6.1 and 6.2 together, which say that -9 ≤ a ≤ -3.
const BOTH: Example =
    Example { place: "000, example 6.2", list: "field 101;in;span 0 5 2 -27;span 0 10 1 -9" };

pub fn cases() -> Vec<Directed> {
    let mut all = FRESH_DIFFERENCE.reads((11, 2));
    UPPER.iter().for_each(|row| all.extend(upper(row)));
    LOWER.iter().for_each(|row| all.extend(lower(row)));
    LOWER.iter().for_each(|row| all.extend(both(row)));
    all
}

/// The three lists of example 6.1 on one row. Where (6.1) does not hold, every row of the list is
/// met but the last of the first group.
fn upper(&(a, residue, difference, [d0, d1, _], _, holds): &UpperRow) -> Vec<Directed> {
    let over_a = [residue, 4 - d0, 4 - d1];
    let whole = [residue, 4 - d0, 4 - d1, difference, d0, d1];
    // The signed value of the remainder: R-a itself may lie outside of -50..50.
    let signed = if difference <= 50 { i64::from(difference) } else { i64::from(difference) - 101 };
    let over_difference = [difference, d0, d1];
    let tables: [(Example, i64, &[u32]); 3] =
        [(SPAN, a, &over_a), (DIFFERENCE, a, &whole), (INPUT, signed, &over_difference)];
    let one = |(example, input, table): (Example, i64, &[u32])| {
        if holds {
            example.holds(&[input], table)
        } else {
            example.fails(&[input], 2, table, 2)
        }
    };
    tables.map(one).concat()
}

/// The two lists of example 6.2 on one row.
fn lower(&(a, residue, shifted, [d0, _], _, holds): &LowerRow) -> Vec<Directed> {
    let (span, sum) = ([residue, d0], [residue, d0, shifted]);
    if holds {
        [LOWER_SPAN.holds(&[a], &span), LOWER_SUM.holds(&[a], &sum)].concat()
    } else {
        [LOWER_SPAN.fails(&[a], 2, &span, 1), LOWER_SUM.fails(&[a], 2, &sum, 1)].concat()
    }
}

/// Both checks on one row of example 6.2, with the digits that example 6.1 has for the same a.
fn both(&(a, residue, _, [d0, _], _, from_below): &LowerRow) -> Vec<Directed> {
    let same = UPPER.iter().find(|row| row.0 == a);
    let Some(&(_, _, _, [upper0, upper1, _], _, from_above)) = same else {
        return Vec::new();
    };
    let table = [residue, 4 - upper0, 4 - upper1, d0];
    match (from_above, from_below) {
        (true, true) => BOTH.holds(&[a], &table),
        (true, false) => BOTH.fails(&[a], 3, &table, 4),
        (false, _) => BOTH.fails(&[a], 2, &table, 2),
    }
}

/// a; its remainder; the remainder of S+a; d0 and q; d0; whether (6.2) holds.
type LowerRow = (i64, u32, u32, [u32; 2], u32, bool);

/// Table 4, all rows that are printed, and before them the row of a = -18 from the text.
const LOWER: [LowerRow; 17] = [
    (-18, 83, 92, [2, 9], 2, false),
    (-50, 51, 60, [0, 6], 0, false),
    (-11, 90, 99, [9, 9], 9, false),
    (-10, 91, 100, [0, 10], 0, false),
    (-9, 92, 0, [0, 0], 0, true),
    (-8, 93, 1, [1, 0], 1, true),
    (-7, 94, 2, [2, 0], 2, true),
    (-6, 95, 3, [3, 0], 3, true),
    (-5, 96, 4, [4, 0], 4, true),
    (-4, 97, 5, [5, 0], 5, true),
    (-3, 98, 6, [6, 0], 6, true),
    (-2, 99, 7, [7, 0], 7, true),
    (-1, 100, 8, [8, 0], 8, true),
    (0, 0, 9, [9, 0], 9, true),
    (1, 1, 10, [0, 1], 0, false),
    (2, 2, 11, [1, 1], 1, false),
    (50, 50, 59, [9, 5], 9, false),
];

/// a; its remainder; the remainder of R-a; d0, d1 and q; d0+5·d1; whether (6.1) holds.
type UpperRow = (i64, u32, u32, [u32; 3], u32, bool);

/// Tables 1, 2 and 3, whole.
const UPPER: [UpperRow; 101] = [
    (-50, 51, 47, [2, 4, 1], 22, false),
    (-49, 52, 46, [1, 4, 1], 21, false),
    (-48, 53, 45, [0, 4, 1], 20, false),
    (-47, 54, 44, [4, 3, 1], 19, false),
    (-46, 55, 43, [3, 3, 1], 18, false),
    (-45, 56, 42, [2, 3, 1], 17, false),
    (-44, 57, 41, [1, 3, 1], 16, false),
    (-43, 58, 40, [0, 3, 1], 15, false),
    (-42, 59, 39, [4, 2, 1], 14, false),
    (-41, 60, 38, [3, 2, 1], 13, false),
    (-40, 61, 37, [2, 2, 1], 12, false),
    (-39, 62, 36, [1, 2, 1], 11, false),
    (-38, 63, 35, [0, 2, 1], 10, false),
    (-37, 64, 34, [4, 1, 1], 9, false),
    (-36, 65, 33, [3, 1, 1], 8, false),
    (-35, 66, 32, [2, 1, 1], 7, false),
    (-34, 67, 31, [1, 1, 1], 6, false),
    (-33, 68, 30, [0, 1, 1], 5, false),
    (-32, 69, 29, [4, 0, 1], 4, false),
    (-31, 70, 28, [3, 0, 1], 3, false),
    (-30, 71, 27, [2, 0, 1], 2, false),
    (-29, 72, 26, [1, 0, 1], 1, false),
    (-28, 73, 25, [0, 0, 1], 0, false),
    (-27, 74, 24, [4, 4, 0], 24, true),
    (-26, 75, 23, [3, 4, 0], 23, true),
    (-25, 76, 22, [2, 4, 0], 22, true),
    (-24, 77, 21, [1, 4, 0], 21, true),
    (-23, 78, 20, [0, 4, 0], 20, true),
    (-22, 79, 19, [4, 3, 0], 19, true),
    (-21, 80, 18, [3, 3, 0], 18, true),
    (-20, 81, 17, [2, 3, 0], 17, true),
    (-19, 82, 16, [1, 3, 0], 16, true),
    (-18, 83, 15, [0, 3, 0], 15, true),
    (-17, 84, 14, [4, 2, 0], 14, true),
    (-16, 85, 13, [3, 2, 0], 13, true),
    (-15, 86, 12, [2, 2, 0], 12, true),
    (-14, 87, 11, [1, 2, 0], 11, true),
    (-13, 88, 10, [0, 2, 0], 10, true),
    (-12, 89, 9, [4, 1, 0], 9, true),
    (-11, 90, 8, [3, 1, 0], 8, true),
    (-10, 91, 7, [2, 1, 0], 7, true),
    (-9, 92, 6, [1, 1, 0], 6, true),
    (-8, 93, 5, [0, 1, 0], 5, true),
    (-7, 94, 4, [4, 0, 0], 4, true),
    (-6, 95, 3, [3, 0, 0], 3, true),
    (-5, 96, 2, [2, 0, 0], 2, true),
    (-4, 97, 1, [1, 0, 0], 1, true),
    (-3, 98, 0, [0, 0, 0], 0, true),
    (-2, 99, 100, [0, 0, 4], 0, false),
    (-1, 100, 99, [4, 4, 3], 24, false),
    (0, 0, 98, [3, 4, 3], 23, false),
    (1, 1, 97, [2, 4, 3], 22, false),
    (2, 2, 96, [1, 4, 3], 21, false),
    (3, 3, 95, [0, 4, 3], 20, false),
    (4, 4, 94, [4, 3, 3], 19, false),
    (5, 5, 93, [3, 3, 3], 18, false),
    (6, 6, 92, [2, 3, 3], 17, false),
    (7, 7, 91, [1, 3, 3], 16, false),
    (8, 8, 90, [0, 3, 3], 15, false),
    (9, 9, 89, [4, 2, 3], 14, false),
    (10, 10, 88, [3, 2, 3], 13, false),
    (11, 11, 87, [2, 2, 3], 12, false),
    (12, 12, 86, [1, 2, 3], 11, false),
    (13, 13, 85, [0, 2, 3], 10, false),
    (14, 14, 84, [4, 1, 3], 9, false),
    (15, 15, 83, [3, 1, 3], 8, false),
    (16, 16, 82, [2, 1, 3], 7, false),
    (17, 17, 81, [1, 1, 3], 6, false),
    (18, 18, 80, [0, 1, 3], 5, false),
    (19, 19, 79, [4, 0, 3], 4, false),
    (20, 20, 78, [3, 0, 3], 3, false),
    (21, 21, 77, [2, 0, 3], 2, false),
    (22, 22, 76, [1, 0, 3], 1, false),
    (23, 23, 75, [0, 0, 3], 0, false),
    (24, 24, 74, [4, 4, 2], 24, false),
    (25, 25, 73, [3, 4, 2], 23, false),
    (26, 26, 72, [2, 4, 2], 22, false),
    (27, 27, 71, [1, 4, 2], 21, false),
    (28, 28, 70, [0, 4, 2], 20, false),
    (29, 29, 69, [4, 3, 2], 19, false),
    (30, 30, 68, [3, 3, 2], 18, false),
    (31, 31, 67, [2, 3, 2], 17, false),
    (32, 32, 66, [1, 3, 2], 16, false),
    (33, 33, 65, [0, 3, 2], 15, false),
    (34, 34, 64, [4, 2, 2], 14, false),
    (35, 35, 63, [3, 2, 2], 13, false),
    (36, 36, 62, [2, 2, 2], 12, false),
    (37, 37, 61, [1, 2, 2], 11, false),
    (38, 38, 60, [0, 2, 2], 10, false),
    (39, 39, 59, [4, 1, 2], 9, false),
    (40, 40, 58, [3, 1, 2], 8, false),
    (41, 41, 57, [2, 1, 2], 7, false),
    (42, 42, 56, [1, 1, 2], 6, false),
    (43, 43, 55, [0, 1, 2], 5, false),
    (44, 44, 54, [4, 0, 2], 4, false),
    (45, 45, 53, [3, 0, 2], 3, false),
    (46, 46, 52, [2, 0, 2], 2, false),
    (47, 47, 51, [1, 0, 2], 1, false),
    (48, 48, 50, [0, 0, 2], 0, false),
    (49, 49, 49, [4, 4, 1], 24, false),
    (50, 50, 48, [3, 4, 1], 23, false),
];

#[cfg(test)]
mod tests {
    use super::{LOWER, UPPER};

    /// The printed columns fit each other, so no figure was copied wrongly.
    #[test]
    fn columns_fit() {
        for &(a, residue, difference, [d0, d1, q], sum, holds) in &UPPER {
            assert_eq!(i64::from(residue), a.rem_euclid(101));
            assert_eq!((difference + residue) % 101, 98);
            assert_eq!((d0 + 5 * d1, sum + 25 * q), (sum, difference));
            assert_eq!(holds, (-27..=-3).contains(&a));
        }
        for &(a, residue, shifted, [d0, q], digit, holds) in &LOWER {
            assert_eq!(i64::from(residue), a.rem_euclid(101));
            assert_eq!((residue + 9) % 101, shifted);
            assert_eq!((d0, d0 + 10 * q), (digit, shifted));
            assert_eq!(holds, (-9..=0).contains(&a));
        }
    }
}
