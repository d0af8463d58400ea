//! Source 004: the square root. Its x is the list's v; the list also stores q, which is y²
//! (FORMAT 7.16).

use super::directed::Directed;
use super::sources::Example;

pub fn cases() -> Vec<Directed> {
    [two_hundred(), other_roots(), interval(), condition(), smallest_powers(), not_necessary()]
        .concat()
}

const PLACE: &str = "004, example 5.1";

/// p = 2^31-1, b = 10, κ = 3.
const ROOT: Example = Example { place: PLACE, list: "field 2147483647;in;root 0 10 3" };

/// Example 5.1: x = 200, y = 14, y² = 196, then the digits of 200, 14, 4 and 24, which the source
/// prints lowest first too, but without the zeros above: [0,0,2], [4,1], [4], [4,2]. Its 2y = 28 is
/// a sum.
fn two_hundred() -> Vec<Directed> {
    let doubled = Example { place: PLACE, list: "field 2147483647;in;root 0 10 3;sum 0 2 1" };
    [
        ROOT.reads((0, 0)),
        ROOT.holds(&[200], &[200, 14, 196, 0, 0, 2, 4, 1, 0, 4, 0, 0, 4, 2, 0]),
        doubled.holds(&[200], &[200, 14, 196, 0, 0, 2, 4, 1, 0, 4, 0, 0, 4, 2, 0, 28]),
    ]
    .concat()
}

/// The example's x with a y that is one too small or too great: (2.13) fails on one side, and the
/// rows of the other side are met. y² + 2y - x is -5 for 13, x - y² is -25 for 15.
fn other_roots() -> Vec<Directed> {
    let small = [200, 13, 169, 0, 0, 2, 3, 1, 0, 1, 3, 0, 5, 0, 0];
    let great = [200, 15, 225, 0, 0, 2, 5, 1, 0, 5, 2, 0, 5, 5, 0];
    // The square of 14 is not 195.
    let square = [200, 14, 195, 0, 0, 2, 4, 1, 0, 5, 0, 0, 3, 2, 0];
    [
        ROOT.offers(&[200], &small, (15, 16)),
        ROOT.offers(&[200], &great, (15, 12)),
        ROOT.offers(&[200], &square, (15, 0)),
    ]
    .concat()
}

/// Example 5.1 writes [h-p, h) as [-2^30, 2^30); h-p is -2^30+1, and -2^30 is no input.
fn interval() -> Vec<Directed> {
    [
        ROOT.makes(&[-1_073_741_824], (17, 0)),
        ROOT.makes(&[-1_073_741_823], (18, 2)),
        ROOT.makes(&[1_073_741_823], (18, 2)),
        ROOT.makes(&[1_073_741_824], (17, 0)),
        ROOT.makes(&[-1], (18, 2)),
        ROOT.makes(&[1000], (18, 2)),
    ]
    .concat()
}

/// (2.3), b^(2κ) ≤ h, with the h = 2^30 of example 5.1: 10^8 and 2^30 are read, 10^10 and 2^32 not.
fn condition() -> Vec<Directed> {
    let place = "004, (2.3)";
    [
        Example { place, list: "field 2147483647;in;root 0 10 4" }.reads((0, 0)),
        Example { place, list: "field 2147483647;in;root 0 10 5" }.reads((10, 2)),
        Example { place, list: "field 2147483647;in;root 0 2 15" }.reads((0, 0)),
        Example { place, list: "field 2147483647;in;root 0 2 16" }.reads((10, 2)),
        Example { place, list: "field 31;in;root 0 2 2" }.reads((0, 0)),
        Example { place, list: "field 29;in;root 0 2 2" }.reads((10, 2)),
    ]
    .concat()
}

/// The source allows b^κ = 1 and 2. With 2, the right root of 1 is turned away, as y² + 2y - x is
/// then 2; the format asks for c ≥ 3 (FORMAT 6.4), and for k ≥ 1 (FORMAT 4.2).
fn smallest_powers() -> Vec<Directed> {
    let place = "004, step 2";
    let two = Example { place, list: "field 31;in;root 0 2 1" };
    [
        two.reads((10, 2)),
        two.offers(&[1], &[1, 1, 1, 1, 1, 0, 2], (10, 2)),
        Example { place, list: "field 31;in;root 0 2 0" }.reads((6, 2)),
    ]
    .concat()
}

/// Step 11 and comment 11: (y+1)² ≤ b^κ suffices. It is not necessary (FORMAT 12.16): 32² is over
/// 1000, 2² is over 3 and 3² is over 8, and all these roots are accepted.
fn not_necessary() -> Vec<Directed> {
    let place = "004, step 11";
    let thousand = Example { place, list: ROOT.list };
    let three = Example { place, list: "field 31;in;root 0 3 1" };
    let eight = Example { place, list: "field 127;in;root 0 2 3" };
    [
        // y² + 2y - x is 24 for 999, 62 for 961; 960 has the root 30, and 31² is within 1000.
        thousand.holds(&[999], &[999, 31, 961, 9, 9, 9, 1, 3, 0, 8, 3, 0, 4, 2, 0]),
        thousand.holds(&[961], &[961, 31, 961, 1, 6, 9, 1, 3, 0, 0, 0, 0, 2, 6, 0]),
        thousand.holds(&[960], &[960, 30, 900, 0, 6, 9, 0, 3, 0, 0, 6, 0, 0, 0, 0]),
        three.holds(&[0], &[0, 0, 0, 0, 0, 0, 0]),
        three.holds(&[1], &[1, 1, 1, 1, 1, 0, 2]),
        three.holds(&[2], &[2, 1, 1, 2, 1, 1, 1]),
        three.makes(&[3], (18, 2)),
        eight.holds(&[7], &[7, 2, 4, 1, 1, 1, 0, 1, 0, 1, 1, 0, 1, 0, 0]),
        eight.holds(&[4], &[4, 2, 4, 0, 0, 1, 0, 1, 0, 0, 0, 0, 0, 0, 1]),
    ]
    .concat()
}
