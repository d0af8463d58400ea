//! Directed cases about single numbers at their limits: primes next to squares of primes, the
//! greatest base of each digit count, every inverse of small primes, roots next to squares, and
//! inputs at both ends.

use super::directed::{Call, Directed};
use super::{text, Dice};

/// The greatest p.
const GREATEST: i64 = 2_147_483_647;

/// Whether a number from 3 to 2^31 - 1 is prime, by another way than division: the strong test
/// to the bases 2, 3, 5 and 7 is wrong of no number below 3,215,031,751.
fn is_prime(number: i64) -> bool {
    if [2, 3, 5, 7].contains(&number) {
        return true;
    }
    if number < 11 || number % 2 == 0 {
        return false;
    }
    let twos = (number - 1).trailing_zeros();
    [2, 3, 5, 7].iter().all(|&base| {
        let mut power = power_modulo(base, (number - 1) >> twos, number);
        let mut passes = power == 1 || power == number - 1;
        for _ in 1..twos {
            power = power * power % number;
            passes |= power == number - 1;
        }
        passes
    })
}

/// What base^exponent leaves.
fn power_modulo(base: i64, exponent: i64, modulus: i64) -> i64 {
    let (mut power, mut square, mut left) = (1, base % modulus, exponent);
    while left > 0 {
        if left % 2 == 1 {
            power = power * square % modulus;
        }
        square = square * square % modulus;
        left /= 2;
    }
    power
}

/// Refusal 5 (FORMAT 10.5): all small numbers, the square of each small prime and of some great
/// ones, products of neighbours, and the primes next to these.
pub fn primes() -> Vec<Directed> {
    let mut numbers: Vec<i64> = (-4..=300).collect();
    let near = |from: i64| (from..from + 40).filter(|&number| is_prime(number));
    let great = [300, 1_000, 4_090, 16_370, 32_740, 46_300].into_iter().flat_map(near);
    let factors: Vec<i64> = (2..=300).filter(|&number| is_prime(number)).chain(great).collect();
    for pair in factors.windows(2) {
        for product in [pair[0] * pair[0], pair[0] * pair[1], pair[1] * pair[1]] {
            numbers.push(product);
            numbers.extend((3..product).rev().find(|&number| is_prime(number)));
            numbers.extend((product + 1..=GREATEST).find(|&number| is_prime(number)));
        }
    }
    numbers.extend(GREATEST - 60..=GREATEST);
    numbers.retain(|&number| number <= GREATEST);
    numbers.sort_unstable();
    numbers.dedup();
    let field = |number: i64| {
        let reply = if number > 2 && is_prime(number) { (0, 0) } else { (5, 0) };
        Directed::list("prime or not", text(&format!("field {number}")), reply)
    };
    numbers.into_iter().map(field).collect()
}

/// The greatest base of each digit count, and one more: c at most p (FORMAT 6.1), or refusal 10.
/// Where it is read the digits are made of the least and of the greatest number that it allows.
pub fn greatest_bases() -> Vec<Directed> {
    let mut all = Vec::new();
    for p in [31, 101, 65_537, GREATEST] {
        let m = (p - 1) / 2;
        for k in 1..=31 {
            let power = |b: i64| b.checked_pow(k).unwrap_or(i64::MAX);
            let b = greatest(p, |b| power(b) <= p);
            if b >= 2 {
                let highest = (power(b) - 1 - m).min(m);
                for value in [-m, highest, (highest - m) / 2] {
                    let list = format!("field {p};sum {value};span 0 {b} {k} {}", -m);
                    all.push(Directed::make("greatest base", &list, &[], (0, 0)));
                }
                let list = format!("field {p};in;span 0 {b} {k} {}", -m);
                all.push(Directed::list("greatest base of an input", text(&list), (0, 0)));
            }
            let list = format!("field {p};sum 0;span 0 {} {k} 0", b.max(1) + 1);
            // One more than the greatest number is no number.
            let number = if b == GREATEST { 3 } else { 10 };
            all.push(Directed::list("one base more", text(&list), (number, 2)));
        }
    }
    all
}

/// The greatest number from 1 to a limit that passes a test which all below pass too.
fn greatest(limit: i64, test: impl Fn(i64) -> bool) -> i64 {
    let (mut low, mut high) = (1, limit);
    while low < high {
        let middle = (low + high + 1) / 2;
        if test(middle) {
            low = middle;
        } else {
            high = middle - 1;
        }
    }
    low
}

/// Every t (FORMAT 7.11) of small primes, and many of the greatest: with b = p and one digit t is
/// the constant itself. For which, t is the difference.
pub fn inverses() -> Vec<Directed> {
    let mut all = Vec::new();
    let mut dice = Dice::new(17, 0);
    for p in [3, 5, 7, 11, 13, 31, 101, 257, 65_537, GREATEST] {
        let m = (p - 1) / 2;
        let mut values: Vec<i64> = (-m.min(150)..=0).collect();
        values.extend([-m, 1 - m, 2 - m, -m / 2, -m / 3].map(|value| value.min(0)));
        values.extend((0..60).map(|_| dice.range(-m, 0)));
        values.sort_unstable();
        values.dedup();
        for value in values {
            let list = format!("field {p};sum {value};relu 0 {p} 1");
            all.push(Directed::make("every t of relu", &list, &[], (0, 0)));
            let list = format!("field {p};sum {value};sum 0;which 0 1 {p} 1");
            all.push(Directed::make("every t of which", &list, &[], (0, 0)));
        }
    }
    all
}

/// The root rule (FORMAT 6.4) for every small prime: the greatest c, the next ones below and above.
/// And for great primes of which c² is M+1, and such of which it is one more.
pub fn root_rule() -> Vec<Directed> {
    let mut pairs = Vec::new();
    for p in (3..=300).filter(|&number| is_prime(number)) {
        let c = ((p + 1) / 2).isqrt();
        pairs.extend([(p, c - 1), (p, c), (p, c + 1)]);
    }
    for less in [1, 3] {
        let great = (3..=32_768).rev().map(|c| (2 * c * c - less, c));
        pairs.extend(great.filter(|&(p, _)| p <= GREATEST && is_prime(p)).take(4));
    }
    let root = |(p, c): (i64, i64)| {
        let reply = if c >= 3 && 2 * c * c <= p + 1 { (0, 0) } else { (10, 2) };
        Directed::list("root rule", text(&format!("field {p};in;root 0 {c} 1")), reply)
    };
    pairs.into_iter().filter(|&(_, c)| c >= 2).map(root).collect()
}

/// Roots (FORMAT 3.12) of every square below the greatest c and of the numbers next to it; and just
/// outside.
pub fn roots() -> Vec<Directed> {
    let mut all = Vec::new();
    // The last number is the first root: with the greatest c in other bases, the great ones alone.
    let lists =
        [(GREATEST, 2, 15, 0), (GREATEST, 32_768, 1, 175), (GREATEST, 181, 2, 175), (101, 7, 1, 0)];
    for (p, b, k, first) in lists {
        let list = format!("field {p};in;root 0 {b} {k}");
        let c = i64::pow(b, k);
        let squares = (first..182).map(|y| y * y).filter(|&square| square < c);
        for v in squares.flat_map(|square| [square - 1, square, square + 1]).chain([c - 1, c]) {
            let reply = if 0 <= v && v < c { (0, 0) } else { (18, 2) };
            all.push(Directed::make("next to a square", &list, &[v], reply));
        }
    }
    all
}

/// Inputs at M and beyond (FORMAT 10.17), and cells at p and beyond (FORMAT 10.14), for the least
/// and the greatest p.
pub fn ends_of_inputs() -> Vec<Directed> {
    let mut all = Vec::new();
    for p in [3, 5, 31, GREATEST] {
        let m = (p - 1) / 2;
        let list = format!("field {p};in;span 0 {p} 1 {};sum 0 -1 0;in", -m);
        for input in [m, -m, m + 1, -m - 1, p, -p, 2 * p, i64::MAX, i64::MIN] {
            let reply = |place| if -m <= input && input <= m { (0, 0) } else { (17, place) };
            all.push(Directed::make("first input", &list, &[input, 0], reply(0)));
            all.push(Directed::make("second input", &list, &[0, input], reply(1)));
        }
        for cell in 0..4 {
            for more in [p as u32, p as u32 + 1, 2 * p as u32] {
                let mut made =
                    Directed::make("cell that differs by p", &list, &[m, -m], (14, cell));
                crate::make(&made.case.list, &[m, -m], &mut made.case.table);
                if let Some(kept) = made.case.table.get_mut(cell as usize) {
                    *kept = kept.saturating_add(more);
                }
                all.push(Directed { call: Call::Check, ..made });
            }
        }
    }
    all
}
