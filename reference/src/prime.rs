//! Primes, powers and inverses: the little number theory that the service needs
//! (FORMAT 1.2, 3.4, and for the witness FORMAT 7.11).

/// The primes below 256, tried first as divisors (FORMAT 1.2).
const SMALL_PRIMES: [u32; 54] = [
    2, 3, 5, 7, 11, 13, 17, 19, 23, 29, 31, 37, 41, 43, 47, 53, 59, 61, 67, 71, 73, 79, 83, 89, 97,
    101, 103, 107, 109, 113, 127, 131, 137, 139, 149, 151, 157, 163, 167, 173, 179, 181, 191, 193,
    197, 199, 211, 223, 227, 229, 233, 239, 241, 251,
];

/// Above every p, so a power cut down to this size is still too great for every rule.
pub const POWER_CAP: i64 = 1 << 31;

/// Whether a number of at most 2,147,483,647 is an odd prime (FORMAT 1.2).
pub fn is_odd_prime(number: i64) -> bool {
    if number < 3 || number % 2 == 0 {
        return false;
    }
    let number = number as u32;
    for divisor in SMALL_PRIMES {
        if divisor * divisor > number {
            return true;
        }
        if number.is_multiple_of(divisor) {
            return false;
        }
    }
    let mut divisor = 257;
    while divisor * divisor <= number {
        if number.is_multiple_of(divisor) {
            return false;
        }
        divisor += 2;
    }
    true
}

/// The lesser of base^exponent and the cap, for a base from 2 to 2^31 - 1.
pub fn capped_power(base: i64, exponent: i64) -> i64 {
    let mut power = 1;
    for _ in 0..exponent {
        // Both factors are at most 2^31, so the product stays far below 2^63.
        power = (power * base).min(POWER_CAP);
    }
    power
}

/// The remainder w below the prime p with t·w ≡ 1, for a t that p does not divide (FORMAT 7.11).
pub fn inverse(t: i64, p: i64) -> i64 {
    // Euclid's steps, where at all times low ≡ x·t and high ≡ y·t modulo p.
    let (mut low, mut high) = (t.rem_euclid(p), p);
    let (mut x, mut y) = (1, 0);
    while low != 0 {
        let quotient = high / low;
        (low, high) = (high - quotient * low, low);
        (x, y) = (y - quotient * x, x);
    }
    y.rem_euclid(p)
}

#[cfg(test)]
mod tests {
    use super::*;

    /// The odd primes below a limit, by the sieve, to hold the divisions against.
    fn sieve(limit: usize) -> Vec<bool> {
        let mut prime = vec![true; limit];
        prime[..3].fill(false);
        for number in 2..limit {
            let step = if number == 2 || prime[number] { number } else { continue };
            for multiple in (2 * step..limit).step_by(step) {
                prime[multiple] = false;
            }
        }
        prime
    }

    #[test]
    fn primes_agree_with_the_sieve() {
        for (number, &prime) in sieve(300_000).iter().enumerate() {
            assert_eq!(is_odd_prime(number as i64), prime, "{number}");
        }
    }

    #[test]
    fn great_primes_and_squares() {
        assert!(is_odd_prime(2_147_483_647));
        assert!(is_odd_prime(2_147_483_629));
        assert!(!is_odd_prime(2_147_483_645));
        assert!(!is_odd_prime(46_337 * 46_337));
        assert!(!is_odd_prime(257 * 257));
        assert!(!is_odd_prime(-3));
    }

    #[test]
    fn powers_are_exact_below_the_cap() {
        assert_eq!(capped_power(7, 0), 1);
        assert_eq!(capped_power(2, 30), 1 << 30);
        assert_eq!(capped_power(2, 31), POWER_CAP);
        assert_eq!(capped_power(2_147_483_647, 1), 2_147_483_647);
        assert_eq!(capped_power(2_147_483_647, 31), POWER_CAP);
    }

    #[test]
    fn inverses() {
        for p in [3, 5, 31, 65_537, 2_147_483_647] {
            for t in [1, 2, p - 1, -1, -2, 1 - p, p / 2] {
                let w = inverse(t, p);
                assert!((0..p).contains(&w));
                assert_eq!((t.rem_euclid(p) * w) % p, 1);
            }
        }
    }
}
