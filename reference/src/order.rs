//! Whether r is the order of a base: the least positive exponent that gives 1.

use crate::modular::{is_prime, Modulus};

/// No number below 2^32 has more prime divisors: the product of the first ten primes is above.
const MOST_PRIMES: usize = 9;
/// These are divided out before Pollard's rho is tried.
const SMALL_PRIMES: [u32; 18] = [
    2, 3, 5, 7, 11, 13, 17, 19, 23, 29, 31, 37, 41, 43, 47, 53, 59, 61,
];
/// What none of them divides is a prime below the square of the next one, 67.
const SURE: u32 = 67 * 67;
/// Differences whose common divisor with a number is looked for at once.
const AT_ONCE: usize = 32;

/// An exponent r with its prime divisors: they are found once for all bases of a call.
pub(crate) struct Order {
    r: u64,
    primes: PrimeDivisors,
}

impl Order {
    pub(crate) fn new(r: u32) -> Order {
        Order {
            r: r as u64,
            primes: PrimeDivisors::of(r),
        }
    }

    /// Whether r is the order of a base.
    pub(crate) fn is_that_of(&self, base: u64, modulus: Modulus) -> bool {
        modulus.power(base, self.r) == 1 && self.is_least_for(base, modulus)
    }

    /// The same of a base whose power r is 1. Its order divides r, and if it isn't r, it divides r / q for one of
    /// the primes q; then that power is 1 too.
    pub(crate) fn is_least_for(&self, base: u64, modulus: Modulus) -> bool {
        let mut quotients = self.primes.list().iter().map(|&q| self.r / q as u64);
        quotients.all(|quotient| modulus.power(base, quotient) != 1)
    }
}

/// The primes that divide a number, each once and in no order.
struct PrimeDivisors {
    primes: [u32; MOST_PRIMES],
    count: usize,
}

impl PrimeDivisors {
    /// Of 0 none.
    fn of(n: u32) -> PrimeDivisors {
        let mut found = PrimeDivisors {
            primes: [0; MOST_PRIMES],
            count: 0,
        };
        if n == 0 {
            return found;
        }
        let mut rest = n;
        for prime in SMALL_PRIMES {
            while rest.is_multiple_of(prime) {
                rest /= prime;
                found.add(prime);
            }
        }
        found.split(rest);
        found
    }

    fn list(&self) -> &[u32] {
        &self.primes[..self.count]
    }

    fn add(&mut self, prime: u32) {
        if !self.list().contains(&prime) {
            self.primes[self.count] = prime;
            self.count += 1;
        }
    }

    /// Adds the primes of a number that no small one divides.
    fn split(&mut self, n: u32) {
        if n == 1 {
            return;
        }
        if n < SURE || is_prime(n) {
            return self.add(n);
        }
        let divisor = divisor_of(n);
        self.split(divisor);
        self.split(n / divisor);
    }
}

/// A divisor of an odd number that is no prime; neither 1 nor the number itself.
fn divisor_of(n: u32) -> u32 {
    (1..)
        .find_map(|shift| by_rho(n, shift))
        .expect("of many sequences one tells the primes apart")
}

/// Pollard's rho. In the sequence in which x² + shift comes behind x, two places, of which one goes ahead twice
/// as fast, soon agree modulo a prime divisor of n. None where they do so modulo all of n.
fn by_rho(n: u32, shift: u64) -> Option<u32> {
    let modulus = Modulus::new(n);
    let next = |x: u64| modulus.reduce(x * x + shift);
    let further = |(slow, fast): (u64, u64)| (next(slow), next(next(fast)));
    let divisor = |difference: u64| common_divisor(difference as u32, n);
    let mut places = (2, 2);
    loop {
        let before = places;
        let mut product = 1;
        for _ in 0..AT_ONCE {
            places = further(places);
            product = modulus.product(product, places.0.abs_diff(places.1));
        }
        match divisor(product) {
            1 => {}
            found if found < n => return Some(found),
            _ => {
                places = before;
                break;
            }
        }
    }
    // They agreed modulo more than one prime since the last look, so now it is a look at each.
    loop {
        places = further(places);
        match divisor(places.0.abs_diff(places.1)) {
            1 => {}
            found => return (found < n).then_some(found),
        }
    }
}

/// The greatest common divisor by remainders.
fn common_divisor(a: u32, b: u32) -> u32 {
    if b == 0 {
        a
    } else {
        common_divisor(b, a % b)
    }
}

#[cfg(test)]
mod tests {
    use super::*;
    use crate::drawing::parameters::prime_divisors as plain_divisors;

    fn divisors(n: u32) -> Vec<u32> {
        let mut list = PrimeDivisors::of(n).list().to_vec();
        list.sort_unstable();
        list
    }

    #[test]
    fn prime_divisors_agree_with_trial_division() {
        for n in 1..60_000 {
            assert_eq!(divisors(n), plain_divisors(n), "{n}");
        }
        let mut x = 1u64;
        for shift in (0..32).cycle().take(1000) {
            x = x
                .wrapping_mul(6364136223846793005)
                .wrapping_add(1442695040888963407);
            let n = ((x >> 32) as u32 >> shift).max(1);
            assert_eq!(divisors(n), plain_divisors(n), "{n}");
        }
    }

    #[test]
    fn prime_divisors_at_the_ends() {
        assert_eq!(divisors(0), []);
        assert_eq!(divisors(1), []);
        assert_eq!(divisors(1 << 31), [2]);
        assert_eq!(divisors(4_294_967_291), [4_294_967_291]);
        assert_eq!(divisors(u32::MAX), [3, 5, 17, 257, 65_537]);
        assert_eq!(divisors(223_092_870), [2, 3, 5, 7, 11, 13, 17, 19, 23]);
        assert_eq!(divisors(268_435_398), [2, 3, 7, 11, 581_029]);
        assert_eq!(divisors(134_165_873), [11_579, 11_587]);
    }

    /// Squares, and products of two neighbours, of primes that rho has to tell apart; and cubes.
    #[test]
    fn prime_divisors_of_products_of_large_primes() {
        let primes: Vec<u32> = (67..1 << 16).filter(|&n| is_prime(n)).collect();
        for two in primes.windows(2) {
            let &[q, next] = two else { continue };
            assert_eq!(divisors(q * q), [q]);
            if let Some(n) = q.checked_mul(next) {
                assert_eq!(divisors(n), [q, next]);
            }
            if let Some(n) = (q * q).checked_mul(q) {
                assert_eq!(divisors(n), [q]);
            }
        }
    }
}
