//! Arithmetic modulo a number below 2^32: products, powers, inverses and the prime test.

use crate::refusal;

/// A modulus with its reciprocal, for Barrett's reduction of 64-bit products.
#[derive(Clone, Copy)]
pub(crate) struct Modulus {
    value: u64,
    reciprocal: u64,
}

impl Modulus {
    pub(crate) fn new(value: u32) -> Modulus {
        let value = value as u64;
        Modulus {
            value,
            reciprocal: u64::MAX / value,
        }
    }

    pub(crate) fn reduce(self, x: u64) -> u64 {
        // The quotient is the true one or 1 less.
        let quotient = ((x as u128 * self.reciprocal as u128) >> 64) as u64;
        let rest = x - quotient * self.value;
        if rest >= self.value {
            rest - self.value
        } else {
            rest
        }
    }

    /// The product of two residues.
    pub(crate) fn product(self, x: u64, y: u64) -> u64 {
        self.reduce(x * y)
    }

    pub(crate) fn power(self, base: u64, exponent: u64) -> u64 {
        let mut result = self.reduce(1);
        let mut square = self.reduce(base);
        let mut rest = exponent;
        while rest > 0 {
            if rest & 1 == 1 {
                result = self.product(result, square);
            }
            square = self.product(square, square);
            rest >>= 1;
        }
        result
    }

    /// The inverse of x from 1 to m − 1 for an odd modulus m; none if they share a factor.
    ///
    /// Kaliski's almost inverse keeps a·r ≡ −u·2^shift and a·s ≡ v·2^shift modulo m, where u and v
    /// are odd and shrink to the greatest common divisor; the power of two is divided out at the end.
    pub(crate) fn inverse(self, x: u64) -> Option<u64> {
        let mut shift = x.trailing_zeros();
        let (mut u, mut v) = (self.value, x >> shift);
        let (mut r, mut s) = (0u64, 1u64);
        while u != v {
            if u > v {
                u -= v;
                r += s;
                let zeros = u.trailing_zeros();
                u >>= zeros;
                s <<= zeros;
                shift += zeros;
            } else {
                v -= u;
                s += r;
                let zeros = v.trailing_zeros();
                v >>= zeros;
                r <<= zeros;
                shift += zeros;
            }
        }
        let half = self.value / 2 + 1;
        (v == 1).then(|| self.product(self.reduce(s), self.power(half, shift as u64)))
    }
}

/// The inverse service: refusal 2 for r < 2, then 3 where k isn't from 1 to r − 1 or shares a factor
/// with r.
pub fn inverse(k: u32, r: u32) -> Result<u32, u32> {
    if r < 2 {
        return Err(refusal::ORDER);
    }
    if k < 1 || k >= r {
        return Err(refusal::EXPONENT);
    }
    let found = if r % 2 == 1 {
        Modulus::new(r).inverse(k as u64)
    } else {
        inverse_modulo_even(k as u64, r as u64)
    };
    found.map(|inverse| inverse as u32).ok_or(refusal::EXPONENT)
}

/// For even r, k is odd, so the inverse R of r modulo k comes first; k divides 1 + r (k − R), and
/// the quotient is the inverse of k.
fn inverse_modulo_even(k: u64, r: u64) -> Option<u64> {
    if k == 1 {
        return Some(1);
    }
    let rest = r % k;
    if k.is_multiple_of(2) || rest == 0 {
        return None;
    }
    let back = Modulus::new(k as u32).inverse(rest)?;
    Some((1 + r * (k - back)) / k)
}

/// x × y modulo m; 0 where m is 0.
pub fn product(x: u32, y: u32, m: u32) -> u32 {
    if m == 0 {
        return 0;
    }
    // The product of two 32-bit numbers fits 64 bits, so it needs no reduction before.
    Modulus::new(m).product(x as u64, y as u64) as u32
}

/// base^exponent modulo m; 0 where m is 0.
pub fn power(base: u32, exponent: u32, m: u32) -> u32 {
    if m == 0 {
        return 0;
    }
    Modulus::new(m).power(base as u64, exponent as u64) as u32
}

/// Whether n is a prime, by Miller–Rabin; the bases 2, 7 and 61 decide every 32-bit number.
pub fn is_prime(n: u32) -> bool {
    if n < 3 || n.is_multiple_of(2) {
        return n == 2;
    }
    let modulus = Modulus::new(n);
    [2, 7, 61]
        .iter()
        .all(|&base| base % n == 0 || is_strong_probable_prime(modulus, base as u64))
}

fn is_strong_probable_prime(modulus: Modulus, base: u64) -> bool {
    let before = modulus.value - 1;
    let twos = before.trailing_zeros();
    let mut x = modulus.power(base, before >> twos);
    if x == 1 || x == before {
        return true;
    }
    for _ in 1..twos {
        x = modulus.product(x, x);
        if x == before {
            return true;
        }
    }
    false
}

#[cfg(test)]
mod tests {
    use super::*;

    #[test]
    fn primes_agree_with_a_sieve() {
        let limit = 200_000;
        let mut composite = vec![false; limit];
        for n in 2..limit {
            assert_eq!(is_prime(n as u32), !composite[n], "{n}");
            if !composite[n] {
                (n * n..limit).step_by(n).for_each(|m| composite[m] = true);
            }
        }
        assert!(!is_prime(0) && !is_prime(1));
    }

    #[test]
    fn primes_agree_with_trial_division_near_the_limits() {
        let divides = |n: u32| {
            (2..)
                .take_while(|d| d * d <= n as u64)
                .any(|d| (n as u64).is_multiple_of(d))
        };
        for n in (268_435_456 - 200..=268_435_456u32).chain(u32::MAX - 60..=u32::MAX) {
            assert_eq!(is_prime(n), !divides(n), "{n}");
        }
        // Products of two primes above any small base, and Carmichael numbers.
        for n in [
            16381 * 16369,
            561,
            1105,
            1729,
            2465,
            2821,
            6601,
            8911,
            41041,
            825265,
        ] {
            assert!(!is_prime(n));
        }
    }

    #[test]
    fn products_and_powers_agree_with_repeated_multiplication() {
        for m in (1..40).chain([u32::MAX, u32::MAX - 4]) {
            for base in [0, 1, 2, 3, 39, u32::MAX] {
                let mut expected = 1 % m;
                for exponent in 0..40 {
                    assert_eq!(
                        power(base, exponent, m),
                        expected,
                        "{base}^{exponent} mod {m}"
                    );
                    let next = (expected as u128 * base as u128 % m as u128) as u32;
                    assert_eq!(product(expected, base, m), next);
                    expected = next;
                }
            }
        }
        assert_eq!([product(3, 5, 0), power(2, 10, 0)], [0, 0]);
    }

    #[test]
    fn reductions_agree_with_remainders() {
        let mut x = 1u64;
        for value in (1..300)
            .chain(u32::MAX - 5..=u32::MAX)
            .chain([1 << 31, (1 << 28) - 1])
        {
            let modulus = Modulus::new(value);
            let edge = value as u64;
            for _ in 0..20 {
                x = x
                    .wrapping_mul(6364136223846793005)
                    .wrapping_add(1442695040888963407);
                assert_eq!(modulus.reduce(x), x % edge);
            }
            for y in [
                0,
                1,
                edge - 1,
                edge,
                edge + 1,
                u64::MAX,
                u64::MAX / edge * edge,
            ] {
                assert_eq!(modulus.reduce(y), y % edge);
            }
        }
    }
}
