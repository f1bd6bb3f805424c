//! p, r, k and variants: lawful ones, and ones with a fault.

use crate::drawing::noise::Noise;

/// Payloads of tape words, and moduli, are below this.
pub const PAYLOADS: u32 = 1 << 28;

/// Factors of a number below 2^28 that isn't prime start below this.
const FACTORS: u32 = 1 << 14;
/// How many primes are drawn; the ends and small ones come on top.
const DRAWN_PRIMES: usize = 6000;
/// The same where the primes are small, and their limit.
const FEW_PRIMES: usize = 200;
const SMALL: u32 = 1 << 11;

/// Both ends of the range, the worked example's, and small ones.
const CHOSEN_PRIMES: [u32; 16] = [
    3, 5, 7, 11, 13, 31, 43, 101, 359, 8191, 65537, 1048343, 16776899, 268435367, 268435361,
    268435399,
];

/// Numbers that are no modulus: the ends' neighbours and primes out of range; Carmichael numbers; numbers
/// that Miller's test takes for primes at 2, at 2 and 3, or at 2 and one of 7 and 61; a square.
const CHOSEN_FAULTS: [u32; 78] = [
    0, 1, 2, 4, 9, 25, 49, 121, 268435455, 268435456, 268435459, 4294967291, 4294967295, 561, 1105,
    1729, 2465, 2821, 6601, 8911, 10585, 41041, 825265, 340561, 512461, 656601, 2047, 3277, 4033,
    4681, 8321, 1373653, 1530787, 1987021, 25326001, 161304001, 960946321, 3215031751, 314821,
    916327, 2205967, 2269093, 2284453, 2387797, 3539101, 5489641, 6386993, 9006401, 9863461,
    15188557, 19328653, 20261251, 27509653, 36307981, 36765901, 37769887, 42984589, 48191653,
    51302353, 58449847, 59631211, 60581401, 69885649, 72543547, 74927161, 79417801, 96904081,
    99115297, 115804501, 116090081, 132338881, 134767153, 135969401, 143168581, 146884393,
    147287141, 157405249, 268337161,
];

#[derive(Clone, Copy, Debug)]
pub struct Parameters {
    pub p: u32,
    pub r: u32,
    pub k: u32,
    pub variant: u32,
}

/// A prime p, and every r from 2 on that divides p − 1.
struct Field {
    p: u32,
    orders: Vec<u32>,
}

/// The primes to draw from.
pub struct Fields {
    fields: Vec<Field>,
    factors: Vec<u32>,
}

impl Fields {
    /// Primes of every size up to 28 bits.
    pub fn drawn(noise: &mut Noise) -> Fields {
        Fields::below(PAYLOADS, DRAWN_PRIMES, noise)
    }

    /// Small primes, whose tapes are short, and the chosen ones.
    pub fn small(noise: &mut Noise) -> Fields {
        Fields::below(SMALL, FEW_PRIMES, noise)
    }

    fn below(limit: u32, count: usize, noise: &mut Noise) -> Fields {
        let factors = primes_below(FACTORS);
        let drawn = (0..count).map(|_| drawn_prime(noise, limit, &factors));
        let primes: Vec<u32> = CHOSEN_PRIMES.into_iter().chain(drawn).collect();
        let fields = primes
            .iter()
            .map(|&p| Field {
                p,
                orders: orders(p, &factors),
            })
            .collect();
        Fields { fields, factors }
    }

    /// Parameters that build accepts.
    pub fn lawful(&self, noise: &mut Noise) -> Parameters {
        let field = self.field(noise);
        let r = match noise.below(4) {
            0 => field.p - 1,
            1 => field.orders[field.orders.len() / 2],
            _ => noise.pick(&field.orders),
        };
        Parameters {
            p: field.p,
            r,
            k: exponent(noise, r),
            variant: noise.between(1, 3),
        }
    }

    /// Parameters of which one in two has a fault.
    pub fn any(&self, noise: &mut Noise) -> Parameters {
        let mut drawn = self.lawful(noise);
        match noise.below(16) {
            0 | 1 => drawn.p = self.faulty_modulus(noise),
            2 | 3 => drawn.r = faulty_order(noise, drawn.p),
            4 | 5 => drawn.k = faulty_exponent(noise, drawn.r),
            6 => drawn.variant = faulty_variant(noise),
            7 => {
                drawn = Parameters {
                    p: self.modulus(noise),
                    r: faulty_order(noise, drawn.p),
                    k: faulty_exponent(noise, drawn.r),
                    variant: faulty_variant(noise),
                }
            }
            _ => {}
        }
        drawn
    }

    /// A modulus, once in eight draws with a fault.
    pub fn modulus(&self, noise: &mut Noise) -> u32 {
        if noise.once_in(8) {
            self.faulty_modulus(noise)
        } else {
            self.field(noise).p
        }
    }

    /// Nearly always no modulus: also products of two primes, and squares.
    pub fn faulty_modulus(&self, noise: &mut Noise) -> u32 {
        match noise.below(8) {
            0 | 1 => noise.pick(&CHOSEN_FAULTS),
            2 => {
                let factor = noise.pick(&self.factors);
                factor * factor
            }
            3 => {
                let at = noise.index(self.factors.len() - 1);
                self.factors[at] * self.factors[at + 1]
            }
            4 => noise.pick(&self.factors) * noise.pick(&self.factors),
            5 => self.field(noise).p + 2,
            6 => noise.below(PAYLOADS),
            _ => noise.word(),
        }
    }

    fn field(&self, noise: &mut Noise) -> &Field {
        if noise.once_in(8) {
            &self.fields[noise.index(CHOSEN_PRIMES.len())]
        } else {
            &self.fields[noise.index(self.fields.len())]
        }
    }
}

/// An exponent that r allows.
pub fn exponent(noise: &mut Noise, r: u32) -> u32 {
    match noise.below(8) {
        0 => 1,
        1 => r - 1,
        _ => (0..64)
            .map(|_| noise.between(1, r - 1))
            .find(|&k| common_divisor(k, r) == 1)
            .unwrap_or(1),
    }
}

/// Too small, or nearly always no divisor of p − 1.
pub fn faulty_order(noise: &mut Noise, p: u32) -> u32 {
    match noise.below(8) {
        0 => 0,
        1 => 1,
        2 => p,
        3 => p.wrapping_add(1),
        4 => p / 2 + 1,
        5 => noise.word(),
        _ => noise.between(2, p.max(3)),
    }
}

/// 0, too large, or a multiple of a factor of r if there is a small one.
pub fn faulty_exponent(noise: &mut Noise, r: u32) -> u32 {
    let common = (2..64).find(|&d| r.is_multiple_of(d) && d < r);
    match (noise.below(8), common) {
        (0, _) => 0,
        (1, _) => r,
        (2, _) => r.wrapping_add(1),
        (3, _) | (_, None) => noise.word(),
        (_, Some(d)) => d * noise.between(1, (r / d).max(2) - 1),
    }
}

/// A variant that build refuses.
fn faulty_variant(noise: &mut Noise) -> u32 {
    match noise.below(4) {
        0 => 0,
        1 => 4,
        2 => noise.between(5, 260),
        _ => noise.word(),
    }
}

/// A number that an inverse is asked of, and its modulus: any two 32-bit numbers, mostly lawful.
pub fn inverse_call(noise: &mut Noise) -> (u32, u32) {
    let r = match noise.below(16) {
        0 => noise.below(4),
        1 => u32::MAX - noise.below(4),
        _ => noise.of_any_size(32) as u32,
    };
    let k = match noise.below(8) {
        0 => faulty_exponent(noise, r),
        1 => noise.word(),
        _ if r < 2 => noise.below(3),
        _ => exponent(noise, r),
    };
    (k, r)
}

/// The greatest common divisor by remainders.
pub fn common_divisor(a: u32, b: u32) -> u32 {
    if b == 0 {
        a
    } else {
        common_divisor(b, a % b)
    }
}

/// base^exponent modulo p; p isn't 0.
pub fn power(base: u32, exponent: u32, p: u32) -> u32 {
    let p = p as u64;
    let (mut result, mut square) = (1 % p, base as u64 % p);
    for bit in 0..u32::BITS {
        if exponent >> bit & 1 == 1 {
            result = result * square % p;
        }
        square = square * square % p;
    }
    result as u32
}

/// The primes that divide a number from 1 on, by trial division.
pub fn prime_divisors(n: u32) -> Vec<u32> {
    let mut primes = Vec::new();
    let (mut rest, mut d) = (n, 2);
    while d <= rest / d {
        if rest.is_multiple_of(d) {
            primes.push(d);
        }
        while rest.is_multiple_of(d) {
            rest /= d;
        }
        d += 1;
    }
    if rest > 1 {
        primes.push(rest);
    }
    primes
}

fn primes_below(limit: u32) -> Vec<u32> {
    let mut primes: Vec<u32> = Vec::new();
    for n in 2..limit {
        if is_prime(n, &primes) {
            primes.push(n);
        }
    }
    primes
}

/// By trial division with the primes up to the square root, which `factors` has.
fn is_prime(n: u32, factors: &[u32]) -> bool {
    factors
        .iter()
        .take_while(|&&d| d * d <= n)
        .all(|&d| !n.is_multiple_of(d))
}

/// A prime from 3 on below a limit of at most 2^28, of a drawn bit length.
fn drawn_prime(noise: &mut Noise, limit: u32, factors: &[u32]) -> u32 {
    let start = noise.below(limit) >> noise.below(limit.ilog2() - 1);
    (3..=start.max(3))
        .rev()
        .find(|&n| is_prime(n, factors))
        .unwrap_or(3)
}

/// The divisors of p − 1 from 2 on, in ascending order.
fn orders(p: u32, factors: &[u32]) -> Vec<u32> {
    let mut divisors = vec![1];
    let mut rest = p - 1;
    for &d in factors {
        if d * d > rest {
            break;
        }
        multiply(&mut divisors, &mut rest, d);
    }
    if rest > 1 {
        let last = rest;
        multiply(&mut divisors, &mut rest, last);
    }
    divisors.sort_unstable();
    divisors.split_off(1)
}

/// Takes a factor out of the rest and into the divisors, as often as it is there.
fn multiply(divisors: &mut Vec<u32>, rest: &mut u32, factor: u32) {
    let old = divisors.clone();
    let mut weight = 1;
    while rest.is_multiple_of(factor) {
        *rest /= factor;
        weight *= factor;
        divisors.extend(old.iter().map(|d| d * weight));
    }
}
