//! Bases: of order r, of smaller order with a^r = 1, without a^r = 1, out of range; and rows of them.

use crate::drawing::noise::Noise;
use crate::drawing::parameters::{exponent, power, prime_divisors};
use crate::drawing::values::{faulty_register, unit};

/// A base of order r is looked for so often: of those with a^r = 1 one in six or more is of order r.
const ROOT_TRIES: u32 = 64;
/// The same for one without a^r = 1; where r is p − 1 there is none.
const FOREIGN_TRIES: u32 = 8;

/// A base: most of order r, some of smaller order, any, some out of range.
pub fn base(noise: &mut Noise, p: u32, r: u32) -> u32 {
    match noise.below(16) {
        0 => faulty_register(noise, p),
        1 | 2 => lesser(noise, p, r),
        3 | 4 => unit(noise, p),
        _ => proper(noise, p, r),
    }
}

/// A base of order r.
pub fn proper(noise: &mut Noise, p: u32, r: u32) -> u32 {
    match Root::drawn(noise, p, r) {
        Some(root) => root.proper(noise),
        None => unit(noise, p),
    }
}

/// So many bases of order r; any where p and r aren't those of a named program.
pub fn many_proper(noise: &mut Noise, p: u32, r: u32, count: usize) -> Vec<u32> {
    let root = Root::drawn(noise, p, r);
    let drawn = (0..count).map(|_| match &root {
        Some(root) => root.proper(noise),
        None => unit(noise, p),
    });
    drawn.collect()
}

/// A base with a^r = 1 of smaller order.
pub fn lesser(noise: &mut Noise, p: u32, r: u32) -> u32 {
    match Root::drawn(noise, p, r) {
        Some(root) => root.lesser(noise),
        None => 1,
    }
}

/// A base from 1 to p − 1 without a^r = 1, if one is soon found.
fn foreign(noise: &mut Noise, p: u32, r: u32) -> u32 {
    let p = p.max(2);
    (0..FOREIGN_TRIES)
        .map(|_| unit(noise, p))
        .find(|&base| power(base, r, p) != 1)
        .unwrap_or(p - 1)
}

/// A base of order r, of which all with a^r = 1 are powers.
struct Root {
    base: u32,
    p: u32,
    r: u32,
    primes: Vec<u32>,
}

impl Root {
    /// None where p and r aren't those of a named program, or none is soon found.
    fn drawn(noise: &mut Noise, p: u32, r: u32) -> Option<Root> {
        if p < 3 || r < 2 || !(p - 1).is_multiple_of(r) {
            return None;
        }
        let primes = prime_divisors(r);
        let base = (0..ROOT_TRIES)
            .map(|_| power(unit(noise, p), (p - 1) / r, p))
            .find(|&base| primes.iter().all(|q| power(base, r / q, p) != 1))?;
        Some(Root { base, p, r, primes })
    }

    /// The power of an exponent that shares no factor with r has order r too.
    fn proper(&self, noise: &mut Noise) -> u32 {
        power(self.base, exponent(noise, self.r), self.p)
    }

    /// To the power of a prime divisor q of r it has order r / q; 1 has order 1, and p − 1 has 2.
    fn lesser(&self, noise: &mut Noise) -> u32 {
        let proper = self.proper(noise);
        match noise.below(8) {
            0 => 1,
            1 if self.r > 2 && self.r.is_multiple_of(2) => self.p - 1,
            2 => self.lowered(self.lowered(proper, noise), noise),
            _ => self.lowered(proper, noise),
        }
    }

    fn lowered(&self, base: u32, noise: &mut Noise) -> u32 {
        power(base, noise.pick(&self.primes), self.p)
    }
}

/// A row of bases of order r; at times all are equal, and in half of the draws one or two are bad.
pub fn bases(noise: &mut Noise, p: u32, r: u32) -> Vec<u32> {
    let count = row_length(noise);
    let mut row = many_proper(noise, p, r, count);
    if row.is_empty() {
        return row;
    }
    match noise.below(32) {
        0 => row.fill(base(noise, p, r)),
        1 => row[place_in_row(noise, count)] = p.max(2) - 1,
        2..=4 => row[place_in_row(noise, count)] = faulty_register(noise, p),
        5..=7 => row[place_in_row(noise, count)] = foreign(noise, p, r),
        8..=10 => row[place_in_row(noise, count)] = lesser(noise, p, r),
        11..=14 => {
            // Either may come first, which gives the refusal.
            row[place_in_row(noise, count)] = faulty_register(noise, p);
            row[place_in_row(noise, count)] = if noise.once_in(3) {
                foreign(noise, p, r)
            } else {
                lesser(noise, p, r)
            };
        }
        _ => {}
    }
    row
}

/// Most rows are short, some have 63 to 66 bases; 64 are the most that a row may have.
fn row_length(noise: &mut Noise) -> usize {
    match noise.below(16) {
        0 => 0,
        1..=4 => noise.pick(&[63, 64, 65, 66]),
        5 => noise.index(67),
        _ => 1 + noise.index(6),
    }
}

/// A place of a row, its ends as often as all of it.
fn place_in_row(noise: &mut Noise, count: usize) -> usize {
    match noise.below(4) {
        0 => 0,
        1 => count - 1,
        _ => noise.index(count),
    }
}
