//! What the machine needs for a product modulo p that waits for the product before it.

use crate::inputs::Inputs;
use crate::timing::Side;
use std::hint::black_box;

/// Products in a row of one call.
const LINKS: usize = 8192;

/// Chains of products modulo p, by one way of reducing them.
pub struct Chains {
    /// Each product waits for the one before it.
    one: Side<'static>,
    /// Two such chains side by side.
    two: Side<'static>,
}

impl Chains {
    fn new(product: impl Fn(u32, u32) -> u32 + Copy + 'static, inputs: &Inputs) -> Chains {
        let [a, b, c, d] = inputs.registers[0];
        let (mut one, mut two) = ((a, b), [(a, b), (c, d)]);
        Chains {
            one: Side::new(1, move |_| {
                for _ in 0..LINKS {
                    one = next(product, one);
                }
                black_box(one);
            }),
            two: Side::new(1, move |_| {
                for _ in 0..LINKS {
                    two = two.map(|pair| next(product, pair));
                }
                black_box(two);
            }),
        }
    }

    pub fn round(&mut self) {
        self.one.round();
        self.two.round();
    }

    /// Nanoseconds of a product that waits for the one before it.
    pub fn one(&self) -> f64 {
        self.one.least() / LINKS as f64
    }

    /// Nanoseconds of two products that wait for the two before them.
    pub fn two(&self) -> f64 {
        self.two.least() / LINKS as f64
    }

    pub fn spread(&self) -> f64 {
        self.one.spread().max(self.two.spread())
    }
}

/// The last two numbers of a chain, one further. As in a run of basic steps the factors are the last two
/// results, so nothing about them can be worked out before the loop.
fn next(product: impl Fn(u32, u32) -> u32, (x, y): (u32, u32)) -> (u32, u32) {
    (y, product(x, y))
}

/// By Montgomery's reduction.
pub fn by_montgomery(inputs: &Inputs) -> Chains {
    let montgomery = black_box(Montgomery::new(inputs.p));
    Chains::new(move |x, y| montgomery.product(x, y), inputs)
}

/// By a remainder, of a p that the compiler doesn't know.
pub fn by_remainder(inputs: &Inputs) -> Chains {
    let p = black_box(inputs.p);
    Chains::new(move |x, y| remainder(x, y, p), inputs)
}

fn remainder(x: u32, y: u32, p: u32) -> u32 {
    (x as u64 * y as u64 % p as u64) as u32
}

/// An odd modulus below 2^31 and its inverse modulo 2^32.
#[derive(Clone, Copy)]
struct Montgomery {
    p: u32,
    q: u32,
}

impl Montgomery {
    fn new(p: u32) -> Montgomery {
        // p is its own inverse modulo 8, and each turn makes the right bits twice as many.
        let better = |q: u32| q.wrapping_mul(2u32.wrapping_sub(p.wrapping_mul(q)));
        let q = (0..4).fold(p, |q, _| better(q));
        Montgomery { p, q }
    }

    /// x y / 2^32 modulo p, of two residues: what is subtracted makes the lower half zero.
    fn product(self, x: u32, y: u32) -> u32 {
        let t = x as u64 * y as u64;
        let u = (t as u32).wrapping_mul(self.q);
        let high = (u as u64 * self.p as u64) >> 32;
        let (rest, below) = ((t >> 32) as u32).overflowing_sub(high as u32);
        rest.wrapping_add(if below { self.p } else { 0 })
    }
}

#[cfg(test)]
mod tests {
    use super::*;

    #[test]
    fn both_ways_lead_to_the_same_product() {
        for p in [3, 251, 359, 65_521, 16_777_213, 268_435_399] {
            let montgomery = Montgomery::new(p);
            assert_eq!(p.wrapping_mul(montgomery.q), 1);
            let some = [0, 1, 2, p / 2, p / 3 + 1, p - 2, p - 1].map(|x| x % p);
            for (x, y) in some.iter().flat_map(|&x| some.map(|y| (x, y))) {
                let found = montgomery.product(x, y);
                assert!(found < p);
                let back = (found as u64 * (1 << 32)) % p as u64;
                assert_eq!(back as u32, remainder(x, y, p));
            }
        }
    }
}
