//! What is lent to the services: the same for each run, and 64 of each, so that no call is like the one
//! before.

use linked::proved;
use reference as services;
use reference::drawing::bases::many_proper;
use reference::drawing::noise::Noise;
use reference::drawing::parameters::{common_divisor, Parameters, PAYLOADS};
use reference::drawing::tapes::{named, step, steps};

pub const INPUTS: usize = 64;
pub const MOST_WORDS: usize = 512;
pub const MOST_PLACES: usize = 46;
/// A hand-made program has as many steps as a tape has room for.
const MOST_STEPS: u32 = 507;
const SEED: u64 = 359_179;

/// Kinds of tape words.
const MUL: u32 = 5;
const DIV: u32 = 6;
const END: u32 = 15;

/// Programs of a kind; their number in a header, and its name.
#[derive(PartialEq)]
pub struct Variant {
    pub number: u32,
    pub name: &'static str,
}

const fn variant(number: u32, name: &'static str) -> Variant {
    Variant { number, name }
}

/// Those that build writes, and hand-made ones of steps drawn at random.
pub const EVERY: &[Variant] = &[
    variant(1, "basic"),
    variant(2, "dual"),
    variant(3, "hybrid"),
    variant(0, "free"),
];
/// Those that build writes.
pub const NAMED: &[Variant] = EVERY.split_at(EVERY.len() - 1).0;
/// Of services that get no program.
pub const NONE: &[Variant] = &[variant(0, "")];

/// A modulus, its order, and the largest number.
pub struct Size {
    p: u32,
    r: u32,
    most: u64,
}

/// The worked example's p and r, and numbers as small.
pub const SMALL: Size = Size {
    p: 359,
    r: 179,
    most: 358,
};
/// The largest primes below 2^8, 2^16, 2^24 and 2^28.
pub const GROWING: [Size; 4] = [full(251), full(65_521), full(16_777_213), full(268_435_399)];

/// Other orders: the largest prime of the largest p, a prime near 2^27, two primes that are hard to find, and as many
/// primes as there can be.
pub const ORDERS: [Size; 4] = [
    of_order(268_435_399, 581_029),
    of_order(268_435_019, 134_217_509),
    of_order(268_331_747, 11_579 * 11_587),
    full(232_792_561),
];

/// A prime with the largest order it has, and numbers of 64 bits.
const fn full(p: u32) -> Size {
    of_order(p, p - 1)
}

const fn of_order(p: u32, r: u32) -> Size {
    Size {
        p,
        r,
        most: u64::MAX,
    }
}

pub struct Inputs {
    pub p: u32,
    pub r: u32,
    pub exponents: Vec<u32>,
    pub bases: Vec<u32>,
    pub registers: Vec<[u32; 4]>,
    pub numbers: Vec<u64>,
    pub lists: Vec<Vec<u8>>,
    /// The tapes by variant: hand-made ones, then those of variants 1, 2, 3 for each exponent.
    tapes: [Vec<Vec<u32>>; 4],
    /// The same as bytes.
    bytes: [Vec<Vec<u8>>; 4],
}

impl Size {
    pub fn inputs(&self) -> Inputs {
        let Size { p, r, most } = *self;
        let mut noise = Noise::new(SEED);
        let exponents = drawn(|| coprime(&mut noise, r));
        let numbers = drawn(|| noise.number() % most + 1);
        let bases = many_proper(&mut noise, p, r, INPUTS);
        let registers = drawn(|| [0; 4].map(|_| noise.between(1, p - 1)));
        let tapes = [0, 1, 2, 3].map(|variant: u32| match variant {
            0 => drawn(|| hand_made(&mut noise, p)),
            _ => {
                let tape = |&k: &u32| named(Parameters { p, r, k, variant });
                exponents.iter().map(tape).collect()
            }
        });
        tapes.iter().flatten().for_each(|tape| accepted(tape));
        let named = tapes[1..].iter().flatten();
        named.for_each(|tape| raised(tape, &bases));
        Inputs {
            p,
            r,
            lists: numbers.iter().map(|&n| places_of(n)).collect(),
            bytes: [0, 1, 2, 3]
                .map(|variant: usize| tapes[variant].iter().map(|tape| bytes_of(tape)).collect()),
            tapes,
            exponents,
            bases,
            registers,
            numbers,
        }
    }
}

impl Inputs {
    pub fn tape(&self, variant: u32, i: usize) -> &[u32] {
        &self.tapes[variant as usize][i]
    }

    pub fn bytes(&self, variant: u32, i: usize) -> &[u8] {
        &self.bytes[variant as usize][i]
    }

    pub fn mean_steps(&self, variant: &Variant) -> f64 {
        self.mean(variant, steps)
    }

    /// Of the steps that aren't swaps.
    pub fn mean_products(&self, variant: &Variant) -> f64 {
        let kinds = [MUL, DIV];
        self.mean(variant, |tape| {
            let products = tape
                .iter()
                .filter(|&word| kinds.contains(&(word / PAYLOADS)));
            products.count() as u32
        })
    }

    fn mean(&self, variant: &Variant, count: impl Fn(&[u32]) -> u32) -> f64 {
        let tapes = &self.tapes[variant.number as usize];
        let total: u32 = tapes.iter().map(|tape| count(tape)).sum();
        total as f64 / INPUTS as f64
    }
}

fn drawn<T>(mut draw: impl FnMut() -> T) -> Vec<T> {
    (0..INPUTS).map(|_| draw()).collect()
}

fn coprime(noise: &mut Noise, r: u32) -> u32 {
    loop {
        let k = noise.between(2, r - 1);
        if common_divisor(k, r) == 1 {
            return k;
        }
    }
}

/// A hand-made program: any steps, on any registers.
fn hand_made(noise: &mut Noise, p: u32) -> Vec<u32> {
    let mut tape = vec![PAYLOADS + 1, 2 * PAYLOADS + p, 3 * PAYLOADS, 4 * PAYLOADS];
    tape.extend((0..MOST_STEPS).map(|_| step(noise)));
    tape.push(END * PAYLOADS + MOST_STEPS);
    tape
}

/// A refusal is quick, and would be measured without a word: neither side refuses the program, nor its
/// exponents, which may be out of range where steps are drawn.
fn accepted(tape: &[u32]) {
    assert_eq!(proved::check(tape), 0);
    assert!(services::trace(tape, steps(tape)).is_ok());
    assert!(services::table(tape, steps(tape)).is_ok());
}

/// The same of all bases in one row.
fn raised(tape: &[u32], bases: &[u32]) {
    assert_eq!(proved::raise(tape, &mut bases.to_vec()), 0);
    assert_eq!(services::raise(tape, &mut bases.to_vec()), Ok(()));
}

fn places_of(n: u64) -> Vec<u8> {
    services::places(n, MOST_PLACES).unwrap_or_default()
}

fn bytes_of(tape: &[u32]) -> Vec<u8> {
    tape.iter().flat_map(|word| word.to_le_bytes()).collect()
}
