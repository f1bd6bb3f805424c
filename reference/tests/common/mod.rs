//! What several test files need: tapes, words, and a plain machine to compare with.
#![allow(dead_code)]

use reference::build;

pub const MUL: u32 = 5;
pub const DIV: u32 = 6;
pub const SWP: u32 = 7;

/// Document 01's case A: p = 3, r = 2, k = 1, basic.
pub const CASE_A: [u32; 16] = [
    0x10000101, 0x20000003, 0x30000002, 0x40000001, 0x50000004, 0x70000004, 0x50000006, 0x70000004,
    0x60000004, 0x70000009, 0x50000004, 0x70000004, 0x60000006, 0x70000004, 0x60000004, 0xF000000B,
];

pub fn built(p: u32, r: u32, k: u32, variant: u32) -> Vec<u32> {
    let mut row = vec![0; 512];
    let count = build(p, r, k, variant, &mut row).expect("parameters of a named program");
    row.truncate(count);
    row
}

pub fn step_word(kind: u32, target: u32, source: u32) -> u32 {
    kind << 28 | source << 2 | target
}

pub fn free(p: u32, steps: &[u32]) -> Vec<u32> {
    let mut tape = vec![0x10000001, 0x20000000 | p, 0x30000000, 0x40000000];
    tape.extend_from_slice(steps);
    tape.push(0xF0000000 | steps.len() as u32);
    tape
}

pub fn bytes(tape: &[u32]) -> Vec<u8> {
    tape.iter().flat_map(|word| word.to_le_bytes()).collect()
}

/// The step words of a tape that has a head and an end.
pub fn steps_of(tape: &[u32]) -> &[u32] {
    &tape[4..tape.len() - 1]
}

/// One step word done, or undone, by remainders and a search for the inverse.
pub fn plain_step(registers: &mut [u64; 4], p: u64, word: u32, undo: bool) {
    let (target, source) = ((word & 3) as usize, (word >> 2 & 3) as usize);
    let by = registers[source];
    let multiply = (word >> 28 == MUL) != undo;
    if word >> 28 == SWP {
        registers.swap(target, source);
    } else if multiply {
        registers[target] = registers[target] * by % p;
    } else {
        let inverse = (1..p).find(|x| x * by % p == 1).expect("p is prime");
        registers[target] = registers[target] * inverse % p;
    }
}

/// The greatest common divisor by remainders.
pub fn gcd(a: u32, b: u32) -> u32 {
    if b == 0 {
        a
    } else {
        gcd(b, a % b)
    }
}

/// The divisors of a number from 1 on, its square root twice.
pub fn divisors(n: u32) -> Vec<u32> {
    let small = (1..).take_while(|d| d * d <= n);
    let small = small.filter(|&d| n.is_multiple_of(d));
    small.flat_map(|d| [d, n / d]).collect()
}

/// Trial division.
pub fn is_prime(n: u32) -> bool {
    n >= 2
        && (2..)
            .take_while(|d| d * d <= n)
            .all(|d| !n.is_multiple_of(d))
}

/// The least prime from 3 on that leaves 1 modulo r.
pub fn prime_for(r: u32) -> u32 {
    (1..)
        .map(|i| i * r + 1)
        .find(|&p| p >= 3 && is_prime(p))
        .unwrap()
}

/// A sequence of 64-bit numbers without a pattern (xorshift).
pub struct Noise(pub u64);

impl Noise {
    pub fn next(&mut self) -> u64 {
        self.0 ^= self.0 << 13;
        self.0 ^= self.0 >> 7;
        self.0 ^= self.0 << 17;
        self.0
    }

    pub fn below(&mut self, bound: u64) -> u64 {
        self.next() % bound
    }
}

/// A lawful step word.
pub fn random_step(noise: &mut Noise) -> u32 {
    let target = noise.below(4) as u32;
    let source = (target + 1 + noise.below(3) as u32) % 4;
    match noise.below(3) {
        0 => step_word(MUL, target, source),
        1 => step_word(DIV, target, source),
        _ => step_word(SWP, target.min(source), target.max(source)),
    }
}

/// Four registers from 1 to p − 1.
pub fn drawn_start(noise: &mut Noise, p: u32) -> [u32; 4] {
    [(); 4].map(|_| 1 + noise.below(p as u64 - 1) as u32)
}
