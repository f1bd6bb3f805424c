//! Tapes: built ones, hand-made ones, ones at the edge of the exponents' range, any words; and damage.

use crate::build;
use crate::drawing::noise::Noise;
use crate::drawing::parameters::{
    common_divisor, faulty_exponent, faulty_order, Fields, Parameters, PAYLOADS,
};

/// A row that has room for every tape, and for ones too long.
pub const ROW_WORDS: usize = 640;

const MOST_WORDS: usize = 512;
const HEADER_WORDS: usize = 4;
const FRAME_WORDS: usize = 5;
const MOST_STEPS: u32 = 507;

const MUL: u32 = 5;
const DIV: u32 = 6;
const SWP: u32 = 7;
const END: u32 = 15;

/// With these bits turned a mul is the div that undoes it, and a div the mul.
const UNDONE: u32 = (MUL ^ DIV) * PAYLOADS;

/// The exponents' range ends here.
const EXPONENT_LIMIT: u64 = 1 << 62;
/// Longer climbs to it are drawn anew, which keeps scripts small.
const MOST_CLIMB: usize = 180;

/// A tape: named ones and hand-made ones, three in eight of them damaged, and rows of any words.
pub fn tape(fields: &Fields, noise: &mut Noise) -> Vec<u32> {
    let mut tape = match noise.below(16) {
        0..=8 => named(fields.lawful(noise)),
        9..=11 => free(fields, noise),
        12 => edge(fields, noise),
        13 => header_and_steps(fields, noise),
        14 => header_of(fields, noise),
        _ => words(noise),
    };
    if noise.below(8) < 3 {
        damage(&mut tape, fields, noise);
    }
    tape
}

/// What build writes.
pub fn named(parameters: Parameters) -> Vec<u32> {
    let Parameters { p, r, k, variant } = parameters;
    let mut row = vec![0; MOST_WORDS];
    let count = build(p, r, k, variant, &mut row).unwrap_or(0);
    row.truncate(count);
    row
}

/// The count of steps that a tape of this length has.
pub fn steps(tape: &[u32]) -> u32 {
    tape.len().saturating_sub(FRAME_WORDS) as u32
}

/// p, r as the tape gives them; 0 past its end.
pub fn modulus_and_order(tape: &[u32]) -> (u32, u32) {
    let payload = |at: usize| tape.get(at).map_or(0, |word| word % PAYLOADS);
    (payload(1), payload(2))
}

/// A hand-made program of drawn steps, once in four draws multiplications alone, whose exponents leave
/// the range if they are many; at times with an order or exponent that it may not have.
fn free(fields: &Fields, noise: &mut Noise) -> Vec<u32> {
    let count = match noise.below(8) {
        0 => 0,
        1 => MOST_STEPS,
        2 => MOST_STEPS + 1,
        3 | 4 => noise.below(40),
        _ => noise.below(MOST_STEPS + 1),
    };
    let growing = noise.once_in(4);
    let steps: Vec<u32> = (0..count)
        .map(|_| {
            if growing {
                multiplication(noise)
            } else {
                step(noise)
            }
        })
        .collect();
    let (r, k) = match noise.below(24) {
        0 => (1, 0),
        1 => (0, 1),
        _ => (0, 0),
    };
    laid_out([0, fields.modulus(noise), r, k], &steps)
}

/// A hand-made program of up to twenty lawful steps.
pub fn short(p: u32, noise: &mut Noise) -> Vec<u32> {
    let steps: Vec<u32> = (0..noise.below(20)).map(|_| step(noise)).collect();
    laid_out([0, p, 0, 0], &steps)
}

/// A hand-made program after which an exponent is 2^62, or beside it, or that with a minus sign, and up
/// to three steps behind it. In half of the draws it is an exponent of start value 1, which a trace tells;
/// those of the others only a table does.
pub fn edge(fields: &Fields, noise: &mut Noise) -> Vec<u32> {
    let highest = EXPONENT_LIMIT + 1 - noise.pick(&[0, 0, 1, 2]);
    let kind = noise.pick(&[MUL, DIV]);
    let pair = if noise.once_in(3) {
        (0, 1)
    } else {
        two_registers(noise)
    };
    let mut steps = loop {
        let other = 1 + noise.number() % (highest - 1);
        if let Some(steps) = climb(highest, other, kind, pair) {
            break steps;
        }
    };
    let tail = tail(&steps, noise);
    steps.extend(tail);
    laid_out([0, fields.modulus(noise), 0, 0], &steps)
}

/// Up to three steps: any, or the last of a climb undone.
fn tail(climb: &[u32], noise: &mut Noise) -> Vec<u32> {
    let count = noise.index(4);
    if noise.once_in(2) {
        (0..count).map(|_| step(noise)).collect()
    } else {
        let last = climb.iter().rev().take(count);
        last.map(|word| word ^ UNDONE).collect()
    }
}

/// The steps after which the exponents of the second register's start value in the two registers are
/// these, the first with a minus sign for div: Euclid's subtractions in reverse. None where they share a
/// factor or the steps are too many.
fn climb(highest: u64, other: u64, kind: u32, pair: (u32, u32)) -> Option<Vec<u32>> {
    let (mut first, mut second) = (highest, other);
    let mut steps = Vec::new();
    while first > 0 && second > 0 && steps.len() < MOST_CLIMB {
        if first >= second {
            first -= second;
            steps.push(step_word(kind, pair.0, pair.1));
        } else {
            second -= first;
            steps.push(step_word(kind, pair.1, pair.0));
        }
    }
    steps.reverse();
    (first == 0 && second == 1).then_some(steps)
}

/// A header of any parameters, and drawn steps that belong to none.
fn header_and_steps(fields: &Fields, noise: &mut Noise) -> Vec<u32> {
    let Parameters { p, r, k, variant } = fields.any(noise);
    let steps: Vec<u32> = (0..noise.below(200)).map(|_| step(noise)).collect();
    laid_out([variant, p, r, k], &steps)
}

/// The steps of a named program under a header of which one word is another.
pub fn header_of(fields: &Fields, noise: &mut Noise) -> Vec<u32> {
    let mut tape = named(fields.lawful(noise));
    change_header(&mut tape, fields, noise);
    tape
}

/// A named program of which one step is another, or has a bit turned.
pub fn changed_step(fields: &Fields, noise: &mut Noise) -> Vec<u32> {
    let mut tape = named(fields.lawful(noise));
    let inside = HEADER_WORDS + noise.index(tape.len() - FRAME_WORDS);
    if noise.once_in(2) {
        tape[inside] = step(noise);
    } else {
        tape[inside] ^= 1 << noise.below(32);
    }
    tape
}

/// Any words, or any words of step kinds, of any length.
fn words(noise: &mut Noise) -> Vec<u32> {
    let length = noise.of_any_size(9) as usize + noise.index(4);
    (0..length)
        .map(|_| {
            if noise.once_in(2) {
                noise.word()
            } else {
                noise.between(MUL, SWP) * PAYLOADS + noise.below(20)
            }
        })
        .collect()
}

/// Fewer words than a tape has.
pub fn too_short(noise: &mut Noise) -> Vec<u32> {
    let length = noise.index(FRAME_WORDS);
    (0..length as u32)
        .map(|at| header_word(at, noise.below(4)))
        .collect()
}

fn laid_out(header: [u32; 4], steps: &[u32]) -> Vec<u32> {
    let mut tape = Vec::with_capacity(steps.len() + FRAME_WORDS);
    tape.extend((0..).zip(header).map(|(at, value)| header_word(at, value)));
    tape.extend_from_slice(steps);
    tape.push(END * PAYLOADS + steps.len() as u32);
    tape
}

fn header_word(at: u32, value: u32) -> u32 {
    match at {
        0 => PAYLOADS + value % 16 * 256 + 1,
        _ => (at + 1) * PAYLOADS + value % PAYLOADS,
    }
}

fn step_word(kind: u32, target: u32, source: u32) -> u32 {
    kind * PAYLOADS + 4 * source + target
}

fn multiplication(noise: &mut Noise) -> u32 {
    let (target, source) = two_registers(noise);
    step_word(MUL, target, source)
}

fn two_registers(noise: &mut Noise) -> (u32, u32) {
    let target = noise.below(4);
    (target, (target + noise.between(1, 3)) % 4)
}

/// A lawful step.
pub fn step(noise: &mut Noise) -> u32 {
    let kind = noise.between(MUL, SWP);
    let (target, source) = two_registers(noise);
    if kind == SWP {
        step_word(kind, target.min(source), target.max(source))
    } else {
        step_word(kind, target, source)
    }
}

// ---- damage

fn damage(tape: &mut Vec<u32>, fields: &Fields, noise: &mut Noise) {
    if tape.len() <= FRAME_WORDS {
        return tape.push(noise.word());
    }
    let at = noise.index(tape.len());
    let inside = HEADER_WORDS + noise.index(tape.len() - FRAME_WORDS);
    match noise.below(12) {
        0 => tape[at] ^= 1 << noise.below(32),
        1 => tape[at] = noise.word(),
        2 => tape[at] = tape[noise.index(tape.len())],
        3 => tape[inside] = step(noise),
        4 => tape[inside] = noise.between(MUL, SWP) * PAYLOADS + noise.below(20),
        5 => exchange(tape, inside, noise),
        6 => tape.truncate(at),
        7 => shorten(tape, noise),
        8 => lengthen(tape, noise),
        9 => tape.push(noise.word()),
        10 => change_length(tape, noise),
        _ => change_header(tape, fields, noise),
    }
}

/// Exchanges a step with the next, or with any other.
fn exchange(tape: &mut [u32], inside: usize, noise: &mut Noise) {
    let last = tape.len() - 2;
    let other = if noise.once_in(2) {
        (inside + 1).min(last)
    } else {
        HEADER_WORDS + noise.index(tape.len() - FRAME_WORDS)
    };
    tape.swap(inside, other);
}

/// Leaves out the last steps, with an end that counts the others.
fn shorten(tape: &mut Vec<u32>, noise: &mut Noise) {
    let left = tape.len() - 1 - noise.index(tape.len() - FRAME_WORDS + 1).min(3);
    tape.truncate(left);
    set_end(tape);
}

/// Adds steps, with an end that counts them.
fn lengthen(tape: &mut Vec<u32>, noise: &mut Noise) {
    tape.pop();
    for _ in 0..noise.between(1, 4) {
        tape.push(step(noise));
    }
    set_end(tape);
}

fn set_end(tape: &mut Vec<u32>) {
    let count = tape.len().saturating_sub(HEADER_WORDS) as u32;
    tape.push(END * PAYLOADS + count);
}

/// Lengths at and beyond the ends of 5 to 512 words, filled with what the tape's last step is.
fn change_length(tape: &mut Vec<u32>, noise: &mut Noise) {
    let length = noise.pick(&[0, 1, 3, 4, 5, 6, 511, 512, 513, 514, 600, ROW_WORDS]);
    let word = tape[tape.len() - 2];
    tape.pop();
    tape.resize(length, word);
    if length > FRAME_WORDS && noise.once_in(2) {
        tape.pop();
        set_end(tape);
    }
}

/// Another variant, p, r or k, lawful by itself or not.
fn change_header(tape: &mut [u32], fields: &Fields, noise: &mut Noise) {
    let (p, r) = modulus_and_order(tape);
    // The variant and r more often, since few other draws lead to refusals 4 and 2.
    let at = noise.pick(&[0, 0, 0, 1, 1, 2, 2, 2, 3, 3]);
    let value = match (at, noise.below(4)) {
        (0, _) => noise.below(16),
        (1, 0) => fields.lawful(noise).p,
        (1, _) => fields.faulty_modulus(noise),
        (2, 0) => common_divisor(p.max(1) - 1, noise.word()),
        (2, _) => faulty_order(noise, p),
        (_, 0) => noise.below(r + 1),
        _ => faulty_exponent(noise, r),
    };
    tape[at as usize] = header_word(at, value);
}
