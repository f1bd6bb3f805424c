//! Numbers, orders, lists of places, positions, turns, registers, records and rooms.

use crate::drawing::bases::base;
use crate::drawing::noise::Noise;
use crate::{fibonacci, places};

/// The most places of a form.
pub const MOST_PLACES: usize = 46;
const LAST_INDEX: u32 = 93;
const LAST_PLACE: u32 = 92;

/// An index of a Fibonacci number.
pub fn index(noise: &mut Noise) -> u32 {
    match noise.below(8) {
        0 => noise.word(),
        1 => LAST_INDEX - 1 + noise.below(4),
        _ => noise.below(LAST_INDEX + 8),
    }
}

/// A 64-bit number: of every size, beside a Fibonacci number, beside the ends.
pub fn number(noise: &mut Noise) -> u64 {
    match noise.below(8) {
        0 => u64::MAX - noise.below(64) as u64,
        1 => noise.below(64) as u64,
        2 | 3 => {
            let weight = fibonacci(noise.below(LAST_INDEX + 1)).unwrap_or(0);
            weight.wrapping_sub(2).wrapping_add(noise.below(5) as u64)
        }
        _ => noise.of_any_size(64),
    }
}

/// A number to take the height of: of every size, or beside a Lucas number, where the height changes.
pub fn order(noise: &mut Noise) -> u32 {
    match noise.below(2) {
        0 => noise.of_any_size(32) as u32,
        _ => near_lucas(noise),
    }
}

/// A Lucas number from L_1 to L_45, less 1, or more by 1.
fn near_lucas(noise: &mut Noise) -> u32 {
    let (mut lucas, mut after) = (1u32, 3u32);
    for _ in 0..noise.below(45) {
        (lucas, after) = (after, lucas.wrapping_add(after));
    }
    lucas - 1 + noise.below(3)
}

/// A list of places: a form, the form of a sum above 64 bits, a form with a fault, or any bytes.
pub fn list(noise: &mut Noise) -> Vec<u8> {
    match noise.below(8) {
        0..=2 => form(noise),
        3 => large_form(noise),
        4 => descending(noise),
        5 | 6 => {
            let mut list = form(noise);
            damage_list(&mut list, noise);
            list
        }
        _ => {
            let length = noise.below(100);
            (0..length).map(|_| noise.word() as u8).collect()
        }
    }
}

fn form(noise: &mut Noise) -> Vec<u8> {
    places(number(noise), MOST_PLACES).unwrap_or_default()
}

/// The form of a number from 2^64 − 8 on, which place 92 begins.
fn large_form(noise: &mut Noise) -> Vec<u8> {
    let weights: Vec<u128> = (2..=LAST_INDEX)
        .map(|index| fibonacci(index).unwrap_or(0) as u128)
        .collect();
    // The forms of places 1 to 92 end below F_94.
    let limit = weights[91] + weights[90];
    let least = (1u128 << 64) - 8;
    let mut rest = match noise.below(4) {
        0 => limit - 1 - noise.below(16) as u128,
        1 => least + noise.below(16) as u128,
        _ => least + noise.number() as u128 % (limit - least),
    };
    let mut list = Vec::new();
    for (i, &weight) in weights.iter().enumerate().rev() {
        if weight <= rest {
            rest -= weight;
            list.push(i as u8 + 1);
        }
    }
    list
}

/// Places from a start down by drawn gaps.
fn descending(noise: &mut Noise) -> Vec<u8> {
    let start = match noise.below(4) {
        0 => noise.between(1, LAST_PLACE + 3),
        _ => LAST_PLACE,
    };
    let (least, spread) = noise.pick(&[(1, 4), (2, 0), (2, 1), (2, 2), (2, 4), (2, 9)]);
    let most = noise.between(1, 48);
    let mut list = Vec::new();
    let mut place = Some(start);
    for _ in 0..most {
        let Some(here) = place else { break };
        list.push(here as u8);
        place = here.checked_sub(noise.between(least, least + spread));
    }
    list
}

/// One fault: a neighbour, a repeated place, two exchanged, one out of range, another byte.
fn damage_list(list: &mut Vec<u8>, noise: &mut Noise) {
    let at = noise.index(list.len() + 1);
    let before = at.saturating_sub(1);
    let place = list.get(before).copied().unwrap_or(0);
    match noise.below(8) {
        0 => list.insert(at, place),
        1 => list.insert(at, place.wrapping_sub(1)),
        2 => list.insert(before, place.wrapping_add(1)),
        3 => list.push(0),
        4 => list.insert(0, noise.between(LAST_PLACE, 255) as u8),
        5 if list.len() > 1 => list.swap(before, 0),
        6 => list.reverse(),
        _ => list.insert(at, noise.word() as u8),
    }
}

/// A lent room for a result of a known length: none, one short, exact, or larger up to `most`.
pub fn room(noise: &mut Noise, exact: usize, most: usize) -> usize {
    match noise.below(12) {
        0 => 0,
        1 | 2 => exact.saturating_sub(1),
        3 => noise.index(exact + 1),
        4..=6 => exact,
        7 => exact + 1,
        _ => exact + noise.index(most - exact + 1),
    }
}

/// A position: in range, the ends and beside the last, or above the step count.
pub fn position(noise: &mut Noise, count: u32) -> u32 {
    match noise.below(16) {
        0 => count + 1,
        1 => noise.word(),
        2 => u32::MAX - noise.below(4),
        3 => count,
        4 => 0,
        5 => count.saturating_sub(1),
        _ => noise.below(count + 1),
    }
}

/// Where a single step begins: beside an end in half of the draws, where it is refused one way.
pub fn step_position(noise: &mut Noise, count: u32) -> u32 {
    match noise.below(4) {
        0 => noise.below(2),
        1 => count.saturating_sub(1) + noise.below(3),
        _ => position(noise, count),
    }
}

/// The number that tells a step's direction: 0 is forward, any other backward.
pub fn direction(noise: &mut Noise) -> u32 {
    match noise.below(8) {
        0..=3 => 0,
        4 | 5 => 1,
        6 => noise.pick(&[2, u32::MAX]),
        _ => noise.word(),
    }
}

/// A request's turn and goal: end to end behind a turn, from where the record stands, or any.
pub fn turn_and_goal(noise: &mut Noise, count: u32) -> (u32, u32) {
    match noise.below(8) {
        0 | 1 => (1, count),
        2 => (count + 1, 0),
        3..=5 => (0, position(noise, count)),
        _ => {
            let (from, to) = positions(noise, count);
            (from.saturating_add(1), to)
        }
    }
}

/// A position of a trace or table: the last one as often as any, since most programs leave the range
/// late.
pub fn last_position(noise: &mut Noise, count: u32) -> u32 {
    if noise.once_in(2) {
        count
    } else {
        position(noise, count)
    }
}

/// Two positions: end to end in either direction, or any.
pub fn positions(noise: &mut Noise, count: u32) -> (u32, u32) {
    match noise.below(4) {
        0 => (0, count),
        1 => (count, 0),
        _ => (position(noise, count), position(noise, count)),
    }
}

/// Where a preview begins and its target: as those of a run, the same position twice, or one of them at an
/// end, just past it, or the largest number.
pub fn position_and_target(noise: &mut Noise, count: u32) -> (u32, u32) {
    let ends = [0, count, count + 1, u32::MAX];
    match noise.below(8) {
        0 => {
            let here = position(noise, count);
            (here, here)
        }
        1 => (noise.pick(&ends), position(noise, count)),
        2 | 3 => (position(noise, count), noise.pick(&ends)),
        _ => positions(noise, count),
    }
}

/// Four registers: (1, a, 1, 1), or any from 1 to p − 1; once in eight draws one is out of range.
pub fn registers(noise: &mut Noise, p: u32, r: u32) -> [u32; 4] {
    let mut four = if noise.once_in(3) {
        [1, base(noise, p, r), 1, 1]
    } else {
        [0; 4].map(|_| unit(noise, p))
    };
    if noise.once_in(8) {
        four[noise.index(4)] = faulty_register(noise, p);
    }
    four
}

/// A record: registers as above, at the first position or any.
pub fn record(noise: &mut Noise, p: u32, r: u32, count: u32) -> [u32; 5] {
    let [c, d, e, f] = registers(noise, p, r);
    let position = if noise.once_in(2) {
        0
    } else {
        position(noise, count)
    };
    [c, d, e, f, position]
}

pub(super) fn faulty_register(noise: &mut Noise, p: u32) -> u32 {
    match noise.below(5) {
        0 => 0,
        1 => p,
        2 => p.wrapping_add(1),
        3 => u32::MAX,
        _ => noise.word(),
    }
}

pub(super) fn unit(noise: &mut Noise, p: u32) -> u32 {
    noise.between(1, p.max(2) - 1)
}
