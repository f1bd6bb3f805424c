//! A script of drawn calls: every verb, lawful and refused, on tapes that are valid, damaged or by hand.

use crate::drawing::bases;
use crate::drawing::lines::Lines;
use crate::drawing::noise::Noise;
use crate::drawing::odd;
use crate::drawing::parameters::{inverse_call, Fields};
use crate::drawing::rows;
use crate::drawing::tapes::{self, modulus_and_order, named, steps};
use crate::drawing::values::{self, MOST_PLACES};
use crate::{listing, places};

const SEED: u64 = 359_179_076;
const ROUNDS: usize = 500;
/// No drawn tape has more words.
const MOST_WORDS: usize = 640;
/// No room is larger.
const MOST_ROOM: usize = 4096;
/// Listings up to this length get a room of their own at times.
const SHORT_LISTING: usize = 500;

/// The script; the same each time.
pub fn script() -> Vec<u8> {
    let mut noise = Noise::new(SEED);
    let fields = Fields::small(&mut noise);
    let mut lines = Lines::new(noise);
    lines.comment(
        "Calls without a pattern, from reference/src/drawing; tests/outputs.sh makes them anew.",
    );
    for _ in 0..ROUNDS {
        round(&mut lines, &fields);
    }
    rows::tapes_in_a_row(&mut lines);
    rows::full_row(&mut lines, &fields);
    lines.text
}

fn round(lines: &mut Lines, fields: &Fields) {
    for _ in 0..3 {
        build(lines, fields);
    }
    let tape = tape(fields, &mut lines.noise);
    lines.hold(tape);
    asks(lines, fields);
}

/// Every verb but build, most on the tape at hand.
pub(super) fn asks(lines: &mut Lines, fields: &Fields) {
    powers(lines);
    raises(lines);
    exponents(lines);
    list(lines);
    plays(lines);
    numbers(lines);
    forms(lines);
    modular(lines, fields);
    words(lines);
    odd::line(lines);
}

/// Besides the ways of `tapes::tape`, more often at the edge of the exponents' range and with a header or
/// a step that isn't the program's own, or too short, so that each refusal of a tape is met often.
pub(super) fn tape(fields: &Fields, noise: &mut Noise) -> Vec<u32> {
    match noise.below(26) {
        0..=6 => tapes::edge(fields, noise),
        7..=13 => tapes::header_of(fields, noise),
        14 | 15 => tapes::changed_step(fields, noise),
        16 | 17 => tapes::too_short(noise),
        18..=22 => named(fields.lawful(noise)),
        _ => tapes::tape(fields, noise),
    }
}

/// A build, into a room around its length at times.
fn build(lines: &mut Lines, fields: &Fields) {
    let parameters = fields.any(&mut lines.noise);
    let tape = named(parameters);
    let room = values::room(&mut lines.noise, tape.len(), tape.len() + 20);
    let roomy = lines.noise.once_in(3);
    if roomy {
        lines.small_call("room", &[room as u32]);
    }
    lines.build(parameters);
    if roomy {
        lines.line(b"room");
    }
    if !tape.is_empty() && (!roomy || room >= tape.len()) {
        lines.tape = tape;
    }
}

// ---- the tape at hand

fn powers(lines: &mut Lines) {
    let (p, r) = modulus_and_order(&lines.tape);
    let count = steps(&lines.tape);
    let judged = lines.noise.once_in(8);
    lines.line(if judged { b"check = 0" } else { b"check" });
    for verb in ["load", "load", "power", "power"] {
        let base = base(&mut lines.noise, p, r);
        lines.small_call(verb, &[base]);
    }
    for _ in 0..3 {
        let [c, d, e, f] = values::registers(&mut lines.noise, p, r);
        let (from, to) = values::positions(&mut lines.noise, count);
        lines.small_call("run", &[c, d, e, f, from, to]);
    }
    previews(lines);
    for _ in 0..3 {
        let [c, d, e, f] = values::registers(&mut lines.noise, p, r);
        let position = values::step_position(&mut lines.noise, count);
        let direction = values::direction(&mut lines.noise);
        lines.small_call("step", &[c, d, e, f, position, direction]);
    }
}

/// Previews, each before the run that it shows.
fn previews(lines: &mut Lines) {
    let (p, r) = modulus_and_order(&lines.tape);
    let count = steps(&lines.tape);
    for _ in 0..3 {
        let [c, d, e, f] = values::registers(&mut lines.noise, p, r);
        let (from, to) = values::position_and_target(&mut lines.noise, count);
        for verb in ["preview", "run"] {
            lines.small_call(verb, &[c, d, e, f, from, to]);
        }
    }
}

/// As `bases::base`, but more often out of range or of another order.
fn base(noise: &mut Noise, p: u32, r: u32) -> u32 {
    match noise.below(12) {
        0 => noise.pick(&[0, p, p.wrapping_add(1)]),
        1 => noise.between(1, p.max(2) - 1),
        2 => bases::lesser(noise, p, r),
        _ => bases::base(noise, p, r),
    }
}

fn raises(lines: &mut Lines) {
    let (p, r) = modulus_and_order(&lines.tape);
    for _ in 0..3 {
        let bases = bases::bases(&mut lines.noise, p, r);
        lines.small_call("raise", &bases);
    }
}

/// Traces and tables at the same positions, where the one may be answered and the other not; and cuts.
fn exponents(lines: &mut Lines) {
    let count = steps(&lines.tape);
    for _ in 0..2 {
        let position = values::last_position(&mut lines.noise, count);
        lines.small_call("trace", &[position]);
        lines.small_call("table", &[position]);
    }
    let (first, last) = values::positions(&mut lines.noise, count);
    lines.small_call("cut", &[first, last]);
    let last = values::position(&mut lines.noise, count);
    lines.small_call("cut", &[last - last / 3, last]);
}

fn list(lines: &mut Lines) {
    lines.line(b"list");
    let bytes: Vec<u8> = lines
        .tape
        .iter()
        .flat_map(|word| word.to_le_bytes())
        .collect();
    let length = listing(&bytes).len();
    let room = if length < SHORT_LISTING {
        values::room(&mut lines.noise, length, length + 20)
    } else if lines.noise.once_in(8) {
        values::room(&mut lines.noise, length.min(MOST_ROOM - 1), MOST_ROOM)
    } else {
        lines.noise.index(40)
    };
    lines.small_call("room", &[room as u32]);
    lines.line(b"list");
    lines.line(b"room");
}

/// Lists of up to five runs on the tape at hand, which in a round is all of the row.
fn plays(lines: &mut Lines) {
    let (p, r) = modulus_and_order(&lines.tape);
    let (length, count) = (lines.tape.len() as u32, steps(&lines.tape));
    let mut numbers = values::record(&mut lines.noise, p, r, count).to_vec();
    for _ in 0..lines.noise.below(6) {
        let (turn, goal) = values::turn_and_goal(&mut lines.noise, count);
        let (begin, end) = match lines.noise.below(8) {
            0 => (lines.noise.below(4), length),
            1 => (0, lines.noise.below(length + 3)),
            _ => (0, length),
        };
        numbers.extend([begin, end, turn, goal]);
    }
    for _ in 0..lines.noise.below(4) {
        numbers.push(lines.noise.below(MOST_WORDS as u32));
    }
    lines.small_call("play", &numbers);
}

// ---- numbers

fn numbers(lines: &mut Lines) {
    let index = values::index(&mut lines.noise);
    lines.small_call("fibonacci", &[index]);
    let n = values::number(&mut lines.noise);
    lines.call("hofstadter", &[n]);
    for _ in 0..2 {
        let (k, r) = inverse_call(&mut lines.noise);
        lines.small_call("inverse", &[k, r]);
    }
    let r = values::order(&mut lines.noise);
    lines.small_call("height", &[r]);
}

/// Forms both ways.
fn forms(lines: &mut Lines) {
    let n = values::number(&mut lines.noise);
    let exact = places(n, MOST_PLACES).map_or(0, |list| list.len());
    lines.call("places", &[n]);
    let room = values::room(&mut lines.noise, exact, exact + 10);
    lines.small_call("room", &[room as u32]);
    lines.call("places", &[n]);
    lines.line(b"room");
    for _ in 0..3 {
        let list = values::list(&mut lines.noise);
        let numbers: Vec<u64> = list.iter().map(|&place| place as u64).collect();
        lines.call("number", &numbers);
    }
}

fn modular(lines: &mut Lines, fields: &Fields) {
    let any = |noise: &mut Noise| noise.of_any_size(32);
    let n = match lines.noise.below(4) {
        0 => fields.modulus(&mut lines.noise),
        1 => fields.faulty_modulus(&mut lines.noise),
        2 => u32::MAX - lines.noise.below(100),
        _ => any(&mut lines.noise) as u32,
    };
    lines.small_call("prime", &[n]);
    for verb in ["mulmod", "powmod"] {
        let three = [0; 3].map(|_| any(&mut lines.noise));
        lines.call(verb, &three);
    }
}

/// Words and their meanings: of the tape, with a bit turned, of any kind.
fn words(lines: &mut Lines) {
    for _ in 0..3 {
        let noise = &mut lines.noise;
        let word = match noise.below(4) {
            0 if !lines.tape.is_empty() => noise.pick(&lines.tape),
            1 => tapes::step(noise) ^ 1 << noise.below(32),
            2 => noise.between(0, 15) << 28 | noise.below(16),
            _ => noise.word(),
        };
        lines.small_call("decode", &[word]);
    }
}
