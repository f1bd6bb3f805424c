//! Tapes behind each other, lists of runs on them, and a row that is full.

use crate::drawing::bases;
use crate::drawing::lines::Lines;
use crate::drawing::noise::Noise;
use crate::drawing::parameters::{Fields, Parameters};
use crate::drawing::tapes::{named, short};
use crate::drawing::values;

/// Moduli and orders of which the row has several programs each.
const FIELDS: [(u32, u32); 3] = [(31, 10), (359, 179), (65537, 256)];
const TAPES: usize = 24;
/// So many for each modulus.
const LISTS: usize = 100;
/// The row holds so many words.
const MOST_ROW_WORDS: u32 = 4096;
/// The record of a list stands where that of a tape of so many steps would.
const MOST_STEPS: u32 = 40;
/// So many are left free before the row is full.
const LEFT: u32 = 10;

/// A tape of the row.
struct Standing {
    begin: u32,
    end: u32,
    p: u32,
}

/// Puts tapes behind each other and plays lists on them.
pub(super) fn tapes_in_a_row(lines: &mut Lines) {
    lines.comment("tapes behind each other, and lists of runs on them");
    lines.hold(Vec::new());
    let mut row = Vec::new();
    for number in 0..TAPES {
        let (p, r) = FIELDS[number % FIELDS.len()];
        let tape = stood(&mut lines.noise, p, r);
        let begin = lines.before;
        let end = begin + tape.len() as u32;
        row.push(Standing { begin, end, p });
        lines.hold(tape);
        leave(lines);
    }
    for (p, r) in FIELDS {
        lists(lines, &row, p, r);
    }
    lines.hold(Vec::new());
}

/// Lists of runs for one p. The tape at hand is a program by hand for it, which loads the base of a chain
/// whatever its order is.
fn lists(lines: &mut Lines, row: &[Standing], p: u32, r: u32) {
    let tape = short(p, &mut lines.noise);
    lines.hold(tape);
    let size = lines.before + lines.tape.len() as u32;
    for _ in 0..LISTS {
        let mut numbers = if lines.noise.once_in(2) {
            let base = chain_base(&mut lines.noise, p, r);
            lines.small_call("load", &[base]);
            vec![1, base, 1, 1, 0]
        } else {
            values::record(&mut lines.noise, p, r, MOST_STEPS).to_vec()
        };
        numbers.extend(requests(&mut lines.noise, row, p, size));
        lines.small_call("play", &numbers);
    }
}

/// A base with a^r = 1: most of order r, some of smaller order.
fn chain_base(noise: &mut Noise, p: u32, r: u32) -> u32 {
    if noise.once_in(4) {
        bases::lesser(noise, p, r)
    } else {
        bases::proper(noise, p, r)
    }
}

fn leave(lines: &mut Lines) {
    lines.line(b"behind");
    lines.before += lines.tape.len() as u32;
    lines.tape.clear();
}

/// A named program, once in eight draws with a step changed; once in six a program by hand.
fn stood(noise: &mut Noise, p: u32, r: u32) -> Vec<u32> {
    if noise.once_in(6) {
        return short(p, noise);
    }
    // Each is odd and none is 0 modulo 5 or 179, so none shares a factor with the order.
    let k = noise.pick(&[1, 3, 77, 101]) % r;
    let variant = noise.between(1, 3);
    let mut tape = named(Parameters { p, r, k, variant });
    if noise.once_in(8) {
        let at = 4 + noise.index(tape.len() - 5);
        tape[at] ^= 3 << 28;
    }
    tape
}

/// Up to 14 requests, most on programs of one p, end to end in either direction; and up to three numbers left
/// over. With a record these are at most 64 numbers.
fn requests(noise: &mut Noise, row: &[Standing], p: u32, size: u32) -> Vec<u32> {
    let mut numbers = Vec::new();
    for _ in 0..noise.below(15) {
        let mut tape = &row[noise.index(row.len())];
        while tape.p != p && !noise.once_in(8) {
            tape = &row[noise.index(row.len())];
        }
        numbers.extend(request(noise, tape, size));
    }
    for _ in 0..noise.below(4) {
        numbers.push(noise.below(size));
    }
    numbers
}

fn request(noise: &mut Noise, tape: &Standing, size: u32) -> [u32; 4] {
    let &Standing { begin, end, .. } = tape;
    let (turn, goal) = values::turn_and_goal(noise, end - begin - 5);
    match noise.below(16) {
        0 => [begin, size + noise.below(3), turn, goal],
        1 => [end, begin, turn, goal],
        2 => [begin + 1, end, turn, goal],
        3 => [begin, noise.word(), turn, goal],
        _ => [begin, end, turn, goal],
    }
}

/// Fills the row, and then lines that would make it longer.
pub(super) fn full_row(lines: &mut Lines, fields: &Fields) {
    lines.comment("a row that is full but for ten words, and lines that would make it longer");
    while lines.before < MOST_ROW_WORDS - LEFT {
        let count = (MOST_ROW_WORDS - LEFT - lines.before).min(500);
        let words: Vec<u32> = (0..count).map(|_| lines.noise.below(10)).collect();
        for part in words.chunks(50) {
            lines.small_call("append", part);
        }
        lines.tape = words;
        leave(lines);
    }
    for _ in 0..100 {
        let held = lines.tape.len() as u32;
        match lines.noise.below(5) {
            0 => {
                let parameters = fields.any(&mut lines.noise);
                // Every named program is longer than what is left.
                lines.build(parameters);
            }
            1 => change_length(lines, "tape", 0),
            2 => change_length(lines, "append", held),
            3 => lines.line(b"check"),
            _ => lines.small_call(
                "play",
                &[1, 2, 3, 4, 0, lines.before, lines.before + held, 0, 0],
            ),
        }
    }
}

/// Words around what is left for them.
fn change_length(lines: &mut Lines, verb: &str, held: u32) {
    let count = lines.noise.below(LEFT + 4);
    let words: Vec<u32> = (0..count).map(|_| lines.noise.below(10)).collect();
    lines.small_call(verb, &words);
    if held + count <= LEFT {
        lines.tape.truncate(held as usize);
        lines.tape.extend(words);
    }
}
