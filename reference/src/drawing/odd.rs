//! Lines that aren't understood.

use crate::drawing::lines::Lines;
use crate::drawing::noise::Noise;

/// Verbs, each with a count of parameters that it takes.
const VERBS: [(&str, usize); 29] = [
    ("build", 4),
    ("check", 0),
    ("list", 0),
    ("load", 1),
    ("run", 6),
    ("step", 6),
    ("preview", 6),
    ("power", 1),
    ("raise", 3),
    ("trace", 1),
    ("table", 1),
    ("cut", 2),
    ("play", 5),
    ("decode", 1),
    ("fibonacci", 1),
    ("places", 1),
    ("number", 3),
    ("hofstadter", 1),
    ("inverse", 2),
    ("height", 1),
    ("prime", 1),
    ("mulmod", 3),
    ("powmod", 3),
    ("version", 0),
    ("tape", 5),
    ("append", 7),
    ("change", 2),
    ("drop", 1),
    ("room", 1),
];

/// More parameters than any verb takes.
const TOO_MANY: usize = 67;

/// A line with another verb, another count, or a parameter that isn't read. None changes the row.
pub(super) fn line(lines: &mut Lines) {
    let noise = &mut lines.noise;
    let (verb, count) = noise.pick(&VERBS);
    let line = match noise.below(4) {
        0 => word(noise),
        1 => {
            let numbers = many_numbers(noise, TOO_MANY);
            [verb.as_bytes(), &numbers].concat()
        }
        2 if count > 1 => {
            let fewer = noise.index(count);
            let numbers = many_numbers(noise, fewer);
            // The last word is no number, so that a count that is right isn't understood either.
            [verb.as_bytes(), &numbers, b" ", &word(noise)].concat()
        }
        _ => {
            let numbers = many_numbers(noise, count.saturating_sub(1));
            let text = text(noise);
            [verb.as_bytes(), &numbers, b" ", &word(noise), &text].concat()
        }
    };
    lines.line(&line);
}

/// Numbers that every verb reads, a blank before each.
fn many_numbers(noise: &mut Noise, count: usize) -> Vec<u8> {
    let texts: Vec<String> = (0..count)
        .map(|_| format!(" {}", noise.below(200)))
        .collect();
    texts.concat().into_bytes()
}

/// What a line must print, at times: never what it does.
fn text(noise: &mut Noise) -> Vec<u8> {
    match noise.below(8) {
        0 => [&b" = "[..], &bytes(noise, 20)].concat(),
        _ => Vec::new(),
    }
}

/// A word that is no verb, no variant and no number.
fn word(noise: &mut Noise) -> Vec<u8> {
    let most = noise.pick(&[3, 12, 62, 64, 66, 100]);
    [&b"z"[..], &bytes(noise, most)].concat()
}

/// Bytes but 0, 10 and blanks, most of them plain.
fn bytes(noise: &mut Noise, most: usize) -> Vec<u8> {
    let count = noise.index(most + 1);
    (0..count)
        .map(|_| match noise.below(8) {
            0 => noise.pick(b"\"\\\x01\x09\x0d\x1f\x7f\x80\xff"),
            1 => noise.between(128, 255) as u8,
            _ => noise.between(33, 126) as u8,
        })
        .collect()
}
