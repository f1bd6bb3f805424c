//! Command lines of the tool: those of a round of calls, some of them damaged.

use crate::drawing::calls;
use crate::drawing::lines::Lines;
use crate::drawing::noise::Noise;
use crate::drawing::parameters::Fields;

/// One of so many lines is damaged.
const DAMAGED: u32 = 5;
/// Verbs that a round of calls doesn't have.
const OTHER_VERBS: [&[u8]; 6] = [
    b"help",
    b"--help",
    b"-h",
    b"version",
    b"--version",
    b"script",
];

/// A command line as its words, of which none has a zero byte.
pub type Words = Vec<Vec<u8>>;

/// A tape, and command lines of every verb, most about that tape. Verbs that only a script has are among them.
pub fn commands(fields: &Fields, noise: &mut Noise) -> (Vec<u32>, Vec<Words>) {
    let mut lines = Lines::new(Noise::new(noise.number()));
    lines.build(fields.any(noise));
    lines.tape = calls::tape(fields, noise);
    calls::asks(&mut lines, fields);
    lines.line(noise.pick(&OTHER_VERBS));
    let mut commands = split(&lines.text);
    for words in &mut commands {
        if noise.once_in(DAMAGED) {
            damage(words, noise);
        }
    }
    (lines.tape, commands)
}

fn split(text: &[u8]) -> Vec<Words> {
    let lines = text.strip_suffix(b"\n").unwrap_or(text);
    let lines = lines.split(|&byte| byte == b'\n');
    lines
        .map(|line| {
            let words = line.split(|&byte| byte == b' ');
            words.map(<[u8]>::to_vec).collect()
        })
        .collect()
}

/// A word too many or too few, two exchanged, or another byte in a word.
fn damage(words: &mut Words, noise: &mut Noise) {
    let at = noise.index(words.len());
    let other = noise.index(words.len());
    match noise.below(12) {
        0 => words.clear(),
        1 => drop(words.remove(at)),
        2 => words.insert(at, Vec::new()),
        3 => words.push(words[at].clone()),
        4 => words.swap(at, other),
        5 => words[at] = words[at].repeat(2),
        _ => change(&mut words[at], noise),
    }
}

fn change(word: &mut Vec<u8>, noise: &mut Noise) {
    let at = noise.index(word.len() + 1);
    let byte = match noise.below(4) {
        0 => noise.between(1, 255) as u8,
        1 => noise.pick(b"xX-+. agAG"),
        _ => noise.pick(b"0123456789"),
    };
    match noise.below(3) {
        0 => word.insert(at, byte),
        1 => word.truncate(at),
        _ => match word.get_mut(at) {
            Some(changed) => *changed = byte,
            None => word.push(byte),
        },
    }
}
