//! What each verb answers: its text, or the number of its refusal.

use super::reading::Call;
use super::texts::{USAGE, VERSION};
use super::verbs::Verb;
use super::Tapes;
use crate as services;
use crate::{Meaning, Preview, Record};
use std::fmt::Display;

/// No form has more places.
const MOST_PLACES: usize = 46;
/// No tape has more words.
const MOST_WORDS: usize = 512;

type Answer = Result<Vec<u8>, u32>;

/// The answer to a call; `build` answers its tape's bytes. The verbs that only a script has are no
/// business of this function.
pub(crate) fn answer(call: &Call, tapes: Tapes) -> Answer {
    if call.verb.takes_tape() {
        on_tape(call, tapes)
    } else {
        on_numbers(call)
    }
}

/// Numbers on a line, one blank between.
pub(crate) fn line_of<N: Display>(numbers: &[N]) -> Vec<u8> {
    let texts: Vec<String> = numbers.iter().map(N::to_string).collect();
    format!("{}\n", texts.join(" ")).into_bytes()
}

fn on_tape(call: &Call, tapes: Tapes) -> Answer {
    let tape = tapes.at_hand;
    let n = small(&call.numbers);
    match call.verb {
        Verb::Check => services::check(tape).map(|()| line_of(&[0])),
        Verb::List => Ok(services::listing(&bytes(tape))),
        Verb::Load => services::load(tape, n[0]).map(record_line),
        Verb::Run => services::run(tape, record(&n), n[5]).map(record_line),
        Verb::Step => services::step(tape, record(&n), n[5] != 0).map(record_line),
        Verb::Preview => preview(tape, record(&n), n[5]),
        Verb::Power => power(tape, n[0]),
        Verb::Raise => raise(tape, n),
        Verb::Trace => services::trace(tape, n[0]).map(|four| line_of(&four)),
        Verb::Table => table(tape, n[0]),
        Verb::Cut => services::cut(tape, n[0], n[1]).map(line_of),
        _ => {
            let (after, numbers) = services::play(tapes.all, &n[5..], record(&n));
            Ok(line_of(&[&after.numbers()[..], &numbers].concat()))
        }
    }
}

fn on_numbers(call: &Call) -> Answer {
    let (numbers, n) = (&call.numbers, small(&call.numbers));
    match call.verb {
        Verb::Build => build(n[0], n[1], n[2], n[3]),
        Verb::Decode => Ok(meaning(n[0])),
        Verb::Fibonacci => services::fibonacci(n[0]).map(|value| line_of(&[value])),
        Verb::Places => services::places(numbers[0], MOST_PLACES).map(|list| line_of(&list)),
        Verb::Number => {
            let places: Vec<u8> = n.iter().map(|&place| place as u8).collect();
            services::number(&places).map(|value| line_of(&[value]))
        }
        Verb::Hofstadter => Ok(line_of(&[services::hofstadter(numbers[0])])),
        Verb::Inverse => services::inverse(n[0], n[1]).map(|value| line_of(&[value])),
        Verb::Height => Ok(line_of(&[services::height(n[0])])),
        Verb::Prime => Ok(line_of(&[services::is_prime(n[0]) as u32])),
        Verb::Mulmod => Ok(line_of(&[services::product(n[0], n[1], n[2])])),
        Verb::Powmod => Ok(line_of(&[services::power(n[0], n[1], n[2])])),
        Verb::Version => Ok(VERSION.into()),
        _ => Ok(USAGE.into()),
    }
}

/// The low 32 bits of each number: all of it, where a verb's largest is no more.
fn small(numbers: &[u64]) -> Vec<u32> {
    numbers.iter().map(|&number| number as u32).collect()
}

fn bytes(words: &[u32]) -> Vec<u8> {
    words.iter().flat_map(|word| word.to_le_bytes()).collect()
}

fn build(p: u32, r: u32, k: u32, variant: u32) -> Answer {
    let mut row = [0; MOST_WORDS];
    let count = services::build(p, r, k, variant, &mut row)?;
    Ok(bytes(&row[..count]))
}

/// The record that a verb's first five parameters give.
fn record(n: &[u32]) -> Record {
    Record::of([n[0], n[1], n[2], n[3], n[4]])
}

fn record_line(record: Record) -> Vec<u8> {
    line_of(&record.numbers())
}

/// The registers on a line, then the counts of mul, div and swp.
fn preview(tape: &[u32], record: Record, to: u32) -> Answer {
    let Preview { registers, counts } = services::preview(tape, record, to)?;
    Ok([line_of(&registers), line_of(&counts)].concat())
}

/// Load, and a run to the end: register 1, then the record.
fn power(tape: &[u32], base: u32) -> Answer {
    let start = services::load(tape, base)?;
    // An accepted tape has a head of four words and an end beside its steps.
    let end = services::run(tape, start, tape.len() as u32 - 5)?;
    Ok([line_of(&end.registers[1..2]), record_line(end)].concat())
}

fn raise(tape: &[u32], mut bases: Vec<u32>) -> Answer {
    services::raise(tape, &mut bases)?;
    Ok(line_of(&bases))
}

/// A line for each register.
fn table(tape: &[u32], position: u32) -> Answer {
    let rows = services::table(tape, position)?;
    Ok(rows.map(|row| line_of(&row)).concat())
}

fn meaning(word: u32) -> Vec<u8> {
    let text = match services::decode(word) {
        Some(Meaning::Heading(variant)) => format!("heading {variant}\n"),
        Some(Meaning::Modulus(p)) => format!("p {p}\n"),
        Some(Meaning::Order(r)) => format!("r {r}\n"),
        Some(Meaning::Exponent(k)) => format!("k {k}\n"),
        Some(Meaning::Mul(target, source)) => format!("mul {target} {source}\n"),
        Some(Meaning::Div(target, source)) => format!("div {target} {source}\n"),
        Some(Meaning::Swp(target, source)) => format!("swp {target} {source}\n"),
        Some(Meaning::End(count)) => format!("end {count}\n"),
        None => "none\n".to_string(),
    };
    text.into_bytes()
}
