//! The services: a line of the list and a function each.

use crate::inputs::{Inputs, Variant, EVERY, INPUTS, MOST_PLACES, MOST_WORDS, NAMED, NONE};
use crate::timing::Pair;
use linked::proved;
use reference as services;
use reference::drawing::tapes::steps;
use reference::Record;
use std::hint::black_box;

const MOST_LISTING: usize = 6137;
/// A row has all bases, and these are as many as it may have.
const BASES: usize = INPUTS;
/// A call takes long with so many bases, so a batch has fewer.
const ROWS: usize = 8;

/// What is measured, with a row for each of its variants.
pub struct Service {
    pub name: &'static str,
    pub variants: &'static [Variant],
    /// Whether it is measured at every size.
    pub grows: bool,
    /// What the two sides have different algorithms for.
    pub differences: &'static str,
    pub pair: fn(&Inputs, u32) -> Pair<'_>,
}

const fn service(
    name: &'static str,
    variants: &'static [Variant],
    grows: bool,
    differences: &'static str,
    pair: fn(&Inputs, u32) -> Pair<'_>,
) -> Service {
    Service {
        name,
        variants,
        grows,
        differences,
        pair,
    }
}

const PROGRAM: &str = "primes, forms, inverse";
const LOAD: &str = "primes, forms, inverse, order";
const RUN: &str = "primes, forms, inverse, product";
const RAISE: &str = "primes, forms, inverse, order, product";
const PREVIEW: &str = "primes, forms, inverse, product, counts";
const STEP: &str = "primes, forms, inverse, one step";
const TABLE: &str = "primes, forms, inverse, passes";
const LOADS_AND_RUNS: &str = "both sides proved; the other is 64 loads and 64 runs";

pub const CHECK: &str = "check";
pub const LOADS: &str = "load";
pub const RUNS: [&str; 2] = ["run forward", "run backward"];
pub const RAISES: &str = "raise, 64 bases";

/// The rows of the tables, in their order.
pub static SERVICES: &[Service] = &[
    service("build", NAMED, true, PROGRAM, build),
    service(CHECK, EVERY, true, PROGRAM, check),
    service(LOADS, NAMED, false, LOAD, load),
    service(RUNS[0], EVERY, true, RUN, run_forward),
    service(RUNS[1], EVERY, true, RUN, run_backward),
    service("step", NAMED, false, STEP, step),
    service("preview forward", EVERY, true, PREVIEW, preview_forward),
    service("preview backward", EVERY, true, PREVIEW, preview_backward),
    service(RAISES, NAMED, false, RAISE, raise),
    service(
        "64 bases: raise / loads and runs",
        NAMED,
        false,
        LOADS_AND_RUNS,
        raise_beside_runs,
    ),
    service("trace", EVERY, true, PROGRAM, trace),
    service("table", EVERY, true, TABLE, table),
    service("cut", NAMED, false, PROGRAM, cut),
    service("listing", NAMED, false, PROGRAM, listing),
    service("inverse", NONE, false, "inverse", inverse),
    service("places", NONE, false, "forms", places),
    service("number", NONE, false, "", number),
    service("G", NONE, false, "G", hofstadter),
    service("fibonacci", NONE, false, "", fibonacci),
];

fn build(inputs: &Inputs, variant: u32) -> Pair<'_> {
    let Inputs { p, r, .. } = *black_box(inputs);
    let (mut row, mut other) = ([0; MOST_WORDS], [0; MOST_WORDS]);
    let mut count = 0;
    Pair::new(
        move |i| {
            let k = black_box(inputs.exponents[i]);
            black_box(proved::build(p, r, k, variant, &mut row, &mut count));
            black_box(&row);
        },
        move |i| {
            let k = black_box(inputs.exponents[i]);
            let _ = black_box(services::build(p, r, k, variant, &mut other));
            black_box(&other);
        },
    )
}

fn check(inputs: &Inputs, variant: u32) -> Pair<'_> {
    Pair::new(
        move |i| {
            black_box(proved::check(black_box(inputs.tape(variant, i))));
        },
        move |i| {
            let _ = black_box(services::check(black_box(inputs.tape(variant, i))));
        },
    )
}

fn load(inputs: &Inputs, variant: u32) -> Pair<'_> {
    let mut record = [0; 5];
    Pair::new(
        move |i| {
            let tape = black_box(inputs.tape(variant, i));
            black_box(proved::load(tape, inputs.bases[i], &mut record));
            black_box(&record);
        },
        move |i| {
            let tape = black_box(inputs.tape(variant, i));
            let _ = black_box(services::load(tape, inputs.bases[i]));
        },
    )
}

fn run_forward(inputs: &Inputs, variant: u32) -> Pair<'_> {
    run(inputs, variant, true)
}

fn run_backward(inputs: &Inputs, variant: u32) -> Pair<'_> {
    run(inputs, variant, false)
}

/// The record and the goal of input i, end to end: from (1, a, 1, 1) forward, from any registers backward.
fn whole(inputs: &Inputs, tape: &[u32], i: usize, forward: bool) -> (Record, u32) {
    if forward {
        (Record::at(0, [1, inputs.bases[i], 1, 1]), steps(tape))
    } else {
        (Record::at(steps(tape), inputs.registers[i]), 0)
    }
}

fn run(inputs: &Inputs, variant: u32, forward: bool) -> Pair<'_> {
    Pair::new(
        move |i| {
            let tape = black_box(inputs.tape(variant, i));
            let (record, to) = whole(inputs, tape, i, forward);
            let mut record = black_box(record.numbers());
            black_box(proved::run(tape, &mut record, to));
            black_box(&record);
        },
        move |i| {
            let tape = black_box(inputs.tape(variant, i));
            let (record, to) = whole(inputs, tape, i, forward);
            let _ = black_box(services::run(tape, black_box(record), to));
        },
    )
}

/// In the middle of the tape, from any registers; every other one back.
fn step(inputs: &Inputs, variant: u32) -> Pair<'_> {
    let start = move |tape: &[u32], i: usize| Record::at(steps(tape) / 2, inputs.registers[i]);
    Pair::new(
        move |i| {
            let tape = black_box(inputs.tape(variant, i));
            let mut record = black_box(start(tape, i).numbers());
            black_box(proved::step(tape, &mut record, i as u32 % 2));
            black_box(&record);
        },
        move |i| {
            let tape = black_box(inputs.tape(variant, i));
            let record = black_box(start(tape, i));
            let _ = black_box(services::step(tape, record, i % 2 == 1));
        },
    )
}

fn preview_forward(inputs: &Inputs, variant: u32) -> Pair<'_> {
    preview(inputs, variant, true)
}

fn preview_backward(inputs: &Inputs, variant: u32) -> Pair<'_> {
    preview(inputs, variant, false)
}

/// The whole runs, as `run` does them.
fn preview(inputs: &Inputs, variant: u32, forward: bool) -> Pair<'_> {
    let (mut registers, mut counts) = ([0; 4], [0; 3]);
    Pair::new(
        move |i| {
            let tape = black_box(inputs.tape(variant, i));
            let (record, to) = whole(inputs, tape, i, forward);
            let record = black_box(record.numbers());
            let number = proved::preview(tape, &record, to, &mut registers, &mut counts);
            black_box((number, &registers, &counts));
        },
        move |i| {
            let tape = black_box(inputs.tape(variant, i));
            let (record, to) = whole(inputs, tape, i, forward);
            let _ = black_box(services::preview(tape, black_box(record), to));
        },
    )
}

/// All bases in one row.
fn raise(inputs: &Inputs, variant: u32) -> Pair<'_> {
    let mut row = [0; BASES];
    Pair::over(ROWS, raise_proved(inputs, variant), move |i| {
        let tape = black_box(inputs.tape(variant, i));
        row.copy_from_slice(black_box(&inputs.bases));
        let _ = black_box(services::raise(tape, &mut row));
        black_box(&row);
    })
}

/// Both sides are the proved library: a row at once, and each of its bases alone, loaded and run from end
/// to end on the same tape.
fn raise_beside_runs(inputs: &Inputs, variant: u32) -> Pair<'_> {
    let mut row = [0; BASES];
    let mut record = [0; 5];
    Pair::over(ROWS, raise_proved(inputs, variant), move |i| {
        let tape = black_box(inputs.tape(variant, i));
        row.copy_from_slice(black_box(&inputs.bases));
        for base in &mut row {
            black_box(proved::load(tape, *base, &mut record));
            black_box(proved::run(tape, &mut record, steps(tape)));
            *base = record[1];
        }
        black_box(&row);
    })
}

/// The proved side of both.
fn raise_proved(inputs: &Inputs, variant: u32) -> impl FnMut(usize) + '_ {
    let mut row = [0; BASES];
    move |i| {
        let tape = black_box(inputs.tape(variant, i));
        row.copy_from_slice(black_box(&inputs.bases));
        black_box(proved::raise(tape, &mut row));
        black_box(&row);
    }
}

/// At the last position.
fn trace(inputs: &Inputs, variant: u32) -> Pair<'_> {
    let mut exponents = [0; 4];
    Pair::new(
        move |i| {
            let tape = black_box(inputs.tape(variant, i));
            black_box(proved::trace(tape, steps(tape), &mut exponents));
            black_box(&exponents);
        },
        move |i| {
            let tape = black_box(inputs.tape(variant, i));
            let _ = black_box(services::trace(tape, steps(tape)));
        },
    )
}

/// At the last position too.
fn table(inputs: &Inputs, variant: u32) -> Pair<'_> {
    let mut exponents = [0; 16];
    Pair::new(
        move |i| {
            let tape = black_box(inputs.tape(variant, i));
            black_box(proved::table(tape, steps(tape), &mut exponents));
            black_box(&exponents);
        },
        move |i| {
            let tape = black_box(inputs.tape(variant, i));
            let _ = black_box(services::table(tape, steps(tape)));
        },
    )
}

/// The whole program's steps.
fn cut(inputs: &Inputs, variant: u32) -> Pair<'_> {
    let (mut start, mut count) = (0, 0);
    Pair::new(
        move |i| {
            let tape = black_box(inputs.tape(variant, i));
            black_box(proved::cut(tape, 0, steps(tape), &mut start, &mut count));
            black_box((start, count));
        },
        move |i| {
            let tape = black_box(inputs.tape(variant, i));
            let _ = black_box(services::cut(tape, 0, steps(tape)));
        },
    )
}

fn listing(inputs: &Inputs, variant: u32) -> Pair<'_> {
    let mut lines = [0; MOST_LISTING];
    let mut written = 0;
    Pair::new(
        move |i| {
            black_box(proved::listing(
                black_box(inputs.bytes(variant, i)),
                &mut lines,
                &mut written,
            ));
            black_box(&lines);
        },
        move |i| {
            black_box(services::listing(black_box(inputs.bytes(variant, i))));
        },
    )
}

fn inverse(inputs: &Inputs, _: u32) -> Pair<'_> {
    let r = inputs.r;
    let mut found = 0;
    Pair::new(
        move |i| {
            let k = black_box(inputs.exponents[i]);
            black_box(proved::inverse(k, black_box(r), &mut found));
            black_box(found);
        },
        move |i| {
            let k = black_box(inputs.exponents[i]);
            let _ = black_box(services::inverse(k, black_box(r)));
        },
    )
}

fn places(inputs: &Inputs, _: u32) -> Pair<'_> {
    let (mut row, mut other) = ([0; MOST_PLACES], [0; MOST_PLACES]);
    let mut count = 0;
    Pair::new(
        move |i| {
            let n = black_box(inputs.numbers[i]);
            black_box(proved::places(n, &mut row, &mut count));
            black_box(&row);
        },
        move |i| {
            let n = black_box(inputs.numbers[i]);
            let _ = black_box(services::write_places(n, &mut other));
            black_box(&other);
        },
    )
}

fn number(inputs: &Inputs, _: u32) -> Pair<'_> {
    let mut n = 0;
    Pair::new(
        move |i| {
            black_box(proved::number(black_box(&inputs.lists[i]), &mut n));
            black_box(n);
        },
        move |i| {
            let _ = black_box(services::number(black_box(&inputs.lists[i])));
        },
    )
}

fn hofstadter(inputs: &Inputs, _: u32) -> Pair<'_> {
    Pair::new(
        move |i| {
            black_box(proved::hofstadter(black_box(inputs.numbers[i])));
        },
        move |i| {
            black_box(services::hofstadter(black_box(inputs.numbers[i])));
        },
    )
}

fn fibonacci(_: &Inputs, _: u32) -> Pair<'_> {
    let mut value = 0;
    Pair::new(
        move |i| {
            black_box(proved::fibonacci(black_box(i as u32), &mut value));
            black_box(value);
        },
        move |i| {
            let _ = black_box(services::fibonacci(black_box(i as u32)));
        },
    )
}
