//! The table of how cost grows with p, and of how near the runs come to what the machine's products allow.

use crate::board::{rows, Board, Limits};
use crate::inputs::{Inputs, Variant, EVERY};
use crate::latency::Chains;
use crate::services::{CHECK, RUNS};
use crate::timing::Side;

const PER_MICROSECOND: f64 = 1000.0;

pub fn print(board: &Board, growing: &[Inputs]) {
    println!("How cost grows, in nanoseconds per call: proved / reference = ratio.");
    println!("Steps per µs: proved / reference (limit, by Montgomery's products).\n");
    row("", "variant", growing.iter().map(column));
    println!("|---|---|---:|---:|---:|---:|");
    for variant in EVERY {
        times(board, growing, variant);
        for run in RUNS {
            speeds(board, growing, variant, run);
        }
        limits_without_swaps(board, growing, variant);
    }
    products(board.limits());
    let spreads = growing.iter().map(|at| largest_spread(board, at));
    row("largest spread of the services", "", spreads);
}

fn column(inputs: &Inputs) -> String {
    let bits = u32::BITS - inputs.p.leading_zeros();
    format!("p = {} ({bits} bits)", inputs.p)
}

fn row(what: &str, variant: &str, cells: impl Iterator<Item = String>) {
    let cells: Vec<String> = cells.collect();
    println!("| {what} | {variant} | {} |", cells.join(" | "));
}

// ---- the services

fn times(board: &Board, growing: &[Inputs], variant: &Variant) {
    let counts = |at: &Inputs| {
        let (steps, products) = (at.mean_steps(variant), at.mean_products(variant));
        format!("{steps:.1}, {products:.1}")
    };
    let counted = growing.iter().map(counts);
    row(
        "steps on average, mul and div of them",
        variant.name,
        counted,
    );
    for (service, _) in rows().filter(|(service, of)| service.grows && *of == variant) {
        let time = |at: &Inputs| {
            let pair = board.pair(service.name, variant, at);
            let (proved, reference) = (pair.proved.least(), pair.reference.least());
            format!("{proved:.1} / {reference:.1} = {:.2}", proved / reference)
        };
        row(service.name, variant.name, growing.iter().map(time));
    }
}

/// A run's steps by its whole time, and by what is left of it without the time of its check.
fn speeds(board: &Board, growing: &[Inputs], variant: &Variant, run: &str) {
    for (share, told) in [(0.0, "whole"), (1.0, "without check")] {
        let cell = |(at, limits): (&Inputs, &Limits)| {
            let [run, check] = [run, CHECK].map(|service| board.pair(service, variant, at));
            let speed = |run: &Side, check: &Side| {
                let time = run.least() - share * check.least();
                at.mean_steps(variant) * PER_MICROSECOND / time
            };
            let proved = speed(&run.proved, &check.proved);
            let reference = speed(&run.reference, &check.reference);
            format!(
                "{proved:.1} / {reference:.1} ({:.1})",
                limit(&limits.montgomery)
            )
        };
        let cells = growing.iter().zip(board.limits()).map(cell);
        row(&format!("{run}, {told}: steps per µs"), variant.name, cells);
    }
}

fn limits_without_swaps(board: &Board, growing: &[Inputs], variant: &Variant) {
    let cells = growing.iter().zip(board.limits()).map(|(at, limits)| {
        let share = at.mean_products(variant) / at.mean_steps(variant);
        format!("{:.1}", limit(&limits.montgomery) / share)
    });
    row("limit, swaps in no time: steps per µs", variant.name, cells);
}

fn largest_spread(board: &Board, at: &Inputs) -> String {
    let mut largest = [1.0f64; 2];
    for (service, variant) in rows().filter(|(service, _)| service.grows) {
        let pair = board.pair(service.name, variant, at);
        let spreads = [pair.proved.spread(), pair.reference.spread()];
        largest = [0, 1].map(|side| largest[side].max(spreads[side]));
    }
    format!("{:.2} / {:.2}", largest[0], largest[1])
}

// ---- the products

/// Steps per microsecond where a step is two products, each of which waits for the one before.
fn limit(chains: &Chains) -> f64 {
    PER_MICROSECOND / (2.0 * chains.one())
}

/// The same where the two don't wait for one another, but both for those of the step before.
fn at_once(chains: &Chains) -> f64 {
    PER_MICROSECOND / chains.two()
}

/// What is told of a way of reducing products.
type Told = (&'static str, fn(&Chains) -> f64);

fn products(limits: &[Limits]) {
    let lines: [Told; 4] = [
        ("a product that waits for the one before, ns", Chains::one),
        ("limit, two such products a step: steps per µs", limit),
        ("the same, both products at once: steps per µs", at_once),
        ("largest spread of the products", Chains::spread),
    ];
    for (what, told) in lines {
        let cell = |chains: &Chains| format!("{:.2}", told(chains));
        let montgomery = limits.iter().map(|at| cell(&at.montgomery));
        row(what, "Montgomery", montgomery);
        let remainder = limits.iter().map(|at| cell(&at.remainder));
        row(what, "remainder", remainder);
    }
}
