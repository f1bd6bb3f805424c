//! The table of what an order costs, by its prime divisors.

use crate::board::{rows, Board};
use crate::inputs::{Inputs, Variant, NAMED};
use crate::services::{Service, CHECK, LOADS, RAISES};
use crate::timing::Pair;
use reference::drawing::parameters::prime_divisors;

/// Load and rows of bases test an order, and both begin with check.
const TOLD: [&str; 3] = [CHECK, LOADS, RAISES];

/// The variants test it alike, so the first stands for all.
pub fn is_told(service: &Service, variant: &Variant) -> bool {
    TOLD.contains(&service.name) && *variant == NAMED[0]
}

pub fn print(board: &Board, large: &Inputs, others: &[Inputs]) {
    let all: Vec<&Inputs> = std::iter::once(large).chain(others).collect();
    println!("How cost depends on the primes of r, in nanoseconds per call: proved / reference = ratio, and the spreads.\n");
    println!("| service | variant |{} |", columns(&all));
    println!("|---|---|{}", "---:|".repeat(all.len()));
    for (service, variant) in rows().filter(|(service, variant)| is_told(service, variant)) {
        let cells = all
            .iter()
            .map(|at| cell(board.pair(service.name, variant, at)));
        let cells: Vec<String> = cells.collect();
        println!(
            "| {} | {} | {} |",
            service.name,
            variant.name,
            cells.join(" | ")
        );
    }
}

fn columns(all: &[&Inputs]) -> String {
    let column = |at: &&Inputs| {
        let primes: Vec<String> = prime_divisors(at.r).iter().map(u32::to_string).collect();
        format!(" p = {}, r = {}: {}", at.p, at.r, primes.join(", "))
    };
    let columns: Vec<String> = all.iter().map(column).collect();
    columns.join(" |")
}

fn cell(pair: &Pair) -> String {
    let (proved, reference) = (pair.proved.least(), pair.reference.least());
    format!(
        "{proved:.1} / {reference:.1} = {:.2} ({:.2} / {:.2})",
        proved / reference,
        pair.proved.spread(),
        pair.reference.spread()
    )
}
