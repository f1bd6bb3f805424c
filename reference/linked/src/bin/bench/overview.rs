//! The table of all services, at a small and at the largest p.

use crate::board::{rows, Board};
use crate::inputs::{Inputs, NAMED};
use crate::timing::Pair;

pub fn print(board: &Board, rounds: usize, small: &Inputs, large: &Inputs) {
    println!("Nanoseconds per call, the least of {rounds} rounds.");
    println!("Spread: the median over the rounds divided by the least, proved / reference.");
    println!("Steps on average: {}.", steps_told(small, large));
    println!("In the rows of 64 bases a call is for all of them.\n");
    println!(
        "| service | variant |{}{} other algorithm for |",
        columns(small),
        columns(large)
    );
    println!("|---|---|---:|---:|---:|---:|---:|---:|---:|---:|---|");
    for (service, variant) in rows() {
        let cells = [small, large].map(|at| cells(board.pair(service.name, variant, at)));
        println!(
            "| {} | {} | {} | {} | {} |",
            service.name, variant.name, cells[0], cells[1], service.differences
        );
    }
}

fn steps_told(small: &Inputs, large: &Inputs) -> String {
    let told: Vec<String> = NAMED
        .iter()
        .map(|variant| {
            let (few, many) = (small.mean_steps(variant), large.mean_steps(variant));
            format!("{} {few:.1} and {many:.1}", variant.name)
        })
        .collect();
    told.join(", ")
}

fn columns(inputs: &Inputs) -> String {
    format!(" p = {}: proved | reference | ratio | spread |", inputs.p)
}

fn cells(pair: &Pair) -> String {
    let (proved, reference) = (pair.proved.least(), pair.reference.least());
    format!(
        "{proved:.1} | {reference:.1} | {:.2} | {:.2} / {:.2}",
        proved / reference,
        pair.proved.spread(),
        pair.reference.spread()
    )
}
