//! The time of a call of the proved library and of this implementation, in one run on one core.
//!
//!     bench [ROUNDS]
//!
//! A round goes over all that is measured: a batch of calls of the one side, then of the other, over the
//! same inputs, which differ from call to call. A batch goes over all inputs, of rows of bases over the
//! first eight, as often as it takes to last a quarter of a millisecond or more. Told is the least time
//! per call over all rounds, since what else runs on the machine only adds to it; how many times the
//! other's time the proved one is; and how many times the least the median over the rounds is.

mod board;
mod growth;
mod inputs;
mod latency;
mod orders;
mod overview;
mod pin;
mod services;
mod timing;

use board::Board;
use inputs::{Inputs, Size, GROWING, ORDERS, SMALL};
use std::num::NonZeroUsize;

/// They take about two minutes.
const ROUNDS: usize = 400;

fn main() {
    let rounds = rounds();
    let core = pin::stay();
    let small = SMALL.inputs();
    let growing: [Inputs; 4] = GROWING.each_ref().map(Size::inputs);
    let with_orders: [Inputs; 4] = ORDERS.each_ref().map(Size::inputs);
    let mut board = Board::new(&small, &growing, &with_orders);
    for _ in 0..rounds {
        board.round();
    }
    println!("Processor: {}. {}\n", pin::processor(), told(core));
    let [.., large] = &growing;
    overview::print(&board, rounds, &small, large);
    println!();
    orders::print(&board, large, &with_orders);
    println!();
    growth::print(&board, &growing);
}

fn rounds() -> usize {
    let words: Vec<String> = std::env::args().skip(1).collect();
    let told = match words.as_slice() {
        [] => return ROUNDS,
        [text] => text.parse().map_or(0, NonZeroUsize::get),
        _ => 0,
    };
    if told == 0 {
        eprintln!("usage: bench [ROUNDS]");
        std::process::exit(2);
    }
    told
}

fn told(core: Option<usize>) -> String {
    match core {
        Some(core) => format!("The run stayed on core {core}."),
        None => "The run wasn't kept on one core.".to_string(),
    }
}
