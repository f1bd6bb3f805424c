//! The time of a call: batches of calls, and what their times over the rounds come to.

use crate::inputs::INPUTS;
use std::time::{Duration, Instant};

const SHORTEST_BATCH: Duration = Duration::from_micros(250);
/// As many batches in a row last that long before the count of their passes is settled: a first one is
/// slower than those after it.
const TRIALS: usize = 3;

/// Two ways of doing the same for each input.
pub struct Pair<'a> {
    pub proved: Side<'a>,
    pub reference: Side<'a>,
}

impl<'a> Pair<'a> {
    pub fn new(proved: impl FnMut(usize) + 'a, reference: impl FnMut(usize) + 'a) -> Pair<'a> {
        Pair::over(INPUTS, proved, reference)
    }

    /// Over the first inputs alone, where a call takes long.
    pub fn over(
        inputs: usize,
        proved: impl FnMut(usize) + 'a,
        reference: impl FnMut(usize) + 'a,
    ) -> Pair<'a> {
        Pair {
            proved: Side::new(inputs, proved),
            reference: Side::new(inputs, reference),
        }
    }

    pub fn round(&mut self) {
        self.proved.round();
        self.reference.round();
    }
}

/// One of the two, or a chain of products: a batch goes so many times over so many inputs.
pub struct Side<'a> {
    go: Box<dyn FnMut(usize) + 'a>,
    inputs: usize,
    passes: usize,
    /// Nanoseconds per call, of each round.
    times: Vec<f64>,
}

impl<'a> Side<'a> {
    /// The call gets the number of the input.
    pub fn new(inputs: usize, mut call: impl FnMut(usize) + 'a) -> Side<'a> {
        let mut side = Side {
            go: Box::new(move |passes| {
                (0..passes).for_each(|_| (0..inputs).for_each(&mut call));
            }),
            inputs,
            passes: 1,
            times: Vec::new(),
        };
        while (0..TRIALS).any(|_| side.batch() < SHORTEST_BATCH) {
            side.passes *= 2;
        }
        side
    }

    pub fn round(&mut self) {
        let calls = (self.passes * self.inputs) as f64;
        let time = self.batch().as_nanos() as f64 / calls;
        self.times.push(time);
    }

    /// Never inlined, so that the trials and the rounds run the same code.
    #[inline(never)]
    fn batch(&mut self) -> Duration {
        let start = Instant::now();
        (self.go)(self.passes);
        start.elapsed()
    }

    /// The least time per call: what else runs on the machine only adds to it.
    pub fn least(&self) -> f64 {
        self.times.iter().copied().fold(f64::INFINITY, f64::min)
    }

    /// How many times the least the median is.
    pub fn spread(&self) -> f64 {
        let mut times = self.times.clone();
        times.sort_by(f64::total_cmp);
        times
            .get(times.len() / 2)
            .map_or(1.0, |median| median / times[0])
    }
}
