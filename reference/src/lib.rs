//! An independent implementation of document 01, "The targeted exponentiation tape", and of requests
//! T-01, T-02, T-04, T-05 and T-06 of document 02, written from these and from source document 002 alone. It
//! serves as the other side of comparisons and benchmarks, so where there is a choice it takes another way
//! than the text suggests:
//!
//! | subject | way taken here |
//! |---|---|
//! | Fibonacci numbers | a table that fast doubling fills at compile time |
//! | Zeckendorf forms | a jump to the highest place by the bit length of what is left |
//! | Hofstadter's G | equation (1) of the paper, one fixed-point product and an exact test |
//! | primes | Miller–Rabin with three bases that decide every 32-bit number |
//! | inverses | Kaliski's almost inverse (shifts and subtractions) for odd moduli, carried over to even ones |
//! | orders | r / q for the prime divisors q of r; Pollard's rho finds those above 61 |
//! | running | each register travels with its inverse, so that a division costs no inversion |
//! | single steps | the step's own registers alone, and an inversion where it divides |
//! | previews | one walk, which does each step and counts it |
//! | rows of bases | the power that inverts a base also tests that a^r is 1; each step goes over the whole row |
//! | tables | one pass in which a step adds whole rows, instead of one for each start value |
//!
//! Each service answers `Err(number)` with the refusal's number, the first that applies.
//!
//! `tool` and `script` are a second implementation of docs/TOOL.md over these services. `drawing` makes
//! inputs without a pattern for comparisons.

pub mod drawing;
pub mod refusal;
pub mod script;
pub mod tool;

mod fibonacci;
mod listing;
mod machine;
mod modular;
mod order;
mod program;
mod record;
mod session;
mod tape;

pub use fibonacci::{fibonacci, height, hofstadter, number, places, write_places};
pub use listing::listing;
pub use machine::{cut, load, play, preview, raise, run, step, table, trace, Preview};
pub use modular::{inverse, is_prime, power, product};
pub use program::{build, check};
pub use record::Record;
pub use session::Session;
pub use tape::{decode, Meaning};
