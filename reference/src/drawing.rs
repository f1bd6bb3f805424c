//! Inputs without a pattern, the same for the same seed: numbers, lists of places, parameters, bases and tapes,
//! lawful ones and ones with a fault; and a script and command lines of calls with them. The programs of
//! linked/ draw their calls from here too.

pub mod bases;
pub mod calls;
pub mod commands;
pub mod noise;
pub mod parameters;
pub mod tapes;
pub mod values;

mod lines;
mod odd;
mod rows;
