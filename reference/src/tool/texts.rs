//! The fixed texts of docs/TOOL.md: the usage, and the reasons of refusals.

use super::verbs::Verb;
use crate::refusal;

/// Each complaint and each refusal begins with the tool's name.
pub(super) const NAME: &str = "fibexp: ";

pub(super) const VERSION: &str = "fibexp 3.0.0\n";

pub(super) const USAGE: &str = "\
usage: fibexp VERB PARAMETER..
  build P R K VARIANT    write a tape; VARIANT is basic, dual, hybrid or 1 to 3
  script                 commands from standard input, one on a line
on the tape from standard input; a RECORD is C D E F POSITION, the registers and the position:
  check                  0 where the tape is accepted
  list                   the tape's listing
  load BASE              the record to start from
  run RECORD TO          the record at position TO
  step RECORD BACKWARD   the record one step on, or one step back where BACKWARD isn't 0
  preview RECORD TO      the registers at position TO, then the mul, div and swp steps on the way
  power BASE             load and run: register 1 (a named program's power), the record
  raise BASE..           each of up to 64 bases to the power k, by a named program
  trace POSITION         the four whole exponents
  table POSITION         the exponent of each start value in each register, a line for each register
  cut FIRST LAST         the words of the steps FIRST + 1 to LAST
  play RECORD REQUEST..  a list of runs, each BEGIN END TURN TO: the record at its end, each run's number
on numbers:
  decode WORD            what a tape's word means
  fibonacci I            the Fibonacci number of index I
  places N               the places of the Zeckendorf form of N, highest first
  number PLACE..         the number of these places
  hofstadter N           G(N)
  inverse K R            the inverse of K modulo R
  height R               the least h above 0 with R below phi^h
  prime N                1 where N is a prime, else 0
  mulmod A B M           A times B modulo M
  powmod A K M           A to the K modulo M
  help, version          this text; the version
";

/// The reason of 6 where the bytes of standard input aren't whole words.
pub(super) const NO_WHOLE_WORDS: &str = "standard input isn't whole words of 4 bytes";

/// Why a verb refuses: the verbs whose reason differs come first.
pub(super) fn reason(verb: Verb, number: u32) -> &'static str {
    match (number, verb) {
        (refusal::ORDER, Verb::Inverse) => "r must be at least 2",
        (refusal::VARIANT, Verb::Build | Verb::Raise) => {
            "the variant must be that of a named program"
        }
        (refusal::REGISTER, Verb::Run | Verb::Step | Verb::Preview) => {
            "each register must be from 1 to p-1"
        }
        (refusal::POSITION, Verb::Cut) => {
            "first and last must be positions up to the step count, first at most last"
        }
        (refusal::RANGE, Verb::Number) => "the sum of the places exceeds 64 bits",
        (refusal::INDEX, Verb::Fibonacci) => "the index must be at most 93",
        _ => common_reason(number),
    }
}

fn common_reason(number: u32) -> &'static str {
    match number {
        refusal::MODULUS => "p must be a prime from 3 to 268435455",
        refusal::ORDER => "r must be at least 2 and divide p-1",
        refusal::EXPONENT => "k must be from 1 to r-1 and share no factor with r",
        refusal::VARIANT => "the tape's variant is none of those known",
        refusal::TAPE => "the buffer is shorter than the result",
        refusal::LENGTH => "a tape has 5 to 512 words",
        refusal::WORD => "a word, its place or the end's count breaks the layout",
        refusal::STRANGER => "the steps aren't those built for the tape's p, r, k and variant",
        refusal::REGISTER => "the base must be from 1 to p-1",
        refusal::POSITION => "a position is outside 0 to the step count",
        refusal::BASE => "the base's order isn't r",
        refusal::RANGE => "an exponent leaves -2^62 to 2^62",
        refusal::INDEX => "not the places of a Zeckendorf form, from 92 down to 1",
        _ => "a row has at most 64 bases",
    }
}
