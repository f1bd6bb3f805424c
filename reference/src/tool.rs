//! The replies of the command-line tool, as docs/TOOL.md has them.

mod answers;
mod reading;
mod texts;
mod verbs;

pub(crate) use answers::{answer, line_of};
pub(crate) use reading::{complaint, understand, Call};
pub(crate) use verbs::{Entry, Verb, MOST_ROW_WORDS, SCRIPT_VERBS, VERBS};

use texts::NO_WHOLE_WORDS;

/// Standard input above this gives a tape of no words.
const MOST_BYTES: usize = 2048;

#[derive(Clone, Copy, Debug, PartialEq, Eq)]
pub enum Status {
    Answered,
    Refused,
    NotUnderstood,
}

#[derive(Clone, Debug, PartialEq, Eq)]
pub struct Reply {
    pub status: Status,
    pub text: Vec<u8>,
}

/// The tapes that a call may take: one at hand, and the words of all.
#[derive(Clone, Copy)]
pub(crate) struct Tapes<'a> {
    pub at_hand: &'a [u32],
    pub all: &'a [u32],
}

/// The reply to a command line with these bytes on standard input.
pub fn reply(words: &[&[u8]], input: &[u8]) -> Reply {
    let verbs: Vec<&Entry> = VERBS.iter().collect();
    let call = match understand(words, &verbs) {
        Ok(call) => call,
        Err(text) => {
            return Reply {
                status: Status::NotUnderstood,
                text,
            }
        }
    };
    let tape = tape_of(input);
    let tapes = Tapes {
        at_hand: &tape,
        all: &tape,
    };
    match answer(&call, tapes) {
        Ok(text) => Reply {
            status: Status::Answered,
            text,
        },
        Err(number) => Reply {
            status: Status::Refused,
            text: refusal_of_input(call.verb, number, input),
        },
    }
}

/// Whether a command line takes a tape from standard input.
pub fn reads_tape(words: &[&[u8]]) -> bool {
    let verbs: Vec<&Entry> = VERBS.iter().collect();
    understand(words, &verbs).is_ok_and(|call| call.verb.takes_tape())
}

/// The text of a refusal; a script has no bytes that could be no whole words.
pub(crate) fn refusal_text(verb: Verb, number: u32) -> Vec<u8> {
    refused(number, texts::reason(verb, number))
}

fn refusal_of_input(verb: Verb, number: u32, input: &[u8]) -> Vec<u8> {
    if verb.takes_tape() && !input.len().is_multiple_of(4) {
        return refused(number, NO_WHOLE_WORDS);
    }
    refusal_text(verb, number)
}

fn refused(number: u32, reason: &str) -> Vec<u8> {
    complaint(&[format!("refused {number}: {reason}").as_bytes()])
}

/// The words of standard input, least significant byte first; none where its length is no tape's.
fn tape_of(input: &[u8]) -> Vec<u32> {
    if input.len() > MOST_BYTES || !input.len().is_multiple_of(4) {
        return Vec::new();
    }
    input
        .chunks_exact(4)
        .map(|four| u32::from_le_bytes([four[0], four[1], four[2], four[3]]))
        .collect()
}
