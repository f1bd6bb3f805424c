//! Document 01, "Tape words": the words of a tape and its layout.

use crate::refusal;

pub(crate) const HEADING: u32 = 1;
pub(crate) const MODULUS: u32 = 2;
pub(crate) const ORDER: u32 = 3;
pub(crate) const EXPONENT: u32 = 4;
pub(crate) const MUL: u32 = 5;
pub(crate) const DIV: u32 = 6;
pub(crate) const SWP: u32 = 7;
pub(crate) const END: u32 = 15;

pub(crate) const FREE: u32 = 0;
pub(crate) const BASIC: u32 = 1;
pub(crate) const DUAL: u32 = 2;
pub(crate) const HYBRID: u32 = 3;

/// Words before the first step: kinds 1, 2, 3, 4.
pub(crate) const HEAD_WORDS: usize = 4;
/// Words that aren't steps: the head and the end.
pub(crate) const FRAME_WORDS: usize = HEAD_WORDS + 1;
pub(crate) const MOST_WORDS: usize = 512;

const FORMAT: u32 = 1;
const KIND_SHIFT: u32 = 28;
const PAYLOAD_MASK: u32 = (1 << KIND_SHIFT) - 1;
const VARIANT_SHIFT: u32 = 8;
const VARIANT_MASK: u32 = 15;
const SOURCE_SHIFT: u32 = 2;
const REGISTER_MASK: u32 = 3;

/// What a tape of sound layout says; its steps are the step words of the tape itself.
pub(crate) struct Program<'a> {
    pub variant: u32,
    pub p: u32,
    pub r: u32,
    pub k: u32,
    pub steps: &'a [u32],
}

pub(crate) fn word(kind: u32, payload: u32) -> u32 {
    kind << KIND_SHIFT | payload
}

pub(crate) fn heading(variant: u32) -> u32 {
    word(HEADING, variant << VARIANT_SHIFT | FORMAT)
}

pub(crate) const fn step(kind: u32, target: u32, source: u32) -> u32 {
    kind << KIND_SHIFT | source << SOURCE_SHIFT | target
}

pub(crate) fn kind(word: u32) -> u32 {
    word >> KIND_SHIFT
}

fn payload(word: u32) -> u32 {
    word & PAYLOAD_MASK
}

pub(crate) fn target(step: u32) -> usize {
    (step & REGISTER_MASK) as usize
}

pub(crate) fn source(step: u32) -> usize {
    (step >> SOURCE_SHIFT & REGISTER_MASK) as usize
}

/// Reads a tape: refusal 6 for its length, then 7 for its layout.
pub(crate) fn read(tape: &[u32]) -> Result<Program<'_>, u32> {
    if tape.len() < FRAME_WORDS || tape.len() > MOST_WORDS {
        return Err(refusal::LENGTH);
    }
    let (head, body) = tape.split_at(HEAD_WORDS);
    let (steps, end) = body.split_at(body.len() - 1);
    let program = Program {
        variant: head[0] >> VARIANT_SHIFT & VARIANT_MASK,
        p: payload(head[1]),
        r: payload(head[2]),
        k: payload(head[3]),
        steps,
    };
    let sound = head[0] == heading(program.variant)
        && kind(head[1]) == MODULUS
        && kind(head[2]) == ORDER
        && kind(head[3]) == EXPONENT
        && (program.variant != FREE || program.r == 0 && program.k == 0)
        && end[0] == word(END, steps.len() as u32)
        && steps.iter().all(|&step| is_step(step));
    if sound {
        Ok(program)
    } else {
        Err(refusal::WORD)
    }
}

/// What a word means by itself.
#[derive(Clone, Copy, Debug, PartialEq, Eq)]
pub enum Meaning {
    /// The variant, any that four bits hold: check refuses those above 3, not the word.
    Heading(u32),
    Modulus(u32),
    Order(u32),
    Exponent(u32),
    Mul(u32, u32),
    Div(u32, u32),
    Swp(u32, u32),
    End(u32),
}

/// The meaning of a word, if it has one: kinds 0 and 8 to 14, another format, bits without a meaning and
/// steps that aren't lawful have none.
pub fn decode(word: u32) -> Option<Meaning> {
    let value = payload(word);
    let (target, source) = (word & REGISTER_MASK, word >> SOURCE_SHIFT & REGISTER_MASK);
    let variant = word >> VARIANT_SHIFT & VARIANT_MASK;
    match kind(word) {
        HEADING if word == heading(variant) => Some(Meaning::Heading(variant)),
        MODULUS => Some(Meaning::Modulus(value)),
        ORDER => Some(Meaning::Order(value)),
        EXPONENT => Some(Meaning::Exponent(value)),
        MUL if is_step(word) => Some(Meaning::Mul(target, source)),
        DIV if is_step(word) => Some(Meaning::Div(target, source)),
        SWP if is_step(word) => Some(Meaning::Swp(target, source)),
        END => Some(Meaning::End(value)),
        _ => None,
    }
}

/// A step word: target and source differ, a swp's target is the smaller, other bits are 0.
fn is_step(word: u32) -> bool {
    let (target, source) = (word & REGISTER_MASK, word >> SOURCE_SHIFT & REGISTER_MASK);
    let kind = kind(word);
    let ordered = match kind {
        MUL | DIV => target != source,
        SWP => target < source,
        _ => false,
    };
    ordered && word == step(kind, target, source)
}
