//! Document 01, "Listing": the lines of a tape given as bytes.

use crate::program::accept;
use crate::refusal;
use crate::tape::{self, Program};

/// Bytes of a step line at most: three digits, three letters, two registers, three blanks, an end.
const STEP_LINE: usize = 12;
/// Bytes of the first line at most: a name of six, labels, three numbers of nine digits, a count.
const FIRST_LINE: usize = 64;

/// The listing of a tape, or the line that tells its refusal.
pub fn listing(bytes: &[u8]) -> Vec<u8> {
    let mut words = [0; tape::MOST_WORDS];
    match words_of(bytes, &mut words).and_then(accept) {
        Ok(program) => lines(&program),
        Err(number) => {
            let mut line = b"refused ".to_vec();
            decimal(&mut line, number);
            line.push(b'\n');
            line
        }
    }
}

/// The words of a tape, least significant byte first; refusal 6 for a length no tape has.
fn words_of<'a>(bytes: &[u8], words: &'a mut [u32; tape::MOST_WORDS]) -> Result<&'a [u32], u32> {
    if bytes.len() > 4 * tape::MOST_WORDS || !bytes.len().is_multiple_of(4) {
        return Err(refusal::LENGTH);
    }
    for (word, four) in words.iter_mut().zip(bytes.chunks_exact(4)) {
        *word = u32::from_le_bytes([four[0], four[1], four[2], four[3]]);
    }
    Ok(&words[..bytes.len() / 4])
}

fn lines(program: &Program) -> Vec<u8> {
    let mut out = Vec::with_capacity(FIRST_LINE + STEP_LINE * program.steps.len());
    let name: &[u8] = match program.variant {
        tape::FREE => b"free",
        tape::BASIC => b"basic",
        tape::DUAL => b"dual",
        _ => b"hybrid",
    };
    out.extend_from_slice(name);
    let count = program.steps.len() as u32;
    let labels: [(&[u8], u32); 4] = [
        (b" p=", program.p),
        (b" r=", program.r),
        (b" k=", program.k),
        (b" steps=", count),
    ];
    for (label, value) in labels {
        out.extend_from_slice(label);
        decimal(&mut out, value);
    }
    out.push(b'\n');
    for (number, &step) in (1..).zip(program.steps) {
        step_line(&mut out, number, step);
    }
    out
}

fn step_line(out: &mut Vec<u8>, number: u32, step: u32) {
    decimal(out, number);
    out.extend_from_slice(match tape::kind(step) {
        tape::MUL => b" mul ",
        tape::DIV => b" div ",
        _ => b" swp ",
    });
    out.push(b'0' + tape::target(step) as u8);
    out.push(b' ');
    out.push(b'0' + tape::source(step) as u8);
    out.push(b'\n');
}

fn decimal(out: &mut Vec<u8>, n: u32) {
    let mut digits = [0; 10];
    let mut start = digits.len();
    let mut rest = n;
    loop {
        start -= 1;
        digits[start] = b'0' + (rest % 10) as u8;
        rest /= 10;
        if rest == 0 {
            break;
        }
    }
    out.extend_from_slice(&digits[start..]);
}
