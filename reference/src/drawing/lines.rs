//! The lines of a drawn script, and the tape at hand that they lead to.

use crate::drawing::noise::Noise;
use crate::drawing::parameters::{Parameters, PAYLOADS};
use crate::drawing::tapes::named;

/// As many words stand on one line.
const MOST_ON_A_LINE: usize = 64;
/// A tape with more changed words is written anew.
const MOST_CHANGES: usize = 6;

pub(super) struct Lines {
    pub noise: Noise,
    /// The tape at hand.
    pub tape: Vec<u32>,
    /// How many words stand before it in the row.
    pub before: u32,
    pub text: Vec<u8>,
}

impl Lines {
    pub fn new(noise: Noise) -> Lines {
        Lines {
            noise,
            tape: Vec::new(),
            before: 0,
            text: Vec::new(),
        }
    }

    pub fn line(&mut self, line: &[u8]) {
        self.text.extend_from_slice(line);
        self.text.push(b'\n');
    }

    pub fn comment(&mut self, text: &str) {
        self.line(format!("# {text}").as_bytes());
    }

    /// A verb and its numbers, most in decimal.
    pub fn call(&mut self, verb: &str, numbers: &[u64]) {
        let mut line = verb.to_string();
        for &number in numbers {
            line.push(' ');
            line.push_str(&self.spelled(number));
        }
        self.line(line.as_bytes());
    }

    /// As `call`, for 32-bit numbers.
    pub fn small_call(&mut self, verb: &str, numbers: &[u32]) {
        let wide: Vec<u64> = numbers.iter().map(|&number| number as u64).collect();
        self.call(verb, &wide);
    }

    /// A number as a parameter may have it.
    fn spelled(&mut self, number: u64) -> String {
        match self.noise.below(24) {
            0 => format!("0x{number:x}"),
            1 => format!("0x{number:X}"),
            2 => format!("000{number}"),
            _ => number.to_string(),
        }
    }

    /// A build, its variant by name or number; the tape at hand where it isn't refused.
    pub fn build(&mut self, parameters: Parameters) {
        let Parameters { p, r, k, variant } = parameters;
        let names = ["free", "basic", "dual", "hybrid"];
        match names.get(variant as usize) {
            Some(name) if self.noise.once_in(2) => {
                self.line(format!("build {p} {r} {k} {name}").as_bytes());
            }
            _ => self.small_call("build", &[p, r, k, variant]),
        }
    }

    /// Makes the tape at hand this one. A tape that is like a named program is built and then changed.
    pub fn hold(&mut self, tape: Vec<u32>) {
        if let Some(parameters) = header(&tape) {
            let origin = named(parameters);
            if !origin.is_empty() {
                self.build(parameters);
                self.tape = origin;
            }
        }
        self.edit(&tape);
        self.tape = tape;
    }

    /// The lines from the tape at hand to another: changes, another end, or the whole of it.
    fn edit(&mut self, tape: &[u32]) {
        let old = std::mem::take(&mut self.tape);
        let changed: Vec<usize> = (0..tape.len().min(old.len()))
            .filter(|&at| old[at] != tape[at])
            .collect();
        if old.len() == tape.len() && changed.len() <= MOST_CHANGES {
            for at in changed {
                self.line(format!("change {at} 0x{:08X}", tape[at]).as_bytes());
            }
            return;
        }
        let same = changed
            .first()
            .copied()
            .unwrap_or(old.len().min(tape.len()));
        if same > 0 && same >= tape.len() / 2 {
            self.line(format!("drop {}", old.len() - same).as_bytes());
            self.put("append", &tape[same..]);
        } else {
            self.put("tape", tape);
        }
    }

    /// Words on as many lines as they need; `append` follows the first.
    fn put(&mut self, verb: &str, words: &[u32]) {
        let mut verb = verb;
        let mut rest = words;
        loop {
            let (part, behind) = rest.split_at(rest.len().min(MOST_ON_A_LINE));
            let spelled: Vec<String> = part.iter().map(|word| format!(" 0x{word:08X}")).collect();
            self.line(format!("{verb}{}", spelled.concat()).as_bytes());
            if behind.is_empty() {
                return;
            }
            (verb, rest) = ("append", behind);
        }
    }
}

/// The parameters that a tape's first words give, if it has them.
fn header(tape: &[u32]) -> Option<Parameters> {
    let head = tape.get(..4)?;
    Some(Parameters {
        variant: head[0] >> 8 & 15,
        p: head[1] % PAYLOADS,
        r: head[2] % PAYLOADS,
        k: head[3] % PAYLOADS,
    })
}
