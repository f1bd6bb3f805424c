//! Document 01, "Machine and variants": the named programs, build and check.

use crate::fibonacci::{height, Form, FIBONACCI};
use crate::modular::{inverse, is_prime};
use crate::refusal;
use crate::tape::{self, Program};

const SMALLEST_MODULUS: u32 = 3;
const LARGEST_MODULUS: u32 = 268_435_455;

/// Build: refusals 1, 2, 3, 4, 5; answers the word count and leaves the words past it.
pub fn build(p: u32, r: u32, k: u32, variant: u32, row: &mut [u32]) -> Result<usize, u32> {
    let inverse = parameters(p, r, k)?;
    let plan = Plan::new(r, k, inverse, variant).ok_or(refusal::VARIANT)?;
    let steps = plan.count();
    let words = steps + tape::FRAME_WORDS;
    let lent = row.get_mut(..words).ok_or(refusal::TAPE)?;
    lent[0] = tape::heading(variant);
    lent[1] = tape::word(tape::MODULUS, p);
    lent[2] = tape::word(tape::ORDER, r);
    lent[3] = tape::word(tape::EXPONENT, k);
    plan.write(&mut lent[tape::HEAD_WORDS..words - 1]);
    lent[words - 1] = tape::word(tape::END, steps as u32);
    Ok(words)
}

/// Check: refusals 6, 7, 4, 1, 2, 3, 8.
pub fn check(tape: &[u32]) -> Result<(), u32> {
    accept(tape).map(|_| ())
}

/// What an accepted tape says; the refusals are those of check.
pub(crate) fn accept(tape: &[u32]) -> Result<Program<'_>, u32> {
    let program = tape::read(tape)?;
    if program.variant > tape::HYBRID {
        return Err(refusal::VARIANT);
    }
    if program.variant == tape::FREE {
        return if is_modulus(program.p) {
            Ok(program)
        } else {
            Err(refusal::MODULUS)
        };
    }
    let inverse = parameters(program.p, program.r, program.k)?;
    let plan = Plan::new(program.r, program.k, inverse, program.variant);
    if plan.is_some_and(|plan| plan.matches(program.steps)) {
        Ok(program)
    } else {
        Err(refusal::STRANGER)
    }
}

/// Refusals 1, 2, 3 of a named program; answers K, the inverse of k.
fn parameters(p: u32, r: u32, k: u32) -> Result<u32, u32> {
    if !is_modulus(p) {
        return Err(refusal::MODULUS);
    }
    if r < 2 || !(p - 1).is_multiple_of(r) {
        return Err(refusal::ORDER);
    }
    inverse(k, r)
}

fn is_modulus(p: u32) -> bool {
    (SMALLEST_MODULUS..=LARGEST_MODULUS).contains(&p) && is_prime(p)
}

/// The forms that a variant's steps follow.
enum Plan {
    /// Figure 2: forms at their own lengths.
    Basic { k: Form, inverse: Form },
    /// Figure 4: forms padded to h.
    Dual {
        h: u32,
        s: Form,
        t: Form,
        back_s: Form,
        back_t: Form,
    },
    /// Figure 6: the form of v, and that of K padded to ℓ'.
    Hybrid { length: u32, v: Form, inverse: Form },
}

impl Plan {
    /// None where the variant isn't 1 to 3.
    fn new(r: u32, k: u32, inverse: u32, variant: u32) -> Option<Plan> {
        let h = height(r);
        let (k, inverse) = (k as u64, inverse as u64);
        match variant {
            tape::BASIC => Some(Plan::Basic {
                k: Form::of(k),
                inverse: Form::of(inverse),
            }),
            tape::DUAL => {
                let (low, high) = (FIBONACCI[h as usize], FIBONACCI[h as usize + 1]);
                let form = |factor: u64, weight: u64| Form::of(factor * weight % r as u64);
                Some(Plan::Dual {
                    h,
                    s: form(k, low),
                    t: form(k, high),
                    back_s: form(inverse, low),
                    back_t: form(inverse, high),
                })
            }
            tape::HYBRID => {
                // ℓ' is the least odd number from h on; v isn't reduced.
                let length = h | 1;
                let v = k * FIBONACCI[length as usize + 1];
                Some(Plan::Hybrid {
                    length,
                    v: Form::of(v),
                    inverse: Form::of(inverse),
                })
            }
            _ => None,
        }
    }

    /// The count of steps: two for each chain step, one for each selected place, and the swaps.
    fn count(&self) -> usize {
        let steps = match self {
            Plan::Basic { k, inverse } => {
                4 * (k.length() + inverse.length()) + k.count() + inverse.count() + 1
            }
            Plan::Dual {
                h,
                s,
                t,
                back_s,
                back_t,
            } => 4 * h + s.count() + t.count() + back_s.count() + back_t.count() + 2,
            Plan::Hybrid { length, v, inverse } => {
                2 * (v.length() + length) + v.count() + inverse.count() + 3
            }
        };
        steps as usize
    }

    /// Writes the steps to a row of exactly their count.
    fn write(&self, row: &mut [u32]) {
        let mut pen = Pen { row, next: 0 };
        match self {
            Plan::Basic { k, inverse } => pen.basic(*k, *inverse),
            Plan::Dual {
                h,
                s,
                t,
                back_s,
                back_t,
            } => {
                pen.dual_forward(*h, *s, *t);
                pen.swp(0, 2);
                pen.swp(1, 3);
                pen.dual_reverse(*h, *back_s, *back_t);
            }
            Plan::Hybrid { length, v, inverse } => {
                pen.hofstadter_pair(*v);
                pen.swp(0, 1);
                pen.swp(1, 2);
                pen.reverse(*length, *inverse);
            }
        }
    }

    fn matches(&self, steps: &[u32]) -> bool {
        let mut row = [0; tape::MOST_WORDS];
        let count = self.count();
        if count != steps.len() {
            return false;
        }
        self.write(&mut row[..count]);
        row[..count] == *steps
    }
}

/// Writes steps one after another; registers 0, 1, 2, 3 are the paper's c, d, e, f.
struct Pen<'a> {
    row: &'a mut [u32],
    next: usize,
}

impl Pen<'_> {
    fn step(&mut self, word: u32) {
        self.row[self.next] = word;
        self.next += 1;
    }

    fn mul(&mut self, target: u32, source: u32) {
        self.step(tape::step(tape::MUL, target, source));
    }

    fn div(&mut self, target: u32, source: u32) {
        self.step(tape::step(tape::DIV, target, source));
    }

    fn swp(&mut self, target: u32, source: u32) {
        self.step(tape::step(tape::SWP, target, source));
    }

    /// A chain step: (c, d) becomes (d, cd).
    fn up(&mut self) {
        self.mul(0, 1);
        self.swp(0, 1);
    }

    /// A chain step taken back.
    fn down(&mut self) {
        self.swp(0, 1);
        self.div(0, 1);
    }

    /// Figure 2.
    fn basic(&mut self, k: Form, inverse: Form) {
        for place in 1..=k.length() {
            self.up();
            if k.has(place) {
                self.mul(2, 1);
            }
        }
        (0..k.length()).for_each(|_| self.down());
        self.swp(1, 2);
        (0..inverse.length()).for_each(|_| self.up());
        self.reverse(inverse.length(), inverse);
    }

    /// FIBEXP in reverse, the form padded to a length.
    fn reverse(&mut self, length: u32, form: Form) {
        for place in (1..=length).rev() {
            if form.has(place) {
                self.div(2, 1);
            }
            self.down();
        }
    }

    /// FIBEXPDUAL (Figure 3).
    fn dual_forward(&mut self, length: u32, s: Form, t: Form) {
        for place in 1..=length {
            self.up();
            if s.has(place) {
                self.mul(2, 1);
            }
            if t.has(place) {
                self.mul(3, 1);
            }
        }
    }

    /// FIBEXPDUAL in reverse.
    fn dual_reverse(&mut self, length: u32, s: Form, t: Form) {
        for place in (1..=length).rev() {
            if t.has(place) {
                self.div(3, 1);
            }
            if s.has(place) {
                self.div(2, 1);
            }
            self.down();
        }
    }

    /// HGPEXP (Figure 5) with document 01's corrections: the base first moves to register 0, and a
    /// set place multiplies register 2.
    fn hofstadter_pair(&mut self, v: Form) {
        self.swp(0, 1);
        for place in (1..=v.length()).rev() {
            if v.has(place) {
                self.mul(2, 0);
            }
            self.mul(1, 2);
            self.swp(1, 2);
        }
    }
}
