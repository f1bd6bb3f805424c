//! Load, run, single steps, previews, raise, lists of runs, trace, table and cut: what the steps of an
//! accepted tape do.

use crate::modular::Modulus;
use crate::order::Order;
use crate::program::accept;
use crate::refusal;
use crate::tape::{self, Program};
use crate::Record;

/// Exponents of a trace or table stay from −2^62 to 2^62.
const EXPONENT_LIMIT: u64 = 1 << 62;
/// A row of bases has no more.
const MOST_BASES: usize = 64;

/// Load: check's refusals, then 9, 11; answers (1, a, 1, 1) at position 0.
pub fn load(tape: &[u32], base: u32) -> Result<Record, u32> {
    let program = accept(tape)?;
    if !is_register(base, program.p) {
        return Err(refusal::REGISTER);
    }
    let has_order = || Order::new(program.r).is_that_of(base as u64, Modulus::new(program.p));
    if program.variant != tape::FREE && !has_order() {
        return Err(refusal::BASE);
    }
    Ok(Record::at(0, [1, base, 1, 1]))
}

/// Run: check's refusals, then 9, 10; answers the record at position `to`.
pub fn run(tape: &[u32], record: Record, to: u32) -> Result<Record, u32> {
    let (program, from) = stand(tape, record)?;
    let end = position(&program, to)?;
    let modulus = Modulus::new(program.p);
    let mut units = with_inverses(record.registers, modulus);
    if from <= end {
        for &step in &program.steps[from..end] {
            act(&mut units, modulus, tape::kind(step), step);
        }
    } else {
        for &step in program.steps[end..from].iter().rev() {
            act(&mut units, modulus, undone(tape::kind(step)), step);
        }
    }
    Ok(Record::at(to, units.map(|unit| unit.value as u32)))
}

/// One step: check's refusals, then 9, 10, which a step past either end gets too; answers the record at
/// the next position, or at the one before.
pub fn step(tape: &[u32], record: Record, backward: bool) -> Result<Record, u32> {
    let (program, at) = stand(tape, record)?;
    let index = if backward {
        at.checked_sub(1)
    } else {
        Some(at)
    };
    let step = index.and_then(|index| program.steps.get(index));
    let &step = step.ok_or(refusal::POSITION)?;
    let (kind, after) = if backward {
        (undone(tape::kind(step)), record.position - 1)
    } else {
        (tape::kind(step), record.position + 1)
    };
    let registers = acted(record.registers, Modulus::new(program.p), kind, step);
    Ok(Record::at(after, registers))
}

/// What a preview shows: the registers at its target, and how many steps on the way are mul, div and swp,
/// in this order, as they are done there: an undone mul is a div, and an undone div a mul.
#[derive(Clone, Copy, Debug, PartialEq, Eq)]
pub struct Preview {
    pub registers: [u32; 4],
    pub counts: [u32; 3],
}

/// Preview: run's refusals. It goes to the target step by step, and counts each step as it does it.
pub fn preview(tape: &[u32], record: Record, to: u32) -> Result<Preview, u32> {
    let (program, mut at) = stand(tape, record)?;
    let target = position(&program, to)?;
    let modulus = Modulus::new(program.p);
    let mut units = with_inverses(record.registers, modulus);
    let mut counts = [0; 3];
    while at != target {
        let (step, kind) = if at < target {
            let step = program.steps[at];
            at += 1;
            (step, tape::kind(step))
        } else {
            at -= 1;
            let step = program.steps[at];
            (step, undone(tape::kind(step)))
        };
        act(&mut units, modulus, kind, step);
        counts[(kind - tape::MUL) as usize] += 1;
    }
    Ok(Preview {
        registers: units.map(|unit| unit.value as u32),
        counts,
    })
}

/// Raise: check's refusals, then 4 for a free program, 14, and base by base 9, 11. Each base becomes what
/// its load and run from end to end leave in register 1.
pub fn raise(tape: &[u32], bases: &mut [u32]) -> Result<(), u32> {
    let program = accept(tape)?;
    if program.variant == tape::FREE {
        return Err(refusal::VARIANT);
    }
    if bases.len() > MOST_BASES {
        return Err(refusal::COUNT);
    }
    let (modulus, order) = (Modulus::new(program.p), Order::new(program.r));
    let units: Result<Vec<Unit>, u32> = bases
        .iter()
        .map(|&base| base_with_inverse(base, &program, modulus, &order))
        .collect();
    let ones = vec![Unit::ONE; bases.len()];
    let mut rows = [ones.clone(), units?, ones.clone(), ones];
    for &step in program.steps {
        act_on_rows(&mut rows, modulus, step);
    }
    for (base, unit) in bases.iter_mut().zip(&rows[1]) {
        *base = unit.value as u32;
    }
    Ok(())
}

/// Trace: check's refusals, then 10, 12; answers each register's exponent at a position.
pub fn trace(tape: &[u32], position: u32) -> Result<[i64; 4], u32> {
    let program = accept(tape)?;
    let position = self::position(&program, position)?;
    let mut exponents = [0i64, 1, 0, 0];
    for &step in &program.steps[..position] {
        let (target, source) = (tape::target(step), tape::source(step));
        let (old, change) = (exponents[target], exponents[source]);
        // Within the limits only a sum of exactly 2^63 wraps, and to −2^63: outside the limits too.
        match tape::kind(step) {
            tape::MUL => exponents[target] = old.wrapping_add(change),
            tape::DIV => exponents[target] = old.wrapping_sub(change),
            _ => exponents.swap(target, source),
        }
        if exponents[target].unsigned_abs() > EXPONENT_LIMIT {
            return Err(refusal::RANGE);
        }
    }
    Ok(exponents)
}

/// Table: check's refusals, then 10, 12; answers a row for each register, with the exponent of each start
/// value in it at a position.
pub fn table(tape: &[u32], position: u32) -> Result<[[i64; 4]; 4], u32> {
    let program = accept(tape)?;
    let position = self::position(&program, position)?;
    let mut rows = [[1, 0, 0, 0], [0, 1, 0, 0], [0, 0, 1, 0], [0, 0, 0, 1]];
    for &step in &program.steps[..position] {
        act_on_exponents(&mut rows, step).ok_or(refusal::RANGE)?;
    }
    Ok(rows)
}

/// Cut: check's refusals, then 10; answers the step words numbered first + 1 to last.
pub fn cut(tape: &[u32], first: u32, last: u32) -> Result<&[u32], u32> {
    let program = accept(tape)?;
    let (first, last) = (position(&program, first)?, position(&program, last)?);
    program.steps.get(first..last).ok_or(refusal::POSITION)
}

/// A list of runs on tapes that stand in one row of words. A request is four numbers: where its tape
/// begins and ends in the row, its turn, and where to run to; numbers left over are no request. A tape
/// that isn't inside the row is the empty one. Turn 0 is none, and any other sets the record's position to
/// one less. Each run gets the record as those before it left it, and a refused one leaves it as its turn
/// did. Told are the record at the end, and of each run its number.
pub fn play(row: &[u32], requests: &[u32], record: Record) -> (Record, Vec<u32>) {
    let mut after = record;
    let mut numbers = Vec::new();
    for request in requests.chunks_exact(4) {
        let (begin, end) = (request[0] as usize, request[1] as usize);
        let tape = row.get(begin..end).unwrap_or_default();
        if let Some(position) = request[2].checked_sub(1) {
            after = after.turned(position);
        }
        numbers.push(match run(tape, after, request[3]) {
            Ok(record) => {
                after = record;
                0
            }
            Err(number) => number,
        });
    }
    (after, numbers)
}

/// What every call with a record tests first: check's refusals, then 9, then 10 for the record's own
/// position. Answers the tape's program and that position.
pub(crate) fn stand(tape: &[u32], record: Record) -> Result<(Program<'_>, usize), u32> {
    let program = accept(tape)?;
    let good = |&register: &u32| is_register(register, program.p);
    if !record.registers.iter().all(good) {
        return Err(refusal::REGISTER);
    }
    let at = position(&program, record.position)?;
    Ok((program, at))
}

/// A register with its inverse modulo p.
#[derive(Clone, Copy)]
struct Unit {
    value: u64,
    inverse: u64,
}

impl Unit {
    const ONE: Unit = Unit {
        value: 1,
        inverse: 1,
    };

    fn inverted(self) -> Unit {
        Unit {
            value: self.inverse,
            inverse: self.value,
        }
    }

    fn times(self, factor: Unit, modulus: Modulus) -> Unit {
        Unit {
            value: modulus.product(self.value, factor.value),
            inverse: modulus.product(self.inverse, factor.inverse),
        }
    }
}

/// Inverts the product of the four and takes the single inverses from it.
fn with_inverses(registers: [u32; 4], modulus: Modulus) -> [Unit; 4] {
    let mut before = [1u64; 5];
    for (i, &register) in registers.iter().enumerate() {
        before[i + 1] = modulus.product(before[i], register as u64);
    }
    let mut rest = modulus
        .inverse(before[4])
        .expect("p is prime and each register below it");
    let mut units = registers.map(|register| Unit {
        value: register as u64,
        inverse: 1,
    });
    for (i, unit) in units.iter_mut().enumerate().rev() {
        unit.inverse = modulus.product(rest, before[i]);
        rest = modulus.product(rest, unit.value);
    }
    units
}

/// Does one step of the given kind on the step's registers.
fn act(units: &mut [Unit; 4], modulus: Modulus, kind: u32, step: u32) {
    let (target, source) = (tape::target(step), tape::source(step));
    let by = units[source];
    let factor = match kind {
        tape::MUL => by,
        tape::DIV => by.inverted(),
        _ => return units.swap(target, source),
    };
    units[target] = units[target].times(factor, modulus);
}

/// One step of the given kind on registers without their inverses: only a division inverts.
fn acted(registers: [u32; 4], modulus: Modulus, kind: u32, step: u32) -> [u32; 4] {
    let (target, source) = (tape::target(step), tape::source(step));
    let mut after = registers;
    if kind == tape::SWP {
        after.swap(target, source);
        return after;
    }
    let by = registers[source] as u64;
    let factor = match kind {
        tape::MUL => by,
        _ => modulus
            .inverse(by)
            .expect("p is prime and each register below it"),
    };
    after[target] = modulus.product(registers[target] as u64, factor) as u32;
    after
}

/// A base of a named program: its refusals 9, 11. Where a^r is 1, a^(r − 1) is the inverse, so one power
/// tells the inverse and that a^r is 1.
fn base_with_inverse(
    base: u32,
    program: &Program,
    modulus: Modulus,
    order: &Order,
) -> Result<Unit, u32> {
    if !is_register(base, program.p) {
        return Err(refusal::REGISTER);
    }
    let value = base as u64;
    let inverse = modulus.power(value, program.r as u64 - 1);
    if modulus.product(value, inverse) != 1 || !order.is_least_for(value, modulus) {
        return Err(refusal::BASE);
    }
    Ok(Unit { value, inverse })
}

/// Does one step for every base: each register is a row, with the bases side by side.
fn act_on_rows(rows: &mut [Vec<Unit>; 4], modulus: Modulus, step: u32) {
    let (target, source) = (tape::target(step), tape::source(step));
    let kind = tape::kind(step);
    if kind == tape::SWP {
        return rows.swap(target, source);
    }
    let [olds, factors] = rows
        .get_disjoint_mut([target, source])
        .expect("a step has two registers");
    for (old, &mut by) in olds.iter_mut().zip(factors) {
        let factor = if kind == tape::MUL { by } else { by.inverted() };
        *old = old.times(factor, modulus);
    }
}

/// Does one step for the exponents of all start values; none where an exponent leaves the limits, which
/// only those of the step's target can.
fn act_on_exponents(rows: &mut [[i64; 4]; 4], step: u32) -> Option<()> {
    let (target, source) = (tape::target(step), tape::source(step));
    let kind = tape::kind(step);
    if kind == tape::SWP {
        rows.swap(target, source);
        return Some(());
    }
    let by = rows[source];
    for (exponent, by) in rows[target].iter_mut().zip(by) {
        let change = if kind == tape::MUL { by } else { -by };
        let sum = exponent.checked_add(change);
        *exponent = sum.filter(|sum| sum.unsigned_abs() <= EXPONENT_LIMIT)?;
    }
    Some(())
}

/// Undone, mul is div, div is mul, swp is swp.
fn undone(kind: u32) -> u32 {
    match kind {
        tape::MUL => tape::DIV,
        tape::DIV => tape::MUL,
        _ => kind,
    }
}

fn is_register(value: u32, p: u32) -> bool {
    value != 0 && value < p
}

fn position(program: &Program, position: u32) -> Result<usize, u32> {
    let position = position as usize;
    if position > program.steps.len() {
        Err(refusal::POSITION)
    } else {
        Ok(position)
    }
}
