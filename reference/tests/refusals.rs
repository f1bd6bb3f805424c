//! Each refusal of documents 01 and 02, the order in which they apply, and what a refused call leaves.

mod common;

use common::*;
use reference::*;

#[test]
fn indices_and_lists() {
    assert_eq!(fibonacci(94), Err(13));
    assert_eq!(fibonacci(u32::MAX), Err(13));
    let wrong: [&[u8]; 9] = [
        &[0],
        &[93],
        &[255],
        &[2, 1],
        &[1, 3],
        &[5, 5],
        &[3, 1, 0],
        &[92, 91],
        &[4, 2, 255],
    ];
    for list in wrong {
        assert_eq!(number(list), Err(13), "{list:?}");
    }
    assert_eq!(number(&[92, 90, 88]), Err(12));
    // 13 comes before 12, wherever it stands in the list.
    assert_eq!(number(&[92, 90, 88, 0]), Err(13));
    assert_eq!(number(&places(u64::MAX, 46).unwrap()), Ok(u64::MAX));
    // The form of 2^64, the least number that doesn't fit.
    let mut rest = 1u128 << 64;
    let mut list = vec![];
    for place in (1..=92).rev() {
        let weight = fibonacci(place + 1).unwrap() as u128;
        if weight <= rest {
            rest -= weight;
            list.push(place as u8);
        }
    }
    assert_eq!(rest, 0);
    assert_eq!(number(&list), Err(12));
}

#[test]
fn rooms() {
    assert_eq!(places(106, 3), Err(5));
    assert_eq!(places(106, 4), Ok(vec![10, 6, 3, 1]));
    assert_eq!(places(1, 0), Err(5));
    assert_eq!(
        places(u64::MAX, usize::MAX).map(|list| list.len()),
        places(u64::MAX, 46).map(|l| l.len())
    );
    let mut list = [9; 6];
    assert_eq!(write_places(106, &mut list), Ok(4));
    assert_eq!(list, [10, 6, 3, 1, 9, 9]);
    let mut list = [9; 3];
    assert_eq!(write_places(106, &mut list), Err(5));
    assert_eq!(list, [9; 3]);
}

#[test]
fn inverses() {
    assert_eq!(inverse(1, 0), Err(2));
    assert_eq!(inverse(0, 1), Err(2));
    assert_eq!(inverse(0, 2), Err(3));
    assert_eq!(inverse(2, 2), Err(3));
    assert_eq!(inverse(1, 2), Ok(1));
    assert_eq!(inverse(6, 9), Err(3));
    assert_eq!(inverse(6, 8), Err(3));
    assert_eq!(inverse(3, 6), Err(3));
    assert_eq!(inverse(9, 12), Err(3));
    assert_eq!(inverse(u32::MAX - 1, u32::MAX), Ok(u32::MAX - 1));
    assert_eq!(inverse(u32::MAX - 2, u32::MAX - 1), Ok(u32::MAX - 2));
}

/// Build's refusals apply in the order 1, 2, 3, 4, 5: each line mends what the line before refused.
#[test]
fn build_order() {
    let cases = [
        (9, 0, 0, 0, 1),
        (7, 0, 0, 0, 2),
        (7, 1, 0, 0, 2),
        (7, 4, 0, 0, 2),
        (7, 6, 0, 0, 3),
    ];
    let more = [
        (7, 6, 6, 0, 3),
        (7, 6, 3, 0, 3),
        (7, 6, 5, 0, 4),
        (7, 6, 5, 4, 4),
        (7, 6, 5, 1, 5),
    ];
    for (p, r, k, variant, refusal) in cases.into_iter().chain(more) {
        let mut row = [3; 5];
        assert_eq!(
            build(p, r, k, variant, &mut row),
            Err(refusal),
            "{p} {r} {k} {variant}"
        );
        assert_eq!(row, [3; 5]);
    }
    let mut row = [3; 512];
    for p in [
        0,
        1,
        2,
        4,
        15,
        268435455,
        268435456,
        268435459,
        4294967291,
        u32::MAX,
    ] {
        assert_eq!(build(p, 2, 1, 1, &mut row), Err(1), "{p}");
    }
    assert_eq!(build(7, 3, 2, u32::MAX, &mut row), Err(4));
    // The largest prime below 2^28, the largest r, a buffer one word short.
    let p = (3..1 << 28).rev().find(|&p| common::is_prime(p)).unwrap();
    for variant in 1..=3 {
        let count = build(p, p - 1, p - 2, variant, &mut row).unwrap();
        let mut short = vec![5; count - 1];
        assert_eq!(build(p, p - 1, p - 2, variant, &mut short), Err(5));
        assert_eq!(short, vec![5; count - 1]);
        assert_eq!(check(&row[..count]), Ok(()));
    }
}

#[test]
fn lengths() {
    for words in [0, 1, 4, 513, 600] {
        assert_eq!(check(&vec![0; words]), Err(6));
    }
    let full = free(7, &vec![step_word(MUL, 0, 1); 507]);
    assert_eq!((full.len(), check(&full)), (512, Ok(())));
    assert_eq!(check(&free(7, &vec![step_word(MUL, 0, 1); 508])), Err(6));
    assert_eq!(check(&[0; 5]), Err(7));
}

/// A tape with one word replaced.
fn with(tape: &[u32], place: usize, word: u32) -> Vec<u32> {
    let mut tape = tape.to_vec();
    tape[place] = word;
    tape
}

#[test]
fn words() {
    let tape = free(
        7,
        &[
            step_word(MUL, 0, 1),
            step_word(SWP, 2, 3),
            step_word(DIV, 3, 0),
        ],
    );
    assert_eq!(check(&tape), Ok(()));
    let headings = [
        0x10000000, 0x10000002, 0x10001001, 0x18000001, 0x00000001, 0x20000001,
    ];
    let wrong_heads = headings.map(|word| (0, word)).into_iter().chain([
        (1, 0x30000007),
        (2, 0x20000000),
        (3, 0x30000000),
        (2, 0x30000002),
        (3, 0x40000001),
    ]);
    for (place, word) in wrong_heads {
        assert_eq!(check(&with(&tape, place, word)), Err(7), "{place} {word:x}");
    }
    for kind in [0, 1, 2, 3, 4, 8, 9, 10, 11, 12, 13, 14, 15] {
        assert_eq!(
            check(&with(&tape, 5, step_word(kind, 0, 1))),
            Err(7),
            "kind {kind}"
        );
    }
    for (kind, registers) in [MUL, DIV, SWP]
        .into_iter()
        .flat_map(|kind| (0..16).map(move |t| (kind, t)))
    {
        let (target, source) = (registers & 3, registers >> 2);
        let sound = if kind == SWP {
            target < source
        } else {
            target != source
        };
        let expected = if sound { Ok(()) } else { Err(7) };
        assert_eq!(
            check(&with(&tape, 5, step_word(kind, target, source))),
            expected
        );
    }
    for bit in 4..28 {
        assert_eq!(check(&with(&tape, 4, tape[4] | 1 << bit)), Err(7));
    }
    for end in [0xF0000002, 0xF0000004, 0xF8000003, 0x50000001, 0xE0000003] {
        assert_eq!(check(&with(&tape, 7, end)), Err(7), "{end:x}");
    }
    assert_eq!(check(&with(&tape, 5, 0xF0000003)), Err(7));
}

/// A tape of no steps.
fn stepless(variant: u32, p: u32, r: u32, k: u32) -> Vec<u32> {
    let heads = [
        variant << 8 | 0x10000001,
        0x20000000 | p,
        0x30000000 | r,
        0x40000000 | k,
    ];
    [&heads[..], &[0xF0000000]].concat()
}

/// Check's refusals apply in the order 6, 7, 4, 1, 2, 3, 8.
#[test]
fn check_order() {
    for variant in 4..16 {
        assert_eq!(check(&stepless(variant, 9, 0, 0)), Err(4));
        assert_eq!(check(&stepless(variant, 9, 5, 5)), Err(4));
    }
    assert_eq!(check(&with(&stepless(4, 9, 0, 0), 4, 0xF0000001)), Err(7));
    for variant in 1..4 {
        assert_eq!(check(&stepless(variant, 9, 0, 0)), Err(1));
        assert_eq!(check(&stepless(variant, 2, 0, 0)), Err(1));
        assert_eq!(check(&stepless(variant, 7, 0, 0)), Err(2));
        assert_eq!(check(&stepless(variant, 7, 1, 0)), Err(2));
        assert_eq!(check(&stepless(variant, 7, 4, 0)), Err(2));
        assert_eq!(check(&stepless(variant, 7, 6, 0)), Err(3));
        assert_eq!(check(&stepless(variant, 7, 6, 4)), Err(3));
        assert_eq!(check(&stepless(variant, 7, 6, 5)), Err(8));
    }
    assert_eq!(check(&stepless(0, 9, 0, 0)), Err(1));
    assert_eq!(check(&stepless(0, 9, 2, 0)), Err(7));
    assert_eq!(check(&stepless(0, 7, 0, 1)), Err(7));
    assert_eq!(check(&stepless(0, 7, 0, 0)), Ok(()));
}

/// One flipped bit in a step, or another k or variant, makes a named tape a stranger or breaks a word.
#[test]
fn strangers() {
    for variant in 1..=3 {
        let tape = built(359, 179, 76, variant);
        for place in 4..tape.len() - 1 {
            for bit in 0..32 {
                let refusal = check(&with(&tape, place, tape[place] ^ 1 << bit)).unwrap_err();
                assert!(refusal == 7 || refusal == 8);
            }
        }
        assert_eq!(check(&with(&tape, 3, 0x40000000 | 77)), Err(8));
        let other = 0x10000001 | (variant % 3 + 1) << 8;
        assert_eq!(check(&with(&tape, 0, other)), Err(8));
        // A swap of the same two steps in another order is a stranger too.
        let mut swapped = tape.clone();
        swapped.swap(4, 5);
        assert_eq!(check(&swapped), Err(8));
    }
    // Padding basic's forms to h gives a stranger: case A with one chain step more each way.
    let up = [step_word(MUL, 0, 1), step_word(SWP, 0, 1)];
    let down = [step_word(SWP, 0, 1), step_word(DIV, 0, 1)];
    let [first, second] = [step_word(MUL, 2, 1), step_word(DIV, 2, 1)];
    let steps = [
        &up[..],
        &[first],
        &up,
        &down,
        &down,
        &[step_word(SWP, 1, 2)],
        &up,
        &up,
        &down,
        &[second],
        &down,
    ];
    let steps = steps.concat();
    let head = &CASE_A[..4];
    let padded = [head, &steps, &[0xF0000000 | steps.len() as u32]].concat();
    assert_eq!(check(&padded), Err(8));
}

#[test]
fn registers_and_bases() {
    let tape = built(7, 3, 2, 1);
    for base in [0, 7, 8, u32::MAX] {
        assert_eq!(load(&tape, base), Err(9));
        for place in 0..4 {
            let mut registers = [1; 4];
            registers[place] = base;
            assert_eq!(run(&tape, Record::at(0, registers), 19), Err(9));
            assert_eq!(preview(&tape, Record::at(0, registers), 19), Err(9));
            assert_eq!(preview(&tape, Record::at(19, registers), 0), Err(9));
            assert_eq!(preview(&tape, Record::at(7, registers), 7), Err(9));
            assert_eq!(step(&tape, Record::at(0, registers), false), Err(9));
            assert_eq!(step(&tape, Record::at(19, registers), true), Err(9));
            // 9 comes before 10.
            assert_eq!(preview(&tape, Record::at(0, registers), 20), Err(9));
            assert_eq!(preview(&tape, Record::at(20, registers), 0), Err(9));
            assert_eq!(preview(&tape, Record::at(20, registers), 20), Err(9));
            assert_eq!(run(&tape, Record::at(0, registers), 20), Err(9));
            assert_eq!(run(&tape, Record::at(20, registers), 0), Err(9));
            assert_eq!(step(&tape, Record::at(20, registers), true), Err(9));
            assert_eq!(step(&tape, Record::at(19, registers), false), Err(9));
            assert_eq!(step(&tape, Record::at(0, registers), true), Err(9));
        }
    }
    assert_eq!(load(&tape[..4], 3), Err(6));
    assert_eq!(load(&with(&tape, 4, 0), 0), Err(7));
}

/// Modulo 7 the bases from 1 to 6 have the orders 1, 3, 6, 3, 6, 2. A named program takes those of its r, where
/// the power r of others may be 1 too; a program by hand takes all.
#[test]
fn orders_of_bases() {
    for (base, order) in (1..).zip([1, 3, 6, 3, 6, 2]) {
        let loaded = Ok(Record::at(0, [1, base, 1, 1]));
        for (r, k) in [(2, 1), (3, 2), (6, 5)] {
            for variant in 1..=3 {
                let expected = if order == r { loaded } else { Err(11) };
                assert_eq!(load(&built(7, r, k, variant), base), expected);
            }
        }
        assert_eq!(load(&free(7, &[]), base), loaded);
    }
}

/// Refuses a row of bases, and leaves it.
fn refuses_row(tape: &[u32], bases: &[u32], refusal: u32) {
    let mut row = bases.to_vec();
    assert_eq!(raise(tape, &mut row), Err(refusal), "{bases:?}");
    assert_eq!(row, bases);
}

/// Raise's refusals apply in the order of check's 6, 7, 4, 1, 2, 3, 8, then 4, 14, and those of the bases.
#[test]
fn raise_order() {
    let named = built(7, 3, 2, 1);
    let tapes = [
        (named[..4].to_vec(), 6),
        (vec![0; 513], 6),
        (with(&named, 4, 0), 7),
        (stepless(4, 9, 0, 0), 4),
        (stepless(15, 7, 3, 2), 4),
        (stepless(0, 9, 0, 0), 1),
        (stepless(1, 9, 0, 0), 1),
        (stepless(2, 7, 4, 0), 2),
        (stepless(3, 7, 6, 4), 3),
        (stepless(1, 7, 3, 2), 8),
        (with(&named, 4, step_word(DIV, 0, 1)), 8),
        (free(7, &[]), 4),
        (free(7, &[step_word(MUL, 0, 1)]), 4),
        (named.clone(), 14),
    ];
    // 0 is out of range, 1 and 3 have orders 1 and 6 modulo 7; 65 of them are too many, too.
    for (tape, refusal) in &tapes {
        for base in [0, 1, 3, 7, u32::MAX] {
            refuses_row(tape, &[base; 65], *refusal);
            refuses_row(tape, &[base; 1000], *refusal);
        }
        refuses_row(tape, &[2; 65], *refusal);
    }
    // A row of no bases, and one of good ones, is refused for the tape alone.
    for (tape, refusal) in &tapes[..tapes.len() - 1] {
        refuses_row(tape, &[], *refusal);
        refuses_row(tape, &[2, 4, 2], *refusal);
    }
}

/// The first base that is refused alone gives the row's refusal.
#[test]
fn rows_of_bases() {
    let tape = built(7, 3, 2, 1);
    for base in [0, 7, 8, u32::MAX] {
        refuses_row(&tape, &[base], 9);
        // The power 3 of 3 isn't 1; that of 1 is, and so is a smaller one.
        for other in [3, 1] {
            refuses_row(&tape, &[base, other], 9);
            refuses_row(&tape, &[other, base], 11);
            refuses_row(&tape, &[4, 2, other, 4, base, 2], 11);
            refuses_row(&tape, &[4, 2, base, 4, other, 2], 9);
        }
    }
    for base in [1, 3, 5, 6] {
        refuses_row(&tape, &[base], 11);
    }
    for place in 0..64 {
        for (base, refusal) in [(0, 9), (7, 9), (u32::MAX, 9), (6, 11), (1, 11)] {
            let mut row = [2; 64];
            row[place] = base;
            refuses_row(&tape, &row, refusal);
        }
    }
    // A good row is raised, of no bases and of the most.
    assert_eq!(raise(&tape, &mut []), Ok(()));
    for count in [1, 2, 63, 64] {
        let mut row = vec![2; count];
        assert_eq!(raise(&tape, &mut row), Ok(()));
        assert_eq!(row, vec![4; count]);
    }
    // Where r is p − 1 the power r of every base is 1, and of some a smaller one is too.
    let tape = built(7, 6, 5, 2);
    let mut row = [3, 5];
    assert_eq!(raise(&tape, &mut row), Ok(()));
    assert_eq!(row, [5, 3]);
    for base in [1, 2, 4, 6] {
        refuses_row(&tape, &[3, base, 5], 11);
    }
}

#[test]
fn positions() {
    let tape = built(7, 3, 2, 1);
    let ones = |position| Record::at(position, [1; 4]);
    for past in [20, 21, 512, u32::MAX - 1, u32::MAX] {
        assert_eq!(run(&tape, ones(past), 0), Err(10));
        assert_eq!(run(&tape, ones(0), past), Err(10));
        assert_eq!(run(&tape, ones(past), past), Err(10));
        assert_eq!(preview(&tape, ones(past), 0), Err(10));
        assert_eq!(preview(&tape, ones(past), 19), Err(10));
        assert_eq!(preview(&tape, ones(0), past), Err(10));
        assert_eq!(preview(&tape, ones(19), past), Err(10));
        assert_eq!(preview(&tape, ones(past), past), Err(10));
        assert_eq!(step(&tape, ones(past), false), Err(10));
        assert_eq!(step(&tape, ones(past), true), Err(10));
    }
    assert_eq!(run(&tape, ones(19), 19), Ok(ones(19)));
    assert_eq!(run(&tape, ones(0), 0), Ok(ones(0)));
    for here in [0, 19] {
        let expected = Preview {
            registers: [1; 4],
            counts: [0; 3],
        };
        assert_eq!(preview(&tape, ones(here), here), Ok(expected));
    }
    // Past either end, and away from it.
    assert_eq!(step(&tape, ones(0), true), Err(10));
    assert_eq!(step(&tape, ones(0), false), Ok(ones(1)));
    assert_eq!(step(&tape, ones(19), false), Err(10));
    assert_eq!(step(&tape, ones(19), true), Ok(ones(18)));
    // A tape of no steps has none either way.
    for backward in [false, true] {
        assert_eq!(step(&free(7, &[]), ones(0), backward), Err(10));
    }
    assert_eq!(preview(&free(7, &[]), ones(0), 1), Err(10));
    assert_eq!(preview(&free(7, &[]), ones(1), 0), Err(10));
    assert_eq!(trace(&tape, 20), Err(10));
    assert!(trace(&tape, 19).is_ok());
    assert_eq!(table(&tape, 20), Err(10));
    assert_eq!(table(&tape, u32::MAX), Err(10));
    assert!(table(&tape, 19).is_ok());
    assert_eq!(cut(&tape, 0, 20), Err(10));
    assert_eq!(cut(&tape, 20, 20), Err(10));
    assert_eq!(cut(&tape, 3, 2), Err(10));
    assert_eq!(cut(&tape, 0, 19), Ok(&tape[4..23]));
    assert_eq!(cut(&tape, 5, 7), Ok(&tape[9..11]));
    assert_eq!(cut(&tape, 19, 19), Ok(&[][..]));
    assert_eq!(cut(&tape[..4], 0, 0), Err(6));
    assert_eq!(trace(&with(&tape, 4, 0), 99), Err(7));
}

/// Each of check's refusals comes before those of the record: 9 for its registers, then 10 for its
/// position, the goal, or a step past an end.
#[test]
fn record_order() {
    let named = built(7, 3, 2, 1);
    let broken = [
        (named[..4].to_vec(), 6),
        (vec![0; 513], 6),
        (with(&named, 4, 0), 7),
        (stepless(4, 9, 0, 0), 4),
        (stepless(0, 9, 0, 0), 1),
        (stepless(1, 9, 0, 0), 1),
        (stepless(2, 7, 4, 0), 2),
        (stepless(3, 7, 6, 4), 3),
        (stepless(1, 7, 3, 2), 8),
        (with(&named, 4, step_word(DIV, 0, 1)), 8),
    ];
    for (tape, refusal) in &broken {
        for (registers, position) in [([1; 4], 0), ([0; 4], 0), ([1; 4], 99), ([0; 4], u32::MAX)] {
            let record = Record::at(position, registers);
            assert_eq!(load(tape, registers[1]), Err(*refusal));
            for to in [0, position, 1, u32::MAX] {
                assert_eq!(run(tape, record, to), Err(*refusal));
                assert_eq!(preview(tape, record, to), Err(*refusal));
            }
            for backward in [false, true] {
                assert_eq!(step(tape, record, backward), Err(*refusal));
            }
        }
    }
}

/// Steps that bring registers 0 and 1 from exponents (0, 1) to (high, low): Euclid's subtractions
/// taken back. The two share no factor.
fn climb(high: i64, low: i64) -> Vec<u32> {
    let (mut a, mut b) = (high, low);
    let mut steps = vec![];
    while a != 0 && b != 0 {
        if a >= b {
            a -= b;
            steps.push(step_word(MUL, 0, 1));
        } else {
            b -= a;
            steps.push(step_word(MUL, 1, 0));
        }
    }
    if b == 0 {
        steps.push(step_word(SWP, 0, 1));
    }
    assert_eq!(a + b, 1);
    steps.reverse();
    steps
}

/// A partner near high / φ for which the climb is short.
fn short_climb(high: i64) -> Vec<u32> {
    let near = reference::hofstadter(high as u64 - 1) as i64;
    let coprime = |low: &i64| {
        let (mut a, mut b) = (high, *low);
        while b != 0 {
            (a, b) = (b, a % b);
        }
        a == 1
    };
    let climbs = (0..200)
        .map(|i| near - i)
        .filter(coprime)
        .map(|low| climb(high, low));
    climbs.min_by_key(|steps| steps.len()).unwrap()
}

#[test]
fn range() {
    let limit = 1i64 << 62;
    let steps = short_climb(limit);
    let at = steps.len() as u32;
    assert!(at < 400);
    // 2^62 and −2^62 are within.
    let tape = free(
        7,
        &[&steps[..], &[step_word(DIV, 2, 0), step_word(MUL, 3, 0)]].concat(),
    );
    let ended = trace(&tape, at + 2).unwrap();
    assert_eq!((ended[0], ended[2], ended[3]), (limit, -limit, limit));
    // Twice that, either way, is outside, and stays refused after the return.
    for (target, there, back) in [(2, DIV, MUL), (3, MUL, DIV)] {
        let more = [
            step_word(there, target, 0),
            step_word(there, target, 0),
            step_word(back, target, 0),
        ];
        let tape = free(7, &[&steps[..], &more].concat());
        assert!(trace(&tape, at + 1).is_ok());
        assert_eq!(trace(&tape, at + 2), Err(12));
        assert_eq!(trace(&tape, at + 3), Err(12));
        assert_eq!(trace(&tape, at + 4), Err(10));
    }
    // 2^62 + 1 is outside.
    let steps = short_climb(limit + 1);
    let tape = free(7, &steps);
    assert_eq!(trace(&tape, steps.len() as u32), Err(12));
    assert!(trace(&tape, steps.len() as u32 - 1).is_ok());
    // The same below zero: register 3 reaches −2^62, then one less by a register that holds 1.
    let steps = short_climb(limit);
    let down = [step_word(DIV, 3, 0)];
    let one = [step_word(MUL, 2, 1)];
    let tape = free(
        7,
        &[&one[..], &steps, &down, &[step_word(DIV, 3, 2)]].concat(),
    );
    let at = steps.len() as u32 + 2;
    assert_eq!(
        trace(&tape, at).map(|ended| (ended[2], ended[3])),
        Ok((1, -limit))
    );
    assert_eq!(trace(&tape, at + 1), Err(12));
}

/// Table's refusals apply in the order of check's 6, 7, 4, 1, 2, 3, 8, then 10, 12.
#[test]
fn table_order() {
    let named = built(7, 3, 2, 1);
    let growing: Vec<u32> = (0..200)
        .map(|i| step_word(MUL, 2 + i % 2, 3 - i % 2))
        .collect();
    let tape = free(7, &growing);
    let broken = [
        (named[..4].to_vec(), 6),
        (free(7, &[step_word(MUL, 2, 3); 508]), 6),
        (with(&named, 4, 0), 7),
        (with(&tape, 4, 0), 7),
        (stepless(4, 9, 0, 0), 4),
        (with(&tape, 0, 0x10000401), 4),
        (with(&tape, 1, 0x20000009), 1),
        (stepless(1, 9, 0, 0), 1),
        (stepless(2, 7, 4, 0), 2),
        (stepless(3, 7, 6, 4), 3),
        (stepless(1, 7, 3, 2), 8),
        (with(&named, 4, step_word(DIV, 0, 1)), 8),
    ];
    for (tape, refusal) in &broken {
        // Each comes before 10, and before 12, of the long ones at position 200.
        for position in [0, 1, 19, 20, 200, 201, 512, u32::MAX] {
            assert_eq!(table(tape, position), Err(*refusal), "{position}");
        }
    }
    // 10 comes before 12, and no position within is refused but for the range.
    assert_eq!(table(&tape, 201), Err(10));
    assert_eq!(table(&tape, u32::MAX), Err(10));
    for position in 0..=200 {
        let expected = if position < 90 { None } else { Some(12) };
        assert_eq!(table(&tape, position).err(), expected, "{position}");
        // The start value 1 stays in its register.
        assert_eq!(trace(&tape, position), Ok([0, 1, 0, 0]));
    }
}

/// The steps of a climb on registers 0 and 1, done on two others.
fn on_registers(steps: &[u32], target: u32, source: u32) -> Vec<u32> {
    let registers = [target, source];
    let moved = |&word: &u32| {
        let [first, second] = [word & 3, word >> 2 & 3].map(|at| registers[at as usize]);
        match word >> 28 {
            SWP => step_word(SWP, first.min(second), first.max(second)),
            kind => step_word(kind, first, second),
        }
    };
    steps.iter().map(moved).collect()
}

/// The ends of the range for each register and each start value that isn't its own.
#[test]
fn table_range() {
    for target in 0..4 {
        for source in (0..4).filter(|&source| source != target) {
            reaches_the_ends(target, source);
        }
    }
}

/// The exponent of the source's start value climbs to 2^62 in the target. A third register then holds
/// −2^62, and a fourth one 1 from the beginning on, which takes either past its end.
fn reaches_the_ends(target: u32, source: u32) {
    let limit = 1i64 << 62;
    let others: Vec<u32> = (0..4).filter(|x| ![target, source].contains(x)).collect();
    let [low, one] = [others[0], others[1]];
    let climb = on_registers(&short_climb(limit), target, source);
    let (first, last) = (step_word(MUL, one, source), step_word(DIV, low, target));
    let begin = [&[first][..], &climb, &[last]].concat();
    let at = begin.len() as u32;
    for (there, back, register) in [(MUL, DIV, target), (DIV, MUL, low)] {
        let more = [
            step_word(there, register, one),
            step_word(back, register, one),
        ];
        let tape = free(7, &[&begin[..], &more].concat());
        let rows = table(&tape, at).unwrap();
        assert_eq!(rows[target as usize][source as usize], limit);
        assert_eq!(rows[low as usize][source as usize], -limit);
        assert_eq!(rows[one as usize][source as usize], 1);
        assert_eq!(table(&tape, at + 1), Err(12));
        assert_eq!(table(&tape, at + 2), Err(12));
        assert_eq!(table(&tape, at + 3), Err(10));
        // A trace tells of start value 1 alone.
        let traced = if source == 1 { Some(12) } else { None };
        assert_eq!(trace(&tape, at + 1).err(), traced);
        assert_eq!(trace(&tape, at + 2).err(), traced);
    }
    // 2^63 and −2^63 are outside.
    for past in [step_word(DIV, target, low), step_word(DIV, low, target)] {
        let tape = free(7, &[&begin[..], &[past]].concat());
        assert_eq!(table(&tape, at + 1), Err(12));
    }
}

#[test]
fn listings() {
    assert_eq!(listing(&[]), b"refused 6\n");
    assert_eq!(listing(&bytes(&CASE_A)[..63]), b"refused 6\n");
    assert_eq!(listing(&[0; 2052]), b"refused 6\n");
    assert_eq!(listing(&[0; 2049]), b"refused 6\n");
    assert_eq!(listing(&[0; 2048]), b"refused 7\n");
    assert_eq!(
        listing(&bytes(&with(&CASE_A, 1, 0x20000009))),
        b"refused 1\n"
    );
    assert_eq!(
        listing(&bytes(&with(&CASE_A, 4, step_word(MUL, 0, 2)))),
        b"refused 8\n"
    );
    let full = listing(&bytes(&free(268435399, &vec![step_word(DIV, 3, 2); 507])));
    let lines: Vec<&str> = std::str::from_utf8(&full).unwrap().split('\n').collect();
    assert_eq!(lines.len(), 509);
    assert_eq!(lines[0], "free p=268435399 r=0 k=0 steps=507");
    assert_eq!(
        (lines[1], lines[507], lines[508]),
        ("1 div 3 2", "507 div 3 2", "")
    );
    for (variant, name) in [(1, "basic"), (2, "dual"), (3, "hybrid")] {
        let tape = built(359, 179, 76, variant);
        let first = format!("{name} p=359 r=179 k=76 steps={}\n", tape.len() - 5);
        assert!(listing(&bytes(&tape)).starts_with(first.as_bytes()));
    }
}
