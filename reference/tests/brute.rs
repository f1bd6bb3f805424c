//! Cross-checks by brute force: definitions followed literally, on small numbers and on some large.

mod common;

use common::*;
use reference::*;

#[test]
fn hofstadter_by_its_recursion() {
    let mut g = vec![0usize, 1];
    for n in 2..20_000 {
        g.push(n - g[g[n - 1]]);
    }
    for (n, &value) in g.iter().enumerate() {
        assert_eq!(hofstadter(n as u64), value as u64);
    }
}

/// Some numbers of every size, and those beside Fibonacci numbers and powers of two.
fn samples() -> Vec<u64> {
    let mut noise = Noise(1);
    let mut list: Vec<u64> = (0..64)
        .flat_map(|s| (0..20).map(|_| noise.next() >> s).collect::<Vec<_>>())
        .collect();
    list.extend((0..=93).flat_map(|i| {
        let f = fibonacci(i).unwrap();
        [f.wrapping_sub(2), f.wrapping_sub(1), f, f + 1, f + 2]
    }));
    list.extend((0..64).flat_map(|s| [(1u64 << s) - 1, 1 << s, (1 << s) + 1]));
    list.extend([u64::MAX, u64::MAX - 1, u64::MAX - 2]);
    list
}

/// Lemma 3: each place moved down by one, plus 1 if place 1 was set; a place moved from 1 drops out.
#[test]
fn hofstadter_by_lemma_3() {
    for n in samples() {
        let list = places(n, 46).unwrap();
        let moved: u64 = list
            .iter()
            .map(|&place| {
                if place == 1 {
                    1
                } else {
                    fibonacci(place as u32).unwrap()
                }
            })
            .sum();
        assert_eq!(hofstadter(n), moved, "{n}");
    }
}

/// Equation (1) by an exact square root, where 5 (n + 1)² fits 128 bits.
#[test]
fn hofstadter_by_a_square_root() {
    for n in samples().into_iter().filter(|n| n >> 62 == 0) {
        let m = n as u128 + 1;
        assert_eq!(hofstadter(n) as u128, ((5 * m * m).isqrt() - m) / 2, "{n}");
    }
}

/// The form from the lowest place up, as in the paper's Appendix C: where place 1 is clear,
/// n = G(n) + G(G(n)), otherwise one less; G, or G less 1, moves the form down.
fn places_from_below(n: u64) -> Vec<u8> {
    let mut list = vec![];
    let (mut rest, mut place) = (n, 1);
    while rest > 0 {
        let down = hofstadter(rest);
        let set = down as u128 + hofstadter(down) as u128 != rest as u128;
        if set {
            list.push(place);
        }
        rest = down - set as u64;
        place += 1;
    }
    list.reverse();
    list
}

#[test]
fn forms() {
    for n in (0..5000).chain(samples()) {
        let list = places(n, 46).unwrap();
        assert!(list.iter().all(|&place| (1..=92).contains(&place)));
        assert!(list.windows(2).all(|pair| pair[0] >= pair[1] + 2));
        assert_eq!(number(&list), Ok(n));
        assert_eq!(list, places_from_below(n), "{n}");
        if !list.is_empty() {
            assert_eq!(places(n, list.len() - 1), Err(5));
        }
        assert_eq!(places(n, list.len()), Ok(list));
    }
}

/// Every list of the places 1 to 14 in falling order: a form exactly where no two are neighbours.
#[test]
fn lists() {
    for bits in 0u32..1 << 14 {
        let list: Vec<u8> = (1..=14)
            .rev()
            .filter(|i| bits >> (i - 1) & 1 == 1)
            .collect();
        let sum = list
            .iter()
            .map(|&place| fibonacci(place as u32 + 1).unwrap())
            .sum();
        let expected = if bits & bits >> 1 == 0 {
            Ok(sum)
        } else {
            Err(13)
        };
        assert_eq!(number(&list), expected);
    }
}

#[test]
fn heights() {
    let phi = (1.0 + 5f64.sqrt()) / 2.0;
    let mut h = 1;
    for r in 0..200_000u32 {
        while r as f64 >= phi.powi(h) {
            h += 1;
        }
        assert_eq!(height(r), h as u32, "{r}");
    }
    // In whole numbers, at and beside every Lucas number.
    let mut lucas = vec![2u64, 1];
    while lucas.len() <= 48 {
        lucas.push(lucas[lucas.len() - 1] + lucas[lucas.len() - 2]);
    }
    let least = |r: u64| {
        (1..)
            .find(|&h| r <= lucas[h] - (h % 2 == 0) as u64)
            .unwrap() as u32
    };
    let beside = lucas
        .iter()
        .flat_map(|&l| [l - 1, l, l + 1])
        .chain([u32::MAX as u64]);
    for r in beside.filter(|&r| r <= u32::MAX as u64) {
        assert_eq!(height(r as u32), least(r), "{r}");
    }
}

#[test]
fn inverses() {
    for r in 2..250 {
        for k in 0..=r + 1 {
            let found = (1..r).find(|x| x * k % r == 1).filter(|_| k < r);
            assert_eq!(inverse(k, r), found.ok_or(3), "{k} modulo {r}");
        }
    }
    let mut noise = Noise(5);
    for _ in 0..20_000 {
        let r = (noise.next() as u32 >> noise.below(30)).max(2);
        let k = noise.below(r as u64) as u32;
        match inverse(k, r) {
            Ok(x) => assert!((1..r).contains(&x) && x as u64 * k as u64 % r as u64 == 1),
            Err(refusal) => assert!(refusal == 3 && (k == 0 || gcd(k, r) > 1)),
        }
    }
}

/// All that document 01 says of a named program, for one base.
fn named(p: u32, r: u32, k: u32, a: u32) {
    let h = height(r);
    let power = (0..k).fold(1u64, |x, _| x * a as u64 % p as u64) as u32;
    for (variant, bound) in [(1, 9 * h + 2), (2, 6 * h + 4), (3, 8 * h + 5)] {
        let tape = built(p, r, k, variant);
        let steps = tape.len() as u32 - 5;
        assert!(steps <= bound, "{p} {r} {k} {variant}");
        assert_eq!(check(&tape), Ok(()));
        let start = load(&tape, a).unwrap();
        let ended = run(&tape, start, steps).unwrap();
        let expected = Record::at(steps, [1, power, 1, 1]);
        assert_eq!(ended, expected, "{p} {r} {k} {variant}");
        assert_eq!(run(&tape, ended, 0), Ok(start));
        let exponents = trace(&tape, steps)
            .unwrap()
            .map(|exponent| exponent.rem_euclid(r as i64));
        assert_eq!(exponents, [0, k as i64, 0, 0]);
    }
}

/// The order of a base from 1 to p − 1: its powers one after another, up to the first that is 1.
fn order_of(a: u32, p: u32) -> u32 {
    let mut x = a;
    let mut exponent = 1;
    while x != 1 {
        x = (x as u64 * a as u64 % p as u64) as u32;
        exponent += 1;
    }
    exponent
}

/// A base of order r.
fn base_of(p: u32, r: u32) -> u32 {
    let mut powers = (2..p).map(|x| power(x, (p - 1) / r, p));
    powers.find(|&a| order_of(a, p) == r).unwrap()
}

/// Whether r is the order of a base, where its powers are too many to count: r alone of all divisors of r gives 1.
fn has_order(a: u32, r: u32, p: u32) -> bool {
    let gives_one = |&d: &u32| power(a, d, p) == 1;
    divisors(r).iter().all(|d| gives_one(d) == (*d == r))
}

#[test]
fn named_programs_of_every_exponent() {
    for r in 2..=200 {
        let p = prime_for(r);
        let a = base_of(p, r);
        (1..r)
            .filter(|&k| gcd(k, r) == 1)
            .for_each(|k| named(p, r, k, a));
    }
}

#[test]
fn named_programs_of_every_order() {
    let mut noise = Noise(9);
    for r in 201..=700 {
        let p = prime_for(r);
        let a = base_of(p, r);
        let some = noise.below(r as u64) as u32;
        let inner = (some..r).find(|&k| k > 0 && gcd(k, r) == 1).unwrap();
        for k in [1, inner, r - 1] {
            named(p, r, k, a);
        }
    }
}

/// The largest orders, both parities of h, and the r where h changes.
#[test]
fn named_programs_of_large_orders() {
    let mut noise = Noise(3);
    for shift in 1..=27 {
        let bound = (1u64 << 28) - 1 - noise.below(1 << shift);
        let p = (3..=bound as u32)
            .rev()
            .find(|&p| common::is_prime(p))
            .unwrap();
        let r = p - 1;
        let k = (noise.below(r as u64 - 1) as u32 + 1..r)
            .find(|&k| gcd(k, r) == 1)
            .unwrap();
        let h = height(r);
        let a = drawn_base(&mut noise, p, r);
        for (variant, most) in [(1, 9 * h + 2), (2, 6 * h + 4), (3, 8 * h + 5)] {
            let tape = built(p, r, k, variant);
            let steps = tape.len() as u32 - 5;
            assert!(steps <= most && tape.len() <= 512);
            let start = load(&tape, a).unwrap();
            let ended = run(&tape, start, steps).unwrap();
            assert_eq!(ended, Record::at(steps, [1, power(a, k, p), 1, 1]));
            assert_eq!(run(&tape, ended, 0), Ok(start));
            assert_eq!(
                trace(&tape, steps).unwrap().map(|e| e.rem_euclid(r as i64)),
                [0, k as i64, 0, 0]
            );
        }
    }
}

/// A drawn base of order r.
fn drawn_base(noise: &mut Noise, p: u32, r: u32) -> u32 {
    loop {
        let x = 1 + noise.below(p as u64 - 1) as u32;
        let a = power(x, (p - 1) / r, p);
        if has_order(a, r, p) {
            return a;
        }
    }
}

fn power(a: u32, k: impl Into<u64>, p: u32) -> u32 {
    let (p, mut square, mut rest, mut result) = (p as u64, a as u64, k.into(), 1);
    while rest > 0 {
        if rest % 2 == 1 {
            result = result * square % p;
        }
        square = square * square % p;
        rest /= 2;
    }
    result as u32
}

/// What load gives for a base from 1 to p − 1 that is allowed or isn't.
fn loaded(a: u32, is_allowed: bool) -> Result<Record, u32> {
    if is_allowed {
        Ok(Record::at(0, [1, a, 1, 1]))
    } else {
        Err(11)
    }
}

/// Small primes, and others for which p − 1 is a power of 2, or has a high power of a prime, or many primes:
/// named programs load the bases of order r alone, and a program by hand loads all.
#[test]
fn every_base_by_its_order() {
    let small = (3..=61).filter(|&p| common::is_prime(p));
    for p in small.chain([211, 241, 257, 359, 433, 487]) {
        let orders: Vec<u32> = (1..p).map(|a| order_of(a, p)).collect();
        for r in (2..p).filter(|r| (p - 1) % r == 0) {
            let tape = built(p, r, r - 1, 1 + r % 3);
            for (a, &order) in (1..p).zip(&orders) {
                assert_eq!(load(&tape, a), loaded(a, order == r), "{a} for {r}, {p}");
            }
        }
        for a in 1..p {
            assert_eq!(load(&free(p, &[]), a), loaded(a, true));
        }
    }
}

/// Orders modulo a Fermat prime, the largest modulus, a safe prime, one whose p − 1 has eight prime divisors, and
/// one with two large ones: drawn bases with a^r = 1, and 1 and p − 1.
#[test]
fn large_bases_by_their_order() {
    let mut noise = Noise(31);
    for p in [65_537, 268_435_399, 268_435_019, 232_792_561, 268_331_747] {
        let orders = divisors(p - 1).into_iter().filter(|&r| r > 1);
        for r in orders.take(40) {
            let tape = built(p, r, r - 1, 1 + r % 3);
            let drawn: Vec<u32> = (0..3)
                .map(|_| power(1 + noise.below(p as u64 - 1) as u32, (p - 1) / r, p))
                .collect();
            for a in [1, p - 1].into_iter().chain(drawn) {
                let expected = loaded(a, has_order(a, r, p));
                assert_eq!(load(&tape, a), expected, "{a} for {r}, {p}");
            }
        }
    }
}

/// A base of order r to the power of one prime divisor q of r has order r / q, which the quotient r / q alone
/// tells; to the power of any exponent that shares no factor with r it has order r.
#[test]
fn each_prime_tells_a_smaller_order() {
    let mut noise = Noise(37);
    let cases: [(u32, u32, &[u32]); 5] = [
        (232_792_561, 232_792_560, &[2, 3, 5, 7, 11, 13, 17, 19]),
        (268_435_399, 268_435_398, &[2, 3, 7, 11, 581_029]),
        (268_435_399, 134_217_699, &[3, 7, 11, 581_029]),
        (268_435_019, 134_217_509, &[134_217_509]),
        (268_331_747, 134_165_873, &[11_579, 11_587]),
    ];
    for (p, r, primes) in cases {
        let tape = built(p, r, r - 1, 1);
        let a = drawn_base(&mut noise, p, r);
        assert_eq!(load(&tape, a), loaded(a, true));
        for &q in primes {
            let lesser = power(a, q, p);
            let telling = primes.iter().filter(|&d| power(lesser, r / d, p) == 1);
            assert!(telling.eq(&[q]));
            assert_eq!(load(&tape, lesser), Err(11), "{q} of {r}");
            let mut row = [a, lesser, a];
            assert_eq!(raise(&tape, &mut row), Err(11));
            assert_eq!(row, [a, lesser, a]);
        }
        for _ in 0..20 {
            let k = 1 + noise.below(r as u64 - 1) as u32;
            let b = power(a, k, p);
            assert_eq!(load(&tape, b), loaded(b, gcd(k, r) == 1), "{k} of {r}");
        }
    }
}

/// What load and run from end to end leave of each base in register 1.
fn each_alone(tape: &[u32], bases: &[u32]) -> Vec<u32> {
    let steps = tape.len() as u32 - 5;
    let alone = |&base: &u32| run(tape, load(tape, base).unwrap(), steps).unwrap();
    bases.iter().map(|base| alone(base).registers[1]).collect()
}

/// The row after its raise, which isn't refused.
fn raised(tape: &[u32], bases: &[u32]) -> Vec<u32> {
    let mut row = bases.to_vec();
    assert_eq!(raise(tape, &mut row), Ok(()), "{bases:?}");
    row
}

#[test]
fn a_row_of_the_worked_example() {
    for variant in 1..=3 {
        let tape = built(359, 179, 76, variant);
        assert_eq!(raised(&tape, &[4, 16, 64]), [266, 33, 162]);
    }
}

/// Every named program of small primes: all bases that it takes are raised in one row, and each other is
/// refused as load refuses it.
#[test]
fn rows_of_every_base() {
    for p in (3..=61).filter(|&p| common::is_prime(p)) {
        for r in (2..p).filter(|r| (p - 1) % r == 0) {
            for k in (1..r).filter(|&k| gcd(k, r) == 1) {
                (1..=3).for_each(|variant| every_base(p, r, k, variant));
            }
        }
    }
}

fn every_base(p: u32, r: u32, k: u32, variant: u32) {
    let tape = built(p, r, k, variant);
    let is_good = |&a: &u32| 0 < a && a < p && order_of(a, p) == r;
    let (good, bad): (Vec<u32>, Vec<u32>) = (0..=p + 1).partition(is_good);
    let powers: Vec<u32> = good.iter().map(|&a| power(a, k, p)).collect();
    assert_eq!(raised(&tape, &good), powers, "{p} {r} {k} {variant}");
    assert_eq!(each_alone(&tape, &good), powers);
    for base in bad {
        let mut row = [good[0], base];
        let refused = load(&tape, base).map(|_| ());
        assert!(refused.is_err(), "{base} {p} {r}");
        assert_eq!(raise(&tape, &mut row), refused);
        assert_eq!(row, [good[0], base]);
    }
}

/// Rows of up to 64 bases of the largest prime, in any order and some of them equal.
#[test]
fn rows_of_the_largest_prime() {
    let (p, mut noise) = (268435399, Noise(21));
    for count in [0, 1, 2, 3, 17, 63, 64] {
        for r in [p - 1, (p - 1) / 2, (p - 1) / 6, 6, 3, 2] {
            let k = (1 + noise.below(r as u64 - 1) as u32..r)
                .find(|&k| gcd(k, r) == 1)
                .unwrap_or(1);
            let tape = built(p, r, k, 1 + noise.below(3) as u32);
            let bases: Vec<u32> = (0..count).map(|_| drawn_base(&mut noise, p, r)).collect();
            let powers: Vec<u32> = bases.iter().map(|&a| power(a, k, p)).collect();
            assert_eq!(raised(&tape, &bases), powers, "{r} {k}");
            assert_eq!(each_alone(&tape, &bases), powers);
        }
    }
}

/// Lemma 1: for odd ℓ' and k < φ^ℓ', G(k F_(ℓ'+1)) = k F_ℓ'.
#[test]
fn lemma_1() {
    for r in (3..2000).chain([1 << 20, (1 << 28) - 1]) {
        let length = height(r) | 1;
        let [low, high] = [length, length + 1].map(|i| fibonacci(i).unwrap());
        for k in [1, r / 2, r - 1] {
            assert_eq!(hofstadter(k as u64 * high), k as u64 * low);
        }
    }
}

/// Free programs of random steps: run between any two positions is what a plain machine does, and
/// each register is the base to its traced exponent.
#[test]
fn free_programs_step_by_step() {
    let mut noise = Noise(77);
    for _ in 0..150 {
        let p = (3 + noise.below(400) as u32..)
            .find(|&p| common::is_prime(p))
            .unwrap();
        let steps: Vec<u32> = (0..noise.below(40))
            .map(|_| random_step(&mut noise))
            .collect();
        let tape = free(p, &steps);
        let start = [(); 4].map(|_| 1 + noise.below(p as u64 - 1));
        let (from, to) = (
            noise.below(steps.len() as u64 + 1),
            noise.below(steps.len() as u64 + 1),
        );
        let mut plain = start;
        if from <= to {
            let part = &steps[from as usize..to as usize];
            part.iter()
                .for_each(|&word| plain_step(&mut plain, p as u64, word, false));
        } else {
            let part = &steps[to as usize..from as usize];
            part.iter()
                .rev()
                .for_each(|&word| plain_step(&mut plain, p as u64, word, true));
        }
        let record = Record::at(from as u32, start.map(|x| x as u32));
        let there = run(&tape, record, to as u32).unwrap();
        assert_eq!(there, Record::at(to as u32, plain.map(|x| x as u32)));
        assert_eq!(run(&tape, there, from as u32), Ok(record));
        exponents_agree(&tape, p, start[1] as u32);
    }
}

fn exponents_agree(tape: &[u32], p: u32, a: u32) {
    let start = load(tape, a).unwrap();
    for position in 0..=tape.len() as u32 - 5 {
        let registers = run(tape, start, position).unwrap().registers;
        if let Ok(exponents) = trace(tape, position) {
            let powers = exponents.map(|e| power(a, e.rem_euclid(p as i64 - 1) as u32, p));
            assert_eq!(registers, powers);
        }
    }
}

/// Every position of named programs, against the plain machine and the traced exponents.
#[test]
fn named_programs_step_by_step() {
    for variant in 1..=3 {
        let tape = built(359, 179, 76, variant);
        exponents_agree(&tape, 359, 4);
        let mut plain = [1, 4, 1, 1];
        for (i, &word) in tape[4..tape.len() - 1].iter().enumerate() {
            plain_step(&mut plain, 359, word, false);
            let there = run(&tape, Record::at(0, [1, 4, 1, 1]), i as u32 + 1);
            assert_eq!(there.unwrap().registers.map(u64::from), plain);
        }
    }
}

/// A chain of demand 3: programs for one p and r end to end, each behind a turn, refused runs between them.
/// Answers the base that it leaves, which is a^E.
fn chain(noise: &mut Noise, start: Record, p: u32, r: u32) -> u32 {
    let a = start.registers[1];
    let (mut record, mut e) = (start, 1);
    for _ in 0..8 {
        let k = (1 + noise.below(r as u64 - 1) as u32..r).find(|&k| gcd(k, r) == 1);
        let k = k.unwrap_or(1);
        let tape = built(p, r, k, 1 + noise.below(3) as u32);
        let steps = tape.len() as u32 - 5;
        let forward = noise.below(2) == 0;
        let (from, to) = if forward { (0, steps) } else { (steps, 0) };
        record = run(&tape, record.turned(from), to).unwrap();
        e = e * if forward { k } else { inverse(k, r).unwrap() } % r;
        assert_eq!(run(&tape, record, steps + 1), Err(10));
    }
    assert_eq!(record.registers, [1, power(a, e, p), 1, 1]);
    record.registers[1]
}

/// From a base that a named program loads; another one for the same p and r loads the result.
#[test]
fn chains() {
    let (p, r, a) = (359, 179, 4);
    let mut noise = Noise(11);
    for _ in 0..20 {
        let start = load(&built(p, r, 76, 1), a).unwrap();
        let b = chain(&mut noise, start, p, r);
        let again = load(&built(p, r, 100, 2), b).unwrap();
        chain(&mut noise, again, p, r);
    }
}

/// From every base with a^r = 1, which a program by hand loads, whatever its order; the result has the same
/// order, so that a named program loads it exactly where it loads the base.
#[test]
fn chains_of_every_order() {
    let mut noise = Noise(13);
    for (p, r) in [(31, 30), (31, 10), (61, 60), (97, 48), (257, 64), (3, 2)] {
        let named = built(p, r, r - 1, 1);
        for a in (1..p).filter(|&a| power(a, r, p) == 1) {
            let start = load(&free(p, &[]), a).unwrap();
            let b = chain(&mut noise, start, p, r);
            assert_eq!(order_of(b, p), order_of(a, p));
            for base in [a, b] {
                assert_eq!(load(&named, base), loaded(base, order_of(a, p) == r));
            }
        }
    }
}

type Table = [[i64; 4]; 4];

const IDENTITY: Table = [[1, 0, 0, 0], [0, 1, 0, 0], [0, 0, 1, 0], [0, 0, 0, 1]];

/// The tables at all positions as they are defined: a column for each start value alone, whose exponents
/// the steps change. None from where one of the sixteen leaves the range.
fn tables_by_columns(steps: &[u32]) -> Vec<Option<Table>> {
    let mut columns = IDENTITY.map(|column| column.map(i128::from));
    let mut tables = vec![Some(IDENTITY)];
    for &word in steps {
        columns.iter_mut().for_each(|column| shift(column, word));
        if columns.iter().flatten().any(|e| e.abs() > 1 << 62) {
            break;
        }
        let rows = [0, 1, 2, 3].map(|i| columns.map(|column| column[i] as i64));
        tables.push(Some(rows));
    }
    tables.resize(steps.len() + 1, None);
    tables
}

fn shift(exponents: &mut [i128; 4], word: u32) {
    let (target, source) = ((word & 3) as usize, (word >> 2 & 3) as usize);
    match word >> 28 {
        MUL => exponents[target] += exponents[source],
        DIV => exponents[target] -= exponents[source],
        _ => exponents.swap(target, source),
    }
}

/// The textbook's expansion along the first row, modulo 2^128: exact where no entry is above 2^30.
fn determinant(rows: &[Vec<i128>]) -> i128 {
    let Some((first, rest)) = rows.split_first() else {
        return 1;
    };
    let terms = first.iter().enumerate().map(|(j, entry)| {
        let minor: Vec<Vec<i128>> = rest
            .iter()
            .map(|row| [&row[..j], &row[j + 1..]].concat())
            .collect();
        let term = entry.wrapping_mul(determinant(&minor));
        if j % 2 == 0 {
            term
        } else {
            term.wrapping_neg()
        }
    });
    terms.fold(0, i128::wrapping_add)
}

/// The tables of a program at all positions: those of the definition, and 12 exactly where it has none;
/// their second column is the trace, and their determinant tells whether the swaps are even or odd.
/// Answers how many are refused.
fn tables_agree(tape: &[u32]) -> usize {
    let steps = steps_of(tape);
    let defined = tables_by_columns(steps);
    for (position, &expected) in defined.iter().enumerate() {
        let found = table(tape, position as u32);
        assert_eq!(found, expected.ok_or(12), "{position} of {steps:x?}");
        let Ok(rows) = found else { continue };
        assert_eq!(trace(tape, position as u32), Ok(rows.map(|row| row[1])));
        let done = steps[..position].iter();
        let swaps = done.filter(|&word| word >> 28 == SWP).count();
        let entries = rows.map(|row| row.map(i128::from).to_vec());
        assert_eq!(determinant(&entries), [1, -1][swaps % 2]);
    }
    defined.iter().filter(|table| table.is_none()).count()
}

/// The named programs of every order, exponent and variant for a small prime.
fn named_programs(p: u32) -> Vec<Vec<u32>> {
    let mut tapes = vec![];
    for r in (2..p).filter(|&r| (p - 1).is_multiple_of(r)) {
        for k in (1..r).filter(|&k| gcd(k, r) == 1) {
            tapes.extend([1, 2, 3].map(|variant| built(p, r, k, variant)));
        }
    }
    tapes
}

/// A hand-made program of drawn steps, or of drawn multiplications alone, whose exponents grow.
fn drawn_program(noise: &mut Noise, p: u32, most: u64, growing: bool) -> Vec<u32> {
    let steps: Vec<u32> = (0..noise.below(most + 1))
        .map(|_| match random_step(noise) {
            word if growing => MUL << 28 | word & 15,
            word => word,
        })
        .collect();
    free(p, &steps)
}

#[test]
fn tables_of_named_programs() {
    for p in (3..=43).filter(|&p| common::is_prime(p)) {
        for tape in named_programs(p) {
            assert_eq!(tables_agree(&tape), 0);
        }
    }
    for variant in 1..=3 {
        for (p, r, k) in [(359, 179, 76), (65537, 65536, 12345)] {
            tables_agree(&built(p, r, k, variant));
        }
        tables_agree(&built(268435399, 268435398, 123456791, variant));
    }
}

/// Some of them leave the range, and come back at times.
#[test]
fn tables_of_drawn_programs() {
    let mut noise = Noise(41);
    let (mut refused, mut answered) = (0, 0);
    for count in 0..60 {
        let tape = drawn_program(&mut noise, 7, 507, count % 2 == 0);
        let outside = tables_agree(&tape);
        refused += outside;
        answered += tape.len() - 4 - outside;
    }
    assert!(refused > 1000 && answered > 1000);
}

/// The product of the start values to the exponents of a row. An exponent below 0 is one of the inverse,
/// which is a^(p − 2).
fn product_of(start: [u32; 4], row: [i64; 4], p: u32) -> u32 {
    let factors = start.iter().zip(row).map(|(&a, e)| {
        let unit = if e < 0 { power(a, p - 2, p) } else { a };
        power(unit, e.unsigned_abs(), p) as u64
    });
    factors.fold(1, |x, factor| x * factor % p as u64) as u32
}

/// At all positions each register is the product of the start values to its row's exponents.
fn products_agree(tape: &[u32], p: u32, starts: &[[u32; 4]]) {
    for position in 0..=steps_of(tape).len() as u32 {
        let Ok(rows) = table(tape, position) else {
            continue;
        };
        for &start in starts {
            let products = rows.map(|row| product_of(start, row, p));
            let there = run(tape, Record::at(0, start), position);
            assert_eq!(there, Ok(Record::at(position, products)));
        }
    }
}

/// Every start modulo 3 and 5.
#[test]
fn every_start_in_every_register() {
    let mut noise = Noise(43);
    for p in [3, 5] {
        let mut tapes = named_programs(p);
        tapes.extend((0..8).map(|_| drawn_program(&mut noise, p, 30, false)));
        let digits = |number: u32| [0, 1, 2, 3].map(|at| number / (p - 1).pow(at) % (p - 1));
        let starts: Vec<[u32; 4]> = (0..(p - 1).pow(4))
            .map(|number| digits(number).map(|digit| 1 + digit))
            .collect();
        for tape in tapes {
            products_agree(&tape, p, &starts);
        }
    }
}

#[test]
fn drawn_starts_in_every_register() {
    let mut noise = Noise(47);
    for p in (7..=31).filter(|&p| common::is_prime(p)) {
        for tape in named_programs(p) {
            products_agree(&tape, p, &[drawn_start(&mut noise, p)]);
        }
    }
    let p = 268435399;
    for variant in 1..=3 {
        let tape = built(p, p - 1, 123456791, variant);
        products_agree(&tape, p, &[drawn_start(&mut noise, p)]);
    }
    for count in 0..40 {
        let tape = drawn_program(&mut noise, p, 200, count % 4 == 0);
        products_agree(&tape, p, &[drawn_start(&mut noise, p)]);
    }
}

/// The steps really done on the way from one position to another.
fn way(steps: &[u32], from: usize, to: usize) -> Vec<u32> {
    if from <= to {
        return steps[from..to].to_vec();
    }
    let undone = |&word: &u32| match word >> 28 {
        SWP => word,
        kind => (MUL + DIV - kind) << 28 | word & 15,
    };
    steps[to..from].iter().rev().map(undone).collect()
}

/// The table of a way, by a hand-made program of its steps.
fn table_of(way: &[u32]) -> Table {
    table(&free(3, way), way.len() as u32).expect("a way whose exponents stay in the range")
}

/// Sums of four products of exponents fit 128 bits.
fn times(left: Table, right: Table) -> [[i128; 4]; 4] {
    let dot = |row: [i64; 4], j: usize| (0..4).map(|k| row[k] as i128 * right[k][j] as i128).sum();
    left.map(|row| [0, 1, 2, 3].map(|j| dot(row, j)))
}

/// On the way between two positions of a program: the table of the way back times that of the way out is
/// the identity; that of the way out times the one at its beginning is the one at its end; a run that way
/// makes products by its exponents, and a preview shows them, with the way's steps counted by their kind.
fn way_agrees(tape: &[u32], p: u32, from: usize, to: usize, start: [u32; 4]) {
    let steps = steps_of(tape);
    let [out, back] = [way(steps, from, to), way(steps, to, from)].map(|way| table_of(&way));
    let wide = |table: Table| table.map(|row| row.map(i128::from));
    assert_eq!(times(back, out), wide(IDENTITY), "{from} to {to}");
    let [begin, end] = [from, to].map(|position| table(tape, position as u32).unwrap());
    assert_eq!(times(out, begin), wide(end), "{from} to {to}");
    let products = out.map(|row| product_of(start, row, p));
    let record = Record::at(from as u32, start);
    let there = run(tape, record, to as u32);
    assert_eq!(there, Ok(Record::at(to as u32, products)));
    let shown = preview(tape, record, to as u32).unwrap();
    assert_eq!(shown.registers, products);
    let done = way(steps, from, to);
    let of_kind = |kind| done.iter().filter(|&word| word >> 28 == kind).count() as u32;
    assert_eq!(shown.counts, [MUL, DIV, SWP].map(of_kind), "{from} to {to}");
}

#[test]
fn ways_out_and_back() {
    let mut noise = Noise(53);
    let mut tapes = vec![(3, CASE_A.to_vec())];
    tapes.extend([1, 2, 3].map(|variant| (359, built(359, 179, 76, variant))));
    tapes.extend((0..30).map(|_| (31, drawn_program(&mut noise, 31, 30, false))));
    for (p, tape) in tapes {
        let count = steps_of(&tape).len();
        for (from, to) in (0..=count).flat_map(|from| (0..=count).map(move |to| (from, to))) {
            way_agrees(&tape, p, from, to, drawn_start(&mut noise, p));
        }
    }
    for variant in 1..=3 {
        let tape = built(65537, 65536, 12345, variant);
        let count = steps_of(&tape).len() as u64;
        for _ in 0..200 {
            let [from, to] = [(); 2].map(|_| noise.below(count + 1) as usize);
            way_agrees(&tape, 65537, from, to, drawn_start(&mut noise, 65537));
        }
    }
}
