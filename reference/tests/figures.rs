//! Every figure of document 01, two of request T-02, one of request T-04, those of request T-05's previews and
//! of request T-06's orders, and every row of the paper's Figure 7.

mod common;

use common::*;
use reference::*;

#[test]
fn numbers_the_steps_stand_on() {
    assert_eq!([0, 1, 2, 12].map(fibonacci), [Ok(0), Ok(1), Ok(1), Ok(144)]);
    assert!(fibonacci(93).is_ok());
    assert_eq!(fibonacci(94), Err(13));
    let heights = [(2, 2), (199, 11), (200, 12), (321, 12), (322, 13)];
    for (r, h) in heights {
        assert_eq!(height(r), h, "h of {r}");
    }
    // By Lemma 3: G(n) is the form moved down by one, plus 1 if place 1 was set.
    assert_eq!([0, 1, 2, 3, 4].map(hofstadter), [0, 1, 1, 2, 3]);
    // At most 46 places, and there is a number that has so many.
    let odd: Vec<u8> = (1..=91).rev().step_by(2).collect();
    assert_eq!(odd.len(), 46);
    let n = number(&odd).unwrap();
    assert_eq!(places(n, 46), Ok(odd));
    assert_eq!(places(0, 0), Ok(vec![]));
    assert_eq!(number(&[]), Ok(0));
    assert_eq!(number(&[92]), fibonacci(93));
}

#[test]
fn case_a() {
    let tape = built(3, 2, 1, 1);
    assert_eq!(tape, CASE_A);
    assert_eq!(check(&tape), Ok(()));
    let start = load(&tape, 2).unwrap();
    assert_eq!(start, Record::at(0, [1, 2, 1, 1]));
    assert_eq!(run(&tape, start, 11), Ok(Record::at(11, [1, 2, 1, 1])));
    let lines =
        "basic p=3 r=2 k=1 steps=11\n1 mul 0 1\n2 swp 0 1\n3 mul 2 1\n4 swp 0 1\n5 div 0 1\n\
        6 swp 1 2\n7 mul 0 1\n8 swp 0 1\n9 div 2 1\n10 swp 0 1\n11 div 0 1\n";
    assert_eq!(String::from_utf8(listing(&bytes(&tape))).unwrap(), lines);
}

#[test]
fn buffers_of_15_and_16_words_for_case_a() {
    let mut row = [7; 15];
    assert_eq!(build(3, 2, 1, 1, &mut row), Err(5));
    assert_eq!(row, [7; 15]);
    let mut row = [7; 16];
    assert_eq!(build(3, 2, 1, 1, &mut row), Ok(16));
    assert_eq!(row, CASE_A);
    let mut row = [7; 20];
    assert_eq!(build(3, 2, 1, 1, &mut row), Ok(16));
    assert_eq!(row[16..], [7; 4]);
}

#[test]
fn bench_p_7() {
    let tape = built(7, 3, 2, 1);
    assert_eq!(tape.len() - 5, 19);
    let start = load(&tape, 2).unwrap();
    assert_eq!(run(&tape, start, 19), Ok(Record::at(19, [1, 4, 1, 1])));
}

#[test]
fn bench_r_179() {
    assert_eq!(inverse(76, 179), Ok(106));
    assert_eq!(76 * 106, 45 * 179 + 1);
    assert_eq!(76 * fibonacci(12).unwrap(), 10944);
    assert_eq!(hofstadter(10944), 6764);
    assert_eq!(places(106, 46), Ok(vec![10, 6, 3, 1]));
    assert_eq!(places(76, 46), Ok(vec![9, 7]));
    let steps = [1, 2, 3].map(|variant| built(359, 179, 76, variant).len() - 5);
    assert_eq!(steps, [83, 59, 76]);
    assert_eq!(trace(&built(359, 179, 76, 3), 76), Ok([0, 76, -8055, 0]));
}

/// The tables at the ends of case A, whose eleven steps are soon done by hand, and of the hybrid program.
#[test]
fn tables_at_the_end() {
    let case_a = [[1, 0, 0, 0], [1, 1, 1, 0], [-2, 0, -1, 0], [0, 0, 0, 1]];
    assert_eq!(table(&CASE_A, 11), Ok(case_a));
    let hybrid = [
        [13, 0, 21, 0],
        [21, 76, 34, 0],
        [-3084, -8055, -4990, 0],
        [0, 0, 0, 1],
    ];
    assert_eq!(table(&built(359, 179, 76, 3), 76), Ok(hybrid));
}

/// A chain as request T-04 has it: one program backward, twice forward, a turn before each; and two
/// refused runs, behind a turn to no position and without one. E is 3 × 2 × 2 modulo 5.
#[test]
fn a_chain_with_turns() {
    let tape = built(11, 5, 2, 1);
    assert_eq!(tape.len(), 28);
    assert_eq!(inverse(2, 5), Ok(3));
    let requests = [
        [0, 28, 24, 0],
        [0, 28, 1, 23],
        [0, 28, 25, 0],
        [0, 28, 1, 23],
        [0, 28, 0, 24],
    ];
    let start = load(&tape, 4).unwrap();
    let (end, numbers) = play(&tape, &requests.concat(), start);
    assert_eq!(end, Record::at(23, [1, 5, 1, 1]));
    assert_eq!(numbers, [0, 0, 10, 0, 10]);
    assert_eq!(power(4, 3 * 2 * 2 % 5, 11), 5);
}

/// Loading by the base's own order, for p = 359: 4 has order 179, and the bases 1 to 5 have a smaller one than 358,
/// which 7 has.
#[test]
fn bases_of_order_r() {
    let order_179 = built(359, 179, 76, 1);
    let order_358 = built(359, 358, 75, 1);
    let loaded = |base| Ok(Record::at(0, [1, base, 1, 1]));
    assert_eq!(load(&order_179, 1), Err(11));
    assert_eq!(load(&order_179, 4), loaded(4));
    for base in 1..=5 {
        assert_eq!(power(base, 358, 359), 1);
        assert_eq!(load(&order_358, base), Err(11));
    }
    assert_eq!(load(&order_358, 7), loaded(7));
    assert_eq!(load(&built(359, 2, 1, 1), 358), loaded(358));
    // A program by hand loads them all.
    for base in [1, 2, 3, 4, 5, 7, 358] {
        assert_eq!(load(&free(359, &[]), base), loaded(base));
    }
}

/// What a preview from these registers at a position to another shows: its registers and its counts.
fn shown(tape: &[u32], registers: [u32; 4], from: u32, to: u32) -> ([u32; 4], [u32; 3]) {
    let shown = preview(tape, Record::at(from, registers), to).unwrap();
    (shown.registers, shown.counts)
}

/// Case A's listing has 3 mul, 3 div and 5 swp; undone they are 3 div, 3 mul and 5 swp.
#[test]
fn previews_of_case_a() {
    let base = [1, 2, 1, 1];
    assert_eq!(shown(&CASE_A, base, 0, 11), (base, [3, 3, 5]));
    assert_eq!(shown(&CASE_A, base, 11, 0), (base, [3, 3, 5]));
    // Where the record stands: the registers and three zeros, at both ends too.
    for here in 0..=11 {
        assert_eq!(shown(&CASE_A, base, here, here), (base, [0; 3]));
    }
}

/// Mul and div differ in number: mul 0 1, mul 0 1, div 2 1, swp 0 1, from (1, 2, 3, 4) modulo 7.
#[test]
fn previews_of_mul_mul_div_swp() {
    let words = [(MUL, 0, 1), (MUL, 0, 1), (DIV, 2, 1), (SWP, 0, 1)];
    let tape = free(7, &words.map(|(kind, t, s)| step_word(kind, t, s)));
    let at = [
        [1, 2, 3, 4],
        [2, 2, 3, 4],
        [4, 2, 3, 4],
        [4, 2, 5, 4],
        [2, 4, 5, 4],
    ];
    let cases = [
        (0, 1, [1, 0, 0]),
        (0, 2, [2, 0, 0]),
        (0, 3, [2, 1, 0]),
        (0, 4, [2, 1, 1]),
        (1, 4, [1, 1, 1]),
        (2, 3, [0, 1, 0]),
        (3, 4, [0, 0, 1]),
        // An undone mul is a div, and an undone div is a mul.
        (1, 0, [0, 1, 0]),
        (2, 0, [0, 2, 0]),
        (3, 0, [1, 2, 0]),
        (4, 0, [1, 2, 1]),
        (4, 1, [1, 1, 1]),
        (3, 2, [1, 0, 0]),
        (4, 3, [0, 0, 1]),
        (0, 0, [0; 3]),
        (2, 2, [0; 3]),
        (4, 4, [0; 3]),
    ];
    for (from, to, counts) in cases {
        let registers = shown(&tape, at[from], from as u32, to as u32);
        assert_eq!(registers, (at[to], counts), "{from} to {to}");
    }
}

#[test]
fn bench_refusals() {
    let mut row = [0; 512];
    for k in [0, 4, 2] {
        assert_eq!(build(5, 4, k, 1, &mut row), Err(3));
    }
    assert_eq!(build(9, 4, 1, 1, &mut row), Err(1));
    assert_eq!(build(7, 4, 1, 1, &mut row), Err(2));
    assert_eq!(row, [0; 512]);
}

#[test]
fn a_free_tape_with_no_steps() {
    let tape = free(7, &[]);
    assert_eq!(check(&tape), Ok(()));
    let record = Record::at(0, [1, 2, 3, 6]);
    assert_eq!(run(&tape, record, 0), Ok(record));
    assert_eq!(shown(&tape, [1, 2, 3, 6], 0, 0), ([1, 2, 3, 6], [0; 3]));
    assert_eq!(trace(&tape, 0), Ok([0, 1, 0, 0]));
    let identity = [[1, 0, 0, 0], [0, 1, 0, 0], [0, 0, 1, 0], [0, 0, 0, 1]];
    assert_eq!(table(&tape, 0), Ok(identity));
    assert_eq!(load(&tape, 3), Ok(Record::at(0, [1, 3, 1, 1])));
    assert_eq!(cut(&tape, 0, 0), Ok(&[][..]));
    assert_eq!(listing(&bytes(&tape)), b"free p=7 r=0 k=0 steps=0\n");
}

/// A row of Figure 7: the place, whether it is set, and the exponents of c, d, e.
type Row = (u32, u32, i64, i64, i64);

const HGPEXP: [Row; 19] = [
    (19, 1, 1, 1, 1),
    (18, 0, 1, 1, 2),
    (17, 1, 1, 3, 4),
    (16, 0, 1, 4, 7),
    (15, 1, 1, 8, 12),
    (14, 0, 1, 12, 20),
    (13, 1, 1, 21, 33),
    (12, 0, 1, 33, 54),
    (11, 1, 1, 55, 88),
    (10, 0, 1, 88, 143),
    (9, 1, 1, 144, 232),
    (8, 0, 1, 232, 376),
    (7, 1, 1, 377, 609),
    (6, 0, 1, 609, 986),
    (5, 1, 1, 987, 1596),
    (4, 0, 1, 1596, 2583),
    (3, 1, 1, 2584, 4180),
    (2, 0, 1, 4180, 6764),
    (1, 0, 1, 6764, 10944),
];

const FIBEXP_REVERSE: [Row; 11] = [
    (11, 0, 4180, 6764, 1),
    (10, 1, 2584, 4180, -6763),
    (9, 0, 1596, 2584, -6763),
    (8, 0, 988, 1596, -6763),
    (7, 0, 608, 988, -6763),
    (6, 1, 380, 608, -7751),
    (5, 0, 228, 380, -7751),
    (4, 0, 152, 228, -7751),
    (3, 1, 76, 152, -7979),
    (2, 0, 76, 76, -7979),
    (1, 1, 0, 76, -8055),
];

/// Walks a trace of Figure 7 from a position: each iteration takes two steps, three where the place
/// is set. Answers the position at its end.
fn walk(tape: &[u32], n: u64, start: u32, rows: &[Row]) -> u32 {
    let form = places(n, 46).unwrap();
    rows.iter().fold(start, |position, &(place, set, c, d, e)| {
        assert_eq!(
            form.contains(&(place as u8)),
            set == 1,
            "place {place} of {n}"
        );
        let after = position + 2 + set;
        assert_eq!(trace(tape, after), Ok([c, d, e, 0]), "place {place} of {n}");
        after
    })
}

#[test]
fn figure_7() {
    let tape = built(359, 179, 76, 3);
    assert_eq!(trace(&tape, 0), Ok([0, 1, 0, 0]));
    assert_eq!(trace(&tape, 1), Ok([1, 0, 0, 0]));
    let reorder = walk(&tape, 10944, 1, &HGPEXP);
    assert_eq!(trace(&tape, reorder + 2), Ok([6764, 10944, 1, 0]));
    assert_eq!(walk(&tape, 106, reorder + 2, &FIBEXP_REVERSE), 76);
}
