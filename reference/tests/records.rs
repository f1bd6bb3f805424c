//! Records of registers and their position: single steps and previews beside runs, lists of runs with turns,
//! sessions.

mod common;

use common::*;
use reference::*;

/// Tapes that are accepted, of none to 83 steps, each with its p.
fn programs(noise: &mut Noise) -> Vec<(u32, Vec<u32>)> {
    let mut tapes = vec![(3, CASE_A.to_vec()), (7, free(7, &[]))];
    tapes.extend([1, 2, 3].map(|variant| (359, built(359, 179, 76, variant))));
    tapes.extend([1, 2, 3].map(|variant| (11, built(11, 5, 2, variant))));
    tapes.extend((1..30).map(|count| {
        let steps: Vec<u32> = (0..count).map(|_| random_step(noise)).collect();
        (31, free(31, &steps))
    }));
    tapes
}

/// What the plain machine makes of one step word.
fn plain(registers: [u32; 4], p: u32, word: u32, undo: bool) -> [u32; 4] {
    let mut wide = registers.map(u64::from);
    plain_step(&mut wide, p as u64, word, undo);
    wide.map(|register| register as u32)
}

/// At every position a step is what the plain machine does, and what a run to the neighbouring position
/// answers; past either end, and from a position that isn't there, both are refused.
#[test]
fn steps_are_runs_to_the_next_position() {
    let mut noise = Noise(61);
    for (p, tape) in programs(&mut noise) {
        let steps = steps_of(&tape);
        let count = steps.len() as u32;
        for position in 0..=count {
            let record = Record::at(position, drawn_start(&mut noise, p));
            let word = steps.get(position as usize);
            let expected = word.map(|&word| plain(record.registers, p, word, false));
            let expected = expected.map(|registers| Record::at(position + 1, registers));
            assert_eq!(step(&tape, record, false), expected.ok_or(10));
            assert_eq!(run(&tape, record, position + 1), expected.ok_or(10));

            let before = position.checked_sub(1);
            let expected = before.map(|before| {
                let word = steps[before as usize];
                Record::at(before, plain(record.registers, p, word, true))
            });
            assert_eq!(step(&tape, record, true), expected.ok_or(10));
            if let Some(before) = before {
                assert_eq!(run(&tape, record, before).ok(), expected);
            }
        }
        for position in [count + 1, count + 2, u32::MAX - 1, u32::MAX] {
            let record = Record::at(position, [1; 4]);
            for backward in [false, true] {
                assert_eq!(step(&tape, record, backward), Err(10));
            }
            assert_eq!(run(&tape, record, position - 1), Err(10));
        }
    }
}

/// From the first position to the last step by step, which is what one run does, and back.
#[test]
fn walks_there_and_back() {
    let mut noise = Noise(67);
    for (p, tape) in programs(&mut noise) {
        let count = steps_of(&tape).len() as u32;
        let start = Record::at(0, drawn_start(&mut noise, p));
        let walk = |from: Record, backward| {
            (0..count).fold(from, |record, _| step(&tape, record, backward).unwrap())
        };
        let end = walk(start, false);
        assert_eq!(run(&tape, start, count), Ok(end));
        assert_eq!(walk(end, true), start);
    }
}

// ---- previews

/// Which of mul, div and swp a step word is where it is done, or undone.
fn kind_done(word: u32, undo: bool) -> usize {
    match (word >> 28, undo) {
        (MUL, false) | (DIV, true) => 0,
        (DIV, false) | (MUL, true) => 1,
        _ => 2,
    }
}

/// A preview shows these registers and counts, which add up to the distance. A run to the same position
/// comes to the same registers, from the same record.
fn shows(tape: &[u32], record: Record, to: u32, registers: [u32; 4], counts: [u32; 3]) {
    let shown = preview(tape, record, to);
    assert_eq!(shown, Ok(Preview { registers, counts }), "{record:?} {to}");
    assert_eq!(run(tape, record, to), Ok(Record::at(to, registers)));
    assert_eq!(counts.iter().sum::<u32>(), record.position.abs_diff(to));
    let (session, _) = Session::open(tape, record);
    assert_eq!(session.preview(to), shown);
    assert_eq!((session.tape, session.record), (tape, record));
}

/// From every position to every other one: what the plain machine comes to, and the steps that it does on
/// the way, forward and back. Where it stands, no step.
#[test]
fn previews_between_any_two_positions() {
    let mut noise = Noise(83);
    for (p, tape) in programs(&mut noise) {
        let steps = steps_of(&tape);
        for from in 0..=steps.len() {
            let record = Record::at(from as u32, drawn_start(&mut noise, p));
            shows(&tape, record, from as u32, record.registers, [0; 3]);
            for undo in [false, true] {
                let (mut registers, mut counts) = (record.registers, [0; 3]);
                let way: Vec<usize> = if undo {
                    (0..from).rev().collect()
                } else {
                    (from..steps.len()).collect()
                };
                for at in way {
                    registers = plain(registers, p, steps[at], undo);
                    counts[kind_done(steps[at], undo)] += 1;
                    let to = if undo { at } else { at + 1 };
                    shows(&tape, record, to as u32, registers, counts);
                }
            }
        }
    }
}

/// The way back has the steps of the way out, mul and div exchanged, and comes back to the record.
#[test]
fn previews_there_and_back() {
    let mut noise = Noise(89);
    for (p, tape) in programs(&mut noise) {
        let count = steps_of(&tape).len() as u64;
        for _ in 0..20 {
            let [from, to] = [(); 2].map(|_| noise.below(count + 1) as u32);
            let start = Record::at(from, drawn_start(&mut noise, p));
            let there = preview(&tape, start, to).unwrap();
            let back = preview(&tape, Record::at(to, there.registers), from).unwrap();
            let [mul, div, swp] = there.counts;
            assert_eq!(back.registers, start.registers);
            assert_eq!(back.counts, [div, mul, swp]);
        }
    }
}

/// A preview is refused where the run is, with the same number, for drawn tapes, records and targets, and
/// for damaged ones.
#[test]
fn previews_refused_as_runs() {
    let mut noise = Noise(97);
    let mut met = [0; 11];
    for (p, tape) in programs(&mut noise) {
        let count = steps_of(&tape).len() as u64;
        for _ in 0..200 {
            let mut tape = tape.clone();
            let mut registers = drawn_start(&mut noise, p);
            match noise.below(4) {
                0 => {
                    let at = noise.below(tape.len() as u64) as usize;
                    tape[at] ^= 1 << noise.below(32);
                }
                1 => registers[noise.below(4) as usize] = [0, p, u32::MAX][noise.below(3) as usize],
                2 => drop(tape.pop()),
                _ => {}
            }
            let [from, to] = [(); 2].map(|_| noise.below(count + 3) as u32);
            let record = Record::at(from, registers);
            let number = run(&tape, record, to).err();
            assert_eq!(preview(&tape, record, to).err(), number);
            met[number.unwrap_or(0) as usize] += 1;
        }
    }
    for number in [0, 1, 2, 3, 4, 6, 7, 8, 9, 10] {
        assert!(met[number] > 0, "{number}: {met:?}");
    }
}

// ---- lists of runs

/// Where the tapes of a row begin and end in it.
fn in_a_row(tapes: &[Vec<u32>]) -> Vec<(u32, u32)> {
    let mut begin = 0;
    let mut places = Vec::new();
    for tape in tapes {
        let end = begin + tape.len() as u32;
        places.push((begin, end));
        begin = end;
    }
    places
}

/// Chains of demand 3, as request T-04 has them: programs for p = 11 and r = 5, each run from end to end
/// behind a turn to 0 or to the step count, and refused runs between them, with any turn or none. The
/// record may stand anywhere at first. A program by hand loads the base, which is 1 at times.
#[test]
fn chains_with_turns() {
    let (p, r) = (11, 5);
    let mut noise = Noise(71);
    let tapes: Vec<Vec<u32>> = (1..5)
        .flat_map(|k| [1, 2, 3].map(|variant| built(p, r, k, variant)))
        .collect();
    let (row, places) = (tapes.concat(), in_a_row(&tapes));
    for _ in 0..500 {
        let a = [1, 3, 4, 5, 9][noise.below(5) as usize];
        let (mut e, mut requests, mut expected) = (1, Vec::new(), Vec::new());
        for _ in 0..noise.below(15) {
            let at = noise.below(12) as usize;
            let (k, (begin, end)) = (at as u32 / 3 + 1, places[at]);
            let steps = end - begin - 5;
            let (request, number) = match noise.below(5) {
                0 => ([begin, end, noise.below(99) as u32, steps + 1], 10),
                1 => ([begin, end - 1, noise.next() as u32, 0], 7),
                2 | 3 => ([begin, end, 1, steps], 0),
                _ => ([begin, end, steps + 1, 0], 0),
            };
            if number == 0 {
                let forward = request[2] == 1;
                e = e * if forward { k } else { inverse(k, r).unwrap() } % r;
            }
            requests.extend(request);
            expected.push(number);
        }
        let start = load(&free(p, &[]), a).unwrap();
        let start = start.turned(noise.next() as u32);
        let (end, numbers) = play(&row, &requests, start);
        assert_eq!(end.registers, [1, power(a, e, p), 1, 1], "{requests:?}");
        assert_eq!(numbers, expected, "{requests:?}");
    }
}

/// Rewinds: runs of one program without turns, each from where the one before it stopped, refused ones
/// between them. Back at the first position the record is the first one.
#[test]
fn rewinds_without_turns() {
    let mut noise = Noise(73);
    for (p, tape) in programs(&mut noise) {
        let (words, count) = (tape.len() as u32, steps_of(&tape).len() as u32);
        for _ in 0..10 {
            let first = noise.below(count as u64 + 1) as u32;
            let start = Record::at(first, drawn_start(&mut noise, p));
            let mut requests = Vec::new();
            for _ in 0..noise.below(8) {
                requests.extend(match noise.below(4) {
                    0 => [0, words, 0, count + 1 + noise.below(9) as u32],
                    1 => [1, words, 0, 0],
                    _ => [0, words, 0, noise.below(count as u64 + 1) as u32],
                });
            }
            requests.extend([0, words, 0, first]);
            let (end, numbers) = play(&tape, &requests, start);
            assert_eq!(end, start, "{requests:?}");
            assert_eq!(numbers.last(), Some(&0));
        }
    }
}

/// A refused run leaves the registers and the position that its turn set, and the next run without a turn
/// begins there.
#[test]
fn turns_of_refused_runs() {
    let tape = built(11, 5, 2, 1);
    let start = Record::at(0, [1, 4, 1, 1]);
    let last = |requests: &[u32]| play(&tape, requests, start);
    assert_eq!(last(&[0, 28, 0, 24]), (start, vec![10]));
    assert_eq!(last(&[0, 28, 25, 0]), (start.turned(24), vec![10]));
    assert_eq!(last(&[0, 27, 6, 0]), (start.turned(5), vec![7]));
    let far = start.turned(u32::MAX - 1);
    assert_eq!(last(&[0, 28, u32::MAX, 0]), (far, vec![10]));
    assert_eq!(
        last(&[0, 28, u32::MAX, 0, 0, 28, 0, 0]),
        (far, vec![10, 10])
    );
    let back = run(&tape, start.turned(23), 0).unwrap();
    assert_eq!(last(&[0, 28, 24, 24, 0, 28, 0, 0]), (back, vec![10, 0]));
    // Where it stands already a run changes nothing, with a turn or without one.
    assert_eq!(last(&[0, 28, 0, 0]), (start, vec![0]));
    assert_eq!(last(&[0, 28, 8, 7]), (start.turned(7), vec![0]));
}

// ---- sessions

/// A session opened at any position goes as `step` goes; a step past an end leaves it.
#[test]
fn sessions_at_every_position() {
    let mut noise = Noise(79);
    for (p, tape) in programs(&mut noise) {
        let count = steps_of(&tape).len() as u32;
        for position in 0..=count {
            let record = Record::at(position, drawn_start(&mut noise, p));
            let (session, number) = Session::open(&tape, record);
            assert_eq!((session.tape, session.record), (&tape[..], record));
            assert_eq!(number, 0);
            for backward in [false, true] {
                let expected = match step(&tape, record, backward) {
                    Ok(record) => (Session { record, ..session }, 0),
                    Err(number) => (session, number),
                };
                assert_eq!(session.step(backward), expected);
                let at_its_end = position == if backward { 0 } else { count };
                assert_eq!(expected.1, if at_its_end { 10 } else { 0 });
            }
        }
    }
}

/// What opening refuses, in run's order; a refused session holds the empty tape, four ones and position 0,
/// and a step and a preview on it are refused with 6.
#[test]
fn refused_sessions() {
    let named = built(7, 3, 2, 1);
    let with = |at: usize, word: u32| {
        let mut tape = named.clone();
        tape[at] = word;
        tape
    };
    let good = Record::at(19, [1, 4, 1, 1]);
    let cases = [
        (named[..4].to_vec(), good, 6),
        (with(4, 0), good, 7),
        (with(0, 0x10000401), good, 4),
        (with(1, 0x20000009), good, 1),
        (with(2, 0x30000004), good, 2),
        (with(3, 0x40000000), good, 3),
        (with(4, step_word(DIV, 0, 1)), good, 8),
        (named.clone(), Record::at(19, [1, 7, 1, 1]), 9),
        (named.clone(), Record::at(99, [1, 1, 0, 1]), 9),
        (named.clone(), good.turned(20), 10),
        (named.clone(), good.turned(u32::MAX), 10),
    ];
    for (tape, record, number) in &cases {
        let refused = Session {
            tape: &[],
            record: Record::at(0, [1; 4]),
        };
        assert_eq!(Session::open(tape, *record), (refused, *number));
        assert_eq!(run(tape, *record, record.position), Err(*number));
        for backward in [false, true] {
            assert_eq!(refused.step(backward), (refused, 6));
        }
        for to in [0, 1, record.position, u32::MAX] {
            assert_eq!(refused.preview(to), Err(6));
        }
        assert_eq!(preview(tape, *record, record.position), Err(*number));
    }
    assert_eq!(Session::open(&named, good).1, 0);
}
