//! Drawn calls of every function of the C interface, each answered by the proved library and by this
//! implementation.
//!
//!     random [CALLS [SEED]]
//!
//! Compared are the number answered, every output, and that everything else lent is as it was: rows
//! and outputs lie between canaries, drawn anew for each call, and a refused call leaves all of them.
//! The first difference is printed with its input and ends the program with status 1.
//!
//! The calls come in rounds. A round draws two tapes and makes 30 calls: of each tape check, load, run,
//! step, preview, raise, trace and table, of one also cut and the listing; two builds; two each of places,
//! number, G and the inverse; a Fibonacci number; a height. So the services that take or write tapes, where
//! most can go wrong, have more than half of the calls. One round in four also gives the tool more than
//! fifty command lines of every verb, a fifth of them damaged, with a third tape on standard input. Of the
//! tapes nine in sixteen are what build writes for drawn parameters, four are hand-made, two have a
//! header that belongs to other steps, one is any words; then three in eight are damaged. Half of the
//! single steps begin beside an end of the tape. A preview goes from end to end in a quarter of the draws,
//! in an eighth to where its record stands, and in a quarter to an end, one past it, or the largest number.
//! Of the bases to load eleven in sixteen have order r and two a smaller one. A row has 0 to 66 bases of
//! order r, but half of the rows have one or two that are drawn to be bad: out of range, of smaller order, or
//! without a^r = 1. Half of the builds have a fault in p, r, k, the variant or all of them. The primes are
//! those at the ends and 6000 drawn ones of every size up to 2^28.

use linked::lent::{inner, Canaries, Lent};
use linked::proved;
use linked::tally::{Service, Tally};
use reference as services;
use reference::drawing::bases;
use reference::drawing::commands::commands;
use reference::drawing::noise::Noise;
use reference::drawing::parameters::{inverse_call, Fields, Parameters};
use reference::drawing::tapes::{modulus_and_order, steps, tape, ROW_WORDS};
use reference::drawing::values::{self as draw, MOST_PLACES};
use reference::tool::{reads_tape, reply, Reply};
use reference::Record;
use std::fmt::Debug;
use std::hint::black_box;

const SEED: u64 = 359_179;
const CALLS: u64 = 10_000_000;
const MOST_LISTING: usize = 6137;
const MOST_TEXT: usize = 8192;

fn main() {
    let mut arguments = std::env::args().skip(1).map(|text| text.parse::<u64>());
    let (Ok(calls), Ok(seed)) = (
        arguments.next().unwrap_or(Ok(CALLS)),
        arguments.next().unwrap_or(Ok(SEED)),
    ) else {
        eprintln!("usage: random [CALLS [SEED]]");
        std::process::exit(2);
    };
    let mut noise = Noise::new(seed);
    let fields = Fields::drawn(&mut noise);
    let mut comparison = Comparison::new(noise);
    println!("seed {seed}");
    while comparison.tally.calls() < calls {
        comparison.round(&fields);
    }
    comparison.tally.print();
    println!("{} calls, differences 0", comparison.tally.calls());
}

/// What is drawn from, and what came of it.
struct Comparison {
    noise: Noise,
    canaries: Canaries,
    tally: Tally,
}

impl Comparison {
    fn new(mut noise: Noise) -> Comparison {
        let canaries = Canaries::drawn(&mut noise, MOST_TEXT);
        Comparison {
            noise,
            canaries,
            tally: Tally::default(),
        }
    }

    fn round(&mut self, fields: &Fields) {
        let first = tape(fields, &mut self.noise);
        let second = tape(fields, &mut self.noise);
        for tape in [&first, &second] {
            self.check(tape);
            self.load(tape);
            self.run(tape);
            self.step(tape);
            self.preview(tape);
            self.raise(tape);
            self.trace(tape);
            self.table(tape);
        }
        self.cut(&first);
        self.listing(&second);
        self.fibonacci();
        self.height();
        for _ in 0..2 {
            self.build(fields);
            self.places();
            self.number();
            self.hofstadter();
            self.inverse();
        }
        if self.noise.once_in(4) {
            let (tape, commands) = commands(fields, &mut self.noise);
            for words in &commands {
                self.reply(words, &tape);
            }
        }
    }

    // ---- services over numbers

    fn fibonacci(&mut self) {
        let index = draw::index(&mut self.noise);
        let before = Lent::new(&mut self.noise, Noise::number);
        let mut after = before;
        let number = proved::fibonacci(index, &mut after.value);
        let answer = before.settled(services::fibonacci(index));
        let call = || format!("fibonacci {index}");
        self.compare(Service::Fibonacci, call, (number, after), answer);
    }

    fn places(&mut self) {
        let n = draw::number(&mut self.noise);
        let exact = services::places(n, MOST_PLACES).map_or(0, |list| list.len());
        let room = draw::room(&mut self.noise, exact, 100);
        let before = self.canaries.byte_row(&mut self.noise, room);
        let (mut row, mut expected) = (before.clone(), before);
        let lent = Lent::new(&mut self.noise, Noise::word);
        let mut count = lent;
        let number = proved::places(n, inner(&mut row, room), &mut count.value);
        let answer = services::write_places(n, inner(&mut expected, room));
        let (refusal, expected_count) = lent.settled(answer.map(|count| count as u32));
        let call = || format!("places {n} into {room}");
        let (answered, expected) = ((count, row), (expected_count, expected));
        self.compare(
            Service::Places,
            call,
            (number, answered),
            (refusal, expected),
        );
    }

    fn number(&mut self) {
        let list = draw::list(&mut self.noise);
        let lent = Lent::new(&mut self.noise, Noise::number);
        let mut n = lent;
        let number = proved::number(&list, &mut n.value);
        let answer = lent.settled(services::number(&list));
        let call = || format!("number {list:?}");
        self.compare(Service::Number, call, (number, n), answer);
    }

    fn hofstadter(&mut self) {
        let n = draw::number(&mut self.noise);
        let (g, expected) = (proved::hofstadter(n), services::hofstadter(n));
        let call = || format!("hofstadter {n}");
        self.compare(Service::Hofstadter, call, (0, g), (0, expected));
    }

    fn height(&mut self) {
        let r = draw::order(&mut self.noise);
        let (h, expected) = (proved::height(r), services::height(r));
        let call = || format!("height {r}");
        self.compare(Service::Height, call, (0, h), (0, expected));
    }

    fn inverse(&mut self) {
        let (k, r) = inverse_call(&mut self.noise);
        let lent = Lent::new(&mut self.noise, Noise::word);
        let mut inverse = lent;
        let number = proved::inverse(k, r, &mut inverse.value);
        let answer = lent.settled(services::inverse(k, r));
        let call = || format!("inverse {k} modulo {r}");
        self.compare(Service::Inverse, call, (number, inverse), answer);
    }

    // ---- services over tapes

    fn build(&mut self, fields: &Fields) {
        let Parameters { p, r, k, variant } = fields.any(&mut self.noise);
        let exact = services::build(p, r, k, variant, &mut [0; ROW_WORDS]).unwrap_or(ROW_WORDS);
        let room = draw::room(&mut self.noise, exact, ROW_WORDS);
        let before = self.canaries.row(&mut self.noise, room);
        let (mut row, mut expected) = (before.clone(), before);
        let lent = Lent::new(&mut self.noise, Noise::word);
        let mut count = lent;
        let number = proved::build(p, r, k, variant, inner(&mut row, room), &mut count.value);
        let answer = services::build(p, r, k, variant, inner(&mut expected, room));
        let (refusal, expected_count) = lent.settled(answer.map(|count| count as u32));
        let call = || format!("build {p} {r} {k} {variant} into {room}");
        let (answered, expected) = ((count, row), (expected_count, expected));
        self.compare(
            Service::Build,
            call,
            (number, answered),
            (refusal, expected),
        );
    }

    fn check(&mut self, tape: &[u32]) {
        let (number, row) = lend(tape, proved::check);
        let refusal = services::check(tape).err().unwrap_or(0);
        let call = || format!("check {}", hexadecimal(tape));
        self.compare(Service::Check, call, (number, &row[..]), (refusal, tape));
    }

    fn load(&mut self, tape: &[u32]) {
        let (p, r) = modulus_and_order(tape);
        let base = bases::base(&mut self.noise, p, r);
        let lent = Lent::new(&mut self.noise, five_words);
        let mut record = lent;
        let (number, row) = lend(tape, |tape| proved::load(tape, base, &mut record.value));
        let (refusal, expected) = lent.settled(services::load(tape, base).map(Record::numbers));
        let call = || format!("load {base} {}", hexadecimal(tape));
        let (answered, expected) = ((record, &row[..]), (expected, tape));
        self.compare(Service::Load, call, (number, answered), (refusal, expected));
    }

    fn run(&mut self, tape: &[u32]) {
        let (from, to) = draw::positions(&mut self.noise, steps(tape));
        let lent = self.lent_record(tape, from);
        let mut record = lent;
        let (number, row) = lend(tape, |tape| proved::run(tape, &mut record.value, to));
        let start = Record::of(lent.value);
        let (refusal, expected) = lent.settled(services::run(tape, start, to).map(Record::numbers));
        let call = || format!("run {:?} to {to} {}", lent.value, hexadecimal(tape));
        let (answered, expected) = ((record, &row[..]), (expected, tape));
        self.compare(Service::Run, call, (number, answered), (refusal, expected));
    }

    fn step(&mut self, tape: &[u32]) {
        let position = draw::step_position(&mut self.noise, steps(tape));
        let direction = draw::direction(&mut self.noise);
        let lent = self.lent_record(tape, position);
        let mut record = lent;
        let (number, row) = lend(tape, |tape| {
            proved::step(tape, &mut record.value, direction)
        });
        let answer = services::step(tape, Record::of(lent.value), direction != 0);
        let (refusal, expected) = lent.settled(answer.map(Record::numbers));
        let call = || format!("step {:?} {direction} {}", lent.value, hexadecimal(tape));
        let (answered, expected) = ((record, &row[..]), (expected, tape));
        self.compare(Service::Step, call, (number, answered), (refusal, expected));
    }

    fn preview(&mut self, tape: &[u32]) {
        let (from, to) = draw::position_and_target(&mut self.noise, steps(tape));
        let start = [self.lent_record(tape, from)];
        let lent_registers = Lent::new(&mut self.noise, four_words);
        let lent_counts = Lent::new(&mut self.noise, three_words);
        let (mut registers, mut counts) = (lent_registers, lent_counts);
        let ((number, row), record) = lend(&start, |record| {
            let record = &record[0].value;
            lend(tape, |tape| {
                proved::preview(tape, record, to, &mut registers.value, &mut counts.value)
            })
        });
        let answer = services::preview(tape, Record::of(start[0].value), to);
        let (refusal, expected_registers) = lent_registers.settled(answer.map(|at| at.registers));
        let (_, expected_counts) = lent_counts.settled(answer.map(|at| at.counts));
        let call = || format!("preview {:?} to {to} {}", start[0].value, hexadecimal(tape));
        let answered = (registers, counts, &record[..], &row[..]);
        let expected = (expected_registers, expected_counts, &start[..], tape);
        self.compare(
            Service::Preview,
            call,
            (number, answered),
            (refusal, expected),
        );
    }

    /// Drawn registers of a tape's p at a position.
    fn lent_record(&mut self, tape: &[u32], position: u32) -> Lent<[u32; 5]> {
        let (p, r) = modulus_and_order(tape);
        let registers = draw::registers(&mut self.noise, p, r);
        let mut lent = Lent::new(&mut self.noise, five_words);
        lent.value = Record::at(position, registers).numbers();
        lent
    }

    fn raise(&mut self, tape: &[u32]) {
        let (p, r) = modulus_and_order(tape);
        let bases = bases::bases(&mut self.noise, p, r);
        let mut before = self.canaries.row(&mut self.noise, bases.len());
        inner(&mut before, bases.len()).copy_from_slice(&bases);
        let (mut row, mut expected) = (before.clone(), before);
        let (number, after) = lend(tape, |tape| {
            proved::raise(tape, inner(&mut row, bases.len()))
        });
        let answer = services::raise(tape, inner(&mut expected, bases.len()));
        let refusal = answer.err().unwrap_or(0);
        let call = || format!("raise {bases:?} {}", hexadecimal(tape));
        let (answered, expected) = ((row, &after[..]), (expected, tape));
        self.compare(
            Service::Raise,
            call,
            (number, answered),
            (refusal, expected),
        );
    }

    fn trace(&mut self, tape: &[u32]) {
        let position = draw::last_position(&mut self.noise, steps(tape));
        let lent = Lent::new(&mut self.noise, four_exponents);
        let mut exponents = lent;
        let (number, row) = lend(tape, |tape| {
            proved::trace(tape, position, &mut exponents.value)
        });
        let (refusal, expected) = lent.settled(services::trace(tape, position));
        let call = || format!("trace {position} {}", hexadecimal(tape));
        let (answered, expected) = ((exponents, &row[..]), (expected, tape));
        self.compare(
            Service::Trace,
            call,
            (number, answered),
            (refusal, expected),
        );
    }

    fn table(&mut self, tape: &[u32]) {
        let position = draw::last_position(&mut self.noise, steps(tape));
        let lent = Lent::new(&mut self.noise, sixteen_exponents);
        let mut table = lent;
        let (number, row) = lend(tape, |tape| proved::table(tape, position, &mut table.value));
        let (refusal, expected) = lent.settled(services::table(tape, position).map(row_by_row));
        let call = || format!("table {position} {}", hexadecimal(tape));
        let (answered, expected) = ((table, &row[..]), (expected, tape));
        self.compare(
            Service::Table,
            call,
            (number, answered),
            (refusal, expected),
        );
    }

    fn cut(&mut self, tape: &[u32]) {
        let (first, last) = self.cut_positions(steps(tape));
        let lent = Lent::new(&mut self.noise, Noise::word);
        let (mut start, mut count) = (lent, lent);
        let (number, row) = lend(tape, |tape| {
            proved::cut(tape, first, last, &mut start.value, &mut count.value)
        });
        let answer = services::cut(tape, first, last);
        let (refusal, expected_start) = lent.settled(answer.map(|part| offset(tape, part)));
        let (_, expected_count) = lent.settled(answer.map(|part| part.len() as u32));
        let call = || format!("cut {first} {last} {}", hexadecimal(tape));
        let answered = (start, count, &row[..]);
        let expected = (expected_start, expected_count, tape);
        self.compare(Service::Cut, call, (number, answered), (refusal, expected));
    }

    /// Most in order, since a cut is refused where they aren't.
    fn cut_positions(&mut self, count: u32) -> (u32, u32) {
        let (first, last) = draw::positions(&mut self.noise, count);
        if self.noise.once_in(4) {
            (first, last)
        } else {
            (first.min(last), first.max(last))
        }
    }

    fn listing(&mut self, tape: &[u32]) {
        let bytes = self.bytes(tape);
        let text = services::listing(&bytes);
        let room = draw::room(&mut self.noise, text.len(), MOST_LISTING);
        let before = self.canaries.byte_row(&mut self.noise, room);
        let (mut row, mut expected) = (before.clone(), before);
        let lent = Lent::new(&mut self.noise, Noise::word);
        let (mut written, mut expected_written) = (lent, lent);
        let number = proved::listing(&bytes, inner(&mut row, room), &mut written.value);
        let refusal = if room < text.len() {
            services::refusal::TAPE
        } else {
            inner(&mut expected, room)[..text.len()].copy_from_slice(&text);
            expected_written.value = text.len() as u32;
            listing_refusal(&bytes)
        };
        let call = || format!("listing {bytes:02X?} into {room}");
        let (answered, expected) = ((written, row), (expected_written, expected));
        self.compare(
            Service::Listing,
            call,
            (number, answered),
            (refusal, expected),
        );
    }

    /// The tape's bytes; once in eight draws they are no whole words, or more than a tape has.
    fn bytes(&mut self, tape: &[u32]) -> Vec<u8> {
        let mut bytes: Vec<u8> = tape.iter().flat_map(|word| word.to_le_bytes()).collect();
        match self.noise.below(24) {
            0 => drop(bytes.pop()),
            1 => bytes.resize(bytes.len() + self.noise.index(8), 0),
            2 => bytes.resize(self.noise.pick(&[2044, 2047, 2048, 2049, 2052, 4096]), 0),
            _ => {}
        }
        bytes
    }

    // ---- the tool

    fn reply(&mut self, words: &[Vec<u8>], tape: &[u32]) {
        let words: Vec<&[u8]> = words.iter().map(Vec::as_slice).collect();
        let arguments: Vec<u8> = words
            .iter()
            .flat_map(|word| [word, &b"\0"[..]].concat())
            .collect();
        let input = self.bytes(tape);
        let Reply { status, text } = reply(&words, &input);
        let room = draw::room(&mut self.noise, text.len(), MOST_TEXT);
        let before = self.canaries.byte_row(&mut self.noise, room);
        let (mut row, mut expected) = (before.clone(), before);
        let lent = Lent::new(&mut self.noise, |noise| noise.index(MOST_TEXT));
        let (mut written, mut expected_written) = (lent, lent);
        let ((number, input_after), arguments_after) = lend(&arguments, |arguments| {
            lend(&input, |input| {
                proved::reply(arguments, input, inner(&mut row, room), &mut written.value)
            })
        });
        let reads = proved::reads(&arguments);
        let count = room.min(text.len());
        inner(&mut expected, room)[..count].copy_from_slice(&text[..count]);
        expected_written.value = count;
        let expected_reads = reads_tape(&words) as u32;
        let call = || {
            let line = String::from_utf8_lossy(&arguments);
            format!("reply {line:?} to {input:02X?} into {room}")
        };
        let answered = (reads, written, row, arguments_after, input_after);
        let expected = (
            expected_reads,
            expected_written,
            expected,
            arguments.clone(),
            input.clone(),
        );
        self.compare(
            Service::Reply,
            call,
            (number, answered),
            (status as u32, expected),
        );
    }

    // ---- comparing

    /// Counts a call, and ends the program where the two sides differ.
    fn compare<T: PartialEq + Debug>(
        &mut self,
        service: Service,
        call: impl Fn() -> String,
        proved: (u32, T),
        expected: (u32, T),
    ) {
        self.tally.add(service, expected.0);
        if proved != expected {
            println!("{}", call());
            println!("proved: {proved:?}");
            println!("reference: {expected:?}");
            println!("{} calls, differences 1", self.tally.calls());
            std::process::exit(1);
        }
    }
}

/// Lends a copy of a row to a call, and gives it back beside the answer.
fn lend<T: Clone, A>(lent: &[T], call: impl FnOnce(&[T]) -> A) -> (A, Vec<T>) {
    let mut row = lent.to_vec();
    let answer = call(&row);
    // The compiler may not take it for granted that the call left the row as it was.
    black_box(&mut row);
    (answer, row)
}

fn three_words(noise: &mut Noise) -> [u32; 3] {
    [0; 3].map(|_| noise.word())
}

fn four_words(noise: &mut Noise) -> [u32; 4] {
    [0; 4].map(|_| noise.word())
}

fn five_words(noise: &mut Noise) -> [u32; 5] {
    [0; 5].map(|_| noise.word())
}

fn four_exponents(noise: &mut Noise) -> [i64; 4] {
    [0; 4].map(|_| noise.number() as i64)
}

fn sixteen_exponents(noise: &mut Noise) -> [i64; 16] {
    [0; 16].map(|_| noise.number() as i64)
}

/// The table as the C interface has it: the exponent of start value j in register i is number 4 i + j.
fn row_by_row(rows: [[i64; 4]; 4]) -> [i64; 16] {
    std::array::from_fn(|at| rows[at / 4][at % 4])
}

/// Where in the tape a part of it stands.
fn offset(tape: &[u32], part: &[u32]) -> u32 {
    let bytes = part.as_ptr() as usize - tape.as_ptr() as usize;
    (bytes / size_of::<u32>()) as u32
}

/// The number of a listing: 6 for bytes that are no tape, else check's.
fn listing_refusal(bytes: &[u8]) -> u32 {
    if !bytes.len().is_multiple_of(4) {
        return services::refusal::LENGTH;
    }
    let words = bytes.chunks_exact(4);
    let tape: Vec<u32> = words
        .map(|four| u32::from_le_bytes([four[0], four[1], four[2], four[3]]))
        .collect();
    services::check(&tape).err().unwrap_or(0)
}

fn hexadecimal(tape: &[u32]) -> String {
    let words: Vec<String> = tape.iter().map(|word| format!("{word:08X}")).collect();
    format!("[{}]", words.join(" "))
}
