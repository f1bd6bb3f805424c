//! The drawn script meets every refusal of every verb often, and stays small.

mod common;

use common::divisors;
use reference::drawing::calls;
use reference::power;
use reference::script::script;
use std::collections::HashMap;
use std::ops::RangeInclusive;

/// The refusals that documents 01 and 02 list for the services behind the verbs.
const REFUSALS: [(&str, &[u32]); 15] = [
    ("fibonacci", &[13]),
    ("places", &[5]),
    ("number", &[12, 13]),
    ("inverse", &[2, 3]),
    ("build", &[1, 2, 3, 4, 5]),
    ("check", &[6, 7, 4, 1, 2, 3, 8]),
    ("load", &[6, 7, 4, 1, 2, 3, 8, 9, 11]),
    ("run", &[6, 7, 4, 1, 2, 3, 8, 9, 10]),
    ("step", &[6, 7, 4, 1, 2, 3, 8, 9, 10]),
    ("preview", &[6, 7, 4, 1, 2, 3, 8, 9, 10]),
    ("power", &[6, 7, 4, 1, 2, 3, 8, 9, 11]),
    ("raise", &[6, 7, 4, 1, 2, 3, 8, 14, 9, 11]),
    ("trace", &[6, 7, 4, 1, 2, 3, 8, 10, 12]),
    ("table", &[6, 7, 4, 1, 2, 3, 8, 10, 12]),
    ("cut", &[6, 7, 4, 1, 2, 3, 8, 10]),
];
const OFTEN: usize = 20;
const FEW: usize = 8;
const SOME: usize = 4;
/// A position far past the end of any tape.
const FAR: u32 = 1 << 31;

/// A line of a script, what it prints, and how many words the tape at hand then has.
struct Told {
    line: String,
    text: String,
    words: u32,
}

impl Told {
    fn verb(&self) -> &str {
        self.line.split(' ').next().unwrap_or_default()
    }

    /// 0 for an answer, else the refusal's number; none where the line isn't understood. `list` has its
    /// refusals among its answers.
    fn number(&self) -> Option<u32> {
        let refused = ["fibexp: refused ", "refused "];
        match refused
            .iter()
            .find_map(|begin| self.text.strip_prefix(begin))
        {
            Some(rest) => rest.split([':', '\n']).next().unwrap().parse().ok(),
            None if self.text.starts_with("fibexp: ") => None,
            None => Some(0),
        }
    }
}

/// The numbers of a line: its parameters, or what it prints.
fn numbers(line: &str) -> Vec<u32> {
    let number = |word: &str| match word.strip_prefix("0x") {
        Some(digits) => u32::from_str_radix(digits, 16).ok(),
        None => word.parse().ok(),
    };
    line.split_whitespace().filter_map(number).collect()
}

/// Each line of a script, what it prints, and what another line behind it then prints.
fn with_another(lines: &[u8], another: impl Fn(&[u8]) -> &'static str) -> Vec<[String; 3]> {
    let split = |text: &[u8]| String::from_utf8_lossy(text).into_owned();
    let lines: Vec<&[u8]> = lines
        .strip_suffix(b"\n")
        .unwrap()
        .split(|&byte| byte == b'\n')
        .collect();
    // A comment behind each line, which is copied, ends what the line prints.
    let marked: Vec<u8> = lines
        .iter()
        .flat_map(|line| {
            [
                line,
                "\n#@\n".as_bytes(),
                another(line).as_bytes(),
                b"\n#@\n",
            ]
            .concat()
        })
        .collect();
    let said = split(&script(&marked));
    let said: Vec<&str> = said.split("#@\n").collect();
    assert_eq!(said.len(), 2 * lines.len() + 1);
    let each = lines.iter().zip(said.chunks_exact(2));
    each.map(|(line, said)| [split(line), said[0].to_string(), said[1].to_string()])
        .collect()
}

/// `drop 0` changes nothing, and tells how many words there are.
fn told(lines: &[u8]) -> Vec<Told> {
    let each = with_another(lines, |_| "drop 0").into_iter();
    each.map(|[line, text, words]| Told {
        line,
        text,
        words: words.trim_end().parse().unwrap(),
    })
    .collect()
}

/// How often each verb gave each refusal, 0 for an answer.
fn tally(told: &[Told]) -> HashMap<(String, u32), usize> {
    let mut counts = HashMap::new();
    for line in told {
        if let Some(number) = line.number() {
            *counts.entry((line.verb().to_string(), number)).or_default() += 1;
        }
    }
    counts
}

#[test]
fn every_refusal_often() {
    let lines = calls::script();
    let told = told(&lines);
    let counts = tally(&told);
    let often = |verb: &str, number: u32| {
        let count = counts
            .get(&(verb.to_string(), number))
            .copied()
            .unwrap_or(0);
        assert!(count >= OFTEN, "{verb} {number}: {count} times");
    };
    for (verb, numbers) in REFUSALS {
        often(verb, 0);
        numbers.iter().for_each(|&number| often(verb, number));
    }
    [0, 6, 7, 4, 1, 2, 3, 8]
        .iter()
        .for_each(|&number| often("list", number));
    for verb in [
        "hofstadter",
        "height",
        "prime",
        "mulmod",
        "powmod",
        "decode",
        "play",
    ] {
        often(verb, 0);
    }
    let begins = |text: &str| {
        told.iter()
            .filter(|line| line.text.starts_with(text))
            .count()
    };
    assert!(begins("fibexp: a row of tapes has at most 4096 words") >= OFTEN);
    assert!(begins("fibexp: \"") >= 5 * OFTEN);
    // Listings that don't fit their room.
    assert!(begins("0 5\n") >= OFTEN);
}

/// Rows of bases are answered up to 64, and refused for their length above.
#[test]
fn rows_of_bases_of_every_length() {
    let told = told(&calls::script());
    let count = |length: usize, is_it: fn(&str) -> bool| {
        let raises = told.iter().filter(|line| {
            let words = line.line.split(' ').count();
            line.verb() == "raise" && words == length + 1 && is_it(&line.text)
        });
        raises.count()
    };
    let answered = |text: &str| !text.starts_with("fibexp: ");
    for length in [0, 1, 2, 3, 63, 64] {
        assert!(count(length, answered) >= FEW, "{length} bases");
    }
    for length in [65, 66] {
        assert_eq!(count(length, answered), 0);
        let refused = |text: &str| text.starts_with("fibexp: refused 14: ");
        assert!(count(length, refused) >= FEW, "{length} bases");
    }
}

/// What a base is for a p and r.
#[derive(Clone, Copy, Debug, PartialEq, Eq, Hash)]
enum Kind {
    /// Of order r.
    Proper,
    /// Its power r is 1, and a smaller one too.
    Lesser,
    /// Its power r isn't 1.
    Foreign,
    Outside,
}

impl Kind {
    /// The divisors of r are given: one of them is the order of a base whose power r is 1.
    fn of(base: u32, p: u32, r: u32, divisors: &[u32]) -> Kind {
        if base == 0 || base >= p {
            Kind::Outside
        } else if power(base, r, p) != 1 {
            Kind::Foreign
        } else if divisors.iter().any(|&d| d < r && power(base, d, p) == 1) {
            Kind::Lesser
        } else {
            Kind::Proper
        }
    }

    /// What load on a named program gives.
    fn number(self) -> u32 {
        match self {
            Kind::Proper => 0,
            Kind::Lesser | Kind::Foreign => 11,
            Kind::Outside => 9,
        }
    }
}

/// A line that bases are given to, on a tape that is accepted.
struct Given {
    verb: String,
    number: u32,
    bases: Vec<u32>,
    /// What the first line of the tape's listing has: r is 0 where it is made by hand.
    p: u32,
    r: u32,
}

impl Given {
    /// None where the tape is refused, or the line isn't understood: then a word is no number.
    fn of(told: Told, listing: &str) -> Option<Given> {
        let header: Vec<&str> = listing.lines().next()?.split(' ').collect();
        let field = |label: &str| {
            let mut values = header.iter().filter_map(|word| word.strip_prefix(label));
            values.next()?.parse().ok()
        };
        Some(Given {
            verb: told.verb().to_string(),
            number: told.number()?,
            bases: numbers(&told.line),
            p: field("p=")?,
            r: field("r=")?,
        })
    }

    fn kinds(&self, r: u32) -> Vec<Kind> {
        let divisors = divisors(r);
        let kind = |&base: &u32| Kind::of(base, self.p, r, &divisors);
        self.bases.iter().map(kind).collect()
    }
}

fn given_bases(lines: &[u8]) -> Vec<Given> {
    let takes_bases = |line: &[u8]| {
        let verbs: [&[u8]; 3] = [b"load ", b"power ", b"raise "];
        verbs.iter().any(|verb| line.starts_with(verb))
    };
    let each = with_another(lines, |line| if takes_bases(line) { "list" } else { "" });
    let given = each.into_iter().map(|[line, text, listing]| {
        let words = 0;
        takes_bases(line.as_bytes())
            .then(|| Given::of(Told { line, text, words }, &listing))
            .flatten()
    });
    given.flatten().collect()
}

/// Loads and powers by named programs are given bases of each kind often, most of them of order r.
#[test]
fn bases_of_every_order() {
    let mut counts: HashMap<Kind, usize> = HashMap::new();
    let given = given_bases(&calls::script());
    for line in given
        .iter()
        .filter(|line| line.verb != "raise" && line.r > 0)
    {
        let kind = line.kinds(line.r)[0];
        assert_eq!(line.number, kind.number(), "{:?}", line.bases);
        *counts.entry(kind).or_default() += 1;
    }
    let all: usize = counts.values().sum();
    for kind in [Kind::Proper, Kind::Lesser, Kind::Foreign, Kind::Outside] {
        assert!(counts[&kind] >= OFTEN, "{counts:?}");
    }
    assert!(2 * counts[&Kind::Proper] > all, "{counts:?}");
}

/// Rows of named programs have a base of smaller order at the first place, inside and last, alone and beside one
/// out of range, before it and behind it; about half of the rows are answered.
#[test]
fn rows_with_a_base_of_smaller_order() {
    let given = given_bases(&calls::script());
    let rows = given
        .iter()
        .filter(|line| line.verb == "raise" && line.r > 0);
    let (mut answered, mut refused) = (0, 0);
    let mut places: HashMap<&str, usize> = HashMap::new();
    let mut beside: HashMap<u32, usize> = HashMap::new();
    for row in rows.filter(|row| row.number != 14) {
        let kinds = row.kinds(row.r);
        let first = kinds.iter().find(|&&kind| kind != Kind::Proper);
        let number = first.map_or(0, |kind| kind.number());
        assert_eq!(row.number, number, "{:?}", row.bases);
        answered += (number == 0) as usize;
        refused += (number != 0) as usize;
        let Some(at) = kinds.iter().position(|&kind| kind == Kind::Lesser) else {
            continue;
        };
        if kinds.contains(&Kind::Outside) {
            *beside.entry(number).or_default() += 1;
        } else if kinds.len() > 2 {
            let place = match at {
                0 => "first",
                _ if at == kinds.len() - 1 => "last",
                _ => "inside",
            };
            *places.entry(place).or_default() += 1;
        }
    }
    for place in ["first", "inside", "last"] {
        assert!(places[place] >= FEW, "{places:?}");
    }
    assert!(beside[&9] >= SOME && beside[&11] >= SOME, "{beside:?}");
    assert!(5 * answered >= 4 * refused, "{answered} {refused}");
}

/// Chains begin with a load by a program made by hand: most bases are of order r, some of smaller order.
#[test]
fn chains_of_loaded_bases() {
    let orders = HashMap::from([(31, 10), (359, 179), (65537, 256)]);
    let mut counts: HashMap<Kind, usize> = HashMap::new();
    let given = given_bases(&calls::script());
    // The last ones: no load comes behind the lists.
    for line in given.iter().rev().take_while(|line| line.r == 0) {
        let Some(&r) = orders.get(&line.p) else { break };
        assert_eq!(line.number, 0);
        *counts.entry(line.kinds(r)[0]).or_default() += 1;
    }
    assert!(counts[&Kind::Lesser] >= OFTEN, "{counts:?}");
    assert!(
        counts[&Kind::Proper] > 2 * counts[&Kind::Lesser],
        "{counts:?}"
    );
}

/// A table is asked behind each trace, at the same position. It is refused for the range where the trace is,
/// and at times where the trace is answered.
#[test]
fn tables_leave_the_range_beside_traces() {
    let told = told(&calls::script());
    let refused = |text: &str| text.starts_with("fibexp: refused 12: ");
    let answered = |text: &str| !text.starts_with("fibexp: ");
    let beside = told
        .iter()
        .zip(&told[1..])
        .filter(|(first, second)| first.verb() == "trace" && second.verb() == "table");
    let mut alone = 0;
    for (trace, table) in beside {
        let (traced, tabled) = (&trace.text, &table.text);
        assert!(refused(tabled) || !refused(traced), "{}", table.line);
        alone += (refused(tabled) && answered(traced)) as usize;
    }
    assert!(alone >= OFTEN, "{alone} times");
}

/// Where a position lies beside a tape's step count; none where nothing tells it from others.
fn place(position: u32, count: u32) -> Option<&'static str> {
    match position {
        0 => Some("first"),
        _ if position == count - 1 => Some("before the last"),
        _ if position == count => Some("last"),
        _ if position == count + 1 => Some("past the last"),
        _ if position >= FAR => Some("far"),
        _ => None,
    }
}

/// Of the lines of a verb that are answered, or refused for a position: how often so, by what tells them
/// apart. Tapes have three steps or more, so that the places differ.
fn answered_or_refused_for_position(
    told: &[Told],
    verb: &str,
    what: impl Fn(&[u32], u32) -> Vec<(&'static str, &'static str)>,
) -> HashMap<(&'static str, &'static str, u32), usize> {
    let mut counts = HashMap::new();
    let lines = told.iter().filter(|line| line.verb() == verb);
    for line in lines.filter(|line| line.words >= 8) {
        let Some(number @ (0 | 10)) = line.number() else {
            continue;
        };
        for (first, second) in what(&numbers(&line.line), line.words - 5) {
            *counts.entry((first, second, number)).or_default() += 1;
        }
    }
    counts
}

/// Runs and previews begin and end at both ends, and are refused just past the last position and far from
/// it.
#[test]
fn runs_from_and_to_both_ends() {
    let told = told(&calls::script());
    for verb in ["run", "preview"] {
        from_and_to_both_ends(&told, verb);
    }
}

fn from_and_to_both_ends(told: &[Told], verb: &str) {
    let counts = answered_or_refused_for_position(told, verb, |numbers, count| {
        let from = place(numbers[4], count).map(|place| ("from", place));
        let to = place(numbers[5], count).map(|place| ("to", place));
        from.into_iter().chain(to).collect()
    });
    let often = |way, place, number| counts.get(&(way, place, number)).copied().unwrap_or(0);
    for way in ["from", "to"] {
        for place in ["first", "before the last", "last"] {
            assert!(often(way, place, 0) >= FEW, "{verb} {way} {place}");
        }
        for place in ["past the last", "far"] {
            assert_eq!(often(way, place, 0), 0, "{verb} {way} {place}");
            assert!(often(way, place, 10) >= FEW, "{verb} {way} {place}");
        }
    }
}

/// Behind each preview stands the run that it shows: refused alike, else with the same registers; the counts
/// add up to the distance, and to none where the target is the record's own position. Forward and backward
/// ones have different counts of mul and div often.
#[test]
fn previews_before_their_runs() {
    let told = told(&calls::script());
    let is_preview = |line: &Told| line.verb() == "preview" && line.number().is_some();
    let (mut uneven, mut here) = ([0; 2], 0);
    for two in told.windows(2).filter(|two| is_preview(&two[0])) {
        let [preview, run] = two else { continue };
        let asked = numbers(&preview.line);
        assert_eq!(run.verb(), "run", "{}", preview.line);
        assert_eq!(numbers(&run.line), asked);
        assert_eq!(run.number(), preview.number(), "{}", preview.line);
        if preview.number() != Some(0) {
            assert_eq!(run.text, preview.text);
            continue;
        }
        let (from, to) = (asked[4], asked[5]);
        let (shown, reached) = (numbers(&preview.text), numbers(&run.text));
        assert_eq!(preview.text.lines().count(), 2);
        assert_eq!((shown.len(), reached.len()), (7, 5));
        assert_eq!((&shown[..4], to), (&reached[..4], reached[4]));
        assert_eq!(shown[4..].iter().sum::<u32>(), from.abs_diff(to));
        uneven[(to < from) as usize] += (shown[4] != shown[5]) as usize;
        here += (from == to) as usize;
    }
    assert!(uneven[0] >= OFTEN && uneven[1] >= OFTEN, "{uneven:?}");
    assert!(here >= OFTEN, "{here} times");
}

/// Of the previews that only a position can refuse: the target at both ends, one past the last and the
/// largest number, each from positions that aren't refused.
#[test]
fn targets_of_previews() {
    let told = told(&calls::script());
    let counts = answered_or_refused_for_position(&told, "preview", |numbers, count| {
        let to = match numbers[5] {
            _ if numbers[4] > count => None,
            u32::MAX => Some("the largest number"),
            to => place(to, count),
        };
        to.map(|place| ("to", place)).into_iter().collect()
    });
    let targets = [
        ("first", 0),
        ("last", 0),
        ("past the last", 10),
        ("the largest number", 10),
    ];
    for (target, number) in targets {
        let often = |number| counts.get(&("to", target, number)).copied().unwrap_or(0);
        assert!(often(number) >= OFTEN, "{target}");
        assert_eq!(often(10 - number), 0, "{target}");
    }
}

/// Single steps both ways from both ends, and from positions that aren't there.
#[test]
fn steps_both_ways_from_both_ends() {
    let told = told(&calls::script());
    let counts = answered_or_refused_for_position(&told, "step", |numbers, count| {
        let way = if numbers[5] == 0 {
            "forward"
        } else {
            "backward"
        };
        let at = place(numbers[4], count).map(|place| (way, place));
        at.into_iter().collect()
    });
    let cases = [
        ("forward", "first", 0),
        ("forward", "before the last", 0),
        ("forward", "last", 10),
        ("forward", "past the last", 10),
        ("forward", "far", 10),
        ("backward", "first", 10),
        ("backward", "before the last", 0),
        ("backward", "last", 0),
        ("backward", "past the last", 10),
        ("backward", "far", 10),
    ];
    for (way, place, number) in cases {
        let often = |number| counts.get(&(way, place, number)).copied().unwrap_or(0);
        assert!(often(number) >= FEW, "{way} {place}");
        assert_eq!(often(10 - number), 0, "{way} {place}");
    }
    // Each number but 0 says backward.
    for direction in [0, 1, 2, u32::MAX] {
        let steps = told.iter().filter(|line| line.verb() == "step");
        let such = steps.filter(|line| numbers(&line.line).get(5) == Some(&direction));
        assert!(such.count() >= FEW, "{direction}");
    }
}

/// The runs of a list: the turn and the number of each.
fn runs_of_list(told: &Told) -> Vec<(u32, u32)> {
    let (asked, said) = (numbers(&told.line), numbers(&told.text));
    let requests = asked[5..].chunks_exact(4);
    let turns = requests.map(|request| request[2]);
    turns.zip(said[5..].iter().copied()).collect()
}

/// Runs of lists with a turn and without one meet each refusal; those behind a turn far past the end are
/// refused for it, and at times the next one begins where a refused run's turn has left the record.
#[test]
fn lists_with_turns() {
    let told = told(&calls::script());
    let is_play = |line: &&Told| line.verb() == "play" && line.number() == Some(0);
    let lists: Vec<Vec<(u32, u32)>> = told.iter().filter(is_play).map(runs_of_list).collect();
    let count = |turns: RangeInclusive<u32>, refusal: u32| {
        let is_it = |&&(turn, number): &&(u32, u32)| turns.contains(&turn) && number == refusal;
        lists.iter().flatten().filter(is_it).count()
    };
    for refusal in [0, 6, 7, 4, 1, 2, 3, 8, 9, 10] {
        let (without, with) = (count(0..=0, refusal), count(1..=u32::MAX, refusal));
        assert!(
            without >= FEW && with >= FEW,
            "{refusal}: {without}, {with}"
        );
    }
    assert!(count(1..=1, 0) >= OFTEN);
    assert!(count(FAR..=u32::MAX, 10) >= FEW);
    assert_eq!(count(FAR..=u32::MAX, 0), 0);
    let goes_on = |two: &&[(u32, u32)]| two[0].0 > 1 && two[0].1 != 0 && two[1] == (0, 0);
    let behind = lists.iter().flat_map(|list| list.windows(2));
    assert!(behind.filter(goes_on).count() >= FEW);
}

#[test]
fn the_script_is_the_same_each_time_and_small() {
    let lines = calls::script();
    assert_eq!(lines, calls::script());
    let calls = lines
        .split(|&byte| byte == b'\n')
        .filter(|line| !line.starts_with(b"room"));
    assert!(calls.count() >= 8000);
    assert!(script(&lines).len() < 3_000_000);
}
