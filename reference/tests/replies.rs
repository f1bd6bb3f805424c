//! The tool's replies against docs/TOOL.md: each verb, each complaint, each reason.

mod common;

use common::*;
use reference::tool::{reply, Reply, Status};

const PAGE: &str = include_str!("../../docs/TOOL.md");

/// The reply to the words of a line, one blank between.
fn on(tape: &[u32], line: &str) -> Reply {
    let words: Vec<&[u8]> = line.split(' ').map(str::as_bytes).collect();
    reply(&words, &bytes(tape))
}

fn says(tape: &[u32], line: &str, status: Status, text: &str) {
    let reply = on(tape, line);
    assert_eq!(
        String::from_utf8_lossy(&reply.text),
        format!("{text}\n"),
        "{line}"
    );
    assert_eq!(reply.status, status, "{line}");
}

fn answers(tape: &[u32], line: &str, text: &str) {
    says(tape, line, Status::Answered, text);
}

fn refuses(tape: &[u32], line: &str, text: &str) {
    says(
        tape,
        line,
        Status::Refused,
        &format!("fibexp: refused {text}"),
    );
}

fn complains(line: &str, text: &str) {
    says(&[], line, Status::NotUnderstood, &format!("fibexp: {text}"));
}

#[test]
fn numbers() {
    let cases = [
        ("fibonacci 12", "144"),
        ("fibonacci 0000012", "144"),
        ("fibonacci 0x5D", "12200160415121876738"),
        ("fibonacci 0x5d", "12200160415121876738"),
        ("places 106", "10 6 3 1"),
        ("places 0", ""),
        ("number 10 6 3 1", "106"),
        ("number", "0"),
        ("hofstadter 0xFFFFFFFFFFFFFFFF", "11400714819323198485"),
        ("inverse 76 179", "106"),
        ("height 0", "1"),
        ("height 322", "13"),
        ("prime 359", "1"),
        ("prime 4294967295", "0"),
        ("mulmod 0xFFFFFFFF 0xFFFFFFFF 4294967291", "16"),
        ("mulmod 3 5 0", "0"),
        ("powmod 0 0 7", "1"),
        ("powmod 2 10 1", "0"),
        ("version", "fibexp 3.0.0"),
        ("--version", "fibexp 3.0.0"),
    ];
    for (line, text) in cases {
        answers(&[], line, text);
    }
}

#[test]
fn decoded_words() {
    let cases = [
        ("0x10000101", "heading 1"),
        ("0x10000F01", "heading 15"),
        ("0x20000003", "p 3"),
        ("0x30000000", "r 0"),
        ("0x4FFFFFFF", "k 268435455"),
        ("0x50000003", "mul 3 0"),
        ("0x6000000E", "div 2 3"),
        ("0x70000009", "swp 1 2"),
        ("0xF000000B", "end 11"),
        ("0", "none"),
        ("0x10000102", "none"),
        ("0x10001101", "none"),
        ("0x50000005", "none"),
        ("0x50000014", "none"),
        ("0x60000005", "none"),
        ("0x70000001", "none"),
        ("0x80000004", "none"),
        ("0xE0000004", "none"),
    ];
    for (word, text) in cases {
        answers(&[], &format!("decode {word}"), text);
    }
}

#[test]
fn tapes() {
    let tape = CASE_A;
    answers(&tape, "check", "0");
    answers(&tape, "load 2", "1 2 1 1 0");
    answers(&tape, "run 1 2 1 1 0 11", "1 2 1 1 11");
    answers(&tape, "run 1 2 1 1 11 0", "1 2 1 1 0");
    answers(&tape, "step 1 2 1 1 0 0", "2 2 1 1 1");
    for backward in ["1", "2", "0xFFFFFFFF"] {
        answers(&tape, &format!("step 2 2 1 1 1 {backward}"), "1 2 1 1 0");
    }
    answers(&tape, "preview 1 2 1 1 0 11", "1 2 1 1\n3 3 5");
    answers(&tape, "preview 1 2 1 1 0xB 0", "1 2 1 1\n3 3 5");
    answers(&tape, "preview 1 2 1 1 0 1", "2 2 1 1\n1 0 0");
    answers(&tape, "preview 2 2 1 1 1 0", "1 2 1 1\n0 1 0");
    for here in ["0", "5", "11"] {
        let line = format!("preview 1 2 2 1 {here} {here}");
        answers(&tape, &line, "1 2 2 1\n0 0 0");
    }
    answers(&tape, "power 2", "2\n1 2 1 1 11");
    answers(&tape, "raise 2 2 2", "2 2 2");
    answers(&tape, "raise", "");
    answers(&built(359, 179, 76, 3), "raise 4 0x10 064", "266 33 162");
    answers(&tape, "trace 11", "0 1 0 0");
    answers(&tape, "table 0", "1 0 0 0\n0 1 0 0\n0 0 1 0\n0 0 0 1");
    answers(&tape, "table 0xB", "1 0 0 0\n1 1 1 0\n-2 0 -1 0\n0 0 0 1");
    answers(&tape, "cut 0 2", "1342177284 1879048196");
    answers(&tape, "cut 5 5", "");
    // An empty list, a request, one with numbers left over, tapes that aren't inside.
    let far = built(359, 179, 76, 1);
    answers(&far, "play 1 4 1 1 7", "1 4 1 1 7");
    answers(&far, "play 1 4 1 1 0 0 88 0 83", "1 266 1 1 83 0");
    answers(&far, "play 1 4 1 1 0 0 88 0 83 0 88 0", "1 266 1 1 83 0");
    answers(&far, "play 0 4 1 1 0 0 88 0 83", "0 4 1 1 0 9");
    answers(
        &far,
        "play 1 4 1 1 0 0 89 0 83 88 0 0 83 0 88 0 84",
        "1 4 1 1 0 6 6 10",
    );
    // Turns: to 0 and to the end, none, and to a position that the tape doesn't have, which stays.
    answers(&far, "play 1 4 1 1 9 0 88 1 83", "1 266 1 1 83 0");
    answers(&far, "play 1 266 1 1 0 0 88 84 0", "1 4 1 1 0 0");
    answers(&far, "play 1 4 1 1 84 0 88 0 83", "1 4 1 1 84 10");
    answers(&far, "play 1 4 1 1 0 0 88 85 0", "1 4 1 1 84 10");
    answers(
        &far,
        "play 1 4 1 1 0 0 88 4294967295 0 0 88 0 0",
        "1 4 1 1 4294967294 10 10",
    );
    let build = on(&[], "build 3 2 1 basic");
    assert_eq!((build.status, build.text), (Status::Answered, bytes(&tape)));
    assert_eq!(on(&[], "build 3 2 1 0x1").text, bytes(&tape));
}

#[test]
fn usage_is_that_of_the_page() {
    let start = PAGE.find("usage: fibexp").expect("the page has a usage");
    let end = start + PAGE[start..].find("```").expect("its end");
    let usage = &PAGE[start..end];
    for line in ["help", "--help", "-h"] {
        answers(&[], line, usage.trim_end_matches('\n'));
    }
    let none = reply(&[], b"");
    assert_eq!(none.status, Status::NotUnderstood);
    assert_eq!(none.text, usage.as_bytes());
}

#[test]
fn complaints() {
    complains(
        "Build 3 2 1 1",
        "\"Build\": no such verb; fibexp help lists them",
    );
    complains("", "\"\": no such verb; fibexp help lists them");
    // Only a script has these.
    for verb in ["tape", "append", "change", "drop", "behind", "room"] {
        let text = format!("\"{verb}\": no such verb; fibexp help lists them");
        complains(verb, &text);
    }
    complains("script", "script is a verb of the program fibexp alone");
    complains("script 1", "script takes 0 parameters, 1 given");
    complains("build 3 2 1", "build takes 4 parameters, 3 given");
    complains("check all", "check takes 0 parameters, 1 given");
    complains("trace", "trace takes 1 parameter, 0 given");
    complains("table", "table takes 1 parameter, 0 given");
    complains("table 1 2", "table takes 1 parameter, 2 given");
    complains("--help me", "--help takes 0 parameters, 1 given");
    complains("step 1 2 3 4 0", "step takes 6 parameters, 5 given");
    for (line, given) in [("", 0), (" 1 2 3 4 0", 5), (" 1 2 3 4 0 0 0", 7)] {
        let text = format!("preview takes 6 parameters, {given} given");
        complains(&format!("preview{line}"), &text);
    }
    complains("previe", "\"previe\": no such verb; fibexp help lists them");
    complains("play 1 2 3 4", "play takes 5 to 64 parameters, 4 given");
    for (verb, count, takes) in [
        ("number", 65, "0 to 64"),
        ("play", 65, "5 to 64"),
        ("raise", 67, "0 to 66"),
    ] {
        let many = verb.to_string() + &" 1".repeat(count);
        let text = format!("{verb} takes {takes} parameters, {count} given");
        complains(&many, &text);
    }
    let not_32 = "not a whole number from 0 to 4294967295";
    for word in [
        "abc",
        "",
        "-1",
        "+1",
        "0x",
        "0X1",
        "1x",
        "12a",
        "4294967296",
        "0x100000000",
    ] {
        complains(
            &format!("fibonacci {word}"),
            &format!("\"{word}\": {not_32}"),
        );
    }
    for line in [
        "preview x 1 1 1 0 0",
        "preview 1 1 1 1 0 x",
        "preview 1 1 1 1 x 4294967296",
    ] {
        complains(line, &format!("\"x\": {not_32}"));
    }
    complains(
        "number 3 256 x",
        "\"256\": not a whole number from 0 to 255",
    );
    complains(
        "hofstadter 18446744073709551616",
        "\"18446744073709551616\": not a whole number from 0 to 18446744073709551615",
    );
    // The first that isn't read, in order; a name is a variant in its own place alone.
    complains("build basic x 1 y", &format!("\"basic\": {not_32}"));
    let no_variant = "no variant; basic, dual, hybrid or 1 to 3";
    complains("build 3 2 1 simple", &format!("\"simple\": {no_variant}"));
    complains(
        "build 9 9 9 4294967296",
        &format!("\"4294967296\": {no_variant}"),
    );
}

#[test]
fn quoted_words() {
    let said = |word: &[u8]| String::from_utf8(reply(&[word], b"").text).unwrap();
    let tail = ": no such verb; fibexp help lists them\n";
    let odd = said(b"a\x00\x1f \"\\~\x7f\xff");
    assert_eq!(
        odd,
        format!("fibexp: \"a\\x00\\x1f \\x22\\x5c~\\x7f\\xff\"{tail}")
    );
    let whole = "w".repeat(64);
    assert_eq!(said(whole.as_bytes()), format!("fibexp: \"{whole}\"{tail}"));
    let longer = "w".repeat(65);
    assert_eq!(
        said(longer.as_bytes()),
        format!("fibexp: \"{whole}...\"{tail}")
    );
    // The bytes are counted before they are spelled out.
    let bells = [7; 65];
    let spelled = "\\x07".repeat(64);
    assert_eq!(said(&bells), format!("fibexp: \"{spelled}...\"{tail}"));
}

#[test]
fn reasons_of_numbers() {
    refuses(
        &[],
        "build 9 2 1 basic",
        "1: p must be a prime from 3 to 268435455",
    );
    refuses(
        &[],
        "build 7 4 1 basic",
        "2: r must be at least 2 and divide p-1",
    );
    let exponent = "3: k must be from 1 to r-1 and share no factor with r";
    refuses(&[], "build 5 4 2 basic", exponent);
    refuses(&[], "inverse 2 4", exponent);
    let variant = "4: the variant must be that of a named program";
    refuses(&[], "build 3 2 1 free", variant);
    refuses(&[], "build 3 2 1 4", variant);
    refuses(&[], "inverse 1 1", "2: r must be at least 2");
    refuses(&[], "fibonacci 94", "13: the index must be at most 93");
    refuses(
        &[],
        "number 1 2",
        "13: not the places of a Zeckendorf form, from 92 down to 1",
    );
    refuses(
        &[],
        "number 92 90 88",
        "12: the sum of the places exceeds 64 bits",
    );
}

#[test]
fn reasons_of_tapes() {
    let length = "6: a tape has 5 to 512 words";
    for line in [
        "check",
        "load 0",
        "run 0 0 0 0 9 9",
        "step 0 0 0 0 9 0",
        "step 1 1 1 1 0 0",
        "preview 0 0 0 0 9 9",
        "preview 1 1 1 1 0 0",
        "power 0",
        "raise 0",
        "raise",
        "trace 9",
        "table 9",
        "cut 9 0",
    ] {
        refuses(&[], line, length);
    }
    refuses(&free(7, &[step_word(MUL, 0, 1); 508]), "check", length);
    answers(&[], "list", "refused 6");
    let with = |at: usize, word: u32| {
        let mut tape = CASE_A;
        tape[at] = word;
        tape
    };
    let layout = "7: a word, its place or the end's count breaks the layout";
    refuses(&with(15, 0xF000000A), "check", layout);
    refuses(
        &with(0, 0x10000401),
        "check",
        "4: the tape's variant is none of those known",
    );
    refuses(
        &with(1, 0x20000009),
        "check",
        "1: p must be a prime from 3 to 268435455",
    );
    refuses(
        &with(2, 0x30000004),
        "check",
        "2: r must be at least 2 and divide p-1",
    );
    refuses(
        &with(3, 0x40000000),
        "check",
        "3: k must be from 1 to r-1 and share no factor with r",
    );
    let stranger = "8: the steps aren't those built for the tape's p, r, k and variant";
    refuses(&with(4, 0x60000004), "cut 0 0", stranger);
    refuses(&with(4, 0x60000004), "preview 0 0 0 0 12 12", stranger);
    answers(&with(4, 0x60000004), "list", "refused 8");
    refuses(&CASE_A, "load 0", "9: the base must be from 1 to p-1");
    refuses(&CASE_A, "power 3", "9: the base must be from 1 to p-1");
    for line in [
        "run 1 3 1 1 0 11",
        "step 1 3 1 1 0 0",
        "step 1 3 1 1 99 1",
        "preview 1 3 1 1 0 11",
        "preview 1 2 0 1 11 0",
        "preview 1 2 1 3 12 12",
    ] {
        refuses(&CASE_A, line, "9: each register must be from 1 to p-1");
    }
    for line in [
        "run 1 2 1 1 0 12",
        "run 1 2 1 1 12 0",
        "run 1 2 1 1 4294967295 4294967295",
        "step 1 2 1 1 11 0",
        "step 1 2 1 1 0 1",
        "step 1 2 1 1 12 0",
        "step 1 2 1 1 12 1",
        "step 1 2 1 1 4294967295 0",
        "step 1 2 1 1 4294967295 1",
        "preview 1 2 1 1 0 12",
        "preview 1 2 1 1 12 0",
        "preview 1 2 1 1 12 12",
        "preview 1 2 1 1 0 4294967295",
        "preview 1 2 1 1 4294967295 4294967295",
        "trace 12",
        "table 12",
        "table 4294967295",
    ] {
        let position = "10: a position is outside 0 to the step count";
        refuses(&CASE_A, line, position);
    }
    let cut = "10: first and last must be positions up to the step count, first at most last";
    refuses(&CASE_A, "cut 3 2", cut);
    for line in ["load 3", "load 1", "power 1"] {
        refuses(&built(7, 3, 2, 1), line, "11: the base's order isn't r");
    }
    let named = "4: the variant must be that of a named program";
    refuses(&free(7, &[]), "raise 0", named);
    refuses(&with(0, 0x10000401), "raise", named);
    for count in [65, 66] {
        let many = "raise".to_string() + &" 0".repeat(count);
        refuses(&CASE_A, &many, "14: a row has at most 64 bases");
    }
    refuses(&CASE_A, "raise 2 3", "9: the base must be from 1 to p-1");
    for line in ["raise 2 3 0", "raise 2 1 0"] {
        refuses(&built(7, 3, 2, 1), line, "11: the base's order isn't r");
    }
    let growing: Vec<u32> = (0..100).map(|i| step_word(MUL, i % 2, 1 - i % 2)).collect();
    let range = "12: an exponent leaves -2^62 to 2^62";
    refuses(&free(3, &growing), "trace 100", range);
    refuses(&free(3, &growing), "table 100", range);
    // Of start value 1 alone they don't.
    let aside: Vec<u32> = (0..100)
        .map(|i| step_word(MUL, 2 + i % 2, 3 - i % 2))
        .collect();
    refuses(&free(3, &aside), "table 100", range);
    answers(&free(3, &aside), "trace 100", "0 1 0 0");
}

#[test]
fn bytes_that_are_no_whole_words() {
    let part = "fibexp: refused 6: standard input isn't whole words of 4 bytes\n";
    for line in [
        "check",
        "load 2",
        "step 1 1 1 1 0 0",
        "preview 1 1 1 1 0 0",
        "raise 2 0",
        "trace 0",
        "table 0",
    ] {
        let words: Vec<&[u8]> = line.split(' ').map(str::as_bytes).collect();
        for count in [1, 5, 21, 2047, 2049] {
            let reply = reply(&words, &vec![0; count]);
            assert_eq!(
                String::from_utf8(reply.text).unwrap(),
                part,
                "{line}, {count}"
            );
        }
    }
    let long = reply(&[b"check"], &[0; 2052]);
    assert_eq!(long.text, b"fibexp: refused 6: a tape has 5 to 512 words\n");
    assert_eq!(reply(&[b"list"], b"12345").text, b"refused 6\n");
    let play: Vec<&[u8]> = "play 1 2 3 4 5 0 1 0 0"
        .split(' ')
        .map(str::as_bytes)
        .collect();
    assert_eq!(reply(&play, b"12345").text, b"1 2 3 4 5 6\n");
    // A tape with words behind it, which play finds unless standard input is too long.
    let play: Vec<&[u8]> = "play 2 3 1 1 0 0 6 0 1"
        .split(' ')
        .map(str::as_bytes)
        .collect();
    let mut row = free(7, &[step_word(MUL, 0, 1)]);
    row.resize(512, 0);
    assert_eq!(reply(&play, &bytes(&row)).text, b"6 3 1 1 1 0\n");
    row.push(0);
    assert_eq!(reply(&play, &bytes(&row)).text, b"2 3 1 1 0 6\n");
    // A call that takes no tape is refused for its own reason, whatever the bytes.
    let alone = reply(&[b"fibonacci", b"94"], b"12345");
    assert_eq!(
        alone.text,
        b"fibexp: refused 13: the index must be at most 93\n"
    );
}

/// The cases of tests/bytes.txt, which a shell runs with the tool: the input, the status, the text and the
/// words, with a bar between.
#[test]
fn the_cases_of_bytes() {
    let cases = include_str!("../../tests/bytes.txt");
    let lines = cases
        .lines()
        .filter(|line| !line.is_empty() && !line.starts_with('#'));
    let mut count = 0;
    for line in lines {
        let fields: Vec<&str> = line.split('|').collect();
        let words: Vec<&[u8]> = fields[3..].iter().map(|word| word.as_bytes()).collect();
        let reply = reply(&words, &input_of(fields[0]));
        assert_eq!((reply.status as u8).to_string(), fields[1], "{line}");
        assert_eq!(
            String::from_utf8(reply.text).unwrap(),
            format!("{}\n", fields[2]),
            "{line}"
        );
        count += 1;
    }
    assert!(count >= 15);
}

/// `zeros N`, or text with bytes as a backslash and three octal digits.
fn input_of(field: &str) -> Vec<u8> {
    if let Some(count) = field.strip_prefix("zeros ") {
        return vec![0; count.parse().unwrap()];
    }
    let mut parts = field.split('\\');
    let mut input = parts.next().unwrap().as_bytes().to_vec();
    for part in parts {
        input.push(u8::from_str_radix(&part[..3], 8).unwrap());
        input.extend(part[3..].bytes());
    }
    input
}
