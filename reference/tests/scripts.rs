//! Scripts against docs/TOOL.md.

mod common;

use common::*;
use reference::script::script;

fn prints(lines: &str, text: &str) {
    let said = script(lines.as_bytes());
    assert_eq!(String::from_utf8_lossy(&said), text, "{lines}");
}

const NO_VERB: &str = ": no such verb; fibexp help lists them\n";

#[test]
fn lines_that_are_copied() {
    prints("", "");
    prints("\n\n", "\n\n");
    prints("# a = b\n#", "# a = b\n#\n");
    prints(" #\n", &format!("fibexp: \"\"{NO_VERB}"));
}

#[test]
fn verdicts() {
    prints("fibonacci 12 = 144\n", "144\n= 144: yes\n");
    prints("fibonacci 12 = 145\n", "144\n= 145: no\n");
    prints("places 0 = \n", "\n= : yes\n");
    // Split at the first blank, equals sign, blank.
    prints("fibonacci 12 = 144 = 144\n", "144\n= 144 = 144: no\n");
    prints(
        "fibonacci 12 =\n",
        "fibexp: fibonacci takes 1 parameter, 2 given\n",
    );
    prints(
        "fibonacci 94 = fibexp: refused 13: the index must be at most 93\n",
        "fibexp: refused 13: the index must be at most 93\n\
         = fibexp: refused 13: the index must be at most 93: yes\n",
    );
    let said = script(b" = x\n");
    assert!(said.starts_with(b"usage: fibexp") && said.ends_with(b"\n= x: no\n"));
}

#[test]
fn words_of_a_line() {
    let not_read = "fibexp: \"\": not a whole number from 0 to 4294967295\n";
    prints("fibonacci 12", "144\n");
    prints("fibonacci 12 \n", "144\n");
    prints("fibonacci\x0012\x00\n", "144\n");
    prints("fibonacci  \n", not_read);
    prints(
        "fibonacci  12\n",
        "fibexp: fibonacci takes 1 parameter, 2 given\n",
    );
    prints(" \n", &format!("fibexp: \"\"{NO_VERB}"));
    prints(" check\n", &format!("fibexp: \"\"{NO_VERB}"));
    let said = script(b"\xff\"\n");
    let text = format!("fibexp: \"\\xff\\x22\"{NO_VERB}");
    assert_eq!(said, text.as_bytes());
}

#[test]
fn tape_at_hand() {
    prints("check\n", "fibexp: refused 6: a tape has 5 to 512 words\n");
    let words: Vec<String> = CASE_A.map(|word| word.to_string()).to_vec();
    let built = words.join(" ");
    prints("build 3 2 1 basic\ncheck\n", &format!("{built}\n0\n"));
    // A refused build leaves the tape.
    prints(
        &format!("tape {built}\nbuild 9 2 1 1\nlist = refused 6\npower 2\n"),
        "16\nfibexp: refused 1: p must be a prime from 3 to 268435455\n\
         basic p=3 r=2 k=1 steps=11\n1 mul 0 1\n2 swp 0 1\n3 mul 2 1\n4 swp 0 1\n5 div 0 1\n\
         6 swp 1 2\n7 mul 0 1\n8 swp 0 1\n9 div 2 1\n10 swp 0 1\n11 div 0 1\n\
         = refused 6: no\n2\n1 2 1 1 11\n",
    );
    prints(
        "tape 1 2 3\nappend 4 0xF\nappend\ndrop 2\ndrop 9\ntape\n",
        "3\n5\n5\n3\n0\n0\n",
    );
    prints(
        "tape 0x10000001 0x20000007 0x30000000 0x40000000 0xF0000001\ncheck\nchange 4 0xF0000000\ncheck\n",
        "5\nfibexp: refused 7: a word, its place or the end's count breaks the layout\n5\n0\n",
    );
}

#[test]
fn a_row_of_bases() {
    let words: Vec<String> = CASE_A.map(|word| word.to_string()).to_vec();
    let tape = format!("tape {}\n", words.join(" "));
    let long = format!("raise{}\n", " 3".repeat(66));
    // It takes no notice of a room, and leaves the tape at hand.
    prints(
        &format!("{tape}room 1\nraise 2 2\n{long}raise 3\nraise 2 1\nraise\nraise = \n"),
        "16\n1\n2 2\nfibexp: refused 14: a row has at most 64 bases\n\
         fibexp: refused 9: the base must be from 1 to p-1\n\
         fibexp: refused 11: the base's order isn't r\n\n\n= : yes\n",
    );
    prints(
        &format!("{tape}raise{}\ncheck\n", " 2".repeat(67)),
        "16\nfibexp: raise takes 0 to 66 parameters, 67 given\n0\n",
    );
    prints(
        &format!("tape{}\n", " 2".repeat(65)),
        "fibexp: tape takes 0 to 64 parameters, 65 given\n",
    );
}

#[test]
fn a_table() {
    let rows = "1 0 0 0\n0 1 0 0\n0 0 1 0\n0 0 0 1\n";
    // Four lines are no text that a line could have; it takes no notice of a room.
    prints(
        "tape 0x10000001 0x20000007 0x30000000 0x40000000 0xF0000000\ntable 0\n\
         table 0 = 1 0 0 0\nroom 1\ntable 0\ntable 1\ntable 1 = 0\n",
        &format!(
            "5\n{rows}{rows}= 1 0 0 0: no\n1\n{rows}\
             fibexp: refused 10: a position is outside 0 to the step count\n\
             fibexp: refused 10: a position is outside 0 to the step count\n= 0: no\n"
        ),
    );
}

#[test]
fn a_record_and_its_steps() {
    let step = "tape 0x10000001 0x20000007 0x30000000 0x40000000 0x50000004 0xF0000001\n";
    let past = "fibexp: refused 10: a position is outside 0 to the step count\n";
    // It takes no notice of a room, and leaves the tape at hand.
    prints(
        &format!(
            "{step}room 1\nload 3\nstep 1 3 1 1 0 0\nstep 3 3 1 1 1 0\nrun 3 3 1 1 1 0\n\
             step 3 3 1 1 1 1 = 1 3 1 1 0\n"
        ),
        &format!("6\n1\n1 3 1 1 0\n3 3 1 1 1\n{past}1 3 1 1 0\n1 3 1 1 0\n= 1 3 1 1 0: yes\n"),
    );
}

#[test]
fn a_preview() {
    let step = "tape 0x10000001 0x20000007 0x30000000 0x40000000 0x50000004 0xF0000001\n";
    let past = "fibexp: refused 10: a position is outside 0 to the step count\n";
    // Two lines are no text that a line could have; it takes no notice of a room, and leaves the tape at hand.
    prints(
        &format!(
            "{step}preview 1 3 1 1 0 1\npreview 3 3 1 1 1 0\nroom 1\npreview 1 3 1 1 0 0\n\
             preview 1 3 1 1 0 2\npreview 1 3 1 1 0 1 = 3 3 1 1\nrun 1 3 1 1 0 1\n"
        ),
        &format!(
            "6\n3 3 1 1\n1 0 0\n1 3 1 1\n0 1 0\n1\n1 3 1 1\n0 0 0\n{past}\
             3 3 1 1\n1 0 0\n= 3 3 1 1: no\n3 3 1 1 1\n"
        ),
    );
    prints(
        &format!("{step}preview 1 3 1 1 0 2 = {past}"),
        &format!("6\n{past}= {}: yes\n", past.trim_end()),
    );
}

#[test]
fn a_change_out_of_range() {
    let none = "fibexp: no such word in the tape\n";
    prints("change 0 0\n", none);
    prints(
        "tape 1\nchange 1 0\nchange 0xFFFFFFFF 0\nchange 0 7\n",
        &format!("1\n{none}{none}1\n"),
    );
    // The index counts from the tape at hand, not from the row.
    prints("tape 1\nbehind\nchange 0 7\n", &format!("1\n0\n{none}"));
}

#[test]
fn a_row_of_tapes() {
    // Two tapes of five words; each request takes its own, and the tape at hand is the last.
    let free = "tape 0x10000001 0x20000007 0x30000000 0x40000000 0xF0000000\n";
    let step = "tape 0x10000001 0x20000007 0x30000000 0x40000000 0x50000004 0xF0000001\n";
    prints(
        &format!(
            "{free}behind\n{step}list\nplay 2 3 1 1 0 0 5 0 0 5 11 0 1\nplay 2 3 1 1 0 0 6 0 1\n"
        ),
        "5\n0\n6\nfree p=7 r=0 k=0 steps=1\n1 mul 0 1\n6 3 1 1 1 0 0\n2 3 1 1 0 7\n",
    );
    prints(
        "behind\nbehind\ncheck\n",
        "0\n0\nfibexp: refused 6: a tape has 5 to 512 words\n",
    );
}

#[test]
fn the_most_words() {
    let full = "fibexp: a row of tapes has at most 4096 words\n";
    let sixty_four = format!("append{}\n", " 7".repeat(64));
    let counts: String = (1..=64).map(|i| format!("{}\n", 64 * i)).collect();
    let fill = sixty_four.repeat(64);
    prints(
        &format!("{fill}append 1\ndrop 1\nappend 1\n"),
        &format!("{counts}{full}4095\n4096\n"),
    );
    // Another tape behind it has no room, not for a build either, and nothing changes.
    prints(
        &format!("{fill}drop 15\nbehind\nbuild 3 2 1 1\ntape 1 2 3\nbuild 3 2 1 1\ndrop 0\n"),
        &format!("{counts}4081\n0\n{full}3\n{full}3\n"),
    );
    let case_a = built(3, 2, 1, 1)
        .iter()
        .map(u32::to_string)
        .collect::<Vec<_>>()
        .join(" ");
    prints(
        &format!("{fill}drop 16\nbehind\nbuild 3 2 1 1\nappend 1\nroom 20\nbuild 3 2 1 2\n"),
        &format!("{counts}4080\n0\n{case_a}\n{full}20\n{full}"),
    );
    // The tape at hand is replaced, so its words don't count.
    prints(
        &format!("{fill}build 3 2 1 1\n"),
        &format!("{counts}{case_a}\n"),
    );
}

#[test]
fn rooms() {
    let short = "fibexp: refused 5: the buffer is shorter than the result\n";
    prints(
        "room 3\nplaces 106\nplaces 76\n",
        &format!("3\n{short}255 255 255\n2\n9 7 255\n"),
    );
    prints(
        "room 0\nplaces 0\nplaces 1\n",
        &format!("0\n0\n\n{short}\n"),
    );
    prints("room 1\nroom\nplaces 106\n", "1\n\n10 6 3 1\n");
    let case_a = built(3, 2, 1, 1)
        .iter()
        .map(u32::to_string)
        .collect::<Vec<_>>()
        .join(" ");
    prints(
        "room 17\nbuild 3 2 1 1\ncheck\n",
        &format!("17\n16\n{case_a} 255\n0\n"),
    );
    prints(
        "room 2\nbuild 3 2 1 1\nbuild 3 2 1 4\nbuild 3 2 1 x\ncheck\n",
        &format!(
            "2\n{short}255 255\n\
             fibexp: refused 4: the variant must be that of a named program\n255 255\n\
             fibexp: \"x\": no variant; basic, dual, hybrid or 1 to 3\n\
             fibexp: refused 6: a tape has 5 to 512 words\n"
        ),
    );
    prints(
        "room 4097\n",
        "fibexp: \"4097\": not a whole number from 0 to 4096\n",
    );
    prints(
        "room 1 1\n",
        "fibexp: room takes 0 to 1 parameter, 2 given\n",
    );
}

#[test]
fn listings_in_a_room() {
    let refused = "114 101 102 117 115 101 100 32 54 10";
    prints("room 10\nlist\n", &format!("10\n10 6\n{refused}\n"));
    prints("room 11\nlist\n", &format!("11\n10 6\n{refused} 255\n"));
    prints(
        "room 9\nlist\n",
        "9\n0 5\n255 255 255 255 255 255 255 255 255\n",
    );
    let free = "tape 0x10000001 0x20000003 0x30000000 0x40000000 0xF0000000\n";
    let text: Vec<String> = b"free p=3 r=0 k=0 steps=0\n"
        .map(|byte| byte.to_string())
        .to_vec();
    prints(
        &format!("{free}room 25\nlist\n"),
        &format!("5\n25\n25 0\n{}\n", text.join(" ")),
    );
    // Other verbs take no notice of a room.
    prints(&format!("{free}room 0\ncut 0 0\ncheck\n"), "5\n0\n\n0\n");
}

#[test]
fn long_lines() {
    let long = "fibexp: a line of more than 4095 bytes\n";
    let most = format!("#{}", "x".repeat(4094));
    prints(&format!("{most}\n"), &format!("{most}\n"));
    prints(&format!("{most}x\nprime 7\n"), &format!("{long}1\n"));
    prints(&format!("fibonacci 1 = {}\n", "1".repeat(4090)), long);
    // As long as a line may be: a number with leading zeros.
    let zeros = format!("fibonacci {}12", "0".repeat(4083));
    assert_eq!(zeros.len(), 4095);
    prints(&zeros, "144\n");
    prints(&format!("{zeros} "), long);
}
