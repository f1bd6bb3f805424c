//! Scripts, as docs/TOOL.md has them: command lines over a row of tapes.

use crate as services;
use crate::tool::{
    answer, complaint, line_of, refusal_text, understand, Call, Entry, Tapes, Verb, MOST_ROW_WORDS,
    SCRIPT_VERBS, VERBS,
};

/// The most bytes of a line, its byte 10 not counted.
const MOST_LINE_BYTES: usize = 4095;
/// What each element of a buffer is before a call.
const UNTOUCHED: u8 = 255;
/// No tape has more words.
const MOST_WORDS: usize = 512;
/// What stands between a line's command and what it must print.
const EQUALS: &[u8] = b" = ";

/// What a script prints.
pub fn script(input: &[u8]) -> Vec<u8> {
    let mut script = Script::default();
    // The last line need not have a byte 10, and there is no line behind the last byte 10.
    let lines = input.split_inclusive(|&byte| byte == b'\n');
    lines
        .flat_map(|line| script.line(line.strip_suffix(b"\n").unwrap_or(line)))
        .collect()
}

#[derive(Default)]
struct Script {
    /// The words of the tapes that stand before the one at hand.
    before: Vec<u32>,
    at_hand: Vec<u32>,
    room: Option<usize>,
}

impl Script {
    /// What a line prints.
    fn line(&mut self, line: &[u8]) -> Vec<u8> {
        if line.len() > MOST_LINE_BYTES {
            return complaint(&[b"a line of more than 4095 bytes"]);
        }
        if line.is_empty() || line[0] == b'#' {
            return [line, b"\n"].concat();
        }
        match halves(line) {
            Some((command, text)) => self.judged(command, text),
            None => self.command(line),
        }
    }

    /// What a command prints, and whether that is a text.
    fn judged(&mut self, command: &[u8], text: &[u8]) -> Vec<u8> {
        let printed = self.command(command);
        let same = printed == [text, b"\n"].concat();
        let verdict: &[u8] = if same { b": yes\n" } else { b": no\n" };
        [&printed[..], b"= ", text, verdict].concat()
    }

    fn command(&mut self, line: &[u8]) -> Vec<u8> {
        let verbs: Vec<&Entry> = VERBS.iter().chain(&SCRIPT_VERBS).collect();
        match understand(&words(line), &verbs) {
            Ok(call) => self.perform(&call),
            Err(text) => text,
        }
    }

    fn perform(&mut self, call: &Call) -> Vec<u8> {
        match (call.verb, self.room) {
            (Verb::Tape | Verb::Append | Verb::Change | Verb::Drop | Verb::Behind, _) => {
                self.edit(call)
            }
            (Verb::Room, _) => self.set_room(&call.numbers),
            (Verb::Build, _) => self.build(call),
            (Verb::Places, Some(room)) => places(call.numbers[0], room),
            (Verb::List, Some(room)) => self.list(room),
            _ => self.reply(call),
        }
    }

    fn reply(&self, call: &Call) -> Vec<u8> {
        let all = [&self.before[..], &self.at_hand].concat();
        let tapes = Tapes {
            at_hand: &self.at_hand,
            all: &all,
        };
        answer(call, tapes).unwrap_or_else(|number| refusal_text(call.verb, number))
    }

    /// The verbs that change the row; each prints how many words the tape at hand has then.
    fn edit(&mut self, call: &Call) -> Vec<u8> {
        let words = call.numbers.iter().map(|&number| number as u32);
        let changed = match call.verb {
            Verb::Tape => self.put(words.collect()),
            Verb::Append => self.put(self.at_hand.iter().copied().chain(words).collect()),
            Verb::Change => self.change(call.numbers[0], call.numbers[1] as u32),
            Verb::Drop => {
                let left = (self.at_hand.len() as u64).saturating_sub(call.numbers[0]);
                self.at_hand.truncate(left as usize);
                Ok(())
            }
            _ => {
                self.before.append(&mut self.at_hand);
                Ok(())
            }
        };
        match changed {
            Ok(()) => line_of(&[self.at_hand.len()]),
            Err(text) => text,
        }
    }

    /// Makes the tape at hand one of these words, if the row holds it.
    fn put(&mut self, tape: Vec<u32>) -> Result<(), Vec<u8>> {
        if self.before.len() + tape.len() > MOST_ROW_WORDS {
            return Err(complaint(&[b"a row of tapes has at most 4096 words"]));
        }
        self.at_hand = tape;
        Ok(())
    }

    fn change(&mut self, index: u64, word: u32) -> Result<(), Vec<u8>> {
        match self.at_hand.get_mut(index as usize) {
            Some(place) => {
                *place = word;
                Ok(())
            }
            None => Err(complaint(&[b"no such word in the tape"])),
        }
    }

    fn set_room(&mut self, numbers: &[u64]) -> Vec<u8> {
        self.room = numbers.first().map(|&room| room as usize);
        line_of(numbers)
    }

    fn build(&mut self, call: &Call) -> Vec<u8> {
        let n: Vec<u32> = call.numbers.iter().map(|&number| number as u32).collect();
        let mut buffer = vec![UNTOUCHED as u32; self.room.unwrap_or(MOST_WORDS)];
        let count = services::build(n[0], n[1], n[2], n[3], &mut buffer);
        let tape = count.map(|count| buffer[..count].to_vec());
        if let Ok(Err(text)) = tape.clone().map(|tape| self.put(tape)) {
            return text;
        }
        match (tape, self.room) {
            (Ok(tape), None) => line_of(&tape),
            (Err(number), None) => refusal_text(Verb::Build, number),
            (Ok(tape), Some(_)) => [line_of(&[tape.len()]), line_of(&buffer)].concat(),
            (Err(number), Some(_)) => {
                [refusal_text(Verb::Build, number), line_of(&buffer)].concat()
            }
        }
    }

    /// The listing into a buffer: how many bytes were written, the number, and the buffer.
    fn list(&self, room: usize) -> Vec<u8> {
        let bytes: Vec<u8> = self
            .at_hand
            .iter()
            .flat_map(|word| word.to_le_bytes())
            .collect();
        let text = services::listing(&bytes);
        let mut buffer = vec![UNTOUCHED; room];
        let (written, number) = match buffer.get_mut(..text.len()) {
            Some(lent) => {
                lent.copy_from_slice(&text);
                (
                    text.len(),
                    services::check(&self.at_hand).err().unwrap_or(0),
                )
            }
            None => (0, services::refusal::TAPE),
        };
        [line_of(&[written, number as usize]), line_of(&buffer)].concat()
    }
}

/// Number to list into a buffer: the count or the refusal, and the buffer.
fn places(n: u64, room: usize) -> Vec<u8> {
    let mut buffer = vec![UNTOUCHED; room];
    let first = match services::write_places(n, &mut buffer) {
        Ok(count) => line_of(&[count]),
        Err(number) => refusal_text(Verb::Places, number),
    };
    [first, line_of(&buffer)].concat()
}

/// A line's command and the text behind the first blank, equals sign, blank.
fn halves(line: &[u8]) -> Option<(&[u8], &[u8])> {
    let at = line
        .windows(EQUALS.len())
        .position(|three| three == EQUALS)?;
    Some((&line[..at], &line[at + EQUALS.len()..]))
}

/// The words of a line: a blank or a byte 0 ends each, and so does the line's end if there are bytes
/// before it.
fn words(line: &[u8]) -> Vec<&[u8]> {
    let mut words: Vec<&[u8]> = line.split(|&byte| byte == b' ' || byte == 0).collect();
    if words.last().is_some_and(|word| word.is_empty()) {
        words.pop();
    }
    words
}
