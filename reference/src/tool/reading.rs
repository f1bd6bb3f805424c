//! From the words of a command line to a verb and its numbers, or the complaint about them.

use super::texts::{NAME, USAGE};
use super::verbs::{Entry, Verb};

/// A command line that is understood.
pub(crate) struct Call {
    pub verb: Verb,
    pub numbers: Vec<u64>,
}

/// Of a longer word in quotes only so many bytes are shown.
const MOST_QUOTED: usize = 64;
/// The place of the variant among the parameters of `build`.
const VARIANT_PARAMETER: usize = 3;
/// The variants' names, each at its number.
const VARIANTS: [&str; 4] = ["free", "basic", "dual", "hybrid"];

/// The call that the words of a command line make with these verbs, or the complaint's text.
pub(crate) fn understand(words: &[&[u8]], verbs: &[&Entry]) -> Result<Call, Vec<u8>> {
    let Some((&name, parameters)) = words.split_first() else {
        return Err(USAGE.into());
    };
    let Some(entry) = verbs.iter().find(|entry| entry.name.as_bytes() == name) else {
        let about = quoted(name);
        return Err(complaint(&[
            &about,
            b": no such verb; fibexp help lists them",
        ]));
    };
    if !(entry.least..=entry.most).contains(&parameters.len()) {
        return Err(wrong_count(entry, parameters.len()));
    }
    let read = parameters.iter().enumerate();
    let numbers: Result<Vec<u64>, Vec<u8>> =
        read.map(|(at, word)| parameter(entry, at, word)).collect();
    if entry.verb == Verb::Script {
        return Err(complaint(&[
            b"script is a verb of the program fibexp alone",
        ]));
    }
    Ok(Call {
        verb: entry.verb,
        numbers: numbers?,
    })
}

/// A text of several parts behind the tool's name, as a line.
pub(crate) fn complaint(parts: &[&[u8]]) -> Vec<u8> {
    [NAME.as_bytes(), &parts.concat(), b"\n"].concat()
}

fn wrong_count(entry: &Entry, given: usize) -> Vec<u8> {
    let Entry {
        name, least, most, ..
    } = entry;
    let from = if least == most {
        String::new()
    } else {
        format!("{least} to ")
    };
    let noun = if *most == 1 { "parameter" } else { "parameters" };
    complaint(&[format!("{name} takes {from}{most} {noun}, {given} given").as_bytes()])
}

fn parameter(entry: &Entry, at: usize, word: &[u8]) -> Result<u64, Vec<u8>> {
    let is_variant = entry.verb == Verb::Build && at == VARIANT_PARAMETER;
    let named = VARIANTS.iter().position(|name| name.as_bytes() == word);
    match (is_variant, named) {
        (true, Some(variant)) => Ok(variant as u64),
        _ => number(word, entry.largest).ok_or_else(|| unread(is_variant, entry.largest, word)),
    }
}

fn unread(is_variant: bool, largest: u64, word: &[u8]) -> Vec<u8> {
    let about = quoted(word);
    if is_variant {
        return complaint(&[&about, b": no variant; basic, dual, hybrid or 1 to 3"]);
    }
    let wanted = format!(": not a whole number from 0 to {largest}");
    complaint(&[&about, wanted.as_bytes()])
}

/// The number of decimal digits, or of hexadecimal ones behind `0x`; none for any other word, and for a
/// number above the largest.
pub(super) fn number(word: &[u8], largest: u64) -> Option<u64> {
    let (digits, radix) = match word.strip_prefix(b"0x") {
        Some(digits) => (digits, 16),
        None => (word, 10),
    };
    if digits.is_empty() {
        return None;
    }
    let mut value = 0u64;
    for &byte in digits {
        let digit = (byte as char).to_digit(radix)?;
        value = value.checked_mul(radix as u64)?.checked_add(digit as u64)?;
    }
    (value <= largest).then_some(value)
}

/// A word in quotes, its bytes that are not plain as `\x` and two digits.
pub(super) fn quoted(word: &[u8]) -> Vec<u8> {
    let mut text = vec![b'"'];
    for &byte in word.iter().take(MOST_QUOTED) {
        match byte {
            b'"' | b'\\' => text.extend(format!("\\x{byte:02x}").into_bytes()),
            32..=126 => text.push(byte),
            _ => text.extend(format!("\\x{byte:02x}").into_bytes()),
        }
    }
    if word.len() > MOST_QUOTED {
        text.extend(b"...");
    }
    text.push(b'"');
    text
}
