//! Grammatical texts with characters, bytes and lines changed.

use super::{Random, grammar};

/// What is not UTF-8: lone and missing tails, overlong forms, surrogates, codes too large.
const INVALID: [&[u8]; 14] = [
    b"\x80",
    b"\xBF",
    b"\xC0\x80",
    b"\xC1\xBF",
    b"\xC3",
    b"\xE0\x80\x80",
    b"\xE0\x9F\xBF",
    b"\xE2\x90",
    b"\xED\xA0\x80",
    b"\xED\xBF\xBF",
    b"\xF0\x82\x82\xAC",
    b"\xF0\x9F\x98",
    b"\xF4\x90\x80\x80",
    b"\xFF",
];

/// Characters outside the set, those next to its ranges among them.
const OUTSIDE: [&str; 12] = [
    "\u{2C2}",
    "\u{36F}",
    "\u{482}",
    "\u{218F}",
    "\u{2440}",
    "א",
    "€",
    "अ",
    "\u{2028}",
    "\u{3000}",
    "😀",
    "\u{10FFFF}",
];

/// Pieces that mean something to the reader.
pub(super) const PIECES: [&str; 24] = [
    "'", "\"", "\\", "//", "/", "\n", " ", "{", "}", "(", ")", ",", "=", "*", ";", "_", "␣", "a",
    "0", "\r", "\u{85}", "δ", "#", "''",
];

/// A damaged text.
pub fn text(random: &mut Random) -> Vec<u8> {
    let mut text = grammar::text(random).into_bytes();
    for _ in 0..1 + random.below(3) {
        text = match random.below(20) {
            0 => splice(random, text, INVALID[..].iter().copied()),
            1 => splice(random, text, OUTSIDE.iter().map(|s| s.as_bytes())),
            2 => damage_byte(random, text),
            3..6 => damage_line(random, text),
            _ => edit(random, &text),
        };
    }
    text
}

/// One character deleted, inserted, replaced, or swapped with the next. A text that is not UTF-8
/// is given back as it is.
pub fn edit(random: &mut Random, text: &[u8]) -> Vec<u8> {
    let Ok(text) = std::str::from_utf8(text) else {
        return text.to_vec();
    };
    // One place only: long texts are not taken apart.
    let mut at = random.below(text.len() + 1);
    while !text.is_char_boundary(at) {
        at -= 1;
    }
    let (before, after) = text.split_at(at);
    let mut rest = after.chars();
    let first = rest.next().map(String::from).unwrap_or_default();
    let middle = match random.below(4) {
        0 => String::new(),
        1 => piece(random) + &first,
        2 => piece(random),
        _ => rest.next().map(String::from).unwrap_or_default() + &first,
    };
    [before, &middle, rest.as_str()].concat().into_bytes()
}

fn piece(random: &mut Random) -> String {
    if random.chance(70) {
        return random.pick(&PIECES).into();
    }
    random.character().into()
}

/// Puts one of the pieces at any byte.
fn splice<'a>(
    random: &mut Random,
    mut text: Vec<u8>,
    pieces: impl ExactSizeIterator<Item = &'a [u8]>,
) -> Vec<u8> {
    let which = random.below(pieces.len());
    let piece = pieces.into_iter().nth(which).unwrap_or_default();
    let at = random.below(text.len() + 1);
    text.splice(at..at, piece.iter().copied());
    text
}

/// Deletes, inserts or replaces one byte.
fn damage_byte(random: &mut Random, mut text: Vec<u8>) -> Vec<u8> {
    let at = random.below(text.len() + 1);
    let end = (at + random.below(2)).min(text.len());
    let byte = random.below(256) as u8;
    let new = if random.chance(60) {
        vec![byte]
    } else {
        vec![]
    };
    text.splice(at..end, new);
    text
}

/// Duplicates, removes or moves one line.
fn damage_line(random: &mut Random, text: Vec<u8>) -> Vec<u8> {
    let mut lines: Vec<&[u8]> = text.split(|&b| b == b'\n').collect();
    let from = random.below(lines.len());
    let to = random.below(lines.len());
    match random.below(3) {
        0 => lines.insert(to, lines[from]),
        1 => drop(lines.remove(from)),
        _ => lines.swap(from, to),
    }
    lines.join(&b'\n')
}
