//! The examples of this repository, changed one character at a time, and descriptions put one
//! behind the other.

use super::damaged::{PIECES, edit};
use super::{Random, grammar};

/// The examples.
const EXAMPLES: [&str; 6] = [
    include_str!("../../../examples/beaver-2.tm"),
    include_str!("../../../examples/beaver-3.tm"),
    include_str!("../../../examples/beaver-4.tm"),
    include_str!("../../../examples/copy-two-tapes.tm"),
    include_str!("../../../examples/palindromes.tm"),
    include_str!("../../../examples/unary-addition.tm"),
];

/// Characters that are put in beside `PIECES`: the ends of the ranges of letters and of the set, the
/// signs of the language, and some that only look like them.
const MORE: [&str; 28] = [
    "\0", "\t", "\u{7F}", "\u{A0}", "ª", "×", "÷", "\u{2C1}", "Ͱ", "͵", ";", "·", "΢", "϶", "ҁ",
    "Σ", "Γ", "Q", "F", "L", "R", "N", "9", "-", "←", "↔", "\u{243F}", "␤",
];

/// What can be done to a character: it is deleted, it changes places with the next, or a piece is put
/// before it or in its place.
const CHANGES: usize = 2 + 2 * (PIECES.len() + MORE.len());

/// How many texts differ from an example by one change.
pub fn single_changes() -> u64 {
    let characters: usize = EXAMPLES.iter().map(|text| text.chars().count()).sum();
    (characters * CHANGES) as u64
}

/// Change number `index`; past the last one, further changes at random on top of it.
pub fn changed(index: u64, random: &mut Random) -> Vec<u8> {
    let all = single_changes();
    let mut text = one_change((index % all) as usize);
    for _ in 0..index / all {
        text = edit(random, &text);
    }
    text
}

/// The examples in turn, each character in turn, each change in turn.
fn one_change(index: usize) -> Vec<u8> {
    let (mut at, change) = (index / CHANGES, index % CHANGES);
    for text in EXAMPLES {
        let characters = text.chars().count();
        if at < characters {
            return change_at(text, at, change).into_bytes();
        }
        at -= characters;
    }
    unreachable!("the index is below the number of changes")
}

fn change_at(text: &str, at: usize, change: usize) -> String {
    let mut characters: Vec<String> = text.chars().map(String::from).collect();
    let piece = |number: usize| {
        let pieces = PIECES.iter().chain(&MORE);
        pieces.copied().nth(number / 2).unwrap_or_default()
    };
    match change {
        0 => characters[at].clear(),
        1 if at + 1 < characters.len() => characters.swap(at, at + 1),
        1 => characters[at].clear(),
        _ if change.is_multiple_of(2) => characters[at].insert_str(0, piece(change - 2)),
        _ => characters[at] = piece(change - 2).into(),
    }
    characters.concat()
}

/// Two to five descriptions, one behind the other, with a line feed, two, a space or nothing between.
pub fn joined(random: &mut Random) -> Vec<u8> {
    let mut text = description(random);
    for _ in 0..1 + random.below(4) {
        text += random.pick(&["\n", "\n", "\n\n", " ", "", "// "]);
        text += &description(random);
    }
    text.into_bytes()
}

/// An example, a text by the grammar, or the plain form of either.
pub fn description(random: &mut Random) -> String {
    let text = match random.below(3) {
        0 => random.pick(&EXAMPLES).into(),
        _ => grammar::text(random),
    };
    match random.below(3) {
        0 => form(&text).unwrap_or(text),
        _ => text,
    }
}

/// The plain form, if the text reads without a diagnostic.
fn form(text: &str) -> Option<String> {
    match crate::reading::read(text.as_bytes()) {
        crate::reading::Reading::Machine(machine) => {
            machine.expanded()?;
            Some(machine.form())
        }
        _ => None,
    }
}

#[cfg(test)]
mod tests {
    use super::*;

    #[test]
    fn every_single_change_is_made() {
        let text = EXAMPLES[0];
        let first = one_change(0);
        assert_eq!(first, text.as_bytes()[1..]);
        let all = single_changes() as usize;
        let last = String::from_utf8(one_change(all - 1)).expect("pieces are characters");
        assert!(last.ends_with('␤') && last.len() > 100);
        let different = (0..CHANGES).map(|change| change_at(text, 5, change));
        let different: std::collections::BTreeSet<String> = different.collect();
        assert!(different.len() > CHANGES - 4);
    }
}
