//! Agreement of two answers, over what a caller holds: head, sheet words and text.
//!
//! Written from paper 01 without a look at the plain form or at the original's records.
//! Characters are taken from the text by place, escapes undone; places themselves don't count.

use std::ops::Range;

use crate::head::{Head, flags};
use crate::place::{bytes_at, from_words, text_at, unescape};
use crate::sheet::{PLACE_WORDS, RULE_WORDS, STATE_WORDS, SYMBOL_WORDS, TAPE_WORDS};

/// An answer as a caller has it.
#[derive(Copy, Clone)]
pub struct Answer<'a> {
    pub head: &'a Head,
    pub sheet: &'a [u32],
    pub text: &'a [u8],
}

/// Whether two machines agree.
pub fn agree(a: Answer<'_>, b: Answer<'_>) -> bool {
    heads_agree(a, b)
        && states(a).eq(states(b))
        && symbols(a, 1).eq(symbols(b, 1))
        && symbols(a, 2).eq(symbols(b, 2))
        && comments(a, 4).eq(comments(b, 4))
        && comments(a, 5).eq(comments(b, 5))
        && rules_agree(a, b)
}

fn heads_agree(a: Answer<'_>, b: Answer<'_>) -> bool {
    let (left, right) = (a.head, b.head);
    let name = |x: Answer<'_>| unescape(text_at(x.text, x.head.name));
    let input = |x: Answer<'_>| unescape(text_at(x.text, x.head.input));
    left.kind == right.kind
        && left.output == right.output
        && left.tapes == right.tapes
        && left.blank == right.blank
        && flags(left.declared) == flags(right.declared)
        && name(a) == name(b)
        && input(a) == input(b)
        && bytes_at(a.text, left.start) == bytes_at(b.text, right.start)
}

/// Where the words of section `index` stand; the rules' end is the sheet's.
fn section(answer: Answer<'_>, index: usize) -> Range<usize> {
    const WORDS: [usize; 6] = [
        STATE_WORDS,
        SYMBOL_WORDS,
        SYMBOL_WORDS,
        PLACE_WORDS,
        PLACE_WORDS,
        PLACE_WORDS,
    ];
    let counts = answer.head.counts.in_order();
    let size = |i: usize| counts[i] as usize * WORDS[i];
    let start = (0..index).map(size).sum();
    let end = WORDS
        .get(index)
        .map_or(answer.sheet.len(), |_| start + size(index));
    start..end
}

/// The bytes at the place whose two words stand at `at`.
fn bytes_of<'a>(answer: Answer<'a>, at: usize) -> &'a [u8] {
    bytes_at(
        answer.text,
        from_words(answer.sheet[at], answer.sheet[at + 1]),
    )
}

/// Name and finality of each state.
fn states(answer: Answer<'_>) -> impl Iterator<Item = (&[u8], u32)> {
    section(answer, 0)
        .step_by(STATE_WORDS)
        .map(move |at| (bytes_of(answer, at), answer.sheet[at + 2]))
}

/// The codes of Σ (section 1) or Γ (section 2).
fn symbols(answer: Answer<'_>, index: usize) -> impl Iterator<Item = u32> {
    section(answer, index)
        .step_by(SYMBOL_WORDS)
        .map(move |at| answer.sheet[at])
}

/// The texts of the header (section 4) or trailing (section 5) comments.
fn comments(answer: Answer<'_>, index: usize) -> impl Iterator<Item = &[u8]> {
    section(answer, index)
        .step_by(PLACE_WORDS)
        .map(move |at| bytes_of(answer, at))
}

fn rules_agree(a: Answer<'_>, b: Answer<'_>) -> bool {
    if a.head.counts.rules != b.head.counts.rules {
        return false;
    }
    let (mut at_a, mut at_b) = (section(a, 6).start, section(b, 6).start);
    for _ in 0..a.head.counts.rules {
        if !rule_agrees(a, at_a, b, at_b) {
            return false;
        }
        at_a += a.sheet[at_a] as usize;
        at_b += b.sheet[at_b] as usize;
    }
    true
}

/// Whether the rules whose words start at `i` and `j` agree.
fn rule_agrees(a: Answer<'_>, i: usize, b: Answer<'_>, j: usize) -> bool {
    let name = |offset| bytes_of(a, i + offset) == bytes_of(b, j + offset);
    let same = |offset| a.sheet[i + offset] == b.sheet[j + offset];
    // A rule without a comment differs from one with an empty comment.
    let has_comment = |x: Answer<'_>, at: usize| from_words(x.sheet[at], x.sheet[at + 1]).is_some();
    // From, to, comment, arity and the number of leading comments.
    if !(name(1) && name(3) && name(7) && same(9) && same(10)) {
        return false;
    }
    if has_comment(a, i + 7) != has_comment(b, j + 7) {
        return false;
    }
    let arity = a.sheet[i + 9] as usize;
    let leading = a.sheet[i + 10] as usize;
    let tapes = RULE_WORDS..RULE_WORDS + TAPE_WORDS * arity;
    let lines = tapes.end..tapes.end + PLACE_WORDS * leading;
    // Per tape the code read, the code written and the direction.
    tapes
        .step_by(TAPE_WORDS)
        .all(|tape| same(tape) && same(tape + 3) && same(tape + 6))
        && lines.step_by(PLACE_WORDS).all(name)
}
