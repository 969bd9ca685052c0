//! Words of the sheet and bytes of the plain form, found by arithmetic from the rules as
//! written, since both can be far larger than memory.

use std::collections::HashSet;

use crate::diag::Span;
use crate::place::text_at;
use crate::plain;
use crate::plant::{self, Fault};
use crate::sheet::{Counts, PLACE_WORDS, RULE_WORDS, STATE_WORDS, SYMBOL_WORDS, TAPE_WORDS};
use crate::trace::{MachineTrace, RuleLine};

/// The number of entries of each section, without expanding a rule.
pub fn counts(text: &[u8], machine: &MachineTrace) -> Counts {
    let gamma = tape_alphabet_len(machine);
    let rules: u64 = machine.rules.iter().map(|rule| rule.count).sum();
    Counts {
        states: states_len(text, machine) as u32,
        input_alphabet: input_alphabet_len(machine, gamma) as u32,
        tape_alphabet: gamma as u32,
        finals: machine.map.finals.len() as u32,
        header: machine.header.len() as u32,
        trailing: machine.trailing.len() as u32,
        rules: rules as u32,
    }
}

fn states_len(text: &[u8], machine: &MachineTrace) -> usize {
    // The outline's states are Q, or a declared start and F.
    let outline = machine.outline.states.iter().map(|s| s.name.as_str());
    if machine.outline.declared.states {
        return outline.count();
    }
    let mut names: HashSet<&str> = outline.collect();
    for rule in &machine.rules {
        names.insert(text_at(text, Some(rule.from)));
        names.insert(text_at(text, Some(rule.to)));
    }
    names.len()
}

fn tape_alphabet_len(machine: &MachineTrace) -> usize {
    // The outline's Γ is the declared one with the blank, or the blank, a declared Σ, the input
    // and the glyphs of thinned rules.
    let outline = &machine.outline.tape_alphabet;
    if machine.outline.declared.tape_alphabet {
        return outline.len();
    }
    let mut glyphs: HashSet<char> = outline.iter().copied().collect();
    for rule in &machine.rules {
        glyphs.extend(rule.read.iter().flatten());
        glyphs.extend(rule.write.iter().flatten());
    }
    glyphs.len()
}

fn input_alphabet_len(machine: &MachineTrace, gamma: usize) -> usize {
    let outline = &machine.outline;
    if outline.declared.input_alphabet || outline.declared.tape_alphabet {
        return outline.input_alphabet.len();
    }
    // An inferred Γ holds the blank once.
    gamma - 1
}

/// The words that the sheet needs.
pub fn words_needed(machine: &MachineTrace, counts: &Counts) -> u64 {
    let words = |entries: u32, each: usize| u64::from(entries) * each as u64;
    let header = if plant::is(Fault::Sizes) {
        0
    } else {
        counts.header
    };
    words(counts.states, STATE_WORDS)
        + words(counts.input_alphabet, SYMBOL_WORDS)
        + words(counts.tape_alphabet, SYMBOL_WORDS)
        + words(counts.finals, PLACE_WORDS)
        + words(header, PLACE_WORDS)
        + words(counts.trailing, PLACE_WORDS)
        + machine.rules.iter().map(rule_words).sum::<u64>()
}

fn rule_words(rule: &RuleLine) -> u64 {
    let each = RULE_WORDS + TAPE_WORDS * rule.read.len();
    rule.count * each as u64 + (PLACE_WORDS * rule.leading.len()) as u64
}

/// The bytes of the plain form.
pub fn form_len(text: &[u8], machine: &MachineTrace) -> u64 {
    let len = |span: &Span| text_at(text, Some(*span)).len();
    let comment_lines =
        |places: &[Span]| -> u64 { places.iter().map(|p| comment_line_len(len(p))).sum() };
    let declarations = plain::declarations(&machine.outline);
    let rules = machine.rules.iter().map(|rule| {
        let comment = rule
            .comment
            .map_or(0, |place| comment_line_len(len(&place)));
        comment_lines(&rule.leading) + comment + rule_len(rule, len(&rule.from), len(&rule.to))
    });
    comment_lines(&machine.header)
        + declarations.len() as u64
        + rules.sum::<u64>()
        + comment_lines(&machine.trailing)
}

/// `// TEXT` and a line feed, or `//` and a line feed; as much as a space and the comment.
fn comment_line_len(text: usize) -> u64 {
    (if text == 0 { 3 } else { 4 + text }) as u64
}

/// All rules that a line expands to, each ` δ(a, ('x')) = (b, ('y'), (R))` and a line feed.
fn rule_len(rule: &RuleLine, from: usize, to: usize) -> u64 {
    let arity = rule.read.len() as u64;
    let commas = 2 * (arity - 1);
    let fixed = "δ(, ()) = (, (), ())\n".len() as u64;
    let each = fixed + (from + to) as u64 + 3 * commas + arity;
    rule.count * each + symbols_len(rule)
}

/// The quoted symbols of all rules of a line. Each member of a tape's read set stands in as many
/// rules as the other tapes have choices.
fn symbols_len(rule: &RuleLine) -> u64 {
    let quoted = |c: char| 2 + c.len_utf8() as u64;
    let tapes = rule.read.iter().zip(&rule.write).map(|(set, write)| {
        let others = rule.count / set.len() as u64;
        let read = others * set.iter().map(|&c| quoted(c)).sum::<u64>();
        read + write.map_or(read, |c| rule.count * quoted(c))
    });
    tapes.sum()
}
