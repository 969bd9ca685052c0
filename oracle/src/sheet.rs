//! The sheet, section by section: states, Σ, Γ, finals, header, trailing, rules.

use std::collections::HashMap;

use crate::diag::Span;
use crate::place;
use crate::plant::{self, Fault};
use crate::spec::{MachineSpec, SourceMap, TransitionSpans, TransitionSpec};
use crate::symbol::Dir;
use crate::trace::RuleLine;

/// Words of an entry of each section but the rules.
pub const STATE_WORDS: usize = 3;
pub const SYMBOL_WORDS: usize = 3;
pub const PLACE_WORDS: usize = 2;
/// Words of a rule before its tapes, and for each tape.
pub const RULE_WORDS: usize = 11;
pub const TAPE_WORDS: usize = 7;

/// The number of entries of each section.
#[derive(Copy, Clone, Debug, PartialEq, Eq)]
pub struct Counts {
    pub states: u32,
    pub input_alphabet: u32,
    pub tape_alphabet: u32,
    pub finals: u32,
    pub header: u32,
    pub trailing: u32,
    pub rules: u32,
}

impl Counts {
    /// The counts in the order of the sections.
    pub fn in_order(&self) -> [u32; 7] {
        [
            self.states,
            self.input_alphabet,
            self.tape_alphabet,
            self.finals,
            self.header,
            self.trailing,
            self.rules,
        ]
    }
}

/// The names of the sections in their order.
pub const SECTIONS: [&str; 7] = ["states", "Σ", "Γ", "finals", "header", "trailing", "rules"];

/// The words of each section.
pub fn sections(
    text: &[u8],
    spec: &MachineSpec,
    map: &SourceMap,
    header: &[Span],
    trailing: &[Span],
    rules: &[RuleLine],
) -> [Vec<u32>; 7] {
    let finals: Vec<Span> = map.finals.iter().map(|&(_, span)| span).collect();
    [
        states(text, spec, map),
        symbols(&spec.input_alphabet, &map.input_alphabet),
        symbols(&spec.tape_alphabet, &map.tape_alphabet),
        place_words(&finals),
        place_words(header),
        place_words(trailing),
        rule_section(text, spec, map, rules),
    ]
}

fn states(text: &[u8], spec: &MachineSpec, map: &SourceMap) -> Vec<u32> {
    let mut words = Vec::with_capacity(STATE_WORDS * spec.states.len());
    for (state, place) in spec.states.iter().zip(state_places(spec, map)) {
        checked_name(text, place, &state.name);
        words.extend([place.start, place.end, u32::from(state.is_final)]);
    }
    words
}

/// The place of each state: as `Q` lists it, or its first mention in inference order.
pub fn state_places(spec: &MachineSpec, map: &SourceMap) -> Vec<Span> {
    if spec.declared.states {
        return map.states.clone();
    }
    let mut first: HashMap<&str, Span> = HashMap::new();
    if let (true, Some(span)) = (spec.declared.start, map.start) {
        first.insert(&spec.start, span);
    }
    for (rule, spans) in spec.transitions.iter().zip(&map.transitions) {
        first.entry(&rule.from).or_insert(spans.from);
        first.entry(&rule.to).or_insert(spans.to);
    }
    for (name, span) in &map.finals {
        first.entry(name).or_insert(*span);
    }
    spec.states.iter().map(|s| first[s.name.as_str()]).collect()
}

/// Code and place of each symbol; those behind the last place were inferred.
fn symbols(glyphs: &[char], spans: &[Span]) -> Vec<u32> {
    let inferred = Span::new(0, 0);
    glyphs
        .iter()
        .enumerate()
        .flat_map(|(i, &glyph)| {
            let span = spans.get(i).unwrap_or(&inferred);
            [u32::from(glyph), span.start, span.end]
        })
        .collect()
}

fn place_words(spans: &[Span]) -> Vec<u32> {
    spans.iter().flat_map(|s| [s.start, s.end]).collect()
}

fn rule_section(text: &[u8], spec: &MachineSpec, map: &SourceMap, rules: &[RuleLine]) -> Vec<u32> {
    let mut words = Vec::new();
    let mut expanded = spec.transitions.iter().zip(&map.transitions);
    for line in rules {
        for i in 0..line.count {
            let (rule, spans) = expanded.next().expect("as many rules as were counted");
            // Comments go to the first rule of a line.
            let (comment, leading) = if i == 0 {
                (line.comment, line.leading.as_slice())
            } else {
                (None, [].as_slice())
            };
            checked_name(text, spans.from, &rule.from);
            checked_name(text, spans.to, &rule.to);
            push_rule(&mut words, rule, spans, line.line, comment, leading);
        }
    }
    words
}

fn push_rule(
    words: &mut Vec<u32>,
    rule: &TransitionSpec,
    spans: &TransitionSpans,
    line: Span,
    comment: Option<Span>,
    leading: &[Span],
) {
    let arity = rule.read.len();
    let length = RULE_WORDS + TAPE_WORDS * arity + PLACE_WORDS * leading.len();
    words.push(length as u32);
    for place in [Some(spans.from), Some(spans.to), Some(line), comment] {
        words.extend(place::words(place));
    }
    words.extend([arity as u32, leading.len() as u32]);
    for tape in 0..arity {
        let (read, write) = (spans.read[tape], spans.write[tape]);
        words.extend([u32::from(rule.read[tape]), read.start, read.end]);
        words.extend([u32::from(rule.write[tape]), write.start, write.end]);
        words.push(direction_word(rule.dir[tape]));
    }
    words.extend(place_words(leading));
}

fn direction_word(dir: Dir) -> u32 {
    let swapped = plant::is(Fault::Layout);
    match dir {
        Dir::L if swapped => 1,
        Dir::R if swapped => 0,
        Dir::L => 0,
        Dir::R => 1,
        Dir::N => 2,
    }
}

/// Panics unless the name stands at its place.
fn checked_name(text: &[u8], place: Span, name: &str) {
    assert!(
        place::bytes_at(text, Some(place)) == name.as_bytes(),
        "instrumentation: the name {name:?} is not at {place:?} of {:?}",
        String::from_utf8_lossy(text)
    );
}
