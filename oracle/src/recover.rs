//! The machine back from an answer: head, sheet words and text.
//!
//! `oracle self` compares it with the original's record, so that the layout hides nothing: a word
//! in the wrong place, or a wrong place in a word, gives another machine.

use crate::agree::Answer;
use crate::diag::Span;
use crate::place::{NONE, text_at, unescape};
use crate::spec::{MachineSpec, SpecComments, StateSpec, TransitionSpec};
use crate::symbol::Dir;

/// Takes the sheet's words one after the other.
struct Words<'a> {
    text: &'a [u8],
    rest: &'a [u32],
}

impl<'a> Words<'a> {
    fn word(&mut self) -> u32 {
        let (first, rest) = self.rest.split_first().expect("a word more in the sheet");
        self.rest = rest;
        *first
    }

    fn span(&mut self) -> Span {
        let start = self.word();
        Span::new(start, self.word())
    }

    fn text(&mut self) -> String {
        let span = self.span();
        text_at(self.text, Some(span)).into()
    }

    fn glyph(&mut self) -> char {
        char::from_u32(self.word()).expect("a code point")
    }

    /// A symbol of a set with its place, which is 0 0 if it was inferred.
    fn symbol(&mut self, blank: char) -> char {
        let glyph = self.glyph();
        let span = self.span();
        if span != Span::new(0, 0) {
            self.check_symbol(span, glyph, blank, None);
        }
        glyph
    }

    /// Checks that the token at `span` stands for `glyph`; a star stands for the symbol `read`.
    fn check_symbol(&self, span: Span, glyph: char, blank: char, read: Option<char>) {
        let written = text_at(self.text, Some(span));
        let stands = match written {
            "_" | "␣" => glyph == blank,
            "*" => read == Some(glyph),
            _ => written == glyph.to_string() || written == format!("'{glyph}'"),
        };
        assert!(stands, "{glyph:?} is not what {written:?} stands for");
    }

    fn list<T>(&mut self, count: u32, mut entry: impl FnMut(&mut Self) -> T) -> Vec<T> {
        (0..count).map(|_| entry(self)).collect()
    }

    fn rule(&mut self, blank: char) -> TransitionSpec {
        let before = self.rest.len();
        let length = self.word() as usize;
        let (from, to) = (self.text(), self.text());
        let span = self.span();
        let comment = self.comment();
        let (arity, leading) = (self.word(), self.word());
        let mut rule = TransitionSpec {
            from,
            to,
            comment,
            span: Some(span),
            ..TransitionSpec::default()
        };
        for _ in 0..arity {
            self.tape(&mut rule, blank);
        }
        rule.leading = self.list(leading, Self::text);
        assert_eq!(before - self.rest.len(), length, "a rule's length word");
        rule
    }

    fn comment(&mut self) -> Option<String> {
        let span = self.span();
        (span != Span::new(NONE, NONE)).then(|| text_at(self.text, Some(span)).into())
    }

    fn tape(&mut self, rule: &mut TransitionSpec, blank: char) {
        let read = self.glyph();
        let read_span = self.span();
        self.check_symbol(read_span, read, blank, None);
        let write = self.glyph();
        let write_span = self.span();
        self.check_symbol(write_span, write, blank, Some(read));
        rule.read.push(read);
        rule.write.push(write);
        rule.dir.push(match self.word() {
            0 => Dir::L,
            1 => Dir::R,
            2 => Dir::N,
            other => panic!("{other} is no direction"),
        });
    }
}

/// The machine that an answer stands for.
///
/// # Panics
///
/// If the words are not laid out as paper 01 has them.
pub fn machine_of(answer: Answer<'_>) -> MachineSpec {
    let Answer { head, sheet, text } = answer;
    let counts = head.counts;
    let blank = head.blank;
    let mut words = Words { text, rest: sheet };
    let states = words.list(counts.states, |w| StateSpec {
        name: w.text(),
        is_final: w.word() == 1,
    });
    let input_alphabet = words.list(counts.input_alphabet, |w| w.symbol(blank));
    let tape_alphabet = words.list(counts.tape_alphabet, |w| w.symbol(blank));
    let finals = words.list(counts.finals, Words::text);
    check_finals(&states, &finals);
    let comments = SpecComments {
        header: words.list(counts.header, Words::text),
        trailing: words.list(counts.trailing, Words::text),
    };
    let transitions = words.list(counts.rules, |w| w.rule(blank));
    assert!(words.rest.is_empty(), "words behind the last rule");
    MachineSpec {
        name: unescape(text_at(text, head.name)),
        kind: head.kind,
        tapes: head.tapes,
        blank,
        input_alphabet,
        tape_alphabet,
        states,
        start: text_at(text, head.start).into(),
        transitions,
        input: unescape(text_at(text, head.input)),
        output: head.output,
        declared: head.declared,
        comments,
    }
}

/// The finals listed are the names of the final states.
fn check_finals(states: &[StateSpec], finals: &[String]) {
    let mut listed: Vec<&str> = finals.iter().map(String::as_str).collect();
    let final_states = states.iter().filter(|s| s.is_final);
    let mut marked: Vec<&str> = final_states.map(|s| s.name.as_str()).collect();
    listed.sort_unstable();
    marked.sort_unstable();
    assert_eq!(listed, marked, "F as listed and as marked");
}
