// oracle: copied from crates/turing-core/src/spec.rs of the repository mooofna/turing-machines,
// oracle: commit 3ee7199970, licence MIT OR Apache-2.0. Lines changed here are marked.
//! `MachineSpec`, the editable interchange form of a machine.
//!
//! A spec keeps everything an editor needs that a [`Machine`] does not: names in their
//! original order, which sets were declared explicitly, comments and source spans. The
//! description language, the transition table and the state diagram of the web front end all
//! edit a spec; [`MachineSpec::compile`] turns it into a runnable machine.

use alloc::collections::BTreeSet; // oracle: BTreeMap served the checks
use alloc::format;
use alloc::string::{String, ToString};
use alloc::vec::Vec;

// oracle: `builder` is not in the source at hand; `compile`, which needs it, is cut.
use crate::diag::{Diagnostic, Span};
// oracle: `is_state_name` served the checks.
use crate::machine::{Decoder, Kind}; // oracle: `Machine` served `compile`
use crate::symbol::Dir; // oracle: the limits served the checks

/// A machine described by names and glyphs.
#[derive(Clone, Debug, PartialEq, Eq, Default)]
#[cfg_attr(feature = "serde", derive(serde::Serialize, serde::Deserialize))]
#[cfg_attr(feature = "serde", serde(rename_all = "camelCase"))]
pub struct MachineSpec {
    /// The machine's name, possibly empty.
    pub name: String,
    /// What the machine is used for.
    pub kind: Kind,
    /// The number of tapes, 1 to [`MAX_TAPES`].
    pub tapes: u8,
    /// The blank glyph.
    pub blank: char,
    /// Σ, in order. Complete even if it was inferred.
    pub input_alphabet: Vec<char>,
    /// Γ, in order, blank included. Complete even if it was inferred.
    pub tape_alphabet: Vec<char>,
    /// Q, in order. Complete even if it was inferred.
    pub states: Vec<StateSpec>,
    /// The name of q0.
    pub start: String,
    /// δ, in source order. Each entry defines exactly one δ(q, a); sugar such as read sets is
    /// expanded by the parser.
    pub transitions: Vec<TransitionSpec>,
    /// The input word used when the machine is opened.
    pub input: String,
    /// How the output is read as a number.
    pub output: Decoder,
    /// Which parts were written explicitly, so that formatting reproduces them.
    pub declared: Declared,
    /// Comments that do not belong to a transition.
    pub comments: SpecComments,
}

/// A state of a [`MachineSpec`].
#[derive(Clone, Debug, PartialEq, Eq, Default)]
#[cfg_attr(feature = "serde", derive(serde::Serialize, serde::Deserialize))]
#[cfg_attr(feature = "serde", serde(rename_all = "camelCase"))]
pub struct StateSpec {
    /// The state name.
    pub name: String,
    /// Whether the state belongs to F.
    pub is_final: bool,
}

/// One entry δ(from, read) = (to, write, dir) of a [`MachineSpec`].
///
/// `read`, `write` and `dir` have one entry per tape.
#[derive(Clone, Debug, PartialEq, Eq, Default)]
#[cfg_attr(feature = "serde", derive(serde::Serialize, serde::Deserialize))]
#[cfg_attr(feature = "serde", serde(rename_all = "camelCase"))]
pub struct TransitionSpec {
    /// The current state.
    pub from: String,
    /// The symbols under the heads.
    pub read: Vec<char>,
    /// The next state.
    pub to: String,
    /// The symbols written.
    pub write: Vec<char>,
    /// The moves.
    pub dir: Vec<Dir>,
    /// A comment at the end of the line.
    pub comment: Option<String>,
    /// Comment lines directly above the transition.
    pub leading: Vec<String>,
    /// Where the transition was written, if it came from text.
    pub span: Option<Span>,
}

/// Which parts of a [`MachineSpec`] were declared explicitly in the source.
#[derive(Copy, Clone, Debug, PartialEq, Eq, Default)]
#[cfg_attr(feature = "serde", derive(serde::Serialize, serde::Deserialize))]
#[cfg_attr(feature = "serde", serde(rename_all = "camelCase"))]
#[expect(
    clippy::struct_excessive_bools,
    reason = "one flag per optional declaration"
)]
pub struct Declared {
    /// `Q = {...}`.
    pub states: bool,
    /// `Σ = {...}`.
    pub input_alphabet: bool,
    /// `Γ = {...}`.
    pub tape_alphabet: bool,
    /// `start = ...`.
    pub start: bool,
    /// `blank = ...`.
    pub blank: bool,
}

/// Comments of a [`MachineSpec`] that are not attached to a transition.
#[derive(Clone, Debug, PartialEq, Eq, Default)]
#[cfg_attr(feature = "serde", derive(serde::Serialize, serde::Deserialize))]
#[cfg_attr(feature = "serde", serde(rename_all = "camelCase"))]
pub struct SpecComments {
    /// Comment lines before the first declaration, and comments that belong to a
    /// declaration rather than a transition.
    pub header: Vec<String>,
    /// Comment lines after the last transition.
    pub trailing: Vec<String>,
}

/// The largest transition table |Q| × |Γ|^k, in entries. It is the limit of
/// [`MachineBuilder`]; a test checks that both agree.
const MAX_TABLE_ENTRIES: usize = 1 << 22;

/// The stable diagnostic codes, documented in `docs/dsl.md`.
pub(crate) mod codes {
    /// A token that does not fit the grammar.
    pub(crate) const UNEXPECTED_TOKEN: &str = "E001";
    /// A string literal without its closing quote.
    pub(crate) const UNTERMINATED_STRING: &str = "E002";
    /// A state or symbol that is not declared.
    pub(crate) const UNKNOWN_NAME: &str = "E003";
    /// δ(q, a) defined twice.
    pub(crate) const DUPLICATE_TRANSITION: &str = "E004";
    /// No states, so no start state.
    pub(crate) const NO_STATES: &str = "E005";
    /// The blank in Σ.
    pub(crate) const BLANK_IN_INPUT: &str = "E006";
    /// Σ ⊄ Γ.
    pub(crate) const INPUT_NOT_IN_TAPE: &str = "E007";
    /// A move other than `L`, `R` or `N`.
    pub(crate) const INVALID_DIRECTION: &str = "E008";
    /// A machine beyond the supported size.
    pub(crate) const TOO_LARGE: &str = "E009";
    /// A transition with the wrong number of tape entries.
    pub(crate) const WRONG_ARITY: &str = "E010";
    /// A declaration or set element given twice.
    pub(crate) const DUPLICATE_DECLARATION: &str = "E011";
    /// A state name or glyph that the description language cannot write.
    pub(crate) const INVALID_NAME: &str = "E012";
    /// A state that cannot be reached from the start state.
    pub(crate) const UNREACHABLE_STATE: &str = "W001";
    /// An acceptor or enumerator without final states.
    pub(crate) const NO_FINAL_STATE: &str = "W002";
    /// A declared symbol that no transition reads or writes.
    pub(crate) const UNUSED_SYMBOL: &str = "W003";
}

/// Where the parts of a spec were written in its source text, so that diagnostics can point at
/// single tokens instead of whole lines.
///
/// Every vector runs parallel to the corresponding list of the spec; missing entries fall back
/// to coarser spans.
#[derive(Clone, Debug, Default, PartialEq, Eq)] // oracle: `Parsed` holds the map and is compared
pub(crate) struct SourceMap {
    pub(crate) transitions: Vec<TransitionSpans>,
    /// The elements of `Q = {...}`.
    pub(crate) states: Vec<Span>,
    pub(crate) states_decl: Option<Span>,
    /// The elements of `Σ = {...}`.
    pub(crate) input_alphabet: Vec<Span>,
    /// The elements of `Γ = {...}`.
    pub(crate) tape_alphabet: Vec<Span>,
    /// The elements of `F = {...}`.
    pub(crate) finals: Vec<(String, Span)>,
    pub(crate) start: Option<Span>,
    pub(crate) tapes: Option<Span>,
    pub(crate) kind: Option<Span>,
    pub(crate) input: Option<Span>,
}

/// The token spans of one expanded transition.
#[derive(Clone, Debug, Default, PartialEq, Eq)] // oracle: as for `SourceMap`
pub(crate) struct TransitionSpans {
    pub(crate) from: Span,
    pub(crate) to: Span,
    pub(crate) read: Vec<Span>,
    pub(crate) write: Vec<Span>,
}

impl MachineSpec {
    /// An empty single-tape transducer with blank `␣`.
    pub fn new() -> Self {
        Self {
            tapes: 1,
            blank: '␣',
            tape_alphabet: alloc::vec!['␣'],
            ..Self::default()
        }
    }

    /// Completes the sets that were not declared, using the same rules as the parser:
    ///
    /// * Q: the declared start state, then every state in order of first mention in the
    ///   transitions, then the remaining states already listed (for example final states).
    /// * q0: the first state of Q.
    /// * Γ: the blank, a declared Σ, every glyph in the transitions in order of use, the glyphs
    ///   already listed and, if Σ is not declared either, the glyphs of the input word.
    ///   A declared Γ only gains the blank if it lacks it.
    /// * Σ: Γ without the blank.
    ///
    /// Declared sets are left alone, so names outside them stay errors for [`check`].
    /// Inferring twice changes nothing.
    ///
    /// [`check`]: MachineSpec::check
    ///
    /// ```
    /// use turing_core::{Dir, MachineSpec, TransitionSpec};
    /// let mut spec = MachineSpec::new();
    /// spec.transitions.push(TransitionSpec {
    ///     from: "q0".into(),
    ///     read: vec!['x'],
    ///     to: "q1".into(),
    ///     write: vec!['X'],
    ///     dir: vec![Dir::R],
    ///     ..TransitionSpec::default()
    /// });
    /// spec.infer();
    /// assert_eq!(spec.start, "q0");
    /// assert_eq!(spec.states.len(), 2);
    /// assert_eq!(spec.tape_alphabet, ['␣', 'x', 'X']);
    /// assert_eq!(spec.input_alphabet, ['x', 'X']);
    /// ```
    pub fn infer(&mut self) {
        if !self.declared.states {
            let old = core::mem::take(&mut self.states);
            let start = self.declared.start.then_some(self.start.as_str());
            let mentions = start
                .into_iter()
                .chain(
                    self.transitions
                        .iter()
                        .flat_map(|t| [t.from.as_str(), t.to.as_str()]),
                )
                .chain(old.iter().map(|s| s.name.as_str()));
            let finals: BTreeSet<&str> = old
                .iter()
                .filter(|s| s.is_final)
                .map(|s| s.name.as_str())
                .collect();
            let mut seen = BTreeSet::new();
            for name in mentions {
                if !name.is_empty() && seen.insert(name) {
                    self.states.push(StateSpec {
                        name: name.into(),
                        is_final: finals.contains(name),
                    });
                }
            }
        }
        if !self.declared.start {
            self.start = self
                .states
                .first()
                .map(|s| s.name.clone())
                .unwrap_or_default();
        }
        if self.declared.tape_alphabet {
            if !self.tape_alphabet.contains(&self.blank) {
                self.tape_alphabet.push(self.blank);
            }
        } else {
            let declared_sigma = self
                .declared
                .input_alphabet
                .then_some(&self.input_alphabet)
                .into_iter()
                .flatten();
            let used = self
                .transitions
                .iter()
                .flat_map(|t| t.read.iter().chain(&t.write));
            let input = if self.declared.input_alphabet {
                ""
            } else {
                self.input.as_str()
            };
            let mut gamma = alloc::vec![self.blank];
            let mut seen = BTreeSet::from([self.blank]);
            for glyph in declared_sigma
                .chain(used)
                .chain(&self.tape_alphabet)
                .copied()
                .chain(input.chars())
            {
                if seen.insert(glyph) {
                    gamma.push(glyph);
                }
            }
            self.tape_alphabet = gamma;
        }
        if !self.declared.input_alphabet {
            let blank = self.blank;
            self.input_alphabet = self
                .tape_alphabet
                .iter()
                .copied()
                .filter(|&c| c != blank)
                .collect();
        }
    }

    /// Checks the spec and reports every error and warning, ordered by source position
    /// (diagnostics without a span come last).
    ///
    /// The checks run on a copy with the undeclared sets inferred (see
    /// [`MachineSpec::infer`]). The codes are documented in `docs/dsl.md`.
    ///
    /// ```
    /// use turing_core::dsl;
    /// let spec = dsl::parse("δ(q0, x) = (q1, x, R)").spec.unwrap();
    /// assert!(spec.check().is_empty());
    /// ```
    pub fn check(&self) -> Vec<Diagnostic> {
        self.analyze(None).1
    }

    // oracle: `compile` is cut, it needs `builder`.

    /// The index of the state called `name`.
    pub fn state_index(&self, name: &str) -> Option<usize> {
        self.states.iter().position(|s| s.name == name)
    }

    /// The index of the transition δ(`from`, `read`), if defined.
    pub fn transition_index(&self, from: &str, read: &[char]) -> Option<usize> {
        self.transitions
            .iter()
            .position(|t| t.from == from && t.read == read)
    }

    /// Infers the undeclared sets of a copy and checks it, using `map` for precise spans.
    pub(crate) fn analyze(&self, map: Option<&SourceMap>) -> (Self, Vec<Diagnostic>) {
        let mut spec = self.clone();
        spec.infer();
        let _ = map; // oracle: only the checks used the map
        let mut diagnostics = Vec::new(); // oracle: an empty list of checks
        sort_diagnostics(&mut diagnostics);
        (spec, diagnostics)
    }

    /// The span of transition `index`, if known.
    fn transition_span(&self, index: usize) -> Option<Span> {
        self.transitions.get(index).and_then(|t| t.span)
    }

    // oracle: `build_diagnostic` is cut, it served `compile`.
}

/// Orders diagnostics by position; those without a span go last. The sort is stable.
pub(crate) fn sort_diagnostics(diagnostics: &mut [Diagnostic]) {
    diagnostics.sort_by_key(|d| d.span.map_or(u32::MAX, |s| s.start));
}

/// The number of single-character edits that turn `a` into `b` (Levenshtein distance).
pub(crate) fn edit_distance(a: &str, b: &str) -> usize {
    let b: Vec<char> = b.chars().collect();
    let mut previous: Vec<usize> = (0..=b.len()).collect();
    let mut current = alloc::vec![0; b.len() + 1];
    for (i, ca) in a.chars().enumerate() {
        current[0] = i + 1;
        for (j, &cb) in b.iter().enumerate() {
            let substitute = previous[j] + usize::from(ca != cb);
            current[j + 1] = substitute.min(previous[j + 1] + 1).min(current[j] + 1);
        }
        core::mem::swap(&mut previous, &mut current);
    }
    previous[b.len()]
}

/// The candidate closest to `name` within two edits, preferring earlier candidates on ties.
/// A candidate that would replace every character of `name` is no suggestion.
pub(crate) fn closest<'a>(
    name: &str,
    candidates: impl IntoIterator<Item = &'a str>,
) -> Option<&'a str> {
    let length = name.chars().count();
    candidates
        .into_iter()
        .map(|c| (edit_distance(name, c), c))
        .filter(|&(distance, _)| (1..=2).contains(&distance) && distance < length)
        .min_by_key(|&(distance, _)| distance)
        .map(|(_, c)| c)
}

/// A glyph for a message: in backticks, or escaped if it would be invisible.
pub(crate) fn show_glyph(glyph: char) -> String {
    if glyph.is_whitespace() || glyph.is_control() {
        format!("{glyph:?}")
    } else {
        format!("`{glyph}`")
    }
}

/// δ(q, a) or δ(q, (a, b)) for a message.
fn show_lhs(from: &str, read: &[char]) -> String {
    let symbols: Vec<String> = read.iter().map(char::to_string).collect();
    if let [single] = symbols.as_slice() {
        format!("δ({from}, {single})")
    } else {
        format!("δ({from}, ({}))", symbols.join(", "))
    }
}

/// "1 tape", "2 tapes".
fn tapes_noun(n: usize) -> String {
    if n == 1 {
        "1 tape".into()
    } else {
        format!("{n} tapes")
    }
}

/// How many "did you mean" searches one check may run. Each compares a name with every
/// state, so the budget keeps checking near linear for any input.
pub(crate) const MAX_SUGGESTIONS: usize = 64;

// oracle: `Index`, `Checker` and `From<&Machine>` are cut.
