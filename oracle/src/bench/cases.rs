//! The texts that are measured, each a function of its size.

use crate::chars;
use crate::families::limits::{fill, quads, read_sets};
use crate::outcome::MAX_TEXT;

/// Sizes at which a case that grows is measured.
const GROWING: &[usize] = &[MAX_TEXT / 16, MAX_TEXT / 4, MAX_TEXT];

/// A text to be measured.
pub struct Case {
    pub name: &'static str,
    /// A text of at most so many bytes, and not many less.
    pub text: fn(usize) -> Vec<u8>,
    /// The sizes, ascending.
    pub sizes: &'static [usize],
    /// Whether the sheet is lent in full; otherwise it has no words, and the call is refused.
    pub sheet: bool,
    /// Whether the original is run on it.
    pub rust: bool,
    /// A case whose texts are read in turn with this one's, to be compared with.
    pub beside: Option<&'static Case>,
}

/// As many tapes as fit, each with one symbol: what the text of refusal-6 would cost if it had no sets and were read.
const SINGLE_TAPES: Case = Case {
    rust: false,
    ..growing("single-tapes", single_tapes)
};

/// The beaver with five states, as an entry of a list of machines.
const BEAVER: &str = "\
// The busy beaver with five states writes 4098 ones.
machine \"BB(5)\"
kind beaver
F = {H}
δ(A, _) = (B, 1, R)
δ(A, 1) = (C, 1, L)
δ(B, _) = (C, 1, R)
δ(B, 1) = (B, 1, R)
δ(C, _) = (D, 1, R)
δ(C, 1) = (E, _, L)
δ(D, _) = (A, 1, L)
δ(D, 1) = (D, 1, L)
δ(E, _) = (H, 1, R)
δ(E, 1) = (A, _, L)
";

pub const CASES: &[Case] = &[
    of_sizes("beaver", &[BEAVER.len()], |_| BEAVER.into()),
    of_sizes("rules", &[100 << 10], rules),
    growing("rules-most", |size| fill("δ(a,a)=(a,a,R)\n", size)),
    growing("comments", |size| fill("// c\n", size)),
    growing("comments-long", |size| {
        let line = "// what the machine does when it stands on the first blank cell\n";
        fill(line, size)
    }),
    growing("states-rules", |size| {
        pieces("", |i| format!("δ(q{i},a)=(p{i},a,R)\n"), "", size)
    }),
    growing("states-q", |size| {
        pieces("Q = {a", |i| format!(",q{i}"), "}\n", size)
    }),
    growing("states-f", |size| {
        pieces("F = {a", |i| format!(",q{i}"), "}\n", size)
    }),
    growing("states-quads", |size| {
        pieces("Q = {a", |i| format!(",{}", quads(i)), "}\n", size)
    }),
    growing("errors", |size| fill("a\n", size)),
    growing("errors-rules", |size| fill("δ(a,a)=(a,a,x)\n", size)),
    growing("repeats-f", |size| {
        pieces("F={a", |_| ",a".into(), "}\n", size)
    }),
    growing("second", |size| fill("tapes=1\n", size)),
    growing("arity", single_tapes),
    growing("dropped", dropped),
    growing("unterminated", |size| {
        pieces("machine \"", |_| "a".into(), "", size)
    }),
    growing("line-feeds", |size| fill("\n", size)),
    of_sizes("sets-6-of-8", &[150], |_| read_sets(6, 8, 0)),
    of_sizes("sets-18-of-2", &[200], |_| read_sets(18, 2, 0)),
    growing("mixed", |size| fill("δ(a,a)=(a,a,(R,R))\nfail\n", size)),
    growing("glyphs-rules", |size| {
        let glyphs = glyphs();
        let glyph = |i: usize| glyphs[i % glyphs.len()];
        let rule = |i| format!("δ(a,'{}')=(a,'{}',R)\n", glyph(i), glyph(7 * i));
        pieces("", rule, "", size)
    }),
    growing("glyphs-set", |size| {
        let glyphs = glyphs();
        let member = |i: usize| format!(",'{}'", glyphs[i % glyphs.len()]);
        pieces("Γ = {a", member, "}\n", size)
    }),
    growing("glyphs-input", |size| {
        let glyphs = glyphs();
        let glyph = |i: usize| glyphs[i % glyphs.len()].to_string();
        pieces("input \"", glyph, "\"\n", size)
    }),
    growing("greek-latin", |size| pieces("", greek_latin, "", size)),
    Case {
        sheet: false,
        // The original expands all rules, which no memory holds.
        rust: false,
        beside: Some(&SINGLE_TAPES),
        ..growing("refusal-6", |size| read_sets(18, 2, (size - 240) / 6))
    },
];

const fn of_sizes(name: &'static str, sizes: &'static [usize], text: fn(usize) -> Vec<u8>) -> Case {
    Case {
        name,
        text,
        sizes,
        sheet: true,
        rust: true,
        beside: None,
    }
}

const fn growing(name: &'static str, text: fn(usize) -> Vec<u8>) -> Case {
    of_sizes(name, GROWING, text)
}

/// One rule with as many tapes as fit, each with one symbol.
fn single_tapes(size: usize) -> Vec<u8> {
    read_sets(0, 1, (size - 20) / 6)
}

/// Rules of a table with eight symbols a state, in the order of the states; each goes to a state near its own.
fn rules(size: usize) -> Vec<u8> {
    let rule = |i: usize| {
        let (state, symbol) = (i / 8, i % 8);
        let to = state + 3 * symbol % 5;
        let direction = if i.is_multiple_of(3) { 'L' } else { 'R' };
        format!(
            "δ(q{state}, {symbol}) = (q{to}, {}, {direction})\n",
            7 - symbol
        )
    };
    pieces("", rule, "", size)
}

/// A rule whose names, symbols and comment go from Greek to Latin and back, and its index in names that are all different.
fn greek_latin(i: usize) -> String {
    let (read, write) = [("a", "ω"), ("φ", "b"), ("λ", "Ω"), ("x", "y")][i % 4];
    format!("δ(qα{i}, {read}) = (βeta{i}, {write}, R) // από {read} to {write}\n")
}

/// A rule with two read sets whose product is above the limit.
fn dropped(size: usize) -> Vec<u8> {
    let members = vec!["0"; (size - 40) / 4].join(",");
    format!("δ(a,({{{members}}},{{{members}}}))=(b,(*,*),(L,L))\n").into()
}

/// `before`, as many pieces as there is room for, and `after`.
fn pieces(before: &str, piece: impl Fn(usize) -> String, after: &str, size: usize) -> Vec<u8> {
    let mut text = before.to_string();
    for piece in (0..).map(piece) {
        if size < text.len() + piece.len() + after.len() {
            break;
        }
        text.push_str(&piece);
    }
    text.push_str(after);
    text.into()
}

/// Every admitted character that stands for itself between any quotes.
fn glyphs() -> Vec<char> {
    let special = ['\n', '"', '\\'];
    chars::admitted().filter(|c| !special.contains(c)).collect()
}
