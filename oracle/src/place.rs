//! Places: pairs of byte offsets, end excluded, and the text that stands at one.

use crate::diag::Span;

/// The word that stands twice for "no place".
pub const NONE: u32 = u32::MAX;

/// The two words of a place, or those of "none".
pub fn words(place: Option<Span>) -> [u32; 2] {
    place.map_or([NONE, NONE], |span| [span.start, span.end])
}

/// The place that two words stand for.
pub fn from_words(start: u32, end: u32) -> Option<Span> {
    (start != NONE || end != NONE).then_some(Span::new(start, end))
}

/// The bytes at a place; "none" is the empty part.
///
/// # Panics
///
/// If the place is not inside the text: no answer of ours holds such a place.
pub fn bytes_at(text: &[u8], place: Option<Span>) -> &[u8] {
    place.map_or(&[], |span| &text[span.start as usize..span.end as usize])
}

/// The characters at a place, for texts that are known to be UTF-8 there.
pub fn text_at(text: &[u8], place: Option<Span>) -> &str {
    std::str::from_utf8(bytes_at(text, place)).expect("a place cuts a character")
}

/// The place between the quotes of a string literal at `span`.
pub fn between_quotes(span: Span) -> Span {
    Span::new(span.start + 1, span.end - 1)
}

/// What the characters between the quotes of a string stand for: `\"`, `\\`, `\n` and `\t` are
/// escapes, another backslash stands for itself.
pub fn unescape(literal: &str) -> String {
    let mut value = String::new();
    let mut chars = literal.chars().peekable();
    while let Some(c) = chars.next() {
        let escaped = match (c, chars.peek()) {
            ('\\', Some('"')) => Some('"'),
            ('\\', Some('\\')) => Some('\\'),
            ('\\', Some('n')) => Some('\n'),
            ('\\', Some('t')) => Some('\t'),
            _ => None,
        };
        if escaped.is_some() {
            chars.next();
        }
        value.push(escaped.unwrap_or(c));
    }
    value
}
