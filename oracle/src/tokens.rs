//! Instrumentation: the original lexer's tokens as the words that the port's lexer writes.
//!
//! This file is mounted inside the original's `dsl` module, since its tokens are seen only there.

use super::lexer::{self, LexError, Token, TokenKind};
use crate::chars::utf8_beginning;

/// The words of one token: kind, start, end, value.
pub type TokenWords = [u32; 4];

/// The names of the kinds, by number.
pub const KINDS: [&str; 16] = [
    "Word",
    "Number",
    "Quoted",
    "Str",
    "LParen",
    "RParen",
    "LBrace",
    "RBrace",
    "Comma",
    "Eq",
    "Star",
    "Other",
    "Comment",
    "Newline",
    "UnterminatedString",
    "UnterminatedQuote",
];

/// The words that mean something to the parser, numbered from 1.
const KEYWORDS: [&str; 24] = [
    "machine",
    "kind",
    "input",
    "output",
    "tapes",
    "Q",
    "Σ",
    "Sigma",
    "Γ",
    "Gamma",
    "blank",
    "start",
    "F",
    "δ",
    "delta",
    "acceptor",
    "transducer",
    "enumerator",
    "beaver",
    "word",
    "unary",
    "binary",
    "lsb",
    "msb",
];

/// The value of a longer word that is no keyword; keyword numbers are added to it.
const LONG_WORD: u32 = 0x11_0000;

/// Where numbers stop being told apart.
const NUMBER_CAP: u64 = 256;

/// The tokens of the text, or of its longest UTF-8 beginning.
pub fn tokens(text: &[u8]) -> Vec<TokenWords> {
    lexer::tokenize(utf8_beginning(text))
        .iter()
        .map(token_words)
        .collect()
}

/// The one place that knows how a token is laid out.
fn token_words(token: &Token<'_>) -> TokenWords {
    let (kind, value) = match &token.kind {
        TokenKind::Word(word) => (0, word_value(word)),
        TokenKind::Number(digits) => (1, number_value(digits)),
        TokenKind::Quoted(c) => (2, u32::from(*c)),
        TokenKind::Str(_) => (3, 1),
        TokenKind::LParen => (4, u32::from('(')),
        TokenKind::RParen => (5, u32::from(')')),
        TokenKind::LBrace => (6, u32::from('{')),
        TokenKind::RBrace => (7, u32::from('}')),
        TokenKind::Comma => (8, u32::from(',')),
        TokenKind::Eq => (9, u32::from('=')),
        TokenKind::Star => (10, u32::from('*')),
        TokenKind::Other(c) => (11, u32::from(*c)),
        TokenKind::Comment(text) => (12, comment_value(text)),
        TokenKind::Newline => (13, 0),
        TokenKind::Error(LexError::UnterminatedString) => (14, 0),
        TokenKind::Error(LexError::UnterminatedQuote) => (15, 0),
    };
    [kind, token.span.start, token.span.end, value]
}

/// The code of a one-character word, else a keyword's number above `LONG_WORD`.
fn word_value(word: &str) -> u32 {
    let mut chars = word.chars();
    if let (Some(c), None) = (chars.next(), chars.next()) {
        return u32::from(c);
    }
    let keyword = KEYWORDS.iter().position(|&k| k == word);
    LONG_WORD + keyword.map_or(0, |i| i as u32 + 1)
}

/// The bytes before a comment's text: the slashes, and one space.
fn comment_value(text: &str) -> u32 {
    2 + u32::from(text.starts_with(' '))
}

fn number_value(digits: &str) -> u32 {
    // Digits beyond 64 bits are beyond the cap as well.
    digits
        .parse()
        .map_or(NUMBER_CAP, |n: u64| n.min(NUMBER_CAP)) as u32
}

#[cfg(test)]
mod tests {
    use super::*;

    #[test]
    fn values_of_each_kind() {
        let value = |text: &str| tokens(text.as_bytes())[0];
        assert_eq!(value("δ"), [0, 0, 2, 0x3B4]);
        assert_eq!(value("delta"), [0, 0, 5, LONG_WORD + 15]);
        assert_eq!(value("msb"), [0, 0, 3, LONG_WORD + 24]);
        assert_eq!(value("a'b'"), [0, 0, 4, LONG_WORD]);
        assert_eq!(value("0255"), [1, 0, 4, 255]);
        assert_eq!(value("18446744073709551616"), [1, 0, 20, 256]);
        assert_eq!(value("'''"), [2, 0, 3, 0x27]);
        assert_eq!(value("\"a\\\"\""), [3, 0, 5, 1]);
        assert_eq!(value("*"), [10, 0, 1, 0x2A]);
        assert_eq!(value("␣"), [11, 0, 3, 0x2423]);
        assert_eq!(value("// a  "), [12, 0, 4, 3]);
        assert_eq!(value("//a"), [12, 0, 3, 2]);
        assert_eq!(value(""), [13, 0, 0, 0]);
        assert_eq!(value("\"a "), [14, 0, 2, 0]);
        assert_eq!(value("'"), [15, 0, 1, 0]);
    }

    #[test]
    fn tokens_of_the_utf8_beginning() {
        assert_eq!(tokens(b"a\xFFb"), tokens(b"a"));
    }
}
