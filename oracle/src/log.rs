//! The log: diagnostic records of five words.

use crate::diag::{Diagnostic, Span};
use crate::place;

/// Words of a record.
pub const RECORD_WORDS: usize = 5;

/// A diagnostic without its message.
#[derive(Copy, Clone, Debug, PartialEq, Eq)]
pub struct Record {
    /// E001 is 1.
    pub code: u32,
    pub place: Span,
    pub related: Option<Span>,
}

impl Record {
    /// The record of the original's diagnostic.
    pub fn of(diagnostic: &Diagnostic) -> Self {
        let number = diagnostic.code.strip_prefix('E');
        assert!(diagnostic.related.len() <= 1, "one related place at most");
        Self {
            code: number.and_then(|n| n.parse().ok()).expect("an error code"),
            place: diagnostic.span.expect("every diagnostic has a place"),
            related: diagnostic.related.first().map(|&(span, _)| span),
        }
    }

    /// The words of the record.
    pub fn words(&self) -> [u32; RECORD_WORDS] {
        let [start, end] = place::words(Some(self.place));
        let [related_start, related_end] = place::words(self.related);
        [self.code, start, end, related_start, related_end]
    }
}
