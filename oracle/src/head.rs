//! The head of a machine: everything of the answer that is not in the sheet.

use crate::diag::Span;
use crate::machine::{BitOrder, Decoder, Kind};
use crate::place;
use crate::sheet::Counts;
use crate::spec::Declared;

/// The head, field by field as paper 01 lists them.
#[derive(Clone, Debug, PartialEq, Eq)]
pub struct Head {
    pub output: Decoder,
    /// The name between its quotes, none if undeclared.
    pub name: Option<Span>,
    /// The input between its quotes, none if undeclared.
    pub input: Option<Span>,
    pub kind: Kind,
    pub tapes: u8,
    pub blank: char,
    pub declared: Declared,
    /// The start's name: as declared, else the first state's, or none.
    pub start: Option<Span>,
    pub map: MapPlaces,
    pub counts: Counts,
}

/// The places of the source map that the head hands on.
#[derive(Clone, Debug, PartialEq, Eq)]
pub struct MapPlaces {
    pub kind: Option<Span>,
    pub input: Option<Span>,
    pub tapes: Option<Span>,
    pub start: Option<Span>,
    pub states: Option<Span>,
}

/// How many words `head_words` gives.
pub const HEAD_WORDS: usize = 33;

/// The one place that knows how a head is laid out in words:
///
/// | words | field |
/// |---|---|
/// | 0, 1 | decoder: Word 0, Unary 1, Binary 2; then 0, the symbol's code, or Lsb 0 and Msb 1 |
/// | 2 to 5 | places of name and input |
/// | 6, 7, 8 | kind (Acceptor 0, Transducer 1, Enumerator 2, Beaver 3), tapes, blank |
/// | 9 to 13 | declared flags: states, Σ, Γ, start, blank |
/// | 14, 15 | place of the start's name |
/// | 16 to 25 | the map's places for kind, input, tapes, start and Q |
/// | 26 to 32 | section counts: states, Σ, Γ, finals, header, trailing, rules |
pub fn head_words(head: &Head) -> [u32; HEAD_WORDS] {
    let mut words = Vec::with_capacity(HEAD_WORDS);
    words.extend(decoder_words(head.output));
    words.extend(place::words(head.name));
    words.extend(place::words(head.input));
    words.extend([
        kind_word(head.kind),
        u32::from(head.tapes),
        u32::from(head.blank),
    ]);
    words.extend(flags(head.declared).map(u32::from));
    words.extend(place::words(head.start));
    for place in map_places(&head.map) {
        words.extend(place::words(place));
    }
    words.extend(head.counts.in_order());
    words.try_into().expect("the number of words of a head")
}

fn decoder_words(decoder: Decoder) -> [u32; 2] {
    match decoder {
        Decoder::Word => [0, 0],
        Decoder::Unary { symbol } => [1, u32::from(symbol)],
        Decoder::Binary {
            order: BitOrder::Lsb,
        } => [2, 0],
        Decoder::Binary {
            order: BitOrder::Msb,
        } => [2, 1],
    }
}

fn kind_word(kind: Kind) -> u32 {
    match kind {
        Kind::Acceptor => 0,
        Kind::Transducer => 1,
        Kind::Enumerator => 2,
        Kind::Beaver => 3,
    }
}

/// The five declared flags in paper 01's order.
pub fn flags(declared: Declared) -> [bool; 5] {
    [
        declared.states,
        declared.input_alphabet,
        declared.tape_alphabet,
        declared.start,
        declared.blank,
    ]
}

/// The map's places in paper 01's order.
pub fn map_places(map: &MapPlaces) -> [Option<Span>; 5] {
    [map.kind, map.input, map.tapes, map.start, map.states]
}
