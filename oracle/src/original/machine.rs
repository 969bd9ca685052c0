// oracle: copied from crates/turing-core/src/machine.rs of the repository mooofna/turing-machines,
// oracle: commit 3ee7199970, licence MIT OR Apache-2.0. Lines changed here are marked.
//! The validated machine M = (Q, Σ, Γ, δ, q0, F) with a dense transition table.

// oracle: the imports, `Action` and `Transition` are cut, they serve running a machine.

/// What a machine is used for. It decides how a halted run is read.
#[derive(Copy, Clone, Debug, PartialEq, Eq, Hash, Default)]
#[cfg_attr(feature = "serde", derive(serde::Serialize, serde::Deserialize))]
#[cfg_attr(feature = "serde", serde(rename_all = "lowercase"))]
pub enum Kind {
    /// Accepts its input if it halts in a final state, and rejects it if it halts elsewhere.
    Acceptor,
    /// Computes a function: the output is the content of the first tape after halting.
    #[default]
    Transducer,
    /// Prints a language: every step into a final state outputs the current tape.
    Enumerator,
    /// Starts on the blank tape; only the number of steps and of non-blank cells matter.
    Beaver,
}

/// The order of bits for [`Decoder::Binary`].
#[derive(Copy, Clone, Debug, PartialEq, Eq, Hash, Default)]
#[cfg_attr(feature = "serde", derive(serde::Serialize, serde::Deserialize))]
#[cfg_attr(feature = "serde", serde(rename_all = "lowercase"))]
pub enum BitOrder {
    /// The least significant bit comes first (leftmost).
    Lsb,
    /// The most significant bit comes first (leftmost).
    #[default]
    Msb,
}

/// How the output word of a transducer is read as a number.
#[derive(Copy, Clone, Debug, PartialEq, Eq, Hash, Default)]
#[cfg_attr(feature = "serde", derive(serde::Serialize, serde::Deserialize))]
#[cfg_attr(feature = "serde", serde(tag = "kind", rename_all = "lowercase"))]
pub enum Decoder {
    /// The output is a word; no number is derived.
    #[default]
    Word,
    /// The number of occurrences of `symbol`.
    Unary {
        /// The tally symbol.
        symbol: char,
    },
    /// A binary number written with the glyphs `0` and `1`.
    Binary {
        /// Bit order.
        order: BitOrder,
    },
}

// oracle: everything from `StateInfo` on is cut, it serves running a machine.
