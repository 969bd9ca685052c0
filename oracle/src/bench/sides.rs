//! What is measured: one call of the original, of the port's reader or of its writer.

use crate::compare::read_answer;
use crate::dsl::{self, Parsed};
use crate::foreign::{self, AnswerRow, Buffers, Call};
use crate::log::RECORD_WORDS;
use crate::outcome::{MAX_TEXT, ReadReply, Refusal, work_needed};
use crate::reading::{self, Reading};

use super::cases::Case;
use super::pages::{Pages, buffer};

/// Records that a log has room for even if the text has no diagnostic.
const LOG_RECORDS: usize = 64;
/// The words in buffers that nothing was written to.
const DIRTY: u32 = 0xA5A5_A5A5;

/// Whose call it is.
#[derive(Copy, Clone, Debug, PartialEq, Eq)]
pub enum Side {
    Rust,
    Read,
    Write,
}

impl Side {
    pub const ALL: [Self; 3] = [Self::Rust, Self::Read, Self::Write];

    /// The name on the command line and in tables.
    pub fn name(self) -> &'static str {
        match self {
            Self::Rust => "rust",
            Self::Read => "read",
            Self::Write => "write",
        }
    }

    pub fn named(name: &str) -> Option<Self> {
        Self::ALL.into_iter().find(|side| side.name() == name)
    }
}

/// The lengths of the buffers that are lent, but for work.
#[derive(Copy, Clone)]
pub struct Lent {
    pub log: usize,
    pub sheet: usize,
    pub output: usize,
}

/// What the original makes of a text, and what is lent for it.
pub struct Expected {
    pub rules: u64,
    pub diagnostics: u64,
    pub lent: Lent,
    pub answer: AnswerRow,
}

impl Expected {
    /// Reads the text by the oracle. The sheet and the output are as long as needed, the log too, but at
    /// least of `LOG_RECORDS`.
    pub fn of(case: &Case, text: &str) -> Self {
        let log = LOG_RECORDS * RECORD_WORDS;
        match reading::read(text.as_bytes()) {
            Reading::NotUtf8(_) | Reading::OutsideSet(_) => panic!("an admitted text"),
            Reading::Diagnostics(records) => Self {
                rules: 0,
                diagnostics: records.len() as u64,
                lent: Lent {
                    log: log.max(records.len() * RECORD_WORDS),
                    sheet: 0,
                    output: 0,
                },
                answer: read_answer(&ReadReply::Diagnostics(records.len() as u64)),
            },
            Reading::Machine(machine) => {
                let reply = match case.sheet {
                    true => ReadReply::Head(Box::new(machine.head.clone())),
                    false => ReadReply::Refused(Refusal {
                        number: 6,
                        value: machine.words_needed,
                    }),
                };
                Self {
                    rules: u64::from(machine.head.counts.rules),
                    diagnostics: 0,
                    lent: Lent {
                        log,
                        sheet: if case.sheet {
                            machine.words_needed as usize
                        } else {
                            0
                        },
                        output: machine.form_len.min(MAX_TEXT as u64) as usize,
                    },
                    answer: read_answer(&reply),
                }
            }
        }
    }
}

/// A text with the buffers that every call on it is lent, as the call before left them.
pub struct Bench {
    pub text: String,
    buffers: Buffers,
}

/// What a call gave, to be dropped when the time is taken.
#[allow(clippy::large_enum_variant)] // A box would be part of what is measured.
pub enum Kept {
    Parsed(#[allow(dead_code)] Parsed),
    Answer(AnswerRow),
}

impl Bench {
    /// Buffers of these lengths, every page of them touched.
    pub fn new(text: String, lent: Lent, pages: Pages) -> Self {
        let buffers = Buffers {
            work: buffer(DIRTY, work_needed(text.len()), pages),
            log: buffer(DIRTY, lent.log, pages),
            sheet: buffer(DIRTY, lent.sheet, pages),
            output: buffer(DIRTY as u8, lent.output, pages),
        };
        Self { text, buffers }
    }

    /// Whether the side is linked and its call comes to an end.
    pub fn runs(case: &Case, side: Side) -> bool {
        match side {
            Side::Rust => case.rust,
            Side::Read => foreign::read().is_some(),
            Side::Write => foreign::write().is_some(),
        }
    }

    /// One call.
    pub fn call(&mut self, side: Side) -> Kept {
        match side {
            Side::Rust => bench_rust(&self.text),
            Side::Read => self.port(foreign::read()),
            Side::Write => self.port(foreign::write()),
        }
    }

    fn port(&mut self, call: Option<Call>) -> Kept {
        let call = call.expect("the library is linked");
        Kept::Answer(call(self.text.as_bytes(), &mut self.buffers))
    }
}

/// The original's call, under a name that callgrind can be told.
#[inline(never)]
#[unsafe(no_mangle)]
fn bench_rust(text: &str) -> Kept {
    Kept::Parsed(dsl::parse(text))
}
