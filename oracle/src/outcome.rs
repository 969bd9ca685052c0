//! The whole outcome of a call: paper 01's table "What a call returns", in its order.

use crate::head::Head;
use crate::log::{RECORD_WORDS, Record};
use crate::reading::{self, Machine, Reading};

/// The longest text that is read and the longest form that is written.
pub const MAX_TEXT: usize = 4_194_304;

/// The lengths of the lent buffers, work, log and sheet in words, output in bytes.
#[derive(Copy, Clone, Debug, PartialEq, Eq)]
pub struct Lengths {
    pub work: usize,
    pub log: usize,
    pub sheet: usize,
    pub output: usize,
}

/// The words of work that a text of `len` bytes needs.
pub fn work_needed(len: usize) -> usize {
    6 * len + 6
}

/// A refusal's number and its second value: an offset or an amount needed.
#[derive(Copy, Clone, Debug, PartialEq, Eq)]
pub struct Refusal {
    pub number: u8,
    pub value: u64,
}

/// What a reading call answers.
#[derive(Clone, Debug, PartialEq, Eq)]
pub enum ReadReply {
    Head(Box<Head>),
    Diagnostics(u64),
    Refused(Refusal),
}

/// What a writing call answers.
#[derive(Clone, Debug, PartialEq, Eq)]
pub enum WriteReply {
    Length(u64),
    Diagnostics(u64),
    Refused(Refusal),
}

/// What a call leaves in the log or the sheet.
#[derive(Clone, Debug, PartialEq, Eq)]
pub enum LeftWords {
    Untouched,
    /// These words at the front, and zero in every word after them.
    Written(Vec<u32>),
}

/// What a call leaves in the output.
#[derive(Clone, Debug, PartialEq, Eq)]
pub enum LeftBytes {
    Untouched,
    /// These bytes at the front, and every byte after them untouched.
    Written(Vec<u8>),
}

impl LeftWords {
    /// Every word zero.
    const ZERO: Self = Self::Written(Vec::new());

    /// The contents after the call, from those before it.
    pub fn after(&self, before: &[u32]) -> Vec<u32> {
        match self {
            Self::Untouched => before.to_vec(),
            Self::Written(front) => {
                let mut words = front.clone();
                words.resize(before.len(), 0);
                words
            }
        }
    }
}

impl LeftBytes {
    /// The contents after the call, from those before it.
    pub fn after(&self, before: &[u8]) -> Vec<u8> {
        match self {
            Self::Untouched => before.to_vec(),
            Self::Written(front) => [front, &before[front.len()..]].concat(),
        }
    }
}

/// The outcome of a reading call.
#[derive(Clone, Debug, PartialEq, Eq)]
pub struct ReadOutcome {
    pub reply: ReadReply,
    pub log: LeftWords,
    pub sheet: LeftWords,
}

/// The outcome of a writing call.
#[derive(Clone, Debug, PartialEq, Eq)]
pub struct WriteOutcome {
    pub reply: WriteReply,
    pub log: LeftWords,
    pub sheet: LeftWords,
    pub output: LeftBytes,
}

/// The outcome of reading `text`.
pub fn read(text: &[u8], lengths: Lengths) -> ReadOutcome {
    match refused_unread(text, lengths) {
        Some(refusal) => ReadOutcome::untouched(refusal),
        None => read_outcome(&reading::read(text), lengths),
    }
}

/// The outcome of writing the plain form of `text`.
pub fn write(text: &[u8], lengths: Lengths) -> WriteOutcome {
    match refused_unread(text, lengths) {
        Some(refusal) => ReadOutcome::untouched(refusal).into_write(),
        None => write_outcome(&reading::read(text), lengths),
    }
}

/// Refusals 1 and 2, which don't look into the text.
pub fn refused_unread(text: &[u8], lengths: Lengths) -> Option<Refusal> {
    let number = if text.len() > MAX_TEXT {
        1
    } else if lengths.work < work_needed(text.len()) {
        2
    } else {
        return None;
    };
    Some(Refusal { number, value: 0 })
}

/// The outcome of reading a text that gave `reading`, once refusals 1 and 2 are out.
pub fn read_outcome(reading: &Reading<'_>, lengths: Lengths) -> ReadOutcome {
    let refusal = |number, value| Refusal { number, value };
    match reading {
        Reading::NotUtf8(offset) => ReadOutcome::untouched(refusal(3, *offset as u64)),
        Reading::OutsideSet(offset) => ReadOutcome::untouched(refusal(4, *offset as u64)),
        Reading::Diagnostics(records) => {
            let count = records.len() as u64;
            if lengths.log / RECORD_WORDS < records.len() {
                return ReadOutcome::zero(refusal(5, count));
            }
            ReadOutcome {
                reply: ReadReply::Diagnostics(count),
                log: LeftWords::Written(records.iter().flat_map(Record::words).collect()),
                sheet: LeftWords::ZERO,
            }
        }
        Reading::Machine(machine) => {
            if (lengths.sheet as u64) < machine.words_needed {
                return ReadOutcome::zero(refusal(6, machine.words_needed));
            }
            ReadOutcome {
                reply: ReadReply::Head(Box::new(machine.head.clone())),
                log: LeftWords::ZERO,
                sheet: LeftWords::Written(machine.sheet()),
            }
        }
    }
}

/// The outcome of writing for a text that gave `reading`, once refusals 1 and 2 are out.
pub fn write_outcome(reading: &Reading<'_>, lengths: Lengths) -> WriteOutcome {
    let read = read_outcome(reading, lengths);
    match (reading, &read.reply) {
        (Reading::Machine(machine), ReadReply::Head(_)) => read.written(machine, lengths.output),
        _ => read.into_write(),
    }
}

impl ReadOutcome {
    /// Refusals that leave log and sheet as they were.
    fn untouched(refusal: Refusal) -> Self {
        Self {
            reply: ReadReply::Refused(refusal),
            log: LeftWords::Untouched,
            sheet: LeftWords::Untouched,
        }
    }

    /// Refusals that leave log and sheet zero.
    fn zero(refusal: Refusal) -> Self {
        Self {
            reply: ReadReply::Refused(refusal),
            log: LeftWords::ZERO,
            sheet: LeftWords::ZERO,
        }
    }

    /// The writer's outcome where no machine was read: the output is untouched.
    fn into_write(self) -> WriteOutcome {
        let reply = match self.reply {
            ReadReply::Diagnostics(count) => WriteReply::Diagnostics(count),
            ReadReply::Refused(refusal) => WriteReply::Refused(refusal),
            ReadReply::Head(_) => unreachable!("a machine that was read is written"),
        };
        WriteOutcome {
            reply,
            log: self.log,
            sheet: self.sheet,
            output: LeftBytes::Untouched,
        }
    }

    /// The writer's outcome where `machine` was read: its form, or refusal 7.
    fn written(self, machine: &Machine<'_>, output_len: usize) -> WriteOutcome {
        let needed = machine.form_len;
        let fits = needed <= output_len.min(MAX_TEXT) as u64;
        let (reply, output) = if fits {
            let form = machine.form().into_bytes();
            (WriteReply::Length(needed), LeftBytes::Written(form))
        } else {
            let refusal = Refusal {
                number: 7,
                value: needed,
            };
            (WriteReply::Refused(refusal), LeftBytes::Untouched)
        };
        WriteOutcome {
            reply,
            log: self.log,
            sheet: self.sheet,
            output,
        }
    }
}
