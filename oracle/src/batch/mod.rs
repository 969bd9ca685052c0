//! A batch of machines that run: paper 02's request 2 over the original's parse, and `oracle compare batch`.
//!
//! `run` is a machine at work; here are the entries and what a batch call answers and leaves behind. `stand_in` does the same
//! once more, as the port does, from head, sheet and text alone, and can be given faults: the families must find each of them.

mod call;
mod compare;
mod families;
mod machines;
mod run;
mod samples;
mod stand_in;

pub use call::call;
pub use compare::{compare, self_check};
pub use families::{Family, Selection};
pub use run::Stop;
pub use stand_in::Fault;

use crate::compare::read_outcome;
use crate::foreign::DIAGNOSTICS;
use crate::outcome::{Lengths, MAX_TEXT, ReadReply};
use crate::reading::{self, Reading};

/// Words of an entry's answer: its stop and its own steps.
pub const ENTRY_WORDS: usize = 2;
/// Words of the batch's own answer: number, value, index.
pub const ANSWER_WORDS: usize = 3;
/// The index where there is none.
pub const NO_INDEX: u64 = 4_294_967_295;
/// The number of the refusal of what was lent.
pub const NOT_LENT: u32 = 23;

/// What a batch call is lent: texts back to back, a length for each, and rows for the call to write.
#[derive(Clone, Debug)]
pub struct BatchLent {
    pub texts: Vec<u8>,
    pub lengths: Vec<u32>,
    pub allowance: u64,
    pub work: Vec<u32>,
    pub log: Vec<u32>,
    pub sheet: Vec<u32>,
    pub cells: Vec<u32>,
    pub answers: Vec<u64>,
    pub answer: Vec<u64>,
}

/// What a batch call answers.
#[derive(Copy, Clone, Debug, PartialEq, Eq)]
pub struct Answer {
    pub number: u32,
    pub value: u64,
    pub index: u64,
}

impl Answer {
    fn without_index(number: u32) -> Self {
        Self {
            number,
            value: 0,
            index: NO_INDEX,
        }
    }
}

/// What a batch call answers and leaves behind.
pub struct Outcome {
    pub answer: Answer,
    pub log: Vec<u32>,
    pub sheet: Vec<u32>,
    pub cells: Vec<u32>,
    pub answers: Vec<u64>,
    /// Whether work is as it was; otherwise what it holds is free.
    pub leaves_work: bool,
}

/// An entry of a batch, read once. A text that is too long is not read.
pub struct Entry<'t> {
    pub text: &'t [u8],
    pub reading: Option<Reading<'t>>,
}

/// Why an entry is refused: number and value.
type Refused = (u32, u64);

impl<'t> Entry<'t> {
    pub fn new(text: &'t [u8]) -> Self {
        let reading = (text.len() <= MAX_TEXT).then(|| reading::read(text));
        Self { text, reading }
    }

    fn machine(&self) -> &crate::spec::MachineSpec {
        let Some(Reading::Machine(machine)) = &self.reading else {
            unreachable!("an entry that runs is a machine");
        };
        let expanded = machine.expanded();
        expanded.expect("a machine whose sheet was lent").0
    }

    /// Reads the entry on what an earlier reading left: why it is refused.
    fn read(&self, lent: &BatchLent, log: &mut Vec<u32>, sheet: &mut Vec<u32>) -> Option<Refused> {
        let lengths = Lengths {
            work: lent.work.len(),
            log: log.len(),
            sheet: sheet.len(),
            output: 0,
        };
        let outcome = read_outcome(self.text, self.reading.as_ref(), lengths);
        *log = outcome.log.after(log);
        *sheet = outcome.sheet.after(sheet);
        match outcome.reply {
            ReadReply::Refused(refusal) => Some((refusal.number.into(), refusal.value)),
            ReadReply::Diagnostics(count) => Some((DIAGNOSTICS, count)),
            ReadReply::Head(_) => {
                let number = run::unfit(self.machine(), lent.cells.len());
                number.map(|number| (number, 0))
            }
        }
    }
}

/// The entries' texts, if the lengths don't pass the bytes lent.
pub fn texts<'t>(bytes: &'t [u8], lengths: &[u32]) -> Option<Vec<&'t [u8]>> {
    let mut rest = bytes;
    let mut texts = Vec::new();
    for &length in lengths {
        let (text, behind) = rest.split_at_checked(length as usize)?;
        texts.push(text);
        rest = behind;
    }
    Some(texts)
}

/// The entries of a batch, unless it is refused with 23: its lengths pass the bytes lent, or its answers lack room.
pub fn entries(lent: &BatchLent) -> Option<Vec<Entry<'_>>> {
    let texts = texts(&lent.texts, &lent.lengths)?;
    let has_room = lent.answers.len() / ENTRY_WORDS >= texts.len();
    has_room.then(|| texts.into_iter().map(Entry::new).collect())
}

/// The outcome of a batch call on these entries, none if it is refused with 23.
pub fn outcome(entries: Option<&[Entry<'_>]>, lent: &BatchLent) -> Outcome {
    let mut outcome = Outcome {
        answer: Answer::without_index(NOT_LENT),
        log: lent.log.clone(),
        sheet: lent.sheet.clone(),
        cells: lent.cells.clone(),
        answers: lent.answers.clone(),
        leaves_work: true,
    };
    let Some(entries) = entries else {
        return outcome;
    };
    for (index, entry) in (0..).zip(entries) {
        let refused = entry.read(lent, &mut outcome.log, &mut outcome.sheet);
        if let Some((number, value)) = refused {
            outcome.leaves_work = index == 0 && matches!(number, 1 | 2);
            outcome.answer = Answer {
                number,
                value,
                index,
            };
            return outcome;
        }
    }
    outcome.leaves_work = entries.is_empty();
    outcome.answer = Answer::without_index(0);
    let mut used = 0;
    for (entry, answer) in entries
        .iter()
        .zip(outcome.answers.chunks_exact_mut(ENTRY_WORDS))
    {
        let ended = run::run(entry.machine(), &mut outcome.cells, lent.allowance - used);
        used += ended.steps;
        answer.copy_from_slice(&[ended.stop as u64, ended.steps]);
    }
    outcome
}
