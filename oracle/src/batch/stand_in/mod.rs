//! A batch call as the port makes it, by words: an entry's machine is its head, its sheet and its text; names are bytes at a
//! place, heads are offsets from the lowest cell of their tapes, and the next rule stands behind as many words as a rule says.
//!
//! It is a second interpreter, to hold the first against, and it can be given a fault.

mod faults;
mod work;

pub use faults::Fault;
use work::Machine;

use super::{ANSWER_WORDS, BatchLent, ENTRY_WORDS, NO_INDEX, NOT_LENT};
use crate::compare::read_answer;
use crate::head::Head;
use crate::outcome::{self, Lengths, ReadReply};
use crate::place::{bytes_at, unescape};

/// The stand-in with its fault, if it has one.
pub struct StandIn(pub Option<Fault>);

/// What is known of the entry before: its blank and tapes, its steps and the length of its input.
#[derive(Copy, Clone)]
struct Before {
    blank: char,
    tapes: u8,
    steps: u64,
    input: u64,
}

/// The head and the sheet of an entry that is a machine, with a sheet of so many words.
fn read_again(text: &[u8], words: usize) -> Option<(Head, Vec<u32>)> {
    let lengths = Lengths {
        work: usize::MAX,
        log: 0,
        sheet: words,
        output: 0,
    };
    let outcome = outcome::read(text, lengths);
    let ReadReply::Head(head) = outcome.reply else {
        return None;
    };
    Some((*head, outcome.sheet.after(&vec![0; words])))
}

impl StandIn {
    fn has(&self, fault: Fault) -> bool {
        self.0 == Some(fault)
    }

    /// The call.
    pub fn call(&self, lent: &mut BatchLent) -> u32 {
        let (number, value, index) = self.answered(lent);
        let row = [number.into(), value, index];
        if lent.answer.len() >= ANSWER_WORDS || self.has(Fault::ShortAnswer) {
            let length = lent.answer.len().min(ANSWER_WORDS);
            lent.answer[..length].copy_from_slice(&row[..length]);
        }
        number
    }

    fn answered(&self, lent: &mut BatchLent) -> (u32, u64, u64) {
        if self.has(Fault::WorkCleared) {
            lent.work.fill(0);
        }
        let Some(texts) = self.texts(lent) else {
            return (NOT_LENT, 0, NO_INDEX);
        };
        if self.has(Fault::ClearedFirst) {
            lent.cells.fill(0);
        }
        if let Some(refused) = self.readings(lent, &texts) {
            return refused;
        }
        self.runs(lent, &texts);
        (0, 0, NO_INDEX)
    }

    fn texts(&self, lent: &BatchLent) -> Option<Vec<Vec<u8>>> {
        let lengths = lent.lengths.iter();
        let sum = match self.has(Fault::WrappedSum) {
            true => lengths.fold(0_u32, |sum, &n| sum.wrapping_add(n)).into(),
            false => lengths.map(|&n| u64::from(n)).sum::<u64>(),
        };
        if sum > lent.texts.len() as u64 || lent.answers.len() < ENTRY_WORDS * lent.lengths.len() {
            return None;
        }
        let mut rest = &lent.texts[..];
        let mut texts = Vec::new();
        for &length in &lent.lengths {
            let (text, behind) = rest.split_at((length as usize).min(rest.len()));
            texts.push(text.to_vec());
            rest = behind;
        }
        Some(texts)
    }

    /// The first refused entry's number, value and index.
    fn readings(&self, lent: &mut BatchLent, texts: &[Vec<u8>]) -> Option<(u32, u64, u64)> {
        let mut refused: Option<(u32, u64, u64)> = None;
        for (index, text) in texts.iter().enumerate() {
            let before = (lent.log.clone(), lent.sheet.clone());
            let number = self.reading(lent, texts, text);
            if self.has(Fault::FirstLog) && index > 0 {
                (lent.log, lent.sheet) = before;
            }
            if self.has(Fault::RunsAtOnce) && number.is_none() {
                self.runs(lent, &texts[..=index]);
            }
            let Some((number, value)) = number else {
                continue;
            };
            let index = index as u64 + u64::from(self.has(Fault::IndexOneOff));
            if refused.is_none_or(|(first, ..)| self.has(Fault::SmallestNumber) && number < first) {
                refused = Some((number, value, index));
            }
            if !self.has(Fault::ReadsOn) && !self.has(Fault::SmallestNumber) {
                break;
            }
        }
        refused
    }

    fn reading(&self, lent: &mut BatchLent, texts: &[Vec<u8>], text: &[u8]) -> Option<(u32, u64)> {
        let all: usize = texts.iter().map(Vec::len).sum();
        let mut work = lent.work.len();
        if self.has(Fault::WorkForAll) && work < 6 * all + 6 {
            work = 0;
        }
        let lengths = Lengths {
            work,
            log: lent.log.len(),
            sheet: lent.sheet.len(),
            output: 0,
        };
        let outcome = outcome::read(text, lengths);
        lent.log = outcome.log.after(&lent.log);
        lent.sheet = outcome.sheet.after(&lent.sheet);
        let ReadReply::Head(head) = outcome.reply else {
            let row = read_answer(&outcome.reply);
            return Some((row[0], u64::from(row[1]) | u64::from(row[2]) << 32));
        };
        let machine = Machine {
            head: *head,
            sheet: &lent.sheet,
            text,
        };
        let number = self.unfit(&machine, lent.cells.len())?;
        let value = if self.has(Fault::ValueOfUnfit) {
            number
        } else {
            0
        };
        Some((number, value.into()))
    }

    fn half(&self, cells: usize, tapes: usize) -> usize {
        cells
            / (2 * if self.has(Fault::HalfOfThree) {
                3
            } else {
                tapes
            })
    }

    fn unfit(&self, machine: &Machine<'_>, cells: usize) -> Option<u32> {
        let tapes = usize::from(machine.head.tapes);
        if tapes == 0 || tapes > 3 + usize::from(self.has(Fault::FourTapes)) {
            return Some(8);
        }
        let half = self.half(cells, tapes);
        let input = match (self.has(Fault::InputBytes), machine.head.input) {
            (true, place) => bytes_at(machine.text, place).len(),
            _ => self.input(machine).len(),
        };
        let longest = (half + usize::from(self.has(Fault::InputCut)))
            .wrapping_sub(self.has(Fault::InputAsLong).into());
        let too_few = half == 0 || input > longest;
        let mut rules = machine.rules(None).into_iter();
        if self.has(Fault::FirstArity) {
            rules = rules.take(1).collect::<Vec<_>>().into_iter();
        }
        let wrong_arity = rules.any(|rule| rule[9] as usize != tapes);
        match (wrong_arity, too_few) {
            (true, true) if self.has(Fault::TenFirst) => Some(10),
            (true, _) => Some(9),
            (false, true) => Some(10),
            (false, false) => None,
        }
    }

    fn input(&self, machine: &Machine<'_>) -> Vec<u32> {
        let literal = String::from_utf8_lossy(bytes_at(machine.text, machine.head.input));
        let value = match self.has(Fault::InputEscapes) {
            true => literal.into_owned(),
            false => unescape(&literal),
        };
        let blank = machine.head.blank;
        let code = |c| match c {
            '_' | '␣' if self.has(Fault::InputBlanks) => u32::from(blank),
            c => u32::from(c),
        };
        value.chars().map(code).collect()
    }

    fn runs(&self, lent: &mut BatchLent, texts: &[Vec<u8>]) {
        let mut left = lent.allowance;
        let mut before = None;
        for (i, text) in texts.iter().enumerate() {
            let Some((head, sheet)) = read_again(text, lent.sheet.len()) else {
                return;
            };
            let machine = Machine {
                head,
                sheet: &sheet,
                text,
            };
            let mut cells = std::mem::take(&mut lent.cells);
            self.start(&machine, &mut cells, before);
            let ended = self.run(&machine, &mut cells, left);
            lent.cells = cells;
            before = Some(Before {
                blank: machine.head.blank,
                tapes: machine.head.tapes,
                steps: ended.steps,
                input: self.input(&machine).len() as u64,
            });
            lent.answers[2 * i] = ended.stop;
            lent.answers[2 * i + 1] = ended.steps;
            if !self.has(Fault::WholeAllowance) {
                left = left.saturating_sub(ended.steps + u64::from(self.has(Fault::CounterMore)));
            }
        }
        if self.has(Fault::AnswersBehind) {
            lent.answers[2 * texts.len()..].fill(0);
        }
    }

    /// Whether a cell of tape k, so far from position 0, is taken for blank at a start.
    fn kept(&self, machine: &Machine<'_>, before: Option<Before>, k: usize, far: u64) -> bool {
        let Some(before) = before else {
            return self.has(Fault::NearFirst);
        };
        let blank = before.blank == machine.head.blank || self.has(Fault::NearOtherBlank);
        let tapes = before.tapes == machine.head.tapes || self.has(Fault::NearOtherTapes);
        let is_far = far > before.steps.max(before.input);
        blank
            && tapes
            && match self.0 {
                Some(Fault::NotAfresh) => true,
                Some(Fault::NearWithoutInput) => far > before.steps,
                Some(Fault::NearWithoutSteps) => far > before.input,
                Some(Fault::NearOtherTapes | Fault::NearOtherBlank) => is_far,
                Some(Fault::NearFirstTape) => k > 0 || is_far,
                _ => false,
            }
    }

    /// The cells of a start, behind another entry.
    fn start(&self, machine: &Machine<'_>, cells: &mut [u32], before: Option<Before>) {
        let tapes = usize::from(machine.head.tapes);
        let half = self.half(cells.len(), tapes);
        let end = match self.has(Fault::LeftOverCleared) {
            true => cells.len(),
            false => (2 * half * tapes).min(cells.len()),
        };
        for (at, cell) in cells[..end].iter_mut().enumerate() {
            let far = (at % (2 * half)).abs_diff(half) as u64;
            if !self.kept(machine, before, at / (2 * half), far) {
                *cell = machine.head.blank.into();
            }
        }
        let from = if self.has(Fault::HeadLowest) { 0 } else { half };
        for (i, code) in self.input(machine).into_iter().enumerate().take(half) {
            cells[from + i] = code;
        }
    }
}
