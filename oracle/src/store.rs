//! Stored answers, for a program that replays them without any Rust.
//!
//! The file is the number of cases, as a little-endian 32-bit word, then the cases. A case is a text
//! with the lengths of lent buffers, and what both calls answer and leave behind (the writing call
//! leaves in log and sheet what the reading call does), in such words and at the end in bytes:
//!
//! | words | what |
//! |---|---|
//! | 1 | bytes of the case behind its first `HEAD` words, which end where the log's begin |
//! | 1 | bytes of the text |
//! | 4 | lengths lent: work, log and sheet in words, output in bytes |
//! | 1 | log: n words at the front, the rest zero; n is 4294967295 for untouched |
//! | 1 | sheet, likewise |
//! | 1 | output: n bytes at the front, the rest untouched; 4294967295 for untouched |
//! | `ANSWER_WORDS` | the answer row of the reading call, as in `foreign` |
//! | 3 | the first three words of the writing call's, the others being zero |
//! | n | the log's words |
//! | n | the sheet's words |
//! | n bytes | the output |
//! | n bytes | the text |

use crate::compare::{
    for_lengths, read_answer, read_kind, read_outcome, write_answer, write_kind, write_outcome,
};
use crate::families::{Family, Random, Selection};
use crate::foreign::ANSWER_WORDS;
use crate::outcome::{LeftBytes, LeftWords, Lengths, ReadOutcome, WriteOutcome, work_needed};
use crate::reading::Reading;
use crate::tally::Tally;

/// The program's buffers: longer ones are not lent.
const ROOM: Lengths = Lengths {
    work: 40_960,
    log: 16_384,
    sheet: 16_384,
    output: 65_536,
};
/// Larger cases are left out.
const MAX_CASE_BYTES: usize = 32_768;
/// Words of a case in front of the log's.
const HEAD: usize = 9 + ANSWER_WORDS + 3;
const UNTOUCHED: u32 = u32::MAX;

/// Every kind of answer but `refused 1`, whose texts have more than 4,194,304 bytes.
const READ_KINDS: [&str; 7] = [
    "machine",
    "diagnostics",
    "refused 2",
    "refused 3",
    "refused 4",
    "refused 5",
    "refused 6",
];
/// The writing call's, likewise.
const WRITE_KINDS: [&str; 8] = [
    "machine",
    "diagnostics",
    "refused 2",
    "refused 3",
    "refused 4",
    "refused 5",
    "refused 6",
    "refused 7",
];

/// What is stored, and how much of it.
pub struct Stored {
    cases: Vec<Vec<u8>>,
    texts: u64,
    read: Tally,
    write: Tally,
}

/// Cases of `count` texts of each family, with exact lengths and with others.
pub fn cases(count: u64, seed: u64) -> Stored {
    let mut stored = Stored {
        cases: Vec::new(),
        texts: 0,
        read: Tally::default(),
        write: Tally::default(),
    };
    let mut random = Random::new([seed, count, 0x570E]);
    let selections = Family::STORED.map(|family| Selection {
        count,
        seed,
        only: Some(family),
    });
    for (family, count, seed) in selections.into_iter().flat_map(Selection::families) {
        for index in 0..count {
            let text = family.text(index * stride(family), seed);
            if work_needed(text.len()) <= ROOM.work {
                stored.push(family, &text, &mut random);
            }
        }
    }
    stored
}

/// The families that list all texts begin with very short ones, so some of theirs are passed over.
fn stride(family: Family) -> u64 {
    match family {
        Family::Short | Family::Lines => 29,
        _ => 1,
    }
}

impl Stored {
    /// The file's bytes.
    pub fn bytes(&self) -> Vec<u8> {
        let count = (self.cases.len() as u32).to_le_bytes();
        [&count[..], &self.cases.concat()].concat()
    }

    /// The tables of what is stored, and the kinds of answers that are missing.
    pub fn report(&self) -> Result<String, String> {
        let missing = |tally: &Tally, kinds: &[&str]| -> Vec<String> {
            let absent = kinds.iter().filter(|kind| !tally.has(kind));
            absent.map(|kind| kind.to_string()).collect()
        };
        let families = Family::STORED
            .iter()
            .filter(|f| !self.read.has_family(f.name()));
        let mut missing = [
            missing(&self.read, &READ_KINDS),
            missing(&self.write, &WRITE_KINDS),
        ]
        .concat();
        missing.extend(families.map(|family| family.name().to_string()));
        if !missing.is_empty() {
            return Err(format!("no case of: {}", missing.join(", ")));
        }
        Ok(format!(
            "texts: {}, cases: {}\n{}{}",
            self.texts,
            self.cases.len(),
            self.read.table("reading calls"),
            self.write.table("writing calls")
        ))
    }

    /// A case with exact lengths and one with others; of a buffer that the answer leaves empty some is lent.
    fn push(&mut self, family: Family, text: &[u8], random: &mut Random) {
        let before = self.cases.len();
        let chosen = 1 + random.below(5);
        let (mut which, mut exact, mut pushed) = (0, None, false);
        let done = for_lengths(text, random, |reading, lengths, random| {
            let lengths = within(lengths);
            let other = which >= chosen && !pushed && exact != Some(lengths);
            if which == 0 || other {
                let lent = with_some(lengths, exact.unwrap_or(lengths), random);
                self.push_case(family, text, reading, lent);
            }
            exact = exact.or(Some(lengths));
            pushed |= other;
            which += 1;
            Ok(())
        });
        debug_assert!(done.is_ok());
        self.texts += u64::from(self.cases.len() > before);
    }

    fn push_case(
        &mut self,
        family: Family,
        text: &[u8],
        reading: Option<&Reading<'_>>,
        lengths: Lengths,
    ) {
        let read = read_outcome(text, reading, lengths);
        let write = write_outcome(text, reading, lengths);
        let case = case(text, lengths, &read, &write);
        if case.len() <= MAX_CASE_BYTES {
            self.read.count(family.name(), read_kind(&read.reply));
            self.write.count(family.name(), write_kind(&write.reply));
            self.cases.push(case);
        }
    }
}

/// Lengths that the program's buffers have.
fn within(lengths: Lengths) -> Lengths {
    Lengths {
        work: lengths.work.min(ROOM.work),
        log: lengths.log.min(ROOM.log),
        sheet: lengths.sheet.min(ROOM.sheet),
        output: lengths.output.min(ROOM.output),
    }
}

/// Some words or bytes of each buffer of which none is needed and none lent: dirt to be cleared or left.
fn with_some(lengths: Lengths, exact: Lengths, random: &mut Random) -> Lengths {
    let mut some = |length, needed| match (length, needed) {
        (0, 0) => 1 + random.below(8),
        _ => length,
    };
    Lengths {
        work: lengths.work,
        log: some(lengths.log, exact.log),
        sheet: some(lengths.sheet, exact.sheet),
        output: some(lengths.output, exact.output),
    }
}

/// The bytes of one case.
fn case(text: &[u8], lengths: Lengths, read: &ReadOutcome, write: &WriteOutcome) -> Vec<u8> {
    assert!(read.log == write.log && read.sheet == write.sheet);
    let lent = [lengths.work, lengths.log, lengths.sheet, lengths.output];
    let mut words = vec![0, text.len() as u32];
    words.extend(lent.map(|length| length as u32));
    let output: &[u8] = match &write.output {
        LeftBytes::Untouched => &[],
        LeftBytes::Written(front) => front,
    };
    words.extend([left(&read.log).0, left(&read.sheet).0]);
    words.push(match write.output {
        LeftBytes::Untouched => UNTOUCHED,
        LeftBytes::Written(_) => output.len() as u32,
    });
    words.extend(read_answer(&read.reply));
    words.extend(&write_answer(&write.reply)[..3]);
    assert!(words.len() == HEAD);
    words.extend(left(&read.log).1);
    words.extend(left(&read.sheet).1);
    words[0] = (4 * (words.len() - HEAD) + output.len() + text.len()) as u32;
    let words = words.into_iter().flat_map(u32::to_le_bytes);
    words.chain(output.iter().chain(text).copied()).collect()
}

/// How many words are left at the front of a row, and which.
fn left(row: &LeftWords) -> (u32, &[u32]) {
    match row {
        LeftWords::Untouched => (UNTOUCHED, &[]),
        LeftWords::Written(front) => (front.len() as u32, front),
    }
}
