//! The samples of crates/running/proofs/Samples.antt, which the definitions compute: every stop, refusal and order, and each
//! point that paper 02 leaves open.

use super::families::Batch;
use crate::foreign::DIAGNOSTICS;

pub const BB2: &str = "δ(A,_)=(B,1,R)\nδ(A,1)=(B,1,L)\nδ(B,_)=(A,1,L)\nδ(B,1)=(H,1,R)\nF={H}";
pub const BB3: &str = "δ(A,_)=(B,1,R)\nδ(A,1)=(H,1,R)\nδ(B,_)=(B,1,L)\nδ(B,1)=(C,_,R)\nδ(C,_)=(C,1,L)\nδ(C,1)=(A,1,L)\nF={H}";
pub const BB3_ERASING: &str = "δ(A,_)=(B,1,R)\nδ(A,1)=(H,1,R)\nδ(B,_)=(C,_,R)\nδ(B,1)=(B,1,R)\nδ(C,_)=(C,1,L)\n\
δ(C,1)=(A,1,L)\nF={H}";
pub const BB4: &str = "kind beaver\nblank=0\nQ={A,B,C,D,H}\nF={H}\nδ(A,0)=(B,1,R)\nδ(A,1)=(B,1,L)\nδ(B,0)=(A,1,L)\n\
δ(B,1)=(C,0,L)\nδ(C,0)=(H,1,R)\nδ(C,1)=(D,1,L)\nδ(D,0)=(D,1,R)\nδ(D,1)=(A,0,R)";

/// Steps that a sample runs at most in `oracle compare batch`.
const STEPS: u64 = 600;

/// A row that is cleared, but for these words at its front.
type Front = &'static [u32];

/// A batch and its outcome. A row that is not named is as it was.
#[cfg_attr(not(test), allow(dead_code))] // The outcomes are for the test.
pub enum Sample {
    /// Cells, allowance and texts; a stop and steps for each entry, and the cells, `·` where one is as it was.
    Runs(
        usize,
        u64,
        &'static [&'static str],
        &'static [u64],
        &'static str,
    ),
    /// Cells and texts; number, value, index, and log and sheet, unless they are as they were.
    Refuses(
        usize,
        &'static [&'static [u8]],
        u32,
        u64,
        u64,
        Option<Front>,
        Option<Front>,
    ),
    /// Texts, lengths, words of work, words for answers, on 3 cells; number and index, sheet, and the answers if it runs.
    Calls(
        &'static [u8],
        &'static [u32],
        usize,
        usize,
        u32,
        u64,
        Option<Front>,
        Option<&'static [u64]>,
    ),
}

use Sample::{Calls, Refuses, Runs};

const MOST: u64 = u64::MAX;
const NONE: u64 = super::NO_INDEX;
const NO: u32 = u32::MAX;
/// A machine that stays where it is, and the sheet of it.
const STAYS: &[u8] = "δ(a,_)=(a,_,N)".as_bytes();
#[rustfmt::skip]
const STAYS_SHEET: Front = &[
    3, 4, 0, 9251, 0, 0, 18, 3, 4, 9, 10, 0, 15, NO, NO, 1, 0, 9251, 5, 6, 9251, 11, 12, 2,
];
/// The same behind a line of 8 bytes.
#[rustfmt::skip]
const BEHIND_TAPES: Front = &[
    11, 12, 0, 9251, 0, 0, 18, 11, 12, 17, 18, 8, 23, NO, NO, 1, 0, 9251, 13, 14, 9251, 19, 20, 2,
];
#[rustfmt::skip]
const PAIR_SHEET: Front = &[
    3, 4, 0, 48, 0, 0, 49, 0, 0, 50, 0, 0, 51, 0, 0, 9251, 0, 0, 48, 0, 0, 49, 0, 0, 50, 0, 0, 51, 0, 0,
    25, 3, 4, 13, 14, 0, 27, NO, NO, 2, 0, 48, 6, 7, 50, 16, 17, 1, 49, 8, 9, 51, 18, 19, 1,
];
const ZERO: Option<Front> = Some(&[]);
const Q_SHEET: Option<Front> = Some(&[3, 4, 0, 9251]);
const THREE: &str =
    "tapes=3\ninput \"1\"\nδ(a,(1,_,_))=(b,(2,3,4),(L,N,R))\nδ(b,(_,3,_))=(c,(5,6,7),(N,L,N))";

#[rustfmt::skip]
pub const SAMPLES: &[Sample] = &[
    // The busy beaver of two states halts after 6 steps with 4 ones; its last step uses up the allowance.
    Runs(8, 6, &[BB2], &[0, 6], "␣␣1111␣␣"),
    // Of three states: the one that runs longest, and the one that writes most.
    Runs(12, 100, &[BB3], &[0, 21], "␣␣␣␣␣11111␣␣"),
    Runs(12, 100, &[BB3_ERASING], &[0, 14], "␣␣␣␣␣111111␣"),
    // Of four states: halted, spent a step before, and on tapes too short for it.
    Runs(32, MOST, &[BB4], &[0, 107], "00000010111111111111000000000000"),
    Runs(32, 106, &[BB4], &[2, 106], "00000000111111111111000000000000"),
    Runs(16, 1000, &[BB4], &[3, 92], "1010111111110000"),
    // Halted and stuck are tested before spent, spent before edge.
    Runs(4, 0, &["Q={a}\nF={a}"], &[0, 0], "␣␣␣␣"),
    Runs(4, 0, &["Q={a}"], &[1, 0], "␣␣␣␣"),
    Runs(2, 0, &["δ(a,_)=(a,1,R)"], &[2, 0], "␣␣"),
    Runs(2, 1, &["δ(a,_)=(a,1,R)"], &[3, 0], "␣␣"),
    Runs(8, 3, &["δ(a,_)=(a,1,R)"], &[2, 3], "␣␣␣␣111␣"),
    Runs(8, 4, &["δ(a,_)=(a,1,R)"], &[3, 3], "␣␣␣␣111␣"),
    // At the edge nothing is done on any tape; the left half has one place more to go; a head that stays never leaves.
    Runs(8, 100, &["tapes=2\nδ(a,(_,_))=(a,(1,2),(N,R))\nδ(a,(1,_))=(a,(_,3),(N,R))"], &[3, 1], "␣␣1␣␣␣2␣"),
    Runs(8, 100, &["δ(a,_)=(a,1,L)"], &[3, 4], "␣1111␣␣␣"),
    Runs(2, 100, &["δ(a,_)=(b,1,N)\nF={b}"], &[0, 1], "␣1"),
    // States are names, the first of equal ones says whether it is final, and Q need not have them.
    Runs(4, 100, &["Q={b,a,a}\nF={a}\nstart=b\nδ(b,_)=(a,1,R)"], &[0, 1], "␣␣1␣"),
    Runs(8, 3, &["Q={a}\nδ(a,_)=(b,1,R)\nδ(b,_)=(a,2,R)"], &[2, 3], "␣␣␣␣121␣"),
    // Without a start a machine is stuck, on the cells of a start; an undeclared start is the first of Q.
    Runs(4, 100, &[""], &[1, 0], "␣␣␣␣"),
    Runs(4, 100, &["input \"1\"\nQ={}\nδ(a,_)=(a,1,R)"], &[1, 0], "␣␣1␣"),
    Runs(4, 100, &["Q={a,b}\nδ(b,_)=(a,1,R)"], &[1, 0], "␣␣␣␣"),
    // The input is characters, escapes undone; a blank among them is a blank cell; it may be as long as the right half.
    Runs(8, 100, &["input \"\\\"\\\\\\n\\t\"\nQ={a}"], &[1, 0], "␣␣␣␣\"\\\n\t"),
    Runs(4, 100, &["input \"\\q\"\nQ={a}"], &[1, 0], "␣␣\\q"),
    Runs(6, 100, &["input \"äöü\"\nQ={a}"], &[1, 0], "␣␣␣äöü"),
    Runs(6, 100, &["blank=x\ninput \"_␣x\"\nQ={a}"], &[1, 0], "xxx_␣x"),
    Runs(7, 100, &["input \"111\"\nQ={a}"], &[1, 0], "␣␣␣111·"),
    // Half is as large as fits the machine's own tapes, and cells left over are as the entry before left them.
    Runs(13, 100, &["Q={a}"], &[1, 0], "␣␣␣␣␣␣␣␣␣␣␣␣·"),
    Runs(13, 100, &["tapes=2\nQ={a}"], &[1, 0], "␣␣␣␣␣␣␣␣␣␣␣␣·"),
    Runs(13, 100, &["tapes=3\nQ={a}"], &[1, 0], "␣␣␣␣␣␣␣␣␣␣␣␣·"),
    Runs(7, 100, &["Q={a}"], &[1, 0], "␣␣␣␣␣␣·"),
    Runs(7, 100, &["tapes=2\nQ={a}"], &[1, 0], "␣␣␣␣···"),
    Runs(7, 100, &["tapes=3\nQ={a}"], &[1, 0], "␣␣␣␣␣␣·"),
    Runs(7, 100, &["δ(a,_)=(a,1,L)", "tapes=2\nQ={a}"], &[3, 3, 1, 0], "␣␣␣␣␣␣·"),
    Runs(7, 100, &["δ(a,_)=(a,1,R)", "tapes=2\nQ={a}"], &[3, 2, 1, 0], "␣␣␣␣1␣·"),
    // The first rule that matches is taken, also where equal ones follow, and behind comments.
    Runs(4, 100, &["δ(a,_)=(b,1,N)\nδ(a,_)=(c,2,N)\nF={b}"], &[0, 1], "␣␣1␣"),
    Runs(4, 100, &["δ(a,{1,_})=(b,x,N)\nδ(a,_)=(c,2,N)\nF={c}"], &[1, 1], "␣␣x␣"),
    Runs(4, 100, &["// one\n// two\nδ(b,_)=(b,1,R)\nδ(a,_)=(b,2,L)\nstart=a"], &[1, 2], "␣12␣"),
    // All entries share one counter, each has an answer, and the cells are the last one's.
    Runs(8, 13, &[BB2, BB2, BB2], &[0, 6, 0, 6, 2, 1], "␣␣␣␣1␣␣␣"),
    Runs(8, 2, &["δ(a,_)=(a,1,R)", "Q={a}\nF={a}", "Q={a}", "δ(a,_)=(a,1,R)"], &[2, 2, 0, 0, 1, 0, 2, 0], "␣␣␣␣␣␣␣␣"),
    Runs(4, 100, &["blank=x\nδ(a,x)=(b,1,N)\nF={b}", "Q={a}"], &[0, 1, 1, 0], "␣␣␣␣"),
    Runs(4, 100, &[], &[], "····"),
    // The kind plays no part.
    Runs(2, 100, &["kind enumerator\nF={a}\nδ(a,_)=(a,1,R)"], &[0, 0], "␣␣"),
    Runs(4, 100, &["kind beaver\ninput \"1\"\nδ(a,1)=(b,2,R)"], &[1, 1], "␣␣2␣"),
    // Three tapes, each with its own move.
    Runs(13, 1, &[THREE], &[2, 1], "␣␣2␣␣␣3␣␣␣4␣·"),
    Runs(13, 2, &[THREE], &[1, 2], "␣52␣␣␣6␣␣␣47·"),
    // An entry with diagnostics is refused and gives their count.
    Refuses(8, &[b"x"], DIAGNOSTICS, 1, 0, Some(&[1, 0, 1, NO, NO]), ZERO),
    Refuses(8, &[b"Q={a}", b"x"], DIAGNOSTICS, 1, 1, Some(&[1, 0, 1, NO, NO]), ZERO),
    // A log for one diagnostic, and a sheet of 60 words.
    Refuses(8, &[b"x\nx"], 5, 2, 0, ZERO, ZERO),
    Refuses(8, &[b"Q={a,b,c,d,e,f,g,h,i,j,k,l,m,n,o,p,q,r,s,t}"], 6, 63, 0, ZERO, ZERO),
    // A character outside the set.
    Refuses(8, &[b"a\xCC\x80"], 4, 1, 0, None, None),
    // Log and sheet are as the last reading left them.
    Refuses(8, &[STAYS, b"\xFF"], 3, 0, 1, ZERO, Some(STAYS_SHEET)),
    Refuses(8, &[b"\xFF", STAYS], 3, 0, 0, None, None),
    Refuses(8, &[STAYS, b"tapes=4\nQ={a}"], 8, 0, 1, ZERO, Some(&[11, 12, 0, 9251])),
    // The first refused entry is named, not the smallest number; nothing runs before all are read.
    Refuses(8, &[b"input \"111111111\"\nQ={a}", b"tapes=0"], 10, 0, 0, ZERO, Some(&[21, 22, 0, 49, 0, 0, 9251, 0, 0, 49])),
    Refuses(8, &[STAYS, STAYS, b"tapes=0"], 8, 0, 2, ZERO, Some(&[9251])),
    // An undeclared number of tapes is 1, whatever the rules' arity.
    Refuses(8, &["δ(a,(0,1))=(a,(2,3),(R,R))".as_bytes()], 9, 0, 0, ZERO, Some(PAIR_SHEET)),
    // The order is 8, then 9, then 10.
    Refuses(8, &[b"tapes=0\ninput \"111111111\""], 8, 0, 0, ZERO, Some(&[49, 0, 0, 9251, 0, 0, 49])),
    Refuses(8, &["tapes=4\nδ(a,_)=(a,_,N)".as_bytes()], 8, 0, 0, ZERO, Some(BEHIND_TAPES)),
    Refuses(8, &["tapes=2\nδ(a,_)=(a,_,N)".as_bytes()], 9, 0, 0, ZERO, Some(BEHIND_TAPES)),
    Refuses(1, &["tapes=2\nδ(a,_)=(a,_,N)".as_bytes()], 9, 0, 0, ZERO, Some(BEHIND_TAPES)),
    // An input longer than the right half.
    Refuses(6, &[b"input \"\\\"\\\\\\n\\t\"\nQ={a}"], 10, 0, 0, ZERO,
        Some(&[20, 21, 0, 34, 0, 0, 92, 0, 0, 10, 0, 0, 9, 0, 0, 9251, 0, 0, 34, 0, 0, 92, 0, 0, 10, 0, 0, 9])),
    Refuses(7, &[b"input \"1111\"\nQ={a}"], 10, 0, 0, ZERO, Some(&[16, 17, 0, 49, 0, 0, 9251, 0, 0, 49])),
    // Half is 0.
    Refuses(1, &[b""], 10, 0, 0, ZERO, Some(&[9251])),
    Refuses(5, &[b"tapes=3"], 10, 0, 0, ZERO, Some(&[9251])),
    // Lengths that pass the texts, however large they are.
    Calls(b"Q={a}", &[NO, NO], 3000, 4, 23, NONE, None, None),
    Calls(b"Q={a}", &[1 << 31, 1 << 31], 3000, 4, 23, NONE, None, None),
    Calls(b"Q={a}", &[6], 3000, 4, 23, NONE, None, None),
    Calls(b"Q={a}", &[2, 4], 3000, 4, 23, NONE, None, None),
    // Surplus bytes are not read; two entries of one text.
    Calls(b"Q={a}\xFF", &[5], 3000, 2, 0, NONE, Q_SHEET, Some(&[1, 0])),
    Calls(b"Q={a}Q={a}", &[5, 5], 36, 4, 0, NONE, Q_SHEET, Some(&[1, 0, 1, 0])),
    // Room for the answers is asked for before any reading.
    Calls(b"\xFF", &[1], 3000, 1, 23, NONE, None, None),
    Calls(b"Q={a}Q={a}", &[5, 5], 3000, 3, 23, NONE, None, None),
    // Work is asked for by each entry that is read, not by all together.
    Calls(b"Q={a}\n\n\n\n\nQ={a}\n\n\n\n\n\n\n\n\n\n\n\n\n\n\n", &[10, 20], 126, 4, 0, NONE, Q_SHEET, Some(&[1, 0, 1, 0])),
    Calls(b"Q={a}\n\n\n\n\nQ={a}\n\n\n\n\n\n\n\n\n\n\n\n\n\n\n", &[10, 20], 125, 4, 2, 1, Q_SHEET, None),
    Calls(b"Q={a}", &[5], 35, 2, 2, 0, None, None),
    // No entries: nothing is touched. An entry of no bytes is a machine without a start.
    Calls(b"Q={a}", &[], 0, 1, 0, NONE, None, Some(&[])),
    Calls(b"Q={a}", &[0], 6, 2, 0, NONE, Some(&[9251]), Some(&[1, 0])),
];

/// The sample's texts and cells, to be tried with other buffers too.
pub fn batch(index: u64) -> Batch {
    let (texts, cells, most): (Vec<Vec<u8>>, _, _) = match &SAMPLES[index as usize % SAMPLES.len()]
    {
        Runs(cells, allowance, texts, ..) => {
            let texts = texts.iter().map(|text| text.as_bytes().to_vec());
            (texts.collect(), *cells, *allowance)
        }
        Refuses(cells, texts, ..) => {
            let texts = texts.iter().map(|text| text.to_vec());
            (texts.collect(), *cells, STEPS)
        }
        Calls(bytes, lengths, ..) => {
            let texts = super::texts(bytes, lengths).unwrap_or(vec![bytes]);
            let texts = texts.into_iter().map(<[u8]>::to_vec);
            (texts.collect(), 3, STEPS)
        }
    };
    let most = most.min(STEPS);
    Batch { texts, cells, most }
}

#[cfg(test)]
mod tests {
    use super::*;
    use crate::batch::{Answer, BatchLent, Outcome, entries, outcome};

    const DIRTY: u32 = 7;

    fn lent(sample: &Sample) -> BatchLent {
        let whole = |cells: usize, allowance, sheet: usize, texts: &[&[u8]]| BatchLent {
            texts: texts.concat(),
            lengths: texts.iter().map(|text| text.len() as u32).collect(),
            allowance,
            work: vec![DIRTY; 3000],
            log: vec![DIRTY; 6],
            sheet: vec![DIRTY; sheet],
            cells: vec![DIRTY; cells],
            answers: vec![DIRTY.into(); 2 * texts.len() + 1],
            answer: vec![DIRTY.into(); 3],
        };
        match sample {
            Runs(cells, allowance, texts, ..) => {
                let texts: Vec<&[u8]> = texts.iter().map(|text| text.as_bytes()).collect();
                whole(*cells, *allowance, 240, &texts)
            }
            Refuses(cells, texts, ..) => whole(*cells, MOST, 60, texts),
            Calls(bytes, lengths, work, answers, ..) => BatchLent {
                texts: bytes.to_vec(),
                lengths: lengths.to_vec(),
                work: vec![DIRTY; *work],
                log: vec![DIRTY; 2],
                answers: vec![DIRTY.into(); *answers],
                ..whole(3, 100, 9, &[])
            },
        }
    }

    fn filled(row: &[u32], front: Option<Front>) -> Vec<u32> {
        let Some(front) = front else {
            return row.to_vec();
        };
        let mut words = front.to_vec();
        words.resize(row.len(), 0);
        words
    }

    fn codes(cells: &str) -> Vec<u32> {
        let code = |c| if c == '·' { DIRTY } else { u32::from(c) };
        cells.chars().map(code).collect()
    }

    /// The sheet of the last text alone, for a batch that runs.
    fn last_sheet(lent: &BatchLent) -> Vec<u32> {
        let last =
            super::super::texts(&lent.texts, &lent.lengths).and_then(|texts| texts.last().copied());
        let Some(text) = last else {
            return lent.sheet.clone();
        };
        let crate::reading::Reading::Machine(machine) = crate::reading::read(text) else {
            panic!("a batch that runs is of machines");
        };
        let mut sheet = machine.sheet();
        sheet.resize(lent.sheet.len(), 0);
        sheet
    }

    fn answer(number: u32, value: u64, index: u64) -> Answer {
        Answer {
            number,
            value,
            index,
        }
    }

    /// A batch that ran, its log cleared, and all other rows as they were.
    fn ran(lent: &BatchLent) -> Outcome {
        Outcome {
            answer: answer(0, 0, NONE),
            log: filled(&lent.log, ZERO),
            sheet: lent.sheet.clone(),
            cells: lent.cells.clone(),
            answers: lent.answers.clone(),
            leaves_work: false,
        }
    }

    fn expected(sample: &Sample, lent: &BatchLent) -> Outcome {
        let mut expected = ran(lent);
        let mut put = |words: &[u64]| expected.answers[..words.len()].copy_from_slice(words);
        match sample {
            Runs(_, _, texts, answers, cells) => {
                put(answers);
                expected.sheet = last_sheet(lent);
                expected.cells = codes(cells);
                if texts.is_empty() {
                    expected.log = lent.log.clone();
                }
            }
            Refuses(_, _, number, value, index, log, sheet) => {
                expected.answer = answer(*number, *value, *index);
                expected.log = filled(&lent.log, *log);
                expected.sheet = filled(&lent.sheet, *sheet);
            }
            Calls(_, lengths, _, _, number, index, sheet, answers) => {
                put(answers.unwrap_or(&[]));
                expected.answer = answer(*number, 0, *index);
                expected.sheet = filled(&lent.sheet, *sheet);
                if sheet.is_none() {
                    expected.log = lent.log.clone();
                } else if answers.is_some() && !lengths.is_empty() {
                    expected.cells = codes("␣␣·");
                }
            }
        }
        expected
    }

    #[test]
    fn the_interpreter_computes_what_the_definitions_do() {
        for (index, sample) in SAMPLES.iter().enumerate() {
            let lent = lent(sample);
            let expected = expected(sample, &lent);
            let entries = entries(&lent);
            let found = outcome(entries.as_deref(), &lent);
            assert_eq!(found.answer, expected.answer, "sample {index}");
            assert_eq!(found.log, expected.log, "log of sample {index}");
            assert_eq!(found.sheet, expected.sheet, "sheet of sample {index}");
            assert_eq!(found.cells, expected.cells, "cells of sample {index}");
            assert_eq!(found.answers, expected.answers, "answers of sample {index}");
        }
    }

    /// Texts, lengths, words of work, words for answers, and whether work is as it was: the second table of Samples.antt.
    const WORK: [(&[u8], &[u32], usize, usize, bool); 7] = [
        (b"Q={a}", &[6], 3000, 4, true),
        (b"Q={a}", &[5], 3000, 1, true),
        (b"Q={a}", &[], 3000, 1, true),
        (b"Q={a}", &[5], 35, 2, true),
        (b"Q={a}", &[5], 36, 2, false),
        (b"\xFF", &[1], 3000, 2, false),
        (b"Q={a}Q={a} ", &[5, 6], 36, 4, false),
    ];

    #[test]
    fn work_is_left_alone_where_nothing_is_read() {
        for (bytes, lengths, work, answers, expected) in WORK {
            let lent = lent(&Calls(bytes, lengths, work, answers, 0, 0, None, None));
            let entries = entries(&lent);
            assert_eq!(outcome(entries.as_deref(), &lent).leaves_work, expected);
        }
    }
}
