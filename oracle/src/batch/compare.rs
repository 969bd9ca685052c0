//! `oracle compare batch`: the port's batch call, through its static library, against the interpreter; and `oracle self batch`:
//! the stand-in against it.
//!
//! Each batch is tried with rows of exact, shorter and longer lengths, other lengths of its texts, other numbers of cells and
//! other allowances, all with dirty contents, and every word that the call may write is compared.

use std::time::Instant;

use super::families::{Batch, Selection};
use super::stand_in::{Fault, StandIn};
use super::{ANSWER_WORDS, Answer, BatchLent, ENTRY_WORDS, Entry, Outcome, entries, outcome};
use crate::compare::{dirty, near, same};
use crate::families::Random;
use crate::foreign::{self, DIAGNOSTICS};
use crate::log::RECORD_WORDS;
use crate::outcome::{MAX_TEXT, work_needed};
use crate::reading::Reading;
use crate::tally::Tally;

/// How many differences are shown in full.
const SHOWN: u64 = 5;
/// Longer texts are not shown.
const SHOWN_LENGTH: usize = 4096;
/// How often each batch is called.
const CALLS: usize = 8;

/// A batch call, by the port or in its place.
type Call<'c> = &'c dyn Fn(&mut BatchLent) -> u32;

/// Holds the port's call against the interpreter; true if it found no difference.
pub fn compare(call: foreign::Batch, selection: Selection) -> bool {
    over_families(selection, &call)
}

/// Holds the stand-in against the interpreter; true if it found no difference.
pub fn self_check(selection: Selection, fault: Option<Fault>) -> bool {
    let stand_in = StandIn(fault);
    over_families(selection, &|lent| stand_in.call(lent))
}

fn over_families(selection: Selection, call: Call<'_>) -> bool {
    let started = Instant::now();
    let mut tally = Tally::default();
    let (mut batches, mut differences) = (0_u64, 0_u64);
    for (family, count) in selection.families() {
        for index in 0..count {
            let batch = family.batch(index, selection.seed);
            let random = &mut Random::new([selection.seed, index, 0xBA7C]);
            let count = |kind| tally.count(family.name(), kind);
            batches += 1;
            if let Err(difference) = batch_agrees(call, &batch, random, count) {
                differences += 1;
                if differences <= SHOWN {
                    let (name, seed) = (family.name(), selection.seed);
                    println!("DIFFERENCE: family {name}, index {index}, seed {seed}");
                    println!("{difference}\n");
                }
            }
        }
    }
    print!("{}", tally.table("calls"));
    println!(
        "batches: {batches}, calls: {}, differences: {differences}, seconds: {:.1}",
        tally.total(),
        started.elapsed().as_secs_f64()
    );
    differences == 0
}

/// Calls a batch with several buffers.
fn batch_agrees(
    call: Call<'_>,
    batch: &Batch,
    random: &mut Random,
    mut count: impl FnMut(&'static str),
) -> Result<(), String> {
    let texts: Vec<&[u8]> = batch.texts.iter().map(Vec::as_slice).collect();
    let read: Vec<Entry<'_>> = texts.into_iter().map(Entry::new).collect();
    let exact = exact(batch, &read);
    for which in 0..CALLS {
        let lent = lent(batch, &exact, which, random);
        let own = same_texts(batch, &lent);
        let anew = if own { None } else { entries(&lent) };
        let fits = lent.answers.len() / ENTRY_WORDS >= lent.lengths.len();
        let entries = match own {
            true => fits.then_some(&read[..]),
            false => anew.as_deref(),
        };
        let lent = BatchLent {
            allowance: allowance(entries, &lent, batch.most, random),
            ..lent.clone()
        };
        let expected = outcome(entries, &lent);
        count(kind(&expected, &lent));
        call_agrees(call, &lent, &expected).map_err(|difference| shown(&difference, &lent))?;
    }
    Ok(())
}

/// Whether the lengths lent are those of the batch's texts, in whole.
fn same_texts(batch: &Batch, lent: &BatchLent) -> bool {
    let lengths = batch.texts.iter().map(|text| text.len() as u32);
    let bytes: usize = batch.texts.iter().map(Vec::len).sum();
    lent.texts.len() >= bytes && lengths.eq(lent.lengths.iter().copied())
}

/// The shortest rows with which no text is refused for their length.
fn exact(batch: &Batch, entries: &[Entry<'_>]) -> BatchLent {
    let longest =
        |needed: &dyn Fn(&Entry<'_>) -> usize| entries.iter().map(needed).max().unwrap_or(0);
    let work = longest(&|entry| match entry.text.len() {
        0..=MAX_TEXT => work_needed(entry.text.len()),
        _ => 0,
    });
    let log = longest(&|entry| match &entry.reading {
        Some(Reading::Diagnostics(records)) => RECORD_WORDS * records.len(),
        _ => 0,
    });
    let sheet = longest(&|entry| match &entry.reading {
        Some(Reading::Machine(machine)) if machine.expanded().is_some() => {
            machine.words_needed as usize
        }
        _ => 0,
    });
    BatchLent {
        texts: batch.texts.concat(),
        lengths: batch.texts.iter().map(|text| text.len() as u32).collect(),
        allowance: 0,
        work: vec![0; work],
        log: vec![0; log],
        sheet: vec![0; sheet],
        cells: vec![0; batch.cells],
        answers: vec![0; ENTRY_WORDS * batch.texts.len()],
        answer: vec![0; ANSWER_WORDS],
    }
}

/// What call number `which` of a batch is lent, but for the allowance: exact rows at first, then one thing changed, at last many.
fn lent(batch: &Batch, exact: &BatchLent, which: usize, random: &mut Random) -> BatchLent {
    let mut lent = exact.clone();
    let last = which + 1 == CALLS;
    let changed = |one: usize, random: &mut Random| which == one || last && random.chance(25);
    if changed(1, random) {
        change_lengths(&mut lent, random);
    }
    let [work, log, sheet] =
        [(2, &exact.work), (3, &exact.log), (4, &exact.sheet)].map(|(one, row)| {
            match changed(one, random) {
                true => near(random, row.len()),
                false => row.len(),
            }
        });
    let mut answers = lent.answers.len();
    if changed(5, random) {
        answers = near(random, answers);
    }
    let mut cells = batch.cells;
    if changed(6, random) {
        cells = random.below(2 * cells + 7);
    }
    let answer = match random.below(12) {
        0 => random.below(ANSWER_WORDS),
        1 => ANSWER_WORDS + random.below(3),
        _ => ANSWER_WORDS,
    };
    lent.work = dirty(random, work);
    lent.log = dirty(random, log);
    lent.sheet = dirty(random, sheet);
    lent.cells = dirty(random, cells);
    lent.answers = wide(random, answers);
    lent.answer = wide(random, answer);
    lent
}

fn wide(random: &mut Random, length: usize) -> Vec<u64> {
    let first = random.bits() | 1 << 63;
    (0..length as u64).map(|i| first ^ i).collect()
}

/// Other lengths, or other bytes than the lengths say: surplus ones, too few, an entry moved, longer by one, or beyond any sum.
fn change_lengths(lent: &mut BatchLent, random: &mut Random) {
    let count = lent.lengths.len();
    match random.below(9) {
        0 => lent.texts.extend([0xFF; 7]),
        1 => lent.texts.truncate(random.below(lent.texts.len() + 1)),
        2 if count > 0 => lent.lengths[random.below(count)] ^= 1,
        3 => lent.lengths.insert(random.below(count + 1), 0),
        4 if count > 1 => {
            let at = random.below(count - 1);
            let moved = random.below(lent.lengths[at] as usize + 1) as u32;
            lent.lengths[at] -= moved;
            lent.lengths[at + 1] += moved;
        }
        5 => {
            // Sums of 2^32 and a few more.
            let mut sum: u32 = lent.lengths.iter().fold(0, |sum, &n| sum.wrapping_add(n));
            for _ in 0..random.below(2) {
                let part = random.bits() as u32;
                lent.lengths.push(part);
                sum = sum.wrapping_add(part);
            }
            lent.lengths
                .push(0_u32.wrapping_sub(sum).wrapping_add(random.below(3) as u32));
        }
        6 => lent.lengths.extend([1 << 31, 1 << 31]),
        7 => lent.lengths.insert(random.below(count + 1), u32::MAX),
        _ => lent.lengths.clear(),
    }
    // Room for the answers of all of them, more often than not.
    let room = ENTRY_WORDS * lent.lengths.len();
    lent.answers.resize(room + random.below(2), 0);
}

/// An allowance: none, any, or just about what the runs need. A batch that does not end within `most` steps is given no more.
fn allowance(
    entries: Option<&[Entry<'_>]>,
    lent: &BatchLent,
    most: u64,
    random: &mut Random,
) -> u64 {
    let tried = BatchLent {
        allowance: most,
        ..lent.clone()
    };
    let outcome = outcome(entries, &tried);
    let entries = lent.lengths.len().min(outcome.answers.len() / ENTRY_WORDS);
    let answers = outcome.answers.chunks_exact(ENTRY_WORDS).take(entries);
    if outcome.answer.number != 0 {
        return most;
    }
    let steps: Vec<u64> = answers.clone().map(|answer| answer[1]).collect();
    let total: u64 = steps.iter().sum();
    let first = steps.first().copied().unwrap_or(0);
    let ends = answers.clone().all(|answer| answer[0] != 2);
    match random.below(8) {
        0 => 0,
        1 => random.below(total as usize + 1) as u64,
        2 => first,
        3 => total.saturating_sub(1),
        4 if ends => total + 1,
        5 if ends => u64::MAX - random.below(2) as u64,
        6 if ends => 1 << 32,
        _ => total,
    }
}

/// What came of a call, for the table.
fn kind(outcome: &Outcome, lent: &BatchLent) -> &'static str {
    let stops = outcome
        .answers
        .chunks_exact(ENTRY_WORDS)
        .take(lent.lengths.len());
    match outcome.answer.number {
        0 if lent.lengths.is_empty() => "none",
        0 => match stops.map(|answer| answer[0]).max() {
            Some(0) => "halted",
            Some(1) => "stuck",
            Some(2) => "spent",
            _ => "edge",
        },
        1 => "1",
        2 => "2",
        3 => "3",
        4 => "4",
        5 => "5",
        6 => "6",
        8 => "8",
        9 => "9",
        10 => "10",
        DIAGNOSTICS => "diagnostics",
        _ => "23",
    }
}

/// Calls once and compares the answer and every word of every row that may be written.
fn call_agrees(call: Call<'_>, lent: &BatchLent, expected: &Outcome) -> Result<(), String> {
    let mut rows = lent.clone();
    let number = call(&mut rows);
    same("the number", &[number], &[expected.answer.number])?;
    same(
        "the answer",
        &rows.answer,
        &answer_row(&lent.answer, expected.answer),
    )?;
    same("the log", &rows.log, &expected.log)?;
    same("the sheet", &rows.sheet, &expected.sheet)?;
    same("the cells", &rows.cells, &expected.cells)?;
    same("the answers", &rows.answers, &expected.answers)?;
    if expected.leaves_work {
        // In every other case what work holds is free.
        same("work", &rows.work, &lent.work)?;
    }
    Ok(())
}

/// The answer's row: a short one is left as it is, and a long one behind the answer.
fn answer_row(before: &[u64], answer: Answer) -> Vec<u64> {
    let mut row = before.to_vec();
    if let Some(front) = row.get_mut(..ANSWER_WORDS) {
        front.copy_from_slice(&[answer.number.into(), answer.value, answer.index]);
    }
    row
}

/// A difference with what was lent.
fn shown(difference: &str, lent: &BatchLent) -> String {
    let texts = match lent.texts.len() {
        0..=SHOWN_LENGTH => format!("{:?}", String::from_utf8_lossy(&lent.texts)),
        length => format!("{length} bytes"),
    };
    let [work, log, sheet, cells] = [&lent.work, &lent.log, &lent.sheet, &lent.cells].map(Vec::len);
    let (lengths, allowance, answers) = (&lent.lengths, lent.allowance, lent.answers.len());
    format!(
        "{difference}\nlengths {lengths:?}, allowance {allowance}, work {work}, log {log}, sheet {sheet}, \
         cells {cells}, answers {answers}\ntexts {texts}"
    )
}

/// The families find each fault that can be planted, and none where there is none.
#[cfg(test)]
mod tests {
    use super::super::families::Family;
    use super::*;

    /// Batches of each family, but for the large ones.
    const COUNT: u64 = 150;

    fn differs(fault: Option<Fault>) -> bool {
        let stand_in = StandIn(fault);
        let call = |lent: &mut BatchLent| stand_in.call(lent);
        let families = Family::ALL
            .into_iter()
            .filter(|&family| family != Family::Large);
        let mut batches = families.flat_map(|family| {
            let count = if family == Family::Many { 3 } else { COUNT };
            (0..count).map(move |index| (family.batch(index, 7), index))
        });
        batches.any(|(batch, index)| {
            let random = &mut Random::new([7, index, 1]);
            batch_agrees(&call, &batch, random, |_| ()).is_err()
        })
    }

    #[test]
    fn an_honest_stand_in_is_accepted() {
        assert!(!differs(None));
    }

    #[test]
    fn each_fault_is_found() {
        for &(fault, name) in Fault::ALL {
            assert!(differs(Some(fault)), "{name} is not found");
        }
    }
}
