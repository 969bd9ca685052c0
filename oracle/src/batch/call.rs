//! `oracle batch`: what a batch call answers and leaves behind, as text.

use super::run::Stop;
use super::{ANSWER_WORDS, BatchLent, ENTRY_WORDS, Outcome, entries, outcome};
use crate::foreign::DIAGNOSTICS;
use crate::log::RECORD_WORDS;
use crate::outcome::work_needed;
use crate::reading::{self, Reading};

/// What every word that is lent holds before the call.
const DIRTY: u32 = 7;

/// The outcome of a batch of these texts, lent so many cells, a log of one record, work and a sheet that are long enough, and
/// answers with a word to spare.
pub fn call(texts: &[Vec<u8>], allowance: u64, cells: usize) -> String {
    let lent = lent(texts, allowance, cells);
    shown(&lent, &outcome(entries(&lent).as_deref(), &lent))
}

fn lent(texts: &[Vec<u8>], allowance: u64, cells: usize) -> BatchLent {
    let longest = texts.iter().map(Vec::len).max().unwrap_or(0);
    let needed = texts.iter().map(|text| match reading::read(text) {
        Reading::Machine(machine) => machine.words_needed as usize,
        _ => 0,
    });
    BatchLent {
        texts: texts.concat(),
        lengths: texts.iter().map(|text| text.len() as u32).collect(),
        allowance,
        work: vec![DIRTY; work_needed(longest)],
        log: vec![DIRTY; RECORD_WORDS],
        sheet: vec![DIRTY; needed.max().unwrap_or(0)],
        cells: vec![DIRTY; cells],
        answers: vec![DIRTY.into(); ENTRY_WORDS * texts.len() + 1],
        answer: vec![DIRTY.into(); ANSWER_WORDS],
    }
}

/// What was lent, and what is answered and left behind, a line for each row.
fn shown(lent: &BatchLent, outcome: &Outcome) -> String {
    let answer = outcome.answer;
    let mut lines = format!(
        "lengths {:?}, work {}, sheet {}\nanswer {} {} {}\n",
        lent.lengths,
        lent.work.len(),
        lent.sheet.len(),
        answer.number,
        answer.value,
        answer.index
    );
    if answer.number == 0 {
        for (i, answer) in outcome.answers.chunks_exact(ENTRY_WORDS).enumerate() {
            let [stop, steps] = [answer[0], answer[1]];
            lines += &format!("entry {i}: {} after {steps} steps\n", stop_name(stop));
        }
    } else if answer.number == DIAGNOSTICS {
        lines += "an entry has diagnostics\n";
    }
    let rows = [
        ("log", &outcome.log),
        ("sheet", &outcome.sheet),
        ("cells", &outcome.cells),
    ];
    for (name, row) in rows {
        lines += &format!("{name} {row:?}\n");
    }
    lines + &format!("answers {:?}\n", outcome.answers)
}

fn stop_name(number: u64) -> &'static str {
    let stops = [
        (Stop::Halted, "halted"),
        (Stop::Stuck, "stuck"),
        (Stop::Spent, "spent"),
        (Stop::Edge, "edge"),
    ];
    let found = stops.iter().find(|&&(stop, _)| stop as u64 == number);
    found.map_or("no stop", |&(_, name)| name)
}
