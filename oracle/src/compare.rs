//! `oracle compare`: the port, through its static libraries and the list program, against the
//! original.
//!
//! Every text is tried with buffers of exact, shorter and longer lengths, empty ones among them,
//! all with dirty contents, and every word of every buffer is compared.

use std::io::Write;
use std::path::Path;
use std::process::{Command, Stdio};
use std::time::Instant;

use crate::chars::{first_outside, utf8_beginning};
use crate::families::{Family, Random, Selection};
use crate::foreign::{ANSWER_WORDS, AnswerRow, Buffers, Call, DIAGNOSTICS, Tokenize};
use crate::head::head_words;
use crate::list::{MAX_INPUT, listing};
use crate::log::RECORD_WORDS;
use crate::outcome::{
    self, LeftBytes, LeftWords, Lengths, MAX_TEXT, ReadOutcome, ReadReply, Refusal, WriteOutcome,
    WriteReply, work_needed,
};
use crate::reading::{self, Reading};
use crate::tally::{Tally, refused};
use crate::tokens::tokens;

/// How many differences are shown in full.
const SHOWN: u64 = 5;
/// Words shown around a difference.
const AROUND: usize = 8;
/// Longer texts are not shown.
const SHOWN_LENGTH: usize = 4096;
/// Larger sheets are not lent.
const MAX_SHEET: u64 = 1 << 26;
/// The lexer's answer when it refuses.
const REFUSED: usize = usize::MAX;

/// Runs `check` on the texts of a selection; true if it found no difference.
fn over_families(
    selection: Selection,
    mut check: impl FnMut(Family, &[u8], &mut Random, &mut Tally) -> Result<(), String>,
) -> bool {
    let started = Instant::now();
    let mut tally = Tally::default();
    let (mut texts, mut differences) = (0_u64, 0_u64);
    for (family, count, seed) in selection.families() {
        let mut random = Random::new([seed, count, 0xD1F7]);
        for index in 0..count {
            let text = family.text(index, seed);
            texts += 1;
            if let Err(difference) = check(family, &text, &mut random, &mut tally) {
                differences += 1;
                if differences <= SHOWN {
                    show(family, index, seed, &text, &difference);
                }
            }
        }
    }
    print!("{}", tally.table("calls"));
    println!(
        "texts: {texts}, differences: {differences}, seconds: {:.1}",
        started.elapsed().as_secs_f64()
    );
    differences == 0
}

fn show(family: Family, index: u64, seed: u64, text: &[u8], difference: &str) {
    let name = family.name();
    println!("DIFFERENCE: family {name}, index {index}, seed {seed}");
    if text.len() <= SHOWN_LENGTH {
        println!("text: {:?}", String::from_utf8_lossy(text));
    }
    println!("{difference}\n");
}

/// Says where two rows differ first.
pub fn same<T: PartialEq + std::fmt::Debug>(
    what: &str,
    found: &[T],
    expected: &[T],
) -> Result<(), String> {
    if found == expected {
        return Ok(());
    }
    let pairs = found.iter().zip(expected);
    let at = pairs.take_while(|(a, b)| a == b).count();
    let around = |row: &[T]| {
        let end = (at + AROUND).min(row.len());
        format!("{:?}", &row[at.min(end)..end])
    };
    Err(format!(
        "{what} differs at {at}: found {} (of {}), expected {} (of {})",
        around(found),
        found.len(),
        around(expected),
        expected.len()
    ))
}

/// Words that no answer is likely to hold, different for each call.
pub fn dirty(random: &mut Random, length: usize) -> Vec<u32> {
    let first = random.bits() as u32 | 0x8000_0000;
    (0..length as u32).map(|i| first ^ i).collect()
}

/// A length around `exact`: itself, one less, less, nothing, one more or more.
pub fn near(random: &mut Random, exact: usize) -> usize {
    match random.below(8) {
        0 => exact.saturating_sub(1),
        1 => random.below(exact + 1),
        2 => 0,
        3 => exact + 1,
        4 => exact + random.below(40),
        _ => exact,
    }
}

/// Compares the lexer's tokens. Outside the admitted set the original has letters and white space that
/// the port has not, and a reading call is refused before the lexer runs: such texts are only counted.
pub fn compare_tokens(tokenize: Tokenize, selection: Selection) -> bool {
    over_families(selection, |family, text, random, tally| {
        if first_outside(utf8_beginning(text)).is_some() {
            tally.count(family.name(), "outside the set");
            return Ok(());
        }
        let expected = tokens(text);
        for work_len in [
            work_needed(text.len()),
            near(random, work_needed(text.len())),
        ] {
            let before = dirty(random, work_len);
            let kind = tokens_agree(tokenize, text, &expected, before)?;
            tally.count(family.name(), kind);
        }
        Ok(())
    })
}

/// Calls the lexer once and compares its reply and all of work.
fn tokens_agree(
    tokenize: Tokenize,
    text: &[u8],
    tokens: &[[u32; 4]],
    before: Vec<u32>,
) -> Result<&'static str, String> {
    let refused = text.len() > MAX_TEXT || before.len() < work_needed(text.len());
    let mut expected = before.clone();
    if !refused {
        expected[..4 * tokens.len()].copy_from_slice(tokens.as_flattened());
    }
    let mut work = before;
    let reply = tokenize(text, &mut work);
    let expected_reply = if refused { REFUSED } else { tokens.len() };
    same("the reply", &[reply], &[expected_reply])?;
    same("work", &work, &expected)?;
    Ok(if refused { "refused" } else { "tokens" })
}

/// Compares the reader's calls.
pub fn compare_read(read: Call, selection: Selection) -> bool {
    over_families(selection, |family, text, random, tally| {
        for_lengths(text, random, |reading, lengths, random| {
            let outcome = read_outcome(text, reading, lengths);
            tally.count(family.name(), read_kind(&outcome.reply));
            let expected = Expected {
                answer: read_answer(&outcome.reply),
                log: outcome.log,
                sheet: outcome.sheet,
                output: LeftBytes::Untouched,
            };
            call_agrees(read, text, lengths, &expected, random)
        })
    })
}

/// Compares the writer's calls.
pub fn compare_write(write: Call, selection: Selection) -> bool {
    over_families(selection, |family, text, random, tally| {
        for_lengths(text, random, |reading, lengths, random| {
            let outcome = write_outcome(text, reading, lengths);
            tally.count(family.name(), write_kind(&outcome.reply));
            let expected = Expected {
                answer: write_answer(&outcome.reply),
                log: outcome.log,
                sheet: outcome.sheet,
                output: outcome.output,
            };
            call_agrees(write, text, lengths, &expected, random)
        })
    })
}

/// Compares what the list program prints. A text that is longer than it takes is cut, but for the
/// limits, which are meant to be too long.
pub fn compare_list(program: &Path, selection: Selection) -> bool {
    over_families(selection, |family, text, _, tally| {
        let end = match family {
            Family::Limits => text.len(),
            _ => text.len().min(MAX_INPUT),
        };
        let expected = listing(&text[..end]);
        tally.count(family.name(), list_kind(&expected));
        let found = printed(program, &text[..end]).map_err(|e| e.to_string())?;
        same("the listing", &found, expected.as_bytes())
    })
}

/// What a program prints for a text on its standard input. It may end before it has read all of it.
fn printed(program: &Path, text: &[u8]) -> std::io::Result<Vec<u8>> {
    let mut child = Command::new(program)
        .stdin(Stdio::piped())
        .stdout(Stdio::piped())
        .spawn()?;
    if let Some(mut stdin) = child.stdin.take() {
        let _ = stdin.write_all(text);
    }
    child.wait_with_output().map(|output| output.stdout)
}

/// The kind of a listing, from its first two lines.
fn list_kind(listing: &str) -> &'static str {
    let mut lines = listing.lines();
    match (lines.next(), lines.next()) {
        (Some(line), None) => match line.as_bytes().get("refused=".len()) {
            Some(b'1') => "refused 1",
            Some(b'3') => "refused 3",
            Some(b'4') => "refused 4",
            Some(b'5') => "refused 5",
            _ => "refused 6",
        },
        (_, Some("diagnostics=0")) => "machine",
        _ => "diagnostics",
    }
}

/// The outcome of reading; a text that is too long was not read.
pub fn read_outcome(text: &[u8], reading: Option<&Reading<'_>>, lengths: Lengths) -> ReadOutcome {
    match (outcome::refused_unread(text, lengths), reading) {
        (None, Some(reading)) => outcome::read_outcome(reading, lengths),
        _ => outcome::read(text, lengths),
    }
}

pub fn write_outcome(text: &[u8], reading: Option<&Reading<'_>>, lengths: Lengths) -> WriteOutcome {
    match (outcome::refused_unread(text, lengths), reading) {
        (None, Some(reading)) => outcome::write_outcome(reading, lengths),
        _ => outcome::write(text, lengths),
    }
}

/// Reads the text once and tries several lengths of the buffers.
pub fn for_lengths(
    text: &[u8],
    random: &mut Random,
    mut check: impl FnMut(Option<&Reading<'_>>, Lengths, &mut Random) -> Result<(), String>,
) -> Result<(), String> {
    let reading = (text.len() <= MAX_TEXT).then(|| reading::read(text));
    let exact = exact_lengths(text, reading.as_ref());
    check(reading.as_ref(), exact, random)?;
    for which in 0..4 {
        let mut lengths = exact;
        match which {
            0 => lengths.work = near(random, exact.work),
            1 => lengths.log = near(random, exact.log),
            2 => lengths.sheet = near(random, exact.sheet),
            _ => lengths.output = near(random, exact.output),
        }
        check(reading.as_ref(), lengths, random)?;
    }
    let any = Lengths {
        work: exact.work + random.below(9),
        log: near(random, exact.log),
        sheet: near(random, exact.sheet),
        output: near(random, exact.output),
    };
    check(reading.as_ref(), any, random)
}

/// The shortest buffers with which nothing is refused for its length.
fn exact_lengths(text: &[u8], reading: Option<&Reading<'_>>) -> Lengths {
    let mut lengths = Lengths {
        work: work_needed(text.len()),
        log: 0,
        sheet: 0,
        output: 0,
    };
    match reading {
        Some(Reading::Diagnostics(records)) => lengths.log = RECORD_WORDS * records.len(),
        Some(Reading::Machine(machine)) => {
            // A sheet beyond memory is not lent; the call is then refused.
            let lendable = machine.expanded().is_some() && machine.words_needed <= MAX_SHEET;
            lengths.sheet = if lendable {
                machine.words_needed as usize
            } else {
                1_000
            };
            lengths.output = machine.form_len.min(MAX_TEXT as u64) as usize;
        }
        _ => {}
    }
    lengths
}

/// What a call must leave behind.
struct Expected {
    answer: AnswerRow,
    log: LeftWords,
    sheet: LeftWords,
    output: LeftBytes,
}

/// Calls the port once and compares the answer and every word of every buffer.
fn call_agrees(
    call: Call,
    text: &[u8],
    lengths: Lengths,
    expected: &Expected,
    random: &mut Random,
) -> Result<(), String> {
    let dirty_bytes = |words: Vec<u32>| words.iter().map(|&w| w as u8 | 0x80).collect();
    let work = dirty(random, lengths.work);
    let log = dirty(random, lengths.log);
    let sheet = dirty(random, lengths.sheet);
    let output: Vec<u8> = dirty_bytes(dirty(random, lengths.output));
    let mut buffers = Buffers {
        work: work.clone(),
        log: log.clone(),
        sheet: sheet.clone(),
        output: output.clone(),
    };
    let answer = call(text, &mut buffers);
    let with_lengths = |difference| format!("{difference}\nwith {lengths:?}");
    same("the answer", &answer, &expected.answer).map_err(with_lengths)?;
    same("the log", &buffers.log, &expected.log.after(&log)).map_err(with_lengths)?;
    same("the sheet", &buffers.sheet, &expected.sheet.after(&sheet)).map_err(with_lengths)?;
    same(
        "the output",
        &buffers.output,
        &expected.output.after(&output),
    )
    .map_err(with_lengths)?;
    if matches!(expected.answer[0], 1 | 2) {
        // In every other case what work holds is free.
        same("work", &buffers.work, &work).map_err(with_lengths)?;
    }
    Ok(())
}

/// The one place that knows how a reply is laid out in the answer row.
fn answer_row(number: u32, value: u64, head: &[u32]) -> AnswerRow {
    let mut row = [0; ANSWER_WORDS];
    row[..3].copy_from_slice(&[number, value as u32, (value >> 32) as u32]);
    row[3..3 + head.len()].copy_from_slice(head);
    row
}

fn refusal_row(refusal: &Refusal) -> AnswerRow {
    answer_row(u32::from(refusal.number), refusal.value, &[])
}

pub fn read_answer(reply: &ReadReply) -> AnswerRow {
    match reply {
        ReadReply::Head(head) => answer_row(0, 0, &head_words(head)),
        ReadReply::Diagnostics(count) => answer_row(DIAGNOSTICS, *count, &[]),
        ReadReply::Refused(refusal) => refusal_row(refusal),
    }
}

pub fn write_answer(reply: &WriteReply) -> AnswerRow {
    match reply {
        WriteReply::Length(length) => answer_row(0, *length, &[]),
        WriteReply::Diagnostics(count) => answer_row(DIAGNOSTICS, *count, &[]),
        WriteReply::Refused(refusal) => refusal_row(refusal),
    }
}

pub fn read_kind(reply: &ReadReply) -> &'static str {
    match reply {
        ReadReply::Head(_) => "machine",
        ReadReply::Diagnostics(_) => "diagnostics",
        ReadReply::Refused(refusal) => refused(*refusal),
    }
}

pub fn write_kind(reply: &WriteReply) -> &'static str {
    match reply {
        WriteReply::Length(_) => "machine",
        WriteReply::Diagnostics(_) => "diagnostics",
        WriteReply::Refused(refusal) => refused(*refusal),
    }
}

/// Stand-ins for the port, made of the oracle itself: the comparison accepts them as they are
/// and finds a fault in each of them.
#[cfg(test)]
mod tests {
    use super::*;

    const COUNT: u64 = 60;

    fn honest_tokenize(text: &[u8], work: &mut [u32]) -> usize {
        if text.len() > MAX_TEXT || work.len() < work_needed(text.len()) {
            return REFUSED;
        }
        let tokens = tokens(text);
        work[..4 * tokens.len()].copy_from_slice(tokens.as_flattened());
        tokens.len()
    }

    fn tokenize_past_the_end(text: &[u8], work: &mut [u32]) -> usize {
        let count = honest_tokenize(text, work);
        if count != REFUSED {
            work[4 * count] = 0;
        }
        count
    }

    fn lengths_of(buffers: &Buffers) -> Lengths {
        Lengths {
            work: buffers.work.len(),
            log: buffers.log.len(),
            sheet: buffers.sheet.len(),
            output: buffers.output.len(),
        }
    }

    fn honest_read(text: &[u8], buffers: &mut Buffers) -> AnswerRow {
        let outcome = outcome::read(text, lengths_of(buffers));
        buffers.log = outcome.log.after(&buffers.log);
        buffers.sheet = outcome.sheet.after(&buffers.sheet);
        read_answer(&outcome.reply)
    }

    fn read_that_leaves_the_sheet(text: &[u8], buffers: &mut Buffers) -> AnswerRow {
        let sheet = buffers.sheet.clone();
        let answer = honest_read(text, buffers);
        buffers.sheet = sheet;
        answer
    }

    fn read_that_spoils_work(text: &[u8], buffers: &mut Buffers) -> AnswerRow {
        buffers.work.fill(0);
        honest_read(text, buffers)
    }

    fn honest_write(text: &[u8], buffers: &mut Buffers) -> AnswerRow {
        let outcome = outcome::write(text, lengths_of(buffers));
        buffers.log = outcome.log.after(&buffers.log);
        buffers.sheet = outcome.sheet.after(&buffers.sheet);
        buffers.output = outcome.output.after(&buffers.output);
        write_answer(&outcome.reply)
    }

    fn write_that_touches_the_output(text: &[u8], buffers: &mut Buffers) -> AnswerRow {
        let answer = honest_write(text, buffers);
        if let (DIAGNOSTICS, Some(byte)) = (answer[0], buffers.output.first_mut()) {
            *byte ^= 1;
        }
        answer
    }

    /// As `over_families`, but without the limits, which take long.
    fn small_texts() -> impl Iterator<Item = Vec<u8>> {
        let families = Family::ALL.into_iter().filter(|&f| f != Family::Limits);
        families.flat_map(|family| (0..COUNT).map(move |index| family.text(index, 7)))
    }

    fn read_differs(read: Call) -> bool {
        let mut random = Random::new([1, 2, 3]);
        small_texts().any(|text| {
            for_lengths(&text, &mut random, |reading, lengths, random| {
                let outcome = read_outcome(&text, reading, lengths);
                let expected = Expected {
                    answer: read_answer(&outcome.reply),
                    log: outcome.log,
                    sheet: outcome.sheet,
                    output: LeftBytes::Untouched,
                };
                call_agrees(read, &text, lengths, &expected, random)
            })
            .is_err()
        })
    }

    fn write_differs(write: Call) -> bool {
        let mut random = Random::new([1, 2, 3]);
        small_texts().any(|text| {
            for_lengths(&text, &mut random, |reading, lengths, random| {
                let outcome = write_outcome(&text, reading, lengths);
                let expected = Expected {
                    answer: write_answer(&outcome.reply),
                    log: outcome.log,
                    sheet: outcome.sheet,
                    output: outcome.output,
                };
                call_agrees(write, &text, lengths, &expected, random)
            })
            .is_err()
        })
    }

    fn tokens_differ(tokenize: Tokenize) -> bool {
        let mut random = Random::new([1, 2, 3]);
        small_texts().any(|text| {
            let before = dirty(&mut random, work_needed(text.len()));
            tokens_agree(tokenize, &text, &tokens(&text), before).is_err()
        })
    }

    #[test]
    fn honest_stand_ins_are_accepted() {
        assert!(!tokens_differ(honest_tokenize));
        assert!(!read_differs(honest_read));
        assert!(!write_differs(honest_write));
    }

    #[test]
    fn faults_are_found() {
        assert!(tokens_differ(tokenize_past_the_end));
        assert!(read_differs(read_that_leaves_the_sheet));
        assert!(read_differs(read_that_spoils_work));
        assert!(write_differs(write_that_touches_the_output));
    }
}
