//! The listing that the list program prints, written from paper 01.

use std::fmt::Write;

use crate::diag::Span;
use crate::log::Record;
use crate::outcome::{self, Lengths, ReadReply, work_needed};
use crate::reading::{Machine, Reading, read};
use crate::spec::TransitionSpec;

/// The longest input of the list program, in bytes.
pub const MAX_INPUT: usize = 2048;
/// The words of its sheet and the records of its log.
pub const SHEET_WORDS: usize = 16_384;
pub const LOG_RECORDS: usize = 1_024;

/// What the list program prints for `text`.
pub fn listing(text: &[u8]) -> String {
    if text.len() > MAX_INPUT {
        return "refused=1 0\n".into();
    }
    let lengths = Lengths {
        work: work_needed(text.len()),
        log: LOG_RECORDS * crate::log::RECORD_WORDS,
        sheet: SHEET_WORDS,
        output: 0,
    };
    let reading = read(text);
    if let ReadReply::Refused(refusal) = outcome::read_outcome(&reading, lengths).reply {
        return format!("refused={} {}\n", refusal.number, refusal.value);
    }
    match reading {
        Reading::Diagnostics(records) => diagnostics(text, &records),
        Reading::Machine(machine) => machine_listing(&machine),
        Reading::NotUtf8(_) | Reading::OutsideSet(_) => unreachable!("refused above"),
    }
}

fn diagnostics(text: &[u8], records: &[Record]) -> String {
    let mut out = format!("bytes={}\ndiagnostics={}\n", text.len(), records.len());
    for record in records {
        let Span { start, end } = record.place;
        let related = record
            .related
            .map_or("none none".into(), |r| format!("{} {}", r.start, r.end));
        let (line, column) = line_column(text, start as usize);
        let _ = writeln!(
            out,
            "diagnostic={} {start} {end} {related} {line}:{column}",
            record.code
        );
    }
    out
}

/// Line and column of an offset, both from 1, the column in characters.
fn line_column(text: &[u8], offset: usize) -> (usize, usize) {
    let before = std::str::from_utf8(&text[..offset]).expect("a diagnostic starts at a character");
    let line = before.matches('\n').count() + 1;
    let left = before.rsplit('\n').next().unwrap_or_default();
    (line, left.chars().count() + 1)
}

fn machine_listing(machine: &Machine<'_>) -> String {
    let (spec, _) = machine.expanded().expect("a text this short expands");
    let all: Vec<&str> = spec.states.iter().map(|s| s.name.as_str()).collect();
    let finals = spec.states.iter().filter(|s| s.is_final);
    let finals: Vec<&str> = finals.map(|s| s.name.as_str()).collect();
    let mut out = format!("bytes={}\ndiagnostics=0\n", machine.text.len());
    let _ = writeln!(out, "states={}", all.join(" "));
    let _ = writeln!(out, "finals={}", finals.join(" "));
    let _ = writeln!(out, "start={}", spec.start);
    let _ = writeln!(out, "sigma={}", codes(&spec.input_alphabet, " "));
    let _ = writeln!(out, "gamma={}", codes(&spec.tape_alphabet, " "));
    let _ = writeln!(out, "transitions={}", spec.transitions.len());
    for rule in &spec.transitions {
        push_transition(&mut out, rule);
    }
    out
}

fn push_transition(out: &mut String, rule: &TransitionSpec) {
    let dirs: Vec<String> = rule.dir.iter().map(ToString::to_string).collect();
    let _ = writeln!(
        out,
        "transition={} {} {} {} {}",
        rule.from,
        codes(&rule.read, ","),
        rule.to,
        codes(&rule.write, ","),
        dirs.join(",")
    );
}

fn codes(glyphs: &[char], separator: &str) -> String {
    let codes: Vec<String> = glyphs.iter().map(|&c| u32::from(c).to_string()).collect();
    codes.join(separator)
}
