//! The whole outcome of a text in readable form.

use std::fmt::Write;

use crate::chars::utf8_beginning;
use crate::diag::Span;
use crate::head::{Head, flags, head_words, map_places};
use crate::log::Record;
use crate::outcome::{self, LeftBytes, LeftWords, Lengths, MAX_TEXT};
use crate::place::text_at;
use crate::reading::{Machine, Reading, read};
use crate::sheet::{PLACE_WORDS, RULE_WORDS, SECTIONS, STATE_WORDS, SYMBOL_WORDS, TAPE_WORDS};
use crate::tokens::{KINDS, tokens};
use crate::trace::describe_lines;

/// The dump of `text`, as if every buffer were long enough.
pub fn dump(text: &[u8]) -> String {
    let mut out = format!("bytes: {}\n", text.len());
    if text.len() > MAX_TEXT {
        out.push_str("answer: refused 1, 0\n");
        return out;
    }
    dump_tokens(&mut out, text);
    dump_lines(&mut out, text);
    match read(text) {
        Reading::NotUtf8(offset) => line(&mut out, format_args!("answer: refused 3, {offset}")),
        Reading::OutsideSet(offset) => line(&mut out, format_args!("answer: refused 4, {offset}")),
        Reading::Diagnostics(records) => dump_log(&mut out, &records),
        Reading::Machine(machine) => dump_machine(&mut out, &machine),
    }
    out
}

/// What a reading and a writing call with buffers of these lengths answer and leave behind.
pub fn calls(text: &[u8], lengths: Lengths) -> String {
    let read = outcome::read(text, lengths);
    let write = outcome::write(text, lengths);
    let mut out = String::new();
    line(&mut out, format_args!("read: {:?}", read.reply));
    line(&mut out, format_args!("  log {}", left_words(&read.log)));
    line(
        &mut out,
        format_args!("  sheet {}", left_words(&read.sheet)),
    );
    line(&mut out, format_args!("write: {:?}", write.reply));
    line(&mut out, format_args!("  log {}", left_words(&write.log)));
    line(
        &mut out,
        format_args!("  sheet {}", left_words(&write.sheet)),
    );
    let output = match write.output {
        LeftBytes::Untouched => "untouched".into(),
        LeftBytes::Written(form) => format!("{} bytes, then untouched", form.len()),
    };
    line(&mut out, format_args!("  output {output}"));
    out
}

fn left_words(left: &LeftWords) -> String {
    match left {
        LeftWords::Untouched => "untouched".into(),
        LeftWords::Written(words) if words.is_empty() => "zero".into(),
        LeftWords::Written(words) => format!("{words:?}, then zero"),
    }
}

fn line(out: &mut String, text: std::fmt::Arguments<'_>) {
    let _ = writeln!(out, "{text}");
}

fn dump_tokens(out: &mut String, text: &[u8]) {
    let tokens = tokens(text);
    line(out, format_args!("tokens: {}", tokens.len()));
    for [kind, start, end, value] in tokens {
        let written = text_at(text, Some(Span::new(start, end)));
        let name = KINDS[kind as usize];
        line(
            out,
            format_args!("  {kind} {name} {start}-{end} value {value} {written:?}"),
        );
    }
}

fn dump_lines(out: &mut String, text: &[u8]) {
    let lines = describe_lines(utf8_beginning(text));
    line(out, format_args!("lines: {}", lines.len()));
    for description in lines {
        line(out, format_args!("  {description}"));
    }
}

fn dump_log(out: &mut String, records: &[Record]) {
    line(out, format_args!("answer: diagnostics {}", records.len()));
    for record in records {
        line(
            out,
            format_args!(
                "  E{:03} {} related {} words {:?}",
                record.code,
                show(Some(record.place)),
                show(record.related),
                record.words()
            ),
        );
    }
}

fn show(place: Option<Span>) -> String {
    place.map_or("none".into(), |s| format!("{}-{}", s.start, s.end))
}

fn dump_machine(out: &mut String, machine: &Machine<'_>) {
    line(out, format_args!("answer: machine"));
    dump_head(out, &machine.head);
    line(
        out,
        format_args!("sheet: {} words needed", machine.words_needed),
    );
    if machine.expanded().is_none() {
        line(out, format_args!("  too large for the original to expand"));
        line(out, format_args!("form: {} bytes", machine.form_len));
        return;
    }
    for (name, words) in SECTIONS.iter().zip(machine.sections()) {
        line(out, format_args!("  {name}: {} words", words.len()));
        dump_section(out, name, &words);
    }
    line(out, format_args!("form: {} bytes", machine.form_len));
    out.push_str(&machine.form());
}

fn dump_head(out: &mut String, head: &Head) {
    line(out, format_args!("head: {:?}", head_words(head)));
    line(out, format_args!("  output {:?}", head.output));
    line(out, format_args!("  name {}", show(head.name)));
    line(out, format_args!("  input {}", show(head.input)));
    line(out, format_args!("  kind {:?}", head.kind));
    line(out, format_args!("  tapes {}", head.tapes));
    line(out, format_args!("  blank U+{:04X}", u32::from(head.blank)));
    let names = ["states", "Σ", "Γ", "start", "blank"];
    for (name, flag) in names.iter().zip(flags(head.declared)) {
        line(out, format_args!("  declared {name}: {flag}"));
    }
    line(out, format_args!("  start {}", show(head.start)));
    let names = ["kind", "input", "tapes", "start", "Q"];
    for (name, place) in names.iter().zip(map_places(&head.map)) {
        line(out, format_args!("  map {name} {}", show(place)));
    }
    for (name, count) in SECTIONS.iter().zip(head.counts.in_order()) {
        line(out, format_args!("  count {name}: {count}"));
    }
}

fn dump_section(out: &mut String, name: &str, words: &[u32]) {
    match name {
        "rules" => dump_rules(out, words),
        "states" => dump_rows(out, words, STATE_WORDS),
        "Σ" | "Γ" => dump_rows(out, words, SYMBOL_WORDS),
        _ => dump_rows(out, words, PLACE_WORDS),
    }
}

fn dump_rows(out: &mut String, words: &[u32], each: usize) {
    for row in words.chunks(each) {
        line(out, format_args!("    {row:?}"));
    }
}

fn dump_rules(out: &mut String, mut words: &[u32]) {
    while let Some(&length) = words.first() {
        let (rule, rest) = words.split_at(length as usize);
        let tapes_end = RULE_WORDS + TAPE_WORDS * rule[9] as usize;
        line(out, format_args!("    {:?}", &rule[..RULE_WORDS]));
        for tape in rule[RULE_WORDS..tapes_end].chunks(TAPE_WORDS) {
            line(out, format_args!("      tape {tape:?}"));
        }
        for place in rule[tapes_end..].chunks(PLACE_WORDS) {
            line(out, format_args!("      leading {place:?}"));
        }
        words = rest;
    }
}
