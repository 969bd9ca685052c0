//! The plain form of a machine, from the original's record of it.

use crate::machine::{BitOrder, Decoder, Kind};
use crate::plant::{self, Fault};
use crate::spec::{MachineSpec, TransitionSpec};

/// The whole form.
pub fn form(spec: &MachineSpec) -> String {
    let mut out = String::new();
    comment_lines(&mut out, &spec.comments.header);
    out.push_str(&declarations(spec));
    for rule in &spec.transitions {
        push_rule(&mut out, rule);
    }
    comment_lines(&mut out, &spec.comments.trailing);
    out
}

/// The lines from `machine` to `F`.
pub fn declarations(spec: &MachineSpec) -> String {
    let mut out = String::new();
    let mut line = |text: String| {
        out.push_str(&text);
        out.push('\n');
    };
    line(format!("machine {}", string(&spec.name)));
    line(format!("kind {}", kind(spec.kind)));
    line(format!("input {}", string(&spec.input)));
    line(format!("output {}", output(spec.output)));
    line(format!("tapes = {}", spec.tapes));
    if spec.declared.states {
        let names: Vec<&str> = spec.states.iter().map(|s| s.name.as_str()).collect();
        line(format!("Q = {{{}}}", names.join(", ")));
    }
    if spec.declared.input_alphabet {
        line(format!("Σ = {{{}}}", symbols(&spec.input_alphabet)));
    }
    if spec.declared.tape_alphabet {
        line(format!("Γ = {{{}}}", symbols(&spec.tape_alphabet)));
    }
    if spec.declared.blank {
        line(format!("blank = {}", symbol(spec.blank)));
    }
    if spec.declared.start {
        line(format!("start = {}", spec.start));
    }
    line(format!("F = {{{}}}", final_names(spec).join(", ")));
    out
}

/// The final states in state order. Of a name that `Q` repeats only the first is final.
fn final_names(spec: &MachineSpec) -> Vec<&str> {
    let finals = spec.states.iter().filter(|s| s.is_final);
    finals.map(|s| s.name.as_str()).collect()
}

fn comment_lines(out: &mut String, texts: &[String]) {
    for text in texts {
        push_comment(out, text);
        out.push('\n');
    }
}

fn push_comment(out: &mut String, text: &str) {
    out.push_str("//");
    if !text.is_empty() {
        out.push(' ');
        out.push_str(text);
    }
}

fn push_rule(out: &mut String, rule: &TransitionSpec) {
    if !plant::is(Fault::Leading) {
        comment_lines(out, &rule.leading);
    }
    let dirs: Vec<String> = rule.dir.iter().map(ToString::to_string).collect();
    out.push_str(&format!(
        "δ({}, ({})) = ({}, ({}), ({}))",
        rule.from,
        symbols(&rule.read),
        rule.to,
        symbols(&rule.write),
        dirs.join(", ")
    ));
    if let Some(text) = &rule.comment {
        out.push(' ');
        push_comment(out, text);
    }
    out.push('\n');
}

fn symbol(c: char) -> String {
    format!("'{c}'")
}

fn symbols(glyphs: &[char]) -> String {
    let quoted: Vec<String> = glyphs.iter().map(|&c| symbol(c)).collect();
    quoted.join(", ")
}

/// A string literal: `"`, `\`, line feed and tab are escaped.
fn string(value: &str) -> String {
    let mut out = String::from('"');
    for c in value.chars() {
        match c {
            '"' if plant::is(Fault::Form) => out.push('"'),
            '"' => out.push_str("\\\""),
            '\\' => out.push_str("\\\\"),
            '\n' => out.push_str("\\n"),
            '\t' => out.push_str("\\t"),
            other => out.push(other),
        }
    }
    out.push('"');
    out
}

fn kind(kind: Kind) -> &'static str {
    match kind {
        Kind::Acceptor => "acceptor",
        Kind::Transducer => "transducer",
        Kind::Enumerator => "enumerator",
        Kind::Beaver => "beaver",
    }
}

fn output(decoder: Decoder) -> String {
    match decoder {
        Decoder::Word => "word".into(),
        Decoder::Unary { symbol: c } => format!("unary {}", symbol(c)),
        Decoder::Binary {
            order: BitOrder::Lsb,
        } => "binary lsb".into(),
        Decoder::Binary {
            order: BitOrder::Msb,
        } => "binary msb".into(),
    }
}
