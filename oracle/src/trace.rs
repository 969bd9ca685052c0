//! Instrumentation: what the original reads and keeps to itself.
//!
//! This file is mounted inside the original's `parser` module, so that it can use the private
//! parts of it without a change there. It finds
//!
//! * the places that the original does not keep: the machine's name, and every comment;
//! * each rule as written, so that sizes can be found without expanding it.
//!
//! To find where a comment ends up, the original's own assembler runs a second time over the
//! same lines, in which each comment's text is replaced by its place in decimal. The assembler
//! moves comments about and never looks at them. In the same run the rules are thinned to their
//! read sets, so that it is cheap even where the original itself would run out of memory.
//!
//! All of it is checked at run time: what stands at a place, escapes undone, is the `String`
//! that the original holds, and both runs give the same diagnostics and the same rules.

use super::{Assembler, Item, Line, Parser, RawSymbol, RawTransition};
use crate::diag::{Diagnostic, Span};
use crate::dsl::lexer::{self, Token, TokenKind};
use crate::dsl::{self, Parsed};
use crate::place::{between_quotes, text_at, unescape};
use crate::spec::{MachineSpec, SourceMap};

/// The most memory, in bytes and roughly, that an expansion by the original may take.
const EXPANSION_LIMIT: u128 = 1 << 29;

/// What the original makes of a text.
pub enum Trace {
    Diagnostics(Vec<Diagnostic>),
    Machine(Box<MachineTrace>),
}

/// A machine with everything the answer needs.
pub struct MachineTrace {
    /// The machine and its map as `dsl::parse` gives them, unless they are too large to expand.
    pub expanded: Option<(MachineSpec, SourceMap)>,
    /// The machine without its rules: what was declared, and nothing inferred from rules.
    pub outline: MachineSpec,
    /// The map of the declarations.
    pub map: SourceMap,
    /// The name between its quotes.
    pub name: Option<Span>,
    /// The input between its quotes.
    pub input: Option<Span>,
    pub header: Vec<Span>,
    pub trailing: Vec<Span>,
    /// The rule lines, none of which was dropped.
    pub rules: Vec<RuleLine>,
}

/// A rule as written.
pub struct RuleLine {
    pub from: Span,
    pub to: Span,
    /// The rule without its comment.
    pub line: Span,
    pub comment: Option<Span>,
    pub leading: Vec<Span>,
    /// For each tape the set of symbols read.
    pub read: Vec<Vec<char>>,
    /// For each tape the symbol written, `None` for the symbol read.
    pub write: Vec<Option<char>>,
    /// How many rules it expands to.
    pub count: u64,
}

/// Reads `source` with the original and finds the places.
pub fn trace(source: &str) -> Trace {
    let tokens = lexer::tokenize(source);
    let (lines, comments, syntax_errors) = lines_with_comments(source, &tokens);
    let expansion = expansion_bytes(&lines);
    let outline = assemble_outline(&lines, &comments, syntax_errors);
    let original = (expansion <= EXPANSION_LIMIT).then(|| dsl::parse(source));
    if let Some(parsed) = &original {
        check(
            source,
            parsed.diagnostics == outline.diagnostics,
            "the diagnostics of both runs",
        );
    }
    let Some(outline_spec) = outline.spec else {
        return Trace::Diagnostics(outline.diagnostics);
    };
    let machine = machine_trace(&lines, outline_spec, outline.map, original);
    check_machine(source, &machine);
    Trace::Machine(Box::new(machine))
}

/// The original's lines in readable form.
pub fn describe_lines(source: &str) -> Vec<String> {
    let tokens = lexer::tokenize(source);
    let (lines, comments, _) = lines_with_comments(source, &tokens);
    let described = lines.iter().zip(comments).map(|(line, comment)| {
        let place = comment.map_or(String::new(), |p| format!(", comment at {}", as_text(p)));
        format!("{line:?}{place}")
    });
    described.collect()
}

/// Panics with the text unless `holds`.
fn check(source: &str, holds: bool, what: &str) {
    assert!(holds, "instrumentation: {what}, in the text {source:?}");
}

/// The original's lines, the place of each one's comment, and the syntax errors.
fn lines_with_comments(
    source: &str,
    tokens: &[Token<'_>],
) -> (Vec<Line>, Vec<Option<Span>>, Vec<Diagnostic>) {
    let mut parser = Parser {
        tokens,
        pos: 0,
        diagnostics: Vec::new(),
    };
    let mut lines = Vec::new();
    let mut comments = Vec::new();
    while parser.pos < tokens.len() {
        lines.push(parser.line());
        // `pos` stands behind the line's newline; a comment is the token before that newline.
        let place = parser
            .pos
            .checked_sub(2)
            .and_then(|i| comment_place(&tokens[i]));
        comments.push(checked_comment(source, &lines[lines.len() - 1], place));
    }
    (lines, comments, parser.diagnostics)
}

/// Where a comment token's text stands: without the slashes and one space.
fn comment_place(token: &Token<'_>) -> Option<Span> {
    let TokenKind::Comment(raw) = token.kind else {
        return None;
    };
    let skipped = if raw.starts_with(' ') { 3 } else { 2 };
    Some(Span::new(token.span.start + skipped, token.span.end))
}

/// The place, if the line has a comment, checked against the text that the line holds.
fn checked_comment(source: &str, line: &Line, place: Option<Span>) -> Option<Span> {
    let text = match line {
        Line::Comment(text) => Some(text),
        Line::Item { comment, .. } => comment.as_ref(),
        Line::Blank | Line::Error => None,
    }?;
    check(
        source,
        place.is_some() && text_at(source.as_bytes(), place) == text,
        "a comment's place",
    );
    place
}

/// Roughly the memory that the original needs for its rules.
fn expansion_bytes(lines: &[Line]) -> u128 {
    let mut bytes = 0_u128;
    for line in lines {
        let Line::Item {
            item: Item::Transition(raw),
            ..
        } = line
        else {
            continue;
        };
        let count = raw
            .read
            .iter()
            .try_fold(1_u128, |n, set| n.checked_mul(set.len() as u128))
            .filter(|&n| n <= super::MAX_TRANSITIONS as u128);
        let each = 300 + raw.from.value.len() + raw.to.value.len() + 32 * raw.read.len();
        bytes += count.unwrap_or(0) * each as u128;
    }
    bytes
}

/// Runs the original's assembler over lines that hold places for comments and thin rules.
fn assemble_outline(
    lines: &[Line],
    comments: &[Option<Span>],
    syntax_errors: Vec<Diagnostic>,
) -> Parsed {
    let lines: Vec<Line> = lines
        .iter()
        .zip(comments)
        .map(|(line, &place)| match line {
            Line::Comment(_) => Line::Comment(place.map(as_text).unwrap_or_default()),
            Line::Item {
                item,
                span,
                value_span,
                comment: _,
            } => Line::Item {
                item: thin(item),
                span: *span,
                value_span: *value_span,
                comment: place.map(as_text),
            },
            other => other.clone(),
        })
        .collect();
    Assembler::new(syntax_errors).assemble(&lines)
}

/// A rule with its names and its single read symbols taken out; it expands to as many rules.
/// A rule whose counts differ is left alone, since the original reports it with its counts.
fn thin(item: &Item) -> Item {
    let Item::Transition(raw) = item else {
        return item.clone();
    };
    let arity = raw.read.len();
    if raw.write.len() != arity || raw.dir.len() != arity {
        return item.clone();
    }
    let mut kept: Vec<usize> = (0..arity).filter(|&k| raw.read[k].len() > 1).collect();
    if kept.is_empty() {
        kept.push(0);
    }
    let mut thin = RawTransition {
        from: raw.from.clone(),
        read: kept.iter().map(|&k| raw.read[k].clone()).collect(),
        to: raw.to.clone(),
        write: kept.iter().map(|&k| raw.write[k].clone()).collect(),
        dir: kept.iter().map(|&k| raw.dir[k].clone()).collect(),
    };
    thin.from.value.clear();
    thin.to.value.clear();
    Item::Transition(thin)
}

/// A place as the text of a comment.
fn as_text(place: Span) -> String {
    format!("{}-{}", place.start, place.end)
}

/// The place that stands as the text of a comment.
fn from_text(text: &str) -> Span {
    let (start, end) = text.split_once('-').expect("a place as text");
    Span::new(
        start.parse().expect("a place's start"),
        end.parse().expect("a place's end"),
    )
}

fn places(texts: &[String]) -> Vec<Span> {
    texts.iter().map(|text| from_text(text)).collect()
}

fn machine_trace(
    lines: &[Line],
    outline: MachineSpec,
    map: SourceMap,
    original: Option<Parsed>,
) -> MachineTrace {
    MachineTrace {
        name: name_place(lines),
        input: map.input.map(between_quotes),
        header: places(&outline.comments.header),
        trailing: places(&outline.comments.trailing),
        rules: rule_lines(lines, &outline),
        expanded: original.and_then(|parsed| Some((parsed.spec?, parsed.map))),
        outline,
        map,
    }
}

/// The name between the quotes of the only `machine` line.
fn name_place(lines: &[Line]) -> Option<Span> {
    lines.iter().find_map(|line| match line {
        Line::Item {
            item: Item::Machine(_),
            value_span,
            ..
        } => Some(between_quotes(*value_span)),
        _ => None,
    })
}

fn rule_lines(lines: &[Line], outline: &MachineSpec) -> Vec<RuleLine> {
    let mut expanded = outline.transitions.iter().peekable();
    let mut rules = Vec::new();
    for line in lines {
        let Line::Item {
            item: Item::Transition(raw),
            span,
            ..
        } = line
        else {
            continue;
        };
        let first = expanded.next().expect("a rule of the line");
        let mut count = 1;
        while expanded.next_if(|t| t.span == Some(*span)).is_some() {
            count += 1;
        }
        let resolve = |symbol: RawSymbol| symbol.resolve(outline.blank);
        rules.push(RuleLine {
            from: raw.from.span,
            to: raw.to.span,
            line: *span,
            comment: first.comment.as_deref().map(from_text),
            leading: places(&first.leading),
            read: raw
                .read
                .iter()
                .map(|set| set.iter().map(|s| resolve(s.value)).collect())
                .collect(),
            write: raw.write.iter().map(|w| w.value.map(resolve)).collect(),
            count,
        });
    }
    rules
}

/// Checks the traced places against what the original holds.
fn check_machine(source: &str, machine: &MachineTrace) {
    let text = source.as_bytes();
    let outline = &machine.outline;
    let literal = |place| unescape(text_at(text, place));
    check(source, literal(machine.name) == outline.name, "the name");
    check(source, literal(machine.input) == outline.input, "the input");
    let Some((spec, _)) = &machine.expanded else {
        return;
    };
    let same = |texts: &[String], places: &[Span]| {
        texts.len() == places.len()
            && texts
                .iter()
                .zip(places)
                .all(|(string, &place)| text_at(text, Some(place)) == string)
    };
    let comments = &spec.comments;
    check(source, same(&comments.header, &machine.header), "header");
    check(
        source,
        same(&comments.trailing, &machine.trailing),
        "trailing",
    );
    let mut expanded = spec.transitions.iter();
    for rule in &machine.rules {
        let first = expanded.next().expect("the original has the rule");
        let comment = rule.comment.map(|place| text_at(text, Some(place)));
        check(
            source,
            first.comment.as_deref() == comment,
            "a rule's comment",
        );
        check(source, same(&first.leading, &rule.leading), "leading");
        check(source, first.span == Some(rule.line), "a rule's place");
        for further in expanded.by_ref().take(rule.count as usize - 1) {
            let bare = further.comment.is_none() && further.leading.is_empty();
            check(source, bare, "comments go to the first rule of a line");
            check(source, further.span == Some(rule.line), "a rule's place");
        }
    }
    check(source, expanded.next().is_none(), "the number of rules");
}
