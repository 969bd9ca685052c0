//! Texts by the grammar. Most of them read without a diagnostic.

use super::Random;

const NAMES: [&str; 28] = [
    "a", "b", "q0", "q1", "q_0", "q'", "a'b'", "a''", "_x", "__", "_'", "L", "R", "N", "Q", "F",
    "δ", "Σ", "blank", "machine", "delta", "word", "ΩΩ", "ς", "ÿ", "ˁ", "ҁ1", "_9",
];

const BARE_SYMBOLS: [&str; 30] = [
    "a", "b", "x", "0", "1", "9", "_", "␣", "#", "+", "-", ".", ":", "<", "[", "]", "!", "?", "\\",
    "/", "→", "∞", "δ", "ÿ", "L", "R", "$", "¬", "@", "^",
];

const QUOTED_SYMBOLS: [&str; 22] = [
    "'*'", "'_'", "'␣'", "'''", "'\"'", "' '", "'\t'", "'\r'", "','", "'('", "')'", "'{'", "'}'",
    "'='", "';'", "'/'", "'\\'", "'a'", "'0'", "'\u{85}'", "'\u{A0}'", "'\u{0}'",
];

/// A text of some declarations, rules, comments and blank lines.
pub fn text(random: &mut Random) -> String {
    let mut lines = vec![];
    let mut declarations: Vec<usize> = (0..11).filter(|_| random.chance(40)).collect();
    if random.chance(5) {
        declarations.push(random.below(11));
    }
    // Q and F share their names, since a final state outside a declared Q is E003.
    let names: Vec<String> = (0..1 + random.below(4)).map(|_| any_name(random)).collect();
    for which in declarations {
        lines.push(declaration(random, which, &names));
    }
    for _ in 0..random.below(6) {
        lines.push(rule(random, &names));
    }
    shuffle_some(random, &mut lines);
    with_comments(random, lines)
}

/// Leaves the lines as they are, or swaps some of them.
fn shuffle_some(random: &mut Random, lines: &mut [String]) {
    if lines.len() > 1 && random.chance(60) {
        for i in 0..lines.len() {
            let j = random.below(lines.len());
            lines.swap(i, j);
        }
    }
}

/// Puts comments and blank lines around the lines and joins them.
fn with_comments(random: &mut Random, lines: Vec<String>) -> String {
    let mut out = String::new();
    for line in lines {
        filling(random, &mut out);
        if random.chance(15) {
            out.push_str(gap(random));
        }
        out.push_str(&line);
        if random.chance(30) {
            out.push_str(gap(random));
            out.push_str(&comment(random));
        } else if random.chance(15) {
            out.push_str(gap(random));
        }
        out.push_str(line_end(random));
    }
    filling(random, &mut out);
    if random.chance(30) {
        // The last line without a line feed.
        out.truncate(out.trim_end_matches(['\n', '\r']).len());
    }
    out
}

/// Some comment lines and blank lines.
fn filling(random: &mut Random, out: &mut String) {
    while random.chance(35) {
        if random.chance(65) {
            if random.chance(15) {
                out.push_str(gap(random));
            }
            out.push_str(&comment(random));
        } else if random.chance(30) {
            out.push_str(gap(random));
        }
        out.push_str(line_end(random));
    }
}

fn line_end(random: &mut Random) -> &'static str {
    if random.chance(10) { "\r\n" } else { "\n" }
}

/// White space between tokens, often none.
fn gap(random: &mut Random) -> &'static str {
    if random.chance(40) {
        return "";
    }
    random.pick(&[
        " ", " ", " ", " ", "  ", "\t", "\r", "\u{85}", "\u{A0}", "\u{B}", "\u{C}",
    ])
}

/// White space between words, rarely none.
fn space(random: &mut Random) -> &'static str {
    match gap(random) {
        "" if random.chance(98) => " ",
        other => other,
    }
}

fn comment(random: &mut Random) -> String {
    let mut out = String::from("//");
    out.push_str(random.pick(&["", " ", " ", "  ", "\t", "/"]));
    match random.below(5) {
        0 => {}
        1 => out.push_str(random.pick(&["c", "two words", "\"", "'", "// more", "δ(a,a)=(a,a,R)"])),
        _ => {
            for _ in 0..random.below(8) {
                out.push(not_line_feed(random));
            }
        }
    }
    out.push_str(random.pick(&["", "", "", " ", "\t ", "\u{A0}", "\r"]));
    out
}

fn not_line_feed(random: &mut Random) -> char {
    match random.character() {
        '\n' => ' ',
        other => other,
    }
}

fn string(random: &mut Random) -> String {
    let mut out = String::from('"');
    for _ in 0..random.below(6) {
        match random.below(6) {
            0 => {
                out.push_str(random.pick(&["\\\"", "\\\\", "\\n", "\\t", "\\x", "\\'", "//", "\t"]))
            }
            1 => out.push_str(random.pick(&["_", "␣", "'", "a", "*", ";"])),
            _ => match not_line_feed(random) {
                '"' => out.push_str("\\\""),
                '\\' => out.push_str("\\\\"),
                other => out.push(other),
            },
        }
    }
    out.push('"');
    out
}

fn symbol(random: &mut Random) -> String {
    match random.below(10) {
        0..5 => random.pick(&BARE_SYMBOLS).into(),
        5..8 => random.pick(&QUOTED_SYMBOLS).into(),
        8 => format!("'{}'", not_line_feed(random)),
        _ => random.pick(&["_", "␣", "'_'", "'␣'"]).into(),
    }
}

/// Entries between brackets, parted by commas.
fn list(random: &mut Random, open: &str, entries: &[String], close: &str) -> String {
    let mut out = String::from(open);
    for (i, entry) in entries.iter().enumerate() {
        if i > 0 {
            out.push_str(gap(random));
            out.push(',');
        }
        out.push_str(gap(random));
        out.push_str(entry);
    }
    out.push_str(gap(random));
    out.push_str(close);
    out
}

fn symbol_set(random: &mut Random) -> String {
    let entries: Vec<String> = (0..random.below(5)).map(|_| symbol(random)).collect();
    list(random, "{", &entries, "}")
}

/// One of the names of the text, rarely another.
fn name(random: &mut Random, names: &[String]) -> String {
    if random.chance(85) {
        return names[random.below(names.len())].clone();
    }
    any_name(random)
}

/// A name from the list, or one of letters from anywhere in the set.
fn any_name(random: &mut Random) -> String {
    if random.chance(80) {
        return random.pick(&NAMES).into();
    }
    let mut name = String::from(random.pick(&["q", "_", "Ж", "ª"]));
    for _ in 0..1 + random.below(6) {
        name.push(match random.character() {
            c if c.is_alphabetic() => c,
            c if c < ' ' => '\'',
            c => char::from(b'0' + (u32::from(c) % 10) as u8),
        });
    }
    name
}

fn state_set(random: &mut Random, names: &[String]) -> String {
    let mut entries = names.to_vec();
    if random.chance(70) {
        entries.sort();
        entries.dedup();
    }
    entries.truncate(random.below(entries.len() + 1));
    if random.chance(3) {
        entries.push(any_name(random));
    }
    shuffle_some(random, &mut entries);
    list(random, "{", &entries, "}")
}

fn declaration(random: &mut Random, which: usize, names: &[String]) -> String {
    let (word, value) = match which {
        0 => ("machine", string(random)),
        1 => (
            "kind",
            random
                .pick(&["acceptor", "transducer", "enumerator", "beaver"])
                .into(),
        ),
        2 => ("input", string(random)),
        3 => ("output", output(random)),
        4 => (
            "tapes",
            random
                .pick(&["1", "2", "3", "0", "255", "007", "256"])
                .into(),
        ),
        5 => ("Q", list(random, "{", names, "}")),
        6 => (random.pick(&["Σ", "Sigma"]), symbol_set(random)),
        7 => (random.pick(&["Γ", "Gamma"]), symbol_set(random)),
        8 => ("blank", symbol(random)),
        9 => ("start", name(random, names)),
        _ => ("F", state_set(random, names)),
    };
    if which < 4 {
        return format!("{word}{}{value}", space(random));
    }
    format!("{word}{}={}{value}", gap(random), gap(random))
}

fn output(random: &mut Random) -> String {
    match random.below(4) {
        0 => "word".into(),
        // A quote right behind the word makes one word of both.
        1 => format!("unary{}{}", space(random), symbol(random)),
        2 => format!("binary{}lsb", space(random)),
        _ => format!("binary{}msb", space(random)),
    }
}

fn rule(random: &mut Random, names: &[String]) -> String {
    let arity = *random.pick(&[&1, &1, &1, &1, &2, &2, &3, &5]);
    let reads: Vec<String> = (0..arity).map(|_| read_entry(random)).collect();
    let writes: Vec<String> = (0..arity).map(|_| write_entry(random)).collect();
    let mut moves: Vec<String> = (0..arity).map(|_| direction(random)).collect();
    if random.chance(2) {
        moves.push("R".into());
    }
    let left = [name(random, names), tuple(random, &reads)];
    let right = [
        name(random, names),
        tuple(random, &writes),
        tuple(random, &moves),
    ];
    let word = random.pick(&["δ", "δ", "delta"]);
    format!(
        "{word}{}{}{}={}{}",
        gap(random),
        list(random, "(", &left, ")"),
        gap(random),
        gap(random),
        list(random, "(", &right, ")")
    )
}

fn tuple(random: &mut Random, entries: &[String]) -> String {
    if entries.len() == 1 && random.chance(70) {
        return entries[0].clone();
    }
    list(random, "(", entries, ")")
}

fn read_entry(random: &mut Random) -> String {
    if random.chance(75) {
        return symbol(random);
    }
    let entries: Vec<String> = (0..1 + random.below(4)).map(|_| symbol(random)).collect();
    list(random, "{", &entries, "}")
}

fn write_entry(random: &mut Random) -> String {
    if random.chance(25) {
        return "*".into();
    }
    symbol(random)
}

fn direction(random: &mut Random) -> String {
    random
        .pick(&["L", "R", "N", "L", "R", "N", "'L'", "'R'", "'N'"])
        .into()
}
