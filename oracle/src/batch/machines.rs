//! Descriptions of small machines, made up.

use crate::families::Random;

/// Names of one machine's states. In some lists they are alike.
const NAMES: [[&str; 6]; 7] = [
    ["a", "b", "c", "d", "e", "f"],
    ["A", "B", "C", "D", "E", "H"],
    ["q0", "q1", "q2", "q3", "q10", "q11"],
    ["q", "qq", "qqq", "qqqq", "qqqqq", "qqqqqq"],
    ["a'", "a''", "a'b", "_a", "__a", "a_"],
    ["δ", "Σ", "start", "F", "L", "N"],
    ["carry1", "carry2", "carry3", "carry4", "carrY1", "cary1"],
];

/// Symbols, of one to three bytes in UTF-8.
const GLYPHS: [char; 14] = [
    '0', '1', '2', 'x', 'a', '→', 'δ', 'ÿ', '_', '␣', '"', '\\', '\'', '\u{85}',
];

/// A machine's alphabet, its blank first.
pub struct Glyphs {
    pub declared: bool,
    pub all: Vec<char>,
}

impl Glyphs {
    /// A blank and so many symbols more.
    pub fn new(random: &mut Random, more: usize) -> Self {
        let declared = random.chance(40);
        let blank = if declared {
            one_of(random, &GLYPHS)
        } else {
            '␣'
        };
        let mut all = vec![blank];
        while all.len() <= more {
            let glyph = one_of(random, &GLYPHS);
            if !all.contains(&glyph) {
                all.push(glyph);
            }
        }
        Self { declared, all }
    }

    /// One of the symbols, as it is written in a rule.
    pub fn symbol(&self, random: &mut Random) -> String {
        let glyph = one_of(random, &self.all);
        self.written(random, glyph)
    }

    /// A symbol as it is written in a rule: the blank mostly bare, and some others too.
    pub fn written(&self, random: &mut Random, glyph: char) -> String {
        match glyph {
            _ if glyph == self.all[0] && random.chance(70) => random.pick(&["_", "␣"]).into(),
            _ if glyph.is_ascii_alphanumeric() && random.chance(60) => glyph.into(),
            _ => format!("'{glyph}'"),
        }
    }

    /// A set of all symbols.
    pub fn any(&self, random: &mut Random) -> String {
        let written = self.all.iter().map(|&glyph| self.written(random, glyph));
        format!("{{{}}}", written.collect::<Vec<_>>().join(","))
    }

    /// The line that declares the blank, if it is declared.
    pub fn line(&self) -> Option<String> {
        self.declared.then(|| format!("blank = '{}'", self.all[0]))
    }
}

fn one_of(random: &mut Random, glyphs: &[char]) -> char {
    glyphs[random.below(glyphs.len())]
}

/// The names of one machine's states.
pub fn names(random: &mut Random) -> &'static [&'static str; 6] {
    &NAMES[random.below(NAMES.len())]
}

/// One to three tapes, mostly one.
pub fn tapes(random: &mut Random) -> usize {
    *random.pick(&[&1, &1, &1, &1, &2, &2, &3])
}

/// A declaration of the number of tapes; of one tape seldom.
pub fn tapes_line(random: &mut Random, tapes: usize) -> Option<String> {
    (tapes != 1 || random.chance(20)).then(|| format!("tapes = {tapes}"))
}

/// A declaration of an input of so many characters, escapes undone.
pub fn input_line(random: &mut Random, glyphs: &[char], length: usize) -> String {
    let mut literal = String::new();
    let mut left = length;
    while left > 0 {
        left -= 1;
        match random.below(12) {
            0 => literal.push_str(random.pick(&["\\\"", "\\\\", "\\n", "\\t"])),
            1 if left > 0 => {
                literal.push_str(random.pick(&["\\q", "\\'", "\\_"]));
                left -= 1;
            }
            2 => literal.push_str(random.pick(&["ä", "ö", "→", "_", "␣", "\t"])),
            _ => match one_of(random, glyphs) {
                '"' => literal.push_str("\\\""),
                '\\' => literal.push_str("\\\\"),
                glyph => literal.push(glyph),
            },
        }
    }
    format!("input \"{literal}\"")
}

/// Entries of a tuple, in parentheses unless there is one.
pub fn tuple(random: &mut Random, entries: &[String]) -> String {
    match entries {
        [entry] if random.chance(70) => entry.clone(),
        _ => format!("({})", entries.join(", ")),
    }
}

/// A move of each head.
pub fn moves(random: &mut Random, tapes: usize) -> Vec<String> {
    let one = |_| random.pick(&["L", "R", "L", "R", "N", "'L'", "R"]).into();
    (0..tapes).map(one).collect()
}

/// A rule as it is written.
pub fn rule(
    random: &mut Random,
    [from, to]: [&str; 2],
    reads: &[String],
    writes: &[String],
    moves: &[String],
) -> String {
    let [reads, writes, moves] = [reads, writes, moves].map(|entries| tuple(random, entries));
    format!("δ({from}, {reads}) = ({to}, {writes}, {moves})")
}

/// What is written on each tape: a symbol, or the one that was read.
pub fn writes(random: &mut Random, glyphs: &Glyphs, tapes: usize) -> Vec<String> {
    let one = |_| match random.chance(20) {
        true => "*".into(),
        false => glyphs.symbol(random),
    };
    (0..tapes).map(one).collect()
}

/// Puts comments, blank lines and comments behind rules among some lines, and joins them.
pub fn with_comments(random: &mut Random, lines: &[String]) -> String {
    let mut text = String::new();
    for line in lines {
        while random.chance(12) {
            text.push_str(random.pick(&["// one\n", "// δ(a,_)=(b,1,R)\n", "//\n", "\n"]));
        }
        text.push_str(line);
        if random.chance(10) {
            text.push_str(random.pick(&[" // own", " //"]));
        }
        text.push('\n');
    }
    text
}

/// Exchanges lines at random.
pub fn shuffle(random: &mut Random, lines: &mut [String]) {
    for i in 1..lines.len() {
        lines.swap(i, random.below(i + 1));
    }
}

/// A machine with any rules, for tapes with so many cells on each side.
pub fn any_machine(random: &mut Random, half: usize) -> Vec<u8> {
    let tapes = tapes(random);
    let more = 1 + random.below(4 - tapes);
    let glyphs = Glyphs::new(random, more);
    let names = names(random);
    let states = &names[..1 + random.below(5)];
    let mut rules = any_rules(random, states, &glyphs, tapes);
    if random.chance(30) {
        shuffle(random, &mut rules);
    }
    let mut lines = declarations(random, names, states, &glyphs, tapes);
    if random.chance(60) {
        let length = match random.below(8) {
            0 => half + 1,
            1 => half,
            _ => random.below(half + 1),
        };
        lines.push(input_line(random, &glyphs.all, length));
    }
    if random.chance(20) {
        rules.append(&mut lines);
        return with_comments(random, &rules).into();
    }
    shuffle(random, &mut lines);
    lines.append(&mut rules);
    with_comments(random, &lines).into()
}

/// Rules for most states and symbols, some of them for several symbols, some with another for the same ones.
fn any_rules(random: &mut Random, states: &[&str], glyphs: &Glyphs, tapes: usize) -> Vec<String> {
    let mut rules = Vec::new();
    let rows = glyphs.all.len().pow(tapes as u32);
    for (from, row) in states
        .iter()
        .flat_map(|from| (0..rows).map(move |row| (from, row)))
    {
        if random.chance(15) {
            continue;
        }
        let reads: Vec<String> = (0..tapes as u32)
            .map(|k| glyphs.all[row / glyphs.all.len().pow(k) % glyphs.all.len()])
            .map(|glyph| match random.chance(6) {
                true => glyphs.any(random),
                false => glyphs.written(random, glyph),
            })
            .collect();
        for _ in 0..1 + usize::from(random.chance(6)) {
            let to = match random.below(7) {
                0 => "H",
                _ => states[random.below(states.len())],
            };
            let writes = writes(random, glyphs, tapes);
            let moves = moves(random, tapes);
            rules.push(rule(random, [from, to], &reads, &writes, &moves));
        }
    }
    rules
}

/// Declarations: the tapes and the blank where needed, the others as it falls.
fn declarations(
    random: &mut Random,
    names: &[&str],
    states: &[&str],
    glyphs: &Glyphs,
    tapes: usize,
) -> Vec<String> {
    let mut lines = Vec::new();
    lines.extend(tapes_line(random, tapes));
    lines.extend(glyphs.line());
    let declares_states = random.chance(35);
    if declares_states {
        lines.push(format!("Q = {{{}, H}}", states.join(", ")));
    }
    match random.below(10) {
        0..7 => lines.push("F = {H}".into()),
        7 => lines.push(format!("F = {{{}, H}}", states[states.len() - 1])),
        8 if !declares_states => lines.push(format!("F = {{{}}}", names[5])),
        _ => {}
    }
    if random.chance(25) {
        lines.push(format!("start = {}", states[random.below(states.len())]));
    }
    if random.chance(20) {
        lines.push(
            random
                .pick(&["kind beaver", "kind acceptor", "kind enumerator"])
                .into(),
        );
    }
    if random.chance(10) {
        lines.push("machine \"M\"".into());
    }
    lines
}
