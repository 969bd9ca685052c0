//! Families of batches. Each batch is a function of its family, an index and a seed.

use super::machines::{
    self, Glyphs, any_machine, input_line, moves, rule, shuffle, tapes_line, with_comments,
};
use super::samples;
use crate::families::{Family as Texts, Random};
use crate::outcome::MAX_TEXT;

/// A batch before buffers are lent: texts, the number of cells, and how many steps are tried at most.
#[derive(Clone, Debug, Default)]
pub struct Batch {
    pub texts: Vec<Vec<u8>>,
    pub cells: usize,
    pub most: u64,
}

/// Steps that a batch takes at most, unless all its machines stop.
const STEPS: u64 = 600;

/// A family of batches.
#[derive(Copy, Clone, Debug, PartialEq, Eq)]
pub enum Family {
    /// The samples of crates/running, each exactly once.
    Decided,
    /// Busy beavers, the examples, and machines of a line.
    Beavers,
    /// Machines with any rules.
    Machines,
    /// Machines that go a few cells further than their tapes, on either side of each tape.
    Edges,
    /// Inputs with escapes, about as long as the right half.
    Inputs,
    /// States that are named alike, repeated, missing, or start in an odd place.
    Names,
    /// Rules far apart that match alike, behind comments and rules of other states.
    Rules,
    /// Entries that are refused, in any order, among some that run.
    Refusals,
    /// Texts of the reader's families.
    Texts,
    /// No entries, entries of no bytes, few bytes.
    Lengths,
    /// Machines that leave marks far out, before others that look there.
    Traces,
    /// Up to 200 small machines.
    Many,
    /// Texts that are too long, thousands of rules, runs of many steps.
    Large,
}

impl Family {
    pub const ALL: [Self; 13] = [
        Self::Decided,
        Self::Beavers,
        Self::Machines,
        Self::Edges,
        Self::Inputs,
        Self::Names,
        Self::Rules,
        Self::Refusals,
        Self::Texts,
        Self::Lengths,
        Self::Traces,
        Self::Many,
        Self::Large,
    ];

    /// The name on the command line.
    pub fn name(self) -> &'static str {
        match self {
            Self::Decided => "decided",
            Self::Beavers => "beavers",
            Self::Machines => "machines",
            Self::Edges => "edges",
            Self::Inputs => "inputs",
            Self::Names => "names",
            Self::Rules => "rules",
            Self::Refusals => "refusals",
            Self::Texts => "texts",
            Self::Lengths => "lengths",
            Self::Traces => "traces",
            Self::Many => "many",
            Self::Large => "large",
        }
    }

    /// The family of that name.
    pub fn named(name: &str) -> Option<Self> {
        Self::ALL.into_iter().find(|family| family.name() == name)
    }

    /// The part of a run over all families, in thousandths.
    fn share(self) -> u64 {
        match self {
            Self::Decided => 1000,
            Self::Machines => 300,
            Self::Texts => 120,
            Self::Refusals | Self::Edges => 100,
            Self::Inputs | Self::Names | Self::Traces => 90,
            Self::Beavers => 60,
            Self::Lengths => 40,
            Self::Rules => 30,
            Self::Many => 2,
            Self::Large => 1,
        }
    }

    /// How many of `count` batches there are: the samples are a fixed list.
    fn at_most(self, count: u64) -> u64 {
        match self {
            Self::Decided => count.min(samples::SAMPLES.len() as u64),
            _ => count,
        }
    }

    /// The batch with number `index`.
    pub fn batch(self, index: u64, seed: u64) -> Batch {
        let random = &mut Random::new([seed, 100 + self as u64, index]);
        match self {
            Self::Decided => samples::batch(index),
            Self::Beavers => beavers(random),
            Self::Machines => any_machines(random),
            Self::Edges => edges(random),
            Self::Inputs => inputs(random),
            Self::Names => named(random),
            Self::Rules => far_rules(random),
            Self::Refusals => refusals(random),
            Self::Texts => texts(random),
            Self::Lengths => short_texts(random),
            Self::Traces => traces(random),
            Self::Many => many(random),
            Self::Large => large(random),
        }
    }
}

/// The batches of a run: a number of them, from one family or from all.
#[derive(Copy, Clone, Debug)]
pub struct Selection {
    pub count: u64,
    pub seed: u64,
    pub only: Option<Family>,
}

impl Selection {
    /// Each family with its number of batches.
    pub fn families(self) -> impl Iterator<Item = (Family, u64)> {
        Family::ALL.into_iter().filter_map(move |family| {
            let count = match self.only {
                None => self.count * family.share() / 1000,
                Some(only) if only == family => self.count,
                Some(_) => return None,
            };
            Some((family, family.at_most(count)))
        })
    }
}

/// Busy beavers of two to four states, and machines of a line, by their ways to stop.
const BEAVERS: [&str; 10] = [
    samples::BB2,
    samples::BB3,
    samples::BB3_ERASING,
    samples::BB4,
    "Q={a}\nF={a}",
    "Q={a}",
    "",
    "δ(a,_)=(a,_,N)",
    "δ(a,_)=(a,1,R)",
    "δ(a,_)=(a,1,L)",
];

const EXAMPLES: [&str; 6] = [
    include_str!("../../../examples/beaver-2.tm"),
    include_str!("../../../examples/beaver-3.tm"),
    include_str!("../../../examples/beaver-4.tm"),
    include_str!("../../../examples/copy-two-tapes.tm"),
    include_str!("../../../examples/palindromes.tm"),
    include_str!("../../../examples/unary-addition.tm"),
];

/// So many cells on each side of so many tapes, and some more that are left over.
fn cells(random: &mut Random, half: usize, tapes: usize) -> usize {
    2 * half * tapes + random.below(2 * tapes)
}

fn batch(texts: Vec<Vec<u8>>, cells: usize) -> Batch {
    let most = STEPS;
    Batch { texts, cells, most }
}

fn beavers(random: &mut Random) -> Batch {
    let texts = (0..1 + random.below(5)).map(|_| beaver(random)).collect();
    let half = 1 + random.below(30);
    batch(texts, cells(random, half, 1))
}

fn beaver(random: &mut Random) -> Vec<u8> {
    let from: &[&str] = if random.chance(30) {
        &EXAMPLES
    } else {
        &BEAVERS
    };
    random.pick(from).as_bytes().to_vec()
}

fn any_machines(random: &mut Random) -> Batch {
    let half = 1 + random.below(10);
    let texts = (0..1 + random.below(3))
        .map(|_| any_machine(random, half))
        .collect();
    let tapes = 1 + random.below(3);
    batch(texts, cells(random, half, tapes))
}

/// A machine that does one step after another, whatever it reads, and then goes on for ever, halts or is stuck.
fn walker(random: &mut Random, tapes: usize, steps: &[Vec<String>], last: &str) -> Vec<String> {
    let glyphs = Glyphs::new(random, 1);
    let mut lines = Vec::new();
    lines.extend(tapes_line(random, tapes));
    lines.extend(glyphs.line());
    if last == "H" {
        lines.push("F = {H}".into());
    }
    for (i, moves) in steps.iter().enumerate() {
        let reads: Vec<String> = (0..tapes).map(|_| glyphs.any(random)).collect();
        let writes = machines::writes(random, &glyphs, tapes);
        let to = match steps.len() - i {
            1 => last.into(),
            _ => format!("s{}", i + 1),
        };
        lines.push(rule(
            random,
            [&format!("s{i}"), &to],
            &reads,
            &writes,
            moves,
        ));
    }
    lines
}

/// Steps with a way to go on each tape, and some that go another way.
fn way(random: &mut Random, tapes: usize, length: usize) -> Vec<Vec<String>> {
    let main: Vec<String> = moves(random, tapes);
    let step = |_| match random.chance(85) {
        true => main.clone(),
        false => moves(random, tapes),
    };
    (0..length).map(step).collect()
}

fn edges(random: &mut Random) -> Batch {
    let tapes = 1 + random.below(3);
    let half = 1 + random.below(4);
    let texts = (0..1 + random.below(2))
        .map(|_| {
            let length = 1 + random.below(half + 4);
            let steps = way(random, tapes, length);
            let last = random.pick(&["s0", "H", "X", "s0"]);
            walker(random, tapes, &steps, last).join("\n").into()
        })
        .collect();
    batch(texts, cells(random, half, tapes))
}

fn inputs(random: &mut Random) -> Batch {
    let tapes = machines::tapes(random);
    let half = 1 + random.below(7);
    let texts = (0..1 + random.below(2))
        .map(|_| {
            let length = 1 + random.below(3);
            let steps = way(random, tapes, length);
            let last = random.pick(&["H", "X", "s0"]);
            let mut lines = walker(random, tapes, &steps, last);
            let length = half + random.below(4) - (half.min(2));
            lines.insert(
                random.below(lines.len()),
                input_line(random, &['0', '1'], length),
            );
            lines.join("\n").into()
        })
        .collect();
    batch(texts, cells(random, half, tapes))
}

/// States in a list with repeats, finals, a start, and rules, each of names that are alike.
fn named(random: &mut Random) -> Batch {
    let texts = (0..1 + random.below(2))
        .map(|_| named_machine(random))
        .collect();
    let half = 1 + random.below(6);
    batch(texts, cells(random, half, 1))
}

fn named_machine(random: &mut Random) -> Vec<u8> {
    let names = machines::names(random);
    let mut lines = Vec::new();
    let mut listed = Vec::new();
    if random.chance(75) {
        listed = (0..random.below(8))
            .map(|_| *random.pick(&[&names[0], &names[1], &names[2], &names[3]]))
            .collect();
        lines.push(format!("Q = {{{}}}", listed.join(",")));
    }
    if random.chance(75) {
        let from = if listed.is_empty() {
            &names[1..3]
        } else {
            &listed[..]
        };
        let mut finals = vec![from[random.below(from.len())]];
        if random.chance(30) {
            finals.push(from[random.below(from.len())]);
            finals.dedup();
        }
        lines.push(format!("F = {{{}}}", finals.join(",")));
    }
    if random.chance(40) {
        lines.push(format!("start = {}", random.pick(names)));
    }
    for _ in 0..random.below(7) {
        let (from, to) = (random.pick(&names[..4]), random.pick(names));
        let write = random.pick(&["1", "2", "_"]);
        lines.push(format!(
            "δ({from},{{_,1,2}})=({to},{write},{})",
            random.pick(&["L", "R", "N"])
        ));
    }
    if random.chance(50) {
        shuffle(random, &mut lines);
    }
    with_comments(random, &lines).into()
}

/// A machine whose rules stand behind up to 300 others, and behind comments, with others for the same symbols behind them.
fn far_rules(random: &mut Random) -> Batch {
    let tapes = machines::tapes(random);
    let half = 3 + random.below(6);
    let (length, last) = (2 + random.below(4), random.pick(&["s0", "H", "s1"]));
    let steps = way(random, tapes, length);
    let mut lines = walker(random, tapes, &steps, last);
    lines.push("start = s0".into());
    let text: Vec<String> = lines
        .iter()
        .flat_map(|line| {
            let mut some = fillers(random, tapes);
            some.push(line.clone());
            some
        })
        .collect();
    let mut text = text;
    for line in walker(random, tapes, &steps, "s0") {
        if line.starts_with('δ') {
            text.extend(fillers(random, tapes));
            text.push(line);
        }
    }
    batch(
        vec![with_comments(random, &text).into()],
        cells(random, half, tapes),
    )
}

/// Rules that never apply: of states that are not reached, or for symbols that are never written; and comments.
fn fillers(random: &mut Random, tapes: usize) -> Vec<String> {
    let count = match random.below(6) {
        0 => random.below(60),
        _ => random.below(4),
    };
    let mut lines = Vec::new();
    for i in 0..count {
        let (from, read) = match random.below(3) {
            0 => (format!("s{}", random.below(4)), "'#'"),
            1 => (format!("s{}'", random.below(4)), "_"),
            _ => (format!("t{}", i % 7), "1"),
        };
        let [reads, moves] = [read, "R"].map(|entry| vec![entry.to_string(); tapes]);
        lines.push(rule(random, [&from, "s1"], &reads, &reads, &moves));
        if random.chance(20) {
            lines.push(["// two", "// lines"].join("\n"));
        }
    }
    lines
}

/// Entries that are refused whatever is lent, or on few cells; the last ones for more than one reason.
const REFUSED: [&[u8]; 16] = [
    b"\xFF",
    b"Q={a}\xC3",
    "א".as_bytes(),
    "אa\n\u{FFFF}".as_bytes(),
    b"x",
    b"x\ny\nz",
    b"F={a,a}",
    b"tapes=0",
    b"tapes=4\nQ={a}",
    b"tapes=255",
    "δ(a,(0,1))=(a,(2,3),(R,R))".as_bytes(),
    "δ(a,_)=(b,1,R)\nδ(b,(_,_))=(a,(1,1),(R,R))".as_bytes(),
    "tapes=2\nδ(a,_)=(a,_,N)".as_bytes(),
    "tapes=3\ninput \"0123456789012345678901234567890123456789\"\nδ(a,_)=(a,_,N)".as_bytes(),
    "tapes=0\ninput \"0123456789012345678901234567890123456789\"\nδ(a,(_,_))=(a,(_,_),(N,N))"
        .as_bytes(),
    "input \"0123456789012345678901234567890123456789\"\ntapes = 4".as_bytes(),
];

fn refusals(random: &mut Random) -> Batch {
    let half = random.below(6);
    let texts = (0..1 + random.below(4))
        .map(|_| match random.below(5) {
            0 => random.pick(&REFUSED).to_vec(),
            1 => any_machine(random, half + 2),
            _ => beaver(random),
        })
        .collect();
    let tapes = 1 + random.below(3);
    batch(texts, cells(random, half, tapes))
}

/// Texts of the reader's families, but for the long ones.
fn texts(random: &mut Random) -> Batch {
    const FAMILIES: [Texts; 9] = [
        Texts::Grammar,
        Texts::Damaged,
        Texts::Soup,
        Texts::Short,
        Texts::Lines,
        Texts::Changed,
        Texts::Joined,
        Texts::Spliced,
        Texts::Odd,
    ];
    let texts = (0..1 + random.below(3))
        .map(|_| {
            // Texts of grammar read most often.
            let family = if random.chance(50) {
                Texts::Grammar
            } else {
                FAMILIES[random.below(FAMILIES.len())]
            };
            family.text(random.below(100_000) as u64, random.bits() >> 40)
        })
        .collect();
    let half = 1 + random.below(12);
    let tapes = 1 + random.below(3);
    batch(texts, cells(random, half, tapes))
}

fn short_texts(random: &mut Random) -> Batch {
    let texts = (0..random.below(6))
        .map(|_| {
            random
                .pick(&[&b""[..], b"", b"\n", b"Q={a}", b"F={a}", b"//", b"tapes=2"])
                .to_vec()
        })
        .collect();
    batch(texts, random.below(9))
}

/// Machines on blanks that are mostly equal, with inputs and ways that differ in length.
fn traces(random: &mut Random) -> Batch {
    let half = 4 + random.below(20);
    let blank = random.pick(&["", "", "blank = 0\n"]);
    let texts = (0..2 + random.below(4))
        .map(|_| {
            let tapes = *random.pick(&[&1, &1, &1, &2, &3]);
            let other = random.pick(&[blank, blank, blank, "blank = x\n"]);
            let length = 1 + random.below(4);
            let steps = way(random, tapes, length);
            let last = random.pick(&["s0", "s0", "H", "X"]);
            let mut lines = walker(random, tapes, &steps, last);
            lines.retain(|line| !line.starts_with("blank"));
            if random.chance(40) {
                let length = random.below(half + 1);
                lines.push(input_line(random, &['0', '1', 'x'], length));
            }
            format!("{other}{}", lines.join("\n")).into()
        })
        .collect();
    let tapes = *random.pick(&[&1, &1, &2, &3]);
    batch(texts, cells(random, half, tapes))
}

fn many(random: &mut Random) -> Batch {
    let texts = (0..20 + random.below(180))
        .map(|_| beaver(random))
        .collect();
    let half = 4 + random.below(30);
    batch(texts, cells(random, half, 1))
}

fn large(random: &mut Random) -> Batch {
    let half = 10 + random.below(2_000);
    let mut texts: Vec<Vec<u8>> = (0..random.below(3)).map(|_| beaver(random)).collect();
    let at = random.below(texts.len() + 1);
    let text = match random.below(4) {
        0 => vec![b'\n'; MAX_TEXT + 1 + random.below(2)],
        1 => Texts::Listed.text(random.below(1_000) as u64, random.bits() >> 40),
        2 => {
            let mut lines = vec![samples::BB4.to_string()];
            let rules =
                (0..1_000 + random.below(4_000)).map(|i| format!("δ(t{i},_)=(t{},1,R)", i / 2));
            lines.extend(rules);
            if random.chance(50) {
                lines.rotate_left(1);
                lines.push("start = A".into());
            }
            lines.join("\n").into()
        }
        // Goes to and fro between marks that it moves outwards.
        _ => "δ(a,_)=(b,1,R)\nδ(a,1)=(a,1,L)\nδ(b,_)=(a,1,L)\nδ(b,1)=(b,1,R)".into(),
    };
    texts.insert(at, text);
    let cells = cells(random, half, 1);
    let most = 20_000;
    Batch { texts, cells, most }
}
