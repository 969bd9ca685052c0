//! `oracle infer`: the definition of inference on a machine as a value
//! (`crates/language/specs/Inference.antt`) held against the original's `infer`.
//!
//! Machines are made up over all 32 combinations of the declared flags: empty and repeated names,
//! marks on repeats, a blank that Γ lacks or has twice, no to two tapes, line feeds. Of each, what
//! `inferred` gives (a port of the definition, clause by clause) is compared with the original's
//! first inference, and the original's second inference with its first. On texts, the original's
//! second inference is compared with the first, which reading did.

use std::time::Instant;

use crate::families::{Random, Selection};
use crate::machine::{BitOrder, Decoder, Kind};
use crate::outcome::MAX_TEXT;
use crate::reading::{Reading, read};
use crate::spec::{Declared, MachineSpec, StateSpec, TransitionSpec};
use crate::symbol::Dir;

/// The number of combinations of the five flags.
const COMBINATIONS: usize = 32;
/// The port of the definition looks through lists, so it is not run on machines of texts with as
/// many states and rules.
const SMALL: usize = 1_000;
/// How many failures are shown in full.
const SHOWN: u64 = 3;

const NAMES: [&str; 8] = ["", "a", "b", "c", "d", "q'", "a", "ab"];
const GLYPHS: [char; 9] = ['␣', '0', '1', 'a', 'b', 'δ', '\n', '_', '0'];

// ---- the definition

/// `names_once`: each name at its first place, empty ones left out (`fresh same is_empty`).
fn names_once(names: Vec<String>) -> Vec<String> {
    let mut once: Vec<String> = Vec::new();
    for name in names {
        if !name.is_empty() && !once.contains(&name) {
            once.push(name);
        }
    }
    once
}

/// `is_final_in`: some state of the list has this name and is final.
fn is_final_in(states: &[StateSpec], name: &str) -> bool {
    states.iter().any(|s| s.is_final && s.name == name)
}

/// `infer_states_of`, with `mentions_of`.
fn infer_states_of(m: &MachineSpec) -> Vec<StateSpec> {
    if m.declared.states {
        return m.states.clone();
    }
    let mut names = Vec::new();
    if m.declared.start {
        names.push(m.start.clone());
    }
    for rule in &m.transitions {
        names.push(rule.from.clone());
        names.push(rule.to.clone());
    }
    names.extend(m.states.iter().map(|s| s.name.clone()));
    let state = |name: String| StateSpec {
        is_final: is_final_in(&m.states, &name),
        name,
    };
    names_once(names).into_iter().map(state).collect()
}

/// `infer_start_of`.
fn infer_start_of(m: &MachineSpec, states: &[StateSpec]) -> String {
    match states {
        _ if m.declared.start => m.start.clone(),
        [] => String::new(),
        [first, ..] => first.name.clone(),
    }
}

/// `infer_gamma_of`, with `used_of`.
fn infer_gamma_of(m: &MachineSpec) -> Vec<char> {
    let mut gamma = m.tape_alphabet.clone();
    if m.declared.tape_alphabet {
        if !gamma.contains(&m.blank) {
            gamma.push(m.blank);
        }
        return gamma;
    }
    let mut candidates = Vec::new();
    if m.declared.input_alphabet {
        candidates.extend(&m.input_alphabet);
    }
    for rule in &m.transitions {
        candidates.extend(&rule.read);
        candidates.extend(&rule.write);
    }
    candidates.extend(&gamma);
    if !m.declared.input_alphabet {
        candidates.extend(m.input.chars());
    }
    let mut once = vec![m.blank];
    for glyph in candidates {
        if !once.contains(&glyph) {
            once.push(glyph);
        }
    }
    once
}

/// `infer_sigma_of`.
fn infer_sigma_of(m: &MachineSpec, gamma: &[char]) -> Vec<char> {
    if m.declared.input_alphabet {
        return m.input_alphabet.clone();
    }
    gamma.iter().copied().filter(|&c| c != m.blank).collect()
}

/// `infer` of Inference.antt.
fn inferred(m: &MachineSpec) -> MachineSpec {
    let states = infer_states_of(m);
    let gamma = infer_gamma_of(m);
    MachineSpec {
        start: infer_start_of(m, &states),
        states,
        input_alphabet: infer_sigma_of(m, &gamma),
        tape_alphabet: gamma,
        ..m.clone()
    }
}

// ---- machines

fn combination(d: Declared) -> usize {
    let flags = [
        d.states,
        d.input_alphabet,
        d.tape_alphabet,
        d.start,
        d.blank,
    ];
    flags.iter().fold(0, |n, &flag| 2 * n + usize::from(flag))
}

fn declared(n: usize) -> Declared {
    Declared {
        states: n & 16 != 0,
        input_alphabet: n & 8 != 0,
        tape_alphabet: n & 4 != 0,
        start: n & 2 != 0,
        blank: n & 1 != 0,
    }
}

fn glyph(random: &mut Random) -> char {
    GLYPHS[random.below(GLYPHS.len())]
}

fn glyphs(random: &mut Random, most: usize) -> Vec<char> {
    (0..random.below(most + 1)).map(|_| glyph(random)).collect()
}

fn rule(random: &mut Random) -> TransitionSpec {
    let tapes = random.below(3);
    let dirs = [Dir::L, Dir::R, Dir::N];
    TransitionSpec {
        from: (*random.pick(&NAMES)).into(),
        read: (0..tapes).map(|_| glyph(random)).collect(),
        to: (*random.pick(&NAMES)).into(),
        write: (0..tapes).map(|_| glyph(random)).collect(),
        dir: (0..tapes).map(|_| dirs[random.below(3)]).collect(),
        comment: random.chance(20).then(|| "c".into()),
        leading: (0..random.below(5) / 4).map(|_| "l".into()).collect(),
        span: None,
    }
}

/// A machine of the combination `n`; nothing else is asked of it.
fn machine(random: &mut Random, n: usize) -> MachineSpec {
    let kinds = [
        Kind::Acceptor,
        Kind::Transducer,
        Kind::Enumerator,
        Kind::Beaver,
    ];
    let output = match random.below(4) {
        0 => Decoder::Unary {
            symbol: glyph(random),
        },
        1 => Decoder::Binary {
            order: BitOrder::Lsb,
        },
        2 => Decoder::Binary {
            order: BitOrder::Msb,
        },
        _ => Decoder::Word,
    };
    let mut m = MachineSpec {
        name: (*random.pick(&NAMES)).into(),
        kind: kinds[random.below(4)],
        tapes: random.below(256) as u8,
        blank: glyph(random),
        input_alphabet: glyphs(random, 4),
        tape_alphabet: glyphs(random, 5),
        start: (*random.pick(&NAMES)).into(),
        input: glyphs(random, 5).into_iter().collect(),
        output,
        declared: declared(n),
        ..MachineSpec::default()
    };
    for _ in 0..random.below(5) {
        m.states.push(StateSpec {
            name: (*random.pick(&NAMES)).into(),
            is_final: random.chance(50),
        });
    }
    for _ in 0..random.below(4) {
        m.transitions.push(rule(random));
    }
    m.comments.header = (0..random.below(3)).map(|_| "h".into()).collect();
    m.comments.trailing = (0..random.below(3)).map(|_| "t".into()).collect();
    m
}

/// The machine of an index, and what the original infers on it.
fn case(index: u64, seed: u64) -> (MachineSpec, MachineSpec) {
    let mut random = Random::new([seed, index, 0x1FE2]);
    let before = machine(&mut random, (index % COMBINATIONS as u64) as usize);
    let mut after = before.clone();
    after.infer();
    (before, after)
}

// ---- the comparison

#[derive(Default)]
struct Counts {
    of: [u64; COMBINATIONS],
    changed: u64,
    changed_again: u64,
    different: u64,
}

impl Counts {
    fn print(&self, what: &str) {
        let all: u64 = self.of.iter().sum();
        let (least, most) = (self.of.iter().min(), self.of.iter().max());
        println!(
            "{what}: {all}, of each combination {} to {}; changed by the first inference: {}, by the second: {}; \
             other than the definition: {}",
            least.unwrap_or(&0),
            most.unwrap_or(&0),
            self.changed,
            self.changed_again,
            self.different
        );
    }

    fn held(&self) -> bool {
        self.changed_again == 0 && self.different == 0
    }
}

fn again(m: &MachineSpec) -> MachineSpec {
    let mut again = m.clone();
    again.infer();
    again
}

fn machines(count: u64, seed: u64) -> Counts {
    let mut counts = Counts::default();
    for index in 0..count {
        let (before, after) = case(index, seed);
        counts.of[combination(before.declared)] += 1;
        counts.changed += u64::from(after != before);
        counts.changed_again += u64::from(again(&after) != after);
        if inferred(&before) != after {
            counts.different += 1;
            if counts.different <= SHOWN {
                println!(
                    "{index} of seed {seed}: {before:?}\ninfers {after:?}\nthe definition {:?}",
                    inferred(&before)
                );
            }
        }
    }
    counts
}

/// The machines of texts are inferred already, so that neither inference changes them.
fn texts(selection: Selection) -> Counts {
    let mut counts = Counts::default();
    for (family, count, seed) in selection.families() {
        for index in 0..count {
            let text = family.text(index, seed);
            if text.len() > MAX_TEXT {
                continue;
            }
            let Reading::Machine(machine) = read(&text) else {
                continue;
            };
            let Some((spec, _)) = machine.expanded() else {
                continue;
            };
            counts.of[combination(spec.declared)] += 1;
            counts.changed_again += u64::from(again(spec) != *spec);
            let small = spec.states.len() + spec.transitions.len() < SMALL;
            counts.different += u64::from(small && inferred(spec) != *spec);
        }
    }
    counts
}

/// Compares on COUNT machines and COUNT texts; true if everything held.
pub fn run(selection: Selection) -> bool {
    let started = Instant::now();
    let of_machines = machines(selection.count, selection.seed);
    of_machines.print("machines");
    let of_texts = texts(selection);
    of_texts.print("machines of texts");
    println!("seconds: {:.1}", started.elapsed().as_secs_f64());
    of_machines.held() && of_texts.held() && of_texts.of.iter().all(|&n| n > 0)
}

// ---- for antt

fn list<T>(items: impl IntoIterator<Item = T>, term: impl Fn(T) -> String) -> String {
    let mut out = String::from("(");
    for item in items {
        out += &format!("{} ∷ ", term(item));
    }
    out + "[])"
}

fn codes(text: &str) -> String {
    list(text.chars(), |c| u32::from(c).to_string())
}

fn rule_term(rule: &TransitionSpec) -> String {
    let comment = rule
        .comment
        .as_deref()
        .map_or_else(|| "None".into(), |text| format!("Some {}", codes(text)));
    let tapes = rule.read.iter().zip(&rule.write).zip(&rule.dir);
    let actions = list(tapes, |((&read, &write), dir)| {
        let dir = match dir {
            Dir::L => "left",
            Dir::R => "right",
            Dir::N => "stay",
        };
        let (read, write) = (u32::from(read), u32::from(write));
        format!("record {{ read = {read}; write = {write}; dir = {dir} }}")
    });
    format!(
        "record {{ from = {}; to = {}; comment = {comment}; leading = {}; actions = {actions} }}",
        codes(&rule.from),
        codes(&rule.to),
        list(&rule.leading, |text| codes(text)),
    )
}

/// A machine as a `Content` of crates/language/specs/Content.antt.
fn content(m: &MachineSpec) -> String {
    let output = match m.output {
        Decoder::Word => "Word".into(),
        Decoder::Unary { symbol } => format!("(Unary {})", u32::from(symbol)),
        Decoder::Binary { order } => format!("(Binary {order:?})"),
    };
    let d = m.declared;
    let glyph = |&c: &char| u32::from(c).to_string();
    let state = |s: &StateSpec| {
        format!(
            "record {{ name = {}; final = {} }}",
            codes(&s.name),
            s.is_final
        )
    };
    format!(
        "record {{ name = {}; input = {}; kind = {:?}; output = {output}; tapes = {}; blank = {}; \
         declared = record {{ states = {}; input_alphabet = {}; tape_alphabet = {}; start = {}; blank = {} }}; \
         start = {}; states = {}; sigma = {}; gamma = {}; header = {}; trailing = {}; rules = {} }}",
        codes(&m.name),
        codes(&m.input),
        m.kind,
        m.tapes,
        u32::from(m.blank),
        d.states,
        d.input_alphabet,
        d.tape_alphabet,
        d.start,
        d.blank,
        codes(&m.start),
        list(&m.states, state),
        list(&m.input_alphabet, glyph),
        list(&m.tape_alphabet, glyph),
        list(&m.comments.header, |text| codes(text)),
        list(&m.comments.trailing, |text| codes(text)),
        list(&m.transitions, rule_term),
    )
}

/// COUNT machines for tools/inference.py, two lines each: the machine, and what the original infers.
pub fn cases(count: u64, seed: u64) -> String {
    let line = |index| {
        let (before, after) = case(index, seed);
        format!("{}\n{}\n", content(&before), content(&after))
    };
    (0..count).map(line).collect()
}
