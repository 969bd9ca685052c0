//! `oracle bench runs`: the port's batch call, and beside it a Rust interpreter with a dense table of packed entries.
//!
//! The sides take turns, and so do batches that are held against one another; medians of processor time are given. What the port
//! spends on reading and clearing is measured by the same call with an allowance of no step, and taken off where a time for one
//! step is given.

use super::{clock, median};
use crate::batch::{ANSWER_WORDS, BatchLent, ENTRY_WORDS};
use crate::bench::dense::{Dense, Tape};
use crate::foreign;
use crate::log::RECORD_WORDS;
use crate::outcome::{MAX_TEXT, work_needed};
use crate::reading::{self, Reading};

/// How often each call is made; a call that takes longer than `SLOW` seconds only `FEW` times.
const ROUNDS: usize = 15;
const FEW: usize = 5;
const SLOW: f64 = 0.5;
/// The busy beaver with five states: its steps, and the ones that it leaves.
const BB5_STEPS: u64 = 47_176_870;
const BB5_ONES: usize = 4_098;
/// The cells that it is lent.
const BB5_CELLS: usize = 1 << 15;
/// The cells that a thousand small beavers are lent, and few that are enough for each.
const MANY_CELLS: usize = 1 << 16;
const FEW_CELLS: usize = 64;

const BB5: &str = "F={H}\nδ(A,_)=(B,1,R)\nδ(A,1)=(C,1,L)\nδ(B,_)=(C,1,R)\nδ(B,1)=(B,1,R)\nδ(C,_)=(D,1,R)\nδ(C,1)=(E,_,L)\n\
δ(D,_)=(A,1,L)\nδ(D,1)=(D,1,L)\nδ(E,_)=(H,1,R)\nδ(E,1)=(A,_,L)\n";

/// A batch that is measured.
struct Run {
    name: &'static str,
    texts: Vec<String>,
    cells: usize,
    allowance: u64,
    /// Whether the dense interpreter runs its first text too.
    dense: bool,
}

impl Run {
    fn new(name: &'static str, text: String, cells: usize, allowance: u64) -> Self {
        Self {
            name,
            texts: vec![text],
            cells,
            allowance,
            dense: false,
        }
    }
}

/// The beaver behind rules of 100,000 states that it never reaches, or before them.
fn among_rules(before: bool) -> String {
    let rules: String = (0..100_000)
        .map(|i| format!("δ(q{i},_)=(q{},1,R)\n", i / 2))
        .collect();
    match before {
        true => format!("start=A\n{rules}{BB5}"),
        false => format!("start=A\n{BB5}{rules}"),
    }
}

/// As many rules as there may be, of which the last applies, for ever. The state's first rule is the first of all; the others
/// read what is there and are another state's, so that nothing of them tells at once that they don't apply.
fn longest_search(tapes: usize) -> String {
    let tuple = |first: &str, others: &str| match tapes {
        1 => first.to_string(),
        _ => format!("({})", [first, others, others].join(",")),
    };
    let others = vec!["_"; 262_142].join(",");
    let [blanks, writes, moves] = ["_", "*", "N"].map(|entry| tuple(entry, entry));
    format!(
        "tapes={tapes}\nδ(a,{})=(a,{writes},{moves})\nδ(b,{})=(b,{writes},{moves})\nδ(a,{blanks})=(a,{writes},{moves})\n",
        tuple("1", "_"),
        tuple(&format!("{{{others}}}"), "_"),
    )
}

/// The same on one tape, each rule on a line of its own: the number of its state is looked up at another place each time. The
/// text is as long as one may be.
fn longest_search_lines() -> String {
    format!(
        "δ(a,1)=(a,_,N)\n{}δ(a,_)=(a,_,N)\n",
        "δ(b,_)=(b,_,N)\n".repeat(262_142)
    )
}

/// What is measured, in groups whose batches take turns.
fn groups() -> [Vec<Run>; 3] {
    let bb5 = |name, text| Run::new(name, text, BB5_CELLS, u64::MAX);
    let small = [
        "δ(A,_)=(B,1,R)\nδ(A,1)=(B,1,L)\nδ(B,_)=(A,1,L)\nδ(B,1)=(H,1,R)\nF={H}",
        "δ(A,_)=(B,1,R)\nδ(A,1)=(H,1,R)\nδ(B,_)=(B,1,L)\nδ(B,1)=(C,_,R)\nδ(C,_)=(C,1,L)\nδ(C,1)=(A,1,L)\nF={H}",
        include_str!("../../../examples/beaver-4.tm"),
    ];
    let beavers = |name, cells| Run {
        texts: (0..1000).map(|i| small[i % small.len()].into()).collect(),
        ..Run::new(name, String::new(), cells, u64::MAX)
    };
    [
        vec![
            Run {
                dense: true,
                ..bb5("bb5", BB5.into())
            },
            bb5("bb5-behind-100000", among_rules(true)),
            bb5("bb5-before-100000", among_rules(false)),
        ],
        vec![
            beavers("beavers-64Ki", MANY_CELLS),
            beavers("beavers-64", FEW_CELLS),
        ],
        vec![
            Run::new("longest-search-1", longest_search(1), 64, 100),
            Run::new("longest-search-lines", longest_search_lines(), 64, 100),
            Run::new("longest-search-3", longest_search(3), 64, 20),
        ],
    ]
}

/// A batch with its rows, and the times of its calls.
struct Bench {
    run: Run,
    lent: BatchLent,
    dense: Option<(Dense, Tape)>,
    /// Of the whole call, of the call without a step, and of the dense interpreter.
    samples: [Vec<f64>; 3],
}

impl Bench {
    fn new(run: Run) -> Self {
        let longest = run.texts.iter().map(String::len).max().unwrap_or(0);
        assert!(longest <= MAX_TEXT, "a text that is read");
        let mut sheet = 0;
        let mut dense = None;
        for text in &run.texts {
            let Reading::Machine(machine) = reading::read(text.as_bytes()) else {
                panic!("a machine: {}", run.name);
            };
            sheet = sheet.max(machine.words_needed as usize);
            if run.dense && dense.is_none() {
                let (spec, _) = machine.expanded().expect("a small machine");
                dense = Some((Dense::new(spec), Tape::new(run.cells)));
            }
        }
        let lent = BatchLent {
            texts: run.texts.concat().into_bytes(),
            lengths: run.texts.iter().map(|text| text.len() as u32).collect(),
            allowance: run.allowance,
            work: vec![0; work_needed(longest)],
            log: vec![0; RECORD_WORDS],
            sheet: vec![0; sheet],
            cells: vec![0; run.cells],
            answers: vec![0; ENTRY_WORDS * run.texts.len()],
            answer: vec![0; ANSWER_WORDS],
        };
        let samples = Default::default();
        Self {
            run,
            lent,
            dense,
            samples,
        }
    }

    /// The first round, and the seconds that its whole call took.
    fn first_round(&mut self, call: foreign::Batch) -> f64 {
        self.round(call);
        self.samples[0][0]
    }

    /// One call of each side.
    fn round(&mut self, call: foreign::Batch) {
        self.lent.allowance = 0;
        self.sample(1, |bench| _ = call(&mut bench.lent));
        self.lent.allowance = self.run.allowance;
        self.sample(0, |bench| _ = call(&mut bench.lent));
        assert_eq!(self.lent.answer[0], 0, "{} runs", self.run.name);
        if let Some((dense, mut tape)) = self.dense.take() {
            let started = clock::now();
            let (_, steps) = dense.run(&mut tape, self.run.allowance);
            self.samples[2].push((clock::now() - started).as_secs_f64());
            assert_eq!(steps, self.lent.answers[1], "the dense interpreter's steps");
            assert_eq!(tape.marks(), self.marks(), "the dense interpreter's marks");
            self.dense = Some((dense, tape));
        }
    }

    /// The steps of all entries.
    fn steps(&self) -> u64 {
        let answers = self.lent.answers.chunks_exact(ENTRY_WORDS);
        answers.map(|answer| answer[1]).sum()
    }

    fn sample(&mut self, which: usize, call: impl FnOnce(&mut Self)) {
        let started = clock::now();
        call(self);
        self.samples[which].push((clock::now() - started).as_secs_f64());
    }

    /// Whether the beaver did the steps and left the ones that are known of it; of other batches nothing is.
    fn is_as_known(&self) -> bool {
        !self.run.name.starts_with("bb5") || (self.steps(), self.marks()) == (BB5_STEPS, BB5_ONES)
    }

    /// The cells that are not blank.
    fn marks(&self) -> usize {
        self.lent
            .cells
            .iter()
            .filter(|&&code| code != u32::from('␣'))
            .count()
    }
}

/// Measures and prints a table; false if the beaver's answer is not what is known of it.
pub fn runs_table(names: &[&str]) -> Result<bool, String> {
    let call = foreign::batch().ok_or("no librunner.a yet, nothing measured")?;
    println!(
        "| batch | bytes | steps | whole call, ms | without a step, ms | ns/step | dense ns/step | times the dense |"
    );
    println!("|---|{}", "--:|".repeat(7));
    let asked = |run: &Run| names.is_empty() || names.contains(&run.name);
    let mut same = true;
    for group in groups() {
        for bench in measured(group.into_iter().filter(asked), call) {
            same &= bench.is_as_known();
            print_row(bench);
        }
    }
    Ok(same)
}

/// The batches of a group, each called in its turn until all were called often enough.
fn measured(group: impl Iterator<Item = Run>, call: foreign::Batch) -> Vec<Bench> {
    let mut benches: Vec<Bench> = group.map(Bench::new).collect();
    let first = benches.iter_mut().map(|bench| bench.first_round(call));
    let rounds = if first.sum::<f64>() > SLOW {
        FEW
    } else {
        ROUNDS
    };
    for _ in 1..rounds {
        benches.iter_mut().for_each(|bench| bench.round(call));
    }
    benches
}

fn print_row(bench: Bench) {
    let (bytes, steps) = (bench.lent.texts.len(), bench.steps());
    let [whole, without, dense] = bench.samples.map(median);
    let per_step = whole
        .zip(without)
        .map(|(whole, without)| (whole - without) * 1e9 / steps as f64);
    let dense = dense.map(|seconds| seconds * 1e9 / steps as f64);
    let number = |value: Option<f64>| value.map_or("-".into(), |value| format!("{value:.2}"));
    let columns = [
        whole.map(|seconds| seconds * 1e3),
        without.map(|seconds| seconds * 1e3),
        per_step,
        dense,
        per_step.zip(dense).map(|(port, dense)| port / dense),
    ];
    println!(
        "| {} | {bytes} | {steps} | {} |",
        bench.run.name,
        columns.map(number).join(" | ")
    );
}
