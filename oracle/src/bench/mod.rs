//! `oracle bench`: the original's `parse` and the port's calls, on the same texts.
//!
//! The sides and the sizes of a case take turns, and medians of processor time are given. Dropping what the original gave is not counted, nor is
//! making the buffers, which are lent once for a text; a call of the port clears log and sheet itself. The
//! original is given a text that is known to be UTF-8, the port finds that out.

mod cases;
mod clock;
mod counts;
mod dense;
mod pages;
mod runs;
mod sides;

use std::iter;
use std::time::Duration;

use cases::{CASES, Case};
pub use pages::Pages;
use sides::{Bench, Expected, Kept, Side};

/// The least time that is measured for a case, and the least number of rounds.
const BUDGET: Duration = Duration::from_secs(2);
const ROUNDS: usize = 15;
/// A text whose first round takes longer, in seconds, is run once.
const SLOW: f64 = 5.0;
/// A size is left out if a call would take longer, were its time to grow with the square of the size.
const TOO_SLOW: f64 = 30.0;
/// Calls that take less are made several times in a row.
const SAMPLE: f64 = 200e-6;
/// But not more often than this.
const CALLS: usize = 64;

/// Which cases are measured, at which size if not at their own, and on which pages buffers are lent.
#[derive(Default)]
pub struct Options<'a> {
    pub names: Vec<&'a str>,
    pub size: Option<usize>,
    pub pages: Pages,
}

impl Options<'_> {
    fn cases(&self) -> Result<Vec<&'static Case>, String> {
        if self.names.is_empty() {
            return Ok(CASES.iter().collect());
        }
        self.names.iter().map(|name| case(name)).collect()
    }

    fn sizes(&self, case: &Case) -> Vec<usize> {
        self.size.map_or(case.sizes.to_vec(), |size| vec![size])
    }
}

fn case(name: &str) -> Result<&'static Case, String> {
    let names: Vec<&str> = CASES.iter().map(|case| case.name).collect();
    let found = CASES.iter().find(|case| case.name == name);
    found.ok_or_else(|| format!("{name} is no case; cases: {}", names.join(" ")))
}

/// A text that is measured, with the times of the calls on it.
struct Text {
    case: &'static Case,
    bench: Bench,
    expected: Expected,
    samples: [Vec<f64>; 3],
    /// How many calls a sample has.
    calls: [usize; 3],
    rounds: usize,
}

impl Text {
    fn new(case: &'static Case, size: usize, pages: Pages) -> Self {
        let text = text(case, size);
        let expected = Expected::of(case, &text);
        Self {
            case,
            bench: Bench::new(text, expected.lent, pages),
            expected,
            samples: Default::default(),
            calls: [1; 3],
            rounds: 0,
        }
    }

    /// A sample of each side in turn.
    fn round(&mut self) {
        for side in Side::ALL {
            if Bench::runs(self.case, side) {
                let calls = &mut self.calls[side as usize];
                let seconds = sample(&mut self.bench, side, *calls);
                self.samples[side as usize].push(seconds);
                *calls = ((SAMPLE / seconds) as usize).clamp(1, CALLS);
            }
        }
        self.rounds += 1;
    }

    /// The time of the first round's calls.
    fn first_round(&self) -> f64 {
        let firsts = self.samples.iter().filter_map(|samples| samples.first());
        firsts.sum()
    }

    /// The time of the slowest side's first call.
    fn slowest(&self) -> f64 {
        let firsts = self.samples.iter().filter_map(|samples| samples.first());
        firsts.copied().fold(0.0, f64::max)
    }

    fn measured(self) -> Measured {
        Measured {
            case: self.case.name,
            bytes: self.bench.text.len(),
            rules: self.expected.rules,
            diagnostics: self.expected.diagnostics,
            seconds: self.samples.map(median),
            rounds: self.rounds,
        }
    }
}

/// What was measured of a text: the median of each side, and how many rounds there were.
struct Measured {
    case: &'static str,
    bytes: usize,
    rules: u64,
    diagnostics: u64,
    seconds: [Option<f64>; 3],
    rounds: usize,
}

impl Measured {
    /// Nanoseconds for each byte.
    fn per_byte(&self, side: Side) -> Option<f64> {
        self.seconds[side as usize].map(|s| s * 1e9 / self.bytes as f64)
    }

    /// Nanoseconds for each expanded rule.
    fn per_rule(&self, side: Side) -> Option<f64> {
        let seconds = self.seconds[side as usize]?;
        (self.rules > 0).then(|| seconds * 1e9 / self.rules as f64)
    }

    /// How many times as long the original takes as a side.
    fn times(&self, side: Side) -> Option<f64> {
        Some(self.per_byte(Side::Rust)? / self.per_byte(side)?)
    }
}

/// Measures and prints a table; false if an answer is not the original's.
pub fn times(options: &Options<'_>) -> Result<bool, String> {
    println!(
        "| case | bytes | rules | diagnostics | rounds | rust ns/byte | read ns/byte | rust/read | write ns/byte | rust ns/rule | read ns/rule | growth rust | growth read |"
    );
    println!("|---|{}", "--:|".repeat(12));
    let mut same = true;
    for case in options.cases()? {
        let mut texts: Vec<Text> = Vec::new();
        let mut left_out = None;
        for size in options.sizes(case) {
            left_out = texts.last().and_then(|last| too_slow(last, size));
            if left_out.is_some() {
                break;
            }
            for case in iter::once(case).chain(case.beside) {
                let mut text = Text::new(case, size, options.pages);
                same &= agrees(&mut text);
                text.round();
                texts.push(text);
            }
        }
        measure(&mut texts);
        let measured: Vec<Measured> = texts.into_iter().map(Text::measured).collect();
        for case in iter::once(case).chain(case.beside) {
            let rows: Vec<&Measured> = measured
                .iter()
                .filter(|row| row.case == case.name)
                .collect();
            for row in &rows {
                print_row(row, rows[0]);
            }
        }
        if let Some((size, seconds)) = left_out {
            println!(
                "| {} | {size} | left out: a call may take {seconds:.0} s |",
                case.name
            );
        }
    }
    Ok(same)
}

fn text(case: &Case, size: usize) -> String {
    String::from_utf8((case.text)(size)).expect("a text in UTF-8")
}

/// The next size and the time of a call at it, if that may be too long to wait for.
fn too_slow(last: &Text, size: usize) -> Option<(usize, f64)> {
    let growth = size as f64 / last.bench.text.len() as f64;
    let seconds = last.slowest() * growth * growth;
    (seconds > TOO_SLOW).then_some((size, seconds))
}

/// Whether the reader answers as the original does. The buffers are in use from then on.
fn agrees(text: &mut Text) -> bool {
    if !Bench::runs(text.case, Side::Read) {
        return true;
    }
    let Kept::Answer(found) = text.bench.call(Side::Read) else {
        unreachable!("the port answers in words");
    };
    let same = found == text.expected.answer;
    if !same {
        println!(
            "DIFFERENCE: {}: {found:?}, expected {:?}",
            text.case.name, text.expected.answer
        );
    }
    same
}

/// Rounds over all texts, behind the first, which each has had: what slows the machine for a while slows all of them.
fn measure(texts: &mut [Text]) {
    let started = clock::now();
    let mut rounds = 1;
    while rounds < ROUNDS || clock::now() - started < BUDGET {
        for text in texts.iter_mut().filter(|text| text.first_round() < SLOW) {
            text.round();
        }
        if texts.iter().all(|text| text.first_round() >= SLOW) {
            return;
        }
        rounds += 1;
    }
}

/// The seconds of a call, from some in a row.
fn sample(bench: &mut Bench, side: Side, calls: usize) -> f64 {
    let mut kept = Vec::with_capacity(calls);
    let started = clock::now();
    for _ in 0..calls {
        kept.push(bench.call(side));
    }
    (clock::now() - started).as_secs_f64() / calls as f64
}

fn median(mut samples: Vec<f64>) -> Option<f64> {
    samples.sort_by(f64::total_cmp);
    samples.get(samples.len() / 2).copied()
}

/// A row of the table; growth is left out at the first size.
fn print_row(measured: &Measured, first: &Measured) {
    let growth = |side| {
        let grown = measured.per_byte(side)? / first.per_byte(side)?;
        (measured.bytes > first.bytes).then_some(grown)
    };
    let number = |value: Option<f64>| value.map_or("-".into(), |value| format!("{value:.2}"));
    let columns = [
        measured.per_byte(Side::Rust),
        measured.per_byte(Side::Read),
        measured.times(Side::Read),
        measured.per_byte(Side::Write),
        measured.per_rule(Side::Rust),
        measured.per_rule(Side::Read),
        growth(Side::Rust),
        growth(Side::Read),
    ];
    println!(
        "| {} | {} | {} | {} | {} | {} |",
        measured.case,
        measured.bytes,
        measured.rules,
        measured.diagnostics,
        measured.rounds,
        columns.map(number).join(" | ")
    );
}

pub use counts::{count, once};
pub use runs::runs_table;
