//! `oracle self`: the oracle held against itself.
//!
//! Of diagnostics, no two share a start. For each text that reads to a machine whose form is short enough:
//!
//! * inferring a second time changes nothing;
//! * the answer's words give back the original's record of the machine;
//! * the plain form reads, with the original, to a machine that agrees, and is its own form;
//! * against the machine before it and against single edits of its text, forms are equal
//!   exactly when the answers agree.

use std::panic::{self, AssertUnwindSafe};
use std::time::Instant;

use crate::agree::{Answer, agree};
use crate::families::{Family, Random, Selection, edit};
use crate::head::Head;
use crate::log::Record;
use crate::outcome::MAX_TEXT;
use crate::place;
use crate::plant::{Fault, plant};
use crate::reading::{Machine, Reading, read};
use crate::recover::machine_of;
use crate::tally::{Tally, kind_of};

/// How many failures are shown in full.
const SHOWN: u64 = 5;
/// How many edits of a text are tried.
const EDITS: usize = 2;
/// Longer texts are neither edited nor kept for their neighbours.
const PAIRED_LENGTH: usize = 4096;

/// A machine with its answer and form, on its own.
struct Known {
    text: Vec<u8>,
    head: Head,
    sheet: Vec<u32>,
    form: String,
}

impl Known {
    fn of(machine: &Machine<'_>) -> Self {
        Self {
            text: machine.text.to_vec(),
            head: machine.head.clone(),
            sheet: machine.sheet(),
            form: machine.form(),
        }
    }

    fn answer(&self) -> Answer<'_> {
        Answer {
            head: &self.head,
            sheet: &self.sheet,
            text: &self.text,
        }
    }
}

/// What a run counts.
#[derive(Default)]
struct Run {
    tally: Tally,
    agreeing_pairs: u64,
    differing_pairs: u64,
    too_large: u64,
    failures: u64,
}

/// Runs over the texts of a selection; true if everything held.
pub fn run(selection: Selection, fault: Option<Fault>) -> bool {
    if let Some(fault) = fault {
        println!("planted fault: {fault:?}");
        plant(fault);
    }
    // A failed check is printed in full with its text; the backtrace would only repeat it.
    panic::set_hook(Box::new(|_| {}));
    let started = Instant::now();
    let mut run = Run::default();
    for (family, count, seed) in selection.families() {
        run.family(family, count, seed);
    }
    let _ = panic::take_hook();
    print!("{}", run.tally.table("texts"));
    println!(
        "pairs: {} that agree, {} that differ; too large to expand: {}",
        run.agreeing_pairs, run.differing_pairs, run.too_large
    );
    println!(
        "texts: {}, failures: {}, seconds: {:.1}",
        run.tally.total(),
        run.failures,
        started.elapsed().as_secs_f64()
    );
    run.failures == 0
}

impl Run {
    fn family(&mut self, family: Family, count: u64, seed: u64) {
        let mut random = Random::new([seed, count, 0x5E1F]);
        let mut previous = None;
        for index in 0..count {
            let text = family.text(index, seed);
            let checked = panic::catch_unwind(AssertUnwindSafe(|| {
                self.text(family, &text, &mut previous, &mut random)
            }));
            let failure = match checked {
                Ok(Ok(())) => continue,
                Ok(Err(failure)) => failure,
                Err(panic) => panic_text(panic.as_ref()),
            };
            self.failures += 1;
            if self.failures <= SHOWN {
                show_failure(family, index, seed, &text, &failure);
            }
        }
    }

    fn text(
        &mut self,
        family: Family,
        text: &[u8],
        previous: &mut Option<Known>,
        random: &mut Random,
    ) -> Result<(), String> {
        if text.len() > MAX_TEXT {
            self.tally.count(family.name(), "refused 1");
            return Ok(());
        }
        let reading = read(text);
        self.tally.count(family.name(), kind_of(&reading));
        let machine = match reading {
            Reading::Machine(machine) => machine,
            Reading::Diagnostics(records) => return starts_ascend(&records),
            Reading::NotUtf8(_) | Reading::OutsideSet(_) => return Ok(()),
        };
        if machine.expanded().is_none() {
            self.too_large += 1;
            return Ok(());
        }
        inference_is_done(&machine)?;
        layout_holds(&machine)?;
        if machine.form_len > MAX_TEXT as u64 {
            return Ok(());
        }
        let known = Known::of(&machine);
        form_reads_back(&known)?;
        if text.len() > PAIRED_LENGTH {
            return Ok(());
        }
        if let Some(previous) = previous {
            self.pair(previous, &known)?;
        }
        for _ in 0..EDITS {
            self.edited(&known, random)?;
        }
        *previous = Some(known);
        Ok(())
    }

    /// A single edit of the text, if it is a machine too.
    fn edited(&mut self, known: &Known, random: &mut Random) -> Result<(), String> {
        let text = edit(random, &known.text);
        match read(&text) {
            Reading::Machine(machine) if machine.expanded().is_some() => {
                self.pair(known, &Known::of(&machine))
            }
            _ => Ok(()),
        }
    }

    /// Forms are equal exactly when the machines agree.
    fn pair(&mut self, a: &Known, b: &Known) -> Result<(), String> {
        let agreed = agree(a.answer(), b.answer());
        if agreed {
            self.agreeing_pairs += 1;
        } else {
            self.differing_pairs += 1;
        }
        if agreed == (a.form == b.form) {
            return Ok(());
        }
        Err(format!(
            "agreement is {agreed}, but the forms are\n{}and\n{}the other text is {:?}",
            a.form,
            b.form,
            String::from_utf8_lossy(&a.text)
        ))
    }
}

/// No two diagnostics share a start, so that the stability of their sort cannot be seen.
fn starts_ascend(records: &[Record]) -> Result<(), String> {
    let ascend = records.is_sorted_by(|a, b| a.place.start < b.place.start);
    ascend
        .then_some(())
        .ok_or_else(|| format!("two diagnostics share a start: {records:?}"))
}

/// Inferring a second time changes nothing.
fn inference_is_done(machine: &Machine<'_>) -> Result<(), String> {
    let (spec, _) = machine.expanded().ok_or("not expanded")?;
    let mut again = spec.clone();
    again.infer();
    (again == *spec)
        .then_some(())
        .ok_or_else(|| format!("inferring again gives {again:?}"))
}

/// The words of the answer give the original's record back.
fn layout_holds(machine: &Machine<'_>) -> Result<(), String> {
    let sheet = machine.sheet();
    let head = &machine.head;
    let recovered = machine_of(Answer {
        head,
        sheet: &sheet,
        text: machine.text,
    });
    let (spec, _) = machine.expanded().ok_or("not expanded")?;
    if recovered != *spec {
        return Err(format!("the words give\n{recovered:?}\nnot\n{spec:?}"));
    }
    let first_state = sheet[..3 * head.counts.states as usize].first_chunk::<2>();
    let expected = first_state.copied().unwrap_or(place::words(None));
    if !head.declared.start && place::words(head.start) != expected {
        return Err("an undeclared start is not where the first state is".into());
    }
    Ok(())
}

/// The form reads to a machine that agrees and whose form it is.
fn form_reads_back(known: &Known) -> Result<(), String> {
    match read(known.form.as_bytes()) {
        Reading::Machine(machine) => {
            layout_holds(&machine)?;
            let again = Known::of(&machine);
            if again.form != known.form {
                return Err(format!(
                    "the form's form is\n{}not\n{}",
                    again.form, known.form
                ));
            }
            if !agree(known.answer(), again.answer()) {
                return Err(format!("the form does not agree:\n{}", known.form));
            }
            Ok(())
        }
        Reading::Diagnostics(records) => {
            let form = &known.form;
            Err(format!("the form has diagnostics {records:?}:\n{form}"))
        }
        Reading::NotUtf8(at) | Reading::OutsideSet(at) => {
            Err(format!("the form is refused at {at}:\n{}", known.form))
        }
    }
}

fn panic_text(panic: &(dyn std::any::Any + Send)) -> String {
    let string = panic.downcast_ref::<String>().map(String::as_str);
    let text = string.or_else(|| panic.downcast_ref::<&str>().copied());
    text.unwrap_or("a check failed").into()
}

fn show_failure(family: Family, index: u64, seed: u64, text: &[u8], failure: &str) {
    let name = family.name();
    println!("FAILURE: family {name}, index {index}, seed {seed}");
    if text.len() <= PAIRED_LENGTH {
        println!("text: {:?}", String::from_utf8_lossy(text));
    }
    let shown: String = failure.chars().take(PAIRED_LENGTH).collect();
    println!("{shown}\n");
}
