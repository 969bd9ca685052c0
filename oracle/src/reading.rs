//! What a text reads to, whatever the buffers: refusal 3 or 4, diagnostics, or a machine.

use crate::chars;
use crate::diag::Span;
use crate::head::{Head, MapPlaces};
use crate::log::Record;
use crate::plain;
use crate::sheet;
use crate::sizes;
use crate::spec::{MachineSpec, SourceMap};
use crate::trace::{self, MachineTrace, Trace};

/// What a text reads to.
pub enum Reading<'t> {
    /// Refusal 3: the length of the longest UTF-8 beginning.
    NotUtf8(usize),
    /// Refusal 4: the offset of the first character outside the set.
    OutsideSet(usize),
    Diagnostics(Vec<Record>),
    Machine(Box<Machine<'t>>),
}

/// A machine as read, with the sizes of its sheet and of its plain form.
pub struct Machine<'t> {
    pub text: &'t [u8],
    pub head: Head,
    pub words_needed: u64,
    pub form_len: u64,
    trace: MachineTrace,
}

/// Reads a text of any length.
pub fn read(text: &[u8]) -> Reading<'_> {
    let beginning = chars::utf8_beginning(text);
    if beginning.len() < text.len() {
        return Reading::NotUtf8(beginning.len());
    }
    if let Some(offset) = chars::first_outside(beginning) {
        return Reading::OutsideSet(offset);
    }
    match trace::trace(beginning) {
        Trace::Diagnostics(list) => Reading::Diagnostics(list.iter().map(Record::of).collect()),
        Trace::Machine(trace) => Reading::Machine(Box::new(Machine::new(text, *trace))),
    }
}

impl<'t> Machine<'t> {
    fn new(text: &'t [u8], trace: MachineTrace) -> Self {
        let counts = sizes::counts(text, &trace);
        let outline = &trace.outline;
        let map = &trace.map;
        let head = Head {
            output: outline.output,
            name: trace.name,
            input: trace.input,
            kind: outline.kind,
            tapes: outline.tapes,
            blank: outline.blank,
            declared: outline.declared,
            start: start_place(&trace),
            map: MapPlaces {
                kind: map.kind,
                input: map.input,
                tapes: map.tapes,
                start: map.start,
                states: map.states_decl,
            },
            counts,
        };
        Self {
            text,
            head,
            words_needed: sizes::words_needed(&trace, &counts),
            form_len: sizes::form_len(text, &trace),
            trace,
        }
    }

    /// The original's record and map; `None` if the original would run out of memory.
    pub fn expanded(&self) -> Option<(&MachineSpec, &SourceMap)> {
        self.trace.expanded.as_ref().map(|(spec, map)| (spec, map))
    }

    fn must_be_expanded(&self) -> (&MachineSpec, &SourceMap) {
        self.expanded()
            .expect("a machine that the original can hold in memory")
    }

    /// The words of each section of the sheet.
    pub fn sections(&self) -> [Vec<u32>; 7] {
        let (spec, map) = self.must_be_expanded();
        let trace = &self.trace;
        sheet::sections(
            self.text,
            spec,
            map,
            &trace.header,
            &trace.trailing,
            &trace.rules,
        )
    }

    /// The words of the sheet, checked to be as many as were counted.
    pub fn sheet(&self) -> Vec<u32> {
        let words = self.sections().concat();
        self.check_size("words of the sheet", words.len(), self.words_needed);
        words
    }

    /// The plain form, checked to be as long as was counted.
    pub fn form(&self) -> String {
        let form = plain::form(self.must_be_expanded().0);
        self.check_size("bytes of the form", form.len(), self.form_len);
        form
    }

    fn check_size(&self, what: &str, found: usize, counted: u64) {
        assert!(
            found as u64 == counted,
            "{what}: {found} found, {counted} counted, in the text {:?}",
            String::from_utf8_lossy(self.text)
        );
    }
}

/// The start's name: as declared, else where the first state stands, or none.
fn start_place(trace: &MachineTrace) -> Option<Span> {
    if trace.outline.declared.start {
        return trace.map.start;
    }
    if trace.outline.declared.states {
        return trace.map.states.first().copied();
    }
    // Without Q and start, the first mention is in the first rule, or else in F.
    let first_rule = trace.rules.first().map(|rule| rule.from);
    first_rule.or_else(|| trace.map.finals.first().map(|&(_, span)| span))
}
