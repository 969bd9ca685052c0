//! The stand-in's machine at work.

use super::{Fault, StandIn};
use crate::head::Head;
use crate::sheet::{RULE_WORDS, TAPE_WORDS};

/// The numbers of the stops.
const HALTED: u64 = 0;
const STUCK: u64 = 1;
const SPENT: u64 = 2;
const EDGE: u64 = 3;

/// With a fault a machine may go on for ever that else stops; no batch of the families takes as many steps.
const TOO_MANY: u64 = 100_000;

/// A machine that was read: its head, what stands in its sheet, and the text that places lead to.
pub struct Machine<'m> {
    pub head: Head,
    pub sheet: &'m [u32],
    pub text: &'m [u8],
}

/// A name as it is compared: its place and its bytes.
type Name<'m> = (u32, &'m [u8]);

impl<'m> Machine<'m> {
    fn name(&self, start: u32, end: u32) -> Name<'m> {
        let bytes = self.text.get(start as usize..end as usize);
        (start, bytes.unwrap_or(&[]))
    }

    fn rule_start(&self) -> usize {
        let [states, sigma, gamma, finals, header, trailing, _] = self.head.counts.in_order();
        (3 * (states + sigma + gamma) + 2 * (finals + header + trailing)) as usize
    }

    pub fn rules(&self, fixed: Option<usize>) -> Vec<&'m [u32]> {
        let mut at = self.rule_start();
        let mut rules = Vec::new();
        for _ in 0..self.head.counts.rules {
            let least = fixed.unwrap_or(RULE_WORDS);
            let Some(rule) = self.sheet.get(at..).filter(|rule| rule.len() >= least) else {
                break;
            };
            rules.push(rule);
            at += fixed.unwrap_or(rule[0] as usize);
        }
        rules
    }
}

/// How an entry's run ended.
pub struct Ended {
    pub stop: u64,
    pub steps: u64,
}

impl StandIn {
    fn same(&self, one: Name<'_>, other: Name<'_>) -> bool {
        if self.has(Fault::ByPlace) {
            return one.0 == other.0;
        }
        if self.has(Fault::FirstByte) {
            return one.1.len() == other.1.len() && one.1.first() == other.1.first();
        }
        one.1 == other.1
    }

    fn is_final(&self, machine: &Machine<'_>, state: Name<'_>) -> bool {
        let count = machine.head.counts.states as usize;
        let mut states = machine.sheet.chunks_exact(3).take(count);
        let is = |words: &&[u32]| self.same(machine.name(words[0], words[1]), state);
        let found = match self.has(Fault::LastFinal) {
            true => states.rfind(is),
            false => states.find(is),
        };
        found.is_some_and(|words| words[2] == 1)
    }

    /// The words of the first rule that matches.
    fn search<'m>(
        &self,
        machine: &Machine<'m>,
        rules: &[&'m [u32]],
        state: Name<'_>,
        symbols: &[u32],
    ) -> Option<&'m [u32]> {
        let looked_at = if self.has(Fault::FirstSymbol) {
            1
        } else {
            symbols.len()
        };
        let matches = |rule: &&&[u32]| {
            let read = |k| rule[RULE_WORDS + TAPE_WORDS * k];
            self.same(machine.name(rule[1], rule[2]), state)
                && (0..looked_at).all(|k| read(k) == symbols[k])
        };
        let mut rules = rules.iter();
        let found = match self.has(Fault::LastRule) {
            true => rules.rfind(matches),
            false => rules.find(matches),
        };
        found.copied()
    }

    /// The cell of tape k at an offset.
    fn cell(&self, half: usize, tapes: usize, k: usize, offset: usize) -> usize {
        let k = match k {
            1 | 2 if tapes == 3 && self.has(Fault::TapesExchanged) => 3 - k,
            k => k,
        };
        2 * half * k + offset
    }

    /// The offset after a move, none where the head would leave its tape.
    fn moved(&self, half: usize, direction: u32, offset: usize) -> Option<usize> {
        let first = usize::from(self.has(Fault::LeftEarly) && half > 1);
        let last = 2 * half - 1 - usize::from(self.has(Fault::EdgeEarly) && half > 1);
        match direction {
            0 if offset <= first => None,
            0 => Some(offset - 1),
            1 if offset >= last => None,
            1 => Some(offset + 1),
            _ => Some(offset),
        }
    }

    /// Runs a machine from its start, with so many steps left.
    pub fn run(&self, machine: &Machine<'_>, cells: &mut [u32], left: u64) -> Ended {
        let mut work = AtWork::new(self, machine, cells.len());
        let left = left.saturating_add(self.has(Fault::OneMore).into());
        let mut steps = 0;
        loop {
            let spent = steps >= left.min(TOO_MANY);
            match work.step(cells, spent) {
                Ok(()) => steps += 1,
                Err(stop) => {
                    steps += u64::from(stop == EDGE && self.has(Fault::EdgeCounted));
                    return Ended { stop, steps };
                }
            }
        }
    }
}

/// A machine at work: its rules, half a tape, the offset of each head, and its state, if it has one.
struct AtWork<'m> {
    by: &'m StandIn,
    machine: &'m Machine<'m>,
    rules: Vec<&'m [u32]>,
    half: usize,
    heads: Vec<usize>,
    state: Option<Name<'m>>,
}

impl<'m> AtWork<'m> {
    fn new(by: &'m StandIn, machine: &'m Machine<'m>, cells: usize) -> Self {
        let tapes = usize::from(machine.head.tapes);
        let half = by.half(cells, tapes);
        let fixed = RULE_WORDS + TAPE_WORDS * tapes;
        let rules = machine.rules(by.has(Fault::FixedLength).then_some(fixed));
        let start = machine.head.start;
        let mut state = start.map(|place| machine.name(place.start, place.end));
        if let (None, [first, ..], true) = (state, &rules[..], by.has(Fault::StartOfRule)) {
            state = Some(machine.name(first[1], first[2]));
        }
        let at = if by.has(Fault::HeadLowest) { 0 } else { half };
        let heads = vec![at; tapes.min(3)];
        Self {
            by,
            machine,
            rules,
            half,
            heads,
            state,
        }
    }

    /// The cell under each head.
    fn scanned(&self) -> Vec<usize> {
        let heads = self.heads.iter().enumerate();
        let tapes = self.heads.len();
        let cell = |(k, &offset)| self.by.cell(self.half, tapes, k, offset);
        heads.map(cell).collect()
    }

    /// The rule that applies, or the stop.
    fn due(&self, symbols: &[u32]) -> Result<&'m [u32], u64> {
        let name = self.state.ok_or(STUCK)?;
        let found = self.by.search(self.machine, &self.rules, name, symbols);
        if found.is_none() && self.by.has(Fault::StuckFirst) {
            return Err(STUCK);
        }
        if self.by.is_final(self.machine, name) {
            return Err(HALTED);
        }
        found.ok_or(STUCK)
    }

    /// One step, or the stop; `spent` says that none is left.
    fn step(&mut self, cells: &mut [u32], spent: bool) -> Result<(), u64> {
        if spent && self.by.has(Fault::SpentFirst) {
            return Err(SPENT);
        }
        let scanned = self.scanned();
        let symbols: Vec<u32> = scanned.iter().map(|&at| cells[at]).collect();
        let rule = self.due(&symbols)?;
        let action = |k: usize| &rule[RULE_WORDS + TAPE_WORDS * k..];
        let heads = self.heads.iter().enumerate();
        let moves = heads.map(|(k, &offset)| self.by.moved(self.half, action(k)[6], offset));
        let moved: Option<Vec<usize>> = moves.collect();
        if spent && !(moved.is_none() && self.by.has(Fault::EdgeFirst)) {
            return Err(SPENT);
        }
        if moved.is_some() || self.by.has(Fault::EdgeWritten) {
            for (k, &at) in scanned.iter().enumerate() {
                cells[at] = action(k)[3];
            }
        }
        self.heads = moved.ok_or(EDGE)?;
        self.state = Some(self.machine.name(rule[3], rule[4]));
        Ok(())
    }
}
