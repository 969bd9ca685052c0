//! A machine at work, as paper 02's request 2 has it: by the names of its states and the codes of its symbols, each step by a
//! look through all rules.

use crate::spec::{MachineSpec, TransitionSpec};
use crate::symbol::{Dir, MAX_TAPES};

/// Why a run stops; the number is the one that an answer has.
#[derive(Copy, Clone, Debug, PartialEq, Eq)]
pub enum Stop {
    Halted = 0,
    Stuck = 1,
    Spent = 2,
    Edge = 3,
}

/// How a run ended: why, and its own steps.
#[derive(Copy, Clone, Debug, PartialEq, Eq)]
pub struct Ended {
    pub stop: Stop,
    pub steps: u64,
}

/// A tape: its cells from position minus half to half less one, and the position of its head.
struct Tape<'c> {
    cells: &'c mut [u32],
    half: i64,
    head: i64,
}

impl<'c> Tape<'c> {
    /// A blank tape on these cells, its head at position 0.
    fn blank(cells: &'c mut [u32], blank: char) -> Self {
        cells.fill(u32::from(blank));
        let half = cells.len() as i64 / 2;
        let head = 0;
        Self { cells, half, head }
    }

    fn at(&mut self, position: i64) -> &mut u32 {
        &mut self.cells[(self.half + position) as usize]
    }

    fn under_head(&mut self) -> &mut u32 {
        self.at(self.head)
    }

    /// Whether the head stays on its tape with this move.
    fn has_room(&self, dir: Dir) -> bool {
        (-self.half..self.half).contains(&(self.head + dir.delta()))
    }
}

/// Half a tape, as large as fits when so many cells are split evenly over so many tapes.
fn half(cells: usize, tapes: u8) -> usize {
    cells / (2 * usize::from(tapes))
}

/// The number for which a machine that was read is refused on so many cells.
pub fn unfit(machine: &MachineSpec, cells: usize) -> Option<u32> {
    let tapes = machine.tapes;
    let arity = usize::from(tapes);
    if tapes == 0 || arity > MAX_TAPES {
        return Some(8);
    }
    if machine
        .transitions
        .iter()
        .any(|rule| rule.read.len() != arity)
    {
        return Some(9);
    }
    let half = half(cells, tapes);
    (half == 0 || machine.input.chars().count() > half).then_some(10)
}

/// Whether the state of this name is final. Of a name that `Q` repeats one state has the mark.
fn is_final(machine: &MachineSpec, name: &str) -> bool {
    let mut states = machine.states.iter();
    states.any(|state| state.is_final && state.name == name)
}

/// The first rule in list order whose state and symbols match.
fn first_rule<'m>(
    machine: &'m MachineSpec,
    state: &str,
    tapes: &mut [Tape<'_>],
) -> Option<&'m TransitionSpec> {
    let symbols: Vec<u32> = tapes.iter_mut().map(|tape| *tape.under_head()).collect();
    let matches = |rule: &&TransitionSpec| {
        rule.from == state
            && rule
                .read
                .iter()
                .map(|&c| u32::from(c))
                .eq(symbols.iter().copied())
    };
    machine.transitions.iter().find(matches)
}

/// Runs a machine that is not unfit from its start, with so many steps left. Its tapes are split from the cells from the front;
/// cells left over are not touched.
pub fn run(machine: &MachineSpec, cells: &mut [u32], left: u64) -> Ended {
    let length = 2 * half(cells.len(), machine.tapes);
    let tapes = cells.chunks_exact_mut(length).take(machine.tapes.into());
    let mut tapes: Vec<Tape<'_>> = tapes
        .map(|cells| Tape::blank(cells, machine.blank))
        .collect();
    for (position, c) in machine.input.chars().enumerate() {
        *tapes[0].at(position as i64) = u32::from(c);
    }
    let mut state = machine.start.as_str();
    let mut steps = 0;
    let stop = loop {
        if is_final(machine, state) {
            break Stop::Halted;
        }
        let Some(rule) = first_rule(machine, state, &mut tapes) else {
            break Stop::Stuck;
        };
        if steps == left {
            break Stop::Spent;
        }
        let mut moves = rule.dir.iter().zip(&tapes);
        if !moves.all(|(&dir, tape)| tape.has_room(dir)) {
            break Stop::Edge;
        }
        for (k, tape) in tapes.iter_mut().enumerate() {
            *tape.under_head() = u32::from(rule.write[k]);
            tape.head += rule.dir[k].delta();
        }
        state = &rule.to;
        steps += 1;
    };
    Ended { stop, steps }
}
