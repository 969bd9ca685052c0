//! A Rust interpreter for machines of one tape, in the manner of the original's machine.rs: symbols and states are numbers, and a
//! dense table has a packed entry for each state and symbol.

use crate::batch::Stop;
use crate::spec::MachineSpec;
use crate::symbol::{Dir, State, Symbol};

/// An entry of δ in one word. Its little-endian bytes are as in machine.rs: byte 0 the move (0 `L`, 1 `R`, 2 `N`, 3 for an
/// undefined entry), byte 1 the symbol written, bytes 2 and 3 the next state, and bytes 4 to 7 the row of the next state.
#[derive(Copy, Clone)]
struct Packed(u64);

impl Packed {
    const UNDEFINED: Self = Self(3);

    fn new(dir: Dir, write: Symbol, next: State, row: u32) -> Self {
        let dir = match dir {
            Dir::L => 0,
            Dir::R => 1,
            Dir::N => 2,
        };
        let [next_low, next_high] = next.get().to_le_bytes();
        let [r0, r1, r2, r3] = row.to_le_bytes();
        Self(u64::from_le_bytes([
            dir,
            write.get(),
            next_low,
            next_high,
            r0,
            r1,
            r2,
            r3,
        ]))
    }

    fn dir(self) -> u8 {
        self.0.to_le_bytes()[0]
    }

    fn write(self) -> u8 {
        self.0.to_le_bytes()[1]
    }

    fn row(self) -> usize {
        (self.0 >> 32) as usize
    }
}

/// A tape of symbols, the blank 0, and a head.
pub struct Tape {
    symbols: Vec<u8>,
    half: usize,
}

impl Tape {
    /// A tape of so many cells.
    pub fn new(cells: usize) -> Self {
        let half = cells / 2;
        let symbols = vec![0; 2 * half];
        Self { symbols, half }
    }

    /// The symbols that are not blank.
    pub fn marks(&self) -> usize {
        self.symbols.iter().filter(|&&symbol| symbol != 0).count()
    }
}

/// The blank, and then the other glyphs of Γ in their order.
fn glyphs(machine: &MachineSpec) -> Vec<char> {
    let others = machine.tape_alphabet.iter().copied();
    let others = others.filter(|&c| c != machine.blank);
    std::iter::once(machine.blank).chain(others).collect()
}

/// A machine without an input. A final state's row has no entry that is defined.
pub struct Dense {
    table: Vec<Packed>,
    finals: Vec<bool>,
    stride: usize,
    start: usize,
}

impl Dense {
    pub fn new(machine: &MachineSpec) -> Self {
        let glyphs = glyphs(machine);
        let symbol = |glyph| {
            glyphs
                .iter()
                .position(|&c| c == glyph)
                .expect("a symbol of Γ")
        };
        let state = |name: &str| {
            let mut states = machine.states.iter();
            states
                .position(|state| state.name == name)
                .expect("a state of Q")
        };
        let stride = glyphs.len();
        let mut table = vec![Packed::UNDEFINED; stride * machine.states.len()];
        let finals: Vec<bool> = machine.states.iter().map(|state| state.is_final).collect();
        for rule in machine.transitions.iter().rev() {
            let (from, to) = (state(&rule.from), state(&rule.to));
            if !finals[from] {
                let (write, next) = (symbol(rule.write[0]) as u8, State::new(to as u16));
                let row = (to * stride) as u32;
                table[from * stride + symbol(rule.read[0])] =
                    Packed::new(rule.dir[0], Symbol::new(write), next, row);
            }
        }
        let start = state(&machine.start) * stride;
        Self {
            table,
            finals,
            stride,
            start,
        }
    }

    /// Runs from the start on a blank tape: why it stops, and its steps.
    pub fn run(&self, tape: &mut Tape, left: u64) -> (Stop, u64) {
        tape.symbols.fill(0);
        let (mut at, mut row) = (tape.half, self.start);
        let mut steps = 0;
        loop {
            let entry = self.table[row + usize::from(tape.symbols[at])];
            if entry.dir() == 3 {
                let stop = match self.finals[row / self.stride] {
                    true => Stop::Halted,
                    false => Stop::Stuck,
                };
                return (stop, steps);
            }
            if steps == left {
                return (Stop::Spent, steps);
            }
            let to = match entry.dir() {
                0 => at.wrapping_sub(1),
                1 => at + 1,
                _ => at,
            };
            if to >= tape.symbols.len() {
                return (Stop::Edge, steps);
            }
            tape.symbols[at] = entry.write();
            row = entry.row();
            at = to;
            steps += 1;
        }
    }
}
