//! Deliberate faults, switched on from the command line, to see that `oracle self` finds them.

use std::sync::atomic::{AtomicU8, Ordering};

/// A fault that can be planted.
#[derive(Copy, Clone, Debug, PartialEq, Eq)]
pub enum Fault {
    /// The sheet's direction words for L and R are swapped.
    Layout = 1,
    /// The plain form leaves `"` in strings unescaped.
    Form = 2,
    /// The plain form drops the comments that lead a rule.
    Leading = 3,
    /// Words and bytes needed are counted without the header comments.
    Sizes = 4,
}

static PLANTED: AtomicU8 = AtomicU8::new(0);

impl Fault {
    /// The fault called `name` on the command line.
    pub fn named(name: &str) -> Option<Self> {
        Some(match name {
            "layout" => Self::Layout,
            "form" => Self::Form,
            "leading" => Self::Leading,
            "sizes" => Self::Sizes,
            _ => return None,
        })
    }
}

/// Switches `fault` on for the rest of the run.
pub fn plant(fault: Fault) {
    PLANTED.store(fault as u8, Ordering::Relaxed);
}

/// Whether `fault` is switched on.
pub fn is(fault: Fault) -> bool {
    PLANTED.load(Ordering::Relaxed) == fault as u8
}
