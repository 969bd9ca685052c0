//! The faults that can be planted in the stand-in, with their names on the command line.

/// Declares the faults with their names on the command line.
macro_rules! faults {
    ($($(#[$doc:meta])* $fault:ident $name:literal,)*) => {
        /// A fault that can be planted in the stand-in.
        #[derive(Copy, Clone, Debug, PartialEq, Eq)]
        pub enum Fault { $($(#[$doc])* $fault,)* }

        impl Fault {
            pub const ALL: &'static [(Self, &'static str)] = &[$((Self::$fault, $name),)*];

            /// The fault of that name.
            pub fn named(name: &str) -> Option<Self> {
                let found = Self::ALL.iter().find(|(_, own)| *own == name);
                found.map(|&(fault, _)| fault)
            }
        }
    };
}

faults! {
    /// Half a tape as if there were three tapes.
    HalfOfThree "half-of-three",
    /// Heads and input stand at the lowest cell.
    HeadLowest "head-lowest",
    /// The right edge comes one cell early.
    EdgeEarly "edge-early",
    /// The left edge comes one cell early.
    LeftEarly "left-early",
    /// The second and the third tape change places.
    TapesExchanged "tapes-exchanged",
    /// Cells left over are made blank too.
    LeftOverCleared "left-over-cleared",
    /// An entry starts on the marks of the one before where the blank is the same.
    NotAfresh "not-afresh",
    /// On equal tapes and blanks only the cells are made blank that lie as near as the entry before did steps: not its input.
    NearWithoutInput "near-without-input",
    /// The same by the input's length: not the steps.
    NearWithoutSteps "near-without-steps",
    /// Likewise, by both, also where there were other tapes.
    NearOtherTapes "near-other-tapes",
    /// Also where there was another blank.
    NearOtherBlank "near-other-blank",
    /// The first entry takes the cells for blank.
    NearFirst "near-first",
    /// Only on the first tape.
    NearFirstTape "near-first-tape",
    /// The last rule that matches.
    LastRule "last-rule",
    /// A state is where it is mentioned, not its name.
    ByPlace "by-place",
    /// A state's name is compared by its first byte and its length.
    FirstByte "first-byte",
    /// Of equal names the last says whether a state is final.
    LastFinal "last-final",
    /// The next rule is 11 + 7 × tapes words further on, leading comments or not.
    FixedLength "fixed-length",
    /// The second tape's symbol is not looked at.
    FirstSymbol "first-symbol",
    /// Without a start, the first rule's.
    StartOfRule "start-of-rule",
    /// Spent is tested before halted and stuck.
    SpentFirst "spent-first",
    /// Edge is tested before spent.
    EdgeFirst "edge-first",
    /// A step that leaves the tape is counted.
    EdgeCounted "edge-counted",
    /// A step that leaves the tape has written.
    EdgeWritten "edge-written",
    /// Stuck is tested before halted.
    StuckFirst "stuck-first",
    /// One step more than the allowance.
    OneMore "one-more",
    /// Each entry has the whole allowance.
    WholeAllowance "whole-allowance",
    /// The counter counts an entry as one step more.
    CounterMore "counter-more",
    /// The arity of the first rule alone.
    FirstArity "first-arity",
    /// Four tapes are run as three.
    FourTapes "four-tapes",
    /// 10 before 9.
    TenFirst "ten-first",
    /// An input as long as the right half is refused.
    InputAsLong "input-as-long",
    /// An input one longer than the right half is run, cut.
    InputCut "input-cut",
    /// The input's bytes are counted.
    InputBytes "input-bytes",
    /// Escapes in the input are kept.
    InputEscapes "input-escapes",
    /// `_` and `␣` in the input are the blank.
    InputBlanks "input-blanks",
    /// The refused entry's index from 1.
    IndexOneOff "index-one-off",
    /// Entries behind a refused one are read too.
    ReadsOn "reads-on",
    /// Log and sheet as the first reading left them.
    FirstLog "first-log",
    /// The smallest number, not the first entry.
    SmallestNumber "smallest-number",
    /// Each entry runs once it is read.
    RunsAtOnce "runs-at-once",
    /// The cells are made blank before a refusal.
    ClearedFirst "cleared-first",
    /// The answers behind the last are cleared.
    AnswersBehind "answers-behind",
    /// The lengths are added up in 32 bits.
    WrappedSum "wrapped-sum",
    /// Work as long as all texts need.
    WorkForAll "work-for-all",
    /// Work is cleared whatever is answered.
    WorkCleared "work-cleared",
    /// The value of a refusal from 8 on is its number.
    ValueOfUnfit "value-of-unfit",
    /// A short answer row is written as far as it goes.
    ShortAnswer "short-answer",
}
