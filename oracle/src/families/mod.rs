//! Families of texts. Each text is a function of its family, an index and a seed.

mod damaged;
mod examples;
mod filled;
mod glyphs;
mod grammar;
pub mod limits;
mod long;
mod random;
mod short;
mod soup;
mod spliced;

pub use damaged::edit;
pub use random::Random;

/// A family of texts.
#[derive(Copy, Clone, Debug, PartialEq, Eq)]
pub enum Family {
    /// Texts by the grammar, with every declaration, spelling, gap, comment and escape.
    Grammar,
    /// Texts of `Grammar` with characters, bytes and lines changed.
    Damaged,
    /// Tokens in any order.
    Soup,
    /// Short texts over a small alphabet, each exactly once.
    Short,
    /// Short lists of lines, each exactly once: every way in which comments attach.
    Lines,
    /// Texts at and beyond the limits.
    Limits,
    /// The examples with one character changed, each change exactly once, then with more changes.
    Changed,
    /// Several descriptions one behind the other.
    Joined,
    /// Short texts over a second alphabet, of white space, quotes and blanks, each exactly once.
    Odd,
    /// Lines of every form, filled with tokens that may not stand there.
    Filled,
    /// Lines of several descriptions in any order, some cut and joined.
    Spliced,
    /// Texts of many names that are alike.
    Named,
    /// Long lists of states in order and of quoted symbols.
    Listed,
    /// Texts of many lines.
    Large,
    /// Many different characters in rules and in the input.
    Glyphs,
}

impl Family {
    pub const ALL: [Self; 15] = [
        Self::Grammar,
        Self::Damaged,
        Self::Soup,
        Self::Short,
        Self::Lines,
        Self::Limits,
        Self::Changed,
        Self::Joined,
        Self::Odd,
        Self::Filled,
        Self::Spliced,
        Self::Named,
        Self::Listed,
        Self::Large,
        Self::Glyphs,
    ];

    /// Those of which answers are stored for the gate.
    pub const STORED: [Self; 6] = [
        Self::Grammar,
        Self::Damaged,
        Self::Soup,
        Self::Short,
        Self::Lines,
        Self::Limits,
    ];

    /// The name on the command line.
    pub fn name(self) -> &'static str {
        match self {
            Self::Grammar => "grammar",
            Self::Damaged => "damaged",
            Self::Soup => "soup",
            Self::Short => "short",
            Self::Lines => "lines",
            Self::Limits => "limits",
            Self::Changed => "changed",
            Self::Joined => "joined",
            Self::Odd => "odd",
            Self::Filled => "filled",
            Self::Spliced => "spliced",
            Self::Named => "named",
            Self::Listed => "listed",
            Self::Large => "large",
            Self::Glyphs => "glyphs",
        }
    }

    /// The family of that name.
    pub fn named(name: &str) -> Option<Self> {
        Self::ALL.into_iter().find(|family| family.name() == name)
    }

    /// The text with number `index`. For `Short`, `Odd`, `Lines` and `Changed` the seed is an offset into
    /// the list of all texts, for `Limits` it means nothing.
    pub fn text(self, index: u64, seed: u64) -> Vec<u8> {
        match self {
            Self::Grammar => grammar::text(&mut self.random(index, seed)).into_bytes(),
            Self::Damaged => damaged::text(&mut self.random(index, seed)),
            Self::Soup => soup::text(&mut self.random(index, seed)).into_bytes(),
            Self::Short => short::characters(seed + index).into_bytes(),
            Self::Lines => short::lines(seed + index).into_bytes(),
            Self::Limits => limits::text(index),
            Self::Changed => examples::changed(seed + index, &mut self.random(index, seed)),
            Self::Joined => examples::joined(&mut self.random(index, seed)),
            Self::Odd => short::odd(seed + index).into_bytes(),
            Self::Filled => filled::text(&mut self.random(index, seed)).into_bytes(),
            Self::Spliced => spliced::spliced(&mut self.random(index, seed)),
            Self::Named => spliced::named(&mut self.random(index, seed)),
            Self::Listed => long::listed(&mut self.random(index, seed)),
            Self::Large => long::large(&mut self.random(index, seed)),
            Self::Glyphs => glyphs::text(&mut self.random(index, seed)),
        }
    }

    /// How many of `count` texts there are: the limits are a fixed list.
    pub fn at_most(self, count: u64) -> u64 {
        match self {
            Self::Limits => limits::COUNT.min(count),
            _ => count,
        }
    }

    /// The part of a run over all families, in hundredths; those behind `Lines` come on top.
    fn share(self) -> u64 {
        match self {
            Self::Grammar => 35,
            Self::Damaged => 25,
            Self::Soup => 10,
            Self::Short | Self::Lines => 15,
            Self::Limits => 100,
            Self::Changed | Self::Joined | Self::Odd | Self::Filled | Self::Spliced => 10,
            Self::Named | Self::Listed | Self::Glyphs => 1,
            Self::Large => 0,
        }
    }

    fn random(self, index: u64, seed: u64) -> Random {
        let family = Self::ALL.iter().position(|&f| f == self).unwrap_or(0) as u64;
        Random::new([seed, family, index])
    }
}

/// The texts of a run: a number of them, from one family or from all.
#[derive(Copy, Clone, Debug)]
pub struct Selection {
    pub count: u64,
    pub seed: u64,
    pub only: Option<Family>,
}

impl Selection {
    /// Each family with its number of texts and their seed. The families that list all short
    /// texts start with the shortest, whatever the seed.
    pub fn families(self) -> impl Iterator<Item = (Family, u64, u64)> {
        Family::ALL.into_iter().filter_map(move |family| {
            let count = match self.only {
                None => self.count * family.share() / 100,
                Some(only) if only == family => self.count,
                Some(_) => return None,
            };
            let seed = match family {
                Family::Short | Family::Odd | Family::Lines => 0,
                _ => self.seed,
            };
            Some((family, family.at_most(count), seed))
        })
    }
}

/// The families reach what they are there for.
#[cfg(test)]
mod tests {
    use std::collections::BTreeSet;

    use super::*;
    use crate::head::flags;
    use crate::reading::{Reading, read};
    use crate::spec::MachineSpec;

    /// What a machine has of the things that are to be covered.
    fn features(spec: &MachineSpec) -> Vec<String> {
        let declared = flags(spec.declared).map(|flag| if flag { 'x' } else { '-' });
        let mut found = vec![
            format!("declared {}", declared.iter().collect::<String>()),
            format!("kind {:?}", spec.kind),
            format!("output {:?}", std::mem::discriminant(&spec.output)),
        ];
        let mut note = |holds: bool, what: &str| {
            if holds {
                found.push(what.into());
            }
        };
        let rules = &spec.transitions;
        note(!spec.comments.header.is_empty(), "header");
        note(!spec.comments.trailing.is_empty(), "trailing");
        note(spec.comments.header.iter().any(String::is_empty), "empty");
        note(rules.iter().any(|r| r.leading.len() > 1), "leading");
        note(rules.iter().any(|r| r.comment.is_some()), "comment");
        note(rules.iter().any(|r| r.comment.as_deref() == Some("")), "//");
        note(rules.iter().any(|r| r.read.len() == 5), "five tapes");
        note(rules.iter().any(|r| r.read.contains(&'\'')), "'''");
        note(rules.iter().any(|r| r.read.contains(&'\u{85}')), "odd");
        note(spec.input.contains('\n'), "line feed in the input");
        note(spec.name.contains('"'), "quote in the name");
        note(spec.states.iter().any(|s| s.is_final), "final");
        note(spec.states.iter().any(|s| s.name == "δ"), "keyword name");
        found
    }

    /// What `count` texts of a family have, diagnostic codes and refusals included.
    fn covered(family: Family, count: u64) -> BTreeSet<String> {
        let mut found = BTreeSet::new();
        for index in 0..count {
            let text = family.text(index, 1);
            match read(&text) {
                Reading::NotUtf8(_) => drop(found.insert("refused 3".into())),
                Reading::OutsideSet(_) => drop(found.insert("refused 4".into())),
                Reading::Diagnostics(records) => {
                    found.extend(records.iter().map(|r| format!("E{:03}", r.code)));
                }
                Reading::Machine(machine) => {
                    let (spec, _) = machine.expanded().expect("a small machine");
                    found.extend(features(spec));
                }
            }
        }
        found
    }

    #[test]
    fn grammar_covers_the_language() {
        let found = covered(Family::Grammar, 20_000);
        let flags = found.iter().filter(|f| f.starts_with("declared")).count();
        let kinds = found.iter().filter(|f| f.starts_with("kind")).count();
        let outputs = found.iter().filter(|f| f.starts_with("output")).count();
        assert_eq!((flags, kinds, outputs), (32, 4, 3), "{found:?}");
        for what in [
            "header",
            "trailing",
            "empty",
            "leading",
            "comment",
            "//",
            "five tapes",
            "'''",
            "odd",
            "line feed in the input",
            "quote in the name",
            "final",
            "keyword name",
            "E001",
            "E003",
            "E009",
            "E010",
            "E011",
        ] {
            assert!(found.contains(what), "{what} is missing");
        }
    }

    #[test]
    fn damage_covers_the_diagnostics_and_refusals() {
        let found = covered(Family::Damaged, 20_000);
        for what in [
            "E001",
            "E002",
            "E003",
            "E008",
            "E009",
            "E010",
            "E011",
            "refused 3",
            "refused 4",
        ] {
            assert!(found.contains(what), "{what} is missing");
        }
    }
}
