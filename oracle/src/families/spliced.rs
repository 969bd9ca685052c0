//! Lines of several descriptions in any order, some of them cut and joined; and texts of many names that are alike.

use super::{Random, examples};

/// Up to twelve lines from two or three descriptions. One line in three is the beginning of one line and the end of another.
pub fn spliced(random: &mut Random) -> Vec<u8> {
    let sources: Vec<String> = (0..2 + random.below(2))
        .map(|_| examples::description(random))
        .collect();
    let lines: Vec<&str> = sources
        .iter()
        .flat_map(|text| text.split_inclusive('\n'))
        .collect();
    let mut out = String::new();
    for _ in 0..1 + random.below(12) {
        let line = random.pick(&lines);
        if random.chance(33) {
            out += before(line, random);
            out += behind(random.pick(&lines), random);
        } else {
            out += line;
        }
    }
    out.into_bytes()
}

/// The line up to a character.
fn before<'a>(line: &'a str, random: &mut Random) -> &'a str {
    &line[..boundary(line, random)]
}

/// The line from a character on.
fn behind<'a>(line: &'a str, random: &mut Random) -> &'a str {
    &line[boundary(line, random)..]
}

/// Where a character begins, or the line's end.
fn boundary(line: &str, random: &mut Random) -> usize {
    let at = random.below(line.chars().count() + 1);
    line.char_indices()
        .nth(at)
        .map_or(line.len(), |(index, _)| index)
}

/// A description with up to some thousand names, in Q, in F or in rules, each mentioned more than once. Most texts have names of one shape only.
pub fn named(random: &mut Random) -> Vec<u8> {
    let shape = random.below(SHAPES.len());
    let mixed = random.chance(25);
    let most = [8, 60, 400, 3000][random.below(4)];
    let names: Vec<String> = (0..1 + random.below(most))
        .map(|_| {
            let shape = if mixed {
                random.below(SHAPES.len())
            } else {
                shape
            };
            SHAPES[shape](random)
        })
        .collect();
    let mut text = String::new();
    for keyword in ["Q", "F"] {
        if random.chance(50) {
            text += &format!("{keyword} = {{{}}}\n", names.join(","));
        }
    }
    for _ in 0..random.below(names.len() + 3) {
        let [from, to] = [0; 2].map(|_| &names[random.below(names.len())]);
        text += &format!("δ({from},{{0,1}})=({to},*,R)\n");
    }
    text.into_bytes()
}

/// The shapes of names: what a hash or a comparison may take for equal.
const SHAPES: [fn(&mut Random) -> String; 6] = [
    // Each letter four times in a row.
    |random| {
        let letters = (0..1 + random.below(4)).map(|_| letter(random).to_string().repeat(4));
        letters.collect()
    },
    // Pairs of letters twice in a row.
    |random| {
        let pairs = (0..1 + random.below(3)).map(|_| {
            let pair: String = [letter(random), letter(random)].iter().collect();
            pair.repeat(2)
        });
        pairs.collect()
    },
    // A long beginning in common.
    |random| format!("{}{}", "q".repeat(60), random.below(4000)),
    // A long end in common.
    |random| format!("q{}{}", random.below(4000), "_".repeat(60)),
    // The same letters in another order, or one of them less.
    |random| {
        (0..3 + random.below(6))
            .map(|_| ['a', 'b'][random.below(2)])
            .collect()
    },
    // Letters of two bytes.
    |random| {
        (0..1 + random.below(3))
            .map(|_| ['α', 'β', 'ÿ', 'ҁ', 'a'][random.below(5)])
            .collect()
    },
];

fn letter(random: &mut Random) -> char {
    char::from(b'a' + random.below(26) as u8)
}
