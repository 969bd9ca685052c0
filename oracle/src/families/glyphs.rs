//! Descriptions with many different characters, most without Γ: what is noted of rules and of the input, each character once.

use super::Random;
use crate::chars;

/// A part of the set, from a few characters to all of it; from it a blank, Σ, rules and an input, each of them there or not.
pub fn text(random: &mut Random) -> Vec<u8> {
    let special = ['\n', '"', '\\'];
    let set: Vec<char> = chars::admitted().filter(|c| !special.contains(c)).collect();
    let part = [2, 20, 200, set.len()][random.below(4)];
    let start = random.below(set.len());
    let mut glyph = |random: &mut Random| set[(start + random.below(part)) % set.len()];
    let count = [4, 40, 400, 2000][random.below(4)];
    let mut text = String::new();
    if random.chance(30) {
        text += &format!("blank = '{}'\n", glyph(random));
    }
    if random.chance(30) {
        let members: Vec<String> = (0..1 + random.below(count))
            .map(|_| format!("'{}'", glyph(random)))
            .collect();
        text += &format!("Σ = {{{}}}\n", members.join(","));
    }
    for _ in 0..random.below(count / 2) {
        rule(&mut text, random, &mut glyph);
    }
    if random.chance(70) {
        text += &format!("input \"{}\"\n", value(random, count, &mut glyph));
    }
    text.into_bytes()
}

/// A rule of one tape or two, with a set or not.
fn rule(text: &mut String, random: &mut Random, glyph: &mut impl FnMut(&mut Random) -> char) {
    let [a, b, c, d] = [0; 4].map(|_| glyph(random));
    *text += &match random.below(4) {
        0 => format!("δ(a,{{'{a}','{b}'}})=(b,'{c}',R)\n"),
        1 => format!("δ(a,('{a}',{{'{b}','{c}'}}))=(a,('{d}',*),(L,N))\n"),
        _ => format!("δ(a,'{a}')=(b,'{b}',L)\n"),
    };
}

/// What stands in an input's quotes: characters, runs of one of them, escapes that say something and others.
fn value(random: &mut Random, count: usize, glyph: &mut impl FnMut(&mut Random) -> char) -> String {
    let mut value = String::new();
    for _ in 0..random.below(count) {
        let c = glyph(random);
        match random.below(20) {
            0 => value.extend(['\\', c]),
            1 => value += ["\\n", "\\t", "\\\\", "\\\""][random.below(4)],
            2 => value.extend([c; 3]),
            _ => value.push(c),
        }
    }
    value
}
