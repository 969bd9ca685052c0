//! Long lists, and texts of many lines: what is passed over by runs, in order or by line feeds.

use super::{Random, examples};

/// A few declarations with long lists: states in order but for a few, symbols quoted but for a few, blanks among them; a comment behind some.
pub fn listed(random: &mut Random) -> Vec<u8> {
    let mut text = String::new();
    if random.chance(30) {
        text += "blank = '0' // a blank\n";
    }
    for keyword in ["Q", "F"] {
        if random.chance(60) {
            declare(&mut text, keyword, states(random), random);
        }
    }
    for keyword in ["Σ", "Γ"] {
        if random.chance(60) {
            declare(&mut text, keyword, symbols(random), random);
        }
    }
    for _ in 0..random.below(4) {
        rule(&mut text, random);
    }
    text.into_bytes()
}

/// Some 70,000 to 400,000 tokens: rules, comments and blank lines, in half of the texts also lines that fail and second declarations.
pub fn large(random: &mut Random) -> Vec<u8> {
    let broken = random.chance(50);
    let mut text = String::from_utf8(listed(random)).unwrap_or_default();
    for _ in 0..6000 + random.below(24_000) {
        match random.below(16) {
            0 => text += "// what comes next\n",
            1 => text += "\n",
            2 if broken => text += &examples::description(random),
            3 if broken => text += "δ(a,a)=(a,a\n",
            _ => rule(&mut text, random),
        }
    }
    text.into_bytes()
}

/// A declaration, with a comment behind it or not.
fn declare(text: &mut String, keyword: &str, members: Vec<String>, random: &mut Random) {
    let comment = ["", "", " // of this machine", "//"][random.below(4)];
    *text += &format!("{keyword} = {{{}}}{comment}\n", members.join(","));
}

/// Names with ascending numbers; one text in three has some that are lower, or there already.
fn states(random: &mut Random) -> Vec<String> {
    let breaks = random.chance(33);
    let mut number = random.below(50);
    let most = [4, 40, 400][random.below(3)];
    let count = 1 + random.below(most);
    let name = |_| {
        number += 1 + random.below(3);
        if breaks && random.chance(2) {
            number = random.below(number);
        }
        format!("q{number}")
    };
    (0..count).map(name).collect()
}

/// Mostly quoted characters.
fn symbols(random: &mut Random) -> Vec<String> {
    let most = [4, 40, 400][random.below(3)];
    let count = 1 + random.below(most);
    let symbol = |_| match random.below(20) {
        0 => "_".into(),
        1 => "'␣'".into(),
        2 => "a".into(),
        3 => "7".into(),
        4 => "←".into(),
        _ => format!("'{}'", ['x', '0', '_', 'λ', '→', '\''][random.below(6)]),
    };
    (0..count).map(symbol).collect()
}

/// A rule, with a comment behind it or not.
fn rule(text: &mut String, random: &mut Random) {
    let [from, to] = [0; 2].map(|_| random.below(300));
    let read = ["0", "_", "'x'", "{0,1}", "{'λ','0'}"][random.below(5)];
    let write = ["*", "0", "'→'"][random.below(3)];
    let comment = ["", "", "", " // c"][random.below(4)];
    *text += &format!("δ(q{from},{read})=(q{to},{write},R){comment}\n");
}
