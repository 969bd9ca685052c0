//! Texts at and beyond the limits.
//!
//! Left out, since the original would not come to an end: a long name in `F` that is absent from
//! a `Q` with long names, which it compares letter by letter to suggest one.

use crate::chars;
use crate::outcome::MAX_TEXT;

/// How many texts there are.
pub const COUNT: u64 = TEXTS.len() as u64;

/// Text number `index`, from the start again behind the last.
pub fn text(index: u64) -> Vec<u8> {
    TEXTS[(index % COUNT) as usize]()
}

const RULE: &str = "δ(a,a)=(a,a,R)\n";

const TEXTS: [fn() -> Vec<u8>; 79] = [
    // Lengths.
    || vec![],
    || fill("\n", MAX_TEXT),
    || fill(" ", MAX_TEXT),
    || fill(" ", MAX_TEXT + 1),
    || fill("a", MAX_TEXT),
    || fill("// c\n", MAX_TEXT),
    || fill("//\n", MAX_TEXT + 1),
    || around("// ", "c", "", MAX_TEXT),
    || around("machine \"", "\\", "", MAX_TEXT),
    || around("machine \"", "\\n", "\"", MAX_TEXT),
    || around("input \"", "δ", "\"", MAX_TEXT - 1),
    || fill("'", MAX_TEXT),
    || fill("'''", MAX_TEXT),
    || fill("0", MAX_TEXT),
    // Not UTF-8 and outside the set, at the very end.
    || around("", "a", "\u{2C2}", MAX_TEXT),
    || [fill("a", MAX_TEXT - 1), vec![0xC3]].concat(),
    || [fill("א", MAX_TEXT - 2), vec![0xE2, 0x90]].concat(),
    // The list program's limit.
    || around("// ", "c", "\n", 2048),
    || around("// ", "c", "\n", 2049),
    || fill("Q={}\n", 2048),
    || fill("fail\n", 5 * 1023),
    || fill("fail\n", 5 * 1024),
    || fill("fail\n", 5 * 1025),
    // Forms just below, at and above the longest.
    || form_of_length(MAX_TEXT - 1),
    || form_of_length(MAX_TEXT),
    || form_of_length(MAX_TEXT + 1),
    // 262,144 rules, and one more.
    || fill(RULE, MAX_TEXT),
    || read_sets(6, 8, 0),
    || [read_sets(6, 8, 0), RULE.into()].concat(),
    || [RULE.as_bytes(), &read_sets(6, 8, 0)].concat(),
    || {
        [
            read_sets(5, 8, 0),
            "// c\n".into(),
            read_sets(5, 8, 0),
            RULE.into(),
        ]
        .concat()
    },
    || {
        [
            read_sets(6, 8, 0),
            "// c\n".into(),
            read_sets(6, 8, 0),
            RULE.into(),
        ]
        .concat()
    },
    || read_sets(18, 2, 0),
    || read_sets(1, 262_144, 0),
    || read_sets(1, 262_145, 0),
    || read_sets(19, 2, 0),
    || read_sets(64, 2, 0),
    || read_sets(65, 2, 3),
    || read_sets(32, 4, 0),
    || [RULE.as_bytes(), &read_sets(64, 2, 0), RULE.as_bytes()].concat(),
    // Expansions that no memory holds.
    || read_sets(18, 2, 1_000),
    || read_sets(18, 2, 690_000),
    || {
        [
            &b"// h\nF={a}\n"[..],
            &read_sets(17, 2, 5_000),
            &read_sets(17, 2, 9_000),
        ]
        .concat()
    },
    || [read_sets(18, 2, 1_000), "fail\n".into()].concat(),
    || long_names("{0,1}", 18, 1_000_000),
    || [&b"Sigma={x}\nGamma={y,y}\n"[..], &read_sets(18, 2, 1_000)].concat(),
    || {
        [
            &b"blank=0\nQ={a}\nF={a}\n"[..],
            &read_sets(18, 2, 1_000),
            b"// t",
        ]
        .concat()
    },
    // Arities.
    || read_sets(0, 1, 1),
    || read_sets(0, 1, 255),
    || read_sets(0, 1, 256),
    || read_sets(0, 1, 100_000),
    || read_sets(0, 1, 699_000),
    // Long names.
    || around("start = ", "q", "\n", MAX_TEXT),
    || around("Q = {", "q", "}\n", MAX_TEXT),
    || around("F = {", "δ", "}\n", MAX_TEXT - 1),
    || long_names("0", 1, 2_000_000),
    || around("δ(a,a)=(a,a,R) // ", "c", "\n", MAX_TEXT),
    || [fill("// c\n", MAX_TEXT - 100), RULE.into()].concat(),
    || {
        [
            b"kind beaver\n",
            &fill("// c\n", MAX_TEXT - 100)[..],
            RULE.as_bytes(),
        ]
        .concat()
    },
    // Many names.
    || numbered("Q={", ",", "}\n", 400_000),
    || numbered("F={", ",", "}\n", 400_000),
    || numbered("", ",a)=(a,a,R)\n", "", 150_000),
    || {
        [
            numbered("Q={", ",", "}\n", 100),
            numbered("F={", ",", "}\n", 1_000),
        ]
        .concat()
    },
    // Names that a hash of four bytes at a step may take for one another.
    || in_quads(20_000),
    || in_quads(200_000),
    // Many diagnostics.
    || fill("a\n", MAX_TEXT),
    || around("F={a", ",a", "}\n", MAX_TEXT - 1),
    || fill("tapes=1\n", MAX_TEXT),
    || [b"Q={}\n", &numbered("F={", ",", "}\n", 300_000)[..]].concat(),
    || fill("δ(a,a)=(a,a,(R,R))\nfail\n", 24 * 50_000),
    || {
        [
            b"tapes=256\n",
            &fill("F={a,a}\nfail\n\"x\n", 16 * 20_000)[..],
        ]
        .concat()
    },
    // Numbers.
    || b"tapes = 18446744073709551615".to_vec(),
    || b"tapes = 18446744073709551616".to_vec(),
    || b"tapes = 36893488147419103232".to_vec(),
    || around("tapes = ", "0", "255\n", MAX_TEXT),
    || around("tapes = ", "9", "\n", 100_000),
    // Every glyph.
    || every_glyph("Γ = {", "}\n"),
    || every_glyph("δ(a,{", "})=(a,*,R)\n"),
    || input_of_every_glyph(),
];

/// As many whole pieces as fit into `length` bytes, and spaces behind them.
pub fn fill(piece: &str, length: usize) -> Vec<u8> {
    around("", piece, "", length)
}

/// `before`, as many whole pieces as fit, and `after`; spaces in front make up the length.
fn around(before: &str, piece: &str, after: &str, length: usize) -> Vec<u8> {
    let room = length - before.len() - after.len();
    let spaces = " ".repeat(room % piece.len());
    let pieces = piece.repeat(room / piece.len());
    [spaces.as_str(), before, &pieces, after]
        .concat()
        .into_bytes()
}

/// A text whose plain form has `length` bytes.
fn form_of_length(length: usize) -> Vec<u8> {
    let rest = "machine \"\"\nkind transducer\ninput \"\"\noutput word\ntapes = 1\nF = {}\n";
    let name = "n".repeat(length - rest.len());
    format!("machine\"{name}\"").into_bytes()
}

/// One rule with `sets` read sets of `size` symbols each and `singles` tapes of one symbol.
pub fn read_sets(sets: usize, size: usize, singles: usize) -> Vec<u8> {
    let members: Vec<String> = (0..size).map(|i| (i % 10).to_string()).collect();
    let set = format!("{{{}}}", members.join(","));
    let mut reads = vec![set.as_str(); sets];
    reads.resize(sets + singles, "x");
    let mut writes = vec!["*"; sets];
    writes.resize(sets + singles, "y");
    let moves = vec!["L"; sets + singles];
    format!(
        "δ(a,({}))=(b,({}),({}))\n",
        reads.join(","),
        writes.join(","),
        moves.join(",")
    )
    .into_bytes()
}

/// One rule with two names of `length` bytes and `sets` reads.
fn long_names(read: &str, sets: usize, length: usize) -> Vec<u8> {
    let (from, to) = ("f".repeat(length), "t".repeat(length));
    let reads = vec![read; sets].join(",");
    let writes = vec!["*"; sets].join(",");
    let moves = vec!["N"; sets].join(",");
    format!("δ({from},({reads}))=({to},({writes}),({moves}))").into_bytes()
}

/// Names q0, q1, ... with `separator` between them; without `before`, one rule for each.
fn numbered(before: &str, separator: &str, after: &str, count: usize) -> Vec<u8> {
    let prefix = if before.is_empty() { "δ(q" } else { "q" };
    let names: Vec<String> = (0..count).map(|i| format!("{prefix}{i}")).collect();
    let mut out = [before, &names.join(separator)].concat();
    if before.is_empty() {
        out.push_str(separator);
    }
    out.push_str(after);
    out.into_bytes()
}

/// Name number `index` of those whose letters each stand four times: the index with 52 letters for digits, three at least.
pub fn quads(index: usize) -> String {
    let letters: Vec<char> = ('a'..='z').chain('A'..='Z').collect();
    let mut name = String::new();
    let mut rest = index;
    while rest > 0 || name.len() < 12 {
        name.extend([letters[rest % 52]; 4]);
        rest /= 52;
    }
    name
}

/// So many names of letters that each stand four times, in `Q`.
fn in_quads(count: usize) -> Vec<u8> {
    let names: Vec<String> = (0..count).map(quads).collect();
    format!("Q={{{}}}\n", names.join(",")).into_bytes()
}

/// Every admitted character but line feed, quoted.
fn every_glyph(before: &str, after: &str) -> Vec<u8> {
    let glyphs = chars::admitted().filter(|&c| c != '\n');
    let quoted: Vec<String> = glyphs.map(|c| format!("'{c}'")).collect();
    [before, &quoted.join(","), after].concat().into_bytes()
}

/// Every admitted character in the input, those that must be escaped.
fn input_of_every_glyph() -> Vec<u8> {
    let literal: String = chars::admitted()
        .map(|c| match c {
            '\n' => "\\n".into(),
            '"' => "\\\"".into(),
            '\\' => "\\\\".into(),
            other => other.to_string(),
        })
        .collect();
    format!("input \"{literal}\"").into_bytes()
}
