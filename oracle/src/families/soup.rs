//! Tokens in any order.

use super::Random;

const TOKENS: [&str; 64] = [
    "machine",
    "kind",
    "input",
    "output",
    "tapes",
    "Q",
    "Σ",
    "Sigma",
    "Γ",
    "Gamma",
    "blank",
    "start",
    "F",
    "δ",
    "delta",
    "acceptor",
    "transducer",
    "enumerator",
    "beaver",
    "word",
    "unary",
    "binary",
    "lsb",
    "msb",
    "(",
    ")",
    "{",
    "}",
    ",",
    "=",
    "*",
    "_",
    "␣",
    ";",
    "'",
    "\"",
    "'a'",
    "'''",
    "' '",
    "\"\"",
    "\"a\"",
    "\"\\\"",
    "a",
    "q0",
    "x'",
    "L",
    "R",
    "N",
    "r",
    "0",
    "1",
    "255",
    "256",
    "00",
    "//",
    "// c",
    "\n",
    "\n",
    "\n",
    "#",
    "/",
    "\\",
    "Q = {a}\n",
    "δ(a,a)=(a,a,R)\n",
];

/// Up to thirty tokens, with or without white space between them.
pub fn text(random: &mut Random) -> String {
    let spaced = random.chance(50);
    let mut out = String::new();
    for _ in 0..random.below(30) {
        out.push_str(random.pick(&TOKENS));
        if spaced || random.chance(20) {
            out.push_str(random.pick(&[" ", " ", "\t", "\u{A0}", "\n"]));
        }
    }
    out
}
