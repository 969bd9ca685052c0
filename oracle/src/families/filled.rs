//! Lines of every form, some of their places filled with what may not stand there.

use super::Random;

/// Declarations and rules; `@` is a place to fill.
const FORMS: [&str; 24] = [
    "δ(@,@)=(@,@,@)",
    "delta(@,{@,@})=(@,*,@)",
    "δ(@,(@,@))=(@,(@,@),(@,@))",
    "δ(a,{@,@})=(b,@,R)",
    "δ(a,({@,@},@))=(b,(*,@),(R,@))",
    "Q={@}",
    "Q={@,@}",
    "Q = {@,@,@}",
    "F={@,@}",
    "F={@}",
    "Σ={@,@}",
    "Sigma={@}",
    "Γ={@,@}",
    "Gamma = {@,@,@}",
    "blank=@",
    "blank = @",
    "start=@",
    "tapes=@",
    "tapes = @",
    "machine @",
    "input @",
    "kind @",
    "output @",
    "output unary @",
];

/// What ends a line.
const ENDS: [&str; 12] = [
    "\n",
    "\n\n",
    " \r\n",
    "\r\n",
    "\u{85}\n",
    "\u{A0}\n",
    " // c\n",
    "//\n",
    "// \u{A0}\n",
    " @\n",
    "//\u{85}x\r\n",
    "\n// z\n",
];

/// Comments and blank lines before a line.
const BEFORE: [&str; 5] = ["// x\n", "//\n", "\n", "//  y \n", "// a\n// b\n\n"];

/// What fits in most places.
const PLAIN: [&str; 9] = ["a", "b", "q", "0", "1", "_", "L", "R", "N"];

/// What fits in few: keywords, brackets, quotes, blanks, numbers at the limits, strings.
#[rustfmt::skip]
const ODD: [&str; 72] = [
    "machine", "kind", "input", "output", "tapes", "Q", "Σ", "Sigma", "Γ", "Gamma", "blank", "start", "F", "δ", "delta",
    "word", "unary", "binary", "lsb", "msb", "(", ")", "{", "}", ",", "=", "*", "_", "__", "_a", "a_", "'_'", "␣", "'␣'",
    ";", "';'", "'", "''", "'''", "' '", "'\u{A0}'", "'\u{85}'", "\"", "\"\"", "\"a\"", "\"\\\"", "\"\\\\\"",
    "\"\\n\\t\\q\"", "\"\\\n", "\"\\\\\\\"\"", "a", "b", "q0", "a'", "a'b'", "L", "R", "N", "'L'", "'l'", "r", "0", "00",
    "1", "12", "'1'", "000256", "18446744073709551615", "18446744073709551616", "00000000000000000000255", "//", "\0",
];

/// Up to six lines; how many places are filled oddly differs from text to text.
pub fn text(random: &mut Random) -> String {
    let mut out = String::new();
    let oddly = random.below(40);
    for _ in 0..random.below(7) {
        if random.chance(25) {
            out.push_str(random.pick(&BEFORE));
        }
        let line = [random.pick(&FORMS), random.pick(&ENDS)].concat();
        for c in line.chars() {
            match c {
                '@' if random.chance(oddly) => out.push_str(random.pick(&ODD)),
                '@' => out.push_str(random.pick(&PLAIN)),
                _ => out.push(c),
            }
        }
    }
    if random.chance(30) {
        out.pop();
    }
    out
}
