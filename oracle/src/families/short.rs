//! All short texts over a small alphabet, in order of their length.

/// The characters, one of each class that the lexer tells apart, and what short lines need.
const CHARACTERS: [&str; 16] = [
    "\n", " ", "/", "'", "\"", "\\", "a", "_", "0", "Q", "F", "=", "{", "}", ",", "δ",
];

/// Characters that such a list leaves out: all white space that is not ASCII, a carriage return, the
/// zero byte, both blanks, an escape's letter, a direction, `*`.
const ODD: [&str; 16] = [
    "\n", " ", "/", "'", "\"", "\\", "n", "_", "0", "\r", "\u{85}", "\u{A0}", "\0", "␣", "L", "*",
];

/// The lines, one of each kind that the assembler tells apart.
const LINES: [&str; 10] = [
    "\n",
    "// c\n",
    "//\n",
    "δ(a,a)=(b,b,R)\n",
    "δ(a,{a,_})=(b,*,L) // r\n",
    "F={b} // d\n",
    "blank=a\n",
    "Γ={_,'_'}\n",
    "start=b\n",
    "fail\n",
];

/// Text number `index` over the characters; number 0 is empty.
pub fn characters(index: u64) -> String {
    spell(index, &CHARACTERS)
}

/// Text number `index` over the odd characters; number 0 is empty.
pub fn odd(index: u64) -> String {
    spell(index, &ODD)
}

/// Text number `index` over the lines; number 0 is empty.
pub fn lines(index: u64) -> String {
    spell(index, &LINES)
}

/// Bijective numeration: every list of digits has exactly one index.
fn spell(mut index: u64, digits: &[&str]) -> String {
    let base = digits.len() as u64;
    let mut spelled = Vec::new();
    while index > 0 {
        index -= 1;
        spelled.push(digits[(index % base) as usize]);
        index /= base;
    }
    spelled.reverse();
    spelled.concat()
}

#[cfg(test)]
mod tests {
    use super::*;

    #[test]
    fn every_short_text_once() {
        let texts: std::collections::BTreeSet<String> = (0..1 + 16 + 256).map(characters).collect();
        assert_eq!(texts.len(), 1 + 16 + 256);
        assert!(texts.contains("") && texts.contains("\n") && texts.contains("δδ"));
    }
}
