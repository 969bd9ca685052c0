//! The admitted characters, and UTF-8.

/// The admitted set, as inclusive ranges.
pub const ADMITTED: [(u32, u32); 3] = [(0x0000, 0x02C1), (0x0370, 0x0481), (0x2190, 0x243F)];

/// Whether `c` lies in one of `ranges`.
pub fn within(c: char, ranges: &[(u32, u32)]) -> bool {
    let code = u32::from(c);
    ranges
        .iter()
        .any(|&(low, high)| (low..=high).contains(&code))
}

/// Every admitted character, in order.
pub fn admitted() -> impl Iterator<Item = char> {
    ADMITTED
        .into_iter()
        .flat_map(|(low, high)| (low..=high).filter_map(char::from_u32))
}

/// The longest beginning of `text` that is UTF-8. Its length is refusal 3's offset.
pub fn utf8_beginning(text: &[u8]) -> &str {
    match std::str::from_utf8(text) {
        Ok(all) => all,
        Err(error) => std::str::from_utf8(&text[..error.valid_up_to()])
            .expect("a beginning that was found to be UTF-8"),
    }
}

/// The offset of the first character outside the set: refusal 4's offset.
pub fn first_outside(text: &str) -> Option<usize> {
    text.char_indices()
        .find(|&(_, c)| !within(c, &ADMITTED))
        .map(|(offset, _)| offset)
}
