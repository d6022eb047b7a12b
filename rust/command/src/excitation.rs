//! Excitations and sets of them in words.

/// The words of the excitations, by the bytes of a pattern.
const WORDS: [&str; 4] = ["l", "h", "hl", "lh"];

/// The word of a pattern's byte.
pub fn word(byte: u8) -> &'static str {
    WORDS[usize::from(byte)]
}

/// The byte of a pattern that a word stands for.
pub fn byte(word: &str) -> Option<u8> {
    let place = WORDS.iter().position(|known| *known == word)?;
    u8::try_from(place).ok()
}

/// The members of a set, `l, h`, or its number where that is no set of an input's.
pub fn members(set: u8) -> String {
    if set == 0 || set > 15 {
        return format!("set {set}");
    }
    let members = (0..4).filter(|&byte| set & zimgurav::excitation::set(byte) != 0);
    members.map(word).collect::<Vec<_>>().join(", ")
}
