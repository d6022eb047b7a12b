//! What is printed, on standard output and in messages.

use std::io::{self, ErrorKind, Write};

use crate::failure::Failure;
use crate::files;

/// The most characters of a line or a word of a file that are shown.
const MOST_SHOWN: usize = 160;

/// The width of a line that is wrapped: as much as the values of a search's arguments take where all have their
/// defaults.
const WIDTH: usize = 100;

/// What stands before all lines but the first of a text that is wrapped.
const INDENT: &str = "  ";

/// A text without the characters that a terminal takes for orders.
pub fn printable(text: &str) -> String {
    let printable = |character: char| match character {
        '\n' => character,
        _ if character.is_control() => char::REPLACEMENT_CHARACTER,
        _ => character,
    };
    text.chars().map(printable).collect()
}

/// A line or a word of a file, or its beginning where it is long.
pub fn shortened(text: &str) -> String {
    match text.char_indices().nth(MOST_SHOWN) {
        Some((end, _)) => format!("{} ...", &text[..end]),
        None => text.to_string(),
    }
}

/// A text in lines that are no longer than others, as far as its words allow.
pub fn wrapped(text: &str) -> String {
    let mut wrapped = String::new();
    let mut width = 0;
    for word in text.split(' ') {
        let letters = word.chars().count();
        if wrapped.is_empty() {
            width = letters;
        } else if width + 1 + letters <= WIDTH {
            wrapped.push(' ');
            width += 1 + letters;
        } else {
            wrapped.push('\n');
            wrapped += INDENT;
            width = INDENT.len() + letters;
        }
        wrapped += word;
    }
    wrapped
}

/// Bytes of a file as a text, or its beginning where they are many. What cannot be seen is shown by its number: a byte
/// that is no UTF-8, and a character that has no sign.
pub fn escaped(bytes: &[u8]) -> String {
    // A character has four bytes at most.
    let beginning = &bytes[..bytes.len().min(4 * (MOST_SHOWN + 1))];
    let mut text = String::new();
    for chunk in beginning.utf8_chunks() {
        text.extend(chunk.valid().chars().map(escaped_character));
        text += &chunk.invalid().escape_ascii().to_string();
    }
    shortened(&text)
}

fn escaped_character(character: char) -> String {
    match u8::try_from(character) {
        Ok(b' '..=b'~') => character.to_string(),
        Ok(control) if control.is_ascii() => control.escape_ascii().to_string(),
        _ => character.escape_debug().to_string(),
    }
}

/// Prints a text. A reader that has seen enough and closed its end is no failure.
pub fn print(text: &str) -> Result<(), Failure> {
    let mut output = io::stdout().lock();
    match output
        .write_all(text.as_bytes())
        .and_then(|()| output.flush())
    {
        Err(error) if error.kind() != ErrorKind::BrokenPipe => {
            Err(Failure::file("standard output", files::fault(error)))
        }
        _ => Ok(()),
    }
}

#[cfg(test)]
mod tests {
    use super::*;

    #[test]
    fn a_short_text_is_one_line() {
        for text in ["", "a", "split order: cone (0 1)", &"µ".repeat(WIDTH)] {
            assert_eq!(wrapped(text), text);
        }
    }

    /// 33 words of two letters and the blanks between them are 98 letters wide, so that there is room for a letter more and not for two.
    #[test]
    fn a_long_text_is_broken_where_the_line_is_full() {
        let line = ["aµ"; 33].join(" ");
        assert_eq!(wrapped(&format!("{line} b")), format!("{line} b"));
        assert_eq!(wrapped(&format!("{line} bb")), format!("{line}\n  bb"));
        let twice = format!("{line} bb {line} cc");
        let second = ["aµ"; 32].join(" ");
        assert_eq!(wrapped(&twice), format!("{line}\n  bb {second}\n  aµ cc"));
    }

    #[test]
    fn a_long_word_stays_whole() {
        let word = "a".repeat(2 * WIDTH);
        assert_eq!(wrapped(&word), word);
        assert_eq!(wrapped(&format!("b {word} c")), format!("b\n  {word}\n  c"));
    }
}
