//! Words that fit in a line of a picture.

/// The text, or its beginning and its end if it is broader than its room.
pub fn shortened(text: &str, room: u64) -> String {
    if text.chars().map(breadth).sum::<u64>() <= room {
        return text.to_string();
    }
    let half = (room - breadth('…')) / 2;
    let head = fitting(text.chars(), half);
    let tail = fitting(text.chars().rev(), half);
    format!("{head}…{}", tail.chars().rev().collect::<String>())
}

/// The first letters, as many as the room is enough for.
fn fitting(letters: impl Iterator<Item = char>, room: u64) -> String {
    let mut used = 0;
    let fits = |&letter: &char| {
        used += breadth(letter);
        used <= room
    };
    letters.take_while(fits).collect()
}

/// How broad a letter of a broad font is, in hundredths of the font's size.
fn breadth(letter: char) -> u64 {
    match letter {
        'm' | 'w' | 'M' | 'W' | '@' | '%' => 112,
        'A'..='Z' | '#' | '&' | '+' | '<'..='>' | '^' | '~' => 88,
        _ if letter.is_ascii() => 72,
        _ => 112,
    }
}

#[cfg(test)]
mod tests {
    use super::*;

    #[test]
    fn a_text_that_fits_stays_as_it_is() {
        assert_eq!(shortened("", 400), "");
        assert_eq!(shortened("block", 360), "block");
    }

    #[test]
    fn a_broad_text_keeps_its_beginning_and_its_end() {
        // 112 are the ellipsis's; 2 letters of 72 fit in half of the other 300, and 1 of 112.
        assert_eq!(shortened("abcdefgh", 412), "ab…gh");
        assert_eq!(shortened("電流電圧", 412), "電…圧");
    }

    #[test]
    fn no_text_is_broader_than_its_room() {
        for letter in ['i', 'b', 'Q', 'W', '電'] {
            let text = shortened(&letter.to_string().repeat(300), 5_647);
            let room: u64 = text.chars().map(breadth).sum();
            assert!((5_300..=5_647).contains(&room), "{letter}: {room}");
        }
    }
}
