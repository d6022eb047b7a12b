//! Text inside SVG and HTML.

/// The text as it is written between tags or in a quoted attribute: its marks escaped, and a
/// replacement character for each character that XML forbids or that is no text.
pub fn escaped(text: &str) -> String {
    let mut escaped = String::with_capacity(text.len());
    for character in text.chars() {
        match character {
            '&' => escaped.push_str("&amp;"),
            '<' => escaped.push_str("&lt;"),
            '>' => escaped.push_str("&gt;"),
            '"' => escaped.push_str("&quot;"),
            '\'' => escaped.push_str("&#39;"),
            '\t' | '\n' => escaped.push(character),
            '\u{fffe}' | '\u{ffff}' => escaped.push(char::REPLACEMENT_CHARACTER),
            _ if character.is_control() => escaped.push(char::REPLACEMENT_CHARACTER),
            _ => escaped.push(character),
        }
    }
    escaped
}

#[cfg(test)]
mod tests {
    use super::*;

    #[test]
    fn marks_are_escaped() {
        assert_eq!(
            escaped("a<b> & \"c\" 'd'"),
            "a&lt;b&gt; &amp; &quot;c&quot; &#39;d&#39;"
        );
        assert_eq!(escaped("&amp;"), "&amp;amp;");
    }

    #[test]
    fn text_stays_as_it_is() {
        for text in ["", "adder24.blk", "µA – 電流 🔌", "a\tb\nc", "\u{fffd}"] {
            assert_eq!(escaped(text), text);
        }
    }

    #[test]
    fn what_xml_forbids_is_replaced() {
        for character in (0..=0xffff).filter_map(char::from_u32) {
            let forbidden = match character {
                '\t' | '\n' => false,
                '\u{0}'..='\u{1f}' | '\u{7f}'..='\u{9f}' | '\u{fffe}'.. => true,
                _ => false,
            };
            let replaced = escaped(&character.to_string()) == "\u{fffd}";
            assert_eq!(
                replaced,
                forbidden || character == '\u{fffd}',
                "{character:?}"
            );
        }
    }
}
