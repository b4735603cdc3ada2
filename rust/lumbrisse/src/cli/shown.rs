//! Bytes of a file, as a terminal may be given them.

/// The text in the bytes, with a mark for whatever could move the cursor or hide what stands beside it.
pub fn text(bytes: &[u8]) -> String {
    let text = String::from_utf8_lossy(bytes);
    text.chars().map(harmless).collect()
}

/// The text between quotes as Rust writes it, with an escape for whatever is not shown as itself; cut behind so many
/// characters.
pub fn quoted(bytes: &[u8], most: usize) -> String {
    // A character has at most four bytes.
    let front = bytes.get(..most.saturating_mul(4)).unwrap_or(bytes);
    let text = String::from_utf8_lossy(front);
    let shown: String = text.chars().take(most).collect();
    let cut = if front.len() < bytes.len() || shown.len() < text.len() {
        ".."
    } else {
        ""
    };
    format!("{shown:?}{cut}")
}

fn harmless(c: char) -> char {
    match c {
        '\t' => ' ',
        // Marks of direction and of no width.
        '\u{200b}'..='\u{200f}'
        | '\u{2028}'..='\u{202e}'
        | '\u{2060}'..='\u{206f}'
        | '\u{feff}' => char::REPLACEMENT_CHARACTER,
        _ if c.is_control() => char::REPLACEMENT_CHARACTER,
        _ => c,
    }
}

#[cfg(test)]
mod tests {
    use super::{quoted, text};

    #[test]
    fn letters_stay_and_commands_of_a_terminal_go() {
        assert_eq!(
            text("M\u{fc}ller\t5 \u{20ac}".as_bytes()),
            "M\u{fc}ller 5 \u{20ac}"
        );
        assert_eq!(text(b"a\x1b[2Jb"), "a\u{fffd}[2Jb");
        assert_eq!(text("\u{202e}x".as_bytes()), "\u{fffd}x");
        assert_eq!(text(b"\xffx\r"), "\u{fffd}x\u{fffd}");
    }
    #[test]
    fn quotes_hold_a_text_in_one_line() {
        assert_eq!(quoted(b"4 Mill Lane", 60), r#""4 Mill Lane""#);
        assert_eq!(quoted(b"say \\\"x\n\ty", 60), r#""say \\\"x\n\ty""#);
        assert_eq!(quoted(b"\x1b[2J\xff", 60), "\"\\u{1b}[2J\u{fffd}\"");
        assert_eq!(quoted("\u{202e}x".as_bytes(), 60), r#""\u{202e}x""#);
        assert_eq!(quoted(b"", 60), r#""""#);
    }

    #[test]
    fn a_long_text_is_cut() {
        assert_eq!(quoted(b"abcd", 4), r#""abcd""#);
        assert_eq!(quoted(b"abcde", 4), r#""abcd".."#);
        assert_eq!(quoted(&[b'a'; 100], 4), r#""aaaa".."#);
        assert_eq!(
            quoted("\u{fc}\u{fc}\u{fc}".as_bytes(), 2),
            "\"\u{fc}\u{fc}\".."
        );
    }
}
