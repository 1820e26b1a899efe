//! Blank characters, as documents 01 and 02 have them.

/// D2: "Blank characters become those of ECMA-262: its white space (tab, VT, FF, space, U+00A0, U+FEFF and the Unicode
/// class Zs) and its line terminators (LF, CR, U+2028, U+2029)."
pub const BLANKS: [char; 25] = [
    '\t', '\n', '\u{B}', '\u{C}', '\r', ' ', '\u{A0}', '\u{1680}', '\u{2000}', '\u{2001}',
    '\u{2002}', '\u{2003}', '\u{2004}', '\u{2005}', '\u{2006}', '\u{2007}', '\u{2008}', '\u{2009}',
    '\u{200A}', '\u{2028}', '\u{2029}', '\u{202F}', '\u{205F}', '\u{3000}', '\u{FEFF}',
];

/// So many of them, the first ones, are ASCII.
pub const ASCII_BLANKS: usize = 6;

/// Characters that look like blanks and are none: those that docs/DIFFERENCES.md lists under request 1, since the Rust
/// may take them.
pub const NEAR_MISSES: [char; 4] = ['\u{85}', '\u{180E}', '\u{200B}', '\u{2060}'];

/// D2: "All four terminators end a `//` comment."
const LINE_TERMINATORS: [char; 4] = ['\n', '\r', '\u{2028}', '\u{2029}'];

/// The length of the blank character that the bytes begin with; 0 where they begin with none.
pub fn blank_length(bytes: &[u8]) -> usize {
    match first(bytes) {
        Some(character) if BLANKS.contains(&character) => character.len_utf8(),
        _ => 0,
    }
}

/// Whether the bytes begin with a near miss.
pub fn nearly_blank(bytes: &[u8]) -> bool {
    first(bytes).is_some_and(|character| NEAR_MISSES.contains(&character))
}

/// Whether the bytes begin with a line terminator.
pub fn ends_line(bytes: &[u8]) -> bool {
    first(bytes).is_some_and(|character| LINE_TERMINATORS.contains(&character))
}

/// The character that the bytes begin with. No blank has more than three bytes: longer ones are passed over.
fn first(bytes: &[u8]) -> Option<char> {
    let length = match bytes.first()? {
        0..=0x7F => 1,
        0xC2..=0xDF => 2,
        0xE0..=0xEF => 3,
        _ => return None,
    };
    let text = std::str::from_utf8(bytes.get(..length)?).ok()?;
    text.chars().next()
}

#[cfg(test)]
mod tests {
    use super::*;

    #[test]
    fn each_blank_has_its_length() {
        for blank in BLANKS {
            let text = format!("{blank}\u{2028}a");
            assert_eq!(blank_length(text.as_bytes()), blank.len_utf8(), "{blank:?}");
        }
        assert_eq!(
            BLANKS.iter().position(|blank| !blank.is_ascii()),
            Some(ASCII_BLANKS)
        );
    }

    /// The standard library's White_Space has U+0085 too, and not U+FEFF.
    #[test]
    fn no_other_character_is_a_blank() {
        let blank = |character: &char| blank_length(character.to_string().as_bytes()) > 0;
        let found: Vec<char> = ('\0'..=char::MAX).filter(blank).collect();
        let white = |character: &char| character.is_whitespace() && *character != '\u{85}';
        let white: Vec<char> = ('\0'..=char::MAX).filter(white).collect();
        assert_eq!(found, BLANKS);
        assert_eq!(found[..24], white);
    }

    #[test]
    fn no_near_miss_is_a_blank() {
        let near = |character: &char| nearly_blank(character.to_string().as_bytes());
        let found: Vec<char> = ('\0'..=char::MAX).filter(near).collect();
        assert_eq!(found, NEAR_MISSES);
        assert!(!BLANKS.iter().any(|blank| NEAR_MISSES.contains(blank)));
    }

    #[test]
    fn four_characters_end_a_line() {
        let ends = |character: &char| ends_line(character.to_string().as_bytes());
        let found: Vec<char> = ('\0'..=char::MAX).filter(ends).collect();
        assert_eq!(found, LINE_TERMINATORS);
    }

    #[test]
    fn bytes_that_are_no_character_are_no_blank() {
        for bytes in [
            &b""[..],
            b"\xC2",
            b"\xE2\x80",
            b"\xA0",
            b"\x80\xA8",
            b"\xFF ",
        ] {
            assert_eq!(blank_length(bytes), 0, "{bytes:?}");
            assert!(!ends_line(bytes) && !nearly_blank(bytes));
        }
    }
}
