//! Bytes: UTF-8 and the classes of bytes.

/// D: "The lead byte decides the length and the range of the second byte".
/// The length of the sequence and the bounds of its second byte; `None` for a byte that leads nothing.
fn led_by(lead: u8) -> Option<(usize, u8, u8)> {
    match lead {
        0x00..=0x7F => Some((1, 0, 0)),
        0xC2..=0xDF => Some((2, 0x80, 0xBF)),
        0xE0 => Some((3, 0xA0, 0xBF)),
        0xE1..=0xEC | 0xEE..=0xEF => Some((3, 0x80, 0xBF)),
        0xED => Some((3, 0x80, 0x9F)),
        0xF0 => Some((4, 0x90, 0xBF)),
        0xF1..=0xF3 => Some((4, 0x80, 0xBF)),
        0xF4 => Some((4, 0x80, 0x8F)),
        _ => None,
    }
}

/// The length of the good sequence at the beginning of `rest`; none begins where nothing is left.
fn good_sequence(rest: &[u8]) -> Option<usize> {
    let (length, low, high) = led_by(*rest.first()?)?;
    let sequence = rest.get(..length)?;
    let second_is_good = length == 1 || (low..=high).contains(&sequence[1]);
    // D: "Other continuation bytes are 80-BF."
    let others_are_good = sequence.iter().skip(2).all(|b| (0x80..=0xBF).contains(b));
    (second_is_good && others_are_good).then_some(length)
}

/// D: "offset where no good sequence begins". A18: the first byte of the sequence that isn't good.
pub fn where_no_good_sequence_begins(input: &[u8]) -> Option<usize> {
    let mut at = 0;
    while at < input.len() {
        match good_sequence(&input[at..]) {
            Some(length) => at += length,
            None => return Some(at),
        }
    }
    None
}

/// The length of the character at the beginning of `rest`, where it is in the class.
/// The tests run 2 before the reading: what is read is good UTF-8.
pub fn character_of(rest: &[u8], in_class: fn(char) -> bool) -> Option<usize> {
    let length = good_sequence(rest)?;
    let character = std::str::from_utf8(&rest[..length]).ok()?.chars().next()?;
    in_class(character).then_some(length)
}

/// D2: "Blank characters become those of ECMA-262: its white space (tab, VT, FF, space, U+00A0, U+FEFF and the Unicode
/// class Zs) and its line terminators". (Comments are the cursor's.)
pub fn is_blank(character: char) -> bool {
    matches!(character, '\t' | '\u{B}' | '\u{C}' | '\u{FEFF}')
        || is_space_separator(character)
        || is_line_terminator(character)
}

/// 1.1: the Unicode class Zs, the same since Unicode 6.3; space and U+00A0 are of it.
fn is_space_separator(character: char) -> bool {
    let among_spaces_of_a_width = ('\u{2000}'..='\u{200A}').contains(&character);
    let others = [
        ' ', '\u{A0}', '\u{1680}', '\u{202F}', '\u{205F}', '\u{3000}',
    ];
    among_spaces_of_a_width || others.contains(&character)
}

/// D2: "its line terminators (LF, CR, U+2028, U+2029)".
pub fn is_line_terminator(character: char) -> bool {
    matches!(character, '\n' | '\r' | '\u{2028}' | '\u{2029}')
}

/// D: "Names here: letters, digits, `_`, `$`, no leading digit" (in braces). A7: letters are the ASCII letters; D2:
/// "Names in braces stay ASCII."
pub fn begins_a_name(byte: u8) -> bool {
    byte.is_ascii_alphabetic() || byte == b'_' || byte == b'$'
}

pub fn continues_a_name(byte: u8) -> bool {
    begins_a_name(byte) || byte.is_ascii_digit()
}

/// D: "the longest nonempty run without `<` `>` `{` `}`".
pub fn is_text(byte: u8) -> bool {
    !matches!(byte, b'<' | b'>' | b'{' | b'}')
}

#[cfg(test)]
mod tests {
    use super::*;

    /// The standard library's own check gives the same offset for every lead byte with chosen followers.
    #[test]
    fn utf8_is_the_standard_library_s() {
        let followers = [
            0x00, 0x41, 0x7F, 0x80, 0x8F, 0x90, 0x9F, 0xA0, 0xBF, 0xC0, 0xC2, 0xED, 0xF4, 0xFF,
        ];
        for lead in 0..=255u8 {
            for a in followers {
                for b in followers {
                    for c in followers {
                        for length in 1..=4 {
                            let bytes = &[lead, a, b, c][..length];
                            let theirs = std::str::from_utf8(bytes).err().map(|e| e.valid_up_to());
                            assert_eq!(where_no_good_sequence_begins(bytes), theirs, "{bytes:?}");
                        }
                    }
                }
            }
        }
    }

    #[test]
    fn classes() {
        let in_class = |f: fn(u8) -> bool| (0..=255u8).filter(|&b| f(b)).count();
        assert_eq!(in_class(begins_a_name), 54);
        assert_eq!(in_class(continues_a_name), 64);
        assert_eq!(in_class(is_text), 252);
        let characters = |f: fn(char) -> bool| ('\0'..=char::MAX).filter(|&c| f(c)).count();
        assert_eq!(characters(is_space_separator), 17);
        assert_eq!(characters(is_line_terminator), 4);
        assert_eq!(characters(is_blank), 25);
    }

    #[test]
    fn a_character_of_a_class_has_its_length() {
        let blank = |rest: &[u8]| character_of(rest, is_blank);
        assert_eq!(blank(b" b"), Some(1));
        assert_eq!(blank("\u{A0}b".as_bytes()), Some(2));
        assert_eq!(blank("\u{FEFF}".as_bytes()), Some(3));
        assert_eq!(blank("b ".as_bytes()), None);
        assert_eq!(blank("\u{200B}".as_bytes()), None);
        assert_eq!(blank(b""), None);
    }
}
