//! Characters of names in tags, for damage: the borders of Unicode's ranges, and where words stand.

use crate::blank::blank_length;
use crate::random::Random;
use std::sync::OnceLock;

/// First and last code of each range of ID_Start and of ID_Continue, from the folder `unicode`.
fn ranges() -> &'static [(u32, u32)] {
    static RANGES: OnceLock<Vec<(u32, u32)>> = OnceLock::new();
    RANGES.get_or_init(|| {
        let lines = concat!(
            include_str!("../../unicode/id_start.txt"),
            include_str!("../../unicode/id_continue.txt")
        );
        let code = |word: &str| u32::from_str_radix(word, 16).expect("a code in hex");
        let range = |line: &str| {
            let (first, last) = line.split_once(' ').expect("two codes");
            (code(first), code(last))
        };
        lines.lines().map(range).collect()
    })
}

/// An end of a range beyond ASCII, or the character next to it.
pub fn border(random: &mut Random) -> char {
    loop {
        let (first, last) = *random.one_of(ranges());
        let code = *random.one_of(&[first - 1, first, last, last + 1]);
        match char::from_u32(code) {
            Some(character) if !character.is_ascii() => return character,
            _ => {}
        }
    }
}

/// Where each word starts and ends: letters, digits, `_`, `$`, `-` and all that is beyond ASCII and no blank. A guess:
/// many are names, some are words of a text or a string.
pub fn words(bytes: &[u8]) -> Vec<(usize, usize)> {
    let mut found: Vec<(usize, usize)> = Vec::new();
    let mut at = 0;
    while at < bytes.len() {
        let byte = bytes[at];
        let blank = blank_length(&bytes[at..]);
        let in_word = byte.is_ascii_alphanumeric() || b"_$-".contains(&byte) || !byte.is_ascii();
        match found.last_mut() {
            _ if blank > 0 || !in_word => {}
            Some((_, end)) if *end == at => *end += 1,
            _ => found.push((at, at + 1)),
        }
        at += blank.max(1);
    }
    found
}

#[cfg(test)]
mod tests {
    use super::*;

    #[test]
    fn words_are_found_between_marks_and_blanks() {
        let text = "<a-b é:한국='x y'\u{A0}λ/>";
        let words = words(text.as_bytes());
        let words: Vec<&str> = words
            .iter()
            .map(|&(start, end)| &text[start..end])
            .collect();
        assert_eq!(words, ["a-b", "é", "한국", "x", "y", "λ"]);
    }

    #[test]
    fn borders_are_in_ranges_or_beside_them() {
        let near = |code: u32| {
            let among = |&(first, last): &(u32, u32)| first - 1 <= code && code <= last + 1;
            ranges().iter().any(among)
        };
        let all: Vec<char> = (0..500)
            .map(|n| border(&mut Random::of_item(1, n)))
            .collect();
        assert!(all.iter().all(|&c| !c.is_ascii() && near(u32::from(c))));
        for width in 2..=4 {
            assert!(all.iter().any(|c| c.len_utf8() == width));
        }
    }
}
