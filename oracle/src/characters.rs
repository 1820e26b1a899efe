//! Characters of name parts in tags: ID_Start and ID_Continue of Unicode, from the ranges in the folder `unicode`,
//! which stand there for the whole project.

use std::sync::OnceLock;

/// First and last code of a range; both are in it.
pub(crate) type Range = (u32, u32);

/// D2: "from the ranges in Unicode's DerivedCoreProperties".
pub(crate) struct Property {
    pub ranges: Vec<Range>,
}

impl Property {
    /// One range a line, in order: two codes in hex.
    fn of_lines(lines: &str) -> Property {
        let code = |word: &str| u32::from_str_radix(word, 16).expect("a code in hex");
        let range = |line: &str| {
            let (first, last) = line.split_once(' ').expect("two codes");
            (code(first), code(last))
        };
        Property {
            ranges: lines.lines().map(range).collect(),
        }
    }

    pub fn has(&self, character: char) -> bool {
        let code = u32::from(character);
        let behind = self.ranges.partition_point(|&(first, _)| first <= code);
        behind > 0 && code <= self.ranges[behind - 1].1
    }
}

pub(crate) fn id_start() -> &'static Property {
    static ID_START: OnceLock<Property> = OnceLock::new();
    ID_START.get_or_init(|| Property::of_lines(include_str!("../../unicode/id_start.txt")))
}

pub(crate) fn id_continue() -> &'static Property {
    static ID_CONTINUE: OnceLock<Property> = OnceLock::new();
    ID_CONTINUE.get_or_init(|| Property::of_lines(include_str!("../../unicode/id_continue.txt")))
}

/// D2: "Name parts take ID_Start, `$` and `_` first".
pub(crate) fn begins_a_part(character: char) -> bool {
    id_start().has(character) || matches!(character, '$' | '_')
}

/// D2: "then ID_Continue, `$`, U+200C, U+200D and `-`".
pub(crate) fn continues_a_part(character: char) -> bool {
    id_continue().has(character) || matches!(character, '$' | '\u{200C}' | '\u{200D}' | '-')
}

#[cfg(test)]
mod tests {
    use super::*;

    /// The ranges of a property are in order, and a character stands between two of them; so many have so many
    /// characters.
    fn has_ranges(property: &Property, ranges: usize, characters: u32) {
        let all = &property.ranges;
        assert!(all.iter().all(|(first, last)| first <= last));
        assert!(all.windows(2).all(|two| two[0].1 + 1 < two[1].0));
        assert_eq!(all.len(), ranges);
        let count = |&(first, last): &Range| last - first + 1;
        assert_eq!(all.iter().map(count).sum::<u32>(), characters);
        for character in '\0'..=char::MAX {
            let code = u32::from(character);
            let among = |&(first, last): &Range| (first..=last).contains(&code);
            assert_eq!(property.has(character), all.iter().any(among));
        }
    }

    /// Unicode 17.0.0.
    #[test]
    fn the_properties_are_those_of_unicode() {
        has_ranges(id_start(), 684, 145_916);
        has_ranges(id_continue(), 799, 149_240);
        assert!(('\0'..=char::MAX).all(|c| !id_start().has(c) || id_continue().has(c)));
    }

    /// 7.2: "as before, all 128".
    #[test]
    fn ascii_is_as_before() {
        for character in '\0'..='\x7F' {
            let first = character.is_ascii_alphabetic() || "_$".contains(character);
            let later = first || character.is_ascii_digit() || character == '-';
            assert_eq!(begins_a_part(character), first);
            assert_eq!(continues_a_part(character), later);
        }
    }

    /// 7.17: "no character is both (all 25 checked)".
    #[test]
    fn no_blank_is_a_name_character() {
        let both =
            |&c: &char| crate::bytes::is_blank(c) && (begins_a_part(c) || continues_a_part(c));
        assert_eq!(('\0'..=char::MAX).find(both), None);
    }
}
