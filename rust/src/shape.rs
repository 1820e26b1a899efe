//! Whether words that nobody read just now are a table: its records are a tree in preorder, over the input.

use crate::{Kind, NO_PARENT, ROW_WORDS};

type Row = [u32; ROW_WORDS];

fn row(words: &[u32], number: usize) -> Option<Row> {
    let start = number.checked_mul(ROW_WORDS)?;
    words
        .get(start..start.checked_add(ROW_WORDS)?)?
        .try_into()
        .ok()
}

/// Every row of the first `count` is sound.
pub(crate) fn is_table(text: &str, words: &[u32], count: usize) -> bool {
    count <= words.len() / ROW_WORDS
        && (0..count).all(|number| is_row(text, words, count, number).unwrap_or(false))
}

/// A known kind; a span of whole characters; the record around it, an end within that one's, and a depth of one
/// more. The rows before it are sound already, so walking out from the one before it ends.
fn is_row(text: &str, words: &[u32], count: usize, number: usize) -> Option<bool> {
    let [kind, start, end, parent, after, _, depth] = row(words, number)?;
    let spans = text.get(start as usize..end as usize).is_some();
    let (outer, limit, ancestors) = match around(words, number)? {
        Some(outer) => {
            let [_, _, _, _, after, _, depth] = row(words, outer)?;
            (outer as u32, after as usize, depth + 1)
        }
        None => (NO_PARENT, count, 0),
    };
    let after = after as usize;
    Some(
        Kind::from_number(kind).is_some()
            && spans
            && parent == outer
            && number < after
            && after <= limit
            && depth == ancestors,
    )
}

/// The innermost record before this one that has not ended yet.
fn around(words: &[u32], number: usize) -> Option<Option<usize>> {
    let mut outer = number.checked_sub(1);
    while let Some(record) = outer {
        let [_, _, _, parent, after, ..] = row(words, record)?;
        if number < after as usize {
            break;
        }
        outer = if parent == NO_PARENT {
            None
        } else {
            Some(parent as usize)
        };
    }
    Some(outer)
}

#[cfg(test)]
mod tests {
    use super::{is_table, Row, ROW_WORDS};

    const TEXT: &str = "<v>hi</v>";

    const GOOD: [Row; 6] = [
        [1, 0, 9, u32::MAX, 6, 1, 0],
        [18, 0, 3, 0, 3, 0, 1],
        [3, 1, 2, 1, 3, 0, 2],
        [14, 3, 5, 0, 4, 0, 1],
        [17, 5, 9, 0, 6, 0, 1],
        [3, 7, 8, 4, 6, 0, 2],
    ];

    /// Whether the good table is still one with a word of a record changed.
    fn changed(record: usize, place: usize, word: u32) -> bool {
        let mut rows = GOOD;
        rows[record][place] = word;
        is_table(TEXT, &rows.concat(), 6)
    }

    #[test]
    fn a_table_that_was_read_is_one() {
        assert!(is_table(TEXT, &GOOD.concat(), 6));
        assert!(is_table(TEXT, &[], 0));
    }

    #[test]
    fn a_count_past_the_words_is_none() {
        assert!(!is_table(TEXT, &GOOD.concat(), 7));
        assert!(!is_table(TEXT, &GOOD.concat()[..6 * ROW_WORDS - 1], 6));
        assert!(!is_table(TEXT, &GOOD.concat(), usize::MAX));
    }

    #[test]
    fn a_count_that_cuts_a_record_is_none() {
        assert!(!is_table(TEXT, &GOOD.concat(), 5));
    }

    #[test]
    fn kinds_are_looked_at() {
        assert!(!changed(0, 0, 0));
        assert!(!changed(0, 0, 19));
    }

    #[test]
    fn spans_are_looked_at() {
        assert!(!changed(0, 2, 10));
        assert!(!changed(3, 1, 6));
        let one_byte: Row = [14, 3, 4, u32::MAX, 1, 0, 0];
        assert!(is_table(TEXT, &one_byte, 1));
        assert!(!is_table("<v>\u{e9}</v>", &one_byte, 1));
    }

    #[test]
    fn parents_are_looked_at() {
        assert!(!changed(0, 3, 0));
        assert!(!changed(1, 3, u32::MAX));
        assert!(!changed(2, 3, 0));
        assert!(!changed(3, 3, 1));
        assert!(!changed(3, 3, 5));
    }

    #[test]
    fn ends_are_looked_at() {
        assert!(!changed(0, 4, 5));
        assert!(!changed(0, 4, 7));
        assert!(!changed(1, 4, 1));
        assert!(!changed(1, 4, 4));
        assert!(!changed(5, 4, 5));
    }

    #[test]
    fn depths_are_looked_at() {
        assert!(!changed(0, 6, 1));
        assert!(!changed(1, 6, 0));
        assert!(!changed(2, 6, 1));
        assert!(!changed(5, 6, 3));
        assert!(!changed(5, 6, u32::MAX));
    }
}
