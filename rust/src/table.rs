use crate::{shape, Children, Kind, Record, Records, ROW_WORDS};
use std::fmt;

/// An accepted input is well-formed UTF-8 (proved); it is tested once more here, so that no text is made unchecked.
fn accepted_text(input: &[u8]) -> &str {
    std::str::from_utf8(input).expect("an accepted input is well-formed UTF-8")
}

/// The words of a record, by their places.
#[derive(Clone, Copy)]
pub(crate) enum Word {
    Kind = 0,
    Start = 1,
    End = 2,
    Parent = 3,
    After = 4,
    Extra = 5,
    Depth = 6,
}

/// The records of an accepted input: a view of the input and of the words that were read from it.
///
/// It is as small as two slices and is copied freely. `'i` is the input's lifetime, which the parts of it that
/// come back have too; `'t` is that of the words.
#[derive(Clone, Copy)]
pub struct Table<'i, 't> {
    text: &'i str,
    words: &'t [u32],
    count: usize,
}

impl<'i, 't> Table<'i, 't> {
    /// The table of a read that was accepted: its rows are the definition's (proved).
    pub(crate) fn of_read(input: &'i [u8], words: &'t [u32], count: usize) -> Table<'i, 't> {
        Table {
            text: accepted_text(input),
            words,
            count,
        }
    }

    /// A table that was read before, from the words that were kept of it.
    ///
    /// `None` unless the input is UTF-8, the words hold `count` records, and these are a tree in preorder whose
    /// spans are parts of the input, each with the number of its ancestors. That they are what a read of the input
    /// gives is not looked at.
    ///
    /// ```
    /// let input = b"<v>hi</v>";
    /// let words = lorikvar::read_stage_vec(input)?.into_words();
    /// assert!(lorikvar::Table::new(input, &words, 6).is_some());
    /// assert!(lorikvar::Table::new(input, &words, 7).is_none());
    /// assert!(lorikvar::Table::new(b"<v>", &words, 6).is_none());
    /// # Ok::<(), lorikvar::Refusal>(())
    /// ```
    pub fn new(input: &'i [u8], words: &'t [u32], count: usize) -> Option<Table<'i, 't>> {
        let text = std::str::from_utf8(input).ok()?;
        shape::is_table(text, words, count).then_some(Table { text, words, count })
    }

    /// The count of records.
    pub fn len(&self) -> usize {
        self.count
    }

    /// Whether there is no record: only the empty run has none.
    pub fn is_empty(&self) -> bool {
        self.count == 0
    }

    /// The input, as bytes.
    pub fn input(&self) -> &'i [u8] {
        self.text.as_bytes()
    }

    /// The input, as text.
    pub fn text(&self) -> &'i str {
        self.text
    }

    /// The words of the records: [`ROW_WORDS`] for each, and none beyond the last.
    pub fn words(&self) -> &'t [u32] {
        &self.words[..self.count * ROW_WORDS]
    }

    /// The record of a number, if there is one.
    pub fn record(&self, number: usize) -> Option<Record<'i, 't>> {
        (number < self.count).then(|| Record::at(*self, number))
    }

    /// Every record, in preorder.
    ///
    /// ```
    /// use lorikvar::Kind;
    ///
    /// let owned = lorikvar::read_stage_vec(b"<v>hi</v>")?;
    /// let kinds: Vec<Kind> = owned.table().records().map(|record| record.kind()).collect();
    /// assert_eq!(kinds[..3], [Kind::Element, Kind::OpeningTag, Kind::Identifier]);
    /// assert_eq!(kinds[3..], [Kind::Text, Kind::ClosingTag, Kind::Identifier]);
    /// # Ok::<(), lorikvar::Refusal>(())
    /// ```
    pub fn records(&self) -> Records<'i, 't> {
        Records::over(*self, 0..self.count)
    }

    /// The outermost records: one of a stage, any number of a run.
    pub fn outermost(&self) -> Children<'i, 't> {
        Children::over(*self, 0..self.count, |_| true)
    }

    /// One of a record's words; the record is one of this table.
    pub(crate) fn word(&self, number: usize, word: Word) -> u32 {
        self.words[number * ROW_WORDS + word as usize]
    }

    /// The kind of a record of this table.
    pub(crate) fn kind(&self, number: usize) -> Kind {
        let number = self.word(number, Word::Kind);
        Kind::from_number(number).expect("a record's kind is one of the 18")
    }

    /// Whether both are views of the same input and the same words.
    pub(crate) fn is_same(&self, other: &Table<'_, '_>) -> bool {
        let texts =
            (self.text.as_ptr(), self.text.len()) == (other.text.as_ptr(), other.text.len());
        let words =
            (self.words.as_ptr(), self.words.len()) == (other.words.as_ptr(), other.words.len());
        texts && words && self.count == other.count
    }
}

impl<'i, 't> IntoIterator for Table<'i, 't> {
    type Item = Record<'i, 't>;
    type IntoIter = Records<'i, 't>;

    fn into_iter(self) -> Records<'i, 't> {
        self.records()
    }
}

impl fmt::Debug for Table<'_, '_> {
    fn fmt(&self, f: &mut fmt::Formatter<'_>) -> fmt::Result {
        f.debug_list().entries(self.records()).finish()
    }
}

/// A table with words of its own, as [`read_stage_vec`](crate::read_stage_vec) gives it.
#[derive(Clone)]
pub struct OwnedTable<'i> {
    text: &'i str,
    words: Vec<u32>,
}

impl<'i> OwnedTable<'i> {
    /// The words of an accepted read, and no more of them.
    pub(crate) fn of_read(input: &'i [u8], words: Vec<u32>) -> OwnedTable<'i> {
        OwnedTable {
            text: accepted_text(input),
            words,
        }
    }

    /// The view of its records.
    pub fn table(&self) -> Table<'i, '_> {
        Table {
            text: self.text,
            words: &self.words,
            count: self.words.len() / ROW_WORDS,
        }
    }

    /// The words alone, to be kept; [`Table::new`] makes a table of them again.
    pub fn into_words(self) -> Vec<u32> {
        self.words
    }
}

impl fmt::Debug for OwnedTable<'_> {
    fn fmt(&self, f: &mut fmt::Formatter<'_>) -> fmt::Result {
        self.table().fmt(f)
    }
}
