use crate::{Kind, Record, Table};
use std::iter::FusedIterator;
use std::ops::Range;

/// Records in preorder: every one of a table, or all that one record holds.
#[derive(Clone, Debug)]
pub struct Records<'i, 't> {
    table: Table<'i, 't>,
    left: Range<usize>,
}

impl<'i, 't> Records<'i, 't> {
    pub(crate) fn over(table: Table<'i, 't>, left: Range<usize>) -> Records<'i, 't> {
        Records { table, left }
    }
}

impl<'i, 't> Iterator for Records<'i, 't> {
    type Item = Record<'i, 't>;

    fn next(&mut self) -> Option<Record<'i, 't>> {
        self.left
            .next()
            .map(|number| Record::at(self.table, number))
    }

    fn size_hint(&self) -> (usize, Option<usize>) {
        self.left.size_hint()
    }
}

impl DoubleEndedIterator for Records<'_, '_> {
    fn next_back(&mut self) -> Option<Self::Item> {
        self.left
            .next_back()
            .map(|number| Record::at(self.table, number))
    }
}

impl ExactSizeIterator for Records<'_, '_> {}

impl FusedIterator for Records<'_, '_> {}

/// Records that stand side by side, of the kinds that are asked for. From one it hops to the next by `after`,
/// over all that the first holds.
#[derive(Clone, Debug)]
pub struct Children<'i, 't> {
    table: Table<'i, 't>,
    left: Range<usize>,
    keep: fn(Kind) -> bool,
}

impl<'i, 't> Children<'i, 't> {
    pub(crate) fn over(
        table: Table<'i, 't>,
        left: Range<usize>,
        keep: fn(Kind) -> bool,
    ) -> Children<'i, 't> {
        Children { table, left, keep }
    }

    /// No record.
    pub(crate) fn none(table: Table<'i, 't>) -> Children<'i, 't> {
        Children::over(table, 0..0, |_| false)
    }
}

impl<'i, 't> Iterator for Children<'i, 't> {
    type Item = Record<'i, 't>;

    fn next(&mut self) -> Option<Record<'i, 't>> {
        while !self.left.is_empty() {
            let record = Record::at(self.table, self.left.start);
            self.left.start = record.after();
            if (self.keep)(record.kind()) {
                return Some(record);
            }
        }
        None
    }
}

impl FusedIterator for Children<'_, '_> {}
