use crate::ffi::{self, Said};
use crate::{OwnedTable, Refusal, Table, ROW_WORDS};

/// Checks a stage (blanks, one element or fragment, blanks, end of input) and counts its records.
///
/// Never [`Refusal::TableTooSmall`]: a check has no table.
///
/// ```
/// use lorikvar::{check_stage, Refusal};
///
/// assert_eq!(check_stage(b"<v>hi</v>"), Ok(6));
/// assert_eq!(check_stage(b"<v>hi"), Err(Refusal::EndOfInput { at: 5 }));
/// ```
pub fn check_stage(input: &[u8]) -> Result<usize, Refusal> {
    count(ffi::check_stage(input))
}

/// Checks a run (zero or more children up to the end of input) and counts its records.
///
/// ```
/// use lorikvar::{check_run, Refusal, Span};
///
/// assert_eq!(check_run(b""), Ok(0));
/// assert_eq!(check_run(b"hi <b/>"), Ok(4));
/// let place = Span { start: 0, end: 0 };
/// assert_eq!(check_run(b"</b>"), Err(Refusal::Unexpected { place }));
/// ```
pub fn check_run(input: &[u8]) -> Result<usize, Refusal> {
    count(ffi::check_run(input))
}

/// Reads a stage into the words that are lent, [`ROW_WORDS`] for each record.
///
/// A refusal writes no word; words beyond the last record stay as they were; `w` words hold `w / ROW_WORDS`
/// records, rounded down.
///
/// ```
/// use lorikvar::{read_stage, Refusal, ROW_WORDS};
///
/// let mut words = [0; 100 * ROW_WORDS];
/// let table = read_stage(b"<v>hi</v>", &mut words)?;
/// assert_eq!(table.record(3).map(|record| record.text()), Some("hi"));
/// assert_eq!(read_stage(b"<a/>", &mut words[..20]).err(), Some(Refusal::TableTooSmall { needed: 3 }));
/// # Ok::<(), Refusal>(())
/// ```
///
/// One buffer cannot be lent both as input and as words:
///
/// ```compile_fail,E0502
/// fn as_bytes(words: &[u32]) -> &[u8] {
///     unimplemented!()
/// }
/// let mut words = [0; 60];
/// let input = as_bytes(&words);
/// let table = lorikvar::read_stage(input, &mut words);
/// ```
///
/// nor can the words be written while the table is in use:
///
/// ```compile_fail,E0506
/// let mut words = [0; 60];
/// let table = lorikvar::read_stage(b"<a/>", &mut words);
/// words[0] = 7;
/// println!("{table:?}");
/// ```
pub fn read_stage<'i, 't>(input: &'i [u8], words: &'t mut [u32]) -> Result<Table<'i, 't>, Refusal> {
    let count = count(ffi::read_stage(input, words))?;
    Ok(Table::of_read(input, words, count))
}

/// Reads a run into the words that are lent, as [`read_stage`] does a stage.
///
/// ```
/// let mut words = [0; 60];
/// let table = lorikvar::read_run(b"hi <b/>", &mut words)?;
/// let children: Vec<&str> = table.outermost().map(|child| child.text()).collect();
/// assert_eq!(children, ["hi ", "<b/>"]);
/// # Ok::<(), lorikvar::Refusal>(())
/// ```
pub fn read_run<'i, 't>(input: &'i [u8], words: &'t mut [u32]) -> Result<Table<'i, 't>, Refusal> {
    let count = count(ffi::read_run(input, words))?;
    Ok(Table::of_read(input, words, count))
}

/// Reads a stage into words of its own: it checks first, and allocates once, as many as are needed.
pub fn read_stage_vec(input: &[u8]) -> Result<OwnedTable<'_>, Refusal> {
    let mut words = vec![0; check_stage(input)? * ROW_WORDS];
    count(ffi::read_stage(input, &mut words))?;
    Ok(OwnedTable::of_read(input, words))
}

/// Reads a run into words of its own, as [`read_stage_vec`] does a stage.
pub fn read_run_vec(input: &[u8]) -> Result<OwnedTable<'_>, Refusal> {
    let mut words = vec![0; check_run(input)? * ROW_WORDS];
    count(ffi::read_run(input, &mut words))?;
    Ok(OwnedTable::of_read(input, words))
}

/// The bytes from `start` to `end`, a part of the input itself; `None` where that is out of range.
///
/// ```
/// use lorikvar::span_bytes;
///
/// assert_eq!(span_bytes(b"<v>hi</v>", 3, 5), Some(&b"hi"[..]));
/// assert_eq!(span_bytes(b"<v>hi</v>", 9, 9), Some(&b""[..]));
/// assert_eq!(span_bytes(b"<v>hi</v>", 4, 3), None);
/// assert_eq!(span_bytes(b"<v>hi</v>", 4, 10), None);
/// ```
pub fn span_bytes(input: &[u8], start: usize, end: usize) -> Option<&[u8]> {
    part(input, ffi::span_part(input, start, end)?)
}

/// The bytes of a record by its number, a part of the input itself. The words may be any, with a count that
/// they are said to have; `None` where the number is not below it, or past the words, or the span is out of
/// range.
///
/// ```
/// let input = b"<v>hi</v>";
/// let words = lorikvar::read_stage_vec(input)?.into_words();
/// assert_eq!(lorikvar::record_bytes(input, &words, 6, 3), Some(&b"hi"[..]));
/// assert_eq!(lorikvar::record_bytes(input, &words, 3, 3), None);
/// # Ok::<(), lorikvar::Refusal>(())
/// ```
pub fn record_bytes<'i>(
    input: &'i [u8],
    words: &[u32],
    count: usize,
    number: usize,
) -> Option<&'i [u8]> {
    part(input, ffi::record_part(input, words, count, number)?)
}

fn part(input: &[u8], [start, end]: [usize; 2]) -> Option<&[u8]> {
    input.get(start..end)
}

/// The count of an acceptance, or the refusal.
fn count(said: Said) -> Result<usize, Refusal> {
    match (said.number, Refusal::of(said)) {
        (0, _) => Ok(said.values[0]),
        (_, Some(refusal)) => Err(refusal),
        (number, None) => panic!("the archive that is linked is another one: it says {number}"),
    }
}
