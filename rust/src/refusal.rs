use crate::ffi::Said;
use crate::Span;
use std::fmt;

/// Why an input is refused, and where. A call knows no other refusal, so a `match` on this is whole.
///
/// `at` is the offset of a byte. The words of each variant are document 01's, but for what is never closed, which
/// request 3 of document 02 tells apart; [`Refusal::number`] and [`Refusal::places`] give the number and the two
/// places as the documents count them.
///
/// ```
/// use lorikvar::{check_stage, Refusal, Span};
///
/// let refusal = check_stage(b"<v></w>").unwrap_err();
/// let (opening, closing) = (Span { start: 1, end: 2 }, Span { start: 5, end: 6 });
/// assert_eq!(refusal, Refusal::NamesDiffer { opening, closing });
/// assert_eq!(refusal.to_string(), "refusal 7: closing name differs: opening name 1, 2; closing name 5, 6");
///
/// let refusal = check_stage(b"<v>{'hi}</v>").unwrap_err();
/// assert_eq!(refusal.to_string(), "refusal 18: string in braces never closed: at 4");
/// ```
#[derive(Clone, Copy, Debug, PartialEq, Eq, Hash)]
pub enum Refusal {
    /// 1: too long: more than [`MOST_BYTES`](crate::MOST_BYTES) bytes.
    TooLong,
    /// 2: not UTF-8.
    NotUtf8 {
        /// Where no good sequence begins.
        at: usize,
    },
    /// 3: no allowed token begins here, or a bad word, number or string.
    Unexpected {
        /// Its start, as both ends; inside a string, the bad byte, as both ends; of a string in braces that LF or CR
        /// breaks, the piece from its quote up to the line end.
        place: Span,
    },
    /// 4: input ends where something is still needed.
    EndOfInput {
        /// The length of the input.
        at: usize,
    },
    /// 5: quoted attribute string never closed.
    QuotedNeverClosed {
        /// Its quote.
        at: usize,
    },
    /// 6: `>` or `}` in child text.
    StrayInText {
        /// That byte.
        at: usize,
    },
    /// 7: closing name differs.
    NamesDiffer {
        /// The opening name.
        opening: Span,
        /// The closing name.
        closing: Span,
    },
    /// 8: fragment closed by a name.
    FragmentClosedByName {
        /// The opening fragment.
        opening: Span,
        /// The closing name.
        closing: Span,
    },
    /// 9: element closed by `</>`.
    ElementClosedByFragment {
        /// The opening name.
        opening: Span,
        /// The closing fragment.
        closing: Span,
    },
    /// 10: dash after a dot in a name.
    DashAfterDot {
        /// The part of the name with the dash.
        part: Span,
    },
    /// 11: attribute `={}` with nothing or blanks inside.
    EmptyValue {
        /// The braces.
        braces: Span,
    },
    /// 12: after an element or fragment that isn't a child, `<` not followed by `<` or `=`.
    Adjacent {
        /// That byte.
        less: Span,
    },
    /// 13: anything else after a stage.
    AfterStage {
        /// Its start.
        at: usize,
    },
    /// 14: depth: more than [`MOST_DEPTH`](crate::MOST_DEPTH) levels.
    TooDeep {
        /// The first byte of the level that is one too many.
        at: usize,
    },
    /// 15: accepted, but more records than the table holds.
    TableTooSmall {
        /// The count of records that is needed.
        needed: usize,
    },
    /// 16: comma after the expression of `{expression}`.
    CommaInBraces {
        /// That byte.
        comma: Span,
    },
    /// 17: `/*` comment never closed.
    CommentNeverClosed {
        /// Its first byte.
        at: usize,
    },
    /// 18: string in braces never closed.
    StringNeverClosed {
        /// Its quote.
        at: usize,
    },
}

impl Refusal {
    /// The refusal that a call says; `None` for number 0. No call says a number above 18 (proved, `NumbersTo18`).
    pub(crate) fn of(said: Said) -> Option<Refusal> {
        let [start, end, start2, end2] = said.values;
        let (at, span, closing) = (
            start,
            Span { start, end },
            Span {
                start: start2,
                end: end2,
            },
        );
        Some(match said.number {
            1 => Refusal::TooLong,
            2 => Refusal::NotUtf8 { at },
            3 => Refusal::Unexpected { place: span },
            4 => Refusal::EndOfInput { at },
            5 => Refusal::QuotedNeverClosed { at },
            6 => Refusal::StrayInText { at },
            7 => Refusal::NamesDiffer {
                opening: span,
                closing,
            },
            8 => Refusal::FragmentClosedByName {
                opening: span,
                closing,
            },
            9 => Refusal::ElementClosedByFragment {
                opening: span,
                closing,
            },
            10 => Refusal::DashAfterDot { part: span },
            11 => Refusal::EmptyValue { braces: span },
            12 => Refusal::Adjacent { less: span },
            13 => Refusal::AfterStage { at },
            14 => Refusal::TooDeep { at },
            15 => Refusal::TableTooSmall { needed: start },
            16 => Refusal::CommaInBraces { comma: span },
            17 => Refusal::CommentNeverClosed { at },
            18 => Refusal::StringNeverClosed { at },
            _ => return None,
        })
    }

    /// The number, 1 to 18.
    pub fn number(&self) -> u32 {
        match self {
            Refusal::TooLong => 1,
            Refusal::NotUtf8 { .. } => 2,
            Refusal::Unexpected { .. } => 3,
            Refusal::EndOfInput { .. } => 4,
            Refusal::QuotedNeverClosed { .. } => 5,
            Refusal::StrayInText { .. } => 6,
            Refusal::NamesDiffer { .. } => 7,
            Refusal::FragmentClosedByName { .. } => 8,
            Refusal::ElementClosedByFragment { .. } => 9,
            Refusal::DashAfterDot { .. } => 10,
            Refusal::EmptyValue { .. } => 11,
            Refusal::Adjacent { .. } => 12,
            Refusal::AfterStage { .. } => 13,
            Refusal::TooDeep { .. } => 14,
            Refusal::TableTooSmall { .. } => 15,
            Refusal::CommaInBraces { .. } => 16,
            Refusal::CommentNeverClosed { .. } => 17,
            Refusal::StringNeverClosed { .. } => 18,
        }
    }

    /// The two places: a single offset p is p, p; an unused place is 0, 0; of 15 the first is the needed count, 0.
    pub fn places(&self) -> [Span; 2] {
        let none = Span::default();
        match *self {
            Refusal::TooLong => [none, none],
            Refusal::NotUtf8 { at }
            | Refusal::EndOfInput { at }
            | Refusal::QuotedNeverClosed { at }
            | Refusal::StrayInText { at }
            | Refusal::AfterStage { at }
            | Refusal::TooDeep { at }
            | Refusal::CommentNeverClosed { at }
            | Refusal::StringNeverClosed { at } => [Span { start: at, end: at }, none],
            Refusal::NamesDiffer { opening, closing }
            | Refusal::FragmentClosedByName { opening, closing }
            | Refusal::ElementClosedByFragment { opening, closing } => [opening, closing],
            Refusal::Unexpected { place: span }
            | Refusal::DashAfterDot { part: span }
            | Refusal::EmptyValue { braces: span }
            | Refusal::Adjacent { less: span }
            | Refusal::CommaInBraces { comma: span } => [span, none],
            Refusal::TableTooSmall { needed } => [
                Span {
                    start: needed,
                    end: 0,
                },
                none,
            ],
        }
    }

    /// Document 01's words for when it is given; of 5, 17 and 18, what is never closed.
    pub fn words(&self) -> &'static str {
        match self {
            Refusal::TooLong => "too long",
            Refusal::NotUtf8 { .. } => "not UTF-8",
            Refusal::Unexpected { .. } => {
                "no allowed token begins here, or a bad word, number or string"
            }
            Refusal::EndOfInput { .. } => "input ends where something is still needed",
            Refusal::QuotedNeverClosed { .. } => "quoted attribute string never closed",
            Refusal::StrayInText { .. } => "`>` or `}` in child text",
            Refusal::NamesDiffer { .. } => "closing name differs",
            Refusal::FragmentClosedByName { .. } => "fragment closed by a name",
            Refusal::ElementClosedByFragment { .. } => "element closed by `</>`",
            Refusal::DashAfterDot { .. } => "dash after a dot in a name",
            Refusal::EmptyValue { .. } => "attribute `={}` with nothing or blanks inside",
            Refusal::Adjacent { .. } => {
                "after an element or fragment that isn't a child (blanks between or not), \
                 `<` not followed by `<` or `=`"
            }
            Refusal::AfterStage { .. } => "anything else after a stage",
            Refusal::TooDeep { .. } => "depth",
            Refusal::TableTooSmall { .. } => "accepted, but more records than the table holds",
            Refusal::CommaInBraces { .. } => "comma after the expression of `{expression}`",
            Refusal::CommentNeverClosed { .. } => "`/*` comment never closed",
            Refusal::StringNeverClosed { .. } => "string in braces never closed",
        }
    }
}

impl fmt::Display for Refusal {
    fn fmt(&self, f: &mut fmt::Formatter<'_>) -> fmt::Result {
        write!(f, "refusal {}: {}", self.number(), self.words())?;
        match self {
            Refusal::TooLong => Ok(()),
            Refusal::NamesDiffer { opening, closing } => {
                write!(f, ": opening name {opening}; closing name {closing}")
            }
            Refusal::FragmentClosedByName { opening, closing } => {
                write!(f, ": opening fragment {opening}; closing name {closing}")
            }
            Refusal::ElementClosedByFragment { opening, closing } => {
                write!(f, ": opening name {opening}; closing fragment {closing}")
            }
            Refusal::Unexpected { place } if place.start == place.end => {
                write!(f, ": at {}", place.start)
            }
            Refusal::Unexpected { place: span }
            | Refusal::DashAfterDot { part: span }
            | Refusal::EmptyValue { braces: span }
            | Refusal::Adjacent { less: span }
            | Refusal::CommaInBraces { comma: span } => write!(f, ": at {span}"),
            Refusal::TableTooSmall { needed } => write!(f, ": {needed} needed"),
            Refusal::NotUtf8 { at }
            | Refusal::EndOfInput { at }
            | Refusal::QuotedNeverClosed { at }
            | Refusal::StrayInText { at }
            | Refusal::AfterStage { at }
            | Refusal::TooDeep { at }
            | Refusal::CommentNeverClosed { at }
            | Refusal::StringNeverClosed { at } => write!(f, ": at {at}"),
        }
    }
}

impl std::error::Error for Refusal {}

#[cfg(test)]
mod tests {
    use super::Refusal;
    use crate::ffi::Said;
    use crate::Span;

    const LAST: u32 = 18;

    fn said(number: u32) -> Said {
        Said {
            number,
            values: [10, 11, 12, 13],
        }
    }

    #[test]
    fn numbers_lead_back() {
        for number in 1..=LAST {
            assert_eq!(
                Refusal::of(said(number)).map(|refusal| refusal.number()),
                Some(number)
            );
        }
        assert_eq!(Refusal::of(said(0)), None);
        assert_eq!(Refusal::of(said(LAST + 1)), None);
    }

    fn all() -> Vec<Refusal> {
        (1..=LAST)
            .filter_map(|number| Refusal::of(said(number)))
            .collect()
    }

    /// The definition quotes document 01's words above each number, in order, and document 02's above what is never
    /// closed.
    #[test]
    fn words_are_document_01_s_but_for_what_is_never_closed() {
        let page = concat!(
            env!("CARGO_MANIFEST_DIR"),
            "/../crates/jsx/specs/Refusal.antt"
        );
        let text = std::fs::read_to_string(page).unwrap();
        let quotes = text
            .lines()
            .filter_map(|line| line.strip_prefix("-- D: \"")?.split('"').next());
        let (never_closed, others): (Vec<Refusal>, Vec<Refusal>) =
            all().into_iter().partition(|refusal| {
                matches!(
                    refusal,
                    Refusal::QuotedNeverClosed { .. }
                        | Refusal::CommentNeverClosed { .. }
                        | Refusal::StringNeverClosed { .. }
                )
            });
        let words: Vec<&str> = others.iter().map(|refusal| refusal.words()).collect();
        assert_eq!(words, quotes.collect::<Vec<_>>());
        assert_eq!(words.len(), 15);
        let of_document_02 = text.lines().filter(|line| line.starts_with("-- D2: \""));
        assert_eq!(of_document_02.count(), never_closed.len());
        assert!(never_closed
            .iter()
            .all(|refusal| refusal.words().ends_with(" never closed")));
    }

    /// A string in braces that a line end breaks is the only 3 whose place has two ends.
    #[test]
    fn display_of_3_shows_a_piece_where_it_is_one() {
        let shown = |start, end| {
            let place = Span { start, end };
            let text = Refusal::Unexpected { place }.to_string();
            text.rsplit(": ").next().unwrap().to_string()
        };
        assert_eq!(shown(4, 6), "at 4, 6");
        assert_eq!(shown(6, 6), "at 6");
    }

    #[test]
    fn display_gives_number_words_and_places() {
        for (place, refusal) in all().iter().enumerate() {
            let text = refusal.to_string();
            let start = format!("refusal {}: {}", place + 1, refusal.words());
            let places = text
                .strip_prefix(&start)
                .unwrap_or_else(|| panic!("{text}"));
            let expected = match refusal.number() {
                1 => "",
                7 => ": opening name 10, 11; closing name 12, 13",
                8 => ": opening fragment 10, 11; closing name 12, 13",
                9 => ": opening name 10, 11; closing fragment 12, 13",
                3 | 10 | 11 | 12 | 16 => ": at 10, 11",
                15 => ": 10 needed",
                _ => ": at 10",
            };
            assert_eq!(places, expected);
        }
    }

    #[test]
    fn places_are_those_that_were_said() {
        for refusal in all() {
            let [first, second] = refusal.places();
            let expected = match refusal.number() {
                1 => [0, 0, 0, 0],
                7..=9 => [10, 11, 12, 13],
                3 | 10 | 11 | 12 | 16 => [10, 11, 0, 0],
                15 => [10, 0, 0, 0],
                _ => [10, 10, 0, 0],
            };
            assert_eq!(
                [first.start, first.end, second.start, second.end],
                expected,
                "{refusal}"
            );
        }
    }
}
