//! Makes an item smaller as long as its difference stays of the same class.

use crate::blank::blank_length;
use crate::item::Item;
use crate::parts::{parts, Part};

/// Bytes of candidates that are asked about at once.
const AT_ONCE: usize = 4 << 20;
/// Up to this length any short span is tried, up to the other any two bytes.
const SHORT: usize = 60;
const VERY_SHORT: usize = 30;

/// Spans of the input, each with what is to stand there instead.
type Edit = Vec<(usize, usize, &'static [u8])>;

/// Tells for each candidate whether the difference is still there and of its class.
pub trait Stays {
    fn stays(&mut self, candidates: &[Item]) -> Result<Vec<bool>, String>;
}

impl<F: FnMut(&[Item]) -> Result<Vec<bool>, String>> Stays for F {
    fn stays(&mut self, candidates: &[Item]) -> Result<Vec<bool>, String> {
        self(candidates)
    }
}

/// The smallest item that these steps lead to.
pub fn shrunk(item: &Item, stays: &mut dyn Stays) -> Result<Item, String> {
    let mut search = Search {
        best: item.clone(),
        stays,
    };
    loop {
        let before = search.best.clone();
        search.become_a_part()?;
        while search.take(dropped_parts(&search.best.bytes))? {}
        while search.take(opened_parts(&search.best.bytes))? {}
        while search.take(self_closed_parts(&search.best.bytes))? {}
        search.drop_chunks()?;
        while search.take(short_spans(&search.best.bytes))? {}
        while search.take(two_bytes(&search.best.bytes))? {}
        while search.take(plainer_words(&search.best.bytes))? {}
        while search.take(plainer_bytes(&search.best.bytes))? {}
        if search.best == before {
            return Ok(before);
        }
    }
}

struct Search<'a> {
    best: Item,
    stays: &'a mut dyn Stays,
}

impl Search<'_> {
    /// The smallest part that will do in place of the whole.
    fn become_a_part(&mut self) -> Result<(), String> {
        let bytes = &self.best.bytes;
        let mut parts = parts(bytes);
        parts.sort_by_key(|part| part.end - part.start);
        parts.retain(|part| part.end - part.start < bytes.len());
        let candidates: Vec<Item> = parts
            .iter()
            .map(|part| self.best.with(bytes[part.start..part.end].to_vec()))
            .collect();
        let good = self.tested(&candidates)?;
        if let Some(first) = good.iter().position(|is| *is) {
            self.best = candidates[first].clone();
        }
        Ok(())
    }

    /// Pieces of half the length, then of a quarter, and so on.
    fn drop_chunks(&mut self) -> Result<(), String> {
        let mut length = self.best.bytes.len() / 2;
        // In a long input single bytes are not worth their time.
        while length > self.best.bytes.len() / 2_000 {
            while self.take(chunks(&self.best.bytes, length))? {}
            length /= 2;
        }
        Ok(())
    }

    /// Tries each edit alone; then as many as fit of those that will do, together. Whether anything came of it.
    fn take(&mut self, edits: Vec<Edit>) -> Result<bool, String> {
        let plainer =
            |edit: &Edit| plainness(&edited(&self.best.bytes, edit)) < plainness(&self.best.bytes);
        let edits: Vec<Edit> = edits.into_iter().filter(plainer).collect();
        let candidates: Vec<Item> = edits
            .iter()
            .map(|edit| self.best.with(edited(&self.best.bytes, edit)))
            .collect();
        let good = self.tested(&candidates)?;
        let good = edits.iter().zip(&good).filter(|(_, is)| **is);
        let mut apart = apart(good.map(|(edit, _)| edit.clone()).collect());
        while !apart.is_empty() {
            let together = self.best.with(edited(&self.best.bytes, &apart.concat()));
            if apart.len() == 1 || self.tested(std::slice::from_ref(&together))?[0] {
                self.best = together;
                return Ok(true);
            }
            apart.truncate(apart.len() / 2);
        }
        Ok(false)
    }

    fn tested(&mut self, candidates: &[Item]) -> Result<Vec<bool>, String> {
        let mut good = Vec::new();
        while good.len() < candidates.len() {
            let rest = &candidates[good.len()..];
            let mut size = 0;
            let fits = |item: &&Item| {
                size += item.bytes.len();
                size <= AT_ONCE
            };
            let count = rest.iter().take_while(fits).count().max(1);
            good.extend(self.stays.stays(&rest[..count])?);
        }
        Ok(good)
    }
}

/// Shorter is plainer; then more of `a` and space.
fn plainness(bytes: &[u8]) -> (usize, usize) {
    let odd = bytes.iter().filter(|byte| !b"a ".contains(byte)).count();
    (bytes.len(), odd)
}

fn edited(bytes: &[u8], edit: &[(usize, usize, &'static [u8])]) -> Vec<u8> {
    let mut spans = edit.to_vec();
    spans.sort();
    let mut result = Vec::with_capacity(bytes.len());
    let mut at = 0;
    for (start, end, instead) in spans {
        result.extend_from_slice(&bytes[at..start]);
        result.extend_from_slice(instead);
        at = end;
    }
    result.extend_from_slice(&bytes[at..]);
    result
}

/// Edits of which no two touch the same bytes, the largest first.
fn apart(mut edits: Vec<Edit>) -> Vec<Edit> {
    let size = |edit: &Edit| -> usize { edit.iter().map(|(start, end, _)| end - start).sum() };
    edits.sort_by_key(|edit| std::cmp::Reverse(size(edit)));
    let mut kept: Vec<Edit> = Vec::new();
    for edit in edits {
        let meets = |other: &Edit| {
            let pairs = edit
                .iter()
                .flat_map(|one| other.iter().map(move |two| (one, two)));
            pairs
                .into_iter()
                .any(|(one, two)| one.0 < two.1 && two.0 < one.1)
        };
        if !kept.iter().any(meets) {
            kept.push(edit);
        }
    }
    kept
}

fn dropped_parts(bytes: &[u8]) -> Vec<Edit> {
    let dropped = |part: &Part| vec![(part.start, part.end, &b""[..])];
    parts(bytes).iter().map(dropped).collect()
}

/// The tags or braces dropped, what is inside kept.
fn opened_parts(bytes: &[u8]) -> Vec<Edit> {
    let opened = |part: &Part| {
        vec![
            (part.start, part.inside_start, &b""[..]),
            (part.inside_end, part.end, &b""[..]),
        ]
    };
    parts(bytes).iter().map(opened).collect()
}

/// An element without its content and its closing tag.
fn self_closed_parts(bytes: &[u8]) -> Vec<Edit> {
    let paired = |part: &Part| bytes[..part.inside_start].ends_with(b">");
    let self_closed = |part: Part| vec![(part.inside_start - 1, part.end, &b"/>"[..])];
    let paired = parts(bytes).into_iter().filter(paired);
    paired.map(self_closed).collect()
}

fn chunks(bytes: &[u8], length: usize) -> Vec<Edit> {
    let chunk = |start| vec![(start, bytes.len().min(start + length), &b""[..])];
    (0..bytes.len()).step_by(length).map(chunk).collect()
}

fn short_spans(bytes: &[u8]) -> Vec<Edit> {
    if bytes.len() > SHORT {
        return Vec::new();
    }
    let spans = (1..=8).rev().flat_map(|length| {
        let last = (bytes.len() + 1).saturating_sub(length);
        (0..last).map(move |start| vec![(start, start + length, &b""[..])])
    });
    spans.collect()
}

/// Names of two tags shrink together.
fn two_bytes(bytes: &[u8]) -> Vec<Edit> {
    if bytes.len() > VERY_SHORT {
        return Vec::new();
    }
    let byte = |at: usize| (at, at + 1, &b""[..]);
    let pairs = (0..bytes.len())
        .flat_map(|one| (one + 2..bytes.len()).map(move |other| vec![byte(one), byte(other)]));
    pairs.collect()
}

/// A word, or bytes beyond ASCII, become a letter wherever they stand; blanks become a space.
fn plainer_words(bytes: &[u8]) -> Vec<Edit> {
    let mut edits = Vec::new();
    let words = words(bytes);
    for (start, end) in &words {
        let word = &bytes[*start..*end];
        let instead: &[&'static [u8]] = match blank_length(word) > 0 {
            true => &[b" "],
            false => &[b"a", b"b"],
        };
        let alike = || {
            words
                .iter()
                .filter(|(start, end)| &bytes[*start..*end] == word)
        };
        for plain in instead {
            edits.push(alike().map(|(start, end)| (*start, *end, *plain)).collect());
        }
    }
    edits.sort();
    edits.dedup();
    edits
}

fn words(bytes: &[u8]) -> Vec<(usize, usize)> {
    let mut words = Vec::new();
    let mut start = 0;
    for word in classes(bytes).chunk_by(|one, other| one == other) {
        let end = start + word.len();
        if word[0] != Class::Mark {
            words.push((start, end));
        }
        start = end;
    }
    words
}

#[derive(Clone, Copy, PartialEq, Eq)]
enum Class {
    Word,
    Blank,
    Mark,
}

/// The class of each byte: of a blank of several bytes, all are blank.
fn classes(bytes: &[u8]) -> Vec<Class> {
    let mut classes = Vec::with_capacity(bytes.len());
    while let Some(byte) = bytes.get(classes.len()) {
        let class = match byte {
            b'a'..=b'z' | b'A'..=b'Z' | b'0'..=b'9' | b'_' | b'$' | 0x80.. => Class::Word,
            _ => Class::Mark,
        };
        match blank_length(&bytes[classes.len()..]) {
            0 => classes.push(class),
            length => classes.resize(classes.len() + length, Class::Blank),
        }
    }
    classes
}

fn plainer_bytes(bytes: &[u8]) -> Vec<Edit> {
    let plain: [&'static [u8]; 2] = [b"a", b" "];
    let edits = (0..bytes.len()).flat_map(|at| plain.map(|instead| vec![(at, at + 1, instead)]));
    edits.collect()
}

#[cfg(test)]
mod tests {
    use super::*;
    use crate::item::Reading;

    /// What remains of the text where the difference is there as long as `stays` says so.
    fn remains(text: &str, stays: fn(&str) -> bool) -> String {
        let item = Item {
            reading: Reading::Stage,
            bytes: text.as_bytes().to_vec(),
        };
        let mut all = |candidates: &[Item]| {
            let text = |item: &Item| String::from_utf8_lossy(&item.bytes).into_owned();
            Ok(candidates.iter().map(|item| stays(&text(item))).collect())
        };
        let smallest = shrunk(&item, &mut all).unwrap();
        String::from_utf8(smallest.bytes).unwrap()
    }

    #[test]
    fn bytes_that_do_not_matter_are_dropped() {
        let text = "<v>some text</v>{and + more}!<another/>, and more of it <x y={z}/>? and an end"
            .repeat(20);
        assert_eq!(
            remains(&text, |text| text.contains('!') && text.contains('?')).len(),
            2
        );
    }

    #[test]
    fn two_names_shrink_together() {
        let same_names = |text: &str| {
            let inside = text
                .strip_prefix('<')
                .and_then(|rest| rest.strip_suffix('>'));
            inside
                .and_then(|inside| inside.split_once("></"))
                .is_some_and(|(one, other)| one == other && !one.is_empty())
        };
        assert_eq!(remains("<long></long>", same_names), "<a></a>");
    }

    #[test]
    fn what_must_balance_shrinks_by_parts() {
        let balanced = |text: &str| {
            let opened = text.matches("<v>").count();
            opened == text.matches("</v>").count() && text.contains("{...")
        };
        let text = "<v>".repeat(30) + "x{...é}y" + &"</v>".repeat(30);
        assert_eq!(remains(&text, balanced), "{...");
    }

    #[test]
    fn a_closing_tag_goes_with_the_content() {
        let one_element =
            |text: &str| text.contains("={") && (text.ends_with("/>") || text.ends_with("</long>"));
        let text = "<long b={c}>text<d/></long>";
        assert_eq!(remains(text, one_element), "={/>");
    }

    #[test]
    fn nothing_smaller_will_do() {
        assert_eq!(remains("{a+b}", |text| text == "{a+b}"), "{a+b}");
        assert_eq!(remains("", |_| true), "");
    }

    #[test]
    fn blanks_beyond_ascii_become_a_space() {
        let two_words = |text: &str| text.split_whitespace().count() == 2;
        assert_eq!(remains("ab\u{2028}\u{A0}cd", two_words), "a a");
    }

    #[test]
    fn words_become_plain() {
        assert_eq!(words(b"ab <c_1\n\n/>"), [(0, 2), (2, 3), (4, 7), (7, 9)]);
        assert_eq!(words("aé\u{A0} b".as_bytes()), [(0, 3), (3, 6), (6, 7)]);
        assert_eq!(
            remains("<view\n=", |text| text.len() > 2
                && text.starts_with('<')
                && text.ends_with('=')),
            "<a="
        );
    }
}
