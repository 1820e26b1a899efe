//! Document 01's paragraph 'Domain': where the port's answer must be another reader's too. `D:` quotes it, `D2:`
//! document 02.

use crate::answer::{Answer, Refusal};
use crate::blank::{blank_length, ends_line, nearly_blank};
use crate::item::{Item, Reading};

/// Whether the domain holds the port's answer to this item, so that a parser that accepts where the port refuses,
/// refuses where it accepts, or gives other spans, differs from it.
///
/// D: "What the port accepts, the Rust accepts with the same spans". "What the port refuses by 2, 4 to 12 or 16, the
/// Rust refuses too, where it can be given the bytes at all": a parser that cannot be given them answers `skip`.
/// "Refusals 1, 14, 15, and 3 and 13 otherwise, are port limits."
/// D2: "17 and 18 stand where 5 stood and count with 4 to 12 in the domain." "Demand 2's domain grows": what is
/// accepted with the blanks that request 1 adds is compared as all else is.
pub fn compared(item: &Item, port: &Answer) -> bool {
    let reached = |stop| Reach::of(item, stop);
    match port {
        Answer::Ok(_) => !reached(item.bytes.len()).odd_string,
        Answer::No(Refusal::Told(2, _)) => true,
        Answer::No(Refusal::Told(3, [place, ..])) => three_compared(item, *place as usize),
        // A 5 is told at the quote of the string that never closes: that string was read.
        Answer::No(Refusal::Told(5, [place, ..])) => !reached(*place as usize + 1).odd_string,
        Answer::No(Refusal::Told(4..=12 | 16 | 17 | 18, places)) => {
            let last = places.iter().max().map_or(0, |place| *place as usize);
            !reached(last).odd_string
        }
        _ => false,
    }
}

/// D: "The same for 3 outside braces .., after the stage's first `<`, and not for a run's outermost `</`". D2: "Demand
/// 2's rule for 3 outside braces now covers all bytes but a backslash and the blanks listed under CR 1."
fn three_compared(item: &Item, place: usize) -> bool {
    let rest = item.bytes.get(place..).unwrap_or_default();
    let covered = !rest.is_empty() && rest[0] != b'\\' && !nearly_blank(rest);
    let reach = Reach::of(item, place);
    let outermost_closing = reach.open == [Inside::Children];
    covered
        && !reach.odd_string
        && !reach.open.contains(&Inside::Braces)
        && match item.reading {
            Reading::Stage => reach.past_first,
            Reading::Run => !outermost_closing,
        }
}

/// What may be open around a place.
#[derive(Clone, Copy, PartialEq, Eq, Debug)]
enum Inside {
    /// Outside of a stage's element.
    Around,
    Children,
    Braces,
    Tag,
}

/// Where a `/` stood in the tag that is read.
#[derive(Clone, Copy, PartialEq, Eq)]
enum Slash {
    None,
    First,
    Last,
}

/// What the tokens that begin before a place leave open there. The port took each of them, so only their ends are
/// looked for.
struct Reach<'a> {
    bytes: &'a [u8],
    /// Outermost first.
    open: Vec<Inside>,
    /// Whether a `<` was passed.
    past_first: bool,
    /// D: "Not compared (the step isn't in the text): blanks between `=` and a quoted string that holds a backslash, LF
    /// or CR".
    odd_string: bool,
    slash: Slash,
    /// Whether no token of the tag was read yet.
    tag_begins: bool,
}

impl Reach<'_> {
    fn of(item: &Item, stop: usize) -> Reach<'_> {
        let outermost = match item.reading {
            Reading::Stage => Inside::Around,
            Reading::Run => Inside::Children,
        };
        let mut reach = Reach {
            bytes: &item.bytes,
            open: vec![outermost],
            past_first: false,
            odd_string: false,
            slash: Slash::None,
            tag_begins: false,
        };
        let mut at = 0;
        while at < stop.min(item.bytes.len()) {
            at = reach.past(at);
        }
        reach
    }

    /// The place behind the token or byte at this place.
    fn past(&mut self, at: usize) -> usize {
        let here = self.open.last().copied().unwrap_or(Inside::Around);
        let rest = &self.bytes[at..];
        let blank = blank_length(rest);
        match (rest[0], here) {
            (b'<', Inside::Children) => self.open_tag(),
            (b'{', Inside::Children) => self.open.push(Inside::Braces),
            (_, Inside::Children) => {}
            _ if blank > 0 => return at + blank,
            _ if rest.starts_with(b"//") => return self.past_line(at),
            _ if rest.starts_with(b"/*") => return self.past_found(b"*/", at + 2),
            (b'"' | b'\'', Inside::Tag | Inside::Braces) => return self.past_string(at, here),
            (b'<', _) => self.open_tag(),
            (b'{', _) => self.open.push(Inside::Braces),
            (b'}', _) => self.close(),
            (byte, Inside::Tag) => self.in_tag(byte),
            _ => {}
        }
        at + 1
    }

    fn open_tag(&mut self) {
        self.open.push(Inside::Tag);
        self.past_first = true;
        self.tag_begins = true;
        self.slash = Slash::None;
    }

    fn close(&mut self) {
        self.open.pop();
    }

    fn in_tag(&mut self, byte: u8) {
        match byte {
            b'>' => self.close_tag(),
            b'/' if self.tag_begins => self.slash = Slash::First,
            b'/' => self.slash = Slash::Last,
            _ => {}
        }
        self.tag_begins = false;
    }

    /// A closing tag ends the children around it; a self-closed one has none; else they begin.
    fn close_tag(&mut self) {
        self.close();
        match self.slash {
            Slash::First => self.close(),
            Slash::None => self.open.push(Inside::Children),
            Slash::Last => {}
        }
        self.slash = Slash::None;
    }

    /// In a tag a string stands behind `=`, so what is right before it is that or a blank.
    fn past_string(&mut self, at: usize, here: Inside) -> usize {
        let end = self.past_found(&self.bytes[at..=at], at + 1);
        let behind_blanks = at > 0 && self.bytes[at - 1] != b'=';
        if here == Inside::Tag && behind_blanks {
            let odd = |byte: &u8| matches!(byte, b'\\' | b'\n' | b'\r');
            self.odd_string |= self.bytes[at..end].iter().any(odd);
        }
        end
    }

    /// The end of a `//` comment: LF, CR, U+2028, U+2029 or the end of input.
    fn past_line(&self, at: usize) -> usize {
        let ends = |place: &usize| ends_line(&self.bytes[*place..]);
        (at..self.bytes.len())
            .find(ends)
            .unwrap_or(self.bytes.len())
    }

    fn past_found(&self, wanted: &[u8], start: usize) -> usize {
        let rest = self.bytes.get(start..).unwrap_or_default();
        let found = rest
            .windows(wanted.len())
            .position(|window| window == wanted);
        found.map_or(self.bytes.len(), |found| start + found + wanted.len())
    }
}

#[cfg(test)]
#[path = "domain_tests.rs"]
mod tests;
