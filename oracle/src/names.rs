//! Names in tags.

use crate::characters::{begins_a_part, continues_a_part};
use crate::cursor::Cursor;
use crate::table::{kind, Node};
use crate::Refusal;

/// D: "Element name: one part; or `part:part`; or `part.part.part..`."
#[derive(Clone, Copy, Debug, PartialEq, Eq)]
enum Form {
    OnePart,
    Namespaced,
    Member,
}

type Span = (usize, usize);

pub(crate) struct Name {
    form: Form,
    parts: Vec<Span>,
}

impl Name {
    /// A19: "6 and 7 from first to last part, blanks inside included".
    pub fn span(&self) -> Span {
        (self.parts[0].0, self.parts[self.parts.len() - 1].1)
    }
}

impl Cursor<'_> {
    /// D2: "Name parts take ID_Start, `$` and `_` first, then ID_Continue, `$`, U+200C, U+200D and `-`". Blanks may
    /// stand before it. 7.3: a character that fits nowhere is 3 at its first byte.
    fn name_part(&mut self) -> Result<Span, Refusal> {
        self.blanks()?;
        let start = self.at;
        let Some(first) = self.character(begins_a_part) else {
            return Err(self.no_allowed_token());
        };
        self.take_to(self.run_of_characters(start + first, continues_a_part));
        Ok((start, self.at))
    }

    /// D: "Element name: one part; or `part:part`; or `part.part.part..`."
    pub fn element_name(&mut self) -> Result<Name, Refusal> {
        let first = self.name_part()?;
        self.blanks()?;
        match self.byte() {
            Some(b':') => self.namespaced(first),
            Some(b'.') => self.member(first),
            _ => Ok(one_part(first)),
        }
    }

    /// D: "Attributes: name (part or `part:part`)".
    pub fn attribute_name(&mut self) -> Result<Name, Refusal> {
        let first = self.name_part()?;
        self.blanks()?;
        match self.byte() {
            Some(b':') => self.namespaced(first),
            _ => Ok(one_part(first)),
        }
    }

    fn namespaced(&mut self, first: Span) -> Result<Name, Refusal> {
        self.take(1);
        let second = self.name_part()?;
        Ok(Name {
            form: Form::Namespaced,
            parts: vec![first, second],
        })
    }

    fn member(&mut self, first: Span) -> Result<Name, Refusal> {
        let mut parts = vec![first];
        while self.byte() == Some(b'.') {
            self.take(1);
            parts.push(self.part_after_a_dot()?);
            self.blanks()?;
        }
        Ok(Name {
            form: Form::Member,
            parts,
        })
    }

    /// D: "After a dot no part may hold `-`"; "10 as soon as the part ends, at the end of input too".
    fn part_after_a_dot(&mut self) -> Result<Span, Refusal> {
        let part = self.name_part()?;
        if self.has_dash(part) {
            return Err(Refusal::over(10, part));
        }
        Ok(part)
    }

    fn bytes_of(&self, part: Span) -> &[u8] {
        &self.input[part.0..part.1]
    }

    fn has_dash(&self, part: Span) -> bool {
        self.bytes_of(part).contains(&b'-')
    }

    /// D: "Closing names are equal part for part, with the same form; blanks don't count." 7.10: byte for byte.
    pub fn equal_names(&self, one: &Name, other: &Name) -> bool {
        one.form == other.form
            && one.parts.len() == other.parts.len()
            && one
                .parts
                .iter()
                .zip(&other.parts)
                .all(|(&a, &b)| self.bytes_of(a) == self.bytes_of(b))
    }

    /// The record of an element's name.
    pub fn element_name_node(&self, name: &Name) -> Node {
        match name.form {
            Form::OnePart => self.one_part_node(name.parts[0]),
            Form::Namespaced => self.namespaced_node(name),
            Form::Member => self.member_node(name),
        }
    }

    /// D: "8 holds a 16 or 6".
    pub fn attribute_name_node(&self, name: &Name) -> Node {
        match name.form {
            Form::Namespaced => self.namespaced_node(name),
            _ => self.part_node(kind::OTHER_PART, name.parts[0]),
        }
    }

    /// D: "One-part names: with no dash and a first byte A-Z, `_` or `$`, a reference; else `this`,
    /// exactly, is This; else an identifier." D2: "A first character beyond ASCII makes a dashless one-part name a
    /// reference."
    fn one_part_node(&self, part: Span) -> Node {
        let bytes = self.bytes_of(part);
        let refers = matches!(bytes[0], b'A'..=b'Z' | b'_' | b'$' | 0x80..) && !self.has_dash(part);
        if refers {
            self.part_node(kind::REFERENCE, part)
        } else if bytes == b"this" {
            self.part_node(kind::THIS, part)
        } else {
            self.part_node(kind::IDENTIFIER, part)
        }
    }

    /// D: "6 holds two 16."
    fn namespaced_node(&self, name: &Name) -> Node {
        let (start, end) = name.span();
        let parts = self.other_parts(&name.parts);
        Node::holding(kind::NAMESPACED, start, end, parts)
    }

    /// D: "7 holds a 5 (`this`) or 4, then 16s."
    fn member_node(&self, name: &Name) -> Node {
        let (start, end) = name.span();
        let mut holds = vec![self.object_node(name.parts[0])];
        holds.extend(self.other_parts(&name.parts[1..]));
        Node::holding(kind::MEMBER, start, end, holds)
    }

    fn object_node(&self, part: Span) -> Node {
        if self.bytes_of(part) == b"this" {
            self.part_node(kind::THIS, part)
        } else {
            self.part_node(kind::REFERENCE, part)
        }
    }

    fn other_parts(&self, parts: &[Span]) -> Vec<Node> {
        parts
            .iter()
            .map(|&part| self.part_node(kind::OTHER_PART, part))
            .collect()
    }

    /// D: "Extra is 1 for a 3, 4 or 16 with a dash" (a 5 is `this`, which has none).
    fn part_node(&self, kind: u32, part: Span) -> Node {
        Node::leaf(kind, part.0, part.1).with_extra(self.has_dash(part))
    }
}

fn one_part(part: Span) -> Name {
    Name {
        form: Form::OnePart,
        parts: vec![part],
    }
}
