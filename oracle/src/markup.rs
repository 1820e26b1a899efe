//! Elements, fragments, attributes and children.

use crate::bytes::is_text;
use crate::characters::begins_a_part;
use crate::cursor::{Cursor, Stop};
use crate::names::Name;
use crate::table::{kind, Node};
use crate::Refusal;

/// A closing tag: its record, and its name where it has one.
struct Closing {
    node: Node,
    name: Option<Name>,
}

impl Closing {
    fn span(&self) -> (usize, usize) {
        (self.node.start, self.node.end)
    }
}

impl Cursor<'_> {
    /// An element or fragment that is needed here, and the test that follows one that isn't a child.
    pub fn element_or_fragment_that_is_no_child(&mut self, depth: usize) -> Result<Node, Refusal> {
        self.blanks()?;
        let less_than = self.at;
        self.need(b'<')?;
        self.blanks()?;
        let node = self.element_or_fragment(less_than, depth)?;
        self.no_second_element()?;
        Ok(node)
    }

    /// D: "12 | after an element or fragment that isn't a child (blanks between or not), `<` not
    /// followed by `<` or `=` | that byte: p, p + 1". A24: at the end of input it isn't followed.
    fn no_second_element(&mut self) -> Result<(), Refusal> {
        self.blanks()?;
        let followed = matches!(self.byte_at(self.at + 1), Some(b'<' | b'='));
        if self.byte() == Some(b'<') && !followed {
            return Err(Refusal::over(12, (self.at, self.at + 1)));
        }
        Ok(())
    }

    /// The rest of an element or fragment; `<` and the blanks after it have been read.
    /// D: "For `<` it is tested once a name or `>` is seen after it." A3, 7.14: at the name's first
    /// character.
    fn element_or_fragment(&mut self, less_than: usize, depth: usize) -> Result<Node, Refusal> {
        match self.byte() {
            Some(b'>') => {
                let inside = self.inside(depth, less_than)?;
                self.fragment(less_than, inside)
            }
            _ if self.character(begins_a_part).is_some() => {
                let inside = self.inside(depth, less_than)?;
                self.element(less_than, inside)
            }
            _ => Err(self.no_allowed_token()),
        }
    }

    /// D: "Element and fragment hold 18, children, then 17 where paired."
    fn fragment(&mut self, less_than: usize, inside: usize) -> Result<Node, Refusal> {
        self.take(1);
        let opening = Node::leaf(kind::OPENING_TAG, less_than, self.at);
        let span = (opening.start, opening.end);
        let mut holds = vec![opening];
        let closing = self.children_and_closing_tag(inside, &mut holds)?;
        // D: "8 | fragment closed by a name | opening fragment; closing name".
        if let Some(name) = &closing.name {
            return Err(Refusal::two(8, span, name.span()));
        }
        holds.push(closing.node);
        Ok(Node::holding(kind::FRAGMENT, less_than, self.at, holds))
    }

    fn element(&mut self, less_than: usize, inside: usize) -> Result<Node, Refusal> {
        let name = self.element_name()?;
        // D: "18 holds its name, then attributes".
        let mut opening = vec![self.element_name_node(&name)];
        self.attributes(inside, &mut opening)?;
        if self.byte() == Some(b'/') {
            self.self_closed(less_than, opening)
        } else {
            self.paired(less_than, inside, name, opening)
        }
    }

    /// D: "1 element (extra 1 paired, 0 self-closed)".
    fn self_closed(&mut self, less_than: usize, opening: Vec<Node>) -> Result<Node, Refusal> {
        self.take(1);
        self.need(b'>')?;
        let opening = Node::holding(kind::OPENING_TAG, less_than, self.at, opening);
        Ok(Node::holding(
            kind::ELEMENT,
            less_than,
            self.at,
            vec![opening],
        ))
    }

    fn paired(
        &mut self,
        less_than: usize,
        inside: usize,
        name: Name,
        opening: Vec<Node>,
    ) -> Result<Node, Refusal> {
        self.need(b'>')?;
        let opening = Node::holding(kind::OPENING_TAG, less_than, self.at, opening);
        let mut holds = vec![opening];
        let closing = self.children_and_closing_tag(inside, &mut holds)?;
        self.closes_the_element(&name, &closing)?;
        holds.push(closing.node);
        Ok(Node::holding(kind::ELEMENT, less_than, self.at, holds).with_extra(true))
    }

    /// D: "9 | element closed by `</>` | opening name; closing fragment" and "7 | closing name
    /// differs | opening name; closing name"; "7, 8 and 9 are given after the closing tag's `>` is read".
    fn closes_the_element(&self, name: &Name, closing: &Closing) -> Result<(), Refusal> {
        match &closing.name {
            None => Err(Refusal::two(9, name.span(), closing.span())),
            Some(other) if !self.equal_names(name, other) => {
                Err(Refusal::two(7, name.span(), other.span()))
            }
            Some(_) => Ok(()),
        }
    }

    /// The attributes, up to the `/` or `>` that ends the tag (not read here).
    /// D: "No blank is needed between them. Repeats are allowed."
    fn attributes(&mut self, depth: usize, holds: &mut Vec<Node>) -> Result<(), Refusal> {
        loop {
            self.blanks()?;
            match self.byte() {
                Some(b'/' | b'>') => return Ok(()),
                Some(b'{') => holds.push(self.spread_attribute(depth)?),
                _ if self.character(begins_a_part).is_some() => holds.push(self.attribute(depth)?),
                _ => return Err(self.no_allowed_token()),
            }
        }
    }

    /// D: "or `{...expression}`". A13: `{}` is 3 at the `}`; A12: a comma is 3.
    fn spread_attribute(&mut self, depth: usize) -> Result<Node, Refusal> {
        let start = self.at;
        let inside = self.open_brace(depth)?;
        if !self.looking_at(b"...") {
            return Err(self.no_allowed_token());
        }
        self.spread(kind::SPREAD_ATTRIBUTE, start, inside)
    }

    /// `...`, the expression and the closing brace. D: "9 and 13 hold a 15".
    fn spread(&mut self, kind: u32, start: usize, inside: usize) -> Result<Node, Refusal> {
        self.take(3);
        let expression = self.expression(inside)?;
        self.need(b'}')?;
        Ok(Node::holding(kind, start, self.at, vec![expression]))
    }

    /// A brace and the blanks after it. A20: every `{` counts, and 14 is given at once.
    fn open_brace(&mut self, depth: usize) -> Result<usize, Refusal> {
        let inside = self.inside(depth, self.at)?;
        self.take(1);
        self.blanks()?;
        Ok(inside)
    }

    /// D: "name (part or `part:part`), optionally `=` and a quoted string, `{expression}`, an
    /// element or a fragment". A19: "8 from the name's start to the value's end (or the name's end)".
    fn attribute(&mut self, depth: usize) -> Result<Node, Refusal> {
        let start = self.at;
        let name = self.attribute_name()?;
        let mut holds = vec![self.attribute_name_node(&name)];
        self.blanks()?;
        if self.byte() == Some(b'=') {
            self.take(1);
            holds.push(self.attribute_value(depth)?);
        }
        let end = holds[holds.len() - 1].end;
        Ok(Node::holding(kind::ATTRIBUTE, start, end, holds))
    }

    fn attribute_value(&mut self, depth: usize) -> Result<Node, Refusal> {
        self.blanks()?;
        match self.byte() {
            Some(b'"' | b'\'') => self.quoted_attribute_string(),
            Some(b'{') => self.attribute_container(depth),
            Some(b'<') => self.element_or_fragment_that_is_no_child(depth),
            _ => Err(self.no_allowed_token()),
        }
    }

    /// D: "A quoted attribute string ends at the first same quote. No escapes; line ends allowed."
    /// D2: "Split 5: it stays for a quoted attribute string", D: "its first byte"; "10 quoted string with its quotes".
    fn quoted_attribute_string(&mut self) -> Result<Node, Refusal> {
        let start = self.at;
        let quote = self.input[start];
        let inside = start + 1;
        let Some(length) = self.input[inside..].iter().position(|&b| b == quote) else {
            return Err(Refusal::at(5, start));
        };
        self.take_to(inside + length + 1);
        Ok(Node::leaf(kind::QUOTED_STRING, start, self.at))
    }

    /// D: "11 | attribute `={}` with nothing or blanks inside | the braces".
    fn attribute_container(&mut self, depth: usize) -> Result<Node, Refusal> {
        let start = self.at;
        let inside = self.open_brace(depth)?;
        if self.byte() == Some(b'}') {
            return Err(Refusal::over(11, (start, self.at + 1)));
        }
        self.container(start, inside)
    }

    /// The expression and the closing brace. D: "11 holds a 12 or 15".
    /// D: "16 | comma after the expression of `{expression}` | that byte: p, p + 1". A12: children
    /// and attribute values.
    fn container(&mut self, start: usize, inside: usize) -> Result<Node, Refusal> {
        let expression = self.expression(inside)?;
        self.blanks()?;
        if self.byte() == Some(b',') {
            return Err(Refusal::over(16, (self.at, self.at + 1)));
        }
        self.need(b'}')?;
        Ok(Node::holding(
            kind::CONTAINER,
            start,
            self.at,
            vec![expression],
        ))
    }

    /// D: "Children: text .., elements, fragments, `{expression}`, `{}` with or without blanks,
    /// `{...expression}`." D: "In child position nothing is a blank or comment."
    pub fn children(&mut self, depth: usize, holds: &mut Vec<Node>) -> Result<Stop, Refusal> {
        while let Some(byte) = self.byte() {
            match byte {
                b'<' => {
                    let less_than = self.at;
                    self.take(1);
                    self.blanks()?;
                    if self.byte() == Some(b'/') {
                        return Ok(Stop::ClosingTag(less_than));
                    }
                    holds.push(self.element_or_fragment(less_than, depth)?);
                }
                b'{' => holds.push(self.child_in_braces(depth)?),
                // D: "6 | `>` or `}` in child text | its offset".
                b'>' | b'}' => return Err(Refusal::at(6, self.at)),
                _ => holds.push(self.text()),
            }
        }
        Ok(Stop::EndOfInput)
    }

    /// D: "text (the longest nonempty run without `<` `>` `{` `}`)".
    fn text(&mut self) -> Node {
        let start = self.at;
        self.take_to(self.run_of(start, is_text));
        Node::leaf(kind::TEXT, start, self.at)
    }

    fn child_in_braces(&mut self, depth: usize) -> Result<Node, Refusal> {
        let start = self.at;
        let inside = self.open_brace(depth)?;
        if self.byte() == Some(b'}') {
            Ok(self.empty_container(start))
        } else if self.looking_at(b"...") {
            self.spread(kind::SPREAD_CHILD, start, inside)
        } else {
            self.container(start, inside)
        }
    }

    /// D: "A 12 spans all between the braces."
    fn empty_container(&mut self, start: usize) -> Node {
        let empty = Node::leaf(kind::EMPTY_EXPRESSION, start + 1, self.at);
        self.take(1);
        Node::holding(kind::CONTAINER, start, self.at, vec![empty])
    }

    fn children_and_closing_tag(
        &mut self,
        depth: usize,
        holds: &mut Vec<Node>,
    ) -> Result<Closing, Refusal> {
        match self.children(depth, holds)? {
            Stop::EndOfInput => Err(self.no_allowed_token()),
            Stop::ClosingTag(less_than) => self.closing_tag(less_than),
        }
    }

    /// The rest of a closing tag from its `/` on. D: "17 its name if any".
    fn closing_tag(&mut self, less_than: usize) -> Result<Closing, Refusal> {
        self.take(1);
        self.blanks()?;
        let name = self.closing_name()?;
        self.need(b'>')?;
        let holds = name.iter().map(|n| self.element_name_node(n)).collect();
        let node = Node::holding(kind::CLOSING_TAG, less_than, self.at, holds);
        Ok(Closing { node, name })
    }

    fn closing_name(&mut self) -> Result<Option<Name>, Refusal> {
        if self.byte() == Some(b'>') {
            return Ok(None);
        }
        Ok(Some(self.element_name()?))
    }
}
