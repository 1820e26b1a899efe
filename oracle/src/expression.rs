//! Expressions: what stands inside braces.

use crate::bytes::{begins_a_name, continues_a_name};
use crate::cursor::Cursor;
use crate::table::{kind, Node};
use crate::Refusal;

/// The outermost elements and fragments met so far, in order.
type Held = Vec<Node>;

/// The reserved words of ECMA-262 but `this`, `true`, `false`, `null`: 34 of the 38.
const RESERVED: [&str; 34] = [
    "await",
    "break",
    "case",
    "catch",
    "class",
    "const",
    "continue",
    "debugger",
    "default",
    "delete",
    "do",
    "else",
    "enum",
    "export",
    "extends",
    "finally",
    "for",
    "function",
    "if",
    "import",
    "in",
    "instanceof",
    "new",
    "return",
    "super",
    "switch",
    "throw",
    "try",
    "typeof",
    "var",
    "void",
    "while",
    "with",
    "yield",
];

/// D: "so are `let static implements interface package private protected public`".
const RESERVED_IN_MODULES: [&str; 8] = [
    "let",
    "static",
    "implements",
    "interface",
    "package",
    "private",
    "protected",
    "public",
];

impl Cursor<'_> {
    /// D: "A 15 spans first to last token and holds the outermost elements and fragments in it, in order."
    pub fn expression(&mut self, depth: usize) -> Result<Node, Refusal> {
        self.blanks()?;
        let start = self.at;
        let mut held = Held::new();
        self.conditional(depth, &mut held)?;
        Ok(Node::holding(
            kind::EXPRESSION,
            start,
            self.last_token_end,
            held,
        ))
    }

    /// D: "Conditional: either, or either `?` conditional `:` conditional."
    /// D: "conditional (from its `?` to its end)" counts one; A2: 14 is at the `?`.
    fn conditional(&mut self, depth: usize, held: &mut Held) -> Result<(), Refusal> {
        self.either(depth, held)?;
        self.blanks()?;
        if self.byte() != Some(b'?') {
            return Ok(());
        }
        self.never_these(&[b"?.", b"??"])?;
        let inside = self.inside(depth, self.at)?;
        self.take(1);
        self.conditional(inside, held)?;
        self.need(b':')?;
        self.conditional(inside, held)
    }

    /// D: "Either: boths joined by `||`."
    fn either(&mut self, depth: usize, held: &mut Held) -> Result<(), Refusal> {
        self.both(depth, held)?;
        while self.joined_by_doubled(b'|')? {
            self.both(depth, held)?;
        }
        Ok(())
    }

    /// D: "Both: sums joined by `&&`."
    fn both(&mut self, depth: usize, held: &mut Held) -> Result<(), Refusal> {
        self.sum(depth, held)?;
        while self.joined_by_doubled(b'&')? {
            self.sum(depth, held)?;
        }
        Ok(())
    }

    /// `||` or `&&`. D: "`|` and `&` alone .. refusal 3 at the first byte, at the end of input too".
    fn joined_by_doubled(&mut self, byte: u8) -> Result<bool, Refusal> {
        self.blanks()?;
        if self.byte() != Some(byte) {
            return Ok(false);
        }
        if self.byte_at(self.at + 1) != Some(byte) {
            return Err(Refusal::at(3, self.at));
        }
        self.take(2);
        Ok(true)
    }

    /// D: "Sum: products joined by `+` or `-`."
    fn sum(&mut self, depth: usize, held: &mut Held) -> Result<(), Refusal> {
        self.product(depth, held)?;
        while self.joined_by(b"+-", &[b"++", b"--"])? {
            self.product(depth, held)?;
        }
        Ok(())
    }

    /// D: "Product: unaries joined by `*`."
    fn product(&mut self, depth: usize, held: &mut Held) -> Result<(), Refusal> {
        self.unary(depth, held)?;
        while self.joined_by(b"*", &[b"**"])? {
            self.unary(depth, held)?;
        }
        Ok(())
    }

    fn joined_by(&mut self, operators: &[u8], never: &[&[u8]]) -> Result<bool, Refusal> {
        self.blanks()?;
        if !self.byte().is_some_and(|b| operators.contains(&b)) {
            return Ok(false);
        }
        self.never_these(never)?;
        self.take(1);
        Ok(true)
    }

    /// D: "`++`, `--`, `**`, `?.`, `??` .. refusal 3 at the first byte".
    fn never_these(&self, never: &[&[u8]]) -> Result<(), Refusal> {
        if never.iter().any(|bytes| self.looking_at(bytes)) {
            return Err(Refusal::at(3, self.at));
        }
        Ok(())
    }

    /// D: "Unary: `!` or `-` before a unary, or an element, a fragment or a postfix." So nothing of
    /// a postfix follows an element.
    fn unary(&mut self, depth: usize, held: &mut Held) -> Result<(), Refusal> {
        self.blanks()?;
        match self.byte() {
            Some(b'!' | b'-') => self.prefixed(depth, held),
            Some(b'<') => {
                held.push(self.element_or_fragment_that_is_no_child(depth)?);
                Ok(())
            }
            _ => self.postfix(depth, held),
        }
    }

    /// D: "prefix operator (to the end of its operand)" counts one. A21: `--` is 3, not 14.
    fn prefixed(&mut self, depth: usize, held: &mut Held) -> Result<(), Refusal> {
        self.never_these(&[b"--"])?;
        let inside = self.inside(depth, self.at)?;
        self.take(1);
        self.unary(inside, held)
    }

    /// D: "Postfix: a primary, then any of `.name`, `[conditional]`, `(zero or more conditionals
    /// with commas between)`."
    fn postfix(&mut self, depth: usize, held: &mut Held) -> Result<(), Refusal> {
        self.primary(depth, held)?;
        loop {
            self.blanks()?;
            match self.byte() {
                Some(b'.') => self.dot_name()?,
                Some(b'[') => self.bracketed(b']', depth, held)?,
                Some(b'(') => self.call(depth, held)?,
                _ => return Ok(()),
            }
        }
    }

    /// D: "After a dot any name is good." A5: a second dot is 3 at the second.
    fn dot_name(&mut self) -> Result<(), Refusal> {
        self.take(1);
        self.blanks()?;
        if !self.byte().is_some_and(begins_a_name) {
            return Err(self.no_allowed_token());
        }
        self.take_to(self.run_of(self.at, continues_a_name));
        Ok(())
    }

    /// A parenthesis or bracket around one conditional. D: "parenthesis, bracket, call .. each count one".
    fn bracketed(&mut self, close: u8, depth: usize, held: &mut Held) -> Result<(), Refusal> {
        let inside = self.inside(depth, self.at)?;
        self.take(1);
        self.conditional(inside, held)?;
        self.need(close)
    }

    /// D: "`(zero or more conditionals with commas between)`". A14: none after the last.
    fn call(&mut self, depth: usize, held: &mut Held) -> Result<(), Refusal> {
        let inside = self.inside(depth, self.at)?;
        self.take(1);
        self.blanks()?;
        if self.byte() != Some(b')') {
            self.arguments(inside, held)?;
        }
        self.need(b')')
    }

    fn arguments(&mut self, depth: usize, held: &mut Held) -> Result<(), Refusal> {
        self.conditional(depth, held)?;
        self.blanks()?;
        while self.byte() == Some(b',') {
            self.take(1);
            self.conditional(depth, held)?;
            self.blanks()?;
        }
        Ok(())
    }

    /// D: "Primary: name, number, string, `(conditional)`."
    fn primary(&mut self, depth: usize, held: &mut Held) -> Result<(), Refusal> {
        match self.byte() {
            Some(b'(') => self.bracketed(b')', depth, held),
            Some(b'"' | b'\'') => self.string(),
            Some(b'0'..=b'9') => self.number(),
            Some(byte) if begins_a_name(byte) => self.name(),
            _ => Err(self.no_allowed_token()),
        }
    }

    /// D: "As a primary, the 38 reserved words of ECMA-262 are refused except `this`, `true`,
    /// `false`, `null`; so are `let static ..`". A6: a word ends where the bytes end.
    fn name(&mut self) -> Result<(), Refusal> {
        let start = self.at;
        let end = self.run_of(start, continues_a_name);
        let word = &self.input[start..end];
        let is_word = |reserved: &&str| reserved.as_bytes() == word;
        if RESERVED.iter().any(is_word) || RESERVED_IN_MODULES.iter().any(is_word) {
            return Err(Refusal::at(3, start));
        }
        self.take_to(end);
        Ok(())
    }

    /// D: "Numbers: `0`, or digits not starting with 0, then optionally `.` and digits; no letter,
    /// digit, `_` or `$` may follow."
    fn number(&mut self) -> Result<(), Refusal> {
        let start = self.at;
        let whole = self.whole_digits();
        let end = self.fraction(whole).ok_or(Refusal::at(3, start))?;
        if self.byte_at(end).is_some_and(continues_a_name) {
            return Err(Refusal::at(3, start));
        }
        self.take_to(end);
        Ok(())
    }

    fn whole_digits(&self) -> usize {
        if self.byte() == Some(b'0') {
            return self.at + 1;
        }
        self.run_of(self.at, is_digit)
    }

    /// D: "A `.` right after the whole digits needs a digit next (`1.a` is 3 at the 1; `1 .a` is good)."
    fn fraction(&self, whole: usize) -> Option<usize> {
        if self.byte_at(whole) != Some(b'.') {
            return Some(whole);
        }
        let end = self.run_of(whole + 1, is_digit);
        (end > whole + 1).then_some(end)
    }

    /// D: "Strings: no backslash, LF or CR."; "inside a string, the offset of the bad byte".
    /// D2: "A string in braces broken by LF or CR now shows the whole piece, from its quote to the line end, still as 3";
    /// "18 an open string inside braces". 3.4: the first bad byte counts; 18 only where the end is reached without one.
    fn string(&mut self) -> Result<(), Refusal> {
        let start = self.at;
        let quote = self.input[start];
        for offset in start + 1..self.input.len() {
            match self.input[offset] {
                b'\\' => return Err(Refusal::at(3, offset)),
                b'\n' | b'\r' => return Err(Refusal::over(3, (start, offset))),
                byte if byte == quote => {
                    self.take_to(offset + 1);
                    return Ok(());
                }
                _ => {}
            }
        }
        Err(Refusal::at(18, start))
    }
}

fn is_digit(byte: u8) -> bool {
    byte.is_ascii_digit()
}
