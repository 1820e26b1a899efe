//! The place in the input, blanks, and the two readings.

use crate::bytes::{character_of, is_blank, is_line_terminator};
use crate::table::Node;
use crate::Refusal;

/// What children stopped at.
pub(crate) enum Stop {
    EndOfInput,
    /// The `<` whose `/` comes next (blanks between have been read).
    ClosingTag(usize),
}

pub(crate) struct Cursor<'a> {
    pub input: &'a [u8],
    pub at: usize,
    /// Where the last token taken ended; blanks don't move it.
    pub last_token_end: usize,
    depth_limit: usize,
}

impl<'a> Cursor<'a> {
    pub fn new(input: &'a [u8], depth_limit: usize) -> Cursor<'a> {
        Cursor {
            input,
            at: 0,
            last_token_end: 0,
            depth_limit,
        }
    }

    /// D: "Stage: blanks, one element or fragment, blanks, end of input."
    pub fn stage(&mut self) -> Result<Vec<Node>, Refusal> {
        self.blanks()?;
        let node = self.element_or_fragment_that_is_no_child(0)?;
        self.nothing_else_after_a_stage()?;
        Ok(vec![node])
    }

    /// D: "13 | anything else after a stage | its start".
    fn nothing_else_after_a_stage(&mut self) -> Result<(), Refusal> {
        self.blanks()?;
        if !self.at_end() {
            return Err(Refusal::at(13, self.at));
        }
        Ok(())
    }

    /// D: "Run: zero or more children up to the end of input. Text may end there. `<` `/` at the
    /// outermost level, blanks between or not, is refusal 3 at the `<`."
    pub fn run(&mut self) -> Result<Vec<Node>, Refusal> {
        let mut held = Vec::new();
        match self.children(0, &mut held)? {
            Stop::EndOfInput => Ok(held),
            Stop::ClosingTag(less_than) => Err(Refusal::at(3, less_than)),
        }
    }

    pub fn at_end(&self) -> bool {
        self.at == self.input.len()
    }

    pub fn byte(&self) -> Option<u8> {
        self.byte_at(self.at)
    }

    pub fn byte_at(&self, offset: usize) -> Option<u8> {
        self.input.get(offset).copied()
    }

    pub fn looking_at(&self, bytes: &[u8]) -> bool {
        self.input[self.at..].starts_with(bytes)
    }

    /// The end of the longest run of bytes from `offset` on that are in the class.
    pub fn run_of(&self, offset: usize, in_class: fn(u8) -> bool) -> usize {
        let rest = &self.input[offset..];
        offset + rest.iter().take_while(|&&b| in_class(b)).count()
    }

    /// The end of the longest run of characters from `offset` on that are in the class.
    pub fn run_of_characters(&self, offset: usize, in_class: fn(char) -> bool) -> usize {
        let mut end = offset;
        while let Some(length) = character_of(&self.input[end..], in_class) {
            end += length;
        }
        end
    }

    /// Takes the token from here to `end`.
    pub fn take_to(&mut self, end: usize) {
        self.at = end;
        self.last_token_end = end;
    }

    pub fn take(&mut self, length: usize) {
        self.take_to(self.at + length);
    }

    /// Blanks, then the one-byte token that is needed here.
    pub fn need(&mut self, token: u8) -> Result<(), Refusal> {
        self.blanks()?;
        if self.byte() != Some(token) {
            return Err(self.no_allowed_token());
        }
        self.take(1);
        Ok(())
    }

    /// D: "3 | no allowed token begins here .. | its start"; "4 | input ends where something is
    /// still needed | length".
    pub fn no_allowed_token(&self) -> Refusal {
        let number = if self.at_end() { 4 } else { 3 };
        Refusal::at(number, self.at)
    }

    /// The depth inside the thing that begins at `first_byte`, which stands at `depth`.
    /// D: "The outermost is 1; 64 is good, 65 is refusal 14 at its first byte."
    pub fn inside(&self, depth: usize, first_byte: usize) -> Result<usize, Refusal> {
        if depth >= self.depth_limit {
            return Err(Refusal::at(14, first_byte));
        }
        Ok(depth + 1)
    }

    /// Blank characters and comments. A23: trouble in them comes first.
    /// D: "Blanks are .., and comments: `/*` to the next `*/`, and `//` to ..".
    pub fn blanks(&mut self) -> Result<(), Refusal> {
        loop {
            if let Some(length) = self.character(is_blank) {
                self.at += length;
            } else if self.looking_at(b"/*") {
                self.block_comment()?;
            } else if self.looking_at(b"//") {
                self.line_comment();
            } else {
                return Ok(());
            }
        }
    }

    /// The length of the character here, if it is in the class.
    pub fn character(&self, in_class: fn(char) -> bool) -> Option<usize> {
        character_of(&self.input[self.at..], in_class)
    }

    /// D: "`/*` to the next `*/`". A10: the `*` of `/*` isn't also the `*` of `*/`.
    /// D2: "17 is an open comment"; "17 and 18 stand where 5 stood": at its first byte.
    fn block_comment(&mut self) -> Result<(), Refusal> {
        let inside = self.at + 2;
        let length = self.input[inside..].windows(2).position(|w| w == b"*/");
        match length {
            Some(length) => {
                self.at = inside + length + 2;
                Ok(())
            }
            None => Err(Refusal::at(17, self.at)),
        }
    }

    /// D2: "All four terminators end a `//` comment."; D: ".. or the end of input".
    /// 1.6: the terminator is then itself a blank; every other character is content. 1.7: none is refused.
    fn line_comment(&mut self) {
        self.at = self.run_of_characters(self.at, |character| !is_line_terminator(character));
    }
}
