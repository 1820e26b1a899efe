//! A writer of stages and runs by the grammar: it knows the tree that it wrote, and, where it was
//! told to plant a fault, the refusal that must follow. It shares no rule with the readers.

use crate::blanks::BLANKS_BEYOND_ASCII;
use crate::random::Random;
use crate::scripts;
use crate::table::{kind, Node};
use crate::Refusal;

const NAMES: [&str; 19] = [
    "a", "b", "view", "left", "right", "Scene", "_x", "$", "this", "This", "a-b", "data-eye", "a-",
    "x1", "if", "A-b", "this-a", "a--1", "_",
];
const PARTS_AFTER_A_DOT: [&str; 8] = ["b", "c", "eye", "this", "if", "_", "$1", "Left"];
const DASHED: [&str; 3] = ["b-", "left-eye", "_--1"];
const WORDS: [&str; 12] = [
    "b", "c", "eye", "this", "null", "true", "false", "x1", "_", "$", "async", "iff",
];
const NUMBERS: [&str; 6] = ["0", "1", "42", "0.5", "10.25", "7.0"];
const BAD_PRIMARIES: [&str; 20] = [
    "if", "let", "static", "await", "yield", "enum", "public", "1.", "01", "00", "1a", "1.5_",
    "0x1", "1.a", "1..b", "++b", "**", "/", ".5", "..",
];
const IN_STRINGS: [&str; 11] = [
    "", "x", "a b", "é", "\u{2028}", "//", "<>{}", "/*", "😀", "\u{A0}", "\u{FEFF}",
];
const IN_ATTRIBUTES: [&str; 6] = ["\\", "x\ny", "\r\n", "&amp;", "a/>", "\t\u{2029}"];
/// What may stand behind `/*` and leave it open.
const IN_OPEN_COMMENTS: [&str; 10] = [
    "",
    " ",
    "/",
    "*",
    "* /",
    "'",
    "\" }</a>",
    "//\n",
    "\r\\",
    "/*\u{2028}",
];
/// What may stand at the end of a string that stays open, whichever its quote.
const AFTER_OPEN_STRINGS: [&str; 6] = ["", " ", "/* */", "}</a>", "//", "\u{2029}"];
const LINE_ENDS: [&str; 3] = ["\n", "\r", "\r\n"];
const TEXTS: [&str; 15] = [
    "hi",
    " ",
    "\n  ",
    "x & y",
    "é",
    "😀",
    "// text",
    "/* text */",
    "\"q'",
    "a=b",
    "\\",
    "\u{2028}",
    "\u{A0}",
    "\u{FEFF} x",
    "//\u{2029}\u{3000}",
];
const BLANKS: [&str; 25] = [
    "",
    "",
    "",
    "",
    "",
    "",
    "",
    "",
    "",
    " ",
    " ",
    " ",
    "\n",
    "\t",
    "\x0B",
    "\x0C",
    "\r\n",
    "  ",
    "/**/",
    "/* c */",
    "/* * / > \u{2028} */",
    "/*/ c */",
    "/***/",
    "/*\n//*/",
    "//c\n",
];
const LINE_COMMENTS: [&str; 8] = [
    "//\n",
    "// é > */\r",
    "///* \n",
    "//\u{2028}",
    "//}\u{2029}",
    "// é > */\u{2028}",
    "///*\u{A0}\u{FEFF}\u{85}\u{2029}",
    "//\u{200B}\x0B\x0C\r\u{2028}",
];
/// No allowed token begins with one of these, in tags or in braces; the last four are next to blanks and are none.
const NO_TOKENS: [&str; 10] = [
    "@", "#", "\\", "`", "×", ";", "\u{85}", "\u{180E}", "\u{200B}", "\u{2060}",
];
/// What isn't UTF-8 where an ASCII byte or nothing follows: a byte that leads nothing, and blanks cut in their bytes.
const NOT_UTF8: [&[u8]; 7] = [
    b"\xC1",
    b"\xC2",
    b"\xE1\x9A",
    b"\xE2",
    b"\xE2\x80",
    b"\xE3\x80",
    b"\xEF\xBB",
];

/// A fault to plant: its number, and how many chances to let pass.
#[derive(Clone, Copy)]
pub(crate) struct Plan {
    pub number: u32,
    pub chances: usize,
}

pub(crate) struct Writer {
    pub random: Random,
    bytes: Vec<u8>,
    /// Pieces that may still be written; when none are left the smallest form is taken.
    pieces: usize,
    /// Where blanks may stand, they are thought of once in so many times.
    blanks_once_in: usize,
    /// Whether half of the names in tags are of any script.
    any_script: bool,
    /// Where the last name in a tag ended.
    name_end: usize,
    plan: Option<Plan>,
    /// The refusal that the planted fault must give.
    pub planted: Option<Refusal>,
    /// Nothing stands after this length.
    cut: Option<usize>,
}

impl Writer {
    pub fn new(seed: u64, plan: Option<Plan>) -> Writer {
        let mut random = Random::seeded(seed);
        let pieces = 2 + random.below(38);
        let blanks_once_in = [1, 4, 25][random.below(3)];
        Writer {
            random,
            bytes: Vec::new(),
            pieces,
            blanks_once_in,
            any_script: false,
            name_end: 0,
            plan,
            planted: None,
            cut: None,
        }
    }

    pub fn of_any_script(seed: u64, plan: Option<Plan>) -> Writer {
        Writer {
            any_script: true,
            ..Writer::new(seed, plan)
        }
    }

    pub fn into_bytes(mut self) -> Vec<u8> {
        self.bytes.truncate(self.cut.unwrap_or(self.bytes.len()));
        self.bytes
    }

    pub fn stage(&mut self) -> Vec<Node> {
        self.blanks();
        let start = self.token("<");
        let node = self.markup_no_child(start, 1);
        self.blanks();
        if self.due(13) {
            self.refusal(13, (self.end(), self.end()), (0, 0));
            let other = self
                .random
                .one_of(&["x", "{", ">", "\"", "<<", "<=", "/", "\u{200B}", "\u{85}"]);
            self.raw(other);
        }
        vec![node]
    }

    pub fn run(&mut self) -> Vec<Node> {
        let mut holds = Vec::new();
        self.children(1, &mut holds);
        holds
    }

    fn end(&self) -> usize {
        self.bytes.len()
    }

    fn raw(&mut self, text: &str) -> usize {
        let start = self.end();
        self.bytes.extend_from_slice(text.as_bytes());
        start
    }

    /// Whether there is still room for a piece at this depth.
    fn room(&mut self, depth: usize) -> bool {
        let room = self.pieces > 0 && depth < 12;
        self.pieces = self.pieces.saturating_sub(1);
        room
    }

    /// Whether the planned fault is to be planted now.
    fn due(&mut self, number: u32) -> bool {
        match &mut self.plan {
            Some(plan) if plan.number == number && plan.chances == 0 => {
                self.plan = None;
                true
            }
            Some(plan) if plan.number == number => {
                plan.chances -= 1;
                false
            }
            _ => false,
        }
    }

    fn refusal(&mut self, number: u32, first: (usize, usize), second: (usize, usize)) {
        self.planted = Some(Refusal::two(number, first, second));
    }

    /// Blanks, as likely none. A comment right after a `/` would be taken for another one.
    fn blanks(&mut self) {
        if !self.random.once_in(self.blanks_once_in) {
            return;
        }
        let blanks = match self.random.below(20) {
            0 => self.random.one_of(&LINE_COMMENTS),
            1..=4 => self.random.one_of(&BLANKS_BEYOND_ASCII),
            _ => self.random.one_of(&BLANKS),
        };
        if blanks.starts_with('/') && self.bytes.last() == Some(&b'/') {
            self.one_blank();
        }
        self.raw(blanks);
    }

    /// A blank character where one is needed.
    fn one_blank(&mut self) {
        let blank = match self.random.below(2) {
            0 => self.random.one_of(&BLANKS_BEYOND_ASCII),
            _ => " ",
        };
        self.raw(blank);
    }

    /// Blanks and a token; where one is needed, a fault may stand instead of it.
    fn token(&mut self, token: &str) -> usize {
        self.blanks();
        self.fault_before_a_token();
        self.raw(token)
    }

    fn fault_before_a_token(&mut self) {
        let here = (self.end(), self.end());
        if self.due(2) {
            self.refusal(2, here, (0, 0));
            let bad = self.random.one_of(&NOT_UTF8);
            self.bytes.extend_from_slice(bad);
        }
        if self.due(3) {
            self.no_token();
        }
        if self.due(4) {
            self.refusal(4, here, (0, 0));
            self.cut = Some(here.0);
        }
        self.fault_of_a_comment();
    }

    /// What begins no token, right here or behind a `//` comment that a line terminator beyond ASCII ends.
    fn no_token(&mut self) {
        if self.bytes.last() != Some(&b'/') && self.random.once_in(4) {
            self.raw("// é");
            let line_end = self.random.one_of(&["\u{2028}", "\u{2029}"]);
            self.raw(line_end);
        }
        let bad = match self.any_script && self.random.once_in(2) {
            true => self.random.one_of(&scripts::IN_NO_NAME),
            false => self.random.one_of(&NO_TOKENS),
        };
        self.bad_bytes(bad);
    }

    /// What is refused by 3 at its first byte.
    fn bad_bytes(&mut self, bad: &str) {
        let start = self.raw(bad);
        self.refusal(3, (start, start), (0, 0));
    }

    /// A bad word, number or string where a primary is needed. A blank keeps it from the operator before.
    fn bad_primary(&mut self) {
        self.blanks();
        self.raw(" ");
        if self.random.once_in(2) {
            self.bad_string();
        } else {
            let bad = self.random.one_of(&BAD_PRIMARIES);
            self.bad_bytes(bad);
        }
        self.raw(" ");
    }

    /// A backslash is refused at its own place, a line end from the quote to it.
    fn bad_string(&mut self) {
        let beginning = self
            .random
            .one_of(&["'", "\"x", "'\"é", "\"\u{2028}", "'/*"]);
        let quote = self.raw(beginning);
        if self.random.once_in(3) {
            self.bad_bytes("\\");
        } else {
            let bad = self.random.one_of(&LINE_ENDS);
            let line_end = self.raw(bad);
            self.refusal(3, (quote, line_end), (0, 0));
        }
    }

    /// A comment that stays open, where blanks may stand; right behind a `/` it would be another one.
    fn fault_of_a_comment(&mut self) {
        let after_a_slash = self.bytes.last() == Some(&b'/');
        if !after_a_slash && self.due(17) {
            let start = self.raw("/*");
            self.never_closed(17, start, &IN_OPEN_COMMENTS);
        }
    }

    /// What began at `start` stays open to the end of input, some more bytes away.
    fn never_closed(&mut self, number: u32, start: usize, more: &[&str]) {
        self.refusal(number, (start, start), (0, 0));
        let more = self.random.one_of(more);
        self.raw(more);
        self.cut = Some(self.end());
    }

    /// An element or fragment that isn't a child, from after its `<` on.
    fn markup_no_child(&mut self, less_than: usize, depth: usize) -> Node {
        let node = self.markup(less_than, depth);
        if self.due(12) {
            self.blanks();
            self.refusal(12, (self.end(), self.end() + 1), (0, 0));
            let second = self
                .random
                .one_of(&["<b/>", "<", "< =", "</a>", "<>", "<b"]);
            self.raw(second);
            if second == "<" {
                self.cut = Some(self.end());
            }
        }
        node
    }

    fn markup(&mut self, less_than: usize, depth: usize) -> Node {
        if self.room(depth) && self.random.once_in(5) {
            return self.fragment(less_than, depth);
        }
        self.element(less_than, depth)
    }

    fn fragment(&mut self, less_than: usize, depth: usize) -> Node {
        self.token(">");
        let opening = Node::leaf(kind::OPENING_TAG, less_than, self.end());
        let span = (less_than, self.end());
        let mut holds = vec![opening];
        self.children(depth + 1, &mut holds);
        let start = self.raw("<");
        self.token("/");
        if self.due(8) {
            let name = self.element_name(&["a".to_string()]);
            self.token(">");
            self.refusal(8, span, (name.start, name.end));
        } else {
            self.token(">");
        }
        holds.push(Node::leaf(kind::CLOSING_TAG, start, self.end()));
        Node::holding(kind::FRAGMENT, less_than, self.end(), holds)
    }

    fn element(&mut self, less_than: usize, depth: usize) -> Node {
        let parts = self.some_parts();
        let name = self.element_name(&parts);
        let span = (name.start, name.end);
        let mut opening = vec![name];
        while self.room(depth) && self.random.once_in(2) {
            opening.push(self.attribute(depth + 1));
        }
        if !self.room(depth) || self.random.once_in(3) {
            return self.self_closed(less_than, opening);
        }
        self.token(">");
        let opening = Node::holding(kind::OPENING_TAG, less_than, self.end(), opening);
        let mut holds = vec![opening];
        self.children(depth + 1, &mut holds);
        holds.push(self.closing(span, &parts));
        Node {
            extra: 1,
            ..Node::holding(kind::ELEMENT, less_than, self.end(), holds)
        }
    }

    fn self_closed(&mut self, less_than: usize, opening: Vec<Node>) -> Node {
        self.token("/");
        self.token(">");
        let opening = Node::holding(kind::OPENING_TAG, less_than, self.end(), opening);
        Node::holding(kind::ELEMENT, less_than, self.end(), vec![opening])
    }

    fn closing(&mut self, opening: (usize, usize), parts: &[String]) -> Node {
        let start = self.raw("<");
        self.token("/");
        if self.due(9) {
            self.token(">");
            self.refusal(9, opening, (start, self.end()));
            return Node::leaf(kind::CLOSING_TAG, start, self.end());
        }
        let other = self.due(7);
        let name = if other {
            let parts = self.other_parts(parts);
            self.element_name(&parts)
        } else {
            self.element_name(parts)
        };
        self.token(">");
        if other {
            self.refusal(7, opening, (name.start, name.end));
        }
        Node::holding(kind::CLOSING_TAG, start, self.end(), vec![name])
    }

    /// The parts of a name with the `:` or `.` between them.
    fn some_parts(&mut self) -> Vec<String> {
        let mut parts = vec![self.a_part(&NAMES)];
        match self.random.below(6) {
            0 => parts.extend([":".to_string(), self.a_part(&NAMES)]),
            1 => {
                for _ in 0..=self.random.below(3) {
                    let part = self.a_part(&PARTS_AFTER_A_DOT).replace('-', "_");
                    parts.extend([".".to_string(), part]);
                }
            }
            _ => {}
        }
        parts
    }

    /// One of these or, where the names are so, one of any script.
    fn a_part(&mut self, plain: &[&str]) -> String {
        match self.any_script && self.random.once_in(2) {
            true => scripts::drawn_part(&mut self.random),
            false => self.random.one_of(plain).to_string(),
        }
    }

    /// Another name: another part, one part more or fewer, or the other form.
    fn other_parts(&mut self, parts: &[String]) -> Vec<String> {
        let mut other = parts.to_vec();
        match (self.random.below(3), parts.len()) {
            (0, 1) => other.extend([".".to_string(), "b".to_string()]),
            (0, _) => other.truncate(1),
            (1, 3) if !parts[2].contains('-') => {
                other[1] = if parts[1] == "." { ":" } else { "." }.to_string();
            }
            _ => {
                let last = other.len() - 1;
                other[last] += match self.any_script {
                    true => self.random.one_of(&["\u{200D}", "\u{301}", "é", "Z"]),
                    false => "Z",
                };
            }
        }
        // A dash after a dot would be refused sooner.
        if other.get(1).is_some_and(|between| between == ".") {
            other
                .iter_mut()
                .skip(2)
                .for_each(|part| *part = part.replace('-', "_"));
        }
        other
    }

    fn element_name(&mut self, parts: &[String]) -> Node {
        let mut nodes = Vec::new();
        for (number, part) in parts.iter().enumerate() {
            if number % 2 == 1 {
                self.token(part);
                continue;
            }
            if number > 0 && parts[1] == "." && self.due(10) {
                self.dashed_part();
            }
            let start = self.token(part);
            let kind = self.kind_of_part(part, number, parts);
            nodes.push(self.part(kind, start, part));
            self.name_end = self.end();
        }
        if parts.len() == 1 {
            return nodes.remove(0);
        }
        let form = if parts[1] == "." {
            kind::MEMBER
        } else {
            kind::NAMESPACED
        };
        Node::holding(form, nodes[0].start, self.end(), nodes)
    }

    fn dashed_part(&mut self) {
        self.blanks();
        let start = self.end();
        let mut part = self.a_part(&DASHED);
        if !part.contains('-') {
            part.push('-');
        }
        self.raw(&part);
        self.refusal(10, (start, self.end()), (0, 0));
        self.raw(" ");
    }

    fn kind_of_part(&self, part: &str, number: usize, parts: &[String]) -> u32 {
        let refers = |c: char| c.is_ascii_uppercase() || c == '_' || c == '$' || !c.is_ascii();
        let joined_by = parts.get(1).map_or("", String::as_str);
        match (number, joined_by) {
            (0, "." | "") if part == "this" => kind::THIS,
            (0, ".") => kind::REFERENCE,
            (0, "") if part.starts_with(refers) && !part.contains('-') => kind::REFERENCE,
            (0, "") => kind::IDENTIFIER,
            _ => kind::OTHER_PART,
        }
    }

    fn part(&self, kind: u32, start: usize, part: &str) -> Node {
        let extra = u32::from(part.contains('-'));
        Node {
            extra,
            ..Node::leaf(kind, start, start + part.len())
        }
    }

    fn attribute(&mut self, depth: usize) -> Node {
        if self.random.once_in(5) {
            let start = self.token("{");
            return self.spread(kind::SPREAD_ATTRIBUTE, start, depth + 1);
        }
        let name = self.attribute_name();
        let start = name.start;
        let mut end = name.end;
        let mut holds = vec![name];
        if !self.random.once_in(4) {
            self.token("=");
            let value = self.attribute_value(depth);
            end = value.end;
            holds.push(value);
        }
        Node::holding(kind::ATTRIBUTE, start, end, holds)
    }

    /// A name right after a name needs a blank between.
    fn attribute_name(&mut self) -> Node {
        self.blanks();
        if self.end() == self.name_end {
            self.one_blank();
        }
        self.fault_before_a_token();
        let first = self.a_part(&NAMES);
        let start = self.raw(&first);
        self.name_end = self.end();
        let first = self.part(kind::OTHER_PART, start, &first);
        if !self.random.once_in(5) {
            return first;
        }
        self.token(":");
        let second = self.a_part(&NAMES);
        let start_of_second = self.token(&second);
        self.name_end = self.end();
        let second = self.part(kind::OTHER_PART, start_of_second, &second);
        Node::holding(kind::NAMESPACED, start, self.end(), vec![first, second])
    }

    fn attribute_value(&mut self, depth: usize) -> Node {
        match self.random.below(5) {
            0 | 1 => self.attribute_string(),
            2 if self.room(depth) => {
                let start = self.token("<");
                self.markup_no_child(start, depth)
            }
            _ => self.attribute_container(depth),
        }
    }

    fn attribute_string(&mut self) -> Node {
        let quote = self.random.one_of(&["\"", "'"]);
        let plain = self.random.once_in(2);
        let inside = if plain {
            self.random.one_of(&IN_STRINGS)
        } else {
            self.random.one_of(&IN_ATTRIBUTES)
        };
        let start = self.token(quote);
        self.raw(inside);
        if self.due(5) {
            let more = [&AFTER_OPEN_STRINGS[..], &LINE_ENDS[..], &["\\"]].concat();
            self.never_closed(5, start, &more);
        }
        self.raw(quote);
        Node::leaf(kind::QUOTED_STRING, start, self.end())
    }

    fn attribute_container(&mut self, depth: usize) -> Node {
        let start = self.token("{");
        if self.due(11) {
            self.blanks();
            self.raw("}");
            self.refusal(11, (start, self.end()), (0, 0));
        }
        self.container(start, depth + 1)
    }

    fn container(&mut self, start: usize, depth: usize) -> Node {
        let expression = self.expression(depth);
        if self.due(16) {
            self.blanks();
            self.refusal(16, (self.end(), self.end() + 1), (0, 0));
            self.raw(",");
        }
        self.token("}");
        Node::holding(kind::CONTAINER, start, self.end(), vec![expression])
    }

    fn spread(&mut self, kind: u32, start: usize, depth: usize) -> Node {
        self.token("...");
        let expression = self.expression(depth);
        self.token("}");
        Node::holding(kind, start, self.end(), vec![expression])
    }

    /// Children; two texts never meet.
    fn children(&mut self, depth: usize, holds: &mut Vec<Node>) {
        let mut after_text = false;
        while self.room(depth) && !self.random.once_in(4) {
            self.fault_between_children();
            let child = self.child(depth, after_text);
            after_text = child.kind == kind::TEXT;
            holds.push(child);
        }
        self.fault_between_children();
    }

    fn fault_between_children(&mut self) {
        if self.due(6) {
            self.refusal(6, (self.end(), self.end()), (0, 0));
            let bad = self.random.one_of(&[">", "}"]);
            self.raw(bad);
        }
    }

    fn child(&mut self, depth: usize, after_text: bool) -> Node {
        match self.random.below(7) {
            0 | 1 if !after_text => self.text(),
            2 => self.empty_container(),
            3 => self.braces(depth),
            4 => {
                let start = self.raw("{");
                self.spread(kind::SPREAD_CHILD, start, depth + 1)
            }
            _ => {
                let start = self.raw("<");
                self.markup(start, depth)
            }
        }
    }

    fn text(&mut self) -> Node {
        let text = self.random.one_of(&TEXTS);
        let start = self.raw(text);
        Node::leaf(kind::TEXT, start, self.end())
    }

    fn braces(&mut self, depth: usize) -> Node {
        let start = self.raw("{");
        self.container(start, depth + 1)
    }

    fn empty_container(&mut self) -> Node {
        let start = self.raw("{");
        self.blanks();
        let end = self.token("}");
        let empty = Node::leaf(kind::EMPTY_EXPRESSION, start + 1, end);
        Node::holding(kind::CONTAINER, start, end + 1, vec![empty])
    }

    fn expression(&mut self, depth: usize) -> Node {
        self.blanks();
        let mut held = Vec::new();
        let (start, end) = self.conditional(depth, &mut held);
        Node::holding(kind::EXPRESSION, start, end, held)
    }

    /// Each writer of an expression answers the span from its first to its last token.
    fn conditional(&mut self, depth: usize, held: &mut Vec<Node>) -> (usize, usize) {
        let (start, end) = self.joined(depth, held);
        if !self.room(depth) || !self.random.once_in(6) {
            return (start, end);
        }
        self.token("?");
        self.conditional(depth + 1, held);
        self.token(":");
        (start, self.conditional(depth + 1, held).1)
    }

    fn joined(&mut self, depth: usize, held: &mut Vec<Node>) -> (usize, usize) {
        let (start, mut end) = self.unary(depth, held);
        while self.room(depth) && self.random.once_in(4) {
            let operator = self.random.one_of(&["||", "&&", "+", "-", "*"]);
            self.token(operator);
            end = self.unary(depth, held).1;
        }
        (start, end)
    }

    fn unary(&mut self, depth: usize, held: &mut Vec<Node>) -> (usize, usize) {
        match self.random.below(8) {
            0 if self.room(depth) => self.prefixed(depth, held),
            1 if self.room(depth) => {
                let start = self.token("<");
                let node = self.markup_no_child(start, depth);
                let span = (node.start, node.end);
                held.push(node);
                span
            }
            _ => self.postfix(depth, held),
        }
    }

    fn prefixed(&mut self, depth: usize, held: &mut Vec<Node>) -> (usize, usize) {
        let operator = self.random.one_of(&["!", "-"]);
        self.blanks();
        if operator == "-" && self.bytes.last() == Some(&b'-') {
            self.one_blank();
        }
        let start = self.raw(operator);
        (start, self.unary(depth + 1, held).1)
    }

    fn postfix(&mut self, depth: usize, held: &mut Vec<Node>) -> (usize, usize) {
        let (start, mut end, whole_number) = self.primary(depth, held);
        let mut first = true;
        while self.room(depth) && self.random.once_in(3) {
            match self.random.below(3) {
                0 => self.dot_name(first && whole_number),
                1 => self.bracket(depth, held),
                _ => self.call(depth, held),
            }
            end = self.end();
            first = false;
        }
        (start, end)
    }

    /// A dot right after whole digits would be taken for theirs.
    fn dot_name(&mut self, after_a_whole_number: bool) {
        if after_a_whole_number {
            self.one_blank();
        }
        self.token(".");
        let words = if self.random.once_in(2) {
            &WORDS[..]
        } else {
            &["if", "let", "new"][..]
        };
        let word = self.random.one_of(words);
        self.token(word);
    }

    fn bracket(&mut self, depth: usize, held: &mut Vec<Node>) {
        self.token("[");
        self.conditional(depth + 1, held);
        self.token("]");
    }

    fn call(&mut self, depth: usize, held: &mut Vec<Node>) {
        self.token("(");
        for number in 0..self.random.below(4) {
            if number > 0 {
                self.token(",");
            }
            self.conditional(depth + 1, held);
        }
        self.token(")");
    }

    /// The span, and whether it is a number of whole digits.
    fn primary(&mut self, depth: usize, held: &mut Vec<Node>) -> (usize, usize, bool) {
        if self.due(3) {
            self.bad_primary();
        }
        match self.random.below(8) {
            0 if self.room(depth) => {
                let start = self.token("(");
                self.conditional(depth + 1, held);
                self.token(")");
                (start, self.end(), false)
            }
            1 | 2 => {
                let number = self.random.one_of(&NUMBERS);
                let start = self.token(number);
                (start, self.end(), !number.contains('.'))
            }
            3 | 4 => self.string(),
            _ => {
                let word = self.random.one_of(&WORDS);
                let start = self.token(word);
                (start, self.end(), false)
            }
        }
    }

    fn string(&mut self) -> (usize, usize, bool) {
        let quote = self.random.one_of(&["\"", "'"]);
        let inside = self.random.one_of(&IN_STRINGS);
        let start = self.token(quote);
        self.raw(inside);
        if self.due(18) {
            self.never_closed(18, start, &AFTER_OPEN_STRINGS);
        }
        self.raw(quote);
        (start, self.end(), false)
    }
}
