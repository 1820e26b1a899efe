use crate::table::Word;
use crate::{record_bytes, Children, Kind, Records, Span, Table, NO_PARENT};
use std::fmt;

/// A record of a table.
#[derive(Clone, Copy)]
pub struct Record<'i, 't> {
    table: Table<'i, 't>,
    number: usize,
}

impl<'i, 't> Record<'i, 't> {
    /// The number is below the table's count.
    pub(crate) fn at(table: Table<'i, 't>, number: usize) -> Record<'i, 't> {
        Record { table, number }
    }

    /// Its number: its place in preorder, from 0.
    pub fn number(&self) -> usize {
        self.number
    }

    /// Its kind.
    pub fn kind(&self) -> Kind {
        self.table.kind(self.number)
    }

    /// The offset of its first byte.
    pub fn start(&self) -> usize {
        self.word(Word::Start)
    }

    /// The offset behind its last byte.
    pub fn end(&self) -> usize {
        self.word(Word::End)
    }

    /// Its place in the input.
    pub fn span(&self) -> Span {
        Span {
            start: self.start(),
            end: self.end(),
        }
    }

    /// The record that it stands in; `None` for an outermost one.
    pub fn parent(&self) -> Option<Record<'i, 't>> {
        let parent = self.table.word(self.number, Word::Parent);
        (parent != NO_PARENT).then(|| Record::at(self.table, parent as usize))
    }

    /// The number of the first record past all that it holds.
    pub fn after(&self) -> usize {
        self.word(Word::After)
    }

    /// 1 for a paired element, and for an identifier, reference or other part with a dash; else 0.
    pub fn extra(&self) -> u32 {
        self.table.word(self.number, Word::Extra)
    }

    /// The number of its ancestors: 0 for an outermost record, else its parent's plus 1.
    ///
    /// Records are counted, tags, attributes, containers and expressions among them; parentheses and operators have
    /// none. So it is not the depth that [`MOST_DEPTH`](crate::MOST_DEPTH) limits.
    ///
    /// ```
    /// let owned = lorikvar::read_run_vec(b"x<v>{(<b/>)}</v>")?;
    /// let depths: Vec<usize> = owned.table().records().map(|record| record.depth()).collect();
    /// assert_eq!(depths, [0, 0, 1, 2, 1, 2, 3, 4, 5, 1, 2]);
    /// # Ok::<(), lorikvar::Refusal>(())
    /// ```
    pub fn depth(&self) -> usize {
        self.word(Word::Depth)
    }

    /// Whether it is an element with a closing tag. (A fragment always has one.)
    pub fn is_paired(&self) -> bool {
        self.kind() == Kind::Element && self.extra() == 1
    }

    /// Its bytes: a part of the input itself.
    pub fn bytes(&self) -> &'i [u8] {
        record_bytes(
            self.table.input(),
            self.table.words(),
            self.table.len(),
            self.number,
        )
        .unwrap_or_default()
    }

    /// Its bytes as text: a part of the input itself. A span begins and ends between characters.
    pub fn text(&self) -> &'i str {
        &self.table.text()[self.span().range()]
    }

    /// All that it holds, in preorder.
    pub fn descendants(&self) -> Records<'i, 't> {
        Records::over(self.table, self.number + 1..self.after())
    }

    /// The records whose parent is this one, tags and names too.
    pub fn children(&self) -> Children<'i, 't> {
        Children::over(self.table, self.number + 1..self.after(), |_| true)
    }

    fn children_of(&self, keep: fn(Kind) -> bool) -> Children<'i, 't> {
        Children::over(self.table, self.number + 1..self.after(), keep)
    }

    /// What stands between the tags of an element or a fragment: texts, elements, fragments, containers,
    /// spreads. None for other kinds.
    ///
    /// ```
    /// let owned = lorikvar::read_stage_vec(b"<v>hi <b/>{c}</v>")?;
    /// let stage = owned.table().outermost().next().unwrap();
    /// let content: Vec<&str> = stage.content().map(|child| child.text()).collect();
    /// assert_eq!(content, ["hi ", "<b/>", "{c}"]);
    /// # Ok::<(), lorikvar::Refusal>(())
    /// ```
    pub fn content(&self) -> Children<'i, 't> {
        match self.kind() {
            Kind::Element | Kind::Fragment => {
                self.children_of(|kind| kind != Kind::OpeningTag && kind != Kind::ClosingTag)
            }
            _ => Children::none(self.table),
        }
    }

    /// The opening tag of an element or a fragment.
    pub fn opening(&self) -> Option<Record<'i, 't>> {
        self.children_of(|kind| kind == Kind::OpeningTag).next()
    }

    /// The closing tag of a paired element or a fragment.
    pub fn closing(&self) -> Option<Record<'i, 't>> {
        self.children_of(|kind| kind == Kind::ClosingTag).last()
    }

    /// The attributes of an element or of an opening tag, spreads among them, in order. None for other kinds.
    ///
    /// ```
    /// let owned = lorikvar::read_stage_vec(b"<v a='1' {...b} c/>")?;
    /// let stage = owned.table().outermost().next().unwrap();
    /// let attributes: Vec<&str> = stage.attributes().map(|attribute| attribute.text()).collect();
    /// assert_eq!(attributes, ["a='1'", "{...b}", "c"]);
    /// # Ok::<(), lorikvar::Refusal>(())
    /// ```
    pub fn attributes(&self) -> Children<'i, 't> {
        let tag = if self.kind() == Kind::OpeningTag {
            Some(*self)
        } else {
            self.opening()
        };
        match tag {
            Some(tag) => {
                tag.children_of(|kind| kind == Kind::Attribute || kind == Kind::SpreadAttribute)
            }
            None => Children::none(self.table),
        }
    }

    /// The first attribute of that name, spelled without blanks, as `b` or `x:y`.
    ///
    /// ```
    /// let owned = lorikvar::read_stage_vec(b"<v x : y='1'/>")?;
    /// let stage = owned.table().outermost().next().unwrap();
    /// let value = stage.attribute("x:y").and_then(|attribute| attribute.value());
    /// assert_eq!(value.and_then(|value| value.unquoted()), Some("1"));
    /// assert!(stage.attribute("y").is_none());
    /// # Ok::<(), lorikvar::Refusal>(())
    /// ```
    pub fn attribute(&self, name: &str) -> Option<Record<'i, 't>> {
        self.attributes().find(|attribute| attribute.is_named(name))
    }

    /// The name of an element, a tag or an attribute. A fragment, its tags and a spread have none.
    pub fn name(&self) -> Option<Record<'i, 't>> {
        match self.kind() {
            Kind::Element => self.opening()?.name(),
            Kind::OpeningTag | Kind::ClosingTag | Kind::Attribute => {
                self.children().find(|child| child.is_name())
            }
            _ => None,
        }
    }

    fn is_name(&self) -> bool {
        matches!(
            self.kind(),
            Kind::Identifier
                | Kind::Reference
                | Kind::This
                | Kind::Namespaced
                | Kind::Member
                | Kind::OtherPart
        )
    }

    /// The parts of a name, or of the name of what [`Record::name`] gives one for. A name of one part is its
    /// own part.
    ///
    /// ```
    /// let owned = lorikvar::read_stage_vec(b"<a . b/>")?;
    /// let stage = owned.table().outermost().next().unwrap();
    /// let parts: Vec<&str> = stage.name_parts().map(|part| part.text()).collect();
    /// assert_eq!(parts, ["a", "b"]);
    /// # Ok::<(), lorikvar::Refusal>(())
    /// ```
    pub fn name_parts(&self) -> Children<'i, 't> {
        let name = if self.is_name() {
            Some(*self)
        } else {
            self.name()
        };
        match name {
            None => Children::none(self.table),
            Some(name) if matches!(name.kind(), Kind::Namespaced | Kind::Member) => name.children(),
            Some(name) => Children::over(self.table, name.number..name.after(), |_| true),
        }
    }

    /// Whether its name, part for part and with the same form, is this one, spelled without blanks.
    pub fn is_named(&self, name: &str) -> bool {
        let found = if self.is_name() {
            Some(*self)
        } else {
            self.name()
        };
        let parts = self.name_parts().map(|part| part.text());
        match found.map(|name| name.kind()) {
            None => false,
            Some(Kind::Namespaced) => parts.eq(name.split(':')),
            Some(Kind::Member) => parts.eq(name.split('.')),
            Some(_) => parts.eq([name]),
        }
    }

    /// The value of an attribute: a quoted string, a container, an element or a fragment.
    pub fn value(&self) -> Option<Record<'i, 't>> {
        match self.kind() {
            Kind::Attribute => self.children().nth(1),
            _ => None,
        }
    }

    /// A quoted string without its quotes. There are no escapes in it.
    pub fn unquoted(&self) -> Option<&'i str> {
        let text = self.text();
        match self.kind() {
            Kind::Quoted => text.get(1..text.len().checked_sub(1)?),
            _ => None,
        }
    }

    fn word(&self, word: Word) -> usize {
        self.table.word(self.number, word) as usize
    }
}

/// The same record of the same table: the same words over the same input, not others that are equal.
impl PartialEq for Record<'_, '_> {
    fn eq(&self, other: &Self) -> bool {
        self.number == other.number && self.table.is_same(&other.table)
    }
}

impl Eq for Record<'_, '_> {}

impl fmt::Debug for Record<'_, '_> {
    fn fmt(&self, f: &mut fmt::Formatter<'_>) -> fmt::Result {
        f.debug_struct("Record")
            .field("number", &self.number)
            .field("kind", &self.kind())
            .field("span", &self.span().range())
            .field("parent", &self.parent().map(|parent| parent.number))
            .field("after", &self.after())
            .field("extra", &self.extra())
            .field("depth", &self.depth())
            .finish()
    }
}
