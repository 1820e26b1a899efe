use std::fmt;

/// The kind of a record, with what it holds, in order.
#[derive(Clone, Copy, Debug, PartialEq, Eq, PartialOrd, Ord, Hash)]
pub enum Kind {
    /// Its opening tag, its children, and its closing tag where paired.
    Element = 1,
    /// Its opening tag, its children, its closing tag.
    Fragment = 2,
    /// A name of one part, as `v`.
    Identifier = 3,
    /// A name of one part that begins with A-Z, `_`, `$` or a character beyond ASCII and has no dash; the first part of
    /// a member name.
    Reference = 4,
    /// The name `this`, exactly, by itself or as the first part of a member name.
    This = 5,
    /// A name `part:part`: two other parts.
    Namespaced = 6,
    /// A name `part.part`: a `this` or a reference, then other parts.
    Member = 7,
    /// Its name (an other part or a namespaced name), then its value if given.
    Attribute = 8,
    /// `{...expression}` among attributes: an expression.
    SpreadAttribute = 9,
    /// A quoted string as a value, with its quotes.
    Quoted = 10,
    /// `{expression}` or `{}`: an expression or an empty expression.
    Container = 11,
    /// All between the braces of `{}`.
    EmptyExpression = 12,
    /// `{...expression}` as a child: an expression.
    SpreadChild = 13,
    /// Text as a child.
    Text = 14,
    /// An expression, from its first to its last token: the outermost elements and fragments in it.
    Expression = 15,
    /// A part of a name: of an attribute's, of a namespaced one, or a member name's behind a dot.
    OtherPart = 16,
    /// `</v>` or `</>`: its name, if any.
    ClosingTag = 17,
    /// `<v b>`, `<v/>` or `<>`: its name, if any, then its attributes.
    OpeningTag = 18,
}

impl Kind {
    /// Every kind, in the order of their numbers.
    pub const ALL: [Kind; 18] = [
        Kind::Element,
        Kind::Fragment,
        Kind::Identifier,
        Kind::Reference,
        Kind::This,
        Kind::Namespaced,
        Kind::Member,
        Kind::Attribute,
        Kind::SpreadAttribute,
        Kind::Quoted,
        Kind::Container,
        Kind::EmptyExpression,
        Kind::SpreadChild,
        Kind::Text,
        Kind::Expression,
        Kind::OtherPart,
        Kind::ClosingTag,
        Kind::OpeningTag,
    ];

    /// The number of the kind: a record's first word.
    pub fn number(self) -> u32 {
        self as u32
    }

    /// The kind of a number from 1 to 18.
    pub fn from_number(number: u32) -> Option<Kind> {
        let place = number.checked_sub(1)?;
        Kind::ALL.get(place as usize).copied()
    }

    /// Document 01's word for the kind.
    pub fn word(self) -> &'static str {
        match self {
            Kind::Element => "element",
            Kind::Fragment => "fragment",
            Kind::Identifier => "identifier",
            Kind::Reference => "reference",
            Kind::This => "This",
            Kind::Namespaced => "namespaced",
            Kind::Member => "member",
            Kind::Attribute => "attribute",
            Kind::SpreadAttribute => "spread attribute",
            Kind::Quoted => "quoted string",
            Kind::Container => "container",
            Kind::EmptyExpression => "empty expression",
            Kind::SpreadChild => "spread child",
            Kind::Text => "text",
            Kind::Expression => "expression",
            Kind::OtherPart => "other part",
            Kind::ClosingTag => "closing tag",
            Kind::OpeningTag => "opening tag",
        }
    }
}

impl fmt::Display for Kind {
    fn fmt(&self, f: &mut fmt::Formatter<'_>) -> fmt::Result {
        f.pad(self.word())
    }
}

#[cfg(test)]
mod tests {
    use super::Kind;

    #[test]
    fn numbers_are_1_to_18_and_lead_back() {
        for (place, kind) in Kind::ALL.iter().enumerate() {
            assert_eq!(kind.number() as usize, place + 1);
            assert_eq!(Kind::from_number(kind.number()), Some(*kind));
        }
    }

    #[test]
    fn other_numbers_are_no_kind() {
        for number in [0, 19, u32::MAX] {
            assert_eq!(Kind::from_number(number), None);
        }
    }

    #[test]
    fn words_differ() {
        for (place, kind) in Kind::ALL.iter().enumerate() {
            assert!(
                Kind::ALL[..place]
                    .iter()
                    .all(|other| other.word() != kind.word()),
                "{kind}"
            );
        }
    }
}
