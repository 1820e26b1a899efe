//! The records of document 01 from the tree of oxc. `D:` quotes document 01's chapter 'The table', `D2:` document 02.

use oxc_ast::ast::*;
use oxc_ast_visit::Visit;
use oxc_span::{GetSpan, Span};

const NO_PARENT: usize = u32::MAX as usize;
/// What a run is wrapped in has two records in front of it, one behind it, and two bytes in front of it; the fragment is
/// one ancestor more.
const WRAPPING: usize = 2;

struct Row {
    kind: u32,
    start: usize,
    end: usize,
    parent: usize,
    after: usize,
    extra: usize,
    /// D2: "the number of its ancestors in the table".
    depth: usize,
}

pub struct Rows<'s> {
    source: &'s str,
    rows: Vec<Row>,
    /// The row that is being filled.
    here: usize,
}

impl<'s> Rows<'s> {
    /// Of an expression that is more than an element or a fragment: none. Document 01's domain has no such input.
    pub fn of(source: &'s str, expression: &Expression<'_>) -> Rows<'s> {
        let mut rows = Rows {
            source,
            rows: Vec::new(),
            here: NO_PARENT,
        };
        match expression {
            Expression::JSXElement(element) => rows.element(element),
            Expression::JSXFragment(fragment) => rows.fragment(fragment),
            _ => {}
        }
        rows
    }

    /// The rows inside the fragment that a run is wrapped in.
    pub fn unwrapped(mut self) -> Rows<'s> {
        let inside = self.rows.len().saturating_sub(1);
        self.rows = self.rows.into_iter().take(inside).skip(WRAPPING).collect();
        for row in &mut self.rows {
            row.start -= WRAPPING;
            row.end -= WRAPPING;
            row.after -= WRAPPING;
            row.depth -= 1;
            row.parent = if row.parent == 0 {
                NO_PARENT
            } else {
                row.parent - WRAPPING
            };
        }
        self
    }

    pub fn text(&self) -> String {
        let mut text = format!("ok {}\n", self.rows.len());
        for (
            number,
            Row {
                kind,
                start,
                end,
                parent,
                after,
                extra,
                depth,
            },
        ) in self.rows.iter().enumerate()
        {
            let parent = if *parent == NO_PARENT {
                "-".to_string()
            } else {
                parent.to_string()
            };
            text += &format!("{number} {kind} {start} {end} {parent} {after} {extra} {depth}\n");
        }
        text
    }

    /// A row, and the rows that it holds.
    fn row(&mut self, kind: u32, span: Span, extra: bool, fill: impl FnOnce(&mut Self)) {
        let (number, parent) = (self.rows.len(), self.here);
        let (start, end) = (span.start as usize, span.end as usize);
        self.rows.push(Row {
            kind,
            start,
            end,
            parent,
            after: 0,
            extra: usize::from(extra),
            depth: self.rows.get(parent).map_or(0, |around| around.depth + 1),
        });
        self.here = number;
        fill(self);
        self.here = parent;
        self.rows[number].after = self.rows.len();
    }

    /// D: "Extra is 1 for a 3, 4 or 16 with a dash".
    fn part(&mut self, kind: u32, span: Span) {
        let text = &self.source[span.start as usize..span.end as usize];
        self.row(kind, span, text.contains('-'), |_| {});
    }

    /// D: "Element and fragment hold 18, children, then 17 where paired."
    fn element(&mut self, element: &JSXElement<'_>) {
        let (opening, closing) = (&element.opening_element, &element.closing_element);
        self.row(1, element.span, closing.is_some(), |rows| {
            rows.row(18, opening.span, false, |rows| {
                rows.element_name(&opening.name);
                for item in opening.attributes.as_slice() {
                    rows.attribute_item(item);
                }
            });
            rows.children(element.children.as_slice());
            if let Some(closing) = closing {
                rows.row(17, closing.span, false, |rows| {
                    rows.element_name(&closing.name)
                });
            }
        });
    }

    fn fragment(&mut self, fragment: &JSXFragment<'_>) {
        self.row(2, fragment.span, false, |rows| {
            rows.row(18, fragment.opening_fragment.span, false, |_| {});
            rows.children(fragment.children.as_slice());
            rows.row(17, fragment.closing_fragment.span, false, |_| {});
        });
    }

    fn element_name(&mut self, name: &JSXElementName<'_>) {
        match name {
            JSXElementName::Identifier(_) => self.part(3, name.span()),
            JSXElementName::IdentifierReference(_) => self.part(4, name.span()),
            JSXElementName::ThisExpression(_) => self.row(5, name.span(), false, |_| {}),
            JSXElementName::NamespacedName(both) => self.namespaced(both),
            JSXElementName::MemberExpression(member) => {
                self.row(7, name.span(), false, |rows| rows.member(member));
            }
        }
    }

    /// D: "6 holds two 16."
    fn namespaced(&mut self, name: &JSXNamespacedName<'_>) {
        self.row(6, name.span, false, |rows| {
            rows.part(16, name.namespace.span);
            rows.part(16, name.name.span);
        });
    }

    /// D: "7 holds a 5 (`this`) or 4, then 16s."
    fn member(&mut self, member: &JSXMemberExpression<'_>) {
        match &member.object {
            JSXMemberExpressionObject::IdentifierReference(object) => self.part(4, object.span),
            JSXMemberExpressionObject::ThisExpression(object) => {
                self.row(5, object.span, false, |_| {})
            }
            JSXMemberExpressionObject::MemberExpression(object) => self.member(object),
        }
        self.part(16, member.property.span);
    }

    /// D: "8 holds a 16 or 6, then 10, 11, 1 or 2 if given."
    fn attribute_item(&mut self, item: &JSXAttributeItem<'_>) {
        match item {
            JSXAttributeItem::SpreadAttribute(spread) => {
                self.row(9, spread.span, false, |rows| {
                    rows.expression(&spread.argument)
                });
            }
            JSXAttributeItem::Attribute(attribute) => {
                self.row(8, attribute.span, false, |rows| {
                    match &attribute.name {
                        JSXAttributeName::Identifier(name) => rows.part(16, name.span),
                        JSXAttributeName::NamespacedName(name) => rows.namespaced(name),
                    }
                    attribute.value.iter().for_each(|value| rows.value(value));
                });
            }
        }
    }

    fn value(&mut self, value: &JSXAttributeValue<'_>) {
        match value {
            JSXAttributeValue::StringLiteral(string) => self.row(10, string.span, false, |_| {}),
            JSXAttributeValue::ExpressionContainer(container) => self.container(container),
            JSXAttributeValue::Element(element) => self.element(element),
            JSXAttributeValue::Fragment(fragment) => self.fragment(fragment),
        }
    }

    fn children(&mut self, children: &[JSXChild<'_>]) {
        for child in children {
            match child {
                JSXChild::Text(text) => self.row(14, text.span, false, |_| {}),
                JSXChild::Element(element) => self.element(element),
                JSXChild::Fragment(fragment) => self.fragment(fragment),
                JSXChild::ExpressionContainer(container) => self.container(container),
                JSXChild::Spread(spread) => {
                    self.row(13, spread.span, false, |rows| {
                        rows.expression(&spread.expression)
                    });
                }
            }
        }
    }

    /// D: "11 holds a 12 or 15".
    fn container(&mut self, container: &JSXExpressionContainer<'_>) {
        let expression = &container.expression;
        self.row(11, container.span, false, |rows| match expression {
            JSXExpression::EmptyExpression(_) => rows.row(12, expression.span(), false, |_| {}),
            _ => rows.row(15, expression.span(), false, |rows| {
                rows.visit_jsx_expression(expression)
            }),
        });
    }

    /// D: "A 15 .. holds the outermost elements and fragments in it, in order."
    fn expression(&mut self, expression: &Expression<'_>) {
        self.row(15, expression.span(), false, |rows| {
            rows.visit_expression(expression)
        });
    }
}

/// The visitor goes through an expression, and hands each element and fragment that it meets to the readers above.
impl<'a> Visit<'a> for Rows<'_> {
    fn visit_jsx_element(&mut self, element: &JSXElement<'a>) {
        self.element(element);
    }

    fn visit_jsx_fragment(&mut self, fragment: &JSXFragment<'a>) {
        self.fragment(fragment);
    }
}
