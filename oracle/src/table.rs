//! Nodes of the reading, and the records they are numbered into.

/// A missing parent. D: "a missing parent is 4294967295".
pub const NO_PARENT: u32 = 4_294_967_295;

/// D: "Kinds: 1 element .. 18 opening tag".
pub mod kind {
    pub const ELEMENT: u32 = 1;
    pub const FRAGMENT: u32 = 2;
    pub const IDENTIFIER: u32 = 3;
    pub const REFERENCE: u32 = 4;
    pub const THIS: u32 = 5;
    pub const NAMESPACED: u32 = 6;
    pub const MEMBER: u32 = 7;
    pub const ATTRIBUTE: u32 = 8;
    pub const SPREAD_ATTRIBUTE: u32 = 9;
    pub const QUOTED_STRING: u32 = 10;
    pub const CONTAINER: u32 = 11;
    pub const EMPTY_EXPRESSION: u32 = 12;
    pub const SPREAD_CHILD: u32 = 13;
    pub const TEXT: u32 = 14;
    pub const EXPRESSION: u32 = 15;
    pub const OTHER_PART: u32 = 16;
    pub const CLOSING_TAG: u32 = 17;
    pub const OPENING_TAG: u32 = 18;
}

/// The words of a record. D: "kind, start, end, parent, after, extra"; D2: "Each record gets a seventh word".
pub const ROW_WORDS: usize = 7;

#[derive(Clone, Copy, Debug, PartialEq, Eq)]
pub struct Record {
    pub kind: u32,
    pub start: u32,
    pub end: u32,
    pub parent: u32,
    pub after: u32,
    pub extra: u32,
    /// D2: "the number of its ancestors in the table".
    pub depth: u32,
}

/// A piece of the reading with the pieces it holds.
#[derive(Clone, Debug, PartialEq, Eq)]
pub(crate) struct Node {
    pub kind: u32,
    pub start: usize,
    pub end: usize,
    pub extra: u32,
    pub holds: Vec<Node>,
}

impl Node {
    pub fn leaf(kind: u32, start: usize, end: usize) -> Node {
        Node::holding(kind, start, end, Vec::new())
    }

    pub fn holding(kind: u32, start: usize, end: usize, holds: Vec<Node>) -> Node {
        Node {
            kind,
            start,
            end,
            extra: 0,
            holds,
        }
    }

    pub fn with_extra(self, extra: bool) -> Node {
        Node {
            extra: u32::from(extra),
            ..self
        }
    }
}

/// D: "Records stand in preorder".
pub(crate) fn records(nodes: &[Node]) -> Vec<Record> {
    let mut records = Vec::new();
    for node in nodes {
        write(node, &mut Vec::new(), &mut records);
    }
    records
}

/// `ancestors` has the numbers of the records around the node, the outermost first: the last one is its parent.
/// D: "`after` is the number of the first record past the subtree".
fn write(node: &Node, ancestors: &mut Vec<u32>, records: &mut Vec<Record>) {
    let number = records.len();
    records.push(Record {
        kind: node.kind,
        start: node.start as u32,
        end: node.end as u32,
        parent: ancestors.last().copied().unwrap_or(NO_PARENT),
        after: 0,
        extra: node.extra,
        depth: ancestors.len() as u32,
    });
    ancestors.push(number as u32);
    for held in &node.holds {
        write(held, ancestors, records);
    }
    ancestors.pop();
    records[number].after = records.len() as u32;
}
