//! Messages as nodes. Nothing here takes stack by how deep a message nests.

use crate::raw::{self, Item};
use crate::{items, write, Error, ItemFaultKind};
use std::fmt;

/// An item of a message: its tag and its value, which says its type.
pub struct Node {
    /// Its tag, below 2^24.
    pub tag: u32,
    /// Its value.
    pub value: Value,
}

/// The value of an item.
#[derive(Clone, PartialEq, Eq)]
pub enum Value {
    /// Items, one after the other.
    Structure(Vec<Node>),
    /// A number of four bytes.
    Integer(i32),
    /// A number of eight bytes.
    LongInteger(i64),
    /// A number of any length: its bytes, two's complement, the most significant first. KMIP asks for a multiple of eight.
    BigInteger(Vec<u8>),
    /// A number that stands for a name.
    Enumeration(u32),
    /// Whether something holds.
    Boolean(bool),
    /// A text.
    TextString(String),
    /// Bytes.
    ByteString(Vec<u8>),
    /// A time, in seconds since 1970 in UTC.
    DateTime(i64),
    /// A number of seconds.
    Interval(u32),
}

impl Value {
    /// The code of the type, from 1, a Structure, to 10, an Interval.
    pub fn typ(&self) -> u32 {
        match self {
            Value::Structure(_) => raw::STRUCTURE,
            Value::Integer(_) => raw::INTEGER,
            Value::LongInteger(_) => raw::LONG_INTEGER,
            Value::BigInteger(_) => raw::BIG_INTEGER,
            Value::Enumeration(_) => raw::ENUMERATION,
            Value::Boolean(_) => raw::BOOLEAN,
            Value::TextString(_) => raw::TEXT_STRING,
            Value::ByteString(_) => raw::BYTE_STRING,
            Value::DateTime(_) => raw::DATE_TIME,
            Value::Interval(_) => raw::INTERVAL,
        }
    }

    /// The nodes of a Structure, and none of anything else.
    pub fn nodes(&self) -> &[Node] {
        if let Value::Structure(nodes) = self {
            nodes
        } else {
            &[]
        }
    }

    /// The value of a checked item, without the nodes of a Structure.
    fn of(item: &Item, content: &[u8]) -> Value {
        match item.typ {
            raw::INTEGER => Value::Integer(i32::from_be_bytes(fixed(content))),
            raw::LONG_INTEGER => Value::LongInteger(i64::from_be_bytes(fixed(content))),
            raw::BIG_INTEGER => Value::BigInteger(content.to_vec()),
            raw::ENUMERATION => Value::Enumeration(u32::from_be_bytes(fixed(content))),
            raw::BOOLEAN => Value::Boolean(content.last() == Some(&1)),
            raw::TEXT_STRING => {
                Value::TextString(String::from_utf8(content.to_vec()).expect("the library has checked that a text is UTF-8"))
            }
            raw::BYTE_STRING => Value::ByteString(content.to_vec()),
            raw::DATE_TIME => Value::DateTime(i64::from_be_bytes(fixed(content))),
            raw::INTERVAL => Value::Interval(u32::from_be_bytes(fixed(content))),
            _ => Value::Structure(Vec::new()),
        }
    }

    /// Appends the content of a leaf, without padding; nothing of a Structure.
    fn append_to(&self, lent: &mut Vec<u8>) {
        match self {
            Value::Structure(_) => {}
            Value::Integer(number) => lent.extend(number.to_be_bytes()),
            Value::LongInteger(number) | Value::DateTime(number) => lent.extend(number.to_be_bytes()),
            Value::Enumeration(number) | Value::Interval(number) => lent.extend(number.to_be_bytes()),
            Value::Boolean(holds) => lent.extend(u64::from(*holds).to_be_bytes()),
            Value::TextString(text) => lent.extend(text.as_bytes()),
            Value::BigInteger(bytes) | Value::ByteString(bytes) => lent.extend(bytes),
        }
    }

    /// A copy, and of a Structure one without nodes.
    fn alone(&self) -> Value {
        match self {
            Value::Structure(_) => Value::Structure(Vec::new()),
            leaf => leaf.clone(),
        }
    }

    /// Whether two values are the same, if what is in Structures isn't looked at.
    fn is_alone_as(&self, other: &Value) -> bool {
        match (self, other) {
            (Value::Structure(_), Value::Structure(_)) => true,
            (Value::Structure(_), _) | (_, Value::Structure(_)) => false,
            (one, two) => one == two,
        }
    }
}

/// The bytes of a value whose length the library has checked.
fn fixed<const N: usize>(content: &[u8]) -> [u8; N] {
    content.try_into().expect("the library has checked the length")
}

impl Node {
    /// The node of a tag and a value.
    pub fn new(tag: u32, value: Value) -> Node {
        Node { tag, value }
    }

    /// This node and all below it in document order, each with its depth: 0 for this one.
    pub fn walk(&self) -> Walk<'_> {
        Walk { waiting: vec![(0, self)] }
    }

    /// The value, for which the node is given up.
    pub fn into_value(mut self) -> Value {
        std::mem::replace(&mut self.value, Value::Structure(Vec::new()))
    }
}

/// The nodes of a message in document order, each with its depth.
pub struct Walk<'a> {
    waiting: Vec<(usize, &'a Node)>,
}

impl<'a> Iterator for Walk<'a> {
    type Item = (usize, &'a Node);

    fn next(&mut self) -> Option<(usize, &'a Node)> {
        let (depth, node) = self.waiting.pop()?;
        self.waiting.extend(node.value.nodes().iter().rev().map(|it| (depth + 1, it)));
        Some((depth, node))
    }
}

/// Puts nodes together that come in document order, with their depths.
#[derive(Default)]
struct Builder {
    /// The node that came last, and before it those around.
    open: Vec<Node>,
}

impl Builder {
    /// Puts the nodes of this depth and below, but for the root, into those around them.
    fn close(&mut self, depth: usize) {
        while self.open.len() > depth {
            let last = self.open.pop();
            if let (Some(node), Some(Node { value: Value::Structure(nodes), .. })) = (last, self.open.last_mut()) {
                nodes.push(node);
            }
        }
    }

    fn add(&mut self, depth: usize, node: Node) {
        self.close(depth);
        self.open.push(node);
    }

    fn root(mut self) -> Option<Node> {
        self.close(1);
        self.open.pop()
    }
}

impl Drop for Node {
    fn drop(&mut self) {
        let mut waiting = taken(&mut self.value);
        while let Some(mut node) = waiting.pop() {
            waiting.append(&mut taken(&mut node.value));
        }
    }
}

/// The nodes of a Structure, which keeps none.
fn taken(value: &mut Value) -> Vec<Node> {
    if let Value::Structure(nodes) = value {
        std::mem::take(nodes)
    } else {
        Vec::new()
    }
}

impl Clone for Node {
    fn clone(&self) -> Node {
        let mut built = Builder::default();
        for (depth, node) in self.walk() {
            built.add(depth, Node::new(node.tag, node.value.alone()));
        }
        built.root().expect("a walk has this node at least")
    }
}

impl PartialEq for Node {
    fn eq(&self, other: &Node) -> bool {
        let (mut one, mut two) = (self.walk(), other.walk());
        loop {
            match (one.next(), two.next()) {
                (None, None) => return true,
                (Some((depth, a)), Some((other_depth, b))) if depth == other_depth && a.tag == b.tag && a.value.is_alone_as(&b.value) => {}
                _ => return false,
            }
        }
    }
}

impl Eq for Node {}

/// Shows tags, types, nesting and the values of Enumerations, and no other value, since it may be a key.
impl fmt::Debug for Node {
    fn fmt(&self, f: &mut fmt::Formatter<'_>) -> fmt::Result {
        let (mut open, mut between) = (0, "");
        for (depth, node) in self.walk() {
            let between_them = if open > depth { ", " } else { between };
            write!(f, "{}{between_them}0x{:06X} {}", "]".repeat(open - depth), node.tag, Shown(&node.value))?;
            let is_structure = matches!(node.value, Value::Structure(_));
            (open, between) = if is_structure { (depth + 1, "") } else { (depth, ", ") };
        }
        f.write_str(&"]".repeat(open))
    }
}

/// As of nodes.
impl fmt::Debug for Value {
    fn fmt(&self, f: &mut fmt::Formatter<'_>) -> fmt::Result {
        match self {
            Value::Structure(nodes) => f.debug_list().entries(nodes).finish(),
            leaf => write!(f, "{}", Shown(leaf)),
        }
    }
}

/// What is shown of a value, without the nodes of a Structure.
struct Shown<'a>(&'a Value);

impl fmt::Display for Shown<'_> {
    fn fmt(&self, f: &mut fmt::Formatter<'_>) -> fmt::Result {
        match self.0 {
            Value::Structure(_) => f.write_str("["),
            Value::Integer(_) => f.write_str("Integer"),
            Value::LongInteger(_) => f.write_str("LongInteger"),
            Value::BigInteger(_) => f.write_str("BigInteger"),
            Value::Enumeration(number) => write!(f, "Enumeration 0x{number:08X}"),
            Value::Boolean(_) => f.write_str("Boolean"),
            Value::TextString(_) => f.write_str("TextString"),
            Value::ByteString(_) => f.write_str("ByteString"),
            Value::DateTime(_) => f.write_str("DateTime"),
            Value::Interval(_) => f.write_str("Interval"),
        }
    }
}

/// Decodes one whole message.
///
/// # Errors
///
/// `Malformed`, with the items before the fault, for any other bytes; `OutOfMemory` if the library's memory ran out.
pub fn decode(bytes: &[u8]) -> Result<Node, Error> {
    let mut built = Builder::default();
    for item in items(bytes)? {
        // the content of a Structure is its nodes: a copy of it at each depth would cost the square of the depth
        let length = if item.typ == raw::STRUCTURE { 0 } else { item.length as usize };
        let content = &bytes[item.offset + 8..item.offset + 8 + length];
        built.add(item.depth, Node::new(item.tag, Value::of(&item, content)));
    }
    Ok(built.root().expect("a whole message has a root"))
}

/// Encodes a node: the message, if it is a Structure. Padding is zeros, and the bytes of a Big Integer stay as they are.
///
/// # Errors
///
/// `BadItem` for the first node, in document order, that can't be encoded: its tag is 2^24 or more, or it is too long, or makes a
/// Structure around it so.
pub fn encode(root: &Node) -> Result<Vec<u8>, Error> {
    let (mut found, mut lent) = (Vec::new(), vec![0; 8]);
    for (depth, node) in root.walk() {
        let offset = lent.len() - 8;
        node.value.append_to(&mut lent);
        let Ok(length) = u32::try_from(lent.len() - 8 - offset) else {
            return Err(Error::BadItem { index: found.len(), kind: ItemFaultKind::TooLong });
        };
        found.push(Item { offset, depth, tag: node.tag, typ: node.value.typ(), length });
    }
    write(&found, &lent)
}
