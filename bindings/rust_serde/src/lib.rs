//! The nodes of `kmip_ttlv` for serde: `Whole` and `Redacted` serialize a node to any format, in the form that `kmip_ttlv::to_json`
//! prints: a map of `tag`, `type` and `value`, whose numbers are hexadecimal texts.
//!
//! ```no_run
//! # let message = [0u8];
//! let node = kmip_ttlv::decode(&message).unwrap();
//! let line = serde_json::to_string(&kmip_ttlv_serde::Whole(&node)).unwrap();
//! ```

use kmip_ttlv::{Node, Value};
use serde::ser::{Error, SerializeSeq, SerializeStruct};
use serde::{Serialize, Serializer};
use std::fmt::Write;

/// How many Structures may be in one another: as many as `kmip_ttlv::from_json` reads.
pub const MAX_DEPTH: usize = 63;

/// A node with all its values, which may be keys.
///
/// Serializing fails, with the words of `TOO_DEEP`, where more than `MAX_DEPTH` Structures are in one another, since it takes stack for
/// each; and where the serializer does.
#[derive(Clone, Copy)]
pub struct Whole<'n>(pub &'n Node);

/// A node without values but those of Enumerations: null stands in place of each other one, as for a log. It fails as `Whole`.
#[derive(Clone, Copy)]
pub struct Redacted<'n>(pub &'n Node);

/// The error of a node that nests too deep.
pub const TOO_DEEP: &str = "more than 63 Structures are in one another";

impl Serialize for Whole<'_> {
    fn serialize<S: Serializer>(&self, serializer: S) -> Result<S::Ok, S::Error> {
        Item { node: self.0, hides: false, room: MAX_DEPTH }.serialize(serializer)
    }
}

impl Serialize for Redacted<'_> {
    fn serialize<S: Serializer>(&self, serializer: S) -> Result<S::Ok, S::Error> {
        Item { node: self.0, hides: true, room: MAX_DEPTH }.serialize(serializer)
    }
}

/// A node, whether values are hidden, and how many more Structures may be in one another.
struct Item<'n> {
    node: &'n Node,
    hides: bool,
    room: usize,
}

/// The nodes of a Structure, likewise.
struct Items<'n> {
    nodes: &'n [Node],
    hides: bool,
    room: usize,
}

impl Serialize for Item<'_> {
    fn serialize<S: Serializer>(&self, serializer: S) -> Result<S::Ok, S::Error> {
        let Item { node, hides, room } = *self;
        let mut item = serializer.serialize_struct("Item", 3)?;
        item.serialize_field("tag", &format!("0x{:06X}", node.tag))?;
        item.serialize_field("type", type_name(&node.value))?;
        match &node.value {
            Value::Structure(_) if room == 0 => return Err(S::Error::custom(TOO_DEEP)),
            Value::Structure(nodes) => item.serialize_field("value", &Items { nodes, hides, room: room - 1 })?,
            Value::Enumeration(number) => item.serialize_field("value", &format!("0x{number:08X}"))?,
            _ if hides => item.serialize_field("value", &())?,
            Value::Integer(number) => item.serialize_field("value", &format!("0x{number:08X}"))?,
            Value::LongInteger(number) | Value::DateTime(number) => item.serialize_field("value", &format!("0x{number:016X}"))?,
            Value::BigInteger(bytes) => item.serialize_field("value", &digits("0x", bytes))?,
            Value::Boolean(holds) => item.serialize_field("value", holds)?,
            Value::TextString(text) => item.serialize_field("value", text)?,
            Value::ByteString(bytes) => item.serialize_field("value", &digits("", bytes))?,
            Value::Interval(number) => item.serialize_field("value", &format!("0x{number:08X}"))?,
        }
        item.end()
    }
}

impl Serialize for Items<'_> {
    fn serialize<S: Serializer>(&self, serializer: S) -> Result<S::Ok, S::Error> {
        let mut items = serializer.serialize_seq(Some(self.nodes.len()))?;
        for node in self.nodes {
            items.serialize_element(&Item { node, hides: self.hides, room: self.room })?;
        }
        items.end()
    }
}

/// The name of a type in KMIP's JSON.
fn type_name(value: &Value) -> &'static str {
    match value {
        Value::Structure(_) => "Structure",
        Value::Integer(_) => "Integer",
        Value::LongInteger(_) => "LongInteger",
        Value::BigInteger(_) => "BigInteger",
        Value::Enumeration(_) => "Enumeration",
        Value::Boolean(_) => "Boolean",
        Value::TextString(_) => "TextString",
        Value::ByteString(_) => "ByteString",
        Value::DateTime(_) => "DateTime",
        Value::Interval(_) => "Interval",
    }
}

/// The digits of bytes behind a text.
fn digits(front: &str, bytes: &[u8]) -> String {
    let mut text = String::with_capacity(front.len() + 2 * bytes.len());
    text.push_str(front);
    for byte in bytes {
        let _ = write!(text, "{byte:02X}");
    }
    text
}
