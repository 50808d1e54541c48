//! Why a call returned no text, no node or no bytes.

use crate::raw::{self, Item};
use std::fmt;

/// Why a call failed.
#[derive(Clone, Debug, PartialEq, Eq)]
#[non_exhaustive]
pub enum Error {
    /// Memory ran out, or the text needs more than its limit.
    OutOfMemory,
    /// The bytes are not one whole message, or a text is not the JSON of one.
    Malformed {
        /// The first fault, in document order; of JSON its offset is in the text.
        fault: Fault,
        /// The items before it, of a call that lists or decodes them.
        items: Vec<Item>,
    },
    /// An item can't be written.
    BadItem {
        /// Its index, from 0 in document order.
        index: usize,
        /// What is wrong with it.
        kind: ItemFaultKind,
    },
    /// A line of a table of names can't be read.
    BadNames {
        /// Its number, from 1.
        line: usize,
    },
}

/// The first fault of bytes that are not one whole message.
#[derive(Clone, Copy, Debug, PartialEq, Eq, Hash)]
pub struct Fault {
    /// Where the bad item or the surplus begins, in bytes from the first.
    pub offset: usize,
    /// What is wrong there.
    pub kind: FaultKind,
}

/// What is wrong with a message.
#[derive(Clone, Copy, Debug, PartialEq, Eq, Hash)]
#[non_exhaustive]
pub enum FaultKind {
    /// The bytes end before the root does, within this item: its header, its value or its padding. More bytes may help.
    Cut,
    /// The root is no Structure.
    NoStructure,
    /// The type code is unknown.
    UnknownType,
    /// Fewer than eight bytes are left in the Structure around, too few for a header.
    PartialHeader,
    /// No value of the type has this length.
    WrongLength,
    /// The item, with its padding, goes past the end of the Structure around.
    Overlong,
    /// The content is no value of the type: a Boolean that is neither 0 nor 1, a text that is not UTF-8.
    InvalidValue,
    /// More bytes follow the root.
    Surplus,
    /// A Structure in JSON has 2^32 bytes or more.
    TooLong,
    /// It is not JSON: a token can't stand there, or it ends too early.
    NotJson,
    /// It is JSON that nests more than 127 deep.
    TooDeep,
    /// An item in JSON is no object of exactly the members `tag`, `type` and `value`.
    NotItem,
    /// A tag in JSON is not `0x` and six hexadecimal digits.
    NotTag,
    /// A number that this crate doesn't know, of a later library.
    Other(u32),
}

/// What is wrong with an item that is to be written.
#[derive(Clone, Copy, Debug, PartialEq, Eq, Hash)]
#[non_exhaustive]
pub enum ItemFaultKind {
    /// No Structure before it contains it.
    NotInside,
    /// Its tag is 2^24 or more.
    LongTag,
    /// The code of its type is unknown.
    UnknownType,
    /// No value of the type has this length.
    WrongLength,
    /// Its value goes past the end of the bytes.
    Outside,
    /// The content is no value of the type.
    InvalidValue,
    /// With it a Structure has 2^32 bytes or more, or its value alone has.
    TooLong,
    /// A number that this crate doesn't know, of a later library.
    Other(u32),
}

impl From<raw::Fault> for Fault {
    fn from(found: raw::Fault) -> Fault {
        let kind = match found.kind {
            raw::CUT => FaultKind::Cut,
            raw::NO_STRUCTURE => FaultKind::NoStructure,
            raw::UNKNOWN_TYPE => FaultKind::UnknownType,
            raw::PARTIAL_HEADER => FaultKind::PartialHeader,
            raw::WRONG_LENGTH => FaultKind::WrongLength,
            raw::OVERLONG => FaultKind::Overlong,
            raw::INVALID_VALUE => FaultKind::InvalidValue,
            raw::SURPLUS => FaultKind::Surplus,
            raw::TOO_LONG => FaultKind::TooLong,
            raw::NOT_JSON => FaultKind::NotJson,
            raw::TOO_DEEP => FaultKind::TooDeep,
            raw::NOT_ITEM => FaultKind::NotItem,
            raw::NOT_TAG => FaultKind::NotTag,
            other => FaultKind::Other(other),
        };
        Fault { offset: found.offset, kind }
    }
}

impl From<raw::BadItem> for Error {
    fn from(found: raw::BadItem) -> Error {
        let kind = match found.kind {
            raw::NOT_INSIDE => ItemFaultKind::NotInside,
            raw::LONG_TAG => ItemFaultKind::LongTag,
            raw::UNKNOWN_TYPE => ItemFaultKind::UnknownType,
            raw::WRONG_LENGTH => ItemFaultKind::WrongLength,
            raw::OUTSIDE => ItemFaultKind::Outside,
            raw::INVALID_VALUE => ItemFaultKind::InvalidValue,
            raw::TOO_LONG => ItemFaultKind::TooLong,
            other => ItemFaultKind::Other(other),
        };
        Error::BadItem { index: found.index, kind }
    }
}

impl fmt::Display for FaultKind {
    fn fmt(&self, f: &mut fmt::Formatter<'_>) -> fmt::Result {
        f.write_str(match self {
            FaultKind::Cut => "the bytes end within the root",
            FaultKind::NoStructure => "the root is no Structure",
            FaultKind::UnknownType => "unknown type",
            FaultKind::PartialHeader => "fewer than eight bytes are left of the structure around",
            FaultKind::WrongLength => "the length is none of a value of the type",
            FaultKind::Overlong => "the item goes past the end of the structure around",
            FaultKind::InvalidValue => "the content is no value of the type",
            FaultKind::Surplus => "further bytes follow the root",
            FaultKind::TooLong => "with it a structure takes 2^32 bytes or more",
            FaultKind::NotJson => "not JSON",
            FaultKind::TooDeep => "nested more than 127 deep",
            FaultKind::NotItem => "an item without exactly tag, type and value",
            FaultKind::NotTag => "a tag is not 0x and six hexadecimal digits",
            FaultKind::Other(_) => "unknown fault",
        })
    }
}

impl fmt::Display for ItemFaultKind {
    fn fmt(&self, f: &mut fmt::Formatter<'_>) -> fmt::Result {
        f.write_str(match self {
            ItemFaultKind::NotInside => "no structure before it contains it",
            ItemFaultKind::LongTag => "its tag is no number below 2^24",
            ItemFaultKind::UnknownType => "unknown type",
            ItemFaultKind::WrongLength => "the length is none of a value of the type",
            ItemFaultKind::Outside => "its value goes past the end of the bytes",
            ItemFaultKind::InvalidValue => "the content is no value of the type",
            ItemFaultKind::TooLong => "with it a structure takes 2^32 bytes or more",
            ItemFaultKind::Other(_) => "unknown fault",
        })
    }
}

impl fmt::Display for Error {
    fn fmt(&self, f: &mut fmt::Formatter<'_>) -> fmt::Result {
        match self {
            Error::OutOfMemory => f.write_str("out of memory, or the text takes more than its limit"),
            Error::Malformed { fault, .. } => write!(f, "at byte {}: {}", fault.offset, fault.kind),
            Error::BadItem { index, kind } => write!(f, "item {index}: {kind}"),
            Error::BadNames { line } => write!(f, "line {line} of the table of names can't be read"),
        }
    }
}

impl std::error::Error for Error {}
