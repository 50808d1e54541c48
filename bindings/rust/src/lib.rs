//! TTLV, the encoding of OASIS KMIP: prints, redacts, lists, checks, decodes and encodes messages, as JSON too, by the C library kmip_ttlv.
//!
//! Offsets and lengths are in bytes. Every call can fail with [`Error::OutOfMemory`].
//!
//! `open_empty` is whether an empty Structure stays open until the one around it ends, as in the texts of the crate kmip-ttlv; pass
//! `false` unless you compare with these. `limit` is how many bytes of memory the library may hold to make a text, since a text can grow
//! with the square of the depth: [`usual_limit`], or `usize::MAX`.

#![deny(unsafe_op_in_unsafe_fn)]

mod error;
mod node;
#[allow(missing_docs)]
mod raw;

pub use error::{Error, Fault, FaultKind, ItemFaultKind};
pub use node::{decode, encode, Node, Value, Walk};
pub use raw::Item;

/// A diagnostic: tags, types, nesting and the values of Enumerations.
#[derive(Clone, Debug, PartialEq, Eq, Hash)]
pub struct Diagnostic {
    /// The text.
    pub text: String,
    /// How many items the call tried to read.
    pub read: usize,
}

/// Which values [`to_json`] hides: `null` stands in their place.
#[derive(Clone, Copy, Debug, PartialEq, Eq, Hash)]
pub enum Redact {
    /// None.
    Nothing,
    /// Those of secret tags, whose items can hold a key, data to encrypt or decrypt, or proof of identity, and of all items in them.
    Secrets,
    /// All but those of Enumerations.
    Values,
}

/// What is enough memory for the text of a message, or of a diagnostic, of so many bytes that doesn't nest deep.
pub fn usual_limit(length: usize) -> usize {
    length.saturating_mul(512).saturating_add(1 << 20)
}

/// The error of a status that no call has a further word for.
fn plain(status: u32) -> Error {
    debug_assert_eq!(status, raw::OUT_OF_MEMORY);
    Error::OutOfMemory
}

/// The error of a status that has a fault, if that is what it says.
fn faulty(status: u32, fault: raw::Fault) -> Error {
    match status {
        raw::MALFORMED => Error::Malformed { fault: fault.into(), items: Vec::new() },
        status => plain(status),
    }
}

/// Calls with a buffer of `room` bytes, and with one as large as is asked for, and returns what was written.
fn filled(mut room: usize, mut call: impl FnMut(*mut u8, usize, &mut usize) -> u32) -> Result<Vec<u8>, u32> {
    loop {
        let (mut out, mut length) = (vec![0; room], 0);
        match call(out.as_mut_ptr(), room, &mut length) {
            raw::OK => {
                out.truncate(length);
                return Ok(out);
            }
            raw::NO_ROOM => room = length,
            status => return Err(status),
        }
    }
}

/// The same of a text.
fn text(room: usize, call: impl FnMut(*mut u8, usize, &mut usize) -> u32) -> Result<String, u32> {
    filled(room, call).map(|out| String::from_utf8(out).expect("the library writes UTF-8"))
}

/// Checks that bytes are one whole message.
///
/// # Errors
///
/// `Malformed`, without items, if they aren't.
pub fn check(bytes: &[u8]) -> Result<(), Error> {
    let mut fault = raw::Fault::default();
    // SAFETY: the pointer and the length are those of a slice, whose pointer is never null, and `fault` is a place of its own.
    match unsafe { raw::kmip_ttlv_check(bytes.as_ptr(), bytes.len(), &mut fault) } {
        raw::OK => Ok(()),
        status => Err(faulty(status, fault)),
    }
}

/// Lists the items of one whole message, in document order.
///
/// # Errors
///
/// `Malformed`, with the items before the fault, for any other bytes.
pub fn items(bytes: &[u8]) -> Result<Vec<Item>, Error> {
    // a message of n bytes has at most n / 8 items
    let mut items = vec![Item::default(); bytes.len() / 8 + 1];
    let (mut count, mut fault) = (0, raw::Fault::default());
    // SAFETY: as in `check`; and the list has as many items as its room says.
    let status = unsafe { raw::kmip_ttlv_items(bytes.as_ptr(), bytes.len(), items.as_mut_ptr(), items.len(), &mut count, &mut fault) };
    items.truncate(count);
    match status {
        raw::OK => Ok(items),
        raw::MALFORMED => Err(Error::Malformed { fault: fault.into(), items }),
        status => Err(plain(status)),
    }
}

/// Writes items, as [`items`] lists them, whose values are in `bytes`, as canonical bytes. An item belongs to the last Structure before
/// it of one depth less; `offset` and `length` of a Structure are ignored.
///
/// # Errors
///
/// `BadItem` for the first item that can't be written.
pub fn write(items: &[Item], bytes: &[u8]) -> Result<Vec<u8>, Error> {
    let mut bad = raw::BadItem::default();
    // SAFETY: pointers and lengths are those of slices, and the rest are places of their own.
    let made = filled(bytes.len() + 16 * items.len(), |out, room, length| unsafe {
        raw::kmip_ttlv_write(items.as_ptr(), items.len(), bytes.as_ptr(), bytes.len(), out, room, length, &mut bad)
    });
    made.map_err(|_| bad.into())
}

/// Prints any bytes as a redacted diagnostic, whose tags don't have the digits `prefix` in front. Check first: in malformed bytes those of
/// a key may stand where a tag is expected; or take [`to_diag_checked`].
///
/// # Errors
///
/// None but `OutOfMemory`. The text ends with `ERR` where an item can't be read.
pub fn to_diag(bytes: &[u8], prefix: &str, open_empty: bool) -> Result<Diagnostic, Error> {
    let mut read = 0;
    // SAFETY: as in `write`.
    let made = text(bytes.len() + 64, |out, room, length| unsafe {
        raw::kmip_ttlv_to_diag(bytes.as_ptr(), bytes.len(), prefix.as_ptr(), prefix.len(), open_empty, out, room, length, &mut read)
    });
    made.map(|text| Diagnostic { text, read }).map_err(plain)
}

/// Prints one whole message as a redacted diagnostic, in which empty Structures are closed.
///
/// # Errors
///
/// `Malformed`, without items, for any other bytes: nothing is shown of them.
pub fn to_diag_checked(bytes: &[u8], prefix: &str) -> Result<String, Error> {
    let mut fault = raw::Fault::default();
    // SAFETY: as in `write`.
    let made = text(bytes.len() + 64, |out, room, length| unsafe {
        raw::kmip_ttlv_to_diag_checked(bytes.as_ptr(), bytes.len(), prefix.as_ptr(), prefix.len(), out, room, length, &mut fault)
    });
    made.map_err(|status| faulty(status, fault))
}

/// Prints any bytes as readable text with every value, and the names of KMIP's tags. Texts keep their control characters: escape them
/// before you print them.
///
/// # Errors
///
/// `OutOfMemory`, also if the text takes more than `limit`. It ends with a line `ERROR: ..` where an item can't be read.
pub fn to_text(bytes: &[u8], open_empty: bool, limit: usize) -> Result<String, Error> {
    // SAFETY: as in `write`.
    let made = text(4 * bytes.len() + 256, |out, room, length| unsafe {
        raw::kmip_ttlv_to_standard_text(bytes.as_ptr(), bytes.len(), open_empty, limit, out, room, length)
    });
    made.map_err(plain)
}

/// The same with the names of a table, of which each line is a tag's digits, a space and its name.
///
/// # Errors
///
/// As of [`to_text`]; and `BadNames` for the first line of the table that can't be read.
pub fn to_text_named(bytes: &[u8], names: &str, open_empty: bool, limit: usize) -> Result<String, Error> {
    let mut line = 0;
    // SAFETY: as in `write`.
    let made = text(4 * bytes.len() + 256, |out, room, length| unsafe {
        let (from, names_from) = (bytes.as_ptr(), names.as_ptr());
        raw::kmip_ttlv_to_text(from, bytes.len(), names_from, names.len(), open_empty, limit, out, room, length, &mut line)
    });
    made.map_err(|status| if status == raw::BAD_NAMES { Error::BadNames { line } } else { plain(status) })
}

/// Reads a diagnostic under a prefix back as lines, with the names of a table, which may be empty. It ends where the text stops being a
/// diagnostic, and has `<redacted>` in place of the values that a diagnostic doesn't show.
///
/// # Errors
///
/// As of [`to_text_named`].
pub fn from_diag(diagnostic: &str, prefix: &str, names: &str, limit: usize) -> Result<String, Error> {
    let mut line = 0;
    // SAFETY: as in `write`.
    let made = text(8 * diagnostic.len() + 256, |out, room, length| unsafe {
        let (text, prefix_from, table) = (diagnostic.as_ptr(), prefix.as_ptr(), names.as_ptr());
        let (text_len, prefix_len) = (diagnostic.len(), prefix.len());
        raw::kmip_ttlv_from_diag(text, text_len, prefix_from, prefix_len, table, names.len(), limit, out, room, length, &mut line)
    });
    made.map_err(|status| if status == raw::BAD_NAMES { Error::BadNames { line } } else { plain(status) })
}

/// Prints one whole message as readable text without any value but those of Enumerations, and with the names of KMIP's tags.
///
/// # Errors
///
/// `Malformed`, without items, for any other bytes: nothing is shown of them. `OutOfMemory`, also if the text takes more than `limit`.
pub fn to_redacted_text(bytes: &[u8], limit: usize) -> Result<String, Error> {
    let mut fault = raw::Fault::default();
    // SAFETY: as in `write`.
    let made = text(4 * bytes.len() + 256, |out, room, length| unsafe {
        raw::kmip_ttlv_to_redacted_text(bytes.as_ptr(), bytes.len(), limit, out, room, length, &mut fault)
    });
    made.map_err(|status| faulty(status, fault))
}

/// Prints one whole message as JSON (OASIS "KMIP Additional Message Encodings", in hexadecimal forms), in one line without a line feed.
///
/// # Errors
///
/// `Malformed`, without items, for any other bytes.
pub fn to_json(bytes: &[u8], redact: Redact) -> Result<String, Error> {
    let mut fault = raw::Fault::default();
    let hidden = match redact {
        Redact::Nothing => raw::SHOW_ALL,
        Redact::Secrets => raw::REDACT_SECRETS,
        Redact::Values => raw::REDACT_VALUES,
    };
    // SAFETY: as in `write`.
    let made = text(8 * bytes.len() + 64, |out, room, length| unsafe {
        raw::kmip_ttlv_to_json(bytes.as_ptr(), bytes.len(), hidden, out, room, length, &mut fault)
    });
    made.map_err(|status| faulty(status, fault))
}

/// Reads a message from JSON, in any form of OASIS's encoding, as that of [`to_json`] or with names, and returns its canonical bytes.
///
/// # Errors
///
/// `Malformed`, without items, for any other text; the fault's offset is in the text.
pub fn from_json(json: &str) -> Result<Vec<u8>, Error> {
    let mut fault = raw::Fault::default();
    // SAFETY: as in `write`.
    let made = filled(json.len() / 2 + 64, |out, room, length| unsafe {
        raw::kmip_ttlv_from_json(json.as_ptr(), json.len(), out, room, length, &mut fault)
    });
    made.map_err(|status| faulty(status, fault))
}

/// What a call for names wrote, if there is a name.
fn name(made: Result<String, u32>) -> Result<Option<String>, Error> {
    match made {
        Ok(name) => Ok(Some(name)),
        Err(raw::NO_NAME) => Ok(None),
        Err(status) => Err(plain(status)),
    }
}

/// The name that the KMIP specifications give a tag, if any. The library makes a table for each call: keep what is asked for often.
///
/// # Errors
///
/// None but `OutOfMemory`.
pub fn tag_name(tag: u32) -> Result<Option<String>, Error> {
    // SAFETY: as in `write`.
    name(text(64, |out, room, length| unsafe { raw::kmip_ttlv_tag_name(tag, out, room, length) }))
}

/// The name that they give a value of the Enumeration with this tag, if any.
///
/// # Errors
///
/// None but `OutOfMemory`.
pub fn value_name(tag: u32, value: u32) -> Result<Option<String>, Error> {
    // SAFETY: as in `write`.
    name(text(64, |out, room, length| unsafe { raw::kmip_ttlv_value_name(tag, value, out, room, length) }))
}

/// The names that they give the bits that are set in a mask with this tag, as `Encrypt | Decrypt`; none if it is the tag of no mask.
///
/// # Errors
///
/// None but `OutOfMemory`.
pub fn mask_names(tag: u32, mask: u32) -> Result<Option<String>, Error> {
    // SAFETY: as in `write`.
    name(text(256, |out, room, length| unsafe { raw::kmip_ttlv_mask_names(tag, mask, out, room, length) }))
}

/// The version of the C library: that of this crate, and `-unproved` behind it if nothing was proved.
pub fn version() -> String {
    // SAFETY: as in `write`.
    text(32, |out, room, length| unsafe { raw::kmip_ttlv_version(out, room, length) }).expect("a version needs no memory")
}
