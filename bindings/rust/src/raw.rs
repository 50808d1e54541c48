//! What the header of the C library declares. `header.py` beside the other callers compares it with the library's sources.

use std::os::raw::c_uchar;

/// An item of a message.
#[repr(C)]
#[derive(Clone, Copy, Debug, Default, PartialEq, Eq, Hash)]
pub struct Item {
    /// Where its header begins, in bytes from the first; its value begins 8 bytes later.
    pub offset: usize,
    /// How many Structures it is in: 0 for the root.
    pub depth: usize,
    /// Its tag, below 2^24.
    pub tag: u32,
    /// The code of its type, from 1, a Structure, to 10, an Interval.
    pub typ: u32,
    /// The length of its value in bytes, without padding.
    pub length: u32,
}

/// The first fault of bytes, as the C library says it.
#[repr(C)]
#[derive(Clone, Copy, Default)]
pub struct Fault {
    pub offset: usize,
    pub kind: u32,
}

/// The first item that can't be written, as the C library says it.
#[repr(C)]
#[derive(Clone, Copy, Default)]
pub struct BadItem {
    pub index: usize,
    pub kind: u32,
}

pub const OK: u32 = 0;
pub const OUT_OF_MEMORY: u32 = 1;
pub const NO_ROOM: u32 = 3;
pub const MALFORMED: u32 = 4;
pub const BAD_NAMES: u32 = 5;
pub const NO_NAME: u32 = 7;

pub const CUT: u32 = 1;
pub const NO_STRUCTURE: u32 = 2;
pub const UNKNOWN_TYPE: u32 = 3;
pub const PARTIAL_HEADER: u32 = 4;
pub const WRONG_LENGTH: u32 = 5;
pub const OVERLONG: u32 = 6;
pub const INVALID_VALUE: u32 = 7;
pub const SURPLUS: u32 = 8;
pub const NOT_INSIDE: u32 = 9;
pub const LONG_TAG: u32 = 10;
pub const OUTSIDE: u32 = 11;
pub const TOO_LONG: u32 = 12;
pub const NOT_JSON: u32 = 13;
pub const TOO_DEEP: u32 = 14;
pub const NOT_ITEM: u32 = 15;
pub const NOT_TAG: u32 = 16;

pub const SHOW_ALL: u32 = 0;
pub const REDACT_SECRETS: u32 = 1;
pub const REDACT_VALUES: u32 = 2;

pub const STRUCTURE: u32 = 1;
pub const INTEGER: u32 = 2;
pub const LONG_INTEGER: u32 = 3;
pub const BIG_INTEGER: u32 = 4;
pub const ENUMERATION: u32 = 5;
pub const BOOLEAN: u32 = 6;
pub const TEXT_STRING: u32 = 7;
pub const BYTE_STRING: u32 = 8;
pub const DATE_TIME: u32 = 9;
pub const INTERVAL: u32 = 10;

#[rustfmt::skip]
extern "C" {
    pub fn kmip_ttlv_to_diag(bytes: *const c_uchar, bytes_len: usize, prefix: *const c_uchar, prefix_len: usize,
        open_empty: bool, out: *mut c_uchar, room: usize, length: *mut usize, items: *mut usize) -> u32;
    pub fn kmip_ttlv_to_diag_checked(bytes: *const c_uchar, bytes_len: usize, prefix: *const c_uchar, prefix_len: usize,
        out: *mut c_uchar, room: usize, length: *mut usize, fault: *mut Fault) -> u32;
    pub fn kmip_ttlv_to_standard_text(bytes: *const c_uchar, bytes_len: usize, open_empty: bool, limit: usize,
        out: *mut c_uchar, room: usize, length: *mut usize) -> u32;
    pub fn kmip_ttlv_to_text(bytes: *const c_uchar, bytes_len: usize, names: *const c_uchar, names_len: usize,
        open_empty: bool, limit: usize, out: *mut c_uchar, room: usize, length: *mut usize, bad_line: *mut usize) -> u32;
    pub fn kmip_ttlv_to_redacted_text(bytes: *const c_uchar, bytes_len: usize, limit: usize, out: *mut c_uchar, room: usize,
        length: *mut usize, fault: *mut Fault) -> u32;
    pub fn kmip_ttlv_from_diag(diagnostic: *const c_uchar, diagnostic_len: usize, prefix: *const c_uchar,
        prefix_len: usize, names: *const c_uchar, names_len: usize, limit: usize, out: *mut c_uchar, room: usize,
        length: *mut usize, bad_line: *mut usize) -> u32;
    pub fn kmip_ttlv_to_json(bytes: *const c_uchar, bytes_len: usize, redact: u32, out: *mut c_uchar, room: usize,
        length: *mut usize, fault: *mut Fault) -> u32;
    pub fn kmip_ttlv_from_json(text: *const c_uchar, text_len: usize, out: *mut c_uchar, room: usize, length: *mut usize,
        fault: *mut Fault) -> u32;
    pub fn kmip_ttlv_tag_name(tag: u32, out: *mut c_uchar, room: usize, length: *mut usize) -> u32;
    pub fn kmip_ttlv_value_name(tag: u32, value: u32, out: *mut c_uchar, room: usize, length: *mut usize) -> u32;
    pub fn kmip_ttlv_mask_names(tag: u32, mask: u32, out: *mut c_uchar, room: usize, length: *mut usize) -> u32;
    pub fn kmip_ttlv_items(bytes: *const c_uchar, bytes_len: usize, items: *mut Item, room: usize, count: *mut usize,
        fault: *mut Fault) -> u32;
    pub fn kmip_ttlv_check(bytes: *const c_uchar, bytes_len: usize, fault: *mut Fault) -> u32;
    pub fn kmip_ttlv_write(items: *const Item, count: usize, bytes: *const c_uchar, bytes_len: usize, out: *mut c_uchar,
        room: usize, length: *mut usize, bad: *mut BadItem) -> u32;
    pub fn kmip_ttlv_version(out: *mut c_uchar, room: usize, length: *mut usize) -> u32;
}
