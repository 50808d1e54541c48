//! The tests that are data (docs/VECTORS.md in the repository), as rows that `vectors.py` of the C library's callers prints into the file
//! that KMIP_TTLV_ROWS names. A row is a line: the test, the member and a number, and in hexadecimal the input, a prefix of tags, a table
//! of names and what is wanted, with tabs between.

use kmip_ttlv::*;
use std::fs;
use std::path::Path;

const LIMIT: usize = usize::MAX;

fn decoded(digits: &str) -> Vec<u8> {
    (0..digits.len()).step_by(2).map(|at| u8::from_str_radix(&digits[at..at + 2], 16).unwrap()).collect()
}

/// A kind of fault as the tests call it.
fn kind_of(fault: Fault) -> &'static str {
    match fault.kind {
        FaultKind::Cut => "cut",
        FaultKind::NoStructure => "no_structure",
        FaultKind::UnknownType => "unknown_type",
        FaultKind::PartialHeader => "partial_header",
        FaultKind::WrongLength => "wrong_length",
        FaultKind::Overlong => "overlong",
        FaultKind::InvalidValue => "invalid_value",
        FaultKind::Surplus => "surplus",
        FaultKind::TooLong => "too_long",
        FaultKind::NotJson => "not_json",
        FaultKind::TooDeep => "too_deep",
        FaultKind::NotItem => "not_item",
        FaultKind::NotTag => "not_tag",
        _ => "other",
    }
}

/// The first fault, as each call has it that refuses other bytes than one whole message, and how many items come before it.
fn walked(bytes: &[u8]) -> (Option<Fault>, usize) {
    let fault_of = |failed: Option<Error>| match failed {
        None => None,
        Some(Error::Malformed { fault, items }) => Some((fault, items)),
        Some(other) => panic!("{other}"),
    };
    let (checked, shown) = (fault_of(check(bytes).err()), fault_of(to_diag_checked(bytes, "").err()));
    let (listed, nodes) = (items(bytes), fault_of(decode(bytes).err()));
    let count = listed.as_ref().map_or_else(|_| nodes.as_ref().map_or(0, |it| it.1.len()), Vec::len);
    let fault = checked.map(|it| it.0);
    assert_eq!((shown.map(|it| it.0), nodes.as_ref().map(|it| it.0)), (fault, fault));
    assert_eq!(fault_of(listed.err()), nodes);
    (fault, count)
}

/// The number that a row of a test has, and what is wanted: the member of the bytes, or of the diagnostic, a prefix and a table.
fn found(member: &str, bytes: &[u8], prefix: &str, names: &str) -> (usize, Vec<u8>) {
    let diagnostic = |open_empty| to_diag(bytes, prefix, open_empty).map(|it| (it.read, it.text.into_bytes())).unwrap();
    let is_cut = || walked(bytes).0.map(kind_of) == Some("cut") && to_diag(bytes, "", false).unwrap().text.ends_with("ERR");
    match member {
        "fault" => walked(bytes).0.map_or((0, "whole".into()), |it| (it.offset, kind_of(it).into())),
        "items" => (walked(bytes).1, vec![]),
        "cut" => (0, if is_cut() { "cut".into() } else { vec![] }),
        "bad_line" => match to_text_named(bytes, names, false, LIMIT) {
            Err(Error::BadNames { line }) => (line, vec![]),
            _ => (0, vec![]),
        },
        "printed_json" => (0, to_json(bytes, Redact::Nothing).unwrap().into()),
        "printed_hidden_json" => (0, to_json(bytes, Redact::Values).unwrap().into()),
        "read_json" => (0, from_json(std::str::from_utf8(bytes).unwrap()).unwrap()),
        "bad_json" => match from_json(std::str::from_utf8(bytes).unwrap()) {
            Err(Error::Malformed { fault, .. }) => (fault.offset, kind_of(fault).into()),
            _ => (0, vec![]),
        },
        "redacted_text" => (0, to_redacted_text(bytes, LIMIT).unwrap().into()),
        "standard_text" => (0, to_text(bytes, false, LIMIT).unwrap().into()),
        "text" | "closed_text" => (0, to_text_named(bytes, names, member == "text", LIMIT).unwrap().into()),
        "diagnostic" | "closed_diagnostic" => diagnostic(member == "diagnostic"),
        "checked_diagnostic" => (0, to_diag_checked(bytes, prefix).unwrap().into()),
        "lines" => (0, from_diag(std::str::from_utf8(bytes).unwrap(), prefix, names, LIMIT).unwrap().into()),
        "canonical" => {
            assert_eq!(encode(&decode(bytes).unwrap()), write(&items(bytes).unwrap(), bytes));
            (0, write(&items(bytes).unwrap(), bytes).unwrap())
        }
        "json" => (0, json(&decode(bytes).unwrap()).into()),
        _ => panic!("{member}"),
    }
}

/// The JSON of a node, which says of each value how it was decoded.
fn json(node: &Node) -> String {
    let hexadecimal = |bytes: &[u8]| bytes.iter().map(|it| format!("{it:02X}")).collect::<String>();
    let (typ, value) = match &node.value {
        Value::Structure(nodes) => ("Structure", format!("[{}]", nodes.iter().map(json).collect::<Vec<_>>().join(","))),
        Value::Integer(it) => ("Integer", format!("\"0x{it:08X}\"")),
        Value::LongInteger(it) => ("LongInteger", format!("\"0x{it:016X}\"")),
        Value::BigInteger(it) => ("BigInteger", format!("\"0x{}\"", hexadecimal(it))),
        Value::Enumeration(it) => ("Enumeration", format!("\"0x{it:08X}\"")),
        Value::Boolean(it) => ("Boolean", it.to_string()),
        Value::TextString(it) => ("TextString", format!("\"{}\"", it.chars().map(escaped).collect::<String>())),
        Value::ByteString(it) => ("ByteString", format!("\"{}\"", hexadecimal(it))),
        Value::DateTime(it) => ("DateTime", format!("\"0x{it:016X}\"")),
        Value::Interval(it) => ("Interval", format!("\"0x{it:08X}\"")),
    };
    format!("{{\"tag\":\"0x{:06X}\",\"type\":\"{typ}\",\"value\":{value}}}", node.tag)
}

fn escaped(character: char) -> String {
    match character {
        '"' | '\\' => format!("\\{character}"),
        '\n' => "\\n".into(),
        '\r' => "\\r".into(),
        '\t' => "\\t".into(),
        '\u{8}' => "\\b".into(),
        '\u{c}' => "\\f".into(),
        other if other.is_control() => format!("\\u{:04x}", other as u32),
        other => other.into(),
    }
}

#[test]
fn rows() {
    let Some(path) = std::env::var("KMIP_TTLV_ROWS").ok().filter(|it| Path::new(it).exists()) else {
        println!("left out: KMIP_TTLV_ROWS names no file");
        return;
    };
    let (mut values, mut differ) = (0, 0);
    for line in fs::read_to_string(path).unwrap().lines() {
        let [test, member, number, input, prefix, names, wanted] = line.split('\t').collect::<Vec<_>>()[..] else { panic!("{line}") };
        let wanted = (number.parse().unwrap(), decoded(wanted));
        let [prefix, names] = [prefix, names].map(|it| String::from_utf8(decoded(it)).unwrap());
        values += 1;
        if found(member, &decoded(input), &prefix, &names) != wanted {
            differ += 1;
            println!("{test}: {member}: differs");
        }
    }
    println!("vectors: {values} values, {differ} differ");
    assert!(values > 0 && differ == 0);
}
