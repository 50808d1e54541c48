//! Worked messages, walks, errors, nodes, deep nesting, and ten thousand hostile messages.

use kmip_ttlv::*;

fn decoded(digits: &str) -> Vec<u8> {
    (0..digits.len()).step_by(2).map(|at| u8::from_str_radix(&digits[at..at + 2], 16).unwrap()).collect()
}

/// The protocol version 1.0, in a Structure of two Integers.
fn version_message() -> Vec<u8> {
    decoded("420069010000002042006A0200000004000000010000000042006B02000000040000000000000000")
}

fn version_node() -> Node {
    let parts = vec![Node::new(0x42006A, Value::Integer(1)), Node::new(0x42006B, Value::Integer(0))];
    Node::new(0x420069, Value::Structure(parts))
}

/// A Structure of one item: its type, its length and its value in hexadecimal.
fn around(item: &str) -> Vec<u8> {
    let item = decoded(&format!("420020{item}"));
    [&decoded("42002001")[..], &(item.len() as u32).to_be_bytes(), &item].concat()
}

/// Structures, each in the one before.
fn nested(depth: usize) -> Vec<u8> {
    (0..depth).flat_map(|at| [decoded("42002001"), ((8 * (depth - 1 - at)) as u32).to_be_bytes().to_vec()].concat()).collect()
}

const LIMIT: usize = usize::MAX;

#[test]
fn texts() {
    let message = version_message();
    let text = to_text(&message, false, LIMIT).unwrap();
    assert!(text.contains("Tag: Protocol Version Major (0x42006A), Type: Integer (0x02), Data: 0x000001 (1)\n"));
    let text = to_text_named(&message, "420069 Version", false, LIMIT).unwrap();
    assert!(text.starts_with("Tag: Version (0x420069), Type: Structure (0x01), Data:\n"));
    assert_eq!(to_diag(&message, "4200", false), Ok(Diagnostic { text: "69[6Ai6Bi]".into(), read: 3 }));
    assert_eq!(to_diag_checked(&message, "4200").as_deref(), Ok("69[6Ai6Bi]"));
    let lines = from_diag("69[6Ai6Bi]", "4200", "42006A Major", LIMIT).unwrap();
    assert!(lines.contains("  Tag: Major (0x42006A), Type: Integer (0x02), Data: <redacted>\n"));
    assert_eq!(version().trim_end_matches("-unproved"), env!("CARGO_PKG_VERSION"));
    for empty in [to_text(&[], false, LIMIT), to_text_named(&[], "", true, LIMIT), from_diag("", "", "", LIMIT)] {
        empty.unwrap();
    }
}

#[test]
fn texts_that_fail() {
    let message = version_message();
    assert_eq!(to_text_named(&message, "\nMajor", false, LIMIT), Err(Error::BadNames { line: 2 }));
    assert_eq!(from_diag("69[6Ai6Bi]", "4200", "\nMajor", LIMIT), Err(Error::BadNames { line: 2 }));
    assert_eq!(to_text(&message, false, 16), Err(Error::OutOfMemory));
    assert_eq!(to_text(&nested(10_000), false, usual_limit(80_000)), Err(Error::OutOfMemory));
    assert_eq!(from_diag("69[6Ai6Bi]", "4200", "", 16), Err(Error::OutOfMemory));
    let fault = Fault { offset: 24, kind: FaultKind::Cut };
    assert_eq!(to_diag_checked(&message[..39], ""), Err(Error::Malformed { fault, items: vec![] }));
    assert_eq!(check(&message[..39]).unwrap_err().to_string(), "at byte 24: the bytes end within the root");
}

#[test]
fn json() {
    let begins = r#"{"tag":"0x420023","type":"Structure","value":["#;
    let shown = |password: &str, kind: &str| {
        let secret = format!(r#"{{"tag":"0x4200A1","type":"TextString","value":{password}}}"#);
        format!(r#"{begins}{secret},{{"tag":"0x420024","type":"Enumeration","value":{kind}}}]}}"#)
    };
    let parts = vec![Node::new(0x4200A1, Value::TextString("p".into())), Node::new(0x420024, Value::Enumeration(1))];
    let message = encode(&Node::new(0x420023, Value::Structure(parts))).unwrap();
    let rows = [(Redact::Nothing, "\"p\""), (Redact::Secrets, "null"), (Redact::Values, "null")];
    for (redact, password) in rows {
        assert_eq!(to_json(&message, redact), Ok(shown(password, "\"0x00000001\"")));
    }
    assert_eq!(from_json(&to_json(&message, Redact::Nothing).unwrap()), Ok(message.clone()));
    assert_eq!(to_json(&message[..39], Redact::Values).map(|_| ()), check(&message[..39]));
    for (text, offset, kind) in
        [("", 0, FaultKind::NotJson), (" {}", 1, FaultKind::NotItem), (&begins.repeat(64), 63 * 46 + 45, FaultKind::TooDeep)]
    {
        assert_eq!(from_json(text), Err(Error::Malformed { fault: Fault { offset, kind }, items: vec![] }));
    }
}

#[test]
fn names() {
    assert_eq!(tag_name(0x420043).unwrap().as_deref(), Some("Key Material"));
    assert_eq!(value_name(0x42005C, 0x14).unwrap().as_deref(), Some("Destroy"));
    assert_eq!(mask_names(0x42002C, 12).unwrap().as_deref(), Some("Encrypt | Decrypt"));
    assert_eq!(mask_names(0x42002C, 0).unwrap().as_deref(), Some(""));
    for none in [tag_name(0x540001), tag_name(0x1420043), value_name(0x42005C, 0xFFFF), value_name(0x420069, 1), mask_names(0x42005C, 1)] {
        assert_eq!(none, Ok(None));
    }
}

#[test]
fn redacted_texts() {
    let text = to_redacted_text(&version_message(), LIMIT).unwrap();
    assert!(
        text.starts_with("Tag: Protocol Version (0x420069), Type: Structure (0x01), Data: \n  Tag: Protocol Version Major (0x42006A), ")
    );
    assert!(text.ends_with(", Type: Integer (0x02), Data: <redacted>"));
    assert_eq!(to_redacted_text(&version_message()[..39], LIMIT).map(|_| ()), check(&version_message()[..39]));
    assert_eq!(to_redacted_text(&version_message(), 16), Err(Error::OutOfMemory));
}

#[test]
fn lists_of_items() {
    let message = version_message();
    let found = items(&message).unwrap();
    assert_eq!(found.len(), 3);
    assert_eq!(found[2], Item { offset: 24, depth: 1, tag: 0x42006B, typ: 2, length: 4 });
    assert_eq!(write(&found, &message).as_deref(), Ok(&message[..]));
    assert_eq!(write(&[found[0], found[1], found[1], found[2]], &message).unwrap().len(), 56);
    assert_eq!(write(&[], &[]), Ok(vec![]));
    let fault = Fault { offset: 24, kind: FaultKind::Cut };
    assert_eq!(items(&message[..39]), Err(Error::Malformed { fault, items: found[..2].to_vec() }));
    assert_eq!(check(&message[..39]), Err(Error::Malformed { fault, items: vec![] }));
    assert_eq!(check(&message), Ok(()));
}

#[test]
fn faults() {
    let rows = [
        (decoded("42006901000000"), 0, FaultKind::Cut),
        (decoded("4200690100000008"), 8, FaultKind::Cut),
        (decoded("42006A02000000040000000100000000"), 0, FaultKind::NoStructure),
        (vec![0; 8], 0, FaultKind::UnknownType),
        (decoded("420020010000000400000000"), 8, FaultKind::PartialHeader),
        (around("02000000050000000000000000"), 8, FaultKind::WrongLength),
        (decoded("420020010000000842006A02000000040000000100000000"), 8, FaultKind::Overlong),
        (around("06000000080000000000000002"), 8, FaultKind::InvalidValue),
        (decoded("420069010000000042"), 8, FaultKind::Surplus),
    ];
    for (bytes, offset, kind) in rows {
        assert_eq!(check(&bytes), Err(Error::Malformed { fault: Fault { offset, kind }, items: vec![] }), "{kind}");
    }
}

#[test]
fn items_that_cannot_be_written() {
    let root = Item { offset: 0, depth: 0, tag: 0x420020, typ: 1, length: 0 };
    let good = Item { depth: 1, typ: 2, length: 4, ..root };
    let rows = [
        (Item { depth: 2, ..good }, ItemFaultKind::NotInside),
        (Item { tag: 1 << 24, ..good }, ItemFaultKind::LongTag),
        (Item { typ: 11, ..good }, ItemFaultKind::UnknownType),
        (Item { length: 5, ..good }, ItemFaultKind::WrongLength),
        (Item { offset: 13, ..good }, ItemFaultKind::Outside),
        (Item { offset: usize::MAX, ..good }, ItemFaultKind::Outside),
        (Item { typ: 6, length: 8, ..good }, ItemFaultKind::InvalidValue),
    ];
    for (item, kind) in rows {
        assert_eq!(write(&[root, good, item], &[2; 24]), Err(Error::BadItem { index: 2, kind }));
    }
    let bad = Node::new(0x420020, Value::Structure(vec![Node::new(1 << 24, Value::Boolean(true))]));
    assert_eq!(encode(&bad).unwrap_err().to_string(), "item 1: its tag is no number below 2^24");
}

#[test]
fn nodes() {
    let (message, node) = (version_message(), version_node());
    assert_eq!(decode(&message).as_ref(), Ok(&node));
    assert_eq!(encode(&node), Ok(message.clone()));
    let depths: Vec<_> = node.walk().map(|(depth, it)| (depth, it.tag & 0xFF)).collect();
    assert_eq!(depths, [(0, 0x69), (1, 0x6A), (1, 0x6B)]);
    assert_ne!(node, Node::new(0x420069, Value::Structure(vec![])));
    assert_ne!(node, Node::new(0x420069, Value::Structure(node.value.nodes()[..1].to_vec())));
    assert_eq!(node.clone().into_value(), node.value);
    assert!(matches!(decode(&message[..39]), Err(Error::Malformed { items, .. }) if items.len() == 2));
}

/// Of these no two are the same: in tags, types, values, and how they nest.
#[test]
fn nodes_that_differ() {
    let leaf = || Node::new(2, Value::Integer(1));
    let structure = |nodes| Node::new(1, Value::Structure(nodes));
    let nodes = [
        leaf(),
        Node::new(1, Value::Integer(1)),
        Node::new(2, Value::Integer(2)),
        Node::new(2, Value::Enumeration(1)),
        Node::new(2, Value::Structure(vec![])),
        structure(vec![]),
        structure(vec![leaf()]),
        structure(vec![leaf(), leaf()]),
        structure(vec![structure(vec![]), leaf()]),
        structure(vec![structure(vec![leaf()])]),
        structure(vec![leaf(), structure(vec![])]),
    ];
    for (at, one) in nodes.iter().enumerate() {
        for (other, two) in nodes.iter().enumerate() {
            assert_eq!(one == two, at == other, "{one:?} {two:?}");
        }
        assert_eq!(&one.clone(), one);
    }
}

/// The standard's examples of encodings (9.1.2), and values at the ends of their ranges.
#[test]
fn values() {
    let big = decoded("0000000003FD35EB6BC2DF4618080000");
    let rows = [
        ("020000000400000008 00000000", Value::Integer(8)),
        ("0200000004FFFFFFFF 00000000", Value::Integer(-1)),
        ("030000000801B69B4BA5749200", Value::LongInteger(123456789000000000)),
        ("04000000100000000003FD35EB6BC2DF4618080000", Value::BigInteger(big)),
        ("0500000004000000FF 00000000", Value::Enumeration(255)),
        ("0500000004FFFFFFFF 00000000", Value::Enumeration(u32::MAX)),
        ("06000000080000000000000001", Value::Boolean(true)),
        ("06000000080000000000000000", Value::Boolean(false)),
        ("070000000B48656C6C6F20576F726C640000000000", Value::TextString("Hello World".into())),
        ("08000000030102030000000000", Value::ByteString(vec![1, 2, 3])),
        ("09000000080000000047DA67F8", Value::DateTime(1205495800)),
        ("09000000088000000000000000", Value::DateTime(i64::MIN)),
        ("0A00000004000D2F00 00000000", Value::Interval(10 * 24 * 60 * 60)),
        ("0100000000", Value::Structure(vec![])),
    ];
    for (item, value) in rows {
        let message = around(&item.replace(' ', ""));
        let root = Node::new(0x420020, Value::Structure(vec![Node::new(0x420020, value)]));
        assert_eq!(decode(&message).as_ref(), Ok(&root));
        assert_eq!(encode(&root), Ok(message));
    }
}

/// No value is shown but those of Enumerations.
#[test]
fn what_is_shown() {
    let secret = Node::new(0x420043, Value::ByteString(b"0123456789".to_vec()));
    let inner = Node::new(0x420045, Value::Structure(vec![secret.clone(), Node::new(0x420042, Value::Enumeration(1))]));
    let root = Node::new(0x420040, Value::Structure(vec![inner, secret.clone(), Node::new(0x420008, Value::Structure(vec![])), secret]));
    let key = "0x420043 ByteString";
    assert_eq!(format!("{root:?}"), format!("0x420040 [0x420045 [{key}, 0x420042 Enumeration 0x00000001], {key}, 0x420008 [], {key}]"));
    assert_eq!(format!("{:?}", version_node().value), "[0x42006A Integer, 0x42006B Integer]");
    assert_eq!(format!("{:?}", Value::TextString("key".into())), "TextString");
}

/// Decoding, encoding, comparing, cloning, printing and dropping take no stack.
#[test]
fn deep_nodes() {
    let depth = 300_000;
    let message = nested(depth);
    let node = decode(&message).unwrap();
    assert_eq!(node.walk().last().map(|(depth, _)| depth), Some(depth - 1));
    let copy = node.clone();
    assert!(copy == node);
    assert_eq!(format!("{copy:?}").len(), (depth * "0x420020 []".len()));
    drop(copy);
    assert_eq!(encode(&node), Ok(message));
}

#[test]
fn hostile_bytes() {
    let message = version_message();
    let mut seed = 20251123u64;
    for _ in 0..10_000 {
        let mut bytes = message.clone();
        seed = seed.wrapping_mul(6364136223846793005).wrapping_add(1442695040888963407);
        bytes.truncate((seed >> 33) as usize % (message.len() + 1));
        if !bytes.is_empty() {
            let at = (seed >> 20) as usize % bytes.len();
            bytes[at] ^= 1 << (seed >> 61);
        }
        let fault = check(&bytes).err();
        assert_eq!(fault.is_some(), items(&bytes).is_err());
        assert_eq!(to_diag_checked(&bytes, "4200").err(), fault);
        if let Ok(node) = decode(&bytes) {
            assert_eq!(decode(&encode(&node).unwrap()), Ok(node));
        }
        to_diag(&bytes, "4200", false).unwrap();
        to_text(&bytes, false, usual_limit(bytes.len())).unwrap();
    }
}
