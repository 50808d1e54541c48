//! What serde makes of nodes, beside the JSON that is wanted of the same messages: rows of the file that KMIP_TTLV_ROWS names, as
//! `bindings/rust/tests/vectors.rs` explains them.

use kmip_ttlv::{decode, from_json, Node, Value};
use kmip_ttlv_serde::{Redacted, Whole, MAX_DEPTH, TOO_DEEP};
use serde::Serialize;
use std::fs;

fn decoded(digits: &str) -> Vec<u8> {
    (0..digits.len()).step_by(2).map(|at| u8::from_str_radix(&digits[at..at + 2], 16).unwrap()).collect()
}

fn parsed(line: &[u8]) -> serde_json::Value {
    serde_json::from_slice(line).unwrap()
}

fn made(it: &impl Serialize) -> serde_json::Value {
    parsed(&serde_json::to_vec(it).unwrap())
}

#[test]
fn rows() {
    let Some(path) = std::env::var("KMIP_TTLV_ROWS").ok() else {
        println!("left out: KMIP_TTLV_ROWS names no file");
        return;
    };
    let mut values = [0, 0];
    for line in fs::read_to_string(path).unwrap().lines() {
        let [test, member, _, input, _, _, wanted] = line.split('\t').collect::<Vec<_>>()[..] else { panic!("{line}") };
        let (hides, found) = match member {
            "printed_json" => (0, made(&Whole(&decode(&decoded(input)).unwrap()))),
            "printed_hidden_json" => (1, made(&Redacted(&decode(&decoded(input)).unwrap()))),
            _ => continue,
        };
        values[hides] += 1;
        assert_eq!(found, parsed(&decoded(wanted)), "{test}");
    }
    println!("vectors: {} values, 0 differ", values[0] + values[1]);
    assert!(values.iter().all(|it| *it > 0));
}

fn nested(depth: usize) -> Node {
    (1..depth).fold(Node::new(0x420078, Value::Structure(vec![])), |node, _| Node::new(0x420078, Value::Structure(vec![node])))
}

#[test]
fn as_deep_as_it_is_read() {
    let deepest = serde_json::to_string(&Whole(&nested(MAX_DEPTH))).unwrap();
    assert_eq!(decode(&from_json(&deepest).unwrap()).unwrap(), nested(MAX_DEPTH));
    for refused in [serde_json::to_string(&Whole(&nested(MAX_DEPTH + 1))), serde_json::to_string(&Redacted(&nested(100_000)))] {
        assert!(refused.unwrap_err().to_string().contains(TOO_DEEP));
    }
}

#[test]
fn each_type() {
    let values = vec![
        Value::Integer(-2),
        Value::LongInteger(-3),
        Value::BigInteger(vec![0, 255]),
        Value::Enumeration(4),
        Value::Boolean(true),
        Value::TextString("a\"\u{7f}".into()),
        Value::ByteString(vec![1, 171]),
        Value::DateTime(-1),
        Value::Interval(10),
    ];
    let node = Node::new(0x420078, Value::Structure(values.into_iter().map(|it| Node::new(0x420001, it)).collect()));
    let wanted = [
        ("Integer", "\"0xFFFFFFFE\""),
        ("LongInteger", "\"0xFFFFFFFFFFFFFFFD\""),
        ("BigInteger", "\"0x00FF\""),
        ("Enumeration", "\"0x00000004\""),
        ("Boolean", "true"),
        ("TextString", "\"a\\\"\u{7f}\""),
        ("ByteString", "\"01AB\""),
        ("DateTime", "\"0xFFFFFFFFFFFFFFFF\""),
        ("Interval", "\"0x0000000A\""),
    ];
    let items = |hides: bool| {
        let each = wanted.map(|(typ, value)| {
            let value = if hides && typ != "Enumeration" { "null" } else { value };
            format!("{{\"tag\":\"0x420001\",\"type\":\"{typ}\",\"value\":{value}}}")
        });
        format!("{{\"tag\":\"0x420078\",\"type\":\"Structure\",\"value\":[{}]}}", each.join(","))
    };
    assert_eq!(serde_json::to_string(&Whole(&node)).unwrap(), items(false));
    assert_eq!(serde_json::to_string(&Redacted(&node)).unwrap(), items(true));
}
