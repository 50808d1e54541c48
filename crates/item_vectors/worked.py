#!/usr/bin/env python3
"""The rows of src/rows.rt: XML as the standard writes it, and bytes by an encoder written apart.

    worked.py           writes that file; run `rt fmt` behind it
    worked.py --check   writes nothing, and says whether the file has other rows. The status is 1 then.
"""
import os
import re
import sys
S, I, L, B, E, T, X, O, D, V = 1, 2, 3, 4, 5, 6, 7, 8, 9, 10


def item(tag, typ, value):
    if typ == S:
        content = b"".join(item(*below) for below in value)
    elif typ in (I, E, V):
        content = (value % 2**32).to_bytes(4, "big")
    elif typ in (L, T, D):
        content = (value % 2**64).to_bytes(8, "big")
    elif typ == X:
        content = value.encode()
    else:
        content = bytes.fromhex(value)
    return bytes.fromhex(tag) + bytes([typ]) + len(content).to_bytes(4, "big") + content + bytes(-len(content) % 8)


def leaf(typ, text):
    return f'<TTLV tag="0x540001" type="{typ}" value="{text}"/>'


version = ("420069", S, [("42006A", I, 1), ("42006B", I, 0)])
header = '<ProtocolVersion><ProtocolVersionMajor type="Integer" value="1"/><ProtocolVersionMinor type="Integer" value="0"/></ProtocolVersion>'
rows = [
    ("<ProtocolVersion/>", [("420069", S, [])]),
    ('<ProtocolVersion type="Structure"></ProtocolVersion>', [("420069", S, [])]),
    (header, [version]),
    ('<?xml version="1.0"?>\n<!-- a test -->\n<KMIP>\n  ' + header + "\n  <BatchCount type='Integer' value='0x00000002'/>\n</KMIP>\n",
     [version, ("42000D", I, 2)]),
    ("<KMIP/>", []),
    ('<BatchCount xmlns="urn:oasis:tc:kmip:xmlns" value="-3" type="Integer"/>', [("42000D", I, -3)]),
    ('<TTLV tag="0x54abCD" name="Mine" type="Integer" value="2147483647"/>', [("54ABCD", I, 2**31 - 1)]),
    ('<TTLV tag="BatchCount" type="Integer" value="-2147483648"/>', [("42000D", I, -2**31)]),
    ('<CryptographicUsageMask type="Integer" value="Sign Verify"/>', [("42002C", I, 3)]),
    ('<CryptographicUsageMask type="Integer" value="Encrypt"/>', [("42002C", I, 4)]),
    ('<CryptographicUsageMask type="Integer" value="12"/>', [("42002C", I, 12)]),
    (leaf("LongInteger", "-9223372036854775808"), [("540001", L, -2**63)]),
    (leaf("LongInteger", "9223372036854775807"), [("540001", L, 2**63 - 1)]),
    (leaf("LongInteger", "0x00000000000000ff"), [("540001", L, 255)]),
    (leaf("BigInteger", "0xfffffffffffffffe"), [("540001", B, "fffffffffffffffe")]),
    (leaf("BigInteger", "0000000000000001ffffffffffffffff"), [("540001", B, "0000000000000001ffffffffffffffff")]),
    ('<Operation type="Enumeration" value="Get"/>', [("42005C", E, 10)]),
    ('<Operation type="Enumeration" value="0x0000000A"/>', [("42005C", E, 10)]),
    ('<BatchOrderOption type="Boolean" value="true"/>', [("420010", T, 1)]),
    ('<BatchOrderOption type="Boolean" value="false"/>', [("420010", T, 0)]),
    ('<UniqueIdentifier type="TextString" value="0x&amp;&lt;&quot;&#10;\u00e4 b"/>', [("420094", X, '0x&<"\n\u00e4 b')]),
    ('<UniqueIdentifier type="TextString" value=""/>', [("420094", X, "")]),
    ('<KeyMaterial type="ByteString" value="00aBff"/>', [("420043", O, "00abff")]),
    ('<TimeStamp type="DateTime" value="2009-11-12T10:47:30+00:00"/>', [("420092", D, 1258022850)]),
    ('<TimeStamp type="DateTime" value="1969-12-31T23:59:59Z"/>', [("420092", D, -1)]),
    ('<TimeStamp type="DateTime" value="0x000000004AFBE7C2"/>', [("420092", D, 1258022850)]),
    ('<LeaseTime type="Interval" value="4294967295"/>', [("420049", V, 2**32 - 1)]),
    ('<LeaseTime type="Interval" value="0x00000e10"/>', [("420049", V, 3600)]),
]
bad = [
    ("", "NotXml { flaw: Flaw::Unfinished, offset: 0 }"),
    ("<KMIP>", "NotXml { flaw: Flaw::Unfinished, offset: 6 }"),
    ("<a>x</a>", "NotXml { flaw: Flaw::Text, offset: 3 }"),
    ("<NoTag/>", "NotItem { bad: BadElement::Tag, offset: 0 }"),
    ("<KMIP><BatchItem/> <KMIP/></KMIP>", "NotItem { bad: BadElement::Tag, offset: 19 }"),
    ("<!-- <a/> -->\u00e4<BatchItem/>", "NotXml { flaw: Flaw::Text, offset: 13 }"),
    ("<!--\u00e4<a/>--><BatchItem x=''/>", "NotItem { bad: BadElement::Attributes, offset: 13 }"),
    ('<TTLV type="Structure"/>', "NotItem { bad: BadElement::Tag, offset: 0 }"),
    ('<TTLV tag="0x4200" type="Structure"/>', "NotItem { bad: BadElement::Tag, offset: 0 }"),
    ('<BatchItem tag="0x42000F"/>', "NotItem { bad: BadElement::Tag, offset: 0 }"),
    ('<BatchItem value=""/>', "NotItem { bad: BadElement::Attributes, offset: 0 }"),
    ('<BatchCount type="Integer"/>', "NotItem { bad: BadElement::Attributes, offset: 0 }"),
    ('<BatchCount type="integer" value="1"/>', "NotItem { bad: BadElement::Typ, offset: 0 }"),
    ('<BatchCount type="DateTimeExtended" value="1"/>', "NotItem { bad: BadElement::Typ, offset: 0 }"),
] + [
    (f'<BatchItem><BatchCount type="{typ}" value="{value}"/></BatchItem>', "NotItem { bad: BadElement::Value, offset: 11 }")
    for typ, value in [
        ("Integer", ""), ("Integer", "2147483648"), ("Integer", "-2147483649"), ("Integer", "+1"), ("Integer", "0x1"), ("Integer", "Sign"),
        ("Integer", "18446744073709551617"), ("LongInteger", "9223372036854775808"), ("LongInteger", "-"), ("LongInteger", "-9223372036854775809"),
        ("BigInteger", "0x1"), ("Enumeration", "Get"), ("Enumeration", "10"), ("Boolean", "1"), ("Boolean", "0x0000000000000002"),
        ("ByteString", "0x00"), ("ByteString", "0"), ("DateTime", "2009-11-12"), ("Interval", "-1"), ("Interval", "4294967296"),
    ]
] + [
    ('<BatchItem><BatchCount type="Integer" value="1"><BatchItem/></BatchCount></BatchItem>', "InLeaf { offset: 48 }"),
    ('<KMIP><BatchCount type="Integer" value="1"> <BatchItem/></BatchCount><NoTag/></KMIP>', "NotItem { bad: BadElement::Tag, offset: 69 }"),
    ('<KMIP><BatchCount type="Integer" value="1"> <BatchItem/></BatchCount></KMIP>', "InLeaf { offset: 44 }"),
]


def wrapped(text):
    return f"<BatchItem>{text}</BatchItem>"


def around(*items):
    return ("42000F", S, list(items))


written = [
    (wrapped(header), around(version)),
    ("<BatchItem/>", around()),
    (wrapped("<BatchItem/><BatchItem/>"), around(around(), around())),
    (wrapped(wrapped('<BatchCount type="Integer" value="-1"/>') + '<BatchCount type="Integer" value="2147483647"/>'),
     around(around(("42000D", I, -1)), ("42000D", I, 2**31 - 1))),
    ('<TTLV tag="0x540001"><TTLV tag="0x54ABCD" type="Integer" value="0"/></TTLV>', ("540001", S, [("54ABCD", I, 0)])),
    (wrapped('<CryptographicUsageMask type="Integer" value="Sign Verify Export"/>'), around(("42002C", I, 0x43))),
    (wrapped('<CryptographicUsageMask type="Integer" value="-2147483648"/>'), around(("42002C", I, -2**31))),
    (wrapped(leaf("LongInteger", "-9223372036854775808")), around(("540001", L, -2**63))),
    (wrapped(leaf("BigInteger", "0xFFFFFFFFFFFFFFFE")), around(("540001", B, "fffffffffffffffe"))),
    (wrapped('<Operation type="Enumeration" value="Get"/>'), around(("42005C", E, 10))),
    (wrapped('<Operation type="Enumeration" value="0x8000ABCD"/>'), around(("42005C", E, 0x8000ABCD))),
    (wrapped('<BatchOrderOption type="Boolean" value="true"/><BatchOrderOption type="Boolean" value="false"/>'),
     around(("420010", T, 1), ("420010", T, 0))),
    (wrapped('<UniqueIdentifier type="TextString" value="&amp;&lt;&quot;&#9;&#10;&#13;\'>\u00e4 b"/>'), around(("420094", X, '&<"\t\n\r\'>\u00e4 b'))),
    (wrapped('<UniqueIdentifier type="TextString" value=""/>'), around(("420094", X, ""))),
    (wrapped('<KeyMaterial type="ByteString" value="00ABFF"/>'), around(("420043", O, "00abff"))),
    (wrapped('<TimeStamp type="DateTime" value="2009-11-12T10:47:30+00:00"/>'), around(("420092", D, 1258022850))),
    (wrapped('<TimeStamp type="DateTime" value="0x7FFFFFFFFFFFFFFF"/>'), around(("420092", D, 2**63 - 1))),
    (wrapped('<LeaseTime type="Interval" value="4294967295"/>'), around(("420049", V, 2**32 - 1))),
]
unwritten = [
    ("", "Malformed(Fault { offset: 0, kind: FaultKind::Cut })"),
    (item("42000D", I, 1).hex(), "Malformed(Fault { offset: 0, kind: FaultKind::NoStructure })"),
    (item(*around(("420094", X, "a"), ("420094", X, "\u00e4\x01"))).hex(), "NotHeld { offset: 34 }"),
    (item(*around(("420094", X, "\uffff"))).hex(), "NotHeld { offset: 16 }"),
]

# documents, of lines of digits; a line of which no XML is written is passed
documents = [
    ("<KMIP>\n</KMIP>\n", []),
    ("<KMIP>\n<BatchItem/>\n</KMIP>\n", [item(*around())]),
    ("<KMIP>\n" + wrapped(header) + "\n<BatchItem/>\n" + wrapped('<BatchCount type="Integer" value="7"/>') + "\n</KMIP>\n",
     [item(*around(version)), item(*around()), item(*around(("42000D", I, 7)))]),
    ("<KMIP>\n<BatchItem/>\n" + wrapped(header) + "\n</KMIP>\n",
     [item(*around()), b"\0", item(*around(("420094", X, "\x01"))), item(*around(version))]),
    ('<KMIP>\n<TTLV tag="0x540001"><TTLV tag="0x54ABCD"/></TTLV>\n<BatchItem/>\n</KMIP>\n', [item("540001", S, [("54ABCD", S, [])]), item(*around())]),
]
# a document that is read without words, so that no maps are made
plain = ("<KMIP>\n" + '<TTLV tag="0x540001"><TTLV tag="0x540002" type="TextString" value="a"/></TTLV>\n' * 2 + "</KMIP>\n",
         [item("540001", S, [("540002", X, "a")])] * 2)


def quoted(text):
    return '"' + "".join(c if c.isascii() and c.isprintable() and c not in '"\\' else "\\n" if c == "\n" else "\\" + c if c in '"\\' else f"\\u{{{ord(c):X}}}" for c in text) + '"'


def digit_lines(messages):
    return quoted("".join(message.hex() + "\n" for message in messages))


if __name__ == "__main__":
    lines = ["//! Rows, written by worked.py: XML and its bytes, and XML that is none.", "", "use kmip_ttlv_items::{Fault, FaultKind};", "use kmip_ttlv_xml::{BadElement, WriteError, XmlError};", "use plain_xml::Flaw;", "",
             "/// XML, and the hexadecimal digits of the bytes that it stands for.", f"pub const READ: [(&str, &str); {len(rows)}] = ["]
    for text, items in rows:
        lines += ["    (", f"        {quoted(text)},", f"        \"{b''.join(item(*i) for i in items).hex()}\",", "    ),"]
    lines += ["];", "", "/// XML that is none of items, and why.", f"pub const REFUSED: [(&str, XmlError); {len(bad)}] = ["]
    for text, error in bad:
        lines += ["    (", f"        {quoted(text)},", f"        XmlError::{error},", "    ),"]
    lines += ["];", "", "/// XML, and the digits of the message that it is written of.", f"pub const WRITTEN: [(&str, &str); {len(written)}] = ["]
    for text, root in written:
        lines += ["    (", f"        {quoted(text)},", f"        \"{item(*root).hex()}\",", "    ),"]
    lines += ["];", "", "/// The digits of bytes of which no XML is written, and why.", f"pub const UNWRITTEN: [(&str, WriteError); {len(unwritten)}] = ["]
    for digits, error in unwritten:
        lines += ["    (", f"        \"{digits}\",", f"        WriteError::{error},", "    ),"]
    lines += ["];", "", "/// Documents, and a line of digits for each of their messages; a line of which no XML is written is passed.", f"pub const DOCUMENTS: [(&str, &str); {len(documents)}] = ["]
    for text, messages in documents:
        lines += ["    (", f"        {quoted(text)},", "        " + digit_lines(messages) + ",", "    ),"]
    lines += ["];", "", "/// A document that is read without words, and the lines of its messages.", "pub const PLAIN: (&str, &str) = (",
              f"    {quoted(plain[0])},", f"    {digit_lines(plain[1])},", ");", ""]
    path = os.path.join(os.path.dirname(os.path.abspath(__file__)), "src/rows.rt")
    if sys.argv[1:] != ["--check"]:
        with open(path, "w", encoding="utf-8") as it:
            it.write("\n".join(lines))
    else:
        # rt fmt decides about blanks and last commas
        plain = lambda text: re.sub(r",(?=[])}])", "", re.sub(r"\s+", "", text))
        with open(path, encoding="utf-8") as it:
            if plain(it.read()) != plain("\n".join(lines)):
                sys.exit("crates/item_vectors/src/rows.rt:1: has other rows than worked.py")
