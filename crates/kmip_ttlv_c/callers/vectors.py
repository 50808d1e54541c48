"""The tests that are data (docs/VECTORS.md, the lists `messages`, `diagnostics`, `names` and `jsons`), tried with the Python module; or as rows,
for callers in other languages: what the calls of C are tried with, and the JSON that says what a message is decoded as.

    PYTHONPATH=FOLDER python3 vectors.py [--rows | --nodes]

FOLDER is one that the build of the library made. A row is a line: the test, the member and a number, and in hexadecimal the input, a
prefix of tags, a table of names and what is wanted, with tabs between.
With --nodes the JSON stands for the nodes that a message is decoded as, which each language prints itself.

Each value that differs is a line. The last line is 'vectors: N values, M differ', and the status 0 if M is 0 and N isn't.
"""
import glob
import json
import os
import sys
from datetime import datetime, timezone

import kmip_ttlv

HERE = os.path.dirname(os.path.abspath(__file__))
DATA, TAGS = os.path.join(HERE, "../../vectors/data/*.json"), os.path.join(HERE, "../../../data/kmip_tags.tsv")
KINDS = ("whole", "cut", "no_structure", "unknown_type", "partial_header", "wrong_length", "overlong", "invalid_value", "surplus")
KINDS += (None, None, None, "too_long", "not_json", "too_deep", "not_item", "not_tag")
# what the tests say of JSON that is none
WORDS = {"not JSON": "not_json", "nested more than 127 deep": "too_deep"}
WORDS |= {"an item without exactly tag, type and value": "not_item", "a tag is not 0x and six hexadecimal digits": "not_tag"}
WORDS |= {"the name of a type is unknown": "unknown_type", "a value is none of its type": "invalid_value"}
WORDS |= {"the root is no Structure": "no_structure", "a length has more than four bytes": "too_long"}
TYPES = (None, "Structure", "Integer", "LongInteger", "BigInteger", "Enumeration", "Boolean", "TextString", "ByteString", "DateTime", "Interval")


def tests(kind):
    """Each test of a list in all files, under its name."""
    for path in sorted(glob.glob(DATA)):
        with open(path, encoding="utf-8") as it:
            for test in json.load(it).get(kind, []):
                yield f"{os.path.basename(path)}: {test['name']}", test


def rows_of(test):
    """The rows of the bytes of a message: member, number, input, prefix, names and what is wanted."""
    fault, message = test.get("fault", {"kind": "whole", "offset": 0}), bytes.fromhex(test["bytes"])
    yield "fault", fault["offset"], message, "", "", fault["kind"].encode()
    if "items" in test:
        yield "items", test["items"], message, "", "", b""
    # each beginning, at which a diagnostic ends with ERR
    for length in range(len(message) if test.get("cuts") else 0):
        yield "cut", 0, message[:length], "", "", b"cut"
    for member in ("text", "closed_text"):
        if member in test:
            yield member, 0, message, "", "", test[member].encode()
    for shown in test.get("diagnostics", []):
        yield "closed_diagnostic" if shown["closed"] else "diagnostic", shown["read"], message, shown["prefix"], "", shown["text"].encode()
        if shown["closed"] and "fault" not in test:
            yield "checked_diagnostic", 0, message, shown["prefix"], "", shown["text"].encode()
    if "canonical" in test:
        yield "canonical", 0, message, "", "", bytes.fromhex(test["canonical"])
    for member in ("json", "hidden_json"):
        if member in test:
            yield f"printed_{member}", 0, message, "", "", test[member].encode()


def json_rows_of(test):
    """The same of JSON: the bytes that it is read as, or where and why it is none."""
    if "bytes" in test:
        yield "read_json", 0, test["json"].encode(), "", "", bytes.fromhex(test["bytes"])
    if "error" in test:
        offset, words = test["error"].removeprefix("byte ").split(": ", 1)
        yield "bad_json", int(offset), test["json"].encode(), "", "", WORDS[words].encode()


def named_rows_of(test):
    """The same of a table of names."""
    table, message = test.get("table", ""), bytes.fromhex(test.get("bytes", ""))
    if "bad_line" in test:
        yield "bad_line", test["bad_line"], message, "", table, b""
    if "text" in test:
        yield "closed_text" if "table" in test else "standard_text", 0, message, "", table, test["text"].encode()
    if "lines" in test:
        yield "lines", 0, test["diagnostic"].encode(), test["prefix"], table, test["lines"].encode()


def rows():
    for name, test in tests("messages"):
        for row in rows_of(test):
            yield name, *row
    for name, message, lines in redacted(standard_names()):
        yield name, "redacted_text", 0, message, "", "", lines.encode()
    for name, test in tests("diagnostics"):
        yield name, "lines", 0, test["diagnostic"].encode(), test["prefix"], "", test["lines"].encode()
    for kind, made in (("names", named_rows_of), ("jsons", json_rows_of)):
        for name, test in tests(kind):
            for row in made(test):
                yield name, *row


def node_rows():
    for name, test in tests("messages"):
        if "json" in test:
            yield name, "json", 0, bytes.fromhex(test["bytes"]), "", "", test["json"].encode()


def bad_line_of(given, names):
    try:
        kmip_ttlv.to_text(given, names)
    except kmip_ttlv.BadNames as refused:
        return refused.line


def fault_in(text):
    try:
        kmip_ttlv.from_json(text)
    except kmip_ttlv.Malformed as refused:
        return refused.fault.offset, KINDS[refused.fault.kind].encode()


def found_of(member, given, prefix, names):
    """What the module makes of the input of a row: the number and what is wanted."""
    if member == "lines":
        return 0, kmip_ttlv.from_diag(given.decode(), prefix, names).encode()
    if member == "bad_line":
        return bad_line_of(given, names), b""
    if member == "redacted_text":
        return 0, kmip_ttlv.to_text(given, redact=True).encode()
    if member == "bad_json":
        return fault_in(given.decode())
    if member == "read_json":
        return 0, kmip_ttlv.from_json(given.decode())
    if member.startswith("printed_"):
        return 0, kmip_ttlv.to_json(given, redact=member == "printed_hidden_json").encode()
    if member == "canonical":
        return 0, kmip_ttlv.write(kmip_ttlv.items(given), given)
    if member == "cut":
        return 0, b"cut" if kmip_ttlv.check(given).kind == 1 and kmip_ttlv.to_diag(given).endswith("ERR") else b""
    if member == "standard_text":
        return 0, kmip_ttlv.to_text(given).encode()
    if member in ("text", "closed_text"):
        return 0, kmip_ttlv.to_text(given, names, closed=member == "closed_text").encode()
    if member == "checked_diagnostic":
        return 0, kmip_ttlv.to_diag_checked(given, prefix).encode()
    # the module doesn't say how many items a diagnostic tried to read
    return None, kmip_ttlv.to_diag(given, prefix, closed=member == "closed_diagnostic").encode()


def faults_of(given):
    """The first fault, as each call has it that refuses other bytes than one whole message, and how many items come before it."""
    faults, count = {kmip_ttlv.check(given)}, None
    for call in (kmip_ttlv.to_diag_checked, kmip_ttlv.decode, kmip_ttlv.items):
        try:
            found, fault = call(given), None
        except kmip_ttlv.Malformed as refused:
            found, fault = refused.items, refused.fault
        faults.add(fault)
        count = len(found)
    return faults, count


def is_in_digits(item):
    """Whether JSON has neither names nor numbers, as `to_json` prints it."""
    if not item.get("tag", "").startswith("0x") or "type" not in item:
        return False
    typ, value = TYPES.index(item["type"]), item["value"]
    return all(map(is_in_digits, value)) if typ == 1 else typ in (6, 7, 8) or isinstance(value, str) and value.startswith("0x")


def node_of(item):
    """The node that JSON in digits says."""
    typ, value = TYPES.index(item["type"]), item["value"]
    if typ == 1:
        value = [node_of(it) for it in value]
    elif typ not in (6, 7):
        value = bytes.fromhex(value.removeprefix("0x"))
        value = value if typ == 8 else int.from_bytes(value, "big", signed=typ in (2, 3, 4, 9))
    if typ == 9:
        try:
            value = datetime.fromtimestamp(value, timezone.utc)
        except (OverflowError, ValueError, OSError):
            pass
    return kmip_ttlv.Node(int(item["tag"], 16), typ, value)


def standard_names():
    """The names of the standard's tags, by their numbers."""
    with open(TAGS, encoding="utf-8") as it:
        return {int(row.split("\t")[0], 16): row.split("\t")[1] for row in it if row[0] != "#"}


def redacted_of(node, names, depth=0):
    """The lines of nodes' diagnostic that is read back: no value is shown but those of Enumerations."""
    tag, typ, value = node
    shown = "" if typ == 1 else f"{value:X}" if typ == 5 else "<redacted>"
    named = f"{names[tag]} (0x{tag:04X})" if tag in names else f"0x{tag:04X}"
    lines = [f"{'  ' * depth}Tag: {named}, Type: {TYPES[typ]} (0x{typ:02X}), Data: {shown}"]
    return lines + [line for it in (value if typ == 1 else ()) for line in redacted_of(it, names, depth + 1)]


def redacted(names):
    """The lines of each whole message whose JSON is known: the test's name, the message and the lines."""
    for name, test in tests("messages"):
        if "json" in test:
            # nothing follows an empty structure at the end
            lines = "\n".join(redacted_of(node_of(json.loads(test["json"])), names)).rstrip(" ")
            yield name, bytes.fromhex(test["bytes"]), lines


def nodes():
    """Each message that JSON says: its name, its nodes, and its bytes."""
    for kind, member in (("messages", "canonical"), ("jsons", "bytes")):
        for name, test in tests(kind):
            if member in test and "json" in test and is_in_digits(json.loads(test["json"])):
                yield name, node_of(json.loads(test["json"])), bytes.fromhex(test[member])


class Tally:
    """Counts values, and prints those that differ."""

    def __init__(self):
        self.values = self.differ = 0

    def compare(self, test, what, found, wanted):
        self.values += 1
        if found != wanted:
            self.differ += 1
            print(f"{test}: {what}: wanted {wanted!r}, found {found!r}")

    def try_row(self, test, member, number, given, prefix, names, wanted):
        if member == "items":
            self.compare(test, member, faults_of(given)[1], number)
        elif member == "fault":
            kind = KINDS.index(wanted.decode())
            self.compare(test, member, faults_of(given)[0], {kmip_ttlv.Fault(number, kind) if kind else None})
        else:
            found, text = found_of(member, given, prefix, names)
            self.compare(test, member, (number if found is None else found, text), (number, wanted))

    def try_nodes(self, test, node, message):
        """A message that JSON says: decoded, and encoded, which writes a Big Integer in the fewest bytes."""
        self.compare(test, "decoded", kmip_ttlv.decode(message), node)
        encoded = kmip_ttlv.encode(node)
        if any(it.typ == 4 for it in kmip_ttlv.items(message)):
            self.compare(test, "encoded and decoded", kmip_ttlv.decode(encoded), node)
        else:
            self.compare(test, "encoded", encoded, message)


def main(words):
    if words in (["--rows"], ["--nodes"]):
        for test, member, number, given, prefix, names, wanted in rows() if words == ["--rows"] else node_rows():
            print(test, member, number, given.hex(), prefix.encode().hex(), names.encode().hex(), wanted.hex(), sep="\t")
        return 0
    tally = Tally()
    for row in rows():
        tally.try_row(*row)
    for test, node, message in nodes():
        tally.try_nodes(test, node, message)
    for name, message, lines in redacted({}):
        tally.compare(name, "redacted text without names", kmip_ttlv.to_text(message, "", redact=True), lines)
    print(f"vectors: {tally.values} values, {tally.differ} differ")
    return 0 if tally.values and not tally.differ else 1


if __name__ == "__main__":
    sys.exit(main(sys.argv[1:]))
