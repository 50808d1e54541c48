#!/usr/bin/env python3
"""An implementation of TTLV that was written apart from the library, from the KMIP specification and docs/VECTORS.md: what is expected
of the bytes of a message.

    reference.py DIGITS ..     prints the members of a test for the bytes of these hexadecimal digits
    reference.py --check       compares those members of the tests in data/ that it knows with its own
    reference.py --peer        writes data/peer.json, whose bytes are the messages of crates/message_vectors/stdin

It knows the first fault, the number of items, and for whole messages the texts, diagnostics and JSON in which empty Structures are
closed, the canonical bytes, and tables of names. What is printed up to a fault, or of Structures that stay open, it doesn't know. The last line of
--check is 'N compared, M differ', and the status 0 where M is 0.
"""
import glob
import json
import os
import re
import sys

HERE = os.path.dirname(os.path.abspath(__file__))
STRUCTURE, INTEGER, LONG, BIG, ENUMERATION, BOOLEAN, TEXT, BYTES, DATE, INTERVAL = range(1, 11)
TYPES = [None, "Structure", "Integer", "LongInteger", "BigInteger", "Enumeration", "Boolean", "TextString", "ByteString", "DateTime", "Interval"]
LETTERS = {INTEGER: "i", LONG: "l", BIG: "I", BOOLEAN: "b", TEXT: "t", BYTES: "o", DATE: "d", INTERVAL: "n"}
LENGTHS = {INTEGER: 4, LONG: 8, ENUMERATION: 4, BOOLEAN: 8, DATE: 8, INTERVAL: 4}
ESCAPES = {'"': '\\"', "\\": "\\\\", "\n": "\\n", "\b": "\\b", "\f": "\\f", "\r": "\\r", "\t": "\\t"}


def is_value(typ, content):
    """Whether content of the right length is a value of its type."""
    if typ == BOOLEAN:
        return content[:7] == bytes(7) and content[7] < 2
    try:
        return typ != TEXT or content.decode("utf-8") is not None
    except UnicodeDecodeError:
        return False


def walk(message):
    """The items of a message up to its first fault, each as (offset, depth, tag, type, end, content), and the fault, if any."""
    items, at, ends = [], 0, []
    while True:
        while ends and at == ends[-1]:
            ends.pop()
        if items and not ends:
            return items, ("surplus", at) if at < len(message) else None
        if ends and ends[-1] - at < 8:
            return items, ("partial_header", at)
        if len(message) - at < 8:
            return items, ("cut", at)
        tag, typ, length = int.from_bytes(message[at : at + 3], "big"), message[at + 3], int.from_bytes(message[at + 4 : at + 8], "big")
        if not STRUCTURE <= typ <= INTERVAL:
            return items, ("unknown_type", at)
        if not items and typ != STRUCTURE:
            return items, ("no_structure", at)
        if length != LENGTHS.get(typ, length):
            return items, ("wrong_length", at)
        end = at + 8 + length + (-length % 8 if typ != STRUCTURE else 0)
        if ends and end > ends[-1]:
            return items, ("overlong", at)
        if typ == STRUCTURE:
            items.append((at, len(ends), tag, typ, end, b""))
            ends.append(end)
            at += 8
            continue
        content = message[at + 8 : at + 8 + length]
        if end > len(message):
            return items, ("cut", at)
        if not is_value(typ, content):
            return items, ("invalid_value", at)
        items.append((at, len(ends), tag, typ, end, content))
        at = end


def printed(typ, content):
    """A value in a readable text."""
    number, signed = int.from_bytes(content, "big"), int.from_bytes(content, "big", signed=True)
    if typ in (INTEGER, LONG, ENUMERATION, INTERVAL):
        return f" 0x{number:06X} ({signed if typ in (INTEGER, LONG) else number})"
    if typ == BOOLEAN:
        return " true" if number else " false"
    if typ == TEXT:
        return " " + content.decode()
    if typ == DATE:
        return f" 0x{number:06X}"
    return "" if typ == STRUCTURE else " " + content.hex().upper()


def text(items, names={}):
    out = ""
    for _, depth, tag, typ, _, content in items:
        shown = f"{names[tag]} (0x{tag:04X})" if tag in names else f"0x{tag:04X}"
        out += f"{'  ' * depth}Tag: {shown}, Type: {TYPES[typ]} (0x{typ:02X}), Data:{printed(typ, content)}\n"
    return out


def names_in(table):
    """The names of a table of tags, and the number of the first line that can't be read, or 0."""
    names = {}
    for number, line in enumerate(table.split("\n"), 1):
        line = line.rstrip()
        row = re.fullmatch(r"(?:0x)?([0-9A-Fa-f]{1,6}) (.+)", line)
        if row:
            names[int(row[1], 16)] = row[2]
        elif line and not line.startswith("#"):
            return names, number
    return names, 0


def standard_names():
    """The names of the specifications."""
    with open(f"{HERE}/../../data/kmip_tags.tsv", encoding="utf-8") as it:
        rows = [line.split("\t") for line in it if not line.startswith("#") and line.strip()]
    return {int(row[0], 16): row[1] for row in rows if row[2] != "none"}


def diagnostic(items, prefix):
    """The diagnostic without this prefix of tags, if it is of uppercase digits."""
    out, open_ones = "", 0
    for _, depth, tag, typ, _, content in items:
        out += "]" * (open_ones - depth) + f"{tag:06X}".removeprefix(prefix)
        open_ones = depth
        if typ == STRUCTURE:
            out, open_ones = out + "[", open_ones + 1
        elif typ == ENUMERATION:
            out += f"e{int.from_bytes(content, 'big'):X}:"
        else:
            out += LETTERS[typ]
    return out + "]" * open_ones


def quoted(words):
    by_number = [*range(32), *range(0x7F, 0xA0)]
    return '"' + "".join(ESCAPES.get(it) or (f"\\u{ord(it):04x}" if ord(it) in by_number else it) for it in words) + '"'


def json_value(typ, content, is_hidden):
    if is_hidden and typ != ENUMERATION:
        return "null"
    if typ == BOOLEAN:
        return "true" if content[7] else "false"
    if typ == TEXT:
        return quoted(content.decode())
    return f'"{"" if typ == BYTES else "0x"}{content.hex().upper()}"'


def json_of(items, is_hidden):
    """The JSON of these items, which stand behind one another or in one another."""
    out, open_ones = "", 0
    for _, depth, tag, typ, _, content in items:
        out += "]}" * (open_ones - depth)
        out += "," if out and not out.endswith("[") else ""
        out += f'{{"tag":"0x{tag:06X}","type":"{TYPES[typ]}","value":'
        out += "[" if typ == STRUCTURE else json_value(typ, content, is_hidden) + "}"
        open_ones = depth + (typ == STRUCTURE)
    return out + "]}" * open_ones


def canonical(message, items):
    out = bytearray(message)
    for at, _, _, typ, end, content in items:
        if typ != STRUCTURE:
            out[at + 8 + len(content) : end] = bytes(end - at - 8 - len(content))
    return out.hex().upper()


def known(message, prefixes=("4200",)):
    """The members of a test that are known of these bytes."""
    items, fault = walk(message)
    found = {"bytes": message.hex().upper(), **({"fault": {"kind": fault[0], "offset": fault[1]}} if fault else {}), "items": len(items)}
    if fault:
        return found
    is_open = any(typ == STRUCTURE and end == at + 8 for at, _, _, typ, end, _ in items)
    found.update({} if is_open else {"text": text(items)})
    found["closed_text"] = text(items)
    ways = [(prefix, closed) for prefix in prefixes for closed in (False, True) if closed or not is_open]
    found["diagnostics"] = [{"prefix": it, "closed": closed, "text": diagnostic(items, it), "read": len(items)} for it, closed in ways]
    found["json"], found["hidden_json"] = json_of(items, False), json_of(items, True)
    found["canonical"] = canonical(message, items)
    return found


def compare(where, test):
    """How many members of a test are known, and of them differ; prints those."""
    shown = test.get("diagnostics", [])
    wanted = known(bytes.fromhex(test["bytes"]), {it["prefix"] for it in shown} | {"4200"})
    ways = {(it["prefix"], it["closed"]): it for it in wanted.pop("diagnostics", [])}
    pairs = [(key, test.get(key), wanted[key]) for key in wanted if key in test or key == "fault"]
    pairs += [("fault", test["fault"], None)] if "fault" in test and "fault" not in wanted else []
    pairs += [("diagnostics", it, ways[it["prefix"], it["closed"]]) for it in shown if (it["prefix"], it["closed"]) in ways]
    bad = [it for it in pairs if it[1] != it[2]]
    for key, found, own in bad:
        print(f"{where}: {test['name']}: {key}: {found!r}, and by the reference {own!r}")
    return len(pairs), len(bad)


def compare_named(where, test):
    """The same of a table of names: its bad line, and the text of the bytes with these names."""
    names, bad_line = names_in(test["table"]) if "table" in test else (standard_names(), 0)
    pairs = [("bad_line", test.get("bad_line", 0), bad_line)]
    if "text" in test:
        pairs.append(("text", test["text"], text(walk(bytes.fromhex(test["bytes"]))[0], names)))
    bad = [it for it in pairs if it[1] != it[2]]
    for key, found, own in bad:
        print(f"{where}: {test['name']}: {key}: {found!r}, and by the reference {own!r}")
    return len(pairs), len(bad)


def value_names(wanted):
    """The names of an Enumeration's numbers."""
    with open(f"{HERE}/../../data/kmip_enumerations.tsv", encoding="utf-8") as it:
        rows = [line.rstrip("\n").split("\t") for line in it if not line.startswith("#")]
    return {int(number, 16): name for tag, number, name in rows if int(tag, 16) == wanted}


def subject(items, operations):
    """Which message of KMIP these items are: its direction, version and operations."""
    values = [(tag, int.from_bytes(content, "big")) for _, _, tag, _, _, content in items]
    version = ".".join(str(next(value for tag, value in values if tag == wanted)) for wanted in (0x42006A, 0x42006B))
    names = [operations.get(value, f"operation {value:08X}") for tag, value in values if tag == 0x42005C]
    kind = "request" if items[0][2] == 0x420078 else "response"
    return f"A {kind} of KMIP {version}" + (f": {', '.join(names)}" if names else "")


def peer():
    """The file of the peer's messages, which are all but those of worked.py: those members that don't follow from others."""
    tests, operations = [], value_names(0x42005C)
    with open(f"{HERE}/../message_vectors/stdin", encoding="utf-8") as lines:
        for name, _, rest in (line.rstrip("\n").partition(" ") for line in lines):
            if name and not name.startswith("#") and not name.endswith("_worked"):
                message = bytes.fromhex(rest)
                members = known(message, ())
                for it in ("text", "hidden_json"):
                    members.pop(it, None)
                members["diagnostics"] = [it for it in known(message)["diagnostics"] if it["closed"]]
                tests.append({"name": name, "comment": subject(walk(message)[0], operations), **members})
    source = "PyKMIP 0.10.0 (the Debian package python3-pykmip), whose classes have encoded all of the messages; where it has no class for a"
    source += " whole message, the name ends in _handmade, and the order of the items was set by hand, as KMIP has it. What is printed of"
    source += " them is by reference.py."
    held = {"description": "Messages of another implementation.", "source": source, "messages": tests}
    return json.dumps(held, ensure_ascii=False, indent=2) + "\n"


def members(pairs):
    """An object, of whose members no two have one name."""
    found = dict(pairs)
    if len(found) != len(pairs):
        names = [name for name, _ in pairs]
        raise ValueError(f"an object has two members {next(it for it in names if names.count(it) > 1)!r}")
    return found


def main(words):
    path = f"{HERE}/data/peer.json"
    if words == ["--peer"]:
        with open(path, "w", encoding="utf-8") as it:
            it.write(peer())
        return 0
    if words != ["--check"]:
        print(json.dumps([known(bytes.fromhex(it)) for it in words], ensure_ascii=False, indent=2))
        return 0
    compared = differ = 0
    for file in sorted(glob.glob(f"{HERE}/data/*.json")):
        with open(file, encoding="utf-8") as it:
            try:
                held = json.load(it, object_pairs_hook=members)
            except ValueError as error:
                print(f"{os.path.basename(file)}: {error}")
                differ += 1
                continue
        decodings = [test for group in held.get("decodings", []) for test in group["tests"]]
        for tests in (*(held.get(it, []) for it in ("messages", "diagnostics", "names", "jsons", "encodings")), decodings):
            names = [it["name"] for it in tests]
            for name in {it for it in names if names.count(it) > 1}:
                print(f"{os.path.basename(file)}: {name}: two tests have this name")
                differ += 1
        for test in held.get("messages", []):
            more, bad = compare(os.path.basename(file), test)
            compared, differ = compared + more, differ + bad
        for test in held.get("names", []):
            more, bad = compare_named(os.path.basename(file), test)
            compared, differ = compared + more, differ + bad
    with open(path, encoding="utf-8") as it:
        if it.read() != peer():
            print("peer.json is not what reference.py --peer writes")
            differ += 1
    print(f"{compared} compared, {differ} differ")
    return 1 if differ else 0


if __name__ == "__main__":
    sys.exit(main(sys.argv[1:]))
