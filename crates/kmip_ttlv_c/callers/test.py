"""Tests of the library from Python: worked messages, walks, errors, ten thousand hostile messages.

    PYTHONPATH=FOLDER python3 test.py

FOLDER is one that the build of the library made.
"""
import ctypes
import decimal
import enum
import os
import random
import time
import unittest
from datetime import datetime, timedelta, timezone, tzinfo
from unittest import mock

import kmip_ttlv

VERSION = bytes.fromhex("420069010000002042006A0200000004000000010000000042006B02000000040000000000000000")
DESTROY = bytes.fromhex(
    "42007801000000904200770100000038420069010000002042006A0200000004000000010000000042006B0200000004000000000000"
    "000042000D0200000004000000010000000042000F010000004842005C05000000040000001400000000420079010000003042009407"
    "0000002466633838333364652D373064322D346563652D623036332D66656465336133633539666500000000"
)
# the standard's tables of tags, and of the values of Enumerations and masks
TAGS, VALUES = (os.path.join(os.path.dirname(os.path.abspath(__file__)), f"../../../data/kmip_{it}.tsv") for it in ("tags", "enumerations"))
NAMES = "# two tags\n420069 Protocol Version\n42006A Major\n"
# two empty structures in a third
EMPTY = bytes.fromhex("420078010000001042007901000000004200690100000000")


class Liar(bytes):
    """Bytes that say they are longer."""

    def __len__(self):
        return 4096


def structure(content):
    return bytes.fromhex("42002001") + len(content).to_bytes(4, "big") + content


def nested(depth, content=b""):
    """Structures, each in the one before, and in the last of them this content."""
    lengths = (len(content) + 8 * (depth - 1 - at) for at in range(depth))
    return b"".join(bytes.fromhex("42002001") + length.to_bytes(4, "big") for length in lengths) + content


def byte_string(content):
    return bytes.fromhex("42002008") + len(content).to_bytes(4, "big") + content + bytes(-len(content) % 8)


class Texts(unittest.TestCase):
    def test_empty_structures(self):
        """Closed by default; else each stays open, so that the second is in the first."""
        self.assertEqual(kmip_ttlv.to_diag(EMPTY, "4200"), "78[79[]69[]]")
        shut = ["Tag: {}0x420078{}, Type: Structure (0x01), Data:", "  Tag: {}0x420079{}, Type: Structure (0x01), Data:"]
        shut.append("  Tag: {}0x420069{}, Type: Structure (0x01), Data:")
        warning = "WARNING: TTLV structure length is zero"
        left = [*shut[:2], warning, "  " + shut[2], warning]
        words = [("Request Message (", ")"), ("Request Payload (", ")"), ("Protocol Version (", ")")]
        for names, shown in ((None, words), (NAMES, [("", ""), ("", ""), words[2]])):
            for closed, lines in ((True, shut), (False, left)):
                named = iter(shown)
                expected = "".join((line.format(*next(named)) if "Tag" in line else line) + "\n" for line in lines)
                self.assertEqual(kmip_ttlv.to_text(EMPTY, names, closed), expected)
                self.assertEqual(kmip_ttlv.to_text(EMPTY, names, closed=closed), expected)
            self.assertEqual(kmip_ttlv.to_text(EMPTY, names), kmip_ttlv.to_text(EMPTY, names, True))

    def test_checked_diagnostics(self):
        """Those of whole messages, and of other bytes where they aren't one."""
        for message in (VERSION, DESTROY, EMPTY, EMPTY[16:]):
            self.assertEqual(kmip_ttlv.to_diag_checked(message, "4200"), kmip_ttlv.to_diag(message, "4200"))
            self.assertEqual(kmip_ttlv.to_diag_checked(Liar(message)), kmip_ttlv.to_diag(message))
            for other in (*(message[:cut] for cut in range(len(message))), message + b"\0", message + VERSION, message[8:] or b"\0"):
                with self.assertRaises(kmip_ttlv.Malformed) as refused:
                    kmip_ttlv.to_diag_checked(other, "4200")
                self.assertEqual((refused.exception.fault, refused.exception.items), (kmip_ttlv.check(other), []))
        self.assertRaises(UnicodeEncodeError, kmip_ttlv.to_diag_checked, VERSION, "\ud800")
        self.assertRaises(TypeError, kmip_ttlv.to_diag_checked, "420069")

    def test_limits(self):
        """A text that would take the square of its message is an error, unless so much is asked for."""
        deep, flat = nested(10_000), structure(byte_string(b"") * 10_000)
        for names in (None, NAMES):
            self.assertRaises(MemoryError, kmip_ttlv.to_text, deep, names)
            self.assertEqual(kmip_ttlv.to_text(flat, names).count("\n"), 10_001)
            self.assertRaises(MemoryError, kmip_ttlv.to_text, flat, names, limit=65_536)
            self.assertRaises(MemoryError, kmip_ttlv.to_text, flat, names, limit=0)
            self.assertRaises(TypeError, kmip_ttlv.to_text, flat, names, limit=1.5)
            self.assertRaises(ValueError, kmip_ttlv.to_text, flat, names, limit=-1)
        lines = kmip_ttlv.to_text(nested(2000), "", limit=2**70).split("\n")
        self.assertEqual(lines[1999], "  " * 1999 + "Tag: 0x420020, Type: Structure (0x01), Data:")
        self.assertRaises(MemoryError, kmip_ttlv.from_diag, "20[" * 10_000, "4200")
        self.assertRaises(MemoryError, kmip_ttlv.from_diag, "20[" * 100, "4200", limit=8192)
        self.assertEqual(kmip_ttlv.from_diag("20[" * 2000, "4200", limit=2**63).count("\n"), 1999)
        self.assertEqual(kmip_ttlv.from_diag("20t" * 40_000, "4200").count("<redacted>"), 39_999)

    def test_out_of_memory(self):
        """Each call raises MemoryError if the library says that it is out of memory."""
        calls = {
            "to_diag": lambda: kmip_ttlv.to_diag(VERSION),
            "to_diag_checked": lambda: kmip_ttlv.to_diag_checked(VERSION),
            "to_text": lambda: kmip_ttlv.to_text(VERSION, NAMES),
            "to_standard_text": lambda: kmip_ttlv.to_text(VERSION),
            "to_redacted_text": lambda: kmip_ttlv.to_text(VERSION, redact=True),
            "from_diag": lambda: kmip_ttlv.from_diag("69[]"),
            "to_json": lambda: kmip_ttlv.to_json(VERSION),
            "from_json": lambda: kmip_ttlv.from_json(kmip_ttlv.to_json(VERSION)),
            "tag_name": lambda: kmip_ttlv.tag_name(0x420043),
            "value_name": lambda: kmip_ttlv.value_name(0x420028, 3),
            "mask_names": lambda: kmip_ttlv.mask_names(0x42002C, 12),
            "items": lambda: kmip_ttlv.items(VERSION),
            "check": lambda: kmip_ttlv.check(VERSION),
        }
        for name, call in calls.items():
            kmip_ttlv._named.cache_clear()
            with mock.patch.object(kmip_ttlv, "_" + name, lambda *_: kmip_ttlv.OUT_OF_MEMORY):
                self.assertRaises(MemoryError, call)
            call()

    def test_readable_text(self):
        lines = kmip_ttlv.to_text(DESTROY).split("\n")
        self.assertEqual(lines[0], "Tag: Request Message (0x420078), Type: Structure (0x01), Data:")
        self.assertIn("    Tag: Operation (0x42005C), Type: Enumeration (0x05), Data: 0x000014 (20)", lines)
        self.assertIn("fc8833de-70d2-4ece-b063-fede3a3c59fe", lines[-2])
        self.assertTrue(kmip_ttlv.to_text(VERSION, NAMES).startswith("Tag: Protocol Version (0x420069), "))
        self.assertTrue(kmip_ttlv.to_text(VERSION, "").startswith("Tag: 0x420069, "))

    def test_read_back(self):
        text = kmip_ttlv.from_diag("24e:", "4200")
        self.assertEqual(text, "Tag: 0x420024, Type: Enumeration (0x05)")
        text = kmip_ttlv.from_diag("69[6Ai6Bi]", "4200", NAMES)
        self.assertEqual(text.split("\n")[1], "  Tag: Major (0x42006A), Type: Integer (0x02), Data: <redacted>")

    def test_redacted_text(self):
        """The lines of the checked diagnostic, under KMIP's names or those of a table; and nothing of what isn't one whole message."""
        lines = kmip_ttlv.to_text(DESTROY, redact=True).split("\n")
        self.assertEqual(lines[0], "Tag: Request Message (0x420078), Type: Structure (0x01), Data: ")
        self.assertEqual(lines[7], "    Tag: Operation (0x42005C), Type: Enumeration (0x05), Data: 14")
        self.assertEqual(lines[-1], "      Tag: Unique Identifier (0x420094), Type: TextString (0x07), Data: <redacted>")
        named = kmip_ttlv.to_text(VERSION, NAMES, redact=True)
        rest = ", Type: Integer (0x02), Data: <redacted>"
        self.assertEqual(named.split("\n")[1:], [f"  Tag: Major (0x42006A){rest}", f"  Tag: 0x42006B{rest}"])
        plain = named.replace("Protocol Version (0x420069)", "0x420069").replace("Major (0x42006A)", "0x42006A")
        self.assertEqual(kmip_ttlv.to_text(bytearray(VERSION), "", redact=True), plain)
        for other in (VERSION[:-1], VERSION + b"\0", b"", VERSION[8:]):
            with self.assertRaises(kmip_ttlv.Malformed) as refused:
                kmip_ttlv.to_text(other, redact=True)
            self.assertEqual((refused.exception.fault, refused.exception.items), (kmip_ttlv.check(other), []))
        self.assertRaises(kmip_ttlv.BadNames, kmip_ttlv.to_text, VERSION, "Major", redact=True)
        self.assertRaises(ValueError, kmip_ttlv.to_text, VERSION, closed=False, redact=True)
        self.assertRaises(MemoryError, kmip_ttlv.to_text, nested(10_000), redact=True)
        self.assertRaises(MemoryError, kmip_ttlv.to_text, VERSION, redact=True, limit=16)

    def test_json(self):
        """Texts, in which a terminal finds nothing to obey; and no JSON of what isn't one whole message."""

        def shown(text, **how):
            message = kmip_ttlv.encode(kmip_ttlv.Node(0x420078, 1, [kmip_ttlv.Node(0x420094, 7, text)]))
            head, tail = '{"tag":"0x420078","type":"Structure","value":[{"tag":"0x420094","type":"TextString","value":', "}]}"
            found = kmip_ttlv.to_json(message, **how)
            self.assertTrue(found.startswith(head) and found.endswith(tail))
            return found[len(head) : -len(tail)]

        rows = (("", '""'), ('a"b\\c/', '"a\\"b\\\\c/"'), ("\n\r\t\b\f", '"\\n\\r\\t\\b\\f"'), ("\0\x1b\x1f", '"\\u0000\\u001b\\u001f"'))
        rows += (("\x7f\x80\x9f\xa0", '"\\u007f\\u0080\\u009f\xa0"'), ("\u20ac\U0001f600", '"\u20ac\U0001f600"'))
        for text, wanted in rows:
            self.assertEqual(shown(text), wanted)
            self.assertEqual(shown(text, redact=True), "null")
        self.assertEqual(kmip_ttlv.to_json(memoryview(EMPTY)[16:]), '{"tag":"0x420069","type":"Structure","value":[]}')
        for other in (VERSION[:-1], VERSION + b"\0", b"", VERSION[8:]):
            self.assertRaises(kmip_ttlv.Malformed, kmip_ttlv.to_json, other)
        depth = 20_000
        self.assertEqual(kmip_ttlv.to_json(nested(depth)), '{"tag":"0x420020","type":"Structure","value":[' * depth + "]}" * depth)

    def test_redacted_json(self):
        """Secrets: what a secret tag has, and what is in an item with such a tag; values: all but those of Enumerations."""
        login = kmip_ttlv.Node(0x420025, 1, [kmip_ttlv.Node(0x420099, 7, "Fred"), kmip_ttlv.Node(0x420024, 5, 1)])
        name, key = kmip_ttlv.Node(0x420094, 7, "id"), kmip_ttlv.Node(0x420043, 8, b"\1\2")
        message = kmip_ttlv.encode(kmip_ttlv.Node(0x420023, 1, [login, name, key, kmip_ttlv.Node(0x420028, 5, 3)]))
        rows = (
            (False, '"Fred"', '"0x00000001"', '"id"', '"0102"'),
            ("keys", "null", "null", '"id"', "null"),
            (True, "null", '"0x00000001"', "null", "null"),
        )
        for redact, *values in rows:
            self.assertEqual(
                kmip_ttlv.to_json(message, redact=redact),
                '{"tag":"0x420023","type":"Structure","value":[{"tag":"0x420025","type":"Structure","value":['
                '{"tag":"0x420099","type":"TextString","value":%s},{"tag":"0x420024","type":"Enumeration","value":%s}]},'
                '{"tag":"0x420094","type":"TextString","value":%s},{"tag":"0x420043","type":"ByteString","value":%s},'
                '{"tag":"0x420028","type":"Enumeration","value":"0x00000003"}]}' % tuple(values),
            )
        for wrong in ("values", 3, None):
            self.assertRaises(ValueError, kmip_ttlv.to_json, message, redact=wrong)

    def test_from_json(self):
        """What to_json printed, in other spellings too; and where another text is wrong."""
        for message in (VERSION, DESTROY, EMPTY, EMPTY[16:], nested(63)):
            self.assertEqual(kmip_ttlv.from_json(kmip_ttlv.to_json(message)), message)
        self.assertEqual(kmip_ttlv.from_json('\n{"value" : [ ], "type":"Structure","tag":"0x42006a"}\n'), bytes.fromhex("42006A0100000000"))
        begins, leaf = '{"tag":"0x420069","type":"Structure","value":[', '{"tag":"0x42006A","type":"Integer","value":"0x00000001"}'
        rows = (
            ("", 0, 13, "not JSON"),
            ("\u20ac", 0, 13, "not JSON"),
            (begins + leaf, len(begins + leaf), 13, "not JSON"),
            (begins * 64, 63 * len(begins) + len(begins) - 1, 14, "nested more than 127 deep"),
            (begins + '"\u20ac", ' + leaf + "]}", len(begins), 15, "an item without exactly tag, type and value"),
            (begins + leaf.replace("0x42006A", "42006A") + "]}", len(begins), 16, "a tag is not 0x and six hexadecimal digits"),
            (begins + leaf.replace("Integer", "Number") + "]}", len(begins), 3, "unknown type"),
            (begins + leaf.replace("00000001", "0001") + "]}", len(begins), 7, "the content is no value of the type"),
            (" " + leaf, 1, 2, "the root is no Structure"),
        )
        for text, offset, kind, words in rows:
            with self.assertRaises(kmip_ttlv.Malformed) as refused:
                kmip_ttlv.from_json(text)
            self.assertEqual((refused.exception.fault, str(refused.exception)), ((offset, kind), f"at byte {offset}: {words}"))
        self.assertRaises(TypeError, kmip_ttlv.from_json, b"{}")
        self.assertRaises(UnicodeEncodeError, kmip_ttlv.from_json, "\ud800")

    def test_tag_names(self):
        """Those that the library's texts show, of each tag of KMIP and beyond."""
        for tag in [*range(0x420000, 0x420200), 0, 0xFFFFFF]:
            name = kmip_ttlv.tag_name(tag)
            shown = f"0x{tag:06X}" if name is None else f"{name} (0x{tag:06X})"
            text = kmip_ttlv.to_text(tag.to_bytes(3, "big") + b"\1" + bytes(4))
            self.assertEqual(text, f"Tag: {shown}, Type: Structure (0x01), Data:\n".replace("0x000000", "0x0000"))
        self.assertEqual((kmip_ttlv.tag_name(0x420043), kmip_ttlv.tag_name(0x540001)), ("Key Material", None))
        for tag in (1 << 24, 0x1420043, 1 << 32, (1 << 32) + 0x420043, -1):
            self.assertIsNone(kmip_ttlv.tag_name(tag))
        for wrong in ("420043", None, 1.5, True):
            self.assertRaises(TypeError, kmip_ttlv.tag_name, wrong)

    def test_value_names(self):
        """Those of the standard's table: of an Enumeration's values, and of a mask's bits."""
        values, bits = {}, {}
        with open(TAGS, encoding="utf-8") as rows:
            kinds = {row[0]: row[2] for row in (it.split("\t") for it in rows if it[0] != "#")}
        with open(VALUES, encoding="utf-8") as rows:
            for tag, value, name in (it.rstrip("\n").split("\t") for it in rows if it[0] != "#"):
                (values if "Enumeration" in kinds[tag] else bits)[int(tag, 16), int(value, 16)] = name
        self.assertEqual((len(values) > 700, len(bits) > 40), (True, True))
        for (tag, value), name in values.items():
            self.assertEqual((kmip_ttlv.value_name(tag, value), kmip_ttlv.mask_names(tag, value)), (name, None))
        for tag in {tag for tag, _ in bits}:
            names = [name for (of, _), name in bits.items() if of == tag]
            self.assertEqual(kmip_ttlv.mask_names(tag, (1 << 32) - 1), " | ".join(names))
            self.assertIsNone(kmip_ttlv.value_name(tag, 1))
        self.assertEqual([kmip_ttlv.mask_names(0x42002C, it) for it in (0, 4, 12, 1 << 31 | 8)], ["", "Encrypt", "Encrypt | Decrypt", "Decrypt"])
        for tag, value in ((0x42005C, 0xFFFFFF), (0x42005C, (1 << 32) + 1), (0x42005C, -1), (0x420069, 1), (0x142005C, 1), (-1, 1)):
            self.assertIsNone(kmip_ttlv.value_name(tag, value))
        self.assertRaises(TypeError, kmip_ttlv.value_name, 0x42005C, "1")
        self.assertRaises(TypeError, kmip_ttlv.mask_names, None, 1)

    def test_version(self):
        self.assertEqual(kmip_ttlv.version().removesuffix("-unproved"), "0.2.0")


class Walks(unittest.TestCase):
    def test_items(self):
        found = kmip_ttlv.items(DESTROY)
        self.assertEqual([(it.depth, it.tag & 0xFF) for it in found][:4], [(0, 0x78), (1, 0x77), (2, 0x69), (3, 0x6A)])
        name = next(it for it in found if it.tag == 0x420094)
        value = DESTROY[name.offset + 8 : name.offset + 8 + name.length]
        self.assertEqual(value, b"fc8833de-70d2-4ece-b063-fede3a3c59fe")

    def test_faults(self):
        self.assertIsNone(kmip_ttlv.check(DESTROY))
        begins = [it.offset for it in kmip_ttlv.items(DESTROY)] + [len(DESTROY)]
        for cut in range(len(DESTROY)):
            self.assertEqual(kmip_ttlv.check(DESTROY[:cut]), (max(at for at in begins if at <= cut), 1))
        self.assertEqual(kmip_ttlv.check(DESTROY + b"\0"), (len(DESTROY), 8))
        with self.assertRaises(kmip_ttlv.Malformed) as refused:
            kmip_ttlv.items(VERSION[:12] + b"\0\0\0\5" + VERSION[16:])
        self.assertEqual((refused.exception.fault, len(refused.exception.items)), ((8, 5), 1))

    def test_words_of_faults(self):
        rows = (
            (VERSION[:-1], 24, 1, "the bytes end within the root"),
            (VERSION[8:24], 0, 2, "the root is no Structure"),
            (b"\0" * 8, 0, 3, "unknown type"),
            (structure(b"\0" * 4), 8, 4, "fewer than eight bytes are left of the structure around"),
            (structure(bytes.fromhex("42002002000000050000000000000000")), 8, 5, "the length is none of a value of the type"),
            (structure(b"\0" * 8)[:8] + VERSION[8:24], 8, 6, "the item goes past the end of the structure around"),
            (structure(bytes.fromhex("42002006000000080000000000000002")), 8, 7, "the content is no value of the type"),
            (VERSION + VERSION, 40, 8, "further bytes follow the root"),
        )
        paths = ((0x420069,), (), (), *[(0x420020,)] * 4, ())
        for (message, offset, kind, words), path in zip(rows, paths):
            self.assertEqual(kmip_ttlv.check(message), (offset, kind))
            around = f", in 0x{path[0]:06X}" if path else ""
            for call in (kmip_ttlv.items, kmip_ttlv.decode, kmip_ttlv.to_json):
                with self.assertRaises(kmip_ttlv.Malformed) as refused:
                    call(message)
                self.assertEqual((str(refused.exception), refused.exception.path), (f"at byte {offset}{around}: {words}", path))
            with self.assertRaises(kmip_ttlv.Malformed) as refused:
                kmip_ttlv.to_diag_checked(message)
            self.assertEqual((str(refused.exception), refused.exception.path), (f"at byte {offset}: {words}", ()))
        more = ("no structure before it contains it", "its tag is no number below 2^24", "its value goes past the end of the bytes")
        more += ("with it a structure takes 2^32 bytes or more", "not JSON", "nested more than 127 deep")
        more += ("an item without exactly tag, type and value", "a tag is not 0x and six hexadecimal digits")
        self.assertEqual(kmip_ttlv.FAULTS, ("whole", *(words for _, _, _, words in rows), *more))

    def test_paths_of_faults(self):
        """The tags of the Structures around the bad item: not of those that have ended before it."""
        rows = (
            (DESTROY[:60], (0x420078, 0x420077), 56),
            (DESTROY[:72], (0x420078,), 72),
            (DESTROY[:71], (0x420078, 0x420077), 56),
            (DESTROY[:140], (0x420078, 0x42000F, 0x420079), 104),
            (EMPTY[:8] + b"\x42\0\x79\1" + bytes(4) + b"\x42\0\x69\0" + bytes(4), (0x420078,), 16),
            (DESTROY + b"\0", (), 152),
        )
        for message, path, offset in rows:
            with self.assertRaises(kmip_ttlv.Malformed) as refused:
                kmip_ttlv.decode(message)
            self.assertEqual((refused.exception.path, refused.exception.fault.offset), (path, offset))
        for depth in (1, 8, 9, 20):
            deep = bytearray(nested(depth, b"\0"))
            deep[2 : 8 * depth : 8] = range(depth)
            with self.assertRaises(kmip_ttlv.Malformed) as refused:
                kmip_ttlv.items(deep)
            self.assertEqual(refused.exception.path, tuple(range(0x420000, 0x420000 + depth)))
            shown = [f"0x4200{at:02X}" for at in range(max(depth - 8, 0), depth)]
            self.assertIn(", in " + " > ".join([".."] * (depth > 8) + shown) + ": ", str(refused.exception))

    def test_other_buffers(self):
        """What has a buffer is read by it, whatever it says of its length."""
        name = kmip_ttlv.Node(0x420020, 1, [kmip_ttlv.Node(0x420020, 8, b"12345")])
        for message in (VERSION, DESTROY, EMPTY[16:], VERSION[:-1], VERSION + b"\0", structure(byte_string(b"12345"))):
            twice = bytes(byte for byte in message for _ in range(2))
            for same in (Liar(message), bytearray(message), memoryview(message), memoryview(twice)[::2]):
                for call in (kmip_ttlv.to_diag, kmip_ttlv.to_text, kmip_ttlv.check, lambda it: kmip_ttlv.to_text(it, NAMES)):
                    self.assertEqual(call(same), call(message))
                if kmip_ttlv.check(message) is None:
                    for call in (kmip_ttlv.to_diag_checked, kmip_ttlv.to_json):
                        self.assertEqual(call(same), call(message))
                    self.assertEqual(kmip_ttlv.items(same), kmip_ttlv.items(message))
                    self.assertEqual(kmip_ttlv.decode(same), kmip_ttlv.decode(message))
                    self.assertEqual(kmip_ttlv.write(kmip_ttlv.items(message), same), message)
        for value in (Liar(b"12345"), bytearray(b"12345"), memoryview(b"12345")):
            self.assertEqual(kmip_ttlv.encode(kmip_ttlv.Node(0x420020, 1, [kmip_ttlv.Node(0x420020, 8, value)])), kmip_ttlv.encode(name))
        far = [kmip_ttlv.Item(0, 0, 0x420020, 8, 4096)]
        self.assertRaises(kmip_ttlv.BadItem, kmip_ttlv.write, far, Liar(bytes(24)))
        lent = bytearray(VERSION)
        node = kmip_ttlv.decode(lent)
        lent[:] = bytes(len(lent))
        self.assertEqual(kmip_ttlv.encode(node), VERSION)
        for call in (kmip_ttlv.to_diag, kmip_ttlv.to_text, kmip_ttlv.to_json, kmip_ttlv.items, kmip_ttlv.decode, kmip_ttlv.check):
            for wrong in ("420069", None, 40, [VERSION]):
                self.assertRaises(TypeError, call, wrong)
        self.assertRaises(TypeError, kmip_ttlv.to_diag, VERSION, b"4200")
        self.assertRaises(TypeError, kmip_ttlv.to_text, VERSION, b"420069 Version")
        self.assertRaises(TypeError, kmip_ttlv.from_diag, b"69[]")
        for call in (lambda: kmip_ttlv.to_diag(VERSION, "\ud800"), lambda: kmip_ttlv.to_text(VERSION, "\ud800"), lambda: kmip_ttlv.from_diag("\ud800")):
            self.assertRaises(UnicodeEncodeError, call)

    def test_large_messages(self):
        count = 120_000
        message = structure(byte_string(b"12345678") * count)
        self.assertEqual(len(message), 8 + 16 * count)
        self.assertIsNone(kmip_ttlv.check(message))
        found = kmip_ttlv.items(message)
        self.assertEqual((len(found), found[-1]), (count + 1, (8 + 16 * (count - 1), 1, 0x420020, 8, 8)))
        self.assertEqual(kmip_ttlv.write(found, message), message)
        self.assertEqual(kmip_ttlv.encode(kmip_ttlv.decode(message)), message)
        self.assertEqual(kmip_ttlv.to_diag(message, "420020"), "[" + "o" * count + "]")
        self.assertEqual(kmip_ttlv.to_text(message).count("Data: 3132333435363738\n"), count)

    def test_growth(self):
        """A message costs no more for being deep: as many items and bytes, side by side and each in the one before."""

        def seconds(message):
            begun = time.process_time()
            node = kmip_ttlv.decode(message)
            self.assertEqual(kmip_ttlv.encode(node), message)
            return time.process_time() - begun

        leaf, depth = byte_string(bytes(1_000_000)), 50_000
        flat = min(seconds(structure(nested(1) * depth + leaf)) for _ in range(2))
        self.assertLess(seconds(nested(depth, leaf)), 5 * flat + 0.5)

    def test_values(self):
        major, minor = kmip_ttlv.Node(0x42006A, 2, 1), kmip_ttlv.Node(0x42006B, 2, 0)
        version = kmip_ttlv.Node(0x420069, 1, [major, minor])
        self.assertEqual(kmip_ttlv.decode(VERSION), version)
        header, item = kmip_ttlv.decode(DESTROY).value
        self.assertEqual(header, (0x420077, 1, [version, (0x42000D, 2, 1)]))
        name = kmip_ttlv.Node(0x420094, 7, "fc8833de-70d2-4ece-b063-fede3a3c59fe")
        self.assertEqual(item, (0x42000F, 1, [(0x42005C, 5, 0x14), (0x420079, 1, [name])]))
        # the standard's examples of encodings (9.1.2), and values at the ends of their ranges
        rows = (
            ("02 00000004 00000008 00000000", 8),
            ("02 00000004 FFFFFFFF 00000000", -1),
            ("03 00000008 01B69B4BA5749200", 123456789000000000),
            ("04 00000010 0000000003FD35EB6BC2DF4618080000", 1234567890000000000000000000),
            ("04 00000008 FFFFFFFFFFFFFFFE", -2),
            ("05 00000004 000000FF 00000000", 255),
            ("05 00000004 FFFFFFFF 00000000", 0xFFFFFFFF),
            ("06 00000008 0000000000000001", True),
            ("06 00000008 0000000000000000", False),
            ("07 0000000B 48656C6C6F20576F726C640000000000", "Hello World"),
            ("08 00000003 0102030000000000", b"\1\2\3"),
            ("09 00000008 0000000047DA67F8", datetime(2008, 3, 14, 11, 56, 40, tzinfo=timezone.utc)),
            ("09 00000008 7FFFFFFFFFFFFFFF", 0x7FFFFFFFFFFFFFFF),
            ("0A 00000004 000D2F00 00000000", 10 * 24 * 60 * 60),
            ("01 00000000", []),
        )
        for text, value in rows:
            leaf = bytes.fromhex("420020" + text)
            root = kmip_ttlv.decode(bytes.fromhex("42002001") + len(leaf).to_bytes(4, "big") + leaf)
            self.assertEqual(root, (0x420020, 1, [(0x420020, leaf[3], value)]))
            self.assertIs(type(root.value[0].value), type(value))
            self.assertEqual(kmip_ttlv.encode(root), bytes.fromhex("42002001") + len(leaf).to_bytes(4, "big") + leaf)
        with self.assertRaises(kmip_ttlv.Malformed):
            kmip_ttlv.decode(VERSION[:-1])

    def test_deep_values(self):
        depth = 20000
        message = nested(depth)
        node, count = kmip_ttlv.decode(message), 1
        self.assertEqual(kmip_ttlv.encode(node), message)
        self.assertTrue(node == kmip_ttlv.decode(message) and not node != kmip_ttlv.decode(message))
        self.assertTrue(node != kmip_ttlv.decode(nested(depth - 1)) and not node == kmip_ttlv.decode(nested(depth - 1)))
        shown = "Node(tag=4325408, typ=1, value=["
        self.assertEqual(repr(node), shown * depth + "])" * depth)
        while node.value:
            (node,), count = node.value, count + 1
        self.assertEqual(count, depth)

    def test_nodes(self):
        """Comparing, printing and hashing are those of tuples, but take no stack."""
        node = kmip_ttlv.Node
        leaf, other = node(0x420020, 2, 1), node(0x420020, 2, 2)
        self.assertEqual(repr(node(1, 1, [leaf, node(2, 1, []), leaf])), f"Node(tag=1, typ=1, value=[{leaf!r}, Node(tag=2, typ=1, value=[]), {leaf!r}])")
        self.assertEqual(repr(leaf), "Node(tag=4325408, typ=2, value=1)")
        self.assertEqual(repr(node("a", b"b", None)), "Node(tag='a', typ=b'b', value=None)")
        self.assertEqual(repr(node([], 8, b"b")), "Node(tag=[], typ=8, value=b'b')")
        self.assertEqual(repr(node(1, 1, ["a", (1,)])), "Node(tag=1, typ=1, value=['a', (1,)])")
        self.assertTrue(leaf == (0x420020, 2, 1) and (0x420020, 2, 1) == leaf and leaf != other and leaf != (0x420020, 2))
        self.assertTrue(leaf != [0x420020, 2, 1] and leaf != 5 and node(1, 1, [leaf]) != node(1, 1, [other]))
        self.assertTrue(node(1, 1, [leaf]) != node(1, 1, (leaf,)) and node(1, 1, [leaf, leaf]) != node(1, 1, [leaf]))
        self.assertEqual(len({leaf, node(0x420020, 2, 1), other}), 2)
        one, two = node(1, 1, []), node(1, 1, [])
        one.value.append(one)
        two.value.append(two)
        self.assertTrue(one == two and not one != two and one != node(1, 1, [leaf]))
        self.assertEqual(repr(one), "Node(tag=1, typ=1, value=[Node(tag=1, typ=1, value=[...])])")

    def test_secrets(self):
        """`repr` hides what has a secret tag, and what is in a Structure that has one, and shows all else."""
        node = kmip_ttlv.Node
        with open(TAGS, encoding="utf-8") as it:
            rows = [line.rstrip("\n").split("\t") for line in it if not line.startswith("#")]
        for number, _, _, mark in rows:
            tag = int(number, 16)
            shown = "<redacted>" if mark == "secret" else "b'0123456789'"
            self.assertEqual(repr(node(tag, 8, b"0123456789")), f"Node(tag={tag}, typ=8, value={shown})")
        kind, material = node(0x420042, 5, 1), node(0x420043, 8, b"0123456789")
        block = node(0x420040, 1, [kind, node(0x420045, 1, [material, node(0x42000D, 2, 7)])])
        for shown in (repr(block), str(block), f"{block}"):
            self.assertEqual(shown, f"Node(tag=4325440, typ=1, value=[{kind!r}, Node(tag=4325445, typ=1, value=<redacted>)])")
        self.assertEqual(repr([material]), "[Node(tag=4325443, typ=8, value=<redacted>)]")
        self.assertEqual(repr(node(0x420020, 1, (material,))), "Node(tag=4325408, typ=1, value=(Node(tag=4325443, typ=8, value=<redacted>),))")
        self.assertEqual(block.value[1].value[0].value, b"0123456789")

    def test_big_integers(self):
        """What is decoded is encoded in the fewest bytes, a multiple of eight, that hold it, whatever bytes it came with."""

        def fewest(value):
            for size in range(8, 1000, 8):
                try:
                    return value.to_bytes(size, "big", signed=True)
                except OverflowError:
                    pass

        ends = [sign << bits for bits in range(1, 400) for sign in (1, -1)]
        for value in sorted({end + more for end in ends for more in (-1, 0, 1)}):
            content = fewest(value)
            leaf = bytes.fromhex("42002004") + len(content).to_bytes(4, "big") + content
            root = kmip_ttlv.Node(0x420020, 1, [kmip_ttlv.Node(0x420020, 4, value)])
            self.assertEqual(kmip_ttlv.encode(root), structure(leaf))
            self.assertEqual(kmip_ttlv.decode(structure(leaf)), root)
            long = (b"\xff" if value < 0 else b"\0") * 16 + content
            long = structure(bytes.fromhex("42002004") + len(long).to_bytes(4, "big") + long)
            self.assertEqual(kmip_ttlv.encode(kmip_ttlv.decode(long)), structure(leaf))
            self.assertEqual(kmip_ttlv.write(kmip_ttlv.items(long), long), long)
        least = bytes.fromhex("420078010000001042002E04000000088000000000000000")
        self.assertEqual(kmip_ttlv.decode(least).value[0].value, -(2**63))
        self.assertEqual(kmip_ttlv.encode(kmip_ttlv.decode(least)), least)

    def test_encoding(self):
        node = kmip_ttlv.Node
        for message in (VERSION, DESTROY):
            self.assertEqual(kmip_ttlv.encode(kmip_ttlv.decode(message)), message)
            self.assertEqual(kmip_ttlv.write(kmip_ttlv.items(message), message), message)
        version = node(0x420069, 1, [node(0x42006A, 2, 1), node(0x42006B, 2, 0)])
        header = node(0x420077, 1, [version, node(0x42000D, 2, 1)])
        name = node(0x420094, 7, "fc8833de-70d2-4ece-b063-fede3a3c59fe")
        item = node(0x42000F, 1, [node(0x42005C, 5, 0x14), node(0x420079, 1, [name])])
        self.assertEqual(kmip_ttlv.encode(node(0x420078, 1, [header, item])), DESTROY)
        self.assertEqual(kmip_ttlv.encode(name)[:8].hex(), "4200940700000024")
        values = [(2, -(2**31)), (3, 2**63 - 1), (4, 0), (4, -(2**63)), (4, 2**63), (5, 2**32 - 1), (6, True), (7, ""), (7, "\u00e9")]
        values += [(8, b""), (8, b"12345678"), (9, datetime(1969, 12, 31, 23, 59, 59, tzinfo=timezone.utc)), (9, -(2**63)), (10, 0)]
        root = node(0x420020, 1, [node(0x420020, typ, value) for typ, value in values] + [node(0, 1, []), node(0xFFFFFF, 1, [])])
        self.assertEqual(kmip_ttlv.decode(kmip_ttlv.encode(root)), root)
        dirty = VERSION[:23] + b"\1" + VERSION[24:]
        self.assertEqual(kmip_ttlv.encode(kmip_ttlv.decode(dirty)), VERSION)
        self.assertEqual(kmip_ttlv.write(kmip_ttlv.items(dirty), dirty), VERSION)
        self.assertEqual(kmip_ttlv.write([], b""), b"")

    def refused(self, call, *words):
        """The BadItem that a call raises."""
        with self.assertRaises(kmip_ttlv.BadItem) as refused:
            call(*words)
        return refused.exception

    def test_bad_items(self):
        node, good = kmip_ttlv.Node, kmip_ttlv.Node(0x420020, 2, 1)
        bad = [(2**24, 2, 1), (-1, 2, 1), (0x420020, 11, 1), (0x420020, 0, 1), (0x420020, 2, 2**31), (0x420020, 2, "1")]
        bad += [(0x420020, 3, 2**63), (0x420020, 4, 1.5), (0x420020, 5, -1), (0x420020, 6, 1), (0x420020, 7, b"a")]
        bad += [(0x420020, 7, "\ud800"), (0x420020, 8, "a"), (0x420020, 8, 3), (0x420020, 9, datetime(2008, 3, 14)), (0x420020, 10, 2**32)]
        bad += [(0x420020, 9, datetime(2008, 3, 14, 0, 0, 0, 1, tzinfo=timezone.utc)), (0x420020, 1, 1), ("a", 2, 1), (0x420020, 2), None]
        # numbers that are no int, and texts and structures that are none
        bad += [(wrong, 2, 1) for wrong in (1.5, 2.0, True, "1", None, decimal.Decimal(1))]
        bad += [(0x420020, wrong, 1) for wrong in (1.0, 2.0, True, "2", None)]
        bad += [(0x420020, typ, wrong) for typ in (2, 3, 4, 5, 9, 10) for wrong in (1.0, 2.5, True, False, None, "1", b"1", [1])]
        bad += [(0x420020, 7, wrong) for wrong in (1, None, ["a"], "a\udfffb")] + [(0x420020, 8, wrong) for wrong in (None, 1.5, [1])]
        bad += [(0x420020, 1, wrong) for wrong in (None, "ab", b"", {}, good, iter([]))] + [(0x420020, 6, wrong) for wrong in (0, 1.0, None)]
        bad += [(0x420020, 9, datetime(2008, 3, 14, tzinfo=tzinfo())), (10**5000, 2, 1), (0x420020, 10**5000, 1), (0x420020, 3, 10**5000)]
        bad += [(), (0x420020,), (0x420020, 2, 1, 1), "abc", 5, object()]
        for it in bad:
            root = node(0x420020, 1, [good, node(0x420020, 1, [good]), node(*it) if isinstance(it, tuple) and len(it) == 3 else it, good])
            with self.assertRaises(kmip_ttlv.BadItem) as refused:
                kmip_ttlv.encode(root)
            self.assertEqual((refused.exception.index, refused.exception.path), (4, (2,)), it)
            self.assertIn("item 4, root.value[2]", str(refused.exception))
        self.assertEqual(str(self.refused(kmip_ttlv.encode, node(0x420020, 2, 1.0))), "item 0 (tag 0x420020): its value is no int")
        self.assertEqual(self.refused(kmip_ttlv.encode, (1, 2)).why, "it is no Node, which has a tag, a typ and a value")
        around = node(0x420020, 1, [good])
        around.value.append(node(0x420020, 1, [around]))
        self.assertEqual((self.refused(kmip_ttlv.encode, around).index, self.refused(kmip_ttlv.encode, around).why), (3, "it contains itself"))
        self.assertEqual(str(self.refused(kmip_ttlv.encode, around)), "item 3, root.value[1].value[0] (tag 0x420020): it contains itself")
        # a node in several places is no cycle, and a plain tuple or an enum does for a node or a number
        twice = node(0x420020, 1, [node(0x420020, 1, [good])] * 2)
        self.assertEqual(kmip_ttlv.decode(kmip_ttlv.encode(twice)), twice)
        self.assertEqual(kmip_ttlv.encode((0x420020, 1, ((0x420020, 2, 1),))), kmip_ttlv.encode(node(0x420020, 1, [good])))
        tags = enum.IntEnum("tags", {"TAG": 0x420020})
        self.assertEqual(kmip_ttlv.encode(node(tags.TAG, 1, [good])), kmip_ttlv.encode(node(0x420020, 1, [good])))
        west = datetime(2008, 3, 14, 3, 56, 40, tzinfo=timezone(timedelta(hours=-8)))
        self.assertEqual(kmip_ttlv.encode(node(0x420020, 9, west))[8:].hex(), "0000000047da67f8")
        item, lent = kmip_ttlv.Item, bytes(24)
        root = item(0, 0, 0x420020, 1, 0)
        rows = (
            ([item(0, 1, 0x420020, 2, 4)], 0, 9),
            ([root, item(0, 2, 0x420020, 2, 4)], 1, 9),
            ([root, item(0, 1, 0x420020, 2, 4), item(0, 2, 0x420020, 2, 4)], 2, 9),
            ([root, item(0, 1, 2**24, 2, 4)], 1, 10),
            ([root, item(0, 1, 0x420020, 11, 4)], 1, 3),
            ([root, item(0, 1, 0x420020, 2, 5)], 1, 5),
            ([root, item(13, 1, 0x420020, 2, 4)], 1, 11),
            ([root, item(2**64 - 1, 1, 0x420020, 2, 4)], 1, 11),
            ([root, item(0, 1, 0x420020, 8, 17)], 1, 11),
        )
        for found, index, kind in rows:
            with self.assertRaises(kmip_ttlv.BadItem) as refused:
                kmip_ttlv.write(found, lent)
            self.assertEqual((refused.exception.index, refused.exception.why), (index, kmip_ttlv.FAULTS[kind]))
        for typ, length, content in ((6, 8, b"\0" * 7 + b"\2"), (7, 1, b"\xff")):
            with self.assertRaises(kmip_ttlv.BadItem) as refused:
                kmip_ttlv.write([root, item(0, 1, 0x420020, typ, length)], bytes(8) + content)
            self.assertEqual((refused.exception.index, refused.exception.why), (1, kmip_ttlv.FAULTS[7]))
        # each number of an item: none, negative, or too large for its field
        good = (0, 1, 0x420020, 2, 4)
        self.assertEqual(kmip_ttlv.write([root, good], lent).hex(), "420020010000001042002002000000040000000000000000")
        for field, limit in enumerate((2**64, 2**64, 2**32, 2**32, 2**32)):
            for wrong in (-1, limit, limit + good[field], 1.0, 0.5, True, "1", None):
                bad = [*good[:field], wrong, *good[field + 1 :]]
                for one in (item(*bad), tuple(bad), bad):
                    self.assertEqual(self.refused(kmip_ttlv.write, [root, one], lent).index, 1, bad)
        for wrong in (good[:4], (*good, 0), (0, 0, 1), (), None, 5, "abcde", iter(good)):
            self.assertEqual(self.refused(kmip_ttlv.write, [root, wrong], lent).why, "it is no Item, which has five numbers")
        # sixteen thousand times the same quarter of a megabyte: the item with which the root passes four bytes
        large = [root] + [item(0, 1, 0x420020, 8, 2**18 - 8)] * (2**14 + 1)
        with self.assertRaises(kmip_ttlv.BadItem) as refused:
            kmip_ttlv.write(large, bytes(2**18))
        self.assertEqual((refused.exception.index, refused.exception.why), (2**14, kmip_ttlv.FAULTS[12]))

    def test_paths_of_nodes(self):
        """The indices that lead to a node that can't be encoded, whoever finds that."""
        node = kmip_ttlv.Node
        leaf, bad = node(0x42000D, 2, 1), node(0x42000E, 2, "1")
        rows = (
            (bad, 0, ()),
            (node(0x420078, 1, [bad]), 1, (0,)),
            (node(0x420078, 1, [leaf, node(0x420077, 1, [leaf, node(0x420069, 1, []), bad]), leaf]), 5, (1, 2)),
            (node(0x420078, 1, [node(0x420077, 1, [node(0x420069, 1, [leaf])]), node(0x420077, 1, []), node(0x420077, 1, [bad])]), 6, (2, 0)),
        )
        for root, index, path in rows:
            refused = self.refused(kmip_ttlv.encode, root)
            self.assertEqual((refused.index, refused.path, refused.why), (index, path, "its value is no int"))
            for at in path:
                root = root.value[at]
            self.assertIs(root, bad)
        late = node(0x420078, 1, [node(0x420077, 1, [leaf]), leaf])
        with mock.patch.object(kmip_ttlv, "write", side_effect=kmip_ttlv.BadItem(3, "too late")):
            refused = self.refused(kmip_ttlv.encode, late)
        self.assertEqual((str(refused), refused.path), ("item 3, root.value[1] (tag 0x42000D): too late", (1,)))
        self.assertIsNone(self.refused(kmip_ttlv.write, [None], b"").path)

    def test_refusals(self):
        with self.assertRaises(kmip_ttlv.BadNames) as refused:
            kmip_ttlv.to_text(VERSION, "42006A Major\nMinor\n")
        self.assertEqual(refused.exception.line, 2)

    def test_bad_lines(self):
        rows = ((NAMES, 1024, kmip_ttlv.OK, 0), (NAMES, 0, kmip_ttlv.NO_ROOM, 0), ("\nMajor", 1024, kmip_ttlv.BAD_NAMES, 2))
        for names, room, status, line in rows:
            lent = (names.encode(), len(names))
            for call in (
                lambda *out: kmip_ttlv._to_text(VERSION, len(VERSION), *lent, False, 2**20, *out),
                lambda *out: kmip_ttlv._from_diag(b"69[]", 4, b"4200", 4, *lent, 2**20, *out),
            ):
                out, length, told = ctypes.create_string_buffer(1024), ctypes.c_size_t(9), ctypes.c_size_t(9)
                self.assertEqual(call(out, room, ctypes.byref(length), ctypes.byref(told)), status)
                self.assertEqual(told.value, line)

    def test_hostile_bytes(self):
        chance = random.Random(20251123)
        for _ in range(10_000):
            message = bytearray(chance.choice((VERSION, DESTROY)))
            for _ in range(chance.randrange(4)):
                message[chance.randrange(len(message))] ^= 1 << chance.randrange(8)
            message = bytes(message[: chance.randrange(len(message) + 1)])
            fault = kmip_ttlv.check(message)
            diagnostic = kmip_ttlv.to_diag(message)
            if fault is None:
                self.assertEqual(len(kmip_ttlv.items(message)), kmip_ttlv.from_diag(diagnostic).count("Tag: "))
                written = kmip_ttlv.write(kmip_ttlv.items(message), message)
                self.assertEqual(kmip_ttlv.items(written), kmip_ttlv.items(message))
                # of these only a Big Integer can be written in other bytes, namely fewer
                again = kmip_ttlv.encode(kmip_ttlv.decode(message))
                self.assertEqual(kmip_ttlv.decode(again), kmip_ttlv.decode(message))
                self.assertEqual(kmip_ttlv.encode(kmip_ttlv.decode(again)), again)
                if all(it.typ != 4 for it in kmip_ttlv.items(message)):
                    self.assertEqual(again, written)
            else:
                self.assertRaises(kmip_ttlv.Malformed, kmip_ttlv.items, message)
                self.assertLessEqual(fault.offset, len(message))


if __name__ == "__main__":
    unittest.main(verbosity=0)
