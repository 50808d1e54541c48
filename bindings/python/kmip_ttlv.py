"""TTLV, the encoding of OASIS KMIP: prints, redacts, lists, checks, decodes and encodes messages, as JSON too.

`pip install` the folder that this file is in, as `./install` or the build of the C library made it. Or copy this file and
kmip_ttlv_names.py beside libkmip_ttlv.so; or set KMIP_TTLV_LIBRARY to the path of the library. Importing it raises ImportError if the
library is of another version.

Bytes are passed as `bytes`, `bytearray`, `memoryview`, or anything else with a buffer; what isn't `bytes` is copied first. Each call
can raise MemoryError, and TypeError for an argument of another type.
"""
import ctypes
import functools
import os
from collections import namedtuple
from datetime import datetime, timedelta, timezone

from kmip_ttlv_names import SECRET_TAGS

__all__ = ["check", "decode", "encode", "from_diag", "from_json", "items", "mask_names", "tag_name", "to_diag", "to_diag_checked", "to_json"]
__all__ += ["to_text", "value_name", "version", "write"]
__all__ += ["FAULTS", "Fault", "Item", "Node", "BadItem", "Malformed", "BadNames"]

# The version of the library that the calls below are declared for.
_VERSION = "0.2.0"


def _loaded(path):
    """Returns the library at a path. Raises ImportError if it is of another version than this module."""
    library, out, length = ctypes.CDLL(path), ctypes.create_string_buffer(64), ctypes.c_size_t()
    library.kmip_ttlv_version(out, ctypes.c_size_t(64), ctypes.byref(length))
    found = out.value.decode("ascii", "replace")
    if found.removesuffix("-unproved") != _VERSION:
        raise ImportError(f"the library is of version {found}, and this module needs {_VERSION}", name=__name__, path=path)
    return library


_here = os.path.dirname(os.path.abspath(__file__))
_library = _loaded(os.environ.get("KMIP_TTLV_LIBRARY") or os.path.join(_here, "libkmip_ttlv.so"))

OK, OUT_OF_MEMORY, NOT_UTF8, NO_ROOM, MALFORMED, BAD_NAMES, BAD_ARGUMENT, NO_NAME = range(8)

# What is wrong with a message, with an item to write, or with JSON, by the kind of the fault.
FAULTS = (
    "whole",
    "the bytes end within the root",
    "the root is no Structure",
    "unknown type",
    "fewer than eight bytes are left of the structure around",
    "the length is none of a value of the type",
    "the item goes past the end of the structure around",
    "the content is no value of the type",
    "further bytes follow the root",
    "no structure before it contains it",
    "its tag is no number below 2^24",
    "its value goes past the end of the bytes",
    "with it a structure takes 2^32 bytes or more",
    "not JSON",
    "nested more than 127 deep",
    "an item without exactly tag, type and value",
    "a tag is not 0x and six hexadecimal digits",
)

# offset: of the header, in bytes from the first; depth: the structures around; length: of the value, in bytes
Item = namedtuple("Item", "offset depth tag typ length")


class Node(namedtuple("Node", "tag typ value")):
    """tag: its number; typ: its code; value: a list of nodes for a Structure, or the value as Python has it (see decode).

    Comparing and printing take no stack, however deep a node is. `repr` shows each value but those of secret tags, which can hold a key,
    data to encrypt or decrypt, or proof of identity, and what is in a Structure that has such a tag: it shows these as <redacted>.
    """

    __slots__ = ()
    __hash__ = tuple.__hash__

    def __eq__(self, other):
        if not isinstance(other, tuple):
            return NotImplemented
        waiting, compared = [(self, other)], set()
        while waiting:
            one, two = waiting.pop()
            if isinstance(one, tuple) and isinstance(two, tuple) or isinstance(one, list) and isinstance(two, list):
                if len(one) != len(two):
                    return False
                # a node that contains itself is met again
                if one is not two and (id(one), id(two)) not in compared:
                    compared.add((id(one), id(two)))
                    waiting += zip(one, two)
            elif one is not two and one != two:
                return False
        return True

    def __ne__(self, other):
        same = self.__eq__(other)
        return same if same is NotImplemented else not same

    def __repr__(self):
        parts, waiting, around = [], [self], set()
        while waiting:
            it = waiting.pop()
            if isinstance(it, _Part):
                parts.append(it)
                around.discard(it.of)
            elif isinstance(it, Node) and isinstance(it.tag, int) and it.tag in SECRET_TAGS:
                parts.append(f"Node(tag={it.tag!r}, typ={it.typ!r}, value=<redacted>)")
            elif isinstance(it, Node) and isinstance(it.value, list) and id(it.value) not in around:
                parts.append(f"Node(tag={it.tag!r}, typ={it.typ!r}, value=[")
                around.add(id(it.value))
                waiting.append(_Part("])", id(it.value)))
                for index in range(len(it.value) - 1, -1, -1):
                    waiting.append(it.value[index])
                    waiting += [_Part(", ")] if index else []
            elif isinstance(it, Node):
                value = "[...]" if id(it.value) in around else repr(it.value)
                parts.append(f"Node(tag={it.tag!r}, typ={it.typ!r}, value={value})")
            else:
                parts.append(repr(it))
        return "".join(parts)


class _Part(str):
    """A part of what a node prints as, and the list that ends with it."""

    def __new__(cls, text, of=None):
        part = super().__new__(cls, text)
        part.of = of
        return part


# offset: of the bad item, in bytes from the first; kind: an index into FAULTS
Fault = namedtuple("Fault", "offset kind")


class Malformed(ValueError):
    """The bytes are not one whole message; `fault` is what is wrong, `items` are the items before it, and `path` the tags of the Structures
    around it, the outermost first. (Of redacted texts both are empty: in malformed bytes those of a key may stand where a tag is expected.)
    Or a text is not the JSON of a message: then the fault's offset is in bytes of the text, and both are empty.
    """

    def __init__(self, fault, found):
        self.fault, self.items = fault, found
        # of those before it, the Structures that end behind where it begins
        self.path = tuple(it.tag for it in found if fault.offset < it.offset + 8 + it.length)
        inner = [f"0x{tag:06X}" for tag in self.path[-8:]]
        around = ", in " + " > ".join([".."] * (len(self.path) > 8) + inner) if inner else ""
        super().__init__(f"at byte {fault.offset}{around}: {FAULTS[fault.kind]}")


class BadItem(ValueError):
    """An item can't be written: `index` is its index in document order, from 0, `why` what is wrong with it. Of a node `path` has the
    indices that lead to it from the root, as (1, 0) to root.value[1].value[0], and of an item of a flat list it is None.
    """

    def __init__(self, index, why, tag=None, path=None):
        where = f", root{''.join(f'.value[{it}]' for it in path)}" if path else ""
        super().__init__(f"item {index}{where}{'' if tag is None else f' (tag 0x{tag:06X})'}: {why}")
        self.index, self.why, self.path = index, why, path


class BadNames(ValueError):
    """A line of a table of names can't be parsed; `line` is its number, from 1."""

    def __init__(self, line):
        super().__init__(f"line {line} of the table of names can't be read")
        self.line = line


class _Item(ctypes.Structure):
    _fields_ = [(name, ctypes.c_size_t) for name in ("offset", "depth")]
    _fields_ += [(name, ctypes.c_uint32) for name in ("tag", "typ", "length")]


class _Fault(ctypes.Structure):
    _fields_ = [("offset", ctypes.c_size_t), ("kind", ctypes.c_uint32)]


class _BadItem(ctypes.Structure):
    _fields_ = [("index", ctypes.c_size_t), ("kind", ctypes.c_uint32)]


_size = ctypes.c_size_t
_sizes = ctypes.POINTER(_size)
_lent = [ctypes.c_char_p, _size]


def _call(name, *kinds):
    call = getattr(_library, "kmip_ttlv_" + name)
    call.argtypes, call.restype = [it for kind in kinds for it in (kind if isinstance(kind, list) else [kind])], ctypes.c_uint32
    return call


_to_diag = _call("to_diag", _lent, _lent, ctypes.c_bool, _lent, _sizes, _sizes)
_to_diag_checked = _call("to_diag_checked", _lent, _lent, _lent, _sizes, ctypes.POINTER(_Fault))
_to_text = _call("to_text", _lent, _lent, ctypes.c_bool, _size, _lent, _sizes, _sizes)
_to_standard_text = _call("to_standard_text", _lent, ctypes.c_bool, _size, _lent, _sizes)
_to_redacted_text = _call("to_redacted_text", _lent, _size, _lent, _sizes, ctypes.POINTER(_Fault))
_from_diag = _call("from_diag", _lent, _lent, _lent, _size, _lent, _sizes, _sizes)
_to_json = _call("to_json", _lent, ctypes.c_uint32, _lent, _sizes, ctypes.POINTER(_Fault))
_from_json = _call("from_json", _lent, _lent, _sizes, ctypes.POINTER(_Fault))
_tag_name = _call("tag_name", ctypes.c_uint32, _lent, _sizes)
_value_name = _call("value_name", ctypes.c_uint32, ctypes.c_uint32, _lent, _sizes)
_mask_names = _call("mask_names", ctypes.c_uint32, ctypes.c_uint32, _lent, _sizes)
_items = _call("items", _lent, ctypes.POINTER(_Item), _size, _sizes, ctypes.POINTER(_Fault))
_check = _call("check", _lent, ctypes.POINTER(_Fault))
_write = _call("write", ctypes.POINTER(_Item), _size, _lent, _lent, _sizes, ctypes.POINTER(_BadItem))
_version = _call("version", _lent, _sizes)

# One more than the largest number of a C type.
_SIZES, _NUMBERS = 1 << 8 * ctypes.sizeof(_size), 1 << 32


def _bytes(message):
    """Returns the bytes of an object by its buffer: what a subclass says of its length could be false."""
    return message if type(message) is bytes else memoryview(message).tobytes()


def _utf8(text):
    """Returns a text in UTF-8. Raises UnicodeEncodeError for a surrogate."""
    if not isinstance(text, str):
        raise TypeError("a text is no str")
    return str.encode(text, "utf-8")


def _int(number, what):
    """Returns an int as it is, whatever a subclass says; a bool, a float and what else is none raise TypeError."""
    if not isinstance(number, int) or isinstance(number, bool):
        raise TypeError(f"{what} is no int")
    return int.__index__(number)


def _limit(limit, usual):
    """Returns how much memory a text may take: what was asked for, or what is usual."""
    limit = usual if limit is None else _int(limit, "the limit")
    if limit < 0:
        raise ValueError("the limit is negative")
    return min(limit, _SIZES - 1)


def _filled(call, room, *further):
    """Returns what a call writes that takes a buffer of `room` bytes, a length and further objects to set."""
    length = _size()
    while True:
        out = ctypes.create_string_buffer(room + 1)
        status = call(out, room, ctypes.byref(length), *(ctypes.byref(it) for it in further))
        if status == OK:
            return ctypes.string_at(out, length.value)
        if status != NO_ROOM:
            raise _refusal(status, further)
        room = length.value


def _text(call, room, *further):
    """Returns the text that a call writes."""
    return _filled(call, room, *further).decode("utf-8")


def _refusal(status, further=()):
    """Returns the exception that a status means."""
    if status == OUT_OF_MEMORY:
        return MemoryError("out of memory, or the text takes more than its limit")
    if status == NOT_UTF8:
        return UnicodeError("a text is not UTF-8")
    if status == MALFORMED:
        return Malformed(Fault(further[0].offset, further[0].kind), [])
    if status == NO_NAME:
        return LookupError("there is no name")
    return BadNames(further[0].value)


def to_diag(message, prefix="", closed=True):
    """Returns the redacted diagnostic of any bytes: tags without a prefix, types, nesting, enumeration values.

    Call check first, or to_diag_checked: of bytes that aren't one whole message it shows the items up to where they can't be read, which may have key
    bytes where a tag is expected, and of two messages the first. It ends with ERR if an item can't be read.

    With closed=False, as the Rust crate kmip-ttlv has it, an empty structure stays open until the structure around it ends: what follows
    is shown as if it were in it, and a message that is an empty structure ends with ERR although it is whole.
    """
    message, prefix, count = _bytes(message), _utf8(prefix), _size()
    return _text(lambda *out: _to_diag(message, len(message), prefix, len(prefix), not closed, *out), len(message) + 64, count)


def to_diag_checked(message, prefix=""):
    """Returns the redacted diagnostic of one whole message, as to_diag does. Raises Malformed, without any item, for all other bytes.

    So what goes to a log is a function of tags, types, nesting and enumeration values, or of where the bytes aren't a message.
    """
    message, prefix, fault = _bytes(message), _utf8(prefix), _Fault()
    return _text(lambda *out: _to_diag_checked(message, len(message), prefix, len(prefix), *out), len(message) + 64, fault)


@functools.lru_cache(maxsize=4096)
def _named(call, *numbers):
    """Returns the name that a call, named without its prefix, has for some numbers, or None. Names are kept: a call makes a table first."""
    if not all(0 <= number < _NUMBERS for number in numbers):
        return None
    try:
        return _text(lambda *out: globals()[f"_{call}"](*numbers, *out), 64)
    except LookupError:
        return None


def tag_name(tag):
    """Returns the name that the KMIP specifications give a tag's number, or None."""
    return _named("tag_name", _int(tag, "the tag"))


def value_name(tag, value):
    """Returns the name that they give a value of the Enumeration with this tag, or None."""
    return _named("value_name", _int(tag, "the tag"), _int(value, "the value"))


def mask_names(tag, mask):
    """Returns the names that they give the bits that are set in a mask with this tag, as "Encrypt | Decrypt"; None if it is the tag of no mask."""
    return _named("mask_names", _int(tag, "the tag"), _int(mask, "the mask"))


def to_text(message, names=None, closed=True, limit=None, redact=False):
    """Returns any bytes as readable text with every value, and KMIP's tag names or those of a table of lines `TAG NAME`.

    It ends with a line `ERROR: ..` if an item can't be read, or goes past the end of its structure. Texts keep their control
    characters. Of two messages it shows the first.

    `limit` is how many bytes of memory the library may hold to make it; if it needs more, MemoryError is raised. While a text grows it
    takes up to three times its length. By default the limit is 64 for each byte of the message, 16 for each of the table, and a mebibyte:
    each line is indented by its depth, so the text of n structures, each in the one before, has n * n bytes.

    With closed=False an empty structure stays open as in to_diag, so the text of n empty ones side by side has n * n bytes too.

    With redact=True no value is shown but those of Enumerations, in hexadecimal: it is what from_diag says of to_diag_checked, so it raises
    Malformed, without any item, for bytes that aren't one whole message. Empty structures are closed.
    """
    message = _bytes(message)
    room = 4 * len(message) + 256
    if redact and not closed:
        raise ValueError("a redacted text closes empty structures")
    if redact and names is not None:
        return from_diag(to_diag_checked(message), names=names, limit=limit)
    if redact:
        limit, fault = _limit(limit, 64 * len(message) + (1 << 20)), _Fault()
        return _text(lambda *out: _to_redacted_text(message, len(message), limit, *out), room, fault)
    if names is None:
        limit = _limit(limit, 64 * len(message) + (1 << 20))
        return _text(lambda *out: _to_standard_text(message, len(message), not closed, limit, *out), room)
    names, line = _utf8(names), _size()
    limit = _limit(limit, 64 * len(message) + 16 * len(names) + (1 << 20))
    return _text(lambda *out: _to_text(message, len(message), names, len(names), not closed, limit, *out), room, line)


def from_diag(diagnostic, prefix="", names="", limit=None):
    """Reads a diagnostic back as lines, up to where it stops being one, with `<redacted>` in place of values that it doesn't show.

    `limit` is as in to_text; by default it is 512 bytes for each of the diagnostic, 16 for each of the table, and a mebibyte.
    """
    diagnostic, prefix, names, line = _utf8(diagnostic), _utf8(prefix), _utf8(names), _size()
    limit = _limit(limit, 512 * len(diagnostic) + 16 * len(names) + (1 << 20))
    lent = (diagnostic, len(diagnostic), prefix, len(prefix), names, len(names), limit)
    return _text(lambda *out: _from_diag(*lent, *out), 8 * len(diagnostic) + 256, line)


def items(message):
    """Returns the items of a message in document order. Raises Malformed if the bytes are not one whole message."""
    message = _bytes(message)
    room = len(message) // 8 + 1
    out, count, fault = (_Item * room)(), _size(), _Fault()
    status = _items(message, len(message), out, room, ctypes.byref(count), ctypes.byref(fault))
    found = [Item(it.offset, it.depth, it.tag, it.typ, it.length) for it in out[: count.value]]
    if status == MALFORMED:
        raise Malformed(Fault(fault.offset, fault.kind), found)
    if status != OK:
        raise _refusal(status)
    return found


def _number(content):
    return int.from_bytes(content, "big", signed=True)


def _unsigned(content):
    return int.from_bytes(content, "big")


def _time(content):
    try:
        return datetime(1970, 1, 1, tzinfo=timezone.utc) + timedelta(seconds=_number(content))
    except OverflowError:
        return _number(content)


# How the content of a leaf becomes a value, by the code of its type.
_VALUES = {
    2: _number,
    3: _number,
    4: _number,
    5: _unsigned,
    6: lambda content: _unsigned(content) == 1,
    7: lambda content: content.decode("utf-8"),
    8: bytes,
    9: _time,
    10: _unsigned,
}


def decode(message):
    """Returns the root of a message as nested nodes. Raises Malformed if the bytes are not one whole message.

    Values are Python's own: int for Integer, Long Integer, Big Integer, Enumeration and Interval (its seconds), bool, str,
    bytes, and a datetime in UTC for Date-Time, or its seconds since 1970 if a datetime can't hold them. Nesting takes
    no stack.
    """
    message, opened = _bytes(message), []
    for it in items(message):
        # the content of a Structure is its nodes: a copy of it at each depth would cost the square of the depth
        content = b"" if it.typ == 1 else message[it.offset + 8 : it.offset + 8 + it.length]
        node = Node(it.tag, it.typ, [] if it.typ == 1 else _VALUES[it.typ](content))
        del opened[it.depth :]
        if opened:
            opened[-1].value.append(node)
        if it.typ == 1:
            opened.append(node)
        if it.depth == 0:
            root = node
    return root


# What to_json hides, by its number.
_HIDDEN = {False: 0, "keys": 1, True: 2}


def to_json(message, redact=False):
    """Returns one whole message as the JSON that `ttlv json` prints, in one line: OASIS "KMIP Additional Message Encodings", in hexadecimal forms.

    With redact=True each value but those of Enumerations is null, with redact="keys" each of a secret tag, and in an item with one, as in
    `repr` of a Node. Raises Malformed if the bytes are not one whole message.
    """
    if redact not in _HIDDEN:
        raise ValueError('what is hidden is neither False, True nor "keys"')
    message, fault = _bytes(message), _Fault()
    try:
        return _text(lambda *out: _to_json(message, len(message), _HIDDEN[redact], *out), 8 * len(message) + 64, fault)
    except Malformed:
        items(message)
        raise


def from_json(text):
    """Returns the canonical bytes of the message whose JSON a text is, in any form of OASIS's encoding, with digits or with names.
    from_json(to_json(m)) is m, with zeros for its padding, if no Structure in it is in more than 62 others.

    Raises Malformed if it is the JSON of none; the fault's offset is in bytes of the text in UTF-8.
    """
    text, fault = _utf8(text), _Fault()
    return _filled(lambda *out: _from_json(text, len(text), *out), len(text) // 2 + 64, fault)


_FIELDS = tuple(zip(Item._fields, (_SIZES, _SIZES, _NUMBERS, _NUMBERS, _NUMBERS)))


def _listed(item):
    """Returns the five numbers of an item. Raises TypeError or ValueError if it has others."""
    numbers = tuple(item) if isinstance(item, (tuple, list)) else ()
    if len(numbers) != len(_FIELDS):
        raise TypeError("it is no Item, which has five numbers")
    numbers = tuple(_int(number, f"its {name}") for number, (name, _) in zip(numbers, _FIELDS))
    for number, (name, limit) in zip(numbers, _FIELDS):
        if not 0 <= number < limit:
            raise ValueError(f"its {name} is negative or too large")
    return numbers


def write(found, lent):
    """Returns the canonical bytes of a flat list of items, as `items` returns it, whose values are in `lent`: write(items(m), m).

    An item belongs to the last Structure before it of one depth less; `offset` and `length` of a Structure are ignored. They are one
    whole message if one item has depth 0, and it is a Structure. Raises BadItem for the first item that can't be written; an item that
    is no tuple of five numbers comes first.
    """
    lent, numbers = _bytes(lent), []
    for item in found:
        try:
            numbers.append(_listed(item))
        except (TypeError, ValueError) as why:
            raise BadItem(len(numbers), str(why)) from why
    listed, length, bad = (_Item * (len(numbers) + 1))(*numbers), _size(), _BadItem()
    room = len(lent) + 16 * len(numbers)
    while True:
        out = ctypes.create_string_buffer(room + 1)
        status = _write(listed, len(numbers), lent, len(lent), out, room, ctypes.byref(length), ctypes.byref(bad))
        if status == OK:
            return ctypes.string_at(out, length.value)
        if status == MALFORMED:
            raise BadItem(bad.index, FAULTS[bad.kind])
        room = length.value


def _whole(size, signed):
    return lambda value: _int(value, "its value").to_bytes(size, "big", signed=signed)


def _big(value):
    value = _int(value, "its value")
    # the bits of a negative number's two's complement are those of its complement
    bits = (value if value >= 0 else ~value).bit_length() + 1
    return value.to_bytes(8 * -(-bits // 64), "big", signed=True)


def _boolean(value):
    if not isinstance(value, bool):
        raise TypeError("its value is no bool")
    return value.to_bytes(8, "big")


def _encoded(value):
    if not isinstance(value, str):
        raise TypeError("its value is no str")
    try:
        return str.encode(value, "utf-8")
    except UnicodeEncodeError:
        raise ValueError("its value has a surrogate, which is no character") from None


def _content(value):
    try:
        return _bytes(value)
    except TypeError:
        raise TypeError("its value is no bytes") from None


def _seconds(value):
    if isinstance(value, datetime):
        if value.utcoffset() is None:
            raise ValueError("its value has no time zone")
        value, rest = divmod(value - datetime(1970, 1, 1, tzinfo=timezone.utc), timedelta(seconds=1))
        if rest:
            raise ValueError("its value has a fraction of a second")
    return _int(value, "its value").to_bytes(8, "big", signed=True)


# How a value becomes the content of a leaf, by the code of its type.
_CONTENTS = {
    2: _whole(4, True),
    3: _whole(8, True),
    4: _big,
    5: _whole(4, False),
    6: _boolean,
    7: _encoded,
    8: _content,
    9: _seconds,
    10: _whole(4, False),
}


def _parts(node):
    """Returns the tag, the type and the value of a node: its content, or the nodes in it. Raises what is wrong with it."""
    parts = tuple(node) if isinstance(node, (tuple, list)) else ()
    if len(parts) != 3:
        raise TypeError("it is no Node, which has a tag, a typ and a value")
    tag, typ, value = parts
    tag, typ = _int(tag, "its tag"), _int(typ, "its typ")
    if not 0 <= tag < 1 << 24:
        raise ValueError(FAULTS[10])
    if typ == 1 and (isinstance(value, Node) or not isinstance(value, (list, tuple))):
        raise TypeError("its value is no list")
    if typ == 1:
        return tag, typ, value
    if typ not in _CONTENTS:
        raise ValueError(FAULTS[3])
    content = _CONTENTS[typ](value)
    if len(content) >= _NUMBERS:
        raise ValueError(FAULTS[12])
    return tag, typ, content


def encode(root):
    """Returns the message of nested nodes, as `decode` returns them, in canonical form: padding is zeros, and a Big Integer has the
    fewest bytes, a multiple of eight, that hold it (9.1.1.4). So encode(decode(m)) == m for each message m in canonical form, and for
    any message m it is the canonical message with the same values. (`write` keeps each Big Integer's bytes.)

    A node whose typ is not 1 is encoded too, as an item that is no message. Raises BadItem for the first node, in document order, that
    is no tuple of three, whose tag, type or value can't be encoded, or that contains itself, with its path. Nesting takes no stack.
    """
    found, lent, waiting = [], bytearray(8), [(0, root)]
    around, opened = [], set()
    while waiting:
        depth, node = waiting.pop()
        opened.difference_update(map(id, around[depth:]))
        del around[depth:]
        try:
            tag, typ, value = _parts(node)
            if typ == 1 and id(value) in opened:
                raise ValueError("it contains itself")
        except MemoryError:
            raise
        except Exception as why:  # an object of the caller's can raise anything
            raise BadItem(len(found), str(why), _tag_of(node), _path([*(it.depth for it in found), depth])) from why
        if typ == 1:
            around.append(value)
            opened.add(id(value))
            waiting += [(depth + 1, below) for below in reversed(value)]
            value = b""
        found.append(Item(len(lent) - 8, depth, tag, typ, len(value)))
        lent += value
    try:
        return write(found, lent)
    except BadItem as bad:
        raise BadItem(bad.index, bad.why, found[bad.index].tag, _path([it.depth for it in found[: bad.index + 1]])) from None


def _path(depths):
    """Returns the indices that lead from the root to the last of nodes that have these depths, in document order."""
    path = []
    for depth in depths[1:]:
        if depth > len(path):
            path.append(0)
        else:
            del path[depth:]
            path[-1] += 1
    return tuple(path)


def _tag_of(node):
    """Returns a node's tag for an error, or None if it has none."""
    tag = next(tuple.__iter__(node), None) if isinstance(node, tuple) else None
    return tag if type(tag) is int and 0 <= tag < 1 << 24 else None


def check(message):
    """Returns the first fault, or None if the bytes are one whole message."""
    message, fault = _bytes(message), _Fault()
    status = _check(message, len(message), ctypes.byref(fault))
    if status not in (OK, MALFORMED):
        raise _refusal(status)
    return Fault(fault.offset, fault.kind) if status == MALFORMED else None


def version():
    """Returns the version of the library."""
    return _text(_version, 16)
