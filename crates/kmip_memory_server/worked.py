#!/usr/bin/env python3
"""A conversation with the server, written after the specification: `stdin` has its requests and `stdout` the responses, as raw bytes.

    worked.py            writes `stdin` and `stdout`
    worked.py --check    says whether they are what it writes; its status is 1 if they aren't

Items are encoded by the script of message_vectors. Other servers use this one with a conversation of theirs. The time is the one that `args` gives. A new key has random bytes, so none is got.
"""
import importlib.machinery
import importlib.util
import os
import sys

HERE = os.path.dirname(os.path.realpath(__file__))
sys.dont_write_bytecode = True
loader = importlib.machinery.SourceFileLoader("worked", f"{HERE}/../message_vectors/worked.py")
encoder = importlib.util.module_from_spec(importlib.util.spec_from_loader(loader.name, loader))
loader.exec_module(encoder)
structure, integer, enumeration, text, octets, date_time = (
    getattr(encoder, name) for name in ("structure", "integer", "enumeration", "text", "octets", "date_time"))

TIME = 1_700_000_000
CREATE, REGISTER, LOCATE, GET, GET_ATTRIBUTES, GET_ATTRIBUTE_LIST = 0x01, 0x03, 0x08, 0x0A, 0x0B, 0x0C
ACTIVATE, REVOKE, DESTROY, QUERY, DISCOVER_VERSIONS = 0x12, 0x13, 0x14, 0x18, 0x1E
NOT_FOUND, INVALID_MESSAGE, NOT_SUPPORTED, INVALID_FIELD, NO_FEATURE, DENIED = 0x01, 0x04, 0x05, 0x07, 0x08, 0x0C


def attribute(name, value, index=None):
    return structure(0x420008, text(0x42000A, name), *([] if index is None else [integer(0x420009, index)]), value)


def called(name):
    return structure(0x42000B, text(0x420055, name), enumeration(0x420054, 1))


def key(size):
    """A key of AES, its type before it."""
    block = [enumeration(0x420042, 1), structure(0x420045, octets(0x420043, bytes(range(size)))), enumeration(0x420028, 3), integer(0x42002A, 8 * size)]
    return enumeration(0x420057, 2), structure(0x42008F, structure(0x420040, *block))


def identifier(name):
    return text(0x420094, name)


AES, MASK = attribute("Cryptographic Algorithm", enumeration(0x42000B, 3)), attribute("Cryptographic Usage Mask", integer(0x42000B, 12))
NEW = [enumeration(0x420057, 2), structure(0x420091, AES, attribute("Cryptographic Length", integer(0x42000B, 256)), MASK)]
KIND, MATERIAL = key(16)
GIVEN = [KIND, structure(0x420091, MASK, attribute("Name", called("first"))), MATERIAL]
NAMES = ["Unique Identifier", "Name", "Object Type", "Cryptographic Algorithm", "Cryptographic Length", "Cryptographic Usage Mask", "State",
         "Initial Date", "Last Change Date"]
DATE = date_time(0x42000B, TIME)
OWN = [attribute("Unique Identifier", text(0x42000B, "2")), attribute("Object Type", enumeration(0x42000B, 2)), AES,
       attribute("Cryptographic Length", integer(0x42000B, 256)), MASK, attribute("State", enumeration(0x42000B, 2)),
       attribute("Initial Date", DATE), attribute("Activation Date", DATE), attribute("Last Change Date", DATE)]
GIVEN_OWN = [attribute("Unique Identifier", text(0x42000B, "1")), attribute("Name", called("first"), 0), attribute("Object Type", enumeration(0x42000B, 2)), AES,
             attribute("Cryptographic Length", integer(0x42000B, 128)), MASK, attribute("State", enumeration(0x42000B, 1)),
             attribute("Initial Date", DATE), attribute("Last Change Date", DATE)]
REASON = structure(0x420081, enumeration(0x420082, 5))
NO_OBJECT, WRONG_STATE = "there is no such object", "the state of the object does not allow this"
VERSIONS = [encoder.version(2, 0), *(encoder.version(1, minor) for minor in (4, 3, 2, 1, 0))]
OPERATIONS = [CREATE, REGISTER, LOCATE, GET, GET_ATTRIBUTES, GET_ATTRIBUTE_LIST, ACTIVATE, REVOKE, DESTROY, QUERY, DISCOVER_VERSIONS]

# KMIP 2.0: the version, the tags of all attributes that a new key has, and a key that is asked for
TWO = (2, 0)
TAGS = [0x420094, 0x420053, 0x420057, 0x420028, 0x42002A, 0x42002C, 0x42008D, 0x420039, 0x420048]
TAGGED_NAME = structure(0x420053, text(0x420055, "tagged"), enumeration(0x420054, 1))
TAGGED = [enumeration(0x420057, 2), structure(0x420125, enumeration(0x420028, 3), integer(0x42002A, 128), integer(0x42002C, 12), TAGGED_NAME)]
STATE = enumeration(0x42013B, 0x42008D)
VENDORS = structure(0x42013B, text(0x42009D, "x"), text(0x42000A, "color"))

# Requests, each with its version (of 1.x the minor one), its Batch Error Continuation Option, and of each item the operation, what is asked, and
# the answer: the payload, or a reason and a message. None stands for an item that isn't done.
CONVERSATION = [
    (2, None, [(REGISTER, GIVEN, [identifier("1")])]),
    (2, 1, [
        (GET, [identifier("1")], [KIND, identifier("1"), MATERIAL]),
        (GET, [identifier("9")], (NOT_FOUND, NO_OBJECT)),
        (GET_ATTRIBUTE_LIST, [identifier("1")], [identifier("1"), *(text(0x42000A, name) for name in NAMES)]),
    ]),
    (2, None, [
        (CREATE, NEW, [enumeration(0x420057, 2), identifier("2")]),
        (ACTIVATE, [], [identifier("2")]),
        (GET_ATTRIBUTES, [], [identifier("2"), *OWN]),
    ]),
    (2, 1, [
        (LOCATE, [attribute("Name", called("first"))], [identifier("1")]),
        (LOCATE, [attribute("State", enumeration(0x42000B, 2))], [identifier("2")]),
        (LOCATE, [], [identifier("1"), identifier("2")]),
        (LOCATE, [attribute("State", enumeration(0x42000B, 3))], []),
        (REGISTER, GIVEN, (INVALID_FIELD, "an object has this name")),
        (CREATE, [enumeration(0x420057, 2), structure(0x420091, AES, MASK)], (INVALID_FIELD, "the server makes no keys of this algorithm and length")),
    ]),
    (1, 1, [
        (DESTROY, [identifier("2")], (DENIED, WRONG_STATE)),
        (REVOKE, [identifier("2"), REASON], [identifier("2")]),
        (DESTROY, [identifier("2")], [identifier("2")]),
        (GET, [identifier("2")], (NOT_FOUND, "the object was destroyed")),
        (GET_ATTRIBUTES, [identifier("2"), text(0x42000A, "State")], [identifier("2"), attribute("State", enumeration(0x42000B, 5))]),
        (GET, [identifier("1")], [KIND, identifier("1"), MATERIAL]),
    ]),
    (0, None, [(ACTIVATE, [identifier("2")], (DENIED, WRONG_STATE)), (DESTROY, [identifier("1")], None)]),
    (0, None, [(0x15, [identifier("1")], (NOT_SUPPORTED, "the server does not have this operation"))]),
    (0, None, [(QUERY, [enumeration(0x420074, it) for it in (1, 2, 3)],
                [*(enumeration(0x42005C, it) for it in OPERATIONS), *(enumeration(0x420057, it) for it in (1, 2, 3, 4, 7)), text(0x42009D, "Sieveebony")])]),
    (1, None, [(DISCOVER_VERSIONS, [], VERSIONS)]),
    # attributes by tags before KMIP 2.0
    (4, 1, [
        (CREATE, TAGGED, (NO_FEATURE, "attributes go by tags from KMIP 2.0 on")),
        (REGISTER, [KIND, TAGGED[1], MATERIAL], (NO_FEATURE, "attributes go by tags from KMIP 2.0 on")),
        (LOCATE, [structure(0x420125, TAGGED_NAME)], (NO_FEATURE, "attributes go by tags from KMIP 2.0 on")),
        (GET_ATTRIBUTES, [identifier("1"), STATE], [identifier("1"), *GIVEN_OWN]),
    ]),
    (TWO, 1, [
        (CREATE, TAGGED, [enumeration(0x420057, 2), identifier("3")]),
        (LOCATE, [structure(0x420125, TAGGED_NAME)], [identifier("3")]),
        (GET_ATTRIBUTES, [STATE, enumeration(0x42013B, 0x420053)], [identifier("3"), structure(0x420125, TAGGED_NAME, enumeration(0x42008D, 1))]),
        (GET_ATTRIBUTES, [], [identifier("3"), structure(0x420125, text(0x420094, "3"), TAGGED_NAME, enumeration(0x420057, 2), enumeration(0x420028, 3),
                              integer(0x42002A, 128), integer(0x42002C, 12), enumeration(0x42008D, 1), date_time(0x420039, TIME), date_time(0x420048, TIME))]),
        (GET_ATTRIBUTES, [VENDORS], [identifier("3"), structure(0x420125)]),
        (GET_ATTRIBUTE_LIST, [identifier("3")], [identifier("3"), *(enumeration(0x42013B, tag) for tag in TAGS)]),
        (LOCATE, [structure(0x420125, integer(0x42002A, 128), enumeration(0x42008D, 1))], [identifier("1"), identifier("3")]),
        (LOCATE, [], [identifier("1"), identifier("2"), identifier("3")]),
        (REGISTER, [KIND, structure(0x420125, integer(0x42002C, 12)), MATERIAL], [identifier("4")]),
        (GET, [], [KIND, identifier("4"), MATERIAL]),
    ]),
    # the ID Placeholder is of one request
    (TWO, None, [(GET, [], (NOT_FOUND, NO_OBJECT))]),
    # what KMIP 2.0 has no more, or isn't as it should be
    (TWO, 1, [
        (CREATE, NEW, (INVALID_FIELD, "there are no templates in KMIP 2.0")),
        (REGISTER, GIVEN, (INVALID_FIELD, "there are no templates in KMIP 2.0")),
        (LOCATE, [attribute("Name", called("first"))], (INVALID_FIELD, "attributes go by tags in KMIP 2.0")),
        (GET_ATTRIBUTES, [identifier("1"), text(0x42000A, "State")], (INVALID_FIELD, "attributes are named by references in KMIP 2.0")),
        (CREATE, [enumeration(0x420057, 2), structure(0x420125, structure(0x420053))], (INVALID_FIELD, "an attribute is not as its tag says")),
        (CREATE, [*TAGGED, structure(0x42015F, integer(0x42015E, 1))], (NO_FEATURE, "the server has one kind of storage")),
        (CREATE, TAGGED, (INVALID_FIELD, "an object has this name")),
    ]),
    # by names again
    (4, None, [(GET_ATTRIBUTES, [identifier("3"), text(0x42000A, "Name"), text(0x42000A, "State")],
                [identifier("3"), attribute("Name", called("tagged"), 0), attribute("State", enumeration(0x42000B, 1))])]),
]


def message(tags, version, header, items):
    """A request or a response: the tags of the message and of its header, what is in the header behind the version, and the items."""
    return structure(tags[0], structure(tags[1], version, *header, integer(0x42000D, len(items))), *items)


def version(of):
    """The version of the protocol: the major and the minor one, or of 1.x the minor one alone."""
    return encoder.version(1, of) if isinstance(of, int) else encoder.version(*of)


def request(of, option, items):
    asked = [structure(0x42000F, enumeration(0x42005C, operation), octets(0x420093, bytes([at])), structure(0x420079, *payload))
             for at, (operation, payload, _) in enumerate(items, 1)]
    return message((0x420078, 0x420077), version(of), [] if option is None else [enumeration(0x42000E, option)], asked)


def answer(head, told):
    if isinstance(told, tuple):
        return structure(0x42000F, *head, enumeration(0x42007F, 1), enumeration(0x42007E, told[0]), text(0x42007D, told[1]))
    return structure(0x42000F, *head, enumeration(0x42007F, 0), structure(0x42007C, *told))


def response(of, time, answers):
    return message((0x42007B, 0x42007A), version(of), [date_time(0x420092, time)], answers)


def streams(conversation, time):
    """The requests and the responses. Last comes a request within a message that is refused by its header, and isn't read."""
    asked, told = b"", b""
    for of, option, items in conversation:
        asked += request(of, option, items)
        told += response(of, time, [answer([enumeration(0x42005C, operation), octets(0x420093, bytes([at]))], answered)
                                    for at, (operation, _, answered) in enumerate(items, 1) if answered is not None])
    hidden = request(*conversation[0])
    asked += bytes.fromhex("4200780C") + len(hidden).to_bytes(4, "big") + hidden
    return asked, told + response(TWO, time, [answer([], (INVALID_MESSAGE, "it cannot be decoded"))])


def main(words, folder, wanted):
    status = 0
    for file, bytes_of_it in zip(("stdin", "stdout"), wanted):
        if words == ["--check"]:
            with open(f"{folder}/{file}", "rb") as held:
                if held.read() != bytes_of_it:
                    print(f"{folder}/{file} isn't what worked.py writes")
                    status = 1
        else:
            with open(f"{folder}/{file}", "wb") as made:
                made.write(bytes_of_it)
    return status


if __name__ == "__main__":
    sys.exit(main(sys.argv[1:], HERE, streams(CONVERSATION, TIME)))
