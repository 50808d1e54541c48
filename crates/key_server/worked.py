#!/usr/bin/env python3
"""A conversation with the server, written after the specification: `stdin` has its requests and `stdout` the responses, as raw bytes.

    worked.py            writes `stdin` and `stdout`
    worked.py --check    says whether they are what it writes; its status is 1 if they aren't

Messages are made as by the script of kmip_memory_server, at the time that `args` gives. A key has random bytes, so none is got while it has them.
"""
import importlib.machinery
import importlib.util
import os
import sys

HERE = os.path.dirname(os.path.realpath(__file__))
sys.dont_write_bytecode = True
loader = importlib.machinery.SourceFileLoader("talk", f"{HERE}/../kmip_memory_server/worked.py")
talk = importlib.util.module_from_spec(importlib.util.spec_from_loader(loader.name, loader))
loader.exec_module(talk)
structure, integer, enumeration, text = talk.structure, talk.integer, talk.enumeration, talk.text
attribute, identifier, AES, MASK, DATE = talk.attribute, talk.identifier, talk.AES, talk.MASK, talk.DATE

OPERATIONS = [talk.CREATE, talk.GET, talk.GET_ATTRIBUTES, talk.LOCATE, talk.ACTIVATE, talk.REVOKE, talk.DESTROY, talk.QUERY, talk.DISCOVER_VERSIONS]
KIND, LENGTH, NAME = enumeration(0x420057, 2), attribute("Cryptographic Length", integer(0x42000B, 256)), talk.called("disk")
NEW = [KIND, structure(0x420091, AES, LENGTH, MASK, attribute("Name", NAME))]
state = lambda number: attribute("State", enumeration(0x42000B, number))
OWN = [attribute("Unique Identifier", text(0x42000B, "1")), attribute("Name", NAME, 0), attribute("Object Type", enumeration(0x42000B, 2)), AES, LENGTH, MASK]
DATES = [attribute(f"{name} Date", DATE) for name in ("Initial", "Activation", "Deactivation", "Destroy", "Last Change")]

CONVERSATION = [
    (1, None, [(talk.DISCOVER_VERSIONS, [], talk.VERSIONS)]),
    (4, None, [(talk.QUERY, [enumeration(0x420074, it) for it in (1, 2, 3)],
                [*(enumeration(0x42005C, it) for it in OPERATIONS), KIND, text(0x42009D, "Example")])]),
    # the items of a request after the first are about its key: the ID Placeholder
    (4, None, [
        (talk.CREATE, NEW, [KIND, identifier("1")]),
        (talk.ACTIVATE, [], [identifier("1")]),
        (talk.GET_ATTRIBUTES, [text(0x42000A, "State")], [identifier("1"), state(2)]),
    ]),
    (2, 1, [
        (talk.GET_ATTRIBUTES, [], (talk.NOT_FOUND, talk.NO_OBJECT)),
        (talk.LOCATE, [attribute("Name", NAME), state(2)], [identifier("1")]),
        (talk.LOCATE, [state(1)], []),
        (talk.CREATE, NEW, (talk.INVALID_FIELD, "an object has this name")),
        (talk.CREATE, [KIND, structure(0x420091, AES, MASK)], (talk.INVALID_FIELD, "no key of AES")),
        (talk.CREATE, [KIND, structure(0x420091, AES, LENGTH, MASK, state(2))], (talk.INVALID_FIELD, "the server does not keep this attribute, or not with this value")),
        (talk.REGISTER, talk.GIVEN, (talk.NOT_SUPPORTED, "the server does not have this operation")),
        (talk.DESTROY, [identifier("1")], (talk.DENIED, talk.WRONG_STATE)),
    ]),
    (0, 1, [
        (talk.REVOKE, [identifier("1"), talk.REASON], [identifier("1")]),
        (talk.DESTROY, [identifier("1")], [identifier("1")]),
        (talk.GET, [identifier("1")], (talk.NOT_FOUND, "the object was destroyed")),
        (talk.GET_ATTRIBUTES, [identifier("1")], [identifier("1"), *OWN, state(5), *DATES]),
        (talk.ACTIVATE, [identifier("1")], (talk.DENIED, talk.WRONG_STATE)),
        (talk.GET, [identifier("2")], (talk.NOT_FOUND, talk.NO_OBJECT)),
    ]),
    # attributes by tags
    (talk.TWO, 1, [
        (talk.GET_ATTRIBUTES, [], (talk.NOT_FOUND, talk.NO_OBJECT)),
        (talk.CREATE, talk.TAGGED, [KIND, identifier("2")]),
        (talk.GET_ATTRIBUTES, [talk.STATE], [identifier("2"), structure(0x420125, enumeration(0x42008D, 1))]),
        (talk.LOCATE, [structure(0x420125, talk.TAGGED_NAME)], [identifier("2")]),
        (talk.CREATE, NEW, (talk.INVALID_FIELD, "there are no templates in KMIP 2.0")),
    ]),
]

if __name__ == "__main__":
    sys.exit(talk.main(sys.argv[1:], HERE, talk.streams(CONVERSATION, talk.TIME)))
