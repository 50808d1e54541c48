#!/usr/bin/env python3
"""What the client asks of a server, and is told, written after the specification: `stdin` has the responses and `stdout` the requests, as raw bytes.

    worked.py            writes `stdin` and `stdout`
    worked.py --check    says whether they are what it writes; its status is 1 if they aren't

Items are encoded by the script of message_vectors, and parts of messages are those of the script of kmip_memory_server.
"""
import importlib.machinery
import importlib.util
import os
import sys

HERE = os.path.dirname(os.path.realpath(__file__))
sys.dont_write_bytecode = True
loader = importlib.machinery.SourceFileLoader("talk", f"{HERE}/../kmip_memory_server/worked.py")
talk = importlib.util.module_from_spec(importlib.util.spec_from_loader(loader.name, loader))
loader.exec_module(talk)
structure, enumeration, integer, text = talk.structure, talk.enumeration, talk.integer, talk.text
KEY, (KIND, BYTES) = talk.identifier("key-7"), talk.key(32)
NAME = structure(0x420053, text(0x420055, "disk"), enumeration(0x420054, 1))
NEW = [KIND, structure(0x420125, enumeration(0x420028, 3), integer(0x42002A, 256), integer(0x42002C, 12), NAME)]
FIRST, OTHER, BEST = (talk.encoder.version(*it) for it in ((1, 1), (1, 4), (2, 0)))

# Each is a request of its own, with its version: the operation, what is asked, and what is answered. Attributes go by their tags, as in KMIP 2.0.
CONVERSATION = [
    (FIRST, talk.DISCOVER_VERSIONS, [BEST, OTHER, FIRST], [BEST, OTHER]),
    (BEST, talk.QUERY, [enumeration(0x420074, 1)], [enumeration(0x42005C, it) for it in talk.OPERATIONS]),
    (BEST, talk.CREATE, NEW, [KIND, KEY]),
    (BEST, talk.ACTIVATE, [KEY], [KEY]),
    (BEST, talk.GET, [KEY], [KIND, KEY, BYTES]),
    (BEST, talk.GET_ATTRIBUTES, [KEY, enumeration(0x42013B, 0x42008D)], [KEY, structure(0x420125, enumeration(0x42008D, 2))]),
    (BEST, talk.LOCATE, [structure(0x420125, NAME)], [KEY]),
    (BEST, talk.REVOKE, [KEY, structure(0x420081, enumeration(0x420082, 6))], [KEY]),
    (BEST, talk.DESTROY, [KEY], [KEY]),
]


def streams():
    asked, told = b"", b""
    for version, operation, payload, answer in CONVERSATION:
        head, time = enumeration(0x42005C, operation), talk.encoder.date_time(0x420092, talk.TIME)
        asked += talk.message((0x420078, 0x420077), version, [], [structure(0x42000F, head, structure(0x420079, *payload))])
        told += talk.message((0x42007B, 0x42007A), version, [time], [talk.answer([head], answer)])
    return told, asked


if __name__ == "__main__":
    sys.exit(talk.main(sys.argv[1:], HERE, streams()))
