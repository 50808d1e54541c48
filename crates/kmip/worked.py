#!/usr/bin/env python3
"""A conversation with a server, written after the specification: `stdin` has its responses and `stdout` the requests, as raw bytes.

    worked.py            writes `stdin` and `stdout`
    worked.py --check    says whether they are what it writes; its status is 1 if they aren't

Items are encoded by the script of message_vectors. The words are those of `args`: a key is made, in KMIP 2.0, the best version of both. `.ci/test-kmip` has the
other commands and versions, with the calls of this script.
"""
import importlib.machinery
import importlib.util
import os
import sys

HERE = os.path.dirname(os.path.realpath(__file__))
sys.dont_write_bytecode = True
loader = importlib.machinery.SourceFileLoader("worked", f"{HERE}/../message_vectors/worked.py")
encoder = importlib.util.module_from_spec(importlib.util.spec_from_loader(loader.name, loader))
loader.exec_module(encoder)
structure, integer, enumeration, text, octets, version = (
    getattr(encoder, name) for name in ("structure", "integer", "enumeration", "text", "octets", "version"))

CREATE, REGISTER, LOCATE, GET, GET_ATTRIBUTES = 0x01, 0x03, 0x08, 0x0A, 0x0B
ACTIVATE, REVOKE, DESTROY, QUERY, DISCOVER_VERSIONS = 0x12, 0x13, 0x14, 0x18, 0x1E
SYMMETRIC_KEY = enumeration(0x420057, 2)


def attribute(name, value, index=None):
    return structure(0x420008, text(0x42000A, name), *([] if index is None else [integer(0x420009, index)]), value)


def called(name, kind=1):
    return structure(0x42000B, text(0x420055, name), enumeration(0x420054, kind))


def identifier(name):
    return text(0x420094, name)


def template(algorithm, length, mask, name):
    """The attributes of a new key, up to KMIP 1.4."""
    return structure(
        0x420091,
        attribute("Cryptographic Algorithm", enumeration(0x42000B, algorithm)),
        attribute("Cryptographic Length", integer(0x42000B, length)),
        attribute("Cryptographic Usage Mask", integer(0x42000B, mask)),
        attribute("Name", called(name)))


def tagged(*items):
    """Attributes by their tags, as KMIP 2.0 has them."""
    return structure(0x420125, *items)


def tagged_name(name, kind=1):
    return structure(0x420053, text(0x420055, name), enumeration(0x420054, kind))


def tagged_template(algorithm, length, mask, name):
    """The attributes of a new key, in KMIP 2.0."""
    return tagged(enumeration(0x420028, algorithm), integer(0x42002A, length), integer(0x42002C, mask), tagged_name(name))


def reference(tag):
    """An attribute that is asked for, in KMIP 2.0."""
    return enumeration(0x42013B, tag)


def block(algorithm, key):
    """A key that isn't wrapped."""
    return structure(0x420040, enumeration(0x420042, 1), structure(0x420045, octets(0x420043, key)), enumeration(0x420028, algorithm),
                     integer(0x42002A, 8 * len(key)))


# Messages are of KMIP 1.n, or of TWO.
TWO = (2, 0)


def number(of):
    return of if isinstance(of, tuple) else (1, of)


def ask(of, operation, *payload):
    return encoder.request(number(of), operation, payload)


def tell(of, operation, *payload):
    return encoder.response(number(of), operation, payload)


def reply(of, *item, count=1):
    """A response of one item that says anything."""
    head = structure(0x42007A, version(*number(of)), encoder.date_time(0x420092, 1568123456), integer(0x42000D, count))
    return structure(0x42007B, head, structure(0x42000F, *item))


def refuse(of, operation, reason, message=None):
    said = [enumeration(0x42007F, 1), enumeration(0x42007E, reason)] + ([] if message is None else [text(0x42007D, message)])
    return reply(of, *([] if operation is None else [enumeration(0x42005C, operation)]), *said)


# which versions are offered, and what a server of these versions says to that
OFFER = ask(1, DISCOVER_VERSIONS, *(version(*number(it)) for it in (TWO, 4, 3, 2, 1, 0)))


def has(*versions):
    return tell(1, DISCOVER_VERSIONS, *(version(*number(it)) for it in versions))


def main(words, wanted):
    status = 0
    for file, content in wanted.items():
        if words == ["--check"]:
            with open(f"{HERE}/{file}", "rb") as held:
                if held.read() != content:
                    print(f"{HERE}/{file} isn't what worked.py writes")
                    status = 1
        else:
            with open(f"{HERE}/{file}", "wb") as made:
                made.write(content)
    return status


if __name__ == "__main__":
    sys.exit(main(sys.argv[1:], {
        "stdin": has(TWO, 4, 3) + tell(TWO, CREATE, SYMMETRIC_KEY, identifier("key-1")),
        "stdout": OFFER + ask(TWO, CREATE, SYMMETRIC_KEY, tagged_template(3, 256, 12, "disk")),
    }))
