#!/usr/bin/env python3
"""Messages written after the specification, by an encoder of its own: what the other implementation of `stdin` can't encode.

    worked.py            prints a line each for `stdin`: a name, which ends in _worked, and the message in hexadecimal
    worked.py --stdout   prints the lines of `stdout` for them: the name, the operation, and whether kmip_messages has no type for the payload
    worked.py --check    says whether `stdin` and `stdout` have these lines; its status is 1 if they don't

KMIP 1.0, section 9.1: an item is a tag, a type, a length and a value, filled up to a multiple of eight bytes.
"""
import os
import sys

HERE = os.path.dirname(os.path.realpath(__file__))


def item(tag, code, value):
    return tag.to_bytes(3, "big") + bytes([code]) + len(value).to_bytes(4, "big") + value + bytes(-len(value) % 8)


def structure(tag, *items):
    return item(tag, 1, b"".join(items))


def integer(tag, value):
    return item(tag, 2, value.to_bytes(4, "big", signed=True))


def enumeration(tag, value):
    return item(tag, 5, value.to_bytes(4, "big"))


def boolean(tag, value):
    return item(tag, 6, int(value).to_bytes(8, "big"))


def text(tag, value):
    return item(tag, 7, value.encode())


def octets(tag, value):
    return item(tag, 8, value)


def date_time(tag, value):
    return item(tag, 9, value.to_bytes(8, "big", signed=True))


def interval(tag, value):
    return item(tag, 10, value.to_bytes(4, "big"))


def big_integer(tag, value):
    return item(tag, 4, value.to_bytes((value.bit_length() // 64 + 1) * 8, "big", signed=True))


def version(major, minor):
    return structure(0x420069, integer(0x42006A, major), integer(0x42006B, minor))


def request(number, operation, payload, header=(), behind=b"", before=b""):
    """A request of one item: between the version and the Batch Count of its header stand the items of `header`."""
    head = structure(0x420077, version(*number), *header, integer(0x42000D, 1))
    body = structure(0x42000F, enumeration(0x42005C, operation), before, structure(0x420079, *payload), behind)
    return structure(0x420078, head, body)


def response(number, operation, payload, header=()):
    """A response of one item that succeeded: between the Time Stamp and the Batch Count of its header stand the items of `header`."""
    head = structure(0x42007A, version(*number), date_time(0x420092, 1568123456), *header, integer(0x42000D, 1))
    body = structure(0x42000F, enumeration(0x42005C, operation), enumeration(0x42007F, 0), structure(0x42007C, *payload))
    return structure(0x42007B, head, body)


# Parts of payloads.
ID, OTHER = text(0x420094, "49a1ca88-6bea-4fb2-b450-7e58802c3038"), text(0x420094, "fb4b5b9c-6188-4c63-8142-fe9c328129fc")
SYMMETRIC, SECRET, ALGORITHM, LENGTH, MASK = enumeration(0x420057, 2), enumeration(0x420057, 7), enumeration(0x420028, 3), integer(0x42002A, 128), integer(0x42002C, 12)
NAME = structure(0x420053, text(0x420055, "key 1"), enumeration(0x420054, 1))
ATTRIBUTES = structure(0x420125, ALGORITHM, LENGTH, MASK, NAME)
STORAGE = [structure(tag, integer(0x42015E, 3)) for tag in (0x42015F, 0x420163, 0x420164, 0x420165)]
KEY = structure(0x42008F, structure(0x420040, enumeration(0x420042, 1), structure(0x420045, octets(0x420043, bytes(range(16)))), ALGORITHM, LENGTH))
STATE = structure(0x420008, text(0x42000A, "State"), enumeration(0x42000B, 2))
TEMPLATE = structure(0x420091, structure(0x420008, text(0x42000A, "Cryptographic Length"), integer(0x42000B, 128)))
TICKET = structure(0x420149, enumeration(0x42014A, 1), octets(0x42014B, b"\x01\x02\x03\x04\x05\x06\x07\x08\x09"))
CERTIFICATE = structure(0x420013, enumeration(0x42001D, 1), octets(0x42001E, b"\x30\x03\x02\x01\x00"))
REFERENCE = enumeration(0x42013B, 0x42002C)
VENDORS = structure(0x42013B, text(0x42009D, "vendor"), text(0x42000A, "own"))
WRAPPING = structure(0x420047, enumeration(0x42009E, 1), structure(0x420036, OTHER))
CORRELATION = [text(0x420105, "client 7"), text(0x420106, "server 9")]
NONCE = structure(0x4200C8, octets(0x4200C9, b"\x01"), octets(0x4200CA, b"\x0A\x0B\x0C"))

# Requests and responses: a name, the version, the operation, and the payload's items; then what stands elsewhere.
REQUESTS = [
    ("create_request_2_0", (2, 0), 0x01, [SYMMETRIC, ATTRIBUTES, STORAGE[0]]),
    ("create_key_pair_request_2_0", (2, 0), 0x02, [structure(0x420126, ALGORITHM, LENGTH), structure(0x420127, MASK), structure(0x420128, MASK), *STORAGE[1:]]),
    ("create_key_pair_request_2_0_of_one_set", (2, 0), 0x02, [structure(0x420127, MASK)]),
    ("register_request_2_0", (2, 0), 0x03, [SYMMETRIC, ATTRIBUTES, KEY, STORAGE[0]]),
    ("re_key_request_2_0", (2, 0), 0x04, [ID, interval(0x420058, 60), ATTRIBUTES, STORAGE[0]]),
    ("derive_key_request_2_0", (2, 0), 0x05, [SYMMETRIC, ID, enumeration(0x420031, 3), structure(0x420032, octets(0x420030, b"\x01\x02")), ATTRIBUTES]),
    ("locate_request_2_0", (2, 0), 0x08, [integer(0x42004F, 5), integer(0x4200D4, 1), ATTRIBUTES]),
    ("get_request_1_4_key_wrap_type", (1, 4), 0x0A, [ID, enumeration(0x420042, 1), enumeration(0x4200F8, 2), WRAPPING]),
    ("get_attributes_request_2_0", (2, 0), 0x0B, [ID, REFERENCE, VENDORS]),
    ("add_attribute_request_2_0", (2, 0), 0x0D, [ID, structure(0x42013D, NAME)]),
    ("modify_attribute_request_2_0", (2, 0), 0x0E, [ID, structure(0x42013D, MASK)]),
    ("delete_attribute_request_2_0", (2, 0), 0x0F, [ID, structure(0x42013C, NAME)]),
    ("delete_attribute_request_2_0_by_its_tag", (2, 0), 0x0F, [ID, REFERENCE]),
    ("delete_attribute_request_2_0_of_a_vendor", (2, 0), 0x0F, [ID, VENDORS]),
    ("validate_request_1_0", (1, 0), 0x17, [CERTIFICATE, CERTIFICATE, ID, date_time(0x42009A, 1568123456)]),
    ("rng_retrieve_request_1_2", (1, 2), 0x25, [integer(0x4200C4, 16)]),
    ("rng_seed_request_1_2", (1, 2), 0x26, [octets(0x4200C2, b"\x07\x06\x05")]),
    ("create_split_key_request_1_2", (1, 2), 0x28, [SYMMETRIC, ID, integer(0x42008B, 3), integer(0x42008C, 2), enumeration(0x42008A, 3), big_integer(0x420062, 2**64 - 59), TEMPLATE]),
    ("create_split_key_request_2_0", (2, 0), 0x28, [SYMMETRIC, integer(0x42008B, 3), integer(0x42008C, 3), enumeration(0x42008A, 1), ATTRIBUTES, STORAGE[0]]),
    ("join_split_key_request_1_2", (1, 2), 0x29, [SYMMETRIC, ID, OTHER, TEMPLATE]),
    ("join_split_key_request_2_0", (2, 0), 0x29, [SECRET, ID, OTHER, enumeration(0x420086, 2), ATTRIBUTES]),
    ("import_request_1_4", (1, 4), 0x2A, [ID, SYMMETRIC, boolean(0x420124, True), enumeration(0x4200F8, 1), STATE, STATE, KEY]),
    ("import_request_2_0", (2, 0), 0x2A, [ID, SYMMETRIC, ATTRIBUTES, KEY]),
    ("export_request_1_4", (1, 4), 0x2B, [ID, enumeration(0x420042, 1), enumeration(0x4200F8, 1), enumeration(0x420041, 1), WRAPPING]),
    ("login_request_2_0", (2, 0), 0x2D, [interval(0x420049, 3600)]),
    ("logout_request_2_0", (2, 0), 0x2E, [TICKET]),
    ("adjust_attribute_request_2_0", (2, 0), 0x30, [ID, REFERENCE, enumeration(0x420158, 1), integer(0x420162, -2)]),
    ("adjust_attribute_request_2_0_of_a_vendor", (2, 0), 0x30, [VENDORS, enumeration(0x420158, 3)]),
    ("set_attribute_request_2_0", (2, 0), 0x31, [ID, structure(0x42013D, MASK)]),
    ("set_endpoint_role_request_2_0", (2, 0), 0x32, [enumeration(0x420151, 2)]),
    ("interop_request_2_0", (2, 0), 0x34, [enumeration(0x420160, 1), text(0x420161, "CS-BC-M-1-20")]),
]
HEADED = [
    ("header_request_1_2_attestation", (1, 2), [boolean(0x420007, False), boolean(0x4200D3, True), enumeration(0x4200C7, 1), enumeration(0x4200C7, 3), boolean(0x420010, True)]),
    ("header_request_1_4_correlation", (1, 4), [integer(0x420050, 4096), *CORRELATION, date_time(0x420092, 1568123456)]),
    ("header_request_2_0_asynchronous", (2, 0), [CORRELATION[0], enumeration(0x420007, 3), enumeration(0x42000E, 1)]),
]
RESPONSES = [
    ("get_attributes_response_2_0", (2, 0), 0x0B, [ID, ATTRIBUTES]),
    ("get_attribute_list_response_2_0", (2, 0), 0x0C, [ID, REFERENCE, enumeration(0x42013B, 0x420028)]),
    ("add_attribute_response_2_0", (2, 0), 0x0D, [ID]),
    ("modify_attribute_response_2_0", (2, 0), 0x0E, [ID]),
    ("delete_attribute_response_2_0", (2, 0), 0x0F, [ID]),
    ("validate_response_1_0", (1, 0), 0x17, [enumeration(0x42009B, 2)]),
    ("rng_retrieve_response_1_2", (1, 2), 0x25, [octets(0x4200C2, bytes(16))]),
    ("rng_seed_response_1_2", (1, 2), 0x26, [integer(0x4200C4, 3)]),
    ("create_split_key_response_1_2", (1, 2), 0x28, [ID, OTHER, TEMPLATE]),
    ("join_split_key_response_1_2", (1, 2), 0x29, [ID, TEMPLATE]),
    ("import_response_1_4", (1, 4), 0x2A, [ID]),
    ("export_response_1_4", (1, 4), 0x2B, [SYMMETRIC, ID, STATE, STATE, KEY]),
    ("export_response_2_0", (2, 0), 0x2B, [SYMMETRIC, ID, ATTRIBUTES, KEY]),
    ("login_response_2_0", (2, 0), 0x2D, [TICKET]),
    ("adjust_attribute_response_2_0", (2, 0), 0x30, [ID]),
    ("set_attribute_response_2_0", (2, 0), 0x31, [ID]),
    ("set_endpoint_role_response_2_0", (2, 0), 0x32, [enumeration(0x420151, 2)]),
]
TOLD = [
    ("header_response_1_2_attestation", (1, 2), [NONCE, enumeration(0x4200C7, 2)]),
    ("header_response_2_0", (2, 0), [NONCE, octets(0x420155, bytes(32)), enumeration(0x4200C7, 1), *CORRELATION]),
]


# The operations whose payloads are kept.
KEPT = {0x17, 0x25, 0x26, 0x28, 0x29, 0x30, 0x31, 0x32, 0x34}


def messages():
    """Each message with its name and its operation."""
    for name, number, operation, payload in REQUESTS:
        yield name, operation, request(number, operation, payload)
    for name, number, header in HEADED:
        yield name, 0x12, request(number, 0x12, [ID], header)
    yield "request_item_2_0_ephemeral", 0x12, request((2, 0), 0x12, [ID], before=boolean(0x420154, True))
    for name, number, operation, payload in RESPONSES:
        yield name, operation, response(number, operation, payload)
    for name, number, header in TOLD:
        yield name, 0x12, response(number, 0x12, [ID], header)


def lines(printed):
    for name, operation, message in messages():
        said = f"0x{operation:08X}" + " kept" * (operation in KEPT)
        yield f"{name}_worked {said if printed else message.hex().upper()}"


def main(words):
    if words == ["--check"]:
        for printed, file in ((False, "stdin"), (True, "stdout")):
            with open(f"{HERE}/{file}", encoding="utf-8") as held:
                found = [line for line in held.read().splitlines() if line.partition(" ")[0].endswith("_worked")]
            if found != list(lines(printed)):
                print(f"{file} doesn't have the lines of worked.py")
                return 1
        return 0
    print("\n".join(lines(words == ["--stdout"])))
    return 0


if __name__ == "__main__":
    sys.exit(main(sys.argv[1:]))
