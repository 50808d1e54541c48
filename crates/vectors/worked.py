#!/usr/bin/env python3
"""Writes data/named.json, the tests of JSON with names: worked.py [--check]

Each row has JSON by hand, in the forms of OASIS "KMIP Additional Message Encodings" that have names and numbers, and the items that it is,
which are encoded here, apart from the library, or what is wrong and where. NAMED has the JSON with names of those items, by hand, too. With --check it writes nothing, and says where the file differs; the status is 1 then.
"""

import datetime
import json
import sys
from pathlib import Path

HERE = Path(__file__).resolve().parent
FILE = HERE / "data/named.json"
VALUE, MEMBERS = "a value is none of its type", "an item without exactly tag, type and value"
TAG, TYP, ROOT = "a tag is not 0x and six hexadecimal digits", "the name of a type is unknown", "the root is no Structure"


def item(tag, typ, content):
    padding = bytes(-len(content) % 8)
    return tag.to_bytes(3, "big") + bytes([typ]) + len(content).to_bytes(4, "big") + content + padding


def structure(tag, *items):
    return item(tag, 1, b"".join(items))


def integer(tag, number):
    return item(tag, 2, number.to_bytes(4, "big", signed=True))


def long_integer(tag, number):
    return item(tag, 3, number.to_bytes(8, "big", signed=True))


def big_integer(tag, number):
    return item(tag, 4, number.to_bytes(8, "big", signed=True))


def enumeration(tag, number):
    return item(tag, 5, number.to_bytes(4, "big"))


def boolean(tag, truth):
    return item(tag, 6, int(truth).to_bytes(8, "big"))


def date(tag, *parts):
    moment = datetime.datetime(*parts, tzinfo=datetime.timezone.utc)
    epoch = datetime.datetime(1970, 1, 1, tzinfo=datetime.timezone.utc)
    return item(tag, 9, int((moment - epoch).total_seconds()).to_bytes(8, "big", signed=True))


def interval(tag, number):
    return item(tag, 10, number.to_bytes(4, "big"))


# What is printed of a row's items with names: whole messages, and of a value in an Attribute the value.
NAMED = {
    "version": (
        '{"tag":"ProtocolVersion","value":[{"tag":"ProtocolVersionMajor","type":"Integer","value":1},'
        '{"tag":"ProtocolVersionMinor","type":"Integer","value":4}]}'
    ),
    "empty": '{"tag":"Attributes","value":[]}',
    "nested": '{"tag":"0xAAAAAA","value":[{"tag":"0xBBBBBB","value":[]},{"tag":"CRTCoefficient","value":[]}]}',
    "integer_low": "-2147483648",
    "integer_high": "2147483647",
    "integer_zero": "0",
    "integer_minus_one": "-1",
    "mask": '"Encrypt|Decrypt"',
    "mask_of_one": '"MACGenerate"',
    "mask_number": '"Encrypt|Decrypt"',
    "mask_twice": '"Sign|Verify"',
    "mask_of_all": (
        '"Sign|Verify|Encrypt|Decrypt|WrapKey|UnwrapKey|Export|MACGenerate|MACVerify|DeriveKey|ContentCommitment|KeyAgreement|CertificateSign|CRLSign|'
        'GenerateCryptogram|ValidateCryptogram|TranslateEncrypt|TranslateDecrypt|TranslateWrap|TranslateUnwrap|Authenticate|Unrestricted|FPEEncrypt|FPEDecrypt"'
    ),
    "mask_of_a_nameless_bit": '"0x80000001"',
    "mask_of_no_bit": '"0x00000000"',
    "long_integer": "4503599627370496",
    "long_integer_low": "-4503599627370496",
    "long_integer_above": '"0x0010000000000001"',
    "long_integer_below": '"0xFFEFFFFFFFFFFFFF"',
    "big_integer": '"0x0000000000010001"',
    "big_integer_low": '"0xFFFFFFFFFFFFFFFE"',
    "enumeration": '"DES3"',
    "enumeration_digits": '"0x80000001"',
    "enumeration_underscore": '"SHA_256"',
    "enumeration_of_no_list": '"0x00000003"',
    "boolean": "true",
    "date": '"2009-11-12T10:47:30+00:00"',
    "date_with_offset": '"2009-11-12T08:47:30+00:00"',
    "date_behind": '"2010-01-01T00:00:00+00:00"',
    "date_before_1970": '"1969-12-31T23:59:59+00:00"',
    "date_first": '"0001-01-01T00:00:00+00:00"',
    "date_last": '"9999-12-31T23:59:59+00:00"',
    "date_before_all": '"0x8000000000000000"',
    "date_leap": '"2024-02-29T12:00:00+00:00"',
    "interval": "3600",
    "interval_high": "4294967295",
    "text_of_a_word": '"ProtocolVersion"',
    "bytes_of_digits": '"0F1E"',
}  # fmt: skip


# The same where values are hidden, but those of Enumerations.
HIDDEN = {
    "version": (
        '{"tag":"ProtocolVersion","value":[{"tag":"ProtocolVersionMajor","type":"Integer","value":null},'
        '{"tag":"ProtocolVersionMinor","type":"Integer","value":null}]}'
    ),
    "mask": '{"tag":"Attribute","value":[{"tag":"CryptographicUsageMask","type":"Integer","value":null}]}',
    "date": '{"tag":"Attribute","value":[{"tag":"ActivationDate","type":"DateTime","value":null}]}',
    "enumeration": '{"tag":"Attribute","value":[{"tag":"CryptographicAlgorithm","type":"Enumeration","value":"DES3"}]}',
}


# The JSON with names of a value in an Attribute.
def named_in(tag, rest, value):
    return f'{{"tag":"Attribute","value":[{{"tag":"{tag}","type":{rest.split(",")[0]},"value":{value}}}]}}'


# A value in an Attribute: the item's members behind its tag, and what it is or None.
def rows():
    version = structure(0x420069, integer(0x42006A, 1), integer(0x42006B, 4))
    yield "version", "A version of the protocol, as other implementations write it", (
        '{"tag":"ProtocolVersion","value":[{"tag":"ProtocolVersionMajor","type":"Integer","value":1},'
        '{"tag":"ProtocolVersionMinor","type":"Integer","value":4}]}'), version  # fmt: skip
    yield "version_mixed", "Names and digits beside one another", (
        '{"type":"Structure","value":[{"value":"0x00000001","type":"Integer","tag":"ProtocolVersionMajor"},'
        '{"tag":"0x42006B","type":"Integer","value":4}],"tag":"ProtocolVersion"}'), version  # fmt: skip
    yield "empty", "A Structure without a type and without items", '{"tag":"Attributes","value":[]}', structure(0x420125)
    yield "nested", "Structures without types in one another", (
        '{"tag":"0xAAAAAA","value":[{"tag":"0xBBBBBB","value":[]},{"tag":"CRTCoefficient","value":[]}]}'
    ), structure(0xAAAAAA, structure(0xBBBBBB), structure(0x420027))  # fmt: skip
    yield "null_type", "A type that is no text is none", '{"tag":"ProtocolVersion","type":null,"value":[]}', f"byte 0: {TYP}"
    yield "no_value", "A Structure without its value", '{"tag":"ProtocolVersion"}', f"byte 0: {MEMBERS}"
    yield "other_second", "A tag and another member", '{"tag":"ProtocolVersion","values":[]}', f"byte 0: {MEMBERS}"
    yield "leaf_without_type", "Without a type an item is a Structure, so its value is items", '{"tag":"BatchCount","value":1}', f"byte 0: {VALUE}"
    yield "unknown_tag", "No name of a tag", '{"tag":"ProtocolVersions","value":[]}', f"byte 0: {TAG}"
    yield "tag_in_lowercase", "Names have their letters' cases", '{"tag":"protocolVersion","value":[]}', f"byte 0: {TAG}"
    yield "tag_with_spaces", "A name that isn't normalized", '{"tag":"Protocol Version","value":[]}', f"byte 0: {TAG}"
    values = [
        ("integer_low", "BatchCount", '"Integer","value":-2147483648', integer(0x42000D, -(2**31))),
        ("integer_high", "BatchCount", '"Integer","value":2147483647', integer(0x42000D, 2**31 - 1)),
        ("integer_zero", "BatchCount", '"Integer","value":0', integer(0x42000D, 0)),
        ("integer_minus_one", "BatchCount", '"Integer","value":-1', integer(0x42000D, -1)),
        ("integer_too_high", "BatchCount", '"Integer","value":2147483648', None),
        ("integer_too_low", "BatchCount", '"Integer","value":-2147483649', None),
        ("integer_wrapped", "BatchCount", '"Integer","value":4294967297', None),
        ("integer_fraction", "BatchCount", '"Integer","value":1.0', None),
        ("integer_exponent", "BatchCount", '"Integer","value":1e0', None),
        ("integer_truth", "BatchCount", '"Integer","value":true', None),
        ("mask", "CryptographicUsageMask", '"Integer","value":"Encrypt|Decrypt"', integer(0x42002C, 12)),
        ("mask_of_one", "CryptographicUsageMask", '"Integer","value":"MACGenerate"', integer(0x42002C, 0x80)),
        ("mask_number", "CryptographicUsageMask", '"Integer","value":12', integer(0x42002C, 12)),
        ("mask_twice", "CryptographicUsageMask", '"Integer","value":"Sign|Verify|Sign"', integer(0x42002C, 3)),
        ("mask_of_another", "CryptographicUsageMask", '"Integer","value":"Encrypt|OnlineStorage"', None),
        ("mask_of_no_word", "CryptographicUsageMask", '"Integer","value":"Encrypt|"', None),
        ("mask_with_spaces", "CryptographicUsageMask", '"Integer","value":"Encrypt Decrypt"', None),
        ("mask_empty", "CryptographicUsageMask", '"Integer","value":""', None),
        ("no_mask", "BatchCount", '"Integer","value":"Encrypt"', None),
        ("long_integer", "UsageLimitsTotal", '"LongInteger","value":4503599627370496', long_integer(0x420097, 2**52)),
        ("long_integer_low", "UsageLimitsTotal", '"LongInteger","value":-4503599627370496', long_integer(0x420097, -(2**52))),
        ("long_integer_above", "UsageLimitsTotal", '"LongInteger","value":"0x0010000000000001"', long_integer(0x420097, 2**52 + 1)),
        ("long_integer_below", "UsageLimitsTotal", '"LongInteger","value":"0xFFEFFFFFFFFFFFFF"', long_integer(0x420097, -(2**52) - 1)),
        ("long_integer_of_no_float", "UsageLimitsTotal", '"LongInteger","value":4503599627370497', None),
        ("big_integer", "Modulus", '"BigInteger","value":65537', big_integer(0x420052, 65537)),
        ("big_integer_low", "Modulus", '"BigInteger","value":-2', big_integer(0x420052, -2)),
        ("big_integer_too_low", "Modulus", '"BigInteger","value":-4503599627370497', None),
        ("enumeration", "CryptographicAlgorithm", '"Enumeration","value":"DES3"', enumeration(0x420028, 2)),
        ("enumeration_digits", "CryptographicAlgorithm", '"Enumeration","value":"0x80000001"', enumeration(0x420028, 0x80000001)),
        ("enumeration_underscore", "HashingAlgorithm", '"Enumeration","value":"SHA_256"', enumeration(0x420038, 6)),
        ("enumeration_number", "CryptographicAlgorithm", '"Enumeration","value":3', None),
        ("enumeration_of_another", "CryptographicAlgorithm", '"Enumeration","value":"Create"', None),
        ("enumeration_not_normalized", "HashingAlgorithm", '"Enumeration","value":"SHA-256"', None),
        ("boolean", "Fresh", '"Boolean","value":true', boolean(0x4200A8, True)),
        ("boolean_digits", "Fresh", '"Boolean","value":"0x0000000000000001"', boolean(0x4200A8, True)),
        ("boolean_of_two", "Fresh", '"Boolean","value":"0x0000000000000002"', None),
        ("boolean_of_eight_digits", "Fresh", '"Boolean","value":"0x00000001"', None),
        ("date", "ActivationDate", '"DateTime","value":"2009-11-12T10:47:30+00:00"', date(0x420001, 2009, 11, 12, 10, 47, 30)),
        ("date_with_offset", "ActivationDate", '"DateTime","value":"2009-11-12T10:47:30+02:00"', date(0x420001, 2009, 11, 12, 8, 47, 30)),
        ("date_behind", "ActivationDate", '"DateTime","value":"2009-12-31T19:00:00-05:00"', date(0x420001, 2010, 1, 1)),
        ("date_of_z", "ActivationDate", '"DateTime","value":"2009-11-12T10:47:30.000Z"', date(0x420001, 2009, 11, 12, 10, 47, 30)),
        ("date_before_1970", "ActivationDate", '"DateTime","value":"1969-12-31T23:59:59+00:00"', date(0x420001, 1969, 12, 31, 23, 59, 59)),
        ("date_of_no_day", "ActivationDate", '"DateTime","value":"2009-02-29T10:47:30+00:00"', None),
        ("date_number", "ActivationDate", '"DateTime","value":1258022850', None),
        ("interval", "LeaseTime", '"Interval","value":3600', interval(0x420049, 3600)),
        ("interval_high", "LeaseTime", '"Interval","value":4294967295', interval(0x420049, 2**32 - 1)),
        ("interval_too_high", "LeaseTime", '"Interval","value":4294967296', None),
        ("interval_below_zero", "LeaseTime", '"Interval","value":-1', None),
        ("mask_of_all", "CryptographicUsageMask", '"Integer","value":16777215', integer(0x42002C, 0xFFFFFF)),
        ("mask_of_a_nameless_bit", "CryptographicUsageMask", '"Integer","value":-2147483647', integer(0x42002C, -(2**31) + 1)),
        ("mask_of_no_bit", "CryptographicUsageMask", '"Integer","value":0', integer(0x42002C, 0)),
        ("enumeration_of_no_list", "AttributeValue", '"Enumeration","value":"0x00000003"', enumeration(0x42000B, 3)),
        ("date_first", "ActivationDate", '"DateTime","value":"0xFFFFFFF1886E0900"', date(0x420001, 1, 1, 1)),
        ("date_last", "ActivationDate", '"DateTime","value":"0x0000003AFFF4417F"', date(0x420001, 9999, 12, 31, 23, 59, 59)),
        ("date_before_all", "ActivationDate", '"DateTime","value":"0x8000000000000000"', item(0x420001, 9, bytes([128, 0, 0, 0, 0, 0, 0, 0]))),
        ("date_leap", "ActivationDate", '"DateTime","value":"2024-02-29T12:00:00Z"', date(0x420001, 2024, 2, 29, 12)),
        ("text_of_a_word", "UniqueIdentifier", '"TextString","value":"ProtocolVersion"', item(0x420094, 7, b"ProtocolVersion")),
        ("bytes_of_digits", "KeyMaterial", '"ByteString","value":"0f1e"', item(0x420043, 8, bytes([15, 30]))),
        ("text_number", "UniqueIdentifier", '"TextString","value":1', None),
        ("bytes_number", "KeyMaterial", '"ByteString","value":12', None),
    ]  # fmt: skip
    for name, tag, rest, content in values:
        text = f'{{"tag":"0x420008","value":[{{"tag":"{tag}","type":{rest}}}]}}'
        if name in NAMED:
            NAMED[name] = named_in(tag, rest, NAMED[name])
        yield name, f"{tag}, {rest}", text, f"byte 27: {VALUE}" if content is None else structure(0x420008, content)
    yield "root", "A leaf is no message", '{"tag":"BatchCount","type":"Integer","value":1}', f"byte 0: {ROOT}"


def main():
    tests = []
    for name, comment, text, wanted in rows():
        expected = {"error": wanted} if isinstance(wanted, str) else {"bytes": wanted.hex().upper()}
        named = {"named": NAMED[name]} if name in NAMED else {}
        hidden = {"hidden_named": HIDDEN[name]} if name in HIDDEN else {}
        tests.append({"name": name, "comment": comment, "json": text} | expected | named | hidden)
    held = {
        "description": "JSON with names and numbers, as other implementations write it, that is read back as a message.",
        "source": 'The JSON encoding of OASIS "KMIP Additional Message Encodings", and rows worked by hand, encoded by worked.py.',
        "jsons": tests,
    }
    text = json.dumps(held, indent=2, ensure_ascii=False) + "\n"
    if sys.argv[1:] != ["--check"]:
        FILE.write_text(text)
    elif not FILE.exists() or FILE.read_text() != text:
        print(f"{FILE.relative_to(HERE.parent.parent)}: isn't what worked.py writes")
        sys.exit(1)


if __name__ == "__main__":
    main()
