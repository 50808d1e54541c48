#!/usr/bin/env python3
"""Writes the tests of word_vectors, its stdin and stdout, from data/ and the calendar: worked.py [--check]

The names are normalized here character by character, as the section "Normalizing Names" of OASIS "KMIP Additional Message Encodings" says,
and not as codegen/names does it; dates are those of Python's datetime. With --check it writes nothing, and says which file isn't what it
would write; the status is 1 then.
"""

import datetime
import sys
from pathlib import Path

HERE = Path(__file__).resolve().parent
DATA = HERE.parent.parent / "data"
EPOCH = datetime.datetime(1970, 1, 1, tzinfo=datetime.timezone.utc)
LETTERS = "ABCDEFGHIJKLMNOPQRSTUVWXYZabcdefghijklmnopqrstuvwxyz"
DIGITS = "0123456789"


def normal(name):
    """A name without what JSON and XML can't have in a word."""
    plain = []
    for place, char in enumerate(name):
        behind = name[place + 1 : place + 2]
        if char in "()":
            plain.append(" ")
        elif char in LETTERS or char in DIGITS or char in "_ ":
            plain.append(char)
        else:
            plain.append(" " if behind and behind in LETTERS else "_")
    words = "".join(plain).split(" ")
    words = [word for word in words if word]
    leading = 0
    while leading < len(words[0]) and words[0][leading] in DIGITS:
        leading += 1
    words[0] = words[0][leading:] + words[0][:leading]
    return "".join(word[:1].upper() + word[1:] for word in words)


def rows(name):
    for line in (DATA / name).read_text().splitlines():
        if not line.startswith("#"):
            yield line.split("\t")


def seconds(moment):
    """A Date-Time's number, as its eight bytes have it."""
    return ((moment - EPOCH).days * 86400 + (moment - EPOCH).seconds) % 2**64


def moment(*parts):
    return datetime.datetime(*parts, tzinfo=datetime.timezone.utc)


def dates():
    days = [moment(1, 1, 1), moment(9999, 12, 31, 23, 59, 59), moment(1969, 12, 31, 23, 59, 59), EPOCH, moment(2009, 11, 12, 10, 47, 30)]
    for year in (1, 4, 99, 100, 101, 400, 401, 1582, 1600, 1700, 1899, 1900, 1999, 2000, 2001, 2004, 2024, 2100, 2399, 2400, 4000, 9996, 9999):
        leap = year % 4 == 0 and (year % 100 != 0 or year % 400 == 0)
        days += [moment(year, month, 1, month, 5 * month - 3, 59) for month in range(1, 13)]
        days += [moment(year, 2, 28), moment(year, 3, 1), moment(year, 12, 31, 23, 59, 59)] + ([moment(year, 2, 29, 12)] if leap else [])
    step = datetime.timedelta(days=9973, seconds=40507)
    at = moment(1, 1, 2)
    while at.year < 9970:
        days.append(at)
        at += step
    for day in days:
        yield f"date {seconds(day)} {day.isoformat()}"


def offsets():
    for text in (
        "2009-11-12T10:47:30Z", "2009-11-12T12:47:30+02:00", "2009-11-12T05:17:30-05:30", "2009-11-13T00:00:00+13:45",
        "2009-11-11T23:59:59-23:59", "1970-01-01T00:00:00+00:01", "1969-12-31T23:00:00-01:00", "2009-11-12T10:47:30.0Z",
        "2009-11-12T10:47:30.000000+00:00",
    ):  # fmt: skip
        plain = text.replace("Z", "+00:00").replace(".000000", "").replace(".0", "")
        yield f"read {seconds(datetime.datetime.fromisoformat(plain).astimezone(datetime.timezone.utc))} {text}"


NO_DATES = (
    "", "2009-11-12", "2009-11-12T10:47:30", "2009-11-12 10:47:30Z", "2009-11-12t10:47:30Z", "2009-11-12T10:47Z", "2009-13-12T10:47:30Z",
    "2009-00-12T10:47:30Z", "2009-11-31T10:47:30Z", "2009-11-00T10:47:30Z", "2009-02-29T10:47:30Z", "1900-02-29T10:47:30Z",
    "0000-11-12T10:47:30Z", "2009-11-12T24:00:00Z", "2009-11-12T10:60:30Z", "2009-11-12T10:47:60Z", "2009-11-12T10:47:30+24:00",
    "2009-11-12T10:47:30+00:60", "2009-11-12T10:47:30+0000", "2009-11-12T10:47:30+00", "2009-11-12T10:47:30.5Z", "2009-11-12T10:47:30.Z",
    "2009-11-12T10:47:30.05Z", "2009-11-12T10:47:30Zx", "2009-11-12T10:47:30z", "+009-11-12T10:47:30Z", "12009-11-12T10:47:30Z",
    "0001-01-01T00:00:00+00:01", "2009-11-12T10:47:30*00:00", "2009-11-12T10:47:3\N{ARABIC-INDIC DIGIT ZERO}Z", "1258022850",
)  # fmt: skip


def tests():
    for tag, name, _types, _mark in rows("kmip_tags.tsv"):
        yield f"tag {tag} {normal(name)}"
    masks = {}
    for tag, number, name in rows("kmip_enumerations.tsv"):
        yield f"value {tag}:{int(number, 16):X} {normal(name)}"
        masks.setdefault(tag, []).append((int(number, 16), normal(name)))
    for tag, bits in masks.items():
        if tag in ("42002C", "42008E", "42015E"):
            for count in range(1, len(bits) + 1):
                chosen = bits[count - 1 :: 3]
                yield f"mask {tag}:{sum(bit for bit, _ in chosen):X} {'|'.join(word for _, word in reversed(chosen))}"
    yield "mask 42002C:4 Encrypt|Encrypt"
    for tag, word in (("42002C", "encrypt"), ("420028", "Encrypt"), ("420028", "3DES"), ("420042", "AES"), ("420038", "SHA-256"), ("420028", "AES "), ("42005C", "420001")):
        yield f"other {tag}: {word}"
    yield from dates()
    yield from offsets()
    for text in NO_DATES:
        yield f"none 0 {text}"
    for number in (253402300800, 2**63 - 1, 2**63, 2**64 - 62135596801):
        yield f"unwritten {number} -"


def main():
    lines = list(tests())
    files = {HERE / "stdin": "".join(f"{line}\n" for line in lines), HERE / "stdout": f"{len(lines)} hold, 0 do not\n"}
    failed = 0
    for path, text in files.items():
        if sys.argv[1:] != ["--check"]:
            path.write_text(text)
        elif not path.exists() or path.read_text() != text:
            print(f"{path.relative_to(HERE.parent.parent)}: isn't what worked.py writes")
            failed = 1
    sys.exit(failed)


if __name__ == "__main__":
    main()
