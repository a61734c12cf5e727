#!/usr/bin/env python3
"""Sealed rows, sound and damaged, each with what has to come of it.

    model/sealing_cases.py OUT     writes the cases as lines of JSON into the file OUT

What has to come of a damaged row stands in tables here, worked out from the rules by hand and not by sealing.py.
`check` compares sealing.py with all of them. The lines are of three forms:

    {"config", "drawn", "item", "row"}       the row that the item is sealed to with these drawn bytes, in hexadecimal
    {"config", "row", "expected"}            what opening the row answers: "item", "recipient", "encrypted" and
                                             "signed", or "why" with "at" or "name"
    {"config", "row", "item", "stands"}      whether the row stands for the item
"""
import base64
import collections
import hashlib
import hmac
import itertools
import random
import sys

import compare
import model
import sealing
from cryptography.hazmat.primitives import hashes
from cryptography.hazmat.primitives.ciphers import Cipher, algorithms, modes
from cryptography.hazmat.primitives.ciphers.aead import AESGCM
from cryptography.hazmat.primitives.kdf.hkdf import HKDF
from sealing import FOOT, HEAD, big, string

SMALL = {
    "table": "people", "partition": {"name": "id", "type": "S"},
    "actions": {
        "ssn": "ENCRYPT_AND_SIGN", "state": "ENCRYPT_AND_SIGN", "town": "SIGN_ONLY", "email": "ENCRYPT_AND_SIGN",
        "age": "ENCRYPT_AND_SIGN", "name": "ENCRYPT_AND_SIGN", "phone": "ENCRYPT_AND_SIGN",
        "photo": "ENCRYPT_AND_SIGN", "tags": "SIGN_ONLY", "active": "SIGN_ONLY", "note": "DO_NOTHING"},
    "unsigned_prefix": ":", "context": {"app": "demo"},
    "recipients": [{"kind": "raw", "namespace": "n", "name": "k", "key": bytes(range(32)).hex()}]}
OTHER = {"kind": "raw", "namespace": "n", "name": "l", "key": bytes(range(32, 64)).hex()}
TWO = {**SMALL, "recipients": [SMALL["recipients"][0], OTHER]}
SECOND = {**SMALL, "recipients": [OTHER]}
WIDE = {
    "table": "Łódź", "partition": {"name": "p", "type": "S"}, "sort": {"name": "s", "type": "N"},
    "actions": {
        "s": "SIGN_ONLY", **{name: "ENCRYPT_AND_SIGN" for name in ("a", "b", "aa", "é", "z" * 245, "x_in")},
        **{name: "SIGN_ONLY" for name in ("c", "B", "ab", "ź", "x_signed")}, "d": "DO_NOTHING"},
    "unsigned_prefix": "x_", "context": {"z": "", "é": "é", "aa": "1", "b": "x" * 1024},
    "recipients": [SMALL["recipients"][0], {**OTHER, "namespace": "é", "name": "k" * 255}]}
BINARY = {
    **WIDE, "table": "t", "partition": {"name": "s", "type": "B"}, "sort": {"name": "p", "type": "S"},
    "unsigned_prefix": "p"}
del BINARY["context"]

ITEM = {
    "id": {"S": "c-1"}, "ssn": {"S": "123-45-6789"}, "state": {"S": "WA"}, "town": {"S": "Seattle"},
    "email": {"S": "Ann@Example.COM"}, "age": {"N": "41.0"}, "note": {"S": "vip"}, "name": {"S": "Ann"},
    "phone": {"S": "555-0100"}, "photo": {"B": "AAEC"}, "active": {"BOOL": True}, "tags": {"SS": ["b", "a"]}}
NORMAL = {**ITEM, "age": {"N": "41"}, "tags": {"SS": ["a", "b"]}}
ORDER = ["id", "age", "ssn", "name", "tags", "town", "email", "phone", "photo", "state", "active"]
FIELDS = ["age", "ssn", "name", "email", "phone", "photo", "state"]
PLAIN = ["id", "tags", "town", "active"]

# The header of SMALL's row: what each field begins at.
SIZES = [1, 1, 32, 2, *[1] * 11, 2, 2, 3, 2, 4, 1, 2, 1, 2, 1, 2, 108, 32]
STARTS = [0, *itertools.accumulate(SIZES)]
# What its bytes are that may have any value, and what comes where one of them is changed.
FREE = {
    **dict.fromkeys(range(2, 34), "Commitment"),        # the message id
    **dict.fromkeys(range(51, 54), "NoRecipient"),      # the key "app", which is part of the associated data
    **dict.fromkeys(range(56, 60), "NoRecipient"),      # the value "demo"
    **dict.fromkeys([63, 66], "NoRecipient"),           # the provider "n", the info "k"
    **dict.fromkeys(range(69, 177), "NoRecipient"),     # the ciphertext
    **dict.fromkeys(range(177, 209), "Commitment")}
# Where the fault is when the higher byte of a length or a count is no longer 0.
HIGHER = {34: 47, 47: 62, 49: 51, 54: 56, 61: 63, 64: 66, 67: 69}
# Where the fault is when the lower byte, or the count of data keys, is another one.
LOWER = {
    35: {10: 50, 9: 52, 15: 47, 3: 43, 27: 47, 43: 47, 75: 47, 139: 47},
    48: {0: 49, 3: 62, 5: 62, 9: 62, 17: 62, 33: 62, 65: 62, 129: 62},
    50: {2: 55, 1: 54, 7: 60, 11: 64, 19: 72, 35: 88, 67: 120, 131: 184},
    55: {5: 61, 6: 65, 0: 56, 12: 68, 20: 76, 36: 92, 68: 124, 132: 188},
    60: {0: 60, 3: 179, 5: 179, 9: 60, 17: 60, 33: 60, 65: 60, 129: 60},
    62: {0: 65, 3: 68, 5: 70, 9: 74, 17: 82, 33: 98, 65: 130, 129: 194},
    65: {0: 68, 3: 71, 5: 73, 9: 77, 17: 85, 33: 101, 65: 133, 129: 197},
    68: {109: 178, 110: 179, 104: 205, 100: 201, 124: 193, 76: 177, 44: 145, 236: 69}}

ONE = big(1, 8)
# Bytes that no value has under the id.
NOT_CANONICAL = [
    ("0000", b"\0"), ("0001", b"\xff"), ("0001", b"\xed\xa0\x80"), ("0001", b"\xc0\x80"), ("0004", b""),
    ("0004", b"\2"), ("0004", b"\1\1"),
    *(("0002", text) for text in (
        b"", b"1.0", b"01", b"+1", b"-0", b".5", b"0.", b"1e3", b"1.50", b" 1", b"1\n", b"\xd9\xa1", b"9" * 39,
        b"1" + b"0" * 126, b"0." + b"0" * 130 + b"1", b"x")),
    *((digits, data) for digits in ("0101", "0102", "01ff") for data in (
        b"", big(0, 8), ONE, ONE + string(b"1") + b"\0", big(2, 8) + string(b"1"), big(2, 8) + string(b"1") * 2,
        big(2, 8) + string(b"2") + string(b"10"), big(1 << 63, 8) + string(b"1"), ONE + big(2, 8) + b"1")),
    ("0101", ONE + string(b"\xff")), ("0102", ONE + string(b"1.0")),
    ("0102", big(2, 8) + string(b"1") + string(b"1.0")),
    ("0200", b""), ("0200", ONE), ("0200", big(0, 8) + b"\0"), ("0200", ONE + string(b"\xff") + b"\0\0" + string(b"")),
    ("0200", ONE + string(b"a") + b"\0\3" + string(b"")), ("0200", ONE + string(b"a") + b"\0\2" + string(b"1.0")),
    ("0200", big(2, 8) + (string(b"a") + b"\0\0" + string(b"")) * 2),
    ("0200", big(2, 8) + string(b"b") + b"\0\0" + string(b"") + string(b"a") + b"\0\0" + string(b"")),
    ("0300", b""), ("0300", big(0, 8) + b"\0"), ("0300", ONE + b"\0\0"), ("0300", ONE + b"\0\0" + string(b"\0")),
    ("0300", ONE + b"\1\3" + string(b"")), ("0300", big(2, 8) + b"\0\0" + string(b"")), ("0300", bytes(7))]
# Bytes that a value has under the id.
CANONICAL = [
    ("0000", b"", {"NULL": True}), ("0001", b"", {"S": ""}), ("0001", "Łódź".encode(), {"S": "Łódź"}),
    ("0001", b"\0", {"S": "\0"}), ("0002", b"-0.001", {"N": "-0.001"}), ("0002", b"0", {"N": "0"}),
    ("0002", b"1" + b"0" * 125, {"N": "1" + "0" * 125}), ("0004", b"\0", {"BOOL": False}),
    ("0004", b"\1", {"BOOL": True}), ("ffff", b"", {"B": ""}), ("ffff", b"123", {"B": "MTIz"}),
    ("0101", ONE + string(b""), {"SS": [""]}), ("01ff", ONE + string(b""), {"BS": [""]}),
    ("0102", big(3, 8) + string(b"-1") + string(b"10") + string(b"2"), {"NS": ["-1", "10", "2"]}),
    ("0101", big(2, 8) + string(b"b") + string(b"ba"), {"SS": ["b", "ba"]}),
    ("0200", big(0, 8), {"M": {}}), ("0300", big(0, 8), {"L": []}),
    ("0200", big(2, 8) + string(b"a") + b"\0\2" + string(b"1.5") + string(b"b") + b"\0\0" + string(b""),
        {"M": {"a": {"N": "1.5"}, "b": {"NULL": True}}}),
    ("0200", ONE + string(b"") + b"\3\0" + string(big(0, 8)), {"M": {"": {"L": []}}}),
    ("0300", big(2, 8) + b"\0\1" + string(b"a") + b"\0\4" + string(b"\1"), {"L": [{"S": "a"}, {"BOOL": True}]})]


def reason(why, **extras):
    return "reason", why, extras


def binary(data):
    return {"B": base64.b64encode(data).decode()}


def bytes_at(row, name):
    return base64.b64decode(row[name]["B"])


def without(row, *names):
    return {name: inner for name, inner in row.items() if name not in names}


def replaced(data, at, byte):
    return data[:at] + bytes([byte]) + data[at + 1:]


# Each bit changed: the place of its byte, and the changed bytes.
def flips(data):
    return ((at, replaced(data, at, data[at] ^ 1 << bit)) for at in range(len(data)) for bit in range(8))


# One bit of each byte of a span changed.
def changes(data, span):
    return (replaced(data, at, data[at] ^ 1 << at % 8) for at in span)


class Sound:
    """An item with its sealed row, and the secrets of the row."""

    def __init__(self, config, drawn, item):
        self.config, self.drawn, self.item = config, drawn, item
        self.row = sealing.seal(config, drawn, item)
        self.message_id, self.data_key, *others = sealing.pieces(
            drawn, 32, 32, *[32, 12] * len(config["recipients"]))
        self.intermediates = others[0::2]
        self.header, self.footer = bytes_at(self.row, HEAD), bytes_at(self.row, FOOT)

    def with_header(self, data):
        return {**self.row, HEAD: binary(data)}

    def with_footer(self, data):
        return {**self.row, FOOT: binary(data)}

    # What opening the row answers, with another item or another place where they are given.
    def opens(self, item=None, place=0):
        normal = sealing.item_of(sealing.values_in(self.item if item is None else item))
        actions = [self.config["actions"].get(name) for name in self.item]
        names = [name for name, _, _ in sealing.keys(self.config)]
        encrypted = actions.count("ENCRYPT_AND_SIGN")
        signed = sum(name in names or self.config["actions"].get(name) == "SIGN_ONLY" for name in self.item)
        return "item", normal, place, encrypted, encrypted + signed

    # The row with tags made anew, and where fields of the header are given, with a commitment made anew.
    def anew(self, row, **fields):
        values = sealing.values_in(row)
        header = sealing.HeaderReader(values[HEAD][1]).whole()
        for name, field in fields.items():
            setattr(header, name, field)
        if fields:
            header.commit(self.data_key)
        text = sealing.record_text(header.written(), self.config, values, header.legend)
        footer = b"".join(sealing.tag(intermediate, text) for intermediate in self.intermediates)
        return {**row, HEAD: binary(header.written()), FOOT: binary(footer)}

    # The row with another stored field, and tags made anew.
    def with_field(self, name, stored, row=None):
        return self.anew({**(row or self.row), name: stored})

    def field(self, name, digits, data):
        root = sealing.root_key(self.data_key, self.message_id)
        key = sealing.field_key(root, FIELDS.index(name))
        return binary(sealing.sealed_field(self.config, name, key, bytes.fromhex(digits), data)[1])


BASE = Sound(SMALL, bytes(range(108)), ITEM)
PAIR = Sound(TWO, bytes(range(152)), ITEM)


def header_cases():
    header = BASE.header
    for at, changed in flips(header):
        if at in FREE:
            expected = reason(FREE[at])
        elif at in HIGHER or at in LOWER:
            expected = reason("HeaderFault", at=HIGHER[at] if at in HIGHER else LOWER[at][changed[at]])
        else:
            expected = reason("HeaderFault", at=at)
        yield f"bit of header byte {at}", SMALL, BASE.with_header(changed), expected
    for at in range(36, 47):
        changed = replaced(header, at, header[at] ^ 0x65 ^ 0x73)
        yield f"other letter at {at}", SMALL, BASE.with_header(changed), reason(
            "KeyLegend" if at == 36 else "Commitment")
    for size in range(len(header)):
        at = max(start for start in STARTS if start <= size)
        yield f"header of {size} bytes", SMALL, BASE.with_header(header[:size]), reason("HeaderFault", at=at)
    yield "longer header", SMALL, BASE.with_header(header + b"\0"), reason("HeaderFault", at=209)
    yield "header as S", SMALL, {**BASE.row, HEAD: {"S": "x"}}, reason("NoHeader")
    yield "no header", SMALL, without(BASE.row, HEAD), reason("NoHeader")
    pair = (b"app", b"demo")
    for pairs, at in (([pair, pair], 62), ([(b"b", b""), pair], 56), ([(b"", b""), (b"", b"")], 55)):
        data = sealing.Header(bytes(32), header[36:47], pairs, [(b"", b"", b"")], bytes(32)).written()
        yield "context out of order", SMALL, BASE.with_header(data), reason("HeaderFault", at=at)


def footer_cases():
    for at, changed in enumerate(changes(BASE.footer, range(48))):
        yield f"footer byte {at}", SMALL, BASE.with_footer(changed), reason("RecipientTag")
    for size in (0, 1, 47, 49, 96):
        yield f"footer of {size} bytes", SMALL, BASE.with_footer((BASE.footer * 2)[:size]), reason("FooterLength")
    yield "footer as S", SMALL, {**BASE.row, FOOT: {"S": "x" * 48}}, reason("FooterLength")
    yield "no footer", SMALL, without(BASE.row, FOOT), reason("FooterLength")


def attribute_cases():
    row = BASE.row
    for name in FIELDS:
        whole = bytes_at(row, name)
        for at, changed in enumerate(changes(whole, range(len(whole)))):
            yield f"{name}, byte {at}", SMALL, {**row, name: binary(changed)}, reason("RecipientTag")
        for size in range(len(whole)):
            yield f"{name} cut to {size} bytes", SMALL, {**row, name: binary(whole[:size])}, reason("RecipientTag")
        yield f"plain {name}", SMALL, {**row, name: ITEM[name]}, reason("RecipientTag")
    texts = {"id": "c-1", "town": "Seattle"}
    for name, text in texts.items():
        for at, bit in itertools.product(range(len(text)), range(7)):
            changed = {"S": replaced(text.encode(), at, ord(text[at]) ^ 1 << bit).decode()}
            yield f"bit of {name}, byte {at}", SMALL, {**row, name: changed}, reason(
                "NoRecipient" if name == "id" else "RecipientTag")
    for name, changed in (
            ("tags", {"SS": ["a"]}), ("tags", {"SS": ["a", "c"]}), ("tags", {"SS": ["a", "b", "c"]}),
            ("tags", {"BS": ["YQ==", "Yg=="]}), ("tags", {"L": [{"S": "a"}, {"S": "b"}]}), ("active", {"BOOL": False}),
            ("active", {"NULL": True}), ("active", {"B": "AQ=="}), ("town", {"B": "U2VhdHRsZQ=="}), ("town", {"S": ""}),
            ("town", {"S": "Seattle "})):
        yield f"other {name}", SMALL, {**row, name: changed}, reason("RecipientTag")
    yield "tags in another order", SMALL, {**row, "tags": {"SS": ["b", "a"]}}, BASE.opens()
    for changed in ({"N": "1"}, {"B": "Yy0x"}, {"S": ""}, {"S": "k" * 2049}, {"NULL": True}, {"L": []}):
        yield "no lawful key", SMALL, {**row, "id": changed}, reason("KeyLegend")
    yield "key of 2,048 bytes", SMALL, {**row, "id": {"S": "k" * 2048}}, reason("NoRecipient")


# Attributes that are added, taken away or exchanged.
def other_attribute_cases():
    row = BASE.row
    for name in ORDER:
        yield f"no {name}", SMALL, without(row, name), reason("LegendLength")
        expected = reason("KeyLegend" if name == "id" else "RecipientTag")
        yield f"another name for {name}", SMALL, {**without(row, name), "else": {"S": "x"}}, expected
    for name in ("else", "zzz", "i", "aws_db", "AWS_DBE_x"):
        yield f"{name} added", SMALL, {**row, name: {"S": "x"}}, reason("LegendLength")
    for name in (":x", ":", ":aws_dbe_x"):
        yield f"{name} added", SMALL, {**row, name: {"S": "x"}}, BASE.opens({**ITEM, name: {"S": "x"}})
    for name in ("aws_dbe_x", "aws_dbe_", "aws_dbe_b_ssn", "aws_dbe_v_1"):
        yield f"{name} added", SMALL, {**row, name: {"S": "x"}}, BASE.opens()
    yield "other note", SMALL, {**row, "note": {"N": "1"}}, BASE.opens({**ITEM, "note": {"N": "1"}})
    yield "no note", SMALL, without(row, "note"), BASE.opens(without(ITEM, "note"))
    for one, other in itertools.combinations(FIELDS, 2):
        changed = {**row, one: row[other], other: row[one]}
        yield f"{one} and {other} exchanged", SMALL, changed, reason("RecipientTag")
        yield f"{one} and {other} exchanged and signed", SMALL, BASE.anew(changed), reason("FieldTag", name=one)
    other = Sound(SMALL, bytes(range(100, 208)), {**ITEM, "id": {"S": "c-2"}}).row
    again = Sound(SMALL, bytes(range(100, 208)), ITEM).row
    yield "another key's footer", SMALL, {**row, FOOT: other[FOOT]}, reason("RecipientTag")
    yield "another key's header", SMALL, {**row, HEAD: other[HEAD]}, reason("NoRecipient")
    yield "another key's header and footer", SMALL, {**row, HEAD: other[HEAD], FOOT: other[FOOT]}, reason("NoRecipient")
    yield "another key", SMALL, {**row, "id": other["id"]}, reason("NoRecipient")
    yield "the same key's other header", SMALL, {**row, HEAD: again[HEAD]}, reason("RecipientTag")
    yield "the same key's other header and footer", SMALL, {**row, HEAD: again[HEAD], FOOT: again[FOOT]}, reason(
        "RecipientTag")
    for name in FIELDS:
        yield f"{name} of another time", SMALL, {**row, name: again[name]}, reason("RecipientTag")
    shorter = Sound(SMALL, bytes(range(100, 208)), without(ITEM, "age")).row
    yield "another legend", SMALL, {**row, HEAD: shorter[HEAD], FOOT: shorter[FOOT]}, reason("LegendLength")


# Stored fields under tags that were made anew.
def field_cases():
    for name in FIELDS:
        whole = bytes_at(BASE.row, name)
        for at, changed in zip(range(2, len(whole)), changes(whole, range(2, len(whole)))):
            yield f"signed, {name}, byte {at}", SMALL, BASE.with_field(name, binary(changed)), reason(
                "FieldTag", name=name)
        for size in range(len(whole)):
            yield f"signed, {name} of {size} bytes", SMALL, BASE.with_field(name, binary(whole[:size])), reason(
                "FieldShape" if size < 18 else "FieldTag", name=name)
        for digits in ("0003", "0005", "0100", "0103", "0201", "02ff", "0400", "fffe", "ff01", "ff00"):
            changed = binary(bytes.fromhex(digits) + whole[2:])
            yield f"signed, {name} as {digits}", SMALL, BASE.with_field(name, changed), reason("FieldShape", name=name)
        for stored in ({"S": "x" * 30}, {"NULL": True}, {"BS": [binary(whole)["B"]]}, ITEM["ssn"]):
            yield f"signed, {name} no binary", SMALL, BASE.with_field(name, stored), reason("FieldShape", name=name)
    for name, (digits, data) in itertools.product(("age", "state"), NOT_CANONICAL):
        changed = BASE.with_field(name, BASE.field(name, digits, data))
        yield f"signed, {name} of no value {digits} {data.hex()}", SMALL, changed, reason("NotCanonical", name=name)
    for name, (digits, data, inner) in itertools.product(("age", "state"), CANONICAL):
        changed = BASE.with_field(name, BASE.field(name, digits, data))
        yield f"signed, {name} of another value", SMALL, changed, BASE.opens({**ITEM, name: inner})
    for word, levels in itertools.product("LM", (32, 33)):
        data, inner = big(0, 8), {word: {"L": [], "M": {}}[word]}
        for _ in range(levels - 1):
            name, type_id = (string(b"m"), b"\2\0") if word == "M" else (b"", b"\3\0")
            data, inner = ONE + name + type_id + string(data), {word: {"m": inner} if word == "M" else [inner]}
        changed = BASE.with_field("name", BASE.field("name", {"L": "0300", "M": "0200"}[word], data))
        yield f"{levels} levels", SMALL, changed, (
            BASE.opens({**ITEM, "name": inner}) if levels == 32 else reason("NotCanonical", name="name"))
    plain = b"123-45-6789"
    for digits, expected in (
            ("ffff", BASE.opens({**ITEM, "ssn": binary(plain)})), ("0002", reason("NotCanonical", name="ssn")),
            ("0101", reason("NotCanonical", name="ssn"))):
        changed = binary(bytes.fromhex(digits) + bytes_at(BASE.row, "ssn")[2:])
        yield f"signed, ssn under {digits}", SMALL, BASE.with_field("ssn", changed), expected


# Legends under a commitment and tags that were made anew: the stored letter says what is encrypted, and numbers follow.
def legend_cases():
    legend = BASE.header[36:47]
    letters = dict(zip(ORDER, legend))

    def with_letters(row, **changed):
        return BASE.anew(row, legend=bytes({**letters, **changed}[name] for name in ORDER))
    yield "state signed only", SMALL, with_letters(BASE.row, state=0x73), (
        "item", {**NORMAL, "state": BASE.row["state"]}, 0, 6, 11)
    yield "age signed only", SMALL, with_letters(BASE.row, age=0x73), reason("FieldTag", name="ssn")
    yield "active encrypted", SMALL, with_letters(BASE.row, active=0x65), reason("FieldShape", name="active")
    yield "town encrypted", SMALL, with_letters(BASE.row, town=0x65), reason("FieldShape", name="town")
    yield "tags encrypted", SMALL, with_letters(BASE.row, tags=0x65), reason("FieldShape", name="tags")
    yield "key encrypted", SMALL, with_letters(BASE.row, id=0x65), reason("KeyLegend")
    yield "longer legend", SMALL, BASE.anew(BASE.row, legend=legend + b"s"), reason("LegendLength")
    yield "shorter legend", SMALL, BASE.anew(BASE.row, legend=legend[:-1]), reason("LegendLength")
    yield "no legend", SMALL, BASE.anew(BASE.row, legend=b""), reason("LegendLength")


# More or other recipients. A row is opened by the first data key that one of them unwraps.
def recipient_cases():
    turned = {**TWO, "recipients": TWO["recipients"][::-1]}
    header, footer = PAIR.header, PAIR.footer
    yield "two recipients", TWO, PAIR.row, PAIR.opens()
    yield "the first", SMALL, PAIR.row, PAIR.opens()
    yield "the second", SECOND, PAIR.row, PAIR.opens(place=1)
    yield "both, turned", turned, PAIR.row, PAIR.opens()
    for span, whole, second in (
            (range(2, 34), "Commitment", "Commitment"), (range(51, 54), "NoRecipient", "NoRecipient"),
            ([63, 66], "Commitment", "Commitment"), (range(69, 177), "Commitment", "Commitment"),
            ([179, 182], "Commitment", "NoRecipient"), (range(185, 293), "Commitment", "NoRecipient"),
            (range(293, 325), "Commitment", "Commitment")):
        for at, changed in zip(span, changes(header, span)):
            yield f"two, header byte {at}", TWO, PAIR.with_header(changed), reason(whole)
            yield f"the second, header byte {at}", SECOND, PAIR.with_header(changed), reason(second)
    for at, changed in enumerate(changes(footer, range(96))):
        row = PAIR.with_footer(changed)
        yield f"two, footer byte {at}", TWO, row, reason("RecipientTag") if at < 48 else PAIR.opens()
        yield f"the second, footer byte {at}", SECOND, row, PAIR.opens(place=1) if at < 48 else reason("RecipientTag")
    exchanged = PAIR.with_footer(footer[48:] + footer[:48])
    yield "tags exchanged", TWO, exchanged, reason("RecipientTag")
    yield "tags exchanged", SECOND, exchanged, reason("RecipientTag")
    for size in (0, 48, 95, 97, 144):
        yield f"two, footer of {size} bytes", TWO, PAIR.with_footer((footer * 2)[:size]), reason("FooterLength")
    one, two = sealing.HeaderReader(header).whole().data_keys
    for what, keys, place in (
            ("shorter", (*one[:2], one[2][:-1]), 1), ("longer", (*one[:2], one[2] + b"\0"), 1),
            ("changed", (*one[:2], replaced(one[2], 107, one[2][107] ^ 1)), 1), ("empty", (b"", b"", b""), 1),
            ("a branch's", (b"dbe-hierarchy", b"main", bytes(140)), 1), ("whole", one, 0)):
        yield f"first data key {what}", TWO, PAIR.anew(PAIR.row, data_keys=[keys, two]), PAIR.opens(place=place)
    swapped = PAIR.anew(PAIR.row, data_keys=[two, one])
    yield "data keys exchanged", TWO, swapped, reason("RecipientTag")
    yield "info exchanged", TWO, PAIR.anew(PAIR.row, data_keys=[(*one[:2], two[2]), (*two[:2], one[2])]), reason(
        "NoRecipient")
    for name, changed in (
            ("recipients", [OTHER]), ("recipients", [{**SMALL["recipients"][0], "key": "00" * 32}]),
            ("recipients", [{**SMALL["recipients"][0], "namespace": "N"}]),
            ("recipients", [{**SMALL["recipients"][0], "name": "kk"}]), ("table", "People")):
        yield f"other {name}", {**SMALL, name: changed}, BASE.row, reason("NoRecipient")
    upper = [{**SMALL["recipients"][0], "key": SMALL["recipients"][0]["key"].upper()}]
    yield "the key in capitals", {**SMALL, "recipients": upper}, BASE.row, BASE.opens()


# Another configuration than the one that the row was sealed under. The stored context and legend are what counts.
def configuration_cases():
    actions = SMALL["actions"]
    yield "other context", {**SMALL, "context": {"z": "1"}}, BASE.row, BASE.opens()
    yield "no context", without(SMALL, "context"), BASE.row, BASE.opens()
    for name, word, expected in (
            ("ssn", "SIGN_ONLY", BASE.opens()), ("town", "ENCRYPT_AND_SIGN", BASE.opens()),
            ("ssn", "DO_NOTHING", reason("LegendLength")), ("note", "SIGN_ONLY", reason("LegendLength"))):
        yield f"{name} with {word}", {**SMALL, "actions": {**actions, name: word}}, BASE.row, expected
    yield "town not listed", {**SMALL, "actions": without(actions, "town")}, BASE.row, BASE.opens()
    yield "note not listed", {**SMALL, "actions": without(actions, "note")}, BASE.row, reason("LegendLength")
    yield "a sort key more", {**SMALL, "sort": {"name": "town", "type": "S"}}, BASE.row, reason("NoRecipient")
    listed = {**SMALL, "actions": {**actions, "ssn": "SIGN_ONLY"}}
    yield "an encrypted key", {**listed, "partition": {"name": "ssn", "type": "B"}}, BASE.row, reason("KeyLegend")
    yield "a key of another type", {**SMALL, "partition": {"name": "id", "type": "B"}}, BASE.row, reason("KeyLegend")
    yield "prefix of a listed name", {**SMALL, "unsigned_prefix": "s"}, BASE.row, BASE.opens()
    yield "an item without more", SMALL, Sound(SMALL, bytes(108), {"id": {"S": "k"}}).row, (
        "item", {"id": {"S": "k"}}, 0, 0, 1)


# Two damages in one row: the reason that stands first in the list is answered.
def double_cases():
    def on(name, change):
        return lambda row: {**row, name: change(row)}

    def header_byte(at):
        return on(HEAD, lambda row: binary(replaced(bytes_at(row, HEAD), at, bytes_at(row, HEAD)[at] ^ 2)))

    def field(name, data):
        return lambda row: BASE.with_field(name, data, row)
    damages = [
        (lambda row: without(row, HEAD), reason("NoHeader")),
        (header_byte(0), reason("HeaderFault", at=0)),
        (lambda row: without(row, "town"), reason("LegendLength")),
        (on("id", lambda _: {"N": "1"}), reason("KeyLegend")),
        (on(FOOT, lambda row: binary(bytes_at(row, FOOT)[1:])), reason("FooterLength")),
        (header_byte(100), reason("NoRecipient")),
        (header_byte(200), reason("Commitment")),
        (on(FOOT, lambda row: binary(replaced(bytes_at(row, FOOT), 0, bytes_at(row, FOOT)[0] ^ 1))),
            reason("RecipientTag")),
        (field("age", binary(bytes(17))), reason("FieldShape", name="age")),
        (field("ssn", binary(bytes(18))), reason("FieldTag", name="ssn")),
        (field("name", BASE.field("name", "0002", b"1.0")), reason("NotCanonical", name="name")),
        (field("email", {"NULL": True}), reason("FieldShape", name="email")),
        (field("state", binary(bytes(99))), reason("FieldTag", name="state"))]
    for (first, expected), (second, later) in itertools.combinations(damages, 2):
        yield f"{expected[1]} and {later[1]}", SMALL, first(second(BASE.row)), expected


class Items:
    """Items made at random, of values of all ten types."""

    def __init__(self, seed):
        self.scripts = compare.Scripts(seed)
        self.random = self.scripts.random

    def key(self, config):
        kinds = {"S": ["k", "é", "k" * 1024], "N": ["1", "-0.50", "1e125"], "B": ["AA==", "/+8="]}
        return {name: {kind: self.random.choice(kinds[kind])} for name, kind, _ in sealing.keys(config)}

    def item(self, config):
        found = self.key(config)
        names = [name for name in config["actions"] if name not in found] + [config["unsigned_prefix"] + "1"]
        for name in self.random.sample(names, self.random.randint(0, len(names))):
            found[name] = self.scripts.value(4, 0)
        return found

    def drawn(self, config):
        return self.random.randbytes(sealing.draw_length(config))


def sound_rows(count=150):
    items = Items(1)
    yield from (BASE, PAIR)
    for number in range(count):
        config = [SMALL, WIDE, BINARY][number % 3]
        yield Sound(config, items.drawn(config), items.item(config))


# What opening sound rows answers, and rows of them with one damage made at random.
def random_cases(rows):
    choices = random.Random(2)
    for sound in rows:
        config, row, words = sound.config, sound.row, sound.config["actions"]
        yield "sound row", config, row, sound.opens()
        if len(config["recipients"]) == 2:
            yield "by the second", {**config, "recipients": config["recipients"][1:]}, row, sound.opens(place=1)
        names = [name for name in sound.item if words.get(name) in ("SIGN_ONLY", "ENCRYPT_AND_SIGN")
            and name not in [key for key, _, _ in sealing.keys(config)]]
        if names:
            name = choices.choice(names)
            yield "attribute away", config, without(row, name), reason("LegendLength")
            yield "attribute changed", config, {**row, name: {"L": [row[name]]}}, reason("RecipientTag")
        for name in [name for name in names if words[name] == "ENCRYPT_AND_SIGN"]:
            data = bytes_at(row, name)
            at = choices.randrange(len(data))
            yield "field changed", config, {**row, name: binary(replaced(data, at, data[at] ^ 0x10))}, reason(
                "RecipientTag")
        size = choices.randrange(48 * len(config["recipients"]))
        yield "footer cut", config, sound.with_footer(sound.footer[:size]), reason("FooterLength")
        at = choices.randrange(2, 34)
        yield "message id changed", config, sound.with_header(
            replaced(sound.header, at, sound.header[at] ^ 1)), reason("Commitment")


def opening_cases(rows):
    return itertools.chain(
        header_cases(), footer_cases(), attribute_cases(), other_attribute_cases(), field_cases(), legend_cases(),
        recipient_cases(), configuration_cases(), double_cases(), random_cases(rows))


# Rows, items, and whether the row stands for the item.
def standing_cases(rows):
    row, actions = BASE.row, SMALL["actions"]
    for sound in rows:
        yield sound.config, sound.row, sound.item, True
        yield sound.config, sound.row, {**sound.item, "x_2": {"S": "x"}}, False
        yield sound.config, sound.item, sound.item, False
    yield SMALL, row, NORMAL, True
    yield SECOND, row, ITEM, False
    yield SECOND, PAIR.row, ITEM, True
    for name in ITEM:
        yield SMALL, row, without(ITEM, name), False
        yield SMALL, row, {**ITEM, name: {"S": "other"}}, False
    yield SMALL, {**row, "note": {"S": "x"}}, ITEM, False
    yield SMALL, {**row, "note": {"S": "x"}}, {**ITEM, "note": {"S": "x"}}, True
    yield SMALL, {**row, ":x": {"S": "x"}}, ITEM, False
    yield SMALL, {**row, "aws_dbe_x": {"S": "x"}}, ITEM, False
    yield SMALL, {**row, "aws_dbe_v_1": {"S": " "}}, ITEM, False
    for name, word in (("ssn", "SIGN_ONLY"), ("town", "ENCRYPT_AND_SIGN"), ("town", "DO_NOTHING")):
        yield {**SMALL, "actions": {**actions, name: word}}, row, ITEM, False
    yield {**SMALL, "context": {}}, row, ITEM, True
    plain = {**SMALL, "recipients": []}
    yield plain, ITEM, NORMAL, True
    yield plain, row, ITEM, False
    yield plain, row, row, True


def hkdf(key, info, size):
    return HKDF(hashes.SHA512(), size, None, info).derive(key)


# SMALL's row once more, step by step with the bytes written out.
def row_by_hand():
    drawn = bytes(range(108))
    context = (
        b"\0\0\0\3\0\x12aws-crypto-attr.id\0\5\0\1c-1\0\x19aws-crypto-partition-name\0\2id"
        b"\0\x15aws-crypto-table-name\0\6people\0\0\0\1\0\3app\0\4demo")
    wrapping = hkdf(drawn[64:96], b"AWS_MPL_INTERMEDIATE_KEYWRAP_ENC", 32)
    outer = AESGCM(bytes(range(32))).encrypt(drawn[96:], drawn[64:96], context)
    ciphertext = drawn[96:] + outer + AESGCM(wrapping).encrypt(bytes(12), drawn[32:64], context)
    before = (
        b"\1\0" + drawn[:32] + b"\0\x0bseeesseeees\0\1\0\3app\0\4demo\1\0\1n\0\1k\0\x6c" + ciphertext)
    commit = hkdf(drawn[32:64], b"AWS_DBE_COMMIT_KEY" + drawn[:32], 32)
    header = before + hmac.new(commit, before, hashlib.sha384).digest()[:32]
    root = Cipher(algorithms.AES(hkdf(drawn[32:64], b"AWS_DBE_DERIVE_KEY" + drawn[:32], 32)), modes.ECB()).encryptor()
    stored = {"id": b"\0\1c-1", "town": b"\0\1Seattle", "active": b"\0\4\1",
        "tags": b"\1\1" + bytes.fromhex("0000000000000002 0000000000000001 61 0000000000000001 62")}
    plain = {"age": b"\0\00241", "ssn": b"\0\001123-45-6789", "name": b"\0\1Ann", "email": b"\0\1Ann@Example.COM",
        "phone": b"\0\001555-0100", "photo": b"\xff\xff\0\1\2", "state": b"\0\1WA"}
    paths = {name: bytes.fromhex("0000000000000006 70656f706c65 0000000000000001 24") + string(name.encode())
        for name in ORDER}
    fields = {}
    for k, name in enumerate(FIELDS):
        stream = root.update(b"".join(b"AwsDbeField," + big(block, 4) for block in range(3 * k, 3 * k + 3)))
        sealed = AESGCM(stream[:32]).encrypt(stream[32:44], plain[name][2:], paths[name])
        fields[name] = plain[name][:2] + sealed
        stored[name] = b"\xff\xff" + fields[name]
    text = header + b"".join(
        string(paths[name]) + (b"ENCRYPTED" if name in FIELDS else b"PLAINTEXT") + string(stored[name])
        for name in ORDER)
    signing = hkdf(drawn[64:96], b"AWS_MPL_INTERMEDIATE_KEYWRAP_MAC", 48)
    footer = hmac.new(signing, hashlib.sha384(text).digest(), hashlib.sha384).digest()
    row = {**NORMAL, **{name: binary(fields[name]) for name in FIELDS}, HEAD: binary(header), FOOT: binary(footer)}
    return {name: row[name] for name in sorted(row)}


# What is written in documents and standards: the thing, what the model has, and what it should be.
def known_answers():
    yield "SMALL's row", BASE.row, row_by_hand()
    yield "its header", len(BASE.header), 209
    yield "its footer", len(BASE.footer), 48
    yield "its ssn", len(bytes_at(BASE.row, "ssn")), 29
    yield "its drawn bytes", sealing.draw_length(SMALL), 108
    yield "its signed names", sealing.signed_names(SMALL, ITEM), ORDER
    yield "drawn bytes of two", sealing.draw_length(TWO), 152
    yield "GCM of nothing", AESGCM(bytes(32)).encrypt(bytes(12), b"", b"").hex(), "530f8afbc74536b9a963b4f1c4cb738b"
    path = "000000000000000670656f706c65000000000000000124000000000000000269" + "64"
    yield "a path", sealing.path(SMALL, "id").hex(), path
    for size in (1, 32, 48, 64, 65, 200):
        yield "HKDF", sealing.derived(b"key", b"info", size), hkdf(b"key", b"info", size)
    for digits, data, inner in CANONICAL:
        found = model.value(inner)
        yield "canonical bytes", sealing.spelled(found), bytes.fromhex(digits) + data
        yield "their value", sealing.value_of(bytes.fromhex(digits), data), found
    sorted_by_name = {**BINARY, "partition": {"name": "k", "type": "N"}, "sort": {"name": "kk", "type": "B"}}
    values = sealing.values_in({"k": {"N": "7.0"}, "kk": {"B": "AP8="}})
    yield "a context", sealing.full_context(sorted_by_name, values, []), (
        b"\0\0\0\5\0\x11aws-crypto-attr.k\0\3\0\0027\0\x12aws-crypto-attr.kk\0\4\xff\xff\0\xff"
        b"\0\x19aws-crypto-partition-name\0\1k\0\x14aws-crypto-sort-name\0\2kk\0\x15aws-crypto-table-name\0\1t\0\0\0\0")
    header = sealing.Header(b"\x11" * 32, b"se", [], [(b"n", b"k", b"\x33" * 108)], b"\x22" * 32).written()
    whole = b"\1\0" + b"\x11" * 32 + b"\0\2se\0\0\1\0\1n\0\1k\0\x6c" + b"\x33" * 108 + b"\x22" * 32
    yield "a header", header, whole
    for data, at in (
            (whole[:0], 0), (whole[:39], 38), (whole[:40], 40), (whole[:188], 157), (whole + b"\0", 189),
            (replaced(whole, 36, 0x63), 36), (replaced(whole, 0, 2), 0), (replaced(whole, 40, 0), 40),
            (replaced(whole, 40, 9), 40)):
        yield "a header's fault", fault_of(data), {"why": "HeaderFault", "at": at}
    yield "a header's fault", fault_of(whole), None


def fault_of(data):
    try:
        sealing.HeaderReader(data).whole()
        return None
    except model.Fault as fault:
        return fault.args[0]


# All that is compared: its kind, what it is of, what the model says, and what it should be.
def comparisons():
    for what, found, wanted in known_answers():
        yield "known answers", what, found, wanted
    rows = list(sound_rows())
    for what, config, row, wanted in opening_cases(rows):
        found = sealing.unseal(config, row)
        yield wanted[1] if wanted[0] == "reason" else "opened", (what, config, row), found, wanted
    for config, row, item, wanted in standing_cases(rows):
        yield "stands", (config, row, item), sealing.stands(config, row, item), wanted


def check():
    counts = collections.Counter()
    for kind, what, found, wanted in comparisons():
        if found != wanted:
            print(what, f"The model says: {found}", f"It should be: {wanted}", sep="\n")
            return 1
        counts[kind] += 1
    print(f"{sum(counts.values())} comparisons of sealed rows, each as it should be: "
        + ", ".join(f"{counts[kind]} {kind}" for kind in sorted(counts)))
    return 0


def lines():
    rows = list(sound_rows())
    for sound in rows:
        yield {"config": sound.config, "drawn": sound.drawn.hex(), "item": sound.item, "row": sound.row}
    for _, config, row, (word, *inner) in opening_cases(rows):
        if word == "item":
            expected = dict(zip(("item", "recipient", "encrypted", "signed"), inner))
        else:
            expected = {"why": inner[0], **inner[1]}
        yield {"config": config, "row": row, "expected": expected}
    for config, row, item, stands in standing_cases(rows):
        yield {"config": config, "row": row, "item": item, "stands": stands}


if __name__ == "__main__":
    with open(sys.argv[1], "w", encoding="utf-8") as out:
        for line in lines():
            out.write(model.text(line) + "\n")
