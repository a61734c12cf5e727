#!/usr/bin/env python3
"""Runs the built program on scripts made at random, and compares what it writes with the model.

    model/compare.py PROGRAM [SEED [LINES]]     2,000 lines from seed 1 where none are given

It prints the first line whose replies differ and ends with status 1, or prints how often each kind of reply was
compared.
"""
import collections
import json
import random
import re
import subprocess
import sys
import tempfile

import model

NUMBERS = [
    "0", "-0", "1", "1.0", "+1", "10", "9", "-1", "-10", "0.1", "1e-1", "2.50", "2.5", ".5", "5.", "00012", "1E+2",
    "-1e-3", "1e125", "1e126",
    "1e-130", "1e-131", "9" * 38, "9" * 39, "123456789012345678901234567890", "1e", "x", "", " 1", "1" + "0" * 125,
    "1e99999999999999999999",
    "0e99999999999999999999", "1e-" + "0" * 40 + "2", "0." + "0" * 129 + "1", "\u0661",
]
TEXTS = ["a/xb/", "x/y", "/", "Kk", "kxk", "ab/Éé/c",
    "", "x", "xy", "y", "X", "é", "z\x00", '"q"', "\\", "\x1f", "\x7f", "😀", "x y", "a/b", "\u2028", "\ufeff"]
BINARIES = [
    "", "AQ==", "AQI=", "Ag==", "AA==", "/+8=", "////", "AQIDBA==", "AB==", "_-8=", "AQ", "A===", "AQ==AQ==", "AQ ="]
SCALARS = {"S": TEXTS, "N": NUMBERS, "B": BINARIES}
NO_VALUES = [
    1, None, "x", [], {}, {"S": 1}, {"N": 1}, {"X": "y"}, {"S": "a", "N": "1"}, {"NULL": False}, {"BOOL": "true"},
    {"SS": []}, {"SS": "a"},
    {"L": {}}, {"M": []}, {"SS": ["a", 1]}, {"SS": ["a", "a", 1]}, {"NS": ["1", "1.0", "x"]}, {"NS": ["x", "1", "1.0"]},
    {"BS": ["AQ==", "AQ=="]},
]
NO_REQUESTS = [
    b"", b"{}", b"[]", b"x", b" ", b"1", b"null", b"\xff", b'{"put":1}', b'{"drop":{}}', b'{"put":{},"get":{}}',
    b'{"put":NaN}', b'{"put":{}}x',
    b'{"query":{"condition":1}}', b'{"create":"a b"}', b'{"create":""}', b'{"rotate":"' + b"b" * 64 + b'"}',
    b'{"rotate":"' + b"b" * 65 + b'"}',
    b'{"get":{"p":{"S":"k"},"s":{"N":"1"}},"get":{"p":{"S":"l"},"s":{"N":"1"}}}',
    b'{"put":{"p":{"S":"\\ud800"},"s":{"N":"1"}}}',
]
NAMES = [*"abcdef", "p", "s", "x_1", "none", "begins"]
COMPUTED = [*"vwz", "x_w", "place", "both"]
PREFIXES = ["V-", "V-X", "A-x/", "x", "S-1kB", "S-1kBa", "S-", "a/b", "xé", "X/", "1", "x1x"]
SIGNS = [
    " ( ", " ) ", " AND ", " OR ", " NOT ", " IN ", " BETWEEN ", ",", " = ", " a ", " :a ", " #a ", " begins_with ",
    " attribute_exists ", "!", "-",
    "é", "#", ":", "<", ">",
]


class Scripts:
    """Lines made at random. Most are right, and some of each kind are wrong."""

    def __init__(self, seed):
        self.random = random.Random(seed)
        self.pool = []

    def chance(self, of):
        return self.random.random() < of

    def one_of(self, choices):
        return self.random.choice(choices)

    def scalar(self, kind, wrong):
        while True:
            found = self.one_of(SCALARS[kind])
            if self.chance(wrong) or is_scalar(kind, found):
                return found

    def value(self, levels, wrong):
        if self.chance(wrong):
            return self.one_of(NO_VALUES)
        kind = self.one_of(["S", "S", "N", "N", "B", "BOOL", "NULL", "SS", "NS", "BS", "L", "M"])
        if kind in SCALARS:
            return {kind: self.scalar(kind, wrong)}
        if kind in ("SS", "NS", "BS"):
            elements = [self.scalar(kind[0], wrong) for _ in range(self.random.randint(1, 5))]
            return {kind: elements if self.chance(wrong) else without_doubles(kind[0], elements)}
        size = self.random.randint(0, 3) if levels else 0
        if kind == "L":
            return {kind: [self.value(levels - 1, wrong) for _ in range(size)]}
        if kind == "M":
            return {kind: {self.one_of(TEXTS): self.value(levels - 1, wrong) for _ in range(size)}}
        return {kind: kind == "NULL" or self.chance(0.5)}

    # A value, most often one that other lines have too, so that conditions hold of some rows.
    def shared(self, wrong):
        if not self.pool or self.chance(0.4):
            self.pool = self.pool[-60:] + [self.nested() if self.chance(0.01) else self.value(4, wrong)]
        return self.one_of(self.pool)

    def nested(self):
        found = {"S": "x"}
        for _ in range(self.one_of([31, 32, 33])):
            found = {"L": [found]} if self.chance(0.5) else {"M": {"": found}}
        return found

    def key(self, wrong):
        found = {
            "p": {"S": self.one_of(["k", "l", "é", "kk"])},
            "s": {"N": self.one_of(["1", "1.0", "2", "10", "-1", "0.5"])},
        }
        if self.chance(wrong):
            found[self.one_of("ps")] = self.one_of([
                {"S": ""}, {"S": "k" * 2048}, {"S": "k" * 2049}, {"N": "1"}, {"NULL": True}, self.value(1, 0.3)])
        if self.chance(wrong):
            del found[self.one_of("ps")]
        return found

    def put(self):
        item = self.key(0.03)
        for name in self.random.sample("abcdef", self.random.randint(0, 4)):
            item[name] = self.shared(0.01)
        if self.chance(0.3):
            item[self.one_of("abf")] = {"S": self.one_of(TEXTS)}
        if self.chance(0.1):
            item[self.one_of(["x_1", "x_w"])] = self.shared(0.01)
        if self.chance(0.05):
            inner = self.value(2, 0.1)
            item[self.one_of([
                "g", "aws_dbe_x", "aws_db", "x_", "X_1", "", "n" * 255, "n" * 256, "x_" + "é" * 126, "x_" + "é" * 127,
            ])] = inner
        if self.chance(0.002):
            item.update(("x_%d" % n, {"NULL": True}) for n in range(self.one_of([990, 998, 999, 1000])))
        if self.chance(0.002):
            item["a"] = {"S": "a" * self.random.randint(409500, 409650)}
        members = list(item.items())
        self.random.shuffle(members)
        return {"put": dict(members)}

    def operand(self, names, values):
        if self.chance(0.06):
            return self.one_of(COMPUTED)
        if self.chance(0.42):
            return self.one_of(NAMES)
        if self.chance(0.75):
            placeholder = ":" + self.one_of("abcdefgh")
            values.setdefault(placeholder, self.shared(0.005))
            return placeholder
        placeholder = "#" + self.one_of("abc")
        choices = NAMES + COMPUTED + ["IN", "aws_dbe_q"] if self.chance(0.05) else NAMES
        names.setdefault(placeholder, self.one_of(choices))
        return placeholder

    def name(self, names, values):
        while True:
            found = self.operand(names, values)
            if found[0] != ":":
                return found

    def space(self):
        return self.one_of([" ", "  ", "\t", "\r\n"]) if self.chance(0.1) else " "

    def word(self, word):
        return self.space() + "".join(self.one_of([letter, letter.lower()]) for letter in word) + self.space()

    def condition(self, levels, names, values):
        form = self.random.random() if levels else 1
        if form < 0.15:
            return self.word("NOT") + self.condition(levels - 1, names, values)
        if form < 0.3:
            return "(" + self.condition(levels - 1, names, values) + ")"
        if form < 0.6:
            one = self.condition(levels - 1, names, values)
            return one + self.word(self.one_of(["AND", "OR"])) + self.condition(levels - 1, names, values)
        return self.test(names, values)

    # A test of a virtual field or a compound.
    def computed_test(self, values):
        placeholder = ":" + self.one_of("ij")
        values[placeholder] = {"S": self.one_of(TEXTS + PREFIXES)}
        name = self.one_of(COMPUTED)
        return self.one_of([f"begins_with({name}, {placeholder})", f"{name} = {placeholder}",
            f"{placeholder} <= {name}", f"{name} IN ({placeholder}, a)"])

    def test(self, names, values):
        if self.chance(0.05):
            return self.computed_test(values)
        form = self.random.random()
        one = self.operand(names, values)
        if form < 0.5:
            sign = self.one_of(["", " "]) + self.one_of(list(model.COMPARISONS)) + self.one_of(["", " "])
            return one + sign + self.operand(names, values)
        if form < 0.65:
            low = self.word("BETWEEN") + self.operand(names, values)
            return one + low + self.word("AND") + self.operand(names, values)
        if form < 0.8:
            size = self.one_of([99, 100, 101]) if self.chance(0.03) else self.random.randint(1, 4)
            return one + self.word("IN") + "(" + ", ".join(self.operand(names, values) for _ in range(size)) + ")"
        name = self.name(names, values)
        if form < 0.92:
            return self.one_of(["attribute_exists", "attribute_not_exists"]) + "(" + name + self.space() + ")"
        return "begins_with(" + name + "," + self.operand(names, values) + ")"

    # A condition's text with signs left out, put in or cut off.
    def broken(self, text):
        signs = re.findall(r"\s+|<>|<=|>=|[#:]?\w+|.", text)
        for _ in range(self.random.randint(1, 2)):
            at = self.random.randint(0, len(signs))
            form = self.random.random()
            if form < 0.35:
                del signs[at:at + 1]
            elif form < 0.7:
                signs.insert(at, self.one_of(SIGNS))
            else:
                del signs[at:]
        return "".join(signs)

    def query(self):
        names, values = {}, {}
        text = self.condition(self.random.randint(0, 4), names, values)
        if self.chance(0.25):
            text = self.broken(text)
        if self.chance(0.02):
            depth = self.one_of([62, 63, 64, 65])
            text = self.one_of(["(" * depth + text + ")" * depth, "NOT " * depth + text, "(" * depth])
        if self.chance(0.01):
            text += " " * (self.one_of([4096, 4097]) - len(text.encode()))
        for given in (names, values):
            if given and self.chance(0.03):
                del given[self.one_of(list(given))]
        if self.chance(0.02):
            values[self.one_of(["a", ":", ":a-", ":zz"])] = self.value(1, 0.3)
        if self.chance(0.02):
            names[self.one_of(["a", "#", "#zz"])] = self.one_of(["", "q", "n" * 256, 1])
        query = {"condition": text}
        if names or self.chance(0.1):
            query["names"] = names
        if values or self.chance(0.1):
            query["values"] = values
        if self.chance(0.01):
            query["more"] = 1
        return {"explain" if self.chance(0.15) else "query": query}

    def line(self):
        form = self.random.random()
        if form < 0.35:
            request = self.put()
        elif form < 0.45:
            request = {self.one_of(["get", "check"]): self.key(0.08)}
        elif form < 0.97:
            request = self.query()
        else:
            return self.one_of(NO_REQUESTS)
        line = model.text(request).encode()
        if self.chance(0.02):
            at = self.random.randrange(len(line))
            line = line[:at] + bytes([self.one_of(b'"{}[],:x0\\\xff')]) + line[at + 1:]
        return line


def is_scalar(kind, text):
    try:
        model.scalar(kind, text)
        return True
    except model.Fault:
        return False


def without_doubles(kind, elements):
    found = []
    for element in elements:
        if not is_scalar(kind, element) or all(
                not is_scalar(kind, other) or model.scalar(kind, element) != model.scalar(kind, other)
                for other in found):
            found.append(element)
    return found


def kind_of(reply):
    if "refused" in reply:
        return " ".join(reply[member] for member in ("refused", "why") if member in reply)
    return next(member for member in ("ok", "item", "none", "checked", "count", "condition", "every")
        if member in reply)


def main(program, seed=1, size=2000):
    scripts = Scripts(seed)
    lines = [scripts.line() for _ in range(size)]
    with tempfile.TemporaryDirectory() as folder:
        with open(folder + "/dbe.json", "w", encoding="utf-8") as config:
            config.write(json.dumps(model.CONFIG))
        run = subprocess.run([program], input=b"".join(line + b"\n" for line in lines), cwd=folder,
            stdout=subprocess.PIPE, check=True)
    written = run.stdout.decode().split("\n")
    table, at, kinds = model.Table(), 0, collections.Counter()
    for line in lines:
        replies = table.replies(line)
        texts = [model.text(reply) for reply in replies]
        if written[at:at + len(texts)] != texts:
            print(line[:2000], "", "The model says:", *texts, "", "The program says:", *written[at:at + len(texts)],
                sep="\n")
            return 1
        at += len(texts)
        kinds.update(map(kind_of, replies))
    if written[at:] != [""]:
        print("The program writes more than the replies:", *written[at:at + 10], sep="\n")
        return 1
    print(f"{size} lines from seed {seed}, and all {at} lines of replies as the model says: "
          + ", ".join(f"{count} {kind}" for kind, count in sorted(kinds.items())))
    return 0


if __name__ == "__main__":
    sys.exit(main(sys.argv[1], *map(int, sys.argv[2:])))
