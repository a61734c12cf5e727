#!/usr/bin/env python3
"""Runs a built program that seals and opens rows, and compares what it prints with tables and with the model.

    model/sealed_rows.py PROGRAM [SEED [COUNT]]     300 tables from seed 1 where none are given

PROGRAM is crates/dbe_calls/out/dbe_calls. It makes the sound rows of model/sealing_cases.py from the same drawn bytes,
and opens each row there, sound or damaged; what has to come of a row stands in the tables of that file. Then it serves
scripts over tables made at random as model/sealing.py says, with configurations, items and damages made at random.

It prints the first case whose lines differ and ends with status 1, or prints how often each kind of line was compared.
"""
import collections
import random
import subprocess
import sys
import tempfile

import model
import sealing
import compare
import sealing_cases
from sealing import FOOT, HEAD

NAMES = ["a", "b", "aa", "ab", "B", "é", "ź", "id", "key", "aws_db", "aws-crypto-attr.a", "x_in", "z" * 245]
WORDS = ["ENCRYPT_AND_SIGN", "SIGN_ONLY", "DO_NOTHING"]
TEXTS = ["", "x", "é", "demo", "k" * 255]


class Case:
    """The rows that a table begins with, a script over it, and what the program has to print."""

    def __init__(self, what, config, rows, script, drawn=b""):
        self.what, self.config, self.rows, self.script, self.drawn = what, config, rows, script, drawn
        self.replies, self.after, self.given = [], [], 0

    def given_lines(self):
        return ["config " + model.text(self.config), *("row " + model.text(row) for row in self.rows),
            *("line " + model.text(line) for line in self.script), "steps " + model.text({"drawn": self.drawn.hex()})]

    def wanted_lines(self):
        return [*map(model.text, self.replies), *("- " + model.text(row) for row in self.after),
            f"= given {self.given}, faults 0"]

    def kinds(self):
        return [*map(compare.kind_of, self.replies), *["row"] * len(self.after)]


def key_of(config, values):
    return {name: model.spelled(values[name]) for name in model.in_order(name for name, _, _ in sealing.keys(config))}


# The replies to a get and to a check of a row that is to be opened so.
def opening_replies(config, values, found):
    word, *inner = found
    if word == "reason":
        refusal = {"key": key_of(config, values), "refused": "item", "why": inner[0], **inner[1]}
        return [dict(sorted(refusal.items()))] * 2
    opened, place, encrypted, signed = inner
    beacons = not any(name.startswith(sealing.RESERVED) and name not in (HEAD, FOOT) for name in values)
    checked = {"beacons": beacons, "encrypted": encrypted, "recipient": place, "signed": signed}
    return [{"item": {name: opened[name] for name in model.in_order(opened)}}, {"checked": checked}]


# A get and a check over a table of this row, or None where its key is none that a row of a table has.
def opening_case(what, config, row, wanted):
    values = sealing.values_in(row)
    if not sealing.has_key(config, values):
        return None
    key = key_of(config, values)
    case = Case(what, config, [row], [{"get": key}, {"check": key}])
    case.replies, case.after, case.given = opening_replies(config, values, wanted), [sealing.item_of(values)], 2
    return case


# A put, a get and a check over an empty table.
def sealing_case(sound):
    key = key_of(sound.config, sealing.values_in(sound.item))
    case = Case("sealed row", sound.config, [], [{"put": sound.item}, {"get": key}, {"check": key}], sound.drawn)
    case.replies = [{"ok": "put"}, *opening_replies(sound.config, sealing.values_in(sound.row), sound.opens())]
    case.after, case.given = [sound.row], 2
    return case


class SealedTable(model.Table):
    """The model's replies over sealed rows."""

    def __init__(self, config, rows, drawn):
        super().__init__()
        model.CONFIG = {"virtual": [], "compounds": [], **config}
        self.config, self.drawn, self.given = config, drawn, 0
        self.rows = {model.key(values): values for values in map(sealing.values_in, rows)}

    def put(self, new):
        replies = super().put(new)
        drawn, self.drawn = sealing.pieces(self.drawn, sealing.draw_length(self.config), len(self.drawn))
        sealed = sealing.seal(self.config, drawn, sealing.item_of(new))
        self.rows[model.key(new)] = sealing.values_in(sealed)
        return replies

    def opened(self, wanted, which):
        values = self.rows.get(model.key(wanted))
        if values is None:
            return [{"none": True}]
        self.given += 1
        found = sealing.unseal(self.config, sealing.item_of(values))
        return [opening_replies(self.config, values, found)[which]]

    def get(self, wanted):
        return self.opened(wanted, 0)

    def check(self, wanted):
        return self.opened(wanted, 1)

    # A query of the right form is refused before its names and values are read.
    def asked(self, body):
        try:
            super().asked(body)
        except model.Fault as fault:
            if fault.args[0]["refused"] == "shape":
                raise
        model.refused(refused="not built")


class Tables(sealing_cases.Items):
    """Configurations, sealed rows with damages, and scripts, made at random."""

    def __init__(self, seed):
        super().__init__(seed)
        self.one_of, self.chance = self.random.choice, self.scripts.chance

    def made_config(self):
        names = self.random.sample(NAMES, self.random.randint(2, len(NAMES)))
        which = ["partition", "sort"][:self.random.randint(1, 2)]
        config = {"table": self.one_of(["t", "people", "Łódź", "t" * 255]),
            **{key: {"name": name, "type": self.one_of("SNB")} for key, name in zip(which, names)},
            "actions": {name: self.one_of(WORDS) for name in names[len(which):]},
            "unsigned_prefix": self.one_of(["x_", "p", "é"])}
        config["actions"].update((name, "SIGN_ONLY") for name in names[:len(which)] if self.chance(0.3))
        if self.chance(0.7):
            pairs = self.random.sample(TEXTS[1:], self.random.randint(0, 4))
            config["context"] = {name: self.one_of([*TEXTS, "v" * 1024]) for name in pairs}
        marks = [(space, name) for space in TEXTS[1:] for name in TEXTS[1:]]
        config["recipients"] = [
            {"kind": "raw", "namespace": space, "name": name, "key": self.random.randbytes(32).hex()}
            for space, name in self.random.sample(marks, self.one_of([1, 1, 1, 2, 3, 8]))]
        return config

    def sealed(self, config):
        return sealing_cases.Sound(config, self.drawn(config), self.item(config))

    # A configuration that has some of the recipients, or others beside them.
    def other_config(self, config):
        recipients = list(config["recipients"])
        self.random.shuffle(recipients)
        return {**config, "recipients": recipients[:self.random.randint(1, len(recipients))]}

    def damaged(self, sound):
        row, names = dict(sound.row), [name for name in sound.row if not self.is_key(sound.config, name)]
        form, name = self.random.random(), self.one_of(names)
        if form < 0.15:
            del row[name]
        elif form < 0.3:
            row[self.one_of(["zz", "aws_dbe_x", sound.config["unsigned_prefix"] + "2"])] = self.scripts.value(1, 0)
        elif form < 0.45:
            other = self.one_of(names)
            row[name], row[other] = row[other], row[name]
        elif "B" in row[name]:
            row[name] = sealing_cases.binary(self.changed(sealing_cases.bytes_at(row, name)))
        else:
            row[name] = self.scripts.value(2, 0)
        return self.signed_anew(sound, row) if self.chance(0.4) else row

    def is_key(self, config, name):
        return name in [key for key, _, _ in sealing.keys(config)]

    def changed(self, data):
        if not data or self.chance(0.1):
            return data + b"\0"
        at = self.random.randrange(len(data))
        return data[:at] if self.chance(0.2) else sealing_cases.replaced(data, at, data[at] ^ 1 << at % 8)

    # The row with tags made anew, where it has a header.
    def signed_anew(self, sound, row):
        try:
            return sound.anew(row)
        except (KeyError, TypeError, model.Fault):
            return row

    def key_object(self, config, rows):
        wanted = key_of(config, sealing.values_in(self.one_of(rows))) if rows and self.chance(0.8) else self.key(config)
        if self.chance(0.05):
            wanted[self.one_of(list(wanted))] = self.one_of([{"S": ""}, {"N": "x"}, {"N": "5"}, {"NULL": True}])
        if self.chance(0.03):
            wanted["zz"] = {"S": "x"}
        return wanted

    def request(self, config, rows):
        form = self.random.random()
        if form < 0.35:
            item = self.item(config)
            if self.chance(0.2):
                item[self.one_of(["zz", "aws_dbe_x", "", "x_" + "n" * 254])] = self.scripts.value(2, 0.2)
            return {"put": item}
        if form < 0.9:
            return {self.one_of(["get", "check"]): self.key_object(config, rows)}
        word = self.one_of(["query", "explain"])
        return self.one_of([
            {word: {"condition": "a = :v", "values": {":v": {"S": "x"}}}}, {word: {"condition": "a ! :v"}},
            {word: {"condition": "a = :v", "values": {":v": {"S": 1}}}}, {word: {"condition": 1}}, {word: []},
            {word: {"condition": "a", "values": {"v": {"S": "x"}}}}, {"create": "main"}, {"drop": 1}])

    def case(self):
        config = self.made_config()
        begins = {}
        for _ in range(self.random.randint(0, 3)):
            sound = self.sealed(config)
            row = self.damaged(sound) if self.chance(0.6) else sound.row
            begins[model_key(config, row)] = row
        config = self.other_config(config) if self.chance(0.4) else config
        rows = [row for _, row in sorted(begins.items(), key=lambda pair: pair[0])]
        script = [self.request(config, rows) for _ in range(self.random.randint(3, 8))]
        drawn = self.random.randbytes(sealing.draw_length(config) * len(script))
        case = Case("script", config, rows, script, drawn)
        table = SealedTable(config, rows, drawn)
        for line in script:
            case.replies += table.replies(model.text(line).encode())
        case.after = [sealing.item_of(values) for _, values in sorted(table.rows.items())]
        case.given = table.given
        return case


def model_key(config, row):
    values = sealing.values_in(row)
    return tuple(values[name][1] for name, _, _ in sealing.keys(config))


def main(program, seed=1, count=300):
    rows = list(sealing_cases.sound_rows())
    opening = [opening_case(*case) for case in sealing_cases.opening_cases(rows)]
    tables = Tables(seed)
    cases = [*map(sealing_case, rows), *filter(None, opening), *(tables.case() for _ in range(count))]
    with tempfile.TemporaryFile("w+", encoding="utf-8") as given:
        given.writelines(line + "\n" for case in cases for line in case.given_lines())
        given.seek(0)
        run = subprocess.run([program], stdin=given, stdout=subprocess.PIPE, check=True)
    written = run.stdout.decode().split("\n")
    at, kinds = 0, collections.Counter()
    for case in cases:
        wanted = case.wanted_lines()
        found = written[at:at + len(wanted)]
        if found != wanted:
            print(case.what, *case.given_lines(), "", "It should be:", *wanted, "",
                "The program says:", *found, sep="\n")
            return 1
        at += len(wanted)
        kinds.update(case.kinds())
    if written[at:] != [""]:
        print("The program writes more than the lines of the cases:", *written[at:at + 10], sep="\n")
        return 1
    print(f"{len(cases)} tables of sealed rows with {count} from seed {seed}, each line as it should be: "
        + ", ".join(f"{number} {kind}" for kind, number in sorted(kinds.items()))
        + f"; {opening.count(None)} rows are left out, whose keys no row of a table has")
    return 0


if __name__ == "__main__":
    sys.exit(main(sys.argv[1], *map(int, sys.argv[2:])))
