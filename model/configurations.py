#!/usr/bin/env python3
"""What docs/CONFIGURATION.md says of configurations, once more in Python, and the program compared with it over
configurations made at random.

    model/configurations.py PROGRAM [SEED [COUNT]]     2,000 configurations from seed 1 where none are given

It prints the first configuration with which the program ends in another way and ends with status 1, or prints how
often each end was compared.
"""
import collections
import copy
import json
import random
import re
import subprocess
import sys
import tempfile

WHOLE = {
    "table": "people", "partition": {"name": "id", "type": "S"}, "sort": {"name": "entry", "type": "N"},
    "actions": {
        "ssn": "ENCRYPT_AND_SIGN", "state": "ENCRYPT_AND_SIGN", "email": "ENCRYPT_AND_SIGN", "town": "SIGN_ONLY",
        "entry": "SIGN_ONLY",
        "note": "DO_NOTHING"},
    "unsigned_prefix": ":", "context": {"app": "demo"},
    "recipients": [
        {"kind": "raw", "namespace": "n", "name": "one", "key": "00" * 32},
        {"kind": "raw", "namespace": "n", "name": "two", "key": "aF" * 32},
        {"kind": "branch", "branch": "main"}],
    "beacon_branch": "main",
    "virtual": [
        {"name": "domain", "parts": [{"from": "email", "steps": [["segment", "@", 1], ["lower"]]}]},
        {"name": "short", "parts": [
            {"from": "town", "steps": [["prefix", 3], ["insert", "-"], ["upper"]]}, {"from": "id", "steps": []},
            {"from": "ssn", "steps": [["suffix", -4], ["substring", 0, -1], ["segments", ".", 0, 2]]}]}],
    "beacons": [{"name": "ssn", "length": 16}, {"name": "state", "length": 8}, {"name": "domain", "length": 63}],
    "compounds": [
        {"name": "place", "split": ".", "parts": [
            {"name": "st", "prefix": "S-", "kind": "encrypted", "from": "state"},
            {"name": "tn", "prefix": "T-", "kind": "signed", "from": "town"},
            {"name": "key", "prefix": "K-", "kind": "signed", "from": "id"}],
         "constructors": [
             [{"part": "tn", "required": True}, {"part": "st", "required": False}],
             [{"part": "key", "required": True}]]},
        {"name": "where", "split": "~",
         "parts": [{"name": "st", "prefix": "S", "kind": "encrypted", "from": "state"}]}],
}
PLAIN = {**WHOLE, "recipients": []}
RAW = {**WHOLE, "recipients": WHOLE["recipients"][:2], "beacons": [], "compounds": []}


def is_text(data, least, most):
    return isinstance(data, str) and least <= len(data.encode()) <= most


def is_whole(data, least, most):
    return type(data) is int and least <= data <= most


def is_branch(data):
    return isinstance(data, str) and re.fullmatch("[A-Za-z0-9_-]{1,64}", data) is not None


def is_list(data, most, of):
    return isinstance(data, list) and len(data) <= most and all(map(of, data))


# An object with these members and none but those and the ones that may be left out, each of its form.
def is_object(data, members, left_out=None):
    left_out = left_out or {}
    return (isinstance(data, dict) and set(members) <= set(data) <= set(members) | set(left_out)
            and all({**members, **left_out}[name](inner) for name, inner in data.items()))


def is_name(data):
    return is_text(data, 1, 245)


def is_any_text(data):
    return isinstance(data, str)


def is_key(data):
    return is_object(data, {"name": is_name, "type": lambda kind: kind in ("S", "N", "B")})


def is_step(data):
    if not isinstance(data, list) or not data or not isinstance(data[0], str):
        return False
    place, one = lambda number: is_whole(number, -65536, 65536), lambda text: isinstance(text, str) and len(text) == 1
    forms = {
        "upper": [], "lower": [], "insert": [is_any_text], "prefix": [place], "suffix": [place],
        "substring": [place, place],
        "segment": [one, place], "segments": [one, place, place]}
    form = forms.get(data[0])
    return form is not None and len(form) == len(data) - 1 and all(is_it(inner) for is_it, inner in zip(form, data[1:]))


def is_recipient(data):
    texts = lambda text: is_text(text, 1, 255)
    raw = {
        "kind": lambda kind: kind == "raw", "namespace": lambda text: texts(text) and text != "dbe-hierarchy",
        "name": texts,
        "key": lambda key: isinstance(key, str) and re.fullmatch("[0-9A-Fa-f]{64}", key) is not None}
    return is_object(data, raw) or is_object(data, {"kind": lambda kind: kind == "branch", "branch": is_branch})


def is_virtual(data):
    part = lambda inner: is_object(inner, {"from": is_any_text, "steps": lambda steps: is_list(steps, 16, is_step)})
    return is_object(data, {"name": is_name, "parts": lambda parts: is_list(parts, 16, part) and len(parts) > 0})


def is_compound(data):
    part = {"name": is_any_text, "prefix": is_any_text, "kind": lambda kind: kind in ("encrypted", "signed"),
        "from": is_any_text}
    member = {"part": is_any_text, "required": lambda required: isinstance(required, bool)}
    constructor = lambda inner: isinstance(inner, list) and all(is_object(one, member) for one in inner)
    return is_object(
        data,
        {"name": is_name, "split": is_any_text,
         "parts": lambda parts: is_list(parts, 16, lambda inner: is_object(inner, part))},
        {"constructors": lambda constructors: is_list(constructors, 16, constructor)})


def has_form(data):
    action = ("ENCRYPT_AND_SIGN", "SIGN_ONLY", "DO_NOTHING")
    return is_object(data, {
        "table": lambda text: is_text(text, 1, 255), "partition": is_key,
        "actions": lambda names: isinstance(names, dict) and len(names) <= 1000 and all(map(is_name, names)) and all(
            isinstance(word, str) and word in action for word in names.values()),
        "recipients": lambda recipients: isinstance(recipients, list) and all(map(is_recipient, recipients)),
    }, {
        "sort": is_key, "unsigned_prefix": lambda text: is_text(text, 1, 255),
        "context": lambda pairs: isinstance(pairs, dict) and len(pairs) <= 32 and all(
            is_text(name, 1, 255) and is_text(text, 0, 1024) for name, text in pairs.items()),
        "beacon_branch": is_branch, "virtual": lambda fields: is_list(fields, 64, is_virtual),
        "beacons": lambda beacons: is_list(
            beacons, 64,
            lambda beacon: is_object(beacon, {"name": is_any_text, "length": lambda length: type(length) is int})),
        "compounds": lambda compounds: is_list(compounds, 16, is_compound),
    })


def has_twice(names):
    names = list(names)
    return len(set(names)) < len(names)


# The first refusal of the list that applies to these bytes, or None.
def refusal(text):
    def constant(_):
        raise ValueError
    if len(text) > 1048576:
        return "TooLong"
    try:
        data = json.loads(text.decode(), parse_constant=constant)
        json.dumps(data, ensure_ascii=False).encode()
    except (ValueError, RecursionError):
        return "NotJson"
    if not has_form(data):
        return "Shape"
    keys = [data[key]["name"] for key in ("partition", "sort") if key in data]
    actions, recipients = data["actions"], data["recipients"]
    virtual, beacons, compounds = (data.get(name, []) for name in ("virtual", "beacons", "compounds"))
    fields, sources = [field["name"] for field in virtual], [beacon["name"] for beacon in beacons]
    parts = [part for compound in compounds for part in compound["parts"]]
    lists = [(compound, constructor) for compound in compounds for constructor in compound.get("constructors", [])]
    made = fields + [compound["name"] for compound in compounds]
    raw = [(recipient["namespace"], recipient["name"]) for recipient in recipients if recipient["kind"] == "raw"]
    is_signed = lambda name: name in keys or actions.get(name) == "SIGN_ONLY"
    is_sealed = lambda name: name not in keys and actions.get(name) == "ENCRYPT_AND_SIGN"
    rules = [
        ("KeyAction", any(actions.get(key, "SIGN_ONLY") != "SIGN_ONLY" for key in keys)),
        ("ReservedName", any(name.startswith("aws_dbe_") for name in [*keys, *actions, *made])),
        ("NameTwice", has_twice(keys) or has_twice(made) or any(name in keys or name in actions for name in made)
            or has_twice(sources)
            or any(has_twice(part["name"] for part in compound["parts"]) for compound in compounds)
            or any(has_twice(member["part"] for member in constructor) for _, constructor in lists)),
        ("BeaconLength", any(not 1 <= beacon["length"] <= 63 for beacon in beacons)),
        ("BeaconSource", any(not is_signed(part["from"]) and not is_sealed(part["from"])
                for field in virtual for part in field["parts"])
            or any(not is_sealed(name) and name not in fields for name in sources)
            or any(part["from"] not in sources if part["kind"] == "encrypted" else not is_signed(part["from"])
                for part in parts)
            or any(member["part"] not in [part["name"] for part in compound["parts"]]
                for compound, constructor in lists for member in constructor)
            or bool(recipients and (beacons or compounds) and "beacon_branch" not in data)),
        ("PrefixClash", any(not part["prefix"] for part in parts) or any(
            other is not part and other["prefix"].startswith(part["prefix"])
            for compound in compounds for part in compound["parts"] for other in compound["parts"])),
        ("SplitChar", any(
            not re.fullmatch("[!-~]", compound["split"])
            or any(compound["split"] in part["prefix"] for part in compound["parts"])
            for compound in compounds)),
        ("ConstructorEmpty", any(
                not compound["parts"] or compound.get("constructors", [0]) == [] for compound in compounds)
            or any(not any(member["required"] for member in constructor) for _, constructor in lists)),
        ("RecipientTwice", has_twice(raw) or len(recipients) - len(raw) > 1),
        ("TooManyRecipients", len(recipients) > 8),
        ("NotBuilt", len(recipients) > len(raw) or bool(recipients and (beacons or compounds))),
    ]
    return next((name for name, applies in rules if applies), None)


TEXTS = [
    "", "id", "entry", "ssn", "state", "email", "town", "note", "domain", "short", "place", "st", "tn", "key",
    "aws_dbe_", "aws_dbe_x", "x", "S", "S-",
    "S-T", ".", "-", "~", "!", " ", "é", "@", "..", "n" * 245, "n" * 246, "n" * 255, "n" * 256, "é" * 127, "é" * 128,
    "raw", "branch", "signed",
    "encrypted", "SIGN_ONLY", "ENCRYPT_AND_SIGN", "DO_NOTHING", "dbe-hierarchy", "n", "one", "b" * 64, "b" * 65,
    "0F" * 32, "0G" * 32, "v" * 1024,
    "v" * 1025, "upper", "segment"]
OTHERS = [
    None, True, False, 0, 1, 63, 64, -1, 65536, 65537, -65536, -65537, 8.0, 1e3, [], {}, [[]], ["upper"],
    ["prefix", 1], ["segment", "@@", 1]]


# A place in the data: a container and the name or number of what it holds.
def places(data):
    found = []
    for name in data if isinstance(data, dict) else range(len(data)):
        found.append((data, name))
        if isinstance(data[name], (dict, list)):
            found += places(data[name])
    return found


# Something else of the same type, most often what stands at a member of the same name, or another text or number of the
# same data.
def alike(choices, old, spots, at):
    form = choices.random()
    if isinstance(old, bool):
        return not old
    if isinstance(old, int):
        return choices.choice([0, 1, 8, 63, 64, -1])
    if isinstance(old, str) and form < 0.15:
        return choices.choice(TEXTS)
    same = [inside[name] for inside, name in spots if type(inside[name]) is type(old)]
    named = [inside[name] for inside, name in spots if name == at and type(inside[name]) is type(old)]
    return copy.deepcopy(choices.choice(named if form < 0.7 else same))


# The objects whose members may have any name.
def has_free_names(inside, data):
    return inside is data.get("actions") or inside is data.get("context")


def changed(choices, data):
    data = copy.deepcopy(data)
    for _ in range(choices.choice([0, 1, 1, 1, 2, 3])):
        spots = places(data)
        inside, at = choices.choice(spots)
        form = choices.random()
        if form < 0.6:
            inside[at] = alike(choices, inside[at], spots, at)
        elif form < 0.63:
            inside[at] = copy.deepcopy(choices.choice(OTHERS))
        elif form < 0.69:
            del inside[at]
        elif form < 0.72:
            inside[at] = copy.deepcopy(choices.choice(spots)[0])
        elif isinstance(inside, dict):
            if has_free_names(inside, data) or choices.random() < 0.1:
                inside[choices.choice(TEXTS)] = copy.deepcopy(inside[at])
            if choices.random() < 0.5 and has_free_names(inside, data):
                del inside[at]
        else:
            for _ in range(choices.choice([1, 1, 1, 6, 14, 15, 16, 62, 64])):
                inside.append(copy.deepcopy(inside[at]))
                if isinstance(inside[at], dict) and "name" in inside[at] and choices.random() < 0.9:
                    inside[-1]["name"] = choices.choice(TEXTS) if choices.random() < 0.3 else "name%d" % len(inside)
    return data


def made(choices):
    data = changed(choices, choice_of(choices))
    if choices.random() < 0.02 and isinstance(data.get("actions"), dict):
        data["actions"].update(("name%d" % number, "SIGN_ONLY")
            for number in range(choices.choice([990, 994, 995, 1000])))
    if choices.random() < 0.02 and isinstance(data.get("context"), dict):
        data["context"].update(("name%d" % number, "x") for number in range(choices.choice([31, 32])))
    members = list(data.items())
    choices.shuffle(members)
    text = json.dumps(dict(members), ensure_ascii=choices.random() < 0.5).encode()
    if choices.random() < 0.02:
        at = choices.randrange(len(text))
        text = text[:at] + bytes([choices.choice(b'"{}[],:x0\\\xff')]) + text[at + 1:]
    if choices.random() < 0.01:
        text += b" " * (choices.choice([1048576, 1048577]) - len(text))
    return text


def choice_of(choices):
    form = choices.random()
    if form < 0.6:
        return PLAIN if form < 0.4 else RAW
    found = copy.deepcopy(WHOLE)
    for name in ("recipients", "virtual", "compounds"):
        if choices.random() < 0.3:
            found[name] = []
    return found


def main(program, seed=1, count=2000):
    choices, ends = random.Random(seed), collections.Counter()
    with tempfile.TemporaryDirectory() as folder:
        for _ in range(count):
            text = made(choices)
            with open(folder + "/dbe.json", "wb") as config:
                config.write(text)
            run = subprocess.run([program], stdin=subprocess.DEVNULL, cwd=folder, capture_output=True, check=False)
            why = refusal(text)
            expected = (3, f"dbe: config {why}\n") if why else (0, "")
            if (run.returncode, run.stderr.decode()) != expected or run.stdout:
                print(text[:4000].decode(errors="replace"), f"The model says: {expected}",
                    f"The program: {run.returncode}, {run.stderr.decode()!r}", sep="\n")
                return 1
            ends[why or "accepted"] += 1
    print(f"{count} configurations from seed {seed}, each as the model says: "
        + ", ".join(f"{ends[why]} {why}" for why in sorted(ends)))
    return 0


if __name__ == "__main__":
    sys.exit(main(sys.argv[1], *map(int, sys.argv[2:])))
