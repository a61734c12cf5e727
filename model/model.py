"""What the documents say of requests, once more in Python: the replies to a script over one configuration.

Written from docs/REQUESTS.md, docs/CONDITIONS.md, docs/CONFIGURATION.md and docs/FORMATS.md alone, and not from the
program. It keeps the order of refusals and the meaning of conditions, virtual fields and compounds, with exact numbers.
"""
import base64
import json
import re
from fractions import Fraction

CONFIG = {
    "table": "model", "partition": {"name": "p", "type": "S"}, "sort": {"name": "s", "type": "N"},
    "actions": {**{name: "SIGN_ONLY" for name in "abcde"}, "f": "ENCRYPT_AND_SIGN"}, "unsigned_prefix": "x_",
    "recipients": [],
    "beacons": [{"name": "f", "length": 8}, {"name": "v", "length": 1}],
    "virtual": [
        {"name": "v", "parts": [{"from": "a", "steps": [["segment", "/", 1], ["upper"]]}]},
        {"name": "w", "parts": [
            {"from": "f", "steps": [["lower"], ["suffix", -1]]}, {"from": "s", "steps": []},
            {"from": "b", "steps": [["prefix", -1], ["insert", "\u00e9/x"], ["substring", -4, 3]]}]},
        {"name": "x_w", "parts": [{"from": "p", "steps": [["segments", "k", 0, -1], ["suffix", 2]]}]},
        {"name": "z", "parts": [
            {"from": "b", "steps": [["segments", "/", -2, 9], ["prefix", 9], ["substring", 2, 1], ["insert", "x"]]}]}],
    "compounds": [
        {"name": "place", "split": "/", "parts": [
            {"name": "f", "prefix": "x", "kind": "encrypted", "from": "f"},
            {"name": "v", "prefix": "V-", "kind": "encrypted", "from": "v"},
            {"name": "a", "prefix": "A-", "kind": "signed", "from": "a"}],
         "constructors": [
             [{"part": "v", "required": True}, {"part": "f", "required": False}],
             [{"part": "a", "required": True}, {"part": "f", "required": True}], [{"part": "f", "required": True}]]},
        {"name": "both", "split": "k", "parts": [
            {"name": "", "prefix": "S-", "kind": "signed", "from": "s"},
            {"name": "b", "prefix": "B", "kind": "signed", "from": "b"}]}],
}


class Fault(Exception):
    """The members of a refusal."""


def refused(**members):
    raise Fault(members)


def number(text):
    parts = re.fullmatch(r"([+-]?)([0-9]*)(?:\.([0-9]*))?(?:[eE]([+-]?[0-9]+))?", text)
    digits = parts and parts[2] + (parts[3] or "")
    if not digits:
        refused(why="BadNumber")
    exponent = int(parts[4] or 0) - len(parts[3] or "")
    without_leading = digits.lstrip("0")
    significant = without_leading.rstrip("0")
    exponent += len(without_leading) - len(significant)
    if not significant:
        return Fraction(0)
    if len(significant) > 38 or not -130 <= exponent + len(significant) - 1 <= 125:
        refused(why="BadNumber")
    size = int(significant) * Fraction(10) ** exponent
    return -size if parts[1] == "-" else size


def number_text(value):
    size = abs(value)
    whole, part = divmod(size, 1)
    digits = ""
    while part:
        digit, part = divmod(part * 10, 1)
        digits += str(digit)
    return ("-" if value < 0 else "") + str(whole) + ("." + digits if digits else "")


def binary(text):
    if not re.fullmatch(r"(?:[A-Za-z0-9+/]{4})*(?:[A-Za-z0-9+/]{2}==|[A-Za-z0-9+/]{3}=)?", text):
        refused(why="BadBase64")
    found = base64.b64decode(text)
    if base64.b64encode(found).decode() != text:
        refused(why="BadBase64")
    return found


def scalar(kind, data):
    if not isinstance(data, str):
        refused(why="Shape")
    return {"S": str.encode, "N": number, "B": binary}[kind](data)


# The canonical bytes of an S, an N or a B.
def scalar_bytes(kind, data):
    return number_text(data).encode() if kind == "N" else data


# A value: its type and its content. Sets are in canonical order, maps are pairs in order of the names' bytes.
def value(data, around=0):
    if not isinstance(data, dict) or len(data) != 1:
        refused(why="Shape")
    (kind, inner), = data.items()
    if kind in ("S", "N", "B"):
        return kind, scalar(kind, inner)
    if kind == "BOOL" and isinstance(inner, bool) or kind == "NULL" and inner is True:
        return kind, inner
    if kind in ("SS", "NS", "BS") and isinstance(inner, list):
        if not inner:
            refused(why="EmptySet")
        found = []
        for element in inner:
            read = scalar(kind[0], element)
            if read in found:
                refused(why="DoubledElement")
            found.append(read)
        return kind, tuple(sorted(found, key=lambda read: scalar_bytes(kind[0], read)))
    if kind == "L" and isinstance(inner, list) or kind == "M" and isinstance(inner, dict):
        if around >= 32:
            refused(why="TooDeep")
        if kind == "L":
            return kind, tuple(value(element, around + 1) for element in inner)
        return kind, tuple((name, value(inner[name], around + 1)) for name in in_order(inner))
    refused(why="Shape")


def in_order(names):
    return sorted(names, key=str.encode)


def spelled(of):
    kind, inner = of
    if kind in ("SS", "NS", "BS"):
        return {kind: [spelled((kind[0], element))[kind[0]] for element in inner]}
    return {kind: {
        "S": lambda: inner.decode(), "N": lambda: number_text(inner), "B": lambda: base64.b64encode(inner).decode(),
        "L": lambda: [spelled(element) for element in inner],
        "M": lambda: {name: spelled(element) for name, element in inner},
    }.get(kind, lambda: inner)()}


# The number of canonical bytes.
def size_of(of):
    kind, inner = of
    if kind in ("S", "N", "B"):
        return len(scalar_bytes(kind, inner))
    if kind in ("SS", "NS", "BS"):
        return 8 + sum(8 + len(scalar_bytes(kind[0], element)) for element in inner)
    if kind == "L":
        return 8 + sum(10 + size_of(element) for element in inner)
    if kind == "M":
        return 8 + sum(18 + len(name.encode()) + size_of(element) for name, element in inner)
    return {"BOOL": 1, "NULL": 0}[kind]


def item(data):
    found = {}
    for name in in_order(data):
        try:
            if not 1 <= len(name.encode()) <= 255:
                refused(why="BadName")
            found[name] = value(data[name])
        except Fault as fault:
            refused(name=name, refused="value", **fault.args[0])
    return found


# The names, types and greatest lengths in bytes of the keys.
def keys():
    limits = {"partition": 2048, "sort": 1024}
    return [(CONFIG[which]["name"], CONFIG[which]["type"], most) for which, most in limits.items() if which in CONFIG]


def key(of):
    for name, wanted, most in keys():
        kind, inner = of.get(name, (None, None))
        if kind != wanted or kind != "N" and not 1 <= len(inner) <= most:
            refused(name=name, refused="key")
    return tuple(of[name][1] for name, _, _ in keys())


SIGN = re.compile(rb"<>|<=|>=|[=<>(),]|[A-Za-z_][A-Za-z0-9_]*|[#:][A-Za-z0-9_]+")
KEYWORDS = {"AND", "OR", "NOT", "BETWEEN", "IN"}
FUNCTIONS = {"attribute_exists", "attribute_not_exists", "begins_with"}


def cut(text):
    if len(text) > 4096:
        refused(why="TooLong")
    found, at = [], 0
    while at < len(text):
        if text[at] in b" \t\r\n":
            at += 1
            continue
        sign = SIGN.match(text, at)
        if not sign:
            refused(at=at, why="BadToken")
        found.append((at, sign[0].decode()))
        at = sign.end()
    depth = deepest = 0
    for _, sign in found:
        depth = max(depth + {"(": 1, ")": -1}.get(sign, 0), 0)
        deepest = max(depth, deepest)
    if deepest > 64 or sum(sign.upper() == "NOT" for _, sign in found) > 64:
        refused(why="TooDeep")
    return found


def have_order(one, other):
    return bool(one and other) and one[0] == other[0] and one[0] in ("S", "N", "B")


def equal(one, other):
    return one is not None and one == other


def less(one, other):
    return have_order(one, other) and one[1] < other[1]


def at_most(one, other):
    return have_order(one, other) and one[1] <= other[1]


COMPARISONS = {
    "=": equal, "<>": lambda one, other: not equal(one, other), "<": less, "<=": at_most,
    ">": lambda one, other: less(other, one), ">=": lambda one, other: at_most(other, one),
}


class Reader:
    """A condition's text, read from left to right into a function of an item."""

    def __init__(self, text, names, values):
        self.signs, self.end, self.names, self.values = cut(text), len(text), names, values
        self.next, self.operands, self.too_many = 0, [], False

    def kind(self):
        if self.next == len(self.signs):
            return None
        sign = self.signs[self.next][1]
        if sign.upper() in KEYWORDS:
            return sign.upper()
        if sign in FUNCTIONS or not (sign[0] == "_" or sign[0].isalnum() or len(sign) > 1 and sign[0] in "#:"):
            return sign
        return sign[0] if sign[0] in "#:" else "word"

    def take(self, *kinds):
        if self.kind() not in kinds:
            refused(at=self.signs[self.next][0] if self.next < len(self.signs) else self.end, why="Syntax")
        self.next += 1
        return self.signs[self.next - 1][1]

    def is_next(self, *kinds):
        if self.kind() not in kinds:
            return False
        self.next += 1
        return True

    def whole(self):
        found = self.condition()
        if self.next < len(self.signs):
            self.take()
        if self.too_many:
            refused(why="TooManyOperands")
        for sign, given, why in (("#", self.names, "UnknownName"), (":", self.values, "UnknownValue")):
            for operand in self.operands:
                if operand[0] == sign and operand not in given:
                    refused(name=operand, why=why)
        return found

    def condition(self):
        return self.chain("OR", self.conjunction)

    def conjunction(self):
        return self.chain("AND", self.negation)

    def chain(self, word, part):
        parts = [part()]
        while self.is_next(word):
            parts.append(part())
        return (word, *parts) if len(parts) > 1 else parts[0]

    def negation(self):
        if self.is_next("NOT"):
            return "NOT", self.negation()
        if self.is_next("("):
            inner = self.condition()
            self.take(")")
            return inner
        for function in ("attribute_exists", "attribute_not_exists"):
            if self.is_next(function):
                self.take("(")
                name = self.operand("word", "#")
                self.take(")")
                return function, name
        if self.is_next("begins_with"):
            self.take("(")
            name = self.operand("word", "#")
            self.take(",")
            prefix = self.operand()
            self.take(")")
            return "begins_with", name, prefix
        return self.test(self.operand())

    def test(self, one):
        if self.is_next("BETWEEN"):
            low = self.operand()
            self.take("AND")
            return "BETWEEN", one, low, self.operand()
        if self.is_next("IN"):
            self.take("(")
            members = [self.operand()]
            while self.is_next(","):
                members.append(self.operand())
            self.take(")")
            self.too_many |= len(members) > 100
            return "IN", one, *members
        return self.take(*COMPARISONS), one, self.operand()

    def operand(self, *kinds):
        self.operands.append(self.take(*(kinds or ("word", "#", ":"))))
        return self.operands[-1]

    def name_of(self, operand):
        return self.names[operand] if operand[0] == "#" else operand

    # The names that are asked for, in the order of the text.
    def asked_names(self):
        return [self.name_of(operand) for operand in self.operands if operand[0] != ":"]

    def reserved(self):
        return next((name for name in self.asked_names() if name.startswith("aws_dbe_")), None)

    # The value of an operand in a row, or None where it is absent.
    def read(self, operand, row):
        return self.values[operand] if operand[0] == ":" else row.get(self.name_of(operand))

    def holds(self, tree, row):
        word, *parts = tree
        if word in ("OR", "AND"):
            return (any if word == "OR" else all)(self.holds(part, row) for part in parts)
        if word == "NOT":
            return not self.holds(parts[0], row)
        one, *others = (self.read(part, row) for part in parts)
        if word in ("attribute_exists", "attribute_not_exists"):
            return (one is not None) == (word == "attribute_exists")
        if word == "begins_with":
            return begins(one, others[0])
        if word == "BETWEEN":
            return at_most(others[0], one) and at_most(one, others[1])
        if word == "IN":
            return any(equal(one, other) for other in others)
        return COMPARISONS[word](one, others[0])

    # The condition's text, its names and its values, each under a number of its own from left to right.
    def printed(self, tree):
        names, values = {}, {}

        def operand(part):
            is_value = part[0] == ":"
            found, mark, inner = (values, ":", self.values[part]) if is_value else (names, "#", self.name_of(part))
            found[mark + str(len(found))] = inner
            return mark + str(len(found) - 1)

        def within(part, *words):
            return "(" + whole(part) + ")" if part[0] in words else whole(part)

        def whole(part):
            word, *parts = part
            if word in ("OR", "AND"):
                return f" {word} ".join(within(inner, "OR", *(["AND"] if word == "AND" else [])) for inner in parts)
            if word == "NOT":
                return "NOT " + within(parts[0], "OR", "AND")
            one, *others = map(operand, parts)
            if word in FUNCTIONS:
                return word + "(" + ", ".join([one, *others]) + ")"
            if word == "BETWEEN":
                return one + " BETWEEN " + " AND ".join(others)
            return one + (" IN (" + ", ".join(others) + ")" if word == "IN" else f" {word} {others[0]}")

        return whole(tree), names, values


def begins(one, prefix):
    return bool(one and prefix) and one[0] == prefix[0] and one[0] in ("S", "B") and one[1].startswith(prefix[1])


def place(at, size):
    return min(at, size) if at >= 0 else max(size + at, 0)


# What a step gives, or None.
def stepped(text, step):
    word, *given = step
    if word in ("upper", "lower"):
        return "".join(getattr(letter, word)() if letter.isascii() else letter for letter in text)
    if word == "insert":
        return text + given[0]
    if word == "prefix":
        return text[:place(given[0], len(text))]
    if word == "suffix":
        return text[len(text) - min(given[0], len(text)):] if given[0] >= 0 else text[min(-given[0], len(text)):]
    if word == "substring":
        return text[place(given[0], len(text)):place(given[1], len(text))]
    pieces = text.split(given[0])
    if word == "segment":
        return pieces[given[1]] if -len(pieces) <= given[1] < len(pieces) else None
    return given[0].join(pieces[place(given[1], len(pieces)):place(given[2], len(pieces))])


# The text of an attribute, or None where it is absent or has none.
def text_at(name, row):
    kind, inner = row.get(name, (None, None))
    return {"S": lambda: inner.decode(), "N": lambda: number_text(inner)}.get(kind, lambda: None)()


def virtual_text(field, row):
    whole = ""
    for part in field["parts"]:
        found = text_at(part["from"], row)
        for step in part["steps"]:
            found = None if found is None else stepped(found, step)
        if found is None:
            return None
        whole += found
    return whole


# The text of an attribute or a virtual field.
def plain_text(name, row):
    field = next((field for field in CONFIG["virtual"] if field["name"] == name), None)
    return virtual_text(field, row) if field else text_at(name, row)


# The parts that a compound is made of and their texts, or None where it is absent.
def used_parts(compound, row):
    texts = {part["name"]: plain_text(part["from"], row) for part in compound["parts"]}
    everything = [{"part": part["name"], "required": True} for part in compound["parts"]]
    for constructor in compound.get("constructors", [everything]):
        if all(texts[entry["part"]] is not None for entry in constructor if entry["required"]):
            return [
                (next(part for part in compound["parts"] if part["name"] == entry["part"]), texts[entry["part"]])
                for entry in constructor if texts[entry["part"]] is not None]
    return None


def computed():
    return [made["name"] for made in CONFIG["virtual"] + CONFIG["compounds"]]


# The item in which each virtual field and compound has its value or is absent.
def extended(row):
    found = {name: inner for name, inner in row.items() if name not in computed()}
    texts = {field["name"]: virtual_text(field, row) for field in CONFIG["virtual"]}
    for compound in CONFIG["compounds"]:
        used = used_parts(compound, row)
        pieces = None if used is None else [part["prefix"] + inner for part, inner in used]
        texts[compound["name"]] = None if pieces is None else compound["split"].join(pieces)
    return {**found, **{name: ("S", inner.encode()) for name, inner in texts.items() if inner is not None}}


# The JSON of a line. Python takes NaN and halves of surrogate pairs too, which are none.
def parsed(line):
    def constant(_):
        raise ValueError
    try:
        found = json.loads(line.decode(), parse_constant=constant)
        text(found).encode()
        return found
    except (ValueError, RecursionError):
        refused(refused="json")


def is_text(data, form):
    return isinstance(data, str) and re.fullmatch(form, data) is not None


class Table:
    """Rows under keys, and the replies to lines."""

    def __init__(self):
        self.rows = {}

    # The replies to a line, as JSON, each with its members in order of their names.
    def replies(self, line):
        if not line:
            return []
        try:
            return self.answer(parsed(line))
        except Fault as fault:
            return [dict(sorted(fault.args[0].items()))]

    def answer(self, request):
        if not isinstance(request, dict) or len(request) != 1:
            refused(refused="shape")
        (call, body), = request.items()
        is_key = isinstance(body, dict) and set(body) == {name for name, _, _ in keys()}
        if call == "put" and isinstance(body, dict) or call in ("get", "check") and is_key:
            return getattr(self, call)(item(body))
        if call in ("query", "explain") and isinstance(body, dict):
            return getattr(self, call)(*self.read(**self.asked(body)))
        if call in ("create", "rotate") and is_text(body, "[A-Za-z0-9_-]{1,64}"):
            refused(refused="not built")
        refused(refused="shape")

    def put(self, new):
        found = key(new)
        for name in in_order(new):
            if name.startswith("aws_dbe_"):
                refused(name=name, refused="reserved")
        for name in in_order(new):
            is_listed = name in CONFIG["actions"] or name in [key for key, _, _ in keys()]
            if not is_listed and not ("unsigned_prefix" in CONFIG and name.startswith(CONFIG["unsigned_prefix"])):
                refused(name=name, refused="attribute")
        if len(new) > 1000:
            refused(refused="attributes")
        if sum(len(name.encode()) + size_of(inner) for name, inner in new.items()) > 409600:
            refused(refused="size")
        for compound in CONFIG["compounds"]:
            for part, inner in used_parts(compound, new) or []:
                if compound["split"] in inner:
                    refused(beacon=compound["name"], part=part["name"], refused="split")
        self.rows[found] = new
        return [{"ok": "put"}]

    def get(self, wanted):
        row = self.rows.get(key(wanted))
        return [item_text(row) if row else {"none": True}]

    def check(self, wanted):
        row = self.rows.get(key(wanted))
        checked = {"beacons": True, "encrypted": 0, "recipient": None, "signed": 0}
        return [{"checked": checked} if row else {"none": True}]

    def asked(self, body):
        names, values = body.get("names", {}), body.get("values", {})
        right = (set(body) <= {"condition", "names", "values"} and isinstance(body.get("condition"), str)
                 and isinstance(names, dict)
                 and all(is_text(name, "#[A-Za-z0-9_]+") and isinstance(names[name], str) for name in names)
                 and isinstance(values, dict) and all(is_text(name, ":[A-Za-z0-9_]+") for name in values))
        if not right:
            refused(refused="shape")
        for placeholder in in_order(names):
            if not 1 <= len(names[placeholder].encode()) <= 255:
                refused(name=placeholder, refused="value", why="BadName")
        return {"condition": body["condition"], "names": names, "values": item_of_values(values)}

    # The condition that is asked: its reader and its tree.
    def read(self, condition, names, values):
        try:
            reader = Reader(condition.encode(), names, values)
            tree = reader.whole()
        except Fault as fault:
            refused(refused="condition", **fault.args[0])
        reserved = reader.reserved()
        if reserved is not None:
            refused(name=reserved, refused="rewriting", why="NotSearchable")
        return reader, tree

    def query(self, reader, tree):
        rows = [row for _, row in sorted(self.rows.items())]
        found = [item_text(row) for row in rows if reader.holds(tree, extended(row))]
        is_computed = any(name in computed() for name in reader.asked_names())
        return found + [{"count": len(found), "scanned": len(rows) if is_computed else len(found)}]

    def explain(self, reader, tree):
        if any(name in computed() for name in reader.asked_names()):
            return [{"every": True}]
        text, names, values = reader.printed(tree)
        ordered = lambda found: {name: found[name] for name in in_order(found)}
        texts = {name: spelled(inner) for name, inner in ordered(values).items()}
        return [{"condition": text, "names": ordered(names), "values": texts}]


def item_of_values(values):
    found = {}
    for placeholder in in_order(values):
        try:
            found[placeholder] = value(values[placeholder])
        except Fault as fault:
            refused(name=placeholder, refused="value", **fault.args[0])
    return found


def item_text(row):
    return {"item": {name: spelled(row[name]) for name in in_order(row)}}


def text(reply):
    return json.dumps(reply, separators=(",", ":"), ensure_ascii=False)
