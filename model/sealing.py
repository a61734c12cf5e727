#!/usr/bin/env python3
"""Sealed rows once more in Python: written, opened, and judged whether they stand for an item, for raw recipients.

    model/sealing.py --check     what the rules say of the cases of model/sealing_cases.py, in some seconds

The rules are those of docs/FORMATS.md, from "Sealed rows" on.
"""
import hashlib
import hmac
import sys

import model

try:
    from cryptography.exceptions import InvalidTag
    from cryptography.hazmat.primitives.ciphers import Cipher, algorithms, modes
    from cryptography.hazmat.primitives.ciphers.aead import AESGCM
except ImportError:
    print(f"{sys.argv[0]} is left out: this Python has no package cryptography")
    sys.exit(0)

IDS = {name: bytes.fromhex(digits) for name, digits in {
    "NULL": "0000", "S": "0001", "N": "0002", "BOOL": "0004", "B": "ffff", "SS": "0101", "NS": "0102", "BS": "01ff",
    "M": "0200", "L": "0300"}.items()}
KINDS = {digits: name for name, digits in IDS.items()}
SETS = ("SS", "NS", "BS")
HEAD, FOOT, RESERVED = "aws_dbe_head", "aws_dbe_foot", "aws_dbe_"
ENCRYPTED, SIGNED = 0x65, 0x73


def big(number, size):
    return number.to_bytes(size, "big")


def string(data, size=8):
    return big(len(data), size) + data


# The bytes cut into pieces of these sizes.
def pieces(data, *sizes):
    found, at = [], 0
    for size in sizes:
        found.append(data[at:at + size])
        at += size
    return found


# A value's canonical bytes.
def canonical(of):
    kind, inner = of
    if kind in ("S", "N", "B"):
        return model.scalar_bytes(kind, inner)
    if kind in SETS:
        elements = sorted(model.scalar_bytes(kind[0], element) for element in inner)
        return big(len(elements), 8) + b"".join(map(string, elements))
    if kind == "M":
        entries = sorted((name.encode(), entry) for name, entry in inner)
        return big(len(entries), 8) + b"".join(string(name) + spelled(entry, string) for name, entry in entries)
    if kind == "L":
        return big(len(inner), 8) + b"".join(spelled(element, string) for element in inner)
    return {"BOOL": b"\x01" if inner else b"\x00", "NULL": b""}[kind]


# The type id and the canonical bytes, which `behind` may put behind their length.
def spelled(of, behind=bytes):
    return IDS[of[0]] + behind(canonical(of))


class Bytes:
    """Bytes that are read from front to end; where too few are left, the answer is ValueError."""

    def __init__(self, data):
        self.data, self.at = data, 0

    def take(self, size):
        if size > len(self.data) - self.at:
            raise ValueError
        self.at += size
        return self.data[self.at - size:self.at]

    def number(self):
        return int.from_bytes(self.take(8), "big")

    def string(self):
        return self.take(self.number())


# The value that has these bytes under the id, or None: what the bytes seem to be, where it is spelled as they are.
def value_of(type_id, data):
    try:
        found = seeming(KINDS[type_id], data, 1)
        return found if canonical(found) == data else None
    except (KeyError, ValueError, model.Fault):
        return None


def seeming(kind, data, level):
    left = Bytes(data)
    if kind == "S":
        return kind, data.decode().encode()
    if kind == "N":
        return kind, model.number(data.decode())
    if kind == "B":
        return kind, data
    if kind in ("BOOL", "NULL"):
        return kind, kind == "NULL" or left.take(1) == b"\x01"
    if kind in SETS:
        found = {seeming(kind[0], left.string(), level)[1] for _ in range(checked(left.number(), data))}
        return kind, tuple(sorted(found, key=lambda element: model.scalar_bytes(kind[0], element)))
    if level > 32:
        raise ValueError
    found = []
    for _ in range(checked(left.number(), data, 0)):
        name = left.string().decode() if kind == "M" else None
        inner = seeming(KINDS[left.take(2)], left.string(), level + 1)
        found.append((name, inner) if kind == "M" else inner)
    return kind, tuple(dict(found).items()) if kind == "M" else tuple(found)


# A count that the bytes may have: each element has a byte and more.
def checked(count, data, least=1):
    if not least <= count <= len(data):
        raise ValueError
    return count


def path(config, name):
    return string(config["table"].encode()) + big(1, 8) + b"$" + string(name.encode())


# The names of the keys, their types and their greatest lengths in bytes.
def keys(config):
    limits = {"partition": 2048, "sort": 1024}
    return [(config[which]["name"], config[which]["type"], most) for which, most in limits.items() if which in config]


def has_key(config, values):
    def is_lawful(name, wanted, most):
        kind, inner = values.get(name, (None, None))
        return kind == wanted and (kind == "N" or 1 <= len(inner) <= most)
    return all(is_lawful(*key) for key in keys(config))


# The action of a name, or None.
def action(config, name):
    if any(name == key for key, _, _ in keys(config)):
        return "SIGN_ONLY"
    has_prefix = "unsigned_prefix" in config and name.startswith(config["unsigned_prefix"])
    return config["actions"].get(name, "DO_NOTHING" if has_prefix else None)


def signed_names(config, names):
    found = (name for name in names if not name.startswith(RESERVED) and action(config, name) != "DO_NOTHING")
    return sorted(found, key=lambda name: path(config, name))


def pairs_bytes(pairs):
    return big(len(pairs), 4) + b"".join(string(key, 2) + string(inner, 2) for key, inner in pairs)


def computed_pairs(config, values):
    found = {b"aws-crypto-attr." + name.encode(): spelled(values[name]) for name, _, _ in keys(config)}
    found[b"aws-crypto-table-name"] = config["table"].encode()
    for which in ("partition", "sort"):
        if which in config:
            found[b"aws-crypto-" + which.encode() + b"-name"] = config[which]["name"].encode()
    return sorted(found.items())


def full_context(config, values, stored):
    return pairs_bytes(computed_pairs(config, values)) + pairs_bytes(stored)


# The pairs that a sealed row stores.
def stored_pairs(config):
    return sorted((key.encode(), inner.encode()) for key, inner in config.get("context", {}).items())


class Header:
    """The fields of a header, with the data keys as provider, info and ciphertext."""

    def __init__(self, message_id, legend, pairs, data_keys, commitment=b""):
        self.message_id, self.legend, self.pairs = message_id, legend, pairs
        self.data_keys, self.commitment = data_keys, commitment

    def before_commitment(self):
        return b"".join([
            b"\x01\x00", self.message_id, string(self.legend, 2),
            big(len(self.pairs), 2), *(string(key, 2) + string(inner, 2) for key, inner in self.pairs),
            big(len(self.data_keys), 1), *(string(field, 2) for data_key in self.data_keys for field in data_key)])

    def written(self):
        return self.before_commitment() + self.commitment

    def commit(self, data_key):
        commit = derived(data_key, b"AWS_DBE_COMMIT_KEY" + self.message_id, 32)
        self.commitment = hmac.digest(commit, self.before_commitment(), "sha384")[:32]


class HeaderReader:
    """The fields of a header one after another; the first that is cut short or breaks its rule is the fault."""

    def __init__(self, data):
        self.data, self.at = data, 0

    def field(self, size, is_lawful=lambda found: True):
        found = self.data[self.at:self.at + size]
        if len(found) < size or not is_lawful(found):
            model.refused(why="HeaderFault", at=self.at)
        self.at += size
        return found

    def number(self):
        return int.from_bytes(self.field(2), "big")

    def legend(self):
        return b"".join(self.field(1, lambda letter: letter in (b"e", b"s")) for _ in range(self.number()))

    def pairs(self):
        found = []
        for _ in range(self.number()):
            key = self.field(self.number(), lambda key: not found or found[-1][0] < key)
            found.append((key, self.field(self.number())))
        return found

    def data_keys(self):
        count = self.field(1, lambda count: 1 <= count[0] <= 8)[0]
        return [tuple(self.field(self.number()) for _ in range(3)) for _ in range(count)]

    def whole(self):
        self.field(1, lambda version: version == b"\x01")
        self.field(1, lambda flavour: flavour == b"\x00")
        found = Header(self.field(32), self.legend(), self.pairs(), self.data_keys(), self.field(32))
        if self.at < len(self.data):
            model.refused(why="HeaderFault", at=self.at)
        return found


def derived(key, info, size):
    extracted = hmac.digest(b"", key, "sha512")
    found = block = b""
    for number in range(1, -(-size // 64) + 1):
        block = hmac.digest(extracted, block + info + big(number, 1), "sha512")
        found += block
    return found[:size]


def opened(key, iv, data, associated):
    try:
        return AESGCM(key).decrypt(iv, data, associated)
    except InvalidTag:
        return None


def wrapping_key(intermediate):
    return derived(intermediate, b"AWS_MPL_INTERMEDIATE_KEYWRAP_ENC", 32)


def signing_key(intermediate):
    return derived(intermediate, b"AWS_MPL_INTERMEDIATE_KEYWRAP_MAC", 48)


def root_key(data_key, message_id):
    return derived(data_key, b"AWS_DBE_DERIVE_KEY" + message_id, 32)


# The key and the IV of the encrypted attribute with the number k.
def field_key(root, k):
    counter = modes.CTR(b"AwsDbeField\x2c" + big(3 * k, 4))
    return pieces(Cipher(algorithms.AES(root), counter).encryptor().update(bytes(44)), 32, 12)


def raw_key(recipient):
    return bytes.fromhex(recipient["key"])


# The provider and the info of a recipient's data keys.
def marks(recipient):
    return recipient["namespace"].encode(), recipient["name"].encode()


def inner_wrap(intermediate, context, data_key):
    return AESGCM(wrapping_key(intermediate)).encrypt(bytes(12), data_key, context)


def wrap(recipient, context, data_key, intermediate, iv):
    outer = AESGCM(raw_key(recipient)).encrypt(iv, intermediate, context)
    return *marks(recipient), iv + outer + inner_wrap(intermediate, context, data_key)


# The intermediate key and the data key, or None.
def unwrap(recipient, context, stored):
    provider, info, ciphertext = stored
    if (provider, info) != marks(recipient) or len(ciphertext) != 108:
        return None
    iv, outer, inner = pieces(ciphertext, 12, 48, 48)
    intermediate = opened(raw_key(recipient), iv, outer, context)
    data_key = intermediate and opened(wrapping_key(intermediate), bytes(12), inner, context)
    return data_key and (intermediate, data_key)


# The place of the first data key that a recipient unwraps, its intermediate key and the data key.
def sought(config, context, data_keys):
    for place, stored in enumerate(data_keys):
        for recipient in config["recipients"]:
            found = unwrap(recipient, context, stored)
            if found:
                return place, *found
    return model.refused(why="NoRecipient")


def record_text(header, config, values, legend):
    text = header
    for name, letter in zip(signed_names(config, values), legend):
        text += string(path(config, name)) + (b"ENCRYPTED" if letter == ENCRYPTED else b"PLAINTEXT")
        text += string(spelled(values[name]))
    return text


def tag(intermediate, text):
    return hmac.digest(signing_key(intermediate), hashlib.sha384(text).digest(), "sha384")


def sealed_field(config, name, key, type_id, data):
    return "B", type_id + AESGCM(key[0]).encrypt(key[1], data, path(config, name))


def values_in(item):
    return {name: model.value(item[name]) for name in item}


# The values as JSON, in order of their names.
def item_of(values):
    return {name: model.spelled(values[name]) for name in model.in_order(values)}


def draw_length(config):
    return 64 + 44 * len(config["recipients"])


# The names of a row's encrypted attributes in their order, by a legend.
def encrypted_names(config, values, legend):
    return [name for name, letter in zip(signed_names(config, values), legend) if letter == ENCRYPTED]


def seal(config, drawn, item):
    row = values_in(item)
    message_id, data_key, *others = pieces(drawn, 32, 32, *[32, 12] * len(config["recipients"]))
    context = full_context(config, row, stored_pairs(config))
    is_encrypted = (action(config, name) == "ENCRYPT_AND_SIGN" for name in signed_names(config, row))
    legend = bytes(ENCRYPTED if yes else SIGNED for yes in is_encrypted)
    data_keys = [
        wrap(recipient, context, data_key, intermediate, iv)
        for recipient, intermediate, iv in zip(config["recipients"], others[0::2], others[1::2])]
    header = Header(message_id, legend, stored_pairs(config), data_keys)
    header.commit(data_key)
    root = root_key(data_key, message_id)
    for k, name in enumerate(encrypted_names(config, row, legend)):
        row[name] = sealed_field(config, name, field_key(root, k), IDS[row[name][0]], canonical(row[name]))
    text = record_text(header.written(), config, row, legend)
    row[HEAD] = "B", header.written()
    row[FOOT] = "B", b"".join(tag(intermediate, text) for intermediate in others[0::2])
    return item_of(row)


def binary_at(values, name):
    kind, inner = values.get(name, (None, None))
    return inner if kind == "B" else None


# The header of a row that has a legend and a footer as it should.
def header_of(config, values):
    if binary_at(values, HEAD) is None:
        model.refused(why="NoHeader")
    header = HeaderReader(binary_at(values, HEAD)).whole()
    names = signed_names(config, values)
    if len(header.legend) != len(names):
        model.refused(why="LegendLength")
    letters = dict(zip(names, header.legend))
    if not has_key(config, values) or any(letters[name] != SIGNED for name, _, _ in keys(config)):
        model.refused(why="KeyLegend")
    footer = binary_at(values, FOOT)
    if footer is None or len(footer) != 48 * len(header.data_keys):
        model.refused(why="FooterLength")
    return header


def opened_field(config, name, key, stored):
    kind, data = stored
    if kind != "B" or len(data) < 18 or data[:2] not in KINDS:
        model.refused(why="FieldShape", name=name)
    plain = opened(*key, data[2:], path(config, name))
    if plain is None:
        model.refused(why="FieldTag", name=name)
    found = value_of(data[:2], plain)
    if found is None:
        model.refused(why="NotCanonical", name=name)
    return found


def opened_row(config, values):
    header = header_of(config, values)
    context = full_context(config, values, header.pairs)
    place, intermediate, data_key = sought(config, context, header.data_keys)
    anew = Header(header.message_id, header.legend, header.pairs, header.data_keys)
    anew.commit(data_key)
    if anew.commitment != header.commitment:
        model.refused(why="Commitment")
    text = record_text(header.written(), config, values, header.legend)
    if tag(intermediate, text) != values[FOOT][1][48 * place:48 * place + 48]:
        model.refused(why="RecipientTag")
    found = {name: inner for name, inner in values.items() if not name.startswith(RESERVED)}
    root = root_key(data_key, header.message_id)
    names = encrypted_names(config, values, header.legend)
    for k, name in enumerate(names):
        found[name] = opened_field(config, name, field_key(root, k), values[name])
    return "item", item_of(found), place, len(names), len(header.legend)


# ("item", the item, the data key's place, how many attributes are encrypted, how many are signed), or
# ("reason", its word, the name or the offset that belongs to it).
def unseal(config, row):
    try:
        return opened_row(config, values_in(row))
    except model.Fault as fault:
        extras = dict(fault.args[0])
        return "reason", extras.pop("why"), extras


# Whether a row stands for an item, in a configuration without beacons: it opens to the item, has in plain what is not
# to be encrypted, has a stored field for just what is to be encrypted, and no further reserved attribute.
def stands(config, row, item):
    plain, values = item_of(values_in(item)), values_in(row)
    if not config["recipients"]:
        return item_of(values) == plain
    if unseal(config, row)[:2] != ("item", plain):
        return False
    header = HeaderReader(values[HEAD][1]).whole()
    wanted = {name for name in plain if action(config, name) == "ENCRYPT_AND_SIGN"}
    return (set(encrypted_names(config, values, header.legend)) == wanted
            and all(model.spelled(values[name]) == plain[name] for name in plain if name not in wanted)
            and {name for name in values if name.startswith(RESERVED)} == {HEAD, FOOT})


if __name__ == "__main__":
    if sys.argv[1:] != ["--check"]:
        sys.exit(__doc__)
    import sealing_cases
    sys.exit(sealing_cases.check())
