"""Runs two small scripts, over a plain table and over one of sealed rows, once for each call for memory, which is refused
in turn, and once for each read and write, which fails in turn or moves a single byte.

    .ci/faults.py PROGRAM

Without memory the program ends as docs/REQUESTS.md says of it, a failed read or write likewise, and it has written a
prefix of its replies; a single byte changes nothing. A failed read of the seed of the random bytes ends the run at the
first row that is sealed, and so changes nothing over a plain table. The first run that differs is printed, and the
status is then 1.
"""
import json
import os
import shutil
import subprocess
import sys
import tempfile

CONFIG = {
    "table": "t", "partition": {"name": "id", "type": "S"}, "sort": {"name": "n", "type": "N"},
    "actions": {"email": "ENCRYPT_AND_SIGN", "state": "SIGN_ONLY", "town": "SIGN_ONLY", "tags": "SIGN_ONLY"},
    "unsigned_prefix": ":", "recipients": [],
    "virtual": [{"name": "domain", "parts": [{"from": "email", "steps": [["segment", "@", 1], ["lower"]]}]}],
    "beacons": [{"name": "domain", "length": 10}],
    "compounds": [{"name": "place", "split": ".", "parts": [
        {"name": "st", "prefix": "S-", "kind": "signed", "from": "state"},
        {"name": "tn", "prefix": "T-", "kind": "signed", "from": "town"}]}]}
ANN = {
    "id": {"S": "a"}, "n": {"N": "1"}, "email": {"S": "Ann@Example.COM"}, "state": {"S": "WA"},
    "town": {"S": "Seattle"}, "tags": {"SS": ["b", "a"]},
    ":more": {"M": {"x": {"L": [{"B": "AQ=="}, {"NULL": True}]}}}}
SCRIPT = [
    {"put": ANN}, {"put": {"id": {"S": "a"}, "n": {"N": "2"}, "state": {"S": "OR"}}},
    {"put": {"id": {"S": "a"}, "n": {"N": "2"}, "other": {"S": "x"}}},
    {"get": {"id": {"S": "a"}, "n": {"N": "1.0"}}}, {"check": {"id": {"S": "a"}, "n": {"N": "2"}}},
    {"query": {
        "condition": "state IN (:w, :o) AND NOT n BETWEEN :one AND :one OR begins_with(#t, :w)",
        "names": {"#t": "town"},
        "values": {":w": {"S": "WA"}, ":o": {"S": "OR"}, ":one": {"N": "1"}}}},
    {"query": {
        "condition": "domain = :d OR place = :p",
        "values": {":d": {"S": "example.com"}, ":p": {"S": "S-WA.T-Seattle"}}}},
    {"explain": {"condition": "state = :w AND attribute_exists(tags)", "values": {":w": {"S": "WA"}}}},
    {"query": {"condition": "state = "}}, "none"]
SEALED = {
    "table": "t", "partition": {"name": "id", "type": "S"}, "sort": {"name": "n", "type": "N"},
    "actions": {"email": "ENCRYPT_AND_SIGN", "state": "SIGN_ONLY", "town": "DO_NOTHING", "tags": "ENCRYPT_AND_SIGN"},
    "unsigned_prefix": ":", "context": {"app": "demo"},
    "recipients": [
        {"kind": "raw", "namespace": "n", "name": name, "key": digit * 64} for name, digit in (("k", "1"), ("l", "2"))]}
SEALED_SCRIPT = [
    {"put": ANN}, {"put": {"id": {"S": "a"}, "n": {"N": "2"}, "email": {"S": ""}}},
    {"put": {"id": {"S": "a"}, "n": {"N": "2"}, "other": {"S": "x"}}},
    {"get": {"id": {"S": "a"}, "n": {"N": "1.0"}}}, {"check": {"id": {"S": "a"}, "n": {"N": "2"}}},
    {"get": {"id": {"S": "a"}, "n": {"N": "3"}}}, {"query": {"condition": "state = email"}}]
ENDS = {"FAIL_MEMORY": ["dbe: memory\n"], "FAIL": ["dbe: read\n", "dbe: write\n", "dbe: dice\n"], "SHORT": []}
CODES = {"": 0, "dbe: memory\n": 10, "dbe: read\n": 4, "dbe: write\n": 5, "dbe: dice\n": 9}
# The calls for memory that the loader makes for faults.c itself.
LOADER_CALLS = 5


def main(program):
    folder = tempfile.mkdtemp()
    try:
        before = os.path.join(folder, "faults.so")
        source = os.path.join(os.path.dirname(os.path.abspath(__file__)), "faults.c")
        subprocess.run(["cc", "-shared", "-fPIC", "-O1", "-o", before, source, "-ldl"], check=True)
        return (tried(program, folder, before, "a plain table", CONFIG, SCRIPT, 0)
            or tried(program, folder, before, "sealed rows", SEALED, SEALED_SCRIPT, 1))
    finally:
        shutil.rmtree(folder)


# The runs of a script, in so many of which a failed read of the seed ends it.
def tried(program, folder, before, name, config, lines, seeds):
    with open(folder + "/dbe.json", "w") as written:
        json.dump(config, written)
    script = "".join(json.dumps(line) + "\n" for line in lines).encode()

    def run(**which):
        told = {name: str(number) for name, number in which.items()}
        done = subprocess.run([program], input=script, cwd=folder, env={"LD_PRELOAD": before, **told},
            capture_output=True, check=False)
        return done.returncode, done.stdout, done.stderr.decode()

    code, whole, said = run(COUNT=1)
    memory_calls, calls = map(int, said.split())
    if code != 0 or memory_calls < 100 or calls < 10 or run() != (0, whole, ""):
        print("the script does not run as it should:", name, code, said)
        return 1
    counts = []
    for which, number in (("FAIL_MEMORY", memory_calls), ("FAIL", calls), ("SHORT", calls)):
        ended = without_seed = 0
        for at in range(1, number + 1):
            code, replies, said = run(**{which: at})
            unchanged = (code, replies, said) == (0, whole, "")
            ends = said in ENDS[which] and code == CODES[said] and whole.startswith(replies)
            if not ends and not unchanged:
                print(f"{name}: {which} at {at} of {number}: code {code}, {said!r}, {replies[-200:]!r}")
                return 1
            ended += ends
            without_seed += said == "dbe: dice\n" and replies == b""
        if which == "FAIL_MEMORY" and number - ended > LOADER_CALLS:
            print(f"{name}: {number - ended} of {number} calls without memory change nothing")
            return 1
        if which == "FAIL" and (number - ended, without_seed) != (1 - seeds, seeds):
            print(f"{name}: {number - ended} of {number} failures change nothing, {without_seed} end without a seed")
            return 1
        counts.append(f"{ended} of {number}")
    memory, failed, shorter = counts
    print(f"{name}: out of memory: {memory} calls end it; a failed read or write: {failed}; a single byte moved: {shorter}")
    return 0


if __name__ == "__main__":
    sys.exit(main(os.path.abspath(sys.argv[1])))
