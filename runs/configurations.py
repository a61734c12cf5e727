"""Runs the program in folders with one configuration each, and compares how it ends with what configurations.txt says.

Other cases are made here by a rule: counts and lengths at their bounds, many recipients, texts that are cut, a text of
the greatest length, the longest keys, and the greatest items. Prints how many cases there were.

    runs/configurations.py PROGRAM
"""
import os
import subprocess
import sys
import tempfile

KEY = "000102030405060708090a0b0c0d0e0f101112131415161718191a1b1c1d1e1f"
PART = '{"name":"a","prefix":"A-","kind":"signed","from":"town"}'


# The cases of configurations.txt: what the program answers, and the configuration. Then the beginnings in it.
def listed():
    cases, beginnings = [], [""]
    with open(os.path.join(os.path.dirname(__file__), "configurations.txt"), encoding="utf-8") as opened:
        for line in opened.read().splitlines():
            answer, _, text = line.partition("\t")
            if answer == "begin":
                beginnings.append(text)
            elif not line.startswith("#"):
                cases.append((answer, (beginnings[-1] + text).encode()))
    return cases, beginnings[1:]


# A list of as many units as it may have, and of one more. Where the answer is NameTwice, the count was accepted.
def counts(front, unit, back, most, answer):
    yield answer, front + ",".join([unit] * most) + back
    yield "Shape", front + ",".join([unit] * (most + 1)) + back


# A text of the greatest length in bytes, and of one byte more.
def lengths(front, back, most):
    yield "accepted", front + "a" * most + back
    yield "Shape", front + "a" * (most + 1) + back


# So many units, each with its number.
def numbered(unit, count):
    return ",".join(unit.replace("NUMBER", str(number)) for number in range(count))


# Members at their bounds.
def members():
    yield from counts('"virtual":[', '{"name":"v","parts":[{"from":"ssn","steps":[]}]}', "]", 64, "NameTwice")
    yield from counts('"virtual":[{"name":"v","parts":[', '{"from":"ssn","steps":[]}', "]}]", 16, "accepted")
    yield from counts(
        '"virtual":[{"name":"v","parts":[{"from":"ssn","steps":[', '["upper"]', "]}]}]", 16, "accepted")
    yield from counts('"beacons":[', '{"name":"ssn","length":8}', "]", 64, "NameTwice")
    yield from counts('"compounds":[', '{"name":"c","split":".","parts":[]}', "]", 16, "NameTwice")
    yield from counts('"compounds":[{"name":"c","split":".","parts":[', PART, "]}]", 16, "NameTwice")
    yield from counts(
        '"compounds":[{"name":"c","split":".","parts":[%s],"constructors":[' % PART,
        '[{"part":"a","required":true}]', "]}]", 16, "accepted")
    yield from lengths('"table":"', '"', 255)
    yield from lengths('"partition":{"name":"', '","type":"S"}', 245)
    yield from lengths('"sort":{"name":"', '","type":"S"}', 245)
    yield from lengths('"actions":{"', '":"SIGN_ONLY"}', 245)
    yield from lengths('"virtual":[{"name":"', '","parts":[{"from":"town","steps":[]}]}]', 245)
    yield from lengths('"compounds":[{"name":"', '","split":".","parts":[%s]}]' % PART, 245)
    yield from lengths('"unsigned_prefix":"', '"', 255)
    yield from lengths('"context":{"', '":""}', 255)
    yield from lengths('"context":{"a":"', '"}', 1024)
    yield from lengths('"beacon_branch":"', '"', 64)
    for answer, count in ("accepted", 1000), ("Shape", 1001):
        yield answer, '"actions":{%s}' % numbered('"aNUMBER":"SIGN_ONLY"', count)
    for answer, count in ("accepted", 32), ("Shape", 33):
        yield answer, '"context":{%s}' % numbered('"aNUMBER":"x"', count)
    ring = '{"kind":"raw","namespace":"n","name":"kNUMBER","key":"%s"}' % KEY
    for answer, count in ("accepted", 8), ("TooManyRecipients", 9), ("TooManyRecipients", 200):
        yield answer, '"recipients":[%s]' % numbered(ring, count)
    # Two of one name, far apart.
    yield "RecipientTwice", '"recipients":[%s,%s]' % (numbered(ring, 200), numbered(ring, 1))
    # More than 8, and each is another's double.
    yield "RecipientTwice", '"recipients":[%s]' % ",".join(['{"kind":"branch","branch":"main"}'] * 9)


# The cases that a rule makes.
def made(base, sample):
    for answer, member in members():
        yield answer, ("%s,%s}" % (base, member)).encode()
    yield "NotJson", b'{"\xff":1}'
    whole = (sample + "}").encode()
    for end in range(len(whole)):
        yield "NotJson", whole[:end]
    whole = (base + "}").encode()
    for answer, length in ("accepted", 1048576), ("TooLong", 1048577):
        yield answer, whole.ljust(length)
    # Not JSON either.
    yield "TooLong", b" " * 1048576 + b","


# A script of puts with keys of the greatest lengths and of one byte more, and its replies.
def keys():
    config = '{"table":"t","partition":{"name":"id","type":"S"},"sort":{"name":"at","type":"S"},"actions":{}'
    config += ',"recipients":[]}'
    script, replies = "", ""
    for first, second, reply in (2048, 1024, '{"ok":"put"}'), (2049, 1024, '{"name":"id","refused":"key"}'), (
            2048, 1025, '{"name":"at","refused":"key"}'):
        item = '{"at":{"S":"%s"},"id":{"S":"%s"}}' % ("a" * second, "i" * first)
        script += '{"put":%s}\n' % item
        replies += reply + "\n"
        if reply == '{"ok":"put"}':
            script += '{"get":%s}\n' % item
            replies += '{"item":%s}\n' % item
    return config.encode(), script.encode(), replies


# A script of puts of items with as many attributes and bytes as an item may have, and with one more, and its replies.
# The names of the key have 4 and 7 bytes, its values 4 and 2, and the name of the title has 5.
def items():
    config = '{"table":"stock","partition":{"name":"shop","type":"S"},"sort":{"name":"article","type":"N"}'
    config += ',"actions":{"title":"ENCRYPT_AND_SIGN"},"unsigned_prefix":"x_","recipients":[]}'
    key = '"shop":{"S":"Bend"},"article":{"N":"10"}'
    script, replies = "", ""
    for more, reply in (998, '{"ok":"put"}'), (999, '{"refused":"attributes"}'):
        script += '{"put":{%s,%s}}\n' % (key, numbered('"x_NUMBER":{"NULL":true}', more))
        replies += reply + "\n"
    for length, reply in (409578, '{"ok":"put"}'), (409579, '{"refused":"size"}'):
        script += '{"put":{%s,"title":{"S":"%s"}}}\n' % (key, "t" * length)
        replies += reply + "\n"
    return config.encode(), script.encode(), replies


# The exit code of the program, its line on standard error and its replies.
def end_of(program, folder, config, script=b""):
    with open(os.path.join(folder, "dbe.json"), "wb") as opened:
        opened.write(config)
    run = subprocess.run([program], input=script, cwd=folder, capture_output=True, check=False)
    return run.returncode, run.stderr.decode(), run.stdout.decode()


def main(program):
    cases, beginnings = listed()
    cases += made(*beginnings[:2])
    wrong = 0
    with tempfile.TemporaryDirectory() as folder:
        for answer, config in cases:
            expected = (0, "", "") if answer == "accepted" else (3, "dbe: config %s\n" % answer, "")
            found = end_of(program, folder, config)
            if found != expected:
                wrong += 1
                print(config[:2000].decode(errors="replace"))
                print("Expected: %r\nThe program: %r" % (expected, found))
        for name, (config, script, replies) in ("keys", keys()), ("items", items()):
            if end_of(program, folder, config, script) != (0, "", replies):
                wrong += 1
                print("The replies to the greatest %s differ." % name)
    print("%d configurations, %d wrong" % (len(cases), wrong))
    return 1 if wrong else 0


if __name__ == "__main__":
    sys.exit(main(os.path.abspath(sys.argv[1])))
