"""Checks that each file that a document names is there, and has the names that the document finds in it.

Read are links, paths in backquotes, and "`NAME`, `NAME` in `PATH`" for a file of code or definitions.
"""
import os
import re
import sys

LINK = re.compile(r"\]\(([^)#]+)(?:#[^)]*)?\)")
PATH = re.compile(r"`((?:crates|docs|examples|bench|model|runs|wrong|\.ci)/[^`\s]+)`")

NAMES = re.compile(r"(`[^`]+`(?:, `[^`]+`)*) in `((?:crates|docs)/[^`\s]+\.(?:rt|antt|py))`")


def documents():
    for folder, folders, names in os.walk("."):
        folders[:] = sorted(f for f in folders if f not in (".git", "out"))
        yield from (os.path.normpath(os.path.join(folder, name)) for name in sorted(names) if name.endswith(".md"))


# The files that a document names, as paths from the top of the repository.
def named(document):
    with open(document, encoding="utf-8") as opened:
        text = opened.read()
    for target in LINK.findall(text):
        if "://" not in target:
            yield os.path.normpath(os.path.join(os.path.dirname(document), target))
    for path in PATH.findall(text):
        if not re.search(r"[*{]|NAME|CRATE|FILE|/out(/|$)", path):
            yield path


# The names that a document finds in a file that has no such word.
def lost(document):
    with open(document, encoding="utf-8") as opened:
        pairs = NAMES.findall(opened.read())
    for names, path in pairs:
        if os.path.exists(path):
            with open(path, encoding="utf-8") as opened:
                words = set(re.split(r"[^\w-]+", opened.read()))
            for name in re.findall(r"`([^`]+)`", names):
                if name.rpartition("::")[2] not in words:
                    yield "`%s` in %s" % (name, path)


# Where docs/MAP.md and crates.txt differ in what a crate may rely on.
def not_mapped():
    with open("docs/MAP.md", encoding="utf-8") as opened:
        rows = dict(re.findall(r"^\| \[?`(\w+)`.*?\|.*\| (.*) \|$", opened.read().split("\n## ")[1], re.M))
    with open("crates.txt", encoding="utf-8") as opened:
        lines = [line.partition("#")[0].partition(":") for line in opened]
    for name, _, listed in lines:
        row = rows.get(name.strip(), "")
        is_same = set(re.findall(r"`(\w+)`", row)) == set(listed.split())
        if name.strip() and not (is_same or row == "the libraries above"):
            yield name.strip()


wrong = ["%s names %s, which is missing" % (d, p) for d in documents() for p in named(d) if not os.path.exists(p)]
wrong += ["%s names %s, which is not in it" % (d, p) for d in documents() for p in lost(d)]
wrong += ["docs/MAP.md and crates.txt differ in what %s may rely on" % name for name in not_mapped()]
for line in wrong:
    print(line, file=sys.stderr)
print(".ci/run: %d documents checked, %d faults" % (len(list(documents())), len(wrong)))
sys.exit(1 if wrong else 0)
