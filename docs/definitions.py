#!/usr/bin/env python3
"""Makes docs/DEFINITIONS.md from the definitions themselves, crates/*/specs/*.antt.

    docs/definitions.py               writes the page, and the number of lines in the README
    docs/definitions.py --check       status 1, and a line each, where these differ or a file has no comment at its head
    docs/definitions.py --trusted     prints what the contract of serve reaches: a row a file, and its lines of code

What a file says and its source are its head's comment. What serve reaches is followed by names: from its contract and
those of the traits that it names, through the lines 'use' of each file, definition by definition.
"""
import collections
import glob
import os
import re
import sys

PAGE = "docs/DEFINITIONS.md"
NUMBER = re.compile(r"[\d,]+(?= lines of definitions)")
INTRO = """# Definitions

The words of the contracts, crate by crate. `docs/definitions.py` makes this page from the files
`crates/CRATE/specs/FILE.antt`. What a file says is the comment at its head. The comment names the source where that is
outside; where it names none, the rule is this project's own. Words of the standard library and of the ported crates
(`read` and `compact_text` of `serde_json`, `sha384` and `sha512` of `sha2`) are defined there.

What a reader of the headline has to trust are the definitions that the contract of `serve`, the whole run, reaches:
%s.
They have a column of their own.

A file marked "Not to be read" says once more, in the steps of the code, what the files that it names say in fewer
words; a clause or a law ties the two.
"""
STARTS = re.compile(r"(?:(?:abbrev|unfoldable|infix[lr]?) |pub (?!mod |use )|mutual\b|data |record )")
USE = re.compile(r"\s*(?:pub )?(?:ghost )?use (Rattle\.[\w.]+?)(?:\.\{([^}]*)\}| as (\w+))?;?\s*$")
NAME = re.compile(r"(?:(?:abbrev|unfoldable) )?(?:pub )?(?:data |record )?(\S+)")
INNER = re.compile(r"  (pub )?(?:(?:data|record) )?(\S+)(?: [^=]*)? :( |$)")
TOKEN = re.compile(r"[^\s(){}\[\],;]+")


def without_comments(text, mark):
    return re.sub(r'"[^"\n]*"', '""', re.sub(rf"(^|\s){mark}.*", r"\1", text, flags=re.M))


class Block:
    """A definition, or several that stand together: its names, those of its constructors, its code."""

    def __init__(self, lines):
        self.code = [line for line in lines if line.strip() and not line.lstrip().startswith("--")]
        head = next(line for line in self.code if not line.startswith("infix"))
        names = [(NAME.match(head)[1], "pub " in head)]
        if "mutual" in head.split()[:2]:
            names = [(found[2], found[1]) for found in map(INNER.match, self.code) if found]
        self.public = [name for name, is_public in names if is_public]
        self.names = {name for name, _ in names}
        is_data = False
        for line in self.code:
            if re.match(r"\s*(?:pub )?data ", line):
                is_data = True
            elif re.match(r"\s*(?:pub )?record ", line) or re.match(r" {0,2}(?:abbrev|pub) ", line):
                is_data = False
            elif is_data and (found := re.match(r"\s+([^:]+?) : ", line)):
                self.names |= set(found[1].split())


class File:
    """A file of definitions, or the contracts in a file of code."""

    def __init__(self, path, mark):
        with open(path, encoding="utf-8") as opened:
            self.lines = opened.read().split("\n")
        self.path, self.mark, self.imported, self.modules, self.passed = path, mark, {}, {}, {}
        for line in self.lines:
            if found := USE.match(line):
                names, module = found[2], found[1].split(".")[1:]
                for name in (names or "").split(","):
                    if name.strip():
                        one, _, other = name.strip().partition(" as ")
                        self.imported[other or one] = (module, one)
                if names is None:
                    self.modules[found[3] or module[-1]] = module
                    self.passed[module[-1]] = module
        self.head = " ".join(re.sub(r"^-- ?", "", line) for line in self.lines[:self.lines_of_head()])
        self.blocks = self.blocks_of() if mark == "--" else []
        self.by_name = {name: block for block in self.blocks for name in block.names}

    def lines_of_head(self):
        return next((at for at, line in enumerate(self.lines) if not line.startswith("--")), 0)

    def blocks_of(self):
        found = []
        for line in self.lines[self.lines_of_head():]:
            if USE.match(line):
                continue
            if STARTS.match(line) and not (found and found[-1][-1].startswith("infix")):
                found.append([])
            if found:
                found[-1].append(line)
        return [Block(lines) for lines in found]

    # What the words of a text name in this file: pairs of a module and a name, the file's own with no module.
    def named(self, text):
        scope = {}
        for name in [*self.by_name, *self.imported]:
            for part in name.replace("◌", " ").split():
                scope[part] = (None, name) if name in self.by_name else self.imported[name]
        for token in set(TOKEN.findall(without_comments(text, self.mark))):
            first, _, rest = token.partition(".")
            if token in scope:
                yield scope[token]
            elif first in self.modules and rest:
                yield self.modules[first], rest.partition(".")[0]
            elif first in scope:
                yield scope[first]


class Reach:
    """The definitions that the contract of serve reaches, and the types of the code that they name."""

    def __init__(self, files):
        self.files, self.blocks, self.types = files, collections.defaultdict(list), set()
        self.contract = self.follow_code("crates/dbe_serve/src/top.rt", r"pub fn serve<.*?^\{")
        traits = re.findall(r"\w: (\w+)", re.search(r"<(.*?)>", self.contract, re.S)[1])
        self.traits = {}
        for path in sorted(glob.glob("crates/*/src/*.rt")):
            with open(path, encoding="utf-8") as opened:
                text = opened.read()
            for trait in dict.fromkeys(traits):
                if re.search(rf"^pub trait {trait}\b", text, re.M):
                    self.traits[trait] = self.follow_code(path, rf"^pub trait {trait}\b.*?^\}}")

    def follow_code(self, path, form):
        code = File(path, "//")
        text = without_comments(re.search(form, "\n".join(code.lines), re.S | re.M)[0], "//")
        for module, name in code.named(text):
            self.follow(module, name)
        return text

    def follow(self, module, name):
        crate, _, *rest = module
        if rest[:1] == ["declared"]:
            if crate.startswith("dbe"):
                self.types.add(rest[2])
            return
        file = self.files.get((crate, rest[0])) if rest else None
        library = self.files.get((crate, "Lib"))
        if file is None and rest and library and rest[0] in library.passed:
            return self.follow([*library.passed[rest[0]], *rest[1:]], name)
        if file is None or name not in file.by_name:
            return
        block = file.by_name[name]
        if block in self.blocks[file.path]:
            return
        self.blocks[file.path].append(block)
        for module_of, name_of in file.named("\n".join(block.code)):
            self.follow(module_of or module, name_of)

    def lines(self, path):
        return sum(len(block.code) for block in self.blocks[path])

    def whole(self):
        return sum(map(self.lines, list(self.blocks)))

    # The files that only say again what others say.
    def marked(self):
        return [it.path for it in self.files.values() if self.blocks[it.path] and "Not to be read" in it.head]

    # The rows of the option --trusted.
    def told(self):
        paths = [path for path in sorted(self.blocks) if self.blocks[path]]
        marked = self.marked()
        whole = sum(len(block.code) for file in self.files.values() for block in file.blocks)
        for path in paths:
            yield f"{self.lines(path):5}  {path}{'  (not to be read)' if path in marked else ''}"
        yield f"{sum(map(self.lines, paths)):5}  lines of definitions in {len(paths)} files, of {whole} lines in all"
        if marked:
            yield f"{sum(map(self.lines, marked)):5}  of these in files that are not to be read"
        yield f"{len(code_lines(self.contract)):5}  lines of the contract of serve"
        for trait, text in self.traits.items():
            yield f"{len(code_lines(text)):5}  lines of the contracts of {trait}"
        yield f"{len(self.types):5}  types of the code: {', '.join(sorted(self.types))}"

    def sentence(self):
        paths = [path for path in self.blocks if self.blocks[path]]
        names = sum(len(block.public) for path in paths for block in self.blocks[path])
        again = sum(map(self.lines, self.marked()))
        more = f", of which {again:,} are in files marked \"Not to be read\"" if again else ""
        return f"{names:,} names in {len(paths)} files, {self.whole():,} lines of code{more}"


def code_lines(text):
    return [line for line in text.split("\n") if line.strip()]


def words_of(blocks):
    return ", ".join(f"`{word}`" for block in blocks for word in block.public)


def page(files):
    reach = Reach(files)
    yield INTRO % reach.sentence()
    with open("crates.txt", encoding="utf-8") as opened:
        crates = [line.partition(":")[0].split()[0] for line in opened if line.partition("#")[0].strip()]
    for crate in crates:
        own = {name: file for (of, name), file in files.items() if of == crate and name != "Lib"}
        if own:
            yield f"## {crate}\n"
            yield "| File | What it says, and its source | Reached by `serve` | Other definitions |\n|---|---|---|---|"
            for name, file in own.items():
                reached = [block for block in file.blocks if block in reach.blocks[file.path]]
                others = [block for block in file.blocks if block not in reach.blocks[file.path]]
                said = file.head.replace("|", "\\|")
                yield f"| `{name}` | {said} | {words_of(reached)} | {words_of(others)} |"
            yield ""


def main(arguments):
    os.chdir(os.path.join(os.path.dirname(os.path.abspath(__file__)), ".."))
    files = {}
    for path in sorted(glob.glob("crates/*/specs/*.antt")):
        files[path.split("/")[1], os.path.basename(path).removesuffix(".antt")] = File(path, "--")
    if arguments == ["--trusted"]:
        print(*Reach(files).told(), sep="\n")
        return 0
    made = {PAGE: "\n".join(page(files)).rstrip("\n") + "\n"}
    with open("README.md", encoding="utf-8") as opened:
        made["README.md"] = NUMBER.sub(f"{Reach(files).whole():,}", opened.read())
    if arguments == ["--check"]:
        bare = [file.path for (_, name), file in files.items() if name != "Lib" and not file.head]
        wrong = [f"{path} is out of date: run docs/definitions.py" for path in made if is_old(path, made)]
        wrong += [f"{path} has no comment at its head" for path in bare]
        print(*wrong, sep="\n", end="\n" if wrong else "", file=sys.stderr)
        return 1 if wrong else 0
    if arguments:
        print(__doc__, file=sys.stderr)
        return 2
    for path, text in made.items():
        with open(path, "w", encoding="utf-8") as opened:
            opened.write(text)
    return 0


def is_old(path, made):
    with open(path, encoding="utf-8") as opened:
        return opened.read() != made[path]


if __name__ == "__main__":
    sys.exit(main(sys.argv[1:]))
