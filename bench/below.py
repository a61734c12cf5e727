"""Prints the named crates and those of this repository that they rely on, by crates.txt.

    bench/below.py NAME ..
"""
import os
import sys

with open(os.path.join(os.path.dirname(os.path.abspath(__file__)), "../crates.txt"), encoding="utf-8") as opened:
    lines = [line.partition("#")[0].partition(":") for line in opened]
relies = {name.strip(): listed.split() for name, _, listed in lines if name.strip()}
found = []


def visit(name):
    if name in relies and name not in found:
        for below in relies[name]:
            visit(below)
        found.append(name)


for name in sys.argv[1:]:
    visit(name)
print(*found)
