#!/usr/bin/env python3
"""The floor plan: every crate has a floor in docs/4-house.md and imports lower floors alone; no source file is over 400 lines
but those named on that page. The last line is 'N passed, M failed'."""
import os
import re
import subprocess
import sys

sys.dont_write_bytecode = True
from tally import finish, tell

KIT = {"check", "io"}
LIMIT = 400


page = open("docs/4-house.md", encoding="utf8").read()
floors = {}
for line in page.split("\n"):
    row = re.match(r"\| *(\d+) *\| *(.*?) *\|", line)
    if row:
        for name in re.findall(r"`([a-z0-9_]+)`", row.group(2)):
            floors[name] = int(row.group(1))

crates = {}
for line in open("crates.txt", encoding="utf8"):
    line = line.split("#")[0].strip()
    if line:
        name, _, imports = line.partition(":")
        crates[name.split()[0]] = imports.split()

for name, imports in crates.items():
    tell(name in floors, f"{name} has no floor in docs/4-house.md")
    for other in imports:
        if other in KIT:
            continue
        tell(
            name in floors and other in floors and floors[other] < floors[name],
            f"{name} (floor {floors.get(name)}) imports {other} (floor {floors.get(other)})",
        )
for name in floors:
    tell(name in crates, f"docs/4-house.md has {name}, which crates.txt has not")

long_ones = set(re.findall(r"`((?:[\w.+-]+/)+[\w.+-]+)`: over", page))
files = subprocess.run(["git", "ls-files"], capture_output=True, text=True).stdout.split("\n")
for path in files:
    if re.search(r"\.(rt|antt|py|c|h|sh)$", path) and os.path.exists(path):
        lines = sum(1 for _ in open(path, encoding="utf8"))
        tell(lines <= LIMIT or path in long_ones, f"{path} has {lines} lines")

finish()
