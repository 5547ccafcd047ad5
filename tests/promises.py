#!/usr/bin/env python3
"""Each row of docs/PROMISES.md that names a definition, theorem, function, edit or test names one that is in the tree.

A row is | demand | names | file |: the names stand in backticks, the file after them holds them all. A row that says 'open' promises
nothing yet. The last line is 'N passed, M failed'."""
import os
import re
import sys

passed, failed = 0, 0
opened = 0
for number, line in enumerate(open("docs/PROMISES.md", encoding="utf8"), 1):
    cells = [c.strip() for c in line.strip().strip("|").split("|")]
    if not line.startswith("|") or len(cells) < 3 or set(cells[0]) <= set("-: ") or cells[1] in ("name", "names"):
        continue
    names = re.findall(r"`([^`]+)`", cells[1])
    paths = re.findall(r"`([^`]+)`", cells[2])
    if not names:
        if cells[1] == "open":
            opened += 1
        else:
            failed += 1
            print(f"FAIL: docs/PROMISES.md:{number}: neither a name nor 'open'")
        continue
    for path in paths or ["?"]:
        if not os.path.exists(path):
            failed += 1
            print(f"FAIL: docs/PROMISES.md:{number}: no file {path}")
    text = "\n".join(open(p, encoding="utf8").read() for p in paths if os.path.isfile(p))
    text += "\n".join(name for p in paths if os.path.isdir(p) for name in os.listdir(p))
    for name in names:
        declared = re.search(r"(^|[\s(])(pub |fn |data |record |struct |enum |def )*" + re.escape(name) + r"([\s:.(]|$)", text, re.M)
        if declared:
            passed += 1
        else:
            failed += 1
            print(f"FAIL: docs/PROMISES.md:{number}: {name} is not in {', '.join(paths)}")
print(f"rows still open: {opened}")
print(f"{passed} passed, {failed} failed")
sys.exit(1 if failed else 0)
