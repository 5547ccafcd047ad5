#!/usr/bin/env python3
"""Brings this repository's own definitions and lemmas to snake case, after the kit's port.py: seedDerive becomes seed_derive.

usage: python3 tools/snake_names.py [--dry]    at the top of the repository; with --dry it only says which names meet others

A name is turned where crates/*/specs or crates/*/proofs declare or bind it. A name of several parts, joined by a dash, is turned part by
part; a part that begins with a capital (a type, a module) or with no hump stays. Names of one capital letter (N, A, B, X, U), which are
those of document 001, stay. It writes .antt files, the clauses of .rt files, must-fail edits, and in docs/ what stands between backticks.
"""
import glob
import re
import sys

WORD = re.compile(r"[^\s(){}\[\],.;:=|\"`]+")
HUMP = re.compile(r"([a-z0-9₀-₉])([A-Z])")


def turned(name):
    parts = name.split("-")
    for i, p in enumerate(parts):
        # the library's word, which port.py turned where it stands alone
        if p == "getD":
            parts[i] = "get_or"
            continue
        if p[:1].islower() and HUMP.search(p):
            p = HUMP.sub(lambda m: m.group(1) + "_" + m.group(2).lower(), p)
            parts[i] = p.lower() if p.isascii() else p
    return "-".join(parts)


def texts():
    return sorted(f for d in ("specs", "proofs") for f in glob.glob(f"crates/*/{d}/**/*.antt", recursive=True))


def code():
    return sorted(glob.glob("crates/*/src/**/*.rt", recursive=True))


def words(path):
    found = set()
    for line in open(path, encoding="utf-8"):
        if not line.lstrip().startswith("--"):
            found |= set(WORD.findall(line))
    return found


def main():
    names, every = set(), set()
    for path in texts():
        w = words(path)
        every |= w
        names |= {n for n in w if turned(n) != n and not n.startswith("Rattle")}
    for path in code():
        every |= words(path)
        names |= {n for n in re.findall(r"\bas ([a-z]\w*)", open(path, encoding="utf-8").read()) if turned(n) != n}
    table = {n: turned(n) for n in names}
    meet = {n: t for n, t in table.items() if t in every}
    for n, t in sorted(meet.items()):
        print(f"look: {n} becomes {t}, which stood already")
    apart = {}
    for n, t in table.items():
        apart.setdefault(t, []).append(n)
    for t, ns in sorted(apart.items()):
        if len(ns) > 1:
            print(f"look: {' and '.join(sorted(ns))} become {t}")
    if "--dry" in sys.argv:
        return

    stands = every | set(table.values())

    def turn(text):
        return WORD.sub(lambda m: table.get(m.group(0), m.group(0)), text)

    # port.py turned some names in the code already: in edits and docs they are known by what stands there now
    def follow(text):
        return WORD.sub(lambda m: turned(m.group(0)) if turned(m.group(0)) in stands else m.group(0), text)

    def in_ticks(text):
        return re.sub(r"`[^`\n]+`", lambda m: follow(m.group(0)), text)

    changed = 0
    for path in texts() + code() + sorted(glob.glob("crates/*/must-fail/*.edit")) + sorted(glob.glob("docs/*.md")):
        old = open(path, encoding="utf-8").read()
        if path.endswith(".md"):
            new = in_ticks(old)
        elif path.endswith(".edit"):
            new = follow(old)
        else:
            new = turn(old)
        if new != old:
            with open(path, "w", encoding="utf-8") as f:
                f.write(new)
            changed += 1
    print(f"{len(table)} names in {changed} files")


if __name__ == "__main__":
    main()
