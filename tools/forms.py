#!/usr/bin/env python3
"""Counts the places in src/ that docs/DESIGN-PASS.md speaks of.

python3 tools/forms.py [COMMIT]   the counts, of the files as they are or as a commit has them
python3 tools/forms.py -l [COMMIT]   and each place
"""
import re
import subprocess
import sys
from collections import defaultdict

TOP = subprocess.run(["git", "rev-parse", "--show-toplevel"], capture_output=True, text=True, check=True).stdout.strip()


def git(*words):
    return subprocess.run(["git", "-C", TOP, *words], capture_output=True, text=True, check=True).stdout


def sources(commit):
    """Path and text of each file in src/."""
    if commit:
        names = git("ls-tree", "-r", "--name-only", commit, "crates").split()
        return {n: git("show", f"{commit}:{n}") for n in names if re.search(r"/src/.*\.rt$", n)}
    names = git("ls-files", "-co", "--exclude-standard", "crates").split()
    return {n: open(f"{TOP}/{n}").read() for n in names if re.search(r"/src/.*\.rt$", n)}


def code(line):
    return re.sub(r"//.*", "", line)


def lines_with(files, pattern):
    for name, text in sorted(files.items()):
        for number, line in enumerate(text.split("\n"), 1):
            if re.search(pattern, code(line)):
                yield f"{name}:{number}: {line.strip()}"


def functions(files):
    """Path, name, clauses and body of each function with a body."""
    head = re.compile(r"^([ \t]*)(?:pub(?:\([a-z]+\))? )?(?:const )?(?:extern \"C\" )?fn (\w+)", re.M)
    for name, text in sorted(files.items()):
        for m in head.finditer(text):
            start = re.compile(rf"^{m.group(1)}\{{$|\{{$", re.M).search(text, m.end())
            end = re.compile(rf"^{m.group(1)}\}}$", re.M).search(text, m.end())
            if start and end:
                yield name, m.group(2), text[m.end():start.start()], text[start.end():end.start()]


def twins(files):
    """Functions of one crate whose bodies are alike but for names and numbers, and are more than a call."""
    kept = {"let", "mut", "for", "in", "while", "if", "else", "return", "match", "loop", "break", "as", "u8", "u32", "u64", "usize"}
    groups = defaultdict(list)
    for path, name, _, body in functions(files):
        bare = re.sub(r"//.*", "", body)
        words = re.findall(r"[A-Za-z_]\w*|0x[0-9a-f_]+|\d+|[^\s\w]", bare)
        shape = tuple(w if w in kept or not re.match(r"\w", w) else ("0" if w[0].isdigit() else "v") for w in words)
        if len(shape) >= 20:
            groups[path.split("/")[1], shape].append(f"{path}: {name}")
    for (crate, _), names in sorted(groups.items()):
        if len(names) > 1:
            yield f"{crate}: " + ", ".join(n.split(": ")[1] for n in names)


def facts(files):
    """A fact of a requires that stands in the contracts of three functions or more."""
    seen = defaultdict(list)
    for path, name, clauses, _ in functions(files):
        crate = path.split("/")[1]
        for clause in re.findall(r"requires (?:\w+ )?\{ (.*) \}", clauses):
            for fact in re.split(r" × ", clause):
                fact = fact.strip()
                if fact.startswith("(") and fact.endswith(")"):
                    fact = fact[1:-1]
                fact = re.sub(r"\.(now|old)\b", "", fact)
                seen[fact].append(f"{crate}::{name}")
    for fact, names in sorted(seen.items(), key=lambda p: -len(p[1])):
        if len(names) >= 3:
            yield f"{len(names)} times: {fact}"


def report(files):
    yield "1 enums", list(lines_with(files, r"^\s*(pub )?enum "))
    yield "1 flags in a struct", list(lines_with(files, r"^\s*pub \w+: bool,"))
    yield "1 numbers as answers", list(lines_with(files, r"^\s*return \d+;|^\s*\d+$|^\s*if .* \{ \d+ \} else \{ \d+ \}$|^\s*.* => \d+,$|UNWRITTEN"))
    yield "1 numbers for kinds", list(lines_with(files, r"^pub const [A-Z_]+: usize = \d{1,2};|hidden: usize\)|, 256\)"))
    yield "2 groups of twins", list(twins(files))
    yield "3 loops counted by hand", list(lines_with(files, r"\bwhile\b|\bloop \{"))
    yield "4 bytes of numbers by hand", list(lines_with(files, r"% 256\) as u8|/ 256 % 256|\* 256 \+|\* 65536|\* 0x10000|wide\("))
    yield "4 copies and comparisons by hand", list(lines_with(files, r"octets::copy\(|octets::same\(|fn copy\(|fn same\("))
    yield "4 conversions and sums by name", list(lines_with(files, r"fn (from|to)_\w+\(|aes::add\(|fn add\(s: Cols"))
    yield "5 facts in three contracts or more", list(facts(files))
    yield "6 parallel arrays, lengths beside a buffer", list(lines_with(files, r"^const (PURPOSES|LAYERS)\b|let \w+n = \w+\.n;|let \w+ = word\(|let \w*n = beside\(|let \w+ = rt\.arg\("))
    yield "7 tables of functions", list(lines_with(files, r"\[fn\(|match step\b"))


def main():
    words = sys.argv[1:]
    long = "-l" in words
    words = [w for w in words if w != "-l"]
    files = sources(words[0] if words else None)
    for title, places in report(files):
        print(f"{len(places):4}  {title}")
        if long:
            for place in places:
                print(f"        {place}")


main()
