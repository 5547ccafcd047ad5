"""Commands that measure, and the figures read off what they print."""
import os
import re
import shutil
import subprocess
import sys

OUT = "target/bench"
CC = os.environ.get("CC", "gcc")


def told(*command, folder=None):
    """What a command prints; one that fails ends the run."""
    run = subprocess.run(command, cwd=folder, capture_output=True, text=True)
    if run.returncode != 0:
        sys.exit(f"bench/run: {' '.join(command)}: status {run.returncode}\n{run.stdout}{run.stderr}")
    return run.stdout


def archive(crate):
    return f"crates/{crate}/out/lib{crate}.a"


def build(program, crate, sources, libraries):
    """The crate proved and written as an archive, and the program in C linked with it."""
    os.makedirs(OUT, exist_ok=True)
    told("rt", "lib", folder=f"crates/{crate}")
    flags = ["-O3", "-std=gnu11", "-Wall", "-Wextra", "-Werror"]
    told(CC, *flags, "-o", f"{OUT}/{program}", *sources, archive(crate), *libraries, "-lpthread", "-Wl,-z,now")
    told(f"{OUT}/{program}", "check")


def pairs(program, mode):
    """name: (ours, theirs), of the lines that a mode prints; None for what is not there."""
    rows = [line.split() for line in told(f"{OUT}/{program}", mode).strip().split("\n")]
    return {name: tuple(None if float(x) < 0 else float(x) for x in (a, b)) for name, a, b in rows}


def best_times(program, passes):
    """The best of all passes."""
    runs = [pairs(program, "time") for _ in range(passes)]
    return {name: tuple(None if row[side] is None else min(r[name][side] for r in runs) for side in (0, 1)) for name, row in runs[0].items()}


def instructions(program):
    """symbol: instructions of all its calls with what they call, by callgrind; nothing where there is no valgrind."""
    if not shutil.which("valgrind") or not shutil.which("callgrind_annotate"):
        return {}
    log = f"{OUT}/{program}.callgrind"
    told("valgrind", "-q", "--tool=callgrind", f"--callgrind-out-file={log}", f"{OUT}/{program}", "count")
    cost = {}
    for line in told("callgrind_annotate", "--inclusive=yes", "--threshold=100", log).split("\n"):
        row = re.match(r" *([\d,]+) .*?[^:]:([A-Za-z_]\S*) ", line)
        if row:
            cost.setdefault(row.group(2), int(row.group(1).replace(",", "")))
    return cost


def code_sizes(crate):
    """symbol: bytes of its code."""
    rows = (line.split(maxsplit=3) for line in told("nm", "-S", archive(crate)).split("\n"))
    return {r[3]: int(r[1], 16) for r in rows if len(r) == 4 and r[2] in "tT"}


def constants(crate):
    """Bytes of constants."""
    rows = (line.split() for line in told("size", "-A", archive(crate)).split("\n"))
    return sum(int(r[1]) for r in rows if r and r[0].startswith(".rodata"))


def vector_xors(crate):
    """symbol: how many exclusive-ors on vector registers its code has."""
    found, symbol = {}, ""
    for line in told("objdump", "-d", "--no-show-raw-insn", archive(crate)).split("\n"):
        head = re.match(r"[0-9a-f]+ <(.*)>:$", line)
        if head:
            symbol = head.group(1)
        elif re.search(r"\bv?pxor\S*\s.*%[xyz]mm", line):
            found[symbol] = found.get(symbol, 0) + 1
    return found


def field(name):
    """A line of what Linux tells about the first processor."""
    found = re.search(rf"^{name}\s*: (.*)$", open("/proc/cpuinfo", encoding="utf8").read(), re.M)
    return found.group(1) if found else "?"


def has_aes():
    return "it has" if "aes" in field("flags").split() else "it has none"


def machine():
    name = f"{field('model name')}, family {field('cpu family')}, model {field('model')}, {os.cpu_count()} processors"
    return f"{name}, {os.uname().sysname} {os.uname().machine}"


def compiler():
    return told(CC, "--version").splitlines()[0]


def number(x):
    if x is None:
        return ""
    return f"{x:,.0f}" if x >= 100 else f"{x:.3g}"


def ratio(pair):
    return "" if pair is None or None in pair else f"{pair[0] / pair[1]:.2f}"


def row(*cells):
    return "| " + " | ".join(cells) + " |"


def heading(*cells):
    return [row(*cells), "|" + "---|" * len(cells)]
