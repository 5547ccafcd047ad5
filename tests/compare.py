#!/usr/bin/env python3
"""Compares two implementations of make_key, sign_file and check_file.

    tests/compare.py --first DIR --second PATH [--cases 200] [--damaged 1000] [--seed S]

DIR holds the three programs; PATH is the second program, used through its batch
mode. Each case is run by both: they have to print the same number, the one that
the case expects, and with 0 to write the same bytes; with any other number they
must leave the output files as they were. The last line is "N passed, M failed".
"""

import argparse
import collections
import concurrent.futures
import os
import random
import re
import shutil
import subprocess
import sys
import tempfile

sys.dont_write_bytecode = True
from compare_cases import (DIRECTORY, INPUTS, MAX_MESSAGE, MAX_TRIES, MISSING, OUTPUTS, SIZES,
                           Base, find_nonce, placed_bases, placed_cases, random_base,
                           random_cases, tries)
from compare_damage import alter_element, damaged_cases, odd_nonces

CHUNK = 40          # cases for one batch
KEPT = 20           # failing cases whose files are kept
OCCUPANT = b"here before the call\n" * 300


class Unusable(Exception):
    """The second program cannot make what the cases are made of."""


def write(path, content):
    with open(path, "wb") as f:
        f.write(content)


def read(path):
    """The bytes of a file, or None when there is none."""
    try:
        with open(path, "rb") as f:
            return f.read()
    except FileNotFoundError:
        return None


class Run:
    """One case in a directory of its own."""

    def __init__(self, case, directory):
        self.case, self.directory = case, directory
        os.mkdir(directory)
        for label in INPUTS[case.program]:
            content, path = case.files[label], self.path(label)
            if content == DIRECTORY:
                os.mkdir(path)
            elif content != MISSING:
                write(path, content)
        if case.occupied:
            for side in ("first", "second"):
                for label in OUTPUTS[case.program]:
                    write(self.path(label, side), OCCUPANT)

    def path(self, label, side=None):
        return os.path.join(self.directory, f"{side}.{label}" if side else label)

    def words(self, side):
        """The arguments of the call."""
        program = self.case.program
        words = [self.path(label) for label in INPUTS[program]]
        words += [self.path(label, side) for label in OUTPUTS[program]]
        return words if self.case.words < 0 else words[:self.case.words]

    def wrong(self, first, second):
        """What is wrong with these two answers, or None."""
        if not re.fullmatch("[0-9]", first):
            return f"the first answers {first!r}"
        if first != second:
            return f"the first answers {first}, the second {second!r}"
        if int(first) != self.case.expect:
            return f"both answer {first}, expected {self.case.expect}"
        before = OCCUPANT if self.case.occupied else None
        for label in OUTPUTS[self.case.program]:
            ours, theirs = read(self.path(label, "first")), read(self.path(label, "second"))
            if ours != theirs:
                return f"the two files {label} differ"
            if first == "0" and (ours is None or len(ours) != SIZES[label]):
                return f"the file {label} has a wrong length"
            if first != "0" and ours != before:
                return f"the file {label} was touched"
        return None


def call_first(directory, run):
    """The number as text, or whatever else came instead."""
    program = os.path.join(directory, run.case.program)
    try:
        done = subprocess.run([program, *run.words("first")], stdin=subprocess.DEVNULL,
                              capture_output=True, timeout=120, check=False)
    except (OSError, subprocess.TimeoutExpired) as error:
        return str(error)
    out = done.stdout.decode("latin-1")
    if re.fullmatch("[0-9]\n", out):
        return out.strip()
    return f"{out}{done.stderr.decode('latin-1')}"[:300] + f" (exit status {done.returncode})"


def call_second(second, lines):
    """The answer to each line of a batch; "nothing" where the program ended early."""
    text = "".join(" ".join(words) + "\n" for words in lines)
    done = subprocess.run([second, "batch"], input=text, capture_output=True, text=True,
                          check=False)
    answers = done.stdout.split("\n")[:-1]
    return answers + ["nothing"] * (len(lines) - len(answers))


def compare_chunk(args, work, number, cases):
    """Runs the cases; answers the runs with what is wrong and the numbers met."""
    runs = [Run(case, os.path.join(work, f"case-{number + i}")) for i, case in enumerate(cases)]
    second = call_second(args.second, [[r.case.program, *r.words("second")] for r in runs])
    results = []
    for run, answer in zip(runs, second):
        wrong = run.wrong(call_first(args.first, run), answer)
        results.append((run, wrong, answer))
        if wrong is None:
            shutil.rmtree(run.directory)
    return results


def complete(second, work, bases):
    """Makes the keys and signatures of the bases with the second program."""
    directory = tempfile.mkdtemp(dir=work)
    lines = []
    for i, base in enumerate(bases):
        name = os.path.join(directory, str(i))
        for label in ("seed", "message", "salt", "master"):
            write(f"{name}.{label}", getattr(base, label))
        write(f"{name}.tries", tries(MAX_TRIES))
        lines.append(["make_key", f"{name}.seed", f"{name}.public", f"{name}.secret"])
        lines.append(["sign_file"] + [f"{name}.{label}" for label in (
            "secret", "message", "salt", "master", "tries", "signature")])
    answers = call_second(second, lines)
    if answers != ["0"] * len(lines):
        raise Unusable(f"it does not make keys and signatures: {answers[:4]}")
    for i, base in enumerate(bases):
        for label in ("public", "secret", "signature"):
            setattr(base, label, read(os.path.join(directory, f"{i}.{label}")))
    shutil.rmtree(directory)
    return bases


def sign_at(second, work, jobs):
    """Signatures for pairs of a base and a nonce, whether or not the nonce passes."""
    directory = tempfile.mkdtemp(dir=work)
    lines = []
    for i, (base, nonce) in enumerate(jobs):
        name = os.path.join(directory, str(i))
        for label in ("secret", "message", "salt", "master"):
            write(f"{name}.{label}", getattr(base, label))
        write(f"{name}.nonce", tries(nonce))
        lines.append(["sign_at"] + [f"{name}.{label}" for label in (
            "secret", "message", "salt", "master", "nonce", "signature")])
    answers = call_second(second, lines)
    if answers != ["0"] * len(lines):
        raise Unusable(f"it does not sign at given nonces: {answers[:4]}")
    made = [read(os.path.join(directory, f"{i}.signature")) for i in range(len(jobs))]
    shutil.rmtree(directory)
    return made


def add_odd(second, work, rng, bases):
    """Signatures that are right but for the nonce or the solution."""
    odd = [(base, name, nonce, expect) for base in bases
           for name, (nonce, expect) in odd_nonces(rng, base).items()]
    made = sign_at(second, work, [(base, nonce) for base, _, nonce, _ in odd])
    for (base, name, _, expect), signature in zip(odd, made):
        base.odd[name] = (signature, expect)
    wrong = [Base(b.seed, b.message, b.salt, b.master, b.public, alter_element(rng, b.secret))
             for b in bases]
    made = sign_at(second, work, [(w, 0) for w in wrong])
    nonces = [find_nonce(w.public, s, w.message) for w, s in zip(wrong, made)]
    for base, signature in zip(bases, sign_at(second, work, list(zip(wrong, nonces)))):
        base.odd["a wrong solution"] = (signature, 6)


def make_cases(args, rng, work):
    drawn = [random_base(rng, i) for i in range(args.cases)]
    full = [base.message for base in drawn]
    for base in drawn:
        base.message = base.message[:MAX_MESSAGE]
    complete(args.second, work, drawn)
    cases = [case for i, base in enumerate(drawn) for case in random_cases(i, base, full[i])]
    if drawn:
        placed = complete(args.second, work, list(placed_bases(rng, drawn[0])))
        cases += [case for base in placed for case in placed_cases(base)]
    if args.damaged:
        pool = [Base(rng.randbytes(32), rng.randbytes(rng.randrange(1, 2000)),
                     rng.randbytes(16), rng.randbytes(16)) for _ in range(40)]
        complete(args.second, work, pool)
        add_odd(args.second, work, rng, pool)
        cases += damaged_cases(rng, pool, args.damaged)
    return cases


def report(args, run, wrong, keep):
    print(f"FAILED: {run.case.name}: {wrong}")
    if not keep:
        shutil.rmtree(run.directory)
        return
    print(f"  files in {run.directory}")
    print("  first:", os.path.join(args.first, run.case.program), *run.words("first"))
    print("  second:", args.second, run.case.program, *run.words("second"))


def main():
    parser = argparse.ArgumentParser(description=__doc__.split("\n")[0])
    parser.add_argument("--first", required=True, help="directory of the three programs")
    parser.add_argument("--second", required=True, help="the second program")
    parser.add_argument("--cases", type=int, default=200, help="random keys and messages")
    parser.add_argument("--damaged", type=int, default=1000, help="damaged inputs")
    parser.add_argument("--seed", default=None, help="drawn when not given")
    parser.add_argument("--jobs", type=int, default=min(2, os.cpu_count() or 1))
    args = parser.parse_args()
    args.first, args.second = os.path.abspath(args.first), os.path.abspath(args.second)
    seed = args.seed if args.seed is not None else os.urandom(6).hex()
    print(f"seed {seed}, cases {args.cases}, damaged {args.damaged}", flush=True)

    work = tempfile.mkdtemp(prefix="compare-")
    if re.search(r"\s", work):
        sys.exit("the directory for temporary files must have no spaces in its name")
    try:
        cases = make_cases(args, random.Random(seed), work)
    except (Unusable, OSError) as error:
        shutil.rmtree(work)
        print(f"{args.second}: {error}\n0 passed, 1 failed")
        return 1
    passed = failed = 0
    numbers = collections.Counter()
    with concurrent.futures.ThreadPoolExecutor(args.jobs) as pool:
        chunks = [pool.submit(compare_chunk, args, work, i, cases[i:i + CHUNK])
                  for i in range(0, len(cases), CHUNK)]
        for chunk in chunks:
            for run, wrong, answer in chunk.result():
                numbers[run.case.program, answer] += 1
                if wrong is None:
                    passed += 1
                    continue
                failed += 1
                report(args, run, wrong, failed <= KEPT)
    for (program, answer), count in sorted(numbers.items()):
        print(f"{program} answers {answer}: {count}")
    if failed:
        print(f"run again with --cases {args.cases} --damaged {args.damaged} --seed {seed}")
        print(f"files of the first {min(failed, KEPT)} failing cases are kept in {work}")
    else:
        shutil.rmtree(work)
    if not cases:
        failed = 1
    print(f"{passed} passed, {failed} failed")
    return 1 if failed else 0


if __name__ == "__main__":
    sys.exit(main())
