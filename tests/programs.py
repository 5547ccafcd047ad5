#!/usr/bin/env python3
"""The programs and their files: tests/programs.py DIR, where DIR holds make_key, sign_file, check_file, show_cell and read_cell.

Words that are missing, inputs that can't be read or have a wrong length, outputs that can't be written, what is left beside them, who may
read them. Every answer is a number; outputs change with 0 alone. The last line is 'N passed, M failed'."""
import os
import resource
import signal
import subprocess
import sys
import tempfile

sys.dont_write_bytecode = True
from tally import finish, tell

programs = os.path.abspath(sys.argv[1])
OLD = b"here before the call"
INPUTS = {
    "make_key": ["seed"],
    "sign_file": ["secret", "message", "salt", "master", "tries"],
    "check_file": ["public", "message", "signature"],
    "show_cell": ["public"],
    "read_cell": ["cell"],
}
OUTPUTS = {"make_key": ["new.public", "new.secret"], "sign_file": ["new.signature"], "check_file": [], "show_cell": [], "read_cell": ["new.public"]}


def write(path, content):
    with open(path, "wb") as f:
        f.write(content)


def read(path):
    with open(path, "rb") as f:
        return f.read()


def here(name):
    return os.path.join(room, name)


def call(program, words, largest=None):
    """The output and the error text of a program run in the room, with files of at most largest bytes."""
    def limit():
        signal.signal(signal.SIGXFSZ, signal.SIG_IGN)
        resource.setrlimit(resource.RLIMIT_FSIZE, (largest, largest))
    done = subprocess.run([os.path.join(programs, program), *words], cwd=room, stdin=subprocess.DEVNULL, capture_output=True,
                          preexec_fn=limit if largest is not None else None, check=False)
    return done.stdout.decode("latin-1"), done.stderr.decode("latin-1")


def words_of(program, changes=None):
    return [(changes or {}).get(name, name) for name in INPUTS[program] + OUTPUTS[program]]


def refused(program, number, text, words, largest=None):
    """The program answers this number, says why where it is 9, and changes nothing in the room."""
    for name in OUTPUTS[program]:
        write(here(name), OLD)
    before = {name: os.lstat(here(name)).st_mtime_ns for name in sorted(os.listdir(room))}
    out, error = call(program, words, largest)
    tell(out == f"{number}\n", f"{program}, {text}: prints {out!r} where {number} is expected")
    tell((error != "") == (number == 9), f"{program}, {text}: standard error has {error!r}")
    after = {name: os.lstat(here(name)).st_mtime_ns for name in sorted(os.listdir(room))}
    tell(before == after, f"{program}, {text}: changed {set(before.items()) ^ set(after.items())}")


with tempfile.TemporaryDirectory() as room:
    os.mkdir(here("folder"))
    for name, content in (("seed", bytes(range(32))), ("message", b"a message\n"), ("salt", bytes(16)), ("master", bytes(range(16))),
                          ("tries", (1048576).to_bytes(4, "little"))):
        write(here(name), content)

    # What is made is written, replaces what was there, and is for those it is for.
    for mask in (0o022, 0o077, 0o000):
        old = os.umask(mask)
        for name in ("public", "secret"):
            write(here(name), OLD)
        os.chmod(here("secret"), 0o666)
        tell(call("make_key", ["seed", "public", "secret"]) == ("0\n", ""), "make_key")
        os.umask(old)
        tell(len(read(here("public"))) == 60 and os.stat(here("public")).st_mode & 0o777 == 0o644, "the public key's length or mode")
        tell(len(read(here("secret"))) == 88 and os.stat(here("secret")).st_mode & 0o777 == 0o600, "the secret key's length or mode")
    tell(call("sign_file", ["secret", "message", "salt", "master", "tries", "signature"]) == ("0\n", ""), "sign_file")
    tell(len(read(here("signature"))) == 3484, "the signature's length")
    tell(call("check_file", ["public", "message", "signature"]) == ("0\n", ""), "check_file")
    cell, error = call("show_cell", ["public"])
    tell((cell, error) == (read(here("public")).hex(), ""), f"show_cell prints {cell!r}")
    write(here("cell"), cell.encode())
    for text in (cell, cell.upper()):
        write(here("other"), text.encode())
        tell(call("read_cell", ["other", "again"]) == ("0\n", "") and read(here("again")) == read(here("public")), "read_cell")
        os.remove(here("again"))
    left = [name for name in os.listdir(room) if "." in name]
    tell(not left, f"files left: {left}")

    for program, inputs in INPUTS.items():
        all_words = words_of(program)
        for n in range(len(all_words)):
            refused(program, 1, f"{n} words", all_words[:n])
        refused(program, 1, "a word too many", all_words + ["more"])
        for name in inputs:
            for what, other in (("missing", "missing"), ("a directory", "folder"), ("an empty name", ""), ("a long name", "n" * 5000)):
                refused(program, 1, f"{name} is {what}", words_of(program, {name: other}))
            content = read(here(name))
            no_text = os.fsdecode(b"no \xff text")
            write(here(no_text), content)
            refused(program, 1, f"{name} has a name that is no text", words_of(program, {name: no_text}))
            os.remove(here(no_text))
            if name == "message":
                continue
            wrong = 7 if name == "cell" else 1
            for text, changed in (("a byte short", content[:-1]), ("a byte long", content + b"0"), ("empty", b""), ("long", content * 100)):
                write(here("other"), changed)
                refused(program, wrong, f"{name} is {text}", words_of(program, {name: "other"}))

    # Each input is read, also behind one that can't be: what writes to a pipe among them comes to its end.
    for program, inputs in INPUTS.items():
        for i, name in enumerate(inputs):
            for pipe in inputs[i + 1:]:
                os.mkfifo(here("pipe"))
                with subprocess.Popen(["sh", "-c", f"exec cat {pipe} >pipe"], cwd=room) as writer:
                    answer = call(program, words_of(program, {name: "missing", pipe: "pipe"}))
                    tell(answer == ("1\n", ""), f"{program}, {name} missing, {pipe} a pipe: {answer}")
                    try:
                        ended = writer.wait(timeout=10) == 0
                    except subprocess.TimeoutExpired:
                        writer.kill()
                        ended = False
                    tell(ended, f"{program}, {name} missing: what writes to the pipe {pipe} is left waiting")
                os.remove(here("pipe"))

    # The lowest number that applies.
    write(here("long"), bytes(65537))
    write(here("full"), bytes(65536))
    write(here("none"), bytes(4))
    write(here("short"), bytes(15))
    refused("sign_file", 2, "a message of 65,537 bytes", words_of("sign_file", {"message": "long"}))
    refused("sign_file", 2, "a long message and no tries", words_of("sign_file", {"message": "long", "tries": "none"}))
    refused("sign_file", 1, "a long message and a short salt", words_of("sign_file", {"message": "long", "salt": "short"}))
    refused("sign_file", 1, "a long message and tries of 15 bytes", words_of("sign_file", {"message": "long", "tries": "short"}))
    refused("sign_file", 3, "no tries", words_of("sign_file", {"tries": "none"}))
    refused("check_file", 2, "a message of 65,537 bytes", words_of("check_file", {"message": "long"}))
    refused("check_file", 1, "a long message and a short signature", words_of("check_file", {"message": "long", "signature": "short"}))
    refused("check_file", 6, "another message", words_of("check_file", {"message": "full"}))
    tell(call("sign_file", words_of("sign_file", {"message": "full"})) == ("0\n", ""), "a message of 65,536 bytes")
    write(here("other"), cell[:-1].encode() + b" ")
    refused("read_cell", 8, "a space at the end", ["other", "new.public"])
    write(here("other"), b" " + cell[1:].encode())
    refused("read_cell", 8, "a space at the start", ["other", "new.public"])
    write(here("other"), cell[1:].encode() + b"\n")
    refused("read_cell", 8, "a line end in place of a character", ["other", "new.public"])

    # Outputs that can't be written.
    for program, names in OUTPUTS.items():
        for name in names:
            for what, other in (("a directory", "folder"), ("in no folder", "nowhere/file"), ("an empty name", ""), ("a long name", "n" * 300),
                                ("a very long name", "n" * 5000), ("a name that is no text", os.fsdecode(b"no \xff text"))):
                refused(program, 9, f"{name} is {what}", words_of(program, {name: other}))
            refused(program, 9, f"no room for {name}", words_of(program), largest=40)
    refused("make_key", 9, "room for the public key alone", words_of("make_key"), largest=70)
    refused("make_key", 9, "one name for both keys", ["seed", "new.public", "new.public"])

finish()
