#!/usr/bin/env python3
"""The four known cases through the programs: tests/vectors.py DIR, where DIR holds make_key, sign_file and check_file.

Keys and signatures have to be the vectors' byte for byte; tries one below the passing nonce's place give 5, its place and more give the same
bytes; a byte changed in each field of a signature gives 6. The last line is 'N passed, M failed'."""
import os
import subprocess
import sys
import tempfile

sys.dont_write_bytecode = True
from tally import finish, tell

FIELDS = [("salt", 0), ("com1", 16), ("com2", 48), ("alpha1", 80), ("paths", 556), ("hidden commitments", 2732), ("corrections", 3276), ("nonce", 3480), ("end", 3484)]
programs = os.path.abspath(sys.argv[1])


def cases(path):
    case = {}
    for line in open(path, encoding="ascii"):
        name, sign, value = line.strip().partition("=")
        if not sign:
            continue
        if name.strip() == "count" and case:
            yield case
            case = {}
        case[name.strip()] = value.strip()
    yield case


def run(room, program, *names):
    done = subprocess.run([os.path.join(programs, program)] + [os.path.join(room, n) for n in names], capture_output=True, text=True)
    return done.stdout.strip()


def put(room, name, content):
    with open(os.path.join(room, name), "wb") as out:
        out.write(content)


def got(room, name):
    path = os.path.join(room, name)
    return open(path, "rb").read() if os.path.exists(path) else None


for case in cases(os.path.join(os.path.dirname(os.path.abspath(__file__)), "vectors", "r3.rsp")):
    label = "case " + case["count"]
    with tempfile.TemporaryDirectory() as room:
        for name, field in [("seed", "seed_key"), ("msg", "msg"), ("salt", "salt"), ("mseed", "mseed")]:
            put(room, name, bytes.fromhex(case[field]))
        tell(run(room, "make_key", "seed", "pk", "sk") == "0", label + ": make_key")
        tell(got(room, "pk") == bytes.fromhex(case["pk"]), label + ": public key")
        tell(got(room, "sk") == bytes.fromhex(case["sk"]), label + ": secret key")
        place, sig = int(case["place"]), bytes.fromhex(case["sig"])
        for tries in [place - 1, place, place + 1, 1048576]:
            put(room, "tries", tries.to_bytes(4, "little"))
            number = run(room, "sign_file", "sk", "msg", "salt", "mseed", "tries", "sig%d" % tries)
            want = "0" if tries >= place else "5" if tries else "3"
            tell(number == want, f"{label}: {tries} tries give {number}")
            tell(got(room, "sig%d" % tries) == (sig if tries >= place else None), f"{label}: signature with {tries} tries")
        put(room, "sig", sig)
        tell(run(room, "check_file", "pk", "msg", "sig") == "0", label + ": check_file")
        for (name, start), (_, end) in zip(FIELDS, FIELDS[1:]):
            for at in (start, (start + end) // 2, end - 1):
                put(room, "bad", sig[:at] + bytes([sig[at] ^ 1]) + sig[at + 1:])
                tell(run(room, "check_file", "pk", "msg", "bad") == "6", f"{label}: byte {at} changed, in {name}")
        put(room, "zeros", bytes(3484))
        tell(run(room, "check_file", "pk", "msg", "zeros") == "6", label + ": a signature of zeros")
        for length in (3483, 3485):
            put(room, "bad", (sig + b"\0")[:length])
            tell(run(room, "check_file", "pk", "msg", "bad") == "1", f"{label}: a signature of {length} bytes")
finish()
