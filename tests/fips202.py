#!/usr/bin/env python3
"""The lines of the program fips202, made with Python's hashlib: crates/fips202/stdout is what this prints."""
import hashlib

TEXT = bytes((7 * i + 3) % 256 for i in range(512))


def line(call, message, part, length, prefix=b""):
    digest = hashlib.shake_128(prefix + message).hexdigest(length)
    print(call, len(message), part, length, digest)


for n in (0, 1, 167, 168, 169, 336, 512):
    line("xof", TEXT[:n], n, 400)
for d in (0, 1, 167, 168, 169, 336, 337):
    line("xof", TEXT[:32], 32, d)
for n, k in ((0, 1), (8, 3), (167, 13), (168, 13), (169, 13), (168, 168), (336, 1), (336, 168), (337, 169), (512, 17)):
    line("parts", TEXT[:n], k, 400)
for n in (0, 168, 512):
    line("hash32", TEXT[:n], n, 32)
for n in (0, 167, 168):
    line("after", TEXT[:n], n, 169, b"\x06")
line("xof", b"\xa3" * 200, 200, 512)
