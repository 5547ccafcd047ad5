#!/usr/bin/env python3
"""What crates/fips197 has to print, from FIPS 197's own text and from OpenSSL, with nothing of ours.

The expanded key of appendix A.1 is copied from the standard. The ciphertexts are those of the openssl command: appendix B and C.1 in ECB
mode, and the chains in CBC mode from a zero vector, whose last block is the chain's last ciphertext."""
import subprocess

EXPANDED = """
2b7e1516 28aed2a6 abf71588 09cf4f3c
a0fafe17 88542cb1 23a33939 2a6c7605
f2c295f2 7a96b943 5935807a 7359f67f
3d80477d 4716fe3e 1e237e44 6d7a883b
ef44a541 a8525b7f b671253b db0bad00
d4d1c6f8 7c839d87 caf2b8bc 11f915bc
6d88a37a 110b3efd dbf98641 ca0093fd
4e54f70e 5f5fc9f3 84a64fb2 4ea6dc4f
ead27321 b58dbad2 312bf560 7f8d292f
ac7766f3 19fadc21 28d12941 575c006e
d014f9a8 c9ee2589 e13f0cc8 b6630ca6
"""
CHAINS, BLOCKS = 12, 20


def openssl(mode, key, data):
    command = ["openssl", "enc", "-aes-128-" + mode, "-nopad", "-K", key.hex()]
    if mode == "cbc":
        command += ["-iv", "0" * 32]
    return subprocess.run(command, input=data, capture_output=True, check=True).stdout


def made(i, n):
    value, block = i % 256 * 256 + n % 256, []
    for _ in range(16):
        value = value % 65536 * 25173 + 13849
        block.append(value // 256 % 256)
    return bytes(block)


for line in EXPANDED.split("\n"):
    if line:
        print(line.replace(" ", ""))
for key, block in [
    ("2b7e151628aed2a6abf7158809cf4f3c", "3243f6a8885a308d313198a2e0370734"),
    ("000102030405060708090a0b0c0d0e0f", "00112233445566778899aabbccddeeff"),
]:
    print(openssl("ecb", bytes.fromhex(key), bytes.fromhex(block)).hex())
for i in range(CHAINS):
    print(openssl("cbc", made(i, 0), b"".join(made(i, n) for n in range(1, BLOCKS + 1)))[-16:].hex())
