"""Cases for compare.py, and the random ones among them.

A case is one call of make_key, sign_file or check_file: what its files hold and
the number it has to answer. The fields of keys and signatures and the test of
the nonce follow document 001, section 2.3 and algorithms 3 to 5.
"""

import hashlib
from dataclasses import dataclass, field

MISSING, DIRECTORY = "missing", "directory"
MAX_MESSAGE, MAX_TRIES = 65536, 1 << 20

INPUTS = {
    "make_key": ("seed",),
    "sign_file": ("secret", "message", "salt", "master", "tries"),
    "check_file": ("public", "message", "signature"),
}
OUTPUTS = {"make_key": ("public", "secret"), "sign_file": ("signature",), "check_file": ()}
SIZES = {"seed": 32, "salt": 16, "master": 16, "tries": 4, "public": 60, "secret": 88,
         "signature": 3484}

REPETITIONS = 17


def layout(*fields):
    """Offset and length of each field."""
    places, at = {}, 0
    for name, length in fields:
        places[name] = (at, length)
        at += length
    return places


PUBLIC = layout(("equation seed", 32), ("values", 28))
SECRET = layout(("equation seed", 32), ("values", 28), ("solution", 28))
SIGNATURE = layout(("salt", 16), ("com1", 32), ("com2", 32), ("alpha1", 17 * 28),
                   ("paths", 17 * 8 * 16), ("hidden commitments", 17 * 32),
                   ("corrections", 17 * 12), ("nonce", 4))


@dataclass
class Base:
    """A key pair and a signature that it made; place counts from 1."""
    seed: bytes
    message: bytes
    salt: bytes
    master: bytes
    public: bytes = b""
    secret: bytes = b""
    signature: bytes = b""
    odd: dict = field(default_factory=dict)     # see odd_nonces

    @property
    def place(self):
        return int.from_bytes(self.signature[-4:], "little") + 1


@dataclass
class Case:
    name: str
    program: str
    files: dict
    expect: int
    words: int = -1         # how many arguments are given; -1 for all
    occupied: bool = False  # the output files exist before the call


def tries(n):
    return n.to_bytes(4, "little")


def key_case(name, base, expect, **changes):
    return Case(name, "make_key", {"seed": base.seed, **changes}, expect)


def sign_case(name, base, expect, **changes):
    files = {"secret": base.secret, "message": base.message, "salt": base.salt,
             "master": base.master, "tries": tries(MAX_TRIES)}
    return Case(name, "sign_file", {**files, **changes}, expect)


def check_case(name, base, expect, **changes):
    files = {"public": base.public, "message": base.message, "signature": base.signature}
    return Case(name, "check_file", {**files, **changes}, expect)


def put(data, place, value):
    at, length = place
    assert len(value) == length
    return data[:at] + value + data[at + length:]


def get(data, place):
    at, length = place
    return data[at:at + length]


def shake(prefix, data, length):
    return hashlib.shake_128(bytes([prefix]) + data).digest(length)


def find_nonce(public, signature, message, start=0, end=1 << 32, good=lambda val: val == 0):
    """The first nonce from start on with a good test value for these bytes, or None."""
    commitments = get(signature, SIGNATURE["com1"]) + get(signature, SIGNATURE["com2"])
    digest = shake(4, public + commitments + shake(2, message, 32), 32)
    for nonce in range(start, end):
        out = shake(5, digest + tries(nonce), 19)
        if good(out[17] + 256 * (out[18] & 1)):
            return nonce
    return None


EDGE_LENGTHS = (0, 1, MAX_MESSAGE - 1, MAX_MESSAGE, MAX_MESSAGE + 1, 166, 167, 168)


def random_base(rng, number):
    if number < len(EDGE_LENGTHS):
        length = EDGE_LENGTHS[number]
    elif number % 2:
        length = rng.randrange(MAX_MESSAGE + 1)
    else:
        length = int(2 ** rng.uniform(0, 12)) - 1
    return Base(rng.randbytes(32), rng.randbytes(length), rng.randbytes(16), rng.randbytes(16))


def tries_case(name, base, allowed):
    if allowed == 0 or allowed > MAX_TRIES:
        expect = 3
    else:
        expect = 0 if allowed >= base.place else 5
    return sign_case(f"{name}, tries {allowed}, place {base.place}", base, expect,
                     tries=tries(allowed))


def random_cases(number, base, full_message):
    """The calls of one random base; full_message may be too long to sign."""
    name = f"random {number}"
    long = len(full_message) > MAX_MESSAGE
    yield key_case(f"{name}, key", base, 0)
    yield sign_case(f"{name}, sign", base, 2 if long else 0, message=full_message)
    yield check_case(f"{name}, check", base, 2 if long else 0, message=full_message)
    for allowed in (base.place - 1, base.place, base.place + 1):
        yield tries_case(name, base, allowed)
    rest = (0, 1, MAX_TRIES + 1, 2 ** 32 - 1)
    yield tries_case(name, base, rest[number % len(rest)])


def placed_bases(rng, base, places=(1, 2, 256, 257)):
    """Messages for which the first passing nonce has each of these places."""
    wanted = set(places)
    while wanted:
        message = rng.randbytes(12)
        nonce = find_nonce(base.public, base.signature, message, 0, max(places))
        if nonce is not None and nonce + 1 in wanted:
            wanted.remove(nonce + 1)
            yield Base(base.seed, message, base.salt, base.master)


def placed_cases(base):
    name = f"message with place {base.place}"
    for allowed in {0, 1, base.place - 1, base.place, base.place + 1, MAX_TRIES}:
        yield tries_case(name, base, allowed)
    yield check_case(name, base, 0)
