"""Damaged inputs for compare.py: each kind of damage is a function of the generator,
a base and another base, and makes one case."""

from compare_cases import (DIRECTORY, INPUTS, MAX_MESSAGE, MISSING, OUTPUTS, PUBLIC, REPETITIONS,
                           SECRET, SIGNATURE, SIZES, check_case, find_nonce, get, key_case, put,
                           sign_case, tries, tries_case)

MAKERS = {"make_key": key_case, "sign_file": sign_case, "check_file": check_case}


def flip(rng, data, place=None):
    """One bit of the bytes changed, or of those at (offset, length)."""
    at, length = place or (0, len(data))
    bit = rng.randrange(8 * length)
    out = bytearray(data)
    out[at + bit // 8] ^= 1 << bit % 8
    return bytes(out)


def reground(name, base, public=None, message=None, signature=None):
    """A damaged check whose nonce is made to pass, so that the check goes on."""
    public = public or base.public
    message = base.message if message is None else message
    signature = signature or base.signature
    nonce = find_nonce(public, signature, message)
    signature = put(signature, SIGNATURE["nonce"], tries(nonce))
    return check_case(name, base, 6, public=public, message=message, signature=signature)


def flips():
    for field, place in SIGNATURE.items():
        def flipped(rng, b, _, field=field, place=place):
            return check_case(f"bit of the signature's {field}", b, 6,
                              signature=flip(rng, b.signature, place))

        def replaced(rng, b, _, field=field, place=place):
            return check_case(f"another {field} in the signature", b, 6,
                              signature=put(b.signature, place, rng.randbytes(place[1])))

        def exchanged(rng, b, o, field=field, place=place):
            signature = put(b.signature, place, get(o.signature, place))
            return check_case(f"{field} of another signature", b,
                              0 if signature == b.signature else 6, signature=signature)
        yield from (flipped, replaced, exchanged)
    for field, place in PUBLIC.items():
        yield lambda rng, b, _, field=field, place=place: check_case(
            f"bit of the public key's {field}", b, 6, public=flip(rng, b.public, place))
        yield lambda rng, b, _, field=field, place=place: reground(
            f"bit of the public key's {field}, nonce passes", b,
            public=flip(rng, b.public, place))
    for field, place in SECRET.items():
        yield lambda rng, b, _, field=field, place=place: sign_case(
            f"bit of the secret key's {field}", b, 4, secret=flip(rng, b.secret, place))
    for field in ("com1", "com2"):
        yield lambda rng, b, _, field=field: reground(
            f"bit of the signature's {field}, nonce passes", b,
            signature=flip(rng, b.signature, SIGNATURE[field]))


def swap_repetitions(rng, signature):
    """Two repetitions exchanged in every field that has one part for each."""
    i, j = rng.sample(range(REPETITIONS), 2)
    for field in ("alpha1", "paths", "hidden commitments", "corrections"):
        at, length = SIGNATURE[field]
        part = length // REPETITIONS
        first, second = (at + i * part, part), (at + j * part, part)
        a, b = get(signature, first), get(signature, second)
        signature = put(put(signature, first, b), second, a)
    return signature


def copy_first_repetition(signature):
    for field in ("alpha1", "paths", "hidden commitments", "corrections"):
        at, length = SIGNATURE[field]
        part = get(signature, (at, length // REPETITIONS))
        signature = put(signature, (at, length), part * REPETITIONS)
    return signature


def whole_checks():
    """Checks of a wrong message, key, nonce or signature as a whole."""
    yield lambda rng, b, _: check_case("bit of the message", b, 6, message=flip(rng, b.message))
    yield lambda rng, b, _: reground("bit of the message, nonce passes", b,
                                     message=flip(rng, b.message))
    yield lambda rng, b, _: check_case("message one byte shorter", b, 6,
                                       message=b.message[:-1])
    yield lambda rng, b, _: reground("message one byte shorter, nonce passes", b,
                                     message=b.message[:-1])
    yield lambda rng, b, _: check_case(
        "message one byte longer", b, 6 if len(b.message) < MAX_MESSAGE else 2,
        message=b.message + b"\0")
    yield lambda rng, b, o: check_case("signature of another key", b, 6,
                                       message=o.message, signature=o.signature)
    yield lambda rng, b, o: reground("signature of another key, nonce passes", b,
                                     message=o.message, signature=o.signature)
    for step in (-1, 1, 256):
        yield lambda rng, b, _, step=step: check_case(
            f"nonce {step:+}", b, 6, signature=put(
                b.signature, SIGNATURE["nonce"], tries((b.place - 1 + step) % 2 ** 32)))
    yield lambda rng, b, _: check_case(
        "another passing nonce", b, 6, signature=put(
            b.signature, SIGNATURE["nonce"],
            tries(find_nonce(b.public, b.signature, b.message, b.place))))
    yield lambda rng, b, _: check_case("two repetitions exchanged", b, 6,
                                       signature=swap_repetitions(rng, b.signature))
    yield lambda rng, b, _: check_case("first repetition in all places", b, 6,
                                       signature=copy_first_repetition(b.signature))
    for byte in (0, 255):
        yield lambda rng, b, _, byte=byte: check_case(
            f"signature of bytes {byte}", b, 6, signature=bytes([byte]) * 3484)
        yield lambda rng, b, _, byte=byte: check_case(
            f"public key of bytes {byte}", b, 6, public=bytes([byte]) * 60)
        yield lambda rng, b, _, byte=byte: reground(
            f"signature of bytes {byte}, nonce passes", b, signature=bytes([byte]) * 3484)


def alter_element(rng, secret):
    """One of the 56 elements of the solution changed to another."""
    at = SECRET["solution"][0] + rng.randrange(28)
    change = rng.randrange(1, 16) << rng.choice((0, 4))
    return secret[:at] + bytes([secret[at] ^ change]) + secret[at + 1:]


def signings():
    """Signing and key generation with unusual but allowed inputs, and number 4."""
    yield lambda rng, b, _: sign_case("one solution element altered", b, 4,
                                      secret=alter_element(rng, b.secret))
    yield lambda rng, b, o: sign_case("solution of another key", b, 4,
                                      secret=b.secret[:60] + o.secret[60:])
    yield lambda rng, b, _: sign_case("solution zero", b, 4, secret=b.secret[:60] + bytes(28))
    yield lambda rng, b, _: sign_case("values zero", b, 4, secret=put(
        b.secret, SECRET["values"], bytes(28)))
    yield lambda rng, b, _: sign_case("solution and values zero", b, 0,
                                      secret=b.secret[:32] + bytes(56))
    yield lambda rng, b, _: sign_case("secret key of zeros", b, 0, secret=bytes(88))
    yield lambda rng, b, _: key_case("another bit of the seed", b, 0, seed=flip(rng, b.seed))
    for label in ("salt", "master"):
        yield lambda rng, b, _, label=label: sign_case(
            f"another bit of the {label}", b, 0, **{label: flip(rng, getattr(b, label))})
    for byte in (0, 255):
        for program, label in (("make_key", "seed"), ("sign_file", "salt"),
                               ("sign_file", "master")):
            yield lambda rng, b, _, byte=byte, program=program, label=label: MAKERS[program](
                f"{label} of bytes {byte}", b, 0, **{label: bytes([byte]) * SIZES[label]})


TOO_LONG = bytes(MAX_MESSAGE + 1)


def orders():
    """Two reasons at once: the lowest number is answered."""
    yield lambda rng, b, _: sign_case("message too long, tries 0", b, 2, message=TOO_LONG,
                                      tries=tries(0))
    yield lambda rng, b, _: sign_case("salt short, message too long, tries 0", b, 1,
                                      salt=b.salt[1:], message=TOO_LONG, tries=tries(0))
    yield lambda rng, b, _: sign_case("message too long, solution altered", b, 2,
                                      message=TOO_LONG, secret=alter_element(rng, b.secret))
    yield lambda rng, b, _: sign_case("tries 0, solution altered", b, 3, tries=tries(0),
                                      secret=alter_element(rng, b.secret))
    yield lambda rng, b, _: sign_case("tries 1, solution altered", b, 4, tries=tries(1),
                                      secret=alter_element(rng, b.secret))
    yield lambda rng, b, _: check_case("message too long, signature damaged", b, 2,
                                       message=TOO_LONG, signature=flip(rng, b.signature))
    yield lambda rng, b, _: check_case("public key long, message too long", b, 1,
                                       message=TOO_LONG, public=b.public + b"\0")


def lengths():
    """Wrong lengths, missing files and arguments, directories; outputs that exist."""
    for program, labels in INPUTS.items():
        make = MAKERS[program]
        for label in labels:
            bad = [("missing", MISSING), ("a directory", DIRECTORY)]
            if label in SIZES:
                size = SIZES[label]
                bad += [(f"of {n} bytes", n) for n in (size - 1, size + 1, 0, 2 * size)]
            for how, what in bad:
                def wrong(rng, b, _, make=make, label=label, how=how, what=what):
                    good = make("", b, 1).files[label]
                    content = (good * 2)[:what] if isinstance(what, int) else what
                    return make(f"{label} {how}", b, 1, **{label: content})
                yield wrong
        given = len(labels) + len(OUTPUTS[program])
        for words in {0, len(labels) - 1, given - 1}:
            def short(rng, b, _, make=make, words=words):
                case = make(f"{words} arguments", b, 1)
                case.words = words
                return case
            yield short

    def kept(case):
        case.name += ", outputs exist"
        case.occupied = True
        return case
    yield lambda rng, b, _: kept(key_case("seed short", b, 1, seed=b.seed[1:]))
    yield lambda rng, b, _: kept(key_case("key", b, 0))
    yield lambda rng, b, _: kept(sign_case("sign", b, 0))
    yield lambda rng, b, _: kept(sign_case("solution altered", b, 4,
                                           secret=alter_element(rng, b.secret)))
    yield lambda rng, b, _: kept(tries_case("sign", b, b.place - 1))


def odd_nonces(rng, base):
    """Nonces at which a signer could have opened, and the number of the check."""
    def find(start, good=lambda val: val == 0):
        return find_nonce(base.public, base.signature, base.message, start, good=good)
    return {
        "a nonce that does not pass": (find(rng.randrange(2 ** 20), lambda val: val != 0), 6),
        "a nonce with test value 256": (find(0, lambda val: val == 256), 6),
        "the passing nonce after the first": (find(base.place), 0),
        "a passing nonce of four bytes": (find(rng.randrange(2 ** 24, 2 ** 31)), 0),
    }


ODD = ("a nonce that does not pass", "a nonce with test value 256",
       "the passing nonce after the first", "a passing nonce of four bytes",
       "a wrong solution")


def odd_checks():
    """Signatures that are right but for the nonce or the solution; base.odd has them."""
    for name in ODD:
        yield lambda rng, b, _, name=name: check_case(
            f"signature with {name}", b, b.odd[name][1], signature=b.odd[name][0])


def damaged_cases(rng, bases, count):
    """Every kind in turn; the bases have messages of at least one byte."""
    kinds = [*flips(), *whole_checks(), *odd_checks(), *signings(), *orders(), *lengths()]
    for number in range(count):
        base, other = rng.sample(bases, 2)
        case = kinds[number % len(kinds)](rng, base, other)
        case.name = f"damaged {number}, {case.name}"
        yield case
    if count < len(kinds):
        print(f"{count} damaged cases do not reach all {len(kinds)} kinds")
