"""The known answers of lms_vectors.txt, and what the second implementation of lms.py says of them."""
import hashlib
import os
import re

import lms

MESSAGE = b"sundr: a message to sign"
ENTROPY = bytes(range(48))  # of the keys and signatures that are known by what makes them
PART = 31  # bytes of a signature in each of which a bit is changed


def read():
    """The bytes of each name."""
    with open(os.path.join(os.path.dirname(os.path.abspath(__file__)), "lms_vectors.txt"), encoding="utf-8") as file:
        lines = [line.split() for line in file if line.strip() and not line.startswith("#")]
    return {name: bytes.fromhex(data) for name, data in lines}


KNOWN = read()


def signatures():
    """The name of each signature, its public key, and it."""
    for key in [name.removesuffix("_KEY") for name in KNOWN if name.endswith("_KEY")]:
        for name in KNOWN:
            if re.fullmatch(key + "(_FIRST|_LAST)?", name):
                yield name, KNOWN[f"{key}_KEY"], KNOWN[name]


def spoiled(signature):
    """The signature with a bit changed in each part, with a byte more, and with a byte less."""
    for at in range(0, len(signature) - PART + 1, PART):
        yield signature[:at] + bytes([signature[at] ^ 4]) + signature[at + 1:]
    yield signature + b"\0"
    yield signature[:-1]


def verdicts():
    """Whether the second implementation knows what is known, by names."""
    # the example of the standard's section on strings of w-bit elements
    yield "coefficients_of_the_standard", [lms.coefficient(b"\x12\x34", *it) for it in ((7, 1), (0, 4))] == [0, 1]
    known = list(signatures())
    yield f"a_signature_of_each_parameter_set: {len(known)}", len({key[:8] for _, key, _ in known}) == 20 and len(known) == 28
    for name, key, signature in known:
        is_signed = [lms.verify(key, *it) for it in ((MESSAGE, signature), (MESSAGE + b" ", signature), (b"another", signature))]
        yield f"known_signature_{name}", is_signed == [True, False, False]
        taken = [at for at, other in enumerate(spoiled(signature)) if lms.verify(key, MESSAGE, other)]
        yield f"known_signature_{name}_spoiled: {taken}", taken == []
    # (the key of height 10 and width 8 takes Python too long; the program makes it)
    yield "known_key_of_height_10", lms.Key(ENTROPY, 10, 4).public() == KNOWN["W4_H10_KEY"]
    for width in (4, 8):
        key = lms.Key(ENTROPY, 5, width)
        yield f"known_key_of_width_{width}", key.public() == KNOWN[f"W{width}_H5_KEY"]
        for leaf in (0, 17, 31):
            is_ = hashlib.sha256(key.sign(leaf, MESSAGE)).digest()
            yield f"known_signature_by_leaf_{leaf}_of_width_{width}", is_ == KNOWN[f"SHA256_W{width}_H5_LEAF_{leaf}"]
