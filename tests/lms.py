"""Keys and signatures of LMS with SHA-256 and 32 bytes, written from RFC 8554 (sections 3 to 5, and Appendix A) and docs/LMS.md,
and with nothing of the code.

A key of these 48 bytes of entropy is the one that `sundr keygen` makes of them.
"""
import hashlib

# by the LM-OTS type: bits of a coefficient, chains, places by which the checksum is shifted; by the LMS type: the height
OTS = {1: (1, 265, 7), 2: (2, 133, 6), 3: (4, 67, 4), 4: (8, 34, 0)}
HEIGHTS = {5: 5, 6: 10, 7: 15, 8: 20, 9: 25}
D_PBLC, D_MESG, D_LEAF, D_INTR = b"\x80\x80", b"\x81\x81", b"\x82\x82", b"\x83\x83"
BYTES = [bytes([n]) for n in range(256)]
OTS_OF_WIDTH = {OTS[kind][0]: kind for kind in OTS}
LMS_OF_HEIGHT = {HEIGHTS[kind]: kind for kind in HEIGHTS}


def sha256(data):
    return hashlib.sha256(data).digest()


def u16(x):
    return x.to_bytes(2, "big")


def u32(x):
    return x.to_bytes(4, "big")


def coefficient(data, i, w):
    return (2 ** w - 1) & (data[i * w // 8] >> (8 - (w * (i % (8 // w)) + w)))


def coefficients(ots, digest):
    """The coefficients of a message's hash and its checksum: as many as there are chains."""
    w, chains, shift = OTS[ots]
    total = sum(2 ** w - 1 - coefficient(digest, i, w) for i in range(256 // w))
    whole = digest + u16(total << shift)
    return [coefficient(whole, i, w) for i in range(chains)]


def chain(before, value, first, last):
    """A value after the steps first to last - 1 of a chain; `before` is what each of them hashes first."""
    for j in range(first, last):
        value = hashlib.sha256(before + BYTES[j] + value).digest()
    return value


class Key:
    """A private key. With `leaves` only so many of the first leaves are computed, and can sign; each node above that has no such
    leaf below it is 32 bytes that are no hash of anything. Nobody who verifies can tell, as a verifier never sees what is below
    the nodes of a path."""

    def __init__(self, entropy, height=5, width=4, leaves=None, each=map):
        self.lms, self.ots = LMS_OF_HEIGHT[height], OTS_OF_WIDTH[width]
        self.id, self.seed = entropy[:16], entropy[16:48]
        self.leaves = 2 ** height if leaves is None else leaves
        self.levels = [list(each(self.leaf, range(self.leaves)))]
        for level in range(height):
            below = self.levels[-1] + [self.other(level)] * (len(self.levels[-1]) % 2)
            pairs = range(0, len(below), 2)
            self.levels.append([self.inner(level + 1, n, below[n:n + 2]) for n in pairs])

    def other(self, level):
        """Stands for a node that isn't computed."""
        return b"no hash of anything, on level %02d" % level

    def start(self, q, i):
        return self.id + u32(q) + u16(i)

    def private(self, q, i):
        return sha256(self.start(q, i) + b"\xff" + self.seed)

    def leaf(self, q):
        w, chains, _ = OTS[self.ots]
        ends = [chain(self.start(q, i), self.private(q, i), 0, 2 ** w - 1) for i in range(chains)]
        one_time = sha256(self.id + u32(q) + D_PBLC + b"".join(ends))
        return sha256(self.id + u32(2 ** HEIGHTS[self.lms] + q) + D_LEAF + one_time)

    def inner(self, level, n, pair):
        number = 2 ** (HEIGHTS[self.lms] - level) + n // 2
        return sha256(self.id + u32(number) + D_INTR + b"".join(pair))

    def public(self):
        return u32(self.lms) + u32(self.ots) + self.id + self.levels[-1][0]

    def file(self, q=0):
        """The key file, where this leaf signs next."""
        return b"SK01" + u32(self.lms) + u32(self.ots) + self.id + self.seed + u32(q)

    def sign(self, q, message):
        if q >= self.leaves:
            raise ValueError("each leaf that is there has signed")
        c = sha256(self.seed + b"C" + u32(q))
        digest = sha256(self.id + u32(q) + D_MESG + c + message)
        marks = enumerate(coefficients(self.ots, digest))
        values = [chain(self.start(q, i), self.private(q, i), 0, a) for i, a in marks]
        return u32(q) + u32(self.ots) + c + b"".join(values) + u32(self.lms) + b"".join(self.path(q))

    def path(self, q):
        for level in range(HEIGHTS[self.lms]):
            nodes = self.levels[level]
            sibling = (q >> level) ^ 1
            yield nodes[sibling] if sibling < len(nodes) else self.other(level)


def is_key(public):
    """Whether these bytes are a public key of types that the standard lists."""
    kinds = int.from_bytes(public[:4], "big"), int.from_bytes(public[4:8], "big")
    return len(public) == 56 and kinds[0] in HEIGHTS and kinds[1] in OTS


def verify(public, message, signature):
    """Whether the message is signed so under the public key."""
    lms, ots = int.from_bytes(public[:4], "big"), int.from_bytes(public[4:8], "big")
    (w, chains, _), height, identifier = OTS[ots], HEIGHTS[lms], public[8:24]
    values = 8 + 32
    kind = values + 32 * chains
    path = kind + 4
    q = int.from_bytes(signature[:4], "big")
    kinds = signature[4:8], signature[kind:path]
    if len(signature) != path + 32 * height or kinds != (u32(ots), u32(lms)) or q >= 2 ** height:
        return False
    digest = sha256(identifier + u32(q) + D_MESG + signature[8:values] + message)
    ends = b""
    for i, a in enumerate(coefficients(ots, digest)):
        value = signature[values + 32 * i:values + 32 * (i + 1)]
        ends += chain(identifier + u32(q) + u16(i), value, a, 2 ** w - 1)
    number = 2 ** height + q
    node = sha256(identifier + u32(number) + D_LEAF + sha256(identifier + u32(q) + D_PBLC + ends))
    for level in range(height):
        sibling = signature[path + 32 * level:path + 32 * (level + 1)]
        pair = sibling + node if number % 2 else node + sibling
        number //= 2
        node = sha256(identifier + u32(number) + D_INTR + pair)
    return node == public[24:]
