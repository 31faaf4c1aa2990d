"""Bytes that are near to good ones: cut, with a byte changed, with bits flipped, with bytes inserted, with a length at an extreme, and
with the front of one and the back of another. What is by chance is fixed by a seed.
"""
LENGTHS = (0, 1, 2, 127, 255, 256, 65535, 65536, 70000, 70001, 131072, 131073, 2 ** 31 - 1, 2 ** 31, 2 ** 32 - 1)


# ---- each change of a kind

def cuts(data, places):
    """What stands before each of these places."""
    return [data[:at] for at in places if at < len(data)]


def with_byte(data, at, byte):
    return data[:at] + bytes([byte]) + data[at + 1:]


def bytes_near(byte, chance, count):
    """Other bytes than this one: the extremes, its neighbours by one bit, and some by chance, so many; or all of them."""
    if count >= 255:
        return [it for it in range(256) if it != byte]
    likely = [byte ^ 1, 0, 255, byte ^ 128]
    near = list(dict.fromkeys(it for it in likely if it != byte))[:count]
    return near + chance.sample([it for it in range(256) if it != byte and it not in near], count - len(near))


def changed(data, places, chance, count=3):
    """The bytes with another one at each of these places: so many others at each."""
    return [with_byte(data, at, byte) for at in places for byte in bytes_near(data[at], chance, count)]


def sample(chance, first, last, count):
    """Some of the places from one to before another, in order; all of them where they are that few."""
    places = range(first, last)
    return list(places) if len(places) <= count else sorted(chance.sample(places, count))


# ---- a change by chance

def cut(chance, data, _):
    return data[:chance.randrange(len(data) + 1)]


def cut_in_front(chance, data, _):
    return data[chance.randrange(len(data) + 1):]


def byte_changed(chance, data, _):
    return with_byte(data, chance.randrange(len(data)), chance.randrange(256)) if data else data


def bits_flipped(chance, data, _):
    data = bytearray(data)
    for _ in range(chance.choice((1, 1, 1, 2, 8)) if data else 0):
        data[chance.randrange(len(data))] ^= 1 << chance.randrange(8)
    return bytes(data)


def bytes_inserted(chance, data, _):
    at = chance.randrange(len(data) + 1)
    return data[:at] + chance.randbytes(chance.choice((1, 2, 4, 32, 300))) + data[at:]


def part_again(chance, data, _):
    """A part stands twice."""
    first, last = sorted(chance.randrange(len(data) + 1) for _ in range(2))
    return data[:last] + data[first:]


def part_left_out(chance, data, _):
    first, last = sorted(chance.randrange(len(data) + 1) for _ in range(2))
    return data[:first] + data[last:]


def length_changed(chance, data, _):
    """Four bytes, or the last of them, say another number."""
    at, width = chance.randrange(len(data) + 1), chance.choice((1, 2, 4, 8))
    number = chance.choice(LENGTHS) % 256 ** width
    return data[:at] + number.to_bytes(width, "big") + data[at + width:]


def spliced(chance, data, others):
    other = chance.choice(others)
    return data[:chance.randrange(len(data) + 1)] + other[chance.randrange(len(other) + 1):]


def random_bytes(chance, _, __):
    return chance.randbytes(chance.choice((0, 1, 4, 5, 64, 1000)))


WAYS = (
    cut, cut_in_front, byte_changed, byte_changed, bits_flipped, bits_flipped, bytes_inserted, part_again, part_left_out, length_changed,
    length_changed, spliced, random_bytes)


def mangled(chance, data, others=(b"",)):
    """The bytes with one change by chance, or a few; parts may come from these others."""
    for _ in range(chance.choice((1, 1, 1, 1, 2, 3))):
        data = chance.choice(WAYS)(chance, data, others)
    return data
