"""A second audit, written from docs/FORMATS.md and docs/DEFINITIONS.md alone, in the plainest way: it reads a log and says what
`sundr audit` prints. Signatures are checked by lms.py, changes and i-handles by the second desk of desk_model.py.
"""
import functools

import desk_model
import lms
import logs
from desk_model import Refused, demand, sha256

LONGEST_ITEM = 70000
MOST_OPERATIONS = 256  # of a batch
LONGEST_SIGNATURE = 9324
MOST_NUMBERS = 80

# A signature costs a few thousand hashes, and most logs here differ from one another in one commit.
verify = functools.lru_cache(maxsize=4096)(lms.verify)


class Reader:
    """Reads parts one after the other. Each is refused at its first byte, where it is cut or isn't as it should be."""

    def __init__(self, data):
        self.data, self.at = data, 0

    def part(self, length, is_good=lambda part: True):
        part = self.data[self.at:self.at + length]
        demand(len(part) == length and is_good(part), f"1 Malformed {self.at}")
        self.at += length
        return part

    def number(self, length, first=0, last=None):
        last = 256 ** length - 1 if last is None else last
        return int.from_bytes(self.part(length, lambda part: first <= int.from_bytes(part, "big") <= last), "big")

    def file(self):
        part = self.part(6, lambda part: part[0] <= 1 and desk_model.is_file_id(file_in(part)))
        return file_in(part)

    def name(self):
        length = self.data[self.at:self.at + 1]
        return self.part(1 + (length[0] if length else 0), lambda part: desk_model.is_name(part[1:]))[1:]

    def end(self):
        demand(self.at == len(self.data), f"1 Malformed {self.at}")


def file_in(part):
    return "UG"[part[0]], part[1], int.from_bytes(part[2:], "big")


OPERATIONS = {1: "create", 2: "write", 3: "truncate", 4: "link", 5: "rename", 6: "unlink", 7: "take", 8: "drop"}
CHANGES = {0: "undo", **OPERATIONS, 9: "rekey", 10: "batch"}


def change_in(item):
    """The change of an item."""
    reader = Reader(item)
    reader.part(1, lambda part: part == b"\5")
    change = one_of(CHANGES, reader)
    demand(reader.at <= LONGEST_ITEM, "1 Malformed 0")
    reader.end()
    return change


def one_of(kinds, reader):
    """A change of one of these kinds, each of which has a number that stands before its fields."""
    word = kinds[reader.part(1, lambda part: part[0] in kinds)[0]]
    return globals().get(word + "_in", link_in)(word, reader)


def batch_in(word, reader):
    count = reader.number(2, 2, MOST_OPERATIONS)
    return word, tuple(one_of(OPERATIONS, reader) for _ in range(count))


def undo_in(word, reader):
    return word, reader.number(8)


def create_in(word, reader):
    directory, name, file = reader.file(), reader.name(), reader.file()
    body = reader.number(4, 1, 1000000)
    return word, ("create", "mkdir")[reader.number(1, 0, 1)], directory, name, file, body


def write_in(word, reader):
    file, off = reader.file(), reader.number(4)
    return word, file, off, reader.part(reader.number(4, 1, desk_model.LARGEST_WRITE))


def truncate_in(word, reader):
    return word, reader.file(), reader.number(4)


def link_in(word, reader):
    """A link or an unlink."""
    return word, reader.file(), reader.name(), reader.file()


def rename_in(word, reader):
    return word, reader.file(), reader.name(), reader.file(), reader.name(), reader.file()


def take_in(word, reader):
    return word, reader.file(), reader.number(4, 1, 1000000)


def drop_in(word, reader):
    return word, reader.number(4, 1, 1000000)


def rekey_in(word, reader):
    return word, reader.part(desk_model.KEY_LENGTH)


def commit_in(data):
    """The version structure of a commit, and its signature."""
    reader = Reader(data)
    forms = {begin: form for form, begin in logs.FIRST_BYTES.items()}
    form = forms[reader.part(4, lambda part: part in forms)]
    author = reader.number(1, 0, 63)
    prev, change, handle = reader.part(32), reader.part(32), reader.part(32)
    groups, least = [], 0
    for _ in range(reader.number(1)):
        group = reader.number(1, least, 15)
        groups.append((group, reader.part(32)))
        least = group + 1
    vector = [reader.number(8) for _ in range(reader.number(1, 2, MOST_NUMBERS))]
    names_key = form >= 3 and reader.number(1, 0, 1)
    next_key = reader.part(desk_model.KEY_LENGTH) if names_key else None
    signature = reader.part(reader.number(4, 1, LONGEST_SIGNATURE))
    reader.end()
    return logs.Version(author, prev, change, handle, groups, vector, form, next_key), signature


class Chain:
    """The end of a list of commits, which tells the commit that may come next."""

    def __init__(self, publics):
        self.publics = list(publics)  # of each user the key of the moment
        self.used = set(publics)
        self.prev = sha256(logs.roster_bytes(publics))
        self.vector = [0] * (len(publics) + 2)
        self.count, self.form = 0, 1
        self.last_leaf = {}

    def check_next(self, version, signature):
        is_user = version.author < len(self.publics)
        is_signed = is_user and verify(self.publics[version.author], version.encode(), signature)
        demand(is_signed, "33 BadSignature")
        demand(version.prev == self.prev, f"34 WrongPrev {self.count}")
        demand(version.form >= self.form, "44 OldFormat")
        carried = [group for group, _ in version.groups]
        is_next = set(carried) <= {0, 1} and version.vector == logs.raised(self.vector, len(self.publics), version.author, carried)
        demand(is_next, "35 WrongVector")
        demand(leaf_of(signature) > self.last_leaf.get(version.author, -1), "36 KeyReuse")
        demand(version.next_key not in self.used, "36 KeyReuse")
        demand(version.next_key is None or lms.is_key(version.next_key), "9 BadKey")

    def add(self, commit):
        """Adds a commit that may come next."""
        version, signature = commit_in(commit)
        self.prev, self.vector, self.form = sha256(commit), version.vector, version.form
        self.count += 1
        self.last_leaf[version.author] = leaf_of(signature)
        if version.next_key is not None:
            self.publics[version.author] = version.next_key
            self.used.add(version.next_key)
            self.last_leaf[version.author] = -1


def leaf_of(signature):
    """The leaf that signed."""
    return int.from_bytes(signature[:4], "big")


class View:
    """What a client holds. It takes a commit, or raises why it refuses it."""

    def __init__(self, publics):
        self.items = {}
        self.maker = logs.Maker([Unsigning(public) for public in publics])
        self.chain = Chain(publics)

    def put(self, item):
        demand(1 <= len(item) <= LONGEST_ITEM, "22 TooBig")
        self.items[sha256(item)] = item

    def item(self, digest):
        """The item of that digest."""
        demand(digest in self.items, "5 MissingBlock")
        return self.items[digest]

    def accept(self, commit):
        version, signature = commit_in(commit)
        self.chain.check_next(version, signature)
        change, wanted = self.within(version, self.item(version.change))
        demand(version.next_key == wanted.next_key, "45 WrongKey")
        demand(version.handle == wanted.handle, f"38 WrongHandle U{version.author}")
        self.check_groups(dict(version.groups), dict(wanted.groups))
        self.maker.take(version.author, change, version, commit)
        self.chain.add(commit)

    def within(self, version, item):
        """The change of the item that a commit names, and the version structure that it should have then."""
        try:
            change = change_in(item)
            return change, self.maker.version(version.author, change, version.form)
        except Refused as why:
            raise Refused(f"39 Change {why}") from None

    def check_groups(self, carried, wanted):
        for group in range(16):
            demand(carried.get(group) == wanted.get(group), f"38 WrongHandle G{group}")


class Unsigning:
    """A public key in the place of a key that signs."""

    def __init__(self, public):
        self.bytes = public

    def public(self):
        return self.bytes


def piece(log, at):
    """The bytes behind the length at a place, and the place after them."""
    length = int.from_bytes(log[at:at + 4], "big")
    demand(at + 4 <= len(log) and at + 4 + length <= len(log), f"1 Malformed {at}")
    return log[at + 4:at + 4 + length], at + 4 + length


def pieces(log):
    """The records of a log that isn't cut: pairs of a commit and an item."""
    at, parts = 0, []
    while at < len(log):
        part, at = piece(log, at)
        parts.append(part)
    return list(zip(parts[::2], parts[1::2]))


def audit(publics, log):
    """What an audit of the log prints, and its status."""
    view, at, number = View(publics), 0, 0
    while at < len(log):
        number += 1
        try:
            commit, at = piece(log, at)
            item, at = piece(log, at)
            view.put(item)
            view.accept(commit)
        except Refused as why:
            return f"at {number}\nno {why}\n", 1
    return f"ok {number}\n", 0
