#!/usr/bin/env python3
"""Makes logs of commits, written from docs/FORMATS.md and docs/DEFINITIONS.md alone: items of changes, version structures, commits,
and the file that `sundr audit` reads. What a change does, and the i-handles after it, the second desk of desk_model.py tells.

usage: logs.py --example FOLDER    writes into FOLDER the log of a small story of two users, `log`, and their public keys,
                                   `0.pub` and `1.pub`
"""
import copy
import random
import sys

import desk_model
import lms
from desk_model import file_bytes, sha256


def u8(x):
    return x.to_bytes(1, "big")


def u16(x):
    return x.to_bytes(2, "big")


def u32(x):
    return x.to_bytes(4, "big")


def u64(x):
    return x.to_bytes(8, "big")


def spelled_name(name):
    return u8(len(name)) + name


def item_of(change):
    """The item of a change, which is one of the desk's: ("create", "mkdir" or "create", directory, name, file, body), and so on."""
    word, *rest = change
    if word == "undo":
        return b"\5\0" + u64(rest[0])
    if word == "rekey":
        return b"\5\x09" + rest[0]
    if word == "batch":
        return batch_item(len(rest[0]), *map(spelled_operation, rest[0]))
    return b"\5" + spelled_operation(change)


def batch_item(count, *operations):
    """The item of a batch that says that there are so many operations, of which these are the bytes."""
    return b"\5\x0a" + u16(count) + b"".join(operations)


def spelled_operation(operation):
    """The byte that says what an operation is, and its fields."""
    word, *rest = operation
    if word == "create":
        kind, directory, name, file, body = rest
        return b"\1" + file_bytes(directory) + spelled_name(name) + file_bytes(file) + u32(body) + u8(kind == "mkdir")
    if word == "write":
        file, off, data = rest
        return b"\2" + file_bytes(file) + u32(off) + u32(len(data)) + data
    if word == "truncate":
        return b"\3" + file_bytes(rest[0]) + u32(rest[1])
    if word == "rename":
        source, old, target, new, file = rest
        return b"\5" + file_bytes(source) + spelled_name(old) + file_bytes(target) + spelled_name(new) + file_bytes(file)
    if word == "take":
        return b"\7" + file_bytes(rest[0]) + u32(rest[1])
    if word == "drop":
        return b"\x08" + u32(rest[0])
    directory, name, file = rest
    return {"link": b"\4", "unlink": b"\6"}[word] + file_bytes(directory) + spelled_name(name) + file_bytes(file)


def roster_bytes(publics):
    """Users 0 and on, with these keys; group 0 has all of them, group 1 has user 0."""
    users = b"".join(u8(n) + key for n, key in enumerate(publics))
    members = u8(len(publics)) + bytes(range(len(publics)))
    return b"SR01" + u8(len(publics)) + users + u8(2) + u8(0) + members + u8(1) + u8(1) + u8(0)


FIRST_BYTES = {1: b"SV01", 2: b"SV02", 3: b"SV03", 4: b"SV04"}  # of a version structure, in each format


class Version:
    """A version structure; `groups` is pairs of a group and its i-handle, `vector` the numbers, `form` its format, `next_key` the key that
    it names, if it names one."""

    def __init__(self, author, prev, change, handle, groups, vector, form=desk_model.FIRST_FORMAT, next_key=None):
        self.author, self.prev, self.change, self.handle = author, prev, change, handle
        self.groups, self.vector, self.form, self.next_key = groups, vector, form, next_key

    def encode(self):
        groups = b"".join(u8(group) + handle for group, handle in self.groups)
        numbers = b"".join(map(u64, self.vector))
        fixed = FIRST_BYTES[self.form] + u8(self.author) + self.prev + self.change + self.handle
        return fixed + u8(len(self.groups)) + groups + u8(len(self.vector)) + numbers + self.encoded_key()

    def encoded_key(self):
        if self.form < 3:
            return b""
        return u8(0) if self.next_key is None else u8(1) + self.next_key


def raised(vector, users, user, groups):
    """The vector of so many users, with the numbers of a user and of these groups one higher."""
    higher = {user, *(users + group for group in groups)}
    return [number + (n in higher) for n, number in enumerate(vector)]


def commit_of(version, signature):
    return version.encode() + u32(len(signature)) + signature


def log_bytes(records):
    """The log of these records, which are pairs of a commit's bytes and an item's."""
    return b"".join(u32(len(part)) + part for record in records for part in record)


class Handles:
    """I-handles of the tree of a desk, as bytes."""

    def __init__(self, desk):
        self.tree = desk.tree(desk.history)

    def of(self, kind, number):
        return bytes.fromhex(desk_model.handle(self.tree, (kind, number)))


class Maker:
    """Makes a list of commits, in a format (that in which lists are begun) unless a change comes with one. The users' keys sign with one leaf after the other; a user who
    names a key of the ring signs with that from the next commit on."""

    def __init__(self, keys, form=desk_model.FIRST_FORMAT):
        self.keys = keys
        self.publics = [key.public() for key in keys]
        self.desk = desk_model.KeptDesk(len(keys), form)
        self.desk.roster.keys = set(self.publics)
        self.ring = {}
        self.prev = sha256(roster_bytes(self.publics))
        self.vector = [0] * (len(keys) + 2)
        self.leaves = [0] * len(keys)
        self.records = []

    def copy(self):
        """Another one that stands where this one does."""
        other = copy.copy(self)
        other.desk = copy.copy(self.desk)
        other.desk.history = list(self.desk.history)
        other.vector, other.leaves, other.records = list(self.vector), list(self.leaves), list(self.records)
        other.keys, other.ring = list(self.keys), dict(self.ring)
        return other

    def log(self):
        return log_bytes(self.records)

    def version(self, user, change, form=None):
        """The version structure of a change that comes next. Raises `Refused` where the desk refuses the change."""
        form = self.desk.form if form is None else form
        n = self.desk.apply(user, change, form)
        writes = () if change[0] == "rekey" else self.desk.cells(change[1] if change[0] == "undo" else n)[1]
        carried = sorted({cell[1][0] for cell in writes if cell[0] == "pointer"})
        handles = Handles(self.desk)
        self.desk.history.pop()
        groups = [(group, handles.of("G", group)) for group in carried]
        vector = self.raised(user, carried)
        next_key = change[1] if change[0] == "rekey" else None
        return Version(user, self.prev, sha256(item_of(change)), handles.of("U", user), groups, vector, form, next_key)

    def client_version(self, user, change):
        """The same, in the format in which a client makes the change."""
        return self.version(user, change, self.desk.made_format(change))

    def raised(self, user, groups):
        return raised(self.vector, len(self.keys), user, groups)

    def sign(self, version, signer=None, leaf=None):
        """A commit of a version structure, signed by its author with the author's next leaf."""
        signer = version.author if signer is None else signer
        leaf = self.leaves[signer] if leaf is None else leaf
        return commit_of(version, self.keys[signer].sign(leaf, version.encode()))

    def add(self, user, change, form=None):
        """Makes the commit of a change, and adds both."""
        version = self.version(user, change, form)
        commit = self.sign(version)
        self.take(user, change, version, commit)
        return commit

    def take(self, user, change, version, commit):
        self.desk.history.append((user, version.form, change))
        self.prev, self.vector = sha256(commit), version.vector
        self.leaves[user] += 1
        self.records.append((commit, item_of(change)))
        if version.next_key is not None:
            self.keys[user], self.leaves[user] = self.ring.get(version.next_key), 0

    def rekey(self, user, key):
        """Adds the commit by which a user goes on to a key."""
        self.ring[key.public()] = key
        return self.add(user, ("rekey", key.public()))

    def read(self, line):
        """The user and the change of a line of a desk script."""
        user, word, *rest = line.split(" ")
        if word == "undo_last":
            live = self.desk.live(self.desk.history)
            word, rest = "undo", [live[-1] if live else 0]
        return int(user), desk_model.change_of(word, rest)[0]

    def say(self, line, form=None):
        """Adds the commit of a line of a desk script."""
        return self.add(*self.read(line), form)


def key_of(seed, height=5, width=8, **how):
    """A key of entropy that a seed fixes."""
    return lms.Key(random.Random(f"key {seed}").randbytes(48), height, width, **how)


# Two users share a list, in the first format. One takes the other's group over, and the first operation is undone below what came later.
STORY = """0 create G0:1 plan U0:2
0 write U0:2 0 68656c6c6f
1 take G0:1 1
1 create G0:1 notes U1:2
1 write U1:2 0 4f6e65
0 undo 2
1 rename G0:1 notes G0:1 list U1:2
"""


def write_example(folder):
    maker = Maker([key_of("of the example, user 0"), key_of("of the example, user 1")], form=1)
    for line in STORY.splitlines():
        maker.say(line)
    for name, data in (("log", maker.log()), ("0.pub", maker.publics[0]), ("1.pub", maker.publics[1])):
        with open(f"{folder}/{name}", "wb") as file:
            file.write(data)


if __name__ == "__main__":
    if len(sys.argv) != 3 or sys.argv[1] != "--example":
        sys.exit(__doc__)
    write_example(sys.argv[2])
