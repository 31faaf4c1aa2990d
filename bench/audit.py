#!/usr/bin/env python3
"""How long an audit takes. Run by hand: `bench/audit.py [FOLDER]`. Making the logs takes some ten minutes of four cores, and they are
kept in FOLDER for the next time, if one is given.

Prints, for a log of so many commits: its megabytes, seconds by the clock on one core and on all, each the best of three runs, commits a
second on both, and the peak of memory in megabytes.

- 10,000 commits that each create a file in one directory, and 1,000 more that each write a byte into one of the files; the time
  of the 1,000 is the time of the whole log less that of the first 10,000, so it wants an idle machine. With signatures of 4 and of
  8 bits a coefficient.
- 100,000 commits that each write a byte into one of 1,000 files.
- 10,000 creates as above with signatures of 4 bits a coefficient, in the third format, and the same with a rekey behind each 1,000: how much
  these cost.

The author's key has a tree of height 20, of which only the leaves that sign are computed (`leaves` of tests/lms.py): a verifier can't
tell, but its signatures have a path of 20 hashes, where keys of `sundr keygen` have 5 or 10.
"""
import multiprocessing
import os
import subprocess
import sys
import tempfile

HERE = os.path.dirname(os.path.abspath(__file__))
TOP = os.path.dirname(HERE)
PROGRAM = os.environ.get("SUNDR", f"{TOP}/crates/sundr/out/sundr")
sys.path.insert(0, f"{TOP}/tests")
sys.path.append(HERE)

import desk_model  # noqa: E402
import lms  # noqa: E402
import logs  # noqa: E402
import peak  # noqa: E402
from desk_model import name_bits, number_bits, sha256  # noqa: E402


class KeptTree:
    """The digest of a map, kept up to date: a tree whose nodes are (digest, bits, None) for a pair and else (digest, place, nodes)."""

    def __init__(self):
        self.root = None

    def digest(self):
        return self.root[0] if self.root else sha256(b"\2")

    def set(self, bits, key, value):
        pair = desk_model.digest_of([(bits, key, value)]), bits, None
        if self.root is None:
            self.root = pair
            return
        nearest = self.root
        while nearest[2]:
            nearest = nearest[2][int(bits[nearest[1]])] if nearest[1] < len(bits) else nearest[2][0]
        differ = [n for n, (x, y) in enumerate(zip(bits, nearest[1])) if x != y]
        self.root = self.put(self.root, bits, pair, differ[0] if differ else None)

    def put(self, node, bits, pair, place):
        if node[2] is None and place is None:
            return pair
        if node[2] is None or place is not None and place < node[1]:
            return self.inner(place, [pair, node] if bits[place] == "0" else [node, pair])
        nodes, side = list(node[2]), int(bits[node[1]])
        nodes[side] = self.put(nodes[side], bits, pair, place)
        return self.inner(node[1], nodes)

    def inner(self, place, nodes):
        return sha256(b"\1" + place.to_bytes(2, "big") + nodes[0][0] + nodes[1][0]), place, nodes


class LongMaker:
    """Makes a long log of user 0, who creates files in the root directory and writes bytes into them. It is of the first format, so that
    earlier programs read it too, unless there are further keys or another one is asked for."""

    def __init__(self, key, file, form=1):
        self.key, self.file, self.count, self.form, self.leaf = key, file, 0, form, 0
        self.prev = sha256(logs.roster_bytes([key.public()]))
        self.table, self.names = KeptTree(), KeptTree()
        self.put_inode(1, self.root_digest())

    def root_digest(self):
        home = desk_model.file_bytes(desk_model.group_file(0, 1))
        return sha256(b"\3" + home + b"\1\1" + bytes(4) + self.names.digest())

    def put_inode(self, number, digest):
        self.table.set(number_bits(number), number.to_bytes(4, "big"), digest)

    def create(self, number):
        name, file = b"f%d" % number, desk_model.user_file(0, number)
        self.names.set(name_bits(name), name, desk_model.file_bytes(file))
        self.put_inode(1, self.root_digest())
        self.put_inode(number, desk_model.inode_digest((file, 1, b"")))
        self.add(("create", "create", desk_model.group_file(0, 1), name, file, number))

    def write(self, number, byte):
        file = desk_model.user_file(0, number)
        self.put_inode(number, desk_model.inode_digest((file, 1, byte)))
        self.add(("write", file, 0, byte))

    def add(self, change):
        item = logs.item_of(change)
        self.count += 1
        named = change[1] if change[0] == "rekey" else None
        version = logs.Version(0, self.prev, sha256(item), self.table.digest(), [], [self.count, 0, 0], self.form, named)
        commit = logs.commit_of(version, self.key.sign(self.leaf, version.encode()))
        self.prev, self.leaf = sha256(commit), self.leaf + 1
        self.file.write(logs.log_bytes([(commit, item)]))

    def rekey(self, key):
        self.add(("rekey", key.public()))
        self.key, self.leaf = key, 0


def make(folder, name, width, files, writes):
    """Makes a log, and the public key of its author, unless they are there."""
    path = f"{folder}/{name}"
    if os.path.exists(f"{path}.pub"):
        return path
    with multiprocessing.Pool() as pool:
        entropy = name.encode().ljust(48, b".")
        key = lms.Key(entropy, 20, width, files + writes, lambda leaf, all_: pool.imap(leaf, all_, 64))
    with open(path, "wb") as file:
        maker = LongMaker(key, file)
        for n in range(files):
            maker.create(n + 2)
        for n in range(writes):
            maker.write(n * 7919 % files + 2, bytes([n % 256]))
    with open(f"{path}.pub", "wb") as file:
        file.write(key.public())
    return path


def make_rekeyed(folder, name, files, every):
    """Makes a log of creates in the third format with 4 bits a coefficient, with a rekey behind each so many, if any."""
    path = f"{folder}/{name}"
    if os.path.exists(f"{path}.pub"):
        return path
    count = files // every if every else 1
    with multiprocessing.Pool() as pool:
        keys = [lms.Key(b"%s %d" % (name.encode(), n) + bytes(48), 20, 4, files // count + 1, lambda leaf, all_: pool.imap(leaf, all_, 64))
                for n in range(count)]
    with open(path, "wb") as file:
        maker = LongMaker(keys[0], file, form=3)
        for n in range(files):
            maker.create(n + 2)
            if every and (n + 1) % every == 0 and n + 1 < files:
                maker.rekey(keys[(n + 1) // every])
    with open(f"{path}.pub", "wb") as file:
        file.write(keys[0].public())
    return path


def front(path, count):
    """The front of a log, of so many commits, beside it."""
    to = f"{path}.front"
    with open(path, "rb") as file, open(to, "wb") as out:
        for _ in range(2 * count):
            length = file.read(4)
            out.write(length + file.read(int.from_bytes(length, "big")))
    return to


def seconds_of(public, log, count):
    """Seconds by the clock, and megabytes at the peak."""
    took, highest, ran = peak.measured([PROGRAM, "audit", "--log", log, public], stdout=subprocess.PIPE)
    if ran.stdout != b"ok %d\n" % count:
        sys.exit(f"bench/audit.py: of {count} commits it says {ran.stdout}")
    return took, highest


def best_of(public, log, count):
    """The best of three runs."""
    return min(seconds_of(public, log, count) for _ in range(3))


def measure(public, log, count):
    """Seconds on one core, seconds on all, megabytes at the peak, and megabytes of the log."""
    cores = os.sched_getaffinity(0)
    os.sched_setaffinity(0, {max(cores)})
    try:
        one, _ = best_of(public, log, count)
    finally:
        os.sched_setaffinity(0, cores)
    every, highest = best_of(public, log, count)
    return one, every, highest, os.path.getsize(log) / 1e6


def show(name, count, one, every, highest, size):
    print(f"{name:34} {count:8} {size:6.0f} {one:8.2f} {every:8.2f} {count / one:8.0f} {count / every:8.0f} {highest:8.0f}", flush=True)


def main():
    with tempfile.TemporaryDirectory() as room:
        folder = sys.argv[1] if len(sys.argv) > 1 else room
        print(f"{'':34} {'commits':>8} {'MB':>6} {'one core':>8} {'all':>8} {'a second':>8} {'on all':>8} {'peak MB':>8}")
        for width in (4, 8):
            log = make(folder, f"writes_behind_creates_{width}", width, 10000, 1000)
            whole = measure(f"{log}.pub", log, 11000)
            creates = measure(f"{log}.pub", front(log, 10000), 10000)
            show(f"creates, width {width}", 10000, *creates)
            writes = [max(x - y, 0.001) for x, y in zip(whole, creates)]
            show(f"writes behind them, width {width}", 1000, writes[0], writes[1], whole[2], writes[3])
        log = make(folder, "writes_4", 4, 1000, 99000)
        show("creates and writes, width 4", 100000, *measure(f"{log}.pub", log, 100000))
        for name, every, count in (("creates, format 3, width 4", 0, 10000), ("and a rekey behind each 1,000", 1000, 10009)):
            log = make_rekeyed(folder, f"rekeys_{every}", 10000, every)
            show(name, count, *measure(f"{log}.pub", log, count))


if __name__ == "__main__":
    main()
