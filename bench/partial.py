#!/usr/bin/env python3
"""What a client holds that leaves its tree on the server, and what it loads, beside one that holds it and a partial clone of git. Run by
hand: `bench/partial.py [FOLDER]`; the log and a store that has it are kept in FOLDER for the next time, if one is given. --small and
--files N are for a trial; --people measures the client for people alone.

The log makes 100,000 files in one directory, some ten kilobytes each, and one file of 1 MiB: 1 GiB in all, as many files as have room in
one commit, and ends with a rekey to a key that the clients sign with (bench/audit.py says of what kind its own key is). A server with a
store has it. In one run it prints
- of a client that keeps its tree (--keep-tree): it takes the log (--log), makes a commit, reads the large file, twice, and makes another
  commit: seconds until each of them was answered, bytes that went over the link meanwhile, and the client's memory then, and at the
  highest;
- the same of one that leaves its tree on the server behind each of its commits;
- of a client for people that begins with the log, command by command (`get` of the large file, twice, `ls` of one file, a `put`):
  seconds, bytes and memory at the highest;
- of git: seconds of a clone without blobs of a repository of the same files, and of one file's blob, with the bytes that came, and memory
  at the highest.

SUNDR names another program to measure.
"""
import argparse
import contextlib
import multiprocessing
import os
import random
import shutil
import socket
import subprocess
import sys
import tempfile
import time

HERE = os.path.dirname(os.path.abspath(__file__))
TOP = os.path.dirname(HERE)
sys.path.insert(0, f"{TOP}/tests")
sys.path.insert(0, HERE)

import audit  # noqa: E402
import desk_model  # noqa: E402
import lms  # noqa: E402
import logs  # noqa: E402
import peak  # noqa: E402
import relay  # noqa: E402
import serving  # noqa: E402
import store  # noqa: E402
import storing  # noqa: E402

serving.WAIT = 3600  # seconds that an answer is waited for
MOST_ITEM = 70_000
MOST_WRITE = 65_536
LARGE = 1_048_576
SIZES = {"files": 100_000, "size": 10_726, "cache": 4096}
SMALL = {"files": 500, "size": 10_726, "cache": 256}


def contents_of(number, size):
    return random.Random(number).randbytes(size)


class FilesMaker(audit.LongMaker):
    """Makes a log of files with contents, in the fourth format, as many operations in a commit as have room."""

    def __init__(self, key, file):
        super().__init__(key, file, form=4)
        self.operations, self.size = [], 0

    def add_operation(self, operation):
        size = len(logs.spelled_operation(operation))
        if MOST_ITEM < self.size + size + 4 or len(self.operations) == 256:
            self.commit()
        self.operations.append(operation)
        self.size += size

    def commit(self):
        """Commits what was added. The tree is changed now, as a handle is of all the operations before it."""
        for word, *rest in self.operations:
            self.change(word, rest)
        operations, self.operations, self.size = self.operations, [], 0
        if operations:
            self.add(operations[0] if len(operations) == 1 else ("batch", operations))

    def change(self, word, rest):
        if word == "create":
            _, _, name, file, number = rest
            self.names.set(desk_model.name_bits(name), name, desk_model.file_bytes(file))
            self.put_inode(1, self.root_digest())
            self.made = (number, b"")
        else:
            _, off, data = rest
            self.made = (self.made[0], self.made[1][:off] + data)
        number, held = self.made
        self.put_inode(number, desk_model.inode_digest((desk_model.user_file(0, number), 1, held)))

    def put(self, number, data):
        name, file = b"f%d" % number, desk_model.user_file(0, number)
        self.add_operation(("create", "create", desk_model.group_file(0, 1), name, file, number))
        for off in range(0, len(data), MOST_WRITE):
            self.add_operation(("write", file, off, data[off:off + MOST_WRITE]))


def signing_key():
    return logs.key_of("partial", height=10, width=4)


def make(folder, sizes):
    """Makes the log, unless it is there."""
    path = f"{folder}/files_{sizes['files']}"
    if os.path.exists(f"{path}.pub"):
        return path
    commits = sizes["files"] // (MOST_ITEM // (sizes["size"] + 64)) + LARGE // MOST_WRITE + 16
    with multiprocessing.Pool() as pool:
        key = lms.Key(b"partial".ljust(48, b"."), 20, 4, commits, lambda leaf, all_: pool.imap(leaf, all_, 64))
    with open(path, "wb") as file:
        maker = FilesMaker(key, file)
        for number in range(2, sizes["files"] + 2):
            maker.put(number, contents_of(number, sizes["size"]))
        maker.put(sizes["files"] + 2, contents_of(0, LARGE))
        maker.commit()
        maker.rekey(signing_key())
    with open(f"{path}.count", "w", encoding="utf-8") as file:
        file.write(str(maker.count))
    with open(f"{path}.pub", "wb") as file:
        file.write(key.public())
    return path


# ---- clients

def memory_of(pid, name):
    with open(f"/proc/{pid}/status", encoding="utf-8") as file:
        return next(int(line.split()[1]) * 1024 for line in file if line.startswith(name))


def show(what, took, passed, process):
    sent, received = passed
    held, highest = (memory_of(process.pid, name) / 1e6 for name in ("VmRSS", "VmHWM"))
    print(f"{what:44} {took:9.3f} {sent:>14,} {received:>14,} {held:8.1f} {highest:8.1f}", flush=True)


def measure(name, options, roster, log, port, key, lines, wanted):
    """A client that takes the log and then does these lines, which commit or read the large file."""
    with relay.Relay(port, 0) as between:
        words = ["client", "--port", between.port, "--user", 0, "--key", key, "--log", log, *options, *roster.publics]
        started, before = time.monotonic(), tuple(between.bytes)
        with serving.Client(words) as client:
            for what, line in (("joins", b"ls /none"), *lines):
                said = client.say(line)
                now = tuple(between.bytes)
                show(f"{name} {what}", time.monotonic() - started, [y - x for x, y in zip(before, now)], client.process)
                started, before = time.monotonic(), now
                if line.startswith(b"cat") and said != [wanted.hex().encode()]:
                    sys.exit(f"bench/partial.py: {line} printed {[it[:80] for it in said]}")
                if line.startswith(b"mkdir") and not said[0].startswith(b"ok "):
                    sys.exit(f"bench/partial.py: {line} printed {said}")


def clients(room, folder, sizes, alone):
    log = make(folder, sizes)
    count = int(open(f"{log}.count", encoding="utf-8").read())
    print(f"{sizes['files']:,} files of {sizes['size']:,} bytes and one of {LARGE:,}: {count:,} commits, a log of {os.path.getsize(log):,} bytes")
    print(f"{'':44} {'seconds':>9} {'bytes sent':>14} {'received':>14} {'MB':>8} {'highest':>8}")
    roster, key = store.Roster(f"{log}.pub"), f"{room}/key"
    read = b"cat /f%d 0 %d" % (sizes["files"] + 2, LARGE)
    if not os.path.exists(f"{log}.store"):
        store.feed(roster, f"{log}.fed", log, count)
        os.rename(f"{log}.fed", f"{log}.store")
    shutil.copytree(f"{log}.store", f"{room}/store")
    with storing.Keeping(roster, f"{room}/store", cache=sizes["cache"]) as server:
        for number, (name, options) in enumerate(() if alone else (("one with --keep-tree", ["--keep-tree"]), ("a client", []))):
            with open(key, "wb") as file:
                file.write(signing_key().file(2 * number))
            lines = (("commits", b"mkdir /a%d" % number), ("reads", read), ("reads again", read), ("commits again", b"mkdir /b%d" % number))
            measure(name, options, roster, log, server.port, key, lines, contents_of(0, LARGE))
        people(room, log, server.port, sizes, count)


# ---- people

def joined_by_log(room, log, count):
    """The state folder of a client for people that has seen all commits of the log: made at a server that has none yet."""
    team, key, state = f"{room}/team", f"{room}/people.key", f"{room}/people"
    with open(f"{log}.pub", "rb") as file, open(team, "w", encoding="utf-8") as it:
        it.write(f"sundr team 1\nann {file.read().hex()}\n")
    with open(key, "wb") as file:
        file.write(signing_key().file(100))
    with storing.Keeping(store.Roster(f"{log}.pub"), f"{room}/empty") as server:
        run([audit.PROGRAM, "init", state, "--server", f"localhost:{server.port}", "--team", team, "--user", "ann", "--key", key])
    shutil.copyfile(key, f"{state}/.sundr/key-{signing_key().public()[8:24].hex()}")  # to which the log goes on
    shutil.copyfile(log, f"{state}/.sundr/log")
    with open(f"{state}/.sundr/times", "wb") as file:
        file.write(bytes(8 * count))
    return state


def people(room, log, port, sizes, count):
    """A client for people that joins by its log and reads the large file."""
    state, large = joined_by_log(room, log, count), f"f{sizes['files'] + 2}"
    with open(f"{room}/small", "wb") as file:
        file.write(b"small")
    with relay.Relay(port, 0) as between:
        run([audit.PROGRAM, "where", "--in", state, f"localhost:{between.port}"])
        for what, words in (
                ("get", ["get", "--in", state, f"/{large}", f"{room}/large"]),
                ("get, once more", ["get", "--in", state, "--over", f"/{large}", f"{room}/large"]),
                ("ls of a file", ["ls", "--in", state, "-l", f"/{large}"]),
                ("put", ["put", "--in", state, f"{room}/small", "/small"])):
            before = tuple(between.bytes)
            took, highest = run([audit.PROGRAM, *words])
            sent, received = [y - x for x, y in zip(before, between.bytes)]
            print(f"{'sundr ' + what:44} {took:9.3f} {sent:>14,} {received:>14,} {'':8} {highest:8.1f}", flush=True)
    with open(f"{room}/large", "rb") as file:
        if file.read() != contents_of(0, LARGE):
            sys.exit("bench/partial.py: what was got is something else")


# ---- git

def run(words, **how):
    """Seconds that a command takes, and the megabytes that it has at the highest."""
    took, highest, ran = peak.measured(words, stdout=subprocess.DEVNULL, **how)
    if ran.returncode:
        sys.exit(f"bench/partial.py: {words} has status {ran.returncode}")
    return took, highest


def git(room, sizes):
    tree, bare, clone = f"{room}/git/work", f"{room}/git/store.git", f"{room}/git/clone"
    os.makedirs(tree)
    for number in range(2, sizes["files"] + 2):
        with open(f"{tree}/f{number}", "wb") as file:
            file.write(contents_of(number, sizes["size"]))
    with open(f"{tree}/large", "wb") as file:
        file.write(contents_of(0, LARGE))
    config = ["-c", "user.name=ann", "-c", "user.email=ann@localhost", "-c", "init.defaultBranch=main"]
    for words in (["init", "-q"], ["add", "."], ["commit", "-q", "-m", "files"]):
        run(["git", *config, "-C", tree, *words])
    run(["git", "clone", "-q", "--bare", tree, bare])
    run(["git", "-C", bare, "config", "uploadpack.allowFilter", "true"])
    port = serving.free_port()
    words = ["git", "daemon", "--export-all", "--reuseaddr", "--listen=127.0.0.1", f"--port={port}", f"--base-path={room}/git"]
    daemon = subprocess.Popen(words, stderr=subprocess.DEVNULL, start_new_session=True)
    try:
        until = time.monotonic() + 20
        while time.monotonic() < until:
            with contextlib.suppress(OSError):
                socket.create_connection(("127.0.0.1", port), 1).close()
                break
        with relay.Relay(port, 0) as between:
            before = between.counted()
            for what, words in (
                    ("git clone --filter=blob:none", ["clone", "-q", "--filter=blob:none", "--no-checkout", f"git://127.0.0.1:{between.port}/store.git", clone]),
                    ("git cat-file of the large file", ["-C", clone, "cat-file", "blob", "main:large"])):
                took, highest = run(["git", *words])
                now = between.counted()
                sent, received = (y - x for x, y in zip(before, now))
                before = now
                print(f"{what:44} {took:9.3f} {sent:>14,} {received:>14,} {'':8} {highest:8.1f}", flush=True)
    finally:
        daemon.terminate()
        daemon.wait()


def main():
    parser = argparse.ArgumentParser()
    parser.add_argument("folder", nargs="?")
    parser.add_argument("--small", action="store_true")
    parser.add_argument("--files", type=int)
    parser.add_argument("--people", action="store_true")
    options = parser.parse_args()
    sizes = SMALL if options.small else SIZES | ({"files": options.files} if options.files else {})
    with tempfile.TemporaryDirectory() as room:
        clients(room, options.folder or room, sizes, options.people)
        if not options.people:
            git(room, sizes)


if __name__ == "__main__":
    main()
