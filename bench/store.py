#!/usr/bin/env python3
"""What it costs to keep what is stored. Run by hand: `bench/store.py [FOLDER]`, some ten minutes. Stores lie in TMPDIR's folder; the
log of 100,000 commits that is fed to a server is kept in FOLDER for the next time, if one is given.

Keys have 4 bits a coefficient and stand in memory (/dev/shm), so that what is measured is the server's disk and not the keys'. In one
run it prints
- operations a second of one client and of four at a time, each making files in a directory of its own: at a server in memory, and at
  one with a store;
- commits a second that `git` makes of such files on the same disk, with what it writes synced, and bare appends of as many bytes, each
  synced, which no store with one sync a record can pass;
- bytes on the disk for each operation, once the server has ended;
- seconds that a server takes to start from a store of 10,000 and of 100,000 records, in memory, and how much of it that server has then. Their author's
  key has a tree of height 20 (bench/audit.py makes it), since the keys of `sundr keygen` sign 1,024 times.

SUNDR names another program to measure.
"""
import os
import subprocess
import sys
import tempfile
import threading
import time

HERE = os.path.dirname(os.path.abspath(__file__))
TOP = os.path.dirname(HERE)
sys.path.insert(0, f"{TOP}/tests")
sys.path.insert(0, HERE)

import audit  # noqa: E402
import serving  # noqa: E402
import storing  # noqa: E402
import wire  # noqa: E402

OPERATIONS = 200  # of each writer
APPENDS, COMMITS = 500, 100
RECORD = 2700  # bytes of a commit and its item


class Users:
    """The keys of so many users, in a folder."""

    def __init__(self, at, count, width=4):
        self.name_files(at, count)
        for file in self.files:
            with open(f"{at}/entropy", "wb") as entropy:
                entropy.write(os.urandom(48))
            words = ["--entropy", f"{at}/entropy", "--out", file, "--height", "10", "--width", str(width)]
            subprocess.run([*serving.program, "keygen", *words], check=True, stdout=subprocess.DEVNULL)

    def name_files(self, at, count):
        self.at, self.files = at, [f"{at}/{user}" for user in range(count)]
        self.publics = [f"{file}.pub" for file in self.files]

    @classmethod
    def of(cls, at, count):
        """Those whose keys are in a folder already."""
        users = cls.__new__(cls)
        users.name_files(at, count)
        return users

    def client(self, port, user):
        numbers = ("--port", port, "--user", user, "--key", self.files[user], "--tries", 1000000)
        return serving.Client(["client", *numbers, *self.publics])


def say(client, line):
    printed = client.say(line)
    if not all(it.startswith(b"ok ") for it in printed):
        sys.exit(f"bench/store.py: {line} printed {printed}")
    return len(printed)


def write(client, user, operations, done):
    """Makes files in the user's own directory, as one script."""
    lines = b"".join(b"create /%d/%d\n" % (user, n) for n in range(operations))
    threading.Thread(target=client.write, args=(lines,)).start()
    for _ in range(operations):
        printed = client.printed.next()
        if not printed or not printed.startswith(b"ok "):
            sys.exit(f"bench/store.py: it printed {printed}")
    done.append(operations)


def rate(server, users, who, operations=OPERATIONS):
    """Operations a second of these users at once."""
    clients = [users.client(server.port, user) for user in who]
    for client, user in zip(clients, who):
        say(client, b"mkdir /%d" % user)
    done, started = [], time.monotonic()
    threads = [threading.Thread(target=write, args=(client, user, operations, done)) for client, user in zip(clients, who)]
    for thread in threads:
        thread.start()
    for thread in threads:
        thread.join()
    took = time.monotonic() - started
    for client in clients:
        client.end()
    return sum(done) / took


def rates(make):
    """Of one writer, and of four."""
    for who in ((0,), (1, 2, 3, 4)):
        with tempfile.TemporaryDirectory(dir="/dev/shm") as keys:
            users = Users(keys, 5)
            with make(users) as server:
                yield rate(server, users, who)


def git_rate(at):
    """Commits a second, of a new file of 100 bytes each, with all that git writes synced."""
    git = ["git", "-C", at, "-c", "core.fsync=all", "-c", "user.name=a", "-c", "user.email=a", "-c", "gc.auto=0"]
    subprocess.run([*git, "init", "-q"], check=True)
    started = time.monotonic()
    for n in range(COMMITS):
        with open(f"{at}/{n}", "wb") as file:
            file.write(b"%09d" % n * 11)
        subprocess.run([*git, "add", str(n)], check=True)
        subprocess.run([*git, "commit", "-q", "-m", str(n)], check=True)
    return COMMITS / (time.monotonic() - started)


def append_rate(at):
    """Bare appends a second, each synced."""
    with open(f"{at}/appends", "wb", buffering=0) as file:
        started = time.monotonic()
        for _ in range(APPENDS):
            file.write(bytes(RECORD))
            os.fdatasync(file.fileno())
        return APPENDS / (time.monotonic() - started)


class Roster:
    """The public keys of users, as a server is given them."""

    def __init__(self, *publics):
        self.publics = publics


def feed(roster, store, log, count):
    """Has a server store so many commits of a log."""
    with storing.Keeping(roster, store) as server, open(log, "rb") as file:
        link = wire.connect(server.port)
        for _ in range(count):
            commit, item = part(file), part(file)
            for request, name in ((wire.GRANT, "granted"), (wire.put(item), "put_done"), (wire.commit(commit), "stored")):
                answered = wire.reply_in(link.ask(request))
                if answered[0] != name:
                    sys.exit(f"bench/store.py: the server answers {answered}")
        link.close()


def part(file):
    """A part of a log: its length, and so many bytes."""
    return file.read(int.from_bytes(file.read(4), "big"))


def start(roster, store):
    """Seconds until a server listens, and megabytes that it has then."""
    started = time.monotonic()
    with storing.Keeping(roster, store, sessions=1) as server:
        took = time.monotonic() - started
        return took, serving.memory(server, "VmHWM") / 2**20


def main():
    with tempfile.TemporaryDirectory() as at:
        os.makedirs(f"{at}/git")
        stores = iter(f"{at}/store {n}" for n in range(100))
        rows = {
            "a server in memory": rates(lambda users: serving.Server(users, capacity=100000)),
            "a server with a store": rates(lambda users: storing.Keeping(users, next(stores))),
        }
        for name, row in rows.items():
            one, four = row
            print(f"{name:24} {one:8.0f} operations a second by one client, {four:8.0f} by four", flush=True)
        print(f"{'git':24} {git_rate(at + '/git'):8.0f} commits a second")
        print(f"{'bare synced appends':24} {append_rate(at):8.0f} a second", flush=True)
        log = audit.make(sys.argv[1] if len(sys.argv) > 1 else at, "writes_4", 4, 1000, 99000)
        for count in (10000, 100000):
            with tempfile.TemporaryDirectory(dir="/dev/shm") as store:
                roster = Roster(f"{log}.pub")
                feed(roster, store, log, count)
                size = sum(os.path.getsize(f"{store}/{name}") for name in os.listdir(store))
                took, peak = start(roster, store)
                print(f"{count:6} records: {size / count:6.0f} bytes each; a server starts in {took:6.2f} s, and has {peak:5.0f} MB", flush=True)


if __name__ == "__main__":
    main()
