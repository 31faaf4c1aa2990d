#!/usr/bin/env python3
"""What it takes to work with a server that is far away. Run by hand: `bench/distance.py [COMMITS] [--delay 10]`, with 840 commits by
default; some minutes, more with 10,000.

A relay (relay.py) holds each direction between clients and server back by so many milliseconds, 10 by default. All runs on this machine;
keys have 4 bits a coefficient and trees of height 10, and lie in memory (/dev/shm); the server keeps nothing on a disk. Through the relay
and without it, it prints
- operations a second of one client that has all its lines at once: creates, each a command of its own; and writes to files of another
  user, of which each command makes two operations (it takes the file over, and writes); and drops of the bodies that these left with
  the first user, all by one command (`tidy`);
- seconds until the first answer of a client at an empty server, most of which go into making its leaves; of one without a log, at a
  server with so many commits, all of which it takes; and of one with a log of them, whose items it hands to the server.
The commits are creates of files in one directory, of a thousand a user, made before without the relay.

SUNDR names another program to measure.
"""
import argparse
import os
import subprocess
import sys
import tempfile
import threading
import time

HERE = os.path.dirname(os.path.abspath(__file__))
TOP = os.path.dirname(HERE)
sys.path.insert(0, f"{TOP}/tests")

import relay  # noqa: E402
import serving  # noqa: E402

HEIGHT, WIDTH = 10, 4
CREATES, WRITES = 200, 200
COMMITS_A_USER = 1000  # of the 1,024 that a key signs
MOST_USERS = 64
serving.WAIT = 3600  # seconds that an answer is waited for at most


class Keys:
    """The keys of some users in a folder."""

    def __init__(self, at, users):
        self.files = [f"{at}/{user}" for user in range(users)]
        for file in self.files:
            with open(f"{at}/entropy", "wb") as entropy:
                entropy.write(os.urandom(48))
            words = ["--entropy", f"{at}/entropy", "--out", file, "--height", str(HEIGHT), "--width", str(WIDTH)]
            subprocess.run([*serving.program, "keygen", *words], check=True, stdout=subprocess.DEVNULL)
        self.publics = [f"{file}.pub" for file in self.files]

    def reset(self):
        """Lets each key sign from its first leaf on again, as the next book is a new one. (No key that is used for anything else is
        ever to be set back.)"""
        for file in self.files:
            with open(file, "r+b") as key:
                key.seek(60)
                key.write(bytes(4))

    def client(self, port, user, *more):
        numbers = ("--port", port, "--user", user, "--key", self.files[user], "--tries", 100000)
        return serving.Client(["client", *numbers, *more, *self.publics])


def expect(printed, wanted):
    if printed != wanted:
        sys.exit(f"bench/distance.py: it printed {printed}, and not {wanted}")


def server_at(keys):
    keys.reset()
    return serving.Server(keys, workers=4, capacity=100000)


def carry_out(client, lines, first, each):
    """Seconds by the clock for these lines, which come all at once; of each so many operations are made, from this number on. All that
    is at the server was taken before."""
    client.say(b"ls /")
    started = time.monotonic()
    threading.Thread(target=client.write, args=(b"".join(line + b"\n" for line in lines),)).start()
    for number in range(first, first + each * len(lines)):
        expect(client.printed.next(), b"ok %d" % number)
    return time.monotonic() - started


def has_tidy():
    """Whether the program has the command; earlier ones haven't."""
    return b"tidy" in subprocess.run([*serving.program, "client", "--help"], stdout=subprocess.PIPE, check=True).stdout


def rates(keys, far):
    """Operations a second of one client: creates, writes to files of another user, and drops in one command, if the program has such a
    command. `far` gives a port at a distance from a port."""
    creates = [b"create /f%d" % n for n in range(CREATES)]
    writes = [b"write /f%d 0 61" % n for n in range(WRITES)]
    with server_at(keys) as server:
        with keys.client(far(server.port), 0) as client:
            made = carry_out(client, creates, 1, 1)
        with keys.client(far(server.port), 1) as client:
            written = carry_out(client, writes, CREATES + 1, 2)
        dropped = float("nan")
        if has_tidy():
            with keys.client(far(server.port), 0) as client:
                dropped = carry_out(client, [b"tidy"], CREATES + 2 * WRITES + 1, WRITES)
    return CREATES / made, 2 * WRITES / written, WRITES / dropped


def first_answer(start, port, *more, wanted=b"61"):
    """Seconds until a client answers its first line, from when it is started on."""
    started = time.monotonic()
    with start(port, *more) as client:
        client.write(b"cat /first 0 1\n")
        printed = client.printed.next()
        if not printed.startswith(wanted):
            sys.exit(f"bench/distance.py: it printed {printed}")
        return time.monotonic() - started


def make_commits(keys, port, count):
    """Makes so many commits, shared among all users but the last."""
    users = len(keys.files) - 1
    for user in range(users):
        made, then = count * user // users, count * (user + 1) // users
        lines = [b"create /first", b"write /first 0 61"] if user == 0 else []
        # a further user's first create takes the directory over, in a commit of its own
        files = then - made - (2 if user == 0 else 1)
        lines += [b"create /u%df%d" % (user, n) for n in range(files)]
        with keys.client(port, user) as client:
            threading.Thread(target=client.write, args=(b"".join(line + b"\n" for line in lines),)).start()
            for number in range(made + 1, then + 1):
                expect(client.printed.next(), b"ok %d" % number)
            client.close_input()


def starts(keys, count, log, ways):
    """Of each way to the server, the seconds until a client's first answer: where there are no commits, where it takes so many, and
    where it has a log of them."""
    last = len(keys.files) - 1

    def start(port, *more):
        return keys.client(port, last, *more)

    with server_at(keys) as server:
        empty = [first_answer(start, way(server.port), wanted=b"no ") for way in ways]
        make_commits(keys, server.port, count)
        with start(server.port) as client:
            client.say(b"save " + log.encode())
        joins = [first_answer(start, way(server.port)) for way in ways]
        logs = [first_answer(start, way(server.port), "--log", log) for way in ways]
    return list(zip(empty, joins, logs))


def main():
    parser = argparse.ArgumentParser(description=__doc__.splitlines()[0])
    parser.add_argument("commits", type=int, nargs="?", default=840)
    parser.add_argument("--delay", type=float, default=10, help="milliseconds that each direction is held back by")
    words = parser.parse_args()
    users = -(-words.commits // COMMITS_A_USER)
    if not 2 * users < words.commits or users + 1 > MOST_USERS:
        sys.exit(f"bench/distance.py: {words.commits} commits are too few, or more than {MOST_USERS - 1} users can make")

    def far(port):
        return relay.Relay(port, words.delay / 1000).port

    def near(port):
        return port

    with tempfile.TemporaryDirectory(dir="/dev/shm") as room:
        keys = Keys(room, max(users + 1, 2))
        seconds = starts(keys, words.commits, f"{room}/log", (far, near))
        heads = ("creates/s", "takes, writes/s", "drops of one/s", "start s", f"joining {words.commits} s", f"log of {words.commits} s")
        print(f"{'':26} " + " ".join(f"{it:>16}" for it in heads))
        for name, way, row in zip((f"{words.delay:g} ms each way", "without the relay"), (far, near), seconds):
            cells = [*rates(keys, way), *row]
            print(f"{name:26} " + " ".join(f"{it:16.2f}" for it in cells), flush=True)


if __name__ == "__main__":
    main()
