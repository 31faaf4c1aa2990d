#!/usr/bin/env python3
"""Several programs beside one another in one run, and git and etcd beside them. Run by hand on an idle machine, some minutes:

    bench/compare.py [--operations 400] [--delay 10] [--commits 200] [--large 10000] [--without-others] NAME=PROGRAM..

Each PROGRAM is a built `sundr`, or a script that starts one; of none the one of this tree is measured. All are measured in turn, one thing
after the other, so that what the machine does meanwhile is shared. It prints

- published operations a second of one client, and of four at a time, which make files of no bytes, each in a directory of its own; of keys
  with 4 and with 8 bits a coefficient; at a server in memory, at one with a store on the disk, and there with the keys on the disk too (in
  the other two they are in memory, /dev/shm). Beside them the milliseconds of processor that an operation takes of its client and of the
  server, by the system's clock of 10 ms;
- through a relay that holds each direction back by so many milliseconds, and without it: operations a second of one client (creates, each a
  command; writes, each of which takes a file over before), and seconds until the first answer of a client at an empty server, of one that
  joins so many commits, and of one with a log of them (distance.py). Of the last program also with many more commits, if it is asked for;
- git: a commit of a new file, signed by an SSH key, and its push to another folder on the same disk, all that is written being synced; of
  one writer, and of four with a branch each;
- etcd: three members over loopback with their files on the same disk; a key of as many bytes as a commit and its item, put over a
  connection that stays, by one writer and by four;
- bare appends of as many bytes, each synced.
"""
import argparse
import base64
import contextlib
import http.client
import json
import os
import shutil
import subprocess
import sys
import tempfile
import threading
import time

HERE = os.path.dirname(os.path.abspath(__file__))
TOP = os.path.dirname(HERE)
sys.path.insert(0, f"{TOP}/tests")
sys.path.insert(0, HERE)

import distance  # noqa: E402
import relay  # noqa: E402
import serve  # noqa: E402
import serving  # noqa: E402
import store  # noqa: E402
import storing  # noqa: E402

USERS = 5  # one works alone, and four at a time
LEAVES = 1024
GIT_COMMITS, ETCD_PUTS = 60, 400


def measure_with(program):
    """From now on this program is started."""
    serving.program = [program]


# ---- operations over loopback

class Keys:
    """Users' keys in memory, and copies on the disk."""

    def __init__(self, memory, disk, width):
        self.users = {"memory": store.Users(memory, USERS, width)}
        on_disk = shutil.copytree(memory, disk)
        self.users["disk"] = store.Users.of(on_disk, USERS)

    def fresh(self, where):
        """The users, whose keys sign from their first leaf on, for a new book."""
        for file in self.users[where].files:
            serve.reset(file)
        return self.users[where]


def measured(server, users, who, operations):
    """Operations a second of these users at once, and milliseconds of processor for each, of the clients and of the server."""
    clients = [users.client(server.port, user) for user in who]
    for client, user in zip(clients, who):
        store.say(client, b"mkdir /%d" % user)

    def processors():
        return sum(map(serve.processor, clients)), serve.processor(server)

    done, before, started = [], processors(), time.monotonic()
    threads = [threading.Thread(target=store.write, args=(client, user, operations, done)) for client, user in zip(clients, who)]
    for thread in threads:
        thread.start()
    for thread in threads:
        thread.join()
    took, after = time.monotonic() - started, processors()
    for client in clients:
        client.end()
    return sum(done) / took, *(1000 * (x - y) / sum(done) for x, y in zip(after, before))


PLACES = (("in memory", "memory", False), ("store on the disk", "memory", True), ("store and keys on it", "disk", True))


def over_loopback(programs, at, operations):
    heads = ("one, a second", "client ms", "server ms", "four, a second", "client ms", "server ms")
    print(f"{'operations':50} " + " ".join(f"{it:>14}" for it in heads), flush=True)
    stores = iter(f"{at}/store {n}" for n in range(1000))
    for width in (4, 8):
        with tempfile.TemporaryDirectory(dir="/dev/shm") as memory:
            measure_with(programs[0][1])
            keys = Keys(memory, f"{at}/keys {width}", width)
            for place, where, is_kept in PLACES:
                for name, program in programs:
                    measure_with(program)
                    cells = []
                    for who, count in (((0,), operations), ((1, 2, 3, 4), operations // 2)):
                        users = keys.fresh(where)
                        with storing.Keeping(users, next(stores)) if is_kept else serving.Server(users, capacity=100000) as server:
                            cells += measured(server, users, who, count)
                    shown = " ".join(f"{it:14.0f}" if n % 3 == 0 else f"{it:14.2f}" for n, it in enumerate(cells))
                    print(f"{f'{name}: width {width}, {place}':50} {shown}", flush=True)


# ---- at a distance

def at_a_distance(programs, seconds, commits, large):
    def far(port):
        return relay.Relay(port, seconds).port

    def near(port):
        return port

    heads = ("creates/s", "takes, writes/s", "drops of one/s", "start s", "joining s", "with a log s")
    print(f"\n{f'{1000 * seconds:g} ms each way':50} " + " ".join(f"{it:>15}" for it in heads), flush=True)
    for count, some in ((commits, programs), (large, programs[-1:] if large else ())):
        for name, program in some:
            measure_with(program)
            with tempfile.TemporaryDirectory(dir="/dev/shm") as room:
                keys = distance.Keys(room, max(-(-count // distance.COMMITS_A_USER) + 1, 2))
                rows = distance.starts(keys, count, f"{room}/log", (far, near))
                for way_name, way, row in zip(("far", "near"), (far, near), rows):
                    cells = " ".join(f"{it:15.2f}" for it in (*distance.rates(keys, way), *row))
                    print(f"{f'{name}: {count} commits, {way_name}':50} {cells}", flush=True)


# ---- git

class Git:
    """A folder that is pushed to, and writers with a copy and a branch each, whose commits are signed."""

    def __init__(self, at, writers):
        self.at = at
        subprocess.run(["git", "init", "-q", "--bare", f"{at}/bare"], check=True)
        for setting in ("core.fsync=all", "gc.auto=0", "receive.autogc=false"):
            subprocess.run(["git", "-C", f"{at}/bare", "config", *setting.split("=")], check=True)
        subprocess.run(["ssh-keygen", "-q", "-t", "ed25519", "-N", "", "-f", f"{at}/key"], check=True)
        for writer in range(writers):
            subprocess.run(["git", "init", "-q", f"{at}/{writer}"], check=True)

    def write(self, writer, count):
        folder, settings = f"{self.at}/{writer}", (
            "core.fsync=all", "gc.auto=0", "user.name=a", "user.email=a", "gpg.format=ssh", f"user.signingkey={self.at}/key.pub")
        git = ["git", "-C", folder, *(word for it in settings for word in ("-c", it))]
        for n in range(count):
            with open(f"{folder}/{n}", "w", encoding="utf-8"):
                pass
            for words in (["add", str(n)], ["commit", "-q", "-S", "-m", str(n)], ["push", "-q", f"{self.at}/bare", f"HEAD:refs/heads/{writer}"]):
                subprocess.run([*git, *words], check=True)


# ---- etcd

class Etcd:
    """Three members over loopback."""

    def __init__(self, at):
        names = [f"member{n}" for n in range(3)]
        self.ports = [serving.free_port() for _ in names]
        peers = [f"http://127.0.0.1:{serving.free_port()}" for _ in names]
        cluster, self.members = ",".join(f"{name}={peer}" for name, peer in zip(names, peers)), []
        for name, port, peer in zip(names, self.ports, peers):
            here = f"http://127.0.0.1:{port}"
            self.members.append(subprocess.Popen(
                ["etcd", "--name", name, "--data-dir", f"{at}/{name}", "--listen-client-urls", here, "--advertise-client-urls", here,
                 "--listen-peer-urls", peer, "--initial-advertise-peer-urls", peer, "--initial-cluster", cluster,
                 "--initial-cluster-state", "new", "--logger", "zap", "--log-outputs", f"{at}/{name}.log"],
                stdout=subprocess.DEVNULL, stderr=subprocess.DEVNULL))

    def __enter__(self):
        until = time.monotonic() + 60
        while True:
            with contextlib.suppress(OSError, http.client.HTTPException):
                if self.put(self.connection(), b"first", b"") == 200:
                    return self
            if time.monotonic() > until:
                self.__exit__()
                sys.exit("bench/compare.py: etcd doesn't answer")
            time.sleep(0.2)

    def __exit__(self, *_):
        for member in self.members:
            member.kill()
            member.wait()

    def connection(self):
        return http.client.HTTPConnection("127.0.0.1", self.ports[0], timeout=30)

    @staticmethod
    def put(connection, key, value):
        """The status of its answer."""
        body = json.dumps({"key": base64.b64encode(key).decode(), "value": base64.b64encode(value).decode()})
        connection.request("POST", "/v3/kv/put", body)
        answer = connection.getresponse()
        answer.read()
        return answer.status

    def write(self, writer, count):
        connection, value = self.connection(), os.urandom(store.RECORD)
        for n in range(count):
            status = self.put(connection, b"%d/%d" % (writer, n), value)
            if status != 200:
                sys.exit(f"bench/compare.py: etcd answers {status}")


def rate_of(write, writers, count):
    """Operations a second of so many writers, each with so many of them."""
    threads = [threading.Thread(target=write, args=(writer, count)) for writer in range(writers)]
    started = time.monotonic()
    for thread in threads:
        thread.start()
    for thread in threads:
        thread.join()
    return writers * count / (time.monotonic() - started)


def others(at):
    print(f"\n{'beside them':50} {'one, a second':>14} {'four, a second':>14}", flush=True)
    rates = []
    for writers, count in ((1, GIT_COMMITS), (4, GIT_COMMITS // 2)):
        os.mkdir(f"{at}/git {writers}")
        rates.append(rate_of(Git(f"{at}/git {writers}", writers).write, writers, count))
    print(f"{'git: signed commits, each pushed, synced':50} {rates[0]:14.0f} {rates[1]:14.0f}", flush=True)
    rates = []
    for writers, count in ((1, ETCD_PUTS), (4, ETCD_PUTS // 2)):
        os.mkdir(f"{at}/etcd {writers}")
        with Etcd(f"{at}/etcd {writers}") as etcd:
            rates.append(rate_of(etcd.write, writers, count))
    print(f"{f'etcd: puts of {store.RECORD} bytes, three members':50} {rates[0]:14.0f} {rates[1]:14.0f}", flush=True)
    print(f"{f'bare appends of {store.RECORD} bytes, synced':50} {store.append_rate(at):14.0f}", flush=True)


def named(word):
    name, is_, program = word.partition("=")
    if not (is_ and os.access(program, os.X_OK)):
        raise argparse.ArgumentTypeError(f"{word} is no NAME=PROGRAM")
    return name, os.path.abspath(program)


def main():
    parser = argparse.ArgumentParser(description=__doc__.splitlines()[0])
    parser.add_argument("programs", type=named, nargs="*", metavar="NAME=PROGRAM")
    parser.add_argument("--operations", type=int, default=400, help="of one client; of four, each makes half as many")
    parser.add_argument("--delay", type=float, default=10, help="milliseconds that the relay holds each direction back by")
    parser.add_argument("--commits", type=int, default=200, help="that a client joins, or has in its log")
    parser.add_argument("--large", type=int, help="so many of them for the last program too")
    parser.add_argument("--without-others", action="store_true", help="leave git and etcd out")
    words = parser.parse_args()
    if not 4 <= words.operations < LEAVES - 1:
        sys.exit(f"bench/compare.py: a key signs {LEAVES} times")
    programs = words.programs or [("this tree", serving.PROGRAM[0])]
    started = time.monotonic()
    with tempfile.TemporaryDirectory() as at:
        over_loopback(programs, at, words.operations)
        at_a_distance(programs, words.delay / 1000, words.commits, words.large)
        if not words.without_others:
            others(at)
    print(f"\n{time.monotonic() - started:.0f} s in all")


if __name__ == "__main__":
    main()
