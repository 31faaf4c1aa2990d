#!/usr/bin/env python3
"""What it costs people to put files to a server and to get them, beside other programs that people use for it. Run by hand:
`bench/put.py [FOLDER]`; the log of 100,000 commits is kept in FOLDER for the next time, if one is given. --small is for a trial.

Files, state folders, keys and stores, those of the other programs too, lie in TMPDIR's folder, and so on one disk. All servers run on
this machine, behind a relay (relay.py) that holds nothing back and counts the bytes each way, without the headers of packets. Each thing
is measured once, by the clock; a tiny folder is put and got before. What was got is compared with what was put. In one run it prints
- puts and gets of 1,000 files of 20 kB in 10 folders, and of one file of the largest size, all of random bytes: of ann, who puts, and
  bob, who gets, at a server with a store, with the number of commits; of git, which adds, commits with a signature by an ssh key, and
  pushes to `git daemon`, with both repositories synced, and clones; of rsync to and from its daemon, which syncs nothing; and of restic
  with a repository in a folder, where no bytes are sent, and what it grew by is told. Each of the two contents has a new repository.
  What isn't installed is told and left out;
- seconds of `sundr ls`, the best of five, with a log of 10,000 and of 100,000 commits in the state folder, and of the `sundr init` that
  took them. Their author's key has a tree of height 20 (bench/audit.py makes it), since keys of `sundr keygen` sign 1,024 times; another
  key stands in the state folder for it, as none of the two commands signs. These servers keep their stores in memory (/dev/shm);
- the peak of memory (VmHWM, each 2 ms) of a put of 100 files of 1 MB into an empty store, of `sundr ls` after it, and of a get by another; and of `sundr ls`
  where one file of 1 MB was put 100 times with other bytes.

SUNDR names another program to measure.
"""
import argparse
import contextlib
import json
import os
import shutil
import signal
import socket
import subprocess
import sys
import tempfile
import time

HERE = os.path.dirname(os.path.abspath(__file__))
TOP = os.path.dirname(HERE)
sys.path.insert(0, f"{TOP}/tests")
sys.path.insert(0, HERE)

import audit  # noqa: E402
import relay  # noqa: E402
import serving  # noqa: E402
import storing  # noqa: E402
import store  # noqa: E402

WAIT = 3600  # seconds that a command may take at most
STARTS = 5  # of which the best counts
serving.WAIT = 600  # seconds that a server may take to listen
SIZES = {"files": 1000, "file": 20_000, "large": 16_777_216, "logs": (10_000, 100_000), "memory": 100, "log": ("writes_4", 1000, 99_000)}
SMALL = {"files": 20, "file": 2_000, "large": 300_000, "logs": (100, 1000), "memory": 2, "log": ("writes_small", 10, 990)}
MEGABYTE = 1_000_000


# ---- commands, servers and files

def fail(why):
    sys.exit(f"bench/{os.path.basename(sys.argv[0])}: {why}")


def run(words, **how):
    """What a command prints. A command that fails, or takes too long, ends the whole run."""
    words = [str(word) for word in words]
    try:
        ended = subprocess.run(words, stdin=subprocess.DEVNULL, capture_output=True, timeout=WAIT, check=False, **how)
    except subprocess.TimeoutExpired:
        fail(f"{' '.join(words)} takes more than {WAIT} seconds")
    except OSError as why:
        fail(f"{words[0]}: {why}")
    if ended.returncode != 0:
        fail(f"{' '.join(words)} has status {ended.returncode}, and tells {ended.stderr[-1000:].decode(errors='replace')}")
    return ended.stdout.decode(errors="replace")


def sundr(*words):
    return run([*serving.program, *words])


@contextlib.contextmanager
def daemon(port, words, log, **how):
    """A server that listens at a port, in a group of its own with what it starts. The group is ended at last."""
    with open(log, "wb") as told:
        process = subprocess.Popen(words, stdin=subprocess.DEVNULL, stdout=told, stderr=told, start_new_session=True, **how)
    try:
        until = time.monotonic() + 20
        while not listens(port):
            if process.poll() is not None or until < time.monotonic():
                with open(log, encoding="utf-8", errors="replace") as told:
                    fail(f"{' '.join(words)} doesn't listen, and tells {told.read()[-1000:]}")
            time.sleep(0.05)
        yield
    finally:
        for end in (signal.SIGTERM, signal.SIGKILL):
            with contextlib.suppress(ProcessLookupError, subprocess.TimeoutExpired):
                os.killpg(process.pid, end)
                process.wait(10)


def listens(port):
    try:
        socket.create_connection(("127.0.0.1", port), 5).close()
        return True
    except OSError:
        return False


class Contents:
    """A folder of files of so many random bytes, in 10 folders, or one such file."""

    def __init__(self, at, name, size, files=None):
        self.at, self.name, self.path, self.is_folder = at, name, f"{at}/{name}", files is not None
        self.told = f"{files:,} files of {size:,} bytes" if self.is_folder else f"a file of {size:,} bytes"
        for path in [f"{self.path}/{n % 10}/{n}" for n in range(files)] if self.is_folder else [self.path]:
            os.makedirs(os.path.dirname(path), exist_ok=True)
            with open(path, "wb") as file:
                file.write(os.urandom(size))

    def compare(self, at):
        """Ends the run where what was got into this folder isn't the same."""
        if files_at(self.path) != files_at(f"{at}/{self.name}"):
            fail(f"{at}/{self.name} isn't what was put")


def files_at(path):
    """The bytes of a file, or of the files in a folder."""
    paths = [path] if os.path.isfile(path) else [f"{folder}/{name}" for folder, _, names in os.walk(path) for name in names]
    return {os.path.relpath(it, path): serving.read(it) for it in paths}


def timed(commands, counting=None, **how):
    """Seconds that these commands take one after the other, and the bytes that they send and receive by a relay, if there is one."""
    before = counting.counted() if counting else (0, 0)
    started = time.monotonic()
    for words in commands:
        run(words, **how)
    took = time.monotonic() - started
    after = counting.counted() if counting else (0, 0)
    return took, [y - x for x, y in zip(before, after)] if counting else None


# ---- puts and gets: each of these yields what was done, its seconds, the bytes each way, and what else there is to tell

class Sundr:
    """Ann and bob, with keys and state folders, at a server with a store."""

    needs, version = (), []

    def __init__(self, room, closing, seconds=0):
        """At a server that is so many seconds away each way."""
        self.room, self.publics, lines = room, [], ["sundr team 1\n"]
        for name in ("ann", "bob"):
            printed = sundr("keygen", "--out", f"{room}/{name}.key", "--height", 10, "--width", 4)
            self.publics.append(f"{room}/{name}.key.pub")
            lines.append(f"{name} {printed.strip()}\n")
        server = closing.enter_context(storing.Keeping(self, f"{room}/store"))
        self.relay = closing.enter_context(relay.Relay(server.port, seconds))
        with open(f"{room}/team", "w", encoding="utf-8") as file:
            file.writelines(lines)
        for name in ("ann", "bob"):
            init(f"{room}/{name}", self.relay.port, f"{room}/team", name, f"{room}/{name}.key")

    def head(self):
        return json.loads(sundr("status", "--in", f"{self.room}/ann", "--json"))["head"]

    def measure(self, contents, got):
        deep, before = ["-r"] if contents.is_folder else [], self.head()
        put = ["put", "--in", f"{self.room}/ann", *deep, contents.path, f"/{contents.name}"]
        took, passed = timed([[*serving.program, *put]], self.relay)
        commits = self.head() - before
        yield " ".join(["put", *deep]), took, passed, f"{commits} commits, {commits / took:.1f} a second"
        get = ["get", "--in", f"{self.room}/bob", *deep, f"/{contents.name}", f"{got}/{contents.name}"]
        yield " ".join(["get", *deep]), *timed([[*serving.program, *get]], self.relay), ""


def init(at, port, team, user, key):
    sundr("init", at, "--server", f"127.0.0.1:{port}", "--team", team, "--user", user, "--key", key)


class Git:
    """A work tree and a bare repository for each contents, which a daemon serves; all that git writes is synced."""

    needs, version = ("git", "ssh-keygen"), ["git", "--version"]
    settings = {
        "user.name": "ann", "user.email": "ann@localhost", "gpg.format": "ssh", "commit.gpgsign": "true", "core.fsync": "all",
        "core.fsyncMethod": "fsync", "gc.auto": "0", "maintenance.auto": "false", "receive.autogc": "false", "init.defaultBranch": "main",
    }

    def __init__(self, room, closing):
        self.room, port = room, serving.free_port()
        with open(f"{room}/config", "w", encoding="utf-8") as file:
            for name, value in {**self.settings, "user.signingkey": f"{room}/key"}.items():
                section, key = name.split(".")
                file.write(f"[{section}]\n{key} = {value}\n")
        self.how = {"env": {**os.environ, "GIT_CONFIG_GLOBAL": f"{room}/config", "GIT_CONFIG_NOSYSTEM": "1", "GIT_TERMINAL_PROMPT": "0"}}
        run(["ssh-keygen", "-q", "-t", "ed25519", "-N", "", "-f", f"{room}/key"])
        words = ["--enable=receive-pack", "--export-all", "--reuseaddr", "--listen=127.0.0.1", f"--port={port}", f"--base-path={room}"]
        closing.enter_context(daemon(port, ["git", "daemon", *words], f"{room}/daemon", **self.how))
        self.relay = closing.enter_context(relay.Relay(port, 0))

    def measure(self, contents, got):
        bare, work = f"{contents.name}.git", f"{self.room}/work {contents.name}"
        run(["git", "init", "-q", "--bare", f"{self.room}/{bare}"], **self.how)
        run(["git", "init", "-q", work], **self.how)
        (shutil.copytree if contents.is_folder else shutil.copy)(contents.path, f"{work}/{contents.name}")
        url, git = f"git://127.0.0.1:{self.relay.port}/{bare}", ["git", "-C", work]
        commands = [[*git, "add", "."], [*git, "commit", "-q", "-m", "put"], [*git, "push", "-q", url, "main"]]
        yield "add, commit, push", *timed(commands, self.relay, **self.how), ""
        yield "clone", *timed([["git", "clone", "-q", url, got]], self.relay, **self.how), ""


class Rsync:
    """A daemon with a folder, which syncs nothing."""

    needs, version = ("rsync",), ["rsync", "--version"]
    config = "use chroot = no\n{1}[store]\npath = {0}/store\nread only = no\n"

    def __init__(self, room, closing):
        port, owner = serving.free_port(), f"uid = {os.getuid()}\ngid = {os.getgid()}\n" if os.getuid() == 0 else ""
        os.makedirs(f"{room}/store")
        with open(f"{room}/config", "w", encoding="utf-8") as file:
            file.write(self.config.format(room, owner))
        words = ["rsync", "--daemon", "--no-detach", f"--config={room}/config", "--address=127.0.0.1", f"--port={port}"]
        closing.enter_context(daemon(port, words, f"{room}/daemon"))
        self.relay = closing.enter_context(relay.Relay(port, 0))

    def measure(self, contents, got):
        url = f"rsync://127.0.0.1:{self.relay.port}/store/"
        yield "to its daemon", *timed([["rsync", "-a", contents.path, url]], self.relay), ""
        yield "from its daemon", *timed([["rsync", "-a", f"{url}{contents.name}", f"{got}/"]], self.relay), ""


class Restic:
    """A repository in a folder for each contents."""

    needs, version = ("restic",), ["restic", "version"]

    def __init__(self, room, _):
        self.room = room

    def measure(self, contents, got):
        repository = f"{self.room}/{contents.name}"
        names = {"RESTIC_PASSWORD": "bench", "RESTIC_REPOSITORY": repository, "RESTIC_CACHE_DIR": f"{self.room}/cache"}
        how = {"env": {**os.environ, **names}, "cwd": contents.at}
        run(["restic", "init"], **how)
        before = size_of(repository)
        took, _ = timed([["restic", "-q", "backup", contents.name]], **how)
        yield "backup", took, None, f"its repository grew by {size_of(repository) - before:,} bytes"
        yield "restore", *timed([["restic", "-q", "restore", "latest", "--target", got]], **how), ""


def size_of(folder):
    return sum(os.path.getsize(f"{at}/{name}") for at, _, names in os.walk(folder) for name in names)


def compare_peers(room, sizes):
    tiny = Contents(f"{room}/contents", "tiny", 100, 10)
    both = [Contents(f"{room}/contents", "tree", sizes["file"], sizes["files"]), Contents(f"{room}/contents", "large", sizes["large"])]
    print(f"{'':52} {'seconds':>9} {'bytes sent':>14} {'received':>14}")
    for peer in (Sundr, Git, Rsync, Restic):
        name = peer.__name__.lower()
        lacking = [it for it in peer.needs if not shutil.which(it)]
        if lacking:
            print(f"{name} is left out, as this machine lacks {' and '.join(lacking)}", flush=True)
            continue
        os.makedirs(f"{room}/{name}")
        if peer.version:
            print(run(peer.version).splitlines()[0], flush=True)
        with contextlib.ExitStack() as closing:
            one = peer(f"{room}/{name}", closing)
            for contents in (tiny, *both):
                os.makedirs(got := f"{room}/got {name} {contents.name}")
                for deed, took, passed, more in one.measure(contents, got):
                    if contents is not tiny:
                        show(f"{name} {deed}: {contents.told}", took, passed, more)
                contents.compare(got)


def show(name, took, passed, more):
    sent, received = (f"{it:,}" for it in passed) if passed else ("-", "-")
    print(f"{name:52} {took:9.3f} {sent:>14} {received:>14}  {more}".rstrip(), flush=True)


# ---- starts and memory

def starts(room, folder, sizes):
    """Seconds of `sundr ls` with logs of so many commits."""
    os.makedirs(folder, exist_ok=True)
    log = audit.make(folder, sizes["log"][0], 4, *sizes["log"][1:])
    roster = store.Roster(f"{log}.pub")
    sundr("keygen", "--out", f"{room}/stand-in", "--height", 5, "--width", 4)
    with open(f"{room}/team of one", "w", encoding="utf-8") as file:
        file.write(f"sundr team 1\nann {serving.read(f'{log}.pub').hex()}\n")
    for count in sizes["logs"]:
        state = f"{room}/state {count}"
        with tempfile.TemporaryDirectory(dir="/dev/shm") as kept:
            store.feed(roster, kept, log, count)
            with storing.Keeping(roster, kept) as server:
                started = time.monotonic()
                init(state, server.port, f"{room}/team of one", "ann", f"{room}/stand-in")
                joined = time.monotonic() - started
                words = [*serving.program, "ls", "--in", state]
                best = min(timed([words])[0] for _ in range(STARTS))
        size = os.path.getsize(f"{state}/.sundr/log")
        print(f"{count:7,} commits, a log of {size:,} bytes: `ls` takes {best:.3f} s, `init` took {joined:.3f} s", flush=True)


def peak_of(words):
    """Seconds that a command takes, and the most bytes of memory that it has."""
    started, peak = time.monotonic(), 0
    with tempfile.TemporaryFile() as told, subprocess.Popen(words, stdin=subprocess.DEVNULL, stdout=told, stderr=told) as process:
        try:
            while process.poll() is None:
                if WAIT < time.monotonic() - started:
                    fail(f"{' '.join(words)} takes more than {WAIT} seconds")
                with contextlib.suppress(OSError), open(f"/proc/{process.pid}/status", encoding="utf-8") as file:
                    peak = max([peak, *(int(line.split()[1]) * 1024 for line in file if line.startswith("VmHWM"))])
                time.sleep(0.002)
        finally:
            process.kill()  # which does nothing where it has ended
        took = time.monotonic() - started
        if process.returncode != 0:
            told.seek(0)
            fail(f"{' '.join(words)} has status {process.returncode}, and tells {told.read()[-1000:].decode(errors='replace')}")
    return took, peak


def memory(room, sizes):
    """Peaks of memory of a put, of an `ls` after it, and of a get of all by another, to whom all of it is new."""
    os.makedirs(f"{room}/memory")
    contents = Contents(f"{room}/contents", "megabytes", MEGABYTE, sizes["memory"])
    with contextlib.ExitStack() as closing:
        team = Sundr(f"{room}/memory", closing)
        state = ["--in", f"{room}/memory/ann"]
        get = ["get", "--in", f"{room}/memory/bob", "-r", "/megabytes", f"{room}/memory/got"]
        for name, words in (("put -r", ["put", *state, "-r", contents.path, "/megabytes"]), ("ls", ["ls", *state, "/megabytes"]), ("get -r", get)):
            took, peak = peak_of([*serving.program, *words])
            print(f"{name:8} {contents.told}: {peak / MEGABYTE:,.1f} MB at the peak, {took:.3f} s", flush=True)
        print(f"{team.head():,} commits have been made by then", flush=True)


def memory_of_changes(room, sizes):
    """The peak of memory of an `ls`, where as many bytes were written over and over to one file, so that the tree is small."""
    os.makedirs(f"{room}/changes")
    with contextlib.ExitStack() as closing:
        Sundr(f"{room}/changes", closing)
        state = ["--in", f"{room}/changes/ann"]
        for _ in range(sizes["memory"]):
            with open(f"{room}/changed", "wb") as it:
                it.write(os.urandom(MEGABYTE))
            run([*serving.program, "put", *state, f"{room}/changed", "/changed"])
        took, peak = peak_of([*serving.program, "ls", *state, "/"])
        print(f"ls       a file of 1 MB that was put {sizes['memory']} times: {peak / MEGABYTE:,.1f} MB at the peak, {took:.3f} s", flush=True)


def main():
    parser = argparse.ArgumentParser(description=__doc__.splitlines()[0])
    parser.add_argument("folder", nargs="?", help="where the log of the most commits is kept for the next time")
    parser.add_argument("--small", action="store_true", help="little of everything, for a trial")
    words = parser.parse_args()
    sizes = SMALL if words.small else SIZES
    signal.signal(signal.SIGTERM, lambda *_: fail("it was ended"))  # so that the servers are ended too
    print(f"{len(os.sched_getaffinity(0))} cores", flush=True)
    with tempfile.TemporaryDirectory() as room:
        compare_peers(room, sizes)
        starts(room, words.folder or room, sizes)
        memory(room, sizes)
        memory_of_changes(room, sizes)


if __name__ == "__main__":
    main()
