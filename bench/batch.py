#!/usr/bin/env python3
"""What it costs people to put many small files in as few commits as their items have room for, and with a commit for each file, beside
other programs that people use for it. Run by hand: `bench/batch.py [--rounds 3]`, some minutes. --small is for a trial.

Files, state folders, keys and stores, those of the other programs too, lie in TMPDIR's folder, and so on one disk. All servers run on
this machine, behind a relay (relay.py) that counts the bytes each way, without the headers of packets, and holds back nothing, or each
direction by 10 ms. The contents are 1,000 files of 1,000 bytes and 100 files of 48,000, of random bytes, in 10 folders; in each round
each program puts and gets them at a server, a store and a repository of its own, which are new, after a tiny folder. What was got is
compared with what was put. Of each the best of the rounds, by the clock, is printed:
- of ann, who puts with and without --each, and bob, who gets, at a server with a store: seconds, files a second, how many commits there
  were, each with a signature, and how many of them a second, bytes each way, and how many bytes ann's log has for each file; and the
  seconds of an `undo` of each of the put's commits, from the last on (with --each of the last 20 alone), and of bob's `ls` behind it;
- of git, which adds, commits with a signature by an ssh key, and pushes to `git daemon`, with both repositories synced, and clones; and
  of rsync to and from its daemon, which syncs nothing. What isn't installed is told and left out.

SUNDR names another program to measure.
"""
import argparse
import contextlib
import os
import shutil
import signal
import sys
import tempfile

HERE = os.path.dirname(os.path.abspath(__file__))
TOP = os.path.dirname(HERE)
sys.path.insert(0, f"{TOP}/tests")
sys.path.insert(0, HERE)

import put  # noqa: E402
import serving  # noqa: E402

SIZES, SMALL = ((1000, 1_000), (100, 48_000)), ((30, 1_000), (10, 48_000))  # how many files, of how many bytes
AWAY = 0.01  # seconds that each direction is held back by, of a server that is away
MOST_UNDONE = 20  # commits of a put with --each that are taken back


class Row:
    """What one deed came to: its seconds, the bytes each way, if they were counted, how many commits it made, if it made some, and what else
    there is to tell."""

    def __init__(self, took, passed=None, commits=None, more=""):
        self.took, self.passed, self.commits, self.more = took, passed, commits, more

    def show(self, name, files):
        sent, received = (f"{it:,}" for it in self.passed) if self.passed else ("-", "-")
        of_files = f"{files / self.took:,.0f}" if files else "-"
        commits, of_commits = (f"{self.commits:,}", f"{self.commits / self.took:,.1f}") if self.commits is not None else ("-", "-")
        print(f"{name:52} {self.took:9.3f} {of_files:>8} {commits:>8} {of_commits:>9} {sent:>14} {received:>14}  {self.more}".rstrip(), flush=True)


def show_head():
    print(f"{'':52} {'seconds':>9} {'files/s':>8} {'commits':>8} {'commits/s':>9} {'bytes sent':>14} {'received':>14}", flush=True)


def warm_up(peer, tiny, got):
    """Puts and gets a tiny folder."""
    with tempfile.TemporaryDirectory(dir=os.path.dirname(got)) as at:
        for _ in peer.measure(tiny, at):
            pass


# ---- each of these yields a deed, of how many files it was, and its row

def by_sundr(room, tiny, contents, got, seconds, *more):
    """Ann puts and bob gets, at a server that is so many seconds away; then ann takes her commits back, and bob lists what is there."""
    with contextlib.ExitStack() as closing:
        team = put.Sundr(room, closing, seconds)
        warm_up(team, tiny, got)
        state, log, before = ["--in", f"{room}/ann"], f"{room}/ann/.sundr/log", team.head()
        length = os.path.getsize(log)
        words = [*serving.program, "put", *state, *more, "-r", contents.path, f"/{contents.name}"]
        took, passed = put.timed([words], team.relay)
        commits, grown = team.head() - before, os.path.getsize(log) - length
        yield " ".join(["put", *more]), contents.files, Row(took, passed, commits, f"{grown / contents.files:,.1f} bytes of log a file")
        words = [*serving.program, "get", "--in", f"{room}/bob", "-r", f"/{contents.name}", f"{got}/{contents.name}"]
        yield " ".join(["get, put", *more]), contents.files, Row(*put.timed([words], team.relay))
        contents.compare(got)
        undone = min(commits, MOST_UNDONE) if more else commits
        undos = [[*serving.program, "undo", *state, before + commits - n] for n in range(undone)]
        yield " ".join(["undos, put", *more]), None, Row(*put.timed(undos, team.relay), undone)
        words = [*serving.program, "ls", "--in", f"{room}/bob", "/"]
        yield " ".join(["ls behind it, put", *more]), None, Row(*put.timed([words], team.relay))


def by_another(peer, room, tiny, contents, got):
    with contextlib.ExitStack() as closing:
        one = peer(room, closing)
        warm_up(one, tiny, got)
        for deed, took, passed, more in one.measure(contents, got):
            yield deed, contents.files, Row(took, passed, None, more)
        contents.compare(got)


PEERS = {
    "sundr": lambda *room: by_sundr(*room, 0), "sundr --each": lambda *room: by_sundr(*room, 0, "--each"),
    "sundr, away": lambda *room: by_sundr(*room, AWAY), "sundr, away --each": lambda *room: by_sundr(*room, AWAY, "--each"),
    "git": lambda *room: by_another(put.Git, *room), "rsync": lambda *room: by_another(put.Rsync, *room)}


class Files(put.Contents):
    """A folder of so many files of so many random bytes."""

    def __init__(self, at, name, size, files):
        super().__init__(at, name, size, files)
        self.files = files


def lacking(name):
    """Whether the program of that name can't be run here; tells what is lacking."""
    if name.endswith("--each") and "--each" not in put.sundr("put", "--help"):
        print(f"{name} is left out, as the program doesn't know it", flush=True)
        return True
    needs = {"git": put.Git.needs, "rsync": put.Rsync.needs}.get(name, ())
    missing = [it for it in needs if not shutil.which(it)]
    if missing:
        print(f"{name} is left out, as this machine lacks {' and '.join(missing)}", flush=True)
    return missing != []


def measure(room, sizes, rounds):
    peers = {name: peer for name, peer in PEERS.items() if not lacking(name)}
    for name in ("git", "rsync"):
        if name in peers:
            print(put.run([name, "--version"]).splitlines()[0], flush=True)
    tiny, rows = Files(f"{room}/contents", "tiny", 100, 10), {}
    for files, size in sizes:
        contents = Files(f"{room}/contents", f"of{size}", size, files)
        for turn in range(rounds):
            for name, peer in peers.items():
                at, got = f"{room}/{name.replace(' ', '').replace(',', '')}_{size}_{turn}", f"{room}/got"
                os.makedirs(at)
                os.makedirs(got)
                for deed, files, row in peer(at, tiny, contents, got):
                    rows.setdefault((name.removesuffix(" --each"), deed, contents.told, files), []).append(row)
                shutil.rmtree(at)
                shutil.rmtree(got)
    show_head()
    for (name, deed, told, files), found in rows.items():
        min(found, key=lambda row: row.took).show(f"{name} {deed}: {told}", files)


def main():
    parser = argparse.ArgumentParser(description=__doc__.splitlines()[0])
    parser.add_argument("--rounds", type=int, default=3, help="of which the best counts")
    parser.add_argument("--small", action="store_true", help="little of everything, for a trial")
    words = parser.parse_args()
    signal.signal(signal.SIGTERM, lambda *_: put.fail("it was ended"))  # so that the servers are ended too
    print(f"{len(os.sched_getaffinity(0))} cores, the best of {words.rounds}", flush=True)
    with tempfile.TemporaryDirectory() as room:
        measure(room, SMALL if words.small else SIZES, words.rounds)


if __name__ == "__main__":
    main()
