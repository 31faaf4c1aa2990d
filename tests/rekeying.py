#!/usr/bin/env python3
"""Tries users who go on to next keys by themselves (`--next-key`): two users with keys of 32 leaves who work at the same time, while
their clients are killed at random moments, and a script that is longer than several keys of 1,024 leaves. No leaf of a key signs twice,
each operation that was acknowledged stands in the server, and the log audits.

usage: rekeying.py [PART..]

Prints what it did, a line for each case that isn't as it should be, and last 'N passed, M failed'.
"""
import os
import random
import signal
import sys
import tempfile
import threading
import time

import audit_model
import serving
import storing
import tally
from serving import Running, Server, is_told, read

OPERATIONS = 3000  # that are acknowledged, of both users
KILLS = 50  # of clients
FOLDERS = 20  # of each user
LONG_SCRIPT = 5000  # commands
MOST_SECONDS = 240


class Person:
    """A user who creates files, and whose clients are killed now and then."""

    def __init__(self, room, user, kills):
        self.room, self.user, self.random = room, user, random.Random(f"rekeying {user}")
        self.kills, self.acknowledged, self.started, self.faults = kills, 0, 0, []
        self.names = []

    def words(self, port):
        more = ("--next-key", f"{self.room.at}/next {self.user}", "--tries", 100000)
        return self.room.words(port, self.user, *more)

    def work(self, port, count):
        """Runs clients until so many operations are acknowledged."""
        end = time.monotonic() + MOST_SECONDS
        while self.acknowledged < count and time.monotonic() < end and not self.faults:
            lines = min(count - self.acknowledged, 40 + self.random.randrange(160))
            is_killed = self.kills > 0
            self.run_one(port, lines, is_killed)
        if self.acknowledged < count:
            self.faults.append(f"{self.acknowledged} of {count}")

    def make_folders(self, port):
        """Makes the user's folders, while the other one does nothing: a number that a command of two operations was given before its
        second turn may be taken by then, and the operation is refused."""
        self.run(port, [b"mkdir /u%d_%d" % (self.user, n) for n in range(FOLDERS)], False)

    def run_one(self, port, lines, is_killed):
        self.started += 1
        folder = b"/u%d_%d" % (self.user, self.started % FOLDERS)
        self.acknowledged += self.run(port, [b"create %b/%d_%d" % (folder, self.started, n) for n in range(lines)], is_killed)

    def run(self, port, lines, is_killed):
        """Runs a script, and returns how many operations were acknowledged."""
        with Running(self.words(port)) as client:
            client.write(b"".join(line + b"\n" for line in lines))
            client.close_input()
            if is_killed:
                self.kills -= 1
                time.sleep(0.05 + self.random.random() * 0.6)
                client.process.send_signal(signal.SIGKILL)
            status = client.process.wait(serving.WAIT)
            printed = client.printed.rest()
            told = client.told.rest()
        numbers = [int(line[3:]) for line in printed if line.startswith(b"ok ")]
        self.names += numbers
        strange = [line for line in printed if not line.startswith(b"ok ")]
        if strange or not is_killed and status != 0:
            self.faults.append(f"{strange[:3]} {status} {told[-3:]}")
        return len(numbers)


def leaves_of(records, publics):
    """Of each commit the key and the leaf that signed it."""
    keys = list(publics)
    for commit, _ in records:
        version, signature = audit_model.commit_in(commit)
        yield keys[version.author], audit_model.leaf_of(signature)
        if version.next_key is not None:
            keys[version.author] = version.next_key


def kills(at):
    """Two users at once, with keys of 32 leaves each."""
    room, saved = serving.Room(at), f"{at}/saved"
    with Server(room, capacity=100000, sessions=100000) as server:
        persons = [Person(room, user, KILLS // 2) for user in range(2)]
        for person in persons:
            person.make_folders(server.port)
        threads = [threading.Thread(target=person.work, args=(server.port, OPERATIONS // 2)) for person in persons]
        started = time.monotonic()
        for thread in threads:
            thread.start()
        for thread in threads:
            thread.join()
        ended = room.run(server.port, 0, b"save %b\n" % saved.encode())
        yield f"the_log_is_saved: {ended}", ended[0] == [] and ended[2] == 0
    faults = [fault for person in persons for fault in person.faults]
    yield f"all_is_done: {faults}", faults == []
    records = audit_model.pieces(read(saved))
    signed = list(leaves_of(records, room.public_keys))
    rekeys = sum(audit_model.commit_in(commit)[0].next_key is not None for commit, _ in records)
    print(f"rekeying: {sum(person.acknowledged for person in persons)} operations, {KILLS} kills of {sum(person.started for person in persons)}"
          f" clients, {rekeys} rekeys, {len(records)} commits in {time.monotonic() - started:.0f} s")
    yield "no_leaf_signs_twice", len(set(signed)) == len(signed)
    yield f"many_rekeys: {rekeys}", rekeys > OPERATIONS // 32
    authors = [audit_model.commit_in(commit)[0].author for commit, _ in records]
    lost = [n for person in persons for n in person.names if n > len(records) or authors[n - 1] != person.user]
    yield f"all_that_was_acknowledged_stands: {lost[:5]}", lost == []
    yield "the_log_audits", serving.audit(room, saved) == ([b"ok %d" % len(records)], [], 0)


def long_script(at):
    """A script that is longer than four keys of 1,024 leaves, by which two further runs go on."""
    room, prefix = storing.Room(at, users=1), f"{at}/next"
    with Server(room, capacity=100000) as server:
        script = b"".join(b"mkdir /%d\n" % n if n % 500 == 0 else b"create /%d/%d\n" % (n - n % 500, n) for n in range(LONG_SCRIPT))
        started = time.monotonic()
        printed, told, status = room.run(server.port, 0, script, "--next-key", prefix)
        made = [name for name in os.listdir(at) if name.startswith("next-") and not name.endswith(".lock")]
        print(f"rekeying: {len(printed)} commands of one script in {time.monotonic() - started:.0f} s, with {len(made)} next keys")
        yield f"a_long_script_runs_through: {printed[-2:]} {told} {status}", (told, status) == ([], 0) and all(it.startswith(b"ok ") for it in printed)
        yield f"all_of_it: {len(printed)}", len(printed) == LONG_SCRIPT and len(made) == 5
        ended = room.run(server.port, 0, b"mkdir /x\n", "--next-key", prefix)
        yield f"and_another_goes_on: {ended}", ended == ([b"ok %d" % (LONG_SCRIPT + len(made) + 1)], [], 0)


def unwritable(at):
    """Where no next key can be made, that is told once, and the key signs as long as it can."""
    room = serving.Room(at, users=1)
    with Server(room) as server:
        with Running(room.words(server.port, 0, "--next-key", f"{at}/nowhere/next")) as client:
            client.write(b"".join(b"mkdir /%d\n" % n for n in range(33)))
            printed, told, status = client.end()
        yield f"as_long_as_it_can: {printed[-2:]} {status}", (printed[-2:], status) == ([b"ok 32", b"no 8 KeySpent"], 0)
        yield f"that_none_can_be_made_is_told: {told}", is_told(told, "nowhere")


PARTS = (kills, long_script, unwritable)


def main():
    if not tally.is_there("rekeying", serving.PROGRAM[0]):
        return 1
    results, words = {}, sys.argv[1:]
    for part in PARTS:
        if words and part.__name__ not in words:
            continue
        with tempfile.TemporaryDirectory() as at:
            for name, right in part(at):
                results[name] = results.get(name, True) and right
    return tally.told("rekeying", results)


if __name__ == "__main__":
    sys.exit(main())
