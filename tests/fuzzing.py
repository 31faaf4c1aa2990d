#!/usr/bin/env python3
"""Gives the program bytes that mean harm, by chance: frames to a server with a store, logs to an audit, key files, public keys, scripts
and replies to a client, and a store's files to a server at its start. Each is a good one that was changed (mutants.py). What has to hold
after each: nothing ends by a signal or with a status that `--help` doesn't tell; nothing takes over five seconds; no program has more
memory than docs/COSTS.md tells of far more work; what the second implementation says of the same bytes is what the program says; a key
file that is refused is as it was, and a store that is refused is so again; and an honest client that works at the same server goes on.

usage: fuzzing.py [--seconds N] [--seed S] [--first N] [--count N] [--models] [TARGET..]

It goes on for so many seconds (60), or so many inputs. Each input is fixed by the seed (1) and its number, but for what a server holds
then: `--first` begins at that number. With --models it tries the models instead (model_program.py), without the built program.
Prints how many inputs there were, of which seed, a line for each that wasn't met as it should be, and last 'N passed, M failed'.
"""
import os
import random
import re
import resource
import shutil
import socket
import subprocess
import sys
import tempfile
import threading
import time

import audit_model
import client_model
import desk_model
import lms
import logs
import model_server
import mutants
import serving
import tally
import wire
from desk_model import Refused, sha256
from serving import Running, free_port, is_told, read

SECONDS, SEED = 60, 1
LONGEST = 5  # seconds that anything may take
MOST_MEMORY = 64_000_000  # bytes of any program: an audit of 10,000 creates has 54 MB, and nothing here is as much
LEAVES = 400  # of the member's key, more than there are inputs at one server
AT_ONE_SERVER = 120  # inputs, after which there is a new server
GOES_ON_AFTER = 12  # inputs, after which the honest client has to go on
MEMBER, HONEST, GUEST = range(3)  # users: whose commits stand in frames; who goes on; whose files and links are changed
MEMBERS_FILE = desk_model.user_file(MEMBER, 2)
FOLDER = b"/folder_of_the_honest_user"
FILES = ("records.db", "records.db-wal", "records.count")
ANSWER = re.compile(rb"ok [0-9]+|no [0-9]+ [A-Za-z]+( [A-Za-z0-9:]+)*|line [0-9]+: bad|([0-9a-f]{2})*|[^\n]* [UG][0-9]+:[0-9]+")
# commands of a guest, which have to do with each other
LINES = (
    b"mkdir /a", b"create /b", b"create /a/c", b"write /b 0 6869", b"write /a/c 4090 " + b"7a" * 20, b"truncate /b 9", b"link /b /d",
    b"rename /d /a/d", b"rename /b /d", b"remove /a/c", b"remove /b", b"tidy", b"undo 3", b"undo_last", b"ls /", b"ls /a", b"cat /b 0 9", b"",
    b"write /b 4294967295 41", b"truncate /b 18446744073709551615", b"cat /d 0 18446744073709551615", b"undo 18446744073709551616")


class Room(serving.Room):
    """A folder with the keys of three users. The member's key has no file, as only this script signs with it."""

    def __init__(self, at):
        self.at, self.names = at, 0
        self.member = logs.key_of("fuzzing", 10, 4, leaves=LEAVES)
        self.key_files, self.publics = [None], [self.file(self.member.public())]
        for name in ("honest", "guest"):
            entropy = self.file(random.Random(f"fuzzing {name}").randbytes(48))
            with Running(["keygen", "--entropy", entropy, "--out", f"{at}/{name}", "--height", 10, "--width", 4]) as made:
                made.end()
            self.key_files.append(f"{at}/{name}")
            self.publics.append(f"{at}/{name}.pub")
        self.public_keys = [read(path) for path in self.publics]
        self.fresh = [read(path) for path in self.key_files[1:]]

    def renew_keys(self):
        """The keys sign from their first leaf on, at a new server."""
        for path, data in zip(self.key_files[1:], self.fresh):
            with open(path, "wb") as file:
                file.write(data)


# ---- a server, and those who work at it

class Ground:
    """A server with a store, an honest client that works there, and a link by which what it stores is followed. The server has just one
    worker more: a session has ended for good when the next one begins."""

    def __init__(self, room, at):
        self.room, self.store, self.port, self.made = room, f"{at}/store", free_port(), 0
        room.renew_keys()
        store = [] if serving.program == serving.MODEL else ["--store", self.store, "--cache", 1]
        self.server = Running(["serve", "--port", self.port, "--workers", 3, "--capacity", 100000, *store, *room.publics])
        self.said = self.server.told.next()
        self.service, self.view = model_server.Service(room.public_keys), audit_model.View(room.public_keys)
        self.link = wire.connect(self.port)
        first = "create", "create", desk_model.group_file(0, 1), b"m", MEMBERS_FILE, 2
        for request in (wire.GRANT, wire.commit(self.commit_of(first))):
            self.link.ask(request)
        self.follow()
        self.honest, self.faults = room.client(self.port, HONEST), []
        if not self.honest.say(b"mkdir " + FOLDER)[-1].startswith(b"ok "):
            self.faults.append("the honest client can't begin")

    def follow(self):
        """Takes what is new at the server, so that the models hold what it does."""
        records = self.service.book.records
        while (reply := wire.reply_in(self.link.ask(wire.fetch(self.view.chain.count + 1))))[0] == "kept":
            commit = reply[1]
            version, _ = audit_model.commit_in(commit)
            item = wire.reply_in(self.link.ask(wire.get(version.change)))[1]
            self.service.items[sha256(item)] = item
            self.view.put(item)
            self.view.accept(commit)
            if len(records) < self.view.chain.count:
                self.service.book.chain.add(commit)
                records.append(commit)
                self.service.book.last = {**self.service.book.last, version.author: len(records)}
        if records != [commit for commit, _ in self.view.maker.records]:
            self.faults.append("the server holds other records than it said")

    def next_commit(self, chance):
        """The item and the commit of a good change of the member, which comes next."""
        change = "write", MEMBERS_FILE, chance.randrange(9000), chance.randbytes(chance.choice((1, 9, 300)))
        return logs.item_of(change), self.commit_of(change)

    def commit_of(self, change):
        """The commit of a change of the member, which comes next. The server holds its item."""
        version, item = self.view.maker.version(MEMBER, change), logs.item_of(change)
        leaf = self.view.chain.last_leaf.get(MEMBER, -1) + 1
        self.link.ask(wire.put(item))
        self.service.items[sha256(item)] = item
        return logs.commit_of(version, self.room.member.sign(leaf, version.encode()))

    def goes_on(self):
        """Whether the honest client makes one more file, and sees all that it made."""
        made = self.honest.say(b"create %b/%d" % (FOLDER, self.made))
        self.made += 1
        seen = {line.split(b" ")[0] for line in self.honest.say(b"ls " + FOLDER)}
        return made[-1:] != [] and made[-1].startswith(b"ok ") and seen == {b"%d" % n for n in range(self.made)}

    def end(self, by_signal):
        """Ends all in order, or the server by a signal. Tells what wasn't as it should be; the store's files stay."""
        if not self.goes_on():
            self.faults.append("the honest client doesn't go on")
        self.log = f"{self.room.at}/log"
        self.honest.say(b"save " + self.log.encode())
        ended = self.honest.end()
        if ended != ([], [], 0):
            self.faults.append(f"the honest client ends so: {ended}")
        self.link.close()
        if self.server.process.poll() is not None:
            self.faults.append(f"the server ended: {self.server.end()}")
        elif not by_signal and serving.program != serving.MODEL:
            self.server.write(b"stop\n")
            printed, told, status = self.server.end()
            if (printed, len(told), status) != ([], 1, 0):
                self.faults.append(f"the server ends so: {printed} {told} {status}")
        self.server.kill()
        return self.faults


def within_memory():
    """Whether no program that has ended had too much memory. (What this script has counts as theirs, since they begin as its copies.)"""
    most, own = (resource.getrusage(who).ru_maxrss * 1024 for who in (resource.RUSAGE_CHILDREN, resource.RUSAGE_SELF))
    return most <= max(MOST_MEMORY, own)


def run(words, given=b"", **how):
    """What the program prints of an input, what it tells, and its status; None where it takes too long."""
    try:
        ended = subprocess.run([*serving.program, *map(str, words)], input=given, capture_output=True, timeout=LONGEST, check=False, **how)
    except subprocess.TimeoutExpired:
        return None
    told = [line for line in ended.stderr.splitlines() if not serving.aside_in(line)]
    return ended.stdout, told, ended.returncode


# ---- frames at a server

def messages(chance, item, commit):
    """Some requests, with those that store a commit in their order, if they are among these."""
    storing = [wire.GRANT, wire.put(item), wire.commit(commit)]
    others = (
        wire.GRANT, wire.GIVE, wire.fetch(chance.choice((0, 1, 2, 2 ** 64 - 1))), wire.get(sha256(item)), wire.get(bytes(32)),
        wire.put(item), wire.put(chance.randbytes(chance.choice((0, 1, 70000, 70001)))), wire.commit(b""))
    picked = [chance.choice(others) for _ in range(chance.randrange(8))]
    at = chance.randrange(len(picked) + 1)
    return picked[:at] + storing[:chance.randrange(4)] + picked[at:]


def stream_of(chance, item, commit):
    """The bytes of a session: some of its messages are changed, or the bytes as a whole, or nothing."""
    asked, way = messages(chance, item, commit), chance.randrange(5)
    if way < 2 and asked:
        at = chance.randrange(len(asked))
        asked[at] = mutants.mangled(chance, asked[at], asked)
    stream = b"".join(wire.frame(it) for it in asked)
    return mutants.mangled(chance, stream, [wire.frame(wire.commit(commit))]) if way in (2, 3) else stream


def replies_to(service, stream):
    """What a server replies to the bytes of a session, to its end."""
    replied, at = b"", 0
    while at + 4 <= len(stream):
        length = int.from_bytes(stream[at:at + 4], "big")
        if not 1 <= length <= wire.LONGEST_MESSAGE:
            why = "1 Malformed 0" if length == 0 else "41 TooLong"
            return replied + wire.frame(wire.refused(why))
        message, at = stream[at + 4:at + 4 + length], at + 4 + length
        if at > len(stream):
            break
        replied += wire.frame(service.answer(0, message))
    return replied


def session(port, stream):
    """All that is replied in a session of these bytes; None where that takes too long."""
    until, replied = time.monotonic() + LONGEST, b""
    with socket.create_connection(("127.0.0.1", port), LONGEST) as link:
        try:
            link.sendall(stream)
            link.shutdown(socket.SHUT_WR)
            while part := link.recv(65536):
                replied += part
                if time.monotonic() > until:
                    return None
        except TimeoutError:
            return None
        except OSError:  # what came behind a message that is refused for good was not read
            pass
    return replied


def frames(chance, ground, _):
    ground.follow()
    item, commit = ground.next_commit(chance)
    stream = stream_of(chance, item, commit)
    service, items = ground.service, dict(ground.service.items)
    wanted, replied = replies_to(service, stream), session(ground.port, stream)
    service.book.holder, service.items = None, items  # what no commit names goes with its session
    # (an end that leaves something unread can take replies along that weren't read)
    is_so = replied is not None and (replied == wanted or wanted.startswith(replied) and len(replied) < len(wanted) and is_cut_off(stream))
    if not is_so:
        yield f"{len(stream)} bytes {stream[:60].hex()}..: {replied and replied[:60].hex()}, and not {wanted[:60].hex()}"
    ground.follow()


def is_cut_off(stream):
    """Whether a server ends the session before it has read all."""
    at = 0
    while at + 4 <= len(stream):
        length = int.from_bytes(stream[at:at + 4], "big")
        if not 1 <= length <= wire.LONGEST_MESSAGE:
            return True
        at += 4 + length
    return False


# ---- logs at an audit

class Story:
    """A log of some commits, and who stands where in it."""

    def __init__(self, seed, form, lines, rekeys=False):
        self.makers = [logs.Maker([logs.key_of(f"fuzzing {seed} {n}", width=4) for n in range(2)], form)]
        self.publics = self.makers[0].publics
        for line in lines.split("; "):
            maker = self.makers[-1].copy()
            maker.say(line)
            self.makers.append(maker)
            if rekeys and len(maker.records) in (2, 4):
                maker.rekey(len(maker.records) // 4, logs.key_of(f"fuzzing {seed} next {len(maker.records)}", width=4))
        self.records = self.makers[-1].records

    def near(self, chance, others):
        """A log that is changed: its bytes, or the signed part or the item of a commit that is signed again."""
        way = chance.randrange(3)
        if way == 0:
            return mutants.mangled(chance, logs.log_bytes(self.records), others)
        maker = chance.choice(self.makers[:-1])
        commit, item = self.records[len(maker.records)]
        version, _ = audit_model.commit_in(commit)
        if way == 1:
            signed, other = self.other_version(chance, version), item
        else:
            signed, other = self.other_item(chance, maker, version, item)
        signature = maker.keys[version.author].sign(maker.leaves[version.author], signed)
        return maker.log() + logs.log_bytes([(signed + logs.u32(len(signature)) + signature, other)])

    def other_version(self, chance, version):
        return mutants.mangled(chance, version.encode(), [record[0] for record in self.records])

    def other_item(self, chance, maker, version, item):
        """Another item, and what is signed of it: the version structure of its change, where that is one and is accepted."""
        item = mutants.mangled(chance, item, [record[1] for record in self.records])
        try:
            return maker.copy().version(version.author, audit_model.change_in(item)).encode(), item
        except (Refused, OverflowError):
            version.change = sha256(item)
            return version.encode(), item


def stories():
    first = "0 create G0:1 a U0:2; 0 write U0:2 0 41; 1 take G0:1 1; 1 create G0:1 b U1:2; 0 undo 2; 1 rename G0:1 b G0:1 c U1:2"
    second = f"{first}; 0 drop 1; 1 mkdir G0:1 d G0:2 3; 1 create G0:2 e G0:3 4; 1 link G0:2 f G0:3; 1 unlink G0:2 e G0:3; 1 truncate G0:3 16777216"
    third = "1 take G0:1 1; 1 mkdir G0:1 d G0:2 2; 0 take G0:2 2; 0 create G0:2 e G0:3 3; 0 write G0:3 4000 " + "7a" * 300
    fourth = (
        "0 batch create G0:1 a G0:2 2 + write G0:2 0 41 + create G0:1 b U0:3; 1 batch take G0:2 1 + write G0:2 1 42 + truncate G0:2 1; "
        "0 batch link G0:1 c U0:3 + rename G0:1 a G0:1 d G0:2 + unlink G0:1 b U0:3 + mkdir G0:1 e U0:4; 0 drop 2; 0 undo 4")
    return [Story("first", 1, first), Story("second", 2, second), Story("third", 3, third, rekeys=True), Story("fourth", 4, fourth, rekeys=True)]


def audited(chance, ground, room):
    story = chance.choice(ground.stories)
    log = story.near(chance, [logs.log_bytes(it.records) for it in ground.stories])
    path, publics = room.file(log), [room.file(it) for it in story.publics]
    ended = run(["audit", "--log", path, *publics])
    printed, status = audit_model.audit(story.publics, log)
    if ended != (printed.encode(), [], status):
        yield f"{len(log)} bytes: {ended}, and not {printed} {status}"
    if read(path) != log:
        yield "the log isn't as it was"


# ---- files and scripts at a client

def key_file(chance, ground, room):
    """A key file that is changed is refused as it is, or signs as the key that it spells then."""
    data = mutants.mangled(chance, read(room.key_files[GUEST]), [read(path) for path in room.publics])
    path = room.file(data)
    ended = run(room.words(ground.port, GUEST, "--leaves-ahead", 1, key=path), b"ls /\nmkdir /k\n")
    try:
        client_model.demand(is_key_file(data), "9 BadKey")
        is_so = ended is not None and ended[1:] == ([], 0) and is_answered(ended[0]) and read(path)[:60] == data[:60]
    except Refused:
        is_so = ended is not None and (ended[0], ended[2]) == (b"", 1) and is_told(ended[1], path, "9 BadKey") and read(path) == data
    if not is_so:
        yield f"{data.hex()}: {ended}"


def is_key_file(data):
    """Whether these bytes are a key file, as docs/FORMATS.md has it."""
    kinds = [int.from_bytes(data[at:at + 4], "big") for at in (4, 8, 60)]
    return len(data) == 64 and data[:4] == b"SK01" and kinds[0] in (5, 6) and kinds[1] in (3, 4) and kinds[2] <= 2 ** lms.HEIGHTS[kinds[0]]


def is_answered(printed):
    return all(ANSWER.fullmatch(line) for line in printed.splitlines())


def public_keys(chance, ground, room):
    """Public keys of which one is changed are refused as they are, or make another roster."""
    user = chance.randrange(3)
    data = mutants.mangled(chance, room.public_keys[user], room.fresh)
    path, log = room.file(data), room.file(b"")
    publics = [path if n == user else it for n, it in enumerate(room.publics)]
    is_key = lms.is_key(data)
    ended = [run(["audit", "--log", log, *publics]), run([*room.words(ground.port, GUEST)[:-3], *publics], b"ls /\n")]
    # (the first commit is the member's, so that with another key of that user it isn't signed)
    refused = b"no 33 BadSignature\n" if user == MEMBER else b"no 34 WrongPrev 0\n"
    printed = [b"ok 0\n", b"" if data == room.public_keys[user] else refused]
    for it, wanted in zip(ended, printed):
        is_refused = it is not None and (it[0], it[2]) == (b"", 1) and is_told(it[1], path, "9 BadKey")
        if not is_key and not is_refused or is_key and it != (wanted, [], 0) and not is_listing(it, data, room):
            yield f"{data.hex()}: {it}"
    if read(path) != data:
        yield "the public key isn't as it was"


def is_listing(ended, data, room):
    """Whether a client that has the right keys has listed the root."""
    return data in room.public_keys and ended is not None and ended[1:] == ([], 0) and is_answered(ended[0])


def scripts(chance, ground, room):
    """A script ends with status 2 at the first line that is no command, which is told, and else with 0."""
    lines = [chance.choice(LINES) for _ in range(chance.randrange(1, 8))]
    script = mutants.mangled(chance, b"\n".join(lines) + b"\n", [b"\n".join(LINES)])
    script = b"\n".join(line for line in script.split(b"\n") if line[:4] not in (b"save", b"reke"))
    ended = run(room.words(ground.port, GUEST), script)
    bad = first_bad(script)
    wanted = ([], 0) if bad is None else ([b"sundr: line %d: no command" % bad], 2)
    is_so = ended is not None and ended[2] == wanted[1] and is_answered(ended[0]) and len(ended[1]) == len(wanted[0])
    last = ended[0].splitlines()[-1:] if ended else []
    if not is_so or bad is not None and last != [b"line %d: bad" % bad]:
        yield f"{script[:200]}: {ended}, first bad {bad}"


def first_bad(script):
    """The number of the first line that is no command; None where all are."""
    lines = script.split(b"\n")
    for number, line in enumerate(lines[:-1] if lines[-1] == b"" else lines, 1):
        try:
            if line:
                client_model.read_line(line)
        except Refused:
            pass
        except client_model.Bad:
            return number
    return None


# ---- replies at a client

class Mangling:
    """Passes the requests of clients on to a server, and changes the reply at one place of each session. Some sessions end behind it."""

    def __init__(self, port, chance):
        self.to, self.chance, self.place = port, chance, chance.randrange(12)
        self.ends, self.left = chance.random() < 0.5, 2000
        self.listener = socket.create_server(("127.0.0.1", 0))
        self.port = self.listener.getsockname()[1]
        threading.Thread(target=self.run, daemon=True).start()

    def run(self):
        while True:
            try:
                stream, _ = self.listener.accept()
            except OSError:
                return
            self.serve(wire.Link(stream), wire.connect(self.to))

    def serve(self, here, there):
        try:
            for number in range(self.left):
                reply = there.ask(here.receive())
                if number != self.place:
                    here.send(reply)
                elif self.ends:
                    here.write(mutants.mangled(self.chance, wire.frame(reply), [reply]))
                    break
                else:
                    here.send(mutants.mangled(self.chance, reply, [reply])[:wire.LONGEST_MESSAGE])
        except (wire.LinkEnded, Refused):
            pass
        here.close()
        there.close()

    def close(self):
        self.listener.shutdown(socket.SHUT_RDWR)
        self.listener.close()


def replies(chance, ground, room):
    """A client that is replied what was changed goes on, or ends with a link that failed."""
    between = Mangling(ground.port, chance)
    ended = run(room.words(between.port, GUEST, "--tries", 3), b"ls /\nmkdir /r\nls /\n")
    between.close()
    if ended is None or ended[2] not in (0, 1) or not is_answered(ended[0]):
        yield f"reply {between.place}: {ended}"
    elif ended[2] == 1 and not (len(ended[1]) == 1 and ended[1][0].startswith(b"sundr: ")):
        yield f"reply {between.place}, told: {ended}"


# ---- a store at the start of a server

def stored(chance, ground, room):
    """A server refuses a store of which one file is changed, time and again, or shows all that was acknowledged."""
    base, names = ground.before
    folder = room.path()
    shutil.copytree(base, folder)
    present = [name for name in FILES if os.path.exists(f"{folder}/{name}")]
    name = chance.choice(present)
    data = mutants.mangled(chance, read(f"{folder}/{name}"), [read(f"{folder}/{it}") for it in present])
    with open(f"{folder}/{name}", "wb") as file:
        file.write(data)
    count = read(f"{folder}/records.count") if "records.count" in present else None
    port, started = free_port(), time.monotonic()
    words = ["serve", "--port", port, "--workers", 1, "--capacity", 100000, "--store", folder, "--cache", 1, "--sessions", 1]
    with Running([*words, *room.publics]) as server:
        said = server.told.next()
        if time.monotonic() - started > LONGEST:
            yield f"{name} of {len(data)} bytes: it takes too long to say {said}"
        if said is not None and b"listening" in said:
            yield from served_all(server, port, room, names, name)
        else:
            printed, told, status = server.end(LONGEST)
            if (printed, status) != ([], 1) or not is_told([said, *told], folder):
                yield f"{name} of {len(data)} bytes: {said} {printed} {told} {status}"
            else:
                yield from refused_again([*words, *room.publics], said, name)
                if count is not None and read(f"{folder}/records.count") != count:
                    yield f"{name} of {len(data)} bytes: a server that refuses its store notes another count: {said}"
    shutil.rmtree(folder)


def refused_again(words, said, name):
    """What a server refuses it refuses again, with the same words: it mends nothing. (What of the log is sound goes into the file.)"""
    ended = run(words)
    if ended is None or ended[0] != b"" or ended[1] != [said] or ended[2] != 1:
        yield f"{name}: refused as {said}, and then {ended}"


def served_all(server, port, room, names, name):
    """An honest client that knows the list sees all that it made."""
    ended = run(room.words(port, GUEST, "--log", f"{room.at}/log before"), b"ls " + FOLDER + b"\n")
    shown = ended and {line.split(b" ")[0] for line in ended[0].splitlines()}
    status = server.end(LONGEST)[2]
    if shown != names or ended[1:] != ([], 0) or status != 0:
        yield f"{name}: it serves less than there was: {ended} {status}"


# ---- all of it

TARGETS = {
    "frames": (frames, 8), "audited": (audited, 8), "key_file": (key_file, 2), "public_keys": (public_keys, 2), "scripts": (scripts, 3),
    "replies": (replies, 3), "stored": (stored, 3),
}


class Run:
    """Inputs, one after the other, at one server after the other."""

    def __init__(self, at, words):
        self.room, self.at, self.words, self.stories = Room(at), at, words, stories()
        self.counts, self.faults, self.ground, self.before = dict.fromkeys(TARGETS, 0), {}, None, None

    def all(self):
        until, number = time.monotonic() + self.words.seconds, self.words.first
        while time.monotonic() < until and self.words.count != number - self.words.first:
            if (number - self.words.first) % AT_ONE_SERVER == 0:
                self.next_ground(number)
            self.one(number)
            number += 1
        self.note(number, "servers", self.ground.end(by_signal=False))

    def next_ground(self, number):
        """A new server; what the last one stored is what servers are started over from then on."""
        if self.ground:
            ground, by_signal = self.ground, number // AT_ONE_SERVER % 2 == 0
            self.note(number, "servers", ground.end(by_signal))
            self.keep(ground)
        self.ground = Ground(self.room, self.at)
        self.ground.stories, self.ground.before = self.stories, self.before

    def keep(self, ground):
        if os.path.exists(ground.store):
            shutil.rmtree(f"{self.at}/before", ignore_errors=True)
            os.rename(ground.store, f"{self.at}/before")
            os.replace(ground.log, f"{self.at}/log before")
            self.before = f"{self.at}/before", {b"%d" % n for n in range(ground.made)}
        for name in os.listdir(self.at):
            if name.split(".")[0].isdigit() and f"{self.at}/{name}" not in self.room.publics:
                os.remove(f"{self.at}/{name}")

    def one(self, number):
        """Tries an input. One that ends the server is told, and there is a new one."""
        chance = random.Random(f"fuzzing {self.words.seed} {number}")
        targets = [it for it in self.words.targets if it != "stored" or self.before]
        if not targets:
            return
        name = chance.choices(targets, [TARGETS[it][1] for it in targets])[0]
        self.counts[name] += 1
        try:
            faults = list(TARGETS[name][0](chance, self.ground, self.room))
        except (wire.LinkEnded, OSError) as why:
            faults = [f"{type(why).__name__} {why}"]
        if self.ground.server.process.poll() is not None:
            faults.append("the server ended")
        elif number % GOES_ON_AFTER == 0 and not self.ground.goes_on():
            faults.append("the honest client doesn't go on")
        elif serving.program != serving.MODEL and serving.memory(self.ground.server, "VmHWM") > MOST_MEMORY:
            faults.append(f"the server has too much memory: {serving.memory(self.ground.server, 'VmHWM')}")
        if serving.program != serving.MODEL and not within_memory():
            faults.append(f"a program had too much memory: {resource.getrusage(resource.RUSAGE_CHILDREN).ru_maxrss} KB")
        self.note(number, name, faults)
        if faults:
            self.note(number, "servers", self.ground.end(by_signal=False))
            shutil.rmtree(self.ground.store, ignore_errors=True)
            self.ground = None
            self.next_ground(number)

    def note(self, number, name, faults):
        for fault in faults:
            self.faults.setdefault(name, []).append(f"input {number}, {name}: {fault}")


class Words:
    """What the command line says."""

    def __init__(self, words):
        self.seconds, self.seed, self.first, self.count, self.targets = SECONDS, SEED, 0, None, []
        words = iter(words)
        for word in words:
            if word in ("--seconds", "--seed", "--first", "--count"):
                setattr(self, word[2:], int(next(words)))
            elif word == "--models":
                serving.program = serving.MODEL
            elif word in TARGETS:
                self.targets.append(word)
            else:
                sys.exit(__doc__)
        self.targets = self.targets or list(TARGETS)


def main():
    words = Words(sys.argv[1:])
    if serving.program != serving.MODEL and not tally.is_there("fuzzing", serving.PROGRAM[0]):
        return 1
    started = time.monotonic()
    with tempfile.TemporaryDirectory() as at:
        tried = Run(at, words)
        tried.all()
    counts = ", ".join(f"{count} {name}" for name, count in tried.counts.items())
    print(f"fuzzing: {sum(tried.counts.values())} inputs of seed {words.seed} in {time.monotonic() - started:.0f} s: {counts}")
    results = {name: name not in tried.faults for name in (*TARGETS, "servers")}
    for fault in sum(tried.faults.values(), []):
        print(f"fuzzing: {fault}")
    return tally.told("fuzzing", results)


if __name__ == "__main__":
    sys.exit(main())
