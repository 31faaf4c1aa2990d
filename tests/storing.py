#!/usr/bin/env python3
"""Tries `sundr serve --store` over loopback: what is stored is there after the server was ended, killed at random moments, or had no
room; files that are none of a store, or of another one, are refused with one line and left as they are. And `sundr backup`: a copy
that is made while clients commit has all that was acknowledged before, whatever became of it between, and can be served in the
place of the server; what is no server of the copy's list is told of, and changes nothing.

usage: storing.py [PART..]

Prints how many commits the kills lost, a line for each case that isn't as it should be, and last 'N passed, M failed'.
"""
import hashlib
import os
import random
import resource
import shutil
import signal
import sqlite3
import sys
import tempfile
import threading
import time

import bad_server
import logs
import serving
import wire
from desk_model import Refused, sha256
from serving import Running, free_port, is_told, read

KILLS = 50
BACKUP_KILLS = 10
LONGEST_BACKUP = 0.06  # seconds from the start of a backup to its kill, at most
MOST_SECONDS = 90  # for the kills of servers
LONGEST_ROUND = 0.3  # seconds from the first commit of a round to its kill, at most
FILE = "records.db"
COUNT = "records.count"
FLIPS = 200
FLIPPED = 40  # commits of the store whose bits are flipped
LIMIT = 5_000_000  # bytes of a file where there is no room: the log that is written first has 4 MiB
FILES = (460, 560, 1060)  # writes of 64 KiB after which there is one file, two, and three
MOST_OF_FILES = 120_000_000  # bytes of memory over three files, of which two are read at most
SMALL = 40_000  # bytes of a file where there is no room for three records


class Room(serving.Room):
    """A folder with the keys of some users, of 1,024 leaves each."""

    def __init__(self, at, users=2):
        self.at, self.names, self.key_files, self.publics = at, 0, [], []
        for user in range(users):
            key = f"{at}/key {user}"
            entropy = self.file(random.Random(f"storing {user}").randbytes(48))
            words = ["keygen", "--entropy", entropy, "--out", key, "--height", 10, "--width", 4]
            with Running(words) as made:
                made.end()
            self.key_files.append(key)
            self.publics.append(f"{key}.pub")


class Keeping(Running):
    """A server with a store, which listens once this is made, or has ended."""

    def __init__(self, room, store, sessions=None, capacity=100000, cache=None, **how):
        self.port = free_port()
        words = ["serve", "--port", self.port, "--workers", 4, "--capacity", capacity, "--store", store]
        options = {"--sessions": sessions, "--cache": cache}
        more = [word for name, value in options.items() if value for word in (name, value)]
        super().__init__([*words, *more, *room.publics], **how)
        self.said = self.told.next()


def names_in(lines):
    """The names that `ls` printed."""
    return {line.split(b" ")[0] for line in lines}


def bytes_of(store):
    """What the file of a store holds. (A log may be made beside it.)"""
    return hashlib.sha256(read(f"{store}/{FILE}")).hexdigest()


# ---- what is stored stays

def ends(at):
    room, store, log = Room(at), f"{at}/store", f"{at}/log"
    with Keeping(room, store) as server:
        yield f"listens: {server.said}", f"listening on 127.0.0.1:{server.port} with 0 records, until".encode() in server.said
        with room.client(server.port, 0) as ann:
            yield "stores", ann.say(b"mkdir /d") == [b"ok 1"] and ann.say(b"create /d/f") == [b"ok 2"]
            yield "writes", ann.say(b"write /d/f 0 6869") == [b"ok 3"]
        server.process.send_signal(signal.SIGTERM)
        yield "is_ended_by_a_signal", server.process.wait(serving.WAIT) == -signal.SIGTERM
    with Keeping(room, f"{at}/new", sessions=1) as server:
        replied = serving.session_of(server.port, [serving.ASKED])
        yield f"all_requests_of_a_server_with_a_store: {replied}", replied == serving.TOLD
    with Keeping(room, store, sessions=3) as server:
        yield f"tells_how_many_records: {server.said}", b" with 3 records, for 3 sessions" in server.said
        with room.client(server.port, 1) as bob:
            yield "shows_what_was_stored", bob.say(b"cat /d/f 0 9") == [b"6869"]
            yield "goes_on", bob.say(b"create /e") == [b"ok 4", b"ok 5"]
            bob.say(b"save " + log.encode())
            bob.end()
        with room.client(server.port, 0, "--log", log) as ann:
            yield "undoes_what_was_stored_before", ann.say(b"undo 3") == [b"ok 6"]
            yield "blocks_as_before", ann.say(b"undo 1") == [b"no 39 Change 28 Blocked 4"]
            ann.end()
        with room.client(server.port, 1, "--log", log) as bob:
            yield "serves_a_saved_log", names_in(bob.say(b"ls /")) == {b"d", b"e"}
            bob.end()
        printed, told, status = server.end()
        yield f"ends_after_its_sessions: {told}", (printed, status) == ([], 0) and len(told) == 1
    yield "audits", serving.audit(room, log)[0] == [b"ok 5"]
    with Keeping(room, store, sessions=1) as server:
        with room.client(server.port, 1, "--log", log) as bob:
            yield "shows_the_undo", bob.say(b"cat /d/f 0 9") == [b""]


def asked_to_end(at):
    """A line `stop` on its standard input ends a server in order: what was in the log is in the file then."""
    room, store = Room(at), f"{at}/store"
    with Keeping(room, store) as server:
        with room.client(server.port, 0) as ann:
            yield "stores", ann.say(b"create /f") == [b"ok 1"]
            server.write(b"no word\nstopped\n\nsto")
            yield "goes_on_at_another_line", ann.say(b"create /g") == [b"ok 2"]
            server.write(b"p\n")
            printed, told, status = server.end()
            yield f"ends_in_order: {told}", (printed, status) == ([], 0) and is_told(told, "2 commits stored")
    count = read(f"{store}/{FILE}").count(b"SV03")
    yield f"the_records_are_in_the_file: {count}", count >= 2
    with Keeping(room, store, sessions=1) as server:
        yield "nothing_is_missing", names_in(room.run(server.port, 1, b"ls /\n")[0]) == {b"f", b"g"}


def two_servers(at):
    room, store = Room(at), f"{at}/store"
    with Keeping(room, store) as server:
        with room.client(server.port, 0) as ann:
            ann.say(b"create /f")
            with Keeping(room, store) as second:
                _, told, status = second.end()
                yield f"one_server_a_store: {second.said}", status == 1 and is_told([second.said, *told], f"{store}/{FILE}", "in use by another")
            yield "the_first_goes_on", ann.say(b"create /g") == [b"ok 2"]


# ---- kills

class Writer(threading.Thread):
    """A user's client that makes files in the user's own directory until the link fails or that is over, and saves its log after
    each."""

    def __init__(self, room, port, user, first):
        super().__init__()
        self.room, self.port, self.user, self.made = room, port, user, first
        self.log, self.ready = f"{room.at}/log_{user}", threading.Event()
        self.listed, self.acknowledged, self.others, self.is_over = None, [], [], threading.Event()

    def run(self):
        # (so that the leaves of a key last for all kills)
        with self.room.client(self.port, self.user, "--log", self.log, "--leaves-ahead", 1) as client:
            printed = client.say(b"ls /%d" % self.user)
            self.ready.set()
            if any(line.startswith(b"no ") for line in printed):
                self.others.append(printed)
                return
            self.listed = names_in(printed)
            while not self.is_over.is_set():
                name = b"%d" % self.made
                self.made += 1
                printed = client.say(b"create /%d/%b" % (self.user, name))
                if len(printed) != 1 or not printed[0].startswith(b"ok "):
                    if not any(b"Failed" in line or b"answer" in line for line in printed):
                        self.others.append(printed)
                    return
                self.acknowledged.append(name)
                client.say(b"save " + self.log.encode())


def round_of(chance, room, store, first):
    """A server that is killed while two clients commit, and these."""
    with Keeping(room, store) as server:
        writers = [Writer(room, server.port, user, first[user]) for user in range(2)]
        for writer in writers:
            writer.start()
        for writer in writers:
            writer.ready.wait(serving.WAIT)
        time.sleep(chance.random() * LONGEST_ROUND)
        server.kill()
        for writer in writers:
            writer.join()
    return server, writers


def kills(at):
    chance, room, store = random.Random(7), Room(at), f"{at}/store"
    acknowledged, lost, refused, first = [set(), set()], set(), [], [0, 0]
    with Keeping(room, store, sessions=2) as server:
        for user in range(2):
            save = b"mkdir /%d\nsave %b\n" % (user, f"{at}/log_{user}".encode())
            room.run(server.port, user, save)
    rounds, until = 0, time.monotonic() + MOST_SECONDS
    while rounds < KILLS and time.monotonic() < until and not refused:
        rounds += 1
        server, writers = round_of(chance, room, store, first)
        if not server.said or b"listening" not in server.said:
            refused.append(server.said)
        for writer in writers:
            if writer.listed is not None:
                lost |= acknowledged[writer.user] - writer.listed
            first[writer.user] = writer.made
            acknowledged[writer.user].update(writer.acknowledged)
            refused += writer.others
    with Keeping(room, store, sessions=1) as server:
        with room.client(server.port, 0, "--log", f"{at}/log_0") as ann:
            for user in range(2):
                lost |= acknowledged[user] - names_in(ann.say(b"ls /%d" % user))
    count = sum(map(len, acknowledged))
    print(f"storing: {rounds} kills of the server, {count} files acknowledged, {len(lost)} lost")
    yield f"nothing_acknowledged_is_lost: {sorted(lost)[:5]}", not lost
    yield f"no_client_refuses_the_server: {refused[:3]}", not refused
    yield f"kills_while_clients_commit: {rounds} rounds, {count} files", rounds >= 10 and count >= rounds


# ---- damage

def with_a_flipped_bit(chance, store, copy):
    """A copy of a store's folder with one bit of its file or of the log changed: which file, and where."""
    shutil.rmtree(copy, ignore_errors=True)
    shutil.copytree(store, copy)
    sizes = {name: os.path.getsize(f"{copy}/{name}") for name in (FILE, f"{FILE}-wal") if os.path.exists(f"{copy}/{name}")}
    place = chance.randrange(8 * sum(sizes.values()))
    for name, size in sizes.items():
        if place < 8 * size:
            break
        place -= 8 * size
    with open(f"{copy}/{name}", "r+b") as file:
        file.seek(place // 8)
        byte = file.read(1)[0]
        file.seek(place // 8)
        file.write(bytes([byte ^ 1 << place % 8]))
    return f"{name}:{place}"


def start_of(room, store, names):
    """What becomes of a server over a folder: it is refused with one line, shows these names, or fewer."""
    with Keeping(room, store, sessions=1) as server:
        if server.said and b"listening" in server.said:
            shown = names_in(room.run(server.port, 0, b"ls /\n")[0])
            return "all" if shown == names and b" with %d records" % len(names) in server.said else "fewer"
        printed, told, status = server.end()
        return "refused" if (printed, status) == ([], 1) and is_told([server.said, *told], store) else "unsaid"


def damage(at):
    """Whatever bit of a store flips that was ended or killed: a server says so, or shows all that was acknowledged."""
    room, store, copy, chance = Room(at), f"{at}/store", f"{at}/copy", random.Random(41)
    names, became = set(), {}
    with Keeping(room, store) as server:
        for line in room.run(server.port, 0, b"".join(b"create /%d\n" % number for number in range(FLIPPED)))[0]:
            names.add(b"%d" % (int(line.split(b" ")[1]) - 1))
        server.process.send_signal(signal.SIGINT)
        server.process.wait(serving.WAIT)
    for _ in range(FLIPS):
        place = with_a_flipped_bit(chance, store, copy)
        became.setdefault(start_of(room, copy, names), []).append(place)
    counts = {how: len(places) for how, places in sorted(became.items())}
    print(f"storing: {FLIPS} copies of a store with one bit flipped: {counts}")
    yield f"a_flipped_bit_is_told_or_harmless: {counts} {became.get('fewer', [])[:3]}", set(counts) <= {"all", "refused"}
    yield "and_some_are_told", counts.get("refused", 0) > FLIPS // 4
    yield from without_parts(room, store, copy, names)


def without_parts(room, store, copy, names):
    """A log, a file or a count that is gone or emptied is told too."""
    def left(*gone):
        shutil.rmtree(copy, ignore_errors=True)
        shutil.copytree(store, copy)
        for name in gone:
            os.remove(f"{copy}/{name}")
        return start_of(room, copy, names)

    yield "all_of_it_is_served", left() == "all"
    yield "without_its_log_it_is_told", left(f"{FILE}-wal") == "refused"
    yield "without_its_count_it_is_served", left(COUNT) == "all"
    yield "what_is_left_is_served_once_that_is_asked_for", left(f"{FILE}-wal", COUNT) == "fewer"
    yield "and_then_counted_anew", start_of(room, copy, names) == "fewer"
    left()
    yield f"the_count_is_noted: {read(f'{copy}/{COUNT}')}", read(f"{copy}/{COUNT}") == b"%d\n" % len(names)
    with open(f"{copy}/{COUNT}", "wb") as file:
        file.write(b"many\n")
    yield "what_is_no_count_is_told", start_of(room, copy, names) == "refused"


# ---- no room

def limits(size):
    """What lets a program write no more than so many bytes of a file."""
    def limited():
        signal.signal(signal.SIGXFSZ, signal.SIG_IGN)
        resource.setrlimit(resource.RLIMIT_FSIZE, (size, size))
    return limited


def no_room(at):
    room, store = Room(at), f"{at}/store"

    def line_of(number):
        """A write of 60,000 bytes, which tell its number."""
        return b"write /f 0 " + b"%08x" % number * 15000

    with Keeping(room, store, preexec_fn=limits(LIMIT)) as server:
        with room.client(server.port, 0) as ann, room.client(server.port, 1) as bob:
            bob.say(b"ls /")
            ann.say(b"create /f")
            number, printed = -1, []
            while printed in ([], [b"ok %d" % (number + 2)]) and number < 300:
                number += 1
                printed = ann.say(line_of(number))
            yield f"stores_while_there_is_room: {number}", number > 3
            yield f"the_link_fails_then: {printed}", any(b"LinkFailed" in line for line in printed)
            yield "the_client_ends_with_a_fault", ann.end()[2] == 1
            printed, told, status = server.end()
            yield f"the_server_ends_and_tells_why: {told} {status}", (printed, status) == ([], 1) and any(FILE.encode() in it for it in told)
    with Keeping(room, store, sessions=1) as server:
        with room.client(server.port, 1) as bob:
            kept = bob.say(b"cat /f 0 4")
            yield f"all_that_was_acknowledged_is_there: {kept} {number}", kept in ([b"%08x" % (number - 1)], [b"%08x" % number])
            yield "and_it_goes_on", bob.say(b"mkdir /more")[-1].startswith(b"ok ")


# ---- a small cache

WRITES = 400  # of 65,536 bytes, which a cache of 1 MiB has no room for
MOST_SPARED = 12_000_000  # bytes of items that a small cache may fail to spare: the allocator's own room


def large(number):
    """65,536 bytes that tell a number, as a line has them."""
    return b"%08x" % number * 16384


def fill_files(room, port):
    """Makes files of at most 1 MiB by many writes, and tells how many of these were refused."""
    refused = 0
    with room.client(port, 0) as client:
        for n in range(WRITES):
            if n % 16 == 0:
                client.say(b"create /%d" % (n // 16))
            refused += client.say(b"write /%d %d " % (n // 16, n % 16 * 65536) + large(n))[-1:] == []
        client.end()
    return refused


def shows_files(room, port, *more):
    """Whether another user's client reads what stands in the files."""
    with room.client(port, 1, *more) as client:
        return all(client.say(b"cat /%d %d 4" % (n // 16, n % 16 * 65536)) == [b"%08x" % n] for n in range(0, WRITES, 7))


def items_in(log):
    """The items of a saved log, in order."""
    data, place, parts = read(log), 0, []
    while place < len(data):
        size = int.from_bytes(data[place:place + 4], "big")
        parts.append(data[place + 4:place + 4 + size])
        place += 4 + size
    return parts[1::2]


def gives(port, items):
    """Whether a server gives each of these items."""
    try:
        link = wire.connect(port)
        given = [serving.reply_to(link, wire.get(sha256(item))) == ("item", item) for item in items]
        link.close()
        return all(given)
    except (OSError, wire.LinkEnded, Refused):  # a fault of the store: no reply that fits, and the server ends
        return False


def blank(path):
    """Puts zeros in the place of a file's bytes, but for its first pages."""
    with open(path, "r+b") as file:
        file.seek(65536)
        file.write(bytes(os.path.getsize(path) - 65536))


def small_cache(at):
    memory, kept = {}, {}
    for cache in (1, 256):
        room, store, log = Room(at), f"{at}/store_{cache}", f"{at}/log_{cache}"
        with Keeping(room, store, cache=cache) as server:
            yield f"stores_with_{cache}", fill_files(room, server.port) == 0
            yield f"shows_with_{cache}", shows_files(room, server.port)
            with room.client(server.port, 0) as ann:
                yield f"saves_with_{cache}", ann.say(b"save " + log.encode()) == []
                ann.end()
            # its items are put once more
            yield f"shows_to_who_has_a_log_with_{cache}", shows_files(room, server.port, "--log", log)
            memory[cache] = serving.memory(server, "VmHWM")
            server.kill()
        with Keeping(room, store, cache=cache) as server:
            yield f"shows_anew_with_{cache}", shows_files(room, server.port)
            items = items_in(log)[::7]
            yield f"gives_items_with_{cache}", gives(server.port, items)
            blank(f"{store}/{FILE}")
            kept[cache] = gives(server.port, items)
    print(f"storing: {WRITES * 65536 // 1000000} MB of items, served in {memory[1] // 1000000} MB with a cache of 1 MiB, "
          f"in {memory[256] // 1000000} with one of 256")
    yield f"a_small_cache_spares_memory: {memory}", memory[256] - memory[1] > WRITES * 65536 - MOST_SPARED
    yield f"and_a_large_one_keeps_what_was_read_back: {kept}", kept == {1: False, 256: True}


# ---- items that no commit names

SHARDS, LEAST_STAYING, LARGEST_ITEM = 16, 1_048_576, 70_000  # of these items a shard has room for some, however small the cache is
OUTSIDE_TURNS = LEAST_STAYING // 4 * 3  # what of that is for items that come outside a turn
COST = 256  # what an item counts for besides its bytes
ITEMS = 400


def fit(room):
    """How many of the largest items there is room for in so many bytes of each shard."""
    return SHARDS * (room // (LARGEST_ITEM + COST))


def item_of(number):
    """The largest item, which tells a number."""
    return b"%07d" % number * (LARGEST_ITEM // 7)


def put_all(link, numbers):
    """Those of these items that are held, and those for which there is no room."""
    replies = {number: serving.reply_to(link, wire.put(item_of(number))) for number in numbers}
    held = [number for number, reply in replies.items() if reply == ("put_done", sha256(item_of(number)))]
    return held, [number for number, reply in replies.items() if reply == ("refused", "30 NoMemory")]


def commit_for(room, item):
    """The first commit of user 0, of a change that has this item, whatever it is."""
    maker = logs.Maker(room.keys)
    return maker.sign(logs.Version(0, maker.prev, sha256(item), bytes(32), [], maker.raised(0, [])))


def room_of_items(at):
    """Items stay in their session until a commit names them, as many as there is room for; one that has none is refused, and changes nothing."""
    room, store = serving.Room(at), f"{at}/store"
    with Keeping(room, store, cache=1) as server:
        link = wire.connect(server.port)
        held, refused = put_all(link, range(ITEMS))
        is_full = len(held) == fit(OUTSIDE_TURNS) and len(held) + len(refused) == ITEMS
        yield f"as_many_as_there_is_room_for: {len(held)} {len(refused)}", is_full
        given = [serving.reply_to(link, wire.get(sha256(item_of(number)))) == ("item", item_of(number)) for number in held]
        yield "those_that_were_put_stay", all(given)
        missing = {serving.reply_to(link, wire.get(sha256(item_of(number)))) for number in refused}
        yield f"those_that_were_refused_are_not_there: {missing}", missing == {("refused", "5 MissingBlock")}
        yield "each_can_be_put_again", put_all(link, held) == (held, []) and put_all(link, refused) == ([], refused)
        kept = item_of(held[0])
        stored = [serving.reply_to(link, request) for request in (wire.GRANT, wire.commit(commit_for(room, kept)))]
        yield f"one_is_kept_with_a_commit: {stored}", stored == [("granted", (0, {})), ("stored", 1)]
        more, _ = put_all(link, refused)
        yield f"which_makes_room_for_one: {more}", len(more) == 1
        yield "and_is_there_still", serving.reply_to(link, wire.get(sha256(kept))) == ("item", kept)
        yield "and_may_be_put_again", put_all(link, held[:1]) == (held[:1], [])
        left = sorted(set(refused) - set(more))
        yield "which_takes_no_room", put_all(link, more) == (more, []) and put_all(link, left) == ([], left)
        yield "the_turn_is_taken", serving.reply_to(link, wire.GRANT)[0] == "granted"
        within, beyond = put_all(link, left)
        yield f"within_it_there_is_room_besides: {len(within)}", len(within) == fit(LEAST_STAYING) - fit(OUTSIDE_TURNS)
        given = serving.reply_to(link, wire.GIVE)
        yield f"which_ends_with_it: {given}", given[0] == "given" and put_all(link, beyond) == ([], beyond)
        link.close()
        server.kill()
    with Keeping(room, store, cache=1) as server:
        link = wire.connect(server.port)
        yield "the_item_comes_back_with_its_commit", serving.reply_to(link, wire.get(sha256(kept))) == ("item", kept)
        lost = serving.reply_to(link, wire.get(sha256(item_of(held[1]))))
        yield f"what_no_commit_names_does_not: {lost}", lost == ("refused", "5 MissingBlock")
        link.close()


def is_gone_soon(link, number):
    """Whether an item goes within a few seconds, in which the session that put it ends."""
    for _ in range(100):
        if serving.reply_to(link, wire.get(sha256(item_of(number)))) == ("refused", "5 MissingBlock"):
            return True
        time.sleep(0.1)
    return False


def items_of_sessions(at):
    """What a session put and no commit named goes when it ends, with a store and without one, and what a commit named doesn't."""
    room, store = serving.Room(at), f"{at}/store"
    for name, begin in (("without", lambda: serving.Server(room, "--cache", 1)), ("with", lambda: Keeping(room, store, cache=1))):
        with begin() as server:
            stays, link = wire.connect(server.port), wire.connect(server.port)
            held, refused = put_all(link, range(ITEMS))
            named, both, mine = held[:3]
            yield f"another_may_put_what_is_there_{name}", put_all(stays, [named, both]) == ([named, both], [])
            stored = [serving.reply_to(stays, request) for request in (wire.GRANT, wire.commit(commit_for(room, item_of(named))))]
            yield f"and_commit_it_{name}: {stored}", stored == [("granted", (0, {})), ("stored", 1)]
            link.close()
            yield f"the_rest_goes_{name}", is_gone_soon(stays, mine) and is_gone_soon(stays, held[-1])
            left = [serving.reply_to(stays, wire.get(sha256(item_of(number)))) for number in (named, both)]
            yield f"what_is_named_or_put_twice_stays_{name}", left == [("item", item_of(number)) for number in (named, both)]
            again, _ = put_all(stays, refused)
            yield f"and_there_is_room_anew_{name}: {len(again)}", len(again) > len(refused) // 2
            stays.close()
            last = wire.connect(server.port)
            yield f"which_goes_as_well_{name}", is_gone_soon(last, both) and is_gone_soon(last, again[-1])
            yield f"but_what_is_named_{name}", serving.reply_to(last, wire.get(sha256(item_of(named)))) == ("item", item_of(named))
            last.close()
            server.kill()


def tiny_items(at):
    """Small items fill the room, and not the memory: each takes about what is counted for it, of which 256 bytes are not its own."""
    room, store = serving.Room(at), f"{at}/store"
    with Keeping(room, store, cache=1) as server:
        link, before, count = wire.connect(server.port), serving.memory(server, "VmHWM"), 0
        while count < 200_000 and serving.reply_to(link, wire.put(count.to_bytes(4, "big")))[0] != "refused":
            count += 1
        grown = serving.memory(server, "VmHWM") - before
        print(f"storing: {count} items of 4 bytes fill a room of 12 MiB, {grown // 1000000} MB of memory")
        yield f"as_many_as_are_counted: {count}", count <= SHARDS * OUTSIDE_TURNS // 260
        yield f"and_no_more_memory_than_that_by_half: {grown}", 0 < grown < SHARDS * LEAST_STAYING * 3 // 2
        link.close()


# ---- strangers

def floods(port, is_over, taken):
    """Connections that say nothing, and small items, until it is over; which items were taken."""
    held, link = [], wire.connect(port)
    for number in range(1_000_000):
        if is_over.is_set():
            break
        try:
            if serving.reply_to(link, wire.put(b"%d" % number))[0] == "put_done":
                taken.append(number)
            if number % 50 == 0:
                held.append(serving.wire_socket(port))
        except (OSError, wire.LinkEnded):
            link = wire.connect(port)
    for one in held:
        one.close()


def strangers(at):
    """Beside strangers who idle, hold the turn, don't read and send much, a user's operations are all done."""
    room, is_over, taken = Room(at), threading.Event(), []
    with serving.Server(room, "--turn-seconds", 3, workers=8) as server:
        before = serving.memory(server, "VmHWM")
        idle = [serving.wire_socket(server.port) for _ in range(64)]
        holder = serving.wire_socket(server.port)
        holder.sendall(wire.frame(wire.GRANT))
        deaf_ = serving.wire_socket(server.port)
        deaf_.setblocking(False)
        try:
            for _ in range(100_000):
                deaf_.send(wire.frame(wire.fetch(1)))
        except OSError:
            pass  # its end is full
        flood = threading.Thread(target=floods, args=(server.port, is_over, taken))
        flood.start()
        waits, done = [], 0
        with room.client(server.port, 0, "--tries", 1_000_000) as ann:
            for number in range(200):
                took, said = serving.timed(lambda number=number: ann.say(b"create /%d" % number))
                waits.append(took)
                done += said == [b"ok %d" % (number + 1)]
        is_over.set()
        flood.join()
        grown = serving.memory(server, "VmHWM") - before
        print(f"storing: beside strangers {done} of 200 operations done, the longest wait {max(waits):.1f} s, {grown // 1000000} MB more, "
              f"{len(taken)} small items taken")
        yield f"all_is_done_beside_strangers: {done}", done == 200
        yield f"nobody_waits_longer_than_a_turn_and_a_place: {max(waits)}", max(waits) < 15
        yield f"and_memory_is_bounded: {grown}", grown < 100_000_000
        for link in (*idle, holder, deaf_):
            link.close()


# ---- several files

def in_files(room, port, user, first, last):
    """Writes of 64 KiB with these numbers into files of 16 each; how many of them weren't acknowledged."""
    refused = 0
    with room.client(port, user) as client:
        for n in range(first, last):
            if n % 16 == 0:
                client.say(b"create /%d" % (n // 16))
            refused += not client.say(b"write /%d %d " % (n // 16, n % 16 * 65536) + large(n))[-1].startswith(b"ok ")
        client.end()
    return refused


def reads_of(room, port, numbers):
    """Whether another user's client reads what these writes put."""
    with room.client(port, 1) as client:
        return all(client.say(b"cat /%d %d 4" % (n // 16, n % 16 * 65536)) == [b"%08x" % n] for n in numbers)


def files_of(store):
    return sorted(name for name in os.listdir(store) if name.endswith(".db"))


def in_the_way(room, store, server):
    """Where the next file is to be made one of something else stands, which is left: the server ends, and tells why. Returns the number
    of the first write that isn't acknowledged."""
    path, first = f"{store}/records-1.db", FILES[0]
    make_other(path)
    before = read(path)
    with room.client(server.port, 0) as client:
        while first < FILES[1] and client.say(b"write /%d %d " % (first // 16, first % 16 * 65536) + large(first))[-1].startswith(b"ok "):
            first += 1
            if first % 16 == 0:
                client.say(b"create /%d" % (first // 16))
        client.end()
    printed, told, status = server.end()
    is_right = (printed, status) == ([], 1) and any(f"{path}: an SQLite file of something else".encode() in line for line in told)
    yield f"a_file_in_the_way_of_the_next: {told} {status}", is_right and FILES[0] < first < FILES[1]
    yield "which_is_left", read(path) == before
    for name in os.listdir(store):
        if name.startswith("records-1.db"):
            os.remove(f"{store}/{name}")
    return first


def several_files(at):
    room, store, memory = Room(at), f"{at}/store", []
    with Keeping(room, store, cache=1) as server:
        yield "stores", in_files(room, server.port, 0, 0, FILES[0]) == 0
        yield "one_file_at_first", files_of(store) == ["records.db"]
        first = yield from in_the_way(room, store, server)
    with Keeping(room, store, cache=1) as server:
        yield f"stores_more_once_it_is_gone: {first}", in_files(room, server.port, 0, first, FILES[1]) == 0
        yield f"then_two: {files_of(store)}", files_of(store) == ["records-1.db", "records.db"]
        yield "reads_from_both", reads_of(room, server.port, (0, 100, FILES[1] - 1))
        server.kill()
    with Keeping(room, store, cache=1) as server:
        yield f"begins_anew: {server.said}", b"listening" in server.said
        yield "reads_from_both_again", reads_of(room, server.port, (0, 100, FILES[1] - 1))
        # one key doesn't sign so many
        yield "goes_on", in_files(room, server.port, 1, FILES[1], FILES[2]) == 0
        memory.append(serving.memory(server, "VmHWM"))
        server.kill()
    with Keeping(room, store, cache=1) as server:
        yield f"begins_with_three: {server.said}", b"listening" in server.said
        yield "reads_from_all", reads_of(room, server.port, (0, 100, FILES[0] + 50, FILES[1], FILES[2] - 1))
        memory.append(serving.memory(server, "VmHWM"))
        server.kill()
    yield f"then_three: {files_of(store)}", files_of(store) == ["records-1.db", "records-2.db", "records.db"]
    print(f"storing: {FILES[2] * 65536 // 1000000} MB of items in 3 files, served in {memory[1] // 1000000} MB")
    yield f"memory_is_bounded: {memory}", memory[1] < MOST_OF_FILES
    with Keeping(room, store, cache=1) as server:
        copy = copied(backup(room, server.port, f"{at}/copy"))
        yield f"a_copy_has_all: {copy}", copy is not None and copy[0] == copy[1]
        yield "in_as_many_files", files_of(f"{at}/copy") == files_of(store)
        server.kill()
    yield from bad_folders(room, f"{at}/copy")


def bad_folders(room, store):
    """A file of several is missing, empty, or none of a store."""
    def told_of(name, *parts):
        with Keeping(room, store) as server:
            printed, told, status = server.end()
            told = [server.said, *told]
        return f"{name}_is_refused: {told}", (printed, status) == ([], 1) and is_told(told, *parts)

    for name in ("records-1.db", "records.db"):
        os.rename(f"{store}/{name}", f"{store}/away")
        yield told_of(f"without_{name}", name, "missing")
        yield f"{name}_is_not_made_anew", not os.path.exists(f"{store}/{name}")
        os.rename(f"{store}/away", f"{store}/{name}")
    good = read(f"{store}/records-1.db")
    with open(f"{store}/records-1.db", "wb") as file:
        file.write(b"no store at all\n" * 300)
    yield told_of("a_text", f"{store}/records-1.db: no sound SQLite file")
    os.remove(f"{store}/records-1.db")
    make_other(f"{store}/records-1.db")
    yield told_of("a_database_of_something_else", f"{store}/records-1.db: an SQLite file of something else")
    os.remove(f"{store}/records-1.db")
    with open(f"{store}/records-1.db", "wb") as file:
        file.write(b"")
    yield told_of("an_empty_file_before_another", f"{store}/records-1.db: damaged at record 0: put a copy of the file in its place")
    with open(f"{store}/records-1.db", "wb") as file:
        file.write(good)
    os.rename(f"{store}/records-2.db", f"{store}/away")
    with open(f"{store}/records-2.db", "wb") as file:
        file.write(b"")
    yield told_of("an_empty_last_file", f"{store}: damaged behind record", f"{store}/{COUNT}")
    os.remove(f"{store}/{COUNT}")
    with Keeping(room, store) as server:
        yield "an_empty_last_file_is_begun_with_once_that_is_asked_for", reads_of(room, server.port, (0, FILES[0] + 50))
        server.kill()


# ---- what is no store

# What the last program wrote that knew the first format alone, and how: these lines, each by a client of its own, and the log that user 1
# saved then. Its server was asked to end. (The users are those of `serving.Room`.)
EARLIER = f"{os.path.dirname(os.path.abspath(__file__))}/earlier"
EARLIER_LINES = (
    (0, "mkdir /d"), (0, "create /d/f"), (0, "write /d/f 0 6561726c696572"), (1, "write /d/f 7 206f6e65"), (1, "create /g"), (0, "undo 3"),
    (0, "truncate /d/f 1048576"), (0, "truncate /d/f 1048577"))
EARLIER_COMMITS = 9
# what is said there now: by whom, which line, and what it prints
LATER_LINES = (
    (0, "ls /", "d G0:2|g G0:4|z G0:5"), (1, "ls /d", "f G0:3"), (0, "cat /d/f 0 12", "6561726c696572206f6e6500"), (1, "undo 9", "no 39 Change 27 NotAuthor 0"),
    (0, "tidy", "ok 11|ok 12"), (0, "truncate /d/f 16777216", "ok 13"), (0, "write /d/f 16777215 41", "ok 14"),
    (0, "undo 9", "no 39 Change 28 Blocked 14"), (0, "undo_last", "ok 15"), (0, "undo_last", "ok 16"), (0, "undo 9", "ok 17"),
    (1, "cat /d/f 0 12", "6561726c696572206f6e65"), (1, "undo 6", "no 39 Change 28 Blocked 11"), (1, "tidy", "ok 18"))


def earlier(at):
    """A store of the first format that an earlier program wrote, and its log: they are served on, and take commits of the newest format, and
    no more of the first; so does a copy of such a store."""
    room, store, saved, copy = serving.Room(at), f"{at}/store", f"{at}/saved", f"{at}/copy"
    shutil.copytree(f"{EARLIER}/store", store)
    later_keys(room)
    ended = serving.audit(room, f"{EARLIER}/log")
    yield f"the_earlier_log_audits: {ended}", ended == ([b"ok %d" % EARLIER_COMMITS], [], 0)
    with Keeping(room, store) as server:
        yield f"is_opened: {server.said}", b" with %d records" % EARLIER_COMMITS in server.said
        link = serving.raw(server.port)
        for name, told, right in serving.falling(room, link, read(f"{EARLIER}/log")):
            yield f"format_falls_{name}: {told}", told == right
        link.close()
        yield from later_lines(room, server.port)
        yield f"is_copied: {copy}", copied(backup(room, server.port, copy)) == (18, 18)
        server.write(b"stop\n")
        ended = server.end()
        yield f"ends_in_order: {ended}", (ended[0], ended[2]) == ([], 0)
    for folder in (store, copy):
        yield from still_there(room, folder, saved)


def later_keys(room):
    """Has the keys sign from a leaf on that isn't used yet."""
    for path, key in zip(room.key_files, room.keys):
        with open(path, "wb") as file:
            file.write(key.file(8))


def later_lines(room, port):
    """What is said at a server of the earlier store by a client who has the earlier log, and one who hasn't."""
    with room.client(port, 0, "--log", f"{EARLIER}/log") as zero, room.client(port, 1) as one:
        for user, line, wanted in LATER_LINES:
            said = (zero, one)[user].say(line.encode())
            yield f"line_{line}: {said}", said == [it.encode() for it in wanted.split("|")]
        ends_ = [it.end() for it in (zero, one)]
        yield f"the_clients_end: {ends_}", ends_ == [([], [], 0)] * 2


def still_there(room, folder, saved):
    """A store of both formats is opened, and all of it is shown."""
    with Keeping(room, folder) as server:
        yield f"has_both_formats: {server.said}", b" with 18 records" in server.said
        ended = room.run(server.port, 1, b"cat /d/f 0 12\nsave %b\n" % saved.encode(), "--log", f"{EARLIER}/log")
        yield f"shows_both: {ended}", ended == ([b"6561726c696572206f6e65"], [], 0)
    forms = [form for _, form, _ in serving.history_of(saved)]
    yield f"are_both_saved: {forms}", forms == [1] * 9 + [3] * 9 and serving.audit(room, saved) == ([b"ok 18"], [], 0)


def with_batches(at):
    """A store with commits of the third format, and batches behind them: another server shows all of it, and takes no more of the third; so
    does a copy."""
    room, store, saved, copy = serving.Room(at), f"{at}/store", f"{at}/saved", f"{at}/copy"
    maker = room.log("1 take G0:1 1; 1 create G0:1 a G0:2 2")
    maker.add(*maker.read("1 batch create G0:1 b U1:3 + write U1:3 0 6869 + write G0:2 0 41"), 4)
    with Keeping(room, store) as server:
        link = serving.raw(server.port)
        told = [serving.hand_in(link, commit, item) for commit, item in maker.records]
        yield f"a_batch_is_stored: {told}", told == [("stored", n) for n in (1, 2, 3)]
        for name, told, right in serving.falling(room, link, maker.log(), older=3):
            yield f"format_falls_behind_a_batch_{name}: {told}", told == right
        link.close()
        ended = room.run(server.port, 0, b"write /a 0 42\n")
        yield f"a_client_goes_on_behind_a_batch: {ended}", ended == ([b"ok 5", b"ok 6"], [], 0)
        yield f"a_store_with_a_batch_is_copied: {copy}", copied(backup(room, server.port, copy)) == (6, 6)
        server.write(b"stop\n")
        server.end()
    for folder in (store, copy):
        with Keeping(room, folder) as server:
            yield f"has_a_batch: {server.said}", b" with 6 records" in server.said
            ended = room.run(server.port, 0, b"ls /\ncat /a 0 9\ncat /b 0 9\nundo 3\nsave %b\n" % saved.encode())
            wanted = [b"a G0:2", b"b U1:3", b"z G0:3", b"42", b"6869", b"no 39 Change 27 NotAuthor 1"]
            yield f"shows_what_a_batch_made: {ended}", ended == (wanted, [], 0)
            link = serving.raw(server.port)
            again = maker.sign(maker.version(1, ("undo", 3), 4))
            yield "a_commit_of_before_is_refused", serving.hand_in(link, again, logs.item_of(("undo", 3))) == ("refused", "34 WrongPrev 6")
            link.close()
        forms = [form for _, form, _ in serving.history_of(saved)]
        yield f"formats_of_a_store_with_a_batch: {forms}", forms == [3, 3, 4, 4, 4, 4] and serving.audit(room, saved) == ([b"ok 6"], [], 0)


def filled(at):
    """A store with three commits, and the room of its users."""
    room, store = Room(at), f"{at}/store"
    with Keeping(room, store, sessions=1) as server:
        room.run(server.port, 0, b"create /a\ncreate /b\nmkdir /c\n")
        server.end()
    return room, store


def refuses(room, store, name, *parts):
    """A server refuses these files with one line that has these parts, and leaves them."""
    before = bytes_of(store)
    with Keeping(room, store) as server:
        printed, told, status = server.end()
        told = [server.said, *told]
    yield f"{name}_is_refused: {told}", (printed, status) == ([], 1) and is_told(told, *parts)
    yield f"{name}_is_left", bytes_of(store) == before


def make_other(path):
    """A database of something else."""
    other = sqlite3.connect(path)
    other.execute("CREATE TABLE note (title TEXT NOT NULL)")
    other.commit()
    other.close()


def bad_files(at):
    room, store = filled(at)
    path, good = f"{store}/{FILE}", read(f"{store}/{FILE}")

    def put(data):
        for name in os.listdir(store):
            os.remove(f"{store}/{name}")
        with open(path, "wb") as file:
            file.write(data)

    put(b"no store at all\n" * 300)
    yield from refuses(room, store, "a_text", f"{path}: no sound SQLite file")
    for name in os.listdir(store):
        os.remove(f"{store}/{name}")
    make_other(path)
    yield from refuses(room, store, "a_database_of_something_else", f"{path}: an SQLite file of something else")
    place = good.rindex(b"SV03") + 50
    put(good[:place] + bytes([good[place] ^ 1]) + good[place + 1:])
    yield from refuses(room, store, "a_changed_byte", path)
    put(good)
    os.link(path, f"{at}/another_name")
    yield from refuses(room, store, "a_file_with_two_names", f"{path}: the file has another name too")
    os.remove(f"{at}/another_name")
    publics = room.publics
    room.publics = publics[::-1]
    yield from refuses(room, store, "another_roster", "record 1")
    room.publics = publics
    with Keeping(room, store, sessions=1) as server:
        yield "the_right_one_is_served", names_in(room.run(server.port, 1, b"ls /\n")[0]) == {b"a", b"b", b"c"}
    yield from refuses_a_capacity(room, store)
    lost = f"{at}/nowhere/store"
    with Keeping(room, lost) as server:
        printed, told, status = server.end()
        told = [server.said, *told]
    yield f"no_folder_for_it: {told}", (printed, status) == ([], 1) and is_told(told, lost) and not os.path.exists(f"{at}/nowhere")


def refuses_a_capacity(room, store):
    """Where there are more records than the book may store, none is dropped unseen."""
    with Keeping(room, store, capacity=2) as server:
        printed, told, status = server.end()
        told = [server.said, *told]
    yield f"too_small_a_capacity_is_refused: {told}", (printed, status) == ([], 1) and is_told(told, "record 3")


# ---- copies

def backup(room, port, folder, publics=None, **how):
    """What a backup prints and tells, and its status."""
    with Running(["backup", "--port", port, "--to", folder, *(publics or room.publics)], **how) as running:
        return running.end()


def copied(ended):
    """How many records a copy has, and how many of them are new, as a backup that ended well prints it."""
    printed, told, status = ended
    words = printed[0].split(b" ") if len(printed) == 1 else []
    if (told, status) != ([], 0) or len(words) != 4 or (words[0], words[2]) != (b"ok", b"new"):
        return None
    return int(words[1]), int(words[3])


def at_work(room, port):
    """Two clients that commit, each in a directory of its own, once each has had a few commits acknowledged; and how many commits
    the directories took."""
    made = 0
    for user in range(2):
        made += len(room.run(port, user, b"mkdir /%d\nsave %b\n" % (user, f"{room.at}/log_{user}".encode()))[0])
    writers = [Writer(room, port, user, 0) for user in range(2)]
    for writer in writers:
        writer.start()
    until = time.monotonic() + serving.WAIT
    while time.monotonic() < until and any(len(writer.acknowledged) < 3 for writer in writers):
        time.sleep(0.01)
    return writers, made


def shows(room, folder, *more):
    """What is in the directories of the users, as a server over a copy shows it."""
    with Keeping(room, folder, sessions=2) as server:
        return [names_in(room.run(server.port, user, b"ls /%d\n" % user, *more)[0]) for user in range(2)]


def backs_up(at):
    room, store, folder, early = Room(at), f"{at}/store", f"{at}/copy", f"{at}/early"
    with Keeping(room, store) as server:
        writers, made = at_work(room, server.port)
        before = [set(writer.acknowledged) for writer in writers]
        first = copied(backup(room, server.port, folder))
        yield f"a_copy_while_clients_commit: {first}", first is not None and first[0] == first[1] >= 8
        shutil.copytree(folder, early)
        for writer in writers:
            writer.is_over.set()
            writer.join()
        yield f"no_client_fails: {[writer.others for writer in writers]}", not any(writer.others for writer in writers)
        again = copied(backup(room, server.port, folder))
        count = made + sum(len(writer.acknowledged) for writer in writers)
        yield f"only_the_new_ones_come: {first} {again} {count}", again == (count, count - first[0])
        yield "none_is_new_then", copied(backup(room, server.port, folder)) == (count, 0)
        server.kill()
    for user, listed in enumerate(shows(room, early)):
        yield f"what_was_acknowledged_before_is_copied: {user}", before[user] <= listed
    for user, listed in enumerate(shows(room, folder)):
        yield f"all_is_copied: {user}", listed == set(writers[user].acknowledged)
    with Keeping(room, folder, sessions=4) as server:
        for user in range(2):
            with room.client(server.port, user, "--log", f"{at}/log_{user}") as client:
                said = client.say(b"ls /%d" % user)
                yield f"who_has_a_log_goes_on: {user} {said[:3]}", names_in(said) == set(writers[user].acknowledged)
                said = client.say(b"create /%d/more" % user)
                yield f"and_stores: {user} {said}", said == [b"ok %d" % (count + 1 + user)]


def backup_kills(at):
    chance, room, store, folder = random.Random(8), Room(at), f"{at}/store", f"{at}/copy"
    with Keeping(room, store) as server:
        count, killed = 150, 0
        made = room.run(server.port, 0, b"".join(b"create /%d\n" % number for number in range(count)))
        yield "stores", made == ([b"ok %d" % (number + 1) for number in range(count)], [], 0)
        for _ in range(BACKUP_KILLS):
            with Running(["backup", "--port", server.port, "--to", folder, *room.publics]) as running:
                time.sleep(chance.random() * LONGEST_BACKUP)
                killed += running.process.poll() is None
        last = copied(backup(room, server.port, folder))
        print(f"storing: {killed} kills of a backup, {last and last[0] - last[1]} records copied before the last one")
        yield f"goes_on_after_kills: {last}", last is not None and last[0] == count and killed >= 2
    with Keeping(room, folder, sessions=1) as server:
        listed = names_in(room.run(server.port, 1, b"ls /\n")[0])
        yield "nothing_is_missing", listed == {b"%d" % number for number in range(count)}


def refuses_a_copy(name, room, port, folder, *parts, **how):
    """A backup ends with one line that has these parts, and leaves the folder as it is."""
    before = bytes_of(folder) if os.path.exists(folder) else None
    printed, told, status = backup(room, port, folder, **how)
    yield f"{name}_is_told: {told}", (printed, status) == ([], 1) and is_told(told, *parts)
    yield f"{name}_changes_nothing", (bytes_of(folder) if os.path.exists(folder) else None) == before


def bad_backups(at):
    room, store = filled(at)
    copy, others = f"{at}/copy", room.publics[::-1]
    with Keeping(room, store) as server:
        yield "a_copy", copied(backup(room, server.port, copy)) == (3, 3)
        yield from refuses_a_copy("another_roster", room, server.port, copy, "record 1 of the copy", publics=others)
        made = backup(room, server.port, f"{at}/new", publics=others)
        yield f"another_roster_of_a_new_copy: {made}", made[::2] == ([], 1) and is_told(made[1], "record 1 of the server")
        yield from refuses_a_copy("no_folder", room, server.port, f"{at}/nowhere/copy", f"{at}/nowhere/copy: ")
        with Keeping(room, copy):
            yield from refuses_a_copy("a_folder_in_use", room, server.port, copy, f"{copy}/{FILE}", "in use")
        made = backup(room, server.port, f"{at}/small", preexec_fn=limits(SMALL))
        yield f"no_room_is_told: {made}", made[::2] == ([], 1) and is_told(made[1], f"{at}/small/{FILE}")
        yield "and_goes_on_with_room", copied(backup(room, server.port, f"{at}/small"))[0] == 3
    with serving.Server(room) as server:
        yield from refuses_a_copy("an_empty_server", room, server.port, copy, "record 3 of the copy")
        room.run(server.port, 1, b"create /x\nmkdir /y\ncreate /z\ncreate /more\n")
        yield from refuses_a_copy("another_list", room, server.port, copy, "record 3 of the copy")
    port = free_port()
    yield from refuses_a_copy("no_server", room, port, copy, f"port {port}")
    yield from refuses_a_copy("no_server_of_a_new_copy", room, port, f"{at}/none", f"port {port}")
    with Keeping(room, store) as server:
        yield "the_copy_goes_on", copied(backup(room, server.port, copy)) == (3, 0)


def copies_of_lies(at):
    """Servers that show what they should not: the copy has what came before it, and goes on where the truth is shown."""
    room = serving.Room(at)
    records, publics = room.log(serving.STORY).records, room.public_keys
    count = len(records)

    def copy_of(service, folder):
        with bad_server.Server(service) as server:
            return backup(room, server.port, folder)

    lies = {
        "a_forged_signature": (bad_server.Show(publics, bad_server.forge(records, 2)), "record 2 of the server", 1),
        "records_exchanged": (bad_server.Show(publics, bad_server.swap(records, 2, 3)), "record 2 of the server", 1),
        "a_commit_of_junk": (bad_server.Show(publics, bad_server.change(records, 6, lambda _: b"junk")), "record 6", 5),
        "another_item": (bad_server.WrongItem(publics, records), "another item", 0),
        "a_reply_of_nothing": (bad_server.Replies(publics, records, "fetch", b""), "link", None),
        "no_item_in_the_end": (bad_server.Replies(publics, records, "get", b"", at=4), "link", 3),
    }
    for name, (service, part, before) in lies.items():
        folder = f"{at}/{name}"
        printed, told, status = copy_of(service, folder)
        yield f"{name}_is_told: {told}", (printed, status) == ([], 1) and is_told(told, part)
        made = copied(copy_of(bad_server.Show(publics, records), folder))
        yield f"{name}_then_the_truth: {made}", made == (count, count - before if before is not None else made[1])
    fewer = copied(copy_of(bad_server.Show(publics, bad_server.drop(records, 4)), f"{at}/fewer"))
    yield f"up_to_what_is_not_shown: {fewer}", fewer == (3, 3)
    yield from lacking_items(at, room, records, copy_of)


def lacking_items(at, room, records, copy_of):
    """Of a server that lacks items, how many is told; a later copy from one that has them has them too."""
    publics, folder, count = room.public_keys, f"{at}/without", len(records)
    items = {item for _, item in records}
    for name, service in (("none", bad_server.NoItem(publics, records)), ("none_again", bad_server.NoItem(publics, records))):
        printed, told, status = copy_of(service, folder)
        wanted = f"lacks {len(items)} items"
        yield f"a_server_with_{name}_is_told: {told}", (printed, status) == ([], 1) and is_told(told, f"{count} records", wanted)
    with Keeping(room, folder) as server:
        yield "the_copy_has_no_item", not gives(server.port, sorted(items)[:1])
    one = bad_server.NoItem(publics, records, but=records[2][1])
    printed, told, status = copy_of(one, folder)
    yield f"one_item_less_is_told: {told}", (printed, status) == ([], 1) and is_told(told, f"lacks {len(items) - 1} items")
    whole = copied(copy_of(bad_server.Show(publics, records), folder))
    yield f"a_whole_server_fills_it: {whole}", whole == (count, 0)
    with Keeping(room, folder) as server:
        yield "then_the_copy_has_all_items", gives(server.port, sorted(items))


PARTS = (
    ends, asked_to_end, two_servers, kills, damage, no_room, small_cache, room_of_items, items_of_sessions, tiny_items, strangers,
    several_files, earlier, with_batches, bad_files,
    backs_up, backup_kills, bad_backups, copies_of_lies)


def main():
    wanted = sys.argv[1:]
    passed = failed = 0
    for part in PARTS:
        if wanted and part.__name__ not in wanted:
            continue
        with tempfile.TemporaryDirectory() as at:
            for name, right in part(at):
                passed, failed = passed + bool(right), failed + (not right)
                if not right:
                    print(f"storing: {part.__name__}: {name}", flush=True)
    print(f"{passed} passed, {failed} failed")
    return 0 if failed == 0 else 1


if __name__ == "__main__":
    sys.exit(main())
