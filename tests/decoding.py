#!/usr/bin/env python3
"""Tries each decoder on what is near to a good spelling: each cut, and each change of one byte; of long ones each place of the parts that
say how the rest is read, and some of the others. It is refused, or what was read is spelled by just these bytes: which of both, and how
it is refused, the second implementation says. Commits, changes and records of a log are read by an audit, requests by a server, replies
by a client at a server that sends these bytes, key files and public keys by a client and an audit.

usage: decoding.py [--models] [PART..]    with --models it tries the models instead (model_program.py), without the built program

Prints how many spellings were tried, a line for each kind of which one isn't read as it should be, and last 'N passed, M failed'.
"""
import concurrent.futures
import random
import subprocess
import sys
import tempfile

import audit_model
import bad_server
import client_model
import fuzzing
import lms
import logs
import model_server
import mutants
import serving
import tally
import wire
from desk_model import Refused, demand, sha256
from serving import is_told, read

RUNS_AT_ONCE = 4
LONG = 200  # bytes, from which on only some places are tried
SOME = 40  # places of those
MISSING = 1000  # records that aren't there: no client asks for so many in one turn (256 ahead, then each by itself, then 256 ahead)
EACH = 255  # other bytes that there are
ROOT = "G0:1"

tried = {"spellings": 0}


class Spelling:
    """Good bytes of some kind: how they are read and spelled, the places that are all tried, and those at which each byte is."""

    def __init__(self, name, data, read_, spell, fixed=LONG, kinds=()):
        self.name, self.data, self.read, self.spell = name, data, read_, spell
        self.fixed, self.kinds, self.chance = fixed, kinds, random.Random(f"decoding {name}")

    def places(self):
        """All up to a place, and some of the others."""
        return [*range(min(self.fixed, len(self.data))), *mutants.sample(self.chance, self.fixed, len(self.data), SOME)]

    def near(self, count=2, each=EACH):
        """The bytes themselves, cut, with a byte behind them, and with one changed, so often at each place."""
        near = [self.data, *mutants.cuts(self.data, self.places()), self.data + b"\0"]
        near += mutants.changed(self.data, self.places(), self.chance, count)
        near += mutants.changed(self.data, self.kinds, self.chance, each)
        tried["spellings"] += len(set(near))
        return list(dict.fromkeys(near))

    def is_lawful(self, data):
        """Whether the second implementation refuses these bytes, or spells what it reads by them."""
        try:
            return self.spell(self.read(data)) == data
        except Refused:
            return True


# ---- what there is to be read

LINES = {
    "undo": "0 undo 1", "create": "0 create G0:1 abc G0:9 3", "write": "0 write U0:2 70000 " + "7a" * 20, "truncate": "0 truncate U0:2 5",
    "link": "0 link G0:1 l U0:2", "rename": "0 rename G0:1 a G0:1 bc U0:2", "unlink": "0 unlink G0:1 a U0:2", "take": "1 take G0:1 7",
    "drop": "0 drop 3", "rekey": None,
    "batch": "0 batch create G0:1 abc G0:9 4 + write G0:9 7 7a7a + rename G0:1 a G0:1 bc U0:2 + take G0:2 5 + drop 3"}
# the places of an item at which each byte is tried: what says its kind, and of a batch how many operations there are, and the kind of
# the first
KINDS = {"batch": (0, 1, 2, 3, 4)}


class Lists:
    """Lists of commits, behind which each kind of change may stand."""

    def __init__(self):
        self.keys = [logs.key_of(f"decoding {n}", width=4) for n in range(2)]
        self.next_key = logs.key_of("decoding, next", width=4)
        self.publics = [key.public() for key in self.keys]
        self.before = self.of("0 create G0:1 a U0:2")
        # user 1 has taken over a file of user 0's, whose body there is stale
        self.stale = self.of("0 create G0:1 a U0:2; 0 create G0:1 f G0:2 3; 1 take G0:2 1")

    def of(self, text, form=3):
        maker = logs.Maker(self.keys, form)
        for line in text.split("; "):
            maker.say(line)
        return maker

    def change(self, name):
        """The list before a change of that name, its author, and the change."""
        if name == "rekey":
            return self.before, 0, ("rekey", self.next_key.public())
        before = self.stale if name in ("drop", "batch") else self.before
        return before, *before.read(LINES[name])


def commit_places(version):
    """The places of a version structure at which a byte says how the rest is read."""
    count = 101 + 1
    numbers = count + 33 * len(version.groups)
    places = [3, 4, count - 1, *([count] if version.groups else []), numbers]
    return places + ([numbers + 1 + 8 * len(version.vector)] if version.form >= 3 else [])


def commits_of(lists):
    """Good commits, of each format: the list before, the version structure, the item, and the signing key."""
    for name, form, change in (
            ("of_the_first_format", 1, "write"), ("of_the_second_format_with_a_group", 2, "create"), ("without_a_key", 3, "create"),
            ("with_a_key", 3, "rekey"), ("of_the_fourth_format", 4, "create"), ("of_a_batch", 4, "batch"),
            ("of_the_fourth_format_with_a_key", 4, "rekey")):
        before, user, change = lists.change(change)
        if form < 3:
            before = lists.of("0 create G0:1 a U0:2", form)
        yield name, before, before.copy().version(user, change, form), logs.item_of(change)


def spelled_request(value):
    name, field = value
    return {"grant": wire.GRANT, "give": wire.GIVE}.get(name) or getattr(wire, name)(field)


def spelled_reply(value):
    name, field = value
    plain = {"given": wire.GIVEN, "nothing": wire.NOTHING}
    return plain.get(name) or (wire.granted(*field) if name == "granted" else getattr(wire, name)(field))


def signed(before, version_bytes, author):
    """A commit of these bytes of a version structure."""
    signature = before.keys[author].sign(before.leaves[author], version_bytes)
    return version_bytes + logs.u32(len(signature)) + signature


def key_in(data):
    """The parts of a key file."""
    demand(fuzzing.is_key_file(data), "9 BadKey")
    return data[:60], data[60:]


def public_key_in(data):
    demand(lms.is_key(data), "9 BadKey")
    return data


# ---- the second implementation by itself

def spellings(lists):
    """Each kind of spelling there is."""
    for name, before, version, _ in commits_of(lists):
        commit = signed(before, version.encode(), version.author)
        yield Spelling(f"commit_{name}", commit, audit_model.commit_in, lambda it: logs.commit_of(*it), len(version.encode()) + 8, commit_places(version))
    for name in LINES:
        _, _, change = lists.change(name)
        yield Spelling(f"change_{name}", logs.item_of(change), audit_model.change_in, logs.item_of, kinds=KINDS.get(name, (0, 1)))
    for name, data in requests(lists).items():
        yield Spelling(f"request_{name}", data, wire.request_in, spelled_request, kinds=(0,))
    for name, (data, _, _) in replies(lists).items():
        yield Spelling(f"reply_{name}", data, wire.reply_in, spelled_reply, kinds=(0, 1, 9) if len(data) > 9 else (0,))
    yield Spelling("key_file", lists.keys[0].file(3), key_in, b"".join, kinds=(7, 11, 63))
    yield Spelling("public_key", lists.keys[0].public(), public_key_in, lambda it: it, kinds=(3, 7))


def by_models(at):
    for it in spellings(Lists()):
        wrong = [data.hex() for data in it.near(4) if not it.is_lawful(data)]
        yield f"{it.name}: {wrong[:3]}", wrong == [] and it.is_lawful(it.data)


# ---- at an audit

def run(words, given=b""):
    ended = subprocess.run([*serving.program, *map(str, words)], input=given, capture_output=True, timeout=60, check=False)
    told = [line for line in ended.stderr.splitlines() if not serving.aside_in(line)]
    return ended.stdout, told, ended.returncode


class Auditing:
    """Runs of audits, several at once."""

    def __init__(self, at, publics):
        self.room = serving.Room(at, users=0)
        self.publics = publics
        self.paths = [self.room.file(public) for public in publics]

    def wrong(self, cases):
        """Of these logs, which have names, those of which the program says something else than the second audit."""
        files = [(name, log, self.room.file(log)) for name, log in cases]
        with concurrent.futures.ThreadPoolExecutor(RUNS_AT_ONCE) as pool:
            ended = pool.map(lambda it: run(["audit", "--log", it[2], *self.paths]), files)
            should = [audit_model.audit(self.publics, log) for _, log, _ in files]
            return [(name, it, wanted) for (name, _, _), it, wanted in zip(files, ended, should) if it != (wanted[0].encode(), [], wanted[1])]


def commits(at):
    """A commit whose version structure is changed is signed again, so that more is looked at than the signature."""
    lists = Lists()
    audits = Auditing(at, lists.publics)
    for name, before, version, item in commits_of(lists):
        whole = version.encode()
        structure = Spelling(name, whole, None, None, len(whole), commit_places(version))
        cases = [(data.hex(), signed(before, data, version.author)) for data in structure.near(2, 12)]
        commit = cases[0][1]
        rest = Spelling(f"{name} signed", commit, None, None, 0, range(len(whole), len(whole) + 12))
        cases += [(f"{n} signed", data) for n, data in enumerate(rest.near(2, 6))]
        wrong = audits.wrong([(case, before.log() + logs.log_bytes([(data, item)])) for case, data in cases])
        yield f"commits_{name}: {wrong[:2]}", wrong == [] and audit_model.audit(lists.publics, before.log() + logs.log_bytes([(commit, item)]))[1] == 0


def changes(at):
    """The commit of an item that is changed is the one that its change has, if it is one that is accepted."""
    lists = Lists()
    audits = Auditing(at, lists.publics)
    for name in LINES:
        before, user, change = lists.change(name)
        items = Spelling(f"change {name}", logs.item_of(change), None, None, kinds=KINDS.get(name, (0, 1))).near(3, EACH if name == "take" else 20)
        wrong = audits.wrong([(item.hex(), log_with(before, user, item)) for item in items])
        yield f"changes_{name}: {wrong[:2]}", wrong == [] and audit_model.audit(lists.publics, log_with(before, user, items[0]))[1] == 0


def log_with(before, user, item):
    """The log with the commit of an item behind it."""
    try:
        version = before.copy().client_version(user, audit_model.change_in(item))
    except (Refused, OverflowError):
        version = logs.Version(user, before.prev, sha256(item), bytes(32), [], before.raised(user, []))
    return before.log() + logs.log_bytes([(signed(before, version.encode(), user), item)])


def records(at):
    """The lengths of a log's records, and cuts between and within them."""
    lists = Lists()
    audits = Auditing(at, lists.publics)
    maker = lists.before.copy()
    maker.rekey(0, lists.next_key)
    log, lengths, place = maker.log(), [], 0
    for part in (part for record in maker.records for part in record):
        lengths += range(place, place + 4)
        place += 4 + len(part)
    whole = Spelling("log", log, None, None, 0, lengths)
    wrong = audits.wrong(list(enumerate(whole.near(1, 12))))
    yield f"records: {wrong[:2]}", wrong == [] and audit_model.audit(lists.publics, log) == ("ok 2\n", 0)


# ---- at a server

def requests(lists):
    """Good requests."""
    _, (user, change) = lists.before, lists.before.read(LINES["link"])
    commit = signed(lists.before, lists.before.copy().version(user, change).encode(), user)
    item = logs.item_of(change)
    return {
        "grant": wire.GRANT, "give": wire.GIVE, "fetch": wire.fetch(1), "get": wire.get(sha256(item)), "put": wire.put(item), "commit": wire.commit(commit)}


def at_a_server(at):
    """Requests that are changed, each behind one for the turn: what is replied is what the second server replies."""
    lists, room = Lists(), serving.Room(at, users=0)
    room.publics = [room.file(public) for public in lists.publics]
    service = model_server.Service(lists.publics)
    first, item = lists.before.records[0]
    with serving.Server(room, workers=1) as server:
        link = wire.connect(server.port)
        begun = [both(link, service, message) for message in (wire.GRANT, wire.put(item), wire.commit(first))]
        yield f"begins: {begun}", all(begun)
        for name, data in requests(lists).items():
            near = Spelling(f"request {name}", data, None, None, kinds=range(len(data)) if len(data) < 40 else (0,)).near(3)
            wrong = [it.hex() for it in near if it and it != data and not (both(link, service, wire.GRANT) and both(link, service, it))]
            yield f"requests_{name}: {wrong[:2]}", wrong == [] and both(link, service, wire.GRANT) and both(link, service, data)
        link.close()
        replied = serving.session_of(server.port, [wire.frame(b"")])
        yield f"no_message: {replied}", replied == wire.frame(wire.refused("1 Malformed 0"))


def both(link, service, message):
    """Whether both reply the same to a message."""
    return link.ask(message) == service.answer(0, message)


# ---- at a client

SCRIPT = b"write /a 0 45\nls /\ncat /a 0 9\n"
HELD = 3  # records of the list that the client has, of six


def story(lists):
    return lists.of("0 create G0:1 a U0:2; 0 write U0:2 0 41; 1 take G0:1 1; 1 create G0:1 b U1:2; 0 write U0:2 0 42; 1 truncate U1:2 3").records


def replies(lists):
    """Good replies, the request that each is for, and the field of that; None where it is any."""
    shown = story(lists)
    commit, item = shown[HELD]
    last = wire.granted(6, {0: 5, 1: 6})
    written = logs.item_of(("write", ("U", 0, 2), 0, b"E"))
    return {
        "granted": (last, "grant", None), "stored": (wire.stored(7), "commit", None), "given": (wire.GIVEN, "give", None),
        "kept": (wire.kept(commit), "fetch", HELD + 1), "nothing": (wire.NOTHING, "fetch", HELD + 1),
        "put_done": (wire.put_done(sha256(written)), "put", written), "item": (wire.item(item), "get", sha256(item)),
        "refused": (wire.refused("31 Busy 2"), "grant", None), "refused_commit": (wire.refused("34 WrongPrev 6"), "commit", None),
        "refused_item": (wire.refused("5 MissingBlock"), "get", sha256(item))}


class Replaced(bad_server.Show):
    """Sends these bytes in the place of its first reply to a request, and ends the link of who asks for far too much."""

    def __init__(self, publics, shown, data, name, field):
        super().__init__(publics, shown)
        self.data, self.asked, self.missing, self.is_done = data, (name, field), 0, False

    def answer(self, seat, message):
        name, field = wire.request_in(message)
        reply = super().answer(seat, message)
        self.missing += reply == wire.NOTHING
        if self.missing > MISSING:
            raise bad_server.Instead(b"")
        is_it = not self.is_done and name == self.asked[0] and self.asked[1] in (None, field)
        self.is_done |= is_it
        return self.data if is_it else reply


def by_the_client(room, lists, service):
    """What the program prints of the script at a server, and its status."""
    log, key = room.file(logs.log_bytes(story(lists)[:HELD])), room.file(lists.keys[0].file(8))
    with bad_server.Server(service) as server:
        words = ["client", "--port", server.port, "--user", 0, "--key", key, "--log", log, "--tries", 3, *room.publics]
        printed, told, status = run(words, SCRIPT)
    return printed.splitlines(), len(told), status


def by_the_second(lists, service):
    """What the second client prints of it. A line is told where the link failed."""
    lines = []
    with bad_server.Server(service) as server:
        member = client_model.Client(
            wire.connect(server.port), lists.publics, 0, lists.keys[0], 8, 3, connect=lambda: wire.connect(server.port))
        try:
            member.take_log(logs.log_bytes(story(lists)[:HELD]))
            for line in SCRIPT.splitlines():
                lines += client_model.answers(member, line)
        except client_model.LinkFailed as why:
            return [*lines, f"no {why}".encode()], 1, 1
        finally:
            member.link.close()
    return lines, 0, 0


def at_a_client(at):
    """Replies that are changed: the client prints what the second one does."""
    lists, room = Lists(), serving.Room(at, users=0)
    room.publics = [room.file(public) for public in lists.publics]
    shown = story(lists)
    for name, (data, request, field) in replies(lists).items():
        fixed = len(audit_model.commit_in(shown[HELD][0])[0].encode()) + 6 if name == "kept" else LONG
        near = Spelling(f"reply {name}", data, None, None, fixed, kinds=(0,)).near(1 if name == "kept" else 2, 12)
        wrong = []
        for it in near:
            services = [Replaced(lists.publics, shown, it, request, field) for _ in range(2)]
            said, should = by_the_client(room, lists, services[0]), by_the_second(lists, services[1])
            if said != should or not all(service.is_done for service in services):
                wrong.append((it.hex()[:80], said, should))
        yield f"replies_{name}: {wrong[:2]}", wrong == []


def key_files(at):
    """A key file that is changed is refused, and left; or it signs as the key that it spells, of which only the next leaf changes."""
    lists, room = Lists(), serving.Room(at, users=0)
    room.publics = [room.file(public) for public in lists.publics]
    wrong = []
    for data in Spelling("key file", lists.keys[0].file(3), None, None, kinds=(7, 11, 63)).near(3, 40):
        path, service = room.file(data), bad_server.Show(lists.publics, [])
        with bad_server.Server(service) as server:
            ended = run(["client", "--port", server.port, "--user", 0, "--key", path, "--leaves-ahead", 1, *room.publics], b"mkdir /x\n")
        if not (is_so(data, lists, service, ended, read(path)) or not fuzzing.is_key_file(data) and is_refused(ended, path) and read(path) == data):
            wrong.append((data.hex(), ended, read(path).hex()))
    yield f"key_files: {wrong[:2]}", wrong == []


def is_refused(ended, path):
    printed, told, status = ended
    return (printed, status) == (b"", 1) and is_told(told, path, "9 BadKey")


def is_so(data, lists, service, ended, after):
    """Whether a client with this key file did what the key can: the user's own signs by the leaf that the file says, if there is one."""
    if not fuzzing.is_key_file(data):
        return False
    leaf = int.from_bytes(data[60:], "big")
    is_own = data[:60] == lists.keys[0].file(0)[:60]
    refusal = b"no 33 BadSignature\n" if not is_own else b"no 8 KeySpent\n"
    if not is_own or leaf == lists.keys[0].leaves:
        return ended == (refusal, [], 0) and after == data and service.shown == []
    signature = audit_model.commit_in(service.shown[0])[1]
    return ended == (b"ok 1\n", [], 0) and after == data[:60] + logs.u32(leaf + 1) and audit_model.leaf_of(signature) == leaf


def public_keys(at):
    """A public key that is changed is refused, or makes just the roster that it stands in: the digest that the first commit names."""
    lists, room = Lists(), serving.Room(at, users=0)
    wrong, own, key = [], room.file(lists.publics[1]), room.file(lists.keys[1].file(9))
    for n, data in enumerate(Spelling("public key", lists.publics[0], None, None, kinds=(3, 7)).near(2, 40)):
        publics = [data, lists.publics[1]]
        maker = logs.Maker([audit_model.Unsigning(data), lists.keys[1]])
        maker.say("1 take G0:1 1")
        path, log = room.file(data), room.file(maker.log())
        ended = run(["audit", "--log", log, path, own])
        should = ended == (b"ok 1\n", [], 0) if lms.is_key(data) else is_refused(ended, path)
        if n % 4 == 0:
            with bad_server.Server(bad_server.Show(publics, maker.records)) as server:
                ended = run(["client", "--port", server.port, "--user", 1, "--key", key, path, own], b"ls /\n")
            should &= ended == (b"", [], 0) if lms.is_key(data) else is_refused(ended, path)
        if not should or read(path) != data:
            wrong.append((data.hex(), ended))
    yield f"public_keys: {wrong[:2]}", wrong == []


PARTS = (by_models, commits, changes, records, at_a_server, at_a_client, key_files, public_keys)


def main():
    words = sys.argv[1:]
    if "--models" in words:
        words.remove("--models")
        serving.program = serving.MODEL
    elif not tally.is_there("decoding", serving.PROGRAM[0]):
        return 1
    results = {}
    for part in PARTS:
        if words and part.__name__ not in words:
            continue
        with tempfile.TemporaryDirectory() as at:
            results.update(part(at))
    print(f"decoding: {tried['spellings']} spellings")
    return tally.told("decoding", results)


if __name__ == "__main__":
    sys.exit(main())
