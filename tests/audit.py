#!/usr/bin/env python3
"""Tries `sundr audit`: what it prints of good logs, of logs in which each field of a commit is another one, of logs that are cut at
each byte, and of logs with each byte changed, against what is written here and against the second audit of audit_model.py; and its
faults and statuses. SUNDR names another program to try.

Prints a line for each case that isn't as it should be, and last 'N passed, M failed'.
"""
import concurrent.futures
import functools
import hashlib
import os
import random
import re
import resource
import subprocess
import sys
import tempfile

import audit_model
import desk_model
import lms
import lms_known
import logs
import tally
from desk_model import sha256

HERE = os.path.dirname(os.path.abspath(__file__))
TOP = os.path.dirname(HERE)
PROGRAM = os.environ.get("SUNDR", f"{TOP}/crates/sundr/out/sundr")
CHANCE_LOGS, CHANCE_LINES = 24, 60
RUNS_AT_ONCE = 4
LITTLE_MEMORY = 2 ** 27  # the address space of a run that is given little, in bytes
GONE = b"\xff\xff\xff\xff"


class Room:
    """A folder with logs and public keys."""

    def __init__(self, at):
        self.at = at

    def file(self, data, end=""):
        """The path of a file with these bytes."""
        path = f"{self.at}/{hashlib.sha256(data).hexdigest()}{end}"
        if not os.path.exists(path):
            os.replace(self.new_file(data), path)
        return path

    def new_file(self, data):
        """The path of a file with these bytes that no other run has."""
        number, path = tempfile.mkstemp(dir=self.at)
        with os.fdopen(number, "wb") as file:
            file.write(data)
        return path

    def words(self, publics, log):
        return ["audit", "--log", log, *(self.file(public, ".pub") for public in publics)]

    def audit(self, publics, log):
        """What the program prints of a log, and its status. Of a log it tells nothing on standard error."""
        path = self.new_file(log)
        printed, told, status = run(self.words(publics, path))
        os.remove(path)
        return (printed, status) if told == "" else (printed, told, status)


def run(words, **how):
    """Returns what the program prints, what it tells, and its status."""
    streams = {"stdin": subprocess.DEVNULL, "stdout": subprocess.PIPE, "stderr": subprocess.PIPE, **how}
    ended = subprocess.run([PROGRAM, *words], text=True, errors="replace", timeout=120, **streams)
    return ended.stdout, ended.stderr, ended.returncode


def is_so(room, publics, log, wanted=None):
    """Whether the program says of a log what the second audit does, and what is written here, if it is: a number of commits, or
    the place of the one that is refused and why."""
    by_model = audit_model.audit(publics, log)
    if isinstance(wanted, int):
        wanted = f"ok {wanted}\n", 0
    elif wanted is not None:
        wanted = "at {}\nno {}\n".format(*wanted), 1
    return wanted in (None, by_model) and room.audit(publics, log) == by_model


def script(maker, text, form=None):
    for line in text.split("; "):
        maker.say(line, form)
    return maker


# ---- keys and signatures

def keys(room):
    """The keys and signatures of these tries are those of other implementations, and of `sundr keygen`."""
    yield from lms_known.verdicts()
    entropy = random.Random("entropy").randbytes(48)
    for width in (4, 8):
        words = ["keygen", "--entropy", room.file(entropy), "--out", f"{room.at}/key", "--height", "5", "--width", str(width)]
        run(words)
        key, files = lms.Key(entropy, 5, width), [open(f"{room.at}/{name}", "rb").read() for name in ("key", "key.pub")]
        yield f"key_of_width_{width}", files == [key.file(), key.public()]


def signatures(room):
    """Of each parameter set a signature is taken, and none with a bit changed in each of its parts, a byte more or a byte less."""
    for height in lms.LMS_OF_HEIGHT:
        for width in lms.OTS_OF_WIDTH:
            maker = script(logs.Maker([logs.key_of(0, height, width, leaves=1)]), "0 create G0:1 a U0:2")
            (commit, item), publics = maker.records[0], maker.publics
            version, signature = audit_model.commit_in(commit)
            start = len(version.encode())
            wanted = [("taken", maker.log(), ("ok 1\n", 0))]
            for number, other_ in enumerate(lms_known.spoiled(signature)):
                why = "33 BadSignature" if len(other_) <= audit_model.LONGEST_SIGNATURE else f"1 Malformed {start}"
                log = logs.log_bytes([(logs.commit_of(version, other_), item)])
                wanted.append((number, log, (f"at 1\nno {why}\n", 1)))
            wrong = all_of(room, publics, wanted)
            yield f"signatures_of_{height}_{width}: {wrong[:3]}", wrong == [] and len(wanted) > 40


def many_keys(room):
    """Signatures of keys of many parameter sets, looked at together: of a log with one that isn't right, just that is told."""
    kinds = ((5, 4), (25, 1), (10, 8), (15, 2), (20, 4), (5, 8))
    maker = logs.Maker([logs.key_of(n, *kind, leaves=4) for n, kind in enumerate(kinds)])
    users = range(len(kinds))
    script(maker, "; ".join(f"{user} take G0:1 {place}" for place, user in enumerate((*users, *users)[1:], 2)))
    yield "keys_of_many_kinds", is_so(room, maker.publics, maker.log(), 2 * len(kinds) - 1)
    for bad in range(1, len(maker.records) + 1):
        log = logs.log_bytes([(flipped(commit) if n == bad else commit, item) for n, (commit, item) in enumerate(maker.records, 1)])
        yield f"keys_of_many_kinds_{bad}", is_so(room, maker.publics, log, (bad, "33 BadSignature"))


# ---- good logs

ALL_KINDS = (
    "0 mkdir G0:1 d U0:2; 0 create U0:2 f G0:3 3; 0 write G0:3 5000 68656c6c6f; 0 truncate G0:3 4097; 0 link G0:1 g G0:3; "
    "0 rename U0:2 f G0:1 h G0:3; 0 unlink G0:1 g G0:3; 1 take G0:3 7; 1 write G0:3 0 41; 1 undo 9; 1 undo 8; 0 undo 6; "
    "0 create G0:1 s G1:1 9; 0 unlink G0:1 s G1:1; 0 undo 14; 0 undo_last; 2 take G0:1 1; 2 mkdir G0:1 e G0:9 9; 2 undo_last; "
    "2 undo 17; 0 undo 4")
KINDS_OF_THE_SECOND_FORMAT = "1 take G0:1 4; 0 drop 1; 0 undo 23; 1 undo 22; 1 take G0:1 5"


def good(room):
    for count in (1, 2, 64):
        publics = [logs.key_of(n, width=4, leaves=1).public() for n in range(count)]
        yield f"an_empty_log_of_{count}", is_so(room, publics, b"", 0)
    for width in (4, 8):
        keys_ = [logs.key_of(n, width=width) for n in range(3)]
        maker = script(logs.Maker(keys_, form=1), ALL_KINDS)
        yield f"all_kinds_of_width_{width}_in_the_first_format", is_so(room, maker.publics, maker.log(), 21)
        maker = script(logs.Maker(keys_), f"{ALL_KINDS}; {KINDS_OF_THE_SECOND_FORMAT}")
        yield f"all_kinds_of_width_{width}", is_so(room, maker.publics, maker.log(), 26)
    for height in lms.LMS_OF_HEIGHT:
        for width in lms.OTS_OF_WIDTH:
            maker = logs.Maker([logs.key_of(n, height, width, leaves=2) for n in range(2)])
            script(maker, "0 mkdir G0:1 a U0:2; 1 take G0:1 1; 1 create G0:1 b G0:2 2")
            yield f"keys_of_{height}_{width}", is_so(room, maker.publics, maker.log(), 3)
    yield from extremes(room)


def extremes(room):
    """The most users, the longest commit and the longest item, names of any bytes, a leaf left out, and the last one."""
    maker = logs.Maker([logs.key_of(n, 25, 1, leaves=4) for n in range(64)])
    script(maker, "63 take G0:1 1; 63 create G0:1 a G0:2 2; 62 take G0:2 1; 62 write G0:2 0 41; 62 undo 4; 62 undo 3")
    yield "the_most_users", is_so(room, maker.publics, maker.log(), 6)
    maker = script(logs.Maker([logs.key_of(0, width=4)]), "0 create G0:1 a U0:2")
    maker.add(0, ("write", ("U", 0, 2), desk_model.LARGEST_FILE[2] - 65536, bytes(range(256)) * 256))
    names = [b"\n", b" ", b"\xff" * 255, b"...", bytes(n for n in range(1, 256) if n != 0x2f)]
    for number, name in enumerate(names, 3):
        maker.add(0, ("create", "create", desk_model.group_file(0, 1), name, ("U", 0, number), number))
    yield "long_items_and_odd_names", is_so(room, maker.publics, maker.log(), 7)
    maker.leaves[0] = 31
    maker.say("0 undo_last")
    yield "the_last_leaf_alone", is_so(room, maker.publics, maker.log(), 8)


# ---- logs by chance

def by_chance(room):
    """Lines of the second desk's dice: those that are accepted make a log, and some that aren't come at the end of one. Some logs are
    of the first format to their end, and some to their middle; the others are of the newest, or reach it at their middle."""
    refused = {}
    for seed in range(CHANCE_LOGS):
        users = 1 + seed % 3
        maker = logs.Maker([logs.key_of(n, 20, 4, leaves=CHANCE_LINES) for n in range(users)])
        dice = SigningDice(f"audit {seed}", maker.desk)
        maker.ring = {key.public(): key for key in next_keys()}
        for n in range(CHANCE_LINES):
            maker.desk.form = form_of(seed, n)
            line = dice.line()
            if line[0].isdigit() and is_spelled(*maker.read(line), users):
                say(maker, line, refused)
        yield f"chance_{seed}", is_so(room, maker.publics, maker.log(), len(maker.records))
    for number, (line, publics, log, place, why) in refused.items():
        yield f"chance_refused_{number}: {line}", is_so(room, publics, log, (place, f"39 Change {why}"))
    yield f"chance_meets_most_refusals: {sorted(refused)}", len(refused) >= 10


def form_of(seed, n):
    """In which format the log of a seed has the commit of line n."""
    is_begun = n < CHANCE_LINES // 2
    return (desk_model.NEWEST, 1, 1 if is_begun else desk_model.NEWEST, desk_model.FIRST_FORMAT if is_begun else desk_model.NEWEST)[seed % 4]


class SigningDice(desk_model.Dice):
    """Dice whose rekeys name keys that can sign, some of them twice, or bytes that are no key."""

    def key(self):
        text = super().key()
        if desk_model.is_key(bytes.fromhex(text)):
            return self.pick(*next_keys()).public().hex()
        return text


@functools.cache
def next_keys():
    return [logs.key_of(f"next {n}", 10, 4, leaves=CHANCE_LINES) for n in range(8)]


def is_spelled(user, change, users):
    """Whether the user is there, and the change has an item."""
    try:
        return user < users and audit_model.change_in(logs.item_of(change)) == change
    except (desk_model.Refused, OverflowError):
        return False


def say(maker, line, refused):
    """Adds the commit of a line; or keeps, of each refusal, a log that ends with a commit that is refused so."""
    user, change = maker.read(line)
    try:
        maker.add(user, change)
    except desk_model.Refused as why:
        number = int(str(why).split(" ")[0])
        if number not in refused:
            refused[number] = line, maker.publics, unfit(maker, user, change), len(maker.records) + 1, str(why)


def unfit(maker, user, change):
    """A log with a commit at its end whose change the desk refuses, and which has the i-handles of no tree."""
    item = logs.item_of(change)
    version = logs.Version(user, maker.prev, sha256(item), bytes(32), [], maker.raised(user, []), maker.desk.form)
    return maker.log() + logs.log_bytes([(maker.sign(version), item)])


# ---- a commit with each of its fields another

class Next:
    """A list of four commits by users 0 and 1 of three, and the commit of a change that comes next: it carries group 0."""

    FIRST = "0 create G0:1 a G0:2 2; 0 write G0:2 0 41; 1 take G0:1 1; 1 create G0:1 b U1:2"

    def __init__(self, line="1 create G0:1 c G0:3 3", form=desk_model.FIRST_FORMAT):
        self.before = script(logs.Maker([logs.key_of(n, width=4) for n in range(3)]), self.FIRST)
        self.before.desk.form, self.line = form, line

    def of(self):
        """A maker of its own, and the version structure and the item of the change of the line."""
        maker = self.before.copy()
        user, change = maker.read(self.line)
        return maker, maker.version(user, change), logs.item_of(change)

    def log(self, maker, version, item, **how):
        """The log with the commit of a version structure behind it."""
        return maker.log() + logs.log_bytes([(maker.sign(version, **how), item)])

    def with_item(self, user, item):
        """The log with a commit behind it that names these bytes as its item."""
        maker = self.before.copy()
        version = logs.Version(user, maker.prev, sha256(item), bytes(32), [], maker.raised(user, []))
        return self.log(maker, version, item)


def flipped(data, at=-1):
    data = bytearray(data)
    data[at] ^= 1
    return bytes(data)


def tried(room, next_, changes, wanted):
    """Whether the next commit is refused so where these changes are made to its version structure, one after the other."""
    maker, version, item = next_.of()
    how = {}
    for change in changes:
        item = change(maker, version, item, how) or item
    return is_so(room, maker.publics, next_.log(maker, version, item, **how), (5, wanted))


def other_signer(maker, version, item, how):
    how["signer"] = 0


def other_author(maker, version, item, how):
    version.author = 2
    version.vector = maker.raised(2, [0])


def unknown_author(maker, version, item, how):
    version.author, how["signer"] = 3, 1


def old_leaf(maker, version, item, how):
    how["leaf"] = 1


def other(name, change):
    """A change to a field of the version structure."""
    def make(maker, version, item, how):
        setattr(version, name, change(getattr(version, name), maker))
    return make


def other_item(maker, version, item, how):
    return flipped(item)


def carried(*groups):
    """Another list of carried groups, each with its i-handle after the change, and the vector that goes with it."""
    def make(maker, version, item, how):
        maker.desk.history.append((version.author, version.form, audit_model.change_in(item)))
        handles = logs.Handles(maker.desk)
        maker.desk.history.pop()
        version.groups = [(group, handles.of("G", group)) for group in groups]
        version.vector = maker.raised(version.author, [group for group in groups if group < 2])
    return make


PREV, VECTOR = other("prev", lambda prev, _: flipped(prev)), other("vector", lambda vector, _: [x + 1 for x in vector])
HANDLE, CHANGE = other("handle", lambda handle, _: flipped(handle)), other("change", lambda change, _: flipped(change))
GROUP_HANDLE = other("groups", lambda groups, _: [(group, flipped(handle)) for group, handle in groups])
# what is changed, each alone and before the ones that are looked at later, and the refusal
FIELDS = {
    "signed_by_another": ([other_signer], "33 BadSignature"),
    "no_author": ([unknown_author], "33 BadSignature"),
    "another_author": ([other_author], "39 Change 16 NotHolder 1"),
    "prev": ([PREV], "34 WrongPrev 4"),
    "prev_of_the_first": ([other("prev", lambda _, maker: sha256(logs.roster_bytes(maker.publics)))], "34 WrongPrev 4"),
    "prev_of_the_last": ([other("prev", lambda _, maker: sha256(maker.records[2][0]))], "34 WrongPrev 4"),
    "vector": ([VECTOR], "35 WrongVector"),
    "vector_as_before": ([other("vector", lambda _, maker: maker.vector)], "35 WrongVector"),
    "vector_of_the_author_alone": ([other("vector", lambda _, maker: maker.raised(1, []))], "35 WrongVector"),
    "vector_of_the_group_alone": ([other("vector", lambda _, maker: maker.raised(3, []))], "35 WrongVector"),
    "vector_too_long": ([other("vector", lambda vector, _: vector + [0])], "35 WrongVector"),
    "vector_too_short": ([other("vector", lambda vector, _: vector[:-1])], "35 WrongVector"),
    "vector_at_its_end": ([other("vector", lambda vector, _: [2 ** 64 - 1] * len(vector))], "35 WrongVector"),
    "group_that_isnt_there": ([carried(0, 2)], "35 WrongVector"),
    "leaf_used_again": ([old_leaf], "36 KeyReuse"),
    "digest_of_the_change": ([CHANGE], "5 MissingBlock"),
    "digest_of_an_earlier_change": ([other("change", lambda _, maker: sha256(maker.records[0][1]))], "39 Change 17 Held"),
    "item": ([other_item], "5 MissingBlock"),
    "handle": ([HANDLE], "38 WrongHandle U1"),
    "handle_of_the_group": ([GROUP_HANDLE], "38 WrongHandle G0"),
    "no_group": ([carried()], "38 WrongHandle G0"),
    "a_group_more": ([carried(0, 1)], "38 WrongHandle G1"),
    "another_group": ([carried(1)], "38 WrongHandle G0"),
    "signature_before_prev": ([other_signer, PREV], "33 BadSignature"),
    "prev_before_vector": ([PREV, VECTOR], "34 WrongPrev 4"),
    "prev_before_group_that_isnt_there": ([PREV, carried(15)], "34 WrongPrev 4"),
    "vector_before_leaf": ([VECTOR, old_leaf], "35 WrongVector"),
    "leaf_before_item": ([old_leaf, other_item], "36 KeyReuse"),
    "item_before_handle": ([CHANGE, HANDLE], "5 MissingBlock"),
    "change_before_handle": ([other_author, HANDLE], "39 Change 16 NotHolder 1"),
    "author_before_group": ([HANDLE, carried()], "38 WrongHandle U1"),
}

# changes that the desk refuses after the first four, and how
UNFIT = {
    "1 take U1:2 9": "3 BadNumber", "2 create G0:1 x G1:1 9": "13 NotMember 1", "1 unlink G0:1 b U1:9": "14 NoFile U1:9",
    "1 write G0:1 0 41": "15 WrongKind G0:1", "0 create G0:1 x U0:3": "16 NotHolder 1", "1 take G0:1 9": "17 Held",
    "1 rename G0:1 x G0:1 y U1:2": "18 NoName", "1 link G0:1 a U1:2": "19 Exists", "0 truncate G0:2 16777217": "22 TooBig",
    "1 drop 9": "14 NoFile U1:9", "1 drop 1": "17 Held", "1 drop 2": "17 Held", "2 drop 1": "14 NoFile U2:1",
    "1 undo 0": "24 NoOperation 0", "1 undo 5": "24 NoOperation 5", "1 undo 18446744073709551615": "24 NoOperation " + str(2 ** 64 - 1),
    "1 undo 2": "27 NotAuthor 0", "0 undo 1": "28 Blocked 3", "1 undo 3": "28 Blocked 4",
}

# bytes that are no item, and the place that is refused
WRITE, TAKE = "0502" + "010000000002" + "00000000", "0507" + "010000000001"
LINK = "0504" + "010000000001"
NO_ITEMS = {
    "00": 0, "06": 0, "05": 1, "050b": 1, "05ff": 1, "0509": 2, "0509" + "00" * 55: 2, "0509" + "00" * 57: 58, "0508": 2, "0508000000": 2, "050800000000": 2, "0508000f4241": 2, "05080000000100": 6,
    "0500" + "00" * 7: 2, "0500" + "00" * 9: 10, "0503": 2,
    "0507" + "020000000001": 2, "0507" + "004000000001": 2, "0507" + "011000000001": 2, "0507" + "010000000000": 2,
    "0507" + "0100000f4241": 2, "0507" + "0100000000": 2, TAKE + "00000000": 8, TAKE + "000f4241": 8, TAKE + "000000": 8,
    TAKE + "00000001" + "00": 12, WRITE: 12, WRITE + "00000000": 12, WRITE + "00010001" + "41" * 65537: 12,
    WRITE + "00000002" + "41": 16, WRITE + "00000001" + "4141": 17, LINK: 8, LINK + "00": 8, LINK + "012f": 8, LINK + "0100": 8,
    LINK + "012e": 8, LINK + "022e2e": 8, LINK + "0261": 8, LINK + "0161": 10, LINK + "0161" + "00000000000200": 16,
    "0501" + "010000000001" + "0161" + "000000000002" + "00000000" + "00": 16,
    "0501" + "010000000001" + "0161" + "000000000002" + "00000002" + "02": 20,
    "0501" + "010000000001" + "0161" + "000000000002" + "00000002": 20, "41" * 70000: 0,
}


def fields(room):
    next_ = Next()
    yield "the_next_is_taken", is_so(room, next_.before.publics, next_.log(*next_.of()), 5)
    for name, (changes, wanted) in FIELDS.items():
        yield name, tried(room, next_, changes, wanted)
    yield from spellings(room, next_)
    for line, wanted in UNFIT.items():
        log = unfit(next_.before, *next_.before.read(line))
        yield f"change_{line}", is_so(room, next_.before.publics, log, (5, f"39 Change {wanted}"))
    for item, place in NO_ITEMS.items():
        log = next_.with_item(1, bytes.fromhex(item))
        yield f"no_item_{item[:60]}", is_so(room, next_.before.publics, log, (5, f"39 Change 1 Malformed {place}"))
    for length in (0, 70001):
        log = next_.with_item(1, b"\5" * length)
        yield f"item_of_{length}", is_so(room, next_.before.publics, log, (5, "22 TooBig"))
    keys = [logs.key_of(0, 10, 4, leaves=300)]
    maker = script(logs.Maker(keys), "0 create G0:1 a U0:2; " + "; ".join(f"0 link G0:1 l{n} U0:2" for n in range(254)))
    yield "the_most_links", is_so(room, maker.publics, maker.log(), 255)
    log = unfit(maker, *maker.read("0 link G0:1 l U0:2"))
    yield "too_many_links", is_so(room, maker.publics, log, (256, "39 Change 23 TooManyLinks"))


def spellings(room, next_):
    """The bytes of a commit are others: signatures, commits of too few and too many bytes, and parts out of their ranges."""
    maker, version, item = next_.of()
    commit = maker.sign(version)
    start = len(version.encode())
    signature = commit[start + 4:]

    def refused(bytes_, wanted):
        return is_so(room, maker.publics, maker.log() + logs.log_bytes([(bytes_, item)]), (5, wanted))

    for at in (0, 4, 8, 40, 2184, 2188, -1):
        yield f"signature_at_{at}", refused(commit[:start + 4] + flipped(signature, at), "33 BadSignature")
    yield "signature_by_a_leaf_past_the_last", refused(commit[:start + 4] + b"\0\0\0\x20" + signature[4:], "33 BadSignature")
    for other_ in (signature + b"\0", signature[:-1], signature[:1], signature * 3):
        yield f"signature_of_{len(other_)}", refused(logs.commit_of(version, other_), "33 BadSignature")
    for length in [*range(start + 80), *range(start + 80, len(commit), 97), len(commit) - 1]:
        place = next(at for at in parts_of(version, commit) if at[1] > length)[0]
        yield f"commit_of_{length}", refused(commit[:length], f"1 Malformed {place}")
    yield "commit_of_a_byte_more", refused(commit + b"\0", f"1 Malformed {len(commit)}")
    for name, at, part in (
            ("later_format", 0, b"SV05"), ("no_format", 0, b"SV00"), ("author_out_of_range", 4, b"\x40"), ("group_out_of_range", 102, b"\x10"),
            ("one_number", 135, b"\1"), ("too_many_numbers", 135, b"\x51"), ("no_signature", start, bytes(4)),
            ("too_long_a_signature", start, (9325).to_bytes(4, "big"))):
        yield name, refused(commit[:at] + part + commit[at + len(part):], f"1 Malformed {at}")
    # there a signature of 9 bytes stands behind the numbers, and what is left over begins behind that
    yield "an_older_format_has_no_place_for_a_key", refused(b"SV01" + commit[4:], f"1 Malformed {start + 12}")
    yield "neither_no_key_nor_one", refused(commit[:start - 1] + b"\2" + commit[start:], f"1 Malformed {start - 1}")
    yield "a_key_that_is_cut", refused(commit[:start - 1] + b"\1" + bytes(55), f"1 Malformed {start}")
    yield "a_key_that_is_not_signed", refused(commit[:start - 1] + b"\1" + bytes(56) + commit[start:], "33 BadSignature")
    for groups in ((0, 0), (1, 0), (0, 5, 5)):
        version.groups = [(group, bytes(32)) for group in groups]
        place = 102 + 33 * (len(groups) - 1)
        yield f"groups_{groups}", refused(maker.sign(version), f"1 Malformed {place}")


def parts_of(version, commit):
    """The first place of each part of a commit, and the place behind it."""
    lengths = [4, 1, 32, 32, 32, 1] + [1, 32] * len(version.groups) + [1] + [8] * len(version.vector) + [1, 4, len(commit)]
    at = 0
    for length in lengths:
        yield at, at + length
        at += length


# ---- formats

BEFORE = "0 create G0:1 a U0:2; 1 take G0:1 1; 1 create G0:1 b U1:2"


class Mixed:
    """A log of three commits of the first format, and of one of the second format behind them, in which user 0 drops a body."""

    def __init__(self):
        self.old = script(logs.Maker([logs.key_of(n, width=4) for n in range(2)], form=1), BEFORE)
        self.maker = self.old.copy()
        self.maker.desk.form = 2
        script(self.maker, "0 drop 1")
        self.publics = self.maker.publics

    def next(self, *changes, line="1 truncate U1:2 1"):
        """The log with the commit of a line behind it, which is of the first format, and has these changes too."""
        maker, how = self.maker.copy(), {}
        user, change = maker.read(line)
        version, item = maker.version(user, change), logs.item_of(change)
        version.form = 1
        for it in changes:
            item = it(maker, version, item, how) or item
        return maker.log() + logs.log_bytes([(maker.sign(version, **how), item)])


def formats(room):
    """Logs of both formats; a format that falls is refused behind the digest before and before all else, and a change that the first
    format doesn't have only as a change."""
    mixed = Mixed()
    publics, old = mixed.publics, mixed.old
    yield "three_of_the_first_format", is_so(room, publics, old.log(), 3)
    yield "one_of_the_second_behind_them", is_so(room, publics, mixed.maker.log(), 4)
    commit, item = mixed.maker.records[-1]
    log = old.log() + logs.log_bytes([(b"SV01" + commit[4:], item)])
    yield "format_that_is_not_signed", is_so(room, publics, log, (4, "33 BadSignature"))
    for name, changes, wanted in (
            ("falls", (), "44 OldFormat"), ("falls_unsigned", (other_signer,), "33 BadSignature"), ("falls_elsewhere", (PREV,), "34 WrongPrev 4"),
            ("falls_and_vector", (VECTOR,), "44 OldFormat"), ("falls_and_leaf", (old_leaf,), "44 OldFormat"),
            ("falls_and_item", (CHANGE,), "44 OldFormat"), ("falls_and_handle", (HANDLE,), "44 OldFormat")):
        yield f"format_{name}", is_so(room, publics, mixed.next(*changes), (5, wanted))
    yield "format_falls_for_an_undo", is_so(room, publics, mixed.next(line="0 undo 4"), (5, "44 OldFormat"))
    again = script(mixed.maker.copy(), "1 write U1:2 1048576 41; 0 undo 4; 1 undo 5; 1 undo 3; 1 undo 2; 0 undo 1")
    yield "what_is_of_the_first_format_is_undone", is_so(room, publics, again.log(), 10)
    for line, wanted in (
            ("0 drop 1", "44 OldFormat"), ("0 drop 9", "44 OldFormat"), ("1 truncate U1:2 1048577", "22 TooBig"),
            ("1 write U1:2 1048576 41", "22 TooBig")):
        log = unfit(old, *old.read(line))
        yield f"not_in_the_first_format_{line}", is_so(room, publics, log, (4, f"39 Change {wanted}"))
    largest = script(old.copy(), "1 truncate U1:2 1048576")
    yield "the_largest_of_the_first_format", is_so(room, publics, largest.log(), 4)
    script(largest, "1 truncate U1:2 16777216; 1 undo 5; 1 write U1:2 16777215 41", form=2)
    yield "the_largest_of_the_second_format", is_so(room, publics, largest.log(), 7)


# ---- bytes of a log, and commits in another order

# ---- keys that users go on to

class Rekeyed:
    """A log of two users: user 0 signs with the first key, goes on to the second with the second commit, and signs with that."""

    def __init__(self):
        self.first, self.other = (logs.key_of(n, width=4) for n in range(2))
        self.second, self.third = (logs.key_of(f"audit, key {n}", width=4) for n in (2, 3))
        self.begun = script(logs.Maker([self.first, self.other]), "0 create G0:1 a U0:2")
        self.publics = self.begun.publics
        self.maker = self.begun.copy()
        self.maker.rekey(0, self.second)

    def next(self, line="0 create G0:1 b U0:3", change=None, **how):
        """The log with the commit of a line behind it, or of a change of user 0, whose version structure and item may be others."""
        maker = self.maker.copy()
        user, read = maker.read(line)
        change, signing = change or read, {key: how.pop(key) for key in ("signer", "leaf") if key in how}
        try:
            version = maker.version(user, change)
        except desk_model.Refused:
            named = change[1] if change[0] == "rekey" else None
            version = logs.Version(user, maker.prev, sha256(logs.item_of(change)), bytes(32), [], maker.raised(user, []), next_key=named)
        for field, value in how.items():
            setattr(version, field, value)
        if isinstance(signing.get("signer"), lms.Key):
            commit = logs.commit_of(version, signing["signer"].sign(signing["leaf"], version.encode()))
        else:
            commit = maker.sign(version, **signing)
        return maker.log() + logs.log_bytes([(commit, logs.item_of(change))])


def rekeys(room):
    """A commit is signed by the key that its author has then; a next key is one that nobody has or had, and is the change's."""
    it = Rekeyed()
    publics, third, unknown = it.publics, it.third.public(), bytes(56)
    yield "lengths_of_version_structures", [len(logs.Version(0, *[bytes(32)] * 3, [], [0] * 80, form, key).encode())
                                            for form, key in ((1, None), (2, None), (3, None), (3, third), (4, None), (4, third))] == [743, 743, 744, 800, 744, 800]
    signature = logs.key_of(0, 5, 8).sign(0, b"")
    yield "lengths_of_commits_of_two_users", [len(logs.commit_of(logs.Version(0, *[bytes(32)] * 3, [], [0] * 4, form, key), signature))
                                              for form, key in ((1, None), (2, None), (3, None), (3, third), (4, None), (4, third))] == [1431, 1431, 1432, 1488, 1432, 1488]
    yield "two_with_a_rekey", is_so(room, publics, it.maker.log(), 2)
    named = dict(change=("rekey", third))
    for name, log, wanted in (
            ("the_first_key_signs_no_more", it.next(signer=it.first, leaf=2), "33 BadSignature"),
            ("nor_by_a_later_leaf", it.next(signer=it.first, leaf=31), "33 BadSignature"),
            ("the_second_key_signs_from_its_first_leaf_on", it.next(leaf=0), None),
            ("the_second_key_signs_from_any_leaf_on", it.next(leaf=31), None),
            ("a_further_rekey", it.next(**named), None),
            ("back_to_the_first_key", it.next(change=("rekey", it.first.public())), "36 KeyReuse"),
            ("to_the_present_key", it.next(change=("rekey", it.second.public())), "36 KeyReuse"),
            ("to_the_key_of_another_user", it.next(change=("rekey", it.other.public())), "36 KeyReuse"),
            ("to_no_key", it.next(change=("rekey", unknown)), "9 BadKey"),
            ("of_another_user_to_a_key_that_was_had", it.next("1 undo 1", change=("rekey", it.first.public())), "36 KeyReuse"),
            ("that_names_another_key", it.next(change=("rekey", third), next_key=logs.key_of("audit, key 4", width=4).public()), "45 WrongKey"),
            ("that_names_none", it.next(next_key=None, **named), "45 WrongKey"),
            ("a_key_without_a_rekey", it.next(next_key=third), "45 WrongKey"),
            ("vector_before_the_key", it.next(change=("rekey", it.first.public()), vector=[7, 0, 0, 0]), "35 WrongVector"),
            ("had_before_no_key", it.next(next_key=it.first.public()), "36 KeyReuse"),
            ("no_key_before_the_change", it.next("0 undo 9", next_key=unknown), "9 BadKey"),
            ("change_before_the_key", it.next("0 undo 9", next_key=third), "39 Change 24 NoOperation 9"),
            ("key_before_the_handle", it.next(next_key=third, handle=bytes(32)), "45 WrongKey"),
            ("with_another_handle", it.next(handle=bytes(32), **named), "38 WrongHandle U0"),
            ("which_is_no_operation", it.next("0 undo 2"), "39 Change 25 NotOperation 2")):
        yield f"rekey_{name}", is_so(room, publics, log, 3 if wanted is None else (3, wanted))
    yield from rekeys_within_many(room, it)
    yield from rekeys_of_formats(room)


def rekeys_of_formats(room):
    """A log of all formats; a rekey that its format doesn't have."""
    maker = Mixed().maker
    maker.desk.form = 3
    maker.rekey(1, logs.key_of("audit, key 5", width=4))
    script(maker, "1 truncate U1:2 1; 1 undo_last")
    yield "a_log_of_three_formats", is_so(room, maker.publics, maker.log(), 7)
    old = script(logs.Maker([logs.key_of(0, width=4)], form=2), "0 create G0:1 a U0:2")
    user, change = 0, ("rekey", logs.key_of(1, width=4).public())
    version = logs.Version(user, old.prev, sha256(logs.item_of(change)), bytes(32), [], old.raised(user, []), 2)
    log = old.log() + logs.log_bytes([(old.sign(version), logs.item_of(change))])
    yield "a_rekey_in_the_second_format", is_so(room, old.publics, log, (2, "39 Change 44 OldFormat"))


def rekeys_within_many(room, it):
    """Among records that are read ahead keys change several times, and what is signed by an old one is refused where it stands."""
    maker, keys = it.maker.copy(), [logs.key_of(f"audit, many {n}", width=4) for n in range(12)]
    for n, key in enumerate(keys):
        script(maker, "; ".join(f"0 write U0:2 0 {m:02x}" for m in range(24)))
        maker.rekey(0, key)
        maker.rekey(1, logs.key_of(f"audit, others {n}", width=4))
    count = len(maker.records)
    yield f"{count}_with_{2 * len(keys) + 1}_rekeys", is_so(room, it.publics, maker.log(), count)
    user, change = maker.read("0 write U0:2 0 41")
    version, item = maker.version(user, change), logs.item_of(change)
    commit = logs.commit_of(version, keys[-2].sign(30, version.encode()))
    yield "and_one_by_an_old_key", is_so(room, it.publics, maker.log() + logs.log_bytes([(commit, item)]), (count + 1, "33 BadSignature"))


# ---- batches

# four operations, of which two write pointers of group 0
BATCH = "1 batch create G0:1 c G0:3 3 + write U1:2 0 6869 + create G0:1 d G0:4 4 + write G0:3 0 41"


def as_behind(count, field):
    """The i-handle of the author, or of the group, of the tree behind so many of the operations."""
    def make(maker, version, item, how):
        desk = maker.desk.copy()
        desk.history += [(version.author, version.form, it) for it in audit_model.change_in(item)[1][:count]]
        handles = logs.Handles(desk)
        if field == "handle":
            version.handle = handles.of("U", version.author)
        else:
            version.groups = [(group, handles.of("G", group)) for group, _ in version.groups]
    return make


def numbers_raised(user, group):
    """Those of user 1 and of group 0, so often."""
    return other("vector", lambda _, maker: [number + {1: user, 3: group}.get(n, 0) for n, number in enumerate(maker.vector)])


BATCH_FIELDS = {
    "numbers_for_each_operation": ([numbers_raised(4, 2)], "35 WrongVector"),
    "author_for_each_operation": ([numbers_raised(4, 1)], "35 WrongVector"),
    "group_for_each_operation": ([numbers_raised(1, 2)], "35 WrongVector"),
    "no_group_and_no_number_of_it": ([carried(), numbers_raised(1, 0)], "38 WrongHandle G0"),
    "no_group_but_its_number": ([carried(), numbers_raised(1, 1)], "35 WrongVector"),
    "handle_of_no_operation": ([as_behind(0, "handle")], "38 WrongHandle U1"),
    "handle_of_the_first_operation": ([as_behind(1, "handle")], "38 WrongHandle U1"),
    "handle_of_all_but_the_last": ([as_behind(3, "handle")], "38 WrongHandle U1"),
    "group_handle_of_no_operation": ([as_behind(0, "groups")], "38 WrongHandle G0"),
    "group_handle_of_the_first_operation": ([as_behind(1, "groups")], "38 WrongHandle G0"),
    "third_format": ([other("form", lambda _, maker: 3)], "39 Change 44 OldFormat"),
    "first_format": ([other("form", lambda _, maker: 1)], "44 OldFormat"),
}

# batches that the desk refuses after the first four commits, and how
UNFIT_BATCHES = {
    "1 batch create G0:1 x G0:3 3 + create G0:1 x G0:4 4": "19 Exists", "1 batch create G0:1 x G0:3 3 + create G0:1 y G0:4 3": "17 Held",
    "1 batch create G0:1 x U1:3 + write U1:2 0 41 + truncate U1:9 1": "14 NoFile U1:9",
    "1 batch truncate U1:9 1 + create G0:1 b U1:3": "14 NoFile U1:9",
    "1 batch truncate U1:2 1 + truncate U1:2 16777217": "22 TooBig", "1 batch unlink G0:1 b U1:2 + write U1:2 0 41": "14 NoFile U1:2",
    "2 batch create G0:1 x U2:3 + create G0:1 y U2:4": "16 NotHolder 1",
    "0 batch take G0:1 9 + create G0:1 x G1:1 8 + create G0:1 x G1:2 7": "19 Exists",
    "2 batch take G0:1 9 + create G0:1 x G1:1 8": "13 NotMember 1",
    "1 batch mkdir G0:1 x U1:3 + create U1:3 y U1:4 + unlink G0:1 x U1:3": "20 NotEmpty",
}

TRUNCATE, DROP = "03" + "000100000002" + "00000007", "08" + "00000009"
# bytes that are no batch, and the place that is refused
NO_BATCHES = {
    "no_count": ("", 2), "half_a_count": ("00", 2), "none": ("0000", 2), "none_and_one": ("0000" + DROP, 2), "one": ("0001" + DROP, 2),
    "257": ("0101" + DROP * 257, 2), "many": ("ffff" + DROP * 2, 2), "two_of_none": ("0002", 4), "two_of_one": ("0002" + DROP, 9),
    "three_of_two": ("0003" + DROP + TRUNCATE, 20), "two_of_three": ("0002" + DROP * 3, 14), "a_byte_more": ("0002" + TRUNCATE + DROP + "00", 20),
    "an_undo": ("0002" + DROP + "00" + "0000000000000001", 9), "an_undo_in_front": ("0002" + "00" + "0000000000000001" + DROP, 4),
    "a_rekey": ("0002" + DROP + "09" + "0000000500000004" + "00" * 48, 9), "a_batch": ("0002" + DROP + "0a" + "0002" + DROP * 2, 9),
    "a_batch_in_front": ("0002" + "0a" + "0002" + DROP * 2 + DROP, 4), "an_unknown_kind": ("0002" + DROP + "0b", 9),
    "a_whole_item": ("0002" + DROP + "05" + DROP, 10),
    "a_cut_operation": ("0002" + DROP + TRUNCATE[:-2], 16), "a_cut_first_operation": ("0002" + DROP[:-2], 5),
    "a_body_out_of_range": ("0002" + TRUNCATE + "0800000000", 16), "a_write_of_no_bytes": ("0002" + DROP + "02" + "000100000002" + "00000000" * 2, 20),
}


def batches(room):
    """Commits of several operations, behind those of older formats: what is taken, and each part that may be another one."""
    next_ = Next(BATCH, form=4)
    publics = next_.before.publics
    yield "a_batch_behind_the_third_format", is_so(room, publics, next_.log(*next_.of()), 5)
    for name, (changes, wanted) in (*FIELDS.items(), *BATCH_FIELDS.items()):
        yield f"batch_{name}", tried(room, next_, changes, wanted)
    for line, wanted in UNFIT_BATCHES.items():
        log = unfit(next_.before, *next_.before.read(line))
        yield f"batch_refused_{line}", is_so(room, publics, log, (5, f"39 Change {wanted}"))
    for name, (fields_, place) in NO_BATCHES.items():
        log = next_.with_item(1, bytes.fromhex("050a" + fields_))
        yield f"no_batch_of_{name}", is_so(room, publics, log, (5, f"39 Change 1 Malformed {place}"))
    yield from sizes_of_batches(room, next_)
    yield from formats_of_batches(room)


def sizes_of_batches(room, next_):
    """The most operations, and the longest item."""
    file, maker = ("U", 1, 2), next_.before
    cases = {f"a_batch_of_{count}": [("truncate", file, n) for n in range(count)] for count in (2, 255, 256)}
    for length in (4429, 4430, 4431):  # 4 bytes stand before the operations, and in each write 15 before its own
        cases[f"a_batch_of_{65570 + length}_bytes"] = [("write", file, 0, b"A" * 65536), ("write", file, 65536, b"B" * length)]
    for name, operations in cases.items():
        change = ("batch", tuple(operations))
        log = next_.log(maker.copy(), maker.version(1, change), logs.item_of(change))
        yield name, is_so(room, maker.publics, log, (5, "22 TooBig") if name == "a_batch_of_70001_bytes" else 5)


def formats_of_batches(room):
    """A log of all formats; behind a batch there is none that is older, and an older one has no batch."""
    maker = Mixed().maker
    script(maker, "1 truncate U1:2 1", form=3)
    batch = "1 batch truncate U1:2 2 + create G0:1 c U1:3 + rename G0:1 b G0:1 d U1:2"
    for form in (1, 2, 3):
        user, change = maker.read(batch)
        version = logs.Version(user, maker.prev, sha256(logs.item_of(change)), bytes(32), [], maker.raised(user, []), form)
        log = maker.log() + logs.log_bytes([(maker.sign(version), logs.item_of(change))])
        yield f"a_batch_in_format_{form}", is_so(room, maker.publics, log, (6, "44 OldFormat" if form < 3 else "39 Change 44 OldFormat"))
    script(maker, f"{batch}; 1 write U1:3 0 41", form=4)
    yield "a_log_of_four_formats", is_so(room, maker.publics, maker.log(), 7)
    for form in (1, 2, 3):
        later = maker.copy()
        user, change = later.read("1 undo 7")
        version = later.version(user, change, 4)
        version.form = form
        log = later.log() + logs.log_bytes([(later.sign(version), logs.item_of(change))])
        yield f"format_{form}_behind_a_batch", is_so(room, maker.publics, log, (8, "44 OldFormat"))
    maker.desk.form = 4
    yield "a_batch_that_is_blocked", is_so(room, maker.publics, unfit(maker, *maker.read("1 undo 6")), (8, "39 Change 28 Blocked 7"))
    script(maker, "1 undo 7; 1 undo 6; 1 undo 5; 1 batch truncate U1:2 3 + truncate U1:2 4")
    yield "batches_are_undone", is_so(room, maker.publics, maker.log(), 11)


def short():
    """A log of two commits, of which the second carries a group: where each of its lengths stands, and where its records end."""
    maker = script(logs.Maker([logs.key_of(n) for n in range(2)]), "0 create G0:1 a U0:2; 1 take G0:1 1")
    places, ends, at = [], [], 0
    for record in maker.records:
        for part in record:
            places.append(at)
            at += 4 + len(part)
        ends.append(at)
    return maker.publics, maker.log(), places, ends


def all_of(room, publics, wanted):
    """Those logs of which the program says something else than is wanted: pairs of a name and of what it says."""
    with concurrent.futures.ThreadPoolExecutor(RUNS_AT_ONCE) as pool:
        said = pool.map(lambda it: room.audit(publics, it[1]), wanted)
        return [(name, is_) for (name, _, should), is_ in zip(wanted, said) if is_ != should]


def each_byte(room):
    publics, log, places, ends = short()
    cut = []
    for length in range(len(log) + 1):
        taken = sum(end <= length for end in ends)
        place = max(at for at in places if at <= length)
        if length in (0, *ends):
            wanted = f"ok {taken}\n", 0
        else:
            wanted = f"at {taken + 1}\nno 1 Malformed {place}\n", 1
        cut.append((length, log[:length], wanted))
    wrong = all_of(room, publics, cut)
    yield f"cut_at_each_byte: {wrong[:3]}", wrong == []
    changed = []
    for at, byte in enumerate(log):
        number = 1 + sum(end <= at for end in ends)
        start = places[2 * number - 1] - 1292
        if start <= at < start + 1292:
            wanted = f"at {number}\nno 33 BadSignature\n", 1
            changed.append((at, log[:at] + bytes([byte ^ 1 << at % 8]) + log[at + 1:], wanted))
            continue
        for to in {0, 255, byte ^ 1, byte ^ 128} - {byte}:
            other_ = log[:at] + bytes([to]) + log[at + 1:]
            wanted = audit_model.audit(publics, other_)
            changed.append(((at, to), other_, wanted if wanted[0].startswith(f"at {number}\n") else None))
    wrong = all_of(room, publics, changed)
    yield f"each_byte_changed: {wrong[:3]}", wrong == []


def orders(room):
    """Commits are left out, come twice, or in another order; and logs of other users."""
    maker = script(logs.Maker([logs.key_of(n, width=4) for n in range(2)]), "; ".join(logs.STORY.splitlines()))
    publics, records = maker.publics, maker.records
    count = len(records)
    for n in range(count):
        log = logs.log_bytes(records[:n] + records[n + 1:])
        yield f"without_{n + 1}", is_so(room, publics, log, count - 1 if n == count - 1 else (n + 1, f"34 WrongPrev {n}"))
        log = logs.log_bytes(records[:n + 1] + records[n:])
        yield f"twice_{n + 1}", is_so(room, publics, log, (n + 2, f"34 WrongPrev {n + 1}"))
        for m in range(n + 1, count):
            log = logs.log_bytes(records[:n] + [records[m]] + records[n + 1:m] + [records[n]] + records[m + 1:])
            yield f"{m + 1}_for_{n + 1}", is_so(room, publics, log, (n + 1, f"34 WrongPrev {n}"))
    yield "users_exchanged", is_so(room, publics[::-1], maker.log(), (1, "33 BadSignature"))
    yield "a_user_more", is_so(room, publics + publics[:1], maker.log(), (1, "34 WrongPrev 0"))
    yield "a_user_fewer", is_so(room, publics[:1], maker.log(), (1, "34 WrongPrev 0"))
    items = [record[1] for record in records]
    log = logs.log_bytes(list(zip((record[0] for record in records), items[1:] + items[:1])))
    yield "items_of_the_next", is_so(room, publics, log, (1, "5 MissingBlock"))
    again = script(logs.Maker(maker.keys), "0 create G0:1 a U0:2; 0 write U0:2 0 41; 0 write U0:2 0 41")
    log = logs.log_bytes([*again.records[:2], (again.records[2][0], b"junk")])
    yield "an_item_that_came_before", is_so(room, publics, log, 3)
    log = logs.log_bytes([(records[0][0], items[1]), *records])
    yield "an_item_too_late", is_so(room, publics, log, (1, "5 MissingBlock"))


# ---- logs of more commits than are read ahead at once

def ahead(room):
    """The program reads 256 records at once, and no more once they have 16 MiB: what is wrong stands around the end of these, or behind
    another wrong one."""
    maker = script(logs.Maker([logs.key_of(0, 10, 4, leaves=300)]), "0 create G0:1 a U0:2; " + "; ".join(f"0 truncate U0:2 {n}" for n in range(299)))
    publics, records = maker.publics, maker.records

    def with_bad(*numbers):
        return [(flipped(commit), item) if n in numbers else (commit, item) for n, (commit, item) in enumerate(records, 1)]

    yield "ahead_all", is_so(room, publics, maker.log(), 300)
    for number in (255, 256, 257, 300):
        yield f"ahead_unsigned_{number}", is_so(room, publics, logs.log_bytes(with_bad(number)), (number, "33 BadSignature"))
    yield "ahead_two_unsigned", is_so(room, publics, logs.log_bytes(with_bad(100, 200)), (100, "33 BadSignature"))
    for number in (256, 257):
        yield f"ahead_{number}_alone", is_so(room, publics, logs.log_bytes(records[:number]), number)
        log = logs.log_bytes(records[:number])
        place = len(log) - 4 - len(records[number - 1][1])
        yield f"ahead_cut_{number}", is_so(room, publics, log[:-1], (number, f"1 Malformed {place}"))
        yield f"ahead_unsigned_before_cut_{number}", is_so(room, publics, logs.log_bytes(with_bad(3)[:number])[:-1], (3, "33 BadSignature"))
        later = [item for _, item in records]
        later[number - 1], later[number] = later[number], later[number - 1]
        log = logs.log_bytes(list(zip((commit for commit, _ in records), later)))
        yield f"ahead_item_of_{number}_too_late", is_so(room, publics, log, (number, "5 MissingBlock"))
    maker = script(logs.Maker(maker.keys), "0 create G0:1 a U0:2")
    for n in range(270):
        maker.add(0, ("write", ("U", 0, 2), n % 16 * 65536, bytes([n % 256]) * 65536))
    yield "ahead_many_bytes", is_so(room, publics, maker.log(), 271)
    for number in (255, 256, 257):
        log = logs.log_bytes([(flipped(commit), item) if n == number else (commit, item) for n, (commit, item) in enumerate(maker.records, 1)])
        yield f"ahead_many_bytes_unsigned_{number}", is_so(room, publics, log, (number, "33 BadSignature"))


# ---- faults and statuses

def tells(result, *parts):
    """Whether a run ended with status 1 and a line that has these parts, and printed nothing."""
    printed, told, status = result
    return (printed, status) == ("", 1) and told.count("\n") == 1 and all(part in told for part in ("sundr: ", *parts))


def faults(room):
    publics, log, _, _ = short()
    key, right = room.file(publics[0], ".pub"), room.file(log)
    lines = {
        "no_words": [], "no_log": [key], "no_key": ["--log", right], "a_log_of_no_name": [key, "--log"],
        "two_logs": ["--log", right, "--log", right, key], "another_option": ["--log", right, "--users", "1", key],
        "too_many_keys": ["--log", right, *[key] * 65], "keys_after_no_log": ["--log", key],
    }
    for name, words in lines.items():
        printed, told, status = run(["audit", *words])
        yield name, (printed, status) == ("", 2) and told != ""
    yield "as_many_keys_as_can_be", run(room.words(publics[:1] * 64, room.file(b""))) == ("ok 0\n", "", 0)
    yield "the_log_last", run(["audit", *(room.file(public, ".pub") for public in publics), f"--log={right}"]) == ("ok 2\n", "", 0)
    bad = {
        "short": publics[0][:55], "long": publics[0] + b"\0", "empty": b"", "of_text": publics[0].hex().encode(),
        "of_lms_4": b"\0\0\0\4" + publics[0][4:], "of_lms_10": b"\0\0\0\12" + publics[0][4:],
        "of_ots_0": publics[0][:7] + b"\0" + publics[0][8:], "of_ots_5": publics[0][:7] + b"\5" + publics[0][8:],
    }
    for name, data in bad.items():
        refused = room.file(data, ".bad")
        yield f"a_key_{name}", tells(run(["audit", "--log", "/nowhere", key, refused]), refused, "BadKey")
    for name, path, why in (("no_key_there", "/nowhere", "No such file"), ("a_folder_as_key", "/", "Is a directory")):
        yield name, tells(run(["audit", "--log", "/nowhere/log", key, path]), f"{path}:", why)
    yield "a_key_without_end", tells(run(["audit", "--log", right, "/dev/zero"]), "/dev/zero", "BadKey")
    yield "the_first_bad_key", tells(run(["audit", "--log", right, "/nowhere", "/"]), "/nowhere")
    yield "no_log_there", tells(run(["audit", "--log", "/nowhere", key]), "/nowhere:", "No such file")
    yield "a_folder_as_log", tells(run(["audit", "--log", "/", key]), "/:", "Is a directory")
    yield from streams(room, publics, log)


def streams(room, publics, log):
    words, right = room.words(publics, room.file(log)), room.file(log)
    with open("/dev/full", "w") as full:
        _, told, status = run(words, stdout=full)
        yield "a_full_disk", status == 1 and told.startswith("sundr: writing") and "No space left" in told
    reader, writer = os.pipe()
    os.close(reader)
    yield "a_reader_gone", run(words, stdout=writer)[1:] == ("", 1)
    os.close(writer)
    by_pipe = ["bash", "-c", '"$0" audit --log <(cat "$1") "${@:2}"', PROGRAM, right, *words[3:]]
    ended = subprocess.run(by_pipe, capture_output=True, text=True)
    yield "a_log_by_a_pipe", (ended.stdout, ended.stderr, ended.returncode) == ("ok 2\n", "", 0)
    yield "a_log_without_end", run(["audit", "--log", "/dev/zero", *words[3:]]) == ("at 1\nno 22 TooBig\n", "", 1)
    little = {"preexec_fn": lambda: resource.setrlimit(resource.RLIMIT_AS, (LITTLE_MEMORY, LITTLE_MEMORY))}
    yield "little_memory", run(words, **little) == ("ok 2\n", "", 0)
    behind = 4 + int.from_bytes(log[:4], "big")  # the first commit with its number
    for name, other_, wanted in (
            ("a_commit_past_the_end", GONE, "at 1\nno 1 Malformed 0\n"),
            ("more_past_the_end", GONE + log, "at 1\nno 1 Malformed 0\n"),
            ("an_item_past_the_end", log + log[:behind] + GONE + log, None)):
        wanted = wanted or f"at 3\nno 1 Malformed {len(log) + behind}\n"
        yield name, run(room.words(publics, room.file(other_)), **little) == (wanted, "", 1)
    yield "help", run(["audit", "--help"])[::2] == (run(["audit", "--help"])[0], 0) and "--log" in run(["audit", "--help"])[0]


def example(room):
    """The log of examples/audit is the one that logs.py makes, and its script prints what it should."""
    folder = f"{TOP}/examples/audit"
    logs.write_example(room.at)
    for name in ("log", "0.pub", "1.pub"):
        made, stored = (open(f"{at}/{name}", "rb").read() for at in (room.at, folder))
        yield f"example_{name}", made == stored
    ended = subprocess.run([f"{folder}/run", PROGRAM], capture_output=True, text=True)
    yield "example_run", (ended.stdout, ended.stderr, ended.returncode) == (open(f"{folder}/run.out").read(), "", 0)


def main():
    results = {}
    if not tally.is_there("audit", PROGRAM):
        return 1
    for part in (keys, signatures, many_keys, good, by_chance, fields, formats, rekeys, batches, each_byte, orders, ahead, faults, example):
        with tempfile.TemporaryDirectory() as at:
            results.update(part(Room(at)))
    return tally.told("audit", results)


if __name__ == "__main__":
    sys.exit(main())
