#!/usr/bin/env python3
"""Tries `sundr client`, whose tree lies on the server, which is a second one (model_server.py) that may lack, lie about or
forget what a client left there: more than the client's cache keeps, so that what is asked of the tree is asked of the server.

usage: partial.py [PART..]    without the built program it tries nothing

Prints a line for each case that isn't as it should be, and last 'N passed, M failed'.
"""
import sys
import tempfile
import time

import audit_model
import bad_server
import serving
import tally
import wire
from desk_model import sha256

# Lines that ask for what is left, and are refused where it isn't there.
ASKING = (b"cat /f1000 0 9", b"write /f1200 0 68", b"remove /f300", b"rename /f40 /k", b"link /f500 /m", b"create /n", b"tidy",
          b"undo 6")
MANY = 1536  # names of the root: with their inodes and what joins them more than the 1,024 items that a client's cache keeps
BATCH = 256


class Trees(bad_server.Show):
    """Shows records, and holds what clients leave of their trees. It counts what it is asked of that, and answers so while `how` is
    `lacks`, `lies` or `ends`."""

    def __init__(self, publics, records):
        super().__init__(publics, records)
        self.changes = {sha256(item) for _, item in records}
        self.how, self.puts, self.gets, self.left, self.ends_at = "whole", 0, 0, None, None

    def grant(self, seat, field):
        if self.left is not None:
            self.left -= 1
            if self.left < 0:
                self.left = None
                raise bad_server.Instead(b"")
        return super().grant(seat, field)

    def commit(self, seat, data):
        self.changes.add(audit_model.commit_in(data)[0].change)
        return super().commit(seat, data)

    def put(self, seat, item):
        self.puts += 1
        if self.puts == self.ends_at:
            raise bad_server.Instead(b"")
        return super().put(seat, item)

    def get(self, seat, digest):
        item = super().get(seat, digest)
        if digest in self.changes:
            return item
        self.gets += 1
        if self.how == "lacks":
            return wire.refused("5 MissingBlock")
        if self.how == "ends":
            raise bad_server.Instead(b"")
        return item + b"!" if self.how == "lies" else item

    def put_back(self, seat):
        """A session has ended: what it put, and no commit names, is let go."""
        super().put_back(seat)
        with self.lock:
            self.items = {digest: item for digest, item in self.items.items() if digest in self.changes}


def many(room):
    """The records of a list whose root has that many names, and the lines that `ls /` prints of them."""
    maker = room.log("; ".join(
        f"0 batch {' + '.join(f'create G0:1 f{n} U0:{n}' for n in range(first, first + BATCH))}" for first in range(2, 2 + MANY, BATCH)), form=4)
    return maker.records, sorted(b"f%d U0:%d" % (n, n) for n in range(2, 2 + MANY))


BATCH_LEAF = 16  # the first leaf that no commit of the list was signed with


def large(room):
    """The records of a list with files of more bytes than wait at a client to be put, a mebibyte; and the lines that `ls /` prints of them."""
    maker = room.log("; ".join(
        f"0 batch create G0:1 f{n} U0:{n} + write U0:{n} 0 {n:02x}{'61' * (LARGE_SIZE - 1)}" for n in LARGE), form=4)
    return maker.records, sorted(b"f%d U0:%d" % (n, n) for n in LARGE)


LARGE, LARGE_SIZE = range(2, 20), 60_000


class Walk:
    """A client at a server of trees, once it has left its tree there."""

    def __init__(self, at, options=(), list_of=many):
        self.room, self.options = serving.Room(at), options
        records, self.names = list_of(self.room)
        self.service = Trees(self.room.public_keys, records)
        self.count = len(records)

    def __enter__(self):
        self.server = bad_server.Server(self.service)
        key = self.room.file(self.room.keys[0].file(max(BATCH_LEAF, self.count)))
        self.client = self.room.client(self.server.port, 0, *self.options, key=key)
        return self

    def __exit__(self, *_):
        self.client.kill()
        self.server.close()

    def say(self, line):
        return self.client.say(line)


def left(at):
    """What is asked of the tree is asked of the server, once all of it was left there, and is as if it lay in memory."""
    with Walk(at) as walk:
        yield "before_a_commit_nothing_is_left", walk.say(b"ls /") == walk.names and (walk.service.puts, walk.service.gets) == (0, 0)
        said = walk.say(b"create /g")
        yield f"a_commit: {said[:2]}", said == [b"ok %d" % (walk.count + 1)]
        yield f"the_tree_is_left: {walk.service.puts}", walk.service.puts > MANY
        names = sorted([*walk.names, b"g G0:2"])
        yield "its_names", walk.say(b"ls /") == names
        yield f"are_asked_for: {walk.service.gets}", walk.service.gets > 0
        said = [walk.say(line) for line in (b"write /g 0 6869", b"cat /g 0 9", b"undo_last", b"cat /g 0 9", b"cat /f7 0 9")]
        wanted = [[b"ok %d" % (walk.count + 2)], [b"6869"], [b"ok %d" % (walk.count + 3)], [b""], [b""]]
        yield f"what_is_written: {[answer[:2] for answer in said]}", said == wanted
        before = walk.service.puts
        said = walk.say(b"create /h")
        yield f"only_what_changed_is_put_again: {walk.service.puts - before}", said == [b"ok %d" % (walk.count + 4)] and walk.service.puts - before < 100
        yield "it_ends", walk.client.end() == ([], [], 0)


def unleft(at):
    """A client that is told to keep its tree leaves nothing of it, and asks for nothing of it."""
    with Walk(at, ("--keep-tree",)) as walk:
        yield "a_commit", walk.say(b"create /g") == [b"ok %d" % (walk.count + 1)]
        yield f"nothing_is_left: {walk.service.puts}", walk.service.puts == 1
        yield f"or_asked_for: {walk.service.gets}", walk.say(b"ls /") == sorted([*walk.names, b"g G0:2"]) and walk.service.gets == 0
        yield "it_ends", walk.client.end() == ([], [], 0)


def untrusted(at):
    """A server that lacks what was left, or lies about it, is told by its refusal, and is asked again."""
    with Walk(at) as walk:
        yield "it_is_left", walk.say(b"create /g") == [b"ok %d" % (walk.count + 1)]
        names = sorted([*walk.names, b"g G0:2"])
        for how, refusal in (("lacks", b"no 5 MissingBlock"), ("lies", b"no 6 WrongBlock")):
            walk.service.how = how
            said = walk.say(b"ls /")
            yield f"a_server_that_{how}: {said[:2]}", said == [refusal]
            lines = (*ASKING, b"undo_last") if how == "lacks" else ASKING  # (later the last operation is one of which all is at hand)
            answers = {line: walk.say(line) for line in lines}
            yield f"what_asks_of_a_server_that_{how}: {answers}", all(it == [refusal] for it in answers.values())
            walk.service.how = "whole"
            yield f"and_then_is_whole_after_it_{how}", walk.say(b"ls /") == names
            yield f"a_commit_after_it_{how}", walk.say(b"write /g 0 68") == [b"ok %d" % (walk.count + (2 if how == "lacks" else 3))]
        yield "it_ends", walk.client.end() == ([], [], 0)


def anew(at):
    """Over a link that is made anew the tree lies in memory, as the server lets go what the session before has put, until it is left again."""
    with Walk(at) as walk:
        yield "it_is_left", walk.say(b"create /g") == [b"ok %d" % (walk.count + 1)]
        names = sorted([*walk.names, b"g G0:2"])
        walk.service.left = 0
        before = walk.service.gets
        yield "names_over_a_new_link", walk.say(b"ls /") == names
        yield f"that_the_server_is_not_asked_for: {walk.service.gets - before}", walk.service.gets == before
        before = walk.service.puts
        yield "and_a_commit", walk.say(b"write /g 0 6869") == [b"ok %d" % (walk.count + 2)]
        yield f"behind_which_it_is_put_again: {walk.service.puts - before}", walk.service.puts - before > MANY
        yield "and_is_asked_for", walk.say(b"ls /") == names and walk.say(b"cat /g 0 9") == [b"6869"] and walk.service.gets > 0
        printed, told, status = walk.client.end()
        yield f"it_ends: {told} {walk.client.asides}", (printed, told, status) == ([], [], 0) and walk.client.asides == ["without_log", "anew"]


def ended(at):
    """A link that ends while the tree is asked for ends the client, which tells so."""
    with Walk(at) as walk:
        yield "it_is_left", walk.say(b"create /g") == [b"ok %d" % (walk.count + 1)]
        walk.service.how = "ends"
        walk.client.write(b"ls /\n")
        end = walk.client.end()
        yield f"a_link_that_ends: {end}", serving.is_failed(end, refusal=b"no 7 SourceFailed")


def cut_short(at):
    """A link that ends while the tree is left to the server: what is left of that stays in memory, and nothing is lost. The next line comes
    over a link that is made anew, over which the tree is left again."""
    with Walk(at) as walk:
        walk.service.ends_at = MANY // 2
        said = walk.say(b"create /g")
        yield f"the_commit_is_made_before: {said[:2]}", said == [b"ok %d" % (walk.count + 1)]
        yield f"not_all_is_left: {walk.service.puts}", walk.service.puts == walk.service.ends_at
        before = walk.service.gets
        names = walk.say(b"ls /")
        yield f"its_names: {names[:2]}", names == sorted([*walk.names, b"g G0:2"])
        yield f"that_the_server_is_not_asked_for: {walk.service.gets - before}", walk.service.gets == before
        before = walk.service.puts
        said = walk.say(b"write /g 0 6869")
        yield f"and_a_commit: {said[:2]}", said == [b"ok %d" % (walk.count + 2)]
        yield f"behind_which_it_is_left: {walk.service.puts - before}", walk.service.puts - before > MANY
        yield "and_is_asked_for", walk.say(b"cat /g 0 9") == [b"6869"] and walk.service.gets > 0
        printed, told, status = walk.client.end()
        yield f"it_ends: {told} {walk.client.asides}", (printed, told, status) == ([], [], 0) and walk.client.asides == ["without_log", "anew"]


def cut_earlier(at):
    """The same where so many bytes are left that some are put before the others are at hand."""
    with Walk(at, list_of=large) as walk:
        walk.service.ends_at = 3
        said = walk.say(b"create /g")
        yield f"the_commit_is_made_before: {said[:2]}", said == [b"ok %d" % (walk.count + 1)]
        yield f"not_all_is_left: {walk.service.puts}", walk.service.puts == walk.service.ends_at
        names = walk.say(b"ls /")
        yield f"its_names: {names[:2]}", names == sorted([*walk.names, b"g G0:2"])
        said = [walk.say(b"cat /f%d %d 9" % (n, offset)) for n in (2, 19) for offset in (0, LARGE_SIZE - 2)]
        yield f"its_bytes: {said}", said == [[b"%02x" % n + b"61" * 8] if offset == 0 else [b"6161"] for n in (2, 19) for offset in (0, 1)]
        printed, told, status = walk.client.end()
        yield f"it_ends: {told} {walk.client.asides}", (printed, told, status) == ([], [], 0) and walk.client.asides == ["without_log", "anew"]


def at_a_server(at):
    """The same at the server of the program: a client that left its tree there, and another that comes later."""
    room = serving.Room(at)
    records, names = many(room)
    keys = [room.file(key.file(BATCH_LEAF)) for key in room.keys]
    with serving.Server(room) as server:
        link = serving.raw(server.port)
        stored = [serving.hand_in(link, commit, item) for commit, item in records]
        yield f"it_is_handed_in: {stored[-1:]}", stored[-1:] == [("stored", len(records))]
        link.close()
        zero, one = (room.client(server.port, user, key=key) for user, key in enumerate(keys))
        with zero, one:
            yield "zero_leaves_its_tree", zero.say(b"create /g") == [b"ok %d" % (len(records) + 1)]
            both = sorted([*names, b"g G0:2"])
            yield "and_lists_it", zero.say(b"ls /") == both
            yield "one_sees_it", one.say(b"ls /") == both
            took_and_made = [b"ok %d" % (len(records) + 2), b"ok %d" % (len(records) + 3)]
            yield "one_writes", one.say(b"create /h") == took_and_made
            yield "and_takes_back", one.say(b"undo_last") == [b"ok %d" % (len(records) + 4)]
            yield "and_makes_it_again", one.say(b"create /h") == [b"ok %d" % (len(records) + 5)]
            all_names = sorted([*both, b"h G0:3"])
            yield "zero_takes_them_all", zero.say(b"ls /") == all_names
            yield "zero_ends", zero.end() == ([], [], 0)
            yield "and_one_goes_on", one.say(b"ls /") == all_names and one.say(b"undo_last") == [b"ok %d" % (len(records) + 6)]
            yield "which_is_seen", one.say(b"ls /") == both and one.end() == ([], [], 0)


PARTS = (left, unleft, untrusted, anew, ended, cut_short, cut_earlier, at_a_server)


def main():
    if not tally.is_there("partial", serving.PROGRAM[0]):
        return 1
    words, results = sys.argv[1:], {}
    for part in PARTS:
        if words and part.__name__ not in words:
            continue
        started = time.monotonic()
        with tempfile.TemporaryDirectory() as at:
            for name, right in part(at):
                name = f"{part.__name__}_{name}"
                results[name] = results.get(name, True) and right
        if words:
            print(f"partial: {part.__name__} took {time.monotonic() - started:.1f} s")
    return tally.told("partial", results)


if __name__ == "__main__":
    sys.exit(main())
