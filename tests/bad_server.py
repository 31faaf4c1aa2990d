#!/usr/bin/env python3
"""A server that misbehaves, in each of the ways that a client has to notice: it shows other records than it has, or sends what is
no reply. Each lie is a `Service` of model_server.py.

usage: bad_server.py PORT PUBLIC..    serves users with these public keys on a port, and takes its orders from standard input:

    list NAME      shows this list from now on, and stores there; a new one begins as the first list is then
    roll_back N    leaves out the last N commits of that list
    drop N         says that it has no commit N
    swap M N       exchanges two commits
    forge N        changes one bit of the signature of commit N
    item N         gives other bytes for the change of commit N
    mute           ends each session without an answer
    honest         lies no more

It prints `ready` once it listens, and `done` once an order is carried out.
"""
import copy
import sys
import threading

import audit_model
import model_server
import wire
from desk_model import sha256


class Show(model_server.Service):
    """Shows these records, which are pairs of a commit and an item; a commit that is None isn't there. What is told beside them may
    differ: how many there are, and which is the last of each user. It takes each commit that is handed in."""

    def __init__(self, publics, records, count=None, last=None):
        super().__init__(publics)
        self.shown = [commit for commit, _ in records]
        self.items = {sha256(item): item for _, item in records}
        self.count, self.told_last, self.is_held = count, last, False

    def grant(self, _, __):
        self.is_held = True
        count = len(self.shown) if self.count is None else self.count
        return wire.granted(count, self.last() if self.told_last is None else self.told_last)

    def last(self):
        return {audit_model.commit_in(commit)[0].author: n for n, commit in enumerate(self.shown, 1) if commit}

    def commit(self, _, data):
        self.is_held = False
        self.shown.append(data)
        return wire.stored(len(self.shown))

    def give(self, _, __):
        self.is_held = False
        return wire.GIVEN

    def fetch(self, _, number):
        commit = self.shown[number - 1] if 1 <= number <= len(self.shown) else None
        return wire.NOTHING if commit is None else wire.kept(commit)


def flipped(data, at):
    """With one bit changed."""
    data = bytearray(data)
    data[at] ^= 1
    return bytes(data)


# ---- other records

def roll_back(records, count):
    """The last ones are left out."""
    return records[:len(records) - count]


def fork(records, number, others):
    """From that number on those of another list."""
    return records[:number - 1] + others[number - 1:]


def swap(records, a, b):
    records = list(records)
    records[a - 1], records[b - 1] = records[b - 1], records[a - 1]
    return records


def drop(records, number):
    """The server says that it has no such record."""
    return change(records, number, lambda commit: None)


def forge(records, number):
    """One bit of a signature is changed."""
    return change(records, number, lambda commit: flipped(commit, -1))


def change(records, number, how):
    records = list(records)
    commit, item = records[number - 1]
    records[number - 1] = how(commit), item
    return records


# ---- other items, numbers and bytes

class WrongItem(Show):
    """Gives other bytes for each item."""

    def get(self, seat, digest):
        return super().get(seat, digest) + b"!"


class NoItem(Show):
    """Says that it has no item, but for one if so."""

    def __init__(self, publics, records, but=None):
        super().__init__(publics, records)
        self.but = but

    def get(self, seat, digest):
        if self.but is not None and digest == sha256(self.but):
            return super().get(seat, digest)
        return wire.refused("5 MissingBlock")


class WrongDigest(Show):
    """Says of each item that it holds another one."""

    def put(self, _, item):
        return wire.put_done(sha256(item + b"!"))


class WrongNumber(Show):
    """Tells another number of each commit that it stores."""

    def commit(self, seat, data):
        super().commit(seat, data)
        return wire.stored(2 ** 64 - 1)


class Refuses(Show):
    """Refuses good commits, which leaves the turn where it is."""

    def commit(self, _, __):
        return wire.refused("36 KeyReuse")


class Swallows(Show):
    """Says that a commit is stored, and forgets it."""

    def commit(self, _, __):
        self.is_held = False
        return wire.stored(len(self.shown) + 1)


class KeepsTurn(Show):
    """Says to who gives the turn back that he hasn't it."""

    def give(self, _, __):
        self.is_held = False
        return wire.refused("32 NotYourTurn")


class Forgets(Show):
    """Ends the link at the grant at that place, and has forgotten from then on what was handed in."""

    def __init__(self, publics, records, at):
        super().__init__(publics, records)
        self.left, self.first = at, len(records)

    def grant(self, seat, field):
        self.left -= 1
        if self.left == 0:
            del self.shown[self.first:]
            raise Instead(b"")
        return super().grant(seat, field)


class AlwaysBusy(Show):
    """Says that another seat has the turn."""

    def grant(self, _, __):
        return wire.refused("31 Busy 9")


class Forks(model_server.Service):
    """Once there are so many records, each seat has a book of its own. When they are exchanged, it is shown that of another one."""

    def __init__(self, publics, count):
        super().__init__(publics)
        self.count, self.shared, self.own = count, self.book, {}
        self.are_exchanged, self.one_at_a_time = False, threading.Lock()

    def answer(self, seat, message):
        with self.one_at_a_time:
            self.book = self.book_of(seat)
            return super().answer(seat, message)

    def book_of(self, seat):
        if len(self.shared.records) < self.count:
            return self.shared
        own = self.own.setdefault(seat, copy.deepcopy(self.shared))
        others = [book for other, book in self.own.items() if other != seat]
        return others[0] if self.are_exchanged else own

    def put_back(self, _):
        pass


class Replies(Show):
    """Sends these bytes in the place of the replies to so many requests of a name, whatever they are, from the one at that place on, and
    ends the link behind each."""

    def __init__(self, publics, records, name, data, at=1, count=1):
        super().__init__(publics, records)
        self.name, self.data, self.left, self.times = name, data, at, count

    def answer(self, seat, message):
        name, _ = wire.request_in(message)
        self.left -= name == self.name
        if -self.times < self.left <= 0 and name == self.name:
            raise Instead(self.data)
        return super().answer(seat, message)


class Instead(Exception):
    """These bytes are to be sent, and the link is to end."""


class Server(model_server.Server):
    """Serves a service that may send what is no frame."""

    def reply(self, seat, link):
        try:
            return super().reply(seat, link)
        except Instead as instead:
            link.write(instead.args[0])
            return False


# what is sent in the place of a reply, and is none that fits
NO_REPLIES = {
    "nothing": b"",
    "half_a_length": b"\0\0",
    "a_cut_frame": wire.frame(wire.stored(1))[:-1],
    "no_length": b"\0\0\0\0",
    "too_long_a_frame": (wire.LONGEST_MESSAGE + 1).to_bytes(4, "big") + bytes(100),
    "the_longest_length": b"\xff" * 100,
    "an_unknown_tag": wire.frame(b"\x99"),
    "a_request": wire.frame(wire.GRANT),
    "a_byte_more": wire.frame(wire.GIVEN + b"\0"),
    "an_unknown_refusal": wire.frame(b"\xff\x2d" + bytes(8)),
    "a_refusal_of_another_request": wire.frame(wire.refused("41 TooLong")),
    "a_refusal_with_an_argument": wire.frame(b"\xff\x20" + bytes(7) + b"\1"),
    "a_refusal_of_a_seat_that_is_none": wire.frame(b"\xff\x1f" + b"\xff" * 8),
    "users_that_descend": wire.frame(b"\x81" + bytes(8) + b"\2" + b"\1" + bytes(8) + b"\0" + bytes(8)),
    "another_reply": wire.frame(wire.put_done(bytes(32))),
}


# ---- a server that takes orders

class Mute(Show):
    """Ends each session at its first request."""

    def answer(self, _, __):
        raise Instead(b"")


class ToldItem(Show):
    """Gives other bytes for one item."""

    def __init__(self, publics, records, number):
        super().__init__(publics, records)
        self.other = sha256(records[number - 1][1])

    def get(self, seat, digest):
        item = super().get(seat, digest)
        return flipped(item, -1) if digest == self.other else item


class Attacker:
    """Has several lists, each with a service of its own, and shows one of them, or what it makes of that."""

    def __init__(self, publics):
        self.publics, self.lists = publics, {"first": model_server.Service(publics)}
        self.true = self.shown = self.lists["first"]

    def answer(self, seat, message):
        return self.shown.answer(seat, message)

    def put_back(self, seat):
        self.shown.put_back(seat)

    def records(self):
        commits = self.true.book.records
        return [(commit, self.true.items[audit_model.commit_in(commit)[0].change]) for commit in commits]

    def obey(self, order, *words):
        if order == "list":
            self.true = self.lists.get(words[0]) or self.lists.setdefault(words[0], self.copy())
        numbers = [int(word) for word in words if word.isdigit()]
        self.shown = {
            "list": lambda: self.true, "honest": lambda: self.true, "mute": lambda: Mute(self.publics, self.records()),
            "item": lambda: ToldItem(self.publics, self.records(), *numbers),
        }.get(order, lambda: Show(self.publics, globals()[order](self.records(), *numbers)))()

    def copy(self):
        """A list that is the first one, as it is now."""
        other, first = model_server.Service(self.publics), self.lists["first"]
        other.book, other.items = copy.deepcopy(first.book), dict(first.items)
        return other


def main():
    publics = []
    for path in sys.argv[2:]:
        with open(path, "rb") as file:
            publics.append(file.read())
    attacker = Attacker(publics)
    with Server(attacker, port=int(sys.argv[1])):
        print("ready", flush=True)
        for line in sys.stdin:
            attacker.obey(*line.split())
            print("done", flush=True)


if __name__ == "__main__":
    main()
