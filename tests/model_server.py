"""A second server, written from docs/FORMATS.md and docs/DEFINITIONS.md alone: a book, items, and sessions over sockets, which are
served by so many workers, each with a seat of its own.
"""
import queue
import socket
import threading

import audit_model
import wire
from desk_model import Refused, demand, sha256


class Book:
    """The records of a server, and which seat has the turn."""

    def __init__(self, publics, capacity):
        self.chain = audit_model.Chain(publics)
        self.capacity, self.records, self.holder = capacity, [], None
        self.last = {}

    def grant(self, seat):
        demand(self.holder in (None, seat), f"31 Busy {self.holder}")
        self.holder = seat
        return len(self.records), self.last

    def commit(self, seat, data):
        demand(self.holder == seat, "32 NotYourTurn")
        version, signature = audit_model.commit_in(data)
        self.chain.check_next(version, signature)
        demand(len(self.records) < self.capacity, "37 BookFull")
        self.chain.add(data)
        self.records.append(data)
        self.last = {**self.last, version.author: len(self.records)}
        self.holder = None
        return len(self.records)

    def give(self, seat):
        demand(self.holder == seat, "32 NotYourTurn")
        self.holder = None


class Service:
    """What a server replies: to each request by a call of its name."""

    def __init__(self, publics, capacity=1000000):
        self.book, self.items = Book(publics, capacity), {}
        self.lock = threading.Lock()

    def answer(self, seat, message):
        """The reply to a message; None where the link is to end."""
        try:
            name, field = wire.request_in(message)
            with self.lock:
                return getattr(self, name)(seat, field)
        except Refused as why:
            return wire.refused(why)

    def grant(self, seat, _):
        return wire.granted(*self.book.grant(seat))

    def commit(self, seat, data):
        return wire.stored(self.book.commit(seat, data))

    def give(self, seat, _):
        self.book.give(seat)
        return wire.GIVEN

    def fetch(self, _, number):
        records = self.book.records
        return wire.kept(records[number - 1]) if 1 <= number <= len(records) else wire.NOTHING

    def put(self, _, item):
        demand(1 <= len(item) <= audit_model.LONGEST_ITEM, "22 TooBig")
        self.items.setdefault(sha256(item), item)
        return wire.put_done(sha256(item))

    def get(self, _, digest):
        demand(digest in self.items, "5 MissingBlock")
        return wire.item(self.items[digest])

    def put_back(self, seat):
        """Frees the turn of a session that has ended."""
        with self.lock:
            if self.book.holder == seat:
                self.book.holder = None


class Server:
    """Serves sessions on a port of this machine, each by one of the workers. With `sessions` it serves so many, and ends."""

    def __init__(self, service, workers=4, sessions=None, port=0):
        self.service, self.sessions = service, sessions
        self.listener = socket.create_server(("127.0.0.1", port))
        self.port = self.listener.getsockname()[1]
        self.links, self.open = queue.Queue(), set()
        self.going, self.changed = 0, threading.Condition()  # sessions that have begun and haven't ended
        self.workers = [threading.Thread(target=self.work, args=(seat,), daemon=True) for seat in range(workers)]
        for thread in [threading.Thread(target=self.listen, daemon=True), *self.workers]:
            thread.start()

    def listen(self):
        served = 0
        while served != self.sessions:
            try:
                stream, _ = self.listener.accept()
            except OSError:  # the server is closed
                break
            self.count(1)
            self.links.put(stream)
            served += 1
        self.listener.close()
        for _ in self.workers:
            self.links.put(None)

    def work(self, seat):
        while stream := self.links.get():
            self.open.add(stream)
            stream.settimeout(None)
            try:
                self.serve(seat, stream)
            except (wire.LinkEnded, OSError):
                pass
            self.service.put_back(seat)
            self.open.discard(stream)
            self.count(-1)

    def count(self, more):
        with self.changed:
            self.going += more
            self.changed.notify_all()

    def settle(self):
        """Waits until all sessions have ended whose clients have gone: nothing comes of them any more. (Connections are taken in their
        order, so those before ours have begun once it is answered.) Tells whether they have, in time."""
        link = wire.connect(self.port)
        link.ask(wire.fetch(1))
        link.close()
        with self.changed:
            return self.changed.wait_for(lambda: self.going == 0, wire.WAIT)

    def serve(self, seat, stream):
        link = wire.Link(stream)
        stream.settimeout(None)
        try:
            while self.reply(seat, link):
                pass
        finally:
            link.close()

    def reply(self, seat, link):
        """Answers the next message, and tells whether the session goes on."""
        try:
            message = link.receive()
        except Refused as why:
            link.send(wire.refused(why))
            return False
        reply = self.service.answer(seat, message)
        if reply is not None:
            link.send(reply)
        return reply is not None

    def join(self):
        """Waits until all sessions are served."""
        for worker in self.workers:
            worker.join()

    def close(self):
        try:
            self.listener.shutdown(socket.SHUT_RDWR)
        except OSError:  # it has ended by itself
            pass
        self.listener.close()
        for stream in list(self.open):
            try:
                stream.shutdown(socket.SHUT_RDWR)
            except OSError:
                pass

    def __enter__(self):
        return self

    def __exit__(self, *_):
        self.close()
