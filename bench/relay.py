#!/usr/bin/env python3
"""A relay between clients and a server on loopback, as far from one another as is asked for. By hand:
`bench/relay.py PORT [--delay 10]` relays to that port, prints its own, and runs until it is killed.

Each direction is held back by so many milliseconds, 10 by default, so that a reply comes twice as many after its request. The throughput
isn't held back: what comes is passed on once its time has come, however much is on the way. Connections are made without delay. The
bytes are counted each way, as `Relay.counted` tells.
"""
import argparse
import functools
import queue
import socket
import threading
import time

CHUNK = 1 << 16


class Relay:
    """Relays what comes at its `port` to another one, and back, each so many seconds later."""

    def __init__(self, to, seconds):
        self.to, self.seconds = to, seconds
        self.counting, self.bytes, self.going = threading.Condition(), [0, 0], 0
        self.listener = socket.create_server(("127.0.0.1", 0))
        self.port = self.listener.getsockname()[1]
        self.accepting = threading.Thread(target=self.accept, daemon=True)
        self.accepting.start()

    def __enter__(self):
        return self

    def __exit__(self, *_):
        self.listener.close()

    def accept(self):
        while True:
            try:
                client, _ = self.listener.accept()
            except OSError:  # the listener is closed
                return
            try:
                server = socket.create_connection(("127.0.0.1", self.to))
            except OSError:
                client.close()
                continue
            for stream in (client, server):
                stream.setsockopt(socket.IPPROTO_TCP, socket.TCP_NODELAY, 1)
            with self.counting:
                self.going += 2
            for way, ends in enumerate(((client, server), (server, client))):
                Direction(*ends, self.seconds, functools.partial(self.count, way))

    def count(self, way, size):
        """Counts bytes that came to go to the server (way 0) or back (way 1); none are the end of a direction."""
        with self.counting:
            self.bytes[way] += size
            if not size:
                self.going -= 1
                self.counting.notify_all()

    def counted(self, wait=30):
        """How many bytes came to go to the server, and back, once each connection has ended. Raises `TimeoutError` where one goes on for
        so many seconds."""
        with self.counting:
            if not self.counting.wait_for(lambda: not self.going, wait):
                raise TimeoutError(f"{self.going} directions of the relay to port {self.to} haven't ended")
            return tuple(self.bytes)


class Direction:
    """Passes on what comes from one end to the other, each chunk so many seconds later, and has the sizes of the chunks counted."""

    def __init__(self, come_from, go_to, seconds, count):
        self.come_from, self.go_to, self.seconds, self.count = come_from, go_to, seconds, count
        self.on_the_way = queue.SimpleQueue()
        for work in (self.take, self.pass_on):
            threading.Thread(target=work, daemon=True).start()

    def take(self):
        """Notes when each chunk is due; one without bytes is the end."""
        chunk = b"."
        while chunk:
            try:
                chunk = self.come_from.recv(CHUNK)
            except OSError:
                chunk = b""
            self.count(len(chunk))
            self.on_the_way.put((time.monotonic() + self.seconds, chunk))

    def pass_on(self):
        while True:
            due, chunk = self.on_the_way.get()
            if (early := due - time.monotonic()) > 0:
                time.sleep(early)
            try:
                if not chunk:
                    self.go_to.shutdown(socket.SHUT_WR)
                    return
                self.go_to.sendall(chunk)
            except OSError:  # nobody reads there any more, so no more is taken
                self.stop()
                return

    def stop(self):
        try:
            self.come_from.shutdown(socket.SHUT_RD)
        except OSError:
            pass


def main():
    parser = argparse.ArgumentParser(description=__doc__.splitlines()[0])
    parser.add_argument("port", type=int, help="the server's port")
    parser.add_argument("--delay", type=float, default=10, help="milliseconds that each direction is held back by")
    words = parser.parse_args()
    relay = Relay(words.port, words.delay / 1000)
    print(relay.port, flush=True)
    relay.accepting.join()


if __name__ == "__main__":
    main()
