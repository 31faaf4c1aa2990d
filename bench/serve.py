#!/usr/bin/env python3
"""How long it takes to share files. Run by hand: `bench/serve.py [FILES]`, with 200 files by default; some minutes.

Over loopback one client makes so many files of 100 bytes in the root directory, a create and a write each, and another one reads each
file once it is there. For keys of 4 and of 8 bits a coefficient, all with a tree of height 10, and for keys that stand on the disk and
in memory (/dev/shm: a signature waits for the disk twice), it prints
- operations a second by the clock, of the one client alone, which has all its lines at once, and with the reader, file by file;
- milliseconds of processor for each operation, of the writer, the server and the reader, once they have started;
- what a leaf costs to make (a signature walks about one half of its chains, a check the other half), what a client takes to start with
  its key, and what an audit of the log takes for each commit on one core, which checks it and takes it;
and then, of a run through a proxy that counts, requests and bytes for each operation, by the kind of the request.

SUNDR names another program to measure.
"""
import collections
import os
import subprocess
import sys
import tempfile
import threading
import time

HERE = os.path.dirname(os.path.abspath(__file__))
TOP = os.path.dirname(HERE)
sys.path.insert(0, f"{TOP}/tests")

import serving  # noqa: E402
import wire  # noqa: E402

SIZE = 100
HEIGHT = 10
LEAVES = 2 ** HEIGHT
COUNTED_FILES = 20
TICK = os.sysconf("SC_CLK_TCK")


class Keys:
    """Two users' keys in a folder."""

    def __init__(self, at, width):
        self.at, self.files = at, [f"{at}/{user}" for user in range(2)]
        before = os.times().children_user
        for file in self.files:
            with open(f"{at}/entropy", "wb") as entropy:
                entropy.write(os.urandom(48))
            words = ["--entropy", f"{at}/entropy", "--out", file, "--height", str(HEIGHT), "--width", str(width)]
            subprocess.run([*serving.program, "keygen", *words], check=True, stdout=subprocess.DEVNULL)
        self.leaf = (os.times().children_user - before) / len(self.files) / LEAVES
        self.publics = [f"{file}.pub" for file in self.files]

    def client(self, port, user):
        numbers = ("--port", port, "--user", user, "--key", self.files[user], "--tries", 100000)
        return serving.Client(["client", *numbers, *self.publics])


def processor(running):
    """Seconds of processor that a process has had."""
    with open(f"/proc/{running.process.pid}/stat", encoding="utf-8") as file:
        fields = file.read().rsplit(") ", 1)[1].split(" ")
    return (int(fields[11]) + int(fields[12])) / TICK


def lines_of(number):
    data = (b"%09d" % number * 12)[:SIZE].hex().encode()
    return b"create /f%d" % number, b"write /f%d 0 %b" % (number, data), data


def expect(printed, wanted):
    if printed != wanted:
        sys.exit(f"bench/serve.py: it printed {printed}, and not {wanted}")


def ask(client, line, wanted):
    client.write(line + b"\n")
    expect(client.printed.next(), wanted)


class Shared:
    """A server and two clients, once all have started."""

    def __init__(self, keys, port_of=lambda port: port):
        self.server = serving.Server(keys, workers=2, capacity=100000)
        started = time.monotonic()
        self.clients = [keys.client(port_of(self.server.port), user) for user in range(2)]
        for client in self.clients:
            ask(client, b"ls x", b"no 29 BadPath")
        self.started = time.monotonic() - started

    def __enter__(self):
        return self

    def __exit__(self, *_):
        for running in (*self.clients, self.server):
            running.kill()

    def processors(self):
        return [processor(running) for running in (self.clients[0], self.server, self.clients[1])]


def alone(shared, files):
    """Seconds by the clock for these files, where the writer has all its lines at once, and of processor."""
    writer, before = shared.clients[0], shared.processors()
    started = time.monotonic()
    script = b"".join(line + b"\n" for n in range(files) for line in lines_of(n)[:2])
    threading.Thread(target=writer.write, args=(script,)).start()
    for n in range(2 * files):
        expect(writer.printed.next(), b"ok %d" % (n + 1))
    return time.monotonic() - started, [x - y for x, y in zip(shared.processors(), before)]


def together(shared, files, first=0):
    """The same where the reader reads each file once it is there."""
    writer, reader = shared.clients
    before, started = shared.processors(), time.monotonic()
    for n in range(first, first + files):
        create, write, data = lines_of(n)
        ask(writer, create, b"ok %d" % (2 * n + 1))
        ask(writer, write, b"ok %d" % (2 * n + 2))
        ask(reader, b"cat /f%d 0 %d" % (n, SIZE), data)
    return time.monotonic() - started, [x - y for x, y in zip(shared.processors(), before)]


def audit_time(keys, shared, files):
    """Seconds that an audit on one core takes for each commit of the log."""
    log = f"{keys.at}/log"
    shared.clients[1].say(b"save " + log.encode())
    cores = os.sched_getaffinity(0)
    os.sched_setaffinity(0, {max(cores)})
    started = time.monotonic()
    ended = subprocess.run([*serving.program, "audit", "--log", log, *keys.publics], stdout=subprocess.PIPE)
    os.sched_setaffinity(0, cores)
    expect(ended.stdout, b"ok %d\n" % (2 * files))
    return (time.monotonic() - started) / (2 * files)


def measure(keys, files):
    """A row of the table."""
    operations = 2 * files
    with Shared(keys) as shared:
        clock, _ = alone(shared, files)
        rates = [operations / clock]
    for file in keys.files:
        reset(file)
    with Shared(keys) as shared:
        clock, used = together(shared, files)
        rates.append(operations / clock)
        return rates, [1000 * it / operations for it in used], shared.started, audit_time(keys, shared, files)


def reset(file):
    """A key that signs from its first leaf on again, as the next book is a new one. (No key that is used for anything else is ever
    to be set back.)"""
    with open(file, "r+b") as key:
        key.seek(60)
        key.write(bytes(4))


class Proxy:
    """Passes requests and replies on, and counts them by the kind of the request."""

    def __init__(self, port):
        self.to, self.counts = port, collections.Counter()
        self.listener = serving.socket.create_server(("127.0.0.1", 0))
        self.port = self.listener.getsockname()[1]
        threading.Thread(target=self.listen, daemon=True).start()

    def listen(self):
        while True:
            stream, _ = self.listener.accept()
            threading.Thread(target=self.serve, args=(wire.Link(stream),), daemon=True).start()

    def serve(self, client):
        server = wire.connect(self.to)
        client.stream.settimeout(None)
        try:
            while request := client.receive():
                reply = server.ask(request)
                name, _ = wire.request_in(request)
                self.counts.update({(name, "requests"): 1, (name, "asked"): 4 + len(request), (name, "replied"): 4 + len(reply)})
                client.send(reply)
        except wire.LinkEnded:
            server.close()


def traffic(keys):
    """Of each operation of a client alone, and of both: requests and bytes by the kind of the request."""
    proxies = []

    def port_of(port):
        proxies.append(Proxy(port))
        return proxies[0].port

    for file in keys.files:
        reset(file)
    with Shared(keys, port_of) as shared:
        counts = proxies[0].counts
        counts.clear()
        for n in range(COUNTED_FILES):
            create, write, _ = lines_of(n)
            ask(shared.clients[0], create, b"ok %d" % (2 * n + 1))
            ask(shared.clients[0], write, b"ok %d" % (2 * n + 2))
        yield "the writer", dict(counts)
        counts.clear()
        for n in range(COUNTED_FILES):
            ask(shared.clients[1], b"cat /f%d 0 %d" % (n, SIZE), lines_of(n)[2])
        yield "the reader, all at first", dict(counts)
        counts.clear()
        together(shared, COUNTED_FILES, COUNTED_FILES)
        yield "both", dict(counts)


def show_traffic(keys):
    print(f"\n{'for each operation':26} " + " ".join(f"{name:>16}" for name in [*(it[0] for it in wire.REQUESTS.values()), "all"]))
    for who, counts in traffic(keys):
        cells = [tuple(counts.get((name, what), 0) / (2 * COUNTED_FILES) for what in ("requests", "asked", "replied"))
                 for name, _ in wire.REQUESTS.values()]
        cells.append(tuple(map(sum, zip(*cells))))
        print(f"{who:26} " + " ".join("{:5.2f} {:5.0f}{:5.0f}".format(*cell).rjust(16) for cell in cells), flush=True)


def main():
    files = int(sys.argv[1]) if len(sys.argv) > 1 else 200
    if 2 * files > LEAVES:
        sys.exit(f"bench/serve.py: a file takes two leaves, and a key has {LEAVES}")
    heads = ("alone/s", "both/s", "writer", "server", "reader", "a leaf", "audit", "start s")
    print(f"{'':26} " + " ".join(f"{it:>8}" for it in heads) + "   (milliseconds where nothing else is said)")
    with tempfile.TemporaryDirectory() as disk, tempfile.TemporaryDirectory(dir="/dev/shm") as memory:
        for width in (4, 8):
            for where, folder in (("disk", disk), ("memory", memory)):
                keys = Keys(tempfile.mkdtemp(dir=folder), width)
                rates, used, started, audited = measure(keys, files)
                cells = [*rates, *used, 1000 * keys.leaf, 1000 * audited, started]
                print(f"{f'width {width}, keys in {where}':26} " + " ".join(f"{it:8.2f}" for it in cells), flush=True)
        show_traffic(keys)


if __name__ == "__main__":
    main()
