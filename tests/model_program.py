#!/usr/bin/env python3
"""The second client, server, key maker and audit, as a program with the command line of `sundr`, so that what tries the program can
be tried on it. It knows the faults and statuses, and no help.
"""
import argparse
import fcntl
import os
import sys

import audit_model
import client_model
import lms
import model_server
import wire
from desk_model import Refused


class Fault(Exception):
    """Ends with status 1, and this line on standard error."""


def in_range(first, last):
    def number(text):
        if not first <= int(text) <= last:
            raise ValueError
        return int(text)
    return number


def arguments():
    parser = argparse.ArgumentParser(prog="sundr")
    programs = parser.add_subparsers(dest="program", required=True)
    keygen = programs.add_parser("keygen")
    for name in ("entropy", "out"):
        keygen.add_argument(f"--{name}", required=True)
    keygen.add_argument("--height", type=int, choices=(5, 10), required=True)
    keygen.add_argument("--width", type=int, choices=(4, 8), required=True)
    serve = programs.add_parser("serve")
    for name, last in (("port", 65535), ("workers", 16), ("capacity", 1000000), ("sessions", 1000000)):
        serve.add_argument(f"--{name}", type=in_range(1, last), required=name != "sessions")
    client = programs.add_parser("client")
    client.add_argument("--port", type=in_range(1, 65535), required=True)
    client.add_argument("--user", type=in_range(0, 63), required=True)
    client.add_argument("--key", required=True)
    client.add_argument("--log")
    client.add_argument("--tries", type=in_range(1, 1000000), default=1000)
    client.add_argument("--leaves-ahead", type=in_range(1, 16), default=16)
    client.add_argument("--stop", action="store_true")
    client.add_argument("--batch", action="store_true")
    client.add_argument("--keep-tree", action="store_true")
    audit = programs.add_parser("audit")
    audit.add_argument("--log", required=True)
    for program in (serve, client, audit):
        program.add_argument("publics", nargs="+")
    words = parser.parse_args()
    if len(getattr(words, "publics", [])) > 64:
        parser.error("too many public keys")
    return words


def read_file(path):
    try:
        with open(path, "rb") as file:
            return file.read()
    except OSError as why:
        raise Fault(f"{path}: {why.strerror}") from None


def read_publics(paths):
    publics = []
    for path in paths:
        public = read_file(path)
        if not lms.is_key(public):
            raise Fault(f"{path} is no public key: 9 BadKey")
        publics.append(public)
    return publics


def keygen(words):
    key = lms.Key(read_file(words.entropy), words.height, words.width)
    for path, data in ((words.out, key.file()), (f"{words.out}.pub", key.public())):
        with open(path, "wb") as file:
            file.write(data)
    print(key.public().hex())


def audit(words):
    printed, status = audit_model.audit(read_publics(words.publics), read_file(words.log))
    sys.stdout.write(printed)
    return status


def serve(words):
    service = model_server.Service(read_publics(words.publics), words.capacity)
    try:
        server = model_server.Server(service, words.workers, words.sessions, words.port)
    except OSError as why:
        raise Fault(f"port {words.port}: {why.strerror}") from None
    tell(f"listening on 127.0.0.1:{server.port}")
    server.join()
    tell(f"served {words.sessions} sessions, {len(service.book.records)} records")


class KeptKey:
    """A key in its file, where one process uses it. The file says the leaf that signs next, or one behind it: one write of the file
    serves `ahead` signatures."""

    def __init__(self, path, ahead):
        self.path, self.ahead, self.has_failed = path, ahead, False
        data = read_file(path)
        self.lock = os.open(f"{path}.lock", os.O_CREAT | os.O_RDWR, 0o600)
        try:
            fcntl.flock(self.lock, fcntl.LOCK_EX | fcntl.LOCK_NB)
        except OSError:
            raise Fault(f"{path}: another process uses the key") from None
        try:
            self.key, self.next = client_model.key_in(data)
        except Refused:
            self.close()
            raise Fault(f"{path} is no key file: 9 BadKey") from None
        self.stored = self.next

    def store(self, leaf):
        if leaf > self.stored:
            last_part = self.key.leaves - min(64, self.key.leaves // 8)  # these are stored one by one
            stored = min(leaf + self.ahead - 1, max(leaf, last_part))
            try:
                self.write(stored)
            except OSError:
                self.has_failed = True
                raise Refused("10 KeyFileFault") from None
            self.stored = stored
        self.next = leaf

    def close(self):
        os.close(self.lock)

    def put_back(self):
        """Has the file say the leaf that signs next, once the last one has signed."""
        if self.has_failed or self.stored == self.next:
            return
        try:
            self.write(self.next)
        except OSError as why:
            tell(f"writing {self.path}: {why.strerror}")

    def write(self, leaf):
        with open(f"{self.path}.next", "wb") as file:
            file.write(self.key.file(leaf))
        os.replace(f"{self.path}.next", self.path)


def client(words):
    if words.user >= len(words.publics):
        raise Fault(f"user {words.user} has no public key")
    kept = KeptKey(words.key, words.leaves_ahead)
    publics = read_publics(words.publics)
    log = read_file(words.log) if words.log else b""
    try:
        link = wire.connect(words.port)
    except OSError as why:
        check_alone(publics, log)
        raise Fault(f"port {words.port}: {why.strerror}") from None
    member = client_model.Client(
        link, publics, words.user, kept.key, kept.next, words.tries, kept.store, lambda: wire.connect(words.port),
        kept, lambda path: other_key(path, words.leaves_ahead))
    member.batches = words.batch
    try:
        member.take_log(log)
        return run(member, words.stop)
    except client_model.LogRefused as why:
        sys.stdout.write(str(why))
        return 1
    except client_model.LinkFailed:
        raise Fault("the link to the server failed") from None
    finally:
        member.held.put_back()
        member.link.close()


def other_key(path, ahead):
    """The key in another file. Raises `Refused` where it can't be used."""
    try:
        return KeptKey(path, ahead)
    except Fault as why:
        raise Refused("9 BadKey" if str(why).endswith("9 BadKey") else "10 KeyFileFault") from None


def check_alone(publics, log):
    """Without a server a bad log is still told first."""
    printed, status = audit_model.audit(publics, log)
    if status:
        sys.stdout.write(printed)
        sys.exit(1)


def run(member, stops):
    for number, line in enumerate(lines(), 1):
        try:
            for text in client_model.carried_out(member, line) if line else ():
                say(text)
        except Refused as why:
            say(f"no {why}".encode())
            if stops:
                raise Fault(f"line {number} was refused") from None
        except client_model.LinkFailed as why:
            say(f"no {why}".encode())
            raise
        except client_model.Bad:
            say(b"line %d: bad" % number)
            tell(f"line {number}: no command")
            return 2
        except OSError as why:
            raise Fault(f"saving {os.fsdecode(why.filename)}: {why.strerror}") from None
    return 0


def lines():
    try:
        for line in sys.stdin.buffer:
            yield line.removesuffix(b"\n")
    except OSError as why:
        raise Fault(f"reading the script: {why.strerror}") from None


def say(text):
    """Prints a line. Where nobody reads it any more, that is the end."""
    try:
        os.write(1, text + b"\n")
    except BrokenPipeError:
        sys.exit(1)
    except OSError as why:
        raise Fault(f"writing an answer: {why.strerror}") from None


def tell(text):
    print(f"sundr: {text}", file=sys.stderr, flush=True)


def main():
    words = arguments()
    try:
        return globals()[words.program](words) or 0
    except Fault as why:
        tell(why)
        return 1


if __name__ == "__main__":
    sys.exit(main())
