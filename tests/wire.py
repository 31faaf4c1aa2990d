"""Messages on a stream, written from docs/FORMATS.md alone: frames, requests and replies."""
import socket

import audit_model
from desk_model import demand
from logs import u8, u32, u64

LONGEST_MESSAGE = 131072
WAIT = 30  # seconds that a link is waited for at most
GRANT, GIVE = b"\x01", b"\x03"
GIVEN, NOTHING = b"\x83", b"\x85"

# the refusals that travel, and which of them have an argument
NAMES = {
    1: "Malformed", 5: "MissingBlock", 22: "TooBig", 30: "NoMemory", 31: "Busy", 32: "NotYourTurn", 33: "BadSignature",
    34: "WrongPrev", 35: "WrongVector", 36: "KeyReuse", 37: "BookFull", 41: "TooLong", 42: "UnknownTag", 44: "OldFormat",
}
WITH_ARGUMENT = (1, 31, 34)


class LinkEnded(Exception):
    """The stream ended, or failed, or stood still for too long."""


def frame(message):
    return u32(len(message)) + message


# ---- requests

def commit(data):
    return b"\x02" + data


def fetch(number):
    return b"\x04" + u64(number)


def put(item):
    return b"\x05" + item


def get(digest):
    return b"\x06" + digest


def rest(reader):
    return reader.part(len(reader.data) - reader.at)


def nothing(_):
    return None


def number(reader):
    return reader.number(8)


def digest(reader):
    return reader.part(32)


REQUESTS = {
    1: ("grant", nothing), 2: ("commit", rest), 3: ("give", nothing), 4: ("fetch", number), 5: ("put", rest), 6: ("get", digest),
}


def message_in(message, kinds):
    """The name of a message, and its field."""
    reader = audit_model.Reader(message)
    tag = reader.number(1)
    demand(tag in kinds, "42 UnknownTag")
    name, read = kinds[tag]
    field = read(reader)
    reader.end()
    return name, field


def request_in(message):
    """The name of a request, and its field. Raises `Refused` as a server refuses the message."""
    return message_in(message, REQUESTS)


# ---- replies

def granted(count, last):
    """`last` is the number of the last commit of each user who has one."""
    return b"\x81" + u64(count) + u8(len(last)) + b"".join(u8(user) + u64(n) for user, n in sorted(last.items()))


def stored(n):
    return b"\x82" + u64(n)


def kept(data):
    return b"\x84" + data


def put_done(of):
    return b"\x86" + of


def item(data):
    return b"\x87" + data


def refused(why):
    """Of the text of a refusal, as `31 Busy 2`."""
    words = str(why).split(" ")
    code = int(words[0])
    return b"\xff" + u8(code) + u64(int(words[2]) if code in WITH_ARGUMENT else 0)


def turn(reader):
    count, last, least = reader.number(8), {}, 0
    for _ in range(reader.number(1)):
        user = reader.number(1, least, 63)
        last[user] = reader.number(8)
        least = user + 1
    return count, last


def refusal(reader):
    """The text of a refusal."""
    code, argument = reader.number(1), reader.number(8)
    demand(code in NAMES and (code in WITH_ARGUMENT or argument == 0), "1 Malformed 1")
    return f"{code} {NAMES[code]}" + (f" {argument}" if code in WITH_ARGUMENT else "")


REPLIES = {
    0x81: ("granted", turn), 0x82: ("stored", number), 0x83: ("given", nothing), 0x84: ("kept", rest), 0x85: ("nothing", nothing),
    0x86: ("put_done", digest), 0x87: ("item", rest), 0xff: ("refused", refusal),
}


def reply_in(message):
    """The name of a reply, and its field. Raises `Refused` where it is none."""
    return message_in(message, REPLIES)


# ---- a stream

class Link:
    """One end of a stream of messages. Raises `LinkEnded` where it ends."""

    def __init__(self, stream):
        self.stream = stream
        stream.settimeout(WAIT)
        stream.setsockopt(socket.IPPROTO_TCP, socket.TCP_NODELAY, 1)
        self.reader = stream.makefile("rb")

    def read(self, count):
        try:
            data = self.reader.read(count)
        except OSError:
            raise LinkEnded from None
        if len(data) < count:
            raise LinkEnded
        return data

    def receive(self):
        """The next message. Raises `Refused` where its length is none."""
        length = int.from_bytes(self.read(4), "big")
        demand(length > 0, "1 Malformed 0")
        demand(length <= LONGEST_MESSAGE, "41 TooLong")
        return self.read(length)

    def write(self, data):
        try:
            self.stream.sendall(data)
        except OSError:
            raise LinkEnded from None

    def send(self, message):
        self.write(frame(message))

    def ask(self, request):
        """The reply to a request, as its bytes."""
        self.send(request)
        return self.receive()

    def close(self):
        try:
            self.stream.shutdown(socket.SHUT_RDWR)
        except OSError:  # the other end has gone
            pass
        self.reader.close()
        self.stream.close()


def connect(port):
    """A link to a server on this machine."""
    return Link(socket.create_connection(("127.0.0.1", port), WAIT))
