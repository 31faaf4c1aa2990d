#!/usr/bin/env python3
"""Tries `sundr serve` and `sundr client` over loopback: a walk of two users, what each line of a script prints, faults and statuses,
keys and kills, a turn that is held, a server that lies (bad_server.py), sessions and workers, a full book, the example, and scripts of
two users by chance, all against what is written here or against the second client of client_model.py.

usage: serving.py [--models] [PART..]    with --models it tries the models instead (model_program.py), without the built program

Prints a line for each case that isn't as it should be, and last 'N passed, M failed'.
"""
import os
import pty
import queue
import random
import re
import select
import shutil
import signal
import socket
import struct
import subprocess
import sys
import tempfile
import threading
import time

import audit_model
import bad_server
import client_model
import desk_model
import lms
import logs
import model_server
import tally
import wire
from desk_model import sha256, user_file
from keys import calls_in

HERE = os.path.dirname(os.path.abspath(__file__))
TOP = os.path.dirname(HERE)
PROGRAM = [os.environ.get("SUNDR", f"{TOP}/crates/sundr/out/sundr")]
MODEL = [sys.executable, "-B", f"{HERE}/model_program.py"]
WAIT = 45  # seconds that an answer, or the end of a program, is waited for at most
CHANCE_SCRIPTS, CHANCE_LINES = 30, 30
KILLS = 24
KILLS_AHEAD = 200  # with leaves in blocks
MOST_CALLS = 100  # at which a client is killed
CLIENT_BATCHES = True  # whether the program's client knows --batch
# What a client tells beside its answers, on which nothing rests: each by a name, as a line of standard error matches it.
ASIDES = {
    "without_log": rb"without --log the client believes the first list that the server shows it: `save FILE` keeps what it has seen, and "
                   rb"--log FILE goes on from there",
    "anew": rb"the session had ended, and the client connected anew",
    "not_anew": rb"the session had ended, and connecting anew failed: .+",
    "not_signed": rb"the public keys are in another order than the server's, the key is another user's or was "
                  rb"changed, or the server shows another folder",
    "few_left": rb"the key can sign [0-9]+ times more: `rekey FILE` goes on to another key, and with --next-key the client does so by itself",
    "rekeyed": rb"commit [0-9]+: from now on the key is .+",
    "other_keys": rb"the server has another list of public keys, or has it in another order",
    "other_list": rb"the server shows another list than before: it hides or exchanges commits, or was set back",
    "lacks": rb"the server lacks commit [0-9]+, which is yours: it was set back to an older copy, or shows another folder",
    "unknown": rb"whether the last command was carried out is not known: look before you repeat it",
    "wanting": rb"memory was wanting, here or at the server: look before you repeat the last command, since it may have been carried out",
    "others_turn": rb"another client has the turn: the same line again may go through",
    "no_worker": rb"the server has no worker free: the same line again may go through",
    "taken_between": rb"another user took the file over between this command's take and the operation behind it: the same line again may "
                     rb"go through",
}
BARRIER = b"undo 18446744073709551615"
BARRIER_ANSWER = b"no 39 Change 24 NoOperation 18446744073709551615"

program = PROGRAM


# ---- programs at work

class Lines:
    """The lines of a stream, as they come."""

    def __init__(self, stream):
        self.lines = queue.Queue()
        threading.Thread(target=self.read, args=(stream,), daemon=True).start()

    def read(self, stream):
        for line in stream:
            self.lines.put(line.removesuffix(b"\n"))
        self.lines.put(None)
        stream.close()

    def next(self):
        """The next line; None where the stream has ended, or none comes in time."""
        try:
            line = self.lines.get(timeout=WAIT)
        except queue.Empty:
            return None
        if line is None:
            self.lines.put(None)
        return line

    def rest(self):
        return list(iter(self.next, None))


class Running:
    """A program that runs, and is killed in the end if it still does."""

    def __init__(self, words, **how):
        streams = {name: subprocess.PIPE for name in ("stdin", "stdout", "stderr")}
        self.process = subprocess.Popen([*program, *map(str, words)], **streams, **how)
        self.printed, self.told = Lines(self.process.stdout), Lines(self.process.stderr)
        self.asides = []

    def __enter__(self):
        return self

    def __exit__(self, *_):
        self.kill()

    def kill(self):
        if self.process.poll() is None:
            self.process.kill()
        self.process.wait()

    def end(self, wait=WAIT):
        """What is still printed and told, and the status; the status is None where the program doesn't end in time. What a client tells
        beside its answers is kept apart, as `asides`."""
        self.close_input()
        try:
            status = self.process.wait(wait)
        except subprocess.TimeoutExpired:
            self.kill()
            status = None
        told = self.told.rest()
        self.asides = [name for line in told if (name := aside_in(line))]
        return self.printed.rest(), [line for line in told if not aside_in(line)], status

    def close_input(self):
        try:
            self.process.stdin.close()
        except BrokenPipeError:
            pass

    def write(self, data):
        try:
            self.process.stdin.write(data)
            self.process.stdin.flush()
        except BrokenPipeError:  # it has ended, as what it printed will show
            pass


class Client(Running):
    """A client whose script is written line by line."""

    def say(self, line):
        """What is printed of a line."""
        self.write(line + b"\n" + BARRIER + b"\n")
        lines = []
        for printed in iter(self.printed.next, None):
            if printed == BARRIER_ANSWER:
                return lines
            lines.append(printed)
        return [*lines, b"(no further answer)"]


def free_port():
    with socket.create_server(("127.0.0.1", 0)) as listener:
        return listener.getsockname()[1]


class Server(Running):
    """A server, which listens once this is made."""

    def __init__(self, room, *more, workers=4, capacity=1000, sessions=1000, port=None):
        self.port = port or free_port()
        numbers = ("--port", self.port, "--workers", workers, "--capacity", capacity, "--sessions", sessions)
        super().__init__(["serve", *numbers, *more, *room.publics])
        self.said = self.told.next()


class Room:
    """A folder with the keys of some users."""

    def __init__(self, at, users=2, width=4, signing=None):
        """Of the users these have whole keys; all, unless they are given."""
        self.at, self.names = at, 0
        leaves = [None if signing is None or user in signing else 1 for user in range(users)]
        self.keys = [logs.key_of(f"serving {user}", width=width, leaves=count) for user, count in enumerate(leaves)]
        self.key_files = [self.file(key.file()) for key in self.keys]
        self.publics = [self.file(key.public()) for key in self.keys]
        self.public_keys = [key.public() for key in self.keys]

    def path(self):
        self.names += 1
        return f"{self.at}/{self.names}"

    def file(self, data):
        """The path of a new file with these bytes."""
        path = self.path()
        with open(path, "wb") as file:
            file.write(data)
        return path

    def words(self, port, user, *more, key=None):
        key = self.key_files[user] if key is None else key
        return ["client", "--port", port, "--user", user, "--key", key, *more, *self.publics]

    def client(self, port, user, *more, **how):
        return Client(self.words(port, user, *more, **how))

    def run(self, port, user, script, *more, **how):
        """What a client prints and tells of a whole script, and its status."""
        with Running(self.words(port, user, *more, **how)) as client:
            client.write(script)
            return client.end()

    def log(self, text, form=desk_model.FIRST_FORMAT):
        """The maker of a log of these lines of a desk script."""
        maker = logs.Maker(self.keys, form)
        for line in text.split("; "):
            maker.say(line)
        return maker


def read(path):
    with open(path, "rb") as file:
        return file.read()


def aside_in(line):
    """The name of what a client tells so beside its answers; None of another line."""
    return next((name for name, text in ASIDES.items() if re.fullmatch(b"sundr: " + text, line)), None)


def is_told(told, *parts):
    """Whether one line is told, with these parts."""
    return len(told) == 1 and all(it.encode() in told[0] for it in ("sundr: ", *parts)) and told[0].startswith(b"sundr: ")


def history_of(log):
    """The authors, formats and changes of a log, as the second desk has them."""
    records = [(audit_model.commit_in(commit)[0], item) for commit, item in audit_model.pieces(read(log))]
    return [(version.author, version.form, audit_model.change_in(item)) for version, item in records]


def changes_of(log):
    """The authors and changes of a log whose commits are all of the format in which lists are begun."""
    history = history_of(log)
    return [(author, change) for author, form, change in history if form == desk_model.FIRST_FORMAT]


def audit(room, log):
    with Running(["audit", "--log", log, *room.publics]) as running:
        return running.end()


# ---- a walk of two users

def walk(at):
    room, saved = Room(at), f"{at}/saved"
    with Server(room, workers=2, capacity=10, sessions=2) as server:
        yield "it_listens", server.said.startswith(b"sundr: ") and b":%d" % server.port in server.said
        with room.client(server.port, 0) as zero, room.client(server.port, 1) as one:
            for name, client, line, wanted in (
                    ("makes_a_directory", zero, b"mkdir /d", [b"ok 1"]),
                    ("takes_it_over", one, b"create /d/f", [b"ok 2", b"ok 3"]),
                    ("sees_the_file", zero, b"ls /d", [b"f G0:3"]),
                    ("is_blocked", zero, b"undo 1", [b"no 39 Change 28 Blocked 3"]),
                    ("saves", zero, b"save " + saved.encode(), [])):
                said = client.say(line)
                yield f"walk_{name}: {said}", said == wanted
            for user, client in enumerate((zero, one)):
                ended = client.end()
                yield f"client_{user}_ends: {ended}", ended == ([], [], 0)
        printed, told, status = server.end()
        yield f"the_server_ends: {told}", (printed, len(told), status) == ([], 1, 0) and told[0].startswith(b"sundr: ")
    yield "the_saved_log_is_good", audit(room, saved) == ([b"ok 3"], [], 0)
    yield "and_is_whole", audit_model.audit(room.public_keys, read(saved)) == ("ok 3\n", 0)
    with Server(room) as server:
        forgotten = room.run(server.port, 1, b"ls /\n", "--log", saved)
        yield f"a_new_server_has_forgotten: {forgotten}", forgotten == ([b"no 40 OwnMissing"], [], 0)
        anew = room.run(server.port, 1, b"ls /\n")
        yield f"without_the_log_nothing: {anew}", anew == ([], [], 0)


# ---- logs that are saved

def logs_taken_up(at):
    """Clients go on with a log, the one who saved it and another one, from wherever it ends."""
    room, saved = Room(at), f"{at}/saved"
    save = b"save %s\n" % saved.encode()
    with Server(room) as server:
        room.run(server.port, 1, save)
        yield "goes_on_with_an_empty_log", room.run(server.port, 0, b"mkdir /a\n", "--log", saved) == ([b"ok 1"], [], 0)
        ended = room.run(server.port, 0, b"mkdir /b\n" + save + b"mkdir /c\n")
        yield f"saves_in_the_middle: {ended}", ended == ([b"ok 2", b"ok 3"], [], 0) and audit(room, saved) == ([b"ok 2"], [], 0)
        for user, wanted in ((0, [b"a G0:2", b"b G0:3", b"c G0:4", b"ok 4"]), (1, [b"a G0:2", b"b G0:3", b"c G0:4", b"ok 5", b"ok 6"])):
            ended = room.run(server.port, user, b"ls /\nmkdir /a/%d\n" % user, "--log", saved)
            yield f"goes_on_with_the_log_{user}: {ended}", ended == (wanted, [], 0)


def little_room(at):
    """Both ends of each link have buffers of 8 KiB, in a network of its own: a client that catches up has more on its way than they
    hold, and so has one that puts the items of its log. (With 4 KiB, the least that there is, the system itself stalls, as it drops
    what says that bytes have come.) Passed by where no network can be made."""
    network = ["unshare", "--net", "sh", "-c", 'ip link set lo up && sysctl -qw "$0" "$1" && shift && exec "$@"']
    little = [f"net.ipv4.tcp_{end}mem=8192 8192 8192" for end in "rw"]
    if program == MODEL or subprocess.run([*network, *little, "true"], capture_output=True).returncode != 0:
        return
    ended = subprocess.run([*network, *little, sys.executable, "-B", __file__, "--in-little-room"], capture_output=True, text=True)
    yield f"much_with_little_room: {ended.stdout} {ended.stderr}", ended.stdout.endswith("\n4 passed, 0 failed\n")


def in_little_room(at):
    """Four users write files of 60,000 bytes, one joins, and one begins with the log at another server."""
    files, room, saved = 14, Room(at, users=4), f"{at}/saved"
    lines = [b"create /%d_%d\nwrite /%d_%d 0 %b\n" % (user, n, user, n, b"%02x" % (user + 1) * 60_000) for user in range(4) for n in range(files)]
    with Server(room) as server:
        scripts = [b"".join(lines[user * files:(user + 1) * files]) for user in range(4)]
        wrote = [room.run(server.port, user, script)[2] for user, script in enumerate(scripts)]
        yield f"writes: {wrote}", wrote == [0] * 4
        ended = room.run(server.port, 0, b"save %b\n" % saved.encode())
        yield f"joins: {ended}", ended == ([], [], 0)
    yield "saves_what_was_written", audit(room, saved) == ([b"ok %d" % (8 * files + 3)], [], 0)
    with Server(room) as server:
        ended = room.run(server.port, 0, b"ls /\n", "--log", saved)
        yield f"puts_the_items_of_its_log: {ended}", ended == ([b"no 40 OwnMissing"], [], 0)


def operations(at):
    """A saved log has the operations that commands become."""
    room, saved = Room(at), f"{at}/saved"
    root, folder, file, other = (desk_model.group_file(0, number) for number in range(1, 5))
    with Server(room) as server:
        for user, line in (
                (1, b"mkdir /d"), (0, b"create /d/f"), (0, b"rename /d/f /f"), (1, b"create /d/g"), (1, b"rename /f /d/g"),
                (0, b"link /d/g /h"), (0, b"save " + saved.encode())):
            room.run(server.port, user, line)
    wanted = [
        (1, ("take", root, 1)), (1, ("create", "mkdir", root, b"d", folder, 2)),
        (0, ("take", folder, 2)), (0, ("create", "create", folder, b"f", file, 3)),
        (0, ("take", root, 4)), (0, ("rename", folder, b"f", root, b"f", file)),
        (1, ("take", folder, 3)), (1, ("create", "create", folder, b"g", other, 4)),
        (1, ("take", root, 5)), (1, ("unlink", folder, b"g", other)), (1, ("rename", root, b"f", folder, b"g", file)),
        (0, ("take", root, 5)), (0, ("link", root, b"h", file))]
    made = changes_of(saved)
    yield f"operations_of_commands: {[it for it in zip(made, wanted) if it[0] != it[1]][:1]}", made == wanted
    yield from operations_of_names(at)


def operations_of_names(at):
    """Takes come first, and a name that is in use is made free before a file gets it. What takes leave behind is tidied away, by each
    user his own."""
    root, file, other = (desk_model.group_file(0, number) for number in range(1, 4))
    cases = {
        "taken": (
            ((1, b"mkdir /d"), (0, b"create /d/f"), (0, b"rename /d/f /f"), (1, b"write /f 0 68656c6c6f")),
            [(1, ("take", root, 1)), (1, ("create", "mkdir", root, b"d", file, 2)),
             (0, ("take", file, 2)), (0, ("create", "create", file, b"f", other, 3)),
             (0, ("take", root, 4)), (0, ("rename", file, b"f", root, b"f", other)),
             (1, ("take", other, 3)), (1, ("write", other, 0, b"hello"))]),
        "made_free": (
            ((0, b"create /a"), (0, b"create /b"), (1, b"rename /a /b"), (1, b"link /b /c"), (1, b"rename /b /c"), (1, b"remove /c")),
            [(0, ("create", "create", root, b"a", file, 2)), (0, ("create", "create", root, b"b", other, 3)),
             (1, ("take", root, 1)), (1, ("take", other, 2)), (1, ("unlink", root, b"b", other)), (1, ("rename", root, b"a", root, b"b", file)),
             (1, ("take", file, 2)), (1, ("link", root, b"c", file)),
             (1, ("unlink", root, b"c", file)), (1, ("rename", root, b"b", root, b"c", file)), (1, ("unlink", root, b"c", file))]),
        "tidied": (
            ((0, b"tidy"), (1, b"mkdir /d"), (0, b"create /d/f"), (0, b"rename /d/f /f"), (1, b"tidy"), (0, b"tidy"), (0, b"tidy")),
            [(1, ("take", root, 1)), (1, ("create", "mkdir", root, b"d", file, 2)),
             (0, ("take", file, 2)), (0, ("create", "create", file, b"f", other, 3)),
             (0, ("take", root, 4)), (0, ("rename", file, b"f", root, b"f", other)),
             (1, ("drop", 1)), (1, ("drop", 2)), (0, ("drop", 1))]),
    }
    for name, (lines_, wanted) in cases.items():
        folder = f"{at}/{name}"
        os.mkdir(folder)
        room, saved = Room(folder), f"{folder}/saved"
        with Server(room) as server:
            for user, line in (*lines_, (0, b"save " + saved.encode())):
                room.run(server.port, user, line)
        made = changes_of(saved)
        yield f"operations_of_names_{name}: {[it for it in zip(made, wanted) if it[0] != it[1]][:1]}", made == wanted


# ---- users at once

def at_once(at):
    """Three users who work at once: each commit is told to one of them. A plan of two operations may meet what came between them."""
    room, saved = Room(at, 3), f"{at}/saved"
    script = b"".join(b"mkdir /%d\nls /\nundo_last\nmkdir /%d\n" % (n, n) for n in range(3))
    with Server(room) as server:
        clients = [room.client(server.port, user, "--tries", 100000) for user in range(3)]
        for client in clients:
            client.write(script)
        ends = [client.end() for client in clients]
        yield "at_once_ends", [ended[1:] for ended in ends] == [([], 0)] * 3
        said = [line.decode() for ended in ends for line in ended[0]]
        done = sorted(int(line.split(" ")[1]) for line in said if line.startswith("ok "))
        # A user's first line commits something, and so does his last one, where that directory isn't there already. So user 0
        # commits once at least; the two others, who don't hold the root at first, twice: a take and a create, or two takes.
        yield f"at_once_each_commit_is_told_once: {done}", len(done) >= 5 and done == list(range(1, len(done) + 1))
        met = re.compile(r"ok \d+|\d G0:\d+|no 19 Exists|no 39 Change (16|17|18|19|24|27|28) .+")
        odd = [line for line in said if not met.fullmatch(line)]
        yield f"at_once_nothing_else_is_met: {odd}", odd == []
        room.run(server.port, 0, b"save " + saved.encode())
        yield "at_once_log", audit(room, saved) == ([b"ok %d" % len(done)], [], 0)


def many_users(at):
    room = Room(at, 64, signing=(0, 63))
    with Server(room, workers=16) as server:
        ended = room.run(server.port, 63, b"mkdir /a\nundo 1\nls /\n")
        yield f"the_last_user: {ended}", ended == ([b"ok 1", b"ok 2", b"no 39 Change 28 Blocked 2", b"a G0:2"], [], 0)
        ended = room.run(server.port, 0, b"create /a/f\nls /a\n")
        yield f"the_first_of_many: {ended}", ended == ([b"ok 3", b"ok 4", b"f G0:3"], [], 0)


# ---- a client at a keyboard

def at_a_keyboard(at):
    """A prompt where somebody types, on a terminal."""
    if program == MODEL:
        return
    room = Room(at)
    with Server(room) as server:
        terminal, end = pty.openpty()
        started = subprocess.Popen([*program, *map(str, room.words(server.port, 0))], stdin=end, stdout=end, stderr=end)
        os.close(end)
        os.write(terminal, b"mkdir /a\nls /\n\x04")
        seen = typed(terminal)
        is_right = seen.count(b"> ") == 3 and b"ok 1" in seen and b"a G0:2" in seen
        yield f"a_prompt_for_each_line: {seen}", is_right and started.wait(WAIT) == 0


def typed(terminal):
    """All that is seen on a terminal."""
    seen = b""
    try:
        while more := os.read(terminal, 4096):
            seen += more
    except OSError:  # the program has closed its end
        pass
    os.close(terminal)
    return seen


# ---- what lines print

LINES = (
    # of user 0, who holds the root
    (0, "mkdir /d", "ok 1"), (0, "create /d/f", "ok 2"), (0, "write /d/f 0 68656C6c6f", "ok 3"), (0, "cat /d/f 0 99", "68656c6c6f"),
    (0, "cat /d/f 1 3", "656c6c"), (0, "cat /d/f 5 1", ""), (0, "cat /d/f 18446744073709551615 18446744073709551615", ""),
    (0, "write /d/f 5000 00000000000000000001", "ok 4"), (0, "cat /d/f 4999 20", "0000000000000000000001"),
    (0, "truncate /d/f 2", "ok 5"), (0, "cat /d/f 0 99", "6865"), (0, "link /d/f /g", "ok 6"), (0, "ls /", "d G0:2|g G0:3"),
    (0, "rename /g /h", "ok 7"), (0, "rename /h /h", ""), (0, "remove /d/f", "ok 8"), (0, "cat /h 0 9", "6865"),
    (0, "undo 8", "ok 9"), (0, "undo_last", "ok 10"), (0, "ls /", "d G0:2|g G0:3"), (0, "ls /d", "f G0:3"),
    # refusals, in the order in which they come
    (0, "mkdir d", "no 29 BadPath"), (0, "mkdir /", "no 29 BadPath"), (0, "ls //", "no 29 BadPath"), (0, "ls /d/", "no 29 BadPath"),
    (0, "ls /.", "no 29 BadPath"), (0, "create /..", "no 29 BadPath"), (0, "create /" + "n" * 256, "no 29 BadPath"),
    (0, "rename /x y", "no 29 BadPath"), (0, "rename /x /", "no 29 BadPath"), (0, "remove /", "no 29 BadPath"), (0, "ls /x", "no 18 NoName"), (0, "ls /x/y", "no 18 NoName"),
    (0, "remove /x", "no 18 NoName"), (0, "rename /x /g/y", "no 18 NoName"), (0, "rename /x /x", "no 18 NoName"),
    (0, "link /g/x /y/z", "no 15 WrongKind G0:3"), (1, "rename /g /g", ""), (1, "write / 0 41", "no 15 WrongKind G0:1"), (0, "ls /g", "no 15 WrongKind G0:3"),
    (0, "ls /g/x", "no 15 WrongKind G0:3"), (0, "cat /d 0 1", "no 15 WrongKind G0:2"), (0, "write / 0 41", "no 15 WrongKind G0:1"),
    (0, "write /d 0 41", "no 15 WrongKind G0:2"), (0, "truncate /d 1", "no 15 WrongKind G0:2"), (0, "link / /x", "no 15 WrongKind G0:1"),
    (0, "create /d", "no 19 Exists"), (0, "link /g /d/f", "no 19 Exists"), (0, "remove /d", "no 20 NotEmpty"),
    (0, "rename /d /d/x", "no 21 DirMove"), (0, "rename /g /d", "no 20 NotEmpty"), (0, "truncate /g 16777217", "no 22 TooBig"),
    (0, "truncate /g 4294967295", "no 22 TooBig"), (0, "truncate /g 4294967296", "no 3 BadNumber"),
    (0, "write /g 18446744073709551615 41", "no 3 BadNumber"), (0, "write /g 4294967295 41", "no 22 TooBig"),
    (0, "write /g 0 " + "41" * 65537, "no 3 BadNumber"), (0, "undo 0", "no 39 Change 24 NoOperation 0"),
    (0, "undo 11", "no 39 Change 24 NoOperation 11"), (0, "undo 9", "no 39 Change 25 NotOperation 9"),
    (0, "undo 8", "no 39 Change 26 AlreadyUndone 8 9"), (0, "undo 1", "no 39 Change 28 Blocked 2"), (0, "", ""),
    # of user 1, who takes over what he writes
    (1, "undo 1", "no 39 Change 27 NotAuthor 0"), (1, "undo_last", "no 39 Change 27 NotAuthor 0"), (1, "write /g 0 42", "ok 11|ok 12"),
    (1, "write /g 0 43", "ok 13"), (0, "write /g 0 44", "ok 14|ok 15"), (1, "rename /g /d/f", "ok 16|ok 17|ok 18|ok 19|ok 20"),
    (1, "ls /d", "f G0:3"), (1, "ls /", "d G0:2"), (1, "cat /d/f 0 9", "4465"),
    # what takes left behind, of the root, of the directory, and twice of the file
    (0, "tidy", "ok 21|ok 22|ok 23|ok 24"), (0, "tidy", ""), (0, "undo 21", "ok 25"), (0, "tidy", "ok 26"), (1, "undo 16", "no 39 Change 28 Blocked 26"),
    # the largest write, the largest file, and names that could forge a line
    (0, "write /d/f 0 " + "5a" * 65536, "ok 27|ok 28"), (0, "cat /d/f 65530 9", "5a" * 6), (0, "truncate /d/f 16777216", "ok 29"),
    (0, "write /d/f 16777216 41", "no 22 TooBig"), (0, "write /d/f 16777215 41", "ok 30"), (0, "cat /d/f 16777214 9", "0041"),
    (0, "undo_last", "ok 31"), (0, "undo_last", "ok 32"), (0, "cat /d/f 65535 9", "5a"),
    (0, "create /d/\x01\\\x7f\t\u00e9", "ok 33|ok 34"), (0, "ls /d", "\\x01\\x5c\\x7f\\x09\u00e9 G0:4|f G0:3"),
)

MISTAKES = (
    ("ls /a ", "two spaces in a row, or a space at an end"),
    ("undo 1\r", "a carriage return at its end"),
    ("stat /a", "an unknown command"),
    ("0 mkdir /a", "an unknown command"),
    ("save", "too few words"),
    ("rename /a", "too few words"),
    ("undo_last 3", "too many words"),
    ("tidy /a", "too many words"),
    ("drop 1", "an unknown command"),
    ("undo /a", "word 2 is not a number of at most 20 digits that fits 64 bits"),
    ("write /a 4294967296 4", "word 4 is not bytes in hex, two digits each"),
)

BAD_LINES = (
    "hello", "mkdir", "mkdir /a /b", " mkdir /a", "mkdir /a ", "mkdir  /a", "Mkdir /a", "0 mkdir /a", "ls", "cat /a", "cat /a 0",
    "cat /a x 1", "cat /a 0 18446744073709551616", "cat /a 0 000000000000000000001", "write /a 0", "write /a 0 4", "write /a 0 4x",
    "write /a -1 41", "write /a 4294967296 4", "truncate /a", "truncate /a 1 1", "link /a", "rename /a", "remove", "drop 1", "tidy /", "tidy 1", "Tidy", "undo", "undo x",
    "undo -1", "undo_last 1", "save", "save a b", "stat /a", "versions", "undo 1\r", "write /a 0 " + "41" * 70000,
)


def lines(at):
    room = Room(at)
    team = client_model.Team(2, leaves=32)
    with Server(room) as server, room.client(server.port, 0) as zero, room.client(server.port, 1) as one:
        for number, (user, line, wanted) in enumerate(LINES):
            wanted = [it.encode() for it in wanted.split("|") if it or line.startswith("cat")]
            line = line.encode()
            by_model = list(client_model.answers(team.member(user), line)) if line else []
            said = (zero, one)[user].say(line)
            yield f"line_{number}: {line[:60]} {said}, and not {wanted} {by_model}", said == wanted == by_model
        yield "lines_end", [it.end() for it in (zero, one)] == [([], [], 0)] * 2
        for line, why in [*MISTAKES, *((line, "") for line in BAD_LINES)]:
            printed, told, status = room.run(server.port, 0, b"\n\nls /x\n" + line.encode() + b"\nls /x\n")
            is_right = (printed, status) == ([b"no 18 NoName", b"line 4: bad"], 2) and is_told(told, "line 4: ")
            is_told_why = program == MODEL or why == "" or told == [f"sundr: line 4: {why}".encode()]
            yield f"bad_line_{line[:60]}: {printed} {told} {status}", is_right and is_told_why
        ended = room.run(server.port, 0, b"ls /x")
        yield f"a_last_line_without_an_end: {ended}", ended == ([b"no 18 NoName"], [], 0)
        yield "no_lines", room.run(server.port, 0, b"") == ([], [], 0)


def stops(at):
    """With --stop a script ends at the first command that is refused, with status 1 and the line's number; without it goes on."""
    room = Room(at)
    with Server(room) as server:
        for name, script, wanted, line in (
                ("at_the_first", b"mkdir /a\n\nls /x\nls /\n", [b"ok 1", b"no 18 NoName"], 3),
                ("at_an_operation", b"undo 9\nls /\n", [b"no 39 Change 24 NoOperation 9"], 1),
                ("before_the_server_is_asked", b"ls /\ntruncate /a 4294967296\nls /\n", [b"a G0:2", b"no 3 BadNumber"], 2)):
            printed, told, status = room.run(server.port, 0, script, "--stop")
            is_right = (printed, status) == (wanted, 1) and is_told(told, f"line {line} ")
            yield f"stops_{name}: {printed} {told} {status}", is_right
        ended = room.run(server.port, 0, b"ls /x\nls /\n")
        yield f"goes_on_without_the_word: {ended}", ended == ([b"no 18 NoName", b"a G0:2"], [], 0)
        ended = room.run(server.port, 0, b"ls /\ncreate /f\n", "--stop")
        yield f"goes_on_where_nothing_is_refused: {ended}", ended == ([b"a G0:2", b"ok 2"], [], 0)
        printed, told, status = room.run(server.port, 0, b"ls /a\nhello\n", "--stop")
        yield f"stops_at_no_command_as_ever: {told}", (printed, status) == ([b"line 2: bad"], 2) and is_told(told, "line 2: ")


# ---- faults and statuses

def saves(at):
    """A log is put in the place of what stands there, whole; where it can't be, the run ends."""
    room, log = Room(at), f"{at}/log"
    os.mkdir(f"{at}/folder")
    with Server(room) as server:
        for n in range(2):
            ended = room.run(server.port, 0, b"mkdir /%d\nsave %b\n" % (n, log.encode()))
            yield f"saved_{n}: {ended}", ended == ([b"ok %d" % (n + 1)], [], 0)
            yield f"saved_whole_{n}", audit_model.audit(room.public_keys, read(log)) == (f"ok {n + 1}\n", 0)
        before = read(log)
        for name, path in (("no_folder", f"{at}/nowhere/log"), ("a_folder", f"{at}/folder"), ("a_file_as_folder", f"{log}/log")):
            printed, told, status = room.run(server.port, 0, b"mkdir /%b\nsave %b\nls /x\n" % (name.encode(), path.encode()))
            is_right = len(printed) == 1 and printed[0].startswith(b"ok ") and status == 1 and is_told(told, path)
            yield f"saving_to_{name}: {printed} {told} {status}", is_right
        printed, told, status = room.run(server.port, 0, b"save " + f"{at}/".encode() + b"\xff\n")
        yield f"saving_to_no_text: {printed} {told} {status}", printed == [] and (status == 0 and told == [] or status == 1 and is_told(told))
        yield "the_old_log_stays", read(log) == before and not [it for it in os.listdir(at) if it.startswith("log.")]
        yield from saved_over(room, server.port, at)
    with Server(room) as server:
        ended = room.run(server.port, 0, b"save %b\n" % log.encode())
        yield f"no_commits_saved: {ended}", ended == ([], [], 0) and read(log) == b""


def saved_over(room, port, at):
    """What is there and is no log is left as it is: a key above all; and a file whose name a log might have had on its way."""
    key, other = room.key_files[0], f"{at}/other"
    with open(other, "wb") as file:
        file.write(b"a text of somebody's")
    os.symlink(other, f"{at}/a_link")
    for name in ("log.new", "other.new"):
        with open(f"{at}/{name}", "wb") as file:
            file.write(b"a bystander")
    for path in (key, room.publics[0], f"{key}.lock", other, f"{at}/a_link"):
        before = read(path)
        printed, told, status = room.run(port, 0, b"save %b\nls /x\n" % path.encode())
        is_right = printed == [] and status == 1 and is_told(told, path) and read(path) == before
        yield f"saving_over_{os.path.basename(path)}: {printed} {told} {status}", is_right
    room.run(port, 0, b"save %b\n" % f"{at}/log".encode())
    yield "bystanders_stay", [read(f"{at}/{name}") for name in ("log.new", "other.new")] == [b"a bystander"] * 2
    os.remove(f"{at}/log.new")


def streams(at):
    """Standard input and output that fail."""
    room = Room(at)
    with Server(room) as server:
        words = [*program, *map(str, room.words(server.port, 0))]

        def run(**how):
            how = {"stdin": subprocess.DEVNULL, "stdout": subprocess.PIPE, **how}
            ended = subprocess.run(words, stderr=subprocess.PIPE, timeout=WAIT, **how)
            return ended.stdout, [line for line in ended.stderr.splitlines() if not aside_in(line)], ended.returncode

        with open(room.file(b"ls /x\n")) as script, open("/dev/full", "w") as full:
            _, told, status = run(stdin=script, stdout=full)
            yield f"a_full_disk: {told}", status == 1 and is_told(told, "No space left")
        reader, writer = os.pipe()
        os.close(reader)
        with open(room.file(b"ls /x\n")) as script:
            yield "a_reader_gone", run(stdin=script, stdout=writer)[1:] == ([], 1)
        os.close(writer)
        if program == MODEL:  # Python itself wants no folder there
            return
        folder = os.open("/", os.O_RDONLY)
        printed, told, status = run(stdin=folder)
        os.close(folder)
        yield f"a_folder_as_script: {told}", (printed, status) == (b"", 1) and is_told(told, "Is a directory")


def faults(at):
    """Each fault with all that are looked for later beside it."""
    room = Room(at)
    key, bad = room.key_files[0], room.file(b"bad")
    nowhere, port = f"{at}/nowhere", free_port()
    log = room.log("0 create G0:1 a U0:2; 1 take G0:1 1").log()
    cut, good = room.file(log[:-1]), room.file(log)
    publics = room.publics

    def client(user=0, key=key, log=None, publics=publics, port=port, more=()):
        return ["client", "--port", port, "--user", user, "--key", key, *(["--log", log] if log else []), *more, *publics]

    def serve(workers=1, capacity=1, sessions=1, port=port, publics=publics):
        numbers = ("--port", port, "--workers", workers, "--capacity", capacity, "--sessions", sessions)
        return ["serve", *numbers, *publics]

    wrong = {
        "no_words": ["client"], "a_port_of_0": client(port=0), "a_port_too_large": client(port=65536), "a_user_too_large": client(64),
        "no_tries": client(more=["--tries", 0]), "too_many_tries": client(more=["--tries", 1000001]), "no_keys": client(publics=[]),
        "tries_of_no_number": client(more=["--tries", "x"]), "too_many_keys": client(publics=publics[:1] * 65),
        "no_leaves_ahead": client(more=["--leaves-ahead", 0]), "too_many_leaves_ahead": client(more=["--leaves-ahead", 17]),
        "another_option": client(more=["--width", 4]), "a_user_of_no_number": client("x"), "serve_without_words": ["serve"],
        "no_workers": serve(0), "too_many_workers": serve(17), "no_capacity": serve(capacity=0), "serve_a_port_of_0": serve(port=0),
        "too_much_capacity": serve(capacity=1000001), "no_sessions": serve(sessions=0), "too_many_sessions": serve(sessions=1000001),
        "serve_a_port_too_large": serve(port=65536), "serve_no_keys": serve(publics=[]), "serve_many_keys": serve(publics=publics[:1] * 65),
        "bad_numbers_before_all": client(64, nowhere, cut, [bad]),
    }
    for name, words in wrong.items():
        with Running(words) as running:
            printed, told, status = running.end()
        yield f"wrong_line_{name}: {told} {status}", (printed, status) == ([], 2) and told != []
    told_of = {
        "no_public_key_of_the_user": (client(2, nowhere, cut, [bad, nowhere]), "2"),
        "the_last_user": (client(63, nowhere, cut, [bad]), "63"),
        "no_key_file": (client(0, nowhere, cut, [bad]), nowhere),
        "a_folder_as_key": (client(0, at, cut, [bad]), at),
        "a_bad_key_file": (client(0, bad, cut, [bad]), bad),
        "a_public_key_as_key": (client(0, publics[0], cut, [bad]), publics[0]),
        "no_public_key": (client(0, key, cut, [publics[0], nowhere, bad]), nowhere),
        "a_bad_public_key": (client(0, key, cut, [publics[0], bad, nowhere]), bad),
        "no_log": (client(0, key, nowhere), nowhere),
        "no_server": (client(0, key, good), str(port)),
        "serve_no_public_key": (serve(publics=[publics[0], nowhere, bad]), nowhere),
        "serve_a_bad_public_key": (serve(publics=[bad, nowhere]), bad),
    }
    for name, (words, part) in told_of.items():
        with Running(words) as running:
            printed, told, status = running.end()
        yield f"fault_{name}: {printed} {told} {status}", (printed, status) == ([], 1) and is_told(told, part)
    for name, (log, wanted) in refused_logs(room).items():
        path = room.file(log)
        with Server(room) as server:
            for there, to in (("at_a_server", server.port), ("without_one", port)):
                ended = Running(client(log=path, port=to)).end()
                yield f"log_{name}_{there}: {ended}", ended == (wanted, [], 1)
    with Server(room) as server:
        ended = Running(serve(port=server.port)).end()
        yield f"fault_a_port_in_use: {ended}", (ended[0], ended[2]) == ([], 1) and is_told(ended[1], str(server.port))
        ended = room.run(server.port, 0, b"ls /\n", "--log", good)
        yield f"a_good_log_at_a_new_server: {ended}", ended == ([b"no 40 OwnMissing"], [], 0)


def refused_logs(room):
    """Logs that are refused, and what is printed of each."""
    maker = room.log("0 create G0:1 a U0:2; 1 take G0:1 1")
    log, (first, second) = maker.log(), maker.records
    place = len(log) - 4 - len(second[1])
    return {
        "cut": (log[:-1], [b"at 2", b"no 1 Malformed %d" % place]),
        "unsigned": (logs.log_bytes(bad_server.forge([first, second], 1)), [b"at 1", b"no 33 BadSignature"]),
        "without_the_first": (logs.log_bytes([second]), [b"at 1", b"no 34 WrongPrev 0"]),
        "of_another_item": (logs.log_bytes([first, (second[0], b"junk")]), [b"at 2", b"no 5 MissingBlock"]),
        "of_no_item": (logs.log_bytes([(first[0], b"")]), [b"at 1", b"no 22 TooBig"]),
    }


# ---- keys

def next_leaf(path):
    return int.from_bytes(read(path)[60:], "big")


class Watched(model_server.Service):
    """Keeps each commit that is handed in."""

    def __init__(self, publics):
        super().__init__(publics)
        self.seen = []

    def commit(self, seat, data):
        self.seen.append(data)
        return super().commit(seat, data)

    def leaves(self):
        """The leaf of each signature that was seen, with what it signs; each once."""
        parts = [audit_model.commit_in(data) for data in self.seen]
        return sorted({(audit_model.leaf_of(signature), version.encode()) for version, signature in parts})


def keys(at):
    room = Room(at)
    with Server(room) as server:
        with room.client(server.port, 0) as first:
            yield "a_key_at_work", first.say(b"mkdir /a") == [b"ok 1"]
            printed, told, status = room.run(server.port, 0, b"mkdir /b\n")
            yield f"a_key_in_use: {told}", (printed, status) == ([], 1) and is_told(told, room.key_files[0])
            yield "the_first_goes_on", first.say(b"mkdir /b") == [b"ok 2"]
            yield "and_ends", first.end() == ([], [], 0)
        ended = room.run(server.port, 0, b"mkdir /c\n")
        yield f"a_key_free_again: {ended}", ended == ([b"ok 3"], [], 0)
        yield "its_next_leaf", next_leaf(room.key_files[0]) == 3
        ended = room.run(server.port, 0, b"mkdir /d\nls /\n", key=room.key_files[1])
        wanted = [b"no 33 BadSignature", b"a G0:2", b"b G0:3", b"c G0:4"]
        yield f"the_key_of_another: {ended}", ended == (wanted, [], 0) and next_leaf(room.key_files[1]) == 0
        yield from spent(room, server)
        yield from unkept(room, server)
        for make in (os.symlink, os.link):
            path = room.path()
            make(room.key_files[1], path)
            printed, told, status = room.run(server.port, 1, b"ls /\n", key=path)
            yield f"a_key_by_{make.__name__}: {told}", (printed, status) == ([], 1) and is_told(told, path) or program == MODEL
            os.remove(path)
        older = room.file(room.keys[0].file(0))
        ended = room.run(server.port, 0, b"mkdir /e\nls /x\n", key=older)
        yield f"an_older_copy_of_a_key: {ended}", ended == ([b"no 36 KeyReuse", b"no 18 NoName"], [], 0)


def spent(room, server):
    last = room.file(room.keys[1].file(31))
    ended = room.run(server.port, 1, b"create /x\nls /x\nundo 0\ncreate /y\n", key=last)
    wanted = [b"ok 4", b"no 8 KeySpent", b"no 18 NoName", b"no 39 Change 24 NoOperation 0", b"no 8 KeySpent"]
    yield f"a_key_is_spent: {ended}", ended == (wanted, [], 0) and next_leaf(last) == 32
    ended = room.run(server.port, 1, b"undo 4\n", key=last)
    yield f"a_spent_key: {ended}", ended == ([b"no 8 KeySpent"], [], 0)
    with room.client(server.port, 1, key=last) as client:
        said = client.say(b"create /z")
        yield f"a_spent_key_keeps_no_turn: {said}", said == [b"no 8 KeySpent"] and is_free(server.port)
    over = room.file(room.keys[1].file(33))
    printed, told, status = room.run(server.port, 1, b"", key=over)
    yield f"a_key_past_its_last_leaf: {told}", (printed, status) == ([], 1) and is_told(told, over)


def unkept(room, server):
    """A key file that can't be written: what is in the way stands where the next leaf is written first."""
    path = room.file(room.keys[0].file(5))
    with room.client(server.port, 0, key=path) as client:
        os.mkdir(f"{path}.next")
        said = client.say(b"create /u")
        yield f"a_key_that_cannot_be_kept: {said}", said[-1:] == [b"no 10 KeyFileFault"] and next_leaf(path) == 5
        yield "a_key_that_cannot_be_kept_keeps_no_turn", is_free(server.port)
        os.rmdir(f"{path}.next")
        said = client.say(b"ls /u")
        yield f"nothing_was_signed: {said}", said == [b"no 18 NoName"]
        said = client.say(b"create /u")
        yield f"and_can_again: {said}", said[-1:] != [b"no 10 KeyFileFault"] and said[-1].startswith(b"ok ") and next_leaf(path) >= 6
        printed, told, status = client.end()
        yield f"why_it_could_not: {told}", (printed, status) == ([], 0) and (program == MODEL or is_told(told, path))


def leaves_ahead(at):
    """What the key file says while a client signs, with leaves in blocks and without, and once it has ended."""
    room, plain = Room(at, users=1), 12
    key, fresh = room.key_files[0], room.keys[0].file()
    for ahead, begun, wanted in (
            (1, 0, [n + 1 for n in range(plain)]), (2, 0, [2 * (n // 2) + 2 for n in range(plain)]),
            (5, 3, [3 + 5 * (n // 5) + 5 for n in range(plain)]), (None, 0, [16] * plain), (16, 10, [26] * plain),
            (None, 18, [28] * 10 + [29, 30]), (16, 30, [31, 32]), (5, 26, [28, 28, 29, 30, 31, 32])):
        with open(key, "wb") as file:
            file.write(fresh[:60] + begun.to_bytes(4, "big"))
        more = [] if ahead is None else ["--leaves-ahead", ahead]
        with Server(room) as server, room.client(server.port, 0, *more) as client:
            name = f"of_{ahead}_from_{begun}"
            yield f"nothing_is_stored_before_{name}", client.say(b"ls /") == [] and next_leaf(key) == begun
            stored = []
            for n in range(len(wanted)):
                said = client.say(b"mkdir /%d" % n)
                stored += [next_leaf(key)] if said == [b"ok %d" % (n + 1)] else said
            yield f"stored_{name}: {stored}", stored == wanted
            ended = client.end()
            yield f"and_put_back_{name}: {ended}", ended == ([], [], 0) and next_leaf(key) == begun + len(wanted)
    yield from ended_otherwise(room, key)


def ended_otherwise(room, key):
    """The next leaf is put back by whatever ends a run but a kill; where it can't be, that is told, and nothing else changes."""
    with Server(room) as server:
        for name, script, more, ended_with in (
                ("a_bad_line", b"mkdir /a\nmake /b\n", (), ([b"ok 1", b"line 2: bad"], 2)),
                ("a_refusal", b"mkdir /b\nmkdir /a\n", ("--stop",), ([b"ok 2", b"no 19 Exists"], 1)),
                ("no_place_to_save", b"mkdir /c\nsave /nowhere/x\n", (), ([b"ok 3"], 1))):
            with open(key, "wb") as file:
                file.write(room.keys[0].file(3 + int(ended_with[0][0][3:])))
            printed, _, status = room.run(server.port, 0, script, *more)
            yield f"put_back_after_{name}: {printed} {status}", (printed, status) == ended_with
            yield f"which_leaves_one_fewer_{name}", next_leaf(key) == 4 + int(ended_with[0][0][3:])
        with room.client(server.port, 0) as client:
            yield "before_it_cannot_be_put_back", client.say(b"mkdir /d") == [b"ok 4"] and next_leaf(key) == 7 + 16
            os.mkdir(f"{key}.next")
            printed, told, status = client.end()
            yield f"that_it_cannot_is_told: {told}", (printed, status) == ([], 0) and is_told(told, key) and next_leaf(key) == 23
        os.rmdir(f"{key}.next")
        ended = room.run(server.port, 0, b"mkdir /e\n")
        yield f"the_next_run_goes_on_from_there: {ended}", ended == ([b"ok 5"], [], 0) and next_leaf(key) == 24


def signatures(at):
    """A client signs as the second implementation does, byte by byte, by each leaf of a key once."""
    lengths = {4: 2348, 8: 1292}
    for width, length in lengths.items():
        folder = f"{at}/{width}"
        os.mkdir(folder)
        room, saved = Room(folder, users=1, width=width), f"{folder}/saved"
        script = b"create /a\n" + b"".join(b"truncate /a %d\n" % n for n in range(1, 33)) + b"save %b\n" % saved.encode()
        with Server(room) as server:
            ended = room.run(server.port, 0, script)
        wanted = [*(b"ok %d" % n for n in range(1, 33)), b"no 8 KeySpent"]
        yield f"each_leaf_of_width_{width}_signs_once: {ended}", ended == (wanted, [], 0) and next_leaf(room.key_files[0]) == 32
        signed = [audit_model.commit_in(commit) for commit, _ in audit_model.pieces(read(saved))]
        wrong = [q for q, (version, signature) in enumerate(signed) if signature != room.keys[0].sign(q, version.encode())]
        yield f"signatures_of_width_{width}: {wrong}", wrong == [] and {len(it) for _, it in signed} == {length} and len(signed) == 32


def kills(at):
    """A client is killed while it signs, many times over: no leaf signs two things, and the key file is always past each leaf that
    anybody saw."""
    room = Room(at)
    key, seed = room.key_files[0], random.Random("kills")
    service = Watched(room.public_keys)
    torn, behind, stuck = [], [], []
    with model_server.Server(service) as server:
        script = b"create /a\n" + b"".join(b"write /a 0 %02x\n" % n for n in range(100))
        for n in range(KILLS):
            with Running(room.words(server.port, 0)) as client:
                client.write(script)
                client.close_input()
                started = client.printed.next()
                stuck += [] if started is not None else [n]
                time.sleep(seed.random() * 0.02)
                client.process.send_signal(signal.SIGKILL)
                client.process.wait(WAIT)
            stuck += [] if server.settle() else [f"{n}, whose session goes on"]
            data = read(key)
            torn += [] if len(data) == 64 and data[:60] == room.keys[0].file()[:60] else [n]
            behind += [n] if service.seen and next_leaf(key) <= service.leaves()[-1][0] else []
            if next_leaf(key) > 24:  # another key, before this one is spent
                yield from check_leaves(n, service)
                service.book, service.seen = model_server.Book(room.public_keys, 1000), []
                with open(key, "wb") as file:
                    file.write(room.keys[0].file())
    if service.seen:
        yield from check_leaves("last", service)
    yield f"killed_keys_are_whole: {torn}", torn == []
    yield f"killed_keys_are_not_behind: {behind}", behind == []
    yield f"killed_keys_are_taken_up_again: {stuck}", stuck == []


class Ahead:
    """A client of a key of 1,024 leaves that is killed time and again, and what is seen of it."""

    def __init__(self, at):
        self.room = Room(at, users=1, signing=())
        self.key = logs.key_of("leaves ahead", height=5 if program == MODEL else 10, width=4)
        self.path = self.room.key_files[0] = self.room.file(self.key.file())
        self.room.publics = [self.room.file(self.key.public())]
        self.service = Watched([self.key.public()])
        self.seed, self.faults, self.signatures = random.Random("leaves ahead"), [], 0

    def begin_anew(self, leaf=None):
        """A new book; and the key as it was made, where its leaves come to their end."""
        self.service.book = model_server.Book([self.key.public()], 1000)
        if leaf is None or leaf + 40 > self.key.leaves:
            self.signatures += len(self.service.leaves())
            self.service.seen = []
            with open(self.path, "wb") as file:
                file.write(self.key.file())

    def kill_one(self, server, number):
        """Starts a client, and kills it: at any time after its start, or while it signs. What it sent has come before anything is looked
        at."""
        before, seen = next_leaf(self.path), len(self.service.seen)
        with Running(self.room.words(server.port, 0)) as client:
            client.write(b"create /%d\n" % number + b"".join(b"write /%d 0 %02x\n" % (number, n % 256) for n in range(300)))
            if number % 4:
                client.printed.next()
            time.sleep(self.seed.random() * (0.05 if number % 4 else 0.5))
            client.process.send_signal(signal.SIGKILL)
            client.process.wait(WAIT)
        if not server.settle():
            self.faults.append(f"{number}: its session goes on")
        after = next_leaf(self.path)
        signed = [audit_model.leaf_of(audit_model.commit_in(data)[1]) for data in self.service.seen[seen:]]
        if not (before <= min(signed, default=before) and max(signed, default=before - 1) < after):
            self.faults.append(f"{number}: from {before} to {after}, and signed by {signed}")
        if after > max(signed, default=before - 1) + 1 + 16:
            self.faults.append(f"{number}: from {before} to {after}, past {signed}")


def kills_ahead(at):
    """A client with leaves in blocks is killed at random moments: no leaf signs two things; the key file is past each leaf that anybody
    saw, and at most 16 leaves are lost."""
    ahead, count = Ahead(at), 8 if program == MODEL else KILLS_AHEAD
    with model_server.Server(ahead.service) as server:
        for number in range(count):
            if number % 10 == 0 or program == MODEL:
                ahead.begin_anew(next_leaf(ahead.path))
            ahead.kill_one(server, number)
            leaves = [leaf for leaf, _ in ahead.service.leaves()]
            if len(leaves) != len(set(leaves)):
                ahead.faults.append(f"{number}: a leaf twice in {leaves}")
    ahead.begin_anew()
    yield f"{count}_kills_with_leaves_ahead: {ahead.faults}", ahead.faults == []
    yield f"which_signed_{ahead.signatures}_times", ahead.signatures > count // 2


def kills_at_calls(at):
    """The same at each system call of a client that signs twice (where it has many, at some of them). By strace, if there is one."""
    if not shutil.which("strace"):
        print("serving: there is no strace, so no client is killed at each of its calls")
        return
    room, script = Room(at), f"{at}/script"
    key, fresh = room.key_files[0], room.keys[0].file()
    with open(script, "w") as file:
        file.write("create /a\nwrite /a 0 41\n")
    service = Watched(room.public_keys)

    def traced(*how):
        """A run of a client by strace, with a new book and the key as it was made."""
        service.book, service.seen = model_server.Book(room.public_keys, 1000), []
        with open(key, "wb") as file:
            file.write(fresh)
        with open(script, "rb") as given:
            words = ["strace", "-f", "-qq", *how, *program, *map(str, room.words(server.port, 0))]
            subprocess.run(words, stdin=given, stdout=subprocess.PIPE, stderr=subprocess.PIPE, timeout=WAIT)
        return server.settle()

    with model_server.Server(service) as server:
        traced("-o", f"{at}/trace")
        calls = list(calls_in(f"{at}/trace"))
        for call, which in calls[::-(-len(calls) // MOST_CALLS)]:
            is_over = traced("-o", "/dev/null", "-e", f"inject={call}:signal=KILL:when={which}")
            data, leaves = read(key), [leaf for leaf, _ in service.leaves()]
            is_kept = len(data) == 64 and data[:60] == fresh[:60] and next_leaf(key) > max(leaves, default=-1)
            ended = room.run(server.port, 0, b"create /b\n")
            is_right = is_over and is_kept and (ended[0], ended[2]) == ([b"ok %d" % len(service.book.records)], 0)
            yield f"killed_at_{call}_{which}: {leaves} {ended}", is_right
            yield from check_leaves(f"at_{call}_{which}", service)


def check_leaves(name, service):
    leaves = [leaf for leaf, _ in service.leaves()]
    yield f"killed_signs_no_leaf_twice_{name}: {leaves}", len(leaves) == len(set(leaves)) > 0


# ---- a turn that another has

def raw(port):
    """A link of our own."""
    return wire.connect(port)


def reply_to(link, request):
    return wire.reply_in(link.ask(request))


def busy(at):
    room = Room(at)
    with Server(room, workers=3) as server:
        holder, other = raw(server.port), raw(server.port)
        yield "the_turn_is_granted", reply_to(holder, wire.GRANT) == ("granted", (0, {}))
        yield "and_again_to_who_has_it", reply_to(holder, wire.GRANT) == ("granted", (0, {}))
        name, seat = reply_to(other, wire.GRANT)
        yield f"another_is_told_the_seat: {seat}", name == "refused" and re.fullmatch(r"31 Busy [0-2]", seat) is not None
        with room.client(server.port, 0, "--tries", 3) as client:
            for line in (b"mkdir /a", b"ls /", b"undo 1", b"undo_last", b"cat /a 0 1", b"save " + f"{at}/busy".encode()):
                client.write(line + b"\n")
                said = client.printed.next()
                yield f"busy_{line.decode().split()[0]}: {said}", said == f"no {seat}".encode()
            yield "what_needs_no_turn", (client.write(b"truncate /a 4294967296\n"), client.printed.next())[1] == b"no 3 BadNumber"
            yield "nothing_was_saved", not os.path.exists(f"{at}/busy")
            yield "the_turn_is_given_back", reply_to(holder, wire.GIVE) == ("given", None)
            yield "then_it_can", client.say(b"mkdir /a") == [b"ok 1"]
            yield "the_turn_is_held_again", reply_to(holder, wire.GRANT) == ("granted", (1, {0: 1}))
            started = time.monotonic()
            client.write(b"ls /\n")
            yield "busy_again", client.printed.next() == f"no {seat}".encode()
            yield "and_was_told_soon", time.monotonic() - started < 5
            holder.close()
            yield "who_goes_has_no_turn", client.say(b"ls /") == [b"a G0:2"]
            yield "busy_ends", client.end() == ([], [], 0)
        waiting = room.client(server.port, 1)
        yield "the_other_has_it", reply_to(other, wire.GRANT) == ("granted", (1, {0: 1}))
        waiting.write(b"ls /\n")
        time.sleep(0.1)
        yield "it_is_given_in_time", reply_to(other, wire.GIVE) == ("given", None)
        yield "so_it_was_waited_for", waiting.printed.next() == b"a G0:2"
        yield "waiting_ends", waiting.end() == ([], [], 0)
        other.close()


def silent(at):
    """Who has the turn and says nothing loses it, and the session; who hasn't it may be silent."""
    if program == MODEL:
        return
    room = Room(at)
    with Server(room, "--turn-seconds", 2, workers=3) as server:
        holder, idle = raw(server.port), raw(server.port)
        yield "who_is_silent_has_the_turn", reply_to(holder, wire.GRANT) == ("granted", (0, {}))
        yield "who_is_idle_has_none", reply_to(idle, wire.fetch(1)) == ("nothing", None)
        started = time.monotonic()
        ended = room.run(server.port, 0, b"mkdir /a\n", "--tries", 100000)
        took = time.monotonic() - started
        yield f"a_silent_turn_ends: {ended} {took:.1f} s", ended == ([b"ok 1"], [], 0) and 1 < took < 10
        yield "and_its_session", has_ended(holder)
        with wire_socket(server.port) as dripping:
            dripping.sendall(wire.frame(wire.GRANT))
            dripping.recv(4096)
            yield "pauses_of_a_turn_add_up", not drips(dripping)
        yield "who_is_idle_is_answered", reply_to(idle, wire.fetch(1))[0] == "kept"
        idle.close()


def pauses_of_turns(at):
    """The pauses of one turn aren't those of the next, also where one read brings the end of the one and the request for the other."""
    if program == MODEL:
        return
    room = Room(at)
    with Server(room, "--turn-seconds", 3) as server:
        link = raw(server.port)
        replies = [reply_to(link, wire.GRANT)]
        try:
            for _ in range(4):
                time.sleep(1.5)
                link.write(wire.frame(wire.GIVE) + wire.frame(wire.GRANT))
                replies += [wire.reply_in(link.receive()) for _ in range(2)]
        except wire.LinkEnded:
            replies.append("ended")
        link.close()
        yield f"pauses_of_turns_do_not_add_up: {replies}", replies == [("granted", (0, {}))] + [("given", None), ("granted", (0, {}))] * 4


def crowded(at):
    """Silent sessions make room for connections that wait; who waits for ten seconds is told so."""
    if program == MODEL:
        return
    room = Room(at)
    with Server(room, workers=2) as server:
        idle = [raw(server.port) for _ in range(2)]
        for link in idle:
            reply_to(link, wire.fetch(1))
        took, ended = timed(lambda: room.run(server.port, 0, b"mkdir /a\n"))
        yield f"a_silent_session_makes_room: {ended} {took:.1f} s", ended == ([b"ok 1"], [], 0) and 3 < took < 8
        yield "and_is_ended", sum(map(has_ended, idle)) == 1
    with Server(room, workers=1) as server:
        with wire_socket(server.port) as holder, wire_socket(server.port) as late:
            holder.sendall(wire.frame(wire.GRANT))
            holder.recv(4096)
            took, reply = timed(lambda: late.recv(4096))
            refused = wire.reply_in(reply[4:]) if reply else None
            yield f"who_waits_is_told: {refused} {took:.1f} s", refused == ("refused", "31 Busy 65535") and 8 < took < 13
            yield "and_its_link_ends", late.recv(1) == b""


def unanswered(at):
    """A client of a server that says nothing asks again over a new link after half a minute, and ends after another one, and says why."""
    if program == MODEL:
        return
    room = Room(at)
    with socket.create_server(("127.0.0.1", 0)) as listener:
        with room.client(listener.getsockname()[1], 0) as client:
            client.write(b"ls /\n")
            took, (printed, told, status) = timed(lambda: client.end(2 * WAIT))
            is_right = (printed, status) == ([b"no 43 LinkFailed"], 1) and 55 < took < 75
            yield f"a_silent_server_is_told: {printed} {status} {took:.1f} s", is_right
            yield f"and_how_long_it_was_waited_for: {told}", is_told(told, "no answer", "30 s")
            yield f"and_that_it_was_asked_twice: {client.asides}", client.asides == ["without_log", "anew", "unknown"]


def timed(action):
    """How many seconds an action took, and what came of it."""
    started = time.monotonic()
    result = action()
    return time.monotonic() - started, result


def wire_socket(port):
    return socket.create_connection(("127.0.0.1", port), timeout=WAIT)


def drips(link):
    """Sends eight bytes of a message with pauses. Returns whether the link still stands then."""
    try:
        for byte in wire.frame(wire.put(b"x" * 100))[:8]:
            link.sendall(bytes([byte]))
            time.sleep(0.8)
        link.settimeout(0.1)
        return link.recv(1) != b""
    except TimeoutError:
        return True
    except OSError:
        return False


def has_ended(link):
    try:
        link.ask(wire.GRANT)
    except (wire.LinkEnded, OSError):
        return True
    return False


def deaf(at):
    """Who asks and doesn't read is ended after a while, and others go on."""
    if program == MODEL:
        return
    room = Room(at)
    with Server(room, workers=1) as server:
        item = b"\1" * 65000
        with wire_socket(server.port) as peer:
            peer.settimeout(2)
            try:
                peer.sendall(wire.frame(wire.put(item)))
                for _ in range(2000):
                    peer.sendall(wire.frame(wire.get(desk_model.sha256(item))) * 100)
            except OSError:
                pass  # the server waits for this end to read, and this end for the server
            started = time.monotonic()
            ended = [room.run(server.port, 0, b"mkdir /a\n")[0] for _ in range(6) if time.monotonic() - started < 60]
            took = next((number for number, printed in enumerate(ended) if printed == [b"ok 1"]), None)
            yield f"who_tries_again_is_served_beside_who_never_reads: {ended}", took is not None
            yield "and_is_refused_before_and_not_left_waiting", ended[:took] == [[b"no 31 Busy 65535"]] * (took or 0)


def turns(at):
    """A client that stays has given the turn back after each line, whatever came of it."""
    room = Room(at)
    with Server(room) as server, room.client(server.port, 0) as zero, room.client(server.port, 1) as one:
        for line in (
                b"mkdir /a", b"create /a/f", b"ls /", b"ls x", b"ls /x", b"ls /a/f", b"cat /a/f 0 1", b"cat /a 0 1", b"mkdir /a", b"mkdir x",
                b"remove /a", b"rename /a /a", b"tidy", b"undo 0", b"undo_last", b"undo 1", b"undo 9", b"write /a 0 41", f"save {at}/log".encode()):
            for user, client in enumerate((zero, one)):
                client.say(line)
                client.write(line + b"\ntruncate / 4294967296\n")
                for said in iter(client.printed.next, None):
                    if said == b"no 3 BadNumber":
                        break
                yield f"turn_of_{user}_after_{line.decode()}", is_free(server.port)
        yield "turns_end", [it.end() for it in (zero, one)] == [([], [], 0)] * 2


TURNS = 20_000  # each of which is two steps of the server's book


def many_turns(at):
    """Turns that are taken and given back leave nothing in the server's memory."""
    room = Room(at)
    with Server(room) as server:
        link = raw(server.port)
        answered = {reply_to(link, request)[0] for _ in range(100) for request in (wire.GRANT, wire.GIVE)}
        before = memory(server, "VmRSS")
        answered |= {reply_to(link, request)[0] for _ in range(TURNS) for request in (wire.GRANT, wire.GIVE)}
        grown = memory(server, "VmRSS") - before
        link.close()
        yield f"each_turn_is_taken_and_given_back: {answered}", answered == {"granted", "given"}
        yield f"turns_stay_in_no_memory: {grown}", grown < 500_000


def memory(server, line):
    """How many bytes a server has in memory, now (VmRSS) or at its highest (VmHWM)."""
    with open(f"/proc/{server.process.pid}/status", encoding="utf-8") as file:
        return next(int(it.split()[1]) for it in file if it.startswith(line)) * 1024


def is_free(port):
    """Whether nobody has the turn."""
    link = raw(port)
    name, _ = reply_to(link, wire.GRANT)
    if name == "granted":
        reply_to(link, wire.GIVE)
    link.close()
    return name == "granted"


# ---- a server that lies

STORY = "0 create G0:1 a U0:2; 0 write U0:2 0 41; 1 take G0:1 1; 1 create G0:1 b U1:2; 0 write U0:2 0 42; 1 write U1:2 0 43"
OTHER = "0 create G0:1 a U0:2; 0 write U0:2 0 41; 1 take G0:1 1; 1 create G0:1 c U1:2; 0 write U0:2 0 44; 1 write U1:2 0 45"


def lies(at):
    room = Room(at)
    records, others = room.log(STORY).records, room.log(OTHER).records
    publics, turns_kept = room.public_keys, []

    def told(service, script, held, user=0):
        """What a client of the user prints of a script, that holds so many of the records."""
        log = room.file(logs.log_bytes(records[:held]))
        key = room.file(room.keys[user].file(8))
        with bad_server.Server(service) as server:
            ended = room.run(server.port, user, script, "--log", log, "--tries", 3, key=key)
        if service.is_held and ended[2] == 0:
            turns_kept.append((service, script))
        return ended

    def show(shown, held=0, **how):
        return told(bad_server.Show(publics, shown, **how), b"ls /\ncat /a 0 9\n", held)

    whole, other = [b"a U0:2", b"b U1:2", b"42"], [b"a U0:2", b"c U1:2", b"44"]
    missing, unsigned, malformed = [b"no 40 OwnMissing"] * 2, [b"no 33 BadSignature"] * 2, [b"no 1 Malformed 0"] * 2
    junk = bad_server.change(records, 6, lambda _: b"junk")

    def misses(number):
        return [b"no 34 WrongPrev %d" % number] * 2

    cases = {
        "the_truth": (show(records), whole), "the_truth_to_who_knows_it": (show(records, 6), whole),
        "another_truth": (show(others), other),
        "own_rolled_back": (show(bad_server.roll_back(records, 2), 6), missing),
        "all_rolled_back": (show([], 6), missing),
        "others_rolled_back": (show(bad_server.roll_back(records, 1), 6), whole),
        "a_fork_behind_what_is_held": (show(bad_server.fork(records, 4, others), 2), other),
        "a_fork_at_what_is_held": (show(bad_server.fork(records, 4, others), 6), missing),
        "a_fork_of_others_at_what_is_held": (show(bad_server.fork(records, 4, others), 4), misses(4)),
        "records_exchanged": (show(bad_server.swap(records, 2, 3)), misses(1)),
        "a_record_dropped": (show(bad_server.drop(records, 4), 3), misses(3)),
        "the_first_dropped": (show(bad_server.drop(records, 1)), misses(0)),
        "a_forged_signature": (show(bad_server.forge(records, 2)), unsigned),
        "a_forged_last_commit": (show(bad_server.forge(records, 6)), unsigned),
        "more_than_there_are": (show(records, 6, count=9), whole), "endless_records": (show(records, 3, count=2 ** 64 - 1), whole),
        "fewer_than_there_are": (show(records, count=4, last={0: 2, 1: 4}), [b"a U0:2", b"b U1:2", b"41"]),
        "own_last_left_out": (show(records, 6, last={1: 6}), missing),
        "no_last_to_who_has_none": (show(records, last={}), missing),
        "an_older_last": (show(records, 6, last={0: 2, 1: 6}), missing),
        "the_last_of_another": (show(records, 6, last={0: 6, 1: 5}), whole),
        "a_last_that_is_not_there": (show(records, 6, last={0: 99, 1: 6}), missing),
        "a_commit_of_junk": (show(junk, last={0: 5}), malformed), "a_last_commit_of_junk": (show(junk, last={0: 5, 1: 6}), malformed),
    }
    for name, (ended, wanted) in cases.items():
        yield f"lie_{name}: {ended}", ended == (wanted, [], 0)
    for name, (ended, wanted) in (*lying_vectors(room, show).items(), *lying_formats(room, show).items(), *lying_batches(room, show).items()):
        yield f"lie_{name}: {ended}", ended == (wanted, [], 0)
    yield from lying_items(publics, records, told)
    yield from lying_on_the_turn(publics, records, told)
    yield from lying_replies(publics, records, told)
    yield f"who_is_lied_to_keeps_no_turn: {turns_kept}", turns_kept == []
    yield from forks(room)
    yield from steps(at)


def lying_vectors(room, show):
    """Last commits of two lists that fork behind the third commit: of their vectors neither is at most the other; and the last commit of
    another number of users."""
    base = "0 create G0:1 a U0:2; 0 create G0:1 b G0:2 3; 1 take G0:2 2"
    of_zero = room.log(f"{base}; 0 write U0:2 0 41; 0 write U0:2 0 42").records
    of_one = room.log(f"{base}; 1 write G0:2 0 41; 1 write G0:2 0 42").records
    with_two = logs.Maker([*room.keys, logs.key_of("serving 2", width=4, leaves=1)])
    with_two.say("1 take G0:1 1")
    unordered = [b"no 11 NotOrdered 0 1"] * 2
    return {
        "vectors_of_two_lists": (show([*of_zero, of_one[3]], count=5, last={0: 5, 1: 6}), unordered),
        "records_of_two_lists": (show([*of_zero, of_one[3]], last={0: 5, 1: 6}), [b"no 34 WrongPrev 5"] * 2),
        "vectors_that_rise": (show(of_one, last={0: 2, 1: 5}), [b"a U0:2", b"b G0:2", b""]),
        "vectors_that_fall": (show(of_zero, last={0: 5, 1: 3}), [b"a U0:2", b"b G0:2", b"42"]),
        "a_vector_of_more_users": (show([*of_zero, with_two.records[0]], count=5, last={0: 5, 1: 6}), unordered),
    }


def lying_formats(room, show):
    """A list whose format falls, and lists with what the first format doesn't have."""
    new, old = (room.log("0 create G0:1 a U0:2; 1 take G0:1 1", form) for form in (2, 1))
    falls, drops = logs.item_of(("truncate", ("U", 0, 2), 1)), logs.item_of(("drop", 1))
    grows = logs.item_of(("truncate", ("U", 0, 2), 1048577))

    def behind(maker, item):
        """The list with a commit of the first format behind it, which has no right i-handle."""
        version = logs.Version(0, maker.prev, sha256(item), bytes(32), [], maker.raised(0, []), 1)
        return [*maker.records, (maker.sign(version), item)]

    return {
        "a_format_that_falls": (show(behind(new, falls)), [b"no 44 OldFormat"] * 2),
        "a_format_that_falls_for_one_of_the_second": (show(behind(new, drops)), [b"no 44 OldFormat"] * 2),
        "a_change_of_the_second_format_in_the_first": (show(behind(old, drops)), [b"no 39 Change 44 OldFormat"] * 2),
        "a_size_of_the_second_format_in_the_first": (show(behind(old, grows)), [b"no 39 Change 22 TooBig"] * 2),
    }


def lying_batches(room, show):
    """Lists with a batch that isn't as it should be, or a commit behind it."""
    begun = room.log("0 create G0:1 a G0:2 2; 1 take G0:1 1; 1 create G0:1 b U1:2")
    lines = {
        "good": "1 batch take G0:2 3 + write G0:2 0 42 + unlink G0:1 b U1:2", "refused": "1 batch unlink G0:1 b U1:2 + create G0:1 a U1:3",
        "undone": "1 undo 3"}
    good, refused, undone = (begun.read(line)[1] for line in lines.values())

    def behind(change, form=4, item=None, maker=begun, **fields):
        """The list with a commit of a change behind it, whose item, format and fields may be others than they should be."""
        maker = maker.copy()
        item = item or logs.item_of(change)
        try:
            version = maker.version(1, change, 4)
        except desk_model.Refused:
            version = logs.Version(1, maker.prev, sha256(item), bytes(32), [], maker.raised(1, []))
        for field, value in {"change": sha256(item), "form": form, **fields}.items():
            setattr(version, field, value)
        return [*maker.records, (maker.sign(version), item)]

    lifted = begun.copy()
    lifted.add(1, good, 4)
    first, *_ = operations = [logs.spelled_operation(it) for it in good[1]]
    each = [number + {1: 3, 2: 1}.get(n, 0) for n, number in enumerate(begun.vector)]
    longest, longer = (("batch", (("write", ("U", 1, 2), 0, b"A" * 65536), ("write", ("U", 1, 2), 65536, b"B" * count))) for count in (4430, 4431))
    return {
        "a_batch_of_70000_bytes": (show(behind(longest)), [b"a G0:2", b"b U1:2", b""]),
        "a_batch_of_70001_bytes": (show(behind(longer)), [b"no 39 Change 1 Malformed 0"] * 2),
        "a_batch_of_70000_bytes_and_one_more": (show(behind(longest, item=logs.item_of(longest) + b"\0")), [b"no 39 Change 1 Malformed 70000"] * 2),
        "a_batch": (show(behind(good)), [b"a G0:2", b"42"]),
        "a_batch_of_the_third_format": (show(behind(good, 3)), [b"no 39 Change 44 OldFormat"] * 2),
        "a_batch_of_one": (show(behind(good, item=logs.batch_item(1, first))), [b"no 39 Change 1 Malformed 2"] * 2),
        "a_batch_of_two_that_has_three": (
            show(behind(good, item=logs.batch_item(2, *operations))), [b"no 39 Change 1 Malformed %d" % len(logs.batch_item(2, *operations[:2]))] * 2),
        "a_batch_with_an_undo": (
            show(behind(good, item=logs.batch_item(2, first, b"\0" + bytes(8)))), [b"no 39 Change 1 Malformed %d" % len(logs.batch_item(2, first))] * 2),
        "a_batch_that_is_refused": (show(behind(refused)), [b"no 39 Change 19 Exists"] * 2),
        "a_batch_without_its_group": (show(behind(good, groups=[], vector=begun.raised(1, []))), [b"no 38 WrongHandle G0"] * 2),
        "a_batch_with_another_handle": (show(behind(good, handle=bytes(32))), [b"no 38 WrongHandle U1"] * 2),
        "a_batch_with_a_number_for_each_operation": (show(behind(good, vector=each)), [b"no 35 WrongVector"] * 2),
        "the_third_format_behind_a_batch": (show(behind(undone, 3, maker=lifted)), [b"no 44 OldFormat"] * 2),
        "the_fourth_format_behind_a_batch": (show(behind(undone, maker=lifted)), [b"no 39 Change 28 Blocked 4"] * 2),
    }


def lying_on_the_turn(publics, records, told):
    script = b"write /a 0 45\nls /\n"
    for service, wanted in (
            (bad_server.Refuses, [b"no 36 KeyReuse", b"a U0:2", b"b U1:2"]), (bad_server.Swallows, [b"ok 7", b"no 40 OwnMissing"]),
            (bad_server.KeepsTurn, [b"ok 7", b"no 32 NotYourTurn"]), (bad_server.AlwaysBusy, [b"no 31 Busy 9"] * 2)):
        ended = told(service(publics, records), script, 6)
        yield f"lie_{service.__name__}: {ended}", ended == (wanted, [], 0)


def forks(room):
    """Two clients at work, which are shown different lists from some number on, and then each other's."""
    service = bad_server.Forks(room.public_keys, 1)
    with bad_server.Server(service) as server, room.client(server.port, 0) as zero, room.client(server.port, 1) as one:
        for client, line, wanted in (
                (zero, b"mkdir /a", [b"ok 1"]), (one, b"ls /", [b"a G0:2"]), (zero, b"mkdir /b", [b"ok 2"]),
                (one, b"mkdir /c", [b"ok 2", b"ok 3"]), (zero, b"ls /", [b"a G0:2", b"b G0:3"]), (one, b"ls /", [b"a G0:2", b"c G0:3"])):
            said = client.say(line)
            yield f"forked_{line.decode()}: {said}", said == wanted
        service.are_exchanged = True
        for client, line, wanted in ((zero, b"ls /\n", b"no 34 WrongPrev 2"), (one, b"mkdir /d\n", b"no 40 OwnMissing")):
            client.write(line)
            said = client.printed.next()
            yield f"forked_and_shown_the_other: {said}", said == wanted


def steps(at):
    """Two clients that hold a fork of one list, one lie after another, and the truth behind each: what they hold is as before."""
    os.mkdir(f"{at}/steps")
    room = Room(f"{at}/steps", users=3)
    begun = room.log("0 create G0:1 a U0:2")
    ours, theirs = begun.copy(), begun.copy()
    ours.say("2 take G0:1 1")
    theirs.say("2 take G0:1 2")
    mine = ours.copy()
    mine.say("0 write U0:2 0 41")
    theirs.say("1 take G0:1 1")

    def lied_to(name, user, held, lies):
        """What a client of the user prints while it holds these records and is told these lies, each before the truth."""
        attacker = bad_server.Attacker(room.public_keys)
        key, log = room.file(room.keys[user].file(9)), room.file(logs.log_bytes(held))
        attacker.shown = bad_server.Show(room.public_keys, held)
        with bad_server.Server(attacker) as server, room.client(server.port, user, "--log", log, key=key) as client:
            before = client.say(b"ls /")
            for lie, (service, wanted) in lies.items():
                attacker.shown = service
                client.write(b"ls /\n")
                said = client.printed.next()
                attacker.shown = bad_server.Show(room.public_keys, held)
                again = client.say(b"ls /")
                yield f"{name}_{lie}: {said} {again}", (said, again) == (wanted, before) and before == [b"a U0:2"]

    def show(records):
        return bad_server.Show(room.public_keys, records)

    longer, held = mine.records, ours.records
    yield from lied_to("who_holds_two", 0, held, {
        "is_shown_the_third_of_a_fork": (show([*held, theirs.records[2]]), b"no 34 WrongPrev 2"),
        "is_shown_the_fork": (show(bad_server.fork(longer, 2, theirs.records)), b"no 34 WrongPrev 2"),
        "is_shown_the_second_again": (show([*held, held[1]]), b"no 34 WrongPrev 2"),
        "is_shown_a_forged_third": (show(bad_server.forge(longer, 3)), b"no 33 BadSignature"),
        "is_given_another_item": (bad_server.ToldItem(room.public_keys, longer, 3), b"no 6 WrongBlock"),
        "is_set_back": (show([]), b"no 40 OwnMissing")})
    yield from lied_to("who_holds_three", 1, theirs.records, {
        "is_shown_the_third_of_a_fork": (show([*theirs.records, longer[2]]), b"no 34 WrongPrev 3"),
        "is_set_back": (show(bad_server.roll_back(theirs.records, 2)), b"no 40 OwnMissing")})
    yield from lied_to("who_holds_one", 0, begun.records, {
        "is_shown_two_exchanged": (show(bad_server.swap(longer, 2, 3)), b"no 34 WrongPrev 1"),
        "is_shown_none_and_the_third": (show(bad_server.drop(longer, 2)), b"no 34 WrongPrev 1"),
        "is_shown_a_forged_second": (show(bad_server.forge(longer, 2)), b"no 33 BadSignature")})


def lying_items(publics, records, told):
    script = b"ls /\nmkdir /d\n"
    for name, service, held, wanted in (
            ("other_bytes", bad_server.WrongItem, 0, [b"no 6 WrongBlock"] * 2),
            ("no_bytes", bad_server.NoItem, 0, [b"no 5 MissingBlock"] * 2)):
        ended = told(service(publics, records), script, held)
        yield f"lie_items_of_{name}: {ended}", ended == (wanted, [], 0)
    ended = told(bad_server.WrongDigest(publics, []), script, 0)
    yield f"lie_items_of_another_digest: {ended}", is_failed(ended, refusal=b"no 7 SourceFailed")
    ended = told(bad_server.WrongNumber(publics, records), b"write /a 0 45\nwrite /a 0 46\n", 6)
    yield f"lie_another_number: {ended}", ended == ([b"ok 7", b"ok 8"], [], 0)


def is_failed(ended, before=(), refusal=b"no 43 LinkFailed"):
    """Whether a client ended with a link that failed, after it printed these lines and the refusal that its command met."""
    printed, told, status = ended
    return (printed, status) == ([*before, refusal], 1) and is_told(told)


def lying_replies(publics, records, told):
    script = b"write /a 0 45\nwrite /a 0 46\nls /\n"
    for name, data in bad_server.NO_REPLIES.items():
        ended = told(bad_server.Replies(publics, records, "grant", data, count=2), script, 6)
        yield f"lie_grant_{name}: {ended}", is_failed(ended)
        ended = told(bad_server.Replies(publics, records, "grant", data), script, 6)
        yield f"lie_grant_{name}_once: {ended}", ended == ([b"ok 7", b"ok 8", b"a U0:2", b"b U1:2"], [], 0)
    for request in ("fetch", "put", "commit", "get", "give"):
        for name in ("nothing", "a_cut_frame", "too_long_a_frame", "an_unknown_tag"):
            held = 3 if request == "get" else 6
            at = held + 1 if request == "put" else 1  # behind the items of the log
            service = bad_server.Replies(publics, records, request, bad_server.NO_REPLIES[name], at)
            ended = told(service, b"ls /x\n" + script if request == "give" else script, held)
            refusal = b"no 7 SourceFailed" if request in ("put", "get") else b"no 43 LinkFailed"
            yield f"lie_{request}_{name}: {ended}", is_failed(ended, refusal=refusal)
    service = bad_server.Replies(publics, records, "put", b"", at=2)
    printed, tale, status = told(service, script, 3)
    yield f"lie_put_in_the_log: {printed} {tale}", (printed, status) == ([], 1) and is_told(tale)
    service = bad_server.Replies(publics, records, "grant", b"", at=3, count=2)
    ended = told(service, script, 6)
    yield f"lie_mute_after_two: {ended}", is_failed(ended, [b"ok 7", b"ok 8"])
    # over a new link what came before is asked for again, and has to be there
    lost = bad_server.Forgets(publics, records, at=2)
    ended = told(lost, script, 6)
    yield f"lie_another_list_over_a_new_link: {ended}", ended == ([b"ok 7", *[b"no 40 OwnMissing"] * 2], [], 0)


# ---- sessions and workers

def sessions(at):
    room = Room(at)
    with Server(room, workers=2, sessions=4) as server:
        silent = raw(server.port)
        for user in (0, 1):
            ended = room.run(server.port, user, b"mkdir /%d\nls /\n" % user)
            yield f"beside_a_silent_session_{user}: {ended}", ended[2] == 0 and ended[0][-1].endswith(b" G0:%d" % (2 + user))
        with room.client(server.port, 0) as client:
            yield "a_fourth_session", client.say(b"ls /") == [b"0 G0:2", b"1 G0:3"]
            silent.close()
            time.sleep(0.05)
            yield "others_go_on_when_it_ends", client.say(b"ls /0") == [] and server.process.poll() is None
        printed, told, status = server.end()
        yield f"so_many_sessions_and_then_none: {told}", (printed, len(told), status) == ([], 1, 0)
        yield "nobody_listens_any_more", is_refused(server.port)
    with Server(room, workers=16, sessions=1) as server:
        ended = room.run(server.port, 0, b"ls /\n")
        yield f"more_workers_than_sessions: {ended}", ended == ([], [], 0) and server.end()[2] == 0
    with Server(room, workers=1, sessions=3) as server:
        first = raw(server.port)
        yield "one_worker_serves_the_first", reply_to(first, wire.fetch(1)) == ("nothing", None)
        with room.client(server.port, 0) as client:
            client.write(b"mkdir /d\n")
            time.sleep(0.1)
            yield "the_second_waits", client.printed.lines.empty()
            first.close()
            yield "until_the_first_goes", client.printed.next() == b"ok 1"
        yield from lines_of_bytes(server.port)
    yield from links_cut(room)


def links_cut(room):
    """Clients that go in the middle of a message leave the worker and the turn to others; and a server that goes fails its clients."""
    with Server(room, workers=1) as server:
        for cut in (b"", b"\0\0", b"\0\0\0\1", b"\0\0\0\2\1", b"\0\0\0\1\1", b"\0\0\0\1\1\0\0\0\2\1"):
            link = raw(server.port)
            link.write(cut)
            link.close()
            ended = room.run(server.port, 0, b"ls /\n")
            yield f"after_a_session_of_{cut}: {ended}", ended == ([], [], 0)
        with room.client(server.port, 0) as client:
            yield "a_server_at_work", client.say(b"mkdir /a") == [b"ok 1"]
            server.kill()
            client.write(b"mkdir /b\nls /\n")
            ended = client.end()
            yield f"a_server_that_goes: {ended}", is_failed(ended)


def is_refused(port):
    try:
        socket.create_connection(("127.0.0.1", port), 1).close()
    except ConnectionRefusedError:
        return True
    return False


def lines_of_bytes(port):
    """What one session is replied, byte by byte."""
    link = raw(port)

    def refusal(number, argument=0):
        return b"\0\0\0\x0a\xff" + bytes([number]) + argument.to_bytes(8, "big")

    for name, sent, wanted in (
            ("an_unknown_tag", b"\0\0\0\1\x99", refusal(42)), ("a_byte_more", b"\0\0\0\2\1\0", refusal(1, 1)),
            ("a_give_without_a_turn", b"\0\0\0\1\3", refusal(32)), ("a_commit_without_a_turn", b"\0\0\0\2\2x", refusal(32)),
            ("the_turn", b"\0\0\0\1\1", b"\0\0\0\x13\x81" + bytes(7) + b"\1\1\0" + bytes(7) + b"\1"),
            ("no_commit", b"\0\0\0\1\2", refusal(1, 0)), ("no_item", b"\0\0\0\1\5", refusal(22)),
            ("an_item_that_is_not_there", b"\0\0\0\x21\6" + bytes(32), refusal(5)),
            ("half_a_digest", b"\0\0\0\x11\6" + bytes(16), refusal(1, 1)), ("a_record_of_0", b"\0\0\0\x09\4" + bytes(8), b"\0\0\0\1\x85"),
            ("a_record_too_far", b"\0\0\0\x09\4" + b"\xff" * 8, b"\0\0\0\1\x85"), ("the_turn_given_back", b"\0\0\0\1\3", b"\0\0\0\1\x83"),
            ("the_longest_item", wire.frame(wire.put(b"x" * 70000)), wire.frame(wire.put_done(desk_model.sha256(b"x" * 70000)))),
            ("an_item_too_long", wire.frame(wire.put(b"x" * 70001)), refusal(22)),
            ("the_longest_message", wire.frame(wire.put(b"x" * 131071)), refusal(22))):
        for part in (sent[:3], sent[3:]):
            link.write(part)
        replied = link.read(len(wanted))
        yield f"bytes_{name}: {replied[:40]}", replied == wanted
    link.write(b"\0\2\0\1")
    replied = link.read(14)
    yield f"bytes_of_a_message_too_long: {replied}", replied == refusal(41) and is_ended(link)
    link.close()


def ended_sessions(at):
    """A client whose session was ended connects anew at its next line, and tells so; where there is no server, that is its end."""
    room, store = Room(at), f"{at}/store"
    if program == MODEL:  # it has no store, and its sessions don't make room
        return
    port = free_port()
    with Server(room, "--store", store, port=port) as first, room.client(port, 0) as client:
        yield "before_a_session_ends", client.say(b"mkdir /a") == [b"ok 1"]
        first.kill()
        with Server(room, "--store", store, port=port) as second:
            said = client.say(b"mkdir /b")
            yield f"the_next_line_connects_anew: {said}", said == [b"ok 2"]
            yield "and_the_session_goes_on", client.say(b"ls /") == [b"a G0:2", b"b G0:3"]
            second.kill()
        client.write(b"ls /\nls /\n")
        ended = client.end()
        yield f"without_a_server_it_ends: {ended}", is_failed(ended)
        yield f"and_each_is_told: {client.asides}", client.asides == ["without_log", "anew", "not_anew"]
    with Server(room, workers=1) as server, room.client(server.port, 0) as client:
        yield "before_it_makes_room", client.say(b"mkdir /a") == [b"ok 1"]
        took, ended = timed(lambda: room.run(server.port, 1, b"ls /\n"))
        yield f"a_silent_client_makes_room: {ended} {took:.1f} s", ended == ([b"a G0:2"], [], 0) and 3 < took < 8
        yield "and_connects_anew_at_its_next_line", client.say(b"mkdir /b") == [b"ok 2"]
        ended = client.end()
        yield f"which_is_told: {client.asides}", ended == ([], [], 0) and client.asides == ["without_log", "anew"]


class Between:
    """Passes the requests of one session on to a server, and does something once its first commit is stored, before that is told."""

    def __init__(self, port, action):
        self.to, self.action = port, action
        self.listener = socket.create_server(("127.0.0.1", 0))
        self.port = self.listener.getsockname()[1]
        self.thread = threading.Thread(target=self.run, daemon=True)
        self.thread.start()

    def run(self):
        stream, _ = self.listener.accept()
        self.listener.close()
        here, there = wire.Link(stream), raw(self.to)
        try:
            while True:
                message = here.receive()
                reply = there.ask(message)
                if message[:1] == b"\2" and self.action:
                    action, self.action = self.action, None
                    action()
                here.send(reply)
        except wire.LinkEnded:
            pass
        here.close()
        there.close()


def cut():
    raise wire.LinkEnded


def asides(at):
    """What a client tells of refusals that have several everyday causes, and of a start without a log, beside its answers."""
    if program == MODEL:
        return
    room, saved = Room(at, 3), f"{at}/saved"
    two, (zero, one, _) = room.publics[:2], room.key_files

    def client(port, user, key, *more, publics=two, script=b"ls /\n"):
        """What a client prints of a script, and what it tells beside."""
        with Running(["client", "--port", port, "--user", user, "--key", key, *more, *publics]) as running:
            running.write(script)
            return running.end()[0], running.asides

    three, room.publics = room.publics, two
    with Server(room) as server:
        port = server.port
        ended = client(port, 0, zero, script=b"mkdir /a\nsave %b\n" % saved.encode())
        yield f"a_start_without_a_log: {ended}", ended == ([b"ok 1"], ["without_log"])
        yield "a_start_with_a_log", client(port, 0, zero, "--log", saved) == ([b"a G0:2"], [])
        ended = client(port, 0, one, "--log", saved, script=b"mkdir /b\n")
        yield f"the_key_of_another_user: {ended}", ended == ([b"no 33 BadSignature"], ["not_signed"])
        ended = client(port, 1, zero, publics=two[::-1])
        yield f"public_keys_in_another_order: {ended}", ended == ([b"no 33 BadSignature"], ["without_log", "not_signed"])
        ended = client(port, 0, zero, publics=three)
        yield f"one_public_key_more: {ended}", ended == ([b"no 34 WrongPrev 0"], ["without_log", "other_keys"])
        holder = raw(port)
        reply_to(holder, wire.GRANT)
        printed, told = client(port, 0, zero, "--log", saved, "--tries", 1)
        yield f"a_turn_that_another_has: {printed} {told}", printed[0].startswith(b"no 31 Busy ") and told == ["others_turn"]
        holder.close()
        between = Between(port, lambda: client(port, 0, zero, script=b"rename /a /z\n"))
        ended = client(between.port, 1, one, "--log", saved, script=b"create /c\nls /\n")
        wanted = [b"ok 2", b"no 39 Change 16 NotHolder 0", b"z G0:2"]
        yield f"a_file_that_is_taken_between: {ended}", ended == (wanted, ["taken_between"])
        ended = client(Between(port, cut).port, 0, zero, "--log", saved, script=b"create /d\nls /\n")
        yield f"a_link_that_fails_in_a_line: {ended}", ended == ([b"no 43 LinkFailed"], ["unknown"])
        yield "which_was_carried_out", client(port, 0, zero)[0] == [b"d G0:3", b"z G0:2"]
    with Server(room) as server:
        ended = client(server.port, 0, zero, "--log", saved)
        yield f"a_server_that_was_set_back: {ended}", ended == ([b"no 40 OwnMissing"], ["lacks"])


# requests of one session in their order, the replies, as they stand on the stream
ABC = "ba7816bf8f01cfea414140de5dae2223b00361a396177a9cb410ff61f20015ad"
EXCHANGES = {
    "the_turn": (b"\0\0\0\1\1", b"\0\0\0\x0a\x81" + bytes(9)),
    "a_commit_whose_author_is_none": (b"\0\0\0\6\2SV01\x40", b"\0\0\0\x0a\xff\1" + bytes(7) + b"\4"),
    "a_commit_of_the_second_format": (b"\0\0\0\6\2SV02\x40", b"\0\0\0\x0a\xff\1" + bytes(7) + b"\4"),
    "a_commit_of_the_third_format": (b"\0\0\0\6\2SV03\x40", b"\0\0\0\x0a\xff\1" + bytes(7) + b"\4"),
    "a_commit_of_the_fourth_format": (b"\0\0\0\6\2SV04\x40", b"\0\0\0\x0a\xff\1" + bytes(7) + b"\4"),
    "a_commit_of_a_later_format": (b"\0\0\0\6\2SV05\x40", b"\0\0\0\x0a\xff\1" + bytes(8)),
    "a_record_that_isnt_there": (b"\0\0\0\x09\4" + bytes(7) + b"\1", b"\0\0\0\1\x85"),
    "an_item": (b"\0\0\0\4\5abc", b"\0\0\0\x21\x86" + bytes.fromhex(ABC)),
    "the_same_item_by_its_digest": (b"\0\0\0\x21\6" + bytes.fromhex(ABC), b"\0\0\0\4\x87abc"),
    "an_item_that_isnt_held": (b"\0\0\0\x21\6" + bytes(32), b"\0\0\0\x0a\xff\5" + bytes(8)),
    "an_empty_item": (b"\0\0\0\1\5", b"\0\0\0\x0a\xff\x16" + bytes(8)),
    "the_turn_is_given_back": (b"\0\0\0\1\3", b"\0\0\0\1\x83"),
    "a_commit_without_the_turn": (b"\0\0\0\2\2\0", b"\0\0\0\x0a\xff\x20" + bytes(8)),
    "an_unknown_tag": (b"\0\0\0\1\x99", b"\0\0\0\x0a\xff\x2a" + bytes(8)),
    "a_byte_too_many": (b"\0\0\0\2\3\0", b"\0\0\0\x0a\xff\1" + bytes(7) + b"\1"),
}
ASKED, TOLD = (b"".join(exchange[side] for exchange in EXCHANGES.values()) for side in (0, 1))


def whole_replies(length):
    """The replies to the requests that are whole within so many bytes."""
    replies = b""
    for asked, told in EXCHANGES.values():
        length -= len(asked)
        replies += told if length >= 0 else b""
    return replies


def session_of(port, pieces):
    """All that is replied in a session of these bytes, to its end."""
    link, replied = raw(port), b""
    for piece in pieces:
        link.write(piece)
    link.stream.shutdown(socket.SHUT_WR)
    try:
        while True:
            replied += link.read(1)
    except wire.LinkEnded:
        pass
    link.close()
    return replied


def stands_still(link):
    """Whether nothing comes for a while."""
    return select.select([link.stream], [], [], 0.02)[0] == []


def bytes_of_sessions(at):
    """Sessions byte by byte: all requests, in pieces of any length; cut at each byte; refused at once."""
    room = Room(at)
    with Server(room, workers=1) as server:
        for count in (1, 7, len(ASKED)):
            replied = session_of(server.port, [ASKED[n:n + count] for n in range(0, len(ASKED), count)])
            yield f"all_requests_in_pieces_of_{count}: {replied}", replied == TOLD
        link = raw(server.port)
        for name, (asked, told) in EXCHANGES.items():
            link.write(asked)
            yield f"request_{name}", link.read(len(told)) == told and stands_still(link)
        link.close()
        wrong = [n for n in range(len(ASKED) + 1) if session_of(server.port, [ASKED[:n]]) != whole_replies(n)]
        yield f"cut_at_each_byte: {wrong}", wrong == []
        link = raw(server.port)
        for byte in (b"\0", b"\0", b"\0", b"\1"):
            link.write(byte)
            yield f"nothing_is_replied_to_a_part_{byte}", stands_still(link)
        link.write(b"\1")
        yield "a_message_comes_in_single_bytes", link.read(14) == EXCHANGES["the_turn"][1]
        link.close()
        turn, refused = EXCHANGES["the_turn"], EXCHANGES["a_byte_too_many"][1]
        for name, sent, wanted in (
                ("a_byte_too_many_and_a_request", b"\0\0\0\2\1\0" + turn[0], refused + turn[1]),
                ("too_long_a_length", b"\0\2\0\1", b"\0\0\0\x0a\xff\x29" + bytes(8)),
                ("too_long_a_length_for_good", b"\0\2\0\1\1" + turn[0], b"\0\0\0\x0a\xff\x29" + bytes(8)),
                ("no_length", bytes(4), b"\0\0\0\x0a\xff\1" + bytes(8)), ("a_cut_message", b"\0\0\0\2\1", b""),
                ("a_turn_that_is_held_at_the_end", *turn), ("the_turn_of_who_has_gone", *turn)):
            replied = session_of(server.port, [sent])
            yield f"session_of_{name}: {replied}", replied == wanted
        yield from unread(server)


def unread(server):
    """Links that are reset while replies are on their way: the next session finds all as it was."""
    for count in range(0, len(ASKED), 9):
        link = raw(server.port)
        link.stream.setsockopt(socket.SOL_SOCKET, socket.SO_LINGER, struct.pack("ii", 1, 0))
        link.write(ASKED[:count])
        link.close()
        replied = session_of(server.port, [ASKED])
        yield f"after_a_link_that_is_reset_behind_{count}: {replied}", replied == TOLD


def stored_bytes(at):
    """Commits that are handed in byte by byte are given back so, under their numbers, and saved so."""
    room, saved = Room(at), f"{at}/saved"
    maker = room.log("0 create G0:1 a U0:2; 1 take G0:1 1")
    (first, _), (second, _) = maker.records
    wanted = (
        (wire.GRANT, b"\x81" + bytes(9)), (b"\2" + first, b"\x82" + bytes(7) + b"\1"),
        (b"\4" + bytes(7) + b"\1", b"\x84" + first), (b"\4" + bytes(7) + b"\2", b"\x85"),
        (wire.GRANT, b"\x81" + bytes(7) + b"\1\1\0" + bytes(7) + b"\1"), (b"\2" + second, b"\x82" + bytes(7) + b"\2"),
        (b"\4" + bytes(7) + b"\2", b"\x84" + second), (wire.GRANT, b"\x81" + bytes(7) + b"\2\2\0" + bytes(7) + b"\1\1" + bytes(7) + b"\2"))
    with Server(room) as server:
        link = raw(server.port)
        for _, item in maker.records:
            link.ask(wire.put(item))
        for number, (asked, told) in enumerate(wanted):
            replied = link.ask(asked)
            yield f"stored_and_fetched_{number}: {replied[:40]}", replied == told
        link.close()
        ended = room.run(server.port, 0, b"save %b\nls /\n" % saved.encode())
        yield f"the_turn_was_given_back_at_the_end: {ended}", ended == ([b"a U0:2"], [], 0)
        yield "and_saved_as_they_came", read(saved) == maker.log()


# ---- formats

def formats(at):
    """A server takes commits of each format, and none whose format falls; clients go on with a list of the first format in the third."""
    room, saved = Room(at), f"{at}/saved"
    old = room.log("0 create G0:1 a U0:2; 1 take G0:1 1", form=1)
    keys_ = [room.file(key.file(8)) for key in room.keys]
    with Server(room) as server:
        link = raw(server.port)
        for commit, item in old.records:
            told = [reply_to(link, request)[0] for request in (wire.put(item), wire.GRANT, wire.commit(commit))]
            yield f"a_server_takes_the_first_format: {told}", told == ["put_done", "granted", "stored"]
        ended = room.run(server.port, 0, b"tidy\nls /\nsave %b\n" % saved.encode(), key=keys_[0])
        yield f"a_client_goes_on_in_the_third: {ended}", ended == ([b"ok 3", b"a U0:2"], [], 0)
        forms = [form for _, form, _ in history_of(saved)]
        yield f"and_saves_both: {forms}", forms == [1, 1, 3] and audit(room, saved) == ([b"ok 3"], [], 0)
        for name, told, wanted in falling(room, link, read(saved)):
            yield f"format_falls_{name}: {told}", told == wanted
        link.close()
        ended = room.run(server.port, 1, b"mkdir /d\nremove /d\nsave %b\n" % saved.encode(), "--log", room.file(old.log()), key=keys_[1])
        yield f"a_log_of_the_first_format_is_gone_on_with: {ended}", ended == ([b"ok 5", b"ok 6"], [], 0)
        ended = room.run(server.port, 0, b"truncate /a 16777216\n", "--log", saved, key=keys_[0])
        yield f"and_one_of_both: {ended}", ended == ([b"ok 7"], [], 0)
    yield "both_are_audited", audit(room, saved) == ([b"ok 6"], [], 0)


def falling(room, link, log, older=1):
    """What a server that holds this log replies to commits of user 1, who holds the root, and what it should: to one that a client makes,
    and then to some of an older format, which have other reasons to be refused too, before the format in their order or behind it."""
    view = audit_model.View(room.public_keys)
    for commit, item in audit_model.pieces(log):
        view.put(item)
        view.accept(commit)
    number, leaf = view.chain.count, view.chain.last_leaf.get(1, -1) + 1
    pointers = view.maker.desk.tree(view.maker.desk.history)[1]
    file = desk_model.group_file(0, client_model.least_free(1, lambda n: (0, n) not in pointers))
    made = ("create", "create", desk_model.group_file(0, 1), b"z", file, 9)
    version, item = view.maker.client_version(1, made), logs.item_of(made)
    commit = logs.commit_of(version, room.keys[1].sign(leaf, version.encode()))
    told = [reply_to(link, request) for request in (wire.put(item), wire.GRANT, wire.commit(commit))]
    yield "not", told[-1], ("stored", number + 1)
    view.put(item)
    view.accept(commit)
    reply_to(link, wire.GRANT)
    for name, fields, signer, leaf_, why in (
            ("alone", {}, 1, leaf + 1, "44 OldFormat"), ("unsigned", {}, 0, leaf + 1, "33 BadSignature"),
            ("elsewhere", {"prev": bytes(32)}, 1, leaf + 1, f"34 WrongPrev {number + 1}"),
            ("with_another_vector", {"vector": [0] * 4}, 1, leaf + 1, "44 OldFormat"), ("with_a_leaf_again", {}, 1, leaf, "44 OldFormat")):
        version = view.maker.client_version(1, ("undo", number + 1))
        for field, value in {**fields, "form": older}.items():
            setattr(version, field, value)
        commit = logs.commit_of(version, room.keys[signer].sign(leaf_, version.encode()))
        yield name, reply_to(link, wire.commit(commit)), ("refused", why)
    yield "keeps_the_turn", reply_to(link, wire.GIVE), ("given", None)


# ---- batches

def hand_in(link, commit, item):
    """What a server replies to a commit in a turn of its own."""
    reply_to(link, wire.put(item))
    reply_to(link, wire.GRANT)
    reply = reply_to(link, wire.commit(commit))
    if reply[0] == "refused":
        reply_to(link, wire.GIVE)
    return reply


def batches(at):
    """Batches that another implementation makes: the server and the clients take them, and the list goes on in the fourth format."""
    room, saved = Room(at), f"{at}/saved"
    maker = room.log("0 create G0:1 a G0:2 2")
    keys_ = [room.file(key.file(16)) for key in room.keys]
    user, change = maker.read("0 batch create G0:1 b U0:3 + write U0:3 0 6869 + create G0:1 c G0:3 4 + write G0:2 0 41")
    version, item = maker.version(user, change, 4), logs.item_of(change)
    with Server(room) as server:
        link = raw(server.port)
        yield "before_a_batch", hand_in(link, *maker.records[0]) == ("stored", 1)
        for name, numbers in (("each_operation", (4, 2)), ("each_operation_of_the_author", (4, 1)), ("each_operation_of_the_group", (1, 2)),
                              ("the_author_alone", (1, 0))):
            other = logs.Version(user, maker.prev, version.change, version.handle, version.groups, list(maker.vector), 4)
            other.vector[0], other.vector[2] = (maker.vector[n] + more for n, more in zip((0, 2), numbers))
            replied = hand_in(link, maker.sign(other), item)
            yield f"numbers_raised_for_{name}: {replied}", replied == ("refused", "35 WrongVector")
        commit = maker.sign(version)
        maker.take(user, change, version, commit)
        replied = hand_in(link, commit, item)
        yield f"a_batch_is_stored: {replied}", replied == ("stored", 2)
        for form in (1, 2, 3):
            other = maker.version(0, ("undo", 2), 4)
            other.form = form
            replied = hand_in(link, maker.sign(other), logs.item_of(("undo", 2)))
            yield f"none_of_format_{form}_behind_it: {replied}", replied == ("refused", "44 OldFormat")
        for name, user, line, wanted in (
                ("lists", 1, b"ls /", [b"a G0:2", b"b U0:3", b"c G0:3"]), ("shows", 1, b"cat /b 0 9", [b"6869"]),
                ("goes_on", 1, b"write /a 1 42", [b"ok 3", b"ok 4"]), ("may_not_undo_it", 1, b"undo 2", [b"no 39 Change 27 NotAuthor 0"]),
                ("has_it_blocked", 0, b"undo 2", [b"no 39 Change 28 Blocked 3"]), ("undoes_the_write", 1, b"undo 4", [b"ok 5"]),
                ("has_it_blocked_still", 0, b"undo 2", [b"no 39 Change 28 Blocked 3"]), ("undoes_the_take", 1, b"undo_last", [b"ok 6"]),
                ("undoes_it", 0, b"undo 2", [b"ok 7"]), ("lists_what_was_before", 1, b"ls /", [b"a G0:2"]), ("shows_it", 0, b"cat /a 0 9", [b""]),
                ("undoes_it_once", 0, b"undo 2", [b"no 39 Change 26 AlreadyUndone 2 7"]), ("saves", 0, b"save " + saved.encode(), [])):
            ended = room.run(server.port, user, line, key=keys_[user])
            yield f"who_takes_a_batch_{name}: {ended}", ended == (wanted, [], 0)
        link.close()
    forms = [form for _, form, _ in history_of(saved)]
    yield f"formats_with_a_batch: {forms}", forms == [3] + [4] * 6
    yield "a_log_with_a_batch_audits", audit(room, saved) == ([b"ok 7"], [], 0) and audit_model.audit(room.public_keys, read(saved)) == ("ok 7\n", 0)
    with Server(room) as server:
        ended = room.run(server.port, 1, b"ls /\n", "--log", saved, key=keys_[1])
        yield f"a_log_with_a_batch_is_gone_on_with: {ended}", ended == ([b"no 40 OwnMissing"], [], 0)


# what clients with --batch are told, by whom, and what is printed
LINES_IN_BATCHES = (
    (0, "mkdir /d", "ok 1"), (1, "create /d/f", "ok 2"), (1, "write /d/f 0 68656c6c6f", "ok 3"), (0, "rename /d/f /f", "ok 4"),
    (0, "ls /", "d G0:2|f G0:3"), (0, "undo 4", "ok 5"), (0, "ls /d", "f G0:3"), (0, "write /d/f 5 21", "ok 6"), (1, "cat /d/f 0 9", "68656c6c6f21"),
    # blocked by what came between, by the take in the batch and by the write alike
    (1, "undo 3", "no 39 Change 28 Blocked 6"), (1, "undo 2", "no 39 Change 28 Blocked 6"), (1, "undo 6", "no 39 Change 27 NotAuthor 0"),
    (0, "undo 6", "ok 7"), (1, "undo 3", "ok 8"), (0, "cat /d/f 0 9", ""), (1, "undo 2", "ok 9"), (0, "ls /d", ""),
    # a batch that is refused makes nothing, not the take in it either
    (1, "create /d", "no 19 Exists"), (1, "create /g/x", "no 18 NoName"), (1, "truncate /d 1", "no 15 WrongKind G0:2"), (0, "mkdir /e", "ok 10"),
    (1, "remove /e", "ok 11"), (1, "tidy", ""), (0, "tidy", "ok 12"), (0, "tidy", ""), (0, "rename /d /d", ""), (0, "undo_last", "ok 13"),
    (1, "undo_last", "ok 14"), (0, "ls /", "d G0:2|e G0:3"),
)


def commands_in_batches(at):
    """A client with --batch makes each command one commit; one without makes one of each operation, also in a list that has batches."""
    if not knows_batches():
        return
    room, saved, team = Room(at), f"{at}/saved", client_model.Team(2, batches=True)
    with Server(room) as server:
        with room.client(server.port, 0, "--batch") as zero, room.client(server.port, 1, "--batch") as one:
            for number, (user, line, wanted) in enumerate(LINES_IN_BATCHES):
                wanted = [it.encode() for it in wanted.split("|") if it or line.startswith("cat")]
                by_model = list(client_model.answers(team.member(user), line.encode()))
                said = (zero, one)[user].say(line.encode())
                yield f"in_batches_{number}: {line} {said}, and not {wanted} {by_model}", said == wanted == by_model
            zero.say(b"save " + saved.encode())
            yield "in_batches_ends", [it.end() for it in (zero, one)] == [([], [], 0)] * 2
        history = history_of(saved)
        yield f"in_batches_history: {[it for it in zip(history, team.desk.history) if it[0] != it[1]][:1]}", history == team.desk.history
        count = len(history)
        yield f"in_batches_formats: {history}", [form for _, form, _ in history] == [3] + [4] * (count - 1) and history[1][2][0] == "batch"
        yield "in_batches_audits", audit(room, saved) == ([b"ok %d" % count], [], 0)
        ended = room.run(server.port, 1, b"rename /d /c\n")
        wanted = [b"ok %d" % (count + n) for n in (1, 2)]
        yield f"without_the_word_each_operation_is_one: {ended}", ended == (wanted, [], 0)
        ended = room.run(server.port, 0, b"rename /c /b\nmkdir /b\n", "--batch", "--stop")
        wanted = [b"ok %d" % (count + 3), b"no 19 Exists"]
        yield f"it_goes_with_other_options: {ended}", (ended[0], ended[2]) == (wanted, 1) and is_told(ended[1], "line 2 ")
    yield from long_batches(at)
    yield from batches_between(at)
    yield from batches_in_a_full_book(at)


def knows_batches():
    return program == MODEL or CLIENT_BATCHES


def long_batches(at):
    """A command with more operations than an item has room for becomes as few commits as can be."""
    os.mkdir(f"{at}/long")
    room, saved, count = Room(f"{at}/long"), f"{at}/long/saved", 300
    maker = room.log("; ".join([f"0 batch {' + '.join(f'create G0:1 {n} G0:{n} {n}' for n in range(2 + first, 2 + last))}"
                                for first, last in ((0, 256), (256, count))]), form=4)
    for first, last in ((0, 256), (256, count)):
        maker.say(f"1 batch {' + '.join(f'take G0:{n} {n}' for n in range(2 + first, 2 + last))}")
    keys_ = [room.file(key.file(16)) for key in room.keys]
    with Server(room) as server:
        link = raw(server.port)
        stored = [hand_in(link, commit, item) for commit, item in maker.records]
        yield f"long_batches_are_stored: {stored}", stored == [("stored", n) for n in range(1, 5)]
        link.close()
        ended = room.run(server.port, 0, b"tidy\ntidy\nsave %b\n" % saved.encode(), "--batch", key=keys_[0])
        yield f"a_long_command_is_cut: {ended}", ended == ([b"ok 5", b"ok 6"], [], 0)
    made = [(author, form, len(change[1])) for author, form, change in history_of(saved)[4:]]
    yield f"as_late_as_can_be: {made}", made == [(0, 4, 256), (0, 4, count - 256)] and audit(room, saved) == ([b"ok 6"], [], 0)


def batches_between(at):
    """Nothing of another user comes between the operations of a command; what came before its turn is seen, and what comes behind too."""
    os.mkdir(f"{at}/between")
    room = Room(f"{at}/between")
    zero, one = ([*room.words(0, user, "--batch")] for user in range(2))

    def told(port, words, script):
        with Running([*words[:2], port, *words[3:]]) as client:
            client.write(script)
            return client.end()

    with Server(room) as server:
        ended = told(server.port, zero, b"mkdir /a\nmkdir /b\n")
        yield f"before_another_comes_between: {ended}", ended == ([b"ok 1", b"ok 2"], [], 0)
        seen = []
        between = Between(server.port, lambda: seen.append(told(server.port, zero, b"rename /a /z\nls /\n")))
        ended = told(between.port, one, b"create /c\nls /\ncreate /d\n")
        yield f"another_finds_the_whole_command: {seen}", seen == [([b"ok 4", b"b G0:3", b"c G0:4", b"z G0:2"], [], 0)]
        yield f"and_comes_behind_it: {ended}", ended == ([b"ok 3", b"b G0:3", b"c G0:4", b"z G0:2", b"ok 5"], [], 0)


def batches_in_a_full_book(at):
    """A command of several operations needs room for one commit, and one leaf."""
    os.mkdir(f"{at}/full")
    room = Room(f"{at}/full")
    last = room.file(room.keys[1].file(31))
    with Server(room, capacity=3) as server:
        ended = room.run(server.port, 0, b"mkdir /a\n", "--batch")
        yield f"full_book_begins: {ended}", ended == ([b"ok 1"], [], 0)
        ended = room.run(server.port, 1, b"create /b\ncreate /c\n", "--batch", key=last)
        yield f"one_leaf_is_enough: {ended}", ended == ([b"ok 2", b"no 8 KeySpent"], [], 0)
        ended = room.run(server.port, 0, b"create /d\ncreate /e\nls /\n", "--batch")
        yield f"and_room_for_one_commit: {ended}", ended == ([b"ok 3", b"no 37 BookFull", b"a G0:2", b"b G0:3", b"d G0:4"], [], 0)


def is_ended(link):
    try:
        link.read(1)
    except wire.LinkEnded:
        return True
    return False


# ---- a full book

def book(at):
    room = Room(at)
    with Server(room, capacity=2) as server, room.client(server.port, 0) as zero, room.client(server.port, 1) as one:
        for name, client, line, wanted in (
                ("takes_the_first", zero, b"mkdir /a", [b"ok 1"]),
                ("takes_the_first_of_two", one, b"mkdir /b", [b"ok 2", b"no 37 BookFull"]),
                ("is_full_but_plans", zero, b"write /a 0 41", [b"no 15 WrongKind G0:2"]),
                ("is_full_but_checks", zero, b"undo 1", [b"no 39 Change 28 Blocked 2"]),
                ("is_full_for_an_undo", one, b"undo 2", [b"no 37 BookFull"]), ("can_be_read", zero, b"ls /", [b"a G0:2"]),
                ("has_its_turn_back", one, b"ls /", [b"a G0:2"]), ("is_full_again", one, b"undo_last", [b"no 37 BookFull"])):
            said = client.say(line)
            yield f"book_{name}: {said}", said == wanted and is_free(server.port)
        yield "its_clients_end", [it.end() for it in (zero, one)] == [([], [], 0)] * 2
    yield "a_leaf_of_each_commit_is_gone", [next_leaf(it) for it in room.key_files] == [1, 4]


# ---- the example

def example(at):
    """The examples' scripts print what they should."""
    yield from printed_by(at, "share")
    if program != MODEL:
        yield from printed_by(at, "rekey", b" is no longer the key of user 0")
        yield from printed_by(at, "attack")


def printed_by(at, name, *more):
    """Whether an example prints what it should, and tells nothing but lines with these texts."""
    run, wanted = f"{TOP}/examples/{name}", f"{TOP}/examples/{name}.out"
    script = f"{at}/sundr"
    with open(script, "w") as file:
        file.write("#!/bin/sh\nexec " + " ".join(program) + ' "$@"\n')
    os.chmod(script, 0o755)
    ended = subprocess.run([run, script], capture_output=True, text=True, timeout=4 * WAIT)
    told = [line.encode() for line in ended.stderr.splitlines() if not aside_in(line.encode())]
    is_right = len(told) == len(more) and all(text in line for text, line in zip(more, told))
    yield f"example_{name}: {ended}", (ended.stdout, is_right, ended.returncode) == (open(wanted).read(), True, 0)


# ---- keys that users go on to

def rekeys(at):
    """A user goes on to another key in the middle; the other user goes on, and the log audits. What is no key, or was one's, is refused."""
    room, saved = Room(at), f"{at}/saved"
    second, third = (logs.key_of(f"serving, key {n}") for n in (2, 3))
    path, other = room.file(second.file(3)), room.file(third.file())
    again, theirs, no_key = room.file(room.keys[0].file(9)), room.file(room.keys[1].file(9)), room.file(b"SK01")
    with Server(room) as server:
        with room.client(server.port, 0) as zero, room.client(server.port, 1) as one:
            for name, client, line, wanted in (
                    ("begins", zero, b"mkdir /d", [b"ok 1"]),
                    ("has_no_such_file", zero, b"rekey /nowhere/x", [b"no 10 KeyFileFault"]),
                    ("has_no_key_file", zero, b"rekey " + no_key.encode(), [b"no 9 BadKey"]),
                    ("uses_it_already", zero, b"rekey " + room.key_files[0].encode(), [b"no 10 KeyFileFault"]),
                    ("had_it_first", zero, b"rekey " + again.encode(), [b"no 39 Change 36 KeyReuse"]),
                    ("is_another_users", zero, b"rekey " + theirs.encode(), [b"no 39 Change 36 KeyReuse"]),
                    ("goes_on", zero, b"rekey " + path.encode(), [b"ok 2"]),
                    ("signs_with_it", zero, b"mkdir /e", [b"ok 3"]),
                    ("sees_both", one, b"ls /", [b"d G0:2", b"e G0:3"]),
                    ("cannot_undo_it", zero, b"undo 2", [b"no 39 Change 25 NotOperation 2"]),
                    ("works_too", one, b"mkdir /f", [b"ok 4", b"ok 5"]),
                    ("cannot_undo_below_a_take", zero, b"undo 3", [b"no 39 Change 28 Blocked 4"]),
                    ("goes_on_again", zero, b"rekey " + other.encode(), [b"ok 6"]),
                    ("cannot_go_back", zero, b"rekey " + path.encode(), [b"no 39 Change 36 KeyReuse"]),
                    ("saves", one, b"save " + saved.encode(), [])):
                said = client.say(line)
                yield f"rekey_{name}: {said}", said == wanted
        yield "leaves_of_the_second_key", next_leaf(path) == 3 + 16
        yield "the_log_audits", audit(room, saved) == ([b"ok 6"], [], 0)
        yield "by_the_second_audit_too", audit_model.audit(room.public_keys, read(saved)) == ("ok 6\n", 0)
        yield from old_keys(room, server, saved, path, other)


def old_keys(room, server, saved, path, other):
    """A key that the log says is no longer the user's is refused at once; without a log, where it signs."""
    for name, key in (("first", room.key_files[0]), ("second", path)):
        ended = room.run(server.port, 0, b"ls /\n", "--log", saved, key=key)
        is_told_so = program == MODEL or is_told(ended[1], f"{key} is no longer the key of user 0")
        yield f"the_{name}_key_is_refused: {ended}", program == MODEL or (ended[0], is_told_so, ended[2]) == ([], True, 1)
        ended = room.run(server.port, 0, b"mkdir /x\nls /\n", key=key)
        wanted = [b"no 33 BadSignature", b"d G0:2", b"e G0:3", b"f G0:4"]
        yield f"the_{name}_key_does_not_sign: {ended}", ended == (wanted, [], 0)
    ended = room.run(server.port, 0, b"mkdir /x\n", "--log", saved, key=other)
    yield f"the_third_key_signs: {ended}", ended == ([b"ok 7", b"ok 8"], [], 0)


def next_keys(at):
    """Near the end of a key standard error tells so once; with --next-key the client makes the next one, as often as need be, and finds
    it when it is started again, with an old log or none."""
    room, saved, prefix = Room(at, users=1), f"{at}/saved", f"{at}/next"
    key = room.key_files[0]
    if program == MODEL:
        return
    with Server(room) as server:
        with Running(room.words(server.port, 0)) as client:
            client.write(b"".join(b"mkdir /%d\n" % n for n in range(31)))
            ended = client.end()
            wanted = [b"ok %d" % (n + 1) for n in range(31)]
            yield f"tells_once_that_few_are_left: {client.asides}", (ended, client.asides.count("few_left")) == ((wanted, [], 0), 1)
        more, first = ["--next-key", prefix], next_leaf(key)
        with Running(room.words(server.port, 0, *more)) as client:
            client.write(b"save %b\n" % saved.encode() + b"".join(b"mkdir /n%d\n" % n for n in range(70)))
            ended = client.end()
            yield f"goes_on_by_itself: {client.asides}", ended[2] == 0 and ended[1] == [] and len(ended[0]) == 70 and client.asides.count("rekeyed") == 3
            yield f"and_does_not_tell_of_few: {first}", "few_left" not in client.asides and ended[0][0] == b"ok 33" and ended[0][-1] == b"ok 104"
        made = sorted(name for name in os.listdir(at) if re.fullmatch("next-[0-9a-f]{32}", name))
        yield f"made_keys: {made}", len(made) == 3 and all(os.stat(f"{at}/{name}").st_mode & 0o777 == 0o600 for name in made)
        for name, log in (("without_a_log", ()), ("with_an_old_log", ("--log", saved))):
            ended = room.run(server.port, 0, b"mkdir /%b\n" % name.encode(), *more, *log)
            yield f"finds_the_key_{name}: {ended}", (len(ended[0]), ended[1], ended[2]) == (1, [], 0) and ended[0][0].startswith(b"ok ")
        room.run(server.port, 0, b"save %b\n" % saved.encode(), *more)
        ended = room.run(server.port, 0, b"mkdir /z\n", "--log", saved)
        yield f"without_the_option_the_old_key_is_refused: {ended}", (ended[0], ended[2]) == ([], 1) and is_told(ended[1], "no longer the key of user 0")
        last = max((f"{at}/{name}" for name in made), key=os.path.getmtime)
        os.rename(last, f"{at}/aside")
        ended = room.run(server.port, 0, b"mkdir /z\n", *more, "--log", saved)
        yield f"a_lost_key_is_named: {ended}", (ended[0], ended[2]) == ([], 1) and any(last.encode() in line for line in ended[1])
        ended = room.run(server.port, 0, b"mkdir /z\n", "--log", saved, key=f"{at}/aside")
        yield f"its_file_may_have_another_name: {ended}", ended[1:] == ([], 0) and ended[0][0].startswith(b"ok ")


# ---- scripts by chance

class Dice:
    """Lines by chance over few names, so that they have to do with each other. There are these files of keys."""

    def __init__(self, seed, files):
        self.random, self.files = random.Random(f"serving {seed}"), files

    def pick(self, *choices):
        return self.random.choice(choices)

    def path(self, depth=2):
        names = [self.pick("a", "b", "c", "d") for _ in range(self.random.randint(1, depth))]
        odd = self.random.random() < 0.05
        return self.pick("/", "/a/", "a", "/..", "//a", "/" + "n" * 255) if odd else "/" + "/".join(names)

    def number(self):
        return self.pick(0, 1, 2, 5, 4095, 4096, 4097, 8192, self.pick(1048575, 1048576, 4294967295, 4294967296))

    def line(self, count):
        p, n = self.path(), self.random.randint(1, count + 2)
        usual = (
            "rekey {5}", "mkdir {0}", "create {0}", "create {0}", "write {0} {1} {2}", "write {0} {1} {2}", "truncate {0} {1}", "link {0} {3}",
            "rename {0} {3}", "rename {0} {3}", "remove {0}", "mkdir {0}", "create {0}", "undo {4}", "undo {4}", "undo_last", "tidy", "ls {0}",
            "ls /", "cat {0} {1} 9")
        data = bytes([self.random.randrange(256)] * self.pick(1, 2, 4096)).hex()
        return self.pick(*usual).format(p, self.number(), data, self.path(), n, self.pick(*self.files)).encode()


def by_chance(at):
    """Of two users at once, one line after the other. Some books get full, and some keys are spent; some clients make batches."""
    seen = set()
    for seed in range(CHANCE_SCRIPTS):
        folder, more = f"{at}/{seed}", ["--batch"] if knows_batches() and seed % 3 == 2 else []
        os.mkdir(folder)
        room = Room(folder)
        others = [logs.key_of(f"serving, another {n}") for n in range(3)]
        dice = Dice(seed, [room.file(it) for it in (others[0].file(), others[1].file(30), others[2].file(5), b"no key")] + [f"{folder}/none"])
        capacity, left = (8 if seed % 5 == 0 else 1000), (5 if seed % 5 == 1 else 32)
        keys = [room.file(key.file(32 - left)) for key in room.keys]
        team = client_model.Team(2, left, capacity, room.public_keys, bool(more))
        script = []
        with Server(room, capacity=capacity) as server:
            with room.client(server.port, 0, *more, key=keys[0]) as zero, room.client(server.port, 1, *more, key=keys[1]) as one:
                for _ in range(CHANCE_LINES):
                    user, line = dice.random.randrange(2), dice.line(len(team.desk.history))
                    script.append((user, line[:80]))
                    wanted, said = list(client_model.answers(team.member(user), line)), (zero, one)[user].say(line)
                    seen |= {int(word) for it in said for word in it.split()[1:4:2] if it.startswith(b"no ") and word.isdigit()}
                    if said != wanted:
                        break
                yield f"chance_{seed}: {script} {said}, and not {wanted}", said == wanted
                yield from same_log(seed, folder, room, zero, team)
    yield f"chance_meets_most_refusals: {sorted(seen)}", len(seen) >= 14


def same_log(seed, folder, room, client, team):
    """The log that is saved has the history, change by change."""
    path = f"{folder}/log"
    client.say(b"save " + path.encode())
    printed = audit_model.audit(room.public_keys, read(path)) if os.path.exists(path) else None
    yield f"chance_{seed}_log: {printed}", printed == (f"ok {len(team.desk.history)}\n", 0)
    yield f"chance_{seed}_history", printed is not None and history_of(path) == team.desk.history


PARTS = (
    walk, logs_taken_up, little_room, operations, at_once, many_users, at_a_keyboard, lines, stops, saves, streams, faults, keys, leaves_ahead, signatures, kills,
    kills_ahead, kills_at_calls, busy, silent, pauses_of_turns, deaf, crowded, unanswered, turns, many_turns, lies, sessions, ended_sessions, asides, bytes_of_sessions,
    stored_bytes, formats, batches, commands_in_batches, book, rekeys, next_keys, example, by_chance)


def main():
    global program
    words = sys.argv[1:]
    if "--models" in words:
        words.remove("--models")
        program = MODEL
    elif not tally.is_there("serving", PROGRAM[0]):
        return 1
    results = {}
    for part in [in_little_room] if words == ["--in-little-room"] else PARTS:
        if part in PARTS and words and part.__name__ not in words:
            continue
        started = time.monotonic()
        with tempfile.TemporaryDirectory() as at:
            for name, right in part(at):
                results[name] = results.get(name, True) and right
        if words:
            print(f"serving: {part.__name__} took {time.monotonic() - started:.1f} s")
    return tally.told("serving", results)


if __name__ == "__main__":
    sys.exit(main())
