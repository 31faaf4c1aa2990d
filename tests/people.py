#!/usr/bin/env python3
"""Tries what `sundr` does for people: state folders of two users at one server, a tree of files put and got back, a conflict, an undo
and one that is blocked, heads that are compared, commands that are one commit, puts that are killed, and a server that was set back.

usage: people.py [PART..]

Prints a line for each case that isn't as it should be, and last 'N passed, M failed'.
"""
import json
import os
import pty
import random
import re
import shutil
import signal
import socket
import subprocess
import sys
import tempfile
import time

HERE = os.path.dirname(os.path.abspath(__file__))
TOP = os.path.dirname(HERE)
PROGRAM = os.environ.get("SUNDR", f"{TOP}/crates/sundr/out/sundr")
FILES = int(os.environ.get("PEOPLE_FILES", "200"))
KILLS = int(os.environ.get("PEOPLE_KILLS", "50"))
WAIT = 120  # seconds that a command may take at most
BATCHES = True  # whether the operations of a command are as few commits as their items have room for, and a put knows --each

passed = failed = 0


def check(name, is_so, seen=""):
    global passed, failed
    if is_so:
        passed += 1
    else:
        failed += 1
        print(f"{name}: {seen!r}", flush=True)


class Ended:
    """What a command printed and told, and its status."""

    def __init__(self, process, printed, told):
        self.status, self.printed, self.told = process.returncode, printed, told.decode(errors="replace")

    @property
    def text(self):
        return self.printed.decode(errors="replace")

    def __repr__(self):
        return f"status {self.status}, printed {self.text[-600:]!r}, told {self.told[-600:]!r}"


def started(*words, at=None):
    return subprocess.Popen([PROGRAM, *map(str, words)], cwd=at, stdin=subprocess.DEVNULL, stdout=subprocess.PIPE, stderr=subprocess.PIPE)


def run(*words, at=None):
    return ended_of(started(*words, at=at))


def ended_of(process):
    try:
        printed, told = process.communicate(timeout=WAIT)
    except subprocess.TimeoutExpired:
        process.kill()
        printed, told = process.communicate()
    return Ended(process, printed, told)


def free_port():
    with socket.socket() as it:
        it.bind(("127.0.0.1", 0))
        return it.getsockname()[1]


class Server:
    """A server with a store, which can be stopped, set back and started again."""

    def __init__(self, room, publics):
        self.store, self.publics, self.port, self.process = f"{room}/store", publics, free_port(), None

    def start(self):
        words = ["serve", "--port", self.port, "--workers", 4, "--capacity", 100000, "--store", self.store, *self.publics]
        self.process = subprocess.Popen([PROGRAM, *map(str, words)], stdin=subprocess.PIPE, stdout=subprocess.DEVNULL, stderr=subprocess.DEVNULL)
        for _ in range(600):
            try:
                socket.create_connection(("127.0.0.1", self.port)).close()
                return
            except OSError:
                time.sleep(0.05)
        raise SystemExit("the server doesn't listen")

    def stop(self):
        if self.process:
            self.process.stdin.close()
            self.process.terminate()
            self.process.wait()
            self.process = None


class Team:
    """Users with keys, a server, and a state folder for each."""

    def __init__(self, room, names=("ann", "bob")):
        self.room, self.names = room, names
        publics, lines = [], ["sundr team 1"]
        for name in names:
            ended = run("keygen", "--out", f"{room}/{name}.key", "--height", 10, "--width", 4)
            check(f"keygen {name}", ended.status == 0, ended)
            publics.append(f"{room}/{name}.key.pub")
            lines.append(f"{name} {ended.text.strip()}")
        self.file = f"{room}/team.txt"
        with open(self.file, "w") as it:
            it.write("".join(f"{line}\n" for line in lines))
        self.server = Server(room, publics)
        self.server.start()

    def init(self, name):
        ended = run("init", self.at(name), "--server", f"localhost:{self.server.port}", "--team", self.file, "--user", name, "--key",
                    f"{self.room}/{name}.key")
        check(f"init {name}", ended.status == 0 and "team of" in ended.text, ended)
        return ended

    def at(self, name):
        return f"{self.room}/{name}"

    def do(self, name, *words):
        return run(words[0], "--in", self.at(name), *words[1:])

    def end(self):
        self.server.stop()


def team_of(room, names=("ann", "bob")):
    team = Team(room, names)
    digests = set()
    for name in names:
        ended = team.init(name)
        digests.update(re.findall(r"digest ((?:[0-9a-f]{8} ?){8})", ended.text))
    check("one digest of the team", len(digests) == 1, digests)
    return team


def make_tree(at, files, seed):
    """A tree of files of many sizes, of which some are empty, and some of several blocks."""
    chance = random.Random(seed)
    os.makedirs(at)
    for number in range(files):
        folder = f"{at}/d{number % 7}" if number % 3 else f"{at}/d{number % 7}/e{number % 5}"
        os.makedirs(folder, exist_ok=True)
        size = chance.choice([0, 1, 100, 4095, 4096, 4097, 20000, 70000])
        with open(f"{folder}/f {number} é", "wb") as it:
            it.write(chance.randbytes(size))


def tree_of(at):
    found = {}
    for folder, _, files in os.walk(at):
        for name in files:
            path = f"{folder}/{name}"
            with open(path, "rb") as it:
                found[os.path.relpath(path, at)] = it.read()
    return found


def number_in(text):
    found = re.findall(r"commit (\d+)", text)
    return int(found[-1]) if found else 0


def walk(room):
    """Two people at one folder tree."""
    team = team_of(room)
    try:
        walk_of(room, team)
    finally:
        team.end()


def walk_of(room, team):
    make_tree(f"{room}/tree", FILES, 1)
    ended = team.do("ann", "put", "-n", "-r", f"{room}/tree", "/tree")
    check("a dry run tells", ended.status == 0 and "would put" in ended.text, ended)
    ended = team.do("ann", "ls", "/")
    check("a dry run puts nothing", ended.status == 0 and ended.text == "", ended)
    ended = team.do("ann", "put", "-r", f"{room}/tree", "/tree")
    check("a tree is put", ended.status == 0 and "put /tree" in ended.text, ended)
    ended = team.do("ann", "put", "-r", f"{room}/tree", "/tree")
    check("it isn't put again", ended.status == 0 and f"{FILES} files there already" in ended.text, ended)
    ended = team.do("bob", "get", "-r", "/tree", f"{room}/got")
    check("the tree is got", ended.status == 0, ended)
    check("byte by byte", tree_of(f"{room}/tree") == tree_of(f"{room}/got"))
    ended = team.do("bob", "get", "-r", "/tree", f"{room}/got")
    check("it isn't got again", ended.status == 0 and f"{FILES} files there already" in ended.text, ended)
    names(room, team)
    targets(room, team)
    progress(room, team)
    conflict(room, team)
    undos(room, team)
    heads(team)
    forgets(room, team)


def names(room, team):
    ended = team.do("bob", "mkdir", "-p", "/report/old")
    check("folders are made", ended.status == 0 and "done, with" in ended.text, ended)
    ended = team.do("bob", "ls", "/")
    check("a folder is listed", ended.text == "report/\ntree/\n", ended)
    ended = team.do("bob", "ls", "--json", "/")
    check("as JSON too", [it["path"] for it in json.loads(ended.printed or b"[]")] == ["/report", "/tree"], ended)
    with open(f"{room}/plan", "w") as it:
        it.write("meet at nine\n")
    ended = team.do("ann", "put", f"{room}/plan", "/report")
    check("a file is put into a folder", ended.status == 0, ended)
    ended = team.do("bob", "cat", "/report/plan")
    check("its bytes are written", (ended.status, ended.printed) == (0, b"meet at nine\n"), ended)
    ended = team.do("bob", "ls", "-l", "/report")
    check("a long list tells who changed it", re.search(r"plan +13  commit \d+ ann", ended.text), ended)
    ended = team.do("ann", "mv", "/report/plan", "/report/draft")
    check("a file gets another name", ended.status == 0, ended)
    ended = team.do("ann", "ln", "/report/draft", "/report/plan")
    check("and one more", ended.status == 0, ended)
    ended = team.do("ann", "rm", "/report/draft")
    check("a name is taken away", ended.status == 0, ended)
    ended = team.do("ann", "rm", "/report")
    check("a folder with names isn't", ended.status == 1 and "NotEmpty" in ended.told, ended)
    ended = team.do("ann", "cat", "/report/none")
    check("what isn't there is told", ended.status == 1 and "/report/none: there is nothing of that name (18 NoName)" in ended.told, ended)
    ended = team.do("bob", "rm", "-r", "/report/old")
    check("a folder is taken away", ended.status == 0, ended)
    ended = run("ls", at=f"{team.at('ann')}")
    check("the folder is found where one stands", ended.status == 0 and ended.text == "report/\ntree/\n", ended)
    ended = run("ls", at=room)
    check("where there is none, that is told", ended.status == 1 and "sundr init" in ended.told, ended)


def targets(room, team):
    """Where what is put and got goes: a folder as the path, and below it where `/` is behind; a file into a folder."""
    os.makedirs(f"{room}/small/in/.sundr")
    for name in ("one", "in/two", "in/.sundr/log"):
        with open(f"{room}/small/{name}", "w") as it:
            it.write(f"{name}\n")
    small = {"one": b"one\n", "in/two": b"in/two\n"}
    check("a folder is put as the path", team.do("ann", "put", "-r", f"{room}/small", "/a").status == 0)
    ended = team.do("ann", "put", "-r", f"{room}/small", "/a")
    check("by the same command to the same place", ended.status == 0 and "2 files there already" in ended.text, ended)
    ended = team.do("ann", "put", "-r", f"{room}/small", "/a/")
    check("below it where / is behind", ended.status == 0 and "2 files" in ended.text, ended)
    ended = team.do("ann", "ls", "/a/small/")
    check("which is there", ended.text == "in/\none\n", ended)
    ended = team.do("ann", "ls", "/a/in")
    check("what belongs to a state folder isn't", ended.text == "two\n", ended)
    ended = team.do("ann", "put", f"{team.at('ann')}/.sundr/team", "/a")
    check("nor is it when it is named", ended.status == 1 and "state folder" in ended.told, ended)
    ended = team.do("bob", "get", "-r", "/a/small", f"{room}/small of bob")
    check("it is got", ended.status == 0 and tree_of(f"{room}/small of bob") == small, ended)
    ended = team.do("bob", "get", "-r", "/a/small", f"{room}/small of bob/")
    check("and below a folder", ended.status == 0 and tree_of(f"{room}/small of bob/small") == small, ended)
    ended = team.do("bob", "get", "/a/one", f"{room}/small of bob/in")
    check("a file is got into a folder", ended.status == 0 and os.path.exists(f"{room}/small of bob/in/one"), ended)
    check("a folder of that name is made", team.do("ann", "mkdir", "/a/.sundr").status == 0)
    check("with a file", team.do("ann", "put", f"{room}/small/one", "/a/.sundr/team").status == 0)
    ended = team.do("bob", "get", "-r", "--over", "/a", team.at("bob"))
    check("it isn't got into a state folder", ended.status == 1 and "name of a state folder" in ended.told, ended)
    check("which still works", team.do("bob", "ls", "/a").status == 0)
    ended = team.do("ann", "mv", "/a/none", "/a/some")
    check("the path that leads to nothing is named", ended.status == 1 and "/a/none: there is nothing" in ended.told, ended)
    check("what was for this alone goes", team.do("ann", "rm", "-r", "/a").status == 0)


def told_on_terminal(*words):
    """What a command tells where standard error is a terminal."""
    ours, theirs = pty.openpty()
    process = subprocess.Popen([PROGRAM, *map(str, words)], stdin=subprocess.DEVNULL, stdout=subprocess.DEVNULL, stderr=theirs)
    os.close(theirs)
    told = b""
    while True:
        try:
            piece = os.read(ours, 65536)
        except OSError:  # the other end is closed
            piece = b""
        if not piece:
            break
        told += piece
    os.close(ours)
    process.wait(WAIT)
    return told.decode(errors="replace")


def progress(room, team):
    """How far a put is stands on one line of a terminal, which is cleared at the end, and nowhere else."""
    os.makedirs(f"{room}/large")
    for number in range(5):
        with open(f"{room}/large/{number}", "wb") as it:
            it.write(bytes([number]) * 200000)
    told = told_on_terminal("put", "--in", team.at("ann"), "-r", f"{room}/large", "/large")
    check("a terminal is told of each file", all(f"put  {n}/5 files" in told for n in range(1, 6)), told)
    found = re.findall(r"1\.0/1\.0 MB  (\d+) commits", told)
    check("of bytes and commits", found and (int(found[-1]) < 26 if BATCHES else found[-1] == "26"), told)
    check("on one line that is cleared", "\n" not in told and told.endswith("\r\x1b[K"), told)
    ended = team.do("bob", "get", "-r", "/large", f"{room}/large of bob")
    check("nothing else is", ended.status == 0 and ended.told == "", ended)
    check("what was for this alone goes", team.do("ann", "rm", "-r", "/large").status == 0)


def conflict(room, team):
    plan = f"{room}/plan"
    ended = team.do("bob", "get", "/report/plan", f"{room}/plan of bob")
    check("a file is got", ended.status == 0, ended)
    with open(plan, "w") as it:
        it.write("meet at ten\n")
    check("its author changes it", team.do("ann", "put", plan, "/report/plan").status == 0)
    with open(f"{room}/plan of bob", "w") as it:
        it.write("meet at noon\n")
    ended = team.do("bob", "put", f"{room}/plan of bob", "/report/plan")
    check("who hasn't seen that doesn't write over it", ended.status == 1 and "ann changed it with commit" in ended.told, ended)
    ended = team.do("bob", "cat", "/report/plan")
    check("it stays", ended.printed == b"meet at ten\n", ended)
    ended = team.do("bob", "get", "/report/plan", f"{room}/plan of bob")
    check("a local file that differs stays too", ended.status == 1 and "get --over" in ended.told, ended)
    ended = team.do("bob", "put", "--over", f"{room}/plan of bob", "/report/plan")
    check("unless it is to be", ended.status == 0, ended)
    ended = team.do("ann", "cat", "/report/plan")
    check("which the other sees", ended.printed == b"meet at noon\n", ended)


def undos(room, team):
    ended = team.do("bob", "history", "-n", "1", "/report/plan")
    check("the history tells the last change", ended.status == 0 and "bob" in ended.text and "13 bytes" in ended.text, ended)
    last = int((re.search(r"\d+", ended.text) or [0])[0])
    ended = team.do("bob", "history", "--json", "-n", "1", "/report/plan")
    check("as JSON", ended.status == 0 and json.loads(ended.printed or b"[]")[0]["last"] == last, ended)
    ended = team.do("bob", "undo", last)
    check("it is taken back", ended.status == 0 and "done, with commit" in ended.text, ended)
    ended = team.do("ann", "cat", "/report/plan")
    check("and the bytes before are there", ended.printed == b"meet at ten\n", ended)
    ended = team.do("bob", "undo", last)
    check("once", ended.status == 1 and "AlreadyUndone" in ended.told, ended)
    ended = team.do("bob", "show", last)
    check("a commit is shown", ended.status == 0 and f"commit {last} by bob" in ended.text, ended)
    ended = team.do("bob", "show", "--json", last)
    shown = json.loads(ended.printed or b"{}")
    check("as JSON", (shown.get("number"), shown.get("author"), shown.get("lines", [{}])[0].get("last")) == (last, "bob", last), ended)
    # ann's change is blocked by bob's take, which read all of it; where it is one commit with his write, that was taken back with it
    if BATCHES:
        check("he changes it again", team.do("bob", "put", "--over", f"{room}/plan of bob", "/report/plan").status == 0)
    ended = team.do("ann", "history", "/report/plan")
    mine = [int(it) for it in re.findall(r"^(?:\d+\.\.| *)(\d+) +ann  wrote", ended.text, re.M)]
    check("ann's own change is in the history", mine, ended)
    ended = team.do("ann", "undo", mine[0])
    check("a blocked undo is refused", ended.status == 1 and "Blocked" in ended.told, ended)
    ended = team.do("ann", "undo", "--why", mine[0])
    check("why is told", ended.status == 0 and "bob" in ended.text and ("wrote" if BATCHES else "took") in ended.text, ended)
    ended = team.do("ann", "undo", "--why", "--json", mine[0])
    check("as JSON", ended.status == 0 and json.loads(ended.printed or b"[]")[-1]["author"] == "bob", ended)
    ended = team.do("bob", "undo", "--with-blockers", mine[0])
    check("nor is what others did for another's", ended.status == 1 and "only ann can" in ended.told, ended)
    ended = team.do("ann", "undo", "--with-blockers", mine[0])
    check("what is another's isn't taken back", ended.status == 1 and "only bob can" in ended.told, ended)
    ended = team.do("ann", "undo", "--with-blockers", 99_999)
    check("there is no such commit", ended.status == 1 and "there is no commit 99999 (24 NoOperation 99999)" in ended.told, ended)
    with open(f"{room}/own", "w") as it:
        it.write("one\n")
    check("a file of one's own", team.do("ann", "put", f"{room}/own", "/tree/own").status == 0)
    ended = team.do("ann", "history", "-n", "1")
    first = int((re.search(r"\d+", ended.text) or [0])[0])
    check("another name for it", team.do("ann", "mv", "/tree/own", "/tree/mine").status == 0)
    ended = team.do("ann", "undo", "--with-blockers", first)
    check("one's own blockers are taken back", ended.status == 0, ended)
    ended = team.do("ann", "cat", "/tree/own")
    check("so the file is gone", ended.status == 1 and "NoName" in ended.told, ended)


def heads(team):
    told = {name: json.loads(team.do(name, "status", "--json").printed or b"{}") for name in team.names}
    ann, bob = told["ann"], told["bob"]
    check("both see one head", ann.get("digest") == bob.get("digest") and ann.get("head") == bob.get("head"), told)
    ended = team.do("ann", "compare", bob["head"], bob["digest"])
    check("which is the same", ended.status == 0 and ended.text.startswith("the same"), ended)
    ended = team.do("ann", "compare", bob["head"] + 1, bob["digest"])
    check("a later one is ahead", ended.status == 0 and ended.text.startswith("ahead"), ended)
    ended = team.do("ann", "compare", bob["head"], "00000000 " + bob["digest"][9:])
    check("another one is of a fork", ended.status == 1 and "forked" in ended.told, ended)
    ended = team.do("ann", "verify")
    check("the log is verified", ended.status == 0 and ended.text == f"ok {ann['head']}\n", ended)


def forgets(room, team):
    """A server that was set back is noticed by who has a commit that it lacks, and nothing of it is taken."""
    team.server.stop()
    shutil.copytree(team.server.store, f"{room}/older")
    team.server.start()
    with open(f"{room}/new", "w") as it:
        it.write("new\n")
    check("one more file", team.do("ann", "put", f"{room}/new", "/tree/new").status == 0)
    team.server.stop()
    shutil.rmtree(team.server.store)
    shutil.copytree(f"{room}/older", team.server.store)
    team.server.start()
    log = f"{team.at('ann')}/.sundr/log"
    before = open(log, "rb").read()
    ended = team.do("ann", "status")
    check("a server that was set back is noticed", ended.status == 3 and "OwnMissing" in ended.told, ended)
    ended = team.do("ann", "put", f"{room}/new", "/tree/new")
    check("nothing is put there", ended.status == 3, ended)
    held = sorted(os.listdir(f"{team.at('ann')}/.sundr"))
    ended = team.do("ann", "rekey")
    check("no key is gone on to", ended.status == 3 and "OwnMissing" in ended.told, ended)
    check("nor is one made", sorted(os.listdir(f"{team.at('ann')}/.sundr")) == held, ended)
    check("the log stays", open(log, "rb").read() == before)
    ended = team.do("bob", "status")
    check("who lacks nothing goes on", ended.status == 0, ended)


# ---- commands that are one commit

def together(room):
    if not BATCHES:
        return
    team = team_of(room)
    try:
        many_files(room, team)
        names_together(team)
        one_file_twice(room, team)
        edited_by_another(room, team)
        each_file(room, team)
        large_together(room, team)
        at_once(room, team)
    finally:
        team.end()


def make_files(at, count, size, mark):
    """A folder of so many files of so many bytes, which all differ."""
    os.makedirs(at)
    for number in range(count):
        with open(f"{at}/f{number}", "wb") as it:
            it.write(f"{mark} {number} ".encode().ljust(size, b".")[:size])


def head_of(team, name):
    return json.loads(team.do(name, "status", "--json").printed or b"{}").get("head")


def commits_of(team, name, *words):
    """What a command of a user ended with, and how many commits it made."""
    before = head_of(team, name)
    ended = team.do(name, *words)
    return ended, (head_of(team, name) or 0) - (before or 0)


def lines_of(team, name, *words):
    """The lines of a history, the newest first."""
    return json.loads(team.do(name, "history", "--json", *words).printed or b"[]")


def many_files(room, team):
    """A put of 100 small files is one commit, one line of the history, and one undo."""
    make_files(f"{room}/many", 100, 100, "many")
    ended = team.do("ann", "put", "-n", "-r", f"{room}/many", "/many")
    check("a dry run of many files makes no commit", ended.status == 0 and "would put" in ended.text and not head_of(team, "ann"), ended)
    ended, made = commits_of(team, "ann", "put", "-r", f"{room}/many", "/many")
    check("a put of 100 files is one commit", ended.status == 0 and made == 1, (made, ended))
    check("which it tells", "100 files, 10000 bytes, commit 1;" in ended.text, ended)
    ended, made = commits_of(team, "ann", "put", "-r", f"{room}/many", "/many")
    check("they aren't put again", ended.status == 0 and made == 0 and "100 files there already" in ended.text, (made, ended))
    ended = team.do("bob", "get", "-r", "/many", f"{room}/many of bob")
    check("all of them are got", ended.status == 0 and tree_of(f"{room}/many") == tree_of(f"{room}/many of bob"), ended)
    ended = team.do("bob", "history")
    shown = r" *1 +ann +did 201 operations together \(10000 bytes\)\n"
    check("the history has one line of them", ended.status == 0 and re.fullmatch(shown, ended.text), ended)
    told = lines_of(team, "bob")
    check("as JSON too", [(it["first"], it["last"], it["author"], it["bytes"], it["undone_by"]) for it in told] == [(1, 1, "ann", 10000, None)], told)
    told = lines_of(team, "bob", "/many/f7")
    check("the commit is in the history of each file", [(it["first"], it["what"]) for it in told] == [(1, "together")], told)
    told = lines_of(team, "bob", "/many")
    check("and in that of their folder", [it["first"] for it in told] == [1], told)
    ended = team.do("bob", "ls", "-l", "/many/f7")
    check("each file tells the commit", re.search(r"f7 +100  commit 1 ann", ended.text), ended)
    ended = team.do("bob", "undo", 1)
    check("only who put them takes them back", ended.status == 1 and "NotAuthor" in ended.told, ended)
    ended, made = commits_of(team, "ann", "undo", 1)
    check("one undo takes all of them back", ended.status == 0 and made == 1, (made, ended))
    check("so nothing is left", team.do("bob", "ls", "/").text == "")
    told = lines_of(team, "bob")
    check("the history says so", [it["undone_by"] for it in told if it["last"] == 1] == [2], told)
    ended = team.do("ann", "undo", 1)
    check("they are taken back once", ended.status == 1 and "AlreadyUndone" in ended.told, ended)
    ended, made = commits_of(team, "ann", "put", "-r", f"{room}/many", "/many")
    check("they can be put once more", ended.status == 0 and made == 1, (made, ended))
    ended = team.do("bob", "get", "-r", "/many", f"{room}/many of bob")
    check("and are the same", ended.status == 0 and "100 files there already" in ended.text, ended)


def names_together(team):
    """Other commands are one commit each too, with the takes that they need."""
    for name, words, shown in (
            ("a move", ("mv", "/many/f0", "/many/g0"), "g0"), ("a move by another", ("mv", "/many/f1", "/many/g1"), "g1"),
            ("a move onto a name", ("mv", "/many/f2", "/many/g1"), "g1"), ("a further name", ("ln", "/many/f3", "/many/h3"), "h3"),
            ("folders in folders", ("mkdir", "-p", "/many/in/and/in"), "in")):
        user = "bob" if name.endswith("another") else "ann"
        ended, made = commits_of(team, user, *words)
        check(f"{name} is one commit", ended.status == 0 and made == 1, (made, ended))
        ended = team.do("bob", "ls", "/many")
        check(f"{name} is seen", any(it.rstrip("/") == shown for it in ended.text.splitlines()), ended)
    ended, made = commits_of(team, "ann", "mkdir", "/many/x", "/many/x/in", "/many/y")
    check("several folders are made by one commit", ended.status == 0 and made == 1, (made, ended))
    ended, made = commits_of(team, "bob", "mkdir", "-p", "/many/x/p/q", "/many/y", "/many/x/p/r")
    check("also with one above them both that is lacking", ended.status == 0 and made == 1, (made, ended))
    ended, made = commits_of(team, "bob", "rm", "/many/y", "/many/x/in", "/many/x", "/many/x/p")
    check("names go together or not at all", ended.status == 1 and made == 0, (made, ended))
    check("and the one that is refused is told", "/many/x: " in ended.told and "NotEmpty" in ended.told, ended)
    ended, made = commits_of(team, "bob", "rm", "/many/y", "/many/none", "/many/x/in")
    check("one that isn't there too", ended.status == 1 and made == 0 and "/many/none: " in ended.told, (made, ended))
    ended, made = commits_of(team, "bob", "rm", "/many/y", "/many/x/p/q", "/many/x/p/r", "/many/x/p", "/many/x/in", "/many/x")
    check("several names are taken away by one commit", ended.status == 0 and made == 1, (made, ended))
    before = team.do("bob", "ls", "/many").text
    ended, made = commits_of(team, "bob", "rm", "-r", "/many")
    check("a folder is removed by one commit", ended.status == 0 and made == 1, (made, ended))
    check("and is gone", team.do("ann", "ls", "/").text == "")
    ended, made = commits_of(team, "bob", "undo", head_of(team, "bob"))
    check("which one undo takes back", ended.status == 0 and made == 1, (made, ended))
    ended = team.do("ann", "ls", "/many")
    check("with each name", ended.text == before and len(before.splitlines()) == 101, ended)


def one_file_twice(room, team):
    """Two paths of one file can't both have their contents: each is put by itself, once, and the last one stays."""
    make_files(f"{room}/twice", 2, 100, "twice")
    check("a folder is put", team.do("ann", "put", "-r", f"{room}/twice", "/twice").status == 0)
    check("and a name in it goes", team.do("ann", "rm", "/twice/f1").status == 0)
    check("which becomes one of the other file", team.do("ann", "ln", "/twice/f0", "/twice/f1").status == 0)
    ended, made = commits_of(team, "ann", "put", "-r", f"{room}/twice", "/twice")
    check("two contents of one file take few commits", ended.status == 0 and 1 <= made <= 3, (made, ended))
    ended = team.do("bob", "cat", "/twice/f0")
    check("of which the last one stays", ended.status == 0 and ended.printed.startswith(b"twice 1"), ended)
    check("and it goes", team.do("ann", "rm", "-r", "/twice").status == 0)


def edited_by_another(room, team):
    """An edit of one file of many stands in the way of the undo of all."""
    make_files(f"{room}/some", 20, 100, "some")
    ended, made = commits_of(team, "ann", "put", "-r", f"{room}/some", "/some")
    check("some files are put", ended.status == 0 and made == 1, (made, ended))
    put = head_of(team, "ann")
    with open(f"{room}/edit", "w") as it:
        it.write("bob's words\n")
    ended, made = commits_of(team, "bob", "put", "--over", f"{room}/edit", "/some/f7")
    check("one of them is taken over and written by one commit", ended.status == 0 and made == 1, (made, ended))
    edit = head_of(team, "bob")
    ended = team.do("ann", "undo", put)
    check("that blocks the undo of all of them", ended.status == 1 and f"Blocked {edit}" in ended.told, ended)
    check("of which none is gone", len(team.do("ann", "ls", "/some").text.splitlines()) == 20)
    ended = team.do("ann", "undo", "--why", put)
    check("why is told", ended.status == 0 and re.search(rf"^ *{edit} +bob +wrote 12 bytes", ended.text, re.M), ended)
    check("he takes it back", team.do("bob", "undo", edit).status == 0)
    ended = team.do("bob", "cat", "/some/f7")
    check("so the file is as it was put", ended.printed == open(f"{room}/some/f7", "rb").read(), ended)
    ended, made = commits_of(team, "ann", "undo", put)
    check("then all of them are taken back", ended.status == 0 and made == 1, (made, ended))
    ended = team.do("bob", "ls", "/some")
    check("and are gone", ended.status == 1 and "NoName" in ended.told, ended)


def each_file(room, team):
    """With --each every file has a commit of its own, which is taken back alone."""
    make_files(f"{room}/single", 100, 100, "single")
    ended, made = commits_of(team, "ann", "put", "--each", "-r", f"{room}/single", "/single")
    check("with --each there are as many commits as files", ended.status == 0 and made >= 100, (made, ended))
    ended = team.do("bob", "get", "-r", "/single", f"{room}/single of bob")
    check("all of them are got", ended.status == 0 and tree_of(f"{room}/single") == tree_of(f"{room}/single of bob"), ended)
    told = lines_of(team, "bob", "/single/f7")
    check("each has a line of its own", len(told) == 1 and told[0]["bytes"] == 100, told)
    ended = team.do("ann", "undo", told[0]["last"] if told else 0)
    check("one of them is taken back", ended.status == 0, ended)
    ended, left = team.do("bob", "cat", "/single/f7"), team.do("bob", "ls", "/single").text.splitlines()
    check("and no other one", ended.printed == b"" and len(left) >= 99 and "f8" in left, (ended, left))


def large_together(room, team):
    """What an item has no room for is put by more commits, each as full as it goes; in the end it is all there."""
    make_files(f"{room}/more", 300, 100, "more")
    ended, made = commits_of(team, "ann", "put", "-r", f"{room}/more", "/more")
    check("a put of 300 files is a few commits", ended.status == 0 and 3 <= made <= 4, (made, ended))
    make_files(f"{room}/long", 20, 20_000, "long")
    ended, made = commits_of(team, "ann", "put", "-r", f"{room}/long", "/long")
    check("a put of 20 files of 20 kB is several", ended.status == 0 and 6 <= made <= 10, (made, ended))
    make_files(f"{room}/huge", 1, 1_048_576, "huge")
    ended, made = commits_of(team, "ann", "put", f"{room}/huge/f0", "/huge")
    check("a put of a large file is many", ended.status == 0 and 16 <= made <= 17, (made, ended))
    for name in ("more", "long"):
        ended = team.do("bob", "get", "-r", f"/{name}", f"{room}/{name} of bob")
        check(f"all of it is got ({name})", ended.status == 0 and tree_of(f"{room}/{name}") == tree_of(f"{room}/{name} of bob"), ended)
    ended = team.do("bob", "cat", "/huge")
    check("the large file too", ended.printed == open(f"{room}/huge/f0", "rb").read(), (ended.status, len(ended.printed), ended.told))


def at_once(room, team):
    """Two users put files at the same time, into folders of their own and into one: nothing is lost."""
    check("a folder for both", team.do("ann", "mkdir", "/both").status == 0)
    for turn in range(3):
        going = []
        for name in team.names:
            make_files(f"{room}/{turn}/{name}", 60, 100, f"{turn} {name}")
            os.makedirs(f"{room}/{turn}/of both", exist_ok=True)
            for number in range(60):
                shutil.copy(f"{room}/{turn}/{name}/f{number}", f"{room}/{turn}/of both/{name}{number}")
            going += [started("put", "--in", team.at(name), "-r", f"{room}/{turn}/{name}", f"/own{turn}{name}")]
        for name, ended in zip(team.names, map(ended_of, going)):
            check(f"{name} puts while the other does ({turn})", ended.status == 0, ended)
        going = []
        for name in team.names:
            files = [f"{room}/{turn}/of both/{name}{number}" for number in range(60)]
            going += [started("put", "--in", team.at(name), *files, "/both/")]
        for name, ended in zip(team.names, map(ended_of, going)):
            check(f"{name} puts where the other does ({turn})", ended.status == 0, ended)
        for name in team.names:
            ended = team.do("ann", "get", "-r", f"/own{turn}{name}", f"{room}/{turn}/got {name}")
            is_whole = tree_of(f"{room}/{turn}/{name}") == tree_of(f"{room}/{turn}/got {name}")
            check(f"what {name} put is there ({turn})", ended.status == 0 and is_whole, ended)
        ended = team.do("bob", "get", "--over", "-r", "/both", f"{room}/{turn}/got both")
        check(f"what both put is there ({turn})", ended.status == 0 and tree_of(f"{room}/{turn}/of both") == tree_of(f"{room}/{turn}/got both"), ended)
        ended, made = commits_of(team, "bob", "rm", "-r", "/both")
        check(f"one of them removes it ({turn})", ended.status == 0 and made <= 2, (made, ended))
        check(f"and makes it anew ({turn})", team.do("bob", "mkdir", "/both").status == 0)
    check("both see one head", head_of(team, "ann") == head_of(team, "bob"), [head_of(team, name) for name in team.names])
    ended = team.do("ann", "verify")
    check("the log is verified", ended.status == 0 and ended.text == f"ok {head_of(team, 'ann')}\n", ended)


# ---- logs that are cut, and puts that are killed

def cut_log(room):
    """A log whose last entry was cut is cut there; one that is damaged is refused."""
    team = team_of(room)
    try:
        make_tree(f"{room}/tree", 5, 2)
        check("a tree is put", team.do("ann", "put", "-r", f"{room}/tree", "/tree").status == 0)
        log = f"{team.at('ann')}/.sundr/log"
        whole = open(log, "rb").read()
        with open(log, "wb") as it:
            it.write(whole[:-7])
        ended = team.do("ann", "ls", "/tree")
        check("a cut entry is dropped", ended.status == 0 and "was cut" in ended.told, ended)
        check("and fetched again", open(log, "rb").read() == whole)
        with open(log, "wb") as it:
            it.write(whole[:200] + bytes([whole[200] ^ 1]) + whole[201:])
        ended = team.do("ann", "ls", "/tree")
        check("a damaged log is refused", ended.status == 1 and ".sundr/log" in ended.told, ended)
        check("and left", len(open(log, "rb").read()) == len(whole))
    finally:
        team.end()


def make_megabytes(at, files, seed):
    """A folder of files of 1 MB each."""
    chance = random.Random(seed)
    os.makedirs(at)
    for number in range(files):
        with open(f"{at}/{number}", "wb") as it:
            it.write(chance.randbytes(1_000_000))


def left_tree(room):
    """A tree of more bytes than stay in memory is put and got byte by byte, changed and taken back; also where no scratch can be made.
    What earlier changes replaced is left as well, and taken back."""
    team = team_of(room)
    try:
        tree, scratch = f"{room}/tree", f"{team.at('ann')}/.sundr/scratch"
        make_megabytes(tree, 40, 7)
        chance, replaced = random.Random(8), {}
        for name, sizes in (("plan", (60_000, 60_000)), ("list", (50_000, 20_000)), ("note", (5_000, 55_000))):
            for size in sizes:
                was = replaced.get(name, (0, b""))[1]
                with open(f"{room}/{name}", "wb") as it:
                    it.write(chance.randbytes(size))
                ended = team.do("ann", "put", f"{room}/{name}", f"/{name}")
                check(f"{name} is put", ended.status == 0, ended)
                replaced[name] = head_of(team, "ann"), open(f"{room}/{name}", "rb").read(), was
        ended = team.do("ann", "put", "-r", tree, "/tree")
        check("a tree of 40 MB is put", ended.status == 0 and "40 files, 40000000 bytes" in ended.text, ended)
        check("its name is gone", not os.path.exists(scratch))
        ended = team.do("bob", "get", "-r", "/tree", f"{room}/got")
        check("it is got", ended.status == 0, ended)
        check("it is what was put", tree_of(tree) == tree_of(f"{room}/got"))
        ended, made = commits_of(team, "ann", "put", "-r", tree, "/tree")
        check("another put of it writes nothing", ended.status == 0 and made == 0, (made, ended))
        for name, (number, present, was) in replaced.items():
            check(f"{name} is there", team.do("bob", "cat", f"/{name}").printed == present)
            ended = team.do("ann", "undo", str(number))
            check(f"what was put over {name} is taken back", ended.status == 0, ended)
            check(f"what it replaced in {name} is read", team.do("ann", "cat", f"/{name}").printed == was)
            check(f"another reads that of {name} too", team.do("bob", "cat", f"/{name}").printed == was)
        old = open(f"{tree}/3", "rb").read()
        with open(f"{tree}/3", "wb") as it:
            it.write(old[:500_000] + b"in the middle" + old[500_013:])
        ended = team.do("ann", "put", f"{tree}/3", "/tree/3")
        check("a file that was left is changed", ended.status == 0, ended)
        number = head_of(team, "ann")
        check("the change is read", team.do("bob", "cat", "/tree/3").printed == open(f"{tree}/3", "rb").read())
        os.mkdir(scratch)
        ended = team.do("ann", "undo", str(number))
        check("it is taken back without a scratch", ended.status == 0, ended)
        check("and what was there is read", team.do("ann", "cat", "/tree/3").printed == old)
        ended = team.do("ann", "get", "-r", "/tree", f"{room}/again")
        check("the tree is got without a scratch", ended.status == 0, ended)
        os.rmdir(scratch)
        with open(f"{tree}/3", "wb") as it:
            it.write(old)
        check("it is as it was", tree_of(tree) == tree_of(f"{room}/again"))
    finally:
        team.end()


def kills(room):
    """A put that is killed goes on by the same command, and in the end what is there is what was put."""
    team = team_of(room)
    chance = random.Random(3)
    try:
        for number in range(KILLS):
            tree = f"{room}/tree{number}"
            make_tree(tree, 6, 100 + number)
            words = ["put", "--in", team.at("ann"), "-r", tree, f"/t{number}"]
            process = subprocess.Popen([PROGRAM, *words], stdin=subprocess.DEVNULL, stdout=subprocess.DEVNULL, stderr=subprocess.DEVNULL)
            time.sleep(chance.uniform(0.1, 1.0))
            process.send_signal(signal.SIGKILL)
            process.wait()
            ended = run(*words)
            check(f"the put {number} goes on", ended.status == 0, ended)
            ended = team.do("bob", "get", "-r", f"/t{number}", f"{room}/got{number}")
            check(f"the tree {number} is got", ended.status == 0, ended)
            check(f"it is what was put ({number})", tree_of(tree) == tree_of(f"{room}/got{number}"))
            shutil.rmtree(f"{room}/got{number}")
    finally:
        team.end()


def example(room):
    """The walk of examples/ prints what it should."""
    ended = subprocess.run([f"{TOP}/examples/folder", PROGRAM], capture_output=True, timeout=4 * WAIT)
    with open(f"{TOP}/examples/folder.out", "rb") as it:
        wanted = it.read()
    check("the example", (ended.stdout, ended.stderr, ended.returncode) == (wanted, b"", 0), (ended.stdout[-3000:], ended.stderr, ended.returncode))


PARTS = {"walk": walk, "together": together, "cut_log": cut_log, "left_tree": left_tree, "kills": kills, "example": example}


def main():
    for name in sys.argv[1:] or PARTS:
        room = tempfile.mkdtemp(prefix="sundr-people-")
        try:
            PARTS[name](room)
        except Exception as fault:
            check(name, False, repr(fault))
        finally:
            shutil.rmtree(room, ignore_errors=True)
    print(f"{passed} passed, {failed} failed")
    sys.exit(1 if failed else 0)


main()
