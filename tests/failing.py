#!/usr/bin/env python3
"""Tries the program where one call of the system fails, for one call after the other: a write, a sync, a change of length or a read of a
server's store; the same of a client's key file, of a state folder at a put, and of what a get leaves in a file of its own for a while; a
read or a write of a connection, at a client and at a server; and a call for memory (a growth), at each of these, at an audit and where a
key is made. A library in C, which is loaded in front of the C library, fails the Nth of these calls, and tells whether it came. What was
acknowledged is there afterwards, nothing else is half there, no leaf signs twice, and the same once more goes through. (Of the desk
memory.py tries each call for memory.)

usage: failing.py [--runs N] [PART..]    N runs of a kind of call at most, of which the others are passed over

Prints a line for each case that isn't as it should be, and last 'N passed, M failed'.
"""
import concurrent.futures
import itertools
import os
import re
import shutil
import socket
import subprocess
import sys
import tempfile
import time

import audit_model
import logs
import serving
import shims
import tally
import wire
from desk_model import Refused

RUNS = 40  # of a kind of call at most
RUNS_AT_ONCE = 4

runs_of_a_kind = RUNS

# Calls of the kinds that FAILS names are counted, on files whose path begins with WITHIN, or on sockets where WITHIN is empty; those for memory
# wherever they come. The one of the number REFUSED fails, and that it came is told on the descriptor TELLING, as a byte. At the end of the
# program the number of calls follows.
SHIM = r"""
#define _GNU_SOURCE
#include <dlfcn.h>
#include <errno.h>
#include <fcntl.h>
#include <pthread.h>
#include <stdio.h>
#include <stdlib.h>
#include <string.h>
#include <sys/socket.h>
#include <sys/stat.h>
#include <sys/syscall.h>
#include <unistd.h>

extern void *__libc_malloc(size_t), *__libc_calloc(size_t, size_t), *__libc_realloc(void *, size_t), *__libc_memalign(size_t, size_t);
extern char **environ;

static unsigned long calls;

static const char *text(const char *name)
{
    size_t length = strlen(name);
    for (char **at = environ; at && *at; at++)
        if (!strncmp(*at, name, length) && (*at)[length] == '=')
            return *at + length + 1;
    return "";
}

static int is_meant(int fd, const char *kind)
{
    struct stat found;
    char link[64], path[4096];
    const char *within = text("WITHIN");
    if (!strstr(text("FAILS"), kind) || fstat(fd, &found))
        return 0;
    if (!*within) { /* of reads those that find something, as the others come by the clock */
        char byte;
        return S_ISSOCK(found.st_mode) && (strcmp(kind, "read") || syscall(SYS_recvfrom, fd, &byte, 1, MSG_PEEK | MSG_DONTWAIT, 0, 0) >= 0);
    }
    if (!S_ISREG(found.st_mode))
        return 0;
    snprintf(link, sizeof link, "/proc/self/fd/%d", fd);
    ssize_t length = readlink(link, path, sizeof path - 1);
    return length > 0 && !strncmp(path, within, strlen(within));
}

static int fails(int fd, const char *kind)
{
    if (!is_meant(fd, kind) || __atomic_add_fetch(&calls, 1, __ATOMIC_SEQ_CST) != strtoul(text("REFUSED"), 0, 10))
        return 0;
    syscall(SYS_write, atoi(text("TELLING")), "!", 1);
    errno = *text("WITHIN") ? EIO : ECONNRESET;
    return 1;
}

static int is_grown(void)
{
    static int grows = -1;
    if (grows < 0 && environ)
        grows = strstr(text("FAILS"), "growth") != 0;
    if (grows < 1 || __atomic_add_fetch(&calls, 1, __ATOMIC_SEQ_CST) != strtoul(text("REFUSED"), 0, 10))
        return 1;
    syscall(SYS_write, atoi(text("TELLING")), "!", 1);
    errno = ENOMEM;
    return 0;
}

void *malloc(size_t n) { return is_grown() ? __libc_malloc(n) : 0; }
void *calloc(size_t count, size_t n) { return is_grown() ? __libc_calloc(count, n) : 0; }
void *realloc(void *old, size_t n) { return is_grown() ? __libc_realloc(old, n) : 0; }
void *aligned_alloc(size_t align, size_t n) { return is_grown() ? __libc_memalign(align, n) : 0; }

int posix_memalign(void **to, size_t align, size_t n)
{
    void *made = is_grown() ? __libc_memalign(align, n) : 0;
    if (made)
        *to = made;
    return made ? 0 : ENOMEM;
}

ssize_t write(int fd, const void *from, size_t n) { return fails(fd, "write") ? -1 : syscall(SYS_write, fd, from, n); }
ssize_t pwrite(int fd, const void *from, size_t n, off_t at) { return fails(fd, "write") ? -1 : syscall(SYS_pwrite64, fd, from, n, at); }
ssize_t pwrite64(int fd, const void *from, size_t n, off_t at) { return fails(fd, "write") ? -1 : syscall(SYS_pwrite64, fd, from, n, at); }
ssize_t send(int fd, const void *from, size_t n, int how) { return fails(fd, "write") ? -1 : syscall(SYS_sendto, fd, from, n, how, 0, 0); }
ssize_t read(int fd, void *to, size_t n) { return fails(fd, "read") ? -1 : syscall(SYS_read, fd, to, n); }
ssize_t pread(int fd, void *to, size_t n, off_t at) { return fails(fd, "read") ? -1 : syscall(SYS_pread64, fd, to, n, at); }
ssize_t pread64(int fd, void *to, size_t n, off_t at) { return fails(fd, "read") ? -1 : syscall(SYS_pread64, fd, to, n, at); }
ssize_t recv(int fd, void *to, size_t n, int how) { return fails(fd, "read") ? -1 : syscall(SYS_recvfrom, fd, to, n, how, 0, 0); }
int fsync(int fd) { return fails(fd, "sync") ? -1 : syscall(SYS_fsync, fd); }
int fdatasync(int fd) { return fails(fd, "sync") ? -1 : syscall(SYS_fdatasync, fd); }
int ftruncate(int fd, off_t n) { return fails(fd, "length") ? -1 : syscall(SYS_ftruncate, fd, n); }
int ftruncate64(int fd, off_t n) { return fails(fd, "length") ? -1 : syscall(SYS_ftruncate, fd, n); }

int pthread_create(pthread_t *to, const pthread_attr_t *how, void *(*work)(void *), void *with)
{
    int (*next)(pthread_t *, const pthread_attr_t *, void *(*)(void *), void *) = dlsym(RTLD_NEXT, "pthread_create");
    if (!strstr(text("FAILS"), "thread") || __atomic_add_fetch(&calls, 1, __ATOMIC_SEQ_CST) != strtoul(text("REFUSED"), 0, 10))
        return next(to, how, work, with);
    syscall(SYS_write, atoi(text("TELLING")), "!", 1);
    return EAGAIN;
}

/* the program ends so, and no destructor is called */
void _exit(int status)
{
    char told[32];
    int length = snprintf(told, sizeof told, "%lu", calls);
    syscall(SYS_write, atoi(text("TELLING")), told, length);
    for (;;)
        syscall(SYS_exit_group, status);
}
"""


# Several servers begin at once: no two of them look for a port at the same place, nor where connections get theirs.
PORTS = itertools.count(12_000 + os.getpid() % 8_000)


def free_port():
    """A port at which nobody listens. It isn't found by binding it: a program that another thread starts just then holds what is bound here
    until it is executed, and the server finds its address in use."""
    for port in PORTS:
        with socket.socket() as tried:
            if tried.connect_ex(("127.0.0.1", port)) != 0:
                return port


class Shim:
    """The library, and the calls that it is to fail: of these kinds, on files below a folder, or on sockets where that is empty."""

    def __init__(self, library, kinds, within=""):
        self.library, self.kinds, self.within = library, kinds, within

    def names(self, number, telling):
        return {**os.environ, "LD_PRELOAD": self.library, "FAILS": self.kinds, "WITHIN": self.within, "REFUSED": str(number),
                "TELLING": str(telling)}


class Told:
    """What the library tells of a program: whether the call came that it was to fail, and how many there were."""

    def __init__(self, shim, number):
        self.reader, self.writer = os.pipe()
        self.how = {"env": shim.names(number, self.writer), "pass_fds": (self.writer,)}
        self.met, self.calls = False, 0

    def read(self):
        os.close(self.writer)
        with open(self.reader, "rb") as told:
            said = told.read()
        self.met, count = said.startswith(b"!"), said.lstrip(b"!")
        self.calls = int(count) if count.isdigit() else 0
        return self


def compiled(at):
    return shims.compiled(at, "failing", SHIM)


def spread(count, most):
    """So many of the numbers from 1 to count at most, with equal steps."""
    return range(1, count + 1, max(1, -(-count // most)))


def each(name, at, scenario, most=None, sure=None):
    """A scenario with each of its calls failing once, so many of them at most. A scenario gets a folder of its own and the number of the
    call, and returns what the library told and what isn't as it should be. How many calls of a kind there are may go by the clock (a read
    finds what has come by then, of a message or of several): then the first ones, `sure` of them, come in each run and are all tried, and a
    run may have too few of the others."""
    most, first = most or runs_of_a_kind, 1 if sure is None else sure
    def tried(number):
        folder = f"{at}/{name} {number}"
        os.makedirs(folder)
        told, wrong = scenario(folder, number)
        shutil.rmtree(folder)
        return number, told, wrong

    _, whole, wrong = tried(0)
    yield f"{name}_without_a_fault: {wrong}", wrong == [] and not whole.met
    yield f"{name}_makes_such_calls: {whole.calls}", whole.calls >= first
    numbers = sorted({*range(1, first + 1), *spread(whole.calls, most)})
    with concurrent.futures.ThreadPoolExecutor(RUNS_AT_ONCE) as pool:
        runs = list(pool.map(tried, numbers))
    unmet = [number for number, told, _ in runs if not told.met]
    passed_by = [number for number, told, _ in runs if not told.met and (told.calls >= number or number <= first)]
    wrong = [(number, wrong) for number, _, wrong in runs if wrong]
    yield f"{name}_each_call_that_came_is_met: {passed_by}", passed_by == []
    if sure is None:
        yield f"{name}_each_call_is_met_but_few: {unmet}", len(unmet) * 2 <= len(runs)
    yield f"{name}_nothing_is_lost: {len(wrong)} of {len(runs)}, {wrong[:2]}", wrong == []
    print(f"failing: {name}: {whole.calls} calls, {len(runs)} runs, {len(runs) - len(unmet)} met")


# ---- a store at a server

SCRIPT = "; ".join(["0 create G0:1 a U0:2", f"0 write U0:2 0 {'61' * 5000}", "1 take G0:1 1", "1 create G0:1 b U1:2", "0 write U0:2 3 6162",
                    "0 undo 5"])


WORKERS, MOST_THREADS = 2, 12  # how many threads aren't started, one in each run, at most


class Keeping(serving.Running):
    """A server with a store, which listens once this is made, or has ended."""

    def __init__(self, room, store, **how):
        self.port = free_port()
        words = ["serve", "--port", self.port, "--workers", WORKERS, "--capacity", 100, "--store", store, "--cache", 1]
        super().__init__([*words, *room.publics], **how)
        self.said = self.told.next()

    def listens(self):
        return self.said is not None and b"listening" in self.said

    def stop(self):
        self.write(b"stop\n")
        return self.end()


def handed_in(port, records):
    """How many of these commits a server stores, up to the first that it doesn't. (Where it can't keep one, it answers by a refusal that
    fits no commit.)"""
    stored = 0
    try:
        link = wire.connect(port)
        for commit, item in records:
            # (whose item isn't taken hands no commit in that names it: the server would store that alone)
            if serving.reply_to(link, wire.put(item))[0] == "refused" or serving.hand_in(link, commit, item)[0] != "stored":
                break
            stored += 1
        link.close()
    except (OSError, wire.LinkEnded, Refused):
        pass
    return stored


def shown(port):
    """The commits that a server has, each with its item."""
    link, found = wire.connect(port), []
    for number in range(1, 100):
        reply = serving.reply_to(link, wire.fetch(number))
        if reply[0] != "kept":
            break
        change = audit_model.commit_in(reply[1])[0].change
        found.append((reply[1], serving.reply_to(link, wire.get(change))[1]))
    link.close()
    return found


def of_next_server(room, store, records, stored):
    """What isn't as it should be of the server that takes up a store next: it shows the commits that were stored, and takes the others."""
    wrong = []
    with Keeping(room, store) as server:
        if not server.listens():
            return [f"no further start: {server.said}"]
        there = shown(server.port)
        if there[:stored] != records[:stored] or there != records[:len(there)]:
            wrong.append(f"{stored} were stored, and {len(there)} are there")
        if handed_in(server.port, records[len(there):]) != len(records) - len(there) or shown(server.port) != records:
            wrong.append("the rest isn't taken")
        if server.stop()[2] != 0:
            wrong.append("no end in order")
    return wrong


def store_fails(room, records, library, kinds, folder, number):
    store, wrong = f"{folder}/store", []
    os.mkdir(store)
    told = Told(Shim(library, kinds, store), number)
    with Keeping(room, store, **told.how) as server:
        stored = handed_in(server.port, records) if server.listens() else 0
        status = server.stop()[2]
    told.read()
    if status not in (0, 1):
        wrong.append(f"status {status}")
    return told, wrong + of_next_server(room, store, records, stored)


def shown_first(port):
    """The commits that a server gives, each with its item, up to the first that it doesn't give."""
    found = []
    try:
        link = wire.connect(port)
        for number in range(1, 100):
            reply = serving.reply_to(link, wire.fetch(number))
            item = serving.reply_to(link, wire.get(audit_model.commit_in(reply[1])[0].change)) if reply[0] == "kept" else reply
            if item[0] != "item":
                break
            found.append((reply[1], item[1]))
        link.close()
    except (OSError, wire.LinkEnded, Refused):
        pass
    return found


def is_settled(port):
    """Waits until nobody has the turn: what was on its way to a server is stored then, or never is. Tells whether that came."""
    link, is_free = wire.connect(port), False
    for _ in range(int(serving.WAIT * 100)):
        is_free = serving.reply_to(link, wire.GRANT)[0] == "granted"
        if is_free:
            serving.reply_to(link, wire.GIVE)
            break
        time.sleep(0.01)
    link.close()
    return is_free


def kept_is_shown(room, records, kept, library, kinds, folder, number):
    """A server takes up the records of its store and shows them, or says that it can't and ends; each that it shows is right, and the next
    server shows them all."""
    store, wrong = f"{folder}/store", []
    shutil.copytree(kept, store)
    told = Told(Shim(library, kinds, store), number)
    with Keeping(room, store, **told.how) as server:
        there = shown_first(server.port) if server.listens() else []
        _, said, status = server.stop()
    told.read()
    if status not in (0, 1) or there != records[:len(there)] or not told.met and (status, len(there)) != (0, len(records)):
        wrong.append(f"status {status}, {said}, {len(there)} were shown")
    with Keeping(room, store) as server:
        if not server.listens() or shown(server.port) != records:
            wrong.append(f"not all are shown: {server.said}")
        if server.stop()[2] != 0:
            wrong.append("no end in order")
    return told, wrong


def thread_fails(room, records, library, folder, number):
    """Where the first thread can't be started, which waits for `stop`, or that of a worker, a server serves nobody, and says so. Without one
    of those behind the workers', with which it waits, a session may end. The next server goes on."""
    store, wrong = f"{folder}/store", []
    os.mkdir(store)
    told, is_needed = Told(Shim(library, "thread"), number), 0 < number <= 1 + WORKERS
    with Keeping(room, store, **told.how) as server:
        stored = handed_in(server.port, records) if server.listens() else 0
        _, said, status = server.stop()
    told.read()
    is_right = (stored, status) == (0, 1) and (said or b"no thread" in server.said) if is_needed else status == 0
    if not is_right or number == 0 and stored != len(records):
        wrong.append(f"status {status}, {stored} were stored, {server.said}, {said}")
    return told, wrong + of_next_server(room, store, records, stored)


def store(at, library):
    room = serving.Room(at)
    records = room.log(SCRIPT, form=4).records
    for kinds in ("write", "sync", "length", "read", "growth"):
        yield from each(f"a_{kinds}_of_the_store", at, lambda folder, number, kinds=kinds: store_fails(room, records, library, kinds, folder, number))
    kept = f"{at}/kept"
    os.mkdir(kept)
    with Keeping(room, kept) as server:
        yield "all_are_kept", server.listens() and handed_in(server.port, records) == len(records) and server.stop()[2] == 0
    for kinds in ("read", "growth"):
        yield from each(f"a_{kinds}_of_a_store_with_records", at,
                        lambda folder, number, kinds=kinds: kept_is_shown(room, records, kept, library, kinds, folder, number))
    yield from each("a_thread_of_a_server", at, lambda folder, number: thread_fails(room, records, library, folder, number), MOST_THREADS,
                    sure=1 + WORKERS)


# ---- a key file at a client

def leaf_of(commit):
    """The leaf that a commit was signed with: the first four bytes of its signature."""
    return int.from_bytes(audit_model.commit_in(commit)[1][:4], "big")


def key_fails(room, library, kinds, folder, number):
    key, wrong = f"{folder}/key", []
    with open(key, "wb") as file:
        file.write(room.keys[0].file())
    told = Told(Shim(library, kinds, folder), number)
    with serving.Server(room, workers=2, port=free_port()) as server:
        words = ["client", "--port", server.port, "--user", 0, "--key", key, "--leaves-ahead", 2, *room.publics]
        with serving.Running(words, **told.how) as client:
            client.write(b"mkdir /a\nmkdir /b\nmkdir /c\n")
            printed, _, status = client.end()
        told.read()
        done = [line for line in printed if line.startswith(b"ok ")]
        refused = [line for line in printed if not line.startswith(b"ok ")]
        if status not in (0, 1) or any(line != b"no 10 KeyFileFault" for line in refused):
            wrong.append(f"status {status}, {printed}")
        with serving.Running(words) as client:
            client.write(b"mkdir /z\n")
            again = client.end()
        if again[0] != [b"ok %d" % (len(done) + 1)] or again[2] != 0:
            wrong.append(f"again: {again}")
        leaves = [leaf_of(commit) for commit, _ in shown(server.port)]
        if len(leaves) != len(done) + 1 or len(set(leaves)) != len(leaves):
            wrong.append(f"{len(done)} were done, with the leaves {leaves}")
    return told, wrong


def keys(at, library):
    room = serving.Room(at)
    for kinds in ("write", "sync", "read"):
        yield from each(f"a_{kinds}_of_the_key_file", at, lambda folder, number, kinds=kinds: key_fails(room, library, kinds, folder, number))


# ---- connections

LINES = [b"mkdir /a", b"create /a/f", b"write /a/f 0 6869", b"mkdir /b"]
THERE = [b"a G0:2", b"b G0:4"]
MOST_LINKS = 400  # calls of a client's connection: all of them
LINK_FAILED = (b"no 43 LinkFailed", b"no 7 SourceFailed")


def done_of(printed):
    """How many lines were done, before the first that wasn't."""
    return next((n for n, line in enumerate(printed) if not line.startswith((b"ok ", b"no 19 Exists"))), len(printed))


def is_done_after(room, port, folder, done, wrong, may_fail=False):
    """Whether what was done is there, and the other lines go through, of which one may have been done. Where the call that fails may
    still be to come, the link may fail once more."""
    with serving.Running(room.words(port, 0, key=f"{folder}/key")) as client:
        client.write(b"\n".join([*LINES[done:], b"ls /", b"cat /a/f 0 9", b""]))
        printed, told, status = client.end()
    if may_fail and status == 1 and printed and printed[-1] in LINK_FAILED:
        is_done_after(room, port, folder, min(done + done_of(printed), len(LINES)), wrong)
        return
    rest, seen = printed[:len(LINES) - done], printed[len(LINES) - done:]
    if status != 0 or done_of(rest) < len(rest) or sum(line.startswith(b"no ") for line in rest) > 1 or seen != [*THERE, b"6869"]:
        wrong.append(f"after {done}: {printed}, told {told} {client.asides}, status {status}")


def link_fails(room, library, kinds, folder, number):
    wrong = []
    with open(f"{folder}/key", "wb") as file:
        file.write(room.keys[0].file())
    told = Told(Shim(library, kinds), number)
    with serving.Server(room, workers=2, port=free_port()) as server:
        with serving.Running(room.words(server.port, 0, key=f"{folder}/key"), **told.how) as client:
            client.write(b"\n".join(LINES) + b"\n")
            printed, _, status = client.end()
        told.read()
        done = next((n for n, line in enumerate(printed) if not line.startswith(b"ok ")), len(printed))
        if status not in (0, 1):
            wrong.append(f"status {status}, {printed}")
        is_done_after(room, server.port, folder, done, wrong)
    return told, wrong


def server_link_fails(room, library, kinds, folder, number):
    wrong = []
    with open(f"{folder}/key", "wb") as file:
        file.write(room.keys[0].file())
    told = Told(Shim(library, kinds), number)
    port = free_port()
    words = ["serve", "--port", port, "--workers", 2, "--capacity", 100, *room.publics]
    with serving.Running(words, **told.how) as server:
        server.told.next()
        with serving.Running(room.words(port, 0, key=f"{folder}/key")) as client:
            client.write(b"\n".join(LINES) + b"\n")
            printed, _, status = client.end()
        done = next((n for n, line in enumerate(printed) if not line.startswith(b"ok ")), len(printed))
        if status not in (0, 1):
            wrong.append(f"status {status}, {printed}")
        is_done_after(room, port, folder, done, wrong, may_fail=True)
        server.write(b"stop\n")
        ended = server.end()[2]
        if ended not in (0, 1):
            wrong.append(f"the server's status {ended}")
    told.read()
    return told, wrong


def links(at, library):
    room = serving.Room(at)
    for kinds in ("write", "read"):
        yield from each(f"a_{kinds}_of_a_client's_connection", at,
                        lambda folder, number, kinds=kinds: link_fails(room, library, kinds, folder, number), MOST_LINKS,
                        sure=1 if kinds == "read" else None)
        yield from each(f"a_{kinds}_of_a_server's_connection", at,
                        lambda folder, number, kinds=kinds: server_link_fails(room, library, kinds, folder, number), sure=1 if kinds == "read" else None)
        yield from each(f"a_{kinds}_of_the_connection_of_a_client_that_goes_on", at,
                        lambda folder, number, kinds=kinds: goes_on(room, library, kinds, folder, number), sure=1 if kinds == "read" else None)


# ---- a state folder

def put_fails(room, library, kinds, folder, number, is_of_link=False):
    """A put of a folder where a call on its state folder, or on its link, fails: the same command goes on, and all that was put is got."""
    wrong, here = [], f"{folder}/here"
    key, team = f"{folder}/key", f"{folder}/team"
    with open(key, "wb") as file:
        file.write(room.keys[0].file())
    with open(team, "w", encoding="utf-8") as file:
        file.write("sundr team 1\n" + "".join(f"{name} {public.hex()}\n" for name, public in zip(("ann", "bob"), room.public_keys)))
    contents = {f"f{n}": bytes([n]) * (3000 * n) for n in (1, 2, 3)}
    os.mkdir(f"{folder}/from")
    for name, data in contents.items():
        with open(f"{folder}/from/{name}", "wb") as file:
            file.write(data)

    def said(*words, **how):
        with serving.Running([*words, "--in", here], **how) as running:
            return running.end()

    with serving.Server(room, workers=2, port=free_port()) as server:
        with serving.Running(["init", "--server", f"127.0.0.1:{server.port}", "--team", team, "--user", "ann", "--key", key, here]) as made:
            if made.end()[2] != 0:
                wrong.append("it isn't made")
        told = Told(Shim(library, kinds, "" if is_of_link else f"{here}/.sundr"), number)
        status = said("put", "-r", f"{folder}/from", "/to", **told.how)[2]
        told.read()
        if status not in (0, 1):
            wrong.append(f"status {status}")
        again = said("put", "-r", f"{folder}/from", "/to")
        if again[2] != 0:
            wrong.append(f"again: {again}")
        got = said("get", "-r", "/to", f"{folder}/back")
        found = {name: serving.read(f"{folder}/back/{name}") for name in contents if os.path.exists(f"{folder}/back/{name}")}
        if got[2] != 0 or found != contents or said("verify")[2] != 0:
            wrong.append(f"got {got}, {sorted(found)}")
    return told, wrong


def puts(at, library):
    room = serving.Room(at)
    for kinds in ("write", "sync", "read", "growth"):
        yield from each(f"a_{kinds}_of_the_state_folder", at, lambda folder, number, kinds=kinds: put_fails(room, library, kinds, folder, number))
    for kinds in ("write", "read"):
        yield from each(f"a_{kinds}_of_the_link_of_a_put", at,
                        lambda folder, number, kinds=kinds: put_fails(room, library, kinds, folder, number, is_of_link=True),
                        sure=0 if kinds == "read" else None)


# ---- what a client leaves for a while

LEFT_FILES, LEFT_SIZE = 18, 1_000_000  # in all more than a client keeps of its tree, which it leaves in a file of its own then
MOST_GETS = 10  # of a kind of call
LONG_WAIT = 300  # seconds


def said_of(*words, **how):
    with serving.Running(words, **how) as running:
        return running.end(LONG_WAIT)


def tree_at(folder):
    return {name: serving.read(f"{folder}/{name}") for name in os.listdir(folder)} if os.path.isdir(folder) else {}


def get_fails(library, kinds, state, contents, folder, number):
    """Everything is got where the scratch fails, or nothing that isn't right; and the same command goes on."""
    here, wrong = f"{folder}/here", []
    shutil.copytree(state, here)
    get = ("get", "-r", "/to", f"{folder}/back", "--in", here)
    told = Told(Shim(library, kinds, f"{here}/.sundr/scratch"), number)
    status = said_of(*get, **told.how)[2]
    told.read()
    found = tree_at(f"{folder}/back")
    if status not in (0, 1) or (status == 0 and found != contents) or any(contents.get(name) != found[name] for name in found):
        wrong.append(f"status {status}, {sorted(found)}")
    if status == 1 and kinds == "write":
        wrong.append("what can't be left doesn't stay in memory")
    again = said_of(*get)
    if again[2] != 0 or tree_at(f"{folder}/back") != contents:
        wrong.append(f"again: {again}, {sorted(tree_at(f'{folder}/back'))}")
    return told, wrong


def gets(at, library):
    team, publics = f"{at}/team", []
    with open(team, "w", encoding="utf-8") as file:
        file.write("sundr team 1\n")
        for name in ("ann", "bob"):
            printed, _, _ = said_of("keygen", "--out", f"{at}/{name}.key", "--height", 10, "--width", 4)
            file.write(f"{name} {printed[0].decode()}\n")
            publics.append(f"{at}/{name}.key.pub")
    contents = {str(n): os.urandom(LEFT_SIZE) for n in range(LEFT_FILES)}
    os.mkdir(f"{at}/from")
    for name, data in contents.items():
        with open(f"{at}/from/{name}", "wb") as file:
            file.write(data)
    port = free_port()
    with serving.Running(["serve", "--port", port, "--workers", RUNS_AT_ONCE + 2, "--capacity", 1000, *publics]) as server:
        server.told.next()
        for name in ("ann", "bob"):
            made = said_of("init", "--server", f"127.0.0.1:{port}", "--team", team, "--user", name, "--key", f"{at}/{name}.key", f"{at}/{name}")
            yield f"{name}_has_a_folder: {made}", made[2] == 0
        put = said_of("put", "-r", f"{at}/from", "/to", "--in", f"{at}/ann")
        yield f"ann_puts: {put}", put[2] == 0
        looks = said_of("ls", "/", "--in", f"{at}/bob")
        yield f"bob_looks: {looks}", looks[2] == 0
        for kinds in ("write", "read", "growth"):
            yield from each(f"a_{kinds}_of_the_scratch", at,
                            lambda folder, number, kinds=kinds: get_fails(library, kinds, f"{at}/bob", contents, folder, number), MOST_GETS)


# ---- memory

NO_MEMORY = b"no 30 NoMemory"


def is_want_of_memory(ended, wanted):
    """Whether a run ended since it had no memory, or a link had none, and said so, and printed no more than a front of what it might."""
    printed, told, status = ended
    is_said = any(it in line for line in [*told, *printed[-1:]] for it in (b"memory", b"30 NoMemory", b"link to the server failed", b"43 LinkFailed"))
    lines = printed[:-1] if printed[-1:] and printed[-1].startswith(b"no ") else printed
    if lines[-1:] and re.fullmatch(rb"at [0-9]+", lines[-1]) and printed[-1] == NO_MEMORY:
        lines = lines[:-1]
    return status == 1 and is_said and lines == wanted[:len(lines)]


# Lines of user 0 behind a `mkdir /d` of user 1, each twice: what the first answers, each `ok` for a commit, and what it answers where it was
# carried out before. The first two are a take and an operation.
PLANNED = (
    (b"create /d/f", [b"ok 3", b"ok 4"], [b"no 19 Exists"]),
    (b"rename /d/f /f", [b"ok 5", b"ok 6"], [b"no 18 NoName"]),
    (b"create d", [b"no 29 BadPath"], [b"no 29 BadPath"]),
    (b"remove /x", [b"no 18 NoName"], [b"no 18 NoName"]),
    (b"ls /", [b"d G0:2", b"f G0:3"], [b"d G0:2", b"f G0:3"]),
    (b"cat /f 0 9", [b""], [b""]),
    (b"tidy", [b"ok 7"], []))
IN_THE_END = [b"d G0:2", b"f G0:3"]
MAKES = ((b"create /d/f", 4), (b"rename /d/f /f", 6), (b"tidy", 7))  # and how many commits there are then
COMMITS = 7


def answers(wanted_at=None, told=0, made=0):
    """What the lines answer, where memory is wanting at one of them (a line of PLANNED and whether it is its second time) with so many of
    its commits told, and so many made."""
    lines = []
    for n, (_, first, again) in enumerate(PLANNED):
        if wanted_at == (n, False):
            lines += [*first[:told], NO_MEMORY, *(first[made:] if first[made:] and first[0].startswith(b"ok ") else again)]
        elif wanted_at == (n, True):
            lines += [*first, NO_MEMORY]
        else:
            lines += first + again
    return lines


def may_be_answered(is_warned):
    """All that the lines may answer where memory is wanting at one of them, or at none. A commit may be stored where there is none to take
    it: then it isn't told, but that the command may have been carried out is (a warning), and the next line takes it."""
    places = [(n, again, told, made) for n, (_, first, _) in enumerate(PLANNED) for again in (False, True)
              for told in range(len(first) if first[0].startswith(b"ok ") and not again else 1) for made in range(told, told + 1 + is_warned)]
    return [answers(), *(answers((n, again), told, made) for n, again, told, made in places)]


def client_grows(room, library, folder, number):
    wrong, script = [], b"".join((line + b"\n") * 2 for line, _, _ in PLANNED)
    for user in (0, 1):
        with open(f"{folder}/key{user}", "wb") as file:
            file.write(room.keys[user].file())
    told = Told(Shim(library, "growth"), number)
    with serving.Server(room, workers=2, port=free_port()) as server:
        room.run(server.port, 1, b"mkdir /d\n", key=f"{folder}/key1")
        words = room.words(server.port, 0, key=f"{folder}/key0")
        with serving.Running(words, **told.how) as client:
            client.write(script)
            ended = client.end()
        told.read()
        printed = ended[0]
        may_be = may_be_answered("wanting" in client.asides)
        if ended[2] == 0 and printed not in may_be:
            wrong.append(f"{printed} {client.asides}")
        if ended[2] != 0 and not any(is_want_of_memory(ended, it) for it in may_be):
            wrong.append(f"ended: {ended}")
        there = len(shown(server.port))
        left = [line for line, before in MAKES if there < before]
        with serving.Running(words) as client:
            client.write(b"\n".join([*left, b"ls /", b""]))
            again = client.end()
        if again[2] != 0 or again[0] != [b"ok %d" % n for n in range(there + 1, COMMITS + 1)] + IN_THE_END:
            wrong.append(f"again, with {there} commits: {again}")
    return told, wrong


GOING_ON = ("create", "undo", "rekey", "create")  # what its lines make, one each


def goes_on(room, library, kinds, folder, number):
    """Lines that undo, save and go on with another key: what is told as stored is there, what is saved is a log, no leaf signs twice, and
    the client goes on with the key that its user has by then."""
    wrong, keys, saved = [], [f"{folder}/key", f"{folder}/other"], f"{folder}/saved"
    for path, key in zip(keys, (room.keys[0], logs.key_of("goes on", width=4))):
        with open(path, "wb") as file:
            file.write(key.file())
    told = Told(Shim(library, kinds), number)
    with serving.Server(room, workers=2, port=free_port()) as server:
        with serving.Running(room.words(server.port, 0, key=keys[0]), cwd=folder, **told.how) as client:
            client.write(b"mkdir /a\nundo_last\nsave saved\nrekey other\nmkdir /b\n")
            printed, said, status = client.end()
        told.read()
        if not is_settled(server.port):
            wrong.append("the turn isn't given back")
        made = [audit_model.change_in(item)[0] for _, item in shown(server.port)]
        stored = [int(line[3:]) for line in printed if line.startswith(b"ok ")]
        rest = iter(GOING_ON)
        if status not in (0, 1) or stored != sorted(set(stored)) or not all(n <= len(made) and made[n - 1] in rest for n in stored):
            wrong.append(f"status {status}, {printed}, {said}, {made}")
        if os.path.exists(saved) and serving.audit(room, saved)[2] != 0:
            wrong.append(f"saved: {serving.audit(room, saved)}")
        with serving.Running(room.words(server.port, 0, key=keys["rekey" in made])) as client:
            client.write(b"mkdir /z\n")
            again = client.end()
        if again[0] != [b"ok %d" % (len(made) + 1)] or again[2] != 0:
            wrong.append(f"again: {again}, {made}")
        leaves, at = [leaf_of(commit) for commit, _ in shown(server.port)], made.index("rekey") + 1 if "rekey" in made else len(made)
        if len(set(leaves[:at])) < at or len(set(leaves[at:])) < len(leaves) - at:
            wrong.append(f"leaves {leaves}, {made}")
    return told, wrong


def is_like(ended, wanted):
    """Whether a run ended as it was to, but that it may say that a file can't be read, as a key that another run has."""
    lines = [(line, other) for line, other in zip(ended[0], wanted[0]) if b"can't be read" not in line + other]
    return ended[1:] == wanted[1:] and len(ended[0]) == len(wanted[0]) and all(line == other for line, other in lines)


def runs_again(library, words, wanted, folder, number, kinds="growth"):
    """A program that changes nothing prints the same as without a fault, or says that memory is wanting, or that its link failed, and ends;
    and then the same again."""
    wrong, told = [], Told(Shim(library, kinds), number)
    with serving.Running(words, cwd=folder, **told.how) as running:
        ended = running.end()
    told.read()
    if not is_want_of_memory(ended, wanted[0]) and not is_like(ended, wanted):
        wrong.append(f"{ended}")
    again = said_of(*words)
    if not is_like(again, wanted):
        wrong.append(f"again: {again}, and before {wanted}")
    return told, wrong


def audits_grow(room, library, at):
    """An audit of a good log, of one whose second commit has a wrong i-handle of group 0, and of one whose third is shown again."""
    good = room.log(SCRIPT, form=4)
    wrong_handle, again = room.log("0 create G0:1 a U0:2", form=4), [*good.records[:3], good.records[2]]
    version = wrong_handle.version(1, ("take", ("G", 0, 1), 1))
    version.groups = [(group, bytes(32)) for group, _ in version.groups]
    bad = [*wrong_handle.records, (wrong_handle.sign(version), logs.item_of(("take", ("G", 0, 1), 1)))]
    for name, records, answer in (("good", good.records, [b"ok 6"]), ("bad", bad, [b"at 2", b"no 38 WrongHandle G0"]),
                                  ("shown_again", again, [b"at 4", b"no 34 WrongPrev 3"])):
        path = room.file(logs.log_bytes(records))
        words = ["audit", "--log", path, *room.publics]
        wanted = said_of(*words)
        yield f"the_audit_of_a_{name}_log: {wanted}", wanted[0] == answer
        yield from each(f"a_growth_of_an_audit_of_a_{name}_log", at,
                        lambda folder, number, words=words, wanted=wanted: runs_again(library, words, wanted, folder, number))


def key_is_made(library, folder, number):
    """A key is made whole, and its public key beside it, or the run ends and says why; the same once more makes one."""
    wrong, told = [], Told(Shim(library, "growth"), number)
    words = ["keygen", "--out", f"{folder}/key", "--height", 5, "--width", 8]
    with serving.Running(words, **told.how) as running:
        ended = running.end()
    told.read()
    sizes = [os.path.getsize(it) if os.path.exists(it) else 0 for it in (f"{folder}/key", f"{folder}/key.pub")]
    is_right = sizes == KEY_SIZES if ended[2] == 0 else is_want_of_memory(ended, []) and sizes in ([0, 0], KEY_SIZES)
    if not is_right:
        wrong.append(f"{ended}, sizes {sizes}")
    again = said_of(*words)
    if again[2] != 0 or [os.path.getsize(it) for it in (f"{folder}/key", f"{folder}/key.pub")] != KEY_SIZES:
        wrong.append(f"again: {again}")
    return told, wrong


KEY_SIZES = [64, 56]
ASKING = (["ls", "-l", "/"], ["cat", "/to/f1"], ["history", "-n", "4"], ["show", "1"], ["status"], ["undo", "--why", "1"])  # a server
READING = (*ASKING, ["verify"])


def readings_fail(room, library, at):
    """Commands of people that commit nothing: where memory is wanting, and where their link fails."""
    team, here = f"{at}/team", f"{at}/ann"
    with open(team, "w", encoding="utf-8") as file:
        file.write("sundr team 1\n" + "".join(f"{name} {public.hex()}\n" for name, public in zip(("ann", "bob"), room.public_keys)))
    os.mkdir(f"{at}/from")
    for n in (1, 2):
        with open(f"{at}/from/f{n}", "wb") as file:
            file.write(bytes([48 + n]) * 3000 + b"\n")
    with serving.Server(room, workers=RUNS_AT_ONCE + 2, port=free_port(), sessions=100_000) as server:
        made = said_of("init", "--server", f"127.0.0.1:{server.port}", "--team", team, "--user", "ann", "--key", room.key_files[0], here)
        put = said_of("put", "-r", f"{at}/from", "/to", "--in", here)
        yield f"a_folder_with_two_files: {made} {put}", made[2] == put[2] == 0
        faults = [*((reading, "growth") for reading in READING), *itertools.product(ASKING, ("write", "read"))]
        for reading, kinds in faults:
            def scenario(folder, number, reading=reading, kinds=kinds):
                shutil.copytree(here, f"{folder}/here")
                words = [*reading, "--in", f"{folder}/here"]
                return runs_again(library, words, said_of(*words), folder, number, kinds)
            what = reading[0] if kinds == "growth" else f"the_link_of_{reading[0]}"
            yield from each(f"a_{kinds}_of_{what}", at, scenario, sure=0 if kinds == "read" else None)


def growths(at, library):
    room = serving.Room(at)
    yield from each("a_growth_of_a_client", at, lambda folder, number: client_grows(room, library, folder, number))
    yield from each("a_growth_of_a_client_that_goes_on", at, lambda folder, number: goes_on(room, library, "growth", folder, number))
    yield from audits_grow(room, library, at)
    yield from each("a_growth_where_a_key_is_made", at, lambda folder, number: key_is_made(library, folder, number))
    yield from readings_fail(room, library, at)


PARTS = (store, keys, links, puts, gets, growths)


def main():
    global runs_of_a_kind
    if not tally.is_there("failing", serving.PROGRAM[0]):
        return 1
    if not shutil.which("cc"):
        return tally.told("failing", {"there is no C compiler": False})
    wanted, results = sys.argv[1:], {}
    if wanted[:1] == ["--runs"]:
        runs_of_a_kind, wanted = int(wanted[1]), wanted[2:]
    for part in PARTS:
        if wanted and part.__name__ not in wanted:
            continue
        started = time.monotonic()
        with tempfile.TemporaryDirectory() as at:
            results.update(part(at, compiled(at)))
        if wanted:
            print(f"failing: {part.__name__} took {time.monotonic() - started:.1f} s")
    return tally.told("failing", results)


if __name__ == "__main__":
    sys.exit(main())
