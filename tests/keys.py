#!/usr/bin/env python3
"""Tries what `sundr keygen` leaves on the disk: whole pairs over what stood there, nothing where something else is in the way,
two key makers at once, keys that another process uses, and a key maker that is killed at each of its system calls (by strace;
without it these are skipped).

Prints a line for each case that isn't as it should be, and last 'N passed, M failed'.
"""
import fcntl
import os
import random
import re
import shutil
import stat
import subprocess
import sys
import tempfile

import tally

TOP = os.path.dirname(os.path.dirname(os.path.abspath(__file__)))
PROGRAM = f"{TOP}/crates/sundr/out/sundr"
PAIRS_AT_ONCE = 200

# What a key maker leaves: the pair, and the file by which the processes that use its key take turns.
MADE = ["key", "key.lock", "key.pub"]


class Room:
    """A folder for keys, and entropy beside it."""

    def __init__(self, at):
        self.at, self.made = at, {}
        os.mkdir(f"{at}/keys")

    def path(self, name):
        return f"{self.at}/keys/{name}"

    def clear(self):
        shutil.rmtree(self.path(""))
        os.mkdir(self.path(""))

    def entropy(self, seed):
        path = f"{self.at}/entropy_{seed}"
        with open(path, "wb") as file:
            file.write(random.Random(seed).randbytes(48))
        return path

    def words(self, seed, out="key"):
        return [PROGRAM, "keygen", "--entropy", self.entropy(seed), "--out", self.path(out), "--height", "5", "--width", "4"]

    def keygen(self, seed, out="key", **how):
        return subprocess.run(self.words(seed, out), stdin=subprocess.DEVNULL, capture_output=True, text=True, **how)

    def pair(self, seed):
        """Returns both files of the key of that entropy, as a lone run makes them in a folder of its own."""
        if seed not in self.made:
            with tempfile.TemporaryDirectory() as alone:
                other = Room(alone)
                other.keygen(seed)
                self.made[seed] = (other.read("key"), other.read("key.pub"))
        return self.made[seed]

    def read(self, name):
        try:
            with open(self.path(name), "rb") as file:
                return file.read()
        except FileNotFoundError:
            return None

    def standing(self):
        return self.read("key"), self.read("key.pub")

    def names(self):
        return sorted(os.listdir(self.path("")))

    def write(self, name, data):
        with open(self.path(name), "wb") as file:
            file.write(data)


def modes(room):
    for mask in (0o000, 0o022, 0o077, 0o777):
        room.clear()
        made = room.keygen(1, umask=mask)
        key, public = (os.stat(room.path(name)).st_mode & 0o777 for name in ("key", "key.pub"))
        right = (made.returncode, key, public) == (0, 0o600 & ~mask, 0o644 & ~mask)
        yield f"modes_under_umask_{mask:03o}", right and room.standing() == room.pair(1)
    room.clear()
    room.write("key", b"old")
    room.write("key.pub", b"old")
    os.chmod(room.path("key"), 0o666)
    printed = room.keygen(1).stdout
    yield "over_an_old_pair", room.standing() == room.pair(1) and room.names() == MADE
    yield "an_empty_lock_for_its_owner", (room.read("key.lock"), os.stat(room.path("key.lock")).st_mode & 0o777) == (b"", 0o600)
    yield "for_its_owner_over_an_open_file", os.stat(room.path("key")).st_mode & 0o777 == 0o600
    yield "prints_the_public_key", printed == room.pair(1)[1].hex() + "\n"


def in_the_way(room):
    """What is no plain file is refused, and left with all else."""
    makers = {
        "a_folder": os.mkdir, "a_pipe": os.mkfifo, "a_link": lambda path: os.symlink("/etc/hostname", path),
        "a_link_to_nothing": lambda path: os.symlink(room.path("nothing"), path),
        "a_folder_with_files": lambda path: shutil.copytree(f"{TOP}/tests", path),
    }
    if os.geteuid() == 0:
        makers["a_device"] = lambda path: os.mknod(path, 0o600 | stat.S_IFCHR, os.makedev(1, 3))
    for what, make in makers.items():
        for name, other in (("key", "key.pub"), ("key.pub", "key")):
            room.clear()
            room.write(other, b"old")
            make(room.path(name))
            before = os.lstat(room.path(name))
            made = room.keygen(1)
            after = os.lstat(room.path(name))
            is_left = (before.st_ino, before.st_mode) == (after.st_ino, after.st_mode)
            is_told = f"sundr: {room.path(name)} is no plain file" in made.stderr and made.stdout == ""
            is_right = made.returncode == 1 and is_left and is_told and room.names() == ["key", "key.pub"]
            yield f"{what}_at_{name}", is_right and room.read(other) == b"old"


def faults(room):
    """Each says which file, and why; the old pair stays."""
    room.write("key", b"old")
    room.write("key.pub", b"old")
    made = room.keygen(1, "nowhere/key")
    yield "no_folder", made.returncode == 1 and f"the folder {room.path('nowhere')}: No such file or directory" in made.stderr
    made = room.keygen(1, "key/key")
    yield "a_file_as_folder", made.returncode == 1 and "Not a directory" in made.stderr
    made = room.keygen(1, "")
    yield "no_name", made.returncode == 1 and "names no file" in made.stderr
    os.remove(room.entropy(2))
    shorter = room.words(2)
    for length, text in ((0, "has 0 bytes"), (47, "has 47 bytes"), (49, "has more than 48 bytes")):
        with open(shorter[3], "wb") as file:
            file.write(bytes(length))
        made = subprocess.run(shorter, capture_output=True, text=True)
        yield f"entropy_of_{length}", made.returncode == 1 and f"sundr: {shorter[3]} {text}" in made.stderr
    for path, text in (("/nowhere", "No such file or directory"), ("/", "Is a directory"), ("/dev/zero", "more than 48")):
        made = subprocess.run([*shorter[:3], path, *shorter[4:]], capture_output=True, text=True)
        yield f"entropy_in_{path}", made.returncode == 1 and path in made.stderr and text in made.stderr
    limited = ["bash", "-c", 'trap "" XFSZ; ulimit -f 0; exec "$@"', "", *room.words(1)]
    full = subprocess.run(limited, stdout=subprocess.PIPE, stderr=subprocess.PIPE, text=True)
    yield "no_room", full.returncode == 1 and f"writing {room.path('key')}.part." in full.stderr
    yield "faults_leave_the_pair", room.standing() == (b"old", b"old") and room.names() == MADE
    by_pipe = subprocess.run(
        ["bash", "-c", '"$1" keygen --entropy <(cat "$2") --out "$3" --height 5 --width 4', "", PROGRAM, room.entropy(1),
         room.path("key")], capture_output=True, text=True)
    yield "entropy_by_a_pipe", by_pipe.returncode == 0 and room.standing() == room.pair(1)


def at_once(room):
    """Two key makers on one file, many times over: one whole pair stands, and both tell the key that they made."""
    pairs = {room.pair(seed) for seed in range(4)}
    mixed, left, untold = 0, 0, 0
    for n in range(PAIRS_AT_ONCE):
        if n % 10 == 0:
            room.clear()
        seeds = (n % 2, 2 + n % 2)
        both = [subprocess.Popen(room.words(seed), stdout=subprocess.PIPE, stderr=subprocess.PIPE) for seed in seeds]
        printed = [it.communicate()[0] for it in both]
        mixed += room.standing() not in pairs
        left += room.names() != MADE
        told = [room.pair(seed)[1].hex().encode() + b"\n" for seed in seeds]
        untold += printed != told or [it.returncode for it in both] != [0, 0]
    yield f"at_once_{mixed}_of_{PAIRS_AT_ONCE}_mixed", mixed == 0
    yield f"at_once_{left}_left_files", left == 0
    yield f"at_once_{untold}_of_{PAIRS_AT_ONCE}_ended_otherwise", untold == 0


class InUse:
    """Uses a key as a client does, by the lock of the file beside it, until the block ends."""

    def __init__(self, room, how=fcntl.LOCK_EX):
        self.path, self.how = room.path("key.lock"), how

    def __enter__(self):
        self.file = open(self.path, "ab")
        fcntl.flock(self.file, self.how | fcntl.LOCK_NB)

    def __exit__(self, *_):
        self.file.close()


def is_refused(room, status, printed, told):
    return (status, printed) == (1, "") and told.splitlines()[-1] == f"sundr: another process uses the key {room.path('key')}"


def keys_in_use(room):
    """No key maker replaces a key that another process uses, or waits for it; the lock's file stays the same one."""
    room.keygen(1)
    lock = os.stat(room.path("key.lock")).st_ino
    room.write("key.part.7", b"of a run that was stopped")
    for what, how in (("alone", fcntl.LOCK_EX), ("shared", fcntl.LOCK_SH)):
        with InUse(room, how):
            made = room.keygen(2, timeout=60)
        yield f"in_use_{what}_is_refused", is_refused(room, made.returncode, made.stdout, made.stderr)
        yield f"in_use_{what}_is_left", room.standing() == room.pair(1) and room.names() == sorted([*MADE, "key.part.7"])
    with InUse(room):
        both = [subprocess.Popen(room.words(seed), stdout=subprocess.PIPE, stderr=subprocess.PIPE, text=True) for seed in (2, 3)]
        told = [it.communicate() for it in both]
        yield "in_use_by_two_is_refused", all(is_refused(room, it.returncode, *texts) for it, texts in zip(both, told))
        yield "in_use_by_two_is_left", room.standing() == room.pair(1)
        made = room.keygen(2, "other")
        yield "in_use_is_one_key_alone", made.returncode == 0 and room.read("other") == room.pair(2)[0]
    yield "let_go_is_replaced", room.keygen(2).returncode == 0 and room.standing() == room.pair(2)
    yield "the_lock_stays", os.stat(room.path("key.lock")).st_ino == lock
    with InUse(room):
        os.remove(room.path("key"))
        made = room.keygen(3)
    yield "in_use_and_removed_is_refused", is_refused(room, made.returncode, made.stdout, made.stderr)
    yield "in_use_and_removed_is_left", room.standing() == (None, room.pair(2)[1])
    os.remove(room.path("key.lock"))
    os.mkdir(room.path("key.lock"))
    made = room.keygen(3)
    yield "a_folder_as_lock", made.returncode == 1 and f"sundr: locking {room.path('key.lock')}: Is a directory" in made.stderr
    yield "a_folder_as_lock_is_left", room.standing() == (None, room.pair(2)[1])


def a_user_that_is_killed(room):
    """A lock ends with its process, however that ends."""
    room.keygen(1)
    hold = "import fcntl, sys, time; held = open(sys.argv[1]); fcntl.flock(held, fcntl.LOCK_EX); print(flush=True); time.sleep(60)"
    holder = subprocess.Popen([sys.executable, "-c", hold, room.path("key.lock")], stdout=subprocess.PIPE)
    holder.stdout.readline()
    made = room.keygen(2)
    yield "held_by_a_process", is_refused(room, made.returncode, made.stdout, made.stderr)
    holder.kill()
    holder.wait()
    yield "let_go_by_a_kill", room.keygen(2).returncode == 0 and room.standing() == room.pair(2)


def traced(words, *how):
    return subprocess.run(
        ["strace", "-f", "-qq", *how, *words], stdin=subprocess.DEVNULL, capture_output=True, text=True)


def calls_of(room):
    """Returns the system calls of a key maker over an old pair, each with which one of its name it is."""
    log = f"{room.at}/trace"
    room.clear()
    room.keygen(1)
    traced(room.words(1), "-o", log)
    return calls_in(log)


# Calls by which threads begin, wait and end, and find memory. How many there are, and which comes first, differs from run to run,
# so a run can't be disturbed at the same one again; no file is changed at them.
OF_THREADS = {"clone3", "exit", "futex", "madvise", "mmap", "mprotect", "munmap", "rseq", "rt_sigprocmask", "sched_getaffinity",
              "set_robust_list"}


def calls_in(log):
    """Returns the system calls of a trace but for those of threads, each with which one of its name it is."""
    counts = {}
    with open(log, encoding="utf-8") as file:
        for line in file:
            call = re.match(r"(?:\d+ +)?(\w+)\(", line)
            if call and call[1] not in {"execve", "exit_group"} | OF_THREADS:
                counts[call[1]] = counts.get(call[1], 0) + 1
                yield call[1], counts[call[1]]


def disturbed(room, call, which, how):
    """A run over an old pair with one of its calls disturbed. Returns how it ended, which keys stand then, what it left beside
    them, and whether the next run told of that and made its own pair, and nothing else."""
    room.clear()
    room.keygen(1)
    ended = traced(room.words(2), "-o", "/dev/null", "-e", f"inject={call}:{how}:when={which}")
    old, new = room.pair(1), room.pair(2)
    states = {old: "old", new: "new", (old[0], None): "old alone", (new[0], None): "new alone"}
    state = states.get(room.standing(), "mixed")
    left = [it for it in room.names() if it not in MADE]
    is_secret = all(os.stat(room.path(it)).st_mode & 0o77 == 0 for it in left if ".pub" not in it)
    after = room.keygen(3)
    is_told = all(f"removed its {room.path(it)}" in after.stderr for it in left)
    is_mended = after.returncode == 0 and room.standing() == room.pair(3) and room.names() == MADE
    return ended, state, left, is_secret and is_told and is_mended


def kills(room):
    """A kill at each system call leaves the old pair, the new one, or a key alone and the files that tell of it."""
    seen = set()
    for call, which in list(calls_of(room)):
        ended, state, left, is_mended = disturbed(room, call, which, "signal=KILL")
        seen.add(state)
        is_kept = state in ("old", "new") or (state != "mixed" and left != [])
        yield f"killed_at_{call}_{which}: {state}, {left}", ended.returncode in (-9, 137) and is_kept and is_mended
    yield f"killed_leaves_each_state: {sorted(seen)}", seen == {"old", "old alone", "new alone", "new"}


def failures(room):
    """A call that fails is told with the system's reason. The old pair stays, and nothing beside it, up to the removal of the old
    public key (the first `unlink`); from there on it is as after a kill."""
    is_late = False
    for call, which in list(calls_of(room)):
        is_lock = (call, which) in (("flock", 2), ("flock", 3))
        if call not in ("fsync", "statx", "getdents64", "write", "unlink", "rename") and not is_lock:
            continue
        ended, state, left, is_mended = disturbed(room, call, which, "error=EIO")
        is_told = ended.returncode == 1 and "Input/output error" in ended.stderr
        is_kept = state in ("old alone", "new alone", "new") if is_late else (state, left) == ("old", [])
        is_late = is_late or call == "unlink"
        yield f"failed_at_{call}_{which}: {state}, {left}, {ended.stderr}", is_told and is_kept and is_mended


# ---- keys that have signed

KEPT = sorted([*MADE, "key.old", "key.pub.old"])


def sign(room, count):
    """The key as it is once it has signed so often."""
    room.write("key", room.read("key")[:60] + count.to_bytes(4, "big"))
    return room.standing()


def signed_keys(room):
    """A key that has signed stays under another name, and one that was kept so isn't replaced."""
    room.keygen(1)
    signed = sign(room, 5)
    made = room.keygen(2)
    told = f"sundr: the key {room.path('key')} has signed, so it is kept as {room.path('key.old')}\n"
    yield "a_signed_key_is_told", (made.returncode, made.stderr, made.stdout) == (0, told, room.pair(2)[1].hex() + "\n")
    yield "and_kept", (room.read("key.old"), room.read("key.pub.old")) == signed and room.names() == KEPT
    yield "and_replaced", room.standing() == room.pair(2)
    yield "one_that_never_signed_isn't", room.keygen(3).returncode == 0 and room.standing() == room.pair(3) and room.names() == KEPT
    again = sign(room, 1)
    made = room.keygen(4)
    is_told = made.stderr == f"sundr: {room.path('key.old')} is an old key that was kept before: move it elsewhere first\n"
    yield f"a_kept_key_isn't_replaced: {made.stderr}", (made.returncode, made.stdout) == (1, "") and is_told
    yield "and_all_is_left", room.standing() == again and (room.read("key.old"), room.read("key.pub.old")) == signed and room.names() == KEPT


def kills_of_signed(room):
    """A kill at each system call loses no key that has signed, and leaves no public key beside another one's key."""
    room.keygen(1)
    old, new = sign(room, 7), room.pair(2)
    log, seen = f"{room.at}/trace", set()
    traced(room.words(2), "-o", log)
    states = {old: "old", (old[0], None): "old alone", (None, None): "none", (new[0], None): "new alone", new: "new"}
    for call, which in list(calls_in(log)):
        room.clear()
        room.keygen(1)
        sign(room, 7)
        ended = traced(room.words(2), "-o", "/dev/null", "-e", f"inject={call}:signal=KILL:when={which}")
        state = states.get(room.standing(), "mixed")
        seen.add(state)
        is_kept = old[0] in (room.read("key"), room.read("key.old")) and old[1] in (room.read("key.pub"), room.read("key.pub.old"))
        is_right = ended.returncode in (-9, 137) and state != "mixed" and is_kept
        yield f"killed_with_a_signed_key_at_{call}_{which}: {state}, {room.names()}", is_right
    yield f"killed_so_leaves_each_state: {sorted(seen)}", seen == set(states.values())


def main():
    results = {}
    if not tally.is_there("keys", PROGRAM):
        return 1
    parts = [modes, in_the_way, faults, at_once, keys_in_use, a_user_that_is_killed, signed_keys]
    if shutil.which("strace"):
        parts += [kills, failures, kills_of_signed]
    else:
        print("keys: there is no strace, so no key maker is killed, or fails, at each of its calls")
    for part in parts:
        with tempfile.TemporaryDirectory() as at:
            results.update(part(Room(at)))
    return tally.told("keys", results)


if __name__ == "__main__":
    sys.exit(main())
