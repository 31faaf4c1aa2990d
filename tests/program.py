#!/usr/bin/env python3
"""Tries the built program: what it prints and its exit status, on the examples, on command lines and faults of each kind,
on keys that other implementations know, on the scripts of desk_scripts.py, on streams that fail, on the deepest directory with
little stack, and on scripts by chance against the second desk of desk_model.py.

usage: program.py [--chance COUNT [LINES]]    with --chance so many scripts by chance are tried, and nothing else

SUNDR names another program to try. Prints a line for each case that isn't as it should be, and last 'N passed, M failed'.
"""
import os
import pty
import random
import re
import resource
import socket
import subprocess
import sys
import tempfile

import client_model
import desk_model
import desk_scripts
import lms_known
import serving
import tally

HERE = os.path.dirname(os.path.abspath(__file__))
TOP = os.path.dirname(HERE)
PROGRAM = os.environ.get("SUNDR", f"{TOP}/crates/sundr/out/sundr")
CHANCE_SCRIPTS, CHANCE_LINES = 60, 120


NEXT_KEY = "0000000500000004" + 96 * "0"
TWO_TOGETHER = "0 batch create G0:1 a U0:2 + create G0:1 b U0:3\nversions\n"


def keygen(height, width, entropy="entropy", out="key"):
    return ["keygen", "--entropy", entropy, "--out", out, "--height", str(height), "--width", str(width)]


def served(*more):
    return ["serve", "--port", "1", "--workers", "1", "--capacity", "1", *more, "nothing"]


# name: (arguments, standard input, what is printed or a tuple of parts of it, exit status)
CASES = {
    "no_lines": (["desk"], "", "", 0),
    "three_users": (
        ["desk", "--users", "3"], "1 take G0:1 1\n2 take G0:1 1\n3 take G0:1 1\nversions\n",
        "ok 1\nok 2\nno 12 NoUser 3\nU0=0 U1=1 U2=1 G0=2 G1=0\n", 0),
    "two_users_without_a_word": (["desk"], "versions\n", "U0=0 U1=0 G0=0 G1=0\n", 0),
    "one_user": (["desk", "--users=1"], "versions", "U0=0 G0=0 G1=0\n", 0),
    "most_users": (["desk", "--users=64"], "63 take G0:1 1\n", "ok 1\n", 0),
    "the_first_format": (["desk", "--format", "1"], "0 drop 1\n", "no 44 OldFormat\n", 0),
    "the_second_format": (["desk", "--users", "3", "--format=2"], "2 drop 1\n", "no 14 NoFile U2:1\n", 0),
    "the_second_format_without_a_word": (["desk"], "0 drop 1\n", "no 17 Held\n", 0),
    "the_third_format": (["desk", "--format", "3"], f"1 rekey {NEXT_KEY}\nversions\n", "ok 1\nU0=0 U1=1 G0=0 G1=0\n", 0),
    "the_third_format_without_a_word": (["desk"], f"0 rekey {NEXT_KEY}\n1 rekey {NEXT_KEY}\n", "ok 1\nno 36 KeyReuse\n", 0),
    "the_third_format_has_no_batch": (["desk", "--format", "3"], TWO_TOGETHER, "no 44 OldFormat\nU0=0 U1=0 G0=0 G1=0\n", 0),
    "the_fourth_format": (["desk", "--format=4"], TWO_TOGETHER, "ok 1\nU0=1 U1=0 G0=0 G1=0\n", 0),
    "the_fourth_format_without_a_word": (["desk"], TWO_TOGETHER, "ok 1\nU0=1 U1=0 G0=0 G1=0\n", 0),
    "no_format": (["desk", "--format", "0"], "", "", 2),
    "a_later_format": (["desk", "--format", "5"], "", "", 2),
    "a_format_that_is_no_number": (["desk", "--format", "SV02"], "", "", 2),
    "a_bad_line": (["desk"], "ls G0:1\n\nhello\nls G0:1\n", "line 3: bad\n", 2),
    "no_command": ([], "", "", 2),
    "another_command": (["chair"], "", "", 2),
    "a_word_too_many": (["desk", "more"], "", "", 2),
    "no_users": (["desk", "--users", "0"], "", "", 2),
    "too_many_users": (["desk", "--users", "65"], "", "", 2),
    "users_that_are_no_number": (["desk", "--users", "x"], "", "", 2),
    "users_without_a_number": (["desk", "--users"], "", "", 2),
    "another_height": (keygen(6, 8), "", "", 2),
    "another_width": (keygen(5, 2), "", "", 2),
    "a_key_of_no_words": (["keygen"], "", "", 2),
    "a_key_without_a_width": (keygen(5, 8)[:-2], "", "", 2),
    "a_key_of_no_entropy": (keygen(5, 4, entropy="nothing"), "", "", 1),
    "a_key_in_no_folder": (keygen(5, 4, out="nowhere/key"), "", "", 1),
    "a_copy_of_no_words": (["backup"], "", "", 2),
    "a_copy_to_nowhere": (["backup", "--port", "1", "key"], "", "", 2),
    "a_copy_without_a_port": (["backup", "--to", "copy", "key"], "", "", 2),
    "a_copy_at_port_0": (["backup", "--port", "0", "--to", "copy", "key"], "", "", 2),
    "a_copy_at_a_large_port": (["backup", "--port", "65536", "--to", "copy", "key"], "", "", 2),
    "a_copy_of_no_users": (["backup", "--port", "1", "--to", "copy"], "", "", 2),
    "a_copy_of_too_many_users": (["backup", "--port", "1", "--to", "copy", *["key"] * 65], "", "", 2),
    "a_copy_with_no_such_key": (["backup", "--port", "1", "--to", "copy", "nothing"], "", "", 1),
    "stops_with_a_value": (["client", "--port", "1", "--user", "0", "--key", "key", "--stop=yes", "nothing"], "", "", 2),
    "stops_without_such_a_key": (["client", "--port", "1", "--user", "0", "--key", "nothing", "--stop", "nothing"], "", "", 1),
    "a_cache_of_nothing": (served("--store", "store", "--cache", "0"), "", "", 2),
    "too_large_a_cache": (served("--store", "store", "--cache", "1000001"), "", "", 2),
    "a_cache_that_is_no_number": (served("--store", "store", "--cache", "x"), "", "", 2),
    "a_cache_without_a_store_and_no_such_key": (served("--cache", "256"), "", "", 1),
    "no_idle_minutes": (served("--idle-minutes", "0"), "", "", 2),
    "too_many_idle_minutes": (served("--idle-minutes", "1441"), "", "", 2),
    "idle_minutes_and_no_such_key": (served("--idle-minutes", "1440"), "", "", 1),
    "a_cache_and_no_such_key": (served("--store", "store", "--cache", "1000000"), "", "", 1),
    "help": (["--help"], "", ("desk", "keygen", "audit", "serve", "client", "backup"), 0),
    "help_of_the_desk": (["desk", "--help"], "", ("undo_last", "drop BODY", "rekey", "batch", "--users", "--format"), 0),
    "help_of_keys": (["keygen", "--help"], "", ("--entropy <FILE>",), 0),
    "help_of_the_server": (["serve", "--help"], "", ("--port", "--workers", "--capacity", "--sessions", "--store", "--cache"), 0),
    "help_of_backups": (["backup", "--help"], "", ("--port", "--to", "ok N new M"), 0),
    "help_of_the_client": (["client", "--help"], "", ("undo_last", "save FILE", "--user", "--key", "--log", "--tries", "--leaves-ahead", "--next-key", "rekey FILE", "--stop", "--keep-tree", *["--batch"] * serving.CLIENT_BATCHES), 0),
    "version": (["-V"], "", "sundr 0.1.0\n", 0),
}

# entropy of other lengths than 48 bytes makes no key
WRONG_LENGTHS = (0, 15, 16, 47, 49, 200)

# the key file of the bytes 00 01 .. 2f: its mark, the types of height 5 and width 4, the bytes, and the next leaf
KEY_FILE = b"SK01" + bytes([0, 0, 0, 5, 0, 0, 0, 3]) + bytes(range(48)) + bytes(4)


def run(arguments, given="", folder="/", **how):
    """Returns what the program prints, what it tells, and its status."""
    streams = {"stdout": subprocess.PIPE, **how}
    if "stdin" not in how:
        streams["input"] = given
    ended = subprocess.run(
        [PROGRAM, *arguments], cwd=folder, stderr=subprocess.PIPE, text=True, errors="replace", timeout=60, **streams)
    return ended.stdout, ended.stderr, ended.returncode


def cases(room):
    """Each case by its name, and whether the program does what it should."""
    for name, length in [("entropy", 48)] + [(f"bytes_{length}", length) for length in WRONG_LENGTHS]:
        with open(f"{room}/{name}", "wb") as file:
            file.write(bytes(n % 256 for n in range(length)))
    for name, (arguments, script, wanted, wanted_status) in CASES.items():
        printed, told, status = run(arguments, script, room)
        is_printed = printed == wanted if isinstance(wanted, str) else all(part in printed for part in wanted)
        is_told = (told != "") == (wanted_status != 0) and not told.endswith("\n\n")
        yield name, is_printed and is_told and status == wanted_status
    for length in WRONG_LENGTHS:
        _, told, status = run(keygen(5, 4, entropy=f"bytes_{length}", out="none"), folder=room)
        yield f"a_key_of_{length}_bytes", status == 1 and "48" in told and not os.path.exists(f"{room}/none")


def examples():
    for file in sorted(os.listdir(f"{TOP}/examples")):
        if file.endswith(".desk"):
            name = file.removesuffix(".desk")
            script, printed = (open(f"{TOP}/examples/{name}.{end}").read() for end in ("desk", "out"))
            yield f"example_{name}", run(["desk"], script) == (printed, "", 0)


def keys(room):
    for height, width in ((5, 4), (5, 8), (10, 4), (10, 8)):
        known = lms_known.KNOWN[f"W{width}_H{height}_KEY"].hex()
        yield f"a_key_of_{height}_{width}", run(keygen(height, width), folder=room) == (known + "\n", "", 0)
        yield f"its_public_key_of_{height}_{width}", open(f"{room}/key.pub", "rb").read().hex() == known
    made = [run(["keygen", "--out", "other", "--height", "5", "--width", "4"], folder=room) for _ in range(2)]
    is_line = all(re.fullmatch("0000000500000003[0-9a-f]{96}\n", printed) and status == 0 for printed, told, status in made)
    yield f"keys_of_the_systems_entropy: {made}", is_line and made[0][0] != made[1][0]
    run(keygen(5, 4), folder=room)
    yield "the_key_file_is_whole", open(f"{room}/key", "rb").read() == KEY_FILE


def help_texts(room):
    """Lines of at most 80 columns (but for a usage, which `clap` never breaks), each command and refusal that a desk or a
    client can answer, and the kit that is there."""
    texts = {word: run([word, "--help"][not word:])[0] for word in ("", "desk", "keygen", "audit", "serve", "client", "backup")}
    for words, text in texts.items():
        wide = [line for line in text.split("\n") if len(line) > 80 and not line.startswith("Usage: ")]
        yield f"help_of_{words or 'sundr'}_fits: {wide}", wide == []
    source = open(f"{TOP}/crates/su_bytes/src/refusals.rt", encoding="utf-8").read()
    numbers = {int(number): name for name, number in re.findall(r"Refusal::(\w+)(?:\(\.\.\))? => (\d+),", source)}
    numbers |= {38: "WrongHandle", 39: "Change", 40: "OwnMissing"}  # refusals of a view alone
    listed, of_client = ({int(n): name for n, name in re.findall(r"(?m)^ {2,3}(\d+) (\w+)", texts[it])} for it in ("desk", "client"))
    yield "help_lists_the_refusals", listed == {n: numbers[n] for n in [2, 3, 9, *range(12, 29), 30, 36, 44]}
    wrong = {n: name for n, name in of_client.items() if numbers.get(n) != name}
    missing = {8, 9, 10, 18, 29, 31, 37, 36, 39, 40, 43, 45} - set(of_client)
    yield f"help_lists_the_refusals_of_a_client: {wrong} {missing}", not wrong and not missing
    for command in client_model.FORMS:
        yield f"help_has_{command.decode()}", re.search(rf"(?m)^ +{command.decode()}\b", texts["client"]) is not None
    logic = subprocess.run(["rt", "version"], capture_output=True, text=True).stdout.split()[-1]
    yield "version_tells_the_logic", run(["--version"])[0] == f"sundr 0.1.0\nproved with a Rattle kit of logic {logic}\n"


def faults(room):
    """Streams that fail: status 1 and a line that says which, but nothing where the reader has gone."""
    with open("/dev/full", "w") as full:
        for name, arguments in (("help", ["--help"]), ("desk", ["desk"]), ("key", keygen(5, 4))):
            _, told, status = run(arguments, "versions\n", room, stdout=full)
            yield f"a_full_disk_for_{name}", status == 1 and told.startswith("sundr: writing") and "No space left" in told
    for name, arguments in (("help", ["--help"]), ("desk", ["desk"])):
        reader, writer = os.pipe()
        os.close(reader)
        yield f"a_reader_gone_from_{name}", run(arguments, "versions\n", stdout=writer)[1:] == ("", 1)
        os.close(writer)
    folder = os.open("/", os.O_RDONLY)
    printed, told, status = run(["desk"], stdin=folder)
    os.close(folder)
    yield "a_folder_as_script", (printed, status) == ("", 1) and "sundr: reading the script: Is a directory" in told
    no_text = subprocess.run([PROGRAM, b"\xff"], capture_output=True)
    yield "an_argument_that_is_no_text", no_text.returncode == 2 and b"no text" in no_text.stderr


def at_a_keyboard(room):
    """A prompt where somebody types, on a terminal."""
    terminal, end = pty.openpty()
    started = subprocess.Popen([PROGRAM, "desk"], cwd=room, stdin=end, stdout=end, stderr=end)
    os.close(end)
    os.write(terminal, b"versions\n\x04")
    seen = serving.typed(terminal)
    yield "a_prompt_for_each_line", seen.count(b"> ") == 2 and b"U0=0 U1=0 G0=0 G1=0" in seen and started.wait() == 0
    told = run(["desk"], "versions\nhello\n")[1]
    yield "why_a_line_is_bad", told == "sundr: line 2: an unknown command\n"


def by_chance(room, count=CHANCE_SCRIPTS, lines=CHANCE_LINES):
    """Scripts by chance in all formats, against the second desk; of every other one half of the lines are undos, at any depth."""
    model = [sys.executable, "-B", f"{HERE}/desk_model.py", room, str(count), str(lines)]
    subprocess.run(model, check=True)
    for n in range(count):
        script, arguments, wanted = (open(f"{room}/chance_{n}{end}").read() for end in ("", ".args", ".stdout"))
        yield f"chance_{n}", run(arguments.split(), script) == (wanted, "", 0)


def scripts(_):
    """Scripts with their answers."""
    yield from desk_scripts.digests_known()
    for name, case in desk_scripts.cases():
        ended = subprocess.run([PROGRAM, *case.arguments], input=case.script, capture_output=True, timeout=60)
        yield f"script_{name}", case.is_so(ended.stdout, ended.stderr, ended.returncode)


# a script, and what is printed of it
SCRIPT, ANSWERS = b"ls U9:9\n5 undo 1\n0 undo 9\n", b"no 14 NoFile U9:9\nno 12 NoUser 5\nno 24 NoOperation 9\n"


def byte_by_byte():
    """What a desk prints of the script where each read gives it one byte; and its status."""
    reader, writer = os.pipe2(os.O_DIRECT)  # a write is a packet, of which a read gets one
    with subprocess.Popen([PROGRAM, "desk"], stdin=reader, stdout=subprocess.PIPE, stderr=subprocess.PIPE) as started:
        os.close(reader)
        for byte in SCRIPT:
            os.write(writer, bytes([byte]))
        os.close(writer)
        return *started.communicate(timeout=60), started.returncode


def cut_off(count):
    """The same where reading fails after so many bytes."""
    ours, given = socket.socketpair()
    ours.sendall(SCRIPT[:count])
    given.sendall(b"!")  # what a socket that is closed hasn't read resets the link
    ours.close()
    ended = subprocess.run([PROGRAM, "desk"], stdin=given, capture_output=True, timeout=60)
    given.close()
    return ended.stdout, ended.stderr, ended.returncode


def filled_up(room, count):
    """The same where writing fails after so many bytes."""
    with open(f"{room}/printed", "w+b") as printed:
        limited = {"preexec_fn": lambda: resource.setrlimit(resource.RLIMIT_FSIZE, (count, count)), "restore_signals": False}
        ended = subprocess.run([PROGRAM, "desk"], input=SCRIPT, stdout=printed, stderr=subprocess.PIPE, timeout=60, **limited)
        printed.seek(0)
        return printed.read(), ended.stderr, ended.returncode


def failing_streams(room):
    """Readers that give a byte at a time, and readers and writers that fail somewhere: what was printed is a front of the answers."""
    yield "a_reader_may_give_a_byte_at_a_time", byte_by_byte() == (ANSWERS, b"", 0)
    for count in range(len(SCRIPT) + 1):
        printed, told, status = cut_off(count)
        is_told = b"sundr: reading the script: Connection reset" in told
        yield f"a_reader_that_fails_is_a_fault_{count}: {printed} {told}", ANSWERS.startswith(printed) and is_told and status == 1
    for count in range(len(ANSWERS)):
        printed, told, status = filled_up(room, count)
        is_told = told.startswith(b"sundr: writing") and b"File too large" in told
        yield f"a_writer_that_fails_is_a_fault_{count}: {printed} {told}", printed == ANSWERS[:count] and is_told and status == 1
    yield "a_writer_with_room_for_all", filled_up(room, len(ANSWERS)) == (ANSWERS, b"", 0)


def deepest_names():
    """Names each of which parts from 255 letters a at another bit, in some order, and those letters; and the digest of a
    directory that leads from the names to the files 2 and on of user 0."""
    letters = b"a" * 255
    apart = {9 * n: letters[:n] for n in range(1, 255)}
    for n in range(255):
        for bit in range(8):
            apart[9 * n + 1 + bit] = letters[:n] + bytes([letters[n] ^ (128 >> bit)])
    names = [letters, *apart.values()]
    random.Random(0).shuffle(names)
    files = {name: desk_model.user_file(0, number) for number, name in enumerate(names, 2)}

    def leaf(name):
        return desk_model.digest_of([(desk_model.name_bits(name), name, desk_model.file_bytes(files[name]))])

    digest, bits = leaf(letters), desk_model.name_bits(letters)
    for place in sorted(apart, reverse=True):
        sides = [digest, leaf(apart[place])]
        if bits[place] == "1":
            sides.reverse()
        digest = desk_model.sha256(b"\1" + place.to_bytes(2, "big") + b"".join(sides))
    return names, digest


def deep(_):
    """The deepest directory that there can be, with 2 MiB of stack: made, copied and undone, and let go as it stands."""
    names, digest = deepest_names()
    count = len(names)
    root = desk_model.file_bytes(desk_model.group_file(0, 1)) + bytes([1, 1]) + bytes(4)
    inodes = {number: desk_model.inode_digest((desk_model.user_file(0, number), 1, b"")) for number in range(2, count + 2)}
    inodes[1] = desk_model.sha256(b"\3" + root + digest)
    handle = desk_model.digest_of([(desk_model.number_bits(n), n.to_bytes(4, "big"), d) for n, d in inodes.items()]).hex()
    creates = "".join(f"0 create G0:1 {name.decode('latin-1')} U0:{n}\n" for n, name in enumerate(names, 2))
    made = "".join(f"ok {n}\n" for n in range(1, count + 1))
    undone = "".join(f"ok {n}\n" for n in range(count + 1, 2 * count + 1))
    stack = {"encoding": "latin-1", "preexec_fn": lambda: resource.setrlimit(resource.RLIMIT_STACK, (2 ** 21, 2 ** 21))}
    yield "the_deepest_names", run(["desk"], creates + "ihandle U0\n", **stack) == (made + handle + "\n", "", 0)
    script = "mark\n" + creates + "0 undo_last\n" * count + "same\n"
    yield "the_deepest_names_undone", run(["desk"], script, **stack) == (made + undone + "same\n", "", 0)


def main():
    if not tally.is_there("program", PROGRAM):
        return 1
    with tempfile.TemporaryDirectory() as room:
        if sys.argv[1:2] == ["--chance"]:
            return tally.told("program", dict(by_chance(room, *map(int, sys.argv[2:4]))))
        results = dict(examples())
        for part in (cases, keys, help_texts, faults, scripts, failing_streams, at_a_keyboard, deep, by_chance):
            results.update(part(room))
    return tally.told("program", results)


if __name__ == "__main__":
    sys.exit(main())
