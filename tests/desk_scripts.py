"""Scripts of a desk with their answers: those of the folder desk/, and those that are too long, too odd or too many for a file.

In a file `== NAME` begins a case, of two users unless ` of N` says how many there are, and in the newest format unless ` in N` says in
which; `> LINE` is a line of its script, and `< LINE` one that is printed of it. (A `<` alone is an empty line, as of a range of no bytes; a line of which nothing is printed has none.) The
other lines are empty, or begin with `#`. All lines of a case are one script.
"""
import os
import re

import desk_model
from desk_model import sha256

FOLDER = os.path.join(os.path.dirname(os.path.abspath(__file__)), "desk")
LONGEST_LINE = 140000


class Case:
    """A script and what is printed of it. Where the last line of that says that a line is bad, the script ends there with status 2, and
    it is told why: so, if the case says how."""

    def __init__(self, script, printed, users=2, why=None, form=None):
        self.script, self.printed = (it if isinstance(it, bytes) else it.encode() for it in (script, printed))
        options = (("--users", None if users == 2 else users), ("--format", form))
        self.arguments = ["desk", *(word for name, value in options if value for word in (name, str(value)))]
        self.why = why

    def is_so(self, printed, told, status):
        bad = re.search(rb"(?:^|\n)line (\d+): bad\n$", self.printed)
        if not bad:
            return (printed, told, status) == (self.printed, b"", 0)
        begin, lines = b"sundr: line %s: " % bad[1], told.split(b"\n")
        is_told = told == begin + self.why.encode() + b"\n" if self.why else len(lines) == 2 and lines[0] > begin and told.startswith(begin)
        return (printed, status) == (self.printed, 2) and is_told


def of_files():
    """The cases of the folder, by the names of their files and their own."""
    for file in sorted(os.listdir(FOLDER)):
        with open(f"{FOLDER}/{file}", encoding="utf-8", newline="\n") as opened:
            yield from of_file(file.removesuffix(".txt"), opened.read())


def of_file(topic, text):
    for part in text.split("\n== ")[1:]:
        head, *lines = part.split("\n")
        name, users, form = re.fullmatch(r"(\S*)(?: of (\d+))?(?: in (\d+))?", head).groups()
        odd = [line for line in lines if line and not re.match(r"[><]( |$)|#", line)]
        if odd or not name.isidentifier():
            raise ValueError(f"{topic}: {name}: {odd}")
        said, printed = ("".join(line[2:] + "\n" for line in lines if line[:1] == mark) for mark in "><")
        yield f"{topic}_{name}", Case(said, printed, int(users or 2), form=form)


# ---- lines that are no command

NO_COMMANDS = (
    b"hello", b"ls  G0:1", b" ls G0:1", b"ls G0:1 ", b"ls G0:1\r", b"ls", b"0 mkdir G0:1 d", b"0 create G0:1 a G0:2",
    b"0 create G0:1 a U0:2 3 4", b"0 undo 000000000000000000001", b"0 undo 18446744073709551616", b"0 undo -1", b"0 undo_last 1",
    b"0 write U0:2 0 4", b"0 write U0:2 0 4g", b"0 write U0:2 0", b"versions U0", b"0 write U0:2 0 41 42", b"ls U0", b"ls U0:2:3",
    b"ls u0:2", b"LS G0:1", b"ihandle U0:1", b"cat U0:2 0", b"0", b"\xff\xfe",
    b"0 drop", b"0 drop U0:2", b"0 drop 1 2", b"drop 1", b"0 tidy", b"0 rekey", b"0 rekey " + b"00" * 55, b"0 rekey " + b"00" * 57,
    b"0 rekey " + b"0" * 111, b"0 rekey " + b"0" * 111 + b"g", b"0 rekey " + b"00" * 56 + b" 1", b"rekey " + b"00" * 56,
    b"0 batch", b"0 batch +", b"0 batch drop 1 +", b"0 batch + drop 1", b"0 batch drop 1 + + drop 2", b"0 batch drop 1 drop 2", b"0 batch drop 1+drop 2",
    b"0 batch drop 1 +drop 2", b"0 batch drop 1 - drop 2", b"0 batch drop 1 + undo 1", b"0 batch undo 1 + drop 1", b"0 batch undo 1",
    b"0 batch drop 1 + undo_last", b"0 batch drop 1 + rekey " + b"00" * 56, b"0 batch rekey " + b"00" * 56, b"0 batch drop 1 + batch drop 1 + drop 2",
    b"0 batch batch drop 1", b"0 batch drop 1 + 0 drop 2", b"0 batch drop 1 + drop", b"0 batch drop + drop 1", b"0 batch drop 1 + create G0:1 a G0:2",
    b"0 batch drop 1 + ls G0:1", b"0 batch versions + drop 1", b"0 batch drop 1 + hello", b"0 batch drop 1  + drop 2", b"0 batch drop 1 + drop 2 ",
    b"0 batch create G0:1 + U0:2 + drop 1", b"0 drop 1 + drop 2", b"batch drop 1 + drop 2", b"0 Batch drop 1 + drop 2", b"+ drop 1")

MISTAKES = (
    ("hello", "an unknown command"),
    ("0 hello", "an unknown command"),
    ("write U0:2 0 41", "an unknown command"),
    ("0", "too few words"),
    ("0 undo_last 4", "too many words"),
    ("0 write U0:2 0", "too few words"),
    ("ls", "too few words"),
    ("ls U0:2\r", "a carriage return at its end"),
    ("ls  U0:2", "two spaces in a row, or a space at an end"),
    ("ls U0:2 ", "two spaces in a row, or a space at an end"),
    ("0 create G0:1 a G0:2", "a file of a group needs a BODY"),
    ("ls root", "word 2 is not a file id, as U0:2 or G0:1"),
    ("ihandle 0", "word 2 is not a user or a group, as U0 or G0"),
    ("0 write U0:2 0 4", "word 5 is not bytes in hex, two digits each"),
    ("0 rekey " + "00" * 55, "word 3 is not a public key in 112 hex digits"),
    ("0 undo 18446744073709551616", "word 3 is not a number of at most 20 digits that fits 64 bits"),
    ("a" * (LONGEST_LINE + 1), f"more than {LONGEST_LINE} bytes"))


def of_lines():
    yield "an_empty_script_prints_nothing", Case("", "")
    for line in NO_COMMANDS:
        script = b"\nls U9:9\n\n" + line + b"\nls G0:1\n"
        yield f"lines_that_are_no_command_end_the_script: {line}", Case(script, "no 14 NoFile U9:9\nline 4: bad\n")
    for line, why in MISTAKES:
        yield f"the_first_mistake_in_a_line_is_told: {line[:40]!r}", Case(line + "\n", "line 1: bad\n", why=why)
    yield "a_last_line_without_an_end_counts", Case("\n\nls U9:9", "no 14 NoFile U9:9\n")
    yield "a_last_line_without_an_end_may_be_bad", Case("\n\nls", "line 3: bad\n")
    begin, end = b"0 unlink G0:1 ", b" U0:2\n"
    longest = begin + b"n" * (LONGEST_LINE + 1 - len(begin) - len(end)) + end
    yield "the_longest_line", Case(longest, "no 2 BadName\n")
    yield "a_line_of_a_byte_more", Case(b"0" + longest, "line 1: bad\n")
    yield from of_long_batches()


def of_long_batches():
    """Lines of as many operations as an item of a batch has, and of many bytes."""
    creates = [f"create G0:1 n{number} U0:{number}" for number in range(2, 258)]
    batch, refused = ("0 batch " + " + ".join(it) + "\n" for it in (creates, [*creates[:-1], "truncate U0:300 1"]))
    yield "a_batch_of_256", Case(
        f"{batch}versions\nstat U0:257\n0 create G0:1 z U0:258\n0 write U0:257 0 41\n0 undo 1\n0 undo_last\n0 undo_last\n0 undo_last\nls G0:1\n",
        "ok 1\nU0=1 U1=0 G0=0 G1=0\nfile size 0 links 1 at U0:257\nok 2\nok 3\nno 28 Blocked 3\nok 4\nok 5\nok 6\n")
    yield "a_batch_whose_last_is_refused", Case(f"{refused}ls G0:1\nversions\n", "no 14 NoFile U0:300\nU0=0 U1=0 G0=0 G1=0\n")
    data = "41" * 30000
    yield "a_long_batch", Case(
        f"0 batch create G0:1 a U0:2 + write U0:2 0 {data} + write U0:2 29999 {data}\nstat U0:2\n0 undo 1\nls G0:1\n",
        "ok 1\nfile size 59999 links 1 at U0:2\nok 2\n")


# ---- long scripts

def of_long_writes():
    most, block = "41" * 65536, "ff" * 4096
    yield "a_write_has_up_to_65536_bytes", Case(
        f"0 create G0:1 f U0:2\n5 write U0:2 0 {most}41\n1 write G1:9 0 {most}41\n0 write U0:2 0 {most}41\n0 write U0:2 0 {most}\n"
        "stat U0:2\n",
        "ok 1\nno 12 NoUser 5\nno 3 BadNumber\nno 3 BadNumber\nok 2\nfile size 65536 links 1 at U0:2\n")
    yield "a_write_covers_whole_blocks", Case(
        f"0 create G0:1 f U0:2\n0 write U0:2 0 4142\n0 write U0:2 1 {block}\nstat U0:2\ncat U0:2 0 2\ncat U0:2 4095 9\n"
        f"0 write U0:2 8191 {block}{block}\nstat U0:2\ncat U0:2 4096 2\ncat U0:2 8190 2\ncat U0:2 16382 9\n",
        "ok 1\nok 2\nok 3\nfile size 4097 links 1 at U0:2\n41ff\nffff\nok 4\nfile size 16383 links 1 at U0:2\nff00\n00ff\nff\n")


def of_many_links():
    numbers = range(2, 256)
    script = "0 create G0:1 f U0:2\n" + "".join(f"0 link G0:1 n{number} U0:2\n" for number in numbers)
    printed = "ok 1\n" + "".join(f"ok {number}\n" for number in numbers)
    script += "stat U0:2\n0 link G0:1 f U0:2\n0 link G0:1 g U0:2\n0 unlink G0:1 f U0:2\n0 link G0:1 g U0:2\n"
    printed += "file size 0 links 255 at U0:2\nno 19 Exists\nno 23 TooManyLinks\nok 256\nok 257\n"
    yield "a_file_has_up_to_255_links", Case(script, printed)


# ---- digests of tables, from the bytes that the formats give

# digests of maps that were computed elsewhere
KNOWN = {
    "empty": "dbc1b4c900ffe48d575b5da5c638040125f65db0fe3e24494b76ea986457d986",
    # of number 1 with 32 bytes 1
    "first": "64f3842794315622dee1da7ed6a36e1d75afca1aa29d429a3644ddb0b9b4155f",
    # of that and number 2 with 32 bytes 2, which part at bit 30
    "both": "c72e0fef393385d48bc2703fe3dda14cad5fcc92bc2138c27b8c90b7ab92ee07",
    # of the names `a` with file U0:2 and `ab` with file U3:70000, which part at bit 9
    "names": "922a95c6c21013775d264cd2b881d05823ef58568fcbfd47875ed054a3106b0e",
}


def root_digest(names):
    """The digest of the root's inode, from that of its names."""
    return sha256(bytes.fromhex("03 010000000001 01 01 00000000") + names)


def pair_digest(number, value):
    """The digest of a map of one number to a digest."""
    return sha256(bytes.fromhex("00 0004") + number.to_bytes(4, "big") + value)


def file_digest():
    """Of a file with one link and 4,100 bytes, number 2 of user 1, which ends in two zeros and `xy`."""
    first, second = sha256(b"\4" + bytes(4096)), sha256(b"\4\0\0xy")
    blocks = sha256(b"\1\0\x1f" + pair_digest(0, first) + pair_digest(1, second))
    return sha256(bytes.fromhex("03 000100000002 00 01 00001004") + blocks)


def of_handles():
    user = pair_digest(1, root_digest(sha256(b"\2"))).hex()
    group = sha256(bytes.fromhex("00 0004 00000001 00 00000001")).hex()
    yield "the_first_handles_cover_the_root_alone", Case("ihandle U0\nihandle G0\n", f"{user}\n{group}\n")
    names = sha256(b"\0\0\1f" + bytes.fromhex("000100000002"))
    both = sha256(b"\1\0\x1e" + pair_digest(1, root_digest(names)) + pair_digest(2, file_digest())).hex()
    script = "1 take G0:1 1\n1 create G0:1 f U1:2\n1 truncate U1:2 4100\n1 write U1:2 4098 7879\nihandle U1\n"
    yield "a_handle_covers_names_and_bytes", Case(script, f"ok 1\nok 2\nok 3\nok 4\n{both}\n")
    empty = sha256(bytes.fromhex("03 000300011170 00 01 00000000") + sha256(b"\2"))
    parted = sha256(b"\1\0\x0f" + pair_digest(1, root_digest(bytes.fromhex(KNOWN["names"]))) + pair_digest(70000, empty)).hex()
    script = "0 create G0:1 a U0:2\n3 take G0:1 1\n3 create G0:1 ab U3:70000\nihandle U3\n"
    yield "names_part_at_the_end_of_the_shorter", Case(script, f"ok 1\nok 2\nok 3\n{parted}\n", 4)
    yield from of_orders()


def of_orders():
    """Files that are made in either order have one i-handle, and it is the earlier one again when one is taken away."""
    root = desk_model.group_file(0, 1)

    def handle(names):
        inodes = {number: desk_model.inode_digest((desk_model.user_file(0, number), 1, b"")) for number in names.values()}
        of_names = {name: desk_model.user_file(0, number) for name, number in names.items()}
        return digest_of_numbers({1: desk_model.inode_digest((root, 1, of_names)), **inodes}).hex()

    one, both = handle({b"a": 2}), handle({b"a": 2, b"b": 3})
    a, b, end = "0 create G0:1 a U0:2\n", "0 create G0:1 b U0:3\n", "0 unlink G0:1 b U0:3\nihandle U0\n"
    for name, first, second in (("in_order", a, b), ("in_the_other_order", b, a)):
        yield f"two_numbers_{name}", Case(f"{first}{second}ihandle U0\n{end}", f"ok 1\nok 2\n{both}\nok 3\n{one}\n")


def digest_of_numbers(digests):
    """By the second desk."""
    return desk_model.digest_of([(desk_model.number_bits(n), n.to_bytes(4, "big"), data) for n, data in digests.items()])


def digests_known():
    """Whether the second desk knows digests of maps that were computed elsewhere."""
    first, both = ({n: bytes([n]) * 32 for n in numbers} for numbers in ((1,), (1, 2)))
    names = {b"a": desk_model.user_file(0, 2), b"ab": desk_model.user_file(3, 70000)}
    of_names = desk_model.digest_of([(desk_model.name_bits(name), name, desk_model.file_bytes(file)) for name, file in names.items()])
    wanted = {"empty": desk_model.digest_of([]), "first": digest_of_numbers(first), "both": digest_of_numbers(both), "names": of_names}
    for name, digest in wanted.items():
        yield f"known_digest_{name}", digest.hex() == KNOWN[name]
    yield "known_digest_part", sha256(b"\1\0\x1e" + pair_digest(1, first[1]) + pair_digest(2, both[2])).hex() == KNOWN["both"]


def cases():
    for part in (of_files, of_lines, of_long_writes, of_many_links, of_handles):
        yield from part()
