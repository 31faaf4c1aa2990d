#!/usr/bin/env python3
"""A second desk, written from docs/DEFINITIONS.md and docs/FORMATS.md alone, in the plainest way: it keeps the history, and
for each answer replays what is live from the first tree on. With scripts by chance it checks the program, and that the
definitions mean what they were meant to.

usage: desk_model.py FOLDER COUNT LINES    writes COUNT scripts of LINES lines each into FOLDER, as NAME, NAME.args, NAME.stdout;
                                           each fourth also asks for all handles after each line; of twelve, three each are in one format
       desk_model.py --run USERS [FORMAT]  reads a script of good lines on standard input, and prints what it answers
"""
import copy
import functools
import hashlib
import random
import sys

BLOCK = 4096
NEWEST = 4  # of the formats, which are numbers
FIRST_FORMAT = 3  # in which a list of commits is begun; it goes on in it, until there is a commit in a newer one
LARGEST_FILE = {1: 1048576, 2: 16777216, 3: 16777216, 4: 16777216}  # in each format
OLDEST_FORMAT = {"drop": 2, "rekey": 3, "batch": 4}  # that has the change; others are in all formats
KEY_LENGTH = 56
LARGEST_WRITE = 65536
MOST_LINKS = 255


class Refused(Exception):
    pass


def user_file(u, i):
    return ("U", u, i)


def group_file(g, k):
    return ("G", g, k)


def text_of(file):
    return f"{file[0]}{file[1]}:{file[2]}"


# ---- the tree: inodes by (user, number) as (home, links, content), pointers by (group, number)

def genesis():
    return {(0, 1): (group_file(0, 1), 1, {})}, {(0, 1): (0, 1)}


def body(tree, file):
    inodes, pointers = tree
    if file[0] == "G":
        return pointers.get(file[1:])
    at = inodes.get(file[1:])
    return file[1:] if at and at[0] == file else None


def is_dir(tree, place):
    return place in tree[0] and isinstance(tree[0][place][2], dict)


def is_file(tree, place):
    return place in tree[0] and isinstance(tree[0][place][2], bytes)


class Roster:
    """Users 0 and on, whose keys are zero bytes; group 0 has all of them, group 1 has user 0."""

    def __init__(self, users):
        self.users = range(users)
        self.groups = {0: set(self.users), 1: {0}}
        self.keys = {bytes(KEY_LENGTH)}

    def may_touch(self, a, file):
        return file[0] == "U" or a in self.groups.get(file[1], ())


# ---- operations: the first refusal

def demand(test, refusal):
    if not test:
        raise Refused(refusal)


def found(tree, file):
    place = body(tree, file)
    demand(place is not None, f"14 NoFile {text_of(file)}")
    return place


def touch(roster, a, *files):
    for file in files:
        demand(roster.may_touch(a, file), f"13 NotMember {file[1]}")


def holds(a, *places):
    for place in places:
        demand(place[0] == a, f"16 NotHolder {place[0]}")


def check(roster, tree, a, form, op):
    """Raises the first refusal; else answers the effect, the cells that are read besides, and those that are written."""
    if op[0] == "batch":
        return check_batch(roster, tree, a, form, op[1])
    demand(a in roster.users, f"12 NoUser {a}")
    limits = [LARGEST_FILE[form]] if op[0] in ("write", "truncate") else []
    return globals()["check_" + op[0]](roster, tree, a, *op[1:], *limits)


def check_batch(roster, tree, a, form, operations):
    """Each operation comes behind those before it, and the first refusal is the batch's; the cells are those of all of them, each in the
    tree where it comes."""
    reads, writes = set(), set()
    for op in operations:
        tree, besides, written = check(roster, tree, a, form, op)
        reads |= besides | written
        writes |= written
    return tree, reads, writes


def names(tree, place):
    return tree[0][place][2]


def kind_cells(file, place):
    """The cells that tell that the file's body is there, and its kind."""
    return {("inode", place, "kind")} | pointer_cells(file)


def pointer_cells(file):
    return {("pointer", file[1:])} if file[0] == "G" else set()


def put(tree, place, inode):
    inodes = dict(tree[0])
    if inode is None:
        inodes.pop(place, None)
    else:
        inodes[place] = inode
    return inodes, tree[1]


def point(tree, file, place):
    if file[0] == "U":
        return tree
    pointers = dict(tree[1])
    if place is None:
        pointers.pop(file[1:], None)
    else:
        pointers[file[1:]] = place
    return tree[0], pointers


def with_name(tree, place, name, file):
    home, links, content = tree[0][place]
    content = dict(content)
    if file is None:
        content.pop(name, None)
    else:
        content[name] = file
    return put(tree, place, (home, links, content))


def with_links(tree, place, links):
    home, _, content = tree[0][place]
    return put(tree, place, (home, links, content))


def check_create(roster, tree, a, kind, directory, name, file, number):
    demand(file[0] == "G" or file == user_file(a, number), "3 BadNumber")
    touch(roster, a, directory, file)
    d = found(tree, directory)
    demand(is_dir(tree, d), f"15 WrongKind {text_of(directory)}")
    holds(a, d)
    new = (a, number)
    free = new not in tree[0] and (file[0] == "U" or file[1:] not in tree[1])
    demand(free, "17 Held")
    demand(name not in names(tree, d), "19 Exists")
    after = with_name(tree, d, name, file)
    after = put(after, new, (file, 1, {} if kind == "mkdir" else b""))
    after = point(after, file, new)
    writes = {("inode", d, "name", name), ("inode", new, "kind"), ("inode", new, "links"), ("inode", new, "size")}
    return after, kind_cells(directory, d), writes | pointer_cells(file)


def blocks(place, first, last):
    return {("inode", place, "block", n) for n in range(first // BLOCK, last // BLOCK + 1)}


def check_write(roster, tree, a, file, off, data, largest):
    demand(1 <= len(data) <= LARGEST_WRITE, "3 BadNumber")
    touch(roster, a, file)
    f = found(tree, file)
    demand(is_file(tree, f), f"15 WrongKind {text_of(file)}")
    holds(a, f)
    end = off + len(data)
    demand(end <= largest, "22 TooBig")
    home, links, content = tree[0][f]
    size = len(content)
    after = content.ljust(off, b"\0")
    after = after[:off] + data + after[end:]
    reads = kind_cells(file, f) | {("inode", f, "size")}
    if end <= size:
        writes = blocks(f, off, end - 1)
    else:
        writes = {("inode", f, "size")} | blocks(f, min(off, size), end - 1)
    return put(tree, f, (home, links, after)), reads, writes


def check_truncate(roster, tree, a, file, size, largest):
    touch(roster, a, file)
    f = found(tree, file)
    demand(is_file(tree, f), f"15 WrongKind {text_of(file)}")
    holds(a, f)
    demand(size <= largest, "22 TooBig")
    home, links, content = tree[0][f]
    old = len(content)
    writes = set()
    if old != size:
        writes = {("inode", f, "size")} | blocks(f, min(old, size), max(old, size) - 1)
    after = content[:size].ljust(size, b"\0")
    return put(tree, f, (home, links, after)), kind_cells(file, f) | {("inode", f, "size")}, writes


def check_link(roster, tree, a, directory, name, file):
    touch(roster, a, directory, file)
    d = found(tree, directory)
    f = found(tree, file)
    demand(is_dir(tree, d), f"15 WrongKind {text_of(directory)}")
    demand(is_file(tree, f), f"15 WrongKind {text_of(file)}")
    holds(a, d, f)
    demand(name not in names(tree, d), "19 Exists")
    links = tree[0][f][1]
    demand(links < MOST_LINKS, "23 TooManyLinks")
    after = with_links(with_name(tree, d, name, file), f, links + 1)
    return after, kind_cells(directory, d) | kind_cells(file, f), {("inode", d, "name", name), ("inode", f, "links")}


def check_unlink(roster, tree, a, directory, name, file):
    touch(roster, a, directory, file)
    d = found(tree, directory)
    f = found(tree, file)
    demand(is_dir(tree, d), f"15 WrongKind {text_of(directory)}")
    holds(a, d, f)
    demand(names(tree, d).get(name) == file, "18 NoName")
    demand(not (is_dir(tree, f) and names(tree, f)), "20 NotEmpty")
    links = tree[0][f][1]
    after = with_name(tree, d, name, None)
    writes = {("inode", d, "name", name)}
    if links > 1:
        after = with_links(after, f, links - 1)
        writes |= {("inode", f, "links")}
    else:
        after = point(put(after, f, None), file, None)
        writes |= {("inode", f, "whole")} | pointer_cells(file)
    return after, kind_cells(directory, d) | kind_cells(file, f), writes


def check_rename(roster, tree, a, source, old, target, new, file):
    touch(roster, a, source, target)
    d = found(tree, source)
    t = found(tree, target)
    moves = source != target
    f = found(tree, file) if moves else None
    demand(is_dir(tree, d), f"15 WrongKind {text_of(source)}")
    demand(is_dir(tree, t), f"15 WrongKind {text_of(target)}")
    holds(a, d, t)
    demand(names(tree, d).get(old) == file, "18 NoName")
    demand(new not in names(tree, t), "19 Exists")
    demand(not (moves and is_dir(tree, f)), "21 DirMove")
    after = with_name(with_name(tree, t, new, file), d, old, None)
    reads = kind_cells(source, d) | kind_cells(target, t)
    if moves:
        reads |= kind_cells(file, f)
    return after, reads, {("inode", t, "name", new), ("inode", d, "name", old)}


def check_take(roster, tree, a, file, number):
    demand(file[0] == "G", "3 BadNumber")
    touch(roster, a, file)
    f = found(tree, file)
    new = (a, number)
    demand(f[0] != a and new not in tree[0], "17 Held")
    after = point(put(tree, new, tree[0][f]), file, new)
    reads = kind_cells(file, f) | {("inode", f, "whole")}
    return after, reads, {("inode", new, "whole")} | pointer_cells(file)


def is_stale(tree, place):
    """Whether what stands there was made for a group file whose pointer leads elsewhere, or nowhere."""
    home = tree[0][place][0]
    return home[0] == "G" and tree[1].get(home[1:]) != place


def check_drop(roster, tree, a, number):
    old = (a, number)
    demand(old in tree[0], f"14 NoFile {text_of(user_file(a, number))}")
    demand(is_stale(tree, old), "17 Held")
    writes = {("inode", old, "whole")}
    return put(tree, old, None), writes | pointer_cells(tree[0][old][0]), writes


def share(some, others):
    def same(x, y):
        whole = "whole" in (x[2:3] + y[2:3])
        return x == y or (x[0] == y[0] == "inode" and x[1] == y[1] and whole)

    return any(same(x, y) for x in some for y in others)


# ---- the desk

def is_key(key):
    """Whether the bytes are a public key: of one of the five kinds of trees, and one of the four kinds of one-time keys."""
    return len(key) == KEY_LENGTH and int.from_bytes(key[:4], "big") in range(5, 10) and int.from_bytes(key[4:8], "big") in range(1, 5)


class Desk:
    """Its history is triples of an author, a format and a change. The format in which changes are made, unless they come with one, is
    `form`."""

    def __init__(self, users, form=NEWEST):
        self.roster = Roster(users)
        self.form = form
        self.history = []
        self.mark = None

    def live(self, history):
        undone = {change[1] for _, _, change in history if change[0] == "undo"}
        return [n for n, (_, _, change) in enumerate(history, 1) if change[0] not in ("undo", "rekey") and n not in undone]

    def tree(self, history):
        tree = genesis()
        for n in self.live(history):
            tree, _, _ = check(self.roster, tree, *history[n - 1])
        return tree

    def cells(self, n):
        """What entry n read and wrote, in the tree of the entries before it."""
        _, reads, writes = check(self.roster, self.tree(self.history[:n - 1]), *self.history[n - 1])
        return reads | writes, writes

    def blocker(self, n):
        _, writes = self.cells(n)
        readers = [m for m in self.live(self.history) if m > n and share(self.cells(m)[0], writes)]
        return max(readers, default=None)

    def copy(self):
        """Another one that stands where this one does."""
        other = copy.copy(self)
        other.history = list(self.history)
        return other

    def last_format(self):
        return self.history[-1][1] if self.history else 1

    def made_format(self, change):
        """In which a client makes a change: that of the list, or the oldest that has the change, where that is newer."""
        return max(FIRST_FORMAT, self.last_format(), OLDEST_FORMAT.get(change[0], 1))

    def check_form(self, form, change):
        """No entry is of an older format than the one before it, and each format has its changes."""
        demand(form >= self.last_format() and form >= OLDEST_FORMAT.get(change[0], 1), "44 OldFormat")

    def check_undo(self, a, n):
        demand(a in self.roster.users, f"12 NoUser {a}")
        demand(1 <= n <= len(self.history), f"24 NoOperation {n}")
        author, _, change = self.history[n - 1]
        demand(change[0] not in ("undo", "rekey"), f"25 NotOperation {n}")
        for m, (_, _, other) in enumerate(self.history, 1):
            demand(other != ("undo", n), f"26 AlreadyUndone {n} {m}")
        demand(author == a, f"27 NotAuthor {author}")
        m = self.blocker(n)
        demand(m is None, f"28 Blocked {m}")

    def check_rekey(self, a, key):
        demand(a in self.roster.users, f"12 NoUser {a}")
        demand(is_key(key), "9 BadKey")
        named = {change[1] for _, _, change in self.history if change[0] == "rekey"}
        demand(key not in self.roster.keys | named, "36 KeyReuse")

    def apply(self, a, change, form=None):
        form = self.form if form is None else form
        self.check_form(form, change)
        if change[0] == "undo":
            self.check_undo(a, change[1])
        elif change[0] == "rekey":
            self.check_rekey(a, change[1])
        else:
            check(self.roster, self.tree(self.history), a, form, change)
        self.history.append((a, form, change))
        return len(self.history)

    def undo_last(self, a):
        live = self.live(self.history)
        return self.apply(a, ("undo", live[-1] if live else 0))

    def versions(self):
        counts = {("U", u): 0 for u in self.roster.users} | {("G", g): 0 for g in self.roster.groups}
        for n, (a, _, change) in enumerate(self.history, 1):
            counts["U", a] += 1
            if change[0] == "rekey":
                continue
            _, writes = self.cells(change[1] if change[0] == "undo" else n)
            for g in {cell[1][0] for cell in writes if cell[0] == "pointer"}:
                counts["G", g] += 1
        return " ".join(f"{p}{i}={count}" for (p, i), count in counts.items())


class KeptDesk(Desk):
    """The same, which keeps what came of each replay that it met: one is the replay of all operations but the last, and that one."""

    def __init__(self, users, form=NEWEST):
        super().__init__(users, form)
        self.kept = {}

    def operations(self, history):
        return tuple(history[n - 1] for n in self.live(history))

    def tree(self, history):
        return self.replay(self.operations(history))

    def cells(self, n):
        _, reads, writes = self.carried_out((*self.operations(self.history[:n - 1]), self.history[n - 1]))
        return reads | writes, writes

    def replay(self, operations):
        return self.carried_out(operations)[0] if operations else genesis()

    def carried_out(self, operations):
        """What came of the last one, behind the others."""
        if operations not in self.kept:
            self.kept[operations] = check(self.roster, self.replay(operations[:-1]), *operations[-1])
        return self.kept[operations]


# ---- digests of maps, inodes and i-tables

def sha256(data):
    return hashlib.sha256(data).digest()


def number_bits(x):
    return format(x, "032b")


def name_bits(x):
    return "".join("1" + format(b, "08b") for b in x) + "0"


def digest_of(pairs):
    """Of triples: the bits of a key, its bytes, the bytes of the value."""
    if not pairs:
        return sha256(b"\2")
    if len(pairs) == 1:
        _, key, value = pairs[0]
        return sha256(b"\0" + len(key).to_bytes(2, "big") + key + value)
    place = next(n for n in range(10 ** 6) if len({bits[n] for bits, _, _ in pairs}) > 1)
    sides = [digest_of([p for p in pairs if p[0][place] == bit]) for bit in "01"]
    return sha256(b"\1" + place.to_bytes(2, "big") + sides[0] + sides[1])


def file_bytes(file):
    return bytes(["UG".index(file[0]), file[1]]) + file[2].to_bytes(4, "big")


@functools.lru_cache(maxsize=16)  # a large file takes long
def content_digest(content):
    """The digest of a file's blocks."""
    cut = [content[at:at + BLOCK] for at in range(0, len(content), BLOCK)]
    return digest_of([(number_bits(n), n.to_bytes(4, "big"), sha256(b"\4" + b)) for n, b in enumerate(cut)])


def inode_digest(inode):
    home, links, content = inode
    if isinstance(content, dict):
        parts = digest_of([(name_bits(x), x, file_bytes(f)) for x, f in content.items()])
        kind, size = 1, 0
    else:
        parts, kind, size = content_digest(content), 0, len(content)
    return sha256(b"\3" + file_bytes(home) + bytes([kind, links]) + size.to_bytes(4, "big") + parts)


def handle(tree, principal):
    kind, owner = principal
    table = tree[0] if kind == "U" else tree[1]
    pairs = []
    for (p, number), value in table.items():
        if p == owner:
            value = inode_digest(value) if kind == "U" else bytes([value[0]]) + value[1].to_bytes(4, "big")
            pairs.append((number_bits(number), number.to_bytes(4, "big"), value))
    return digest_of(pairs).hex()


# ---- scripts

def is_file_id(file):
    return (0 <= file[1] <= (63 if file[0] == "U" else 15)) and 1 <= file[2] <= 1000000


def is_name(name):
    return 1 <= len(name) <= 255 and name not in (b".", b"..") and b"/" not in name and b"\0" not in name


def file_of(word):
    owner, number = word[1:].split(":")
    return (word[0], int(owner), int(number))


def change_of(word, rest):
    """The change of a user's line, its names, its file ids, and whether its other numbers are in their ranges. A batch of one operation
    is the operation."""
    if word == "batch":
        changes, said, files, numbers = zip(*(change_of(part[0], part[1:]) for part in operations_of(rest)))
        change = changes[0] if len(changes) == 1 else (word, changes)
        return change, sum(said, []), sum(files, []), all(numbers)
    if word in ("mkdir", "create"):
        d, f = file_of(rest[0]), file_of(rest[2])
        number = int(rest[3]) if len(rest) == 4 else f[2]
        name = rest[1].encode()
        return ("create", word, d, name, f, number), [name], [d, f], 1 <= number <= 1000000
    if word == "write":
        f, off = file_of(rest[0]), int(rest[1])
        return ("write", f, off, bytes.fromhex(rest[2])), [], [f], off < 2 ** 32
    if word == "truncate":
        f, size = file_of(rest[0]), int(rest[1])
        return ("truncate", f, size), [], [f], size < 2 ** 32
    if word in ("link", "unlink"):
        d, name, f = file_of(rest[0]), rest[1].encode(), file_of(rest[2])
        return (word, d, name, f), [name], [d, f], True
    if word == "rename":
        d, old, t, new, f = file_of(rest[0]), rest[1].encode(), file_of(rest[2]), rest[3].encode(), file_of(rest[4])
        return (word, d, old, t, new, f), [old, new], [d, t, f], True
    if word == "take":
        f, number = file_of(rest[0]), int(rest[1])
        return (word, f, number), [], [f], 1 <= number <= 1000000
    if word == "drop":
        number = int(rest[0])
        return (word, number), [], [], 1 <= number <= 1000000
    if word == "rekey":
        return (word, bytes.fromhex(rest[0])), [], [], True
    return ("undo", int(rest[0])), [], [], True


def operations_of(words):
    """The words of each operation of a batch, between which `+` stands."""
    parts = [[]]
    for word in words:
        if word == "+":
            parts.append([])
        else:
            parts[-1].append(word)
    return parts


def in_range(desk, a, words):
    """The change that the words say, each of them in its range."""
    change, said, files, numbers = change_of(words[0], words[1:])
    are_names, are_numbers = all(map(is_name, said)), a <= 63 and all(map(is_file_id, files)) and numbers
    if not (are_names and are_numbers):
        demand(a > 63 or a in desk.roster.users, f"12 NoUser {a}")
        raise Refused("3 BadNumber" if are_names else "2 BadName")
    return change


def carry_out_change(desk, a, words):
    if words[0] == "undo_last":
        demand(a <= 63, "3 BadNumber")
        return f"ok {desk.undo_last(a)}"
    return f"ok {desk.apply(a, in_range(desk, a, words))}"


def ask(desk, words):
    tree = desk.tree(desk.history)
    if words[0] == "versions":
        return [desk.versions()]
    if words[0] == "ihandle":
        return [handle(tree, (words[1][0], int(words[1][1:])))]
    handles = [handle(tree, ("U", u)) for u in desk.roster.users] + [handle(tree, ("G", g)) for g in desk.roster.groups]
    if words[0] == "mark":
        desk.mark = handles
        return []
    if words[0] == "same":
        return ["no mark" if desk.mark is None else "same" if desk.mark == handles else "differs"]
    file = file_of(words[1])
    demand(is_file_id(file), "3 BadNumber")
    place = found(tree, file)
    home, links, content = tree[0][place]
    if words[0] == "stat":
        kind, size = ("dir", 0) if isinstance(content, dict) else ("file", len(content))
        return [f"{kind} size {size} links {links} at {text_of(user_file(*place))}"]
    wanted = dict if words[0] == "ls" else bytes
    demand(isinstance(content, wanted), f"15 WrongKind {text_of(file)}")
    if words[0] == "ls":
        return [f"{name.decode()} {text_of(f)}" for name, f in sorted(content.items())]
    off, count = int(words[2]), int(words[3])
    return [content[off:off + count].hex()]


def answer(desk, line):
    """The lines that a line of a script prints."""
    words = line.split(" ")
    try:
        if words[0].isdigit():
            return [carry_out_change(desk, int(words[0]), words[1:])]
        return ask(desk, words)
    except Refused as refusal:
        return [f"no {refusal}"]


# ---- chance

class Dice:
    """Lines by chance over few users, groups, files and names, so that they have to do with each other. Most are made to
    fit the tree that there is, the others are anything. Files as large as can be take long, so there are few, where they are asked for.
    Where undos are asked for, half of the lines are undos, at any depth."""

    def __init__(self, seed, desk, largest_files=False, undoes=False):
        self.random = random.Random(seed)
        self.desk = desk
        self.undoes = undoes
        self.users = len(desk.roster.users)
        largest = LARGEST_FILE[desk.form]
        self.odd_sizes = (1048575, 1048576, 1048577, largest + 1, 2 ** 32)
        self.large_sizes = [largest, largest - 1] if largest_files else []

    def pick(self, *choices):
        return self.random.choice(choices)

    def rarely(self, odd, usual):
        return odd if self.random.random() < 0.05 else usual

    # ---- anything

    def user(self):
        return self.rarely(self.pick(self.users, 63, 64), self.random.randrange(self.users))

    def number(self):
        return self.rarely(self.pick(0, 1000000, 1000001), self.random.randint(1, 8))

    def file(self):
        if self.random.random() < 0.5:
            return self.rarely(f"U{self.pick(63, 64)}:2", f"U{self.random.randrange(self.users)}:{self.number()}")
        group = self.rarely(self.pick(2, 15, 16), self.pick(0, 0, 1))
        return f"G{group}:{self.number()}"

    def name(self):
        return self.rarely(self.pick("..", ".", "a/b", "n" * 255, "n" * 256), self.pick("a", "b", "c", "d"))

    def size(self):
        return self.rarely(self.pick(*self.odd_sizes), self.pick(0, 1, 2, 4095, 4096, 4097, 8192, 8193))

    def data(self):
        return bytes([self.random.randrange(256)] * self.pick(1, 2, 4096)).hex()

    def key(self):
        kinds = self.rarely(self.pick("0000000000000000", "0000000a00000004", "0000000500000000"), self.pick("0000000500000004", "0000000900000001"))
        return kinds + self.pick("00", "01", "fe", "FF") * (KEY_LENGTH - 8)

    def any_operation(self):
        f, d, x = self.file(), self.file(), self.name()
        operation = self.pick(
            f"mkdir {d} {x} {f} {self.number()}", f"create {d} {x} {f}", f"write {f} {self.size()} {self.data()}",
            f"truncate {f} {self.size()}", f"link {d} {x} {f}", f"unlink {d} {x} {f}",
            f"rename {d} {x} {self.file()} {self.name()} {f}", f"take {f} {self.number()}", f"drop {self.number()}")
        return operation if "G" not in operation or not operation.startswith("create") else operation + f" {self.number()}"

    def any_change(self):
        batch = "batch " + " + ".join(self.any_operation() for _ in range(self.random.randint(1, 3)))
        return self.pick(*(self.any_operation() for _ in range(9)), batch, f"undo {self.number()}", "undo_last", f"rekey {self.key()}")

    # ---- what fits the tree, mostly

    def fitting_size(self):
        return self.large_sizes.pop() if self.large_sizes and self.random.random() < 0.2 else self.size()

    def fitting_change(self):
        """A user, and a change that he can make but for a detail."""
        tree = self.desk.tree(self.desk.history)
        bodies = [(home, place) for place, (home, _, _) in tree[0].items() if body(tree, home) == place]
        dirs = [b for b in bodies if is_dir(tree, b[1])]
        files = [b for b in bodies if is_file(tree, b[1])]
        entries = [(d, place, x, f) for d, place in dirs for x, f in names(tree, place).items()]
        d, at = self.pick(*dirs)
        stale = [place for place in tree[0] if is_stale(tree, place)]
        kind = self.pick("new", "new", "write", "write", "truncate", "link", "unlink", "rename", "rename", "take", "take", "drop",
                         "undo", "undo", "undo_last", "rekey")
        if kind == "rekey":
            return self.random.randrange(self.users), f"rekey {self.key()}"
        if kind == "write" and files:
            f, place = self.pick(*files)
            return place[0], f"write {text_of(f)} {self.fitting_size()} {self.data()}"
        if kind == "truncate" and files:
            f, place = self.pick(*files)
            return place[0], f"truncate {text_of(f)} {self.fitting_size()}"
        if kind == "link" and files:
            f, place = self.pick(*files)
            return at[0], f"link {text_of(d)} {self.name()} {text_of(f)}"
        if kind in ("unlink", "rename") and entries:
            d, at, x, f = self.pick(*entries)
            x = x.decode()
            if kind == "unlink":
                return at[0], f"unlink {text_of(d)} {x} {text_of(f)}"
            target, _ = self.pick((d, at), *dirs)
            return at[0], f"rename {text_of(d)} {x} {text_of(target)} {self.name()} {text_of(f)}"
        if kind == "take":
            shared = [home for home, _ in bodies if home[0] == "G"]
            return self.random.randrange(self.users), f"take {text_of(self.pick(*shared))} {self.random.randint(1, 40)}"
        if kind == "drop" and stale:
            user, number = self.pick(*stale)
            return user, f"drop {number}"
        if kind == "undo" and self.desk.history:
            n = self.random.randint(1, len(self.desk.history))
            return self.desk.history[n - 1][0], f"undo {n}"
        if kind == "undo_last":
            live = self.desk.live(self.desk.history)
            return (self.desk.history[live[-1] - 1][0] if live else 0), "undo_last"
        number = self.random.randint(2, 40)
        word = self.pick("mkdir", "create", "create")
        new = self.pick(f"U{at[0]}:{number}", f"G{self.pick(0, 0, 1)}:{number} {number}")
        return at[0], f"{word} {text_of(d)} {self.name()} {new}"

    def question(self):
        tree = self.desk.tree(self.desk.history)
        known = text_of(self.pick(*[home for home, _, _ in tree[0].values()]))
        file = self.pick(known, known, known, self.file())
        return self.pick(
            f"ls {file}", f"cat {file} {self.size()} {self.pick(0, 1, 5, 2 ** 64 - 1)}", f"stat {file}", "versions",
            f"ihandle {self.pick('U0', 'U1', 'G0', 'G1', 'G15', 'U63')}", "mark", "same", "same")

    def batch(self):
        """A user, and 2 to 6 operations of his as a batch: most fit what those before them leave, some but for a detail, and a few are
        anything, so that batches are refused at each of their places."""
        desk, count, said, user = self.desk, self.random.randint(2, 6), [], None
        self.desk = desk.copy()
        for _ in range(10 * count):
            if len(said) == count:
                break
            author, operation = self.fitting_change()
            if operation.split(" ")[0] in ("undo", "undo_last", "rekey") or user not in (None, author):
                continue
            is_refused = answer(self.desk, f"{author} {operation}")[0].startswith("no")
            if not is_refused or self.random.random() < 0.1:
                said, user = said + [self.rarely(self.any_operation(), operation)], author
        self.desk = desk
        return (user, "batch " + " + ".join(said)) if said else self.fitting_change()

    def undo(self):
        """A user, and an undo of an entry of his: mostly of a live operation, be it early or late, else of any entry."""
        history = self.desk.history
        live = self.desk.live(history)
        n = self.pick(*live) if live and self.random.random() < 0.8 else self.random.randint(1, len(history))
        return f"{self.rarely(self.user(), history[n - 1][0])} undo {n}"

    def line(self):
        if self.undoes and self.desk.history and self.random.random() < 0.5:
            return self.undo()
        chance = self.random.random()
        if chance < 0.2:
            return self.question()
        if self.desk.form >= OLDEST_FORMAT["batch"] and chance > 0.84:  # a fifth of the changes
            user, change = self.batch()
            return f"{self.rarely(self.user(), user)} {change}"
        if chance < 0.35:
            return f"{self.user()} {self.any_change()}"
        user, change = self.fitting_change()
        return f"{self.rarely(self.user(), user)} {change}"


def write_scripts(folder, count, lines):
    for seed in range(count):
        users, form = 1 + seed % 3, 1 + seed // 3 % NEWEST
        desk = KeptDesk(users, form)
        dice = Dice(seed, desk, largest_files=seed % 20 == 13, undoes=seed % 2 == 1)
        script, printed = [], []

        def say(line):
            script.append(line)
            printed.extend(answer(desk, line))

        every_handle = [f"ihandle U{u}" for u in desk.roster.users] + [f"ihandle G{g}" for g in desk.roster.groups]
        for _ in range(lines):
            say(dice.line())
            if seed % 4 == 0:
                for question in every_handle:
                    say(question)
        for line in ("versions", "ihandle U0", "ihandle G0"):
            say(line)
        name = f"{folder}/chance_{seed}"
        with open(name, "w") as file:
            file.write("".join(line + "\n" for line in script))
        with open(f"{name}.args", "w") as file:
            file.write(f"desk\n--users\n{users}\n" + (f"--format\n{form}\n" if form != NEWEST or seed % 2 else ""))
        with open(f"{name}.stdout", "w") as file:
            file.write("".join(text + "\n" for text in printed))


if __name__ == "__main__":
    if sys.argv[1] == "--run":
        desk = Desk(*map(int, sys.argv[2:]))
        for line in sys.stdin.read().split("\n"):
            for text in answer(desk, line) if line else []:
                print(text)
    else:
        write_scripts(sys.argv[1], int(sys.argv[2]), int(sys.argv[3]))
