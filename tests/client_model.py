"""A second client, written from docs/FORMATS.md and docs/DEFINITIONS.md alone, in the plainest way: what the lines of a client's
script say, which operations a command on paths becomes, and what is printed. It runs on a desk that its users share (`Team`), or
over a link to a server (`Client`), which it doesn't trust.
"""
import errno
import functools
import os
import re
import time

import audit_model
import desk_model
import lms
import wire
from audit_model import View
from desk_model import KeptDesk, Refused, body, demand, group_file, is_dir, is_name, sha256, text_of, user_file

ROOT = group_file(0, 1)
LAST_NUMBER = 1000000
LONGEST_LINE = 140000
MOST_READY = 256  # commits that are asked for before any is taken
PAUSE = 0.001  # seconds between two tries at a turn that another has
NO_WORKER = "31 Busy 65535"  # what a server without a free worker refuses by, which ends the link


class Bad(Exception):
    """A line is no command."""


# ---- lines

def a_path(word):
    return word


def a_number(word):
    if not re.fullmatch(rb"[0-9]{1,20}", word) or int(word) >= 2 ** 64:
        raise Bad
    return int(word)


def some_bytes(word):
    if not re.fullmatch(rb"(?:[0-9a-fA-F]{2})+", word):
        raise Bad
    return bytes.fromhex(word.decode())


# the words behind each command
FORMS = {
    b"mkdir": [a_path], b"create": [a_path], b"write": [a_path, a_number, some_bytes], b"truncate": [a_path, a_number],
    b"link": [a_path, a_path], b"rename": [a_path, a_path], b"remove": [a_path], b"tidy": [], b"undo": [a_number], b"undo_last": [],
    b"ls": [a_path], b"cat": [a_path, a_number, a_number], b"rekey": [a_path], b"save": [a_path],
}


def read_line(line):
    """The command of a line, and its arguments. Raises `Bad`, or `Refused` for a number out of its range."""
    word, *words = line.split(b" ")
    form = FORMS.get(word)
    if len(line) > LONGEST_LINE or b"" in words or form is None or len(words) != len(form):
        raise Bad
    arguments = [read(it) for read, it in zip(form, words)]
    if word in (b"write", b"truncate"):
        demand(arguments[1] < 2 ** 32, "3 BadNumber")
    return word.decode(), arguments


# ---- paths

def path_names(path):
    demand(path[:1] == b"/", "29 BadPath")
    names = path[1:].split(b"/") if path != b"/" else []
    demand(all(map(is_name, names)), "29 BadPath")
    return names


def named_path(path):
    names = path_names(path)
    demand(names, "29 BadPath")
    return names[:-1], names[-1]


def names_of(tree, directory):
    place = body(tree, directory)
    demand(place is not None and is_dir(tree, place), f"15 WrongKind {text_of(directory)}")
    return desk_model.names(tree, place)


def entry(tree, directory, name):
    names = names_of(tree, directory)
    demand(name in names, "18 NoName")
    return names[name]


def find(tree, path):
    """The file that a path leads to."""
    return walk(tree, path_names(path))


def walk(tree, names):
    file = ROOT
    for name in names:
        file = entry(tree, file, name)
    return file


def directory_of(tree, names):
    directory = walk(tree, names)
    names_of(tree, directory)
    return directory


# ---- plans

class Draft:
    """The operations of a command by a user, as far as they are planned."""

    def __init__(self, tree, user):
        self.tree, self.user = tree, user
        self.operations, self.used = [], 0

    def next_body(self):
        self.used = least_free(self.used + 1, lambda n: (self.user, n) not in self.tree[0])
        return self.used

    def new_file(self, directory):
        """The id and the body of a new file in a directory."""
        number = self.next_body()
        if directory[0] == "U":
            return user_file(self.user, number), number
        group = directory[1]
        return group_file(group, least_free(1, lambda n: (group, n) not in self.tree[1])), number

    def write(self, *files):
        """These are written, so a group file that another user holds is taken over first, once."""
        for file in files:
            place = body(self.tree, file)
            is_others = file[0] == "G" and place is not None and place[0] != self.user
            if is_others and not any(it[:2] == ("take", file) for it in self.operations):
                self.operations.append(("take", file, self.next_body()))

    def add(self, *operation):
        self.operations.append(operation)


def least_free(first, is_free):
    number = next((n for n in range(first, LAST_NUMBER + 1) if is_free(n)), None)
    demand(number is not None, "3 BadNumber")
    return number


def draft_make(draft, kind, path):
    directory, name = named_path(path)
    directory = directory_of(draft.tree, directory)
    draft.write(directory)
    file, number = draft.new_file(directory)
    draft.add("create", kind, directory, name, file, number)


def draft_mkdir(draft, path):
    draft_make(draft, "mkdir", path)


def draft_create(draft, path):
    draft_make(draft, "create", path)


def draft_write(draft, path, off, data):
    file = find(draft.tree, path)
    draft.write(file)
    draft.add("write", file, off, data)


def draft_truncate(draft, path, size):
    file = find(draft.tree, path)
    draft.write(file)
    draft.add("truncate", file, size)


def draft_link(draft, old, new):
    old, (directory, name) = path_names(old), named_path(new)
    file = walk(draft.tree, old)
    directory = directory_of(draft.tree, directory)
    draft.write(directory, file)
    draft.add("link", directory, name, file)


def draft_rename(draft, old, new):
    (source, old_name), (target, new_name) = named_path(old), named_path(new)
    source = directory_of(draft.tree, source)
    file = entry(draft.tree, source, old_name)
    target = directory_of(draft.tree, target)
    if old == new:
        return
    draft.write(source, target)
    replaced = names_of(draft.tree, target).get(new_name)
    if replaced is not None:
        draft.write(replaced)
        draft.add("unlink", target, new_name, replaced)
    draft.add("rename", source, old_name, target, new_name, file)


def draft_remove(draft, path):
    directory, name = named_path(path)
    directory = directory_of(draft.tree, directory)
    file = entry(draft.tree, directory, name)
    draft.write(directory, file)
    draft.add("unlink", directory, name, file)


def draft_tidy(draft):
    stale = [place for place in draft.tree[0] if place[0] == draft.user and desk_model.is_stale(draft.tree, place)]
    for _, number in sorted(stale):
        draft.add("drop", number)


CHANGES = ("mkdir", "create", "write", "truncate", "link", "rename", "remove", "tidy")


def plan(desk, user, word, arguments):
    """The operations of a command, which are accepted one after the other in the newest format; or raises their first refusal."""
    demand(user in desk.roster.users, f"12 NoUser {user}")
    tree = desk.tree(desk.history)
    draft = Draft(tree, user)
    globals()["draft_" + word](draft, *arguments)
    for operation in draft.operations:
        tree, _, _ = desk_model.check(desk.roster, tree, user, desk_model.NEWEST, operation)
    return draft.operations


def item_for(change):
    """The item of a change. Raises `Refused` where it has none, as a batch of too many operations, or of too many bytes."""
    demand(change[0] != "batch" or len(change[1]) <= audit_model.MOST_OPERATIONS, "3 BadNumber")
    item = audit_model.logs.item_of(change)
    demand(len(item) <= audit_model.LONGEST_ITEM, "22 TooBig")
    return item


def longest_head(operations):
    """How many of the first operations one item has room for; one in any case."""
    size = len(audit_model.logs.batch_item(0))
    for count, operation in enumerate(operations[:audit_model.MOST_OPERATIONS]):
        size += len(audit_model.logs.spelled_operation(operation))
        if count and size > audit_model.LONGEST_ITEM:
            return count
    return min(len(operations), audit_model.MOST_OPERATIONS)


def in_batches(operations):
    """The operations as changes, each as many of them as one item has room for. One alone is no batch."""
    while operations:
        count = longest_head(operations)
        yield operations[0] if count == 1 else ("batch", tuple(operations[:count]))
        operations = operations[count:]


# ---- what is printed

def shown(name):
    """A name on a terminal, where it forges no line."""
    return b"".join(b"\\x%02x" % it if it < 0x20 or it in (0x7f, 0x5c) else bytes([it]) for it in name)


def content_at(tree, path, kind):
    file = find(tree, path)
    content = tree[0][body(tree, file)][2]
    demand(isinstance(content, kind), f"15 WrongKind {text_of(file)}")
    return content


def carried_out(member, line):
    """The lines that are printed of a line of a script, up to the refusal that it raises. Raises `Bad` where it is no command."""
    word, arguments = read_line(line)
    if word in CHANGES:
        yield from publish_plan(member, word, arguments)
    else:
        yield from globals()["answer_" + word](member, *arguments)


def answers(member, line):
    """The lines that are printed of a line of a script. Raises `Bad` where it is no command."""
    try:
        yield from carried_out(member, line)
    except Refused as why:
        yield f"no {why}".encode()


def publish_plan(member, word, arguments):
    operations = member.in_turn(lambda: plan(member.desk(), member.user, word, arguments))
    if not operations:
        member.give()
    for n, change in enumerate(in_batches(operations) if member.batches else operations):
        if n:
            member.begin()
        yield b"ok %d" % member.publish(change)


def answer_undo(member, number):
    member.begin()
    yield b"ok %d" % member.publish(("undo", number))


def answer_undo_last(member):
    member.begin()
    live = member.desk().live(member.desk().history)
    yield b"ok %d" % member.publish(("undo", live[-1] if live else 0))


def answer_rekey(member, file):
    kept = member.open_key(os.fsdecode(file))
    try:
        member.begin()
        number = member.publish(("rekey", kept.key.public()))
    except Refused:
        kept.close()
        raise
    member.go_on(kept)
    yield b"ok %d" % number


def key_in(data):
    """The key of a key file, and the leaf that signs next."""
    kinds = [int.from_bytes(data[at:at + 4], "big") for at in (4, 8, 60)]
    is_key = len(data) == 64 and data[:4] == b"SK01" and kinds[0] in (5, 6) and kinds[1] in (3, 4)
    demand(is_key and kinds[2] <= 2 ** lms.HEIGHTS[kinds[0]], "9 BadKey")
    return made_key(data[12:60], lms.HEIGHTS[kinds[0]], lms.OTS[kinds[1]][0]), kinds[2]


made_key = functools.lru_cache(lms.Key)


def key_at(file):
    """The same of the file of a name."""
    try:
        with open(file, "rb") as opened:
            data = opened.read()
    except (OSError, ValueError):
        raise Refused("10 KeyFileFault") from None
    return key_in(data)


def answer_ls(member, path):
    for name, file in sorted(content_at(member.look(), path, dict).items()):
        yield shown(name) + b" " + text_of(file).encode()


def answer_cat(member, path, off, count):
    yield content_at(member.look(), path, bytes)[off:off + count].hex().encode()


def answer_save(member, file):
    member.look()
    member.save(file)
    yield from ()


class Member:
    """One who takes turns, as far as a desk and a server are alike. With `batches` the operations of a command are one change, as far as
    an item has room for them."""

    batches = False

    def look(self):
        """The tree, once all commits are taken."""
        self.begin()
        self.give()
        return self.desk().tree(self.desk().history)

    def in_turn(self, act):
        """Takes the turn and acts; where that is refused, the turn is given back."""
        self.begin()
        try:
            return act()
        except Refused:
            self.give()
            raise


# ---- on a desk that users share

class Team:
    """The desk, how many leaves the key of each user has left, and how many commits there may be; of each user the public key, if they
    are given, and the key file to which the user has gone on. With `batches` their commands are made in batches."""

    def __init__(self, users, leaves=10 ** 9, capacity=10 ** 9, publics=(), batches=False):
        self.desk = KeptDesk(users)
        self.desk.roster.keys = set(publics)
        self.files = [None] * users
        self.leaves, self.capacity, self.batches = [leaves] * users, capacity, batches

    def member(self, user):
        return TeamMember(self, user)

    def apply(self, user, change):
        form = self.desk.made_format(change)
        try:
            number = self.desk.apply(user, change, form)
            self.desk.history.pop()
            item_for(change)
        except Refused as why:
            raise Refused(f"39 Change {why}") from None
        demand(self.leaves[user] > 0, "8 KeySpent")
        self.leaves[user] -= 1
        demand(number <= self.capacity, "37 BookFull")
        self.desk.history.append((user, form, change))
        return number


class OpenKey:
    """The key in a file, and the leaf that signs next."""

    def __init__(self, file, key, leaf):
        self.file, self.key, self.next = file, key, leaf

    def close(self):
        pass


class TeamMember(Member):
    def __init__(self, team, user):
        self.team, self.user, self.batches = team, user, team.batches

    def desk(self):
        return self.team.desk

    def begin(self):
        pass

    def give(self):
        pass

    def save(self, file):
        pass

    def open_key(self, file):
        demand(file not in self.team.files, "10 KeyFileFault")
        return OpenKey(file, *key_at(file))

    def go_on(self, kept):
        self.team.files[self.user], self.team.leaves[self.user] = kept.file, kept.key.leaves - kept.next

    def publish(self, change):
        return self.team.apply(self.user, change)


# ---- over a link

def may_be_replaced(file):
    """Whether nothing stands there, or a plain file that a log may begin."""
    if not os.path.lexists(file):
        return True
    if os.path.islink(file) or not os.path.isfile(file) or os.fsencode(file).endswith(b".lock"):
        return False
    with open(file, "rb") as old:
        front = old.read(8)
    return front == b"" or len(front) == 8 and front[4:] in audit_model.logs.FIRST_BYTES.values()


class LinkFailed(Exception):
    """The link broke, or a reply didn't fit: the refusal that is printed of that."""


class LogRefused(Exception):
    """A commit of a log is refused: what is printed of that."""


# the refusals that fit a request (of an item that is put none: its size was looked at before)
FITTING = {
    "grant": (31,), "commit": (1, 9, 32, 33, 34, 35, 36, 37, 44), "give": (32,), "fetch": (), "put": (), "get": (5,),
}


class LinkedView(View):
    """A view whose items a server keeps. What was put there isn't asked for."""

    def __init__(self, publics, client):
        super().__init__(publics)
        self.client = client

    def item(self, digest):
        if digest in self.items:
            return self.items[digest]
        item = self.client.ask(wire.get(digest), "get", "item")
        demand(sha256(item) == digest, "6 WrongBlock")
        return item

    def put(self, item):
        demand(1 <= len(item) <= audit_model.LONGEST_ITEM, "22 TooBig")
        if self.client.ask(wire.put(item), "put", "put_done") != sha256(item):
            self.client.has_failed = True
            raise LinkFailed("7 SourceFailed")
        self.items[sha256(item)] = item

    def own_last(self, user):
        own = [commit for commit, _ in self.maker.records if audit_model.commit_in(commit)[0].author == user]
        return own[-1] if own else None

    def check_list(self, user, commits):
        """Checks what is shown as the users' last commits: those that are held are signed, and any other is to be under the key that its
        author has now."""
        publics, versions = self.chain.publics, []
        held = {data for data, _ in self.maker.records}
        for data in commits:
            version, signature = audit_model.commit_in(data)
            is_user = version.author < len(publics)
            is_signed = data in held or is_user and audit_model.verify(publics[version.author], version.encode(), signature)
            demand(is_signed, "33 BadSignature")
            versions.append(version)
        last = self.own_last(user)
        if last is not None:
            number = audit_model.commit_in(last)[0].vector[user]
            own = [(it.vector[user:user + 1], data) for it, data in zip(versions, commits) if it.author == user]
            is_behind = any(not n or n[0] < number or n[0] == number and data != last for n, data in own)
            demand(own and not is_behind, "40 OwnMissing")
        for i, one in enumerate(versions):
            for j in range(i + 1, len(versions)):
                demand(are_ordered(one.vector, versions[j].vector), f"11 NotOrdered {i} {j}")


def are_ordered(x, y):
    pairs = list(zip(x, y))
    return len(x) == len(y) and (all(a <= b for a, b in pairs) or all(a >= b for a, b in pairs))


class Client(Member):
    """A client of a server at a link. `store` keeps the number of the leaf that signs next, before one signs; `connect` makes a link to
    the same server anew."""

    def __init__(self, link, publics, user, key, leaf=0, tries=1000, store=lambda leaf: None, connect=None, held=None, open_key=None):
        self.link, self.user, self.key, self.leaf, self.tries, self.store = link, user, key, leaf, tries, store
        self.has_failed, self.connect, self.held, self.open_key = False, connect, held, open_key
        self.view = LinkedView(publics, self)

    def desk(self):
        return self.view.maker.desk

    def ask(self, request, name, wanted):
        """The field of the reply that is wanted. Raises `Refused` by a refusal that fits the request; after any other reply the
        link has failed."""
        failure = LinkFailed("7 SourceFailed" if name in ("put", "get") else "43 LinkFailed")
        try:
            if self.has_failed:
                raise failure
            reply, field = wire.reply_in(self.link.ask(request))
        except (wire.LinkEnded, Refused):
            reply = None
        if reply == "refused" and int(field.split(" ")[0]) in (30, *FITTING[name]):
            raise Refused(field)
        if (name, reply) == ("fetch", "nothing"):
            return None
        if reply != wanted:
            self.has_failed = True
            raise failure
        return field

    def begin(self):
        count, last = self.granted()
        try:
            for n in range(self.view.chain.count + 1, count + 1):
                if n > self.view.chain.count + MOST_READY:
                    break
                commit = self.fetch(n)
                if commit is not None:
                    self.view.accept(commit)
            commits = [self.fetch(n) for _, n in sorted(last.items())]
            self.view.check_list(self.user, [it for it in commits if it is not None])
        except Refused:
            self.give()
            raise

    def granted(self):
        """What is told with the turn. A link that fails before is made anew, once."""
        try:
            return self.take_turn()
        except LinkFailed:
            if self.connect is None:
                raise
            self.connect_anew()
            return self.take_turn()

    def connect_anew(self):
        self.link.close()
        try:
            self.link = self.connect()
        except OSError:
            raise LinkFailed("43 LinkFailed") from None
        self.has_failed = False

    def take_turn(self):
        for n in range(self.tries):
            try:
                return self.ask(wire.GRANT, "grant", "granted")
            except Refused as why:
                refusal = why
                if str(why) == NO_WORKER:
                    break
                time.sleep(PAUSE)
        raise refusal

    def fetch(self, number):
        return self.ask(wire.fetch(number), "fetch", "kept")

    def give(self):
        self.ask(wire.GIVE, "give", "given")

    def publish(self, change):
        try:
            commit = self.make(change)
            self.ask(wire.commit(commit), "commit", "stored")
        except Refused:
            self.give()
            raise
        self.view.accept(commit)
        return self.view.chain.count

    def make(self, change):
        demand(self.key.public() == self.view.chain.publics[self.user], "33 BadSignature")
        try:
            version = self.view.maker.client_version(self.user, change)
            item = item_for(change)
        except Refused as why:
            raise Refused(f"39 Change {why}") from None
        self.view.put(item)
        demand(self.leaf < self.key.leaves, "8 KeySpent")
        leaf, self.leaf = self.leaf, self.leaf + 1
        self.store(self.leaf)
        return audit_model.logs.commit_of(version, self.key.sign(leaf, version.encode()))

    def go_on(self, kept):
        """Signs with this key from then on, in the place of the one that it held."""
        self.held.close()
        self.held, self.key, self.leaf, self.store = kept, kept.key, kept.next, kept.store

    def log(self):
        return self.view.maker.log()

    def save(self, file):
        if not may_be_replaced(file):
            raise FileExistsError(errno.EEXIST, "it is there and is no log", file)
        with open(file, "wb") as to:
            to.write(self.log())

    def take_log(self, log):
        """Takes the commits of a log. Raises `LogRefused`."""
        at, number = 0, 0
        while at < len(log):
            number += 1
            try:
                commit, at = audit_model.piece(log, at)
                item, at = audit_model.piece(log, at)
                self.view.put(item)
                self.view.accept(commit)
            except Refused as why:
                raise LogRefused(f"at {number}\nno {why}\n") from None
