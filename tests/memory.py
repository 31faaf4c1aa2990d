#!/usr/bin/env python3
"""Tries `sundr desk` where memory is refused once: the Nth call for memory is answered by none, for one N after the other, by a library in
C that is loaded in front of the C library. A line that answers `no 30 NoMemory` has changed nothing, also where a batch was refused in
its middle and taking back what was made of it wants memory: all other lines answer what the second desk (desk_model.py) says without that
line. Or the program ends with status 1 and says that memory was refused, as where its input or output wants some; what it printed until
then is right.

SUNDR names another program to try. Prints a line for each case that isn't as it should be, and last 'N passed, M failed'.
"""
import concurrent.futures
import functools
import os
import shutil
import subprocess
import sys
import tempfile

import desk_model
import shims
import tally

HERE = os.path.dirname(os.path.abspath(__file__))
TOP = os.path.dirname(HERE)
PROGRAM = os.environ.get("SUNDR", f"{TOP}/crates/sundr/out/sundr")
WAIT = 60  # seconds that a run may take at most
RUNS = 1500  # at most of calls in batches and in the lines behind them, and of others as many as are left: with more calls some are passed over
RUNS_AT_ONCE = 4
USERS, FORMAT = 2, 4
NO_MEMORY = "no 30 NoMemory"

# Each call for memory is counted; the one of the number REFUSED is answered by none, and that it came is told on the descriptor TELLING, as
# a byte. At the end of the program the number of calls follows there.
SHIM = r"""
#include <errno.h>
#include <stdio.h>
#include <stdlib.h>
#include <string.h>
#include <sys/syscall.h>
#include <unistd.h>

extern void *__libc_malloc(size_t), *__libc_calloc(size_t, size_t), *__libc_realloc(void *, size_t), *__libc_memalign(size_t, size_t);
extern char **environ;

static unsigned long calls;

static unsigned long number(const char *name)
{
    size_t length = strlen(name);
    for (char **at = environ; at && *at; at++)
        if (!strncmp(*at, name, length) && (*at)[length] == '=')
            return strtoul(*at + length + 1, 0, 10);
    return 0;
}

static int is_refused(void)
{
    static unsigned long refused;
    if (!calls)
        refused = number("REFUSED");
    if (__atomic_add_fetch(&calls, 1, __ATOMIC_SEQ_CST) != refused)
        return 0;
    errno = ENOMEM;
    return write((int)number("TELLING"), "!", 1) == 1;
}

void *malloc(size_t size) { return is_refused() ? 0 : __libc_malloc(size); }
void *calloc(size_t count, size_t size) { return is_refused() ? 0 : __libc_calloc(count, size); }
void *realloc(void *old, size_t size) { return is_refused() ? 0 : __libc_realloc(old, size); }
void *aligned_alloc(size_t align, size_t size) { return is_refused() ? 0 : __libc_memalign(align, size); }

int posix_memalign(void **to, size_t align, size_t size)
{
    void *made = is_refused() ? 0 : __libc_memalign(align, size);
    if (!made)
        return ENOMEM;
    *to = made;
    return 0;
}

static void tell(void)
{
    char text[32];
    int length = snprintf(text, sizeof text, "%lu", calls);
    if (write((int)number("TELLING"), text, length) != length)
        abort();
}

/* the program ends so, and no destructor is called */
void _exit(int status)
{
    tell();
    for (;;)
        syscall(SYS_exit_group, status);
}
"""

BEGUN = (
    "0 create G0:1 a G0:2 2", f"0 write G0:2 0 {'6f6c64' * 1500}", "0 mkdir G0:1 d U0:3", "0 create U0:3 b U0:4", "0 write U0:4 4095 6869",
    "0 link U0:3 c U0:4", "1 take G0:2 1", "1 write G0:2 1 4f")
# some are refused in their middle, when others of their operations have removed, moved, cut and written what stands there
BATCHES = (
    "0 batch unlink U0:3 b U0:4 + unlink U0:3 c U0:4 + create U0:3 b U0:4 + write U0:4 0 6e6577 + create G0:1 d U0:5",
    f"0 batch write U0:4 0 {'41' * 5000} + truncate U0:4 1 + drop 2 + rename U0:3 b U0:3 e U0:4 + unlink U0:3 b U0:4",
    "0 batch unlink U0:3 b U0:4 + unlink U0:3 c U0:4 + create U0:3 b U0:4 + write U0:4 0 6e6577 + create U0:3 f U0:5",
    "0 batch take G0:2 6 + write G0:2 4096 42 + create U0:3 g G0:3 7 + truncate G0:2 3",
    "1 batch take G0:2 2 + truncate G0:2 0 + write G0:2 8192 43 + take G0:3 3 + write G0:3 0 44 + drop 2",
    "1 batch take G0:2 2 + write G0:2 0 45 + take G0:3 3 + write G0:3 0 46 + take G0:1 4 + create G0:1 h U1:5")
ENDED = ("1 undo_last", "0 undo_last", "0 undo_last", "1 undo 8", "0 create U0:3 z U0:9")
# asked behind each of these
QUESTIONS = ("versions", "ls G0:1", "ls U0:3", "cat U0:4 0 5", "cat U0:4 4094 9", "cat G0:2 0 9", "stat U0:4", "stat U0:3", "ihandle U0", "ihandle U1", "ihandle G0")


# A worked script with what it prints: an undo gives a file the bytes that it had, and all but the versions is as it was; then it is grown.
WORKED = (
    ("0 mkdir G0:1 d U0:2", "ok 1"), ("0 create U0:2 f U0:3", "ok 2"), ("0 write U0:3 0 68656c6c6f", "ok 3"), ("mark", None),
    ("0 write U0:3 5 20796f75", "ok 4"), ("cat U0:3 0 9", "68656c6c6f20796f75"), ("0 undo_last", "ok 5"), ("same", "same"),
    ("cat U0:3 0 9", "68656c6c6f"), ("0 truncate U0:3 9000", "ok 6"), ("cat U0:3 4 3", "6f0000"), ("versions", "U0=6 U1=0 G0=0 G1=0"))


def with_questions(changes):
    return [line for change in changes for line in (change, *QUESTIONS)]


SCRIPT = with_questions((*BEGUN, *BATCHES, *ENDED))


@functools.cache
def answers(left_out=None):
    """What the second desk answers to each line, where one of them is left out."""
    desk = desk_model.KeptDesk(USERS, FORMAT)
    return [[NO_MEMORY] if n == left_out else desk_model.answer(desk, line) for n, line in enumerate(SCRIPT)]


def lines_of(said):
    return [line for answer in said for line in answer]


@functools.cache
def lines_at():
    """Of each number of lines that may be printed until then the lines of the script that may answer next: several, where one of a folder
    without names prints nothing."""
    at, places = 0, {}
    for n, answer in enumerate(answers()):
        places.setdefault(at, []).append(n)
        at += len(answer)
    return {**places, at: []}


class Ended:
    """What became of a run: what it printed and told, its status, whether a call was refused, and how many there were."""

    def __init__(self, shim, refused, script):
        reader, writer = os.pipe()
        names = {**os.environ, "LD_PRELOAD": shim, "REFUSED": str(refused), "TELLING": str(writer)}
        words = [PROGRAM, "desk", "--users", str(USERS), "--format", str(FORMAT)]
        given = "".join(line + "\n" for line in script).encode()
        ended = subprocess.run(words, input=given, capture_output=True, timeout=WAIT, check=False, env=names, pass_fds=(writer,))
        os.close(writer)
        with open(reader, "rb") as told:
            self.counted = told.read()
        self.printed, self.told, self.status = ended.stdout.decode().split("\n")[:-1], ended.stderr, ended.returncode
        self.was_refused, calls = self.counted.startswith(b"!"), self.counted.lstrip(b"!")
        self.calls = int(calls) if calls.isdigit() else 0

    def left_out(self):
        """Which line was refused for want of memory and changed nothing, if one was, and all else is as it should be."""
        if NO_MEMORY not in self.printed:
            return None
        may_be = lines_at().get(self.printed.index(NO_MEMORY), [])
        return next((n for n in may_be if self.printed == lines_of(answers(n))), None)

    def kind(self):
        """`alike` where the lines are those of the second desk, `left out` where they are but for one that changed nothing, `ended` where
        the program ended and said why; None else."""
        if self.status == 0 and self.told == b"" and self.printed == lines_of(answers()):
            return "alike"
        if self.status == 0 and self.told == b"" and self.left_out() is not None:
            return "left out"
        is_told = self.told.count(b"\n") == 1 and self.told.startswith(b"sundr: ") and b"memory" in self.told
        is_front = len(self.printed) in lines_at() and self.printed == lines_of(answers())[:len(self.printed)]
        return "ended" if self.status == 1 and is_told and is_front else None

    def __repr__(self):
        wanted = lines_of(answers())
        differs = next((n for n, (x, y) in enumerate(zip(self.printed, wanted)) if x != y), len(self.printed))
        return f"status {self.status}, told {self.told!r}, differs at line {differs}: {self.printed[differs:differs + 3]}, and not {wanted[differs:differs + 3]}"


def numbers(shim, calls):
    """Which calls are refused, one in each run: those that come in batches and in the lines behind them, which take back what still stands,
    and as many others as may be; and how many calls of batches there are."""
    of_batches = set()
    for n, line in enumerate(SCRIPT):
        if line in BATCHES:
            before, until = (Ended(shim, 0, SCRIPT[:count]).calls for count in (n, n + 2))
            of_batches.update(range(before, until + 1))
    others = [n for n in range(1, calls + 1) if n not in of_batches]
    left = max(RUNS - len(of_batches), RUNS // 10)
    return spread(sorted(of_batches), RUNS) + spread(others, left), len(of_batches)


def spread(places, most):
    """So many of the places at most, from the first one on with equal steps."""
    return places[::max(1, -(-len(places) // most))]


def refused_once(at):
    if not shutil.which("cc"):
        yield "there is no C compiler", False
        return
    shim = shims.compiled(at, "refusing", SHIM)
    whole = Ended(shim, 0, SCRIPT)
    yield f"without a refusal all is as it should be: {whole}", whole.kind() == "alike" and not whole.was_refused
    if whole.calls < len(SCRIPT):
        yield f"the program takes its memory from elsewhere than the C library, which it asks for some {whole.calls} times", False
        return
    later = Ended(shim, whole.calls + 1, SCRIPT)
    yield f"no call is refused behind the last one: {later}", later.kind() == "alike" and not later.was_refused and later.calls == whole.calls
    refused, of_batches = numbers(shim, whole.calls)
    with concurrent.futures.ThreadPoolExecutor(RUNS_AT_ONCE) as pool:
        runs = list(zip(refused, pool.map(lambda n: Ended(shim, n, SCRIPT), refused)))
    kinds = [(n, run.kind(), run) for n, run in runs]
    wrong = [(n, run) for n, kind, run in kinds if kind is None or not run.was_refused]
    yield f"a line that is refused for want of memory changes nothing: {len(wrong)} of {len(runs)}, {wrong[:3]}", wrong == []
    met = {run.left_out() for _, kind, run in kinds if kind == "left out"}
    unmet = [line[:40] for n, line in enumerate(SCRIPT) if line in BATCHES and n not in met]
    yield f"each batch is refused so by some call: {unmet}", unmet == []
    print(f"memory: {whole.calls} calls, {of_batches} of them in batches and the lines behind them; {len(runs)} runs with one refused: "
          f"{ {kind: sum(it[1] == kind for it in kinds) for kind in ('left out', 'ended', 'alike')} }")


def worked_refused_once(shim):
    """The worked script with each call for memory refused, for one after the other until none is: what stands before the line that is refused
    is as it is without that, and that line is answered so, or the run ends with status 1 and says why."""
    script, printed = [line for line, _ in WORKED], [answer for _, answer in WORKED if answer is not None]
    whole = Ended(shim, 0, script)
    yield f"the worked script prints what it should: {whole.printed}", whole.status == 0 and whole.printed == printed
    with concurrent.futures.ThreadPoolExecutor(RUNS_AT_ONCE) as pool:
        runs = list(pool.map(lambda n: (n, Ended(shim, n, script)), range(1, whole.calls + 2)))
    wrong, kinds = [], {"answered": 0, "ended": 0, "passed by": 0}
    for n, run in runs:
        at = run.printed.index(NO_MEMORY) if NO_MEMORY in run.printed else len(run.printed)
        is_answered, is_whole = run.status == 0 and at < len(run.printed), run.status == 0 and run.printed == printed
        is_ended = run.status == 1 and at == len(run.printed) and b"memory" in run.told
        if run.printed[:at] != printed[:at] or not (is_answered or is_ended or is_whole) or run.was_refused != (n <= whole.calls):
            wrong.append((n, run.status, run.printed, run.told))
        kinds["answered" if is_answered else "ended" if is_ended else "passed by"] += 1
    yield f"the worked script is answered as it should be until a call is refused: {wrong[:3]}", wrong == []
    yield f"a line of the worked script is refused: {kinds}", kinds["answered"] > 0
    print(f"memory: a worked script: {whole.calls} calls, {len(runs)} runs: {kinds}")


def main():
    if not tally.is_there("memory", PROGRAM):
        return 1
    with tempfile.TemporaryDirectory() as at:
        results = dict(refused_once(at))
        if shutil.which("cc"):
            results |= dict(worked_refused_once(shims.compiled(at, "refusing", SHIM)))
        return tally.told("memory", results)


if __name__ == "__main__":
    sys.exit(main())
