#!/usr/bin/env python3
"""Tries the program `refusals` where one call for memory is refused, for one after the other until a run meets none, by the library of
failing.py: rows of signatures, lists of commits, plans, views, books, shared items, and of desks, forests and trees that are left on a store
before each call, in which a call that is refused has changed nothing, and answers once more as the row says; or the values with which a row
begins couldn't be made, and are made anew; or the program ends with status 1 where its start or its output wants the memory. Each of these
rows meets a refused call. (Of a desk all of which is in memory memory.py tries each call for memory.)

Prints a line for each case that isn't as it should be, and last 'N passed, M failed'.
"""
import concurrent.futures
import os
import shutil
import subprocess
import sys
import tempfile

import failing
import tally

HERE = os.path.dirname(os.path.abspath(__file__))
PROGRAM = os.environ.get("REFUSALS", f"{os.path.dirname(HERE)}/crates/refusals/out/refusals")
WAIT = 60  # seconds that a run may take at most
RUNS_AT_ONCE = 4
RUNS = 600  # of a row at most: with more calls some are passed over, with equal steps

GOOD = "as it should be"
ANEW = f"{GOOD}, with values that were made anew"
AGAIN = f"{GOOD}, with a call that was refused, and made once more"
# The rows that take memory where a call of them could be refused; what fails within the others are reads, writes and calls of a source.
ROWS = (
    "as many signatures as leaves", "lists that don't follow", "a wrong i-handle", "plans of two users", "two seats of a book",
    "changes of a desk that is left on its store", "questions to a desk that is left on its store",
    "plans on a desk that is left on its store", "what stands in the way, on a desk that is left on its store",
    "operations on a forest that is left on its store", "trees that are left on a store", "parts of a forest that are left on a store",
    "each call of a view", "why an operation isn't undone", "steps of a book", "turns at a shared book", "items that are shared",
    "inodes in memory", "a forest in memory", "what is told of a forest that is left on its store", "changes of a desk in a row, and a draft",
    "what is spelled",
)
TOLD = f"{os.path.dirname(HERE)}/crates/refusals/stdout"  # what the program prints, a line for each of its rows


def places():
    """The place of each row, from 1, by its name."""
    with open(TOLD, encoding="utf-8") as lines:
        return {line.partition(": ")[0]: place for place, line in enumerate(lines, 1)}


PLACES = places()


class Ended:
    """What a row says where the call for memory of that number is refused, and whether that came."""

    def __init__(self, library, name, number):
        self.number, told = number, failing.Told(failing.Shim(library, "growth"), number)
        words = [PROGRAM, str(PLACES[name])]
        ended = subprocess.run(words, stdin=subprocess.DEVNULL, capture_output=True, timeout=WAIT, check=False, **told.how)
        told.read()
        self.met, self.calls, self.status, self.told = told.met, told.calls, ended.returncode, ended.stderr
        row, _, self.said = ended.stdout.decode().removesuffix("\n").partition(": ")
        self.is_row = row == name

    def kind(self):
        """What came of it; none where it isn't as it should be."""
        kinds = {GOOD: "whole", ANEW: "anew", AGAIN: "again"}
        if self.status == 0 and self.is_row and self.told == b"":
            return kinds.get(self.said)
        is_told = b"NoMemory" in self.told or b"memory" in self.told or b"OutOfMemory" in self.told
        return "ended" if self.status == 1 and self.said == "" and is_told else None

    def __repr__(self):
        return f"call {self.number}: status {self.status}, {self.said!r}, told {self.told!r}"


def row_refused(library, name):
    whole = Ended(library, name, 0)
    yield f"{name}: without a refusal: {whole}", whole.kind() == "whole" and not whole.met
    with concurrent.futures.ThreadPoolExecutor(RUNS_AT_ONCE) as pool:
        numbers = [*failing.spread(whole.calls, RUNS), whole.calls + 100]
        runs = list(pool.map(lambda number: Ended(library, name, number), numbers))
    yield f"{name}: nothing is refused behind its last call: {runs[-1]}", runs[-1].kind() == "whole" and not runs[-1].met
    wrong = [run for run in runs if run.kind() is None]
    yield f"{name}: a refusal changes nothing: {len(wrong)} of {len(runs)}, {wrong[:3]}", wrong == []
    # (threads take memory in their own order, so the last calls of a run may not come)
    unmet = [run.number for run in runs[:-1] if not run.met]
    yield f"{name}: the calls are refused: {unmet}", len(unmet) * 10 <= len(runs)
    kinds = {kind: sum(run.kind() == kind for run in runs) for kind in ("again", "anew", "ended", "whole")}
    yield f"{name}: a call of it is refused: {kinds}", kinds["again"] > 0
    print(f"refusals: {name}: {whole.calls} calls for memory, {len(runs)} runs: {kinds}")


def refused_once(library):
    for name in ROWS:
        yield from row_refused(library, name)


def main():
    if not tally.is_there("refusals", PROGRAM):
        return 1
    if not shutil.which("cc"):
        return tally.told("refusals", {"there is a C compiler": False})
    with tempfile.TemporaryDirectory() as at:
        return tally.told("refusals", dict(refused_once(failing.compiled(at))))


if __name__ == "__main__":
    sys.exit(main())
