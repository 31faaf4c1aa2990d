#!/usr/bin/env python3
"""Compares the table of calls in docs/CLAIMS.md with the code: each call that the table has is a public function of that crate, each
clause that is named there stands at it, and no public function that can refuse is left out. Its last column names tests by words, each of
which is explained above the table by a script or a crate that there is; whether these tests meet the call, bench/met.py tells.

usage: claims.py

Prints a line for each call of which that doesn't hold, and last 'N passed, M failed'.
"""
import glob
import os
import re
import sys

import tally

TOP = os.path.dirname(os.path.dirname(os.path.abspath(__file__)))
# Crates that nothing stands on, or that are no part of the product.
OTHERS = {"sundr", "su_bad", "su_tests", "su_loopback", "su_client_runs", "su_restart", "su_stored_tests", "lms_bench", "desk_bench", "refusals"}
FUNCTION = re.compile(r"(?m)^ *(?:#\[[^\n]*\]\n *)*(pub )?(?:const )?fn (\w+)")
CLAUSE = re.compile(r"\bensures(?: (\w+))? \{")
WORD = re.compile(r"`([^`]+)`")


def generics_off(text):
    """A text without what stands in angle brackets."""
    kept, depth = "", 0
    for at, it in enumerate(text):
        depth += it == "<"
        kept += it if depth == 0 else ""
        depth -= it == ">" and text[at - 1] not in "-="
    return kept


def heading(text, start):
    """What stands of a function from a place on, to its body or to where a trait ends it."""
    depth = 0
    for at in range(start, len(text)):
        it = text[at]
        if depth == 0 and (it == ";" or it == "{" and not re.search(r"\b(?:ensures|requires)(?: \w+)? $", text[max(0, at - 40):at])):
            return text[start:at]
        depth += (it in "({[") - (it in ")}]")
    return text[start:]


def functions_of(path):
    """The functions of a file: the type or trait that each belongs to, its name, whether it is public, and its heading."""
    text, owner, is_open, starts = open(path, encoding="utf-8").read(), "", False, {}
    for found in re.finditer(r"(?m)^(?:pub )?(impl|trait)\b([^{]*)\{?|^\}", text):
        words = generics_off(found[2] or "").split(" where")[0].replace(" Drop for", "")
        if found[1] is None:
            owner, is_open = "", False
        else:
            owner, is_open = re.sub(r"\W.*", "", words.split(" for ")[-1].strip()), found[1] == "trait" or " for " in words
        starts[found.start()] = owner, is_open
    for found in FUNCTION.finditer(text):
        before = [starts[it] for it in starts if it < found.start()] or [("", False)]
        yield before[-1][0], found[2], bool(found[1]) or before[-1][1], heading(text, found.start(2))


def exported(crate):
    """The names that a crate gives to others."""
    text = open(f"{TOP}/crates/{crate}/src/lib.rt", encoding="utf-8").read()
    return {word for used in re.findall(r"pub use ([^;]*);", text) for word in re.findall(r"\w+", used)}


def is_refusable(head):
    """Whether a function answers a result that may be a refusal."""
    answered = re.search(r"->\s*(Result<.*)", re.split(r"\b(?:ensures|requires)\b", head)[0], re.S)
    return answered is not None and "Refusal" in answered[1]


def sources():
    return sorted(glob.glob(f"{TOP}/crates/*/src/**/*.rt", recursive=True))


def calls_of_code():
    """Each public call of the product's crates: its clauses, and whether it can refuse."""
    calls = {}
    for path in sources():
        crate = path.removeprefix(f"{TOP}/crates/").split("/")[0]
        names = set() if crate in OTHERS else exported(crate)
        for owner, name, is_public, head in functions_of(path):
            if is_public and (owner or name) in names:
                clauses, refusable = calls.get((crate, owner, name), (set(), False))
                calls[crate, owner, name] = clauses | set(CLAUSE.findall(head)), refusable or is_refusable(head)
    return calls


def section():
    """The section of the table: what stands above it, and the table."""
    return open(f"{TOP}/docs/CLAIMS.md", encoding="utf-8").read().split("\n## Calls that can refuse\n")[1].split("\n## ")[0]


def rows_of_table():
    """The rows of the table: the crate, the calls, the clauses that are named of them, and the cell of their tests."""
    for line in section().split("\n"):
        cells = [it.strip() for it in line.strip().strip("|").split("|")]
        if len(cells) == 6 and cells[0].startswith("`"):
            yield cells[0].strip("`"), WORD.findall(cells[1]), [WORD.findall(it) for it in cells[2:5]], cells[5]


def words_of_tests():
    """The words of the last column, of two kinds (tests that meet want of memory, and those that meet what lacks, lies or fails), each with
    the scripts and crates that explain it."""
    kinds = []
    for line in section().split("\n| ")[0].split("\n"):
        if line.startswith("Want of memory") or line.startswith("What lacks"):
            kinds.append({})
        if kinds and line.startswith("- `"):
            words, _, meaning = line.removeprefix("- ").partition(": ")
            kinds[-1].update(dict.fromkeys(WORD.findall(words), WORD.findall(meaning)))
    return kinds


def is_there(name):
    """Whether a script or a crate that explains a word is there."""
    return os.path.exists(f"{TOP}/{name}" if "/" in name else f"{TOP}/crates/{name}")


def wrong_tests(cell, kinds):
    """What of a cell of tests isn't as it should be: before a semicolon it names tests of the first kind, or says that there are none or
    that no memory is taken, and behind it tests of the second kind, or that there are none."""
    parts = [it.strip() for it in cell.split(";")]
    if cell == "not called" or len(parts) > len(kinds):
        return [] if cell == "not called" else [cell]
    return [part for n, (part, words) in enumerate(zip(parts, kinds))
            if part not in ("none", "takes none")[:2 - n] and (WORD.sub("", part).strip() or not set(WORD.findall(part)) <= set(words) or part == "")]


def main():
    calls, told, kinds = calls_of_code(), [], words_of_tests()
    results = {"the words of both kinds of tests are explained": len(kinds) == 2 and all(kinds)}
    for place, word, meant in [(n, *it) for n, words in enumerate(kinds) for it in words.items()]:
        lacking = [it for it in meant if not is_there(it)]
        is_used = any(word in WORD.findall(part) for row in rows_of_table() for part in row[3].split(";")[place:place + 1])
        results[f"`{word}` is used, {is_used}, and explained by what is there: {meant}, lacking {lacking}"] = is_used and meant != [] and lacking == []
    for crate, names, cells, tests in rows_of_table():
        wrong = wrong_tests(tests, kinds)
        results[f"{crate} {names}: no words of tests {wrong}"] = wrong == []
        for name in names:
            owner, _, call = name.rpartition("::")
            found = calls.get((crate, owner, call))
            told.append((crate, owner, call))
            if found is None:
                results[f"{crate} {name}: there is no such public call"] = False
                continue
            lacking = {it for cell in cells for it in cell} - found[0]
            results[f"{crate} {name}: has no clause {sorted(lacking)}"] = not lacking
    results[f"each call stands in one row: {sorted(it for it in set(told) if told.count(it) > 1)}"] = len(told) == len(set(told))
    for call, (_, refusable) in calls.items():
        if refusable and call not in told:
            results[f"{call[0]} {call[1]}::{call[2]}: can refuse, and isn't in the table"] = False
    return tally.told("claims", results)


if __name__ == "__main__":
    sys.exit(main())
