#!/usr/bin/env python3
"""Tries the script `sundr` on small copies of the tree, where a command `rt` of this test stands for the kit's: it notes how it
was called, and "builds" a program that prints its arguments. Nothing is proved.

Prints a line for each case that isn't as it should be, and last 'N passed, M failed'.
"""
import os
import shutil
import signal
import subprocess
import sys
import tempfile
import time

import tally

TOP = os.path.dirname(os.path.dirname(os.path.abspath(__file__)))

# Of a crate it prints what rt prints, notes which libraries below it aren't there, and leaves one; `rt run` writes the program, which
# has the first line of the source in it.
RT = r"""#!/usr/bin/env bash
echo "$1 $(basename "$PWD")" >> "$CALLS"
[ "$1" != run ] || echo "$*" > "$CALLS.run"
echo "so far: 3 of 7 functions checked"
sleep "${RT_SLEEPS:-0}"
[ ! -e "$TREE/refuse" ] || { echo "error: not proved"; exit 1; }
[ ! -e "$TREE/edit" ] || { rm "$TREE/edit"; echo edited > "$TREE/crates/sundr/src/main.rt"; }
case "$(basename "$PWD")" in middle) below=low ;; sundr) below="low middle" ;; esac
for it in ${below:-}; do [ -e "../$it/out/rlib/stamp" ] || echo "the library $it isn't there" >> "$CALLS"; done
[ "$1" = run ] || { mkdir -p out/rlib && touch out/rlib/stamp; exit 0; }
mkdir -p out
printf '#!/bin/sh\necho "%s: $*"\ncat\nexit 7\n' "$(cat src/main.rt)" > out/sundr
chmod +x out/sundr
"""
CRATES = "# lowest first\nlow: sha2\naside: low\nmiddle: low\nsundr: middle clap\n"


class Tree:
    """A copy of the launcher over four small crates, one of which the program doesn't stand on."""

    def __init__(self, room, name):
        self.top, self.calls_file = f"{room}/{name}", f"{room}/{name} calls"
        shutil.rmtree(self.top, ignore_errors=True)
        for crate in ("low", "aside", "middle", "sundr"):  # aside isn't below sundr
            os.makedirs(f"{self.top}/crates/{crate}/src")
        for script in ("sundr", "prove"):
            shutil.copy(f"{TOP}/{script}", self.top)
        shutil.copytree(f"{TOP}/kit", f"{self.top}/kit")
        self.write("crates.txt", CRATES)
        self.write("crates/aside/stdout", "")
        self.write("crates/sundr/src/main.rt", "first")
        self.path = f"{room}/bin:/usr/bin:/bin"
        os.makedirs(f"{room}/bin", exist_ok=True)
        with open(f"{room}/bin/rt", "w", encoding="utf-8") as file:
            file.write(RT)
        os.chmod(f"{room}/bin/rt", 0o755)

    def write(self, path, text):
        with open(f"{self.top}/{path}", "w", encoding="utf-8") as file:
            file.write(text)

    def start(self, *arguments, by=None, folder="/", start_new_session=False, **environment):
        there = {"CALLS": self.calls_file, "TREE": self.top, "PATH": self.path, "TMPDIR": os.path.dirname(self.top), **environment}
        return subprocess.Popen(
            [by or f"{self.top}/sundr", *arguments], cwd=folder, env=there, stdin=subprocess.PIPE,
            stdout=subprocess.PIPE, stderr=subprocess.PIPE, text=True, start_new_session=start_new_session,
            # (a test that runs in the background of a script may ignore the signal, and a shell can't take that back)
            preexec_fn=lambda: signal.signal(signal.SIGINT, signal.SIG_DFL))

    def run(self, *arguments, given="", **how):
        """Returns what a run prints, what it tells, and its status."""
        started = self.start(*arguments, **how)
        printed, told = started.communicate(given, timeout=60)
        return printed, told, started.returncode

    def calls(self):
        """Returns how rt was called since the last look."""
        if not os.path.exists(self.calls_file):
            return []
        with open(self.calls_file, encoding="utf-8") as file:
            lines = file.read().split("\n")[:-1]
        os.remove(self.calls_file)
        return lines


def has_v3():
    """Whether this machine's processor has what x86-64-v3 asks for."""
    with open("/proc/cpuinfo", encoding="utf-8") as file:
        flags = next((line.split() for line in file if line.startswith("flags")), [])
    return {"avx2", "bmi1", "bmi2", "fma", "f16c", "movbe", "abm"} <= set(flags)


ALL = ["lib low", "lib middle", "run sundr"]


def first_run(tree):
    printed, told, status = tree.run("desk", "a  b", given="in\n")
    yield "builds_at_first", tree.calls() == ALL
    with open(f"{tree.calls_file}.run", encoding="utf-8") as file:
        yield "builds_for_the_processor", (" --cpu x86-64-v3 -- " in file.read()) == has_v3()
    yield "prints_what_the_program_prints", (printed, status) == ("first: desk a  b\nin\n", 7)
    yield "tells_how_far_it_is", "sundr: proving middle, crate 2 of 3: 3 of 7 functions, minute 0" in told
    printed, told, status = tree.run("desk")
    yield "builds_once", (tree.calls(), printed, told, status) == ([], "first: desk\n", "", 7)


def changes(tree):
    tree.run()
    tree.calls()
    tree.write("crates/sundr/src/main.rt", "second")
    yield "builds_after_an_edit", tree.run()[0] == "second: \n" and tree.calls() == ALL
    tree.write("crates/low/src/new.rt", "")
    tree.run()
    yield "builds_after_a_new_file", tree.calls() == ALL
    os.rename(f"{tree.top}/crates/low/src/new.rt", f"{tree.top}/crates/low/src/newer.rt")
    tree.run()
    yield "builds_after_another_name", tree.calls() == ALL
    old = os.stat(f"{tree.top}/crates/sundr/src/main.rt")
    tree.write("crates/sundr/src/main.rt", "third!")
    os.utime(f"{tree.top}/crates/sundr/src/main.rt", (old.st_atime, old.st_mtime))
    yield "builds_whatever_the_time_of_an_edit", tree.run()[0] == "third!: \n" and tree.calls() == ALL
    tree.write("crates/sundr/out/sundr", "#!/bin/sh\necho another\n")
    yield "runs_no_program_of_others", tree.run()[0] == "third!: \n" and tree.calls() == ALL
    tree.write("README.md", "")
    tree.run()
    tree.write("crates/aside/src/lib.rt", "")
    tree.run()
    yield "builds_nothing_for_what_is_aside", tree.calls() == []
    tree.write("crates/sundr/src/main.rt", "fourth")
    tree.write("edit", "")
    yield "builds_again_after_an_edit_meanwhile", tree.run()[0] == "edited: \n" and tree.calls() == ALL + ALL


def texts(tree):
    tree.run()
    tree.write("crates/sundr/src/main.rt", "second")
    tree.calls()
    for words in (["--version"], ["--help"], ["-h"], ["desk", "--help"]):
        printed, told, _ = tree.run(*words)
        yield f"answers_at_once_{'_'.join(words)}", printed.startswith("first: ") and "older" in told
    yield "proves_nothing_for_a_text", tree.calls() == []
    yield "proves_for_what_isnt_a_text", tree.run("desk", "--help", "x")[0].startswith("second: ")
    yield "tells_nothing_of_a_program_of_today", tree.run("--version")[1] == ""


def words(tree):
    printed, told, status = tree.run("clinet", "--port", "1")
    is_told = "no command clinet" in told and "client" in told
    yield f"builds_nothing_for_no_command: {told}", (printed, status, tree.calls()) == ("", 2, []) and is_told
    yield "builds_for_a_command", tree.run("desk")[0] == "first: desk\n" and tree.calls() == ALL
    tree.run("clinet")
    yield "a_program_of_today_tells_it_itself", tree.run("clinet")[0] == "first: clinet\n"


def stops(tree):
    """A build is stopped once the first crate's proof began, and two seconds later. (Not before: a signal that comes while bash begins a
    program may be lost, as the copy of bash drops it, and bash takes it for one that the program dealt with.)"""
    room = f"{tree.top} logs"
    os.makedirs(room)
    for seconds in (0.2, 2):
        tree.calls()
        started = tree.start("desk", RT_SLEEPS="5", TMPDIR=room, start_new_session=True)
        for _ in range(1200):
            if os.path.exists(tree.calls_file):
                break
            time.sleep(0.05)
        is_there = os.listdir(room)
        time.sleep(seconds)
        os.killpg(started.pid, signal.SIGINT)
        started.communicate("", timeout=60)
        ended = len(is_there), os.listdir(room), started.returncode
        yield f"a_build_that_is_stopped_after_{seconds}_s_leaves_no_log: {ended}", ended == (1, [], 130)
    yield "and_is_gone_on_with", tree.run("desk")[0] == "first: desk\n"


def places(tree):
    room = os.path.dirname(tree.top)
    os.makedirs(f"{room}/elsewhere/bin", exist_ok=True)
    os.symlink(os.path.relpath(f"{tree.top}/sundr", f"{room}/elsewhere/bin"), f"{room}/elsewhere/bin/sundr")
    os.symlink(f"{room}/elsewhere/bin/sundr", f"{room}/elsewhere/link")
    yield "runs_by_a_link", tree.run(by=f"{room}/elsewhere/link")[0] == "first: \n"
    yield "builds_nothing_beside_a_link", sorted(os.listdir(f"{room}/elsewhere/bin")) == ["sundr"]
    yield "runs_by_a_name_in_its_folder", tree.run(by="./sundr", folder=tree.top)[0] == "first: \n"
    tree.path = f"{room}/elsewhere/bin:{tree.path}"
    yield "runs_by_the_path", tree.run("-c", "sundr one", by="/bin/bash", folder="/tmp")[0] == "first: one\n"


def together(tree):
    first = tree.start(RT_SLEEPS="0.5")
    time.sleep(0.4)
    second = tree.start(RT_SLEEPS="0.5")
    both = [it.communicate("", timeout=60) for it in (first, second)]
    yield "two_at_once_build_once", tree.calls() == ALL
    yield "two_at_once_both_run", [it[0] for it in both] == ["first: \n", "first: \n"]
    yield "the_second_says_that_it_waits", "waits" in both[1][1] and "waits" not in both[0][1]


def faults(tree):
    tree.write("refuse", "")
    printed, told, status = tree.run()
    yield "runs_nothing_that_isnt_proved", (printed, status) == ("", 1) and "error: not proved" in told
    yield "says_which_crate", "sundr: low isn't proved" in told
    os.remove(f"{tree.top}/refuse")
    tree.run()
    tree.path = "/usr/bin:/bin"
    yield "needs_no_rt_once_built", tree.run()[0] == "first: \n"
    tree.write("crates/sundr/src/main.rt", "second")
    printed, told, status = tree.run()
    yield "says_that_rt_is_missing", (printed, status) == ("", 1) and "no command rt" in told and "README.md" in told


def main():
    # (a program that was started in the background of a shell leaves this signal ignored, and then those that it starts can't be
    # stopped by it)
    signal.signal(signal.SIGINT, signal.default_int_handler)
    results = {}
    with tempfile.TemporaryDirectory() as room:
        for part in (first_run, changes, texts, words, stops, places, together, faults):
            results.update(part(Tree(room, f"a tree for {part.__name__}")))
    return tally.told("launcher", results)


if __name__ == "__main__":
    sys.exit(main())
