#!/usr/bin/env python3
"""Tries what stands around the command line for people: wrong lines, the completions and the page of the manual beside the help
of the program, and what `install` and `package` make.

SUNDR names another program to try. Prints a line for each case that isn't as it should be, and last 'N passed, M failed'.
"""
import hashlib
import os
import re
import shlex
import shutil
import subprocess
import sys
import tarfile
import tempfile

import tally

TOP = os.path.dirname(os.path.dirname(os.path.abspath(__file__)))
PROGRAM = os.path.abspath(os.environ.get("SUNDR", f"{TOP}/crates/sundr/out/sundr"))

INIT = ["init", "team", "--server", "localhost:7000", "--team", "team.txt", "--user", "ann", "--key", "key"]
DIGEST = "3f1a77c0 9be04d52 00010203 04050607 08090a0b 0c0d0e0f f0f1f2f3 f4f5f6f7"
LARGEST = str(2 ** 64 - 1)
EACH = True  # whether a put knows --each


def with_server(place):
    return [place if it == "localhost:7000" else it for it in INIT]


def without(option):
    at = INIT.index(option)
    return INIT[:at] + INIT[at + 2:]


# Command lines that are wrong.
WRONG = {
    "a_folder_of_no_team": without("--team"),
    "a_folder_of_no_user": without("--user"),
    "a_folder_of_no_key": without("--key"),
    "a_folder_at_no_server": without("--server"),
    "no_folder": [it for it in INIT if it != "team"],
    "a_new_folder_in_a_folder": [*INIT, "--in", "team"],
    "a_server_without_a_port": with_server("localhost"),
    "a_server_without_a_host": with_server(":7000"),
    "a_server_of_nothing": with_server(""),
    "a_server_at_port_0": with_server("localhost:0"),
    "a_server_at_a_large_port": with_server("localhost:65536"),
    "a_server_at_a_port_with_a_sign": with_server("localhost:+7000"),
    "a_server_at_a_port_that_is_no_number": with_server("localhost:http"),
    "a_server_of_an_address_without_brackets": with_server("::1:7000"),
    "a_server_of_an_open_bracket": with_server("[::1:7000"),
    "a_put_of_nothing": ["put"],
    "a_put_to_nowhere": ["put", "local"],
    "a_put_with_a_value": ["put", "--over=yes", "local", "/"],
    "a_put_of_each_with_a_value": ["put", "--each=yes", "local", "/"],
    "a_put_in_json": ["put", "--json", "local", "/"],
    "a_get_of_nothing": ["get"],
    "a_get_to_nowhere": ["get", "/path"],
    "a_get_of_two": ["get", "/one", "/two", "local"],
    "a_list_of_two": ["ls", "/one", "/two"],
    "a_cat_of_nothing": ["cat"],
    "a_cat_of_two": ["cat", "/one", "/two"],
    "no_folders": ["mkdir"],
    "a_name_alone": ["mv", "/one"],
    "three_names": ["mv", "/one", "/two", "/three"],
    "a_move_of_a_folder_elsewhere": ["mv", "-r", "/one", "/two"],
    "nothing_to_take_away": ["rm"],
    "a_link_of_one_name": ["ln", "/one"],
    "a_history_of_no_lines": ["history", "-n", "0"],
    "a_history_of_fewer_lines": ["history", "-n", "-1"],
    "a_history_of_some_lines": ["history", "-n", "some"],
    "a_history_of_two": ["history", "/one", "/two"],
    "a_commit_0": ["show", "0"],
    "a_commit_that_is_no_number": ["show", "last"],
    "no_commit": ["show"],
    "a_commit_that_is_too_large": ["show", str(2 ** 64)],
    "a_diff_of_commit_0": ["diff", "0"],
    "a_diff_in_json": ["diff", "--json", "1"],
    "an_undo_of_nothing": ["undo"],
    "an_undo_of_commit_0": ["undo", "0"],
    "an_undo_from_commit_0": ["undo", "0..2"],
    "an_undo_backwards": ["undo", "3..2"],
    "an_undo_without_an_end": ["undo", "3.."],
    "an_undo_without_a_first": ["undo", "..3"],
    "an_undo_of_three_numbers": ["undo", "1..2..3"],
    "an_undo_with_three_points": ["undo", "1...3"],
    "an_undo_with_a_sign": ["undo", "+1"],
    "an_undo_of_two_words": ["undo", "1", "2"],
    "an_undo_that_is_too_large": ["undo", f"1..{2 ** 64}"],
    "an_undo_in_json": ["undo", "--json", "1"],
    "why_of_several": ["undo", "--why", "1..2"],
    "blockers_of_several": ["undo", "--with-blockers", "1..2"],
    "blockers_in_json": ["undo", "--with-blockers", "--json", "1"],
    "why_with_blockers": ["undo", "--why", "--with-blockers", "1"],
    "a_status_of_something": ["status", "/path"],
    "a_comparison_of_nothing": ["compare"],
    "a_comparison_without_groups": ["compare", "1"],
    "a_comparison_of_no_groups": ["compare", "1", ""],
    "a_comparison_of_no_number": ["compare", "one", "3f1a77c0"],
    "a_comparison_of_half_a_group": ["compare", "1", "3f1a"],
    "a_comparison_of_a_group_and_a_half": ["compare", "1", "3f1a77c0 9be0"],
    "a_comparison_of_groups_without_a_blank": ["compare", "1", "3f1a77c09be04d52"],
    "a_comparison_of_no_digits": ["compare", "1", "3f1a77cg"],
    "a_comparison_of_a_sign": ["compare", "1", "+f1a77c0"],
    "a_comparison_of_nine_groups": ["compare", "1", DIGEST, "00000000"],
    "a_verification_of_something": ["verify", "log"],
    "a_verification_in_json": ["verify", "--json"],
    "a_rekey_of_something": ["rekey", "key"],
    "two_places": ["where", "localhost:1", "localhost:2"],
    "a_place_without_a_port": ["where", "localhost"],
    "a_folder_without_a_name": ["ls", "--in"],
    "two_folders": ["ls", "--in", "one", "--in", "two"],
    "an_option_that_there_is_not": ["ls", "--all"],
}

# Command lines that aren't wrong, whatever becomes of them in a folder that is empty.
RIGHT = {
    "a_new_folder": INIT,
    "an_address_in_brackets": with_server("[::1]:7000"),
    "a_put": ["put", "-r", "--over", "-n", "one", "two", "/path"],
    "a_put_of_one": ["put", "one", "/path", "--in", "team"],
    "a_put_of_each": ["put", "-r", "--each", "one", "/path"],
    "a_get": ["get", "--recursive", "--over", "/path", "local"],
    "a_list": ["ls"],
    "a_list_in_json": ["ls", "-l", "--json", "--in=team", "/"],
    "a_cat": ["cat", "/path"],
    "some_folders": ["mkdir", "-p", "/one", "/two"],
    "another_name": ["mv", "/one", "/two"],
    "some_names": ["rm", "-r", "/one", "/two"],
    "a_link": ["ln", "/one", "/two"],
    "a_history": ["history", "-n", "1", "--json", "/path"],
    "a_commit": ["show", "--json", "1"],
    "the_largest_commit": ["undo", LARGEST],
    "a_diff": ["diff", "1"],
    "an_undo": ["undo", "2"],
    "an_undo_of_several": ["undo", f"2..{LARGEST}"],
    "an_undo_of_one_twice": ["undo", "2..2"],
    "why": ["undo", "2", "--why", "--json"],
    "with_blockers": ["undo", "--with-blockers", "2"],
    "a_status": ["status", "--json"],
    "a_comparison": ["compare", "214", DIGEST],
    "a_comparison_by_words": ["compare", "214", *DIGEST.split()],
    "a_comparison_of_one_group": ["compare", "0", "3F1A77C0"],
    "a_verification": ["verify"],
    "a_rekey": ["rekey"],
    "a_place": ["where"],
    "another_place": ["where", "localhost:7001"],
}
if EACH:
    WRONG |= {"each_with_a_value": ["put", "--each=yes", "local", "/"], "each_of_a_get": ["get", "--each", "/path", "local"]}
    RIGHT |= {
        "a_put_of_each": ["put", "-r", "--each", "--over", "-n", "one", "two", "/path"],
        "a_put_of_one_and_each": ["put", "one", "/path", "--each"]}

# The files of the state folder that the page of the manual tells of.
STATE = {".sundr/" + it for it in ("team", "where", "me", "log", "times", "seen", "lock")}

# What is installed: the file of the repository, and its mode.
INSTALLED = {
    "bin/sundr": (PROGRAM, 0o755),
    "share/bash-completion/completions/sundr": (f"{TOP}/completions/sundr.bash", 0o644),
    "share/zsh/site-functions/_sundr": (f"{TOP}/completions/_sundr", 0o644),
    "share/fish/vendor_completions.d/sundr.fish": (f"{TOP}/completions/sundr.fish", 0o644),
    "share/man/man1/sundr.1": (f"{TOP}/sundr.1", 0o644),
    "share/doc/sundr/LICENSE-APACHE": (f"{TOP}/LICENSE-APACHE", 0o644),
    "share/doc/sundr/LICENSE-MIT": (f"{TOP}/LICENSE-MIT", 0o644),
}

LONG = re.compile(r"--([a-z][a-z-]*)")


def run(arguments, folder="/", **environment):
    """Returns what a program prints, what it tells, and its status."""
    ended = subprocess.run(
        arguments, cwd=folder, env={**os.environ, **environment}, stdin=subprocess.DEVNULL, capture_output=True, text=True,
        timeout=120)
    return ended.stdout, ended.stderr, ended.returncode


def read(path):
    with open(f"{TOP}/{path}", encoding="utf-8") as file:
        return file.read()


def commands():
    """The subcommands that the program's help lists, in order."""
    printed = run([PROGRAM, "--help"])[0]
    listed = re.search(r"(?ms)^Commands:\n(.*?)\n\n", printed)
    return re.findall(r"(?m)^  (\w+)", listed[1]) if listed else []


def options(name):
    """The long and the short options of a subcommand, by its help."""
    printed = run([PROGRAM, name, "--help"])[0]
    told = re.search(r"(?ms)^Options:\n(.*)", printed)
    if not told:
        return {}
    return {long: short for short, long in re.findall(r"(?m)^ +(?:-(\w), +)?--([a-z][a-z-]*)", told[1].split("\n\n\n")[0])}


def bash_offers(names):
    """What the completion for bash offers: the subcommands, and of each its long options."""
    script = 'source "$0"; at() { COMP_WORDS=(sundr "$@"); COMP_CWORD=$#; COMPREPLY=(); _sundr sundr "${!#}" "${COMP_WORDS[$#-1]}"; echo "${COMPREPLY[*]}"; }; at ""; at --; at help ""; shift; for it; do at "$it" --; done'
    lines = run(["bash", "-c", script, f"{TOP}/completions/sundr.bash", "bash", *names])[0].split("\n")
    first, begun, helped, rest = lines[0].split(), lines[1].split(), lines[2].split(), lines[3:]
    offered = {name: set(LONG.findall(line)) for name, line in zip(names, rest)}
    return [it for it in first if it[0] != "-"], set(begun), helped, offered


def zsh_offers():
    """The same of that for zsh, by its text, with short options."""
    text = read("completions/_sundr")
    listed = re.search(r"(?ms)commands=\((.*?)^ +\)", text)[1]
    shared = dict(re.findall(r"(?m)^    (\w+)=\((.*)\)$", text))
    offered = {}
    for name, block in re.findall(r"(?ms)^        (\w+)\)\n(.*?);;", text):
        block += " ".join(shared[it] for it in re.findall(r"\$(\w+)", block) if it in shared)
        # (without the texts in brackets, and what an option excludes)
        block = re.sub(r"\[[^\]]*\]", "[]", re.sub(r"\(-[^)]*\)", "", block))
        offered[name] = set(LONG.findall(block)), set(re.findall(r"\{-(\w),", block))
    return re.findall(r"(?m)^ +'(\w+):", listed), offered


def fish_offers(names):
    """The same of that for fish, by its lines."""
    listed, offered = [], {name: (set(), set()) for name in names}
    for line in read("completions/sundr.fish").split("\n"):
        words = shlex.split(line) if line.startswith("complete ") else []
        told = {words[k]: words[k + 1] for k in range(len(words) - 1) if words[k] in ("-n", "-l", "-s", "-a")}
        where = told.get("-n", "").split()
        if where == ["__sundr_begins"] and "-a" in told:
            listed.append(told["-a"])
        at = where[1:] if where[:1] == ["__sundr_at"] else []
        if where[:2] == ["not", "__sundr_begins;"]:
            at = [name for name in names if name != where[-1]]
        for name in at:
            longs, shorts = offered.setdefault(name, (set(), set()))
            longs.update([told["-l"]] if "-l" in told else [])
            shorts.update([told["-s"]] if "-s" in told else [])
    return listed, offered


def page_tells():
    """What the page of the manual tells: the subcommands that its synopsis has, and those that it explains with their options; and
    the options that an explanation names."""
    text = read("sundr.1")
    synopsis = re.search(r"(?ms)^\.Sh SYNOPSIS$(.*?)^\.Sh ", text)[1]
    lines = [line.split(" | ") for line in re.findall(r"(?m)^\.Cm (.*)$", synopsis)]
    described, named = {}, {}
    for name, head, body in re.findall(r"(?ms)^\.It Cm (\w+)(.*?)$(.*?)(?=^\.It |^\.El)", text):
        described[name] = set(re.findall(r"(?:Fl|\|) -([a-z][a-z-]*)", head)), set(re.findall(r"Fl ([a-z])\b", head))
        named[name] = set(re.findall(r"(?m)^\.Fl -([a-z][a-z-]*)", body)), set(re.findall(r"(?m)^\.Fl ([a-z])\b", body))
    return [name for line in lines for name in line], described, named


def completions(names, wanted):
    # (help takes the names of subcommands, and no option)
    apart = [name for name in names if name != "help"]
    listed, begun, helped, offered = bash_offers(apart)
    yield "bash_has_the_commands", listed == names and helped == names
    yield "bash_has_the_first_options", begun == {"--help", "--version"}
    for name in apart:
        yield f"bash_has_{name}", offered[name] == set(wanted[name])
    for shell, (listed, offered) in (("zsh", zsh_offers()), ("fish", fish_offers(names))):
        yield f"{shell}_has_the_commands", listed == names
        yield f"{shell}_has_no_other_command", set(offered) == set(names)
        for name in apart:
            shorts = {it for it in wanted[name].values() if it not in ("", "h")}
            told_shorts = offered[name][1] - {"h"}
            yield f"{shell}_has_{name}", offered[name][0] == set(wanted[name]) and told_shorts == shorts
    for shell, file in (("bash", "sundr.bash"), ("zsh", "_sundr"), ("fish", "sundr.fish")):
        if shutil.which(shell):
            yield f"{shell}_reads_it", run([shell, "-n", f"{TOP}/completions/{file}"]) == ("", "", 0)


def page(names, wanted):
    told, described, named = page_tells()
    # (undo stands there twice, by its options)
    yield "the_synopsis_has_the_commands", list(dict.fromkeys(told)) == names
    yield "the_page_has_the_commands", list(described) == names
    for name in names:
        longs, shorts = set(wanted[name]) - {"help"}, {it for it in wanted[name].values() if it not in ("", "h")}
        yield f"the_page_has_{name}", described.get(name) == (longs, shorts)
        others = named.get(name, (set(), set()))
        yield f"the_page_names_nothing_else_at_{name}", others[0] <= longs | {"help"} and others[1] <= shorts
    text = read("sundr.1")
    yield "the_page_has_the_files", set(re.findall(r"(?m)^\.It Pa (\S+)", text)) == STATE
    ends = re.search(r"(?ms)^\.Sh EXIT STATUS$(.*?)^\.El", text)[1]
    yield "the_page_has_the_statuses", re.findall(r"(?m)^\.It (\d)", ends) == list("0123")
    if shutil.which("groff"):
        yield "groff_reads_the_page", run(["groff", "-mdoc", "-Tutf8", "-ww", "-z", f"{TOP}/sundr.1"]) == ("", "", 0)


def lines(room):
    for name, arguments in WRONG.items():
        printed, told, status = run([PROGRAM, *arguments], room)
        yield f"wrong_{name}", printed == "" and told != "" and status == 2
    yield "wrong_lines_leave_nothing", os.listdir(room) == []
    for name, arguments in RIGHT.items():
        yield f"right_{name}", run([PROGRAM, *arguments], room)[2] != 2


def helps(names):
    """Each line of a help fits a terminal, but the one that clap makes of all that is needed."""
    for name in names:
        printed = run([PROGRAM, name, "--help"] if name != "help" else [PROGRAM, "--help"])[0]
        yield f"help_of_{name}", printed != "" and all(len(it) <= 80 or it.startswith("Usage:") for it in printed.split("\n"))
    about = run([PROGRAM, "--help"])[0].split("Usage:")[0]
    yield "help_tells_how_to_begin", all(f"`{it}`" in about for it in ("init", "put", "get", "client"))


def files_below(folder):
    return {os.path.relpath(f"{at}/{it}", folder) for at, _, files in os.walk(folder) for it in files}


def same(one, other):
    with open(one, "rb") as first, open(other, "rb") as second:
        return first.read() == second.read()


def installs(room):
    prefix = f"{room}/a prefix/below"
    for turn in ("installs", "installs_again"):
        printed, told, status = run([f"{TOP}/install", prefix], room, SUNDR=PROGRAM)
        yield f"{turn}: {told}", (printed, told, status) == ("", "", 0)
        yield f"{turn}_all", files_below(prefix) == set(INSTALLED)
    for name, (origin, mode) in INSTALLED.items():
        path = f"{prefix}/{name}"
        is_there = os.path.isfile(path) and same(origin, path)
        yield f"installs_{name}", is_there and os.stat(path).st_mode & 0o777 == mode
    yield "what_is_installed_runs", run([f"{prefix}/bin/sundr", "-V"]) == run([PROGRAM, "-V"])
    for words in ([], [""], ["--help"], [prefix, prefix]):
        yield f"installs_nothing_by_{words}", run([f"{TOP}/install", *words], room, SUNDR=PROGRAM)[2] == 2


def packed_tree(room):
    """A small repository of what is packed, as a clone has it."""
    top = f"{room}/sources"
    os.makedirs(top)
    for it in ("sundr", "prove", "install", "package", "sundr.1", "LICENSE-APACHE", "LICENSE-MIT", "crates.txt"):
        shutil.copy(f"{TOP}/{it}", top)
    shutil.copytree(f"{TOP}/completions", f"{top}/completions")
    git = ["git", "-C", top, "-c", "user.name=a test", "-c", "user.email=test@localhost"]
    for words in (["init", "-q"], ["add", "-A"], ["commit", "-q", "-m", "all"]):
        subprocess.run([*git, *words], check=True)
    return top


def packs(room):
    top = packed_tree(room)
    version = run([PROGRAM, "-V"])[0].split()[-1]
    name = f"sundr-{version}-x86_64"
    printed, told, status = run([f"{top}/package", room], SUNDR=PROGRAM)
    yield f"packs: {told}", (printed, told, status) == (f"{room}/{name}.tar.gz\n", "", 0)
    if status != 0:
        return
    with tarfile.open(f"{room}/{name}.tar.gz") as packed:
        packed.extractall(room, filter="data")
    yield "packs_all", files_below(f"{room}/{name}") == set(INSTALLED) | {"SUMS"}
    yield "what_is_packed_runs", run([f"{room}/{name}/bin/sundr", "-V"]) == run([PROGRAM, "-V"])
    with open(f"{room}/{name}/SUMS", encoding="utf-8") as file:
        sums = file.read().split("\n")[:-1]
    files = sorted(files_below(top) - {it for it in files_below(top) if it.startswith(".git/")})
    wanted = [(hashlib.sha256(open(f"{top}/{it}", "rb").read()).hexdigest(), it) for it in files]
    wanted.append((hashlib.sha256(open(PROGRAM, "rb").read()).hexdigest(), "bin/sundr"))
    yield "sums_are_of_all_sources", sorted(wanted) == sorted(tuple(it.split("  ")) for it in sums if it[0] != "#")
    yield "sums_name_the_kit", sums[0].startswith("# the kit: ") and "logic" in sums[0]
    first = hashlib.sha256(open(f"{room}/{name}.tar.gz", "rb").read()).digest()
    run([f"{top}/package", room], SUNDR=PROGRAM)
    yield "packs_the_same_again", first == hashlib.sha256(open(f"{room}/{name}.tar.gz", "rb").read()).digest()
    with open(f"{top}/more", "w", encoding="utf-8"):
        pass
    printed, told, status = run([f"{top}/package", room], SUNDR=PROGRAM)
    yield "packs_nothing_that_isnt_committed", (printed, status) == ("", 1) and "committed" in told


def main():
    if not tally.is_there("people_line", PROGRAM):
        return 1
    names = commands()
    wanted = {name: options(name) if name != "help" else {} for name in names}
    results = {"there_are_commands": "put" in names and "over" in wanted["put"]}
    for part in (completions, page):
        results.update(part(names, wanted))
    results.update(helps(names))
    for part in (lines, installs, packs):
        with tempfile.TemporaryDirectory() as room:
            results.update(part(room))
    return tally.told("people_line", results)


if __name__ == "__main__":
    sys.exit(main())
