#!/usr/bin/env python3
"""How fast keys are made, messages signed and signatures verified, by several builds of crates/lms_bench in one run.

    bench/lms.py NAME=PROGRAM [NAME=PROGRAM ..]

Each program is run five times, in turn with the others, so that a slow minute of the machine meets all of them; of each row the best
is taken. Prints, for each row, the calls a second of each program, how many times the first one's that is, and the share of the
blocks a second that the processor's own SHA-256 instructions take in on one chain (bench/sha_ni.c, which is built here with `cc`).
The programs are built in the folder crates/lms_bench, by `rt run -- run` and by `rt run --cpu x86-64-v3 -- run`; one of an older
commit in a checkout of that commit. It wants an idle machine: the rows of threads need all cores.
"""
import os
import re
import subprocess
import sys
import tempfile

HERE = os.path.dirname(os.path.abspath(__file__))
ROUNDS = 5
ROW = re.compile(r"^\s*(w=\d, h=\d+) (\w+)\s+([\d.]+) a second(?:, +([\d.]+) blocks)?(?:.*, ([\d.]+) times)?")


def rows_of(program):
    """The rows that a program prints: by kind and call, the calls a second, the blocks of each, and the factor of threads."""
    printed = subprocess.run([program, "run"], check=True, capture_output=True, text=True).stdout
    found = [ROW.match(line) for line in printed.splitlines()]
    return {(m[1], m[2]): [float(m[3]), float(m[4] or 0), float(m[5] or 0)] for m in found if m}


def instructions(folder):
    """Blocks a second by the processor's instructions; none where it has none."""
    program = f"{folder}/sha_ni"
    subprocess.run(["cc", "-O2", "-msha", "-msse4.1", "-o", program, f"{HERE}/sha_ni.c"], check=True)
    done = subprocess.run([program], capture_output=True, text=True, check=False)
    number = re.search(r"([\d.]+)", done.stdout)
    return (float(number[1]), done.stdout.strip()) if done.returncode == 0 and number else (None, "no instructions")


def main(arguments):
    """Runs the programs in turn, and prints the table."""
    programs = dict(word.split("=", 1) for word in arguments)
    best = {name: {} for name in programs}
    with tempfile.TemporaryDirectory() as folder:
        print(f"the processor's instructions: {instructions(folder)[1]}")
        for _ in range(ROUNDS):
            for name, program in programs.items():
                for row, (rate, blocks, factor) in rows_of(program).items():
                    old = best[name].get(row, (0, 0, 0))
                    best[name][row] = max(old[0], rate), max(old[1], blocks), max(old[2], factor)
        print(f"the processor's instructions: {instructions(folder)[1]}")
    first = next(iter(programs))
    for row in sorted({row for rows in best.values() for row in rows}, key=lambda row: (row[1], row[0])):
        for name in programs:
            if row not in best[name]:
                continue
            rate, blocks, factor = best[name][row]
            base = best[first].get((row[0], {"verify_all": "verify", "generate_in_threads": "generate"}.get(row[1], row[1])))
            times = f"{rate / base[0]:6.2f} times {first}" if base else ""
            rest = f", {rate * blocks / 1e6:6.2f} million blocks a second" if blocks else f", {factor:.2f} times one core"
            print(f"{row[0]:>9} {row[1]:<20} {name:<8} {rate:>10.1f} a second {times}{rest}")


if __name__ == "__main__":
    main(sys.argv[1:])
