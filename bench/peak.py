"""How long a program takes, and how much memory it has at the highest.

What the system tells of a program that has ended counts what started it too, where that was done without a copy (vfork), as Python does it:
so a large script's programs have at least what it has itself. Here a small one starts it, of 11 MB.
"""
import os
import subprocess
import sys

STARTER = """
import os, resource, subprocess, sys, time
started = time.monotonic()
status = subprocess.call(sys.argv[2:])
took, highest = time.monotonic() - started, resource.getrusage(resource.RUSAGE_CHILDREN).ru_maxrss
os.write(int(sys.argv[1]), f"{took} {highest}".encode())
sys.exit(status)
"""


def measured(words, **how):
    """Runs a program. Seconds by the clock, megabytes at the highest, and what `subprocess.run` tells of it."""
    reader, writer = os.pipe()
    started = [sys.executable, "-S", "-E", "-c", STARTER, str(writer), *map(str, words)]
    ran = subprocess.run(started, stdin=subprocess.DEVNULL, pass_fds=(writer,), check=False, **how)
    os.close(writer)
    with open(reader, encoding="utf-8") as told:
        took, highest = told.read().split()
    return float(took), int(highest) * 1024 / 1e6, ran
