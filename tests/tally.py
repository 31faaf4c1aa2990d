"""Counts what a script of tests saw, and tells it as `check` reads it."""
import os


def is_there(script, program):
    """Whether the program is built; else says so."""
    if os.path.exists(program):
        return True
    print(f"{script}: the program isn't built: run ./sundr first")
    print("0 passed, 1 failed")
    return False


def told(script, results):
    """Prints a line for each name whose result isn't as it should be, and the last line 'N passed, M failed'. Returns the script's
    status."""
    for name, right in results.items():
        if not right:
            print(f"{script}: {name}")
    passed = sum(results.values())
    print(f"{passed} passed, {len(results) - passed} failed")
    return 0 if passed == len(results) else 1
