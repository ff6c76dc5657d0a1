#!/usr/bin/env python3
"""The list of tests that are known to be unsteady, tests/unsteady.txt: python3 tests/unsteady.py

Each line has a file of tests, a test, the last day on which it may pass by itself alone, and the reason. At most five, none after its day,
and each is a test. As a program it says what is wrong with the list. The last line is 'N passed, M failed'.
"""
import datetime
import re
import sys
from pathlib import Path

HERE = Path(__file__).resolve().parent
LIST = HERE / "unsteady.txt"
MOST = 5


def entries():
    """The lines of the list, each as file, test, day and reason; what is missing in one is empty."""
    lines = [it.strip() for it in LIST.read_text().splitlines()]
    return [(it.split(maxsplit=3) + [""] * 4)[:4] for it in lines if it and not it.startswith("#")]


def listed(file):
    """The tests of a file that are listed, each with its last day and reason."""
    return {test: (day, reason) for name, test, day, reason in entries() if name == file}


def is_test(file, test):
    """Whether there is a test of this name in this file of tests."""
    path = HERE / file
    return path.parent == HERE and path.is_file() and bool(re.search(rf"^@(serve\.)?test\ndef {re.escape(test)}\(", path.read_text(), re.MULTILINE))


def fault_of(file, test, day, reason):
    """What is wrong with an entry, or None."""
    if not is_test(file, test):
        return "there is no such test"
    try:
        last = datetime.date.fromisoformat(day)
    except ValueError:
        return f"{day!r} is no day, as 2026-12-31"
    if last < datetime.date.today():
        return f"its last day, {day}, is over"
    return None if reason else "it has no reason"


def faults():
    """What is wrong with the list."""
    rows = entries()
    many = [f"{LIST.name} has {len(rows)} tests, at most {MOST} may stand there"] if MOST < len(rows) else []
    return many + [f"{LIST.name}, {row[0]} {row[1]}: {fault}" for row in rows if (fault := fault_of(*row))]


if __name__ == "__main__":
    found = faults()
    print("".join(f"FAILED: {it}\n" for it in found) + f"{0 if found else 1} passed, {len(found)} failed")
    sys.exit(1 if found else 0)
