#!/usr/bin/env python3
"""Runs the example programs of `crates/examples`, and compares their output:

    tools/examples_test.py [--program FILE].. ['N passed, M failed']

crates/examples/data/NAME has the arguments of the example NAME in `args`, one per line, its standard input in `stdin`,
and its expected output in `stdout`. Each example runs in the crate's folder, once for each compiler: the programs are
the two that `rt ci` left in the crate's out/, unless others are named. One example has no such folder: `rt ci` runs it,
with the crate's own `args` and `stdout`. An unknown name and missing arguments have to be errors. The last line counts
these runs, added to what the given line counts.
"""
import argparse
import os
import re
import subprocess
import sys

TOP = os.path.dirname(os.path.dirname(os.path.abspath(__file__)))
CRATE = f"{TOP}/crates/examples"
PROGRAMS = [f"{CRATE}/out/examples", f"{CRATE}/out/examples.by-rattle"]
# Arguments with which the program has to fail.
WRONG = [[], ["no such example"], ["fallback"], ["log"], ["rules"]]
SECONDS = 120


def read(path):
    """Returns the contents of a file, or nothing if it does not exist."""
    if not os.path.isfile(path):
        return b""
    with open(path, "rb") as it:
        return it.read()


def words_of(path):
    """Returns the words of a file, one per line."""
    return read(path).decode().splitlines()


def calls():
    """Yields the arguments and the standard input of each call, and its expected status and output."""
    for name in sorted(os.listdir(f"{CRATE}/data")):
        data = f"{CRATE}/data/{name}"
        yield [name, *words_of(f"{data}/args")], read(f"{data}/stdin"), 0, read(f"{data}/stdout")
    for words in WRONG:
        yield words, b"", 1, b""


def untried():
    """Returns the examples that `main` names and nothing runs, and those that run and `main` does not name."""
    named = re.findall(r'^ +"(\w+)" =>', read(f"{CRATE}/src/main.rt").decode(), re.M)
    tried = {*os.listdir(f"{CRATE}/data"), *words_of(f"{CRATE}/args")[:1]}
    return sorted({*named} ^ tried)


def fault_of(program, words, given, status, printed):
    """Calls the program, and returns what is wrong, if anything."""
    try:
        ran = subprocess.run([program, *words], input=given, capture_output=True, cwd=CRATE, timeout=SECONDS)
    except (OSError, subprocess.TimeoutExpired) as error:
        return str(error)
    if (ran.returncode, ran.stdout) == (status, printed):
        return ""
    return f"status {ran.returncode}, {ran.stdout}, and not {status}, {printed}: {ran.stderr.decode(errors='replace')}"


def main(words):
    parser = argparse.ArgumentParser()
    parser.add_argument("--program", action="append")
    parser.add_argument("counted", nargs="?", default="0 passed, 0 failed")
    given = parser.parse_args(words)
    counted = re.fullmatch(r"(\d+) passed, (\d+) failed", given.counted)
    passed, failed = (int(counted[1]), int(counted[2])) if counted else (0, 1)
    faults = {"examples, each of them runs": ", ".join(untried())}
    for program in [os.path.abspath(it) for it in given.program or PROGRAMS]:
        for call in calls():
            faults[" ".join([os.path.basename(program), *call[0]])] = fault_of(program, *call)
    for name, fault in faults.items():
        print(f"{name}: {fault or 'passed'}")
        passed, failed = passed + (not fault), failed + bool(fault)
    print(f"{passed} passed, {failed} failed")
    return 1 if failed else 0


if __name__ == "__main__":
    sys.exit(main(sys.argv[1:]))
