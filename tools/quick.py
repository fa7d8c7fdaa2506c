#!/usr/bin/env python3
"""Tests this copy of the repository without proof, for tools/quick.sh:

    tools/quick.py [--postgres]

It checks the format of each crate. It builds each program of crates.txt with tools/unproved.py, and runs it on its
`stdin` with its `args`, in a folder with the files of its `data/`: the program has to print its `stdout`, and to pass
the tests that the gate has for it. It builds and runs the tests of each crate likewise. It runs tools/documents.py
unchanged, and tools/c.py over an archive that was built without proof. As many of these parts run in parallel as there
are processors and ROOM of memory; programs come last, the largest first.

What is built stays in crates/NAME/out/ of the copy. The output of a part is printed if it failed, and the last lines
count what passed and failed. The status is 1 if anything failed.
"""
import concurrent.futures
import os
import re
import resource
import shutil
import subprocess
import sys
import tempfile
import time

from libraries import KIT, TOP, crates_used, files_of, processors, text
from unproved import build

# The memory for a part, in kB: builds took at most 0.9 GB.
ROOM = 1 << 20
# The gate's tests of a program, which can run another program in place of the proved one.
TESTS_OF = {"lgrep": "grep_test.py", "examples": "examples_test.py", "lazydfa": "script_test.py"}
# A program that is not proved may take all memory, or run forever.
LIMITED = ["sh", "-c", 'ulimit -c 0; ulimit -v 8000000; exec "$@"', ""]
SECONDS = 300


def read(path):
    """Returns the contents of a file, or nothing if it does not exist."""
    if not os.path.isfile(path):
        return b""
    with open(path, "rb") as it:
        return it.read()


def counted(words):
    """Runs a tool whose last line counts tests. Returns how many passed, how many failed, and the output."""
    ran = subprocess.run(words, cwd=TOP, stdin=subprocess.DEVNULL, stdout=subprocess.PIPE, stderr=subprocess.STDOUT)
    wrote = ran.stdout.decode(errors="replace")
    found = re.search(r"(?:\A|\n)(\d+) passed, (\d+) failed\n\Z", wrote)
    passed, failed = (int(found[1]), int(found[2])) if found else (0, 0)
    wrong = ran.returncode and not failed or not found
    return passed, failed + bool(wrong), wrote + f"status {ran.returncode}\n" * bool(wrong)


def formatted(name):
    """Checks the format of a crate's files."""
    files = [it for it in files_of(name) if it.endswith((".rt", ".antt"))]
    words = [f"{KIT}/bin/rattle", "fmt", "--check", *files]
    ran = subprocess.run(words, stdout=subprocess.PIPE, stderr=subprocess.STDOUT)
    return (0, 1, ran.stdout.decode(errors="replace")) if ran.returncode else (1, 0, "")


def fault_of(program, name, room):
    """Runs the program with its crate's files, and returns what is wrong, if anything."""
    crate = f"{TOP}/crates/{name}"
    shutil.copytree(f"{crate}/data", room) if os.path.isdir(f"{crate}/data") else os.mkdir(room)
    words = [*LIMITED, program, *read(f"{crate}/args").decode().splitlines()]
    try:
        ran = subprocess.run(words, cwd=room, input=read(f"{crate}/stdin"), capture_output=True, timeout=SECONDS)
    except subprocess.TimeoutExpired:
        return f"the program had not ended after {SECONDS} seconds\n"
    if ran.returncode != int(read(f"{crate}/status") or 0):
        return f"status {ran.returncode}: {ran.stderr.decode(errors='replace')}\n"
    found, wanted = ran.stdout.splitlines(), read(f"{crate}/stdout").splitlines()
    pairs = zip([*found, b"(the end)"], [*wanted, b"(the end)"])
    differ = [f"line {number}: {a}, and not {b}\n" for number, (a, b) in enumerate(pairs, 1) if a != b]
    return differ[0] if differ else ""


def try_program(name):
    """Builds and runs a program, and runs the tests that the gate has for it."""
    program = f"{TOP}/crates/{name}/out/{name}"
    build(name, program)
    with tempfile.TemporaryDirectory() as room:
        fault = fault_of(program, name, f"{room}/data")
    passed, failed, wrote = int(not fault), int(bool(fault)), fault
    test = f"{TOP}/tools/{TESTS_OF.get(name)}"
    if os.path.isfile(test):
        more = counted([test, "--program", program])
        passed, failed, wrote = passed + more[0], failed + more[1], wrote + more[2]
    return passed, failed, wrote


def try_tests(name):
    """Builds and runs the tests of a crate, and counts them as one."""
    program = f"{TOP}/crates/{name}/out/{name}_tests"
    build(name, program, tests=True)
    words = [*LIMITED, f"{KIT}/bin/rattle-test", "--seconds", str(SECONDS), program]
    ran = subprocess.run(words, cwd=os.path.dirname(program), stdout=subprocess.PIPE, stderr=subprocess.STDOUT)
    return int(not ran.returncode), int(bool(ran.returncode)), ran.stdout.decode(errors="replace")


def try_archive(name, with_postgres):
    """Builds a static library, and tests it from C, and from the extension if requested."""
    archive = f"{TOP}/crates/{name}/out/lib{name}.a"
    build(name, archive)
    passed, failed, wrote = counted([f"{TOP}/tools/c.py", "--archive", archive])
    if with_postgres:
        more = counted([f"{TOP}/tools/postgres.sh"])
        passed, failed, wrote = passed + more[0], failed + more[1], wrote + more[2]
    return passed, failed, wrote


def has_tests(name):
    """Whether a file of the crate has a test."""
    return any("#[test]" in text(it) for it in files_of(name) if it.endswith(".rt"))


def parts(with_postgres):
    """Returns the parts, each with a name, a function and its argument. Programs come last, the largest first."""
    uses = crates_used()
    programs = [it for it in uses if os.path.isfile(f"{TOP}/crates/{it}/src/main.rt")]
    every = [("documents", counted, [f"{TOP}/tools/documents.py"])]
    every += [(f"format of {it}", formatted, it) for it in uses]
    archives = [it for it in uses if uses[it][1]]
    every += [(f"library {it}", lambda name: try_archive(name, with_postgres), it) for it in archives]
    every += [(f"tests of {it}", try_tests, it) for it in uses if has_tests(it)]
    programs.sort(key=lambda it: -sum(len(text(file)) for file in files_of(it)))
    return every + [(f"program {it}", try_program, it) for it in programs]


def work(part):
    """Runs a part, prints its output if it failed, and returns how many tests passed and how many failed."""
    name, call, given = part
    began = time.monotonic()
    try:
        passed, failed, wrote = call(given)
    except (Exception, SystemExit) as error:  # a part that cannot be done is one that failed
        passed, failed, wrote = 0, 1, f"{type(error).__name__}: {error}\n"
    said = f"{passed} passed, {failed} failed, {time.monotonic() - began:.0f} seconds"
    print(f"{wrote if failed else ''}{name}: {said}\n", end="", flush=True)
    return passed, failed


def lanes():
    """Returns how many parts run in parallel."""
    free = re.search(r"MemAvailable: +(\d+)", text("/proc/meminfo"))
    return max(1, min(processors(), int(free[1]) // ROOM if free else 1))


def main(words):
    if words not in ([], ["--postgres"]):
        sys.exit("usage: tools/quick.sh [--postgres]")
    for name in crates_used():
        os.makedirs(f"{TOP}/crates/{name}/out", exist_ok=True)
    given = parts(bool(words))
    with concurrent.futures.ThreadPoolExecutor(lanes()) as pool:
        done = list(pool.map(work, given))
    took = resource.getrusage(resource.RUSAGE_CHILDREN)
    print(f"processors: {(took.ru_utime + took.ru_stime) / 60:.1f} minutes; proved=no")
    faults = [part[0] for part, it in zip(given, done) if it[1]]
    print(f"failed: {', '.join(faults)}\n" * bool(faults), end="")
    failed = sum(it[1] for it in done)
    print(f"{sum(it[0] for it in done)} passed, {failed} failed")
    return 1 if failed else 0


if __name__ == "__main__":
    sys.exit(main(sys.argv[1:]))
