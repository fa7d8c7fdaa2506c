#!/usr/bin/env python3
"""Runs the tests of the Python package, over the shared library that is built in bindings/c:

    tools/python.py ['N passed, M failed']

These are bindings/python/tests and the program of the package's README. The last line counts the tests, added to those
that the given line counts.
"""
import os
import re
import subprocess
import sys

TOP = os.path.dirname(os.path.dirname(os.path.abspath(__file__)))
PACKAGE, LIBRARY = f"{TOP}/bindings/python", f"{TOP}/bindings/c/out/liblazydfa.so.1"
NAMES = {"LAZYDFA_LIBRARY": LIBRARY, "PYTHONPATH": f"{PACKAGE}/src", "PYTHONDONTWRITEBYTECODE": "1"}
BLOCK = re.compile(r"^```(?:python|text)\n(.*?)^```$", re.M | re.S)


def run(*words):
    """Runs Python, and returns whether it succeeded and what it wrote."""
    how = {"env": {**os.environ, **NAMES}, "stdin": subprocess.DEVNULL, "text": True}
    ran = subprocess.run([sys.executable, *words], **how, stdout=subprocess.PIPE, stderr=subprocess.STDOUT)
    return ran.returncode == 0, ran.stdout


def test():
    """Runs the tests, and returns how many passed and how many failed."""
    is_right, wrote = run(f"{PACKAGE}/tests/test_lazydfa.py")
    found = re.search(r"^Ran (\d+) tests", wrote, re.M)
    if not is_right or not found:
        print(wrote)
        return 0, 1
    return int(found[1]), 0


def test_readme():
    """Runs the program of the README, and returns how many tests passed and how many failed."""
    with open(f"{PACKAGE}/README.md", encoding="utf-8") as it:
        program, wanted = BLOCK.findall(it.read())[:2]
    is_right, wrote = run("-c", program)
    if is_right and wrote == wanted:
        return 1, 0
    print(f"the program of the README: {wrote}\nand not: {wanted}")
    return 0, 1


def main(words):
    counted = re.fullmatch(r"(\d+) passed, (\d+) failed", words[0] if words else "0 passed, 0 failed")
    passed, failed = (int(counted[1]), int(counted[2])) if counted else (0, 1)
    for tested in (test(), test_readme()):
        passed, failed = passed + tested[0], failed + tested[1]
    print(f"{passed} passed, {failed} failed")
    return 1 if failed else 0


if __name__ == "__main__":
    sys.exit(main(sys.argv[1:]))
