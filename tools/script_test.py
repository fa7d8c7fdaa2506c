#!/usr/bin/env python3
"""Runs `lazydfa` on the scripts of crates/lazydfa/data, and compares its output and status:

    tools/script_test.py [--program FILE].. ['N passed, M failed']

scripts.txt has scripts with their expected output, and bad_lines.txt has bad lines, each a script. One more script has
a line of two mebibytes. The programs are the two that `rt ci` left in the crate's out/, one for each compiler, unless
others are named. The last line counts each script for each program, added to what the given line counts.
"""
import argparse
import os
import re
import subprocess
import sys

TOP = os.path.dirname(os.path.dirname(os.path.abspath(__file__)))
CRATE = f"{TOP}/crates/lazydfa"
BUILDS = [f"{CRATE}/out/lazydfa", f"{CRATE}/out/lazydfa.by-rattle"]
FAULT = b"lazydfa: "
LONG = "a line of two mebibytes", b"regex runs all\nfwd " + b"61" * (1 << 20), (0, b"regex 0\nhalf 0 1048576\n", b"")


def read_blocks(name):
    """Yields each block of lines between empty lines and comments, with its file and the number of its first line."""
    with open(f"{CRATE}/data/{name}", "rb") as it:
        lines = [b"", *it.read().split(b"\n")]
    block = []
    for number, line in enumerate(lines):
        if line and not line.startswith(b"#"):
            block.append(line)
        elif block:
            yield f"{name}:{number - len(block)}", block
            block = []


def spelled(text):
    """Returns the bytes that a text with escapes spells."""
    return text.decode("unicode_escape").encode("latin-1")


def script_of(lines):
    """Returns the script in the lines that begin with `> `. A backslash at the end omits the line feed."""
    script = b""
    for line in lines:
        text = line[2:]
        script += spelled(text[:-1]) if text.endswith(b"\\") else spelled(text) + b"\n"
    return script


def cases():
    """Yields each script: its name, its bytes, and the expected status, output and error output."""
    for name, lines in read_blocks("scripts.txt"):
        given = [it for it in lines if it.startswith(b">")]
        wanted = [it + b"\n" for it in lines if not it.startswith(b">")]
        faults = [it for it in wanted if it.startswith(FAULT)]
        replies = [it for it in wanted if not it.startswith(FAULT)]
        yield name, script_of(given), (2 if faults else 0, b"".join(replies), b"".join(faults))
    for name, lines in read_blocks("bad_lines.txt"):
        file, first = name.split(":")
        for number, line in enumerate(lines, int(first)):
            yield f"{file}:{number}", spelled(line), (2, b"", FAULT + b"line 1: bad line\n")
    yield LONG


def run(program, script):
    """Runs a program on a script, and returns its status and its outputs, or why it did not run."""
    try:
        ran = subprocess.run([program], input=script, capture_output=True, timeout=60)
    except (OSError, subprocess.TimeoutExpired) as error:
        return str(error)
    return ran.returncode, ran.stdout, ran.stderr


def main(words):
    parser = argparse.ArgumentParser()
    parser.add_argument("--program", action="append")
    parser.add_argument("counted", nargs="?", default="0 passed, 0 failed")
    given = parser.parse_args(words)
    counted = re.fullmatch(r"(\d+) passed, (\d+) failed", given.counted)
    passed, failed = (int(counted[1]), int(counted[2])) if counted else (0, 1)
    for program in given.program or BUILDS:
        for name, script, wanted in cases():
            found = run(os.path.abspath(program), script)
            said = "passed" if found == wanted else f"{found!r:.400}, and not {wanted!r:.400}"
            print(f"{os.path.basename(program)} {name}: {said}")
            passed, failed = passed + (found == wanted), failed + (found != wanted)
    print(f"{passed} passed, {failed} failed")
    return 1 if failed else 0


if __name__ == "__main__":
    sys.exit(main(sys.argv[1:]))
