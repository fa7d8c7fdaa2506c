#!/usr/bin/env python3
"""Builds and runs the program of bindings/go/README.md, over the library for C that is built in bindings/c:

    tools/go.py ['N passed, M failed']

Go needs no network and builds in a temporary folder. If there is no go, no C compiler or no pkg-config, the script says
so and tests nothing. The last line counts the test, added to those that the given line counts.
"""
import os
import re
import shutil
import subprocess
import sys
import tempfile

TOP = os.path.dirname(os.path.dirname(os.path.abspath(__file__)))
GUIDE, LIBRARY = f"{TOP}/bindings/go/README.md", f"{TOP}/bindings/c"
BLOCK = re.compile(r"^```(?:go|text)\n(.*?)^```$", re.M | re.S)
NEEDED = ("go", "cc", "pkg-config", "make")


def run(words, cwd, **names):
    """Runs a program, and returns whether it succeeded and what it wrote."""
    how = {"cwd": cwd, "env": {**os.environ, **names}, "stdin": subprocess.DEVNULL, "text": True}
    ran = subprocess.run(words, **how, stdout=subprocess.PIPE, stderr=subprocess.STDOUT)
    return ran.returncode == 0, ran.stdout


def fault():
    """Returns what is wrong with the program, or nothing."""
    with open(GUIDE, encoding="utf-8") as it:
        program, wanted = BLOCK.findall(it.read())
    with tempfile.TemporaryDirectory(prefix="go-") as room:
        os.mkdir(f"{room}/words")
        with open(f"{room}/words/main.go", "w", encoding="utf-8") as it:
            it.write(program)
        with open(f"{room}/words/go.mod", "w", encoding="utf-8") as it:
            it.write("module words\n")
        is_done, said = run(["make", "install", f"PREFIX={room}/lib", "DESTDIR="], LIBRARY)
        if not is_done:
            return said
        names = {"GOCACHE": f"{room}/cache", "GOFLAGS": "-mod=mod", "GOPROXY": "off", "CGO_ENABLED": "1"}
        names.update(PKG_CONFIG_PATH=f"{room}/lib/lib/pkgconfig", LD_LIBRARY_PATH=f"{room}/lib/lib")
        is_tidy, said = run(["gofmt", "-l", "."], f"{room}/words") if shutil.which("gofmt") else (True, "")
        if not is_tidy or said:
            return f"gofmt: {said}"
        is_done, said = run(["go", "run", "."], f"{room}/words", **names)
        return "" if is_done and said == wanted else f"it prints {said!r}, and not {wanted!r}"


def main(words):
    counted = re.fullmatch(r"(\d+) passed, (\d+) failed", words[0] if words else "0 passed, 0 failed")
    passed, failed = (int(counted[1]), int(counted[2])) if counted else (0, 1)
    missing = [it for it in NEEDED if not shutil.which(it)]
    if missing:
        print(f"the program in Go: skipped, since there is no {missing[0]}")
    else:
        wrong = fault()
        print(f"the program in Go: {wrong or 'passed'}")
        passed, failed = passed + (not wrong), failed + bool(wrong)
    print(f"{passed} passed, {failed} failed")
    return 1 if failed else 0


if __name__ == "__main__":
    sys.exit(main(sys.argv[1:]))
