#!/usr/bin/env python3
"""Runs the tests of the Rust crate, over the C library that is built in bindings/c:

    tools/rust.py ['N passed, M failed']

These are the tests of bindings/rust/tests, the examples, and the programs of bindings/rust/README.md, which are
doctests; and, if Debian's librust-regex-dev is installed (or REGEX_SOURCES names a folder with its sources), the groups,
replacements and parts of random patterns beside those of Rust's crate regex (compare/captures). Cargo needs no network
and builds in a temporary folder. If cargo is missing, or too old for the crate, the script says so and tests nothing.
The last line counts the tests, added to those that the given line counts.
"""
import glob
import os
import re
import shutil
import subprocess
import sys
import tempfile

TOP = os.path.dirname(os.path.dirname(os.path.abspath(__file__)))
CRATE, LIBRARY = f"{TOP}/bindings/rust", f"{TOP}/bindings/c/out"
PEER, PEERS = f"{TOP}/tools/compare/captures", os.environ.get("REGEX_SOURCES", "/usr/share/cargo/registry")
CONFIG = """[source.crates-io]
replace-with = "peers"
[source.peers]
directory = "{peers}"
"""
PATTERNS = "2000"
RESULT = re.compile(r"^test result: \w+\. (\d+) passed; (\d+) failed", re.M)


def oldest():
    """Returns the oldest version of Rust that the crate supports."""
    with open(f"{CRATE}/Cargo.toml", encoding="utf-8") as it:
        return re.search(r'^rust-version = "([\d.]+)"', it.read(), re.M)[1]


def why_not():
    """Returns why nothing can be tested, or an empty string if the tests can run."""
    if not shutil.which("cargo"):
        return "there is no cargo"
    said = subprocess.run(["cargo", "--version"], capture_output=True, text=True).stdout
    found, wanted = re.search(r"(\d+)\.(\d+)", said), oldest()
    is_new = found and tuple(map(int, found.groups())) >= tuple(map(int, wanted.split(".")[:2]))
    return "" if is_new else f"cargo is older than {wanted}"


def test():
    """Runs the tests, and returns how many passed and how many failed."""
    with tempfile.TemporaryDirectory(prefix="rust-") as room:
        names = {"CARGO_TARGET_DIR": room, "CARGO_NET_OFFLINE": "true", "LAZYDFA_LIB": LIBRARY}
        how = {"cwd": CRATE, "env": {**os.environ, **names}, "stdin": subprocess.DEVNULL}
        ran = subprocess.run(["cargo", "test", "--no-fail-fast"], **how, stdout=subprocess.PIPE, stderr=subprocess.STDOUT)
    wrote = ran.stdout.decode(errors="replace")
    found = [tuple(map(int, it)) for it in RESULT.findall(wrote)]
    passed, failed = sum(it[0] for it in found), sum(it[1] for it in found)
    is_wrong = ran.returncode or not passed
    if is_wrong:
        print(wrote)
    return passed, max(failed, 1) if is_wrong else 0


def compare(room):
    """Compares random patterns with those of the crate regex, in a folder, and returns whether nothing differs."""
    shutil.copytree(PEER, room, dirs_exist_ok=True)
    os.symlink(CRATE, f"{room}/lazydfa")
    os.mkdir(f"{room}/.cargo")
    with open(f"{room}/.cargo/config.toml", "w", encoding="utf-8") as it:
        it.write(CONFIG.format(peers=PEERS))
    names = {"CARGO_TARGET_DIR": f"{room}/target", "CARGO_NET_OFFLINE": "true", "LAZYDFA_LIB": LIBRARY}
    words = ["cargo", "run", "--quiet", "--release", "--", PATTERNS]
    how = {"cwd": room, "env": {**os.environ, **names}, "stdin": subprocess.DEVNULL, "text": True}
    ran = subprocess.run(words, **how, stdout=subprocess.PIPE, stderr=subprocess.STDOUT)
    print(f"groups beside those of regex: {ran.stdout}", end="")
    return ran.returncode == 0


def main(words):
    counted = re.fullmatch(r"(\d+) passed, (\d+) failed", words[0] if words else "0 passed, 0 failed")
    passed, failed = (int(counted[1]), int(counted[2])) if counted else (0, 1)
    reason = why_not()
    if reason:
        print(f"the Rust crate: skipped, since {reason}")
    else:
        right, wrong = test()
        print(f"the Rust crate: {right} tests passed, {wrong} failed")
        passed, failed = passed + right, failed + wrong
        if glob.glob(f"{PEERS}/regex-1.*"):
            with tempfile.TemporaryDirectory(prefix="rust-") as room:
                is_same = compare(room)
            passed, failed = passed + is_same, failed + (not is_same)
        else:
            print(f"groups beside those of regex: skipped, since {PEERS} does not have it")
    print(f"{passed} passed, {failed} failed")
    return 1 if failed else 0


if __name__ == "__main__":
    sys.exit(main(sys.argv[1:]))
