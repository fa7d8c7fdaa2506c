#!/usr/bin/env python3
"""Tests tools/vendor.sh and the beginning of docs/CALLING.md, in an empty folder:

    tools/vendor_test.py ['N passed, M failed']

The commands of that page, run with this folder in place of the one that they name, have to print what the example
`words` prints. A second call of the script has to restore a file of the library that was changed, and must not touch
the program. Then the library's crates there have to be equal to those here, byte for byte, and the program is proved
over the libraries that `rt ci` or `rt lib` left here, so the library is not proved a second time. `--proved` has to
copy what was proved of each library, and to name a library that was not proved.

The last line counts these tests, added to those that the given line counts. It needs Python 3 and the kit's rt.
"""
import os
import re
import shutil
import subprocess
import sys
import tempfile

from libraries import KIT, PARTS, TOP, below, crates_used, processors, words_over

# The example that a new program is a copy of, what it prints, and the libraries that it uses.
MODEL, PRINTED = f"{TOP}/crates/examples/src/words.rt", f"{TOP}/crates/examples/stdout"
USES = ["patterns", "regex_automata", "anyhow"]
# What is copied is these libraries, and those below them.
COPIED = [*USES, "lexer", "meta"]
PAGE = "docs/CALLING.md"
# The heading of the page, the first lines of its code, and the folder that these name.
HEAD = re.compile(r"^## A repository of your own\n(?:.*\n)*?\n((?:    .*\n)+)", re.M)
FOLDER = "../my_repo"


def read(path):
    with open(path, encoding="utf-8") as it:
        return it.read()


def run(words, folder):
    """Runs a program, and returns its status, and what it wrote to standard output and to standard error."""
    ran = subprocess.run(words, cwd=folder, stdin=subprocess.DEVNULL, capture_output=True, text=True, errors="replace")
    return ran.returncode, ran.stdout, ran.stderr


def try_page(folder):
    """Returns what is wrong with the page's commands, and the name that they give the program."""
    found = HEAD.search(read(f"{TOP}/{PAGE}"))
    program = found and re.search(rf"tools/vendor\.sh {re.escape(FOLDER)} (\w+)$", found[1], re.M)
    if not program:
        return f"{PAGE} has no commands under this heading", ""
    status, out, err = run(["sh", "-euc", found[1].replace(FOLDER, folder)], TOP)
    wrong = status or out != read(PRINTED)
    return f"status {status}\n{out}{err}" if wrong else "", program[1]


def try_again(folder, program):
    """Returns what is wrong after a second call: with a file of the library, with the program's file, and with
    crates.txt."""
    changed, kept = f"{folder}/crates/patterns/src/lib.rt", f"{folder}/crates/{program}/src/main.rt"
    listed = f"{folder}/crates.txt"
    before = read(changed), read(listed)
    for path in (changed, kept):
        with open(path, "a", encoding="utf-8") as it:
            it.write("// changed\n")
    status, out, err = run(["tools/vendor.sh", folder, program], TOP)
    with open(kept, "r+", encoding="utf-8") as it:
        is_kept = it.read().endswith("// changed\n")
        it.seek(0)
        it.write(read(MODEL))
        it.truncate()
    if (read(changed), sorted(read(listed).split("\n"))) != (before[0], sorted(before[1].split("\n"))):
        return f"status {status}: the library or crates.txt is not as it was\n{out}{err}"
    return "" if is_kept and not status else f"status {status}: the program is not as it was\n{out}{err}"


def library():
    """Returns the crates that are copied."""
    return below("program", {**crates_used(), "program": (COPIED, False)})


def contents(folder):
    """Returns the contents of each file below a crate's parts, by its path from there."""
    found = {}
    for part in PARTS:
        for at, _, names in os.walk(f"{folder}/{part}"):
            for name in names:
                with open(f"{at}/{name}", "rb") as it:
                    found[os.path.relpath(f"{at}/{name}", folder)] = it.read()
    return found


def try_copies(folder, program):
    """Returns which crates of the new repository differ from those here, or the program from the example."""
    names = library()
    differ = [it for it in names if contents(f"{TOP}/crates/{it}") != contents(f"{folder}/crates/{it}")]
    differ += [program] if contents(f"{folder}/crates/{program}") != {"src/main.rt": read(MODEL).encode()} else []
    lines = {it.partition(":")[0]: it for it in read(f"{TOP}/crates.txt").splitlines()}
    listed = sorted([*(lines[it] for it in names), f"{program}: {' '.join(USES)}"])
    differ += ["crates.txt"] if sorted(read(f"{folder}/crates.txt").splitlines()) != listed else []
    more = sorted(set(os.listdir(f"{folder}/crates")) - {*names, program})
    return f"not as they are here: {differ}; besides: {more}" if differ or more else ""


def try_proved(room):
    """Returns what is wrong with a copy of what was proved, made from a repository of a few files."""
    here, there = f"{room}/here", f"{room}/there"
    names = library()
    for name in names:
        os.makedirs(f"{here}/crates/{name}/src")
        with open(f"{here}/crates.txt", "a", encoding="utf-8") as it:
            it.write(f"{name}:\n")
        if name not in names[:1]:
            os.makedirs(f"{here}/crates/{name}/out/rlib")
            for file in ("stamp", "made"):
                with open(f"{here}/crates/{name}/out/rlib/{file}", "w", encoding="utf-8") as it:
                    it.write(name)
    for file in ("tools/vendor.sh", "LICENSE-MIT"):
        os.makedirs(os.path.dirname(f"{here}/{file}"), exist_ok=True)
        shutil.copy(f"{TOP}/{file}", f"{here}/{file}")
    status, out, err = run([f"{here}/tools/vendor.sh", "--proved", there], room)
    copied = {it for it in names if os.path.isfile(f"{there}/crates/{it}/out/rlib/made")}
    is_right = status == 0 and copied == set(names[1:]) and names[0] in err
    return "" if is_right else f"status {status}: {sorted(copied)}\n{out}{err}"


def try_proof(folder, program):
    """Returns what is wrong with the proof of the program, over the libraries that were proved here."""
    uses = crates_used()
    uses[program] = USES, False
    try:
        words = words_over(program, "src/main.rt", uses, min(4, processors()))
    except OSError as error:
        return str(error)
    status, out, err = run([f"{KIT}/bin/rattle", "check", *words], f"{folder}/crates/{program}")
    is_proved = status == 0 and re.search(r"^logic=proved functions=[1-9]", out + err, re.M)
    return "" if is_proved else f"status {status}\n{out}{err}"


def main(words):
    counted = re.fullmatch(r"(\d+) passed, (\d+) failed", words[0] if words else "0 passed, 0 failed")
    passed, failed = (int(counted[1]), int(counted[2])) if counted else (0, 1)
    with tempfile.TemporaryDirectory(prefix="vendor-") as room:
        folder = f"{room}/repository"
        fault, program = try_page(folder)
        faults = {"the commands of docs/CALLING.md": fault}
        if program:
            faults["a second call"] = try_again(folder, program)
            faults["the copies of the crates"] = try_copies(folder, program)
            faults["the proof of the program"] = try_proof(folder, program)
        faults["a copy of what was proved"] = try_proved(room)
        for name, fault in faults.items():
            print(f"a repository of one's own, {name}: {fault or 'passed'}", flush=True)
            passed, failed = passed + (not fault), failed + bool(fault)
    print(f"{passed} passed, {failed} failed")
    return 1 if failed else 0


if __name__ == "__main__":
    sys.exit(main(sys.argv[1:]))
