#!/usr/bin/env python3
"""Compares LICENSES with the kit: which of its crates are in what this repository builds, and under which licence.

    tools/licences.py [--write] ['N passed, M failed']

What a program or a library of this repository is built from follows from crates.txt, and for crates of the kit from
their `use` lines. A crate of the kit that has a licence file is listed in LICENSES/README.md with the text, which is a
file of LICENSES. --write writes the list.
"""
import glob
import os
import re
import sys

from libraries import KIT, TOP, crates_used, text

# What is built: the library for C, with all that is made of it, and the programs.
BUILT = {
    "lazydfa_c": "the library for C, the Rust crate and the extension for PostgreSQL",
    "lazydfa": "the program `lazydfa`",
    "lgrep": "the program `lgrep`",
    "examples": "the example programs",
}
HEAD = """# Licences of code from elsewhere

Programs and libraries of this repository contain code of the Rattle kit's crates. Those that are written after crates
of others have a licence of their own, whose text has to accompany what you distribute:

| Text | Crates | In |
|---|---|---|
"""
TAIL = """
The kit's other crates, such as `std`, have no licence file. `tools/licences.py --write` writes this page.
"""
USE = re.compile(r"^\s*(?:pub )?use (\w+)::", re.M)
MODULE = re.compile(r"^\s*(?:pub(?:\(\w+\))? )?mod (\w+);", re.M)


def crates_of(name, uses):
    """Returns the crates of the kit that a crate of the repository is built from."""
    found, more = set(), [name]
    while more:
        crate = more.pop()
        if crate in uses:
            new = set(uses[crate][0])
        else:
            sources = [text(it) for it in glob.glob(f"{KIT}/rattle/{crate}/src/**/*.rt", recursive=True)]
            own = {it for source in sources for it in MODULE.findall(source)}
            named = {it for source in sources for it in USE.findall(source)} - own
            new = {it for it in named if os.path.isdir(f"{KIT}/rattle/{it}/src")}
        more += new - found
        found |= new
    return found - uses.keys()


def licence_of(crate):
    """Returns the text of a crate's licence, or none if it has no licence file."""
    found = sorted(glob.glob(f"{KIT}/rattle/{crate}/LICENSE*"))
    return text(found[0]) if found else None


def page():
    """Returns what LICENSES/README.md has to be, and the crates whose licence no file of LICENSES has."""
    uses, rows, missing = crates_used(), {}, set()
    texts = {text(path): os.path.basename(path) for path in glob.glob(f"{TOP}/LICENSES/*") if not path.endswith(".md")}
    for built, what in BUILT.items():
        for crate in crates_of(built, uses):
            licence = licence_of(crate)
            if licence is None:
                continue
            if licence not in texts:
                missing.add(crate)
                continue
            crates, places = rows.setdefault(texts[licence], (set(), []))
            crates.add(crate)
            places += [what] if what not in places else []
    lines = [
        f"| [{name}]({name}) | {', '.join(f'`{it}`' for it in sorted(crates))} | {'; '.join(places)} |\n"
        for name, (crates, places) in sorted(rows.items())
    ]
    unused = set(texts.values()) - rows.keys()
    return HEAD + "".join(lines) + TAIL, missing, unused


def main(words):
    writes = words[:1] == ["--write"]
    words = words[writes:]
    counted = re.fullmatch(r"(\d+) passed, (\d+) failed", words[0] if words else "0 passed, 0 failed")
    passed, failed = (int(counted[1]), int(counted[2])) if counted else (0, 1)
    wanted, missing, unused = page()
    path = f"{TOP}/LICENSES/README.md"
    if writes:
        with open(path, "w", encoding="utf-8") as it:
            it.write(wanted)
    faults = [f"no text of the licence of {it}" for it in sorted(missing)] + [f"{it} is of no crate" for it in sorted(unused)]
    if not os.path.exists(path) or text(path) != wanted:
        faults.append("README.md is not what --write writes")
    for fault in faults:
        print(f"LICENSES: {fault}")
    if not faults:
        print("LICENSES: each crate of the kit has its text there")
    print(f"{passed + (not faults)} passed, {failed + bool(faults)} failed")
    return 1 if failed or faults else 0


if __name__ == "__main__":
    sys.exit(main(sys.argv[1:]))
