#!/usr/bin/env python3
"""Tries the mutation tests of the crates, crates/NAME/wrong/*.edit: each edit has to make a proof fail.

    tools/wrong.py [--all] [--write] [--folder wrong] [CRATE ..] [CRATE/EDIT ..] ['N passed, M failed']

`rt must-fail` checks a crate once for each edit; this script applies edits of different functions at once
(tools/edits.py). It prints a verdict on each edit:

- REFUSED: a goal of the function that it changes fails, or a step in that function's proof files. The clauses with
  failed goals are printed. A harmless edit is refused too if the proof, as written, does not fit it.
- PROVED: the function is proved with it, whatever else failed.
- BAD EDIT: it cannot be applied, compiled or read; or the only failure is a step that uses a name which the edit
  removed, which shows nothing about what the edit means.
- NOT TRIED: none of these, with the reason.
- RECORDED: crates/NAME/wrong/verdicts has its key (tools/verdicts.py), so everything that its verdict depends on is
  unchanged since it was refused. --write records the refused edits. A tenth of all edits is tried anyway, a different
  tenth at each commit, so that a recorded edit that was never tried is found; --all tries all.

docs/index/WRONG_BODIES.md has a row for each edit: what it does and which promise this breaks, from its file, and what
is printed after REFUSED at, or `rt ci` for an edit in must-fail/, which `rt ci` tries. --write writes these rows. A
failed clause of the function is given by its name, or as `ensures` if it has none. If no clause failed, each failed
goal is given by the name that a check prints: `f-requires` is a precondition of the call of f, `loop-i-preserved` the
invariant of the loop i, and `invariant_of-x` the invariant of the type of x.

It needs the libraries that `rt ci` (or `rt lib`) left in crates/*/out, and starts from what `rt check` kept there, if
anything: without that it proves the changed functions and what they call. It changes nothing there. The last line
counts the edits and the document, added to what the given line counts; the status is 1 unless each edit is refused and
each row is right. The processor time of each crate is printed on standard error. It needs git, the kit's rt and Python
3.
"""
import argparse
import concurrent.futures
import hashlib
import os
import re
import subprocess
import sys

from ci import lanes
from edits import RECORDED, REFUSED, UNKNOWN, Crate, Edit
from libraries import TOP, crates_used, text
from verdicts import key_of, record, recorded

DOCUMENT = f"{TOP}/docs/index/WRONG_BODIES.md"
# The rows of a crate's edits are below a heading with its name.
HEADING, ROW = re.compile(r"### `(\w+)`$"), re.compile(r"\| `(\w+)` \|")
HEAD = ["| Mutation | What it does | What it breaks | Refused at |", "|---|---|---|---|"]
# One in this many edits is drawn.
ONE_OF = 10


def commit():
    """Returns the commit that is checked out, or a random word if there is none."""
    ran = subprocess.run(["git", "rev-parse", "HEAD"], cwd=TOP, capture_output=True, text=True)
    return ran.stdout.strip() if ran.returncode == 0 else os.urandom(8).hex()


def drawn(crates):
    """Returns the crates and names of the edits that are tried at this commit, whatever is recorded: a tenth of all,
    consecutive from an edit that depends on the commit. Edits of one file depend on the proofs of the same functions,
    so this takes a fraction of the time of as many scattered edits."""
    edits = [(crate.name, it.name) for crate in crates for it in sorted(crate.edits, key=lambda it: it.change)]
    first = int(hashlib.sha256(commit().encode()).hexdigest(), 16) % max(1, len(edits))
    return {(edits + edits)[first + it] for it in range(-(-len(edits) // ONE_OF))}


def look_up(crate, due):
    """Finds which edits of a crate are recorded as refused, with everything that their verdicts depend on unchanged."""
    known = recorded(crate.name)
    for edit in crate.edits:
        edit.key = "" if edit.fault else key_of(edit, crate.name, crate.uses)
        is_known = known.get(edit.name, ("", ""))[0] == edit.key
        edit.is_recorded = is_known and not edit.fault and (crate.name, edit.name) not in due


def tried(crates):
    """Yields each edit of the crates with its verdict. Crates run in parallel, those with the most edits first."""

    def work(crate):
        try:
            return crate.verdicts()
        except OSError as error:
            return [(it, UNKNOWN, str(error)) for it in crate.edits]

    due = {it.name: sum(not edit.is_recorded for edit in it.edits) for it in crates}
    most = int(os.environ.get("RT_JOBS") or lanes())
    for crate in crates:
        crate.jobs = max(1, most // max(1, sum(it > 0 for it in due.values())))
    with concurrent.futures.ThreadPoolExecutor(most) as pool:
        for crate, result in [(it, pool.submit(work, it)) for it in sorted(crates, key=lambda it: -due[it.name])]:
            for edit, kind, what in result.result():
                said = {REFUSED: f" at {what}", RECORDED: " as refused"}.get(kind, f": {what}")
                print(f"{crate.name}/{edit.name}: {kind}{said}", flush=True)
                yield crate, edit, kind, what
            took = f"{len(crate.edits)} edits, {crate.checks} checks, {crate.seconds:.0f} s"
            print(f"{crate.name}: {took}", file=sys.stderr)


class Document:
    """The rows of docs/index/WRONG_BODIES.md, and what is wrong with them."""

    def __init__(self, crates, refused):
        """`refused` has the clauses at which edits are refused, by crate and name."""
        self.faults = []
        self.rows = {it.name: self.rows_of(it, refused) for it in crates}

    def rows_of(self, crate, refused):
        """Returns the rows of a crate's edits, by name."""
        folder = f"{crate.folder}/must-fail"
        names = [it for it in os.listdir(folder) if it.endswith(".edit")] if os.path.isdir(folder) else []
        others = [Edit(f"{folder}/{it}", crate.folder) for it in names]
        places = {it.name: refused.get((crate.name, it.name), "") for it in crate.edits}
        places |= {it.name: "`rt ci`" for it in others}
        edits = sorted([*crate.edits, *others], key=lambda it: it.name)
        self.faults += [f"{crate.name}/{it.name}: it does not say what it does" for it in edits if not it.what]
        self.faults += [f"{crate.name}/{it.name}: it does not say what it breaks" for it in edits if not it.breaks]
        return {it.name: f"| `{it.name}` | {it.what} | {it.breaks} | {places[it.name]} |" for it in edits}

    def compare(self):
        """Finds the rows of the document that are wrong or missing."""
        crate, left = "", {(name, it): row for name, rows in self.rows.items() for it, row in rows.items()}
        for line in text(DOCUMENT).splitlines():
            crate = HEADING.match(line)[1] if HEADING.match(line) else "" if line.startswith("#") else crate
            found = ROW.match(line)
            if crate and found and left.pop((crate, found[1]), "") != line:
                now = self.rows.get(crate, {}).get(found[1])
                self.faults.append(f"{crate}/{found[1]}: {'its row is not: ' + now if now else 'a row, and no edit'}")
        self.faults += [f"{name}/{it}: it has no row: {row}" for (name, it), row in left.items()]

    def write(self):
        """Writes the rows below the headings of the crates, which are consecutive in the document."""
        lines = text(DOCUMENT).split("\n")
        heads = [at for at, line in enumerate(lines) if HEADING.match(line)]
        first = heads[0] if heads else len(lines) - 1
        ends = (at for at in range(first, len(lines)) if re.match("##? ", lines[at]))
        rest = lines[next(ends, len(lines)) :]
        tables = [it for name, rows in self.rows.items() if rows for it in (f"### `{name}`", "", *HEAD, *rows.values(), "")]
        with open(DOCUMENT, "w", encoding="utf-8") as it:
            it.write("\n".join([*lines[:first], *tables, *rest]).rstrip("\n") + "\n")


def arguments():
    words = argparse.ArgumentParser(usage="\n".join(__doc__.split("\n")[2:3]))
    words.add_argument("--folder", default="wrong")
    words.add_argument("--all", action="store_true")
    words.add_argument("--write", action="store_true")
    words.add_argument("names", nargs="*")
    given = words.parse_args()
    counted = [it for it in given.names if " " in it or not it]
    found = re.fullmatch(r"(\d+) passed, (\d+) failed", counted[0] if counted else "0 passed, 0 failed")
    return given, {it for it in given.names if it not in counted}, [int(found[1]), int(found[2])] if found else [0, 1]


def try_edits(crates, given, names):
    """Tries the edits with these names, or all if there are none. Returns how many were refused and how many were not,
    and the clauses at which edits are refused, by crate and name."""
    due = {(it.name, edit.name) for it in crates for edit in it.edits} if given.all else drawn(crates)
    wanted = [Crate(it.name, it.uses, given.folder) for it in crates]
    for crate in wanted:
        is_whole = not names or crate.name in names
        crate.edits = [it for it in crate.edits if is_whole or f"{crate.name}/{it.name}" in names]
        look_up(crate, due)
    passed, failed, verdicts = 0, 0, {}
    for crate, edit, kind, what in tried([it for it in wanted if it.edits]):
        if kind == REFUSED:
            verdicts.setdefault(crate.name, {})[edit.name] = edit.key, what
        passed, failed = passed + (kind in (REFUSED, RECORDED)), failed + (kind not in (REFUSED, RECORDED))
    for crate, found in verdicts.items() if given.write else []:
        record(crate, found)
    known = {(it.name, edit): where for it in crates for edit, (_, where) in recorded(it.name).items()}
    now = {(crate, edit): where for crate, found in verdicts.items() for edit, (_, where) in found.items()}
    return passed, failed, known | now


def main():
    given, names, (passed, failed) = arguments()
    uses = crates_used()
    crates = [Crate(name, uses, given.folder) for name in uses]
    known = {f"{it.name}/{edit.name}" for it in crates for edit in it.edits}
    for name in sorted(names - known - set(uses)):
        print(f"{name}: there is no such edit in {given.folder}/")
        failed += 1
    right, wrong, refused = try_edits(crates, given, names)
    passed, failed = passed + right, failed + wrong
    if given.folder == "wrong":
        document = Document(crates, refused)
        if given.write:
            document.write()
        document.compare()
        for fault in document.faults or ["each edit has its row"]:
            print(f"docs/index/WRONG_BODIES.md: {fault}")
        passed, failed = passed + (not document.faults), failed + len(document.faults)
    print(f"{passed} passed, {failed} failed")
    return 1 if failed else 0


if __name__ == "__main__":
    sys.exit(main())
