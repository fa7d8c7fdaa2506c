"""The repository's libraries as `rt ci` or `rt lib` left them, and how rattle checks a crate over them."""
import functools
import os
import shutil
import subprocess
import sys

TOP = os.path.dirname(os.path.dirname(os.path.abspath(__file__)))
KIT = os.path.dirname(os.path.dirname(os.path.realpath(shutil.which("rt") or sys.exit("there is no rt"))))
# What a check reads from a crate.
PARTS = ("src", "specs", "proofs")


def text(path):
    with open(path, encoding="utf-8") as it:
        return it.read()


def walks_of(name):
    """Returns the folders that a check of this crate reads, with their files."""
    return [(at, found) for part in PARTS for at, _, found in os.walk(f"{TOP}/crates/{name}/{part}")]


def files_of(name):
    """Returns the files that a check of this crate reads."""
    return sorted(f"{at}/{it}" for at, found in walks_of(name) for it in found)


def crates_used():
    """Returns what each crate uses, according to crates.txt, and whether it is a static library."""
    uses = {}
    for line in text(f"{TOP}/crates.txt").splitlines():
        head, colon, rest = line.partition("#")[0].partition(":")
        if colon:
            uses[head.split()[0]] = rest.split(), "staticlib" in head.split()[1:]
    return uses


def below(name, uses):
    """Returns the names of the repository's crates that this one depends on."""
    found, more = set(), [name]
    while more:
        new = [it for it in uses[more.pop()][0] if it in uses and it not in found]
        found, more = found | set(new), more + new
    return sorted(found)


def rlib(name):
    return f"{TOP}/crates/{name}/out/rlib/{name}.rlib"


def has_stamp(name):
    """Whether the library was built by `rt lib`, not by `rt ci`."""
    return os.path.isfile(f"{os.path.dirname(rlib(name))}/stamp")


def is_current(name):
    """Whether there is a library of this crate that is newer than its files and its folders; a folder is newer if a
    file was removed from it."""
    made = os.path.getmtime(rlib(name)) if os.path.isdir(rlib(name)) else 0
    read = [*files_of(name), *(at for at, _ in walks_of(name))]
    return made > 0 and all(os.path.getmtime(it) <= made for it in read)


@functools.cache
def is_built(name):
    """Whether there is a library of this crate as it is now. `rt lib` goes by its stamp: if the library is out of date,
    it builds it."""
    if has_stamp(name):
        return not subprocess.run(["rt", "lib"], cwd=f"{TOP}/crates/{name}", stdout=sys.stderr).returncode
    return is_current(name)


def words_over(name, root, uses, jobs):
    """Returns the words with which rattle checks a crate, by its root file, over the libraries that are built. The
    crate is one of crates.txt, or uses what such a crate uses."""
    named, is_static = uses[name]
    words = ["--crate-name", name, root, "-L", f"dependency={KIT}/rlibs"]
    for it in below(name, uses):
        if not is_built(it):
            how = f"`rt ci` does that, and `rt lib` in crates/{it}"
            raise OSError(f"the library {it} is not built as it stands: {how}")
        words += ["-L", f"dependency={os.path.dirname(rlib(it))}"]
        words += ["--extern", f"{it}={rlib(it)}"] if it in named else []
    for it in ["std", *(it for it in named if it not in uses)]:
        words += ["--extern", f"{it}={KIT}/rlibs/{it}.rlib"]
    words += ["--antt-project", f"{KIT}/rattle/logic/antt-project.json", "--logic-built", f"{KIT}/logic_built"]
    words += ["--crate-type", "staticlib"] if is_static else []
    return [*words, "--jobs", str(jobs), "--links", f"{name}="]


def processors():
    return len(os.sched_getaffinity(0))
