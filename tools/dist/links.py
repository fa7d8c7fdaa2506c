#!/usr/bin/env python3
"""Makes the links of the Markdown files in a folder lead to files in the folder:

    links.py FOLDER [--check]

A link to a file that is not there leads to the file of the folder that has its name. If there is none, or more than one,
what was linked stays as text. With --check nothing is written, and it fails if a link leads to no file.
"""
import os
import re
import sys

LINK = re.compile(r"\[([^\][]*)\]\(([^)\s]+)\)")


def files_in(folder):
    """Returns the paths of all files, by their names."""
    found = {}
    for root, _, names in os.walk(folder):
        for name in names:
            found.setdefault(name, []).append(os.path.join(root, name))
    return found


def leads(path, target):
    """Whether a link of a file leads out of the project, to a part of the file, or to another file."""
    return re.match(r"\w+:|#", target) or os.path.exists(os.path.join(os.path.dirname(path), target.split("#")[0]))


def moved(path, files, link):
    """Returns a link with another target, or what was linked."""
    target, mark, part = link[2].partition("#")
    if leads(path, link[2]):
        return link[0]
    named = files.get(os.path.basename(target), [])
    if len(named) != 1:
        return link[1]
    return f"[{link[1]}]({os.path.relpath(named[0], os.path.dirname(path))}{mark}{part})"


def main():
    folder, is_check, status = sys.argv[1], "--check" in sys.argv, 0
    files = files_in(folder)
    for path in sorted(it for named in files.values() for it in named if it.endswith(".md")):
        with open(path, encoding="utf-8") as it:
            was = it.read()
        broken = [link[2] for link in LINK.finditer(was) if not leads(path, link[2])]
        if is_check and broken:
            print(f"{os.path.relpath(path, folder)}: {' '.join(broken)}")
            status = 1
        elif broken:
            with open(path, "w", encoding="utf-8") as it:
                it.write(LINK.sub(lambda link, at=path: moved(at, files, link), was))
    sys.exit(status)


if __name__ == "__main__":
    main()
