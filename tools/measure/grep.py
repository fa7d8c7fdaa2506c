#!/usr/bin/env python3
"""Measures `lgrep`, `grep` and, if it is installed, ripgrep, with one thread:

    tools/measure/grep.py [--program FILE] [MIB]

The text is a log of this many MiB (100 by default) of random lines, each with a time, a level, eight words of
LICENSE-APACHE and a number. The program is the one that `rt run` or `rt ci` left in crates/lgrep/out, unless
another is named. For each program it prints the least of three processor times in user mode, the programs in turn, or
the only time of a call that takes half a minute, and stops if two programs print different results. With `--which` the
program is measured alone: without the numbers, its output must equal its output without `--which`.
"""
import argparse
import hashlib
import os
import random
import re
import resource
import shutil
import string
import subprocess
import sys
import tempfile

TOP = os.path.dirname(os.path.dirname(os.path.dirname(os.path.abspath(__file__))))
# A call that takes at least this many seconds is not repeated.
LONG = 30
# What is searched for: the arguments of all programs, and the pattern, if there is one.
WORKS = {
    "a word, in either case": (["-c", "-i"], "contributor [a-z]+"),
    "digits": (["-c"], "[0-9]{5} ms"),
    "two words": (["-c"], "[A-Z][a-z]+ (INFO|took)"),
    "each number": (["-o"], "[0-9]+"),
    "lines without a match": (["-c", "-v"], "[xz]"),
    "1,000 words": (["-c", "-f", "words"], None),
    "1,000 rules, counted": (["-c", "-f", "rules"], ""),
    "1,000 rules, printed": (["-f", "rules"], ""),
}


def write_log(path, most):
    """Writes the log, and 1,000 words of random letters in another file."""
    dice = random.Random(7)
    with open(f"{TOP}/LICENSE-APACHE", encoding="utf-8") as it:
        words = it.read().split()
    written = 0
    with open(path, "w", encoding="utf-8") as log:
        while written < most:
            day, hour, minute, second = dice.randint(1, 28), dice.randint(0, 23), dice.randint(0, 59), dice.randint(0, 59)
            level, text = dice.choice(["INFO", "WARN", "ERROR", "DEBUG"]), " ".join(dice.choices(words, k=8))
            time = f"2026-11-{day:02} {hour:02}:{minute:02}:{second:02}"
            written += log.write(f"{time} {level} {text} took {dice.randint(1, 20000)} ms\n")
    room = os.path.dirname(path)
    with open(f"{room}/words", "w", encoding="utf-8") as it:
        it.writelines(f"{''.join(dice.choices(string.ascii_lowercase, k=dice.randint(6, 10)))}\n" for _ in range(1000))
    with open(f"{room}/rules", "w", encoding="utf-8") as it:
        it.writelines(f"{re.escape(dice.choice(words))} took [0-9]*{dice.randint(0, 99):02} ms\n" for _ in range(1000))


def measured(words, room):
    """Returns the processor time in user mode of a program, and its output."""
    before = resource.getrusage(resource.RUSAGE_CHILDREN)
    ran = subprocess.run(words, cwd=room, stdout=subprocess.PIPE, env={**os.environ, "LC_ALL": "C"})
    return resource.getrusage(resource.RUSAGE_CHILDREN).ru_utime - before.ru_utime, ran.stdout


def best(calls, room):
    """Returns for each call the least of three times, with the calls in turn, and a checksum of its output."""
    times, sums = {name: [] for name in calls}, {}
    for _ in range(3):
        for name, words in calls.items():
            if max(times[name], default=0) < LONG:
                time, printed = measured(words, room)
                times[name].append(time)
                sums[name] = hashlib.sha256(printed).hexdigest()
    return {name: min(all_) for name, all_ in times.items()}, sums


def show(work, times):
    print(f"{work}: " + ", ".join(f"{name} {time:.2f}" for name, time in times.items()), flush=True)


def main(words):
    parser = argparse.ArgumentParser()
    parser.add_argument("--program", default=f"{TOP}/crates/lgrep/out/lgrep")
    parser.add_argument("mib", nargs="?", type=int, default=100)
    given = parser.parse_args(words)
    own = os.path.abspath(given.program)
    with tempfile.TemporaryDirectory(prefix="grep-") as room:
        write_log(f"{room}/log", given.mib << 20)
        programs = {"lgrep": [own], "grep": ["grep"]}
        if shutil.which("rg"):
            programs["rg"] = ["rg", "-j1", "-N", "-a", "--no-filename", "--include-zero"]
        for work, (flags, pattern) in WORKS.items():
            fixed = pattern is None
            kinds = {"lgrep": [], "grep": ["-F" if fixed else "-E"], "rg": ["-F"] if fixed else []}
            asked = [*flags, *([pattern] if pattern else []), "log"]
            times, sums = best({name: [*program, *kinds[name], *asked] for name, program in programs.items()}, room)
            if len(set(sums.values())) > 1:
                sys.exit(f"{work}: they do not print the same")
            show(work, times)
        for name in ("words", "rules"):
            which = [own, "--which", "-f", name, "log"]
            show(f"1,000 {name}, which", best({"lgrep": which}, room)[0])
            lines = re.sub(rb"(?m)^[0-9,]+:", b"", measured(which, room)[1])
            if lines != measured([own, "-f", name, "log"], room)[1]:
                sys.exit(f"{name}: other lines")


if __name__ == "__main__":
    main(sys.argv[1:])
