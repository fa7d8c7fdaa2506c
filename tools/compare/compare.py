"""Compares replies with those of the model.

`compare.py ask NFAS SEED` prints a script over this many random NFAs. `compare.py check NFAS SEED` creates the same
script, and reads the replies to it.
"""
from __future__ import annotations

import sys
from collections import Counter
from itertools import accumulate, islice
from random import Random
from typing import Iterable, Iterator

from scripts import ERROR, Script, numbered, random_script


def random_scripts(count: int, seed: int) -> Iterator[Script]:
    """Yields the parts of a seed."""
    random = Random(seed)
    for _ in range(count):
        yield random_script(random)


def bases_of(scripts: list[Script]) -> list[Counter[str]]:
    """Returns how many NFAs, regexes and walks precede each part, if all parts follow each other in one script."""
    return list(accumulate((script.counts() for script in scripts[:-1]), initial=Counter()))


def ask(scripts: list[Script]) -> None:
    """Prints one script: all definitions, and then all requests."""
    for requests in ([script.definitions for script in scripts], [script.requests for script in scripts]):
        for part, bases in zip(requests, bases_of(scripts)):
            for request in part:
                print(numbered(request.line, bases))


def replies_by_script(scripts: list[Script], lines: Iterable[str]) -> list[list[str]]:
    """Returns the replies to each part."""
    replies = iter([line.rstrip("\n") for line in lines])
    defined = [list(islice(replies, len(script.definitions))) for script in scripts]
    return [before + list(islice(replies, len(script.requests))) for script, before in zip(scripts, defined)]


def first_words(replies: list[str]) -> list[str]:
    """Returns what is counted of replies: their first words, or that an error ends them."""
    return ["error" if ERROR.match(reply) else reply if reply.startswith("refused") else reply.split()[0]
            for reply in replies]


def check(seed: int, scripts: list[Script]) -> int:
    """Prints what was compared, and the shortest part with a wrong reply, if there is one."""
    counts: Counter[str] = Counter()
    wrong: list[tuple[str, str]] = []
    answers = replies_by_script(scripts, sys.stdin)
    for script, replies, bases in zip(scripts, answers, bases_of(scripts)):
        counts.update(first_words(replies))
        difference = script.first_difference(replies, bases)
        if difference:
            wrong.append((script.text(), difference))
    expected = sum(len(script.definitions) + len(script.requests) for script in scripts)
    total = sum(counts.values())
    print(f"seed {seed}: {len(scripts)} NFAs, {total} replies to {expected} lines, {len(wrong)} NFAs with a wrong one")
    print(", ".join(f"{number} {name}" for name, number in sorted(counts.items())))
    if wrong:
        text, difference = min(wrong, key=lambda pair: len(pair[0]))
        print(f"the shortest of these:\n{text}\n{difference}")
    return 1 if wrong or total != expected else 0


def main(what: str, count: int, seed: int) -> int:
    """Prints the script, or checks the replies."""
    scripts = list(random_scripts(count, seed))
    if what == "check":
        return check(seed, scripts)
    ask(scripts)
    return 0


if __name__ == "__main__":
    sys.exit(main(sys.argv[1], int(sys.argv[2]), int(sys.argv[3])))
