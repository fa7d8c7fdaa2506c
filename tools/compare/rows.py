#!/usr/bin/env python3
"""Writes NFAs and requests into the script that the gate runs: some by hand, and random ones with the model's replies.

    tools/compare/rows.py

The definitions are added after those in `crates/lazydfa/stdin`, and the requests at its end, each part between two
comments; the replies go into `stdout`. What was between the comments is replaced, and nothing else is changed, so this
has to be run again if the other definitions or walks of the script change in number. The result is always the same.
"""
from __future__ import annotations

import os
from collections import Counter
from random import Random
from typing import Callable, Iterator, Optional

from compare import bases_of
from entries import ENTRIES, FOUND, PIECES, pair_of
from expressions import written
from graphs import ALPHABETS, random_graph, random_text
from model import Haystack, Mirror, Nfa, TooManyPaths, refusal
from scripts import (
    REFUSALS, Input, Options, Request, Script, asks_words, half_words, is_unsupported, mixed, numbered, random_haystack,
    random_input, random_nfa, wanted)
from worked import worked_parts

CRATE = os.path.join(os.path.dirname(os.path.abspath(__file__)), "../../crates/lazydfa")
BEGIN, END = "# == as tools/compare/rows.py writes them, up to the line of its end", "# == the end of these"
SEED = 1
MADE, PAIRS = 230, 330
BOTH = ("fwd", "rev", "which", "is", "tok", "walk fwd", "walk rev")
ALL = BOTH + ("find", "find", "iter", "iter")
PLAIN = ("fwd", "rev", "find", "is", "iter", "tok", "which 2")


def random_settings(random: Random, unicode: bool, starts: float) -> Options:
    """Returns settings that never end a search."""
    words = [name for name, part in (("all", 0.45), ("starts", starts), ("noclasses", 0.1), ("tags", 0.2))
             if random.random() < part]
    words += ["unicode"] * unicode
    words += random.choice(([], ["skip", "capacity=0"], ["skip", "capacity=0"], ["skip", "capacity=2000"]))
    return Options(" ".join(words), "all" in words, "starts" in words, unicode, frozenset(), False)


Texts = list[tuple[Haystack, Haystack]]


def random_turn(random: Random, kind: str, texts: Texts, options: Options) -> Optional[list[Request]]:
    """Returns a request, with the steps of the walk if it begins one, or None if the walk has too many steps."""
    forward, backward = random.choice(texts)
    haystack = backward if kind in ("rev", "walk rev") else forward
    given = random_input(random, [haystack])
    if kind.startswith("walk"):
        begin = Request(f"{kind} {given.line()}", ["walk", "%w0"])
        how = (given.span, given.mode)
        pairs = haystack.walk_back(*how) if kind == "walk rev" else haystack.walk(*how, options.all_kind)
        replies = [["half", str(pattern), str(at)] for pattern, at in pairs] + [["none"]]
        replies = [["unsupported"]] if is_unsupported(given, options) else replies
        return [begin] + [Request("step %w0", reply) for reply in replies] if len(replies) < 8 else None
    name = f"which {random.randint(1, 4)}" if kind == "which" else kind
    if kind != "tok" and is_unsupported(given, options):
        words = {"iter": ["iter"], "which": ["patterns"]}.get(kind, []) + ["unsupported"]
    else:
        words = wanted(name, given, options)
    return [Request(f"{name} {given.line()}", words)]


def random_turns(random: Random, kinds: tuple[str, ...], count: int, texts: Texts, options: Options) -> list[Request]:
    """Returns requests of one regex, with at most one walk, whose steps are made between the others. If the number of
    requests is odd, the cache is reset in the middle, and the walk continues."""
    plain: list[Request] = []
    walk: list[Request] = []
    for _ in range(count):
        kind = random.choice(kinds)
        turns = random_turn(random, kind, texts, options)
        if turns and len(turns) > 1:
            walk = walk or turns
        else:
            plain += turns or []
    turns, reset = mixed(random, plain, walk), [Request("reset %r0", ["ok"])]
    middle = len(turns) // 2
    return reset + turns[:middle] + reset * (len(turns) % 2) + turns[middle:]


def made(random: Random) -> Script:
    """Returns a regex that the library builds from the NFA of random expressions, or the reason why it builds none."""
    nfa = random_nfa(random)
    options = random_settings(random, asks_words(nfa) and random.random() < 0.95, 0.5)
    name = refusal(nfa, options.decides_words)
    words = ["refused", REFUSALS[name]] if name else ["regex", "%r0"]
    definitions = [Request(written(nfa), ["nfa", "%n0"]), Request(f"regex %n0 made {options.line}".rstrip(), words)]
    if name:
        return Script(definitions)
    texts = [random_haystack(random, nfa) for _ in range(3)]
    texts = [text for text in texts if not asks_words(nfa) or text.text.isascii()] or [Haystack(nfa, b"")]
    pairs = [(text, text) for text in texts]
    return Script(definitions, random_turns(random, ALL, 7, pairs, options))


def paired(random: Random) -> Script:
    """Returns a regex of two random NFAs, which need not belong together."""
    alphabet, patterns = random.choice(ALPHABETS), random.choice((1, 1, 2, 3))
    forward, backward = (random_graph(random, alphabet, patterns, reverse) for reverse in (False, True))
    asked = asks_words(forward) or asks_words(backward)
    options = random_settings(random, asked, 0.7)
    texts = [random_text(random, alphabet) for _ in range(3)]
    definitions = [Request(written(forward), ["nfa", "%n0"]), Request(written(backward), ["nfa", "%n1"]),
                   Request(f"regex %n0 %n1 {options.line}".rstrip(), ["regex", "%r0"])]
    texts_of = [(Haystack(forward, text), Mirror(backward, text)) for text in texts]
    return Script(definitions, random_turns(random, BOTH, 8, texts_of, options))


def listed(name: str, is_made: bool) -> Callable[[Random], Script]:
    """Returns a function that makes a regex of an entry of the catalogue, or of its forward NFA alone, and requests to
    it."""
    forward, backward = pair_of(name)

    def script(random: Random) -> Script:
        options = random_settings(random, asks_words(forward), 0.7)
        texts = [b"".join(random.choices(PIECES[name], k=random.randint(0, 6))) for _ in range(6)]
        texts_of = [(Haystack(forward, text[:18]), Mirror(backward, text[:18])) for text in texts]
        texts_of = [(text, text if is_made else back) for text, back in texts_of]
        words = [name] + ["made"] * is_made + [options.line] * (options.line != "")
        definitions = [Request("regex " + " ".join(words), ["regex", "%r0"])]
        return Script(definitions, random_turns(random, ALL, 14, texts_of, options))
    return script


def goes_through(name: str) -> Iterator[Script]:
    """Yields each request to an entry of the catalogue, with each match kind, over texts built from its pieces."""
    forward, backward = pair_of(name)
    random = Random(name)
    texts = [b"".join(random.choices(PIECES[name], k=length))[:16] for length in (1, 3, 5)] + [FOUND[name]]
    for line in ("", "all"):
        words = [line] * (line != "") + ["unicode"] * asks_words(forward)
        options = Options(" ".join(words), line == "all", False, True, frozenset(), False)
        script = Script([Request(f"regex {name} {options.line}".rstrip(), ["regex", "%r0"])], [Request("reset %r0", ["ok"])])
        for number, text in enumerate(texts):
            given = (Haystack(forward, text), Mirror(backward, text))
            script.requests += each_request(number, given, options)
        yield script


def each_request(number: int, texts: tuple[Haystack, Haystack], options: Options) -> list[Request]:
    """Returns all requests to a text. The walks that they begin are numbered by the text's number, and report all their
    matches; for every other text they continue over a new cache after each step."""
    forward, backward = texts
    span = (0, len(forward.bytes))
    requests = []
    for kind in PLAIN:
        given = Input(backward if kind == "rev" else forward, span, "unanchored", False)
        requests.append(Request(f"{kind} {given.line()}", wanted(kind, given, options)))
    for way, pairs in (("fwd", forward.walk(span, "unanchored", options.all_kind)),
                       ("rev", backward.walk_back(span, "unanchored"))):
        name = f"%w{2 * number + (way == 'rev')}"
        requests.append(Request(f"walk {way} {forward.bytes.hex() or '-'}", ["walk", name]))
        replies = [["half", str(pattern), str(at)] for pattern, at in pairs] + [["none"]]
        reset = [Request("reset %r0", ["ok"])] * (number % 2)
        requests += [part for reply in replies for part in [Request(f"step {name}", reply)] + reset]
    return requests


def all_parts() -> list[Script]:
    """Returns all parts. A random part is generated again if it has too many paths."""
    random = Random(SEED)
    makers = [made] * MADE + [paired] * PAIRS
    makers += [listed(name, is_made) for name in ENTRIES for is_made in (False, False, False, name != "any")]
    parts = worked_parts() + [script for name in ENTRIES for script in goes_through(name)]
    for make in makers:
        while True:
            try:
                parts.append(make(random))
                break
            except TooManyPaths:
                continue
    return parts


def asks(line: str) -> bool:
    """Whether a line has a reply."""
    return bool(line) and not line.startswith("#")


def kept(lines: list[str], replies: list[str]) -> Iterator[tuple[str, str]]:
    """Returns the other lines of a script, each with its reply if it has one."""
    answers = iter(replies)
    is_written = False
    for line in lines:
        reply = next(answers) if asks(line) else ""
        is_written = is_written or line == BEGIN
        if not is_written:
            yield line, reply
        is_written = is_written and line != END


def rows_of(parts: list[list[Request]], bases: list[Counter[str]]) -> list[tuple[str, str]]:
    """Returns the rows of all parts, between the two comments."""
    rows = [(numbered(request.line, base), numbered(" ".join(request.words), base))
            for part, base in zip(parts, bases) for request in part]
    return [(BEGIN, ""), *rows, (END, "")]


def main() -> None:
    """Writes both files."""
    with open(f"{CRATE}/stdin", encoding="utf-8") as script, open(f"{CRATE}/stdout", encoding="utf-8") as answers:
        rows = list(kept(script.read().splitlines(), answers.read().splitlines()))
    before = Counter(reply[0] for _, reply in rows if reply.split(" ")[0] in ("nfa", "regex", "walk"))
    parts = all_parts()
    bases = [base + before for base in bases_of(parts)]
    last = max(at for at, (line, _) in enumerate(rows) if line.startswith(("nfa ", "regex ")))
    rows[last + 1:last + 1] = rows_of([part.definitions for part in parts], bases)
    rows += rows_of([part.requests for part in parts], bases)
    with open(f"{CRATE}/stdin", "w", encoding="utf-8") as script:
        script.writelines(f"{line}\n" for line, _ in rows)
    with open(f"{CRATE}/stdout", "w", encoding="utf-8") as answers:
        answers.writelines(f"{reply}\n" for line, reply in rows if asks(line))


if __name__ == "__main__":
    main()
