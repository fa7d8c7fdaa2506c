"""NFAs with their spans, worked out by hand, without the library and without the model."""
from __future__ import annotations

from scripts import REFUSALS, Request, Script

# What it shows, the NFA, a haystack, and its spans with leftmost-first and with `MatchKind::All`.
SPANS = (
    ("a loop and a tail", "0/7,0 E1,2 S61-62:0 B61:3 B62:4 B62:5 M0 B00-ff:7 E0,6", b"abababbxabb", "0 0..7 0 8..11",
     "0 8..11"),
    ("two patterns that share states",
     "0/10,0,0 E1,2 B61:3 B62:3 B78:4 E5,6 LEndLF:7 LWordEndHalfAscii:8 M0 M1 B00-ff:10 E0,9", b"ax bx\naxx",
     "1 0..2 0 3..5", "0 3..5"),
    ("both patterns at one end", "0/8,0,0 E1,2 B61:3 S61-62:5 E4,6 M0 M1 B63:4 B00-ff:8 E0,7", b"abacb",
     "0 0..1 1 1..2 0 2..3 1 4..5", "1 4..5"),
    ("line feeds and carriage returns", "0/6,0 LStartCRLF:1 B61:2 E1,3 LEndCRLF:4 M0 B00-ff:6 E0,5",
     b"\r\naa\r\nab\na\r", "0 2..4 0 9..10", "0 9..10"),
    ("lines", "0/6,0 LStartLF:1 B61-62:2 E1,3 LEndLF:4 M0 B00-ff:6 E0,5", b"ab\nac\nb", "0 0..2 0 6..7", "0 6..7"),
    ("the haystack's ends", "0/8,0,0 E1,4 LStart:2 B61:3 M0 B62:5 LEnd:6 M1 B00-ff:8 E0,7", b"aabb", "0 0..1 1 3..4",
     "1 3..4"),
    ("words", "0/6,0 LWordStartAscii:1 B61-7a:2 E1,3 LWordEndAscii:4 M0 B00-ff:6 E0,5", b"ab -c d1 ef",
     "0 0..2 0 4..5 0 9..11", "0 9..11"),
    ("no word boundary, and half ones",
     "0/9,0,0 E1,4 LWordAsciiNegate:2 B61-7a:3 M0 LWordStartHalfUnicode:5 B2d:6 LWordEndHalfUnicode:7 M1 B00-ff:9 E0,8",
     b"abc--a- d", "0 1..2 0 2..3", "0 2..3"),
    ("a dense state and a group", "0/7,0 C1 D61:2,62:2,63:3 B78-79:4 B7a:1 C5 M0 B00-ff:7 E0,6", b"axczbycczczax",
     "0 0..2 0 2..6 0 7..13", "0 7..13"),
    ("empty matches", "0/4,0 E1,2 B61:0 M0 B00-ff:4 E0,3", b"aabaa", "0 0..2 0 3..5", "0 3..5"),
    ("what leads nowhere", "0/7,0 E1,2 E3,4 B61:5 U B61:3 M0 B00-ff:7 E0,6", b"aba", "0 0..1 0 2..3", "0 2..3"),
    ("a cycle that passes a look", "0/6,0 E1,2 LWordAscii:3 B25:3 E0,4 M0 B00-ff:6 E0,5", b"a%%b",
     "0 0..0 0 1..1 0 2..3 0 4..4", "0 4..4"),
    ("a part that isn't reached", "0/4,0 B61:1 M0 B62:1 B00-ff:4 E0,3", b"abab", "0 0..1 0 2..3", "0 2..3"),
)
# An NFA from which no regex is built, and why.
REFUSED = (("0/2,0 B61:1 M0 E0,3 B62:2", "NotLazy"), ("0/0,1 B61:1 M0", "Starts"), ("0/0,0 utf8 E1,2 M0 B00-ff:0", "NotUtf8"))


def spans_of(shows: str, nfa: str, haystack: bytes, first: str, last: str) -> Script:
    """Returns a regex of the NFA for each match kind, and all its spans."""
    kinds = (("unicode", first), ("all unicode", last))
    definitions = [Request(f"# {shows}", []), Request(f"nfa {nfa}", ["nfa", "%n0"])]
    requests = [Request(f"# {shows}: {haystack!r}", [])]
    for number, (options, spans) in enumerate(kinds):
        definitions.append(Request(f"regex %n0 made {options}", ["regex", f"%r{number}"]))
        requests += [Request(f"reset %r{number}", ["ok"]), Request(f"iter {haystack.hex()}", ["iter", spans])]
    return Script(definitions, requests)


def refused_of(nfa: str, name: str) -> Script:
    """Returns a regex whose building fails."""
    return Script([Request(f"nfa {nfa}", ["nfa", "%n0"]), Request("regex %n0 made", ["refused", REFUSALS[name]])])


def worked_parts() -> list[Script]:
    """Returns all of them, and a line that names no NFA."""
    parts = [spans_of(*row) for row in SPANS] + [refused_of(*row) for row in REFUSED]
    return parts + [Script([Request("regex 9999 made", ["bad nfa"]), Request("regex 9999 0 all", ["bad nfa"])])]
