"""The catalogue of `lazydfa`: its NFAs as scripts write them, and pieces from which haystacks are built."""
from __future__ import annotations

import re

from model import LOOKS, Accept, Ask, Free, Nfa, Read, State

# The NFA for forward searches, and those states of the NFA for reverse searches that differ.
ENTRIES = {
    "ab": ("0/0,0 B61:1 B62:2 M0", "B62:1 B61:2 M0"),
    "always": ("0/0,0 M0", ""),
    "never": ("0/0 F", ""),
    "date": ("0/11,0 B30-39:1 B30-39:2 B30-39:3 B30-39:4 B2d:5 B30-39:6 B30-39:7 B2d:8 B30-39:9 B30-39:10 M0 E0,12 "
             "B00-ff:11",
             "B30-39:1 B30-39:2 B2d:3 B30-39:4 B30-39:5 B2d:6 B30-39:7 B30-39:8 B30-39:9 B30-39:10 M0 E0,12 B00-ff:11"),
    "words": ("0/7,1,3 E1,3 S30-39:2,41-5a:2,5f:2,61-7a:2 E1,5 B21-7e:4 E3,6 M0 M1 E0,8 B00-ff:7", ""),
    "abc": ("0/7,0 E1,5 E2,4 B61:3 B62:0 B63:0 B63:6 M0 E0,8 B00-ff:7",
            "B63:1 E2,6 E3,5 B62:4 B61:1 B63:1 M0 E0,8 B00-ff:7"),
    "aa": ("0/5,1,2 E1,2 B61:3 B61:4 M0 M1 E0,6 B00-ff:5", ""),
    "bnum": ("0/5,0 LWordUnicode:1 B30-39:2 E1,3 LWordUnicode:4 M0 E0,6 B00-ff:5", ""),
    "wordend": ("0/4,0 S30-39:1,41-5a:1,5f:1,61-7a:1 E0,2 LEnd:3 M0 E0,5 B00-ff:4",
                "LStart:1 S30-39:2,41-5a:2,5f:2,61-7a:2 E1,3 M0 E0,5 B00-ff:4"),
    "empty": ("0/1,0 utf8 M0 E0,2 B00-ff:1", ""),
    "snow": ("0/8,0 utf8 E1,6 B61:2 Be2:3 B98:4 B83:5 B78:7 LWordAsciiNegate:7 M0 E0,9 B00-ff:8",
             "E1,6 B78:2 B83:3 B98:4 Be2:5 B61:7 LWordAsciiNegate:7 M0 E0,9 B00-ff:8"),
    "snowx": ("0/11,1,8 utf8 E1,8 E2,7 B61:3 Be2:4 B98:5 B83:6 B78:9 LWordAsciiNegate:9 B78:10 M0 M1 E0,12 B00-ff:11",
              "E1,8 E2,7 B78:3 B83:4 B98:5 Be2:6 B61:9 LWordAsciiNegate:9 B78:10 M0 M1 E0,12 B00-ff:11"),
    "bound": ("0/2,0 LWordUnicode:1 M0 E0,3 B00-ff:2", ""),
    "crlf": ("0/2,0 LEndCRLF:1 M0 E0,3 B00-ff:2", "LStartCRLF:1 M0 E0,3 B00-ff:2"),
    "any": ("0/0,0 utf8 E1,2 M0 B00-ff:0", ""),
    "runs": ("0/7,1,3 E1,3 B61-7a:2 E1,5 B30-39:4 E3,6 M0 M1 E0,8 B00-ff:7", ""),
    "a16": ("0/0,0 " + " ".join(f"B61:{number}" for number in range(1, 17)) + " M0", ""),
    "percents": ("0/5,0 E1,2 LWordAscii:3 B25:3 E0,4 M0 E0,6 B00-ff:5", ""),
    "starts": ("0/5,0 E1,2 LStart:3 B61:3 E0,4 M0 E0,6 B00-ff:5", "E1,2 LEnd:3 B61:3 E0,4 M0 E0,6 B00-ff:5"),
    "bounds": ("0/5,0 E1,4 E2,3 LWordAscii:0 B61:0 M0 E0,6 B00-ff:5", ""),
    "knot": ("0/7,4,1 E2,1 B61-7a:6 LWordAscii:3 E0,4 B78:5 M0 M1 E0,8 B00-ff:7",
             "E4,1 B61-7a:6 LWordAscii:3 E2,5 B78:2 M0 M1 E0,8 B00-ff:7"),
}
PIECES = {
    "ab": (b"a", b"b", b"x"), "always": (b"a", b"b", b"x"), "never": (b"a", b"b", b"x"),
    "date": (b"0000-00-0", b"0", b"-"), "words": (b"a", b"!", b" "), "abc": (b"a", b"b", b"c"),
    "aa": (b"a", b"b", b"x"), "bnum": (b"1", b"a", b" "), "wordend": (b"a", b" ", b"_"),
    "empty": (b"a", b"\x98", b"\xe2", b"\xe2\x98\x83", b"\xc3\xa9"),
    "snow": (b"a", b"\x98", b" ", b"\xe2\x98\x83", b"x"), "snowx": (b"x", b"\x98", b" ", b"\xe2\x98\x83", b"a"),
    "bound": (b"a", b" ", b"_"), "crlf": (b"\r", b"\n", b"a"),
    "any": (b"a", b"\x98", b"\xe2", b"\xe2\x98\x83", b"\xc3\xa9"), "runs": (b"a", b"1", b" "),
    "a16": (b"aaaaaaaaaaaaaaa", b"a", b"x"), "percents": (b"z", b"%", b" "), "starts": (b"a", b"b", b"\n"),
    "bounds": (b"a", b" ", b"%"), "knot": (b"x", b"a", b" "),
}
# A text with matches, for each entry that has a pattern.
FOUND = {
    "ab": b"abab", "always": b"ab", "never": b"ab", "date": b"x2018-12-24 2", "words": b"@foo bar", "abc": b"cabac",
    "aa": b"baa", "bnum": b"a 12 3", "wordend": b"ab cd", "empty": b"a\xe2\x98\x83", "snow": b"xa\xe2\x98\x83x",
    "snowx": b"xa\xe2\x98\x83x", "bound": b"ab c", "crlf": b"a\r\nb\n", "any": b"a\xe2\x98\x83", "runs": b"12ab 34",
    "a16": b"a" * 16, "percents": b"a%%b", "starts": b"aaba", "bounds": b"aa-a", "knot": b"xax-x",
}


def ranges_of(text: str) -> tuple[tuple[int, int, int], ...]:
    """Returns the ranges of a state, and the states that they lead to."""
    parts = [re.split("[-:]", part) for part in text.split(",")]
    return tuple((int(part[0], 16), int(part[-2], 16), int(part[-1])) for part in parts)


def state_of(word: str) -> State:
    """Returns the state that a word of a script describes, of the kinds that the catalogue has."""
    kind, rest = word[0], word[1:]
    if kind in "BS":
        return Read(kind, ranges_of(rest))
    if kind == "L":
        name, target = rest.split(":")
        return Ask(LOOKS.index(name), int(target))
    return Accept(int(rest)) if kind == "M" else Free(kind, tuple(map(int, filter(None, rest.split(",")))))


def pair_of(name: str) -> tuple[Nfa, Nfa]:
    """Returns the two NFAs of an entry."""
    forward, backward = ENTRIES[name]
    starts, *words = forward.split(" ")
    anchored, unanchored, *patterns = map(int, re.split("[/,]", starts))
    utf8 = words[0] == "utf8"
    states = tuple(map(state_of, words[utf8:]))
    others = tuple(map(state_of, backward.split(" "))) if backward else states
    one, other = (Nfa(each, anchored, unanchored, tuple(patterns), utf8, reverse, 0x0A)
                  for each, reverse in ((states, False), (others, True)))
    return one, other
