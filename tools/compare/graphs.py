"""Random NFAs in which any state may lead to any other, for forward and for reverse searches."""
from __future__ import annotations

from dataclasses import dataclass
from random import Random

from model import LOOKS, Accept, Ask, Free, Nfa, Read, State

KINDS = "BBBBBSSDLLUEECFM"


@dataclass(frozen=True)
class Alphabet:
    """Three bytes in order, and the flags of NFAs over them."""
    letters: bytes
    utf8: bool = False
    terminator: int = 0x0A

    def looks(self) -> list[int]:
        """Returns the numbers of the looks that such NFAs may have: Unicode words only if each byte is ASCII."""
        return [number for number, name in enumerate(LOOKS) if max(self.letters) < 0x80 or "Unicode" not in name]


ALPHABETS = (Alphabet(b"\n-a"), Alphabet(b"\n\ra"), Alphabet(b"-;a", False, 0x3B), Alphabet(b"!Aa", True, 0x41),
             Alphabet(b"a\xa9\xc3", True))


def random_ranges(random: Random, alphabet: Alphabet, count: int) -> tuple[tuple[int, int, int], ...]:
    """Returns ranges for each letter; the first and the last also contain all bytes beyond it. Rarely one is left
    out."""
    first, second, third = alphabet.letters
    ranges = ((0, first), (second, second), (third, 255))
    return tuple((lo, hi, random.randrange(count)) for lo, hi in ranges if random.random() < 0.75)


def random_state(random: Random, alphabet: Alphabet, count: int) -> State:
    """Returns a state of an NFA with this many states. A match state gets its pattern later."""
    kind = random.choice(KINDS)
    if kind == "B":
        lo, hi = sorted(random.choices(alphabet.letters, k=2))
        return Read("B", ((lo, hi, random.randrange(count)),))
    if kind in "SD":
        return Read(kind, random_ranges(random, alphabet, count))
    if kind == "L":
        return Ask(random.choice(alphabet.looks()), random.randrange(count))
    if kind == "M":
        return Accept(0)
    targets = {"U": random.randrange(4), "E": 2, "C": 1, "F": 0}[kind]
    return Free(kind, tuple(random.randrange(count) for _ in range(targets)))


def random_graph(random: Random, alphabet: Alphabet, patterns: int, reverse: bool) -> Nfa:
    """Returns an NFA with this many patterns, whose match states are in order, since a builder makes no others."""
    count = random.randint(3, 6)
    states = [random_state(random, alphabet, count) for _ in range(count - 1)] + [Accept(0)]
    matches = [number for number, state in enumerate(states) if isinstance(state, Accept)]
    for number, pattern in zip(matches, sorted(random.choices(range(patterns), k=len(matches)))):
        states[number] = Accept(pattern)
    anchored, *starts = random.choices(range(count), k=patterns + 1)
    unanchored = random.choice((anchored, random.randrange(count), count, count))
    if unanchored == count:
        states += [Free("E", (anchored, count + 1)), Read("B", ((0, 255, count),))]
    return Nfa(tuple(states), anchored, unanchored, tuple(starts), alphabet.utf8, reverse, alphabet.terminator)


def random_text(random: Random, alphabet: Alphabet) -> bytes:
    """Returns up to six of the letters."""
    return bytes(random.choices(alphabet.letters, k=random.randint(0, 6)))
