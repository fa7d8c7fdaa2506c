"""Random regular expressions, compiled to NFAs, and how scripts write these."""
from __future__ import annotations

from dataclasses import dataclass
from random import Random
from typing import Optional, Union

from model import LOOKS, Accept, Ask, Free, Nfa, Read, State

CHARACTERS = ("a", "b", "-", "\n", "\r", "\u00e9", "\u2603")
BYTES = (0x61, 0x62, 0x98, 0xE2, 0xFF)
CLASSES = (((0x61, 0x62),), ((0x61, 0x61), (0x62, 0x7A)), ((0x0A, 0x0A), (0x0D, 0x0D)), ((0x00, 0x60), (0x63, 0x7F)))


@dataclass(frozen=True)
class Text:
    """These bytes in sequence; without a byte it matches the empty string."""
    bytes: bytes


@dataclass(frozen=True)
class Class:
    """One byte in these ranges; without a range it matches nothing."""
    ranges: tuple[tuple[int, int], ...]


@dataclass(frozen=True)
class Look:
    """A look, by its number."""
    number: int


@dataclass(frozen=True)
class Group:
    """Matches what its part matches, as a capture group."""
    part: Expression


@dataclass(frozen=True)
class Joined:
    """The parts in sequence."""
    parts: tuple[Expression, ...]


@dataclass(frozen=True)
class Either:
    """One of the parts, the first preferred."""
    parts: tuple[Expression, ...]


@dataclass(frozen=True)
class Repeat:
    """The part repeated at least `least` times (0 or 1), or at most once; more repetitions are preferred if it is
    greedy."""
    part: Expression
    least: int
    once: bool
    greedy: bool


Expression = Union[Text, Class, Look, Group, Joined, Either, Repeat]


def random_leaf(random: Random, utf8: bool) -> Expression:
    """Returns an expression without parts. In UTF-8 mode it rarely reads what is not UTF-8."""
    kind = random.random()
    if kind < 0.25:
        unicode = random.random() < 0.2
        return Look(random.choice([number for number, name in enumerate(LOOKS) if ("Unicode" in name) == unicode]))
    if kind < 0.32:
        return Text(b"")
    if kind < 0.34:
        return Class(())
    if kind < 0.5:
        return Class(random.choice(CLASSES))
    if random.random() < (0.02 if utf8 else 0.3):
        return Text(bytes(random.choice(BYTES) for _ in range(random.randint(1, 2))))
    return Text("".join(random.choice(CHARACTERS) for _ in range(random.randint(1, 2))).encode())


def random_expression(random: Random, depth: int, utf8: bool) -> Expression:
    """Returns an expression whose parts are nested at most this deep."""
    kind = random.random()
    if depth == 0 or kind < 0.25:
        return random_leaf(random, utf8)
    if kind < 0.8:
        parts = tuple(random_expression(random, depth - 1, utf8) for _ in range(random.randint(2, 3)))
        return Joined(parts) if kind < 0.55 else Either(parts)
    if kind < 0.83:
        return random_cycle(random, depth - 1, utf8)
    part = random_expression(random, depth - 1, utf8)
    if kind < 0.87:
        return Group(part)
    return Repeat(part, random.randint(0, 1), random.random() < 0.3, random.random() < 0.6)


def random_cycle(random: Random, depth: int, utf8: bool) -> Expression:
    """Returns a repetition of a look or another expression, as in `(?:\\b|a)*`: a cycle that reads nothing passes the
    look."""
    look = Look(random.choice([number for number, name in enumerate(LOOKS) if "Unicode" not in name]))
    parts = (look, random_expression(random, depth, utf8))
    either = Either(parts if random.random() < 0.7 else parts[::-1])
    return Repeat(either, random.randint(0, 1), False, random.random() < 0.8)


class Compiler:
    """Compiles expressions to states, from the end to the start."""

    def __init__(self, random: Random) -> None:
        self.random = random
        self.states: list[Optional[State]] = []

    def add(self, state: Optional[State]) -> int:
        """Adds a state, and returns its number."""
        self.states.append(state)
        return len(self.states) - 1

    def free(self, targets: list[int]) -> Free:
        """Returns a state that reads nothing and leads to these states."""
        letters = {0: "FU", 1: "UC", 2: "UE"}.get(len(targets), "U")
        return Free(self.random.choice(letters), tuple(targets))

    def read(self, ranges: tuple[tuple[int, int], ...], to: int) -> State:
        """Returns a state that reads a byte in these ranges. `B` takes only one range, and a dense state cannot lead to
        0."""
        letters = ("B" if len(ranges) == 1 else "") + "S" + ("D" if to > 0 and self.random.random() < 0.3 else "")
        letter = self.random.choice(letters)
        return Read(letter, tuple((lo, hi, to) for lo, hi in ranges))

    def compile(self, expression: Expression, after: int) -> int:
        """Returns the first state of an expression that is followed by the state `after`."""
        if isinstance(expression, Text):
            for byte in reversed(expression.bytes):
                after = self.add(self.read(((byte, byte),), after))
            return after if expression.bytes or self.random.random() < 0.5 else self.add(self.free([after]))
        if isinstance(expression, Class):
            return self.add(self.read(expression.ranges, after) if expression.ranges else self.free([]))
        if isinstance(expression, Look):
            return self.add(Ask(expression.number, after))
        if isinstance(expression, Group):
            return self.add(Free("C", (self.compile(expression.part, self.add(Free("C", (after,)))),)))
        if isinstance(expression, Joined):
            for part in reversed(expression.parts):
                after = self.compile(part, after)
            return after
        if isinstance(expression, Either):
            return self.add(self.free([self.compile(part, after) for part in expression.parts]))
        return self.compile_repeat(expression, after)

    def compile_repeat(self, expression: Repeat, after: int) -> int:
        """Adds a union before the part, to which the part leads back unless it is read at most once."""
        union = self.add(None)
        part = self.compile(expression.part, after if expression.once else union)
        self.states[union] = self.free([part, after] if expression.greedy else [after, part])
        return part if expression.least == 1 else union


def random_nfa(random: Random) -> Nfa:
    """Returns the NFA of up to four random expressions, each a pattern. From a few starts no regex can be built."""
    utf8 = random.random() < 0.4
    compiler = Compiler(random)
    count = random.choices((0, 1, 2, 3, 4), (1, 40, 30, 20, 9))[0]
    starts: list[int] = []
    for pattern in range(count):
        expression = random_expression(random, random.choice((1, 2, 2, 3)), utf8)
        starts.append(compiler.compile(expression, random_end(random, compiler, pattern, starts)))
    led = starts if random.random() < 0.9 else random.sample(starts, random.randint(0, count))
    anchored = led[0] if len(led) == 1 and random.random() < 0.5 else compiler.add(compiler.free(led))
    unanchored = random_prefix(random, compiler, anchored)
    terminator = 0x0A if random.random() < 0.8 else random.choice((0x00, 0x0D, 0x61, 0xFF))
    states = tuple(state for state in compiler.states if state is not None)
    if starts and random.random() < 0.03:
        starts[random.randrange(count)] = random.randrange(anchored + 1)
    return Nfa(states, anchored, unanchored, tuple(starts), utf8, random.random() < 0.1, terminator)


def random_end(random: Random, compiler: Compiler, pattern: int, starts: list[int]) -> int:
    """Returns the state where a pattern ends: a match state, or sometimes a union of it and a state of an earlier
    pattern."""
    end = compiler.add(Accept(pattern))
    if not starts or random.random() < 0.85:
        return end
    earlier = starts[-1] if random.random() < 0.5 else random.randrange(end)
    return compiler.add(compiler.free([end, earlier]))


def random_prefix(random: Random, compiler: Compiler, start: int) -> int:
    """Returns the unanchored start: a lazy loop before the start, or the start itself."""
    kind = random.random()
    if kind < 0.15:
        return start
    union = len(compiler.states)
    targets = (start, union + 1) if kind < 0.97 else (union + 1, start)
    compiler.add(Free("E" if kind < 0.9 else "U", targets))
    compiler.add(Read("B", ((0, 255, union),)))
    return union


def ranges_word(ranges: tuple[tuple[int, int, int], ...]) -> str:
    """Returns ranges of bytes and the states that they lead to, as scripts write them."""
    return ",".join(f"{lo:02x}:{to}" if lo == hi else f"{lo:02x}-{hi:02x}:{to}" for lo, hi, to in ranges)


def word(state: State) -> str:
    """Returns a state as scripts write it."""
    if isinstance(state, Accept):
        return f"M{state.pattern}"
    if isinstance(state, Ask):
        return f"L{LOOKS[state.look]}:{state.target}"
    if isinstance(state, Read):
        return state.letter + ranges_word(state.ranges)
    return state.letter + ",".join(map(str, state.targets))


def written(nfa: Nfa) -> str:
    """Returns an NFA as a line of a script."""
    starts = ",".join(map(str, (nfa.unanchored, *nfa.patterns)))
    flags = ["utf8"] * nfa.utf8 + ["rev"] * nfa.reverse
    flags += [] if nfa.terminator == 0x0A else [f"line={nfa.terminator:02x}"]
    return " ".join(["nfa", f"{nfa.anchored}/{starts}", *flags, *map(word, nfa.states)])
