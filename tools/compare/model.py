"""What searches of an NFA return, by the paths of docs/READING.md: slow, and only for short haystacks.

It follows one path after another, each over the whole haystack, and has no state sets, tables or caches. What searches
of the reversed NFA return is derived from the forward NFA, since both accept the same parts of a haystack by the same
patterns.
"""
from __future__ import annotations

from codecs import getincrementaldecoder
from dataclasses import dataclass
from functools import cached_property, lru_cache
from typing import Iterable, Iterator, NamedTuple, Optional, Union

LOOKS = ("Start", "End", "StartLF", "EndLF", "StartCRLF", "EndCRLF", "WordAscii", "WordAsciiNegate", "WordUnicode",
         "WordUnicodeNegate", "WordStartAscii", "WordEndAscii", "WordStartUnicode", "WordEndUnicode",
         "WordStartHalfAscii", "WordEndHalfAscii", "WordStartHalfUnicode", "WordEndHalfUnicode")
MOST_STEPS = 20_000


@dataclass(frozen=True)
class Read:
    """Reads a byte by the range (lo, hi, next) that contains it. The letter gives the kind of state."""
    letter: str
    ranges: tuple[tuple[int, int, int], ...]


@dataclass(frozen=True)
class Free:
    """Reads nothing, and leads to each target, the first preferred. Without a target nothing matches."""
    letter: str
    targets: tuple[int, ...]


@dataclass(frozen=True)
class Ask:
    """Leads to the target if the look holds."""
    look: int
    target: int


@dataclass(frozen=True)
class Accept:
    """Ends a path by its pattern."""
    pattern: int


State = Union[Read, Free, Ask, Accept]
Span = tuple[int, int]
Mode = Union[str, int]  # "unanchored", "anchored", or the number of a pattern


class Found(NamedTuple):
    """An accepting path: its pattern, where it was first at the anchored start, and its end."""
    pattern: int
    start: Optional[int]
    end: int


class TooManyPaths(Exception):
    """There are too many paths over a haystack to follow them all."""


@dataclass(frozen=True)
class Nfa:
    """States, starts and flags, as `NFA::from_states` takes them."""
    states: tuple[State, ...]
    anchored: int
    unanchored: int
    patterns: tuple[int, ...]
    utf8: bool
    reverse: bool
    terminator: int

    def free_targets(self, state: int) -> Iterable[int]:
        """Returns the targets of the edges that read nothing, looks taken as true."""
        node = self.states[state]
        if isinstance(node, Free):
            return node.targets
        return (node.target,) if isinstance(node, Ask) else ()

    def targets(self, state: int) -> Iterable[int]:
        """Returns the targets of all edges. Target 0 of a dense state is not an edge."""
        node = self.states[state]
        if isinstance(node, Read):
            return [to for _, _, to in node.ranges if to or node.letter != "D"]
        return self.free_targets(state)

    def reached(self, starts: Iterable[int], reads: bool) -> set[int]:
        """Returns the states that are reached over all edges, or over those that read nothing."""
        found, todo = set(), list(starts)
        while todo:
            state = todo.pop()
            if state not in found:
                found.add(state)
                todo.extend(self.targets(state) if reads else self.free_targets(state))
        return found

    def is_empty_from(self, starts: Iterable[int]) -> bool:
        """Whether a match state is reached without reading a byte."""
        return any(isinstance(self.states[state], Accept) for state in self.reached(starts, False))

    @cached_property
    def skips_splits(self) -> bool:
        """Whether matches at offsets inside a character are skipped."""
        return self.utf8 and self.is_empty_from(self.patterns)


def is_lazy(nfa: Nfa) -> bool:
    """Whether unanchored searches start anchored, or after the fewest bytes."""
    if nfa.anchored == nfa.unanchored:
        return True
    node = nfa.states[nfa.unanchored]
    if not isinstance(node, Free) or len(node.targets) != 2 or node.targets[0] != nfa.anchored:
        return False
    skip = nfa.states[node.targets[1]]
    loops = isinstance(skip, Read) and skip.letter == "B" and skip.ranges == ((0, 255, nfa.unanchored),)
    return loops and nfa.unanchored not in nfa.reached([nfa.anchored], True)


@lru_cache(maxsize=None)
def decoded(pending: bytes, byte: int) -> Optional[bytes]:
    """Returns what is pending of a character after one more byte, or None if it cannot be UTF-8."""
    decoder = getincrementaldecoder("utf-8")()
    try:
        decoder.decode(pending + bytes([byte]))
    except UnicodeDecodeError:
        return None
    return decoder.getstate()[0]


def keeps_utf8(nfa: Nfa) -> bool:
    """Whether each path from a start to a match state reads UTF-8, looks taken as true."""
    if not nfa.utf8:
        return True
    todo: list[tuple[int, Optional[bytes]]] = [(start, b"") for start in (nfa.anchored, *nfa.patterns)]
    seen = set(todo)
    while todo:
        state, pending = todo.pop()
        node = nfa.states[state]
        if isinstance(node, Accept) and pending != b"":
            return False
        after = [(to, pending) for to in nfa.free_targets(state)]
        if isinstance(node, Read):
            after = [(to, None if pending is None else decoded(pending, byte)) for lo, hi, to in node.ranges
                     for byte in range(lo, hi + 1) if to or node.letter != "D"]
        todo.extend(pair for pair in set(after) if pair not in seen)
        seen.update(after)
    return True


def refusal(nfa: Nfa, decides_words: bool) -> Optional[str]:
    """Returns why no regex is built from an NFA. Looks at Unicode words need settings that decide them."""
    if not is_lazy(nfa):
        return "NotLazy"
    if not keeps_utf8(nfa):
        return "NotUtf8"
    if nfa.is_empty_from([nfa.anchored]) != nfa.is_empty_from(nfa.patterns):
        return "Starts"
    asks_words = any(isinstance(node, Ask) and "Unicode" in LOOKS[node.look] for node in nfa.states)
    return "Build" if asks_words and not decides_words else None


def is_word(byte: Optional[int]) -> bool:
    """Whether there is a byte, and it is a letter, a digit or `_`."""
    return byte is not None and (chr(byte) == "_" or byte < 128 and chr(byte).isalnum())


def look_holds(name: str, left: Optional[int], right: Optional[int], terminator: int, reverse: bool) -> bool:
    """Whether a look holds between two bytes, each of which may be missing."""
    feed, carriage = (0x0D, 0x0A) if reverse else (0x0A, 0x0D)
    words = is_word(left), is_word(right)
    return {
        "Start": left is None,
        "End": right is None,
        "StartLF": left in (None, terminator),
        "EndLF": right in (None, terminator),
        "StartCRLF": left in (None, feed) or left == carriage and right != feed,
        "EndCRLF": right in (None, carriage) or right == feed and left != carriage,
        "WordAscii": words[0] != words[1],
        "WordAsciiNegate": words[0] == words[1],
        "WordStartAscii": words == (False, True),
        "WordEndAscii": words == (True, False),
        "WordStartHalfAscii": not words[0],
        "WordEndHalfAscii": not words[1],
    }[name.replace("Unicode", "Ascii")]


def is_split(haystack: bytes, offset: int) -> bool:
    """Whether the byte at an offset continues a character."""
    return offset < len(haystack) and 0x80 <= haystack[offset] <= 0xBF


def first_of_each(paths: Iterable[Found]) -> list[Found]:
    """Returns the paths that are the first with their pattern and their end."""
    first: dict[tuple[int, int], Found] = {}
    for path in paths:
        first.setdefault((path.pattern, path.end), path)
    return list(first.values())


class Haystack:
    """The accepting paths of an NFA over a haystack, and the results of searches. The NFA reads forward."""

    def __init__(self, nfa: Nfa, haystack: bytes) -> None:
        self.nfa = nfa
        self.text = self.bytes = haystack
        self.known: dict[tuple[int, int, Optional[int]], list[Found]] = {}
        self.steps = 0

    def edges(self, state: int, at: int) -> Iterator[tuple[int, int]]:
        """Yields the states that the edges at an offset lead to, in order, each with its offset."""
        node = self.nfa.states[state]
        right = self.bytes[at] if at < len(self.bytes) else None
        if isinstance(node, Free):
            yield from ((to, at) for to in node.targets)
        elif isinstance(node, Ask):
            left = self.bytes[at - 1] if at > 0 else None
            if look_holds(LOOKS[node.look], left, right, self.nfa.terminator, self.nfa.reverse):
                yield node.target, at
        elif isinstance(node, Read) and right is not None:
            yield from ((to, at + 1) for lo, hi, to in node.ranges
                        if lo <= right <= hi and (to or node.letter != "D"))

    def arrive(self, state: int, at: int, start: Optional[int]) -> list[Found]:
        """Returns the accepting paths from a state that a byte leads to, in order."""
        key = (state, at, start)
        if key not in self.known:
            self.known[key] = self.go_on(state, at, start, frozenset())
        return self.known[key]

    def go_on(self, state: int, at: int, start: Optional[int], here: frozenset[int]) -> list[Found]:
        """Returns the accepting paths from a state. A path visits no state twice at one offset."""
        self.steps += 1
        if self.steps > MOST_STEPS:
            raise TooManyPaths
        if state in here:
            return []
        if start is None and state == self.nfa.anchored:
            start = at
        node = self.nfa.states[state]
        paths = [Found(node.pattern, start, at)] if isinstance(node, Accept) else []
        for to, place in self.edges(state, at):
            paths += self.arrive(to, place, start) if place > at else self.go_on(to, at, start, here | {state})
        return first_of_each(paths)

    def paths(self, span: Span, mode: Mode) -> list[Found]:
        """Returns the accepting paths over a span in order, the first for each pattern and end."""
        begin, end = span
        if begin > end:
            return []
        if mode == "unanchored":
            return [path for path in self.arrive(self.nfa.unanchored, begin, None) if path.end <= end]
        if mode != "anchored" and mode >= len(self.nfa.patterns):
            return []
        first = self.nfa.anchored if mode == "anchored" else self.nfa.patterns[mode]
        return [path for path in self.arrive(first, begin, begin) if path.end <= end]

    def paths_back(self, span: Span, mode: Mode) -> list[Found]:
        """Returns the accepting paths of the reversed NFA: what the NFA accepts up to the span's end, the nearest start
        first."""
        begin, end = span
        return [Found(pattern, at, end) for at in range(end, begin - 1, -1)
                for pattern in sorted(path.pattern for path in self.paths((at, end), "anchored") if path.end == end)
                if mode in ("unanchored", "anchored", pattern)]

    def skips(self, offset: int) -> bool:
        """Whether no match ends at an offset."""
        return self.nfa.skips_splits and is_split(self.bytes, offset)

    def search(self, span: Span, mode: Mode, all_kind: bool, earliest: bool) -> Optional[Found]:
        """Returns the match of the path that a search chooses."""
        begin, end = span
        while paths := self.paths((begin, end), mode):
            chosen = paths[0]
            if earliest or all_kind:
                at = (min if earliest else max)(path.end for path in paths)
                chosen = next(path for path in paths if path.end == at)
            if not self.skips(chosen.end):
                return chosen
            if mode != "unanchored":
                return None
            begin += 1
        return None

    def search_back(self, span: Span, mode: Mode, earliest: bool) -> Optional[Found]:
        """Returns the match of a search of the reversed NFA, with `MatchKind::All`."""
        begin, end = span
        while paths := self.paths_back((begin, end), mode):
            at = (max if earliest else min)(path.start for path in paths)
            if not self.skips(at):
                return next(path for path in paths if path.start == at)
            if mode != "unanchored":
                return None
            end -= 1
        return None

    def spans(self, span: Span, mode: Mode, all_kind: bool, earliest: bool) -> list[Found]:
        """Returns the spans of the matches that do not overlap."""
        begin, end = span
        last, found = None, []
        while match := self.search((begin, end), mode, all_kind, earliest):
            if match.start == match.end == last:
                match = self.search((begin + 1, end), mode, all_kind, earliest)
                if match is None:
                    break
            found.append(match)
            begin = last = match.end
        return found

    def tokens(self, span: Span, all_kind: bool) -> tuple[list[Found], Optional[int]]:
        """Returns the tokens in order, and the offset before the span's end where no token begins, if any."""
        begin, end = span
        found: list[Found] = []
        while begin < end:
            match = self.search((begin, end), "anchored", all_kind, False)
            if match is None or match.end == begin:
                return found, begin
            found.append(match)
            begin = match.end
        return found, None

    def walk(self, span: Span, mode: Mode, all_kind: bool) -> list[tuple[int, int]]:
        """Returns the pairs of an overlapping walk, patterns and ends, ordered by end."""
        paths = self.paths(span, mode)
        pairs = []
        for end in sorted({path.end for path in paths}):
            there = [number for number, path in enumerate(paths) if path.end == end]
            if not all_kind:
                before = all(there[0] < number for number, path in enumerate(paths) if path.end < end)
                there = there[:1] if before else []
            pairs += [(paths[number].pattern, end) for number in there if not self.skips(end)]
        return pairs

    def walk_back(self, span: Span, mode: Mode) -> list[tuple[int, int]]:
        """Returns the pairs of an overlapping walk of the reversed NFA: patterns and starts."""
        return [(path.pattern, path.start) for path in self.paths_back(span, mode) if not self.skips(path.start)]


class Mirror(Haystack):
    """The same for an NFA for reverse searches, which reads from the haystack's end to its start."""

    def __init__(self, nfa: Nfa, haystack: bytes) -> None:
        super().__init__(nfa, haystack[::-1])
        self.text = haystack

    def mirrored(self, span: Span) -> Span:
        """Returns a span as it is read."""
        begin, end = span
        return len(self.bytes) - end, len(self.bytes) - begin

    def skips(self, offset: int) -> bool:
        """Whether no match starts at an offset, which is counted from the haystack's end."""
        return self.nfa.skips_splits and is_split(self.text, len(self.text) - offset)

    def search_back(self, span: Span, mode: Mode, earliest: bool) -> Optional[Found]:
        """Returns the match that a search reports; its start is where its path ends."""
        found = self.search(self.mirrored(span), mode, True, earliest)
        return found and Found(found.pattern, len(self.bytes) - found.end, span[1])

    def walk_back(self, span: Span, mode: Mode) -> list[tuple[int, int]]:
        """Returns the pairs of an overlapping walk: patterns and starts."""
        pairs = self.walk(self.mirrored(span), mode, True)
        return [(pattern, len(self.bytes) - end) for pattern, end in pairs]
