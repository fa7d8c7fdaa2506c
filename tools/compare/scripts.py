"""Random parts of scripts, each over a random NFA, with the replies of the model."""
from __future__ import annotations

import re
from collections import Counter
from dataclasses import dataclass, field
from random import Random
from typing import Optional

from expressions import BYTES, CHARACTERS, random_nfa, written
from model import LOOKS, Accept, Ask, Found, Free, Haystack, Mode, Nfa, Read, Span, TooManyPaths, refusal

REFUSALS = {
    "NotLazy": "the unanchored start does not skip lazily, so an unanchored match may have no start",
    "NotUtf8": "a match may be invalid UTF-8, so in UTF-8 mode it might split a character",
    "Starts": "only some of the starts match the empty string, so a reversed NFA would match differently",
    "Build": "unsupported regex feature for DFAs: cannot build lazy DFAs for regexes with Unicode word boundaries; "
             "switch to ASCII word boundaries, or heuristically enable Unicode word boundaries or use a different "
             "regex engine",
}
ERROR = re.compile(r"(?:^|(.*) )(?:quit ([0-9a-f]{2}) (\d+)|gaveup (\d+))$")


@dataclass(frozen=True)
class Options:
    """What the settings of a regex request."""
    line: str
    all_kind: bool
    starts: bool
    decides_words: bool
    quits: frozenset[int]
    limit: bool


@dataclass(frozen=True)
class Input:
    """A haystack, and how it is searched."""
    haystack: Haystack
    span: Span
    mode: Mode
    earliest: bool

    def line(self) -> str:
        """Returns the words of a request."""
        mode = {"unanchored": "", "anchored": " anchored"}.get(str(self.mode), f" pattern={self.mode}")
        earliest = " earliest" if self.earliest else ""
        whole = self.span == (0, len(self.haystack.text))
        span = "" if whole else f" span={self.span[0]}..{self.span[1]}"
        return f"{self.haystack.text.hex() or '-'}{span}{mode}{earliest}"


def numbered(text: str, bases: Counter[str]) -> str:
    """Returns a line or a reply with its `%n0`, `%r0` and `%w0` replaced by the numbers of an NFA, a regex and a walk
    in a script where those of another part come before them."""
    return re.sub(r"%([nrw])(\d+)", lambda number: str(bases[number[1]] + int(number[2])), text)


@dataclass
class Request:
    """A line of a script. Its reply is the words, or the first of them followed by an error, if one may occur."""
    line: str
    words: list[str]
    input: Optional[Input] = None
    options: Optional[Options] = None
    pairs: Optional[list[str]] = None  # the replies to the steps of the walk that it begins
    walk: Optional[int] = None  # the walk of which it is a step

    def may_end(self, reply: str) -> Optional[str]:
        """Returns what comes before the error in a reply, if the error may occur: it names a quit byte in reach, or a
        limit."""
        error = ERROR.match(reply)
        if not error or self.input is None or self.options is None:
            return None
        haystack, (begin, end) = self.input.haystack.text, self.input.span
        if error[4]:
            return error[1] or "" if self.options.limit and begin <= int(error[4]) <= end else None
        byte, at = int(error[2], 16), int(error[3])
        named = begin - 1 <= at <= end and at < len(haystack) and haystack[at] == byte
        return error[1] or "" if named and byte in self.options.quits else None

    def allows(self, reply: str, bases: Counter[str]) -> bool:
        """Whether a reply is right, or ends in an error that may occur, with nothing wrong before it."""
        if reply == numbered(" ".join(self.words), bases):
            return True
        before = self.may_end(reply)
        if before is None:
            return False
        if self.words[0] == "patterns":
            return set(before.split()) <= set(self.words)
        is_list = self.words[0] in ("iter", "tokens")
        return before in [" ".join(self.words[:count]) for count in range(is_list, len(self.words) + 1)]


@dataclass
class Script:
    """A part of a script: NFAs, regexes built from them, and requests."""
    definitions: list[Request] = field(default_factory=list)
    requests: list[Request] = field(default_factory=list)

    def counts(self) -> Counter[str]:
        """Returns how many NFAs, regexes and walks it has, by the letters that `numbered` replaces."""
        kinds = [request.words[0][:1] for request in self.definitions + self.requests if "%" in "".join(request.words)]
        return Counter(kinds)

    def text(self) -> str:
        """Returns the part as a complete script."""
        return "\n".join(numbered(request.line, Counter()) for request in self.definitions + self.requests)

    def first_difference(self, replies: list[str], bases: Counter[str]) -> Optional[str]:
        """Returns the first request with a wrong reply."""
        walks: list[list[str]] = []
        for request, reply in zip(self.definitions + self.requests, replies):
            if request.walk is not None:
                request.words = [(walks[request.walk] or ["none"])[0]]
            if not request.allows(reply, bases):
                return f"{request.line}: {reply}, and not {' '.join(request.words)}"
            if request.pairs is not None:
                walks.append(list(request.pairs))
            if request.walk is not None and reply == request.words[0]:
                del walks[request.walk][:1]
        return None


def asks_words(nfa: Nfa) -> bool:
    """Whether an NFA has looks at Unicode words."""
    return any(isinstance(state, Ask) and "Unicode" in LOOKS[state.look] for state in nfa.states)


def random_options(random: Random, nfa: Nfa) -> Options:
    """Returns settings, in which a cache that is too small is as likely as an ample one."""
    words = [name for name, part in (("all", 0.4), ("starts", 0.5), ("noclasses", 0.2), ("tags", 0.3))
              if random.random() < part]
    quits = frozenset(random.sample((0x0A, 0x2D, 0x62, 0xE2), random.randint(1, 2)) if random.random() < 0.15 else ())
    words += [f"quit={byte:02x}" for byte in sorted(quits)]
    decides_words = random.random() < (0.95 if asks_words(nfa) else 0.1)
    if decides_words:
        words.append("unicode")
    if decides_words and asks_words(nfa):
        quits |= frozenset(range(0x80, 0x100))
    if random.random() < 0.5:
        words += ["skip", f"capacity={random.choice((0, 0, 1000, 2000, 4000, 8000))}"]
    limit = random.random() < 0.1
    if limit:
        words += [f"limit={random.randint(0, 3)}", f"perstate={random.randint(0, 3)}"]
    return Options(" ".join(words), "all" in words, "starts" in words, decides_words, quits, limit)


def random_text(random: Random, nfa: Nfa) -> bytes:
    """Returns what some path from the anchored start reads, looks taken as true, up to a match state or a few bytes."""
    text, state = b"", nfa.anchored
    for _ in range(30):
        node = nfa.states[state]
        if isinstance(node, Accept) or isinstance(node, Free) and not node.targets or len(text) > 5:
            break
        if isinstance(node, Read):
            low, high, state = random.choice(node.ranges)
            text += bytes([random.randint(low, min(high, low + 2))])
        else:
            state = random.choice(list(nfa.free_targets(state)))
    return text


def random_haystack(random: Random, nfa: Nfa) -> Haystack:
    """Returns a haystack of a few pieces: characters, what the NFA reads, and sometimes a byte that is not a
    character."""
    pieces = []
    for _ in range(random.randint(0, 5)):
        kind = random.random()
        pieces.append(bytes([random.choice(BYTES)]) if kind < 0.1 else random_text(random, nfa) if kind < 0.5
                      else random.choice(CHARACTERS).encode())
    return Haystack(nfa, b"".join(pieces)[:9])


def random_input(random: Random, haystacks: list[Haystack]) -> Input:
    """Returns how a haystack is searched: half of the time all of it."""
    haystack = random.choice(haystacks)
    length = len(haystack.bytes)
    end = length if random.random() < 0.6 else random.randint(0, length)
    begin = 0 if random.random() < 0.6 else random.randint(0, end + (random.random() < 0.1))
    mode: Mode = random.choices(("unanchored", "anchored", random.randint(0, 4)), (6, 2, 2))[0]
    return Input(haystack, (begin, end), mode, random.random() < 0.2)


def match_word(found: Found) -> str:
    """Returns a match as replies write it."""
    return f"{found.pattern} {found.start}..{found.end}"


def half_words(found: Optional[Found], back: bool) -> list[str]:
    """Returns the reply to a search of one DFA."""
    return [f"half {found.pattern} {found.start if back else found.end}" if found else "none"]


def wanted(kind: str, given: Input, options: Options) -> list[str]:
    """Returns the words of the reply to a request whose anchored mode is supported."""
    haystack, how = given.haystack, (given.span, given.mode, options.all_kind, given.earliest)
    if kind == "rev":
        return half_words(haystack.search_back(given.span, given.mode, given.earliest), True)
    if kind == "tok":
        found, missing = haystack.tokens(given.span, options.all_kind)
        return ["tokens"] + [match_word(token) for token in found] + ([] if missing is None else [f"notoken {missing}"])
    if kind == "iter":
        return ["iter"] + [match_word(found) for found in haystack.spans(*how)]
    if kind == "is":
        return ["true" if haystack.search(*how[:3], False) else "false"]
    if kind.startswith("which"):
        pairs = haystack.walk(*how[:3])[:1 if given.earliest else None]
        most = int(kind.split()[1])
        return ["patterns"] + [str(pattern) for pattern in sorted({pair[0] for pair in pairs}) if pattern < most]
    match = haystack.search(*how)
    if kind == "fwd":
        return half_words(match, False)
    return [f"match {match_word(match)}" if match else "none"]


def is_unsupported(given: Input, options: Options) -> bool:
    """Whether the DFAs have no start states for the anchored mode of an input."""
    return isinstance(given.mode, int) and not options.starts and given.span[0] <= given.span[1]


def random_request(random: Random, haystacks: list[Haystack], options: Options) -> Request:
    """Returns a request that does not begin a walk."""
    which = f"which {random.randint(0, 4)}"
    kind = random.choice(("find", "find", "iter", "iter", "is", "fwd", "rev", "rev", "tok", which))
    given = random_input(random, haystacks)
    if kind != "tok" and is_unsupported(given, options):
        words = {"iter": ["iter"], "which": ["patterns"]}.get(kind.split()[0], []) + ["unsupported"]
    else:
        words = wanted(kind, given, options)
    return Request(f"{kind} {given.line()}", words, given, options)


def random_walk(
        random: Random, number: int, haystacks: list[Haystack], options: Options) -> tuple[Request, list[Request]]:
    """Returns a request that begins a walk, and its steps beyond its end. A walk that is not supported has one step."""
    given = random_input(random, haystacks)
    way = random.choice(("fwd", "rev"))
    begin = Request(f"walk {way} {given.line()}", ["walk", f"%w{number}"], given, options, [])
    if is_unsupported(given, options):
        return begin, [Request(f"step %w{number}", ["unsupported"], given, options)]
    if way == "fwd":
        pairs = given.haystack.walk(given.span, given.mode, options.all_kind)
    else:
        pairs = given.haystack.walk_back(given.span, given.mode)
    begin.pairs = [f"half {pattern} {at}" for pattern, at in pairs]
    return begin, [Request(f"step %w{number}", [], given, options, walk=number) for _ in range(len(pairs) + 2)]


def mixed(random: Random, one: list[Request], other: list[Request]) -> list[Request]:
    """Merges two lists, keeping the order of each."""
    turns = [one] * len(one) + [other] * len(other)
    random.shuffle(turns)
    sources = {id(one): iter(one), id(other): iter(other)}
    return [next(sources[id(turn)]) for turn in turns]


def random_requests(random: Random, walks: int, haystacks: list[Haystack], options: Options) -> list[Request]:
    """Returns requests of one regex, with two walks after this many. Their steps are made between the other
    requests."""
    requests = [random_request(random, haystacks, options) for _ in range(random.randint(4, 8))]
    first, first_steps = random_walk(random, walks, haystacks, options)
    second, second_steps = random_walk(random, walks + 1, haystacks, options)
    steps = mixed(random, first_steps, second_steps)
    return [requests[0], first, second] + mixed(random, requests[1:], steps)


def random_script(random: Random) -> Script:
    """Returns a script over two regexes of one NFA, each with its own settings, the second current from the middle
    on."""
    while True:
        nfa = random_nfa(random)
        script = Script([Request(written(nfa), ["nfa", "%n0"])])
        settings = [random_options(random, nfa), random_options(random, nfa)]
        names = [refusal(nfa, options.decides_words) for options in settings]
        built: list[Options] = []
        for options, name in zip(settings, names):
            words = ["refused", REFUSALS[name]] if name else ["regex", f"%r{len(built)}"]
            script.definitions.append(Request(f"regex %n0 made {options.line}".rstrip(), words))
            built += [] if name else [options]
        haystacks = [random_haystack(random, nfa) for _ in range(2)]
        try:
            for number, options in enumerate(built):
                script.requests.append(Request(f"reset %r{number}", ["ok"]))
                script.requests += random_requests(random, 2 * number, haystacks, options)
        except TooManyPaths:
            continue
        return script
