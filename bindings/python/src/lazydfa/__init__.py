"""Regular expressions by a proved lazy DFA.

    >>> import lazydfa
    >>> [match.span() for match in lazydfa.Regex(r"\\pL+").finditer("foo 12 bär")]
    [(0, 3), (7, 10)]
    >>> lazydfa.RegexSet(["timeout", "refused", "[0-9]{3}"]).which("500 refused")
    [1, 2]

Patterns have the syntax of Rust's regex crate. A search takes time linear in the text, and reads a text in memory once
or, to find where matches begin, twice. Patterns that are `str` search `str`, and offsets are those of characters;
patterns that are `bytes` search bytes, and classes such as `\\w` are those of ASCII. The groups of a match are found
when they are asked for, by reading the match once more.
"""
import ctypes
import itertools
import operator
import struct
from types import MappingProxyType
from typing import Any, AnyStr, Callable, Dict, Generic, Iterator, List, Mapping, NamedTuple, Optional, Sequence, Tuple
from typing import Union

from . import _native as native
from ._template import TemplateError, parse

__all__ = [
    "Lexer",
    "Match",
    "PatternError",
    "Regex",
    "RegexSet",
    "SearchError",
    "TemplateError",
    "Token",
    "TokenError",
]
__version__ = "0.1.0"

# How many matches one call of the library writes.
BATCH = 256
MATCH = struct.Struct("=QQII")
SPAN = struct.Struct("=QQ")
# The library's parser recurses as deep as a pattern nests; threads of Python have enough stack for this.
NEST_LIMIT = 250


class PatternError(ValueError):
    """A pattern is refused. `pattern` is its index, and `message` says what is wrong, and where."""

    def __init__(self, message: str, pattern: int) -> None:
        super().__init__(message)
        self.message, self.pattern = message, pattern


class SearchError(RuntimeError):
    """A search failed."""


class TokenError(ValueError):
    """No token begins at `offset`."""

    def __init__(self, offset: int) -> None:
        super().__init__(f"no token begins at {offset}")
        self.offset = offset


class Match(Generic[AnyStr]):
    """A match of the pattern whose index is `pattern` in the text `string`, with the calls of `re.Match`.

    A group is given by its number or its name; group 0 is the whole match. The first call that is about another group
    finds the groups. A group that took no part in the match is None, and its span is (-1, -1).
    """

    # The start is also kept in bytes; the spans of the groups are there once they were asked for.
    __slots__ = ("pattern", "_of", "_start", "_end", "_from", "_spans")

    def __init__(self, of: "_Text[AnyStr]", start: int, end: int, pattern: int, start_in_bytes: int) -> None:
        self._of, self._start, self._end, self.pattern, self._from = of, start, end, pattern, start_in_bytes

    @property
    def string(self) -> AnyStr:
        return self._of.text

    @property
    def re(self) -> "Regex[AnyStr]":
        return self._of.regex

    def _span(self, group: Union[int, str]) -> Tuple[int, int]:
        """Returns the span of a group."""
        if group == 0 and not isinstance(group, str):
            return self._start, self._end
        if isinstance(group, str):
            group = self._of.regex._groups().indices[self.pattern].get(group, -1)
        number, spans = operator.index(group), self._all_spans()
        if not 0 <= number < len(spans):
            raise IndexError("no such group")
        return spans[number]

    def _all_spans(self) -> List[Tuple[int, int]]:
        """Returns the spans of the groups, from group 0 on."""
        try:
            return self._spans
        except AttributeError:
            self._spans = self._of.regex._groups().spans(self)
            return self._spans

    def _text(self, group: Union[int, str], default: Any = None) -> Any:
        """Returns what a group captured, or the default if it took no part."""
        start, end = self._span(group)
        return default if start < 0 else self._of.text[start:end]

    def start(self, group: Union[int, str] = 0) -> int:
        return self._span(group)[0]

    def end(self, group: Union[int, str] = 0) -> int:
        return self._span(group)[1]

    def span(self, group: Union[int, str] = 0) -> Tuple[int, int]:
        return self._span(group)

    def group(self, *groups: Union[int, str]) -> Any:
        """Returns what matched; with one argument what that group captured; with several a tuple of these."""
        if not groups:
            return self._of.text[self._start : self._end]
        every = tuple(self._text(it) for it in groups)
        return every if len(every) > 1 else every[0]

    def __getitem__(self, group: Union[int, str]) -> Optional[AnyStr]:
        return self._text(group)

    def groups(self, default: Any = None) -> Tuple[Any, ...]:
        """Returns what each group captured, from group 1 on, and the default for those that took no part."""
        text = self._of.text
        return tuple([default if start < 0 else text[start:end] for start, end in self._all_spans()[1:]])

    def groupdict(self, default: Any = None) -> Dict[str, Any]:
        """Returns what each group that has a name captured, by their names."""
        names = self._of.regex._groups().indices[self.pattern]
        return {name: self._text(it, default) for name, it in names.items()}

    def expand(self, template: AnyStr) -> AnyStr:
        """Returns a template with its escapes replaced, as `Regex.sub` does it."""
        return self._filled(self._of.regex._parts(template))

    def _filled(self, parts: List[Union[AnyStr, int, str]]) -> AnyStr:
        """Returns the parts of a template, with what groups captured in place of their numbers and names."""
        if len(parts) == 1:
            return parts[0]
        text, spans, names = self._of.text, self._all_spans(), self._of.regex._groups().indices[self.pattern]
        filled = list(parts)
        for at in range(1, len(parts), 2):
            number = names.get(parts[at], len(spans)) if isinstance(parts[at], str) else parts[at]
            start, end = spans[number] if number < len(spans) else (0, 0)
            filled[at] = text[max(start, 0) : max(end, 0)]
        return text[:0].join(filled)

    def __repr__(self) -> str:
        return f"<lazydfa.Match pattern={self.pattern}, span={self.span()}, match={self.group()!r}>"


class Token(NamedTuple):
    """A token: the name of its rule, its text and its span."""

    name: str
    text: Union[str, bytes]
    start: int
    end: int


class _Owner:
    """Owns an object of the library."""

    def __init__(self) -> None:
        self.handle = native.Handle()

    def __del__(self, close=native.close) -> None:
        close(self.handle)


def _check(status: native.Status) -> bool:
    """Returns whether the status says that something was found. If it is an error, raises it."""
    if status.code <= native.NONE:
        return status.code == native.OK
    if status.code == native.MEMORY:
        raise MemoryError
    said = native.CODES.get(status.code, f"the search failed with code {status.code}")
    raise SearchError(f"{said}, at {status.offset}")


class _Batch:
    """Room for matches, which a call of the library fills."""

    def __init__(self) -> None:
        self.room, self.count = (native.Match * BATCH)(), ctypes.c_size_t()
        self.bytes = memoryview(self.room).cast("B")

    def spans(self) -> Iterator[Tuple[int, int, int, int]]:
        """Yields start, end and pattern of each match, and a zero."""
        return MATCH.iter_unpack(self.bytes[: self.count.value * MATCH.size])


class _Text(Generic[AnyStr]):
    """A text as the library reads it, and its offsets as the caller counts them."""

    def __init__(self, text: AnyStr, is_text: bool, regex: "Optional[Regex[AnyStr]]" = None) -> None:
        if isinstance(text, str) != is_text:
            wanted, got = ("str", "bytes") if is_text else ("bytes", "str")
            raise TypeError(f"patterns that are {wanted} cannot search {got}")
        self.text, self.regex = text, regex
        self.bytes = text.encode() if isinstance(text, str) else bytes(text)
        self.is_plain = not is_text or len(self.bytes) == len(text)
        self.passed = self.counted = 0

    def offset(self, at: int) -> int:
        """Returns the caller's offset. Offsets are asked for in increasing order."""
        if self.is_plain:
            return at
        self.counted += len(self.bytes[self.passed : at].decode())
        self.passed = at
        return self.counted

    def offset_in(self, match: Match[AnyStr], at: int) -> int:
        """Returns the caller's offset of a place in a match, or -1 if there is no such place."""
        return -1 if at == native.NO_OFFSET else match._start + len(self.bytes[match._from : at].decode())

    def whole(self) -> native.Input:
        return native.Input(end=len(self.bytes))


class _Automaton(Generic[AnyStr]):
    """Compiled patterns, and the caches of searches that are not running."""

    # Whether no search asks where a match begins. Then no part that finds this is built.
    is_forward_only = False

    def __init__(self, patterns: Sequence[AnyStr], match_kind: int, limits, flags) -> None:
        self.patterns = list(patterns)
        self.is_text = all(isinstance(it, str) for it in self.patterns)
        if not self.is_text and any(isinstance(it, str) for it in self.patterns):
            raise TypeError("patterns are all str, or all bytes")
        self._caches = []
        options = native.Options(ctypes.sizeof(native.Options), match_kind=match_kind, nest_limit=NEST_LIMIT)
        for name, it in flags.items():
            if name not in native.FLAGS:
                raise TypeError(f"there is no flag {name}")
            setattr(options, name, int(bool(it)))
        options.bytes = options.no_unicode = int(not self.is_text)
        options.forward_only = int(self.is_forward_only)
        for name, limit in limits.items():
            if limit is not None:
                setattr(options, name, limit)
                options.zeros |= native.ZEROS[name]
        self._options, self._regex = options, self._compile(options)

    def _compile(self, options: native.Options) -> _Owner:
        """Returns the regex of the patterns with these options."""
        regex = _Owner()
        texts = [it.encode() if isinstance(it, str) else bytes(it) for it in self.patterns]
        every = (native.Text * len(texts))(*((it, len(it)) for it in texts))
        error = native.Error(ctypes.sizeof(native.Error))
        status = native.regex_any_of(regex.handle, every, len(texts), options, error)
        if status.code == native.MEMORY:
            raise MemoryError
        if status.code != native.OK:
            said = error.message.decode(errors="replace") if error.length else native.CODES.get(status.code)
            raise PatternError(said or f"the pattern is refused with code {status.code}", error.pattern)
        return regex

    def _take(self) -> _Owner:
        """Returns a cache that no search uses."""
        try:
            return self._caches.pop()
        except IndexError:
            cache = _Owner()
            _check(native.cache_new(cache.handle, self._regex.handle))
            return cache

    def _give(self, cache: _Owner) -> None:
        self._caches.append(cache)

    def is_match(self, text: AnyStr) -> bool:
        """Returns whether some pattern matches somewhere in the text."""
        it, cache = _Text(text, self.is_text), self._take()
        try:
            return _check(native.is_match(cache.handle, it.bytes, len(it.bytes), it.whole()))
        finally:
            self._give(cache)


class _Spans:
    """Room for the spans of groups, which a call of the library fills, and its other arguments."""

    def __init__(self, regex: _Owner, most: int) -> None:
        self.cache, self.found = _Owner(), native.Match()
        _check(native.cache_new(self.cache.handle, regex.handle))
        self.room, self.most, self.count = (native.Span * most)(), most, ctypes.c_size_t()
        self.bytes = memoryview(self.room).cast("B")


class _Groups(Generic[AnyStr]):
    """What finds the groups of matches: a regex of its own, and its caches that are not in use, with room for spans."""

    def __init__(self, automaton: _Automaton[AnyStr]) -> None:
        options = native.Options.from_buffer_copy(automaton._options)
        options.groups = options.forward_only = 1
        self.regex, self.rooms = automaton._compile(options), []
        every = range(len(automaton.patterns))
        # Of each pattern the number of its groups, without group 0, and the numbers of those that have names.
        self.counts = [self._count(it) for it in every]
        self.indices = [MappingProxyType(self._names(it)) for it in every]

    def _count(self, pattern: int) -> int:
        count = ctypes.c_size_t()
        _check(native.group_count(self.regex.handle, pattern, count))
        return count.value - 1

    def _names(self, pattern: int) -> Dict[str, int]:
        found, length = {}, ctypes.c_size_t()
        for group in range(1, self.counts[pattern] + 1):
            if _check(native.group_name(self.regex.handle, pattern, group, None, 0, length)):
                name = ctypes.create_string_buffer(length.value + 1)
                _check(native.group_name(self.regex.handle, pattern, group, name, len(name), length))
                found[name.value.decode()] = group
        return found

    def spans(self, match: Match[AnyStr]) -> List[Tuple[int, int]]:
        """Returns the spans of the groups of a match, from group 0 on."""
        of = match._of
        length = match._end - match._start if of.is_plain else len(match.group().encode())
        try:
            it = self.rooms.pop()
        except IndexError:
            it = _Spans(self.regex, max(self.counts) + 1)
        try:
            it.found.start, it.found.end, it.found.pattern = match._from, match._from + length, match.pattern
            _check(native.groups(it.cache.handle, of.bytes, len(of.bytes), it.found, it.room, it.most, it.count))
            spans = list(SPAN.iter_unpack(it.bytes[: it.count.value * SPAN.size]))
        finally:
            self.rooms.append(it)
        if of.is_plain:
            return [(-1, -1) if span[0] == native.NO_OFFSET else span for span in spans]
        return [(of.offset_in(match, start), of.offset_in(match, end)) for start, end in spans]


class Regex(_Automaton[AnyStr]):
    """One pattern, or several, of which the first one that matches at the leftmost place is preferred.

    The flags are those of Rust's regex crate. `cache_capacity` is what each automaton of a search may take, in bytes,
    by default 8 MiB; for large patterns it is raised up to `cache_limit`. `size_limit` is what compiled patterns may
    take. A regex may be used by several threads at once.
    """

    def __init__(
        self,
        patterns: Union[AnyStr, Sequence[AnyStr]],
        *,
        case_insensitive: bool = False,
        multi_line: bool = False,
        dot_matches_new_line: bool = False,
        crlf: bool = False,
        swap_greed: bool = False,
        ignore_whitespace: bool = False,
        cache_capacity: Optional[int] = None,
        cache_limit: Optional[int] = None,
        size_limit: Optional[int] = None,
    ) -> None:
        flags = {
            "case_insensitive": case_insensitive,
            "multi_line": multi_line,
            "dot_matches_new_line": dot_matches_new_line,
            "crlf": crlf,
            "swap_greed": swap_greed,
            "ignore_whitespace": ignore_whitespace,
        }
        limits = {"cache_capacity": cache_capacity, "cache_limit": cache_limit, "size_limit": size_limit}
        every = [patterns] if isinstance(patterns, (str, bytes)) else patterns
        super().__init__(every, native.LEFTMOST_FIRST, limits, flags)
        self._its_groups: Optional[_Groups[AnyStr]] = None

    def _groups(self) -> _Groups[AnyStr]:
        """Returns what finds groups, which the first call builds."""
        if self._its_groups is None:
            self._its_groups = _Groups(self)
        return self._its_groups

    @property
    def groups(self) -> int:
        """The number of groups of the first pattern."""
        return self._groups().counts[0] if self.patterns else 0

    @property
    def groupindex(self) -> Mapping[str, int]:
        """The numbers of the groups of the first pattern that have names, by these."""
        return self._groups().indices[0] if self.patterns else MappingProxyType({})

    def search(self, text: AnyStr) -> Optional[Match[AnyStr]]:
        """Returns the leftmost match, or None."""
        it, cache, found = _Text(text, self.is_text, self), self._take(), native.Match()
        try:
            if not _check(native.find(cache.handle, it.bytes, len(it.bytes), it.whole(), found)):
                return None
        finally:
            self._give(cache)
        start = found.start
        return Match(it, it.offset(start), it.offset(found.end), found.pattern, start)

    def finditer(self, text: AnyStr) -> Iterator[Match[AnyStr]]:
        """Yields all matches that do not overlap, from left to right."""
        it, cache = _Text(text, self.is_text, self), self._take()
        at, batch = native.Iteration(left=it.whole()), _Batch()
        try:
            while True:
                status = native.next_all(
                    cache.handle, it.bytes, len(it.bytes), at, batch.room, BATCH, batch.count
                )
                for start, end, pattern, _ in batch.spans():
                    yield Match(it, it.offset(start), it.offset(end), pattern, start)
                if not _check(status):
                    return
        finally:
            self._give(cache)

    def findall(self, text: AnyStr) -> List[AnyStr]:
        """Returns the text of each match."""
        return [it.group() for it in self.finditer(text)]

    def split(self, text: AnyStr, maxsplit: int = 0) -> List[Optional[AnyStr]]:
        """Returns the parts of the text between matches, of which there are at most `maxsplit` unless it is 0. What the
        groups of a match captured is between the parts, as with `re`."""
        parts, last = [], 0
        has_groups = any(("(" if isinstance(it, str) else b"(") in it for it in self.patterns)
        for it in self._first(text, maxsplit):
            parts.append(text[last : it.start()])
            if has_groups:
                parts += it.groups()
            last = it.end()
        return [*parts, text[last:]]

    def sub(
        self, replacement: Union[AnyStr, Callable[[Match[AnyStr]], AnyStr]], text: AnyStr, count: int = 0
    ) -> AnyStr:
        """Returns the text with matches replaced, the first `count` of them, or all if that is 0: by what a function
        returns, or by a template, in which `\\1`, `\\g<1>` and `\\g<name>` stand for groups, as with `re`."""
        return self.subn(replacement, text, count)[0]

    def subn(
        self, replacement: Union[AnyStr, Callable[[Match[AnyStr]], AnyStr]], text: AnyStr, count: int = 0
    ) -> Tuple[AnyStr, int]:
        """Returns what `sub` returns, and how many matches were replaced."""
        by = replacement if callable(replacement) else self._filler(replacement)
        parts, last, number = [], 0, 0
        for it in self._first(text, count):
            parts += [text[last : it.start()], by(it)]
            last, number = it.end(), number + 1
        return text[:0].join([*parts, text[last:]]), number

    def _first(self, text: AnyStr, count: int) -> Iterator[Match[AnyStr]]:
        """Yields the first matches, as many as this, or all if it is 0."""
        return self.finditer(text) if count <= 0 else itertools.islice(self.finditer(text), count)

    def _parts(self, template: AnyStr) -> List[Union[AnyStr, int, str]]:
        """Returns the parts of a template."""
        if isinstance(template, str) != self.is_text:
            raise TypeError("a template and the patterns are both str, or both bytes")
        if ("\\" if self.is_text else b"\\") not in template:
            return [template]
        groups = self._groups()
        return parse(template, groups.counts, groups.indices)

    def _filler(self, template: AnyStr) -> Callable[[Match[AnyStr]], AnyStr]:
        """Returns a function that fills a template with the groups of a match."""
        parts = self._parts(template)
        return lambda match: match._filled(parts)


class RegexSet(_Automaton[AnyStr]):
    """Patterns that are searched for at once: which of them match, each by itself.

    The arguments are those of `Regex`.
    """

    is_forward_only = True

    def __init__(
        self,
        patterns: Sequence[AnyStr],
        *,
        cache_capacity: Optional[int] = None,
        cache_limit: Optional[int] = None,
        size_limit: Optional[int] = None,
        **flags: bool,
    ) -> None:
        limits = {"cache_capacity": cache_capacity, "cache_limit": cache_limit, "size_limit": size_limit}
        super().__init__(patterns, native.ALL, limits, flags)

    def which(self, text: AnyStr) -> List[int]:
        """Returns the indices of the patterns that match somewhere in the text, in increasing order."""
        it, cache, room = _Text(text, self.is_text), self._take(), max(len(self.patterns), 1)
        found, count = (ctypes.c_uint32 * room)(), ctypes.c_size_t()
        number = len(self.patterns)
        try:
            status = native.which(cache.handle, it.bytes, len(it.bytes), it.whole(), number, found, number, count)
        finally:
            self._give(cache)
        _check(status)
        return found[: count.value]


class Lexer(_Automaton[AnyStr]):
    """Rules by which a text is cut into tokens, without gaps. Of the rules that match at an offset, the first is taken.

        >>> lexer = lazydfa.Lexer([("if", r"if(?-u:\\b)"), ("name", "[a-z]+"), ("space", r"\\s+")])
        >>> [(it.name, it.text) for it in lexer.tokens("if iffy")]
        [('if', 'if'), ('space', ' '), ('name', 'iffy')]

    The other arguments are those of `Regex`.
    """

    is_forward_only = True

    def __init__(
        self,
        rules: Sequence[Tuple[str, AnyStr]],
        *,
        cache_capacity: Optional[int] = None,
        cache_limit: Optional[int] = None,
        size_limit: Optional[int] = None,
        **flags: bool,
    ) -> None:
        self.names = [name for name, _ in rules]
        limits = {"cache_capacity": cache_capacity, "cache_limit": cache_limit, "size_limit": size_limit}
        every = [pattern for _, pattern in rules]
        super().__init__(every, native.LEFTMOST_FIRST, limits, flags)

    def tokens(self, text: AnyStr) -> Iterator[Token]:
        """Yields the tokens. Raises `TokenError` where none begins."""
        it, cache = _Text(text, self.is_text), self._take()
        left, batch = it.whole(), _Batch()
        try:
            while True:
                status = native.tokens(
                    cache.handle, it.bytes, len(it.bytes), left, batch.room, BATCH, batch.count
                )
                for at, to, rule, _ in batch.spans():
                    start, end = it.offset(at), it.offset(to)
                    yield Token(self.names[rule], text[start:end], start, end)
                if status.code == native.NO_TOKEN:
                    raise TokenError(it.offset(status.offset))
                if not _check(status):
                    return
        finally:
            self._give(cache)
