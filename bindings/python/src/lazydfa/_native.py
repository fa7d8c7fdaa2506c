"""The shared library `liblazydfa.so.1`, by ctypes: the structs of `lazydfa.h`, and the calls that the package makes."""
import ctypes
import ctypes.util
import os
from ctypes import POINTER, c_char, c_char_p, c_size_t, c_uint32, c_uint64, c_void_p

OK, NONE = 0, 1
MEMORY, TOO_LARGE, CAPACITY = 6, 14, 25
NO_TOKEN, SYNTAX, NOT_TEXT, NOT_COMPILED = 34, 40, 41, 42
LEFTMOST_FIRST, ALL = 0, 1
# Both ends of a group that took no part in a match.
NO_OFFSET = 2 ** (8 * ctypes.sizeof(c_size_t)) - 1

# Words for the codes of searches and of limits.
CODES = {
    TOO_LARGE: "the patterns exceed the size limit",
    CAPACITY: "the capacity of the cache is too small",
    30: "a Unicode word boundary was searched for in text that is not ASCII",
    31: "the search gave up, since its cache was cleared too often",
    NOT_COMPILED: "the pattern could not be compiled",
}


def _struct(name: str, **members):
    """Returns a struct with these members."""
    return type(name, (ctypes.Structure,), {"_fields_": list(members.items())})


Status = _struct("Status", code=c_uint32, byte=c_uint32, offset=c_size_t)
Handle = _struct("Handle", at=c_void_p, live=c_uint64)
Input = _struct(
    "Input", start=c_size_t, end=c_size_t, anchored=c_uint32, pattern=c_uint32, earliest=c_uint32, reserved=c_uint32
)
Match = _struct("Match", start=c_size_t, end=c_size_t, pattern=c_uint32, reserved=c_uint32)
Span = _struct("Span", start=c_size_t, end=c_size_t)
Iteration = _struct("Iteration", left=Input, last=c_size_t, has_last=c_uint32, ended=c_uint32)
Text = _struct("Text", text=c_char_p, length=c_size_t)
Options = _struct(
    "Options",
    struct_size=c_size_t,
    cache_capacity=c_size_t,
    cache_limit=c_size_t,
    minimum_cache_clear_count=c_size_t,
    minimum_bytes_per_state=c_size_t,
    zeros=c_uint32,
    match_kind=c_uint32,
    starts_for_each_pattern=c_uint32,
    no_byte_classes=c_uint32,
    unicode_word_boundary=c_uint32,
    specialize_start_states=c_uint32,
    skip_cache_capacity_check=c_uint32,
    always_anchored=c_uint32,
    quits=c_char_p,
    quit_count=c_size_t,
    size_limit=c_size_t,
    text_limit=c_size_t,
    class_limit=c_size_t,
    nest_limit=c_uint32,
    no_unicode=c_uint32,
    case_insensitive=c_uint32,
    multi_line=c_uint32,
    dot_matches_new_line=c_uint32,
    crlf=c_uint32,
    swap_greed=c_uint32,
    ignore_whitespace=c_uint32,
    octal=c_uint32,
    bytes=c_uint32,
    forward_only=c_uint32,
    groups=c_uint32,
)
# The members that are flags of patterns.
FLAGS = (
    "case_insensitive",
    "multi_line",
    "dot_matches_new_line",
    "crlf",
    "swap_greed",
    "ignore_whitespace",
)
# Of each number that may be set to 0 its flag in `zeros`.
ZEROS = {"cache_capacity": 1, "cache_limit": 2, "size_limit": 16}
Error = _struct(
    "Error",
    struct_size=c_size_t,
    status=Status,
    pattern=c_size_t,
    start=c_size_t,
    end=c_size_t,
    length=c_size_t,
    message=c_char * 4096,
)


def _load() -> ctypes.CDLL:
    """Returns the library that LAZYDFA_LIBRARY names, or the installed one."""
    path = os.environ.get("LAZYDFA_LIBRARY") or ctypes.util.find_library("lazydfa") or "liblazydfa.so.1"
    try:
        return ctypes.CDLL(path)
    except OSError as error:
        raise ImportError(f"there is no shared library of lazydfa: {error}") from error


_library = _load()
if not _library.lazydfa_is_supported():
    raise ImportError("the processor lacks instructions that lazydfa uses: it needs the level x86-64-v2")


def _call(name: str, *types):
    function = getattr(_library, f"lazydfa_{name}")
    function.argtypes, function.restype = types, Status
    return function


_handle, _text = POINTER(Handle), (c_char_p, c_size_t)
close = _call("close", _handle)
cache_new = _call("cache_new", _handle, _handle)
regex_any_of = _call("regex_any_of", _handle, POINTER(Text), c_size_t, POINTER(Options), POINTER(Error))
group_count = _call("group_count", _handle, c_uint32, POINTER(c_size_t))
group_name = _call("group_name", _handle, c_uint32, c_size_t, c_char_p, c_size_t, POINTER(c_size_t))
groups = _call("groups", _handle, *_text, POINTER(Match), POINTER(Span), c_size_t, POINTER(c_size_t))
find = _call("find", _handle, *_text, POINTER(Input), POINTER(Match))
is_match = _call("is_match", _handle, *_text, POINTER(Input))
next_all = _call("next_all", _handle, *_text, POINTER(Iteration), POINTER(Match), c_size_t, POINTER(c_size_t))
tokens = _call("tokens", _handle, *_text, POINTER(Input), POINTER(Match), c_size_t, POINTER(c_size_t))
which = _call("which", _handle, *_text, POINTER(Input), c_size_t, POINTER(c_uint32), c_size_t, POINTER(c_size_t))
