"""Replacements of matches, as `re` reads them: `\\\\1` and `\\\\g<name>` stand for groups."""
import re
from typing import AnyStr, List, Mapping, Sequence, Union

# What follows a backslash.
_ESCAPE = re.compile(
    r"\\(?:g<(?P<group>[^>]*)>|(?P<octal>0[0-7]{0,2}|[1-7][0-7]{2})|(?P<number>[1-9][0-9]?)|(?P<other>.?))", re.S
)
_CHARACTERS = {"a": "\a", "b": "\b", "f": "\f", "n": "\n", "r": "\r", "t": "\t", "v": "\v", "\\": "\\"}


class TemplateError(ValueError):
    """A replacement has an escape that is none, or refers to a group that no pattern has."""


def _group(name: str, indices: Sequence[Mapping[str, int]]) -> Union[int, str]:
    """Returns the number or the name of a group, as `\\\\g<name>` has it."""
    if name.isidentifier():
        if not any(name in it for it in indices):
            raise IndexError(f"unknown group name {name!r}")
        return name
    if not (name.isascii() and name.isdigit()):
        raise TemplateError(f"bad character in group name {name!r}")
    return int(name)


def parse(
    template: AnyStr, counts: Sequence[int], indices: Sequence[Mapping[str, int]]
) -> List[Union[AnyStr, int, str]]:
    """Returns the parts of a template: texts at even places, and numbers or names of groups at odd ones. For each
    pattern it is given the number of its groups, and the numbers of those that have names."""
    is_text = isinstance(template, str)
    source = template if is_text else template.decode("latin-1")
    parts, text, last = [], "", 0
    for it in _ESCAPE.finditer(source):
        text, last = text + source[last : it.start()], it.end()
        group = int(it["number"]) if it["number"] else None
        if it["group"] is not None:
            group = _group(it["group"], indices)
        if group is not None:
            if isinstance(group, int) and not any(group <= count for count in counts):
                raise TemplateError(f"invalid group reference {group}")
            parts, text = [*parts, text, group], ""
        elif it["octal"]:
            if int(it["octal"], 8) > 0o377:
                raise TemplateError(f"octal escape {it[0]} is above 0o377")
            text += chr(int(it["octal"], 8))
        elif it["other"] in _CHARACTERS:
            text += _CHARACTERS[it["other"]]
        elif not it["other"] or (it["other"].isascii() and it["other"].isalpha()):
            raise TemplateError(f"bad escape {it[0]}")
        else:
            text += it[0]
    parts.append(text + source[last:])
    return [it if at % 2 or is_text else it.encode("latin-1") for at, it in enumerate(parts)]
