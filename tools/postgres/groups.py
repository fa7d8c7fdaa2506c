#!/usr/bin/env python3
"""Compares groups, replacements and parts of the extension for PostgreSQL with those of the server's own functions:

    groups.py PATTERNS SEED

Random patterns in which each byte that is read decides how to go on, so that the preferred match is the longest one;
each over ten random texts: lazydfa_captures is compared with regexp_match, lazydfa_replace with regexp_replace, for the
first match and for all, also case-insensitively, and lazydfa_split with regexp_split_to_array. All matches are not
replaced of patterns that match the empty string: the server's function also replaces it where the last match ends. It
prints what was compared, and ends with status 1 if something differs. psql finds the server by its environment.
"""
import random
import subprocess
import sys

# Sets of characters, no two of which have one in common, also if case is ignored.
SETS = ["[0-9]", "[abc]", "[déß]", "x", "[ ,]", "-"]
LETTERS = "0123abcABCdéßÉxX ,-"
REPLACEMENTS = [r"<\1>", r"\2\1", r"[\&]", r"\\1\3", r"é", "", r"\9\x\0\\", "\\\\", r"\1\1\&"]

COMPARED = r"""
CREATE FUNCTION pg_temp.ours(s text, p text, r text, many bool) RETURNS text LANGUAGE sql AS $$
SELECT concat_ws('|', lazydfa_captures(s, p)::text, lazydfa_replace(s, p, r), lazydfa_replace(s, p, r, 'i'),
    CASE WHEN many THEN lazydfa_replace(s, p, r, 'g') || '|' || lazydfa_replace(s, p, r, 'gi') END,
    lazydfa_split(s, p)::text) $$;
CREATE FUNCTION pg_temp.theirs(s text, p text, r text, many bool) RETURNS text LANGUAGE sql AS $$
SELECT concat_ws('|', regexp_match(s, p)::text, regexp_replace(s, p, r), regexp_replace(s, p, r, 'i'),
    CASE WHEN many THEN regexp_replace(s, p, r, 'g') || '|' || regexp_replace(s, p, r, 'gi') END,
    regexp_split_to_array(s, p)::text) $$;
CREATE TEMP TABLE answers AS
    SELECT s, p, r, pg_temp.ours(s, p, r, many) AS ours, pg_temp.theirs(s, p, r, many) AS theirs FROM cases;
SELECT count(*), count(*) FILTER (WHERE s ~ p), count(*) FILTER (WHERE ours <> theirs) FROM answers;
SELECT p, s, r, ours, theirs FROM answers WHERE ours <> theirs LIMIT 5;
"""


def sequence(it, depth, before):
    """Returns a pattern, the sets with which it may begin, those with which what follows may not begin, and whether it
    matches the empty string. It does not begin with any of the sets before it."""
    made, first, open_to, empty = "", set(), set(before), True
    for _ in range(it.randrange(1, 4)):
        left = [one for one in SETS if one not in open_to]
        if not left:
            break
        if depth and it.random() < 0.6:
            inner, begins, ends, is_empty = sequence(it, depth - 1, open_to)
            times = it.choice(["", "", "?"])
            inner = f"({inner}){times}" if it.random() < 0.8 else f"(?:{inner}){times}"
        else:
            one = it.choice(left)
            times = it.choice(["", "", "+", "*", "?", "{1,2}", "{2}"])
            inner, begins, is_empty = one + times, {one}, times in ("*", "?")
            ends = {one} if times not in ("", "{2}") else set()
        is_empty = is_empty or times == "?"
        first |= begins if empty else set()
        open_to = ends | begins | open_to if is_empty else set(ends)
        made, empty = made + inner, empty and is_empty
    return made, first, open_to, empty


def script(count, seed):
    """Returns the statements for psql."""
    it = random.Random(seed)
    rows = []
    for _ in range(count):
        pattern, _, _, is_empty = sequence(it, 3, set())
        for _ in range(10):
            text = "".join(it.choice(LETTERS) for _ in range(it.randrange(14)))
            row = [pattern, text, it.choice(REPLACEMENTS), "f" if is_empty else "t"]
            rows.append("\t".join(word.replace("\\", "\\\\") for word in row))
    made = "CREATE TEMP TABLE cases(p text, s text, r text, many bool);\nCOPY cases FROM STDIN;\n"
    return made + "\n".join(rows) + "\n\\.\n" + COMPARED


def main(words):
    count, seed = int(words[0]), int(words[1])
    words = ["psql", "-XAtq", "-v", "ON_ERROR_STOP=1"]
    ran = subprocess.run(words, input=script(count, seed), capture_output=True, text=True)
    lines = ran.stdout.splitlines()
    if ran.returncode or not lines:
        print(ran.stdout[-2000:] + ran.stderr[-2000:])
        return 1
    pairs, found, wrong = map(int, lines[0].split("|"))
    print(f"{pairs} pairs of a pattern and a text, {found} with a match: {wrong} differ")
    print("\n".join(lines[1:]), end="\n" if lines[1:] else "")
    return 1 if wrong else 0


if __name__ == "__main__":
    sys.exit(main(sys.argv[1:]))
