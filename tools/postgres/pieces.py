#!/usr/bin/env python3
"""Compares results of the extension for PostgreSQL by one call of the library with its results in pieces:

    pieces.py PATTERNS SEED

Random patterns, many of which match the empty string, each over ten random texts with characters of one to four bytes,
by every operator and function, also over bytes; and lists of four of them. `lazydfa.piece_size` sets the length of
pieces: the results for each of SIZES must equal those for SIZES[0], with which each text is searched at once, including
errors, except where a piece has a word boundary of Unicode beyond ASCII. It prints what was compared, and ends with status 1 if something differs. psql finds the server by its
environment.
"""
import random
import subprocess
import sys

SIZES = [16384, 1, 3, 7]
ATOMS = ["a", "b", "c", "é", "ß", "€", "😀", ".", "[ab]", "[^a]", "[^b-d]", r"\w", r"\s", "[a-f].{3}x", "x", ""]
LOOKS = ["^", "$", "(?m:^)", "(?m:$)", r"\A", r"\z", r"(?-u:\b)", r"(?-u:\B)", r"(?-u:\b{start})", r"\b", r"\B"]
LETTERS = "aabbcdAéÉß€😀x ,\n"

ASKED = r"""
CREATE FUNCTION pg_temp.answer(s text, p text) RETURNS text LANGUAGE plpgsql AS $$
DECLARE why text; said text;
BEGIN
    RETURN concat_ws(' ', s =~ p, s !=~ p, s =~* p, convert_to(s, 'UTF8') =~ p, lazydfa_find(s, p),
        lazydfa_substr(s, p), lazydfa_count(s, p), lazydfa_replace(s, p, '<\&>', 'g'),
        array(SELECT lazydfa_matches(s, p)), lazydfa_split(s, p));
EXCEPTION WHEN feature_not_supported THEN
    RETURN NULL; -- a Unicode word boundary beyond ASCII is only found at once
WHEN OTHERS THEN
    GET STACKED DIAGNOSTICS why = MESSAGE_TEXT, said = PG_EXCEPTION_DETAIL;
    RETURN why || ' ' || said;
END $$;
CREATE FUNCTION pg_temp.answer(s text, p text[]) RETURNS text LANGUAGE plpgsql AS $$
DECLARE why text; said text; begun text;
BEGIN
    begun = concat_ws(' ', s =~| p, s !=~| p, convert_to(s, 'UTF8') =~| p, lazydfa_which(s, p));
    RETURN begun || ' ' || array(SELECT lazydfa_tokens(s, p))::text;
EXCEPTION WHEN feature_not_supported THEN
    RETURN NULL;
WHEN OTHERS THEN
    GET STACKED DIAGNOSTICS why = MESSAGE_TEXT, said = PG_EXCEPTION_DETAIL;
    RETURN concat_ws(' ', begun, why, said);
END $$;
CREATE FUNCTION pg_temp.groups(s text, p text) RETURNS text LANGUAGE plpgsql AS $$
BEGIN
    RETURN concat_ws(' ', lazydfa_captures(s, p), lazydfa_captures(s, '(' || p || ')(.)?'),
        lazydfa_replace(s, '(a)?(?:' || p || ')(.)?', '<\2\1>', 'g'));
EXCEPTION WHEN program_limit_exceeded OR feature_not_supported THEN
    RETURN NULL; -- a match is too long for such short pieces, or a Unicode word boundary is only found at once
WHEN OTHERS THEN
    RETURN '';
END $$;
CREATE TEMP TABLE pairs(id serial, p text, s text);
CREATE TEMP TABLE lists(id serial, p text[], s text);
"""
COMPARED = r"""
CREATE TEMP TABLE wanted AS
    SELECT id, p, s, pg_temp.answer(s, p) AS answer, pg_temp.groups(s, p) AS groups FROM pairs;
CREATE TEMP TABLE wanted_of_lists AS SELECT id, p, s, pg_temp.answer(s, p) AS answer FROM lists;
SELECT count(*), count(*) FILTER (WHERE answer ~ '^t'),
    count(*) FILTER (WHERE answer IS NULL OR answer ~ 'cannot|invalid') FROM wanted;
SELECT count(*), count(*) FILTER (WHERE answer ~ '^t'), count(*) FILTER (WHERE answer ~ '\{"') FROM wanted_of_lists;
"""
DIFFERING = r"""
SET lazydfa.piece_size = {size};
SELECT 'pieces of {size}', p, s, answer, pg_temp.answer(s, p) FROM wanted WHERE answer <> pg_temp.answer(s, p) LIMIT 5;
SELECT 'groups, pieces of {size}', p, s, groups, pg_temp.groups(s, p) FROM wanted WHERE groups <> pg_temp.groups(s, p)
    LIMIT 5;
SELECT 'pieces of {size}', p, s, answer, pg_temp.answer(s, p) FROM wanted_of_lists WHERE answer <> pg_temp.answer(s, p)
    LIMIT 5;
"""


def atom(it, depth):
    if depth and it.random() < 0.3:
        return f"(?:{alternation(it, depth - 1)})"
    return it.choice(LOOKS if it.random() < 0.2 else ATOMS)


def repetition(it, depth):
    repeated = atom(it, depth) or "(?:)"
    return repeated + it.choice(["", "", "", "*", "+", "?", "*?", "??", "{2}", "{1,3}"])


def sequence(it, depth):
    return "".join(repetition(it, depth) for _ in range(it.randrange(4)))


def alternation(it, depth):
    return "|".join(sequence(it, depth) for _ in range(it.choice([1, 1, 2, 3])))


def text(it):
    return "".join(it.choice(LETTERS) for _ in range(it.randrange(20)))


def quoted(words):
    return f"E'{words}'" if "\\" not in words and "\n" not in words else "$q$" + words + "$q$"


def script(count, seed):
    """Returns the statements for psql."""
    it = random.Random(seed)
    patterns = [alternation(it, 2) for _ in range(count)]
    made = ASKED + f"SET lazydfa.piece_size = {SIZES[0]};\n"
    for at, pattern in enumerate(patterns):
        rows = ", ".join(f"({quoted(pattern)}, {quoted(text(it))})" for _ in range(10))
        made += f"INSERT INTO pairs(p, s) VALUES {rows};\n"
        if at % 4 == 3:
            four = ", ".join(quoted(it) for it in patterns[at - 3 : at + 1])
            rows = ", ".join(f"(array[{four}], {quoted(text(it))})" for _ in range(10))
            made += f"INSERT INTO lists(p, s) VALUES {rows};\n"
    return made + COMPARED + "".join(DIFFERING.format(size=size) for size in SIZES[1:])


def main(words):
    count, seed = int(words[0]), int(words[1])
    words = ["psql", "-XAtq", "-v", "ON_ERROR_STOP=1"]
    ran = subprocess.run(words, input=script(count, seed), capture_output=True, text=True)
    lines = ran.stdout.splitlines()
    if ran.returncode or len(lines) < 2:
        print(ran.stdout[-2000:] + ran.stderr[-2000:])
        return 1
    pairs, found, wrong = lines[0].split("|")
    lists, found_in, listed = lines[1].split("|")
    print(f"{pairs} pairs of a pattern and a text, {found} with a match and {wrong} with an error,", end=" ")
    print(f"and {lists} of four patterns and a text, {found_in} with a match, by pieces of {SIZES[1:]} bytes:", end=" ")
    print("some differ" if lines[2:] else "none differ")
    print("\n".join(lines[2:]), end="\n" if lines[2:] else "")
    return 1 if lines[2:] else 0


if __name__ == "__main__":
    sys.exit(main(sys.argv[1:]))
