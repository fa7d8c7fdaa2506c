#!/usr/bin/env python3
"""Compares results of the extension for PostgreSQL with those of `~`:

    agree.py PATTERNS SEED

Random patterns that have the same meaning in both, each over ten random texts: `=~` is compared with `~`, `=~*` with
`~*`, their negations too, and where the first match begins. Then lists of 25 patterns over 200 texts: `=~|` and
lazydfa_which are compared with `~` for each pattern. It prints what was compared, and ends with status 1 if something
differs. The texts of first matches may differ: it only checks that none is longer here, and counts those that are not
equal, since POSIX takes the longest match, and Rust's syntax the preferred one. psql finds the server by its
environment.
"""
import random
import subprocess
import sys

LETTERS = "abcdAéß1 "


def atom(it, depth):
    kind = it.randrange(9)
    if kind < 4:
        return it.choice(LETTERS)
    if kind == 4:
        return "."
    if kind == 5:
        return it.choice(["[ab]", "[^a]", "[a-c]", "[^b-d1]", "[aé]"])
    if kind == 6:
        return it.choice(["^", "$"]) if it.random() < 0.3 else "x"
    return f"({alternation(it, depth - 1)})" if depth else "a"


def repetition(it, depth):
    repeated = atom(it, depth)
    return repeated + ("" if repeated in "^$" else it.choice(["", "", "", "*", "+", "?", "{2}", "{1,3}", "{2,}"]))


def sequence(it, depth):
    return "".join(repetition(it, depth) for _ in range(it.randrange(1, 4)))


def alternation(it, depth):
    return "|".join(sequence(it, depth) for _ in range(it.choice([1, 1, 2])))


def texts(it, count):
    return ["".join(it.choice("abcdABxéßÉ1 ") for _ in range(it.randrange(14))) for _ in range(count)]


def rows(lines):
    return "".join(f"{it}\n" for it in lines) + "\\.\n"


COMPARED = r"""
SELECT count(*), sum(((s ~ p) <> (s =~ p))::int), sum(((s ~* p) <> (s =~* p))::int),
    sum(((s !~ p) <> (s !=~ p) OR (s !~* p) <> (s !=~* p))::int),
    sum((regexp_instr(s, p) <> coalesce((lazydfa_find(s, p)).start_at, 0))::int),
    sum((length(lazydfa_substr(s, p)) > length(substring(s from '(' || p || ')')))::int),
    sum((lazydfa_substr(s, p) <> substring(s from '(' || p || ')'))::int), sum((s ~ p)::int)
    FROM pairs;
SELECT p, s FROM pairs WHERE (s ~ p) <> (s =~ p) OR (s ~* p) <> (s =~* p)
    OR regexp_instr(s, p) <> coalesce((lazydfa_find(s, p)).start_at, 0) LIMIT 5;
WITH wanted AS (SELECT s, patterns,
    array(SELECT k::int FROM unnest(patterns) WITH ORDINALITY it(p, k) WHERE s ~ p ORDER BY k) AS which
    FROM lists, lines)
SELECT count(*), sum((lazydfa_which(s, patterns) <> which)::int), sum(((s =~| patterns) <> (which <> '{}'))::int),
    sum(((s !=~| patterns) = (which <> '{}'))::int) FROM wanted;
"""


def script(count, seed):
    """Returns the statements for psql."""
    it = random.Random(seed)
    patterns = [alternation(it, 3) for _ in range(count)]
    pairs = [f"{pattern}\t{line}" for pattern in patterns for line in texts(it, 10)]
    lists = [patterns[at : at + 25] for at in range(0, min(count, 1000), 25)]
    made = "CREATE TEMP TABLE pairs(p text, s text);\nCREATE TEMP TABLE lists(patterns text[]);\n"
    made += "CREATE TEMP TABLE lines(s text);\nCOPY pairs FROM STDIN;\n" + rows(pairs)
    made += "COPY lines FROM STDIN;\n" + rows(texts(it, 200))
    for patterns in lists:
        made += f"INSERT INTO lists VALUES (array[{','.join(chr(39) + it + chr(39) for it in patterns)}]);\n"
    return made + COMPARED


def main(words):
    count, seed = int(words[0]), int(words[1])
    words = ["psql", "-XAtq", "-v", "ON_ERROR_STOP=1"]
    ran = subprocess.run(words, input=script(count, seed), capture_output=True, text=True)
    lines = ran.stdout.split("\n")
    if ran.returncode or len(lines) < 3:
        print(ran.stdout[-2000:] + ran.stderr[-2000:])
        return 1
    pairs, *wrong, others, found = map(int, lines[0].split("|"))
    answers, *wrong_sets = map(int, lines[-2].split("|"))
    print(f"{pairs} pairs of a pattern and a text, {found} with a match, of which {others} end elsewhere:", end=" ")
    print(f"{sum(wrong)} differ; {answers} texts and 25 patterns each: {sum(wrong_sets)} differ")
    for line in lines[1:-2]:
        print(line)
    return 1 if any(wrong) or any(wrong_sets) else 0


if __name__ == "__main__":
    sys.exit(main(sys.argv[1:]))
