#!/usr/bin/env python3
"""Compares what a `=~` query of the extension for PostgreSQL finds with an index and with a scan:

    indexed.py PATTERNS SEED [BACKENDS]

Random patterns, with repetitions of repetitions, classes, flags, escapes, alternations and anchors, are constants of
queries with `=~` or `=~*` over equal tables of short texts: one without an index, and one each with an index with
text_pattern_ops, with the collation of the database and C, and of trigrams (GIN and GiST, of pg_trgm). Scans are turned
off if there is an index for a query. It prints how many patterns used each index, and ends with status 1 if rows
differ. psql finds the server by its environment; its user must be allowed to create the extensions.
"""
import random
import subprocess
import sys
import tempfile

TEXTS = 600
TABLES = {
    "scanned": "",
    "ordered": "CREATE INDEX ordered_by ON indexed.ordered (s text_pattern_ops);",
    "plain": "CREATE INDEX plain_by ON indexed.plain (s);",
    "collated": 'CREATE INDEX collated_by ON indexed.collated (s COLLATE "C");',
    "inverted": "CREATE INDEX inverted_by ON indexed.inverted USING gin (s gin_trgm_ops);",
    "clustered": "CREATE INDEX clustered_by ON indexed.clustered USING gist (s gist_trgm_ops);",
}
LETTERS = "aaaabbbcccdABkKsS1_%é ßſK#-"
WORDS = ["abc", "abcd", "bcb", "time", "timeout", "Err", "naïve", "straße", "a_b%c", "x-yy-z", "Kelvin", "été", "ab ab"]
ESCAPES = [r"\.", r"\x61", r"\u{e9}", r"\x{62}", r"\pL", r"\d", r"\w", r"\W", r"\s", r"\S", r"\-", r"\\", r"\t", r"\_"]
CLASSES = ["[ab]", "[^a]", "[a-c]", "[a]", "[é]", "[aA]", "[[:alpha:]]", "[a-c&&[^b]]", "[^a-z]", "[b-b]", "[éß]"]
ANCHORS = ["^", "$", r"\A", r"\z", "(?m:^)", "(?m:$)", r"(?-u:\b)", r"(?-u:\B)", r"(?-u:\b{start})", "(?R:$)"]
GROUPS = ["(", "(", "(?:", "(?:", "(?i:", "(?-i:", "(?s:", "(?x:", "(?U:", "(?m:"]
FLAGS = ["(?i)", "(?-i)", "(?x)", "(?U)", "(?m)", "(?s)"]
COUNTS = ["{0}", "{1}", "{2}", "{0,1}", "{1,}", "{0,}", "{2,3}", "{3}", "{,2}"]

MADE = """
DROP SCHEMA IF EXISTS indexed CASCADE;
CREATE EXTENSION IF NOT EXISTS lazydfa;
CREATE EXTENSION IF NOT EXISTS pg_trgm;
CREATE SCHEMA indexed;
"""
# A pattern that cannot be compiled is counted; any other error ends the comparison.
COMPARED = """
SET enable_seqscan = off;
SET jit = off;
CREATE FUNCTION pg_temp.compared(OUT refused int, OUT matched int, OUT differing text[]) LANGUAGE plpgsql AS $$
DECLARE
    sums text[];
    it record;
BEGIN
    refused = 0;
    matched = 0;
    differing = '{}';
    FOR it IN SELECT * FROM patterns LOOP
        BEGIN
            EXECUTE format(QUERY, it.pattern, it.operator) INTO sums;
            matched = matched + (sums[1] <> '0 0')::int;
            IF sums[1] <> ANY (sums) THEN
                differing = differing || format('%s %s: %s', it.operator, it.pattern, sums);
            END IF;
        EXCEPTION WHEN invalid_regular_expression THEN
            refused = refused + 1;
        END;
    END LOOP;
END $$;
BEGIN;
CREATE TEMP TABLE compared AS SELECT * FROM pg_temp.compared();
SELECT refused, matched, cardinality(differing), INDEXES FROM compared;
COMMIT;
SELECT unnest(differing) FROM compared LIMIT 10;
"""


def atom(it, depth):
    kind = it.random()
    if kind < 0.42:
        letter = it.choice(LETTERS)
        return f"\\{letter}" if letter in "#-" and it.random() < 0.5 else letter
    if kind < 0.57:
        return it.choice(WORDS)
    if kind < 0.65:
        return it.choice(ESCAPES)
    if kind < 0.73:
        return it.choice(CLASSES)
    if kind < 0.77:
        return "."
    if kind < 0.81:
        return it.choice(ANCHORS)
    if kind < 0.83:
        return it.choice(FLAGS)
    return f"{it.choice(GROUPS)}{alternation(it, depth - 1)})" if depth else "b"


def quantifier(it):
    return it.choice(["*", "+", "?", it.choice(COUNTS)]) + it.choice(["", "", "", "?"])


def repetition(it, depth):
    repeated = atom(it, depth)
    if repeated in FLAGS:
        return repeated
    some = it.random()
    return repeated + "".join(quantifier(it) for _ in range(0 if some < 0.6 else 1 if some < 0.85 else 2))


def sequence(it, depth):
    return "".join(repetition(it, depth) for _ in range(it.randrange(1, 5)))


def alternation(it, depth):
    return "|".join(sequence(it, depth) for _ in range(it.choice([1, 1, 1, 1, 2])))


def pattern(it):
    """Returns a pattern for which, more often than not, an index can be used."""
    made = alternation(it, 2)
    kind = it.random()
    if it.random() < 0.4:
        made = it.choice(WORDS + list("abcdé")) + it.choice(["", "", quantifier(it)]) + made
    if kind < 0.6:
        made = it.choice(["^", "^", "^", r"\A", "(?i)^", "(?m)^", "^^", "(?:^)", "^(?:)"]) + made
    if kind < 0.2 or kind > 0.9:
        made += it.choice(["$", r"\z", "(?m:$)", "$$", ""])
    return made if it.random() < 0.9 else f"({made}){quantifier(it)}"


def text(it):
    parts = [it.choice(WORDS) if it.random() < 0.25 else it.choice(LETTERS) for _ in range(it.randrange(7))]
    return "".join(parts)


def quoted(it):
    return "'" + it.replace("'", "''") + "'"


def copied(rows):
    return "".join(it.replace("\\", "\\\\") + "\n" for it in rows) + "\\.\n"


def tables(it):
    """Returns the statements that create the tables."""
    texts = sorted({text(it) for _ in range(TEXTS)})
    made = MADE
    for name, index in TABLES.items():
        made += f"CREATE TABLE indexed.{name}(id int, s text) WITH (autovacuum_enabled = off);\n"
        made += f"COPY indexed.{name} FROM STDIN;\n"
        made += copied(f"{at * 7919 % 100003}\t{it}" for at, it in enumerate(texts)) + index + "\n"
    return made


def comparison(patterns):
    """Returns the statements that compare what patterns find."""
    sums = ", ".join(f"(SELECT count(*) || ' ' || coalesce(sum(id), 0) FROM indexed.{it} WHERE s %2$s %1$L)"
                     for it in TABLES)
    used = ", ".join(f"pg_stat_get_xact_numscans('indexed.{it}_by'::regclass)" for it in list(TABLES)[1:])
    made = "CREATE TEMP TABLE patterns(operator text, pattern text);\nCOPY patterns FROM STDIN;\n" + copied(patterns)
    return made + COMPARED.replace("QUERY", quoted(f"SELECT array[{sums}]")).replace("INDEXES", used)


def started(statements):
    """Starts psql with statements from a file, since it may answer before it has read all of them."""
    script = tempfile.TemporaryFile("w+", encoding="utf-8")
    script.write(statements)
    script.seek(0)
    words = ["psql", "-XAtq", "-v", "ON_ERROR_STOP=1"]
    return subprocess.Popen(words, stdin=script, stdout=subprocess.PIPE, stderr=subprocess.STDOUT, text=True)


def finished(process):
    """Returns the output of psql, as lines."""
    said = process.communicate()[0]
    if process.returncode:
        sys.exit(said[-3000:])
    return said.splitlines()


def main(words):
    count, seed, backends = int(words[0]), int(words[1]), int(words[2]) if words[2:] else 2
    it = random.Random(seed)
    finished(started(tables(it)))
    patterns = [f"{it.choice(['=~', '=~', '=~*'])}\t{pattern(it)}" for _ in range(count)]
    parts = [started(comparison(patterns[at::backends])) for at in range(backends)]
    answers = [finished(part) for part in parts]
    counts = [sum(column) for column in zip(*(map(int, answer[0].split("|")) for answer in answers))]
    refused, matched, differ, *used = counts
    by_index = ", ".join(f"{used[at]} by {name}" for at, name in enumerate(list(TABLES)[1:]))
    print(f"{count} patterns, {refused} refused, {matched} with a match; {by_index}: {differ} differ")
    for answer in answers:
        print("\n".join(answer[1:]), end="\n" if answer[1:] else "")
    finished(started("DROP SCHEMA indexed CASCADE;"))
    # A comparison in which an index is not used, or most patterns cannot be compiled, shows nothing.
    return 1 if differ or not all(used) or refused > count // 2 else 0


if __name__ == "__main__":
    sys.exit(main(sys.argv[1:]))
