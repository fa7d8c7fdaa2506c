#!/usr/bin/env python3
"""Compares the memory that a backend reports for its patterns with what malloc gave out, and with the limit:

    memory.py

Hundreds of patterns, one after another, each over a text of 900 kB: with several settings of `lazydfa.cache_size`, for
searches for an end, for starts too, for groups, for sets, and for searches that are cancelled. After each search malloc
must have given out at most 1.1 times what lazydfa_stats reports, and at least a tenth of it. This must be within the
limit, except for the memory of a single pattern, or of a search that was cancelled, which may exceed the limit until
the next search. psql finds the server by its environment; the server has the function held() of held.c.
"""
import subprocess
import sys

CANCELLED = "pg_temp.cancelled(value, '(a|b)*a(a|b){14}c|' || pattern)"
MANY_GROUPS = "lazydfa_replace(left(value, 1000), '(' || pattern || repeat('(x)?', 100) || ')', '\\2', 'g') = ''"
ALIKE = [f"[ab]{{{8 + at % 5}}}c|[ab]{{{9 + at % 3}}}x{at}" for at in range(300)]
VARIOUS = ["(a|b)*a(a|b){6}c", "[0-9]{4}-[0-9]{2}-[0-9]{2}", r"(?-u:\b)[0-9]+(?-u:\b)", "[ab]{10}c|[ab]{9}d"]
VARIOUS += ["[a-q][^u-z]{5}x", "foo|bar|baz|quux", "[a-z]+", '"[^"]*"', "(?i)sherlock|holmes|watson", "a.{8}b"]
VARIOUS += [r"\pL+ \pL+", r"\w+@\w+"]
EACH = [f"x{at}" for at in range(256)]
# A limit in kB, a search with one of some patterns, and these patterns.
CASES = [
    (65536, "mixed =~ pattern", VARIOUS),
    (65536, "lazydfa_count(mixed, pattern) >= 0", VARIOUS),
    (2048, "value =~ pattern", ALIKE),
    (65536, "value =~ pattern", ALIKE),
    (1024, "lazydfa_count(value, pattern) > 0", ALIKE[:60]),
    (1024, "lazydfa_which(value, array[pattern, 'b{20}']) <> '{}'", ALIKE[:60]),
    (65536, "lazydfa_captures(left(mixed, 1000), '((x)?' || pattern || ')(y)?') <> '{}'", VARIOUS),
    (4096, "lazydfa_captures(left(value, 1000), '((x)?' || pattern || ')(y)?') IS NULL", ALIKE[:60]),
    (65536, MANY_GROUPS, ALIKE[:60]),
    (4096, CANCELLED, ALIKE[:30]),
    # A match of a byte, after which the search reads on, and DFA states of thousands of NFA states
    (65536, "lazydfa_substr(left(value, 16384), 'a(?:[ab]*a[ab]{14}c|' || pattern || ')?') <> ''", EACH),
    (65536, "left(value, 256) =~ ('(?:[ab]?){2000}x|a[ab]{20}c|' || pattern)", EACH[:100]),
    (8192, "value =~* ('(?i)' || pattern || '|\\w{9}z')", ALIKE[:60]),
]
MADE = r"""
CREATE TEMP TABLE long AS SELECT string_agg(translate(md5(n::text), '0123456789cdef', 'abababababaabb'), '') AS value,
    string_agg(left(md5(n::text), 14) || ' "Zürich, ' || n || E'"\n', '') AS mixed FROM generate_series(1, 28125) n;
CREATE FUNCTION pg_temp.cancelled(value text, pattern text) RETURNS bool LANGUAGE plpgsql AS $$
BEGIN
    RETURN value =~ pattern;
EXCEPTION WHEN query_canceled THEN
    RETURN NULL;
END $$;
"""
# What a search that is cancelled before it is counted may add, in kB, for caches of 1 MB.
UNCOUNTED = 2048
# How many patterns are kept, what they hold according to the extension, and what malloc gave out.
ASKED = "SELECT patterns, held + tables, held() - {before} FROM lazydfa_stats()"


class Backend:
    """A session of psql."""

    def __init__(self):
        words = ["psql", "-XAtq", "-v", "ON_ERROR_STOP=1"]
        self.client = subprocess.Popen(words, stdin=subprocess.PIPE, stdout=subprocess.PIPE, text=True)

    def run(self, statement):
        self.client.stdin.write(f"{statement};\n")
        self.client.stdin.flush()

    def ask(self, query):
        self.run(query)
        said = self.client.stdout.readline()
        if not said:
            sys.exit(f"no answer to {query[:300]}")
        return said.strip()

    def numbers(self, query):
        return [int(it) for it in self.ask(query).split("|")]

    def end(self):
        self.client.stdin.close()
        self.client.wait()


def tried(limit, search, patterns):
    """Runs one of the cases. Returns what is wrong, and prints the figures."""
    backend = Backend()
    backend.run(MADE)
    backend.ask("SELECT 'a' =~ 'a'")
    backend.run(f"SET lazydfa.cache_size = {limit}")
    more = UNCOUNTED if search == CANCELLED else 0
    if more:
        backend.run("SET lazydfa.pattern_cache_size = 1024; SET statement_timeout = 40")
    (before,) = backend.numbers("SELECT held() - (SELECT held + tables FROM lazydfa_stats())")
    ratio, over, faults = 0, 0, []
    for pattern in patterns:
        backend.ask(f"SELECT {search} FROM long, (SELECT '{pattern}' AS pattern) it")
        kept, reported, malloc = backend.numbers(ASKED.format(before=before))
        ratio, over = max(ratio, malloc / reported), max(over, reported - limit * 1024)
        if not 0.1 * reported <= malloc <= 1.1 * reported:
            faults.append(f"{search}, {pattern}: malloc gave out {malloc}, and {reported} are reported")
        if reported > (limit + more) * 1024 and kept > 1:
            faults.append(f"{search}, {pattern}: {kept} patterns hold {reported} bytes, and the limit is {limit} kB")
    backend.end()
    print(f"{len(patterns)} patterns by {search}, {limit} kB: {kept} kept, {reported // 1024} kB reported,", end=" ")
    print(f"malloc up to {ratio:.2f} of it, over the limit by {max(over, 0) // 1024} kB")
    return faults


def main():
    faults = [fault for case in CASES for fault in tried(*case)]
    print("\n".join(faults[:10]) if faults else "each within the limit")
    return 1 if faults else 0


if __name__ == "__main__":
    sys.exit(main())
