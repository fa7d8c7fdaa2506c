#!/usr/bin/env python3
"""Measures queries with `~`, LIKE and the extension for PostgreSQL over lines of a log, for docs/PERFORMANCE.md:

    measure.py LINES ROUNDS

psql finds the server by its environment; its user must be allowed to create the extension, and the script must run on
the server's machine. Each query is timed by EXPLAIN ANALYZE, serially and with three workers. The queries of one row
run in turn, and a ratio is computed for each round: the median is printed. All queries of a row must find the same
number of lines. The memory is what a backend does not share.
"""
import os
import random
import re
import statistics
import subprocess
import sys

PATTERNS = [
    r"ERROR|WARN",
    r'" 50[0-9] ',
    r"[a-z]+[0-9]*@example\.(com|org)",
    r"2026-0[1-3]-[0-9]{2}T2[0-3]:",
    r"(timeout|refused|failed).*(database|disk)",
]
WORD = "refused"
FOLDED = r"(zürich|straße).*trace=[0-9a-f]{32}"
# A scan starts at the beginning of the table, so that LIMIT takes the same lines.
SERIAL = "SET max_parallel_workers_per_gather = 0; SET synchronize_seqscans = off;"
PARALLEL = """SET max_parallel_workers_per_gather = 3; SET min_parallel_table_scan_size = 0;
    SET parallel_setup_cost = 0; SET parallel_tuple_cost = 0;"""
# For 100 patterns `~ ANY` is timed over these lines only.
FEW = 1000


def psql(statements):
    words = ["psql", "-XAtq", "-v", "ON_ERROR_STOP=1"]
    ran = subprocess.run(words, input=statements, capture_output=True, text=True)
    if ran.returncode:
        sys.exit(f"{ran.stderr}{statements[:300]}")
    return ran.stdout


def quoted(text):
    return "'" + text.replace("'", "''") + "'"


def timed(setup, query):
    """Returns how many milliseconds a query took."""
    out = psql(f"{setup} EXPLAIN (ANALYZE, TIMING off, COSTS off) {query};")
    if setup == PARALLEL and "Workers Launched: 3" not in out:
        sys.exit(f"not by three workers:\n{out}")
    return float(re.search(r"Execution Time: ([\d.]+) ms", out)[1])


def row(name, queries, rounds, setup, number):
    """Times queries in turn, and prints the median times, and the median ratios to the last of them."""
    found = {it: psql(f"{SERIAL} {query};").strip() for it, query in queries.items()}
    if len(set(found.values())) > 1:
        sys.exit(f"{name}: {found}")
    turns = [{it: timed(setup, query) for it, query in queries.items()} for _ in range(rounds)]
    ours = list(queries)[-1]
    times = [f"{it} {statistics.median(turn[it] for turn in turns):,.0f} ms" for it in queries]
    ratios = [f"{it} {statistics.median(turn[it] / turn[ours] for turn in turns):.2f}" for it in queries if it != ours]
    print(f"{name} | {number} | {found[ours]} | {', '.join(times)} | by {ours}: {', '.join(ratios)}", flush=True)


def measure_patterns(rounds):
    cases = [(it, {"~": f"line ~ {quoted(it)}", "=~": f"line =~ {quoted(it)}"}) for it in PATTERNS]
    like = {"~": f"line ~ '{WORD}'", "LIKE": f"line LIKE '%{WORD}%'", "=~": f"line =~ '{WORD}'"}
    cases.append((WORD, like))
    cases.append((f"{FOLDED}, either case", {"~*": f"line ~* {quoted(FOLDED)}", "=~*": f"line =~* {quoted(FOLDED)}"}))
    as_word = {"~": r"line ~ '\yERROR\y.*timeout'", "=~": r"line =~ '(?-u:\b)ERROR(?-u:\b).*timeout'"}
    cases.append(("a word", as_word))
    for name, filters in cases:
        queries = {it: f"SELECT count(*) FROM logs WHERE {where}" for it, where in filters.items()}
        row(name, queries, rounds, SERIAL, "serial")
        row(name, queries, rounds, PARALLEL, "3 workers")


def many():
    it = random.Random(3)
    made = [f"/api/v1/users/{it.randrange(1, 999)}[0-9]* " for _ in range(25)]
    made += [f"trace=[0-9a-f]*{it.randrange(4096):03x}$" for _ in range(25)]
    made += [f"user=[a-z]+{it.randrange(999)}@example[.](com|org)" for _ in range(25)]
    made += [f"^2026-{it.randrange(1, 13):02d}-{it.randrange(1, 29):02d}T.*(ERROR|WARN)" for _ in range(25)]
    it.shuffle(made)
    return made


def measure_sets(rounds, lines):
    patterns = many()
    for count in (10, 100):
        some = patterns[:count]
        listed = f"array[{','.join(map(quoted, some))}]"
        joined = quoted("|".join(f"({it})" for it in some))
        for part in (min(FEW, lines), min(50000, lines)):
            filters = {"~ ANY": f"line ~ ANY ({listed})"} if part <= FEW or count <= 10 else {}
            filters |= {"~ a|b|..": f"line ~ {joined}", "=~|": f"line =~| {listed}"}
            filters["which"] = f"lazydfa_which(line, {listed}) <> '{{}}'"
            queries = {it: f"SELECT count(*) FROM (SELECT line FROM logs LIMIT {part}) part WHERE {where}"
                       for it, where in filters.items()}
            row(f"{count} patterns, {part} lines", queries, min(rounds, 3), SERIAL, "serial")


def memory():
    """Prints the memory that a backend does not share, in MB: at first, after each pattern, and after 100 patterns at
    once."""
    words = ["psql", "-XAtq", "-v", "ON_ERROR_STOP=1"]
    with subprocess.Popen(words, stdin=subprocess.PIPE, stdout=subprocess.PIPE, text=True) as client:
        def ask(query):
            client.stdin.write(f"{query};\n")
            client.stdin.flush()
            return client.stdout.readline().strip()

        backend = ask("SELECT pg_backend_pid()")

        def anonymous():
            with open(f"/proc/{backend}/status", encoding="utf-8") as it:
                return int(re.search(r"RssAnon:\s+(\d+)", it.read())[1]) / 1024

        listed = f"array[{','.join(map(quoted, many()))}]"
        said = [f"begun {anonymous():.1f}"]
        ask("SELECT count(*) FROM logs WHERE line LIKE '%x%'")
        said.append(f"after a scan {anonymous():.1f}")
        for it in PATTERNS:
            ask(f"SELECT count(*) FROM logs WHERE line =~ {quoted(it)}")
        said.append(f"after 5 patterns {anonymous():.1f}")
        ask(f"SELECT count(*) FROM (SELECT line FROM logs LIMIT 50000) part WHERE line =~| {listed}")
        said.append(f"after 100 at once {anonymous():.1f}")
        ask("SELECT count(*) FROM generate_series(1, 5000) n WHERE 'x' =~ ('\\pL{2}' || n)")
        said.append(f"after 5,000 more, one a row {anonymous():.1f}")
        print("memory in MB:", ", ".join(said), "; stats", ask("SELECT lazydfa_stats()"))


def main(words):
    lines, rounds = int(words[0]), int(words[1])
    here = os.path.dirname(os.path.abspath(__file__))
    psql("CREATE EXTENSION IF NOT EXISTS lazydfa; DROP TABLE IF EXISTS logs; CREATE UNLOGGED TABLE logs(line text);")
    subprocess.run(f"python3 {here}/lines.py {lines} 1 | psql -Xq -c 'COPY logs FROM STDIN'", shell=True, check=True)
    psql("VACUUM ANALYZE logs;")
    print(f"{lines} lines, load {open('/proc/loadavg', encoding='utf-8').read().split()[0]}", flush=True)
    measure_patterns(rounds)
    measure_sets(rounds, lines)
    memory()


if __name__ == "__main__":
    main(sys.argv[1:])
