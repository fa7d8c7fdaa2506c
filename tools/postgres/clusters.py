#!/usr/bin/env python3
"""Searches lines of a log in three clusters at once, through foreign partitions, and compares it with `~` in each:

    clusters.py FOLDER LINES [ROUNDS]

The environment's server, where a database is made for it, asks three others, which the script makes in the folder from
the programs of that server (PG_PROGRAMS) and stops at the end. The tests are that conditions are sent to the clusters,
that these work at the same time, and that they find what `~` finds. With ROUNDS, it then measures, for the README of
the extension, how long a query takes over the three at once and over one after another; the median ratio is printed.
"""
import os
import re
import statistics
import subprocess
import sys

PROGRAMS = os.environ.get("PG_PROGRAMS", "/usr/lib/postgresql/15/bin")
TOOLS = os.path.dirname(os.path.abspath(__file__))
PARTS, PORT = 3, 5433
PATTERN = "(timeout|refused).*disk"
# A condition with each operator and function, and how it reads where it is sent.
SENT = {
    f"line =~ '{PATTERN}'": "OPERATOR(public.=~)",
    f"line !=~ '{PATTERN}'": "OPERATOR(public.!=~)",
    f"line =~* '{PATTERN}'": "OPERATOR(public.=~*)",
    "line =~| array['refused', 'disk full']": "OPERATOR(public.=~|)",
    "lazydfa_which(line, array['refused', 'disk']) = array[1, 2]": "public.lazydfa_which(line",
    "lazydfa_count(line, '[0-9]+') > 20": "public.lazydfa_count(line",
    "lazydfa_substr(line, 'ERROR|WARN') = 'WARN'": "public.lazydfa_substr(line",
}


def ran(words, **how):
    """Runs a program, as the server's user if this one is root, and returns what it wrote."""
    user = ["runuser", "-u", "postgres", "--"] if os.getuid() == 0 else []
    done = subprocess.run([*user, *words], stdout=subprocess.PIPE, stderr=subprocess.STDOUT, text=True, **how)
    if done.returncode:
        sys.exit(f"{' '.join(words)}\n{done.stdout}")
    return done.stdout


def psql(statements, port=None, data=None):
    """Runs statements over the coordinator, in its database, or over a cluster, and returns the rows."""
    where = ["-d", "clusters"] if port is None else ["-d", "postgres", "-p", str(port)]
    words = ["psql", "-XAtq", "-v", "ON_ERROR_STOP=1", *where, "-c", statements]
    done = subprocess.run(words, input=data, capture_output=True, text=True)
    if done.returncode:
        sys.exit(f"{done.stderr}{statements[:300]}")
    return done.stdout


class Cluster:
    """A server of its own, with a part of the lines."""

    def __init__(self, folder, number):
        self.number, self.port, self.data = number, PORT + number, f"{folder}/part{number}"
        self.socket = os.environ["PGHOST"]

    def start(self):
        how = ["-U", "lazydfa", "-E", "UTF8", "--locale=C.UTF-8", "-A", "trust", "-N"]
        ran([f"{PROGRAMS}/initdb", "-D", self.data, *how])
        options = f"-c listen_addresses= -c unix_socket_directories={self.socket} -c port={self.port} -c fsync=off"
        options += " -c max_parallel_workers_per_gather=0 -c shared_buffers=1GB"
        ran([f"{PROGRAMS}/pg_ctl", "-D", self.data, "-w", "-l", f"{self.data}.log", "-o", options, "start"])

    def stop(self):
        if os.path.exists(f"{self.data}/postmaster.pid"):
            ran([f"{PROGRAMS}/pg_ctl", "-D", self.data, "-m", "immediate", "stop"])

    def load(self, lines):
        words = [sys.executable, f"{TOOLS}/lines.py", str(lines), str(self.number)]
        text = subprocess.run(words, capture_output=True, text=True, check=True).stdout
        psql("CREATE EXTENSION lazydfa", self.port)
        psql("CREATE TABLE logs(part int DEFAULT 0, line text)", self.port)
        psql("COPY logs(line) FROM STDIN", self.port, text)
        psql(f"UPDATE logs SET part = {self.number}", self.port)
        psql("VACUUM FULL ANALYZE logs", self.port)

    def attach(self):
        """Makes the cluster's table a partition of the coordinator's table."""
        where = f"host '{self.socket}', port '{self.port}', dbname 'postgres'"
        psql(
            f"""CREATE SERVER part{self.number} FOREIGN DATA WRAPPER postgres_fdw
                OPTIONS ({where}, extensions 'lazydfa', async_capable 'true', use_remote_estimate 'true');
            CREATE USER MAPPING FOR CURRENT_USER SERVER part{self.number} OPTIONS (user 'lazydfa');
            CREATE FOREIGN TABLE logs{self.number} PARTITION OF logs FOR VALUES IN ({self.number})
                SERVER part{self.number} OPTIONS (table_name 'logs')"""
        )


def faults(clusters):
    """Returns what is wrong with plans and answers."""
    found = []
    for condition, sent in SENT.items():
        plan = psql(f"EXPLAIN (VERBOSE, COSTS off) SELECT line FROM logs WHERE {condition}")
        remote = re.findall(r"Remote SQL: (.*)", plan)
        if len(remote) != PARTS or not all(sent in it for it in remote) or plan.count("Async Foreign Scan") != PARTS:
            found.append(f"{condition} is not sent to all clusters at once:\n{plan}")
    query = "SELECT count(*), sum(length(line)) FROM logs WHERE line"
    mine = psql(f"{query} =~ '{PATTERN}'").strip().split("|")
    each = [psql(f"{query} ~ '{PATTERN}'", it.port).strip().split("|") for it in clusters]
    wanted = [str(sum(int(it[at] or 0) for it in each)) for at in (0, 1)]
    if mine != wanted or wanted[0] == "0":
        found.append(f"{mine}, and not {wanted}")
    return found


def milliseconds(query, at_once):
    said = psql(f"SET enable_async_append = {at_once}; EXPLAIN (ANALYZE, TIMING off, COSTS off) {query}")
    return float(re.search(r"Execution Time: ([\d.]+) ms", said)[1])


def measure(rounds):
    for condition in (f"line =~ '{PATTERN}'", "lazydfa_count(line, '[a-z]+') > 20"):
        query = f"SELECT count(*) FROM logs WHERE {condition}"
        turns = [(milliseconds(query, "off"), milliseconds(query, "on")) for _ in range(rounds)]
        alone, together = (statistics.median(it) for it in zip(*turns))
        ratio = statistics.median(a / b for a, b in turns)
        print(f"{condition}: one after another {alone:.0f} ms, at once {together:.0f} ms, ratio {ratio:.2f}")


def main(folder, lines, rounds="0"):
    clusters = [Cluster(folder, number) for number in range(1, PARTS + 1)]
    try:
        for it in clusters:
            it.start()
            it.load(int(lines) // PARTS)
        psql("CREATE DATABASE clusters", port=os.environ.get("PGPORT", "5432"))
        psql("CREATE EXTENSION lazydfa; CREATE EXTENSION postgres_fdw")
        psql("CREATE TABLE logs(part int, line text) PARTITION BY LIST (part)")
        for it in clusters:
            it.attach()
        found = faults(clusters)
        if not found and int(rounds):
            measure(int(rounds))
    finally:
        for it in clusters:
            it.stop()
    print("\n".join(found) or f"{PARTS} clusters, {len(SENT)} conditions")
    return 1 if found else 0


if __name__ == "__main__":
    sys.exit(main(*sys.argv[1:]))
