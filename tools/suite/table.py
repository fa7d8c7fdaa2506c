#!/usr/bin/env python3
"""Prints what the suite measured, as two tables in Markdown:

    table.py RESULTS

The columns of engines are their times divided by the project's, so above 1 the project is faster. An exclamation mark
is another answer, a dash a work that an engine refuses or does not finish. The second table has geometric means.
"""
import math
import sys

ENGINES = {"re2": "RE2", "rust": "regex", "rust-nolit": "regex, no literals", "pcre2": "PCRE2, JIT"}


def times_of(path):
    """Returns what is known of each work and engine: what is done, the answer, the least time and the text's size."""
    found = {}
    with open(path, encoding="utf-8") as it:
        for line in it:
            name, engine, done, *values = line.split()
            row = found.setdefault(name, {})
            if len(values) == 4:
                count, total, time, size = map(float, values)
                if engine not in row or time < row[engine][2]:
                    row[engine] = done, (count, total), max(time, 1.0), size
    return found


def own(row):
    """Returns the time of the project, by what is done."""
    if "project" not in row:
        return "-"
    done, _, time, size = row["project"]
    return f"{time / 1000:.1f} µs" if done in ("compile", "first") else f"{time / size:.2f} ns a byte"


def ratio(row, engine):
    """Returns the time of an engine divided by the project's, or None."""
    return row[engine][2] / row["project"][2] if engine in row and "project" in row else None


def cell(row, engine):
    found = ratio(row, engine)
    if found is None:
        return "-"
    return f"{found:.2f}" + ("" if row[engine][1] == row["project"][1] else "!")


def mean(rows, engine):
    """Returns the geometric mean of the ratios."""
    found = [it for it in (ratio(row, engine) for row in rows) if it is not None]
    return f"{math.exp(sum(map(math.log, found)) / len(found)):.2f}" if found else "-"


def print_table(head, rows):
    print(f"| {' | '.join(head)} |\n|{'---|' * len(head)}")
    for row in rows:
        print(f"| {' | '.join(row)} |")


def main(path):
    found = times_of(path)
    print_table(
        ["Work", "Here", *ENGINES.values()],
        [[f"`{name}`", own(row), *(cell(row, it) for it in ENGINES)] for name, row in found.items()],
    )
    groups = {}
    for name, row in found.items():
        groups.setdefault(name.split(".")[0], []).append(row)
    print()
    groups["all"] = list(found.values())
    print_table(
        ["Group", "Works", *ENGINES.values()],
        [[name, str(len(rows)), *(mean(rows, it) for it in ENGINES)] for name, rows in groups.items()],
    )


if __name__ == "__main__":
    main(sys.argv[1])
