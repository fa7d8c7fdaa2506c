#!/usr/bin/env python3
"""Draws the growth by words and by capacity, and what people search for, from the tables of docs/PERFORMANCE.md:

    tools/plots.py [--test]

It writes docs/words.svg, docs/sets.svg, docs/capacity.svg, docs/searched.svg and docs/suite.svg. With `--test` it writes nothing, and
fails if one of them differs from what it would write. A column of a table is a position from left to right, and a value
is a height, by powers of ten; in the last picture, each row has a bar for each program.
"""
import html
import math
import os
import re
import sys

TOP = os.path.dirname(os.path.dirname(os.path.abspath(__file__)))
COLOURS = {
    "here": "#2a6f97",
    "twin": "#e09f3e",
    "RE2": "#9e2a2b",
    "the kit's regex": "#588157",
    "regex": "#588157",
    "PCRE2, JIT": "#6d597a",
}
UNITS = {"µs": 1.0, "ms": 1000.0}
LEFT, TOP_EDGE, WIDTH, HEIGHT = 70, 50, 480, 260
# For each picture: its title, the first cell of its table's head, its first row, and its number of rows.
PICTURES = {
    "words.svg": ("The first KB by a new DFA, in microseconds, by words", "Words", "the first KB, here", 3),
    "sets.svg": ("A set of words, in nanoseconds a byte", "Words", "a set, here, ns a byte", 3),
    "capacity.svg": ("A byte in nanoseconds, by the capacity of the cache", "Capacity", "here", 4),
}

# The picture of bars: its title, the first cell of its table's head, and the value at which a bar is cut. Programs are
# the columns that have a colour.
BARS = {
    "searched.svg": ("Instructions a byte: a longer bar is one of more instructions", "Search", 360),
    "suite.svg": ("Times of other programs by ours: a longer bar is a slower program", "Kind of work", 8),
}


def rows_of(text, head):
    """Returns the table whose head begins with this cell, as lists of cells. It is an error if there is none."""
    rows = []
    for line in text.splitlines():
        cells = [it.strip() for it in line.strip().strip("|").split("|")]
        if rows and not line.startswith("|"):
            break
        if rows or line.startswith(f"| {head} |"):
            rows.append(cells)
    if len(rows) < 3:
        raise LookupError(f"docs/PERFORMANCE.md has no table of `{head}`")
    return rows


def value(text):
    """Returns a number, in microseconds if it has a unit of time, or None."""
    found = re.fullmatch(r"([\d.,]*\d)(?: (µs|ms))?", text.strip())
    return float(found[1].replace(",", "")) * UNITS.get(found[2], 1.0) if found else None


def series_of(rows):
    """Returns the values of each program: a row belongs to one program, or to the twin and RE2, separated by a comma
    and a space."""
    series = {}
    for name, *cells in rows:
        if name == "twin and RE2":
            pairs = [it.split(", ") for it in cells]
            series["twin"], series["RE2"] = ([value(it[at]) for it in pairs] for at in (0, 1))
        elif name != "clears":
            known = [it for it in COLOURS if name.replace("`", "").startswith(it)]
            series[known[0] if known else "here"] = [value(it) for it in cells]
    return series


def place(at, count, number, low, high):
    """Returns the position of a column's value in the picture."""
    x = LEFT + WIDTH * at / (count - 1)
    y = TOP_EDGE + HEIGHT * (1 - (math.log10(number) - low) / (high - low))
    return f"{x:.1f},{y:.1f}"


def curve(name, values, low, high):
    """Returns a program's curve, with a dot and the number at each value."""
    points = [(at, number) for at, number in enumerate(values) if number]
    spots = [place(at, len(values), number, low, high) for at, number in points]
    yield f'<polyline points="{" ".join(spots)}" fill="none" stroke="{COLOURS[name]}" stroke-width="2"/>'
    for spot, (_, number) in zip(spots, points):
        x, y = spot.split(",")
        yield f'<circle cx="{x}" cy="{y}" r="3" fill="{COLOURS[name]}"><title>{name}: {number:g}</title></circle>'


def picture(title, columns, series):
    """Returns the lines of a picture."""
    numbers = [it for values in series.values() for it in values if it]
    low, high = math.floor(math.log10(min(numbers))), math.ceil(math.log10(max(numbers)))
    wide, tall = LEFT + WIDTH + 40, TOP_EDGE + HEIGHT + 40
    yield f'<svg xmlns="http://www.w3.org/2000/svg" width="{wide}" height="{tall}" viewBox="0 0 {wide} {tall}"'
    yield 'font-family="sans-serif" font-size="11">'
    yield f'<rect width="{wide}" height="{tall}" fill="white"/>'
    yield f'<text x="10" y="16" font-size="12">{html.escape(title)}</text>'
    for at, name in enumerate(series):
        yield f'<rect x="{LEFT + 110 * at}" y="24" width="10" height="10" fill="{COLOURS[name]}"/>'
        yield f'<text x="{LEFT + 110 * at + 14}" y="33">{html.escape(name)}</text>'
    for power in range(low, high + 1):
        y = TOP_EDGE + HEIGHT * (1 - (power - low) / (high - low))
        yield f'<line x1="{LEFT}" y1="{y:.1f}" x2="{LEFT + WIDTH}" y2="{y:.1f}" stroke="#dddddd"/>'
        shown = f"{10 ** power if power >= 0 else 10.0 ** power:,}"
        yield f'<text x="{LEFT - 8}" y="{y + 4:.1f}" text-anchor="end">{shown}</text>'
    for at, name in enumerate(columns):
        x = LEFT + WIDTH * at / (len(columns) - 1)
        yield f'<text x="{x:.1f}" y="{TOP_EDGE + HEIGHT + 20}" text-anchor="middle">{html.escape(name)}</text>'
    for name, values in series.items():
        yield from curve(name, values, low, high)
    yield "</svg>"


def bars(title, columns, rows, most):
    """Returns the lines of a picture of bars, with the rows of the table from top to bottom."""
    names = (it if it in COLOURS else it.lower() for it in columns)
    programs = [(at, it) for at, it in enumerate(names) if it in COLOURS]
    left, step = 150, 15 + 13 * len(programs)
    wide, tall = left + WIDTH + 90, 45 + step * len(rows)
    yield f'<svg xmlns="http://www.w3.org/2000/svg" width="{wide}" height="{tall}" viewBox="0 0 {wide} {tall}"'
    yield 'font-family="sans-serif" font-size="10">'
    yield f'<rect width="{wide}" height="{tall}" fill="white"/>'
    yield f'<text x="10" y="16" font-size="12">{html.escape(title)}</text>'
    for place, (_, name) in enumerate(programs):
        yield f'<rect x="{left + 80 * place}" y="24" width="10" height="10" fill="{COLOURS[name]}"/>'
        yield f'<text x="{left + 80 * place + 14}" y="33">{html.escape(name)}</text>'
    for number, row in enumerate(rows):
        y, name = 46 + step * number, html.escape(row[0].split(":")[0].strip("`"))
        yield f'<text x="{left - 8}" y="{y + 6.5 * len(programs) + 3}" text-anchor="end" font-size="11">{name}</text>'
        for place, (at, program) in enumerate(programs):
            if value(row[at]) is not None:
                length = WIDTH * min(value(row[at]), most) / most
                said = row[at] + (" (cut off)" if value(row[at]) > most else "")
                yield f'<rect x="{left}" y="{y + 13 * place}" width="{length:.1f}" height="11" fill="{COLOURS[program]}"/>'
                yield f'<text x="{left + length + 4:.1f}" y="{y + 13 * place + 9}">{said}</text>'
    yield "</svg>"


def read(path):
    with open(f"{TOP}/{path}", encoding="utf-8") as it:
        return it.read()


def pictures():
    """Yields the file and the expected contents of each picture."""
    text = read("docs/PERFORMANCE.md")
    for name, (title, head, first, count) in PICTURES.items():
        (_, *columns), _, *rows = rows_of(text, head)
        begin = next((at for at, row in enumerate(rows) if row[0] == first), None)
        if begin is None:
            raise LookupError(f"docs/PERFORMANCE.md has no row of `{first}` in the table of `{head}`")
        yield f"docs/{name}", "\n".join(picture(title, columns, series_of(rows[begin:begin + count]))) + "\n"
    for name, (title, head, most) in BARS.items():
        columns, _, *rows = rows_of(text, head)
        yield f"docs/{name}", "\n".join(bars(title, columns, rows, most)) + "\n"


def faults():
    """Returns which pictures differ from their tables, or which table or picture is missing."""
    try:
        return [f"{path} is not what tools/plots.py draws" for path, drawn in pictures() if read(path) != drawn]
    except (LookupError, OSError) as error:
        return [str(error)]


def main(words):
    if "--test" in words:
        found = faults()
        print("".join(f"{it}\n" for it in found), end="")
        return 1 if found else 0
    for path, drawn in pictures():
        with open(f"{TOP}/{path}", "w", encoding="utf-8") as it:
            it.write(drawn)
    return 0


if __name__ == "__main__":
    sys.exit(main(sys.argv[1:]))
