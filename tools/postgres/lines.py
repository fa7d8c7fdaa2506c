#!/usr/bin/env python3
"""Writes random lines of a server's log, of some 170 bytes each, as text that COPY reads:

    lines.py COUNT SEED
"""
import random
import sys

PATHS = "/ /index.html /login /logout /admin/settings /images/{n}.png /search?q={word}&page={n}".split()
PATHS += "/api/v1/users/{n} /api/v2/orders/{n}/items /static/app.{n:x}.js".split()
WORDS = "error timeout connection refused retry database user session token cache miss hit upstream disk full".split()
WORDS += "warning payment order shipped Zürich café naïve straße".split()
AGENTS = [
    "Mozilla/5.0 (X11; Linux x86_64) AppleWebKit/537.36 Chrome/120.0",
    "Mozilla/5.0 (iPhone; CPU iPhone OS 17_1 like Mac OS X) Safari/604.1",
    "Googlebot/2.1 (+http://www.google.com/bot.html)",
    "curl/7.88.1",
    "python-requests/2.31",
]
LEVELS = ["INFO"] * 80 + ["DEBUG"] * 12 + ["WARN"] * 6 + ["ERROR"] * 2
STATUSES = [200, 200, 200, 200, 304, 404, 500, 502]


def line(it):
    day = f"2026-{it.randrange(1, 13):02d}-{it.randrange(1, 29):02d}"
    time = f"{it.randrange(24):02d}:{it.randrange(60):02d}:{it.randrange(60):02d}.{it.randrange(1000):03d}"
    host = ".".join(str(it.randrange(1, 255)) for _ in range(4))
    path = it.choice(PATHS).format(n=it.randrange(1, 99999), word=it.choice(WORDS))
    answer = f"{it.choice(STATUSES)} {it.randrange(1, 99999)} {it.random():.3f}s"
    parts = [f'{day}T{time}Z {it.choice(LEVELS)} {host} "GET {path} HTTP/1.1" {answer} "{it.choice(AGENTS)}"']
    parts += [it.choice(WORDS) for _ in range(it.randrange(7))]
    if it.random() < 0.07:
        parts.append(f"user={it.choice(WORDS[:12])}{it.randrange(999)}@example.{it.choice(['com', 'org', 'net'])}")
    if it.random() < 0.2:
        parts.append(f"trace={it.getrandbits(128):032x}")
    return " ".join(parts)


def main(words):
    it = random.Random(int(words[1]))
    for _ in range(int(words[0])):
        print(line(it))


if __name__ == "__main__":
    main(sys.argv[1:])
