#!/usr/bin/env python3
"""Compares the excerpts of README.md, of pages of docs/ and of the docstrings with the files that they are from, and
looks for definitions without a sentence:

    tools/documents.py [--write] ['N passed, M failed']

Each block of Rattle or of antt in a document has to stand in the file that the line before it names, as
`crates/examples/src/words.rt`, line for line but for how far it is indented. A block after a line that ends in
"prints:" has to be what the program writes, the file stdout of the crate that was named last. A block of Rattle in a
docstring of the settings, the lazy DFA or the regex has to stand in some file of the example crates. Above each
definition in specs/, and above each field of a record, is a comment. The pictures docs/nfa.svg and docs/states.svg
have the states and the edges of the two graphs that the example `picture` prints. The plots docs/words.svg,
docs/sets.svg and docs/capacity.svg are what tools/plots.py draws of the tables of docs/PERFORMANCE.md.

docs/index has each definition, by crate, and docs/READING.md how many there are in each tier: tools/index.py finds
both. docs/index/CALLS.md has each public call, and docs/index/CLAUSES.md what is proved of it: tools/calls.py finds
both. All of these pages are compared; --write writes them. Each link of a document to a file of the repository has to
lead to one, and to a heading or an anchor in it. specs/Private of the lazy DFA has exactly what no contract of a
public call reaches. No two definitions have the same name, and no line of specs/ and proofs/ has more than 120
characters. READING has each sign that specs/ use, and each name of the standard library. No crate's modules use each
other in a circle, and the pictures of layers in ARCHITECTURE are right (tools/layers.py).

The last line counts each of these, beside what the given line counts, the last one of `rt ci`, which proves and runs
the programs themselves. It needs Python 3 alone.
"""
import html
import os
import re
import sys

sys.dont_write_bytecode = True

import calls  # of this folder, as index, layers and plots are
import index
import layers
import plots

TOP = os.path.dirname(os.path.dirname(os.path.abspath(__file__)))
DOCUMENTS = ["README.md", "docs/ARCHITECTURE.md", "docs/CALLING.md", "docs/PATTERNS.md", "docs/READING.md"]
PICTURES, GRAPHS = ["docs/nfa.svg", "docs/states.svg"], "crates/examples/data/picture/stdout"
# A picture of the layers of a crate, after a line that names the crate and ends in "layers:".
LAYERED, LAYERS = "docs/ARCHITECTURE.md", re.compile(r"`(\w+)`[^\n]* layers:\n\n```text\n(.*?)```", re.S)
READING, TIERS = "docs/READING.md", re.compile(r"(?<=<!-- tiers -->\n)(?:\|.*\n)*")
CALLS, CLAUSES = "docs/index/CALLS.md", "docs/index/CLAUSES.md"
# The folders of documents.
FOLDERS = ["docs", "docs/index", "bindings/postgres"]
DOCSTRINGS = ["automata_config", "automata_hybrid", "regex_automata"]
# A definition, or a field of a record.
DEFINITION = re.compile(
    r"(?:(?:abbrev |unfoldable )?pub (?:record |data )?|abbrev |record |data |  pub )(?!mod |use )([^\s:(]+)"
)
FILE = re.compile(r"`(crates/\w+)/((?:src|specs|proofs)/[\w+/.-]+\.(?:rt|antt))`[:.]?$")


def bare(lines):
    """Returns the text of these lines, without what indents them."""
    return "".join(f"{it.strip()}\n" for it in lines)


def read(path):
    with open(f"{TOP}/{path}", encoding="utf-8") as it:
        return it.read()


def blocks(lines):
    """Yields the blocks of code: the line before each, its language, the number of its first line, and its lines."""
    before, block = "", None
    for number, line in enumerate(lines, 1):
        if line.startswith("```") and block is None:
            block, language, first = [], line[3:].strip(), number
        elif line.startswith("```"):
            yield before, language, first, block
            before, block = "", None
        elif block is not None:
            block.append(line)
        elif line.strip():
            before = line.strip()


def document_faults(document):
    """Returns what is wrong with the excerpts of a document."""
    faults, crate = [], ""
    for before, language, number, block in blocks(read(document).split("\n")):
        named = FILE.search(before)
        crate = named[1] if named else crate
        if language in ("rust", "antt"):
            path = named and f"{named[1]}/{named[2]}"
            if not path or not os.path.exists(f"{TOP}/{path}"):
                faults.append(f"line {number} names no file")
            elif bare(block) not in bare(read(path).split("\n")):
                faults.append(f"line {number} does not stand in {path}")
        elif before.endswith("prints:") and (not crate or "".join(f"{it}\n" for it in block) != read(f"{crate}/stdout")):
            faults.append(f"line {number} is not what {crate} prints")
    return faults


def below(folder, ending):
    """Returns the files below a folder whose names end so."""
    found = [f"{at}/{it}" for at, _, inside in os.walk(f"{TOP}/{folder}") for it in sorted(inside)]
    return [os.path.relpath(it, TOP) for it in found if it.endswith(ending)]


def docstring_faults():
    """Returns which examples of docstrings stand in no example crate."""
    crates = ["examples", "lgrep"]
    sources = [bare(read(path).split("\n")) for it in crates for path in below(f"crates/{it}/src", ".rt")]
    faults = []
    for path in [it for crate in DOCSTRINGS for it in below(f"crates/{crate}/src", ".rt")]:
        stripped = [it.strip() for it in read(path).split("\n")]
        lines = [it.removeprefix("///").strip() if it.startswith("///") else "" for it in stripped]
        for _, language, number, block in blocks(lines):
            if language == "rust" and not any(bare(block) in source for source in sources):
                faults.append(f"{path}:{number} stands in no example")
    return faults


def sentence_faults():
    """Returns which definitions and fields have no comment above them."""
    faults = []
    for path in [it for crate in sorted(os.listdir(f"{TOP}/crates")) for it in below(f"crates/{crate}/specs", ".antt")]:
        lines = read(path).split("\n")
        for number, (above, line) in enumerate(zip(["", *lines], lines), 1):
            found = DEFINITION.match(line)
            if found and not above.lstrip().startswith("--"):
                faults.append(f"{path}:{number} has no sentence for {found[1]}")
    return faults


def drawn(picture):
    """Returns what a picture has, made by `dot`: the title of each state and edge, and the text at it."""
    found = re.findall(r'<g id="(?:node|edge)\d.*?<title>([^<]*)</title>(.*?)</g>', picture, re.S)
    texts = [(title, re.findall(r"<text[^>]*>([^<]*)</text>", rest)) for title, rest in found]
    return sorted((html.unescape(title), html.unescape("".join(text))) for title, text in texts)


def picture_faults(picture, graph):
    """Returns whether a picture is not that of a graph which the example `picture` prints."""
    wanted, nodes = [], {}
    for first, second, label in re.findall(r'^    (\w+)(?: -> (\w+))?(?: \[.*?(?:label="(.*)")?\])?$', graph, re.M):
        name = f"{first}->{second}" if second else first
        nodes |= {it: nodes.get(it, it) for it in (first, second) if it}
        if second:
            wanted.append((name, label.replace("\\\\", "\\")))
        elif label:
            nodes[first] = label
    nodes.pop("node", None)
    right = drawn(read(picture)) == sorted([*wanted, *nodes.items()])
    return [] if right else [f"{picture} is not the picture of its graph in {GRAPHS}"]


def generated(specs, named, tier):
    """Returns the pages that are made of the sources, in part or as a whole, with the text that each should have."""
    pages = {f"docs/index/{it}.md": index.table_of(specs, named, tier, it) for it in index.CRATES}
    pages[READING] = TIERS.sub("".join(f"{it}\n" for it in index.tier_table(tier)), read(READING), count=1)
    pages[CALLS], pages[CLAUSES] = calls.calls_page(specs), calls.clauses_page(specs)
    return pages


def generated_faults(pages, write):
    """Returns which of these pages do not have the text that they should have; or writes it."""
    faults = []
    for path, text in pages.items():
        if not os.path.exists(f"{TOP}/{path}") or read(path) != text:
            faults.append(f"{path} is not that of the sources: tools/documents.py --write")
            if write:
                with open(f"{TOP}/{path}", "w", encoding="utf-8") as it:
                    it.write(text)
    return [] if write else faults


def documents():
    """Returns all documents."""
    found = [os.path.normpath(f"{folder}/{it}") for folder in [".", *FOLDERS] for it in os.listdir(f"{TOP}/{folder}")]
    return sorted(it for it in found if it.endswith(".md"))


def anchors(path):
    """Returns to what a link into a page may lead: its headings, as GitHub names them, and its anchors."""
    text = read(path)
    headings = re.findall(r"^#+ (.*)$", re.sub(r"^```.*?^```$", "", text, flags=re.M | re.S), re.M)
    named = [re.sub(r"[^\w\- ]", "", it).lower().replace(" ", "-") for it in headings]
    return {*named, *re.findall(r'<a id="([^"]*)">', text)}


def link_faults(path):
    """Returns which links of a page lead nowhere. Those to other sites are not followed."""
    faults, known = [], {}
    text = re.sub(r"```.*?```|`[^`]*`", "", read(path), flags=re.S)
    for target in dict.fromkeys(re.findall(r"\]\(([^)\s]+)\)", text)):
        file, _, anchor = target.partition("#")
        there = os.path.normpath(os.path.join(os.path.dirname(path), file)) if file else path
        if "://" in target or os.path.exists(f"{TOP}/{there}") and not anchor:
            continue
        if not os.path.exists(f"{TOP}/{there}"):
            faults.append(f"there is no file {target}")
        elif anchor not in known.setdefault(there, anchors(there)):
            faults.append(f"there is no heading {target}")
    return faults


def homonym_faults(specs):
    """Returns which names stand for two definitions of specs/."""
    where = {}
    for module, name in specs.text:
        where.setdefault(name, []).append(module)
    several = [(name, sorted(modules)) for name, modules in sorted(where.items()) if len(modules) > 1]
    return [f"{' and '.join(modules)} define {name}" for name, modules in several]


def width_faults():
    """Returns which lines of specs/ and proofs/ have more than 120 signs. An import of one name may be longer."""
    faults = []
    for path in below("crates", ".antt"):
        if "/out/" in path:
            continue
        for at, line in enumerate(read(path).split("\n"), 1):
            if len(line) > 120 and not re.fullmatch(r"use [^,]*", line):
                faults.append(f"line {at} of {path} has {len(line)} signs")
    return faults


def sign_faults():
    """Returns which signs of specs/ have no row in READING."""
    rows = " ".join(line for line in read(READING).split("\n") if line.startswith("|"))
    known = set(re.findall(r"[\w₁]+|[^\w\s]", " ".join(re.findall(r"`([^`]*)`", rows)).replace("\\|", "|")))
    return [f"{it} has no row in {READING}" for it in sorted(index.signs()) if it != "[]" and it not in known]


def layer_faults():
    """Returns which modules use each other in a circle, and what contradicts the pictures of layers. A line of such a
    picture begins with the modules of a layer, before two spaces and a sentence."""
    faults = []
    for crate in sorted(os.listdir(f"{TOP}/crates")):
        circle = layers.circles(crate)
        faults += [f"modules of {crate} use each other in a circle: {' '.join(circle)}"] if circle else []
    pictures = LAYERS.findall(read(LAYERED))
    faults += [] if pictures else [f"{LAYERED} has no picture of layers"]
    for crate, picture in pictures:
        rows = [re.match(r" ([\w:]+(?:, [\w:]+)*)  ", f"{line}  ") for line in picture.splitlines()]
        found = layers.layer_faults(crate, [it[1].split(", ") for it in rows if it])
        faults += [f"{LAYERED}, {crate}: {it}" for it in found]
    return faults


def main(words):
    write = "--write" in words
    words = [it for it in words if it != "--write"]
    counted = re.fullmatch(r"(\d+) passed, (\d+) failed", words[0] if words else "0 passed, 0 failed")
    passed, failed = (int(counted[1]), int(counted[2])) if counted else (0, 1)
    excerpts = "each excerpt stands in its file"
    found = {it: (document_faults(it), excerpts) for it in DOCUMENTS}
    found["docstrings"] = docstring_faults(), excerpts
    found["specs"] = sentence_faults(), "each definition has a sentence"
    specs = index.Specs()
    named = index.calls(specs)
    tier = index.tiers(specs, named)
    found["generated"] = generated_faults(generated(specs, named, tier), write), "each page is that of the sources"
    found["links"] = [f"{page}: {it}" for page in documents() for it in link_faults(page)], "each leads somewhere"
    found["Private"] = index.misplaced(specs, tier), "it has what no public contract reaches"
    found["names"] = homonym_faults(specs), "no two definitions have one"
    found["lines"] = width_faults(), "none of specs and proofs has more than 120 signs"
    found["layers"] = layer_faults(), "no modules use each other in a circle, and the pictures are right"
    found["signs"] = sign_faults(), f"each is in {READING}"
    for picture, graph in zip(PICTURES, read(GRAPHS).split("digraph ")[1:], strict=True):
        found[picture] = picture_faults(picture, graph), "it is that of the example picture"
    found["the plots"] = plots.faults(), "they are those of PERFORMANCE"
    for name, (faults, right) in found.items():
        print(f"{name}: {'; '.join(faults) or right}")
        passed, failed = passed + (not faults), failed + bool(faults)
    print(f"{passed} passed, {failed} failed")
    return 1 if failed else 0


if __name__ == "__main__":
    sys.exit(main(sys.argv[1:]))
