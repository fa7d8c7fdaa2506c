"""What the verdict on a wrong body rests on, as a key: if the key is the one that is recorded, so is the verdict.

A function is proved over the contracts of what it calls, so the proof of a function with an edit reads the edit, the
function itself, everything of its crate and of the crates below but the bodies of their functions, all definitions of
these crates, the function's own proof files, and the lemma files that these and its source file name, one through
another. Functions of a cycle are proved together, so their bodies stand for all. The key is a checksum of all that
without comments, of the kit, and of the scripts that try edits.

crates/NAME/wrong/verdicts has a line for each edit that was refused: its name, its key, and where it is refused.
"""
import functools
import hashlib
import os
import re

from libraries import KIT, TOP, below, files_of, text

SCRIPTS = [f"{TOP}/tools/{it}.py" for it in ("edits", "libraries", "verdicts")]
FUNCTION = re.compile(r"( *)((?:pub(?:\([^)]*\))? |const |unsafe |extern \"C\" )*)fn (\w+)")
CYCLE = re.compile(r"#\[cycle\((\w+)\)\]")
# Whatever names a module of specs or proofs, with the name that is imported as a last part, or without; and the same in
# an attribute of a source file.
IMPORT = re.compile(r"Rattle\.(\w+)\.(specs|proofs)\.([^\s{},;()]+)")
USING = re.compile(r"\b(\w+)::(specs|proofs)::([\w:]+)")
TACTIC = re.compile(r"^#!\[tactic\([^\]]*\busing\b", re.M)
# A comment, and what may have the look of one: a text or a character. In definitions and proofs whole lines alone.
COMMENT = re.compile(r"""(r(#*)".*?"\2|"(?:\\.|[^"\\])*"|'(?:\\.|[^'\\])')|//[^\n]*|/\*.*?\*/""", re.S)
COMMENT_LINE = re.compile(r"^\s*--( .*)?$")


def without_comments(text, is_source):
    """Returns a text without its comments and empty lines, which no proof reads."""
    if is_source:
        text = COMMENT.sub(lambda it: it[1] or "", text)
    lines = [it.rstrip() for it in text.split("\n")]
    return "\n".join(it for it in lines if it and (is_source or not COMMENT_LINE.match(it)))


def is_in_cycle(lines, first):
    """Whether the function that begins at a line is one of a cycle, which is proved as a whole."""
    while first > 0 and lines[first - 1].lstrip().startswith(("#[", "//")):
        first -= 1
        if CYCLE.search(lines[first]):
            return True
    return False


def body_at(lines, first):
    """Returns the first and the last line of the body of the function that begins at a line, if the proofs of others do
    not read it: from a line that ends in { to the first one that is }, both indented as `fn` is, as rt fmt has it."""
    found = FUNCTION.match(lines[first])
    if not found or "const " in found[2] or is_in_cycle(lines, first):
        return None
    indent = found[1]
    opening = re.compile(rf"{indent}({{|\S.*{{)$")
    for begins in range(first, len(lines)):
        if opening.match(lines[begins]):
            ends = next((it for it in range(begins, len(lines)) if lines[it] == f"{indent}}}"), None)
            return None if ends is None else (begins, ends)
        bare = lines[begins].partition("//")[0].rstrip()
        is_over = bare.endswith((";", "{}")) or begins == first and bare.endswith("}")
        if is_over or begins > first and FUNCTION.match(lines[begins]):
            return None
    return None


@functools.cache
def outline(file):
    """Returns the text of a source file without bodies of functions, and the names and lines of these bodies."""
    lines, kept, bodies, at = text(file).split("\n"), [], [], 0
    while at < len(lines):
        body = body_at(lines, at)
        if body:
            kept += [*lines[at : body[0] + 1], lines[body[1]]]
            bodies.append((FUNCTION.match(lines[at])[3], *body))
        else:
            kept.append(lines[at])
        at = body[1] + 1 if body else at + 1
    return "\n".join(kept), bodies


@functools.cache
def digest(file, is_whole):
    """Returns a checksum of a file without its comments: of all of it, or without the bodies of its functions."""
    said = text(file) if is_whole else outline(file)[0]
    return hashlib.sha256(without_comments(said, file.endswith(".rt")).encode()).hexdigest()


def bodies_of(edit, folder):
    """Returns the bodies in which the edit changes lines; of a line that stands in none the whole file. Then those of
    functions of the crate that the new lines name: one that calls the edited function makes a cycle with it."""
    found = []
    for file, number in sorted(edit.lines):
        lines = text(f"{folder}/{file}").split("\n")
        bodies = outline(f"{folder}/{file}")[1] if file.endswith(".rt") else []
        inside = [it for it in bodies if it[1] <= number <= it[2]]
        parts = ["\n".join(lines[first : last + 1]) for _, first, last in inside] or ["\n".join(lines)]
        found += [without_comments(it, file.endswith(".rt")) for it in parts]
    named = set(re.findall(r"\w+", " ".join(edit.lines.values())))
    for file in files_of(os.path.basename(folder)):
        lines = text(file).split("\n")
        for name, first, last in outline(file)[1] if file.endswith(".rt") else []:
            found += [without_comments("\n".join(lines[first : last + 1]), True)] if name in named else []
    return found


def lemma_files(files, names):
    """Returns these files, and the files of proofs/ of these crates that they import, one through another."""
    found, more = set(), list(files)
    while more:
        file = more.pop()
        if file in found:
            continue
        found.add(file)
        own = os.path.relpath(file, f"{TOP}/crates").split("/")[0]
        named = USING.findall(text(file)) if file.endswith(".rt") else []
        named = [(own if it[0] == "crate" else it[0], it[1], it[2].replace("::", ".")) for it in named]
        for crate, part, path in IMPORT.findall(text(file)) + named:
            words = path.strip(".").split(".")
            tried = (f"{TOP}/crates/{crate}/{part}/{'/'.join(words[:n])}.antt" for n in range(len(words), 0, -1))
            more += [it for it in [next((it for it in tried if os.path.isfile(it)), "")] if it and crate in names]
    return sorted(found)


def proof_files(edit, folder):
    """Returns the files below proofs/ of the functions that the edit changes, and of others of these names; and of the
    cycles of its source files, which have names of their own."""
    names = {(it or "").rpartition("::")[2] for it in edit.functions}
    names |= {it for file, _ in edit.lines if file.endswith(".rt") for it in CYCLE.findall(text(f"{folder}/{file}"))}
    walks = [(at, found) for at, _, found in os.walk(f"{folder}/proofs")]
    own = [it for it in walks if names & {part.replace("+", "") for part in it[0].split("/")}]
    return [f"{at}/{it}" for at, found in (own if None not in edit.functions else walks) for it in found]


def key_of(edit, crate, uses):
    """Returns the key of an edit of a crate."""
    folder, names = f"{TOP}/crates/{crate}", [crate, *below(crate, uses)]
    files = [it for name in names for it in files_of(name) if "/proofs/" not in it[len(f"{TOP}/crates/{name}") :]]
    # (the lemmas of a tactic at the head of a file are for all that is below it)
    sources = {f"{folder}/{file}" for file, _ in edit.lines}
    sources |= {it for it in files if it.startswith(f"{folder}/src/") and TACTIC.search(text(it))}
    lemmas = lemma_files([*sorted(sources), *proof_files(edit, folder)], names)
    rests = [(it, digest(it, it.endswith(".antt") or None in edit.functions)) for it in files]
    rests += [(it, digest(it, True)) for it in lemmas if it not in sources]
    rests = [(os.path.relpath(it, TOP), sum) for it, sum in rests]
    rests += [(os.path.relpath(it, TOP), hashlib.sha256(text(it).encode()).hexdigest()) for it in SCRIPTS]
    said = [edit.name, edit.change, bodies_of(edit, folder), [(it, uses[it]) for it in names], rests]
    return hashlib.sha256(repr([text(f"{KIT}/KIT-ID"), said]).encode()).hexdigest()


def recorded(crate):
    """Returns the recorded key of each edit of a crate, and where the edit is refused."""
    file = f"{TOP}/crates/{crate}/wrong/verdicts"
    lines = [it.split(" ", 2) for it in text(file).splitlines()] if os.path.isfile(file) else []
    return {it[0]: (it[1], it[2]) for it in lines if len(it) == 3}


def record(crate, verdicts):
    """Records keys of edits of a crate, and where these are refused, in place of what was recorded of them."""
    folder = f"{TOP}/crates/{crate}/wrong"
    kept = {it: found for it, found in (recorded(crate) | verdicts).items() if os.path.isfile(f"{folder}/{it}.edit")}
    with open(f"{folder}/verdicts", "w", encoding="utf-8") as it:
        it.write("".join(f"{name} {key} {where}\n" for name, (key, where) in sorted(kept.items())))
