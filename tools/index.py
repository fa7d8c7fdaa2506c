"""Reads which definitions of specs/ there are, what each says, and which public calls name it in their contracts.

tools/documents.py writes docs/index from it, and the tiers in docs/READING.md; tools/calls.py lists the calls that it
reads. A definition is known by its module, as `automata_base.specs.Answers.Answers`, and its name. Names of the standard
library and of the kit, and those that the toolchain declares from the code, are none. It needs Python 3 alone.
"""
import collections
import os
import re

TOP = os.path.dirname(os.path.dirname(os.path.abspath(__file__)))
NFAS = ["automata_base", "automata_determinize", "automata_transform"]
LIBRARY = [*NFAS, "automata_config", "automata_hybrid", "regex_automata"]
CRATES = [*LIBRARY, "meaning", "match_facts", "prefilters", "patterns", "lexer", "meta", "replay", "lazydfa_c"]
# What an answer means: the words of the fields and clauses that say what a search, a walk, a set, a regex or a list of
# matches or tokens returns, and what a haystack, an input and a sound pair are.
MEANING = """
IsAnswer IsNearestAnswer IsFarthestAnswer IsOverlapping ArePatternsFound IsSpan IsMatch AreSpans KeepsCycles IsSoundPair
MatchesIn AreFoundBy IsInput
""".split()
WORD = re.compile(r"[^\s(){}\[\],;→×=:λ]+")
HEAD = re.compile(r"(?:unfoldable |abbrev |opaque )*(?:pub )?(?:record |data |fn )?([^\s({:]+)(?=[\s({:]|$)")


def below(folder, ending):
    """Returns the files below a folder of the repository whose names end so."""
    found = [f"{at}/{it}" for at, _, inside in os.walk(f"{TOP}/{folder}") for it in inside]
    return sorted(os.path.relpath(it, TOP) for it in found if it.endswith(ending))


def read(path):
    with open(f"{TOP}/{path}", encoding="utf-8") as it:
        return it.read().split("\n")


def imports(lines):
    """Returns what a file imports: of each name its module and its name there, and of each name of a module the module."""
    names, modules = {}, {}
    lines = [it.split("--")[0].split("//")[0].strip() for it in lines]
    text = " ".join(it for it in lines if re.match(r"(?:ghost |pub )?use Rattle\.", it))
    for module, inside, alias in re.findall(r"use Rattle\.([\w.+◌«»-]+?)(?:\.\{([^}]*)\}|(?: as (\w+))?)(?=;|\s|$)", text):
        for part in inside.split(","):
            real, _, other = part.strip().partition(" as ")
            if real:
                names[(other or real).strip()] = (module, real.strip())
        if not inside:
            modules[alias or module.split(".")[-1]] = module
    return names, modules


def first_sentence(comment):
    """Returns the first sentence of a comment, which may have no capital and no full stop."""
    text = " ".join(it.lstrip("- ").strip() for it in comment)
    text = re.split(r"(?<!\.)\.(?=\s|$)", text)[0]
    return (text[:1].upper() + text[1:]).replace("|", "\\|") + "."


class Specs:
    """All definitions of specs/: what each is made of, the first sentence above it and above each of its fields, and the
    names that each uses."""

    def __init__(self):
        self.text, self.says, self.fields, self.path, self.uses = {}, {}, {}, {}, {}
        self.renamed, files = {}, {}
        for crate in sorted(os.listdir(f"{TOP}/crates")):
            for path in below(f"crates/{crate}/specs", ".antt"):
                module = f"{crate}.specs." + path.split("/specs/")[1][:-5].replace("/", ".")
                files[module] = self.of_file(module, path)
        for key, text in self.text.items():
            self.uses[key] = self.named(text, *files[key[0]]) - {key}

    def of_file(self, module, path):
        """Reads a file of specs/, and returns which definitions its names and the names of its modules are."""
        lines, current, comment = read(path), None, []
        names, modules = imports(lines)
        self.renamed |= {(module, it): real for it, real in names.items()}
        for line in lines:
            bare = line.split("--")[0].rstrip()
            if not bare:
                comment = [*comment, line.strip()] if line.strip().startswith("--") else [] if not line.strip() else comment
                continue
            if re.match(r"(?:pub )?(?:use|mod|open|syntax|infix)\b", bare):
                current = None
            elif re.match(r"(?:unfoldable |abbrev |opaque |pub |record |data )", bare):
                current = module, HEAD.match(bare)[1]
                self.text[current], self.says[current], self.path[current] = "", first_sentence(comment), path
                self.fields[current] = []
                names.pop(current[1], None)
            field = re.match(r"  (?:pub )?([^\s:(]+) :", bare)
            if field and current and comment:
                self.fields[current].append((field[1], first_sentence(comment)))
            comment = []
            if current:
                self.text[current] += bare + "\n"
        for at, it in [key for key in self.text if key[0] == module]:
            made = re.findall(r"^  ([^\s:(]+) :", self.text[at, it], re.M) if self.text[at, it].startswith("pub data ") else []
            self.renamed |= {(module, maker): (module, it) for maker in made}
            names |= {name: (module, it) for name in (it, *made)}
        return names, modules

    def named(self, text, names, modules):
        """Returns the definitions that a text names, by what its file imports."""
        return {it for word in WORD.findall(text) for it in self.named_by(word, names, modules)}

    def named_by(self, word, names, modules):
        """Returns the definitions that a word of a text names, by what its file imports."""
        head, _, rest = word.partition(".")
        keys = [names.get(word), names.get(head), (modules.get(head), rest.split(".")[0])]
        return [it for it in map(self.origin, keys) if it in self.text]

    def in_order(self, text, names, modules):
        """Returns the definitions that a text names, in their order."""
        return list(dict.fromkeys(it for word in WORD.findall(text) for it in self.named_by(word, names, modules)))

    def is_fact(self, it):
        """Whether a definition says that something holds, by its name, and is no type of values."""
        return it[1][:1].isupper() and not re.match(r"pub data \S+ : Type 0 where", self.text[it])

    def origin(self, key):
        """Returns the definition that a module defines or exports by this name."""
        while key not in self.text and key in self.renamed:
            key = self.renamed[key]
        return key

    def reached(self, first):
        """Returns these definitions and all that they stand on."""
        seen, edge = set(first), set(first)
        while edge:
            edge = set().union(*(self.uses[it] for it in edge)) - seen
            seen |= edge
        return seen


def public_names(crate):
    """Returns the modules of a crate that a caller sees, and the names that these export from others."""
    seen, exported, edge = set(), set(), ["src/lib.rt"]
    while edge:
        path = edge.pop()
        seen.add(path)
        folder = path.removesuffix(".rt") if not path.endswith(("/lib.rt", "/mod.rt")) else os.path.dirname(path)
        text = "\n".join(it.split("//")[0] for it in read(f"crates/{crate}/{path}"))
        for name in re.findall(r"^pub mod (\w+);", text, re.M):
            edge += [it for it in (f"{folder}/{name}.rt", f"{folder}/{name}/mod.rt") if os.path.exists(f"{TOP}/crates/{crate}/{it}")]
        for inside in re.findall(r"^pub use ([^;]*);", text, re.M):
            exported |= set(re.findall(r"\w+", inside))
    return seen, exported


# A public function: its file, its type and the trait that it belongs to (or ""), its name, its signature, the first
# sentence above it, its clauses by name as texts, and the definitions that these name.
Call = collections.namedtuple("Call", "path owner trait name signature says clauses named")


def contracts(specs, crate):
    """Yields the public functions of a crate, in the order of its files."""
    seen, exported = public_names(crate)
    files = {it: read(it) for it in below(f"crates/{crate}/src", ".rt")}
    types = set(exported)
    for path, lines in files.items():
        if path.split("/", 2)[2] in seen:
            types |= {it[1] for it in (re.match(r"pub (?:struct|enum) (\w+)", line) for line in lines) if it}
    for path, lines in files.items():
        names, modules = imports(lines)
        owner, trait, begin = "", "", 0
        for number, line in enumerate(lines):
            found = re.match(r"impl(?:<.*?>)? (?:([\w:]+(?:<[^>]*>+)?) for )?(\w+)", line)
            if found:
                owner, trait, begin = found[2], found[1] or "", number
            if line.startswith("}"):
                owner, trait = "", ""
            found = re.match(r"(\s*)(pub )?(?:const |(extern \"C\" ))?fn (\w+)", line)
            if not found or (owner and not found[1]) or not (found[2] or trait):
                continue
            is_seen = found[3] or path.split("/", 2)[2] in seen or found[4] in exported
            if owner not in types if owner else not is_seen:
                continue
            clauses = clauses_of(lines[number:], lines[begin:number] if trait and trait != "Model" else [])
            named = specs.named(" ".join(clauses.values()), names, modules)
            says = docstring(lines, number) or (trait and docstring(lines, begin)) or ""
            yield Call(path, owner, trait, found[4], signature(lines[number:]), says, clauses, named)


def contract(lines):
    """Yields the lines of the contract of the function that begins here."""
    inside = False
    for number, line in enumerate(lines):
        bare = line.split("//")[0].rstrip()
        if re.match(r"\s*\{$", bare) or bare.endswith(("{}", "{ }")) or number and re.match(r"\s*(?:pub(?:\(\w+\))? )?fn ", bare):
            return
        inside = inside or bool(re.match(r"\s*(?:ensures|requires)\b", bare))
        if inside:
            yield bare


def clauses_of(lines, above):
    """Returns the clauses of the function that begins here, by their names, and those of its trait in the lines above."""
    text = re.sub(r"\s+", " ", " ".join(contract(lines)))
    found = re.findall(r"\b(requires|ensures)\*?(?: (\w+))? \{(.*?)\}(?= requires\b| ensures\b|$)", text)
    clauses = {f"{kind} {name}".strip(): body for kind, name, body in found}
    text = "\n".join(it.split("//")[0] for it in above)
    return clauses | {f"ensures {name}": body for name, body in re.findall(r"ghost (\w+) = \{(.*?)\};", text, re.S)}


def signature(lines):
    """Returns the signature of the function that begins here, in one line and without its ghost parameters."""
    text = []
    for line in lines:
        bare = line.split("//")[0].strip()
        if re.match(r"(?:ensures|requires)\b|\{", bare):
            break
        text.append(bare.removesuffix("{").removesuffix("{}"))
        if bare.endswith(("{", "{}", ";")):
            break
    text = re.sub(r"\bghost \w+: \{.*?\},? ?", "", " ".join(text))
    text = re.sub(r",? \)", ")", re.sub(r"\( ", "(", re.sub(r"\s+", " ", text)))
    return re.sub(r"^(?:pub )?(?:const |extern \"C\" )?fn ", "", text).strip().rstrip(";")


def docstring(lines, number):
    """Returns the first sentence of the docstring above a line, or none."""
    above = number
    while above and re.match(r"\s*(?:///|#\[)", lines[above - 1]):
        above -= 1
    text = [it.strip().removeprefix("///").strip() for it in lines[above:number] if it.strip().startswith("///")]
    end = next((at for at, it in enumerate(text) if not it or it.startswith("```")), len(text))
    return first_sentence(text[:end]).replace(":.", ".") if text else ""


def calls(specs):
    """Returns of each public call, by its name with its type, the definitions that its contract names. A law, and a name that
    two files have, has the name of the file's module before it."""
    known = [it for crate in CRATES for it in contracts(specs, crate)]
    where = {}
    for it in known:
        where.setdefault((it.owner, it.name), set()).add(it.path)
    found = {}
    for it in known:
        label = f"{it.owner}::{it.name}" if it.owner else it.name
        if len(where[it.owner, it.name]) > 1 or it.path.endswith("/laws.rt"):
            label = it.path.removesuffix(".rt").removesuffix("/mod").split("/")[-1] + "::" + label
        found[label] = found.get(label, set()) | it.named
    return found


def tiers(specs, named):
    """Returns of each definition of the library its tier: 1 if answers stand on it, 2 if another public contract does,
    else 3. `named` has what each public call names."""
    meaning = specs.reached({it for it in specs.text if it[1] in MEANING and it[0].split(".")[0] in LIBRARY})
    public = specs.reached(set().union(*named.values()))
    library = [it for it in specs.text if it[0].split(".")[0] in CRATES]
    return {it: 1 if it in meaning else 2 if it in public else 3 for it in library}


def sentences(specs, it):
    """Returns what a definition says: the sentence above it, and of each of its fields or alternatives its own."""
    return "<br>".join([specs.says[it], *(f"`{name}`: {says}" for name, says in specs.fields[it])])


def table_of(specs, named, tier, crate):
    """Returns the index of a crate, as the text of a document."""
    users = {}
    for call, definitions in sorted(named.items()):
        for it in definitions:
            users.setdefault(it, []).append(f"`{call}`")
    lines = [
        f"# The definitions of {crate}",
        "",
        "Each definition in `specs/` by its name: its file, its tier ([READING](../READING.md#which-definitions-to-read)), the first",
        "sentence above it and, if it is not private, above each of its fields, and the public calls whose contracts name it.",
        "`tools/documents.py --write` writes this page.",
        "",
        "| Definition | File | Tier | What it says | Named by |",
        "|---|---|---|---|---|",
    ]
    for it in sorted((it for it in specs.text if it[0].split(".")[0] == crate), key=lambda it: (it[1].lower(), it)):
        file = specs.path[it].split("/specs/")[1].removesuffix(".antt")
        by = users.get(it, [])
        more = f" and {len(by) - 6} more" if len(by) > 6 else ""
        name, link = f'<a id="{it[1]}"></a>`{it[1]}`', f"[{file}](../../{specs.path[it]})"
        says = sentences(specs, it) if tier[it] < 3 else specs.says[it]
        lines.append(f"| {name} | {link} | {tier[it]} | {says} | {', '.join(by[:6])}{more} |".replace("  |", " |"))
    return "\n".join(lines) + "\n"


def tier_table(tier):
    """Returns the table of tiers, in lines: how many definitions of each crate are in each."""
    lines = [f"| Tier | {' | '.join(f'[{it}](index/{it}.md)' for it in CRATES)} |", "|---" * (len(CRATES) + 1) + "|"]
    for number, what in (1, "1: what an answer means"), (2, "2: what else contracts need"), (3, "3: private"):
        counts = [sum(it[0].startswith(f"{crate}.") and at == number for it, at in tier.items()) for crate in CRATES]
        lines.append(f"| {what} | {' | '.join(str(it) for it in counts)} |")
    return lines


def misplaced(specs, tier):
    """Returns which definitions of the lazy DFA stand in Private though a public contract reaches them, or the other way round."""
    faults = []
    for it, at in tier.items():
        if it[0].startswith("automata_hybrid.") and (at == 3) != it[0].startswith("automata_hybrid.specs.Private."):
            faults.append(f"{it[1]} of {specs.path[it]} is {'private' if at == 3 else 'not private'}")
    return faults


def signs(specs_of=CRATES):
    """Returns the signs that specs/ use: those that are no letters, and the names of the standard library."""
    found = set()
    for path in [it for crate in specs_of for it in below(f"crates/{crate}/specs", ".antt")]:
        lines = read(path)
        names, _ = imports(lines)
        found |= {real for module, real in names.values() if module.startswith("std.specs.") and "◌" not in real}
        code = " ".join(it.split("--")[0] for it in lines if not re.match(r"(?:pub )?(?:use|mod)\b", it))
        found |= set(re.findall(r"[^\w\s'\"()\[\]{},;:.]", code))
    return found
