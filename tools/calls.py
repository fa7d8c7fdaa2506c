"""Finds the public calls of the library by the modules in which a user finds them, and what their contracts promise.

tools/documents.py compares docs/index/CALLS.md, which has each call with its signature, and docs/index/CLAUSES.md, which
has its clauses, with what this module makes of the sources; its --write writes them. A type, a function or a module that a crate passes on (`pub use`) is listed
where users import it. It needs Python 3 alone.
"""
import functools
import os
import re
import textwrap

import index  # of this folder

# The crates whose calls users make, with all that these pass on.
USED = ["lexer", "meta", "patterns", "regex_automata", "replay"]
# What the methods of a trait do; those of other traits are not listed.
TRAITS = {"": "", "Iterator": "The next item, or none.", "Clone": "A clone.", "Default": "The default."}
ITEM = re.compile(r"pub (?:const )?(struct|enum|fn|const|type) (\w+)")
# Clauses that nearly each call has: it leaves its cache one of its DFA, or a reference the one that it was.
UNNAMED = ["of", "same_cache"]
# What nearly each contract names: facts of IDs, inputs and NFAs, and how an NFA, a DFA and a cache are seen.
EVERYWHERE = ["IsAllowed", "IsChecked", "IsId", "known_of", "dfa_of", "nfa_of", "match_kind_of"]
WIDTH = 119
CALLS_HEAD = """# The public calls

Each call of the crates `lexer`, `meta`, `patterns`, `regex_automata` and `replay`, in the module from which you import
it: its signature without clauses and ghost parameters, and the first sentence of its docstring. Each type comes before
its calls, with its public fields or its variants. [CLAUSES](CLAUSES.md) has what is proved of each call; the headers in `bindings/c/include` have
the calls for C. `tools/documents.py --write` writes this page.
"""
CLAUSES_HEAD = """# The clauses of the public calls

Each call of the crates `lexer`, `meta`, `patterns`, `regex_automata` and `replay`, and each export of the library for
C: the clauses of its contract, with the definitions that they name, and what each law says. [PROVED](../PROVED.md#the-clauses-of-each-call)
says how to read them, and [CALLS](CALLS.md) what each call is for. `tools/documents.py --write` writes this page.
"""


@functools.cache
def public_calls(specs, crate):
    """Returns the public functions of a crate."""
    return [*index.contracts(specs, crate)]


@functools.cache
def imports(path):
    """Returns what a file imports."""
    return index.imports(index.read(path))


class Modules:
    """The public modules of the crates that are used: of each item the module where a user finds it."""

    def __init__(self):
        self.found, self.order = {}, []
        for crate in USED:
            self.walk(crate, f"crates/{crate}/src/lib.rt")

    def walk(self, module, path):
        """Notes the items of a module that users see, and those of the modules in it."""
        text = "\n".join(it.split("//")[0] for it in index.read(path))
        self.order += [module] if module not in self.order else []
        for _, name in re.findall(r"^pub (?:const )?(struct|enum|fn|const|type) (\w+)", text, re.M):
            self.note(module, path, name)
        for name in re.findall(r"^pub mod (\w+);", text, re.M):
            self.walk(f"{module}::{name}", inside(path, name))
        for exported in re.findall(r"^pub use ([^;]*);", text, re.M):
            for target in expanded(re.sub(r"\s+", "", exported)):
                self.follow(module, path, target)

    def follow(self, module, path, target):
        """Notes what a module passes on: an item, or a module with its items."""
        *way, name = target
        file = file_of(path, way)
        if inside(file, name):
            self.walk(f"{module}::{name}", inside(file, name))
            return
        form = rf"^pub use ([\w:]+)::(?:\{{[^}}]*\b{name}\b[^}}]*\}}|{name});"
        again = re.search(form, "\n".join(index.read(file)), re.M)
        if again:
            self.follow(module, file, [*again[1].split("::"), name])
        else:
            self.note(module, file, name)

    def note(self, module, path, name):
        """Keeps of two modules that have an item the one with the longer path, as in the Rust crate's own documents."""
        old = self.found.get((path, name), "")
        if module.count("::") >= old.count("::"):
            self.found[path, name] = module


def expanded(text):
    """Returns the paths that an import names, each as a list of names."""
    base, brace, names = text.partition("{")
    if not brace:
        return [text.split("::")]
    return [[*base.strip(":").split("::"), it] for it in names.rstrip("}").split(",") if it]


def inside(path, name):
    """Returns the file of a module that stands in the module of a file, or none."""
    folder = os.path.dirname(path) if path.endswith(("/lib.rt", "/mod.rt")) else path.removesuffix(".rt")
    files = [f"{folder}/{name}.rt", f"{folder}/{name}/mod.rt"]
    return next((it for it in files if os.path.exists(f"{index.TOP}/{it}")), None)


def file_of(path, way):
    """Returns the file of the module to which a path of names leads from a file."""
    crate = path.split("/")[1]
    if way and way[0] != "crate" and os.path.exists(f"{index.TOP}/crates/{way[0]}"):
        crate, way = way[0], ["crate", *way[1:]]
    if way and way[0] == "crate":
        path, way = f"crates/{crate}/src/lib.rt", way[1:]
    for name in way:
        path = inside(path, name)
    return path


def types_of(crate):
    """Returns of each public type of a crate the files that define it."""
    found = {}
    for path in index.below(f"crates/{crate}/src", ".rt"):
        for line in index.read(path):
            item = ITEM.match(line)
            if item and item[1] in ("struct", "enum"):
                found.setdefault(item[2], []).append(path)
    return found


def described(path, name):
    """Returns the first sentence of a type, and its public fields or its variants, with the word for these."""
    lines = index.read(path)
    at = next(number for number, it in enumerate(lines) if re.match(rf"pub (?:struct|enum) {name}\b", it))
    body = []
    for line in lines[at + 1 :] if not lines[at].rstrip().endswith(("}", ";")) else []:
        if line.startswith("}"):
            break
        body.append(line)
    kind, form = ("Variants", r"    (\w+)(?:[,({]| \{)") if " enum " in lines[at] else ("Fields", r"    pub (\w+):")
    return index.docstring(lines, at), kind, [it[1] for it in (re.match(form, line) for line in body) if it]


def listed(specs):
    """Returns the public calls of users: of each module of theirs, of each type (or ""), the file and the calls."""
    modules, found = Modules(), {}
    for crate in index.CRATES:
        types = types_of(crate)
        for (path, name), module in modules.found.items():
            if path.startswith(f"crates/{crate}/") and path in types.get(name, []):
                found.setdefault(module, {}).setdefault(name, (path, []))
        for call in public_calls(specs, crate):
            files = types.get(call.owner, [call.path])
            file = call.path if call.path in files else files[0]
            module = modules.found.get((file, call.owner or call.name))
            if module and call.trait in TRAITS:
                found.setdefault(module, {}).setdefault(call.owner, (file, []))[1].append(call)
    return [(it, found[it]) for it in modules.order if it in found]


def wrapped(text, indent="  ", width=WIDTH):
    """Returns a line of a list, and those that it goes on in."""
    return textwrap.wrap(text, width, subsequent_indent=indent, break_long_words=False, break_on_hyphens=False)


def name_of(call):
    """Returns the name of a call, with its type."""
    return f"{call.owner}::{call.name}" if call.owner else call.name


def call_lines(call):
    """Returns the lines of a call: its signature, and its sentence."""
    head = f"{call.owner}::" if call.owner else ""
    says = wrapped(sentence(call).replace("\\|", "|"), "", WIDTH - 2)
    return [*wrapped(f"- `{head}{call.signature}`"), *[f"  {it}" for it in says]]


def sentence(call):
    """Returns the sentence of a call; for a trait's method without one that of the trait."""
    return call.says or TRAITS[call.trait]


def type_lines(name, path):
    """Returns the lines of a type: its sentence, and its fields or variants."""
    says, kind, parts = described(path, name)
    more = f" {kind}: {', '.join(f'`{it}`' for it in parts)}." if parts else ""
    return wrapped(f"**`{name}`**: {says}{more}".replace("\\|", "|"), "")


def calls_page(specs):
    """Returns docs/index/CALLS.md."""
    lines = CALLS_HEAD.split("\n")
    for module, owners in listed(specs):
        lines += [f"## `{module}`", ""]
        for owner, (path, calls) in sorted(owners.items(), key=lambda it: bool(it[0])):
            lines += [*type_lines(owner, path), ""] if owner else []
            lines += [line for it in calls for line in call_lines(it)]
            lines += [""] if calls else []
    return "\n".join(lines).rstrip("\n") + "\n"


def clauses_page(specs):
    """Returns docs/index/CLAUSES.md."""
    modules = [(module, [it for _, found in owners.values() for it in found]) for module, owners in listed(specs)]
    modules.append(("lazydfa_c", [it for it in public_calls(specs, "lazydfa_c") if not it.owner]))
    lines = CLAUSES_HEAD.split("\n")
    for module, found in modules:
        is_law = module.endswith("laws")
        head = ["| Law | What it says | Clauses |", "|---|---|---|"] if is_law else ["| Call | Clauses |", "|---|---|"]
        rows = [(it, promise_text(promises(specs, it))) for it in found]
        rows = [f"| `{name_of(it)}` | {sentence(it) + ' | ' if is_law else ''}{text} |" for it, text in rows if text]
        lines += [f"## `{module}`", "", *head, *rows, ""] if rows else []
    return "\n".join(lines).rstrip("\n") + "\n"


def promises(specs, call):
    """Returns what the contract of a call promises: by clause the facts that it states and the values that it equates,
    or the values that it names if it states no fact."""
    names, modules = imports(call.path)
    found = {}
    for clause, body in call.clauses.items():
        kind, _, name = clause.partition(" ")
        if kind == "requires" or name in UNNAMED:
            continue
        body = re.sub(r"\([\w ₀-₉]+ : [^()]*\)", "", body)  # (what a variable ranges over is no fact)
        named = [it for it in specs.in_order(body, names, modules) if it[1] not in EVERYWHERE]
        facts = [it for it in named if specs.is_fact(it)]
        equated = specs.in_order(body.rpartition("≡")[2], names, modules) if "≡" in body else []
        found[name] = [it for it in named if it in facts or it in equated] if facts else named
    return {name: stated for name, stated in found.items() if name or stated}


def promise_text(promised):
    """Returns clauses as text, each definition as a link to its row in the index."""
    parts = []
    for name, stated in promised.items():
        links = [f"[{it[1]}]({it[0].split('.')[0]}.md#{it[1]})" for it in stated]
        parts.append(" ".join([f"`{name}`", *links] if name else links))
    return ", ".join(parts)
