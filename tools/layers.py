"""The modules of each crate, and which of them a module uses by its `use` lines: no crate's modules use each other in a
circle. tools/documents.py calls it."""
import os
import re

TOP = os.path.dirname(os.path.dirname(os.path.abspath(__file__)))
# A `use` line from its first segment, up to the list of names at its end if it has one.
USE = re.compile(r"^\s*(?:pub(?:\(\w+\))? )?use (crate|super|self)((?:::\w+)*)(?:::\{([^;]*)\})?[^;]*;", re.M)


def modules(crate):
    """Returns the text of each module of a crate by its path, without the root and without tests."""
    folder, found = f"{TOP}/crates/{crate}/src", {}
    for at, _, files in os.walk(folder):
        for file in sorted(it for it in files if it.endswith(".rt")):
            path = os.path.relpath(f"{at}/{file}", folder).removesuffix(".rt").split("/")
            path = path[:-1] if path[-1] == "mod" else path
            if path not in (["lib"], ["main"]) and path[0] != "tests":
                with open(f"{at}/{file}", encoding="utf-8") as it:
                    found["::".join(path)] = it.read()
    return found


def module_of(path, known):
    """Returns the module that has the item at this path: its longest prefix that is one, if there is any."""
    prefixes = ("::".join(path[:it]) for it in range(len(path), 0, -1))
    return next((it for it in prefixes if it in known), None)


def uses(crate):
    """Returns which other modules each module of a crate uses."""
    known, found = modules(crate), {}
    for name, text in known.items():
        own = name.split("::")
        bases = {"crate": [], "self": own, "super": own[:-1]}
        found[name] = set()
        for first, middle, names in USE.findall(text):
            path = bases[first] + [it for it in middle.split("::") if it]
            listed = re.findall(r"\w+", names) if names else [""]
            found[name] |= {module_of([*path, it] if it else path, known) for it in listed} - {None, name}
    return found


def circles(crate):
    """Returns the modules of a crate that use each other in a circle: those that remain after removing, again and again,
    each module that uses none of the others or is used by none of them."""
    left = uses(crate)
    while True:
        used = set().union(*left.values())
        ends = {it for it, below in left.items() if not below & left.keys() or it not in used}
        if not ends:
            return sorted(left)
        left = {it: below - ends for it, below in left.items() if it not in ends}


def layer_faults(crate, layers):
    """Returns what contradicts a picture of a crate's layers, the highest first: a module in none or in two of them, or
    one that uses a module of a higher layer. A layer is a list of modules; one has all modules in it that no other
    layer has."""
    row, faults = {}, []
    known = uses(crate)
    for name in known:
        fit = [(len(it), at) for at, layer in enumerate(layers) for it in layer if f"{name}::".startswith(f"{it}::")]
        if not fit:
            faults.append(f"no layer has {name}")
        row[name] = max(fit)[1] if fit else 0
    faults += [f"no module is {it}" for layer in layers for it in layer if it not in known]
    higher = [(name, it) for name, below in known.items() for it in below if row[it] < row[name]]
    return faults + [f"{name} uses {it}, which is in a higher layer" for name, it in sorted(higher)]
