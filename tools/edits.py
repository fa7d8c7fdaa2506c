"""Edits of crates, each a wrong body of a function, and what the prover says of them.

An edit is written as a must-fail edit of `rt help`, below two lines that say what it does (`what:`) and which promise
this breaks (`breaks:`). Edits of different functions are tried in one check: they change bodies alone, and a function is
proved over the contracts of what it calls, so what a function has to prove is what it is with its own edit alone. The
verdict on an edit is by what is said of the function that it changes, and of no other (see tools/wrong.py).

A function that merely calls what is not proved has no verdict, since its goals may not have been tried, and its edit
is tried again without those that have one. An edit is tried alone if it changes a line outside of a function's body or
in a `const fn`, if it is one of a group that cannot be compiled, and if nothing else settles it. At last the functions
that were refused are checked as they stand, over all that the checks kept: what is not proved then shows nothing of an
edit.
"""
import os
import re
import shutil
import subprocess
import tempfile

from libraries import KIT, PARTS, TOP, text, words_over

REFUSED, RECORDED, PROVED, BAD, UNKNOWN = "REFUSED", "RECORDED", "PROVED", "BAD EDIT", "NOT TRIED"
# A step that uses a name which is not there, and one that rests on a refused one: neither says anything of a goal.
GONE, RESTS = re.compile(r"has no field|is not in scope|has no `"), "was not admitted"
GONE_ALONE = "all that is refused is a step that uses a name which it took away"
# A text that cannot be read.
UNREAD = re.compile(r"is not in scope|has no field|is no name|operand is missing|expected the end|cannot continue")
# What a check says of a goal for which it found values that make it false.
IS_FALSE = "allow values at which this goal is false"


def link(one, other):
    """Gives what was proved a second name: a check replaces such a file. It writes into others, so they are copied."""
    try:
        os.link(one, other) if one.endswith(".oantt") else shutil.copy2(one, other)
    except OSError:
        shutil.copy2(one, other)


def module_of(file):
    """Returns the path of the module that a file of src/ holds, or "" for the crate's root."""
    path = re.sub(r"^src/|/mod\.rt$|\.rt$", "", file).replace("/", "::")
    return "" if path in ("lib", "main") else path


def bare(header):
    """Returns the text without what stands between < and >."""
    shorter = re.sub(r"<[^<>]*>", "", header.replace("->", ""))
    return shorter if shorter == header else bare(shorter)


def owner_of(header):
    """Returns what a check calls the methods of an impl by, as `Cache` or `ErrorFromOther`, or "" if it is no impl."""
    found = re.match(r"(?:unsafe )?impl\s+(?:([\w:]+)\s+for\s+)?([\w:]+)", bare(header))
    if not found:
        return ""
    trait = found[1].split("::")[-1] if found[1] else ""
    given = re.search(rf"\b{trait}<([\w:]+)> for ", header) if trait else None
    other = given[1].split("::")[-1] if given else ""
    return found[2].split("::")[-1] + trait + other[:1].upper() + other[1:]


def function_at(lines, file, number):
    """Returns the function whose body has this line, as the end of the name that a check gives it, or None where that
    is not clear. The file is in rt fmt's layout, so a body ends at the first } that is indented as its `fn` is."""
    depth = len(lines[number]) - len(lines[number].lstrip())
    opening = re.compile(r"( *)((?:pub(?:\([^)]*\))? |const |unsafe |extern \"C\" )*)fn (\w+)")
    above = ((at, opening.match(lines[at])) for at in range(number, -1, -1))
    first, found = next(((at, it) for at, it in above if it and len(it[1]) < depth), (0, None))
    if not found or not file.startswith("src/") or "const " in found[2]:
        return None
    indent = found[1]
    # (a line of a clause is indented further)
    begins = [at for at in range(first, number) if re.match(rf"{indent}({{|\S.*{{)$", lines[at])]
    if not begins or f"{indent}}}" in lines[begins[0] : number]:
        return None
    if not indent:
        return "::".join(it for it in (module_of(file), found[3]) if it)
    head = next((at for at in range(first, -1, -1) if re.match(r"(?!where)[^\s/#}){]", lines[at])), 0)
    owner = owner_of(" ".join(lines[head:first]).partition("{")[0])
    return f"{owner}::{found[3]}" if owner and len(indent) == 4 else None


class Edit:
    """An edit: the lines that it changes, by file and number, and the functions that these stand in."""

    def __init__(self, path, folder):
        self.name, self.fault = os.path.basename(path)[:-5], ""
        # What its verdict rests on, and whether it was refused over that.
        self.key, self.is_recorded = "", False
        self.lines, self.functions = {}, set()
        words = [it.partition(": ") for it in text(path).splitlines()]
        self.what, self.breaks = (next((it[2] for it in words if it[0] == word), "") for word in ("what", "breaks"))
        self.change = "".join(f"{''.join(it)}\n" for it in words if it[0].partition(":")[0] in ("file", "old", "new"))
        try:
            self.read(folder)
        except (OSError, ValueError) as error:
            self.fault = str(error)

    def read(self, folder):
        file, old, was, now = "", "", {}, {}
        for line in self.change.split("\n"):
            word, colon, rest = line.partition(":")
            rest = rest[1:] if rest.startswith(" ") else rest
            if colon and word == "file":
                file = rest.strip()
                if file != os.path.normpath(file) or file.split("/")[0] not in PARTS:
                    raise ValueError(f"{file} is no file below src/, specs/ or proofs/")
                was[file] = text(f"{folder}/{file}")
                now.setdefault(file, was[file])
            elif colon and word == "old":
                old = rest
            elif colon and word == "new":
                count = now[file].count(old) if file and old else 0
                if count != 1:
                    raise ValueError(f"an 'old:' text stands in {file or 'no file'} {count} times, and not once")
                now[file], old = now[file].replace(old, rest), ""
        for file in now:
            lines = was[file].split("\n")
            for number, (before, after) in enumerate(zip(lines, now[file].split("\n"))):
                if before != after:
                    self.lines[file, number] = after
                    self.functions.add(function_at(lines, file, number))
        if not self.lines:
            raise ValueError("it changes nothing")

    def scopes(self):
        """Yields what to check for it alone, each time more: its functions, their modules, and the crate."""
        if self.functions - {None}:
            yield sorted(self.functions - {None})
        modules = {module_of(file) if file.startswith("src/") else "" for file, _ in self.lines}
        if all(modules):
            yield sorted(f"::{it}" for it in modules)
        yield []


class Report:
    """What a check says of a function: whether it is proved, and the goals of it that are refused."""

    def __init__(self, name, fate, notes, steps):
        self.name, self.is_proved = name, fate == "proved"
        listed = re.search(r"`search` did not prove ((?:`[^`]+`(?:, )?)+)", fate)
        self.refused, self.gone = re.findall(r"`([^`]+)`", listed[1] if listed else ""), []
        if not fate.startswith("not proved"):
            return
        for goal, said in steps:
            if RESTS not in said:
                (self.gone if GONE.search(said) else self.refused).append(goal)
        for note in notes:
            goal = re.search(r"\(`([^`]+)`\)", note)
            # (with a name gone, a goal may be open only since its answer is for a goal of another name)
            if goal and (not self.gone or IS_FALSE in note):
                self.refused.append(goal[1])

    def clauses(self):
        """Returns what is refused of it, in words for the document."""
        own = [re.search(r"-clause-(\w+)$", it) for it in self.refused if re.match(r"returns\b", it)]
        own = [it[1] if it else "ensures" for it in own]
        which = ", ".join(f"`{it}`" for it in dict.fromkeys(own or self.refused))
        return f"{which} of `{'::'.join(self.name.split('::')[1:][-2:])}`"


def field_at(path, line, column):
    """Returns the field of an answer, if it is a record, that stands at this place of the file."""
    lines = text(path).split("\n")
    first = next((at for at in range(line - 1, -1, -1) if re.match(r"[\w+]", lines[at])), 0)
    before, depth, field = "\n".join([*lines[first : line - 1], lines[line - 1][: column - 1]]), 0, ""
    for it in re.finditer(r"[{}]|(?<=[{;])\s*(\w+) = ", before):
        depth += {"{": 1, "}": -1}.get(it[0], 0)
        field = "" if not depth else it[1] if it[1] and depth == 1 else field
    return field


def reports(said, folder):
    """Returns what the lines of a check say of each function, by its name. What is not proved of a function, and has
    no answer, stands in notes right above its line."""
    steps, found, notes = {}, {}, []
    for one, more in zip(said, [*said[1:], ""]):
        at = re.match(r"(?:\./)?(proofs/(\S+)/\w+\.antt):(\d+):(\d+): error: `([^`]+)`: (.*)", one)
        if at:
            is_whole = re.match(r"returns(?!.*-clause-)", at[5])
            field = field_at(f"{folder}/{at[1]}", int(at[3]), int(at[4])) if is_whole else ""
            goal = f"{at[5]}-clause-{field}" if field else at[5]
            steps.setdefault(at[2].replace("+", ""), []).append((goal, at[6] + more * more.startswith("  ")))
    for line in said:
        named = re.match(r"(\w+) (\S+): (.*)", line)
        if named and named[1] == "fn":
            at = "/".join(named[2].split("::")[1:])
            found[named[2]] = Report(named[2], named[3], notes, steps.get(at, []))
        notes = [] if named else [*notes, line] if line.startswith("note: ") else notes
    return found


class Crate:
    def __init__(self, name, uses, folder):
        self.name, self.uses, self.folder = name, uses, f"{TOP}/crates/{name}"
        at = f"{self.folder}/{folder}"
        files = [it for it in sorted(os.listdir(at)) if it.endswith(".edit")] if os.path.isdir(at) else []
        self.edits, self.jobs = [Edit(f"{at}/{it}", self.folder) for it in files], 1
        # The processor time of its checks, and their number.
        self.seconds, self.checks = 0.0, 0

    def words(self):
        """Returns the words that have rattle check the crate over the libraries that are built."""
        root = "src/main.rt" if os.path.isfile(f"{self.folder}/src/main.rt") else "src/lib.rt"
        return words_over(self.name, root, self.uses, self.jobs)

    def copy(self, room, edits):
        """Copies the crate into a folder, with these edits."""
        for part in PARTS:
            if os.path.isdir(f"{self.folder}/{part}"):
                shutil.copytree(f"{self.folder}/{part}", f"{room}/{part}")
        for file in {file for edit in edits for file, _ in edit.lines}:
            lines = text(f"{room}/{file}").split("\n")
            for edit in edits:
                for (changed, number), line in edit.lines.items():
                    if changed == file:
                        lines[number] = line
            with open(f"{room}/{file}", "w", encoding="utf-8") as it:
                it.write("\n".join(lines))

    def check(self, edits, only):
        """Checks these functions of the crate with these edits, or the whole crate where none are named, and returns
        the status and the lines of what was said."""
        out = tempfile.TemporaryFile("w+", errors="replace")
        with tempfile.TemporaryDirectory(prefix="wrong-") as room, out:
            self.copy(room, edits)
            words = [*self.words(), "--incremental", self.kept]
            words += [f"--only={self.name}{it}" if it.startswith("::") else f"--only={it}" for it in only]
            how = {"cwd": room, "stdin": subprocess.DEVNULL, "stdout": out, "stderr": subprocess.STDOUT}
            child = subprocess.Popen([f"{KIT}/bin/rattle", "check", *words], **how)
            _, status, used = os.wait4(child.pid, 0)
            child.returncode = os.waitstatus_to_exitcode(status)
            self.seconds, self.checks = self.seconds + used.ru_utime + used.ru_stime, self.checks + 1
            out.seek(0)
            return child.returncode, out.read().rstrip("\n").split("\n")

    def verdict(self, edit, said):
        """Returns the verdict on an edit by a check of several, or None where this says nothing of it."""
        found = [it for name, it in reports(said, self.folder).items() if "::fn::" not in name and is_of(name, edit)]
        # (of two impls of a generic trait, say, it is not known which is the edit's)
        if len(found) != len(edit.functions - {None}):
            return None
        for it in found:
            if it.refused:
                return REFUSED, it.clauses(), it.name
        for it in found:
            if it.gone:
                return BAD, f"{GONE_ALONE}: `{it.gone[0]}` of {it.name}", ""
        is_proved = all(it.is_proved for it in found) and None not in edit.functions
        return (PROVED, "no contract sees it", "") if is_proved else None

    def try_alone(self, edit):
        """Returns the verdict on this edit alone: by its functions, their modules, or the whole crate."""
        for only in edit.scopes():
            status, said = self.check([edit], only)
            found = self.verdict(edit, said) if edit.functions - {None} else None
            found = found or self.judged(edit, status, said)
            if found[0] in (REFUSED, BAD) or found[0] == PROVED and None not in edit.functions:
                break
        return found

    def judged(self, edit, status, said):
        """Returns the verdict on an edit by a check of it alone."""
        changed = {file for file, _ in edit.lines}
        for it in said if status == 1 else []:
            found = re.match(r"(?:\./)?(\S+?):\d+:\d+: error: (?:(`[^`]*`): )?(.*)", it)
            if found and (found[1] in changed or found[1].startswith(("src/", "specs/"))):
                if not found[2] or UNREAD.search(re.sub(r"`[^`]*`", "", found[3])):
                    return BAD, f"the prover cannot read it: {it[:160]}", ""
        if status == 1 and any(re.search(r"\berror\[[\w-]+\]", it) for it in said):
            return BAD, f"it does not compile: {next(it for it in said if 'error[' in it)[:160]}", ""
        if status == 1 and re.match("logic=not-proved|only=", said[-1]):
            found = sorted(reports(said, self.folder).values(), key=lambda it: not is_of(it.name, edit))
            for it in found:
                if it.refused:
                    return REFUSED, it.clauses(), it.name
            if any(it.gone for it in found):
                return BAD, next(f"{GONE_ALONE}: `{it.gone[0]}` of {it.name}" for it in found if it.gone), ""
        if status == 0:
            return PROVED, "the whole crate is proved with it", ""
        return UNKNOWN, f"its check ended with status {status}: {said[-1][:160]}", ""

    def try_together(self, edits):
        """Yields the verdicts on those of these edits, of different functions, that one check settles."""
        status, said = self.check(edits, sorted({it for edit in edits for it in edit.functions}))
        if re.match("only=", said[-1]):
            yield from ((it, found) for it in edits for found in [self.verdict(it, said)] if found)
        elif len(edits) > 1:
            half = len(edits) // 2
            yield from self.try_together(edits[:half])
            yield from self.try_together(edits[half:])
        else:
            found = self.judged(edits[0], status, said)
            yield edits[0], found if found[0] == BAD else self.try_alone(edits[0])

    def try_all(self, edits):
        """Yields each of these edits with the verdict on it."""
        left = [it for it in edits if None not in it.functions]
        while left:
            group = []
            for edit in left:
                if not any(edit.functions & it.functions for it in group):
                    group.append(edit)
            settled = list(self.try_together(group)) or [(group[0], self.try_alone(group[0]))]
            yield from settled
            left = [it for it in left if it not in [edit for edit, _ in settled]]
        for edit in edits:
            if None in edit.functions:
                yield edit, self.try_alone(edit)

    def proved(self, names):
        """Returns which of these functions are proved as they stand."""
        _, said = self.check([], [f"::{it.partition('::')[2]}" for it in names]) if names else (0, ["only="])
        if len(names) > 1 and not re.match("only=", said[-1]):
            # (one that an edit adds, say, is not there)
            half = len(names) // 2
            return self.proved(names[:half]) | self.proved(names[half:])
        return {name for name, it in reports(said, self.folder).items() if it.is_proved}

    def confirmed(self, found):
        """Yields the verdicts, with those of functions that are not proved as they stand changed to none."""
        proved = self.proved(sorted({name for _, (kind, _, name) in found if kind == REFUSED}))
        for edit, (kind, what, name) in found:
            if kind == REFUSED and name not in proved:
                kind, what = UNKNOWN, f"{name} is not proved as it stands"
            yield edit, kind, what

    def verdicts(self):
        """Returns each edit with the verdict on it."""
        left = [it for it in self.edits if not it.fault and not it.is_recorded]
        found = [(it, BAD, it.fault) for it in self.edits if it.fault]
        found += [(it, RECORDED, "") for it in self.edits if it.is_recorded]
        with tempfile.TemporaryDirectory(prefix="wrong-") as room:
            self.kept = f"{room}/kept"
            if left and os.path.isdir(f"{self.folder}/out/incremental"):
                shutil.copytree(f"{self.folder}/out/incremental", self.kept, copy_function=link)
            else:
                os.mkdir(self.kept)
            found += self.confirmed(list(self.try_all(left)))
        return sorted(found, key=lambda it: it[0].name)


def is_of(name, edit):
    """Whether a check's name of a function is that of one that the edit changes."""
    return any(name.endswith(f"::{it}") for it in edit.functions)
