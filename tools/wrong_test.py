#!/usr/bin/env python3
"""Tests tools/wrong.py over a repository of its own, with edits that are meant to mislead it:

    tools/wrong_test.py ['N passed, M failed']

The repository has a crate with one function that is not proved even without an edit, and a crate over a library that
was never built. Each edit has to get the verdict that is listed with it below. Further runs write the verdicts into the
document and record which edits made a proof fail, and do not try these again. Then parts of the repository are changed,
one at a time: the verdicts that depend on such a part have to be due, and no others. The last line counts these tests,
added to those that the given line counts. It needs git, the kit's rt and Python 3, and takes about a minute of a
processor.
"""
import os
import re
import shutil
import subprocess
import sys
import tempfile

TOOLS = [f"{os.path.dirname(os.path.abspath(__file__))}/{it}.py" for it in ("ci", "edits", "libraries", "verdicts", "wrong")]
# Prints the name of each edit, whether it is tried at this commit although it is recorded, and its key.
KEYS = """
import wrong
uses = wrong.crates_used()
crates = [wrong.Crate(name, uses, "wrong") for name in uses]
drawn = wrong.drawn(crates)
for crate in crates:
    wrong.look_up(crate, set())
    for it in crate.edits:
        print(f"{crate.name}/{it.name}", (crate.name, it.name) in drawn, it.key)
"""

FILES = {
    "crates.txt": "low:\ntop: low\n",
    "crates/top/src/lib.rt": "pub fn zero() -> u8 {\n    0\n}\n",
    "crates/low/src/lib.rt": """#![tactic(auto)]

ghost use Rattle.std.specs.Prelude.{◌≡◌, ◌≤◌};

pub mod most;
pub mod pair;

#[cfg(test)]
macro_rules! is_low {
    ($x:expr) => {
        $x <= 9
    };
}

pub fn nothing() {} // and no more

pub fn limit() -> u8
    ensures { result ≡ 9 }
{
    9
}

#[cycle(turns)]
pub fn turn(n: u8) -> u8 {
    if n == 0 { 0 } else { turn_back(n - 1) }
}

#[cycle(turns)]
pub fn turn_back(n: u8) -> u8 {
    if n == 0 { 0 } else { turn(n - 1) }
}

pub fn clamp(x: u8) -> u8
    ensures most { result ≤ 9 }
    ensures same { x ≤ 9 → result ≡ x }
{
    if x < limit() { x } else { limit() }
}

pub fn twice(x: u8) -> u8
    ensures { result ≤ 18 }
{
    let small = clamp(x);
    small + small
}

pub fn four_times(x: u8) -> u8
    ensures { result ≤ 36 }
{
    let two = twice(x);
    two + two
}

#[tactic(auto, using(crate::proofs::Used::same))]
pub fn half(x: u8) -> u8
    ensures { result ≤ x }
{
    x / 2
}

pub fn greater(a: u8, b: u8) -> u8
    ensures left { a ≤ result }
    ensures right { b ≤ result }
{
    if a < b { b } else { a }
}

pub fn loose(y: u8) -> u8
    ensures { result ≤ 9 }
{
    y
}
""",
    "crates/low/src/most.rt": """ghost use Rattle.std.specs.Prelude.{◌≡◌};

const MOST: u8 = 9;

pub fn most() -> u8
    ensures { result ≡ 9 }
{
    MOST
}
""",
    "crates/low/src/pair.rt": """ghost use Rattle.std.specs.Prelude.{◌≡◌, ◌≤◌, ◌+◌};

use crate::clamp;

pub struct Pair {
    first: u8,
    second: u8,
    ghost in_order: { first ≤ second },
}

impl Pair {
    pub fn raise(&mut self, by: u8)
        requires { self.old.second + by ≤ 9 }
        ensures first { self.new.first ≡ self.old.first + by }
        ensures second { self.new.second ≡ self.old.second + by }
    {
        self.first += by;
        self.second += by;
    }

    pub fn widen(&mut self)
        requires { self.old.second ≤ 8 }
        ensures { self.new.first ≡ self.old.first }
    {
        let first = self.first;
        self.raise(1);
        self.first = first;
    }
}

impl From<u8> for Pair {
    fn from(x: u8) -> Pair {
        Pair { first: 0, second: clamp(x) }
    }
}
""",
    "crates/low/specs/Lib.antt": "pub mod Small\n",
    "crates/low/specs/Small.antt": """-- nine
use Rattle.std.specs.Prelude.{ℕ}

abbrev pub nine : ℕ
nine = 9
""",
    "crates/low/proofs/Lib.antt": "mod Lemmas\nmod Used\n",
    "crates/low/proofs/Used.antt": """use Rattle.std.proofs.Common.{ℕ, ◌≡◌, refl}

pub same : (n : ℕ) → n ≡ n
same n = refl
""",
    "crates/low/proofs/Lemmas.antt": """use Rattle.std.proofs.Common.{ℕ, ◌≡◌, refl}

pub same : (n : ℕ) → n ≡ n
same n = refl
""",
    "crates/low/proofs/greater/Answers.antt": """use Rattle.std.proofs.Common.{arith}
use Rattle.low.proofs.Lemmas.{same}
use Rattle.low.proofs.greater.Goals as goal

pub returns-else-a-b-clause-right : goal.returns-else-a-b-clause-right
returns-else-a-b-clause-right c = omega (arith, c.if-a-b.false)
""",
    "crates/low/proofs/pair/Pair/raise/Answers.antt": """use Rattle.std.proofs.Common.{refl}
use Rattle.low.proofs.pair.Pair.raise.Goals as goal

pub returns : goal.returns
returns c = record { first = refl; second = refl }
""",
    "crates/low/proofs/most/most/Answers.antt": """use Rattle.std.proofs.Common.{refl}
use Rattle.low.proofs.most.most.Goals as goal

pub returns : goal.returns
returns c = refl
""",
    "crates/low/proofs/loose/Answers.antt": """use Rattle.std.proofs.Common.{arith}
use Rattle.low.proofs.loose.Goals as goal

pub returns : goal.returns
returns c = omega arith
""",
    "crates/low/must-fail/half_is_twice.edit": "what: doubles\nfile: src/lib.rt\nold:     x / 2\nnew:     x * 2\n",
    "docs/index/WRONG_BODIES.md": """# Wrong bodies

### `low`

| Mutation | What it does | What it breaks | Refused at |
|---|---|---|---|
| `clamp_a_is_nineteen` | does something | something | `least` of `clamp` |
| `half_a_is_all` | does something | something | `ensures` of `half` |
| `is_no_edit` | nothing | nothing | `it` |

## More
""",
}

# An edit's name, its file, its old and new text, and its expected verdict.
EDITS = [
    ("clamp_a_is_nineteen", "lib", "{ x } else", "{ 19 } else", "REFUSED at `most`, `same` of `clamp`"),
    ("raise_by_one", "pair", "self.second += by;", "self.second += 1;", "REFUSED at `second` of `Pair::raise`"),
    # Harmless edits: below a wrong one, above one, and beside one as the second edit of a function.
    ("limit_is_a_sum", "lib", "    9", "    4 + 5", "PROVED"),
    ("twice_from_zero", "lib", "    small + small", "    0 + small + small", "PROVED"),
    ("half_a_is_all", "lib", "    x / 2", "    255", "REFUSED at `ensures` of `half`"),
    ("half_b_is_a_third", "lib", "    x / 2", "    x / 3", "PROVED"),
    # Wrong edits above others: at a clause, at a call, and at what a type promises; and one outside of any body.
    ("four_times_and_one", "lib", "    two + two", "    two + two + 1", "REFUSED at `ensures` of `four_times`"),
    ("widen_by_two", "pair", "self.raise(1);", "self.raise(2);", "REFUSED at `raise-requires` of `Pair::widen`"),
    ("from_begins_late", "pair", "first: 0,", "first: 10,", "REFUSED at `invariant_of-result` of `PairFromU8::from`"),
    ("most_is_eight", "most", "MOST: u8 = 9", "MOST: u8 = 8", "REFUSED at `ensures` of `most::most`"),
    # Edits that show nothing about a contract.
    ("clamp_b_is_a_text", "lib", "{ limit() }", '{ "9" }', "BAD EDIT: it does not compile"),
    ("greater_renamed", "lib", "a < b { b } else { a }", "b < a { a } else { b }", "BAD EDIT: all that is refused is"),
    ("loose_is_half", "lib", "    y", "    y / 3", "NOT TRIED: low::loose is not proved as it stands"),
    ("stands_twice", "lib", "limit()", "limit() ", "BAD EDIT: an 'old:' text stands in src/lib.rt 3 times"),
    ("stands_never", "lib", "limits()", "limit()", "BAD EDIT: an 'old:' text stands in src/lib.rt 0 times"),
    ("changes_nothing", "lib", "two + two", "two + two", "BAD EDIT: it changes nothing"),
]
# What is changed, the file, its old and new text, and which verdicts are due afterwards: all of the crate, or some. The
# verdict on an edit outside of any body depends on everything.
ALL = {name for name, _, old, new, _ in EDITS} - {"stands_twice", "stands_never", "changes_nothing"}
LIB = {name for name, file, *_ in EDITS if file == "lib"} & ALL
LOW = "crates/low"
CHANGES = [
    ("the body of another function", f"{LOW}/src/lib.rt", "    x / 2", "    x / 2 + 0",
     {"half_a_is_all", "half_b_is_a_third", "most_is_eight"}),
    ("a comment in a body", f"{LOW}/src/lib.rt", "    two + two", "    // both\n    two + two", set()),
    ("a comment of a definition", f"{LOW}/specs/Small.antt", "-- nine", "-- 9", set()),
    ("a contract of a callee", f"{LOW}/src/lib.rt", "ensures { result ≡ 9 }", "ensures { result ≤ 9 }", ALL),
    ("a constant", f"{LOW}/src/most.rt", "MOST: u8 = 9", "MOST: u8 = 4 + 5", ALL),
    ("a macro", f"{LOW}/src/lib.rt", "$x <= 9", "$x < 10", ALL),
    ("a type's invariant", f"{LOW}/src/pair.rt", "first ≤ second", "second ≤ first", ALL),
    ("a definition", f"{LOW}/specs/Small.antt", "nine = 9", "nine = 8 + 1", ALL),
    ("what a crate uses", "crates.txt", "low:\n", "low: anyhow\n", ALL),
    ("a lemma", f"{LOW}/proofs/Lemmas.antt", "same n = refl", "same m = refl", {"greater_renamed", "most_is_eight"}),
    ("a lemma of an attribute", f"{LOW}/proofs/Used.antt", "same n = refl", "same m = refl", LIB | {"most_is_eight"}),
    ("a function of a cycle", f"{LOW}/src/lib.rt", "turn(n - 1)", "turn(0)", ALL),
    ("what stands behind a comment", f"{LOW}/src/lib.rt", "limit() -> u8", "limit() -> u16", ALL),
    ("a function that the edit names", f"{LOW}/src/lib.rt", "    small + small", "    small + 0 + small",
     {"twice_from_zero", "most_is_eight"}),
    ("a proof", f"{LOW}/proofs/pair/Pair/raise/Answers.antt", "first = refl;", "first = refl ;",
     {"raise_by_one", "most_is_eight"}),
    ("the proof of another function", f"{LOW}/proofs/loose/Answers.antt", "omega arith", "omega (arith)",
     {"loose_is_half", "most_is_eight"}),
    ("an edit", f"{LOW}/wrong/widen_by_two.edit", "raise(2)", "raise(3)", {"widen_by_two"}),
    ("a row of the document", "docs/index/WRONG_BODIES.md", "| doubles |", "| halves |", set()),
    ("what an edit's file says of it", f"{LOW}/wrong/widen_by_two.edit", "what: does", "what: did", set()),
    ("the script", "tools/edits.py", "import os", "import os  # new", ALL),
]
ROW = "does something | something |"
FAULTS = [
    f"low/clamp_a_is_nineteen: its row is not: | `clamp_a_is_nineteen` | {ROW} `most`, `same` of `clamp` |",
    f"low/widen_by_two: it has no row: | `widen_by_two` | {ROW} `raise-requires` of `Pair::widen` |",
    f"low/limit_is_a_sum: it has no row: | `limit_is_a_sum` | {ROW}  |",
    "low/half_is_twice: it does not say what it breaks",
    "low/half_is_twice: it has no row: | `half_is_twice` | doubles |  | `rt ci` |",
    "low/is_no_edit: a row, and no edit",
]
# What the file of an edit says about it.
SAID = "what: does something\nbreaks: something\n"


def write(room):
    """Writes the repository, with the tool in it."""
    for path, text in FILES.items():
        os.makedirs(os.path.dirname(f"{room}/{path}"), exist_ok=True)
        with open(f"{room}/{path}", "w", encoding="utf-8") as it:
            it.write(text)
    for crate in ("low", "top"):
        os.mkdir(f"{room}/crates/{crate}/wrong")
    for name, file, old, new, _ in EDITS:
        with open(f"{room}/crates/low/wrong/{name}.edit", "w", encoding="utf-8") as it:
            it.write(f"{SAID}file: src/{file}.rt\nold: {old}\nnew: {new}\n")
    with open(f"{room}/crates/top/wrong/zero_is_one.edit", "w", encoding="utf-8") as it:
        it.write(f"{SAID}file: src/lib.rt\nold:     0\nnew:     1\n")
    os.mkdir(f"{room}/tools")
    for tool in TOOLS:
        shutil.copy(tool, f"{room}/tools")
    author = ["-c", "user.name=it", "-c", "user.email=it@it"]
    for words in (["init", "-q"], ["add", "-A"], [*author, "commit", "-qm", "it"]):
        subprocess.run(["git", *words], cwd=room, check=True)


class Tests:
    """The runs of the tool over the repository, and their results."""

    def __init__(self, room):
        self.room, self.passed, self.failed = room, 0, 0

    def run(self, *words):
        """Runs the tool, and returns its status, the lines that it printed, and the number of checks that it made."""
        words = [f"{self.room}/tools/wrong.py", *words]
        ran = subprocess.run(words, stdin=subprocess.DEVNULL, capture_output=True, text=True)
        checks = sum(int(it) for it in re.findall(r"(\d+) checks", ran.stderr))
        return ran.returncode, ran.stdout.splitlines(), checks

    def want(self, name, is_right, said):
        print(f"wrong.py, {name}: {'passed' if is_right else 'failed: ' + repr(said)}", flush=True)
        self.passed, self.failed = self.passed + is_right, self.failed + (not is_right)

    def try_all(self):
        status, lines, checks = self.run("5 passed, 2 failed")
        edits = [(f"low/{name}", verdict) for name, _, _, _, verdict in EDITS]
        for name, verdict in [*edits, ("top/zero_is_one", "NOT TRIED: the library low is not built")]:
            said = next((it for it in lines if it.startswith(f"{name}: ")), "")
            self.want(name, said.startswith(f"{name}: {verdict}"), said)
        for fault in FAULTS:
            self.want(fault, f"docs/index/WRONG_BODIES.md: {fault}" in lines, lines)
        refused = sum(verdict.startswith("REFUSED") for _, _, _, _, verdict in EDITS)
        faults = sum(it.startswith("docs/index/WRONG_BODIES.md: ") for it in lines)
        sums = f"{5 + refused} passed, {2 + len(EDITS) + 1 - refused + faults} failed"
        self.want("the sum", status == 1 and lines[-1:] == [sums], [status, sums, *lines[-1:]])
        self.want("the checks are few", checks <= 8, checks)

    def try_recorded(self):
        """Tests that an edit that made a proof fail is recorded, and not tried again, except for a tenth of all."""
        named = ["low/clamp_a_is_nineteen", "low/raise_by_one"]
        with open(f"{self.room}/{LOW}/must-fail/half_is_twice.edit", "a", encoding="utf-8") as it:
            it.write("breaks: the half\n")
        first, again = self.run("--write", *named), self.run("5 passed, 0 failed", *named)
        drawn = [it for it in named if self.keys()[it][0] == "True"]
        self.want("--write writes the rows", not first[0], first)
        said = [f"{it}: RECORDED as refused" for it in named if it not in drawn]
        self.want("what is recorded counts", all(it in again[1] for it in said), again)
        self.want("nothing else is tried", bool(again[2]) == bool(drawn), again)
        self.want("a right document passes", not again[0] and again[1][-1] == "8 passed, 0 failed", again)
        tried = self.run("--all", *named)
        self.want("--all tries what is recorded", tried[2] and "RECORDED" not in repr(tried[1]), tried)
        unknown = self.run("low/is_no_edit")
        self.want("an edit that is not there fails", unknown[0] == 1, unknown)

    def keys(self):
        """Returns the key of each edit, and whether it is tried although it is recorded."""
        ran = subprocess.run([sys.executable, "-c", KEYS], cwd=f"{self.room}/tools", capture_output=True, text=True)
        return {it.split()[0]: it.split()[1:] for it in ran.stdout.splitlines()}

    def try_changes(self):
        """Tests that the key of a verdict depends on everything that the verdict depends on, and on nothing else."""
        before = self.keys()
        for name, file, old, new, wanted in CHANGES:
            with open(f"{self.room}/{file}", encoding="utf-8") as it:
                kept = it.read()
            with open(f"{self.room}/{file}", "w", encoding="utf-8") as it:
                it.write(kept.replace(old, new, 1))
            self.want(f"{name} makes verdicts due", self.due(before) == wanted and old in kept, self.due(before))
            with open(f"{self.room}/{file}", "w", encoding="utf-8") as it:
                it.write(kept)
        os.rename(f"{self.room}/{LOW}/src/most.rt", f"{self.room}/{LOW}/src/least.rt")
        self.want("a renamed file makes verdicts due", self.due(before) >= ALL - {"most_is_eight"}, self.due(before))

    def due(self, before):
        """Returns the edits of the crate `low` whose keys have changed, among those that can be applied."""
        now = self.keys()
        return {it[4:] for it, key in now.items() if it.startswith("low/") and it[4:] in ALL and key != before.get(it)}


def main(words):
    counted = re.fullmatch(r"(\d+) passed, (\d+) failed", words[0] if words else "0 passed, 0 failed")
    passed, failed = (int(counted[1]), int(counted[2])) if counted else (0, 1)
    with tempfile.TemporaryDirectory(prefix="wrong-test-") as room:
        write(room)
        tests = Tests(room)
        tests.try_all()
        tests.try_recorded()
        tests.try_changes()
    print(f"{passed + tests.passed} passed, {failed + tests.failed} failed")
    return 1 if failed + tests.failed else 0


if __name__ == "__main__":
    sys.exit(main(sys.argv[1:]))
