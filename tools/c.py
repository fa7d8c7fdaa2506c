#!/usr/bin/env python3
"""Builds the C library, installs it into a folder of its own, and runs the tests of bindings/c:

    tools/c.py [--archive FILE] ['N passed, M failed']

Every call, with valid and with every kind of invalid arguments (calls.c, texts.c, options.c, groups.c, limits.c,
facts.c, pieces.c, walks.c); regexes of texts beside the same without needles (needles.c); Unicode word boundaries
beside a matcher that backtracks (words.c); each allocation made to fail in turn (faults.c); the memory that caches take
from malloc, compared with what they report (memory.c); four threads over one regex (threads.c), under helgrind too if
it is installed; the script of the program `lazydfa`, run by a C program (script.c), which has to print what `lazydfa`
prints; the example grep.c, which has to print what `grep -E` prints, if that is installed; and the programs of
docs/C.md, which have to print what is said there. Each C program is compiled twice, the second time with the address
and undefined behaviour sanitizers, if the compiler has them.

Then that the headers, lazydfa.map and lazydfa.symbols have the same names, and the archive and the shared library
exactly these symbols; programs over the shared library, the version, what is installed and removed, calls with
arguments in a wrong order, which the compiler must reject, the headers and the source of the calls without a warning,
in C and, if there is a C++ compiler, in C++, and the pkg-config file if pkg-config is installed.

The last line counts these tests, added to those that the given line counts. It needs Python 3, the kit's rt, make, cc
and binutils. The library uses the crates as `rt ci` proved and left them, if it did so since they were last changed,
and otherwise as `rt lib` builds them, which first proves what is not proved yet. What it proves of the library's own
crate is kept in its out/, as `rt check` does, and `tools/wrong.py` starts from that. With --archive nothing is built:
the tests are those of the named archive, as tools/quick.sh builds it without proof.
"""
import argparse
import os
import re
import shutil
import subprocess
import sys
import tempfile

from libraries import KIT, TOP, below, crates_used, has_stamp, is_current, processors, words_over

CRATE = "lazydfa_c"
C = f"{TOP}/bindings/c"
STRICT = ["-std=c99", "-Wall", "-Wextra", "-pedantic", "-Werror", "-O1", "-g"]
SANITIZED = ["-fsanitize=address,undefined", "-fno-sanitize-recover=all"]
WRAPPED = ["-Wl,--wrap=malloc,--wrap=realloc,--wrap=free"]
HELGRIND = ["valgrind", "--tool=helgrind", "--error-exitcode=9", "--quiet"]
# The heap functions that the library calls.
NEEDS = ["free", "malloc", "memcpy", "memmove", "memset", "realloc"]
# Calls of a builder: the compiler accepts the first, and must reject the others.
ORDERS = [
    "lazydfa_add_range(&b, 'a', 'z', id, &id), lazydfa_add_look(&b, LAZYDFA_LOOK_END, id, &id)",
    "lazydfa_add_range(&b, id, 'a', 'z', &id)",
    "lazydfa_add_range(&b, 'a', id, 'z', &id)",
    "lazydfa_add_range(&b, 'a', 'z', pattern, &id)",
    "lazydfa_add_look(&b, id, LAZYDFA_LOOK_END, &id)",
    "lazydfa_add_capture_start(&b, id, 0, &id)",
    "lazydfa_add_capture_end(&b, id, 0, &id)",
    "lazydfa_finish_pattern(&b, pattern, &pattern)",
    "lazydfa_finish_pattern(&b, id, &id)",
    "lazydfa_patch(&b, pattern, id)",
]
# The installed files, below the folder for libraries or the folder for headers.
INSTALLED = [
    "include/lazydfa.h",
    "include/lazydfa_automata.h",
    "lib/liblazydfa.a",
    "lib/liblazydfa.so",
    "lib/liblazydfa.so.1",
    "lib/pkgconfig/lazydfa.pc",
]
# Arguments of grep.c, with which `grep -E` has to print the same.
GREPS = [
    ["-c", "-e", "lazy", "-e", "[0-9]{2,}", "README.md", "docs/C.md"],
    ["-n", "-i", "-e", "^the|DFA[.,]$", "README.md"],
    ["-o", "-n", "-e", "`[a-z_]+`", "-e", "[A-Z]{3}", "docs/C.md"],
    ["-io", "-e", "x*regex", "README.md", "CHANGELOG.md"],
    ["-e", "no such line in it", "LICENSE-MIT"],
]


def run(words, stdin="", seconds=600):
    """Runs a program, and returns its status, and what it wrote to standard output and to standard error."""
    try:
        ran = subprocess.run(words, input=stdin.encode(), capture_output=True, timeout=seconds)
    except (OSError, subprocess.TimeoutExpired) as error:
        return 1, "", str(error)
    return ran.returncode, ran.stdout.decode(errors="replace"), ran.stderr.decode(errors="replace")


def text(path):
    with open(f"{TOP}/{path}", encoding="utf-8") as it:
        return it.read()


def archive(room):
    """Proves and builds the crate over what rt ci left, and returns the words with which make uses it, if it could."""
    uses = crates_used()
    if any(has_stamp(it) or not is_current(it) for it in below(CRATE, uses)):
        return []
    made = f"{room}/lib{CRATE}.a"
    words = [*words_over(CRATE, "src/lib.rt", uses, min(4, processors())), "--toolchain", f"{KIT}/toolchain"]
    words += ["--backend", "llvm", "-o", made, "--incremental", "out/incremental"]
    # A build writes its verdict to standard error.
    how = {"cwd": f"{TOP}/crates/{CRATE}", "stdin": subprocess.DEVNULL, "stdout": subprocess.PIPE}
    ran = subprocess.run([f"{KIT}/bin/rattle", "build", *words], stderr=subprocess.STDOUT, errors="replace", **how)
    proved = ran.returncode == 0 and re.search(r"^logic=proved functions=\d+", ran.stdout, re.M)
    print(proved[0] if proved else f"{ran.stdout}status {ran.returncode}: built by rt lib", flush=True)
    return [f"ARCHIVE={made}"] if proved else []


def programs():
    """Returns the programs of docs/C.md: the name, the text and the output of each."""
    document = text("docs/C.md")
    found = re.findall(r"`(\w+)\.c`:\n\n```c\n(.*?)```\n\n[^\n]*prints:\n\n```text\n(.*?)```", document, re.S)
    is_each = len(found) == document.count("\nint main(") > 0
    # A program that is not in this form counts as one that does not compile.
    return found if is_each else [*found, ("another", "", "")]


class Tests:
    """The tests over an installed library, and their results."""

    def __init__(self, room, is_proved):
        self.room, self.passed, self.failed = room, 0, 0
        # Without proof each index is tested, and calls take more of the stack.
        self.stack = [] if is_proved else ["-DSMALL_STACK=131072"]
        self.include, self.archive = f"{room}/include", f"{room}/lib/liblazydfa.a"
        self.shared = f"{room}/lib/liblazydfa.so"
        self.exports = text("bindings/c/lazydfa.symbols").split()
        header = text("bindings/c/include/lazydfa.h")
        self.version = (re.search(r'^#define LAZYDFA_VERSION "(.*)"$', header, re.M) or [0, ""])[1]

    def count(self, name, fault):
        print(f"{name}: {fault or 'passed'}", flush=True)
        self.passed, self.failed = self.passed + (not fault), self.failed + bool(fault)

    def compile(self, source, flags, library=None):
        """Compiles a program, and returns its path, or an empty path and the error."""
        target = f"{self.room}/program"
        words = ["cc", *STRICT, *flags, f"-I{self.include}", "-o", target, source, library or self.archive]
        status, out, err = run(words)
        return ("", f"it does not compile\n{out}{err}") if status else (target, "")

    def write(self, name, source):
        """Writes the source of a program, and returns its path."""
        with open(f"{self.room}/{name}", "w", encoding="utf-8") as it:
            it.write(source)
        return f"{self.room}/{name}"

    def has(self, flags):
        """Whether the compiler accepts these flags, and the program that it makes with them runs."""
        target, _ = self.compile(self.write("nothing.c", "int main(void) { return 0; }\n"), flags)
        return bool(target) and not run([target])[0]

    def try_program(self, name, source, flags, stdin="", prints=None, under=(), words=(), library=None):
        """Compiles and runs a program, which must end with status 0 and print this output, if one is given."""
        target, fault = self.compile(source, flags, library)
        if target:
            status, out, err = run([*under, target, *words], stdin)
            if status or err or prints not in (None, out):
                fault = f"status {status}\n{differing(out, prints)}{err}"
        self.count(name, fault)

    def try_all(self, kind, flags):
        self.try_program(f"calls{kind}", f"{C}/tests/calls.c", flags)
        self.try_program(f"texts{kind}", f"{C}/tests/texts.c", ["-pthread", *self.stack, *flags])
        self.try_program(f"options{kind}", f"{C}/tests/options.c", flags)
        self.try_program(f"groups{kind}", f"{C}/tests/groups.c", flags)
        self.try_program(f"limits{kind}", f"{C}/tests/limits.c", flags)
        self.try_program(f"facts{kind}", f"{C}/tests/facts.c", flags)
        self.try_program(f"pieces{kind}", f"{C}/tests/pieces.c", flags)
        self.try_program(f"walks{kind}", f"{C}/tests/walks.c", flags)
        self.try_program(f"needles{kind}", f"{C}/tests/needles.c", flags)
        self.try_program(f"words{kind}", f"{C}/tests/words.c", flags)
        self.try_program(f"faults{kind}", f"{C}/tests/faults.c", [*WRAPPED, *flags])
        self.try_program(f"memory{kind}", f"{C}/tests/memory.c", [*WRAPPED, *flags])
        self.try_program(f"threads{kind}", f"{C}/tests/threads.c", ["-pthread", *flags])
        script, replies = text("crates/lazydfa/stdin"), text("crates/lazydfa/stdout")
        self.try_program(f"script{kind}", f"{C}/tests/script.c", flags, script, replies)
        if shutil.which("grep"):
            self.try_grep(f"grep{kind}", flags)
        for name, source, prints in programs():
            path = self.write(f"{name}.c", source)
            self.try_program(f"{name}.c of docs/C.md{kind}", path, ["-pthread", *flags], "", prints)

    def try_grep(self, name, flags):
        """Compares the output and the status of grep.c with those of `grep -E`."""
        target, fault = self.compile(f"{C}/examples/grep.c", flags)
        for words in GREPS if target else []:
            paths = [f"{TOP}/{it}" if os.path.exists(f"{TOP}/{it}") else it for it in words]
            status, out, err = run([target, *paths])
            wanted, prints, _ = run(["env", "LC_ALL=C", "grep", "-E", *paths])
            if status != wanted or err or out != prints:
                fault += f"{' '.join(words)}: status {status}\n{differing(out, prints)}{err}"
        self.count(name, fault or (self.faults_of_grep(target) if target else ""))

    def faults_of_grep(self, target):
        """Returns which errors grep.c fails to report: that a folder cannot be read, and that output cannot be
        written."""
        fault = ""
        status, _, err = run([target, "-e", "x", f"{TOP}/README.md", self.room])
        if status != 2 or "cannot be read" not in err:
            fault += f"a folder: status {status}\n{err}"
        if os.path.exists("/dev/full"):
            status, _, err = run(["sh", "-c", '"$0" "$@" >/dev/full', target, "-e", "a", f"{TOP}/README.md"])
            if status != 2 or "cannot be written" not in err:
                fault += f"a full disk: status {status}\n{err}"
        return fault

    def try_headers(self):
        """Tests that the headers, and the source of the calls, compile without a warning."""
        strict, fault = ["-Wall", "-Wextra", "-Wpedantic", "-Werror", "-fsyntax-only", f"-I{self.include}"], ""
        headers = "".join(f"#include <{it}>\n" for it in ("lazydfa_automata.h", "lazydfa.h"))
        inits = "lazydfa_regex r = LAZYDFA_INIT;\nlazydfa_options o = LAZYDFA_OPTIONS_INIT;\n"
        source = self.write("headers.cc", f"{headers}{inits}lazydfa_error e = LAZYDFA_ERROR_INIT;\n")
        found = [["cc", f"-std={it}", "-x", "c"] for it in ("c99", "c11", "c17")]
        if not run(["c++", "--version"])[0]:
            found += [["c++", f"-std={it}", "-x", "c++"] for it in ("c++11", "c++14", "c++17", "c++20")]
        for words in found:
            status, out, err = run([*words, *strict, source])
            fault += f"{words[1]}: it does not compile\n{out}{err}" if status else ""
        status, out, err = run(["cc", "-std=c99", *strict, f"{C}/src/lazydfa.c"])
        self.count("the headers without a warning", f"{fault}{out}{err}")

    def try_package(self):
        """Tests that the installed pkg-config file names the header's folder, the library, the archive and the
        version."""
        os.environ["PKG_CONFIG_PATH"] = f"{self.room}/lib/pkgconfig"
        asked = ["--cflags", "--libs", "--variable=archive", "--modversion"]
        wanted = [f"-I{self.include}", f"-L{self.room}/lib -llazydfa", self.archive, self.version]
        said = [run(["pkg-config", it, "lazydfa"]) for it in asked]
        self.count("pkg-config", "" if [it[1].strip() for it in said] == wanted else f"{said}")

    def try_names(self):
        """Tests that the headers declare, and the map of the shared library has, the names of lazydfa.symbols."""
        headers = "".join(text(f"bindings/c/include/{it}") for it in ("lazydfa.h", "lazydfa_automata.h"))
        declared = sorted(re.findall(r"^\w[\w ]*[ *](lazydfa_\w+)\(", headers, re.M))
        nodes = re.findall(r"^(\w+) \{\n    global:\n((?:        \w+;\n)+)", text("bindings/c/lazydfa.map"), re.M)
        mapped = [name for _, names in nodes for name in re.findall(r"\w+", names)]
        fault = "" if sorted(set(self.exports)) == self.exports else "lazydfa.symbols is not sorted\n"
        fault += "" if declared == self.exports else f"the headers differ in {set(declared) ^ set(self.exports)}\n"
        fault += "" if mapped == self.exports else f"lazydfa.map differs in {set(mapped) ^ set(self.exports)}\n"
        self.count("names", fault + ("" if [it[0] for it in nodes] == ["LAZYDFA_1"] else f"the nodes are {nodes}\n"))

    def try_symbols(self):
        """Tests that the archive and the shared library define the names of lazydfa.symbols, in the shared library with
        their version, and nothing else that is visible."""
        fault = ""
        for words, version in ((["nm", "-g", self.archive], ""), (["nm", "-D", self.shared], "@@LAZYDFA_1")):
            symbols = [it.split()[-2:] for it in run(words)[1].splitlines() if " " in it.strip()]
            defined = sorted(name for kind, name in symbols if kind not in "UwvA")
            used = sorted(name.partition("@")[0] for kind, name in symbols if kind == "U")
            if defined != [f"{it}{version}" for it in self.exports] or used != NEEDS:
                fault += f"{words[-1]} defines {defined} and uses {used}\n"
        if "Library soname: [liblazydfa.so.1]" not in run(["readelf", "-d", self.shared])[1]:
            fault += "the shared library has another name"
        self.count("symbols", fault)

    def try_shared(self):
        """Runs programs with the shared library, and beside another library that has heap functions of the kit's
        names."""
        found = ["-pthread", f"-Wl,-rpath,{self.room}/lib"]
        self.try_program("calls, shared", f"{C}/tests/calls.c", found, library=self.shared)
        self.try_program("texts, shared", f"{C}/tests/texts.c", [*self.stack, *found], library=self.shared)
        others = "".join(f"void *rattle_{it}(void) {{ return NULL; }}\n" for it in ("alloc", "realloc", "dealloc"))
        declared = "".join(f"void *rattle_{it}(void);\n" for it in ("alloc", "realloc", "dealloc"))
        name, source, prints = programs()[0]
        path = self.write("beside.c", f"#include <stddef.h>\n{declared}{others}{source}")
        self.try_program(f"{name}.c beside another library", path, [], "", prints)

    def try_version(self):
        """Tests that the header's four definitions of its version, and the library's version, agree."""
        parts = "LAZYDFA_VERSION_MAJOR, LAZYDFA_VERSION_MINOR, LAZYDFA_VERSION_PATCH"
        source = "#include <lazydfa.h>\n#include <stdio.h>\nint main(void) {\n"
        source += f'    printf("%s %s %d.%d.%d\\n", LAZYDFA_VERSION, lazydfa_version(), {parts});\n    return 0;\n}}\n'
        version = " ".join([self.version] * 3)
        self.try_program("version", self.write("version.c", source), [], "", f"{version}\n")

    def try_orders(self):
        """Tests that the compiler accepts arguments in their order, and in no other order that the header's types
        distinguish."""
        fault = ""
        for number, calls in enumerate(ORDERS):
            source = "#include <lazydfa_automata.h>\nint main(void) {\n    lazydfa_builder b = LAZYDFA_INIT;\n"
            source += "    lazydfa_state_id id = { 0 };\n    uint32_t pattern = 0;\n"
            source += f"    {calls};\n    return (int)(id.number + pattern);\n}}\n"
            target, wrong = self.compile(self.write("orders.c", source), [])
            if bool(target) != (number == 0):
                fault += f"{calls}: {wrong or 'it compiles'}\n"
        self.count("orders of arguments", fault)

    def try_install(self):
        """Tests that what is built can be installed below DESTDIR without rt, and removed again."""
        stage = f"{self.room}/stage"
        how = ["PREFIX=/it", "LIBDIR=/it/lib", f"DESTDIR={stage}", "CRATE=/none", "KIT=/none"]
        status, out, err = run(["make", "-C", C, "install", *how])
        wanted = sorted(f"{stage}/it/{it.format(version=self.version)}" for it in INSTALLED)
        fault = f"{out}{err}" if status or files(stage) != wanted else ""
        if not fault:
            with open(f"{stage}/it/lib/pkgconfig/lazydfa.pc", encoding="utf-8") as it:
                fault = "the pkg-config file names the stage" if stage in it.read() else ""
        status, out, err = run(["make", "-C", C, "uninstall", *how])
        self.count("install and uninstall", fault or (f"{out}{err}" if status or files(stage) else ""))


def files(folder):
    """Returns the files and links below a folder."""
    return sorted(f"{at}/{it}" for at, _, inside in os.walk(folder) for it in inside)


def differing(out, prints):
    """Returns the first line that differs from the expected one."""
    if prints is None:
        return out
    lines, wanted = out.splitlines(), prints.splitlines()
    for number, (line, want) in enumerate(zip(lines, wanted), 1):
        if line != want:
            return f"line {number}: {line}\nand not: {want}\n"
    return "" if len(lines) == len(wanted) else f"{len(lines)} lines, and not {len(wanted)}\n"


def main(words):
    parser = argparse.ArgumentParser()
    parser.add_argument("--archive")
    parser.add_argument("counted", nargs="?", default="0 passed, 0 failed")
    given = parser.parse_args(words)
    counted = re.fullmatch(r"(\d+) passed, (\d+) failed", given.counted)
    passed, failed = (int(counted[1]), int(counted[2])) if counted else (0, 1)
    with tempfile.TemporaryDirectory(prefix="c-") as room:
        tests = Tests(room, not given.archive)
        named = [f"ARCHIVE={os.path.abspath(given.archive)}"] if given.archive else archive(room)
        status, out, err = run(["make", "-C", C, *named], seconds=7200)
        if not status:
            status, out, err = run(["make", "-C", C, "install", f"PREFIX={room}", "DESTDIR="])
        tests.count("the library for C", f"it was not built\n{out}{err}" if status else "")
        if not status:
            tests.try_all("", [])
            if tests.has(SANITIZED):
                tests.try_all(", sanitized", SANITIZED)
            if not run(["valgrind", "--version"])[0]:
                held = {"under": HELGRIND, "words": ["held"]}
                tests.try_program("threads, by helgrind", f"{C}/tests/threads.c", ["-pthread"], **held)
            tests.try_names()
            tests.try_symbols()
            tests.try_shared()
            tests.try_version()
            tests.try_orders()
            tests.try_install()
            tests.try_headers()
            if not run(["pkg-config", "--version"])[0]:
                tests.try_package()
        passed, failed = passed + tests.passed, failed + tests.failed
    print(f"{passed} passed, {failed} failed")
    return 1 if failed else 0


if __name__ == "__main__":
    sys.exit(main(sys.argv[1:]))
