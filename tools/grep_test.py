#!/usr/bin/env python3
"""Compares the output and the status of `lgrep` with those of GNU grep:

    tools/grep_test.py [--program FILE] ['N passed, M failed']

The program is the one that `rt ci` or `rt run` left in the crate's out/, unless another is named. The texts are
documents of this repository, and short ones: with an empty line and no line feed at the end, binary ones, and a folder
with files, folders, links and a pipe. `grep` has the flag `-E`, unless a call names another kind of patterns. The
output of `--which` is compared with that of one `grep -nE` for each pattern, the counts of `--stats` with those of
`grep -c`, and the output of `--replace` with what ripgrep printed. A line that is too long for `grep` is searched in
little memory. If `grep` is not installed, nothing is compared. The flags of `--help`, of the manual in src/main.rt and
of the completions in tools/dist have to be the same, and the completion of bash is run. The last line counts these
tests, added to those that the given line counts.
"""
import argparse
import os
import re
import resource
import shutil
import subprocess
import sys
import tempfile

TOP = os.path.dirname(os.path.dirname(os.path.abspath(__file__)))
PATTERNS = ["lazy", "[0-9]{3,}", "^a", "no such", "e", "in .* the"]
LETTERS = "abcdefghij"
TEXTS = {
    "short": b"one\ntwo lazy\n\nthe last line is lazy 77",
    "patterns": b"lazy\n[0-9]{3,}\n",
    "six": "".join(f"{it}\n" for it in PATTERNS).encode(),
    # A regex of these needs caches of more than the 2 MiB that are the library's default.
    "many": "".join(f"{a}{b}{c}[a-z]{{0,9}}x?\n" for a in LETTERS for b in LETTERS for c in LETTERS).encode(),
    "binary": b"a lazy\0lazy b\nxx\n\0lazy\n",
    "ends": b"xx\0\0lazy\0",
    "late": b"lazy first\n" + 9999 * (b"x" * 79 + b"\n") + b"lazy\0lazy\nlazy\n",
    "tree/b": b"a lazy file\n",
    "tree/b.txt": b"lazy too\n",
    "tree/a/z": b"below lazy\n",
    "tree/a/.hidden": b"hidden lazy\n",
    "tree/a/0": b"lazy\0\n",
    "tree/other": b"nothing\n",
    # What words, literals and languages of words are tried on.
    "words": "foo-bar\nfoobar\n_foo\nfoo_ (foo)\nfoo\n\nfoo.bar\nFOO 1\n-x;\n\u00dcber \u00fcber\n".encode(),
    "code/a.c": b"// TODO: foo.bar\nint main(void) {\n    foo(1);\n    return foo;\n}\n",
    "code/sub/b.py": b"def foo():\n    # TODO\n    pass\nfoo\n",
    "crlf": b"a foo\r\nfoo\r\nfoo\n",
    "letters": b"a\na\nb\nc\nd\na\ne\nf\ng\nh\na\na\n",
    "records": b"a lazy\nrecord\0x\0\0lazy\0last \nlazy",
    # Several blocks, with matches near their ends.
    "blocks": "".join(f"{it} {'lazy' if it % 977 < 2 or it % 7919 > 7915 else 'x' * (it % 13)}\n"
                      for it in range(90_000)).encode(),
}
LINKS = {"tree/link": "../short", "tree/loop": "a", "linked": "tree"}
INPUT = "a lazy line\nanother\n"
# The arguments of each call. README.md and LICENSE-MIT are files of this repository.
CALLS = [
    ["lazy"],
    ["-c", "lazy"],
    ["-c", "nothing such"],
    ["-n", "lazy", "README.md"],
    ["-n", "lazy", "README.md", "LICENSE-MIT", "short"],
    ["-c", "-e", "lazy", "-e", "[0-9]{2,}", "README.md", "short"],
    ["-v", "-c", "e", "README.md", "LICENSE-MIT", "short"],
    ["-vn", "e", "short"],
    ["-ov", "lazy", "short"],
    ["-n", "^$", "short"],
    ["-l", "lazy", "README.md", "LICENSE-MIT", "short"],
    ["-lv", "lazy", "short", "LICENSE-MIT"],
    ["-lc", "lazy", "README.md", "short"],
    ["-l", "lazy"],
    ["-on", "[0-9]+", "README.md"],
    ["-io", "LAZY|[a-z]+zer", "README.md", "short"],
    ["-f", "patterns", "README.md", "short"],
    ["-onf", "many", "README.md"],
    ["-fpatterns", "-cv", "README.md", "short"],
    ["-nelazy", "short", "-"],
    ["-c", "lazy", "-", "short"],
    ["--", "-[a-z]", "README.md"],
    ["lazy", "no such file", "short"],
    ["-e"],
    ["--no-such-flag", "lazy"],
    # Names of files, and no names at all.
    ["-H", "lazy", "short"],
    ["-hn", "lazy", "short", "README.md"],
    ["-q", "lazy", "short"],
    ["-q", "no such", "short"],
    ["-q", "lazy", "no such file", "short"],
    ["-q", "no such", "no such file", "short"],
    ["-qc", "lazy", "short", "README.md"],
    # Binary files.
    ["lazy", "binary"],
    ["-n", "lazy", "binary", "short", "ends"],
    ["lazy", "-", "binary"],
    ["-c", "lazy", "binary", "short"],
    ["-c", "^lazy$", "binary"],
    ["-c", "^$", "ends"],
    ["-cv", "lazy", "ends", "binary"],
    ["-v", "lazy", "binary"],
    ["-v", "[a-z]|^$", "binary"],
    ["-o", "la", "binary"],
    ["-l", "lazy", "binary", "ends", "short"],
    ["-q", "lazy", "binary"],
    ["no such", "binary"],
    ["-n", "lazy", "late"],
    ["-c", "lazy", "late"],
    ["-a", "lazy", "binary", "late"],
    ["-ac", "x", "ends", "binary"],
    # Folders.
    ["lazy", "tree"],
    ["-n", "lazy", "tree", "short"],
    ["-c", "lazy", "tree", "short"],
    ["-l", "lazy", "tree"],
    ["-q", "lazy", "tree", "short"],
    ["-q", "no such", "tree", "short"],
    ["-r", "lazy", "tree"],
    ["-rn", "lazy", "tree/"],
    ["-rl", "lazy", "tree", "short"],
    ["-rc", "lazy", "tree"],
    ["-rh", "lazy", "tree"],
    ["-ro", "l[a-z]+", "tree", "no such file"],
    ["-rv", "lazy", "tree/a", "short"],
    ["-r", "lazy", "tree/b"],
    ["-rH", "lazy", "tree/b"],
    ["-r", "lazy", "linked"],
    ["-r", "lazy", "tree/loop", "tree/link"],
    ["-rc", "lazy", "."],
    ["-rc", "lazy"],
    ["-r", "lazy", "-"],
    ["-rq", "lazy", "tree"],
    ["-rq", "no such", "tree"],
    # Words, lines and literals.
    ["-w", "foo", "words"],
    ["-nw", "foo|foo_", "words"],
    ["-wo", "foo|foob", "words"],
    ["-x", "foo", "words"],
    ["-x", "foo|bar|FOO.*", "words"],
    ["-xw", "foo", "words"],
    ["-vx", "foo|", "words"],
    ["-F", "foo.bar", "words"],
    ["-Fi", "FOO.", "words"],
    ["-Fx", "(foo)", "words"],
    ["-Fw", "(foo)", "words"],
    ["-Fo", "--", "-bar", "words"],
    ["-F", "-e", "-x;", "-e", "(foo", "words"],
    ["-Ff", "patterns", "patterns"],
    ["-F", "\\<", "words"],
    ["-F", "foo\nFOO", "words"],
    ["foo.b\n^-x", "words"],
    ["-e", "", "-c", "words"],
    ["-y", "foo", "words"],
    ["-i", "--no-ignore-case", "foo", "words"],
    ["-i", "\u00dcBER", "words"],
    ["-x", "a)(b", "words"],
    ["-P", "fo+\\(\\d\\)", "code/a.c"],
    # Files without a line, limits, messages and names.
    ["-L", "foo", "words", "short"],
    ["-L", "foo", "words"],
    ["-Lv", "foo", "words", "short"],
    ["-lL", "foo", "words", "short"],
    ["-Ll", "foo", "words", "short"],
    ["-Lc", "foo", "words", "short"],
    ["-L", "foo", "tree", "short"],
    ["-rL", "lazy", "tree"],
    ["-qL", "foo", "words"],
    ["-m1", "foo", "words"],
    ["-m", "2", "-n", "foo", "words", "code/a.c"],
    ["-cm2", "foo", "words", "short"],
    ["-vm3", "foo", "words"],
    ["-om2", "o", "words"],
    ["-m0", "foo", "words"],
    ["-m0", "foo", "no such file"],
    ["-m0", "-L", "foo", "words", "short"],
    ["-m1", "-l", "foo", "words", "short"],
    ["-m1", "lazy", "binary"],
    ["-m99999999999", "foo", "words"],
    ["-m", "many", "foo", "words"],
    ["-s", "lazy", "no such file", "short"],
    ["-s", "lazy", "tree", "short"],
    ["-qs", "lazy", "no such file", "short"],
    ["-I", "lazy", "binary", "short", "ends"],
    ["-Ic", "lazy", "binary", "short", "ends"],
    ["-IL", "lazy", "binary", "short"],
    ["-Il", "lazy", "binary", "short"],
    ["-Iv", "lazy", "late"],
    ["-Iq", "lazy", "binary"],
    ["--binary-files=text", "lazy", "binary"],
    ["--binary-files=without-match", "lazy", "binary", "short"],
    ["--binary-files=other", "lazy", "binary"],
    ["-Zl", "lazy", "short", "README.md"],
    ["-ZL", "foo", "short", "README.md"],
    ["-Zn", "lazy", "short", "patterns"],
    ["-Zc", "lazy", "short", "patterns"],
    ["-Zo", "lazy", "short"],
    ["-ZHm1", "lazy", "short"],
    # Long flags.
    ["--line-number", "--with-filename", "lazy", "short"],
    ["--ignore-case", "--only-matching", "--no-filename", "LAZY", "short", "patterns"],
    ["--count", "--invert-match", "lazy", "short"],
    ["--files-with-matches", "--null", "lazy", "short", "patterns"],
    ["--files-without-match", "foo", "short"],
    ["--quiet", "lazy", "short"],
    ["--silent", "lazy", "short"],
    ["--regexp=lazy", "--regexp", "two", "short"],
    ["--regexp=a=b", "short"],
    ["--file=patterns", "--no-messages", "short", "no such file"],
    ["--file", "patterns", "short"],
    ["--max-count=1", "lazy", "short"],
    ["--max-count", "1", "lazy", "short"],
    ["--text", "--word-regexp", "lazy", "binary"],
    ["--line-regexp", "--fixed-strings", "foo", "words"],
    ["--extended-regexp", "fo+", "words"],
    ["--line-buffered", "-U", "--binary", "foo", "words"],
    ["--count=1", "foo", "words"],
    ["foo", "words", "--max-count"],
    ["--color=auto", "foo", "words"],
    ["--colour", "foo", "words"],
    ["--color=never", "foo", "words"],
    # Files and directories by their names.
    ["-rn", "TODO", "code"],
    ["-rw", "foo", "code"],
    ["-rl", "foo", "--include=*.py", "."],
    ["-r", "TODO", "--include=*.py", "code"],
    ["-r", "TODO", "--include=*.c", "--include", "?.py", "code"],
    ["-r", "TODO", "--exclude=*.c", "code"],
    ["-r", "TODO", "--exclude=a*c", "--include=*.c", "code"],
    ["-r", "TODO", "--include=*.c", "--exclude=a.c", "code"],
    ["-r", "TODO", "--include=*.txt", "code"],
    ["-r", "TODO", "--include=*.[ch]", "code"],
    ["-r", "TODO", "--include=[!ac-z]*", "code"],
    ["-r", "TODO", "--include=[^a]*", "code"],
    ["-r", "TODO", "--exclude=[a-c].[]c]", "code"],
    ["-r", "TODO", "--exclude=\\a.c", "--exclude=\\*.py", "code"],
    ["-r", "TODO", "--include=code*", "code"],
    ["-r", "TODO", "--exclude-dir=sub", "code"],
    ["-r", "TODO", "--exclude-dir=sub/", "code/sub", "code/a.c"],
    ["-r", "TODO", "--exclude-dir=s?b", "--exclude=*.txt", "."],
    ["-r", "TODO", "--exclude-dir=code", "."],
    ["-rc", "TODO", "--exclude-dir=code", "code"],
    ["-rR", "TODO", "--exclude-dir=co", "code"],
    ["-r", "TODO", "--exclude-dir=code", "code/"],
    ["-r", "TODO", "--exclude-dir=code*", "code/"],
    ["foo", "--include=*.py", "code/a.c", "code/sub/b.py", "-"],
    ["foo", "--exclude=sub/*", "code/a.c", "code/sub/b.py"],
    ["foo", "--exclude=b.py", "code/a.c", "code/sub/b.py"],
    ["foo", "--exclude=code/*", "code/a.c", "code/sub/b.py"],
    ["--exclude-dir=tree", "lazy", "tree", "short"],
    ["-r", "lazy", "--include=.*", "tree"],
    ["-r", "lazy", "--exclude=*", "tree"],
    # Lines around those that are taken.
    ["-A1", "lazy", "short"],
    ["-B", "2", "77", "short"],
    ["-C1", "c", "letters"],
    ["-1", "c", "letters"],
    ["-n12", "c", "letters"],
    ["-1n2", "c", "letters"],
    ["-A0", "a", "letters"],
    ["-C0", "a", "letters", "letters"],
    ["-nbC1", "a", "letters", "short", "letters"],
    ["-ZnHC1", "c", "letters"],
    ["-C2", "-A0", "c", "letters"],
    ["-A0", "-C2", "c", "letters"],
    ["-B1000000", "-n", "h", "letters"],
    ["--after-context=1", "--before-context", "2", "-n", "c", "letters"],
    ["--context=1", "-h", "c", "letters", "letters"],
    ["--context", "c", "letters"],
    ["-A", "-1", "c", "letters"],
    ["-C1", "no such", "letters"],
    ["-nvC1", "a", "letters"],
    ["-oC1", "c", "letters", "letters"],
    ["-cC1", "a", "letters"],
    ["-lC1", "a", "letters"],
    ["-LC1", "no such", "letters"],
    ["-qC1", "a", "letters"],
    ["-m1", "-nA2", "a", "letters"],
    ["-m2", "-nA20", "a", "letters"],
    ["-m1", "-nvA20", "a", "letters"],
    ["-m1", "-nC1", "a", "letters", "letters"],
    ["-C1", "lazy", "short", "binary"],
    ["-aC1", "lazy", "binary", "short"],
    ["-rhC1", "lazy", "tree/b"],
    ["-nC3", "lazy", "blocks"],
    ["-nB700", "lazy", "blocks"],
    ["-nA700", "lazy", "blocks"],
    ["-bA1", "lazy", "blocks"],
    ["-nm9", "-C40", "lazy", "blocks"],
    ["-cvC2", "lazy", "blocks"],
    # Offsets, tabs, and lines that end in a NUL.
    ["-b", "lazy", "short"],
    ["-bo", "[a-z]+", "short", "letters"],
    ["-bon", "o", "words"],
    ["-bc", "lazy", "short"],
    ["-bv", "lazy", "short", "README.md"],
    ["--byte-offset", "--only-matching", "lazy", "blocks"],
    ["-T", "a|^$", "short"],
    ["-HT", "a|^$", "short"],
    ["-HTZ", "a|^$", "short"],
    ["--initial-tab", "-H", "-C1", "two", "short"],
    ["-z", "lazy", "records"],
    ["-zn", "lazy", "records"],
    ["-zb", "-o", "lazy|last", "records"],
    ["-zc", "^$", "records"],
    ["-zv", "lazy", "records"],
    ["-zx", "a lazy.record", "records"],
    ["-zl", "lazy", "records", "short"],
    ["-zHC1", "x", "records", "short"],
    ["-znA0", "lazy", "records"],
    ["-zw", "lazy|record", "records"],
    ["-zF", "y\nr", "records"],
    ["-zo", "y.r|st", "records"],
    ["-zc", "^record", "records"],
    ["--null-data", "-Z", "-H", "-n", "record", "records"],
    # Word boundaries.
    ["\\bfoo\\b", "words"],
    ["-o", "\\<f|o\\>", "words"],
    ["-on", "\\Boo|r\\B", "words"],
    ["[]\\_]\\b|[[:punct:]]\\b", "words"],
    ["-x", "\\bfoo\\b", "words"],
    ["-w", "\\bfoo", "words"],
    ["-F", "\\bfoo", "words"],
    ["-e", "\\bbar", "-e", "foo\\>", "words", "code/a.c"],
    ["foo$", "crlf"],
    ["[[:alpha:]]+", "code/sub/b.py"],
]
# The arguments of calls with `--replace`, and what they print, which is what ripgrep 13.0.0 prints.
REPLACED = [
    (["--replace=[$0]", "lazy|77", "short"], b"two [lazy]\nthe last line is [lazy] [77]\n"),
    (["-n", "--replace", "${1}_$2$3", "(l)(a)?", "short"], b"2:two l_azy\n4:the l_ast l_ine is l_azy 77\n"),
    (["-o", "--replace", "$2$1", "(l)(a)?", "short"], b"al\nal\nl\nal\n"),
    (["--replace=$last, ${first}", "(?P<first>\\w+) (?P<last>\\w+)", "short"],
     b"lazy, two\nlast, the is, line 77, lazy\n"),
    (["--replace=$1a|${1}a|$$1|$|$-|${1", "(two)", "short"], b"|twoa|$1|$|$-|${1 lazy\n"),
    (["-no", "--replace=$1.$2", "-e", "(two)", "-e", "(i)s", "short"], b"2:two.\n4:.i\n"),
    (["--replace=<$0>", "z?", "letters", "-m1"], b"<>a<>\n"),
    (["--replace=-", "y*", "short"], b"-o-n-e-\n-t-w-o- -l-a-z-\n-\n-t-h-e- -l-a-s-t- -l-i-n-e- -i-s- -l-a-z- -7-7-\n"),
    (["-o", "--replace=", "two|lazy", "short"], b"\n\n\n"),
    (["-vn", "--replace=$0$0", "a", "short"], b"1:one\n3:\n"),
    (["-c", "--replace=$0", "lazy", "short"], b"2\n"),
    (["-bC1", "--replace=x", "two", "short"], b"0-one\n4:x lazy\n13-\n"),
    (["-x", "--replace=($1)", "(\\w+) lazy", "short"], b"(two)\n"),
    (["-iw", "--replace=$1!", "(FOO)_?", "words"], b"foo!-bar\nfoo! (foo!)\nfoo!\nfoo!.bar\nFOO! 1\n"),
    (["-F", "--replace=$0$0", "foo.b", "words"], b"foo.bfoo.bar\n"),
]
# The files below `tree` that have a match, in the order of names in which `lgrep` searches them.
ORDER = b"tree/a/.hidden\ntree/a/0\ntree/a/z\ntree/b\ntree/b.txt\n"
LONG = 100 << 20
# What has all flags, besides the text of `--help`: the manual, and the completions of bash, zsh and fish.
COMPLETIONS = "tools/dist/completions"
FLAGGED = ["crates/lgrep/src/main.rt", *(f"{COMPLETIONS}/{it}" for it in ("lgrep.bash", "_lgrep", "lgrep.fish"))]
# Where the flags begin and end in these files.
BOUNDS = dict(zip(FLAGGED, [("# Flags", "# Patterns"), ('_lgrep_flags="', '"\n\ncomplete'), ("-s -S :", "'1:pattern")]))
# What bash completes, by the last word.
COMPLETED = {
    "--inc": b"--include\n",
    "a": b"auto\n",
    "--exclude-d": b"--exclude-dir\n",
    "sho": b"short\n",
}


def write_texts(room):
    """Writes the texts, the links and the pipe."""
    for folder in ("tree/a", "code/sub"):
        os.makedirs(f"{room}/{folder}")
    for name, text in TEXTS.items():
        with open(f"{room}/{name}", "wb") as it:
            it.write(text)
    for name, to in LINKS.items():
        os.symlink(to, f"{room}/{name}")
    os.mkfifo(f"{room}/tree/pipe")
    for name in ("README.md", "LICENSE-MIT"):
        shutil.copy(f"{TOP}/{name}", room)


def run(words, folder, limit=None):
    """Runs a program, with at most this many bytes of memory if there is a limit, and returns its status and its
    output."""
    with tempfile.TemporaryFile() as given:
        given.write(INPUT.encode())
        given.seek(0)
        in_limit = (lambda: resource.setrlimit(resource.RLIMIT_AS, (limit, limit))) if limit else None
        ran = subprocess.run(words, cwd=folder, stdin=given, capture_output=True, preexec_fn=in_limit,
                             env={**os.environ, "LC_ALL": "C.UTF-8"})
    return ran.returncode, ran.stdout, ran.stderr


def reference(call):
    """Returns the call of `grep`: with `-E`, unless the arguments have another kind of patterns."""
    kinds = [it for it in call if re.match(r"-[a-zA-Z]*[EFP]|--(fixed|extended|perl)-", it)]
    return ["grep", *["-E"][:not kinds], *call]


def compared(found, call):
    """Returns the parts of a run that are compared: its status, its output, and the files that it reported to be binary
    or folders. Below a folder `grep` has no order, so these lines have none either."""
    status, printed, said = found
    told = sorted(it for it in re.findall(rb"^[a-z_]+: (.*: (?:binary file matches|Is a directory))$", said, re.M))
    unordered = call[0].startswith("-r")
    return status, sorted(printed.splitlines()) if unordered else printed, told


def which(room, name):
    """Returns the expected output of `--which -Hnf six` for a file: the lines that `grep` finds with each pattern
    alone."""
    numbers, lines = {}, {}
    for number, pattern in enumerate(PATTERNS, 1):
        for line in run(["grep", "-nE", "-e", pattern, name], room)[1].splitlines():
            at, text = line.split(b":", 1)
            numbers.setdefault(int(at), []).append(str(number))
            lines[int(at)] = text
    shown = {at: f"{name}:{at}:{','.join(numbers[at])}:".encode() for at in lines}
    return b"".join(shown[at] + lines[at] + b"\n" for at in sorted(lines))


def text(name):
    """Returns a text of this repository."""
    with open(f"{TOP}/{name}", encoding="utf-8") as it:
        return it.read()


def version():
    """Returns the version of the library."""
    return re.search(r'^#define LAZYDFA_VERSION "(.*)"$', text("bindings/c/include/lazydfa.h"), re.M)[1]


def spelled(content):
    """Returns the flags that are spelled in a text."""
    return set(re.findall(r"(?<![\w-])(-[A-Za-z](?![\w-])|--[a-z][a-z-]*[a-z])", content))


def flags_in(name):
    """Returns the flags in a file of FLAGGED: of the manual the lists of flags are read."""
    content = text(name)
    if name.endswith(".fish"):
        return {"-" + it.replace("l ", "-").replace("s ", "") for it in re.findall(r" -(s \w|l \S+)", content)}
    begin, end = BOUNDS[name]
    section = content[content.index(begin) + len(begin) : content.index(end)]
    lines = [it for it in section.splitlines() if not it.startswith("//!") or it.startswith("//!     ")]
    return spelled("\n".join(lines))


def completed(room, words):
    """Returns what bash completes after these words, the last of which is not complete."""
    script = f'. {TOP}/{FLAGGED[1]}; COMP_WORDS=(lgrep "$@"); COMP_CWORD=$#; _lgrep; printf "%s\\n" "${{COMPREPLY[@]}}"'
    return run(["bash", "-c", script, "bash", *words], room)[1]


def in_terminal(words, folder):
    """Returns what a program prints whose standard input is a terminal."""
    ours, its = os.openpty()
    ran = subprocess.run(words, cwd=folder, stdin=its, capture_output=True, timeout=60)
    os.close(ours)
    os.close(its)
    return ran.stdout


def own(program, room):
    """Tests what `grep` has no flag for, or does in another way: returns for each call its name, its result, and the
    expected one."""
    yield "--version", run([program, "-V"], room), (0, f"lgrep {version()}\n".encode(), b"")
    helped = run([program, "-n", "--help"], room)
    yield "--help", (helped[0], helped[2]), (0, b"")
    for flag in ("-G", "--no-such", "-nD1"):
        said = f"lgrep: no flag {flag.replace('nD1', 'D')}; see lgrep --help\n".encode()
        yield flag, run([program, flag, "lazy", "short"], room), (2, b"", said)
    said = b"lgrep: --color=always is not supported: lgrep prints no colors\n"
    yield "--color=always", run([program, "--color=always", "lazy", "short"], room), (2, b"", said)
    yield "-F -E", run([program, "-cF", "-E", "foo|FOO", "words"], room)[1], b"7\n"
    yield "-w beside other letters", run([program, "-ow", "ber", "words"], room)[1], b"ber\nber\n"
    yield "\\b beside other letters", run([program, "-o", "\\bber", "words"], room)[1], b"ber\nber\n"
    found = run([program, "-o", "\\b{start-half}-\\b{end}|\\b{start}o|\\b{1}1", "words"], room)
    yield "other word boundaries", found[:2], (0, b"1\n")
    for pattern in ("\\bfoo)", "[\\b]"):
        said = run([program, "-e", "\\bfoo", "-e", pattern, "words"], room)[2]
        yield f"the error of {pattern}", f"\n  {pattern}\n".encode() in said, True
    found = run([program, "--which", "-nC1", "-e", "c", "-e", "[cd]", "letters"], room)
    yield "--which -C1", found[1], b"3-b\n4:1,2:c\n5:2:d\n6-a\n"
    manual = flags_in(FLAGGED[0])
    yield "the flags of --help are in the manual", spelled(helped[1].decode()) - manual, set()
    for name in FLAGGED[1:]:
        yield f"the flags of {name}", flags_in(name) ^ manual, set()
    for words in (["--inc"], ["--color", "=", "a"], ["-r", "--exclude-d"], ["-f", "sho"], ["lazy", "sho"]):
        yield f"bash completes {' '.join(words)}", completed(room, words), COMPLETED[words[-1]]
    terminal = in_terminal([program, "-l", "lazy"], f"{room}/tree")
    yield "a terminal", terminal, b"a/.hidden\na/0\na/z\nb\nb.txt\n"
    yield "-rl lazy tree, in order", run([program, "-rl", "lazy", "tree"], room)[1], ORDER
    files = ["README.md", "short", "LICENSE-MIT"]
    found = run([program, "-nf", "six", "--which", *files], room)
    yield "--which", found[:2], (0, b"".join(which(room, name) for name in files))
    found = run([program, "--which", "-e", "two", "-e", "lazy", "short"], room)
    yield "--which of two", found[1], b"1,2:two lazy\n2:the last line is lazy 77\n"
    found = run([program, "-cf", "six", "--which", "short"], room)
    yield "--which -c", found[:2], run(["grep", "-cEf", "six", "short"], room)[:2]
    for call, wanted in REPLACED:
        yield " ".join(call), run([program, *call], room)[:2], (0, wanted)
    yield "--replace -bo", run([program, "-bo", "--replace=$$", "two|77", "short"], room)[1], b"4:$\n36:$\n"
    for other in ("-o", "-v", "--replace=x"):
        yield f"--which {other}", run([program, other, "--which", "lazy", "short"], room)[:2], (2, b"")
    status, printed, said = run([program, "-c", "--stats", "lazy", "README.md", "short"], room)
    sizes = sum(os.path.getsize(f"{room}/{name}") for name in ("README.md", "short"))
    counts = [run(["grep", "-chE", one, "README.md", "short"], room)[1].split() for one in ("", "lazy")]
    lines, taken = (sum(int(it) for it in count) for count in counts)
    wanted = (rf"bytes read: {sizes}\nlines: {lines}\nlines taken: {taken}\n"
              r"clears: 0\nstates of caches: [1-9]\d*\nbytes of caches: [1-9]\d*\nMB/s: \d+\.\d\n")
    yield "--stats", (status, bool(re.fullmatch(wanted, said.decode()))), (0, True)
    with open(f"{room}/long", "wb") as it:
        it.write(b"lazy\n" + b"x" * LONG)
    status, printed, said = run([program, "-c", "lazy", "long", "short"], room, 64 << 20)
    is_told = b"long: a line does not fit into the memory" in said
    yield "a line too long", (status, printed, is_told), (2, b"short:2\n", True)


def main(words):
    parser = argparse.ArgumentParser()
    parser.add_argument("--program", default=f"{TOP}/crates/lgrep/out/lgrep")
    parser.add_argument("counted", nargs="?", default="0 passed, 0 failed")
    given = parser.parse_args(words)
    counted = re.fullmatch(r"(\d+) passed, (\d+) failed", given.counted)
    passed, failed = (int(counted[1]), int(counted[2])) if counted else (0, 1)
    program = os.path.abspath(given.program)
    with tempfile.TemporaryDirectory(prefix="grep-") as room:
        write_texts(room)
        rows = []
        for call in CALLS if shutil.which("grep") else []:
            found, wanted = (compared(run(it, room), call) for it in ([program, *call], reference(call)))
            rows.append((" ".join(call).replace("\n", "\\n"), found, wanted))
        for call, found, wanted in [*rows, *(own(program, room) if rows else [])]:
            print(f"lgrep {call}: {'passed' if found == wanted else f'{found}, and not {wanted}'}")
            passed, failed = passed + (found == wanted), failed + (found != wanted)
    print(f"{passed} passed, {failed} failed")
    return 1 if failed else 0


if __name__ == "__main__":
    sys.exit(main(sys.argv[1:]))
