#!/usr/bin/env python3
"""Makes the texts and the works of the suite, from Debian's packages wamerican, unicode-data, fortunes, fortunes-ru and
fortunes-zh and from Python's own library:

    works.py FOLDER

A work is a file of FOLDER/works: a line with what is done, flags and a text, and then one pattern in each line. What is
done is `count` (all spans), `groups` (all spans and their groups), `groups-grep` (the same for each line), `grep`
(which lines match), `which` (which patterns match in each line), `compile`, or `first` (compile, and search one text).
The flags are `u`, Unicode, or `b`, bytes, and `s`, a set. NAME@ENGINE is what an engine takes in place of NAME. Most
works are modelled on those of the benchmark suite rebar.
"""
import glob
import gzip
import os
import random
import re
import sys

SHARE = os.environ.get("SHARE", "/usr/share")
PYTHON = os.path.dirname(os.__file__)
SIZE = 900_000
PEOPLE = ["Sherlock Holmes"] * 6 + ["John Watson"] * 2 + ["Irene Adler", "Inspector Lestrade", "Professor Moriarty"]
PEOPLE_RU = ["Шерлок Холмс"] * 6 + ["Джон Уотсон"] * 2 + ["Ирен Адлер", "инспектор Лестрейд", "профессор Мориарти"]
PEOPLE_ZH = ["夏洛克·福尔摩斯"] * 6 + ["约翰华生"] * 2 + ["阿德勒", "雷斯垂德", "莫里亚蒂教授"]
RIVER = ["Tom", "Tom Sawyer", "Huck", "Huckleberry Finn", "the river", "Tom went down to the river", "Twain", "✓"]
NOQA = ["  # noqa", "  # NOQA: E501", "  # noqa: F401,E203", "  # NoQA:F811"]
rnd = random.Random(7)


def cut(text, size=SIZE):
    """Returns the text as far as it takes at most `size` bytes."""
    return text.encode()[:size].decode("utf-8", "ignore")


def read(path):
    with (gzip.open if path.endswith(".gz") else open)(path, "rb") as it:
        return it.read().decode("utf-8", "ignore")


def read_all(pattern, left_out=r"$^"):
    """Returns the text of all files with such names, except those whose names contain what is left out."""
    paths = sorted(it for it in glob.glob(f"{SHARE}/{pattern}") if os.path.isfile(it))
    return "".join(read(it) for it in paths if not re.search(left_out, it))


def sprinkle(text, words, times):
    """Inserts some of the words, so many times, each at a random space between words."""
    places = sorted(rnd.sample([it.start() for it in re.finditer(r"(?<=\S) (?=\S)", text)], times))
    return "".join(text[a:b] + " " + rnd.choice(words) for a, b in zip([0, *places], places)) + text[places[-1]:]


def splice(text, words, times):
    """Inserts some of the words, so many times, anywhere."""
    places = sorted(rnd.sample(range(len(text)), times))
    return "".join(text[a:b] + rnd.choice(words) for a, b in zip([0, *places], [*places, len(text)]))


def some(letters, count):
    return "".join(rnd.choice(letters) for _ in range(count))


def log_line(words):
    """Returns a line of a log."""
    n = rnd.randint
    when = f"2024-{n(1, 12):02}-{n(1, 28):02} {n(0, 23):02}:{n(0, 59):02}:{n(0, 59):02}.{n(0, 999):03}"
    what = f"{rnd.choice(['net', 'db', 'http', 'auth'])}.{rnd.choice(['pool', 'conn', 'main', 'query'])}"
    said = " ".join(rnd.choices(words, k=n(2, 8)))
    who = f"ip=10.{n(0, 255)}.{n(0, 255)}.{n(0, 255)} user={rnd.choice(words[:400])}@{rnd.choice(words[:400])}.com"
    status = rnd.choice([200, 404, 500, 302])
    return f"{when} {rnd.choice('DIWEF')}[{n(100, 99999)}] {what}: {said} took {n(1, 5000)}ms status={status} {who}\n"


def module(n, word):
    """Returns a module of a language for hardware."""
    return f"""module Module{n} #(
    param WIDTH: u32 = {n % 64},
) (
    i_clk  : input  clock,
    i_rst  : input  reset,
    o_data : output logic<WIDTH>, // data {n}
) {{
    var r_{word}: logic<WIDTH>;
    /* a comment
       of lines */
    always_ff (i_clk, i_rst) {{
        if_reset {{
            r_data = 'h{n:x};
        }} else if a >= {n}.5e-3 && b != 8'b1010 {{
            r_data += o_data << 2;
        }}
    }}
    assign o_data = "str{n}" ^ {{r_data, i_x[7:0]}};
}}
"""


def texts_of(words):
    """Returns the texts by their names. The words are in lower case."""
    english = cut(read_all("games/fortunes/*", r"\.(dat|u8)$|chinese|ascii-art|tang300|song100"))
    russian = read_all("games/fortunes/ru/*", r"\.dat$")
    chinese = cut(re.sub(r"\x1b\[[0-9;]*m", "", read(f"{SHARE}/games/fortunes/chinese")))
    code = cut("".join(read(it) for it in sorted(glob.glob(f"{PYTHON}/*.py"))), 3_000_000)
    flagged, keys = code.split("\n"), cut(code).split("\n")
    for at in rnd.sample(range(len(flagged)), 84):
        flagged[at] += rnd.choice(NOQA)
    for at in rnd.sample(range(len(keys)), 4):
        keys[at] += f' key = "AKIA{some("ABCDEFG2345", 16)}"\n   secret = "{some("abcXYZ019+/", 40)}"'
    prose = sprinkle(english, PEOPLE, 900)
    return {
        "en": prose,
        "enline": prose.replace("\n", " "),
        "twain": sprinkle(english, RIVER, 3000),
        "ru": sprinkle(cut(russian), PEOPLE_RU, 900),
        "zh": splice(chinese, PEOPLE_ZH, 300),
        "python": cut("\n".join(flagged), 2 * SIZE),
        "keys": "\n".join(keys),
        "ucd": cut(read(f"{SHARE}/unicode/UnicodeData.txt")),
        "log": cut("".join(log_line(words) for _ in range(9000))),
        "veryl": cut("".join(module(n, rnd.choice(words)) for n in range(3000)), 200_000),
        "line": "2024-05-05 12:00:01 W[17] db.query: the quick foo1234 bar took 17ms Sherlock Holmes status=500 "
        "ip=10.1.2.3 user=ab@cd.com " * 2,
    }


PEOPLE_ONCE = "|".join(dict.fromkeys(PEOPLE))
NOQA_RULE = r"(\s*)((?i:# noqa)(?::\s?((?:[A-Z][0-9]+(?:[,\s]+)?)+))?)"
CONTEXT = r"[A-Za-z]{10}\s+[\s\S]{0,100}Result[\s\S]{0,100}\s+[A-Za-z]{10}"
LOG_LINE = (
    r"^([0-9]{4}-[0-9]{2}-[0-9]{2}) ([0-9:.]+) ([DIWEF])\[([0-9]+)\] ([a-z]+)\.([a-z]+): (.+?) took ([0-9]+)ms "
    r"status=([0-9]{3}) ip=([0-9.]+) user=([^@]+)@(.+)$"
)
UCD_LINE = (
    r"(?m)^([0-9A-F]+);([^;\n]+);([A-Z][a-z]);([0-9]+);([A-Z]+);(?:<([A-Za-z]+)>)?\s*([0-9A-F ]*);([0-9]*);([0-9]*);"
    r"([0-9/-]*);([YN]);([^;\n]*);([^;\n]*);([0-9A-F]*);([0-9A-F]*);([0-9A-F]*)$"
)
KEYWORDS = """always_comb always_ff assign async_high async_low as bit case clock default else embed enum export f32 f64
final for function i32 i64 if_reset if import include initial inout input inside inst interface in let local logic lsb
modport module msb negedge output outside package param posedge proto pub ref repeat reset return step string struct
sync_high sync_low tri type u32 u64 union var""".split()
OPERATORS = r"""\*\* \+\+ \-: \-> \+: \+= \-= \*= /= %= &= \|= \^= <<<= >>>= <<= >>= << >> <<< >>> <= >= <: >: === ==\?
!== !=\? == != && \|\| ~& ~\| ~\^ \^~ & \| ~ ! \^ \* / % \+ \- ' @ : , ; \.\. \.\.= \. = # \$ \( \) \[ \] \{ \}
<""".split()
NUMBER = r"[0-9]+(?:_[0-9]+)*"
LEXER = [
    r"\s+",
    r"//[^\n]*\n?",
    r"/\*(?:[^*]|\*[^/])*\*/",
    r'"(?:\\["\\/bfnrt]|u[0-9a-fA-F]{4}|[^"\\])*"',
    rf"{NUMBER}\.{NUMBER}[eE][+-]?{NUMBER}",
    rf"{NUMBER}\.{NUMBER}",
    rf"{NUMBER}'[bodh][0-9a-fA-FxzXZ]+(?:_[0-9a-fA-FxzXZ]+)*",
    r"'[bodh][0-9a-fA-FxzXZ]+",
    NUMBER,
    *(rf"\b{it}\b" for it in KEYWORDS),
    r"[a-zA-Z_][0-9a-zA-Z_$]*",
    *OPERATORS,
]
TWAIN = {
    "twain": "Twain",
    "twain-i": "(?i)Twain",
    "shing": "[a-z]shing",
    "nn": r"\b\w+nn\b",
    "aq-x": "[a-q][^u-z]{13}x",
    "four": "Tom|Sawyer|Huckleberry|Finn",
    "four-i": "(?i)Tom|Sawyer|Huckleberry|Finn",
    "tom-river": "Tom.{10,25}river|river.{10,25}Tom",
    "ing": "[a-zA-Z]+ing",
    "s-ing": r"\s[a-zA-Z]{0,12}ing\s",
    "awyer-inn": r"(?:[A-Za-z]awyer|[A-Za-z]inn)\s",
    "quotes": "[\"'][^\"']{0,30}[?!.][\"']",
}


def works_of(words):
    """Returns the works: name, what is done, flags, text, and patterns."""
    rare = sorted({it for it in words if len(it) >= 15})
    rare = rnd.sample(rare, min(2663, len(rare)))
    return [
        ("literal.sherlock-en", "count", "b", "en", "Sherlock Holmes"),
        ("literal.sherlock-i-en", "count", "b", "en", "(?i)Sherlock Holmes"),
        ("literal.sherlock-ru", "count", "u", "ru", "Шерлок Холмс"),
        ("literal.sherlock-zh", "count", "u", "zh", "夏洛克·福尔摩斯"),
        ("literal.first-letters", "count", "b", "en", "z"),
        ("alternate.sherlock-en", "count", "b", "en", PEOPLE_ONCE),
        ("alternate.sherlock-i-en", "count", "b", "en", f"(?i){PEOPLE_ONCE}"),
        ("ruff.noqa", "grep", "b", "python", NOQA_RULE),
        ("ruff.noqa-spans", "count", "b", "python", NOQA_RULE),
        ("lexer.veryl-many", "count", "b", "veryl", *LEXER),
        ("lexer.veryl-one", "count", "b", "veryl", "|".join(f"({it})" for it in LEXER)),
        ("lexer.veryl-compile", "compile", "b", "line", *LEXER),
        ("ucd.spans", "count", "b", "ucd", UCD_LINE),
        ("words.all-en", "count", "b", "en", r"\b\w+\b"),
        ("words.all-ru", "count", "u", "ru", r"\w+"),
        ("words.long-ru", "count", "u", "ru", r"\pL{12,}"),
        ("words.boundary-ru", "count", "u", "ru", r"\b\w+\b"),
        ("aws.quick", "count", "b", "keys", r"((?:ASIA|AKIA|AROA|AIDA)([A-Z0-7]{16}))"),
        ("bounded.letters-ru", "count", "u", "ru", r"\p{L}{8,13}"),
        ("bounded.context", "count", "b", "keys", CONTEXT),
        ("bounded.compile-context", "compile", "b", "line", CONTEXT),
        ("bounded.compile-capitals", "compile", "b", "line", r"(?:[A-Z][a-z]+\s*){10,100}"),
        ("tojson.grep", "grep", "b", "log", LOG_LINE),
        ("tojson.spans", "count", "b", "log", f"(?m){LOG_LINE}"),
        ("captures.log", "groups", "b", "log", f"(?m){LOG_LINE}"),
        ("captures.log-lines", "groups-grep", "b", "log", LOG_LINE),
        ("captures.ucd", "groups", "b", "ucd", UCD_LINE),
        ("captures.pair", "groups", "b", "log", r"([a-z]+)=([^ \n]+)"),
        ("dictionary.one", "count", "b", "en", "|".join(rare)),
        ("dictionary.one-i", "count", "b", "en", "(?i)" + "|".join(rare)),
        ("dictionary.which", "which", "bs", "en", *rare),
        *((f"leipzig.{name}", "count", "b", "twain", pattern) for name, pattern in TWAIN.items()),
        ("leipzig.symbols", "count", "u", "twain", "∞|✓"),
        ("leipzig.sm", "count", "u", "twain", r"\p{Sm}"),
        ("opt.reverse-suffix", "count", "b", "en", r"[A-Za-z]+ Holmes"),
        ("opt.anchored", "grep", "b", "log", r"^2024-0[1-3]-.."),
        ("opt.anchored-long", "grep", "b", "enline", "^Sherlock"),
        ("opt.number", "count", "b", "log", r"[0-9]+(?:\.[0-9]+)*"),
        ("opt.status-grep", "grep", "b", "log", r"status=50[0-9]"),
        ("compile.literal", "compile", "b", "line", "Sherlock Holmes"),
        ("compile.w-unicode", "compile", "u", "line", r"\w"),
        ("compile.w10-unicode", "compile", "u", "line", r"\w{10}"),
        ("compile.i-sherlock-unicode", "compile", "u", "line", "(?i)Шерлок Холмс|Джон Уотсон"),
        ("first.literal", "first", "b", "line", "Sherlock Holmes"),
        ("first.digits", "first", "b", "line", "[0-9]{4}"),
        ("first.w-unicode", "first", "u", "line", r"\w+"),
        ("first.words20", "first", "b", "line", "|".join(rnd.sample(words, 20))),
    ]


def write(path, text):
    with open(path, "w", encoding="utf-8") as it:
        it.write(text)


def main(folder):
    words = [it.lower() for it in read(f"{SHARE}/dict/american-english").split("\n") if it.isascii() and it.isalpha()]
    os.makedirs(f"{folder}/texts", exist_ok=True)
    os.makedirs(f"{folder}/works", exist_ok=True)
    for name, text in texts_of(words).items():
        write(f"{folder}/texts/{name}", text)
    works = works_of(words)
    for name, done, flags, text, *patterns in works:
        write(f"{folder}/works/{name}", "\n".join([f"{done} {flags} {text}", *patterns]) + "\n")
        # RE2 has no Unicode in its Perl classes.
        own = [it.replace(r"\w", r"[\pL\pM\p{Nd}\p{Pc}]") for it in patterns]
        if "u" in flags and own != patterns:
            write(f"{folder}/works/{name}@re2", "\n".join([f"{done} {flags} {text}", *own]) + "\n")
    print(len(works), "works")


if __name__ == "__main__":
    main(sys.argv[1])
