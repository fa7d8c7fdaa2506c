"""Tests of the package, over the shared library: against `re` on random patterns, and by worked examples."""
import doctest
import random
import re
import subprocess
import sys
import threading
import unittest

import lazydfa

LETTERS = "abcé☃"
SEEDS = 4000


def random_pattern(rnd, depth):
    """Returns a random pattern, and whether it may match the empty string. What is repeated does not: engines differ in
    how often they repeat an empty match."""
    kind = rnd.choice("lllccd" if depth == 0 else "llccdsssaaarrrg")
    if kind == "l":
        return rnd.choice(LETTERS), False
    if kind == "c":
        return f"[{rnd.choice(['', '^'])}{''.join(rnd.sample(LETTERS, 2))}]", False
    if kind == "d":
        return ".", False
    if kind == "s":
        (one, a), (two, b) = random_pattern(rnd, depth - 1), random_pattern(rnd, depth - 1)
        return one + two, a and b
    if kind == "a":
        (one, a), (two, b) = random_pattern(rnd, depth - 1), random_pattern(rnd, depth - 1)
        return f"(?:{one}|{two})", a or b
    if kind == "g":
        inner, is_empty = random_pattern(rnd, depth - 1)
        return f"({inner})", is_empty
    inner, is_empty = random_pattern(rnd, depth - 1)
    if is_empty:
        return f"(?:{inner})", True
    times = rnd.choice(["*", "+", "?", "{2}", "{1,3}", "{0,2}", "{2,}"])
    return f"(?:{inner}){times}{rnd.choice(['', '', '?'])}", times in ("*", "?", "{0,2}")


def random_text(rnd):
    return "".join(rnd.choice(LETTERS) for _ in range(rnd.randrange(12)))


# Characters of four scripts of which both engines agree whether they are word characters, and what random patterns with
# word boundaries consist of.
SCRIPTS = "aZ7_ .-éßдЖ ωΣ字漢。—\u00a0"
BOUNDARIES = [r"\b", r"\B"]
PARTS = [*BOUNDARIES, r"\w", r"\W", r"\w+", r"\w*?", r"\W+", "д", "é", "[aω字]", "[^ж ]", "Σ?", "(?:字|д)+", ".", "(a)?"]
WORD_PATTERNS, WORD_TEXTS = 1500, 16


def random_words(rnd):
    """Returns a random pattern with a word boundary."""
    branches = []
    for _ in range(rnd.choice([1, 1, 2])):
        parts = [rnd.choice(PARTS) for _ in range(rnd.randrange(1, 4))]
        parts.insert(rnd.randrange(len(parts) + 1), rnd.choice(BOUNDARIES))
        branches.append("".join(parts))
    return "|".join(branches)


def matches_by_re(regex, text):
    """Returns the spans that iterations of `re` by the rule of Rust's crate find: an empty match where the last match ended
    is passed over."""
    found, at, last = [], 0, None
    while at <= len(text):
        it = regex.search(text, at)
        if it and it.start() == it.end() == last:
            it = regex.search(text, at + 1) if at < len(text) else None
        if it is None:
            break
        found.append(it.span())
        at = last = it.end()
    return found


def tokens_by_re(rules, text):
    """Returns the tokens of a text by `re`, each of the first rule that matches, and where no token begins, if anywhere."""
    found, at = [], 0
    while at < len(text):
        matching = ((rule, it) for rule, it in ((rule, regex.match(text, at)) for rule, regex in enumerate(rules)) if it)
        rule, it = next(matching, (0, None))
        if it is None or it.end() == at:
            return found, at
        found.append((rule, at, it.end()))
        at = it.end()
    return found, None


TEMPLATES = [r"<\1>", r"\g<0>-\2", r"\g<x1>!", r"\n\\\.\041", r"é\3\g<1>0", "-", r"\0\07a\12\1012"]


def named(pattern, rnd):
    """Returns the pattern with names for some of its groups."""
    parts = re.split(r"(\((?!\?))", pattern)
    names = iter(f"(?P<x{n}>" if rnd.randrange(2) else "(" for n in range(1, len(parts)))
    return "".join(next(names) if part == "(" else part for part in parts)


def groups_of(match):
    """Returns all that a match says about its groups."""
    if match is None:
        return None
    every = range(len(match.groups()) + 1)
    spans = [(match.start(it), match.end(it), match.span(it), match[it]) for it in every]
    return spans, match.group(*every, 0), match.groups(), match.groups("-"), match.groupdict(), match.groupdict("")


def outcome(function, *arguments):
    """Returns what a function returns, or the message of its error."""
    try:
        return function(*arguments)
    except (IndexError, re.error, lazydfa.TemplateError) as error:
        return re.sub(r"^octal escape.*|^missing <.*", "", str(error)).split(" at position")[0]


def spans_of(regex, text):
    return [it.span() for it in regex.finditer(text)]


class Random(unittest.TestCase):
    def test_spans_of_text(self):
        for seed in range(SEEDS):
            rnd = random.Random(seed)
            pattern, is_empty = random_pattern(rnd, 4)
            pattern = rnd.choice(["", "", "", "^"]) + pattern + rnd.choice(["", "", "", "$"])
            regex, peer = lazydfa.Regex(pattern), re.compile(pattern)
            for _ in range(4):
                text = random_text(rnd)
                with self.subTest(seed=seed, pattern=pattern, text=text):
                    mine, first = regex.search(text), peer.search(text)
                    self.assertEqual(mine and mine.span(), first and first.span())
                    self.assertEqual(regex.is_match(text), first is not None)
                    # The two continue differently after an empty match.
                    if not is_empty:
                        self.assertEqual(spans_of(regex, text), spans_of(peer, text))

    def test_spans_of_bytes(self):
        for seed in range(SEEDS // 4):
            rnd = random.Random(seed)
            pattern, is_empty = random_pattern(rnd, 3)
            pattern = pattern.replace("é", "d").replace("☃", "e").encode()
            text = bytes(rnd.choice(b"abcde\xff\x80") for _ in range(rnd.randrange(12)))
            with self.subTest(seed=seed, pattern=pattern, text=text):
                mine, first = lazydfa.Regex(pattern).search(text), re.search(pattern, text)
                self.assertEqual(mine and mine.span(), first and first.span())
                if not is_empty:
                    self.assertEqual(spans_of(lazydfa.Regex(pattern), text), spans_of(re.compile(pattern), text))

    def test_groups_of_text(self):
        for seed in range(SEEDS // 2):
            rnd = random.Random(seed)
            pattern, is_empty = random_pattern(rnd, 5)
            pattern = rnd.choice(["", "", "", "^"]) + named(pattern, rnd) + rnd.choice(["", "", "", "$"])
            regex, peer = lazydfa.Regex(pattern), re.compile(pattern)
            self.assertEqual((regex.groups, dict(regex.groupindex)), (peer.groups, dict(peer.groupindex)))
            for _ in range(3):
                text, template, count = random_text(rnd), rnd.choice(TEMPLATES), rnd.randrange(3)
                with self.subTest(seed=seed, pattern=pattern, text=text, template=template):
                    mine, first = regex.search(text), peer.search(text)
                    self.assertEqual(groups_of(mine), groups_of(first))
                    if first:
                        self.assertEqual(outcome(mine.expand, template), outcome(first.expand, template))
                    # The two continue differently after an empty match.
                    if is_empty:
                        continue
                    every, wanted = regex.finditer(text), peer.finditer(text)
                    self.assertEqual([groups_of(it) for it in every], [groups_of(it) for it in wanted])
                    self.assertEqual(
                        outcome(regex.subn, template, text, count), outcome(peer.subn, template, text, count)
                    )
                    self.assertEqual(regex.split(text, count), peer.split(text, count))

    def test_groups_of_bytes(self):
        for seed in range(SEEDS // 4):
            rnd = random.Random(seed)
            pattern, is_empty = random_pattern(rnd, 4)
            pattern = named(pattern, rnd).replace("é", "d").replace("☃", "e").encode()
            text = bytes(rnd.choice(b"abcde\xff\x80") for _ in range(rnd.randrange(12)))
            template = rnd.choice(TEMPLATES).encode("latin-1")
            with self.subTest(seed=seed, pattern=pattern, text=text):
                mine, first = lazydfa.Regex(pattern), re.compile(pattern)
                self.assertEqual(groups_of(mine.search(text)), groups_of(first.search(text)))
                if not is_empty:
                    self.assertEqual(outcome(mine.sub, template, text), outcome(first.sub, template, text))
                    self.assertEqual(mine.split(text), first.split(text))

    def test_templates(self):
        pattern, text = "(?P<x>a)(b)?", "-ab-a-"
        regex, peer = lazydfa.Regex(pattern), re.compile(pattern)
        for seed in range(SEEDS):
            rnd = random.Random(seed)
            every = ["\\", "\\", "g<", ">", "x", "0", "1", "2", "3", "7", "n", "q", ".", "é", "\\g<x>", "\\g<1>"]
            template = "".join(rnd.choice(every) for _ in range(rnd.randrange(8)))
            with self.subTest(template=template):
                mine, wanted = outcome(regex.sub, template, text), outcome(peer.sub, template, text)
                is_refused = not isinstance(wanted, str) or "-" not in wanted
                self.assertTrue(mine == wanted or (is_refused and "-" not in mine), (mine, wanted))

    def test_sets(self):
        for seed in range(SEEDS // 10):
            rnd = random.Random(seed)
            patterns = [random_pattern(rnd, 3)[0] for _ in range(rnd.randrange(8))]
            regexes, text = lazydfa.RegexSet(patterns), random_text(rnd)
            with self.subTest(seed=seed, patterns=patterns, text=text):
                wanted = [at for at, it in enumerate(patterns) if re.search(it, text)]
                self.assertEqual(regexes.which(text), wanted)
                self.assertEqual(regexes.is_match(text), bool(wanted))


class Worked(unittest.TestCase):
    def test_documentation(self):
        found = doctest.testmod(lazydfa, extraglobs={"lazydfa": lazydfa})
        self.assertEqual(found.failed, 0)
        self.assertGreater(found.attempted, 0)

    def test_more_matches_than_one_call_writes(self):
        text = "é1" * 3000
        self.assertEqual(spans_of(lazydfa.Regex("[0-9]"), text), [(2 * n + 1, 2 * n + 2) for n in range(3000)])

    def test_an_iteration_that_stops_gives_its_cache_back(self):
        regex = lazydfa.Regex("a")
        for _ in range(3):
            self.assertEqual(next(regex.finditer("xa")).span(), (1, 2))
        self.assertEqual(len(regex._caches), 1)

    def test_several_patterns(self):
        found = lazydfa.Regex(["[a-z]+", "[0-9]+"]).finditer("ab 12")
        self.assertEqual([(it.pattern, it.group()) for it in found], [(0, "ab"), (1, "12")])

    def test_split_and_sub(self):
        regex = lazydfa.Regex(r"\s*,\s*")
        self.assertEqual(regex.split("é , b,c"), ["é", "b", "c"])
        self.assertEqual(regex.sub("; ", "é , b,c"), "é; b; c")
        self.assertEqual(lazydfa.Regex(b"[0-9]").sub(lambda it: it.group() * 2, b"a1b2"), b"a11b22")

    def test_groups(self):
        regex = lazydfa.Regex("(?P<key>é+)=(?P<value>[0-9]*)(;)?")
        found = list(regex.finditer("é=12;☃éé="))
        self.assertEqual([it.group("key", 2, 3) for it in found], [("é", "12", ";"), ("éé", "", None)])
        self.assertEqual([it.span("value") for it in found], [(2, 4), (9, 9)])
        self.assertEqual((found[1].span(3), found[1].start("key"), found[1]["key"]), ((-1, -1), 6, "éé"))
        self.assertEqual(found[0].groupdict(), {"key": "é", "value": "12"})
        self.assertEqual((regex.groups, dict(regex.groupindex)), (3, {"key": 1, "value": 2}))
        self.assertIs(found[0].re, regex)
        for wrong in (4, -1, "other"):
            with self.assertRaisesRegex(IndexError, "no such group"):
                found[0].group(wrong)
        with self.assertRaises(TypeError):
            found[0].group(1.0)
        self.assertEqual(regex.sub(r"\g<value>\1", "é=12;☃éé="), "12é☃éé")
        self.assertEqual(regex.subn(lambda it: it["key"], "é=1é=2é=3", 2), ("ééé=3", 2))
        self.assertEqual(lazydfa.Regex("(,)|;").split("a,b;c", 1), ["a", ",", "b;c"])
        self.assertEqual(found[0].expand("<\\3>"), "<;>")

    def test_groups_of_several_patterns(self):
        regex = lazydfa.Regex(["(?P<word>[a-z]+)(-)?", "(?P<number>[0-9])(?P<word>x)?", "!"])
        found = list(regex.finditer("ab- 1x 2 !"))
        self.assertEqual([it.groups() for it in found], [("ab", "-"), ("1", "x"), ("2", None), ()])
        self.assertEqual(found[2].groupdict(), {"number": "2", "word": None})
        self.assertEqual(regex.sub(r"<\g<word>\2>", "ab- 1x 2 !"), "<ab-> <xx> <> <>")
        self.assertEqual((regex.groups, dict(regex.groupindex)), (2, {"word": 1}))
        self.assertEqual((lazydfa.Regex([]).groups, lazydfa.Regex([]).split("a")), (0, ["a"]))

    def test_errors_of_templates(self):
        regex = lazydfa.Regex("(a)")
        for wrong in (r"\2", r"\q", "\\", r"\g<1", r"\g<-1>", r"\400"):
            with self.assertRaises(lazydfa.TemplateError):
                regex.sub(wrong, "b")
        with self.assertRaises(IndexError):
            regex.sub(r"\g<x>", "b")
        with self.assertRaises(TypeError):
            regex.sub(b"x", "a")

    def test_groups_on_threads(self):
        regex, text, found = lazydfa.Regex(r"(\pL+)([0-9])"), "né1 " * 200, []

        def search():
            found.append([it.group(2, 1) for it in regex.finditer(text)])

        threads = [threading.Thread(target=search) for _ in range(4)]
        for it in threads:
            it.start()
        for it in threads:
            it.join()
        self.assertEqual(found, [[("1", "né")] * 200] * 4)

    def test_groups_without_memory(self):
        program = """if 1:
            import lazydfa, resource
            match = lazydfa.Regex(r"(\\w{60})?(a)").search("xa")
            used = 4096 * int(open("/proc/self/statm").read().split()[0])
            soft, hard = resource.getrlimit(resource.RLIMIT_AS)
            resource.setrlimit(resource.RLIMIT_AS, (used + 2_000_000, hard))
            try:
                match.group(2)
            except MemoryError:
                print("no memory", match.group())
            resource.setrlimit(resource.RLIMIT_AS, (soft, hard))
            print(match.span(2))
        """
        said = subprocess.run([sys.executable, "-c", program], capture_output=True, text=True)
        self.assertEqual((said.stdout, said.stderr), ("no memory a\n(1, 2)\n", ""))

    def test_groups_are_built_when_they_are_needed(self):
        regex = lazydfa.Regex("(a)")
        self.assertEqual((regex.sub("x", "a"), regex.search("a").span(), regex.findall("a")), ("x", (0, 1), ["a"]))
        self.assertIsNone(regex._its_groups)
        self.assertEqual(regex.search("a").group(1), "a")
        self.assertIsNotNone(regex._its_groups)

    def test_word_boundaries_against_re(self):
        rnd, pairs, beyond = random.Random(11), 0, 0
        for _ in range(WORD_PATTERNS):
            pattern = random_words(rnd)
            ours, theirs, rules = lazydfa.Regex(pattern), re.compile(pattern), lazydfa.RegexSet([pattern])
            for _ in range(WORD_TEXTS):
                # `re` finds nothing by \B in an empty text.
                text = "".join(rnd.choice(SCRIPTS) for _ in range(rnd.randrange(1, 14)))
                wanted = matches_by_re(theirs, text)
                said = pattern, text
                self.assertEqual(([it.span() for it in ours.finditer(text)], said), (wanted, said))
                first = ours.search(text)
                self.assertEqual((first and first.span(), said), (wanted[0] if wanted else None, said))
                self.assertEqual((ours.is_match(text), rules.is_match(text), said), (bool(wanted), bool(wanted), said))
                pairs, beyond = pairs + 1, beyond + (not text.isascii())
        self.assertGreaterEqual((pairs, beyond), (20000, 20000))

    def test_sets_and_tokens_with_word_boundaries_against_re(self):
        rnd, pairs, tokens = random.Random(12), 0, 0
        for _ in range(WORD_PATTERNS // 3):
            patterns = [random_words(rnd) for _ in range(3)]
            theirs = [re.compile(pattern) for pattern in patterns]
            ours = lazydfa.RegexSet(patterns)
            lexer = lazydfa.Lexer([(str(rule), pattern) for rule, pattern in enumerate(patterns)])
            for _ in range(WORD_TEXTS):
                text = "".join(rnd.choice(SCRIPTS) for _ in range(rnd.randrange(1, 14)))
                said, found, at = (patterns, text), [], None
                wanted = [rule for rule, regex in enumerate(theirs) if regex.search(text)]
                self.assertEqual((ours.which(text), said), (wanted, said))
                try:
                    found.extend((int(it.name), it.start, it.end) for it in lexer.tokens(text))
                except lazydfa.TokenError as error:
                    at = error.offset
                self.assertEqual(((found, at), said), (tokens_by_re(theirs, text), said))
                pairs, tokens = pairs + 1, tokens + len(found)
        self.assertGreaterEqual((pairs, tokens > 2000), (8000, True))

    def test_word_boundaries(self):
        regex = lazydfa.Regex(r"\b(\w+)=(\w*)\b")
        self.assertEqual([it.groups() for it in regex.finditer("ключ=знач, k=ü")], [("ключ", "знач"), ("k", "ü")])
        self.assertEqual(lazydfa.Regex(rb"\bx").findall("éx x".encode()), [b"x", b"x"])
        rules = lazydfa.RegexSet([r"\bfoo\b", "bar"])
        self.assertEqual(rules.which("foo bar"), [0, 1])
        self.assertEqual(rules.which("foo é"), [0])
        lexer = lazydfa.Lexer([("and", r"и\b"), ("name", r"\w+"), ("space", " +")])
        self.assertEqual([it.name for it in lexer.tokens("и имя и")], ["and", "space", "name", "space", "and"])

    def test_flags(self):
        self.assertTrue(lazydfa.Regex("É", case_insensitive=True).is_match("é"))
        self.assertEqual(len(lazydfa.Regex("^.", multi_line=True).findall("a\nb")), 2)
        self.assertTrue(lazydfa.Regex("a.b", dot_matches_new_line=True).is_match("a\nb"))
        self.assertTrue(lazydfa.RegexSet(["é"], case_insensitive=True).is_match("É"))

    def test_tokens(self):
        lexer = lazydfa.Lexer([("if", "if"), ("name", r"\pL+"), ("space", " +")])
        found = [(it.name, it.text, it.start, it.end) for it in lexer.tokens("if né")]
        self.assertEqual(found, [("if", "if", 0, 2), ("space", " ", 2, 3), ("name", "né", 3, 5)])
        with self.assertRaises(lazydfa.TokenError) as refused:
            list(lexer.tokens("né!"))
        self.assertEqual(refused.exception.offset, 2)

    def test_errors(self):
        with self.assertRaises(lazydfa.PatternError) as refused:
            lazydfa.RegexSet(["a", "b("])
        self.assertEqual(refused.exception.pattern, 1)
        self.assertEqual(str(refused.exception), "unclosed group\n  b(\n   ^")
        with self.assertRaises(TypeError):
            lazydfa.Regex("a").search(b"a")
        with self.assertRaises(TypeError):
            lazydfa.Regex(b"a").search("a")
        with self.assertRaises(TypeError):
            lazydfa.Regex(["a", b"a"])
        with self.assertRaises(lazydfa.PatternError):
            lazydfa.Regex(r"\w{500}", size_limit=1000)
        with self.assertRaisesRegex(lazydfa.PatternError, "cache_limit"):
            lazydfa.Regex(r"\w{50}", cache_capacity=1000)
        with self.assertRaises(UnicodeEncodeError):
            lazydfa.Regex("a").search("\ud800")

    def test_nothing_to_search_for_or_in(self):
        self.assertEqual(lazydfa.RegexSet([]).which("a"), [])
        self.assertIsNone(lazydfa.Regex([]).search("a"))
        self.assertEqual(lazydfa.Regex("").search("").span(), (0, 0))

    def test_many_rules(self):
        rules = lazydfa.RegexSet([f"w{n}.*took [0-9]+" for n in range(1000)])
        self.assertEqual(rules.which("w917 took 12 ms"), [9, 91, 917])

    def test_zeros(self):
        self.assertEqual(lazydfa.Regex("\0+").search("a\0\0b").span(), (1, 3))

    def test_threads(self):
        regex, text = lazydfa.Regex(r"\pL+[0-9]"), "né1 " * 500
        found = []

        def search():
            for _ in range(20):
                found.append(sum(1 for _ in regex.finditer(text)))

        threads = [threading.Thread(target=search) for _ in range(4)]
        for it in threads:
            it.start()
        for it in threads:
            it.join()
        self.assertEqual(found, [500] * 80)


if __name__ == "__main__":
    unittest.main()
