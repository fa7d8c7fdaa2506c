#!/usr/bin/env python3
"""Generates what those works of works_c read whose names begin with `spans_` or `which_`:

    tools/measure/made.py FOLDER

For each of them it writes a file with the work's name: a line with the pattern, or with words between bars, followed by
4 MiB of text that looks like Russian, Chinese, JSON, source code or English. The text is always the same.
"""
import bisect
import itertools
import re
import sys

SIZE = 1 << 22
# Vowels and consonants, each as often as it occurs.
RUSSIAN = ("о" * 11 + "е" * 8 + "а" * 8 + "и" * 7 + "уууыыяяюэё",
           "н" * 7 + "т" * 6 + "с" * 5 + "р" * 5 + "в" * 5 + "л" * 4 + "кккмммдддпппггззббчйхжшцщфь")
ENGLISH = ("e" * 12 + "a" * 8 + "o" * 8 + "i" * 7 + "uuuyy",
           "t" * 9 + "h" * 6 + "n" * 7 + "s" * 6 + "r" * 6 + "llllddddcccmmmwwffggppbbvkjxqz")
# Lines of source code, with a placeholder for each name, number and word.
LINES = ["static int N(struct N *N, size_t N) {", "    int N = N + D;", "    if (N->N < D) return N(N, N);",
         "    for (size_t N = D; N < N; N++) N(N[N], D);", "    /* W W W W W. */", "    N.N = N(N, \"W W\", D);",
         "    return N;", "}", "", "#define N D"]


class Noise:
    """Pseudo-random numbers, the same as those of texts.in."""

    def __init__(self, state):
        self.state = state

    def below(self, count):
        self.state = (self.state * 1664525 + 1013904223) & 0xFFFFFFFF
        return (self.state >> 16) * count >> 16

    def one_of(self, items):
        return items[self.below(len(items))]


def word_of(noise, letters):
    """Returns a word of one to ten letters, with vowels and consonants mostly in turn."""
    kind, word = noise.below(2), ""
    for _ in range(1 + noise.below(5) + noise.below(6)):
        word += noise.one_of(letters[kind])
        kind = 1 - kind if noise.below(5) else kind
    return word


def chinese_word(noise):
    """Returns a word of one to four characters, in which those with low numbers are more frequent."""
    count = noise.one_of([1, 1, 2, 2, 2, 3, 4])
    return "".join(chr(0x4E00 + noise.below(1 + noise.below(0x51A0))) for _ in range(count))


class Words:
    """A vocabulary of 5,000 words, whose first ones are the most frequent."""

    def __init__(self, noise, make):
        made = (make(noise) for _ in itertools.count())
        self.noise, self.words = noise, list(itertools.islice(dict.fromkeys(itertools.islice(made, 20000)), 5000))
        self.sums = list(itertools.accumulate(1 / (rank + 3) for rank in range(len(self.words))))

    def one(self):
        return self.words[bisect.bisect(self.sums, self.noise.below(1 << 16) / 65536 * self.sums[-1])]

    def some(self, least, most):
        return [self.one() for _ in range(least + self.noise.below(most - least + 1))]


def sentence(words):
    """Returns 4 to 18 words, of which every fortieth is a number, with a comma after every tenth."""
    noise, said = words.noise, words.some(4, 18)
    said = [str(noise.below(2025)) if not noise.below(40) else it for it in said]
    said = [it + ("," if not noise.below(10) else "") for it in said]
    return " ".join(said).capitalize() + noise.one_of([". ", ". ", ".\n", "? "])


def chinese_sentence(words, names):
    """Returns the same without spaces; every fiftieth word is in Latin letters."""
    noise, said = words.noise, words.some(4, 18)
    said = [names.one() if not noise.below(50) else it for it in said]
    return "".join(it + ("，" if not noise.below(10) else "") for it in said) + noise.one_of(["。", "。", "。\n", "？"])


def record(words, russian):
    """Returns a JSON object, on a line."""
    noise, one = words.noise, words.one
    note = " ".join(words.some(3, 12)) + noise.one_of(["", ".", f' \\"{one()}\\"', f"\\n{one()}", f" {russian.one()}"])
    tags = ", ".join(f'"{it}"' for it in words.some(0, 4))
    return (f'{{"id": {noise.below(60000)}, "name": "{one().title()} {one().title()}", "mail": "{one()}@{one()}.com", '
            f'"price": {noise.below(1000)}.{noise.below(100):02}, "open": {noise.one_of(["true", "false", "null"])}, '
            f'"tags": [{tags}], "note": "{note}", "at": {{"x": -{noise.below(90)}.{noise.below(1000):03}, '
            f'"y": {noise.below(10)}e{noise.below(9)}}}}}\n')


def code_line(words):
    """Returns a line of source code."""
    noise, one = words.noise, words.one
    names = [one, one, lambda: f"{one()}_{one()}", lambda: f"{one()}{one().title()}", lambda: f"{one()}{noise.below(10)}"]
    numbers = [lambda: str(noise.below(100)), lambda: f"0x{noise.below(65536):x}"]
    places = {"N": lambda: noise.one_of(names)(), "D": lambda: noise.one_of(numbers)(), "W": one}
    return re.sub(r"\b[NDW]\b", lambda found: places[found[0]](), noise.one_of(LINES)) + "\n"


def text_of(make):
    """Returns as many bytes as the works read, without a character that would be cut."""
    parts, size = [], 0
    while size < SIZE:
        parts.append(make().encode())
        size += len(parts[-1])
    return b"".join(parts)[:SIZE].decode(errors="ignore").encode()


def main(folder):
    noise = Noise(6)
    english, russian = (Words(noise, lambda noise, it=it: word_of(noise, it)) for it in (ENGLISH, RUSSIAN))
    chinese = Words(noise, chinese_word)
    texts = {
        "russian": text_of(lambda: sentence(russian)),
        "chinese": text_of(lambda: chinese_sentence(chinese, english)),
        "json": text_of(lambda: record(english, russian)),
        "code": text_of(lambda: code_line(english)),
        "english": text_of(lambda: sentence(english)),
    }
    some = "|".join([it for it in english.words if len(it) >= 4][::3][:1000])
    works = {
        "spans_russian": (r"(?i)[а-яё]+", "russian"),
        "spans_letters": (r"\pL+", "russian"),
        "spans_han": (r"\p{Han}+", "chinese"),
        "spans_chinese": (r"\pL+", "chinese"),
        "spans_json": (r'"(?:[^"\\]|\\.)*"|-?[0-9]+(?:\.[0-9]+)?(?:[eE][+-]?[0-9]+)?', "json"),
        "spans_code": (r"[A-Za-z_][0-9A-Za-z_]*", "code"),
        "spans_words": (some, "english"),
        "which_words": (some, "english"),
    }
    for name, (pattern, text) in works.items():
        with open(f"{folder}/{name}", "wb") as it:
            it.write(pattern.encode() + b"\n" + texts[text])


if __name__ == "__main__":
    main(*sys.argv[1:])
