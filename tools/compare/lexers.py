"""Writes a test of crates/lexer: random rules and short texts, with the tokens that Python's re finds.

    lexers.py CASES SEED

Under `Prefer::First` a token is the first match of the first rule that matches. Under `Prefer::Longest` each end is
tried, from the text's end back: a rule matches to an end if it matches before exactly the characters that remain.
"""
import random
import re
import sys

LETTERS = "ab<é"
TEST = """//! Tokens of random rules, compared with those of Python's re.
use super::*;
use patterns::Options;
use regex_automata::tokens::TokenError;
use std::alloc::Global;
use std::fmt::Write;
use std::test::Fail;

const CASES: [(&[Rule<'static>], &str, &str, &str); %d] = [
%s];

fn shown(alloc: Global, rules: &[Rule<'_>], prefer: Prefer, text: &str) -> Result<String, Fail> {
    let lexer = Lexer::new(alloc, rules, prefer, &Options::default())?;
    let mut cache = lexer.create_cache()?;
    let mut shown = String::new(alloc);
    for item in lexer.tokens_and_gaps(&mut cache, text.as_bytes()) {
        match item {
            Ok(token) => write!(shown, "{}:{} ", token.pattern().as_usize(), token.end())?,
            Err(TokenError::NoToken(at)) => write!(shown, "?{at} ")?,
            Err(TokenError::Search(error)) => return Err(error.into()),
        }
    }
    Ok(shown)
}

#[test]
fn random_tokens(rt: HostRuntime) -> Result<(), Fail> {
    let mut wrong = String::new(rt.alloc());
    for (rules, text, first, longest) in CASES {
        for (prefer, expected) in [(Prefer::First, first), (Prefer::Longest, longest)] {
            let found = shown(rt.alloc(), rules, prefer, text)?;
            if found.as_str() != expected {
                writeln!(wrong, "{rules:?} {prefer:?} {text}: {found}, and not {expected}")?;
            }
        }
    }
    assert_eq!(rt; wrong.as_str(), "");
    Ok(())
}
"""


def pattern(depth):
    """Returns a random pattern, and whether it may match the empty string. What may is not repeated: of such rounds
    engines have different rules."""
    kind = random.random()
    if depth == 0 or kind < 0.35:
        return random.choice(["a", "b", "<", "é", "ab", "a<", "[ab]", "[^a]", "."]), False
    text, empty = pattern(depth - 1)
    if kind < 0.5:
        other = pattern(depth - 1)
        return text + other[0], empty and other[1]
    if kind < 0.68:
        other = pattern(depth - 1)
        return f"(?:{text}|{other[0]})", empty or other[1]
    if kind < 0.92:
        sign = random.choice(["?", "??"] if empty else ["*", "+", "?", "*?", "+?", "??"])
        return f"(?:{text}){sign}", empty or sign[0] != "+"
    return random.choice(["^", "$", r"\A", r"\z", r"(?-u:\b)"]) + text, empty


def compiled(rule, after=""):
    """Returns the rule as Python writes it."""
    return re.compile(f"(?:{rule})".replace(r"\z", r"\Z").replace(r"(?-u:\b)", r"(?a:\b)") + after)


def first(rules, text, at):
    """Returns the number of the first rule that matches at an offset, and where its match ends; none if it is empty."""
    found = ((number, compiled(rule).match(text, at)) for number, rule in enumerate(rules))
    number, match = next((it for it in found if it[1]), (0, None))
    return (number, match.end()) if match and match.end() > at else None


def longest(rules, text, at):
    """Returns the number of the first of the rules that match farthest from an offset, and where they end."""
    ends = ((number, end) for end in range(len(text), at, -1) for number in range(len(rules)))
    fits = lambda it: compiled(rules[it[0]], r"(?s:.){%d}\Z" % (len(text) - it[1])).match(text, at)
    return next(filter(fits, ends), None)


def tokens(find, rules, text):
    """Returns the tokens of a text, by their rules and their ends, and each offset without one."""
    at, shown = 0, ""
    while at < len(text):
        found = find(rules, text, at)
        start, at = len(text[:at].encode()), found[1] if found else at + 1
        shown += f"{found[0]}:{len(text[:at].encode())} " if found else f"?{start} "
    return shown


def main():
    """Writes the test."""
    count, seed = map(int, sys.argv[1:])
    random.seed(seed)
    rows = ""
    for _ in range(count):
        rules = [pattern(3)[0] for _ in range(random.randint(1, 4))]
        text = "".join(random.choices(LETTERS, k=random.randint(0, 7)))
        listed = ", ".join(f'Rule {{ name: "", pattern: r"{it}" }}' for it in rules)
        found = '", "'.join(tokens(it, rules, text) for it in (first, longest))
        rows += f'    (&[{listed}], "{text}", "{found}"),\n'
    print(TEST % (count, rows), end="")


main()
