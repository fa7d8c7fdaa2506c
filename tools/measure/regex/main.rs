//! The works of from_c.c by the Rust crate regex, over its interface for bytes: for each name of a work what was counted,
//! and the microseconds of the processor.

use regex::bytes::{Regex, RegexBuilder, RegexSet};
use std::env;
use std::io::{self, Read};

const SIZE: usize = 1 << 24;
const DATES: usize = 100 << 20;
const SEARCHES: usize = 1 << 20;
const LINES: usize = 200_000;
const MEMORY: usize = 1 << 26;
const LINE: &str = "aorax then some other text eoreX and more eorex of it, then gorgx and more morm";

unsafe extern "C" {
    safe fn clock() -> i64;
}

struct Noise(u32);

impl Noise {
    fn below(&mut self, count: u32) -> u32 {
        self.0 = self.0.wrapping_mul(1664525).wrapping_add(1013904223);
        ((self.0 >> 16) * count) >> 16
    }
}

/// Lines of ten words, of which every tenth ends in a date.
fn dated() -> Vec<u8> {
    let mut noise = Noise(5);
    let mut text = Vec::new();
    let mut line = 0;
    while text.len() < DATES {
        for _ in 0..10 {
            for _ in 0..noise.below(8) + 2 {
                text.push(b'a' + noise.below(26) as u8);
            }
            text.push(b' ');
        }
        line += 1;
        if line % 10 == 0 {
            let (year, month, day) = (noise.below(90) + 10, noise.below(12) + 1, noise.below(28) + 1);
            text.extend(format!("20{year:02}-{month:02}-{day:02}").bytes());
        }
        text.push(b'\n');
    }
    text.truncate(DATES);
    text
}

fn regex(pattern: &str) -> Regex {
    RegexBuilder::new(pattern).unicode(false).build().expect("the pattern is right")
}

/// How many lines have a match: after one, the search goes on in the next line.
fn lines(found: &Regex, text: &[u8]) -> usize {
    let (mut count, mut at) = (0, 0);
    while let Some(end) = found.shortest_match_at(text, at) {
        count += 1;
        at = text[end..].iter().position(|byte| *byte == b'\n').map_or(text.len(), |line| end + line + 1);
    }
    count
}

/// Words of five letters, twenty of them.
fn words() -> RegexSet {
    let words = (b'a'..b'u').map(char::from).map(|letter| format!("{letter}or{letter}x"));
    RegexSet::new(words).expect("the words are right")
}

/// What made.py writes is on standard input: a pattern in the first line, and a text.
fn given() -> (String, String) {
    let mut all = String::new();
    io::stdin().read_to_string(&mut all).expect("standard input is text");
    let (line, text) = all.split_once('\n').expect("the text has a line before it");
    (line.into(), text.into())
}

/// Not inlined, so that its instructions can be counted by themselves.
#[inline(never)]
fn run(count: impl FnOnce() -> usize) -> usize {
    count()
}

fn tell(work: &str, count: impl FnOnce() -> usize) {
    let start = clock();
    let count = run(count);
    println!("{work} {count} {}", clock() - start);
}

fn main() {
    for work in env::args().skip(1) {
        match work.as_str() {
            "dates" => {
                let (date, text) = (regex("[0-9]{4}-[0-9]{2}-[0-9]{2}"), dated());
                tell(&work, || lines(&date, &text));
            }
            "dense" => {
                let (word, text) = (regex("[a-z]+"), "word ".repeat(SIZE / 5));
                tell(&work, || word.find_iter(text.as_bytes()).count());
            }
            "short" => {
                let digits = regex("[0-9]{4}");
                tell(&work, || (0..SEARCHES).filter(|_| digits.is_match(b"ab1cd23efghi 456")).count());
            }
            "sets" => {
                let set = words();
                tell(&work, || (0..LINES).map(|_| set.matches(LINE.as_bytes()).iter().count()).sum());
            }
            name if name.starts_with("spans_") => {
                let (pattern, text) = given();
                let built = RegexBuilder::new(&pattern).size_limit(MEMORY).dfa_size_limit(MEMORY).build();
                let found = built.expect("the pattern is right");
                tell(&work, || found.find_iter(text.as_bytes()).count());
            }
            _ => println!("{work} -"),
        }
    }
}
