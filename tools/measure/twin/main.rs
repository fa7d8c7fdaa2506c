//! The works of measure.in by a lean lazy DFA of the library's design in unchecked Rust: it keeps no progress, and has no
//! quit bytes, no modes but the anchored one, and no limits.

// Some looks are in no work. They are here so that it is asked for them, as the library is.
#![allow(dead_code)]

mod cache;
mod dfa;
mod given;
mod mixed;
mod nfa;
mod search;

use std::iter;
use std::time::Duration;

use crate::cache::Cache;
use crate::dfa::{Config, Dfa};
use crate::nfa::{Draft, Nfa};

const SIZE: usize = 1 << 24;

/// A byte of a range, so many times.
fn times(count: usize, lo: u8, hi: u8) -> Draft {
    let mut draft = Draft::default();
    (0..count).for_each(|_| draft.read(lo, hi));
    draft.accept(0);
    draft
}

/// `[0-9]{4}`.
fn digits() -> Draft {
    times(4, b'0', b'9')
}

/// `[a-z]+`, which reads the same backward.
fn letters() -> Draft {
    let mut draft = Draft::default();
    draft.read(b'a', b'z');
    draft.again(0);
    draft.accept(0);
    draft
}

/// `a[ab]{11}c`.
fn blown() -> Draft {
    let mut draft = Draft::default();
    draft.read(b'a', b'a');
    (0..11).for_each(|_| draft.read(b'a', b'b'));
    draft.read(b'c', b'c');
    draft.accept(0);
    draft
}

fn words_of(words: impl Iterator<Item = Vec<u8>>) -> Draft {
    let mut draft = Draft::default();
    for word in words {
        let start = draft.len();
        word.iter().for_each(|byte| draft.read(*byte, *byte));
        draft.accept(start);
    }
    draft
}

/// Twenty words of five letters, a pattern each.
fn words() -> Draft {
    words_of((b'a'..b'u').map(|first| vec![first, b'o', b'r', first, b'x']))
}

/// Letters that look random, the same ones in each program.
fn noise(mut state: u32) -> impl Iterator<Item = u8> {
    iter::repeat_with(move || {
        state = state.wrapping_mul(1_664_525).wrapping_add(1_013_904_223);
        b'a' + (state >> 28) as u8
    })
}

/// Words of six letters, a pattern each.
fn random_words(count: usize) -> Draft {
    let mut letters = noise(1);
    words_of((0..count).map(|_| letters.by_ref().take(6).collect()))
}

fn random_text(size: usize) -> Vec<u8> {
    noise(2).take(size).collect()
}

fn two_letters(size: usize) -> Vec<u8> {
    noise(2).take(size).map(|letter| if letter < b'i' { b'a' } else { b'b' }).collect()
}

/// As many bytes of a piece, again and again, as fit.
fn text_of(piece: &[u8], size: usize) -> Vec<u8> {
    piece.repeat(size / piece.len())
}

/// How often a text of a size is searched.
fn turns(size: usize) -> usize {
    (SIZE / size).max(1)
}

/// A DFA, and a cache of its own.
struct Searcher {
    dfa: Dfa,
    cache: Cache,
}

impl Searcher {
    #[inline(never)]
    fn new(nfa: Nfa, config: Config) -> Searcher {
        let dfa = Dfa::new(nfa, config);
        let cache = dfa.cache();
        Searcher { dfa, cache }
    }

    /// The end of the first match from an offset on.
    #[inline(never)]
    fn end_from(&mut self, text: &[u8], at: usize) -> Option<usize> {
        self.dfa.find_fwd(&mut self.cache, text, at).map(|(_, end)| end)
    }

    #[inline(never)]
    fn start_of(&mut self, text: &[u8]) -> Option<usize> {
        self.dfa.find_rev(&mut self.cache, text, 0, text.len(), false)
    }

    #[inline(never)]
    fn which(&mut self, line: &[u8], marks: &mut [bool]) {
        self.dfa.which(&mut self.cache, line, marks);
    }
}

/// Two searchers, forward and backward, which find spans.
struct Regex {
    forward: Searcher,
    back: Searcher,
}

/// How many spans a text has.
#[inline(never)]
fn count_spans(regex: &mut Regex, text: &[u8]) -> usize {
    let Regex { forward, back } = regex;
    let (mut count, mut at) = (0, 0);
    while let Some((_, end)) = forward.dfa.find_fwd(&mut forward.cache, text, at) {
        let start = back.dfa.find_rev(&mut back.cache, text, at, end, true);
        count += usize::from(start.is_some());
        at = if start == Some(end) { end + 1 } else { end };
    }
    count
}

/// What a work has counted, and its time.
type Told = (usize, Duration);

#[repr(C)]
struct TimeSpec {
    seconds: i64,
    nanoseconds: i64,
}

unsafe extern "C" {
    fn clock_gettime(clock: i32, time: *mut TimeSpec) -> i32;
}

/// The time of the processor that the program took.
fn now() -> Duration {
    const PROCESS_CPU_TIME: i32 = 2;
    let mut time = TimeSpec { seconds: 0, nanoseconds: 0 };
    // SAFETY: the time is written to, and read afterwards.
    unsafe { clock_gettime(PROCESS_CPU_TIME, &mut time) };
    Duration::new(time.seconds as u64, time.nanoseconds as u32)
}

fn timed(work: impl FnOnce() -> usize) -> Told {
    let start = now();
    let count = work();
    (count, now() - start)
}

/// Adds the bytes to a sum: a pass over memory that does nothing else. What it begins with keeps it in a loop.
#[inline(never)]
fn sum_of(text: &[u8], begin: usize) -> usize {
    text.iter().fold(begin, |sum, byte| sum + usize::from(*byte))
}

fn memory(size: usize) -> Told {
    let text = text_of(ONE_STATE, size);
    timed(|| (0..turns(size)).fold(0, |sum, _| sum_of(&text, sum)))
}

/// How many matches are found, where each search begins at the end of the match before.
fn count_ends(searcher: &mut Searcher, text: &[u8]) -> usize {
    let mut next = |&end: &usize| searcher.end_from(text, end);
    iter::successors(next(&0), &mut next).count()
}

/// The ends of all matches in a text of a size.
fn forward(piece: &[u8], size: usize) -> Told {
    let mut searcher = Searcher::new(digits().build(), Config::default());
    let text = text_of(piece, size);
    timed(|| (0..turns(size)).map(|_| count_ends(&mut searcher, &text)).sum())
}

/// Reads back over text without a match.
fn backward(piece: &[u8]) -> Told {
    let mut searcher = Searcher::new(digits().build(), Config::default());
    let text = text_of(piece, SIZE);
    timed(|| usize::from(searcher.start_of(&text).is_some()))
}

/// All spans of runs of letters.
fn spans(piece: &[u8], size: usize) -> Told {
    let forward = Searcher::new(letters().build(), Config::default());
    let back = Searcher::new(letters().build(), Config { all: true, ..Config::default() });
    let mut regex = Regex { forward, back };
    let text = text_of(piece, size);
    timed(|| (0..turns(size)).map(|_| count_spans(&mut regex, &text)).sum())
}

/// A million haystacks of one text.
fn short(text: &[u8]) -> Told {
    let mut searcher = Searcher::new(digits().build(), Config::default());
    timed(|| (0..1 << 20).filter(|_| searcher.end_from(text, 0).is_some()).count())
}

fn count_marks(marks: &[bool]) -> usize {
    marks.iter().filter(|mark| **mark).count()
}

/// Which of twenty words a line has, line by line.
fn sets(line: &[u8]) -> Told {
    let mut searcher = Searcher::new(words().build(), Config { all: true, ..Config::default() });
    let mut marks = [false; 20];
    let mut which = || {
        marks.fill(false);
        searcher.which(line, &mut marks);
        count_marks(&marks)
    };
    timed(|| (0..200_000).map(|_| which()).sum())
}

/// Sixteen bytes that each want a new state, in the least capacity. It counts the clears.
fn tight() -> Told {
    let config = Config { byte_classes: false, capacity: 0, ..Config::default() };
    let mut searcher = Searcher::new(times(16, b'a', b'a').build(), config);
    timed(|| {
        for _ in 0..60_000 {
            searcher.end_from(b"aaaaaaaaaaaaaaaa", 0);
        }
        searcher.cache.clears
    })
}

/// A search by a new DFA and a new cache of it, again and again, with or without the time of the automaton, which begins
/// at the list of its states.
fn first(draft: impl Fn() -> Draft, text: &[u8], turns: usize, whole: bool) -> Told {
    first_in(Config::default().capacity, draft, text, turns, whole)
}

/// The same in a capacity.
fn first_in(capacity: usize, draft: impl Fn() -> Draft, text: &[u8], turns: usize, whole: bool) -> Told {
    let mut count = 0;
    let mut time = Duration::ZERO;
    for _ in 0..turns {
        let draft = draft();
        let mut start = now();
        let nfa = draft.build();
        if !whole {
            start = now();
        }
        let mut searcher = Searcher::new(nfa, Config { capacity, ..Config::default() });
        count += usize::from(searcher.end_from(text, 0).is_some());
        time += now() - start;
    }
    (count, time)
}

/// The first KB searched for the first end of a word, by a new DFA, a thousand words in all.
fn first_words(words: usize) -> Told {
    let capacity = if words < 10_000 { Config::default().capacity } else { 1 << 26 };
    first_in(capacity, || random_words(words), &random_text(1 << 10), (1_000 / words).max(1), false)
}

/// Which words 256 KB have, or for many words 16 KB, by a new DFA.
fn set_words(words: usize) -> Told {
    let nfa = random_words(words).build();
    let text = random_text(if words < 10_000 { 1 << 18 } else { 1 << 14 });
    let mut marks = vec![false; words];
    timed(|| {
        let mut searcher = Searcher::new(nfa, Config { all: true, capacity: 1 << 26, ..Config::default() });
        searcher.which(&text, &mut marks);
        count_marks(&marks)
    })
}

/// 4,096 states over 256 KB in a capacity, or in the least one. It counts the clears.
fn room(capacity: usize) -> Told {
    let nfa = blown().build();
    let text = two_letters(1 << 18);
    timed(|| {
        let mut searcher = Searcher::new(nfa, Config { capacity, ..Config::default() });
        searcher.end_from(&text, 0);
        searcher.cache.clears
    })
}

/// Ends a text in one of 2,048 ways: up to fifteen letters a, one of 128 bytes that occur nowhere else, and letters x.
fn end_in_byte(text: &mut Vec<u8>, number: usize) {
    let count = number % 16;
    text.extend(iter::repeat_n(b'a', count));
    text.push(0x80 | (number / 16) as u8);
    text.extend(iter::repeat_n(b'x', 15 - count));
}

/// Ends a text in the twelve binary digits of a number, an a for each 0 and a b for each 1.
fn end_in_digits(text: &mut Vec<u8>, number: usize) {
    text.extend((0..12).rev().map(|digit| if number >> digit & 1 == 0 { b'a' } else { b'b' }));
}

/// Texts of a size that begin alike: all of them, or the first one again and again.
fn endings(size: usize, digits: bool, differ: bool) -> Told {
    let (nfa, piece): (_, &[u8]) =
        if digits { (blown().build(), b"aababbab") } else { (times(16, b'a', b'a').build(), b"aaaaaaaaaaaaaaax") };
    let mut searcher = Searcher::new(nfa, Config { byte_classes: digits, ..Config::default() });
    let mut text = text_of(piece, size - 16);
    let alike = text.len();
    let mut finds = |number: usize| {
        text.truncate(alike);
        if digits {
            end_in_digits(&mut text, number);
        } else {
            end_in_byte(&mut text, number);
        }
        searcher.end_from(&text, 0).is_some()
    };
    timed(|| (0..2_048).filter(|&turn| finds(if differ { turn } else { 0 })).count())
}

const SHORT: &[u8] = b"in 2018, worwx and 12";

const ONE_STATE: &[u8] = b"abcdefghijklmnopqrstuvwxyz .,;-+";

const LINE: &[u8] = b"aorax then some other text eoreX and more eorex of it, then gorgx and more morm";

const OTHER: &[u8] = b"xxray then some other text yoreX and more zorez of it, then vorgx and more worm";

fn measure(work: &str) -> Option<Told> {
    Some(match work {
        "scan" => forward(ONE_STATE, SIZE),
        "turns" => forward(b"a1b2c3d4", SIZE),
        "ends" => forward(b"1234abcd", SIZE),
        "back" => backward(ONE_STATE),
        "dense" => spans(b"word ", SIZE),
        "sparse" => spans(&[&[b'.'; 232], b"wordword".as_slice()].concat(), SIZE),
        "long" => spans(b"abcdefghijklmnopqrstuvwxyz", SIZE),
        "short" => short(b"ab1cd23efghi 456"),
        "sets" => sets(LINE),
        "nosets" => sets(OTHER),
        "tight" => tight(),
        "first" => first(digits, SHORT, 20_000, false),
        "first20" => first(words, SHORT, 20_000, false),
        "whole" => first(digits, SHORT, 20_000, true),
        "whole20" => first(words, SHORT, 20_000, true),
        _ => return mixed::measure(work).or_else(|| given::measure(work)).or_else(|| grow(work)),
    })
}

/// The works whose names end in a number, with K or M for 1,024 or 1,048,576 of them.
fn grow(work: &str) -> Option<Told> {
    let (name, size) = work.split_at(work.find(|digit: char| digit.is_ascii_digit())?);
    let number = size.trim_end_matches(['K', 'M']);
    let unit = if size.ends_with('K') {
        1 << 10
    } else if size.ends_with('M') {
        1 << 20
    } else {
        1
    };
    let size = number.parse::<usize>().ok()? * unit;
    Some(match name {
        "scan" => forward(ONE_STATE, size),
        "dense" => spans(b"word ", size),
        "memory" => memory(size),
        "words" => first_words(size),
        "set" => set_words(size),
        "room" => room(size),
        "miss" => endings(size, false, true),
        "hit" => endings(size, false, false),
        "new" => endings(size, true, true),
        "leap" => endings(size, true, false),
        _ => return None,
    })
}

fn main() {
    for work in std::env::args().skip(1) {
        match measure(&work) {
            Some((count, time)) => println!("{} {} {}", work, count, time.as_micros()),
            None => println!("{work} -"),
        }
    }
}
