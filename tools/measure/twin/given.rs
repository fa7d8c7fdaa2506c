//! Works over texts that made.py writes: standard input has the pattern, or words between bars, in its first line. Here
//! are those whose automata are small, or of words.

use std::io::Read;

use crate::dfa::Config;
use crate::nfa::Draft;
use crate::{Regex, Searcher, Told, count_marks, count_spans, timed, words_of};

/// The bytes that a cache may account for.
const CAPACITY: usize = 1 << 26;

/// The first line of standard input, and the text after it.
fn given() -> Option<(Vec<u8>, Vec<u8>)> {
    let mut line = Vec::new();
    std::io::stdin().read_to_end(&mut line).ok()?;
    let mut text = line.split_off(line.iter().position(|byte| *byte == b'\n')?);
    text.remove(0);
    Some((line, text))
}

/// `(?i)[а-яё]+`, without the letters of other alphabets that have the same capitals. A letter has two bytes.
fn russian(back: bool) -> Draft {
    let mut draft = Draft::default();
    draft.go_to(vec![1, 4]);
    for (first, second) in [(0xD0, [(0x81, 0x81), (0x90, 0xBF)]), (0xD1, [(0x80, 0x8F), (0x91, 0x91)])] {
        if back {
            draft.read_one_of(&second);
            draft.read(first, first);
        } else {
            draft.read(first, first);
            draft.read_one_of(&second);
        }
        if draft.len() == 3 {
            draft.go_to(vec![6]);
        }
    }
    draft.again(0);
    draft.accept(0);
    draft
}

/// `[A-Za-z_][0-9A-Za-z_]*`.
fn name(back: bool) -> Draft {
    const FIRST: &[(u8, u8)] = &[(b'A', b'Z'), (b'_', b'_'), (b'a', b'z')];
    const OTHER: &[(u8, u8)] = &[(b'0', b'9'), (b'A', b'Z'), (b'_', b'_'), (b'a', b'z')];
    let mut draft = Draft::default();
    if !back {
        draft.read_one_of(FIRST);
    }
    let others = draft.len();
    draft.go_to(vec![others + 1, others + 3]);
    draft.read_one_of(OTHER);
    draft.go_to(vec![others]);
    if back {
        draft.read_one_of(FIRST);
    }
    draft.accept(0);
    draft
}

fn spans(draft: fn(bool) -> Draft) -> Option<Told> {
    let config = Config { capacity: CAPACITY, ..Config::default() };
    let forward = Searcher::new(draft(false).build(), config);
    let back = Searcher::new(draft(true).build(), Config { all: true, capacity: CAPACITY, ..Config::default() });
    let (_, text) = given()?;
    let mut regex = Regex { forward, back };
    Some(timed(|| count_spans(&mut regex, &text)))
}

/// Which of the words the lines have, line by line.
fn which() -> Option<Told> {
    let (words, text) = given()?;
    let words = words.split(|byte| *byte == b'|').map(<[u8]>::to_vec).collect::<Vec<_>>();
    let mut marks = vec![false; words.len()];
    let config = Config { all: true, capacity: CAPACITY, ..Config::default() };
    let mut searcher = Searcher::new(words_of(words.into_iter()).build(), config);
    let mut found = |line: &[u8]| {
        marks.fill(false);
        searcher.which(line, &mut marks);
        count_marks(&marks)
    };
    Some(timed(|| text.split(|byte| *byte == b'\n').map(&mut found).sum()))
}

pub(crate) fn measure(work: &str) -> Option<Told> {
    match work {
        "spans_russian" => spans(russian),
        "spans_code" => spans(name),
        "which_words" => which(),
        _ => None,
    }
}
