//! Works over texts that do not repeat: lines of a log, and running text.

use std::io::Read;

use crate::dfa::Config;
use crate::nfa::{Draft, LOOK_END, LOOK_WORD};
use crate::{Regex, SIZE, Searcher, Told, count_ends, count_spans, letters, timed};

const LEVELS: [&[u8]; 4] = [b" DEBUG ", b" INFO ", b" WARN ", b" ERROR "];

const DIGITS: &[u8] = b"0123456789";

const LETTERS: &[u8] = b"abcdefghijklmnopqrstuvwxyz";

/// Numbers that look random, the same ones in each program.
struct Noise(u32);

impl Noise {
    /// A number below a count.
    fn below(&mut self, count: usize) -> usize {
        self.0 = self.0.wrapping_mul(1_664_525).wrapping_add(1_013_904_223);
        (self.0 >> 16) as usize * count >> 16
    }

    /// Adds so many bytes, each one of these.
    fn add(&mut self, text: &mut Vec<u8>, bytes: &[u8], count: usize) {
        (0..count).for_each(|_| text.push(bytes[self.below(bytes.len())]));
    }

    /// Adds a line of a log: a time, a level, a name, and words and numbers.
    fn add_line(&mut self, text: &mut Vec<u8>) {
        for separator in [b':', b':', b'.'] {
            self.add(text, DIGITS, 2);
            text.push(separator);
        }
        self.add(text, DIGITS, 3);
        text.extend_from_slice(LEVELS[self.below(4)]);
        let letters = self.below(6) + 3;
        self.add(text, LETTERS, letters);
        let digits = self.below(3);
        self.add(text, DIGITS, digits);
        text.push(b':');
        for _ in 0..self.below(4) + 3 {
            text.push(b' ');
            let of = if self.below(2) == 0 { LETTERS } else { DIGITS };
            let count = self.below(6) + 1;
            self.add(text, of, count);
        }
        text.push(b'\n');
    }
}

/// Lines of a log.
fn log() -> Vec<u8> {
    let (mut text, mut noise) = (Vec::new(), Noise(3));
    while text.len() < SIZE {
        noise.add_line(&mut text);
    }
    text.truncate(SIZE);
    text
}

/// The lines of standard input, in one order after another.
fn running() -> Option<Vec<u8>> {
    let mut given = Vec::new();
    std::io::stdin().read_to_end(&mut given).ok()?;
    let mut lines = given.split(|byte| *byte == b'\n').collect::<Vec<_>>();
    let (mut text, mut noise) = (Vec::new(), Noise(4));
    while text.len() < SIZE {
        for at in 0..lines.len() {
            let other = at + noise.below(lines.len() - at);
            lines.swap(at, other);
        }
        for line in &lines {
            text.extend_from_slice(line);
            text.push(b'\n');
        }
    }
    text.truncate(SIZE);
    Some(text)
}

/// `[0-9]{4}-[0-9]{2}-[0-9]{2}`.
fn date() -> Draft {
    let mut draft = Draft::default();
    for count in [4, 2, 2] {
        if draft.len() > 0 {
            draft.read(b'-', b'-');
        }
        (0..count).for_each(|_| draft.read(b'0', b'9'));
    }
    draft.accept(0);
    draft
}

/// `\w+$`.
fn last_word() -> Draft {
    let mut draft = Draft::default();
    draft.read_one_of(&[(b'0', b'9'), (b'A', b'Z'), (b'_', b'_'), (b'a', b'z')]);
    draft.again(0);
    draft.look(LOOK_END);
    draft.accept(0);
    draft
}

/// `\b[0-9]+\b`, which reads the same backward.
fn numbers() -> Draft {
    let mut draft = Draft::default();
    draft.look(LOOK_WORD);
    draft.read(b'0', b'9');
    draft.again(1);
    draft.look(LOOK_WORD);
    draft.accept(0);
    draft
}

fn ends(draft: Draft, text: &[u8]) -> Told {
    let mut searcher = Searcher::new(draft.build(), Config::default());
    timed(|| count_ends(&mut searcher, text))
}

fn spans(draft: impl Fn() -> Draft, text: &[u8]) -> Told {
    let forward = Searcher::new(draft().build(), Config::default());
    let back = Searcher::new(draft().build(), Config { all: true, ..Config::default() });
    let mut regex = Regex { forward, back };
    timed(|| count_spans(&mut regex, text))
}

pub(crate) fn measure(work: &str) -> Option<Told> {
    Some(match work {
        "date" => ends(date(), &log()),
        "tail" => ends(last_word(), &log()),
        "numbers" => spans(numbers, &log()),
        "prose" => spans(letters, &running()?),
        "prosetail" => ends(last_word(), &running()?),
        _ => return None,
    })
}
