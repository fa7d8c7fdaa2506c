//! A lazy DFA: its byte classes, and the accounting of its cache, which is the library's.

use crate::nfa::{LOOK_END_LF, LOOK_START_LF, LOOK_WORD, Nfa, Node};

#[derive(Clone, Copy)]
pub(crate) struct Config {
    /// All matches, not the leftmost-first one.
    pub(crate) all: bool,
    pub(crate) byte_classes: bool,
    pub(crate) capacity: usize,
}

impl Default for Config {
    fn default() -> Config {
        Config { all: false, byte_classes: true, capacity: 2 << 20 }
    }
}

pub(crate) struct Dfa {
    pub(crate) nfa: Nfa,
    pub(crate) classes: [u8; 256],
    /// The class of the end of the haystack, one more than those of bytes.
    pub(crate) end: usize,
    pub(crate) stride2: u32,
    pub(crate) all: bool,
    /// The effective capacity: the minimum where the configured one is less.
    pub(crate) capacity: usize,
    /// The accounted bytes of a cache without states.
    pub(crate) fixed: usize,
}

impl Dfa {
    pub(crate) fn new(nfa: Nfa, config: Config) -> Dfa {
        let (classes, end) = classes(&nfa, config.byte_classes);
        let stride2 = (end + 1).next_power_of_two().trailing_zeros();
        let room =
            |node: &Node| if let Node::Union(alternates) = node { alternates.len().saturating_sub(1) } else { 0 };
        let (states, stack) = (nfa.nodes.len(), nfa.nodes.iter().map(room).sum::<usize>() + 1);
        let greatest = 13 + 4 * nfa.patterns + 5 * states;
        let fixed = (12 << stride2) + 155 + 16 * states + 4 * stack + greatest;
        let minimum = fixed + 14 * ((4 << stride2) + 36 + greatest);
        Dfa { nfa, classes, end, stride2, all: config.all, capacity: config.capacity.max(minimum), fixed }
    }
}

/// The class of each byte, and that of the end.
fn classes(nfa: &Nfa, few: bool) -> ([u8; 256], usize) {
    let mut last = [!few; 256];
    let mut cut = |lo: u8, hi: u8| {
        if lo > 0 {
            last[lo as usize - 1] = true;
        }
        last[hi as usize] = true;
    };
    for node in &nfa.nodes {
        match node {
            Node::Range(lo, hi, _) => cut(*lo, *hi),
            Node::Sparse(ranges) => ranges.iter().for_each(|range| cut(range.0, range.1)),
            _ => {}
        }
    }
    if nfa.looks & (LOOK_START_LF | LOOK_END_LF) != 0 {
        cut(b'\n', b'\n');
    }
    if nfa.looks & LOOK_WORD != 0 {
        [(b'0', b'9'), (b'A', b'Z'), (b'_', b'_'), (b'a', b'z')].iter().for_each(|range| cut(range.0, range.1));
    }
    let mut classes = [0; 256];
    for byte in 1..256 {
        classes[byte] = classes[byte - 1] + u8::from(last[byte - 1]);
    }
    (classes, classes[255] as usize + 1)
}
