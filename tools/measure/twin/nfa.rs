//! An NFA, and the draft that the works build it from.

pub(crate) const LOOK_START: u32 = 1;
pub(crate) const LOOK_END: u32 = 2;
pub(crate) const LOOK_START_LF: u32 = 4;
pub(crate) const LOOK_END_LF: u32 = 8;
pub(crate) const LOOK_WORD: u32 = 64;

pub(crate) enum Node {
    Range(u8, u8, u32),
    Sparse(Vec<(u8, u8, u32)>),
    Look(u32, u32),
    Union(Vec<u32>),
    Fail,
    Match(u32),
}

pub(crate) struct Nfa {
    pub(crate) nodes: Vec<Node>,
    pub(crate) anchored: u32,
    pub(crate) unanchored: u32,
    pub(crate) patterns: usize,
    pub(crate) looks: u32,
}

/// The nodes of an NFA, one after another.
#[derive(Default)]
pub(crate) struct Draft {
    nodes: Vec<Node>,
    starts: Vec<u32>,
}

impl Draft {
    pub(crate) fn len(&self) -> u32 {
        self.nodes.len() as u32
    }

    /// Reads one byte of a range, and goes on at the next node.
    pub(crate) fn read(&mut self, lo: u8, hi: u8) {
        self.nodes.push(Node::Range(lo, hi, self.len() + 1));
    }

    /// Reads one byte of some range, and goes on at the next node.
    pub(crate) fn read_one_of(&mut self, ranges: &[(u8, u8)]) {
        let next = self.len() + 1;
        self.nodes.push(Node::Sparse(ranges.iter().map(|(lo, hi)| (*lo, *hi, next)).collect()));
    }

    /// Goes on at the next node if the look holds.
    pub(crate) fn look(&mut self, look: u32) {
        self.nodes.push(Node::Look(look, self.len() + 1));
    }

    /// Goes on at a node, or else at the next one.
    pub(crate) fn again(&mut self, from: u32) {
        self.nodes.push(Node::Union(vec![from, self.len() + 1]));
    }

    /// Goes on at one of these nodes, the first ones preferred.
    pub(crate) fn go_to(&mut self, nodes: Vec<u32>) {
        self.nodes.push(Node::Union(nodes));
    }

    /// The match of the next pattern, which begins at a node.
    pub(crate) fn accept(&mut self, start: u32) {
        self.nodes.push(Node::Match(self.starts.len() as u32));
        self.starts.push(start);
    }

    /// Adds a start that prefers the patterns, and else reads a byte.
    #[inline(never)]
    pub(crate) fn build(self) -> Nfa {
        let Draft { mut nodes, starts } = self;
        let anchored = nodes.len() as u32;
        let (unanchored, patterns) = (anchored + 1, starts.len());
        nodes.push(Node::Union(starts));
        nodes.push(Node::Union(vec![anchored, unanchored + 1]));
        nodes.push(Node::Range(0, 255, unanchored));
        let looks =
            nodes.iter().fold(0, |looks, node| if let Node::Look(look, _) = node { looks | look } else { looks });
        Nfa { nodes, anchored, unanchored, patterns, looks }
    }
}
