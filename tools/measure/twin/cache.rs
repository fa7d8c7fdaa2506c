//! The cache of a lazy DFA, and how its states are computed: sets of NFA states behind `Rc` in a hash map, and one table
//! of tagged IDs. A match is delayed by one byte. A cache that is full is cleared.

use std::collections::HashMap;
use std::hash::{BuildHasherDefault, Hasher};
use std::mem;
use std::rc::Rc;

use crate::dfa::Dfa;
use crate::nfa::{LOOK_END, LOOK_END_LF, LOOK_START, LOOK_START_LF, LOOK_WORD, Node};

pub(crate) const UNKNOWN: u32 = 1 << 31;
pub(crate) const DEAD: u32 = 1 << 30;
pub(crate) const MATCH: u32 = 1 << 27;
pub(crate) const MAX_UNTAGGED: u32 = MATCH - 1;

/// A state's words: whether the byte before is a word byte, the looks that hold, the looks that are asked for, the
/// number of patterns, the patterns, and the NFA's states.
type State = Rc<[u32]>;

/// A set of NFA states in the order in which they were added.
#[derive(Default)]
struct Set {
    list: Vec<u32>,
    slots: Vec<u32>,
}

impl Set {
    fn new(states: usize) -> Set {
        Set { list: Vec::with_capacity(states), slots: vec![0; states] }
    }

    fn insert(&mut self, state: u32) -> bool {
        let slot = self.slots[state as usize] as usize;
        if self.list.get(slot) == Some(&state) {
            return false;
        }
        self.slots[state as usize] = self.list.len() as u32;
        self.list.push(state);
        true
    }
}

/// A short hash, which is the same in each run.
#[derive(Default)]
struct Hash(u64);

impl Hasher for Hash {
    fn write(&mut self, bytes: &[u8]) {
        for eight in bytes.chunks(8) {
            let mut word = [0; 8];
            word[..eight.len()].copy_from_slice(eight);
            self.0 = (self.0.rotate_left(5) ^ u64::from_le_bytes(word)).wrapping_mul(0x517c_c1b7_2722_0a95);
        }
    }

    fn finish(&self) -> u64 {
        self.0.rotate_left(26)
    }
}

pub(crate) struct Cache {
    pub(crate) trans: Vec<u32>,
    pub(crate) states: Vec<State>,
    ids: HashMap<State, u32, BuildHasherDefault<Hash>>,
    starts: [u32; 8],
    usage: usize,
    pub(crate) clears: usize,
    from: Set,
    into: Set,
    stack: Vec<u32>,
    words: Vec<u32>,
}

fn is_word(byte: u8) -> bool {
    byte == b'_' || byte.is_ascii_alphanumeric()
}

/// The slot of a start state, by the byte before it.
fn slot(before: Option<u8>, anchored: bool) -> usize {
    let kind = match before {
        None => 0,
        Some(b'\n') => 1,
        Some(byte) if is_word(byte) => 2,
        _ => 3,
    };
    kind + 4 * usize::from(anchored)
}

impl Dfa {
    pub(crate) fn cache(&self) -> Cache {
        let states = self.nfa.nodes.len();
        let mut cache = Cache {
            trans: Vec::new(),
            states: Vec::new(),
            ids: HashMap::default(),
            starts: [UNKNOWN; 8],
            usage: 0,
            clears: 0,
            from: Set::new(states),
            into: Set::new(states),
            stack: Vec::new(),
            words: Vec::new(),
        };
        self.clear(&mut cache);
        cache
    }

    fn clear(&self, cache: &mut Cache) {
        cache.trans.clear();
        cache.states.clear();
        cache.ids.clear();
        cache.starts = [UNKNOWN; 8];
        cache.usage = self.fixed;
        let stride = 1 << self.stride2;
        for id in [UNKNOWN, stride | DEAD] {
            cache.trans.resize(cache.trans.len() + stride as usize, id);
            cache.states.push(Rc::new([0; 4]));
        }
        cache.ids.insert(Rc::new([0; 4]), stride | DEAD);
    }

    pub(crate) fn row(&self, id: u32) -> usize {
        (id & MAX_UNTAGGED) as usize >> self.stride2
    }

    /// The accounted bytes of a state.
    fn cost(&self, words: &[u32]) -> usize {
        let patterns = words[3] as usize;
        (4 << self.stride2) + 49 + 4 * patterns + 5 * (words.len() - 4 - patterns)
    }

    fn add(&self, cache: &mut Cache, state: State) -> u32 {
        let id = cache.trans.len() as u32 | if state[3] > 0 { MATCH } else { 0 };
        cache.usage += self.cost(&state);
        cache.trans.resize(cache.trans.len() + (1 << self.stride2), UNKNOWN);
        cache.states.push(state.clone());
        cache.ids.insert(state, id);
        id
    }

    /// The IDs of a state that is kept, and of the one in `cache.words`, which is added where it is new.
    fn id_of(&self, cache: &mut Cache, kept: Option<u32>) -> (Option<u32>, u32) {
        if let Some(id) = cache.ids.get(&cache.words[..]) {
            return (kept, *id);
        }
        let mut kept = kept;
        if cache.usage + self.cost(&cache.words) > self.capacity {
            let state = kept.map(|id| cache.states[self.row(id)].clone());
            self.clear(cache);
            cache.clears += 1;
            kept = state.map(|state| self.add(cache, state));
            if let Some(id) = cache.ids.get(&cache.words[..]) {
                return (kept, *id);
            }
        }
        let state = Rc::from(&cache.words[..]);
        (kept, self.add(cache, state))
    }

    /// Adds a state of the NFA and what it reaches without a byte.
    fn close(&self, set: &mut Set, stack: &mut Vec<u32>, from: u32, looks: u32) {
        stack.push(from);
        while let Some(mut state) = stack.pop() {
            while set.insert(state) {
                match &self.nfa.nodes[state as usize] {
                    Node::Look(look, next) if looks & look != 0 => state = *next,
                    Node::Union(alternates) if !alternates.is_empty() => {
                        stack.extend(alternates[1..].iter().rev());
                        state = alternates[0];
                    }
                    _ => break,
                }
            }
        }
    }

    /// Adds the NFA's states of a set to words whose first part is there.
    fn encode(&self, set: &Set, words: &mut Vec<u32>) {
        let mut needed = 0;
        for state in &set.list {
            match &self.nfa.nodes[*state as usize] {
                Node::Union(_) | Node::Fail => continue,
                Node::Look(look, _) => needed |= look,
                _ => {}
            }
            words.push(*state);
        }
        words[2] = needed;
        if needed == 0 {
            words[1] = 0;
        }
    }

    #[inline(always)]
    pub(crate) fn start(&self, cache: &mut Cache, before: Option<u8>, anchored: bool) -> u32 {
        let id = cache.starts[slot(before, anchored)];
        if id & UNKNOWN == 0 { id } else { self.make_start(cache, before, anchored) }
    }

    #[inline(never)]
    fn make_start(&self, cache: &mut Cache, before: Option<u8>, anchored: bool) -> u32 {
        let (mut looks, mut word) = (0, 0);
        match before {
            None => looks = LOOK_START | LOOK_START_LF,
            Some(b'\n') => looks = LOOK_START_LF,
            Some(byte) => word = u32::from(is_word(byte) && self.nfa.looks & LOOK_WORD != 0),
        }
        looks &= self.nfa.looks;
        let mut set = mem::take(&mut cache.into);
        set.list.clear();
        let from = if anchored { self.nfa.anchored } else { self.nfa.unanchored };
        self.close(&mut set, &mut cache.stack, from, looks);
        cache.words.clear();
        cache.words.extend([word, looks, 0, 0]);
        self.encode(&set, &mut cache.words);
        cache.into = set;
        let (_, id) = self.id_of(cache, None);
        cache.starts[slot(before, anchored)] = id;
        id
    }

    /// Computes a transition by a byte, or by the end of the haystack.
    #[inline(never)]
    pub(crate) fn make_next(&self, cache: &mut Cache, id: u32, unit: Option<u8>) -> u32 {
        let mut from = mem::take(&mut cache.from);
        let mut into = mem::take(&mut cache.into);
        from.list.clear();
        into.list.clear();
        self.look_on(cache, &mut from, id, unit);
        let behind = if unit == Some(b'\n') { LOOK_START_LF & self.nfa.looks } else { 0 };
        let is_word = unit.is_some_and(is_word) && self.nfa.looks & LOOK_WORD != 0;
        cache.words.clear();
        cache.words.extend([u32::from(is_word), behind, 0, 0]);
        self.read(cache, &from, &mut into, unit, behind);
        self.encode(&into, &mut cache.words);
        if cache.words.len() == 4 {
            cache.words[..2].fill(0);
        }
        cache.from = from;
        cache.into = into;
        let (kept, next) = self.id_of(cache, Some(id));
        let class = unit.map_or(self.end, |byte| self.classes[byte as usize] as usize);
        cache.trans[(kept.unwrap_or(id) & MAX_UNTAGGED) as usize + class] = next;
        next
    }

    /// The NFA's states of a state, and what the looks between it and a byte add to them.
    fn look_on(&self, cache: &mut Cache, from: &mut Set, id: u32, unit: Option<u8>) {
        let state = &cache.states[self.row(id)];
        let (known, needed) = (state[1], state[2]);
        let mut have = known;
        if needed != 0 {
            match unit {
                None => have |= LOOK_END | LOOK_END_LF,
                Some(b'\n') => have |= LOOK_END_LF,
                _ => {}
            }
            if (state[0] == 1) != unit.is_some_and(is_word) {
                have |= LOOK_WORD;
            }
        }
        let members = &state[4 + state[3] as usize..];
        if needed & have & !known == 0 {
            members.iter().for_each(|member| _ = from.insert(*member));
        } else {
            members.iter().for_each(|member| self.close(from, &mut cache.stack, *member, have));
        }
    }

    /// The patterns of a set, and what its states before the cut reach by a byte.
    fn read(&self, cache: &mut Cache, from: &Set, into: &mut Set, unit: Option<u8>, looks: u32) {
        for state in &from.list {
            match &self.nfa.nodes[*state as usize] {
                Node::Match(pattern) => {
                    cache.words.push(*pattern);
                    if !self.all {
                        break;
                    }
                }
                Node::Range(lo, hi, next) => {
                    if unit.is_some_and(|byte| *lo <= byte && byte <= *hi) {
                        self.close(into, &mut cache.stack, *next, looks);
                    }
                }
                Node::Sparse(ranges) => {
                    let range = unit.and_then(|byte| ranges.iter().find(|range| range.0 <= byte && byte <= range.1));
                    if let Some(range) = range {
                        self.close(into, &mut cache.stack, range.2, looks);
                    }
                }
                _ => {}
            }
        }
        cache.words[3] = cache.words.len() as u32 - 4;
    }
}
