//! NFAs that are built state by state, for an engine with its own parser.
use crate::handle::Handle;
use crate::raw::{self, Status};
use crate::util::look::Look;
use crate::util::primitives::{PatternID, StateID};
use crate::{BuildError, BuildErrorKind};
use std::fmt;
use std::sync::{Arc, Mutex, MutexGuard, PoisonError};

/// How NFAs are built from the texts of patterns.
#[derive(Clone, Copy, Debug, Default)]
pub struct Config {
    pub(crate) size_limit: Option<Option<usize>>,
    pub(crate) bytes: bool,
}

impl Config {
    /// Returns the default settings.
    pub fn new() -> Config {
        Config::default()
    }

    /// Sets how many bytes the tables of all patterns may take while they are compiled; `None` means that
    /// there is no limit. By default it is 10 MiB.
    pub fn nfa_size_limit(mut self, bytes: Option<usize>) -> Config {
        self.size_limit = Some(bytes);
        self
    }

    /// Sets whether matches are UTF-8, so that none splits a character. By default they are. The library has
    /// one setting for this and for [`syntax::Config::utf8`](crate::util::syntax::Config::utf8): matches may
    /// be any bytes if either of the two is off.
    pub fn utf8(mut self, yes: bool) -> Config {
        self.bytes = !yes;
        self
    }
}

/// A range of bytes, both ends included, and the state that it leads to.
#[derive(Clone, Copy, Debug, PartialEq, Eq, Hash)]
pub struct Transition {
    /// The first byte of the range.
    pub start: u8,
    /// The last byte of the range.
    pub end: u8,
    /// The state that the range leads to.
    pub next: StateID,
}

/// A builder of an NFA.
///
/// States have the numbers 0, 1, 2 and so on, in the order in which they are added, and may lead to states
/// that do not exist yet. A call that fails changes nothing.
///
/// ```
/// use lazydfa::hybrid::regex::Regex;
/// use lazydfa::nfa::thompson::{Builder, Transition};
/// use lazydfa::util::primitives::StateID;
///
/// // [a-z]+: a letter, and then more letters or the match.
/// let mut builder = Builder::new();
/// builder.start_pattern()?;
/// let letter = builder.add_range(Transition { start: b'a', end: b'z', next: StateID::ZERO })?;
/// let found = builder.add_match()?;
/// let more = builder.add_union(vec![letter, found])?;
/// builder.patch(letter, more)?;
/// builder.finish_pattern(letter)?;
/// let prefix = builder.add_unanchored_prefix(letter)?;
/// let nfa = builder.build(letter, prefix);
///
/// let regex = Regex::builder().build_from_nfa(&nfa)?;
/// assert_eq!(regex.find(&mut regex.create_cache(), "12 foo").unwrap().range(), 3..6);
/// # Ok::<(), lazydfa::BuildError>(())
/// ```
pub struct Builder {
    handle: Handle,
    states: usize,
    patterns: usize,
}

impl Builder {
    /// Creates a builder without states, whose NFA is neither in UTF-8 mode nor reversed, and whose lines end
    /// in `\n`.
    ///
    /// # Panics
    ///
    /// If an allocation fails.
    #[allow(clippy::new_without_default)] // as the crate: a builder is no value of its settings
    pub fn new() -> Builder {
        let mut handle = Handle::closed();
        raw::lazydfa_builder_new(&mut handle).built().expect("a builder of an NFA");
        Builder { handle, states: 0, patterns: 0 }
    }

    /// Removes all states and patterns. The settings are kept.
    pub fn clear(&mut self) {
        raw::lazydfa_builder_clear(&mut self.handle);
        (self.states, self.patterns) = (0, 0);
    }

    /// Starts the next pattern. The match states and groups that are added until it is finished belong to it.
    pub fn start_pattern(&mut self) -> Result<PatternID, BuildError> {
        let mut id = 0;
        raw::lazydfa_start_pattern(&mut self.handle, &mut id).built()?;
        Ok(PatternID(id))
    }

    /// Finishes the pattern that was started, and sets the state in which searches for it alone start.
    pub fn finish_pattern(&mut self, start: StateID) -> Result<PatternID, BuildError> {
        let mut id = 0;
        raw::lazydfa_finish_pattern(&mut self.handle, start.0, &mut id).built()?;
        self.patterns += 1;
        Ok(PatternID(id))
    }

    /// Adds a state with a call of the library that writes its number.
    fn add(&mut self, add: impl FnOnce(&mut Handle, &mut u32) -> Status) -> Result<StateID, BuildError> {
        let mut id = 0;
        add(&mut self.handle, &mut id).built()?;
        self.states += 1;
        Ok(StateID(id))
    }

    /// Adds a state that reads nothing, and leads to state 0 until it is patched.
    pub fn add_empty(&mut self) -> Result<StateID, BuildError> {
        self.add(|builder, id| raw::lazydfa_add_empty(builder, id))
    }

    /// Adds a state that reads a byte in a range.
    pub fn add_range(&mut self, range: Transition) -> Result<StateID, BuildError> {
        let Transition { start, end, next } = range;
        self.add(|builder, id| raw::lazydfa_add_range(builder, start, end, next.0, id))
    }

    /// Adds a state that reads a byte in any of several ranges, which must be in order and must not overlap.
    pub fn add_sparse(&mut self, ranges: Vec<Transition>) -> Result<StateID, BuildError> {
        let edge = |it: &Transition| raw::Edge { lo: it.start, hi: it.end, reserved: 0, next: it.next.0 };
        let edges: Vec<raw::Edge> = ranges.iter().map(edge).collect();
        self.add(|builder, id| raw::add_sparse(builder, &edges, id))
    }

    /// Adds a state that is passed only where an assertion holds.
    pub fn add_look(&mut self, next: StateID, look: Look) -> Result<StateID, BuildError> {
        self.add(|builder, id| raw::lazydfa_add_look(builder, look as u32, next.0, id))
    }

    /// Adds a state that leads to several states, of which the first is preferred.
    pub fn add_union(&mut self, alternates: Vec<StateID>) -> Result<StateID, BuildError> {
        let ids: Vec<u32> = alternates.iter().map(|id| id.0).collect();
        self.add(|builder, id| raw::add_union(builder, &ids, id))
    }

    /// Adds a state that leads to several states, of which the last is preferred.
    pub fn add_union_reverse(&mut self, alternates: Vec<StateID>) -> Result<StateID, BuildError> {
        let ids: Vec<u32> = alternates.iter().map(|id| id.0).collect();
        self.add(|builder, id| raw::add_union_reverse(builder, &ids, id))
    }

    /// Adds a state where a group of the pattern begins. Searches do not report groups.
    pub fn add_capture_start(&mut self, next: StateID, group_index: u32) -> Result<StateID, BuildError> {
        self.add(|builder, id| raw::lazydfa_add_capture_start(builder, group_index, next.0, id))
    }

    /// Adds a state where a group of the pattern ends.
    pub fn add_capture_end(&mut self, next: StateID, group_index: u32) -> Result<StateID, BuildError> {
        self.add(|builder, id| raw::lazydfa_add_capture_end(builder, group_index, next.0, id))
    }

    /// Adds a state from which nothing matches.
    pub fn add_fail(&mut self) -> Result<StateID, BuildError> {
        self.add(|builder, id| raw::lazydfa_add_fail(builder, id))
    }

    /// Adds a match state of the pattern that was started.
    pub fn add_match(&mut self) -> Result<StateID, BuildError> {
        self.add(|builder, id| raw::lazydfa_add_match(builder, id))
    }

    /// Adds states that skip as few bytes as possible before a start state, and returns the unanchored start.
    pub fn add_unanchored_prefix(&mut self, start: StateID) -> Result<StateID, BuildError> {
        let prefix = self.add(|builder, id| raw::lazydfa_add_unanchored_prefix(builder, start.0, id))?;
        self.states += 1; // the prefix is two states
        Ok(prefix)
    }

    /// Makes a state lead to another one: a union gets one more alternate, and a state that leads to one
    /// other state is redirected.
    pub fn patch(&mut self, from: StateID, to: StateID) -> Result<(), BuildError> {
        raw::lazydfa_patch(&mut self.handle, from.0, to.0).built()
    }

    /// Sets UTF-8 mode, in which no match splits an encoded character.
    pub fn set_utf8(&mut self, yes: bool) {
        raw::lazydfa_set_utf8(&mut self.handle, yes.into());
    }

    /// Sets whether the NFA reads its haystack backward.
    pub fn set_reverse(&mut self, yes: bool) {
        raw::lazydfa_set_reverse(&mut self.handle, yes.into());
    }

    /// Sets the byte that ends a line.
    pub fn set_line_terminator(&mut self, byte: u8) {
        raw::lazydfa_set_line_terminator(&mut self.handle, byte);
    }

    /// Returns the NFA of the states that were added. If both starts are one state, every search is anchored.
    ///
    /// Whether the states form a valid NFA is checked when a DFA or a regex is built from it.
    pub fn build(self, start_anchored: StateID, start_unanchored: StateID) -> NFA {
        let starts = raw::Starts { anchored: start_anchored.0, unanchored: start_unanchored.0 };
        let Builder { handle, states, patterns } = self;
        NFA { states: Arc::new(Mutex::new(handle)), starts, state_len: states, pattern_len: patterns }
    }
}

impl fmt::Debug for Builder {
    fn fmt(&self, f: &mut fmt::Formatter<'_>) -> fmt::Result {
        let mut shown = f.debug_struct("Builder");
        shown.field("states", &self.states).field("patterns", &self.patterns).finish_non_exhaustive()
    }
}

/// An NFA, from which DFAs and regexes are built. A clone shares its states.
#[derive(Clone)]
pub struct NFA {
    states: Arc<Mutex<Handle>>,
    starts: raw::Starts,
    state_len: usize,
    pattern_len: usize,
}

impl NFA {
    /// Returns the number of finished patterns.
    pub fn pattern_len(&self) -> usize {
        self.pattern_len
    }

    /// Opens a handle on the regex of this NFA.
    pub(crate) fn open(&self, regex: &mut Handle, options: &raw::Options) -> Result<(), BuildError> {
        raw::lazydfa_regex_build(regex, &mut lock(self), self.starts, options).built()
    }

    /// Opens a handle on the regex of this NFA and of an NFA that reads backward.
    pub(crate) fn open_pair(
        &self,
        reverse: &NFA,
        regex: &mut Handle,
        options: &raw::Options,
    ) -> Result<(), BuildError> {
        if Arc::ptr_eq(&self.states, &reverse.states) {
            return Err(BuildErrorKind::Argument.into());
        }
        // The locks are taken in the same order on every thread, to avoid a deadlock.
        let (mut front, mut back);
        if Arc::as_ptr(&self.states) < Arc::as_ptr(&reverse.states) {
            front = lock(self);
            back = lock(reverse);
        } else {
            back = lock(reverse);
            front = lock(self);
        }
        let (from, to) = (self.starts, reverse.starts);
        raw::lazydfa_regex_build_pair(regex, &mut front, from, &mut back, to, options).built()
    }
}

/// Locks the handle of an NFA's states. No call panics while it holds the lock, so a poisoned lock can be
/// used.
fn lock(nfa: &NFA) -> MutexGuard<'_, Handle> {
    nfa.states.lock().unwrap_or_else(PoisonError::into_inner)
}

impl fmt::Debug for NFA {
    fn fmt(&self, f: &mut fmt::Formatter<'_>) -> fmt::Result {
        let mut shown = f.debug_struct("NFA");
        shown.field("states", &self.state_len).field("patterns", &self.pattern_len);
        shown.finish_non_exhaustive()
    }
}
