//! Lazy DFAs.
use crate::engine::Engine;
use crate::nfa::thompson::{self, NFA};
use crate::util::{start, syntax};
use crate::{raw, BuildError, HalfMatch, Input, MatchError, MatchKind, PatternSet};
use std::borrow::BorrowMut;
use std::fmt;
use std::sync::Arc;

pub use super::pieces::Pieces;
pub use super::walk::{Ends, Walk};
pub use crate::engine::Cache;

/// The settings of a lazy DFA, or of the two DFAs of a regex.
#[derive(Clone, Debug)]
pub struct Config {
    pub(crate) settings: raw::Settings,
    pub(crate) quits: Vec<u8>,
}

impl Default for Config {
    fn default() -> Config {
        // As in regex-automata, an NFA whose two starts are one state has only anchored searches.
        let settings = raw::Settings { always_anchored: 1, ..raw::Settings::default() };
        Config { settings, quits: Vec::new() }
    }
}

impl Config {
    /// Returns the default settings.
    pub fn new() -> Config {
        Config::default()
    }

    /// Sets which matches a search reports. By default it is `MatchKind::LeftmostFirst`.
    pub fn match_kind(mut self, kind: MatchKind) -> Config {
        self.settings.match_kind = (kind == MatchKind::All).into();
        self
    }

    /// Sets whether each pattern has its own start states, so that a search can be for it alone. By default
    /// it does not.
    pub fn starts_for_each_pattern(mut self, yes: bool) -> Config {
        self.settings.starts_for_each_pattern = yes.into();
        self
    }

    /// Sets whether bytes that the NFA does not distinguish share a class, which makes rows shorter. By default
    /// they do.
    pub fn byte_classes(mut self, yes: bool) -> Config {
        self.settings.no_byte_classes = (!yes).into();
        self
    }

    /// Sets whether a Unicode word boundary is decided by the DFAs alone, like an ASCII one, with every byte from
    /// 0x80 on a quit byte. By default a pattern with one is simulated in a haystack that is not ASCII, for
    /// searches of a `Regex` that are unanchored, not earliest, and end with the haystack; other searches quit at
    /// the byte. An NFA with one that a program builds itself is an error by default.
    pub fn unicode_word_boundary(mut self, yes: bool) -> Config {
        self.settings.unicode_word_boundary = yes.into();
        self
    }

    /// Sets whether a byte is a quit byte, at which a search fails. By default no byte is.
    ///
    /// # Panics
    ///
    /// If the byte is not ASCII, is set not to be a quit byte, and Unicode word boundaries are enabled, which
    /// need it.
    pub fn quit(mut self, byte: u8, yes: bool) -> Config {
        let needed = self.settings.unicode_word_boundary != 0 && !byte.is_ascii();
        assert!(yes || !needed, "Unicode word boundaries need {byte:#04X} to be a quit byte");
        self.quits.retain(|quit| *quit != byte);
        if yes {
            self.quits.push(byte);
        }
        self
    }

    /// Sets whether the IDs of start states are tagged. By default they are not.
    pub fn specialize_start_states(mut self, yes: bool) -> Config {
        self.settings.specialize_start_states = yes.into();
        self
    }

    /// Sets how many bytes a cache of each DFA may account for at most. By default it is 8 MiB, and more for
    /// large patterns: [`cache_limit`](Config::cache_limit) bounds that.
    pub fn cache_capacity(mut self, bytes: usize) -> Config {
        self.settings.cache_capacity = bytes;
        self.settings.set_zero(raw::ZERO_CACHE_CAPACITY, true);
        self
    }

    /// Sets the bytes up to which the capacity is raised for large patterns: to four times the least that a DFA
    /// needs. By default it is 256 MiB; but a capacity that is set is raised only if this limit is set too.
    pub fn cache_limit(mut self, bytes: usize) -> Config {
        self.settings.cache_limit = bytes;
        self.settings.set_zero(raw::ZERO_CACHE_LIMIT, true);
        self
    }

    /// Sets whether a capacity below the minimum is raised to it. By default it is an error.
    pub fn skip_cache_capacity_check(mut self, yes: bool) -> Config {
        self.settings.skip_cache_capacity_check = yes.into();
        self
    }

    /// Sets the number of clears after which a search may give up instead of clearing the cache once more. By
    /// default, `None`, it never gives up.
    pub fn minimum_cache_clear_count(mut self, min: Option<usize>) -> Config {
        self.settings.set_zero(raw::ZERO_CLEAR_COUNT, min.is_some());
        self.settings.minimum_cache_clear_count = min.unwrap_or(0);
        self
    }

    /// Sets the number of bytes searched per state of the cache, since its last clear, from which on a search
    /// does not give up. By default, `None`, this does not keep a search from giving up.
    pub fn minimum_bytes_per_state(mut self, min: Option<usize>) -> Config {
        self.settings.set_zero(raw::ZERO_BYTES_PER_STATE, min.is_some());
        self.settings.minimum_bytes_per_state = min.unwrap_or(0);
        self
    }

    /// Returns the options with these settings.
    pub(crate) fn options(&self) -> raw::Options<'_> {
        raw::Options::of(&self.settings, &self.quits, &raw::TextOptions::default())
    }
}

/// A builder of lazy DFAs that search forward.
#[derive(Clone, Debug, Default)]
pub struct Builder {
    config: Config,
    syntax: syntax::Config,
    thompson: thompson::Config,
}

impl Builder {
    /// Returns a builder with the default settings.
    pub fn new() -> Builder {
        Builder::default()
    }

    /// Sets the settings of the DFA.
    pub fn configure(&mut self, config: Config) -> &mut Builder {
        self.config = config;
        self
    }

    /// Sets how the texts of patterns are parsed.
    pub fn syntax(&mut self, config: syntax::Config) -> &mut Builder {
        self.syntax = config;
        self
    }

    /// Sets how the NFA is built from the texts of patterns.
    pub fn thompson(&mut self, config: thompson::Config) -> &mut Builder {
        self.thompson = config;
        self
    }

    /// Builds the DFA of a pattern.
    pub fn build(&self, pattern: &str) -> Result<DFA, BuildError> {
        self.build_many(&[pattern])
    }

    /// Builds the DFA of several patterns, each numbered by its index in the list.
    pub fn build_many<P: AsRef<str>>(&self, patterns: &[P]) -> Result<DFA, BuildError> {
        let engine = Engine::of_texts(patterns, &self.syntax, &self.thompson, &self.config, true)?;
        Ok(DFA::new_of(engine, Direction::Forward))
    }

    /// Builds the DFA of an NFA.
    pub fn build_from_nfa(&self, nfa: &NFA) -> Result<DFA, BuildError> {
        Ok(DFA::new_of(Engine::of_nfa(nfa, &self.config)?, Direction::Forward))
    }
}

/// The direction in which a DFA reads a haystack.
#[derive(Clone, Copy, Debug, PartialEq, Eq)]
pub(super) enum Direction {
    Forward,
    Reverse,
}

/// A lazy DFA: it finds one end of a match, and which patterns match.
///
/// A clone shares the DFA's data, and threads may share a DFA. A DFA that is built from texts has no reverse DFA
/// beside it, and is built in less time than a regex.
///
/// ```
/// use lazydfa::hybrid::dfa::DFA;
/// use lazydfa::{HalfMatch, Input, MatchKind, PatternSet};
///
/// let dfa = DFA::new("foo[0-9]+")?;
/// let mut cache = dfa.create_cache();
/// assert_eq!(dfa.try_search_fwd(&mut cache, &Input::new("foo12345"))?, Some(HalfMatch::must(0, 8)));
///
/// // Which of many patterns match, in one pass.
/// let config = DFA::config().match_kind(MatchKind::All);
/// let dfa = DFA::builder().configure(config).build_many(&["[a-z]+", "[0-9]+", "foo$"])?;
/// let mut set = PatternSet::new(dfa.pattern_len());
/// dfa.try_which_overlapping_matches(&mut dfa.create_cache(), &Input::new("12 foo"), &mut set)?;
/// assert!(set.is_full());
/// # Ok::<(), Box<dyn std::error::Error>>(())
/// ```
#[derive(Clone)]
pub struct DFA {
    engine: Arc<Engine>,
    direction: Direction,
}

impl DFA {
    /// Builds the DFA of a pattern, with the default settings.
    pub fn new(pattern: &str) -> Result<DFA, BuildError> {
        Builder::new().build(pattern)
    }

    /// Builds the DFA of several patterns, each numbered by its index in the list.
    pub fn new_many<P: AsRef<str>>(patterns: &[P]) -> Result<DFA, BuildError> {
        Builder::new().build_many(patterns)
    }

    /// Returns the default settings of a DFA.
    pub fn config() -> Config {
        Config::new()
    }

    /// Returns a builder of DFAs, with the default settings.
    pub fn builder() -> Builder {
        Builder::new()
    }

    /// Returns one of the two DFAs of an engine.
    pub(super) fn new_of(engine: Arc<Engine>, direction: Direction) -> DFA {
        DFA { engine, direction }
    }

    /// Returns the engine that this DFA belongs to.
    pub(super) fn engine(&self) -> &Arc<Engine> {
        &self.engine
    }

    /// Creates a fresh cache for searches with this DFA.
    ///
    /// # Panics
    ///
    /// If an allocation fails.
    pub fn create_cache(&self) -> Cache {
        self.engine.create_cache().expect("a cache of a DFA")
    }

    /// Resets a cache, of any regex, to a fresh one of this DFA.
    ///
    /// # Panics
    ///
    /// If an allocation fails.
    pub fn reset_cache(&self, cache: &mut Cache) {
        if cache.is_of(&self.engine) {
            cache.try_reset().expect("a cache of a DFA");
        } else {
            *cache = self.create_cache();
        }
    }

    /// Returns the number of patterns of the DFA.
    pub fn pattern_len(&self) -> usize {
        self.engine.pattern_len()
    }

    /// Searches for the end of the first match.
    ///
    /// # Errors
    ///
    /// If the search quits or gives up, if the anchored mode is not supported, or if an allocation fails.
    ///
    /// # Panics
    ///
    /// If the cache belongs to another regex, or the DFA is the reverse DFA of a regex.
    pub fn try_search_fwd(
        &self,
        cache: &mut Cache,
        input: &Input<'_>,
    ) -> Result<Option<HalfMatch>, MatchError> {
        self.check(cache, Direction::Forward);
        cache.find_end(input)
    }

    /// Searches for the start of the longest match that ends at the end of the span; for an earliest input,
    /// of the shortest one.
    ///
    /// # Errors
    ///
    /// As for [`DFA::try_search_fwd`].
    ///
    /// # Panics
    ///
    /// If the cache belongs to another regex, or the DFA is not the reverse DFA of a regex.
    pub fn try_search_rev(
        &self,
        cache: &mut Cache,
        input: &Input<'_>,
    ) -> Result<Option<HalfMatch>, MatchError> {
        self.check(cache, Direction::Reverse);
        cache.find_start(input)
    }

    /// Begins a search for the end of the first match in a haystack that arrives in pieces, with a cache or a
    /// `&mut` to one. An earliest search may stop at the first match that it sees.
    ///
    /// # Errors
    ///
    /// If the regex can match the empty string, but not inside a character, which is
    /// [`Skips`](crate::MatchErrorKind::Skips); if the byte before the first piece is a quit byte, which is
    /// an error at offset 0; if the search gives up, if the anchored mode is not supported, or if an
    /// allocation fails. A cache that was passed by value is then dropped.
    ///
    /// # Panics
    ///
    /// If the cache belongs to another regex, or the DFA is the reverse DFA of a regex.
    pub fn begin_pieces<C: BorrowMut<Cache>>(
        &self,
        mut cache: C,
        config: &start::Config,
        earliest: bool,
    ) -> Result<Pieces<C>, MatchError> {
        let lent = cache.borrow_mut();
        self.check(lent, Direction::Forward);
        lent.begin_pieces(config, earliest)?;
        Pieces::begun(cache)
    }

    /// Begins a walk over a haystack that arrives in pieces, which reports the ends of all overlapping
    /// matches, with a cache or a `&mut` to one. Build the DFA with `MatchKind::All`.
    ///
    /// # Errors
    ///
    /// As for [`DFA::begin_pieces`].
    ///
    /// # Panics
    ///
    /// If the cache belongs to another regex, or the DFA is the reverse DFA of a regex.
    pub fn begin_walk<C: BorrowMut<Cache>>(
        &self,
        mut cache: C,
        config: &start::Config,
    ) -> Result<Walk<C>, MatchError> {
        let lent = cache.borrow_mut();
        self.check(lent, Direction::Forward);
        lent.begin_walk(config)?;
        Ok(Walk::begun(cache))
    }

    /// Inserts the patterns that match into a set, overlapping matches included; for an earliest input, only
    /// the pattern of the first match. Build the DFA with `MatchKind::All`. A pattern that is not below the
    /// set's capacity is left out.
    ///
    /// # Errors
    ///
    /// As for [`DFA::try_search_fwd`]. The set then has the patterns that were found before the error.
    ///
    /// # Panics
    ///
    /// If the cache belongs to another regex, or the DFA is the reverse DFA of a regex.
    pub fn try_which_overlapping_matches(
        &self,
        cache: &mut Cache,
        input: &Input<'_>,
        patset: &mut PatternSet,
    ) -> Result<(), MatchError> {
        self.check(cache, Direction::Forward);
        cache.which(input, patset)
    }

    /// Appends the ends of all overlapping matches to a list. Build the DFA with `MatchKind::All`.
    ///
    /// # Errors
    ///
    /// As for [`DFA::try_search_fwd`]. The list then has the ends that were found before the error.
    ///
    /// # Panics
    ///
    /// If the cache belongs to another regex, or the DFA is the reverse DFA of a regex.
    ///
    /// ```
    /// use lazydfa::hybrid::dfa::DFA;
    /// use lazydfa::{HalfMatch, Input, MatchKind};
    ///
    /// let config = DFA::config().match_kind(MatchKind::All).quit(b';', true);
    /// let dfa = DFA::builder().configure(config).build("ab*")?;
    /// let mut ends = Vec::new();
    /// let answer = dfa.try_all_ends(&mut dfa.create_cache(), &Input::new("ab c;a"), &mut ends);
    /// assert_eq!(ends, [HalfMatch::must(0, 1), HalfMatch::must(0, 2)]);
    /// assert!(answer.is_err());
    /// # Ok::<(), lazydfa::BuildError>(())
    /// ```
    pub fn try_all_ends(
        &self,
        cache: &mut Cache,
        input: &Input<'_>,
        ends: &mut Vec<HalfMatch>,
    ) -> Result<(), MatchError> {
        self.check(cache, Direction::Forward);
        cache.all_ends(input, ends)
    }

    /// Appends the starts of all overlapping matches that end at the end of the span to a list.
    ///
    /// # Errors
    ///
    /// As for [`DFA::try_search_fwd`]. The list then has the starts that were found before the error.
    ///
    /// # Panics
    ///
    /// If the cache belongs to another regex, or the DFA is not the reverse DFA of a regex.
    pub fn try_all_starts(
        &self,
        cache: &mut Cache,
        input: &Input<'_>,
        starts: &mut Vec<HalfMatch>,
    ) -> Result<(), MatchError> {
        self.check(cache, Direction::Reverse);
        cache.all_starts(input, starts)
    }

    /// Panics unless the cache belongs to this DFA, and the DFA reads in this direction.
    fn check(&self, cache: &Cache, direction: Direction) {
        cache.check(&self.engine);
        assert!(self.direction == direction, "a {:?} DFA does not search {:?}", self.direction, direction,);
    }
}

impl fmt::Debug for DFA {
    fn fmt(&self, f: &mut fmt::Formatter<'_>) -> fmt::Result {
        let mut shown = f.debug_struct("DFA");
        shown.field("direction", &self.direction).field("patterns", &self.pattern_len());
        shown.finish_non_exhaustive()
    }
}
